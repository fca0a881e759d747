/* A replicated counter at three members in one process, by muoswyld_group.h: commands, reads, a member that stops and comes back, the end of the list,
   and what is refused.
   It is C99, and C++ too. gate/try_group_c.py builds and runs it.

       counter HOST PORT        the members' addresses are HOST:PORT and the ports after it

   It prints `done`, or the first thing that is wrong, and then ends with 1. */
#include "muoswyld_group.h"

#include <pthread.h>
#include <stdio.h>
#include <stdlib.h>
#include <string.h>
#include <time.h>

/* seconds in which something must come, also where the machine has much else to do */
#define SOON 60
#define MEMBERS 3

#define WANT(condition) want((condition) ? 1 : 0, #condition, __LINE__)
#define OK(call) wanted((call), MUOSWYLD_STATUS_OK, __LINE__)
#define IS(call, wish) wanted((call), (wish), __LINE__)

static const char *host;
static int first_port;

static void want(int is_so, const char *condition, int line) {
    if (!is_so) {
        printf("counter.c, line %d: not so: %s\n", line, condition);
        exit(1);
    }
}

static void wanted(muoswyld_status status, muoswyld_status wish, int line) {
    if (status != wish) {
        printf("counter.c, line %d: %s, in place of: %s\n", line, muoswyld_status_text(status), muoswyld_status_text(wish));
        exit(1);
    }
}

/* the machine: a total, how many commands made it, and its service, if it has one already */
typedef struct {
    uint64_t total, commands;
    muoswyld_service *service;
} counter;

/* A command is one byte, which is added; 0 makes the machine fail; anything else is passed over. The answer is the total. */
static bool apply(void *context, const muoswyld_position *at, const uint8_t *command, size_t length, muoswyld_records *answer) {
    counter *own = (counter *)context;
    if (length == 1 && command[0] == 0)
        return false;
    if (length == 1 && at->number > 0)
        own->total += command[0];
    own->commands++;
    /* a machine can't call its own service */
    if (own->service != NULL)
        IS(muoswyld_service_barrier(own->service, 1), MUOSWYLD_STATUS_BUSY);
    return muoswyld_records_add(answer, (const uint8_t *)&own->total, sizeof own->total) == MUOSWYLD_STATUS_OK;
}

static bool snapshot(void *context, muoswyld_records *records) {
    counter *own = (counter *)context;
    return muoswyld_records_add(records, (const uint8_t *)&own->total, sizeof own->total) == MUOSWYLD_STATUS_OK
        && muoswyld_records_add(records, (const uint8_t *)&own->commands, sizeof own->commands) == MUOSWYLD_STATUS_OK;
}

static bool restore(void *context, const uint8_t *record, size_t length) {
    counter *own = (counter *)context;
    uint64_t *next = own->total == 0 ? &own->total : &own->commands;
    if (length != sizeof *next)
        return false;
    memcpy(next, record, length);
    return true;
}

typedef struct {
    muoswyld_group *group;
    muoswyld_service *service;
    counter own;
} member;

typedef muoswyld_status (*start)(muoswyld_config *config, muoswyld_group **group);

static muoswyld_group *started(const char *name, start how) {
    muoswyld_config *config;
    muoswyld_group *group = NULL;
    char address[64];
    int place;
    OK(muoswyld_config_new(name, "0,1,2", &config));
    for (place = 0; place < MEMBERS; place++) {
        snprintf(address, sizeof address, "%s:%d", host, first_port + place);
        OK(muoswyld_config_address(config, (uint8_t)place, address));
    }
    OK(muoswyld_config_insecure(config));
    OK(muoswyld_config_resilience(config, 1));
    OK(muoswyld_config_start_within(config, 1000 * SOON));
    if (how(config, &group) != MUOSWYLD_STATUS_OK) {
        printf("%s doesn't start: %s\n", name, muoswyld_config_error(config));
        exit(1);
    }
    muoswyld_config_free(config);
    return group;
}

static void *create(void *name) {
    return started((const char *)name, muoswyld_group_create);
}

static void serve(member *one) {
    muoswyld_machine machine;
    memset(&one->own, 0, sizeof one->own);
    machine.context = &one->own;
    machine.apply = apply;
    machine.snapshot = snapshot;
    machine.restore = restore;
    OK(muoswyld_service_new(one->group, &machine, &one->service));
    one->own.service = one->service;
}

/* The next answer of a member, while all are served. */
static muoswyld_answer next_of(member *members, member *wanted_of) {
    muoswyld_answer answer, found;
    muoswyld_status status;
    time_t ends = time(NULL) + SOON;
    int k;
    found.what = MUOSWYLD_ANSWERED_NOTHING;
    while (found.what == MUOSWYLD_ANSWERED_NOTHING) {
        WANT(time(NULL) < ends);
        for (k = 0; k < MEMBERS; k++) {
            if (members[k].service == NULL)
                continue;
            /* others have nothing to answer meanwhile */
            status = muoswyld_service_next(members[k].service, &members[k] == wanted_of ? 1 : 0, &answer);
            if (status == MUOSWYLD_STATUS_OK) {
                WANT(&members[k] == wanted_of);
                found = answer;
            } else
                WANT(status == MUOSWYLD_STATUS_EMPTY || status == MUOSWYLD_STATUS_TIMEOUT);
        }
    }
    return found;
}

/* Adds an amount at a member, which answers the total. */
static void add(member *members, int at, uint8_t amount, uint64_t total) {
    muoswyld_answer answer;
    uint64_t said;
    OK(muoswyld_service_submit(members[at].service, 7, &amount, 1));
    answer = next_of(members, &members[at]);
    WANT(answer.what == MUOSWYLD_ANSWERED_DONE && answer.token == 7 && answer.length == sizeof said);
    memcpy(&said, answer.bytes, sizeof said);
    WANT(said == total);
    muoswyld_answer_clear(&answer);
    WANT(answer.what == MUOSWYLD_ANSWERED_NOTHING && answer.bytes == NULL);
}

/* A read after a barrier sees what was answered before. */
static void reads(member *members, int at, uint64_t total, uint64_t commands) {
    muoswyld_answer answer;
    OK(muoswyld_service_barrier(members[at].service, 8));
    answer = next_of(members, &members[at]);
    WANT(answer.what == MUOSWYLD_ANSWERED_REACHED && answer.token == 8 && answer.bytes == NULL);
    WANT(members[at].own.total == total && members[at].own.commands == commands);
}

static void ready(member *members, int at) {
    muoswyld_answer answer = next_of(members, &members[at]);
    muoswyld_service_info info;
    WANT(answer.what == MUOSWYLD_ANSWERED_READY);
    OK(muoswyld_service_status(members[at].service, &info));
    WANT(info.is_ready && info.holders.lives[at] > 0 && info.applied.number > 0);
}

/* A long command goes in parts, and one that is too long is refused; a machine that lacks a call isn't taken. */
static void lengths(member *members, uint64_t total) {
    static uint8_t longest[1048577];
    muoswyld_machine machine;
    muoswyld_service *service;
    muoswyld_answer answer;
    OK(muoswyld_service_submit(members[1].service, 9, longest, sizeof longest - 1));
    answer = next_of(members, &members[1]);
    WANT(answer.what == MUOSWYLD_ANSWERED_DONE && answer.token == 9 && members[1].own.total == total);
    muoswyld_answer_clear(&answer);
    IS(muoswyld_service_submit(members[1].service, 9, longest, sizeof longest), MUOSWYLD_STATUS_TOO_LONG);
    memset(&machine, 0, sizeof machine);
    IS(muoswyld_service_new(members[1].group, &machine, &service), MUOSWYLD_STATUS_NULL_POINTER);
    WANT(service == NULL);
}

/* A machine that fails ends its service; so do all others, which apply the same command. */
static void failure(member *members) {
    uint8_t none = 0;
    muoswyld_answer answer;
    WANT(muoswyld_service_end_text(members[1].service) == NULL);
    OK(muoswyld_service_submit(members[1].service, 1, &none, 1));
    IS(muoswyld_service_next(members[1].service, 1000 * SOON, &answer), MUOSWYLD_STATUS_MACHINE_FAILED);
    IS(muoswyld_service_next(members[2].service, 1000 * SOON, &answer), MUOSWYLD_STATUS_MACHINE_FAILED);
    IS(muoswyld_service_submit(members[1].service, 1, &none, 1), MUOSWYLD_STATUS_MACHINE_FAILED);
    WANT(strcmp(muoswyld_service_end_text(members[1].service), "a call of the machine failed") == 0);
    IS(muoswyld_service_next(members[0].service, 1000 * SOON, &answer), MUOSWYLD_STATUS_MACHINE_FAILED);
}

/* Member 0 stops, the others are told and go on; its place comes back, and is sent the state. */
static void stop_and_return(member *members) {
    muoswyld_name stopped = {0, 1};
    int k;
    muoswyld_group_free(members[0].group);
    muoswyld_service_free(members[0].service);
    members[0].service = NULL;
    for (k = 1; k < MEMBERS; k++)
        OK(muoswyld_group_stopped(members[k].group, stopped));
    add(members, 1, 100, 115);
    members[0].group = started("0/2", muoswyld_group_join);
    serve(&members[0]);
    ready(members, 0);
    add(members, 0, 1, 116);
    reads(members, 2, 116, 4);
}

/* The list ends, and another one follows it: the counters go on in that. */
static void list_ends(member *members) {
    muoswyld_service_info info;
    muoswyld_status status;
    muoswyld_answer answer;
    time_t ends = time(NULL) + SOON;
    while ((status = muoswyld_group_succeed(members[1].group, NULL, 1000 * SOON, NULL)) != MUOSWYLD_STATUS_OK) {
        /* it may not be ended as long as the place that came back isn't heard */
        WANT(status == MUOSWYLD_STATUS_NOT_NOW || status == MUOSWYLD_STATUS_NOT_SUCCEEDED);
        WANT(time(NULL) < ends);
        IS(muoswyld_service_next(members[1].service, 50, &answer), MUOSWYLD_STATUS_TIMEOUT);
    }
    add(members, 0, 4, 120);
    reads(members, 2, 120, 6);
    OK(muoswyld_service_status(members[2].service, &info));
    WANT(info.applied.generation == 1 && info.holders.lives[0] == 1);
}

int main(int words, char **word) {
    static char name[MEMBERS][2] = {"0", "1", "2"};
    static member members[MEMBERS];
    pthread_t threads[MEMBERS];
    void *made;
    int k;
    if (words != 3) {
        fprintf(stderr, "counter HOST PORT\n");
        return 2;
    }
    host = word[1];
    first_port = atoi(word[2]);
    WANT(strncmp(muoswyld_group_version(), "proved ", 7) == 0 || strncmp(muoswyld_group_version(), "unproved ", 9) == 0);
    for (k = 0; k < MEMBERS; k++)
        WANT(pthread_create(&threads[k], NULL, create, name[k]) == 0);
    for (k = 0; k < MEMBERS; k++) {
        WANT(pthread_join(threads[k], &made) == 0);
        members[k].group = (muoswyld_group *)made;
        serve(&members[k]);
        ready(members, k);
    }
    add(members, 0, 5, 5);
    add(members, 1, 10, 15);
    reads(members, 2, 15, 2);
    stop_and_return(members);
    lengths(members, 116);
    reads(members, 0, 116, 5);
    list_ends(members);
    failure(members);
    for (k = 0; k < MEMBERS; k++) {
        muoswyld_service_free(members[k].service);
        muoswyld_group_free(members[k].group);
    }
    printf("done\n");
    return 0;
}
