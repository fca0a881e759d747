/* Three members of a group in one process, by muoswyld_group.h: sends from threads and by tickets, deliveries in one order by poll, a reset after one
   stops, its place's return, ends of lists, folders of state, leaves, and what each call refuses. It is C99, and C++ too. gate/try_group_c.py builds and runs it.

       group HOST PORT        the members' addresses are HOST:PORT and the ports after it

   It prints `done`, or the first thing that is wrong, and then ends with 1. */
#include "muoswyld_group.h"

#include <poll.h>
#include <pthread.h>
#include <stdio.h>
#include <stdlib.h>
#include <string.h>

/* milliseconds in which something must come, also where the machine has much else to do */
#define SOON 60000
#define MEMBERS 3
#define SENDS 40

static const char *host;
static int first_port;

#define WANT(condition) want((condition) ? 1 : 0, #condition, __LINE__)

static void want(int is_so, const char *condition, int line) {
    if (!is_so) {
        printf("group.c, line %d: not so: %s\n", line, condition);
        exit(1);
    }
}

static void wanted(muoswyld_status status, muoswyld_status wish, int line) {
    if (status != wish) {
        printf("group.c, line %d: %s, in place of: %s\n", line, muoswyld_status_text(status), muoswyld_status_text(wish));
        exit(1);
    }
}

#define IS(call, wish) wanted((call), (wish), __LINE__)
#define OK(call) IS(call, MUOSWYLD_STATUS_OK)

/* the settings of a name */
static muoswyld_config *config_of(const char *name) {
    muoswyld_config *config;
    uint8_t key[32];
    char address[64];
    int place;
    memset(key, 3, sizeof key);
    OK(muoswyld_config_new(name, "0,1,2", &config));
    for (place = 0; place < 4; place++) {
        snprintf(address, sizeof address, "%s:%d", host, first_port + place);
        OK(muoswyld_config_address(config, (uint8_t)place, address));
    }
    OK(muoswyld_config_key(config, key, sizeof key));
    OK(muoswyld_config_resilience(config, 1));
    OK(muoswyld_config_start_within(config, SOON));
    return config;
}

typedef muoswyld_status (*start)(muoswyld_config *config, muoswyld_group **group);

static muoswyld_group *started(const char *name, start how) {
    muoswyld_config *config = config_of(name);
    muoswyld_group *group = NULL;
    if (how(config, &group) != MUOSWYLD_STATUS_OK) {
        printf("%s doesn't start: %s\n", name, muoswyld_config_error(config));
        exit(1);
    }
    muoswyld_config_free(config);
    return group;
}

static void *create(void *name) {
    return started((const char *)name, muoswyld_group_create);
}

/* the next delivery, by the descriptor */
static muoswyld_delivery next_of(muoswyld_group *group) {
    muoswyld_delivery delivery;
    struct pollfd poll_for;
    muoswyld_status status;
    poll_for.fd = muoswyld_group_descriptor(group);
    poll_for.events = POLLIN;
    while ((status = muoswyld_group_receive(group, 0, &delivery)) == MUOSWYLD_STATUS_EMPTY) {
        WANT(delivery.kind == MUOSWYLD_KIND_NOTHING);
        WANT(poll(&poll_for, 1, SOON) == 1);
    }
    OK(status);
    return delivery;
}

/* whether the descriptor can be read within so many milliseconds */
static int is_rung(muoswyld_group *group, int timeout_ms) {
    struct pollfd poll_for;
    poll_for.fd = muoswyld_group_descriptor(group);
    poll_for.events = POLLIN;
    return poll(&poll_for, 1, timeout_ms);
}

static int is_after(muoswyld_position one, muoswyld_position other) {
    if (one.generation != other.generation)
        return one.generation > other.generation;
    return one.number > other.number || (one.number == other.number && one.index > other.index);
}

/* a sender of its own thread: each message is longer than the one before */
static void *send_all(void *group) {
    uint8_t message[SENDS];
    muoswyld_position at, before = {0, 0, 0};
    int k;
    for (k = 0; k < SENDS; k++) {
        memset(message, k, sizeof message);
        OK(muoswyld_group_send((muoswyld_group *)group, message, (size_t)k, SOON, &at));
        WANT(is_after(at, before));
        before = at;
    }
    return NULL;
}

/* All members are given the same messages at the same positions, each sender's in its order. */
static void one_order(muoswyld_group *groups[MEMBERS]) {
    pthread_t threads[MEMBERS];
    muoswyld_position at[MEMBERS * SENDS];
    muoswyld_delivery delivery;
    int from[MEMBERS * SENDS], count[MEMBERS], k, member;
    for (member = 0; member < MEMBERS; member++)
        WANT(pthread_create(&threads[member], NULL, send_all, groups[member]) == 0);
    for (member = 0; member < MEMBERS; member++) {
        delivery = next_of(groups[member]);
        WANT(delivery.kind == MUOSWYLD_KIND_VIEW && delivery.at.number == 1 && delivery.resilience == 1);
        WANT(delivery.members.lives[2] == 1 && delivery.members.lives[3] == 0 && delivery.message == NULL);
        memset(count, 0, sizeof count);
        for (k = 0; k < MEMBERS * SENDS; k++) {
            delivery = next_of(groups[member]);
            WANT(delivery.kind == MUOSWYLD_KIND_MESSAGE && delivery.name.place < MEMBERS && delivery.name.life == 1);
            WANT(delivery.length == (size_t)count[delivery.name.place] && delivery.message != NULL);
            WANT(delivery.length == 0 || delivery.message[delivery.length - 1] == delivery.length);
            count[delivery.name.place]++;
            if (member == 0) {
                at[k] = delivery.at;
                from[k] = delivery.name.place;
            }
            WANT(at[k].number == delivery.at.number && at[k].index == delivery.at.index && from[k] == delivery.name.place);
            muoswyld_delivery_clear(&delivery);
            WANT(delivery.kind == MUOSWYLD_KIND_NOTHING && delivery.message == NULL);
            muoswyld_delivery_clear(&delivery);
        }
        IS(muoswyld_group_receive(groups[member], 0, &delivery), MUOSWYLD_STATUS_EMPTY);
        WANT(!is_rung(groups[member], 0));
        IS(muoswyld_group_receive(groups[member], 5, &delivery), MUOSWYLD_STATUS_TIMEOUT);
    }
    for (member = 0; member < MEMBERS; member++)
        WANT(pthread_join(threads[member], NULL) == 0);
}

/* Tickets tell of messages, the longest one among them. */
static void tickets(muoswyld_group *groups[MEMBERS]) {
    static uint8_t longest[65536];
    muoswyld_ticket *ticket[2];
    muoswyld_position at[2];
    muoswyld_delivery delivery;
    int member;
    memset(longest, 9, sizeof longest);
    OK(muoswyld_group_submit(groups[1], longest, 65535, -1, &ticket[0]));
    OK(muoswyld_group_submit(groups[1], NULL, 0, 0, &ticket[1]));
    OK(muoswyld_ticket_wait(ticket[1], -1, &at[1]));
    OK(muoswyld_ticket_wait(ticket[0], 0, &at[0]));
    WANT(is_after(at[1], at[0]));
    muoswyld_ticket_free(ticket[1]);
    OK(muoswyld_ticket_wait(ticket[0], SOON, NULL));
    muoswyld_ticket_free(ticket[0]);
    IS(muoswyld_group_submit(groups[1], longest, 65536, -1, &ticket[0]), MUOSWYLD_STATUS_TOO_LONG);
    WANT(ticket[0] == NULL);
    IS(muoswyld_group_send(groups[1], longest, SIZE_MAX, -1, NULL), MUOSWYLD_STATUS_TOO_LONG);
    for (member = 0; member < MEMBERS; member++) {
        delivery = next_of(groups[member]);
        WANT(delivery.length == 65535 && memcmp(delivery.message, longest, 65535) == 0 && delivery.at.number == at[0].number);
        muoswyld_delivery_clear(&delivery);
        delivery = next_of(groups[member]);
        WANT(delivery.length == 0 && delivery.message != NULL && delivery.at.number == at[1].number);
        muoswyld_delivery_clear(&delivery);
    }
}

/* what one that waits for a delivery is answered once its member is stopped */
static void *receive(void *group) {
    muoswyld_delivery delivery;
    IS(muoswyld_group_receive((muoswyld_group *)group, -1, &delivery), MUOSWYLD_STATUS_ENDED);
    return NULL;
}

/* A member stops: whoever waits is told, and so is each call from then on. */
static void stop(muoswyld_group *groups[MEMBERS]) {
    pthread_t waits;
    muoswyld_name own = {0, 1};
    muoswyld_info info;
    WANT(pthread_create(&waits, NULL, receive, groups[2]) == 0);
    WANT(muoswyld_group_end_text(groups[2]) == NULL);
    WANT(muoswyld_group_ended(groups[2], 5) == MUOSWYLD_END_RUNNING);
    OK(muoswyld_group_stop(groups[2]));
    WANT(pthread_join(waits, NULL) == 0);
    WANT(muoswyld_group_ended(groups[2], -1) == MUOSWYLD_END_STOPPED);
    WANT(strcmp(muoswyld_group_end_text(groups[2]), "it was stopped, and hasn't left") == 0);
    WANT(is_rung(groups[2], SOON));
    IS(muoswyld_group_info(groups[2], &info), MUOSWYLD_STATUS_ENDED);
    IS(muoswyld_group_send(groups[2], NULL, 0, -1, NULL), MUOSWYLD_STATUS_NOT_SENT);
    IS(muoswyld_group_leave(groups[2], -1), MUOSWYLD_STATUS_ENDED);
    IS(muoswyld_group_reset(groups[2], 0, -1, NULL), MUOSWYLD_STATUS_ENDED);
    IS(muoswyld_group_stopped(groups[2], own), MUOSWYLD_STATUS_ENDED);
    WANT(is_rung(groups[2], SOON));
    muoswyld_group_free(groups[2]);
}

/* What a member knows after its reset and the other one's return. */
static void knows(muoswyld_group *group, uint32_t number) {
    muoswyld_info info;
    OK(muoswyld_group_info(group, &info));
    WANT(info.name.place == 1 && info.name.life == 1 && info.knows_group && info.group != 0 && info.resilience == 1);
    WANT(info.members.lives[0] == 1 && info.members.lives[2] == 2 && info.members.lives[3] == 0);
    WANT(info.view_number >= number && info.top >= info.accepted && info.taken > number);
    WANT(info.counts.deliveries >= 2 * SENDS && info.counts.datagrams_heard > 0);
}

/* Resets, and again as long as another member's reset overtakes it. */
static muoswyld_status reset(muoswyld_group *group, uint8_t least, uint32_t *number) {
    muoswyld_status status;
    do
        status = muoswyld_group_reset(group, least, SOON, number);
    while (status == MUOSWYLD_STATUS_OVERTAKEN);
    return status;
}

/* The others are told that it has stopped, and reset; its place comes back. Members that waited for long may have reset the group, too. */
static void reset_and_return(muoswyld_group *groups[MEMBERS]) {
    muoswyld_name name = {2, 1}, own = {0, 1}, none = {16, 1};
    muoswyld_delivery delivery;
    uint32_t number;
    int member;
    IS(muoswyld_group_stopped(groups[0], own), MUOSWYLD_STATUS_ITSELF);
    IS(muoswyld_group_stopped(groups[0], none), MUOSWYLD_STATUS_BAD_NAME);
    OK(muoswyld_group_stopped(groups[1], name));
    OK(muoswyld_group_stopped(groups[0], name));
    for (member = 0; member < 2; member++) {
        do
            delivery = next_of(groups[member]);
        while (delivery.kind == MUOSWYLD_KIND_VIEW && delivery.members.lives[2] != 0);
        WANT(delivery.kind == MUOSWYLD_KIND_VIEW && delivery.members.lives[1] == 1);
    }
    IS(muoswyld_group_reset(groups[1], 17, SOON, &number), MUOSWYLD_STATUS_BAD_VALUE);
    IS(reset(groups[1], 3, &number), MUOSWYLD_STATUS_TOO_FEW);
    /* after a reset that came to nothing the group stands still until the next one */
    OK(reset(groups[1], 0, &number));
    do
        delivery = next_of(groups[1]);
    while (delivery.kind == MUOSWYLD_KIND_VIEW && delivery.at.number < number);
    WANT(delivery.kind == MUOSWYLD_KIND_VIEW && delivery.at.number == number);
    groups[2] = started("2/2", muoswyld_group_join);
    for (member = 0; member < MEMBERS; member++) {
        do
            delivery = next_of(groups[member]);
        while (delivery.kind == MUOSWYLD_KIND_VIEW);
        WANT(delivery.kind == MUOSWYLD_KIND_JOINED && delivery.name.place == 2 && delivery.name.life == 2);
    }
    knows(groups[1], number);
}

/* The list ends with another window, and another one follows it: all are told, and a name is the first life of its place there. */
static void succeed(muoswyld_group *groups[MEMBERS]) {
    muoswyld_next next = {-1, 99, -1, {{0}}};
    muoswyld_status status;
    muoswyld_delivery delivery;
    muoswyld_position end, sent;
    muoswyld_info info;
    int member;
    next.window = 1009;
    do
        status = muoswyld_group_succeed(groups[1], &next, SOON, NULL);
    while (status == MUOSWYLD_STATUS_NOT_NOW);
    IS(status, MUOSWYLD_STATUS_BAD_VALUE);
    next.window = 99;
    do
        status = muoswyld_group_succeed(groups[1], &next, SOON, &end);
    while (status == MUOSWYLD_STATUS_NOT_NOW || status == MUOSWYLD_STATUS_NOT_SUCCEEDED);
    OK(status);
    OK(muoswyld_group_send(groups[2], (const uint8_t *)"over", 4, SOON, &sent));
    WANT(end.generation == 0 && sent.generation == 1);
    for (member = 0; member < MEMBERS; member++) {
        while ((delivery = next_of(groups[member])).kind != MUOSWYLD_KIND_SUCCEEDED)
            muoswyld_delivery_clear(&delivery);
        WANT(delivery.at.number == end.number && delivery.members.lives[2] == 2 && delivery.next.founders.lives[2] == 1);
        WANT(delivery.next.window == 99 && delivery.next.resilience == 1 && delivery.next.voters.lives[0] == 0);
        delivery = next_of(groups[member]);
        WANT(delivery.kind == MUOSWYLD_KIND_VIEW && delivery.at.generation == 1 && delivery.members.lives[2] == 1);
        while ((delivery = next_of(groups[member])).kind != MUOSWYLD_KIND_MESSAGE)
            muoswyld_delivery_clear(&delivery);
        WANT(delivery.name.place == 2 && delivery.name.life == 1 && delivery.length == 4);
        muoswyld_delivery_clear(&delivery);
        OK(muoswyld_group_info(groups[member], &info));
        WANT(info.generation == 1 && info.window == 99 && info.name.life == 1);
    }
}

/* One leaves, and the others are told; what was delivered before can still be received. */
static void leave(muoswyld_group *groups[MEMBERS]) {
    muoswyld_delivery delivery;
    OK(muoswyld_group_send(groups[2], (const uint8_t *)"bye", 3, SOON, NULL));
    OK(muoswyld_group_leave(groups[2], SOON));
    OK(muoswyld_group_leave(groups[2], 0));
    IS(muoswyld_group_send(groups[2], NULL, 0, SOON, NULL), MUOSWYLD_STATUS_NOT_SENT);
    do
        delivery = next_of(groups[2]);
    while (delivery.kind == MUOSWYLD_KIND_VIEW);
    WANT(delivery.kind == MUOSWYLD_KIND_MESSAGE && delivery.length == 3 && memcmp(delivery.message, "bye", 3) == 0);
    muoswyld_delivery_clear(&delivery);
    while (muoswyld_group_receive(groups[2], -1, &delivery) == MUOSWYLD_STATUS_OK)
        muoswyld_delivery_clear(&delivery);
    IS(muoswyld_group_receive(groups[2], 0, &delivery), MUOSWYLD_STATUS_ENDED);
    WANT(muoswyld_group_ended(groups[2], 0) == MUOSWYLD_END_LEFT);
    while ((delivery = next_of(groups[0])).kind != MUOSWYLD_KIND_LEFT)
        muoswyld_delivery_clear(&delivery);
    WANT(delivery.name.place == 2 && delivery.name.life == 1);
}

/* What is refused before there is a member. */
static void refusals(void) {
    muoswyld_config *config = config_of("3");
    muoswyld_group *group;
    IS(muoswyld_group_create(config, &group), MUOSWYLD_STATUS_NO_FOUNDER);
    WANT(group == NULL && strcmp(muoswyld_config_error(config), "3 is none of the founders: it joins") == 0);
    OK(muoswyld_config_start_within(config, 50));
    IS(muoswyld_group_join(config, &group), MUOSWYLD_STATUS_TIMEOUT);
    IS(muoswyld_config_address(config, 3, "127.0.0.1:1"), MUOSWYLD_STATUS_BAD_ADDRESS);
    WANT(strcmp(muoswyld_config_error(config), "place 3 has two addresses") == 0);
    OK(muoswyld_config_journal(config, "/nowhere/journal"));
    IS(muoswyld_group_join(config, &group), MUOSWYLD_STATUS_SYSTEM);
    muoswyld_config_free(config);
    muoswyld_config_free(NULL);
}

/* A group of one with a folder of state, whose list ends by itself. A life never begins twice, and the place's next one is known. */
static void by_itself(void) {
    char folder[] = "/tmp/muoswyld-group-XXXXXX", path[64], text[80];
    muoswyld_config *config;
    muoswyld_group *group;
    muoswyld_delivery delivery;
    int k;
    OK(muoswyld_config_new("0", "0", &config));
    snprintf(text, sizeof text, "%s:%d", host, first_port + 4);
    OK(muoswyld_config_address(config, 0, text));
    OK(muoswyld_config_insecure(config));
    OK(muoswyld_config_start_within(config, SOON));
    IS(muoswyld_config_voters(config, "0,x"), MUOSWYLD_STATUS_BAD_NAME);
    OK(muoswyld_config_voters(config, "0"));
    IS(muoswyld_group_found(config), MUOSWYLD_STATUS_BAD_VALUE);
    IS(muoswyld_config_next_life(config, 0), MUOSWYLD_STATUS_BAD_VALUE);
    WANT(mkdtemp(folder) != NULL);
    snprintf(path, sizeof path, "%s/state", folder);
    OK(muoswyld_config_state(config, path));
    IS(muoswyld_group_start(config, &group), MUOSWYLD_STATUS_BAD_STATE);
    OK(muoswyld_group_found(config));
    IS(muoswyld_group_found(config), MUOSWYLD_STATUS_BAD_STATE);
    OK(muoswyld_config_lease(config, 1, 100));
    IS(muoswyld_group_start(config, &group), MUOSWYLD_STATUS_BAD_VALUE);
    OK(muoswyld_config_command(config, "/bin/false", 1000));
    OK(muoswyld_config_told(config));
    OK(muoswyld_config_echo(config));
    OK(muoswyld_config_succeed_at(config, 16, 0));
    IS(muoswyld_group_start(config, &group), MUOSWYLD_STATUS_BAD_VALUE);
    OK(muoswyld_config_succeed_at(config, 1, 2000000000 - 5));
    OK(muoswyld_config_next_life(config, 0));
    OK(muoswyld_group_start(config, &group));
    for (k = 0; k < 20; k++)
        OK(muoswyld_group_send(group, NULL, 0, SOON, NULL));
    while ((delivery = next_of(group)).kind != MUOSWYLD_KIND_SUCCEEDED)
        muoswyld_delivery_clear(&delivery);
    muoswyld_group_free(group);
    IS(muoswyld_group_start(config, &group), MUOSWYLD_STATUS_BAD_STATE);
    WANT(strstr(muoswyld_config_error(config), "was begun") != NULL);
    OK(muoswyld_config_next_life(config, 0));
    OK(muoswyld_config_start_within(config, 50));
    /* its only member is gone, so it waits in vain */
    IS(muoswyld_group_start(config, &group), MUOSWYLD_STATUS_TIMEOUT);
    muoswyld_config_free(config);
    snprintf(text, sizeof text, "rm -r %s", folder);
    WANT(system(text) == 0);
}

int main(int words, char **word) {
    static char name[MEMBERS][2] = {"0", "1", "2"};
    muoswyld_group *groups[MEMBERS];
    pthread_t threads[MEMBERS];
    void *made;
    int member;
    if (words != 3) {
        fprintf(stderr, "group HOST PORT\n");
        return 2;
    }
    host = word[1];
    first_port = atoi(word[2]);
    refusals();
    by_itself();
    for (member = 0; member < MEMBERS; member++)
        WANT(pthread_create(&threads[member], NULL, create, name[member]) == 0);
    for (member = 0; member < MEMBERS; member++) {
        WANT(pthread_join(threads[member], &made) == 0);
        groups[member] = (muoswyld_group *)made;
    }
    one_order(groups);
    tickets(groups);
    stop(groups);
    reset_and_return(groups);
    succeed(groups);
    leave(groups);
    for (member = 0; member < MEMBERS; member++)
        muoswyld_group_free(groups[member]);
    printf("done\n");
    return 0;
}
