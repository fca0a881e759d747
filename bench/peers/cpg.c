/* A member of a closed process group of Corosync under load, beside the example `load` of runtime/group: one process, one member. It is
 * told on standard input what to do, a line each, and answers each by a line of JSON. {"ready": true} comes first, once all members are in
 * the group. It ends at the end of its input.
 *
 *     cpg MEMBERS
 *
 * Messages go out in agreed order. The lines are those of `load`, but for what Corosync does by itself (`sequencer`, `stopped`). Times are
 * nanoseconds of the system's monotonic clock. Deliveries come on a thread of their own, as in cpg's programs. */
#define _GNU_SOURCE
#include <corosync/cpg.h>
#include <inttypes.h>
#include <pthread.h>
#include <stdio.h>
#include <stdlib.h>
#include <string.h>
#include <time.h>

enum { MOST_TOOK = 100000, LONGEST = 1 << 16 };

struct head {
    uint32_t cell, number;
    uint64_t sent;
};

/* What was delivered of the messages of one cell. */
struct cell {
    uint32_t number, own;
    uint64_t delivered, order, last, many_took, resumed;
    int keeps, is_smaller;
};

static struct cell cell;
static uint64_t took[MOST_TOOK];
static unsigned me;
static size_t members, present;
static cpg_handle_t handle;
static volatile int paces;
static pthread_mutex_t mutex = PTHREAD_MUTEX_INITIALIZER;
static pthread_cond_t changed;

static uint64_t now(void) {
    struct timespec time;
    clock_gettime(CLOCK_MONOTONIC, &time);
    return time.tv_sec * 1000000000ull + time.tv_nsec;
}

static struct timespec at(uint64_t time) { return (struct timespec){time / 1000000000, time % 1000000000}; }

static void sleep_until(uint64_t time) {
    struct timespec until = at(time);
    clock_nanosleep(CLOCK_MONOTONIC, TIMER_ABSTIME, &until, NULL);
}

static void deliver(cpg_handle_t, const struct cpg_name *, uint32_t, uint32_t, void *, size_t);
static void change(cpg_handle_t, const struct cpg_name *, const struct cpg_address *, size_t, const struct cpg_address *, size_t,
                   const struct cpg_address *, size_t);

/* Counts a message that is of this cell. */
static void deliver(cpg_handle_t of, const struct cpg_name *group, uint32_t node, uint32_t process, void *message, size_t length) {
    struct head head;
    (void)of, (void)group, (void)process;
    if (length < sizeof head) return;
    memcpy(&head, message, sizeof head);
    pthread_mutex_lock(&mutex);
    if (head.cell == cell.number) {
        uint64_t time = now();
        cell.delivered++;
        cell.last = time;
        cell.order = (cell.order ^ ((uint64_t)node << 32 | head.number)) * 0x100000001b3ull;
        if (cell.keeps && cell.many_took < MOST_TOOK) took[cell.many_took++] = time - head.sent;
        if (cell.is_smaller && !cell.resumed) cell.resumed = time;
        if (node == me) {
            cell.own = head.number + 1;
            if (cell.keeps) pthread_cond_signal(&changed);
        }
    }
    pthread_mutex_unlock(&mutex);
}

static void change(cpg_handle_t of, const struct cpg_name *group, const struct cpg_address *all, size_t many, const struct cpg_address *gone,
                   size_t many_gone, const struct cpg_address *come, size_t many_come) {
    (void)of, (void)group, (void)all, (void)gone, (void)many_gone, (void)come, (void)many_come;
    pthread_mutex_lock(&mutex);
    present = many;
    cell.is_smaller = many < members;
    pthread_cond_signal(&changed);
    pthread_mutex_unlock(&mutex);
}

static void *dispatch(void *nothing) {
    (void)nothing;
    cpg_dispatch(handle, CS_DISPATCH_BLOCKING);
    return NULL;
}

/* Joins the group, and waits until all members are in it. */
static int join(void) {
    cpg_callbacks_t calls = {.cpg_deliver_fn = deliver, .cpg_confchg_fn = change};
    struct cpg_name group = {.length = 4, .value = "load"};
    uint64_t until = now() + 20000000000ull;
    struct timespec end = at(until);
    pthread_t thread;
    cs_error_t said;
    while ((said = cpg_initialize(&handle, &calls)) != CS_OK && now() < until) sleep_until(now() + 20000000);
    if (said != CS_OK || cpg_local_get(handle, &me) != CS_OK) return 0;
    while ((said = cpg_join(handle, &group)) == CS_ERR_TRY_AGAIN && now() < until) sleep_until(now() + 10000000);
    if (said != CS_OK || pthread_create(&thread, NULL, dispatch, NULL)) return 0;
    pthread_mutex_lock(&mutex);
    while (present != members && !pthread_cond_timedwait(&changed, &mutex, &end)) {
    }
    pthread_mutex_unlock(&mutex);
    return present == members;
}

/* Sends a message of the cell; waits while Corosync has no room, if that is wanted. */
static int send_one(uint32_t number, size_t bytes, uint64_t until) {
    static _Thread_local char message[LONGEST];
    struct head head = {cell.number, number, now()};
    struct iovec part = {message, bytes < sizeof head ? sizeof head : bytes};
    cs_error_t said;
    memcpy(message, &head, sizeof head);
    while ((said = cpg_mcast_joined(handle, CPG_TYPE_AGREED, &part, 1)) == CS_ERR_TRY_AGAIN && now() < until) sleep_until(now() + 20000);
    return said == CS_OK;
}

static void flood(size_t bytes, uint64_t from, uint64_t until, int sends) {
    uint32_t sent = 0;
    sleep_until(from);
    while (sends && now() < until)
        if (send_one(sent, bytes, until)) sent++;
    printf("{\"sent\": %" PRIu32 "}\n", sent);
}

static void settle(uint64_t all, uint64_t until) {
    struct cell seen;
    for (;;) {
        pthread_mutex_lock(&mutex);
        seen = cell;
        pthread_mutex_unlock(&mutex);
        if (seen.delivered >= all || now() >= until) break;
        sleep_until(now() + 1000000);
    }
    printf("{\"delivered\": %" PRIu64 ", \"order\": \"%" PRIx64 "\", \"last\": %" PRIu64 "}\n", seen.delivered, seen.order, seen.last);
}

static void single(size_t bytes, size_t many, uint64_t pause, uint64_t until, int sends) {
    uint64_t chance = 17;
    struct timespec end = at(until);
    pthread_mutex_lock(&mutex);
    cell.keeps = 1;
    pthread_mutex_unlock(&mutex);
    for (size_t number = 0; sends && number < many && now() < until; number++) {
        chance = chance * 6364136223846793005ull + 1;
        sleep_until(now() + pause / 2 + (chance >> 33) % pause);
        send_one(number, bytes, until);
        pthread_mutex_lock(&mutex);
        while (cell.own <= number && !pthread_cond_timedwait(&changed, &mutex, &end)) {
        }
        pthread_mutex_unlock(&mutex);
    }
    for (;;) {
        pthread_mutex_lock(&mutex);
        if (cell.many_took >= many || now() >= until) break;
        pthread_mutex_unlock(&mutex);
        sleep_until(now() + 1000000);
    }
    printf("{\"took\": [");
    for (size_t k = 0; k < cell.many_took; k++) printf("%s%" PRIu64, k ? ", " : "", took[k]);
    printf("]}\n");
    pthread_mutex_unlock(&mutex);
}

static size_t pace_bytes;
static uint64_t pace_every;

static void *pace(void *nothing) {
    uint64_t due = now();
    (void)nothing;
    for (uint32_t number = 0; paces; number++) {
        send_one(number, pace_bytes, 0);
        due += pace_every;
        if (due < now()) due = now();
        sleep_until(due);
    }
    return NULL;
}

static void resumed(uint64_t until) {
    uint64_t time;
    for (;;) {
        pthread_mutex_lock(&mutex);
        time = cell.resumed;
        pthread_mutex_unlock(&mutex);
        if (time || now() >= until) break;
        sleep_until(now() + 1000000);
    }
    paces = 0;
    printf("{\"resumed\": %" PRIu64 "}\n", time);
}

/* Does what a line says, and answers it; 0 for a line that it doesn't know. */
static int answer(const char *line) {
    uint64_t a, b, c, d;
    int sends;
    if (sscanf(line, "cell %" SCNu64, &a) == 1) {
        pthread_mutex_lock(&mutex);
        cell = (struct cell){.number = a, .order = 0xcbf29ce484222325ull};
        pthread_mutex_unlock(&mutex);
        printf("{}\n");
    } else if (sscanf(line, "flood %" SCNu64 " %" SCNu64 " %" SCNu64 " %d", &a, &b, &c, &sends) == 4 && a <= LONGEST) {
        flood(a, b, c, sends);
    } else if (sscanf(line, "settle %" SCNu64 " %" SCNu64, &a, &b) == 2) {
        settle(a, b);
    } else if (sscanf(line, "single %" SCNu64 " %" SCNu64 " %" SCNu64 " %" SCNu64 " %d", &a, &b, &c, &d, &sends) == 5 && a <= LONGEST) {
        single(a, b, c, d, sends);
    } else if (sscanf(line, "pace %zu %" SCNu64, &pace_bytes, &pace_every) == 2 && pace_bytes <= LONGEST) {
        pthread_t thread;
        paces = 1;
        if (pthread_create(&thread, NULL, pace, NULL)) return 0;
        printf("{}\n");
    } else if (sscanf(line, "resumed %" SCNu64, &a) == 1) {
        resumed(a);
    } else {
        return 0;
    }
    return !fflush(stdout);
}

int main(int many, char **words) {
    char line[256];
    pthread_condattr_t clock;
    pthread_condattr_init(&clock);
    pthread_condattr_setclock(&clock, CLOCK_MONOTONIC);
    pthread_cond_init(&changed, &clock);
    members = many == 2 ? strtoul(words[1], NULL, 10) : 0;
    if (!members || !join()) {
        fprintf(stderr, "cpg: not in a group of %zu members\n", members);
        return 1;
    }
    printf("{\"ready\": true}\n");
    fflush(stdout);
    while (fgets(line, sizeof line, stdin))
        if (!answer(line)) {
            fprintf(stderr, "cpg: no such line: %s", line);
            return 1;
        }
    return 0;
}
