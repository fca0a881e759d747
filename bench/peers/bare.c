/* What one message at a time takes without any protocol: one process a place, which only passes datagrams on. A sender's thread hands its
 * message to the thread of its socket, that sends it to place 0, and place 0 sends it to all others: as many threads wake up one after the
 * other, and as many datagrams go, as at the best of groups whose sequencer is another member. Nothing is kept, sent again, or put in order.
 *
 *     bare PLACE ADDRESS:PORT..
 *
 * Its lines are `cell` and `single` of the example `load` of runtime/group. {"ready": true} comes first. Times are nanoseconds of the system's
 * monotonic clock. */
#define _GNU_SOURCE
#include <arpa/inet.h>
#include <inttypes.h>
#include <poll.h>
#include <pthread.h>
#include <stdio.h>
#include <stdlib.h>
#include <string.h>
#include <sys/eventfd.h>
#include <sys/socket.h>
#include <time.h>
#include <unistd.h>

enum { MOST_TOOK = 100000, MOST_PLACES = 16, LONGEST = 1400 };

struct head {
    uint32_t cell, number;
    uint64_t sent;
};

static uint64_t took[MOST_TOOK];
static size_t many_took, places, me;
static uint32_t cell;
static int own_end, bell;
static struct sockaddr_in addresses[MOST_PLACES];
static char wanted[LONGEST];
static size_t wanted_bytes;
static pthread_mutex_t mutex = PTHREAD_MUTEX_INITIALIZER;
static pthread_cond_t changed;

static uint64_t now(void) {
    struct timespec time;
    clock_gettime(CLOCK_MONOTONIC, &time);
    return time.tv_sec * 1000000000ull + time.tv_nsec;
}

static struct timespec at(uint64_t time) { return (struct timespec){time / 1000000000, time % 1000000000}; }

static void sleep_until(uint64_t time) {
    struct timespec until = at(time);
    clock_nanosleep(CLOCK_MONOTONIC, TIMER_ABSTIME, &until, NULL);
}

/* Counts a message that came back, or came to another place. */
static void deliver(const char *message, size_t length) {
    struct head head;
    uint64_t time = now();
    if (length < sizeof head) return;
    memcpy(&head, message, sizeof head);
    pthread_mutex_lock(&mutex);
    if (head.cell == cell && many_took < MOST_TOOK) took[many_took++] = time - head.sent;
    pthread_cond_signal(&changed);
    pthread_mutex_unlock(&mutex);
}

static void pass(const char *message, size_t length, size_t to) {
    sendto(own_end, message, length, 0, (struct sockaddr *)&addresses[to], sizeof addresses[to]);
}

/* The thread of the socket: it sends what a caller hands it, and takes what comes. */
static void *turns(void *nothing) {
    static char message[LONGEST];
    (void)nothing;
    for (;;) {
        struct pollfd both[2] = {{own_end, POLLIN, 0}, {bell, POLLIN, 0}};
        ppoll(both, 2, NULL, NULL);
        if (both[1].revents) {
            uint64_t rung;
            if (read(bell, &rung, sizeof rung) != sizeof rung) continue;
            pthread_mutex_lock(&mutex);
            memcpy(message, wanted, wanted_bytes);
            pthread_mutex_unlock(&mutex);
            pass(message, wanted_bytes, 0);
        }
        if (both[0].revents) {
            ssize_t length = recv(own_end, message, sizeof message, MSG_DONTWAIT);
            if (length < 0) continue;
            for (size_t place = 1; me == 0 && place < places; place++) pass(message, length, place);
            deliver(message, length);
        }
    }
    return NULL;
}

static void single(size_t bytes, size_t many, uint64_t pause, uint64_t until, int sends) {
    uint64_t chance = 17, one = 1;
    struct timespec end = at(until);
    for (size_t number = 0; sends && number < many && now() < until; number++) {
        struct head head = {cell, number, 0};
        chance = chance * 6364136223846793005ull + 1;
        sleep_until(now() + pause / 2 + (chance >> 33) % pause);
        pthread_mutex_lock(&mutex);
        head.sent = now();
        memcpy(wanted, &head, sizeof head);
        wanted_bytes = bytes < sizeof head ? sizeof head : bytes;
        pthread_mutex_unlock(&mutex);
        if (write(bell, &one, sizeof one) != sizeof one) return;
        pthread_mutex_lock(&mutex);
        while (many_took <= number && !pthread_cond_timedwait(&changed, &mutex, &end)) {
        }
        pthread_mutex_unlock(&mutex);
    }
    for (;;) {
        pthread_mutex_lock(&mutex);
        if (many_took >= many || now() >= until) break;
        pthread_mutex_unlock(&mutex);
        sleep_until(now() + 1000000);
    }
    printf("{\"took\": [");
    for (size_t k = 0; k < many_took; k++) printf("%s%" PRIu64, k ? ", " : "", took[k]);
    printf("]}\n");
    pthread_mutex_unlock(&mutex);
}

/* Does what a line says, and answers it; 0 for a line that it doesn't know. */
static int answer(const char *line) {
    uint64_t a, b, c, d;
    int sends;
    if (sscanf(line, "cell %" SCNu64, &a) == 1) {
        pthread_mutex_lock(&mutex);
        cell = a;
        many_took = 0;
        pthread_mutex_unlock(&mutex);
        printf("{}\n");
    } else if (sscanf(line, "single %" SCNu64 " %" SCNu64 " %" SCNu64 " %" SCNu64 " %d", &a, &b, &c, &d, &sends) == 5 && a <= LONGEST) {
        single(a, b, c, d, sends);
    } else {
        return 0;
    }
    return !fflush(stdout);
}

/* Reads the addresses, and binds the own one. */
static int begin(int many, char **words) {
    pthread_condattr_t clock;
    pthread_t thread;
    places = many - 2;
    me = strtoul(words[1], NULL, 10);
    if (places > MOST_PLACES || me >= places) return 0;
    for (size_t place = 0; place < places; place++) {
        char *colon = strrchr(words[place + 2], ':');
        if (!colon) return 0;
        *colon = 0;
        addresses[place] = (struct sockaddr_in){.sin_family = AF_INET, .sin_port = htons(strtoul(colon + 1, NULL, 10))};
        if (inet_pton(AF_INET, words[place + 2], &addresses[place].sin_addr) != 1) return 0;
    }
    pthread_condattr_init(&clock);
    pthread_condattr_setclock(&clock, CLOCK_MONOTONIC);
    pthread_cond_init(&changed, &clock);
    own_end = socket(AF_INET, SOCK_DGRAM, 0);
    bell = eventfd(0, EFD_NONBLOCK);
    if (own_end < 0 || bell < 0 || bind(own_end, (struct sockaddr *)&addresses[me], sizeof addresses[me])) return 0;
    return !pthread_create(&thread, NULL, turns, NULL);
}

int main(int many, char **words) {
    char line[256];
    if (many < 3 || !begin(many, words)) {
        fprintf(stderr, "bare: PLACE ADDRESS:PORT.. of at most %d places, of which the own one is free\n", MOST_PLACES);
        return 1;
    }
    printf("{\"ready\": true}\n");
    fflush(stdout);
    while (fgets(line, sizeof line, stdin))
        if (!answer(line)) {
            fprintf(stderr, "bare: no such line: %s", line);
            return 1;
        }
    return 0;
}
