/* A switch in user space that holds each frame for a while, where the kernel has no queue that does: what comes in on one interface goes out
 * so many microseconds later, in its order, on the one that has its destination, or on all others if none is known to have it.
 *
 *     wire MICROSECONDS INTERFACE.. */
#define _GNU_SOURCE
#include <arpa/inet.h>
#include <linux/if_packet.h>
#include <net/ethernet.h>
#include <net/if.h>
#include <poll.h>
#include <stdint.h>
#include <stdio.h>
#include <stdlib.h>
#include <string.h>
#include <sys/socket.h>
#include <time.h>

enum { MOST_ENDS = 16, MOST_HELD = 1 << 16, LONGEST = 1 << 16, TURN = 32 };

struct frame {
    uint64_t due;
    int from;
    size_t length;
    unsigned char *bytes;
};

struct end {
    int descriptor, is_known;
    unsigned char address[ETH_ALEN];
};

static struct frame held[MOST_HELD];
static unsigned first, next;
static struct end ends[MOST_ENDS];
static int many;

static uint64_t now(void) {
    struct timespec time;
    clock_gettime(CLOCK_MONOTONIC, &time);
    return time.tv_sec * 1000000000ull + time.tv_nsec;
}

/* Sends a frame on; what an interface doesn't take is lost. */
static void forward(const struct frame *frame) {
    int to = -1;
    for (int k = 0; k < many; k++)
        if (k != frame->from && ends[k].is_known && !memcmp(ends[k].address, frame->bytes, ETH_ALEN)) to = k;
    for (int k = 0; k < many; k++)
        if (k != frame->from && (to < 0 || to == k)) send(ends[k].descriptor, frame->bytes, frame->length, 0);
}

/* Holds a frame until it is due; one for which there is no room is lost. */
static void hold(int from, const unsigned char *bytes, size_t length, uint64_t delay) {
    struct frame *frame = &held[next % MOST_HELD];
    unsigned char *kept = next - first < MOST_HELD ? malloc(length) : NULL;
    if (!kept) return;
    memcpy(kept, bytes, length);
    *frame = (struct frame){now() + delay, from, length, kept};
    next++;
}

static void let_go(void) {
    while (first != next && held[first % MOST_HELD].due <= now()) {
        struct frame *frame = &held[first++ % MOST_HELD];
        forward(frame);
        free(frame->bytes);
    }
}

static int opened(const char *interface) {
    int big = 1 << 26, one = 1;
    struct sockaddr_ll address = {.sll_family = AF_PACKET, .sll_protocol = htons(ETH_P_ALL), .sll_ifindex = if_nametoindex(interface)};
    int descriptor = socket(AF_PACKET, SOCK_RAW | SOCK_NONBLOCK, htons(ETH_P_ALL));
    if (descriptor < 0 || !address.sll_ifindex) return -1;
    setsockopt(descriptor, SOL_SOCKET, SO_RCVBUFFORCE, &big, sizeof big);
    setsockopt(descriptor, SOL_SOCKET, SO_SNDBUFFORCE, &big, sizeof big);
    setsockopt(descriptor, SOL_PACKET, PACKET_IGNORE_OUTGOING, &one, sizeof one);
    return bind(descriptor, (struct sockaddr *)&address, sizeof address) ? -1 : descriptor;
}

int main(int words, char **word) {
    static unsigned char bytes[LONGEST];
    struct pollfd watched[MOST_ENDS];
    uint64_t delay = words > 2 ? strtoull(word[1], NULL, 10) * 1000 : 0;
    many = words - 2;
    if (many < 2 || many > MOST_ENDS) {
        fprintf(stderr, "wire MICROSECONDS INTERFACE..\n");
        return 2;
    }
    for (int k = 0; k < many; k++) {
        if ((ends[k].descriptor = opened(word[k + 2])) < 0) {
            perror(word[k + 2]);
            return 1;
        }
        watched[k] = (struct pollfd){ends[k].descriptor, POLLIN, 0};
    }
    puts("ready");
    fflush(stdout);
    for (;;) {
        struct timespec wait = {3600, 0};
        let_go();
        if (first != next) {
            uint64_t due = held[first % MOST_HELD].due, time = now(), left = due > time ? due - time : 0;
            wait = (struct timespec){left / 1000000000, left % 1000000000};
        }
        if (ppoll(watched, many, &wait, NULL) <= 0) continue;
        for (int k = 0; k < many; k++)
            for (int turn = 0; watched[k].revents && turn < TURN; turn++) {
                ssize_t length = recv(ends[k].descriptor, bytes, sizeof bytes, 0);
                if (length < ETH_HLEN) break;
                memcpy(ends[k].address, bytes + ETH_ALEN, ETH_ALEN);
                ends[k].is_known = 1;
                hold(k, bytes, length, delay);
            }
    }
}
