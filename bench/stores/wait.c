/* Sets keys at a Redis server from many connections, and waits after each set until replicas have it.
 *
 *     wait PORT CLIENTS SECONDS BYTES KEYS REPLICAS
 *
 * Each connection sends a SET and a WAIT together, and the next ones after both replies. It prints how many sets were done a second, and the
 * microseconds that half of them and one of a hundred took longer than, as JSON. A reply that isn't OK, or too few replicas, ends it with 1. */
#include <arpa/inet.h>
#include <errno.h>
#include <netinet/tcp.h>
#include <stdbool.h>
#include <stdint.h>
#include <stdio.h>
#include <stdlib.h>
#include <string.h>
#include <sys/epoll.h>
#include <sys/socket.h>
#include <time.h>
#include <unistd.h>

enum { MOST_CLIENTS = 1000, MOST_BYTES = 65536, MOST_SAMPLES = 20 * 1000 * 1000 };

struct client {
    int socket;
    uint64_t asked_at;
    char reply[64];
    size_t length;
};

static uint64_t now_us(void) {
    struct timespec now;
    clock_gettime(CLOCK_MONOTONIC, &now);
    return (uint64_t)now.tv_sec * 1000000 + (uint64_t)now.tv_nsec / 1000;
}

static void give_up(const char *why) {
    fprintf(stderr, "wait: %s\n", why);
    exit(1);
}

static int connected(int port) {
    struct sockaddr_in to = {.sin_family = AF_INET, .sin_port = htons((uint16_t)port), .sin_addr.s_addr = htonl(INADDR_LOOPBACK)};
    int one = 1, made = socket(AF_INET, SOCK_STREAM, 0);
    if (made < 0 || connect(made, (struct sockaddr *)&to, sizeof to) != 0)
        give_up(strerror(errno));
    setsockopt(made, IPPROTO_TCP, TCP_NODELAY, &one, sizeof one);
    return made;
}

/* Sends the next set of a client. The socket's buffer has room, since nothing else is under way. */
static void ask(struct client *client, int bytes, int keys, int replicas, unsigned *seed) {
    static char request[MOST_BYTES + 256], value[MOST_BYTES + 1];
    if (value[0] == 0)
        memset(value, 'x', (size_t)bytes);
    int key = (int)((unsigned)rand_r(seed) % (unsigned)keys);
    int length = snprintf(request, sizeof request, "*3\r\n$3\r\nSET\r\n$12\r\nkey:%08d\r\n$%d\r\n%s\r\n*3\r\n$4\r\nWAIT\r\n$1\r\n%d\r\n$1\r\n0\r\n", key,
                          bytes, value, replicas);
    client->length = 0;
    client->asked_at = now_us();
    if (write(client->socket, request, (size_t)length) != length)
        give_up("a request wasn't taken whole");
}

/* Whether both replies of a client are there. */
static bool is_answered(struct client *client, int replicas) {
    ssize_t got = read(client->socket, client->reply + client->length, sizeof client->reply - 1 - client->length);
    if (got <= 0)
        give_up("a connection ended");
    client->length += (size_t)got;
    client->reply[client->length] = 0;
    if (client->reply[client->length - 1] != '\n' || strchr(client->reply, '\n') == client->reply + client->length - 1)
        return false;
    if (strncmp(client->reply, "+OK\r\n:", 6) != 0 || atoi(client->reply + 6) < replicas)
        give_up(client->reply);
    return true;
}

static int by_size(const void *a, const void *b) {
    uint32_t one = *(const uint32_t *)a, other = *(const uint32_t *)b;
    return (one > other) - (one < other);
}

int main(int count, char **given) {
    if (count != 7)
        give_up("PORT CLIENTS SECONDS BYTES KEYS REPLICAS");
    int clients = atoi(given[2]), bytes = atoi(given[4]), keys = atoi(given[5]), replicas = atoi(given[6]);
    if (clients < 1 || clients > MOST_CLIENTS || bytes < 1 || bytes > MOST_BYTES || keys < 1 || replicas < 1 || replicas > 9)
        give_up("a number is out of its range");
    static struct client all[MOST_CLIENTS];
    uint32_t *took = malloc(sizeof *took * MOST_SAMPLES);
    int poll = epoll_create1(0);
    unsigned seed = 1;
    size_t done = 0;
    if (took == NULL || poll < 0)
        give_up("no memory");
    for (int k = 0; k < clients; k++) {
        struct epoll_event wanted = {.events = EPOLLIN, .data.ptr = &all[k]};
        all[k].socket = connected(atoi(given[1]));
        epoll_ctl(poll, EPOLL_CTL_ADD, all[k].socket, &wanted);
    }
    uint64_t began = now_us(), until = began + (uint64_t)(atof(given[3]) * 1e6);
    for (int k = 0; k < clients; k++)
        ask(&all[k], bytes, keys, replicas, &seed);
    while (now_us() < until && done < MOST_SAMPLES - MOST_CLIENTS) {
        struct epoll_event ready[64];
        int some = epoll_wait(poll, ready, 64, 1000);
        for (int k = 0; k < some; k++) {
            struct client *client = ready[k].data.ptr;
            if (!is_answered(client, replicas))
                continue;
            took[done++] = (uint32_t)(now_us() - client->asked_at);
            ask(client, bytes, keys, replicas, &seed);
        }
    }
    double seconds = (double)(now_us() - began) / 1e6;
    if (done == 0)
        give_up("nothing was answered");
    qsort(took, done, sizeof *took, by_size);
    printf("{\"rate\": %.1f, \"p50\": %u, \"p99\": %u}\n", (double)done / seconds, took[done / 2], took[done * 99 / 100]);
    return 0;
}
