/* How much stack the calls take, where they are made on a thread whose stack has MUOSWYLD_STACK bytes besides what a thread takes
   itself.

       stack < SCRIPT

   A line of the script is `open K OPTIONS`, `tell K LINE`, `run N`, where everybody hears each letter and time passes N times, or
   `close K`, for a member K of 0 to 15. It prints the most bytes that a call of each kind took, and ends with 1 where one took more
   than MUOSWYLD_STACK. A page without access lies below the stack, so that a call that needs more ends the program. */
#define _GNU_SOURCE
#include "muoswyld.h"

#include <pthread.h>
#include <stdio.h>
#include <stdlib.h>
#include <string.h>
#include <sys/mman.h>

enum { MEMBERS = 16, ROOM = 1 << 16, LETTERS = 4096, LINE = 4096, PAGE = 4096, GAP = 256, THREAD = 24576 };

static const uint64_t PAINT = 0xa5a5a5a5a5a5a5a5;

static muoswyld_node members[MEMBERS];
static char answer[ROOM], letters[LETTERS][LINE], script[1 << 20], options[LINE];
static unsigned begun, ended;
static uint64_t *lowest;
static size_t most_of_open, most_of_step, most_of_close;
static int number;

/* Paints the stack below the caller's frame, but for the last bytes, which this function uses. */
static __attribute__((noinline)) void paint(char *frame) {
    for (volatile uint64_t *at = lowest; (char *)at < frame - GAP; at++) *at = PAINT;
}

/* How far below a frame the stack isn't painted any more. */
static __attribute__((noinline)) size_t taken(char *frame) {
    uint64_t *at = lowest;
    while ((char *)at < frame && *at == PAINT) at++;
    return (size_t)(frame - (char *)at);
}

#define MEASURE(most, call) do { \
        char *frame = __builtin_frame_address(0); \
        paint(frame); \
        number = (call); \
        size_t bytes = taken(frame); \
        if (bytes > most) most = bytes; \
    } while (0)

static __attribute__((noinline)) void open_member(int place, size_t n) { MEASURE(most_of_open, muoswyld_open(&members[place], options, n)); }

static __attribute__((noinline)) void close_member(int place) { MEASURE(most_of_close, muoswyld_close(&members[place])); }

static __attribute__((noinline)) size_t step(int place, const char *line, size_t n) {
    size_t length = 0;
    MEASURE(most_of_step, muoswyld_step(&members[place], line, n, answer, sizeof answer - 1, &length));
    return length;
}

/* Gives a member a line. Its letters are put into the queue, each as the line by which it is heard. */
static void tell(int place, const char *line, size_t n) {
    size_t length = step(place, line, n);
    if (number != MUOSWYLD_DONE) exit(number);
    answer[length] = '\0';
    char *letter = strstr(answer, " | "), *next;
    for (; letter != NULL; letter = next) {
        next = strstr(letter + 3, " | ");
        if (next != NULL) *next = '\0';
        strcpy(letters[ended % LETTERS], "hear ");
        strncat(letters[ended++ % LETTERS], letter + 3, LINE - 8);
    }
}

static void tell_all(const char *line) {
    for (int place = 0; place < MEMBERS; place++)
        if (members[place].at != NULL) tell(place, line, strlen(line));
}

static void run(int ticks) {
    for (; ticks > 0; ticks--) {
        while (begun < ended) tell_all(letters[begun++ % LETTERS]);
        tell_all("tick");
    }
}

static void *play(void *none) {
    char *next, *end;
    for (char *line = script; *line != '\0'; line = next) {
        next = strchr(line, '\n');
        if (next == NULL) exit(98);
        *next++ = '\0';
        long k = strtol(line + strcspn(line, " "), &end, 10);
        size_t n = (size_t)(next - 1 - end);
        if (strncmp(line, "run ", 4) == 0) {
            run((int)k);
            continue;
        }
        if (k < 0 || k >= MEMBERS) exit(98);
        if (n > 0) end++, n--;
        if (strncmp(line, "close ", 6) == 0) close_member((int)k);
        else if (strncmp(line, "tell ", 5) == 0) tell((int)k, end, n);
        else if (strncmp(line, "open ", 5) == 0 && n < LINE) open_member((int)k, strlen(strcpy(options, end)));
        else exit(98);
        if (number != MUOSWYLD_DONE) exit(number);
    }
    return none;
}

int main(void) {
    size_t size = MUOSWYLD_STACK + THREAD, n = fread(script, 1, sizeof script - 1, stdin);
    char *room = mmap(NULL, PAGE + size, PROT_READ | PROT_WRITE, MAP_PRIVATE | MAP_ANONYMOUS, -1, 0);
    pthread_attr_t how;
    pthread_t thread;
    if (n == sizeof script - 1 || room == MAP_FAILED || mprotect(room, PAGE, PROT_NONE) != 0) return 97;
    lowest = (uint64_t *)(void *)(room + PAGE);
    if (pthread_attr_init(&how) != 0 || pthread_attr_setstack(&how, lowest, size) != 0) return 97;
    if (pthread_create(&thread, &how, play, NULL) != 0 || pthread_join(thread, NULL) != 0) return 97;
    printf("open %zu step %zu close %zu of %zu\n", most_of_open, most_of_step, most_of_close, (size_t)MUOSWYLD_STACK);
    size_t most = most_of_open > most_of_step ? most_of_open : most_of_step;
    return most > MUOSWYLD_STACK || most_of_close > MUOSWYLD_STACK;
}
