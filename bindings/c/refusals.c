/* Each refusal of each call, and that it changes nothing. It ends with 0, or with the line of the first check that fails. */
#include "muoswyld.h"

#include <stdio.h>
#include <stdlib.h>
#include <string.h>

#define WANT(holds) do { if (!(holds)) { fprintf(stderr, "refusals.c:%d: %s\n", __LINE__, #holds); exit(1); } } while (0)

static const char *options = "--name 1 --founders 0,1,2 --window 8";

static muoswyld_node node;
static uint8_t answer[4096], before[4096];
static size_t length;

static int step(const char *line, size_t room) {
    memcpy(before, answer, sizeof answer);
    return muoswyld_step(&node, line, strlen(line), answer, room, &length);
}

static int same(void) { return memcmp(before, answer, sizeof answer) == 0; }

static void open_and_close(void) {
    WANT(muoswyld_open(NULL, options, 5) == MUOSWYLD_NULL);
    WANT(muoswyld_open(&node, NULL, 0) == MUOSWYLD_NULL);
    WANT(muoswyld_open(&node, options, SIZE_MAX) == MUOSWYLD_LENGTH);
    WANT(muoswyld_open(&node, options, (size_t)PTRDIFF_MAX + 1) == MUOSWYLD_LENGTH);
    const char *none[] = {"", " ", "node", "--name 1", "--founders 0,1", "--name 1 --founders 0,1 ", "--name 1  --founders 0,1",
        "--name 16 --founders 0,1", "--name 1 --founders 1,0", "--name 1 --founders -", "--name 1 --founders 0/2,1",
        "--name 1 --name 1 --founders 0,1", "--name 1 --founders 0,1 --window 0", "--name 1 --founders 0,1 --window 1009",
        "--name 1 --founders 0,1 --resilience 16", "--name 1 --founders 0,1 --pb-up-to 1025", "--name 1 --founders 0,\xff"};
    for (size_t i = 0; i < sizeof none / sizeof *none; i++) {
        WANT(muoswyld_open(&node, none[i], strlen(none[i])) == MUOSWYLD_BAD_OPTIONS);
        WANT(node.at == NULL);
    }
    WANT(muoswyld_close(NULL) == MUOSWYLD_NULL);
    WANT(muoswyld_close(&node) == MUOSWYLD_CLOSED);
    WANT(muoswyld_open(&node, options, strlen(options)) == MUOSWYLD_DONE);
    void *at = node.at;
    WANT(muoswyld_open(&node, options, strlen(options)) == MUOSWYLD_OPEN && node.at == at);
    WANT(muoswyld_close(&node) == MUOSWYLD_DONE && node.at == NULL);
    WANT(muoswyld_close(&node) == MUOSWYLD_CLOSED);
    length = 77;
    WANT(step("tick", sizeof answer) == MUOSWYLD_CLOSED && same() && length == 77);
    memcpy(before, answer, sizeof answer);
    WANT(muoswyld_do(&node, "\1", 1, answer, sizeof answer, &length) == MUOSWYLD_CLOSED && same() && length == 77);
}

static void steps(void) {
    length = 77;
    WANT(muoswyld_step(NULL, "tick", 4, answer, sizeof answer, &length) == MUOSWYLD_NULL);
    WANT(muoswyld_step(&node, NULL, 0, answer, sizeof answer, &length) == MUOSWYLD_NULL);
    WANT(muoswyld_step(&node, "tick", 4, NULL, 1, &length) == MUOSWYLD_NULL);
    WANT(muoswyld_step(&node, "tick", 4, answer, sizeof answer, NULL) == MUOSWYLD_NULL);
    WANT(muoswyld_step(&node, "tick", SIZE_MAX, answer, sizeof answer, &length) == MUOSWYLD_LENGTH);
    WANT(muoswyld_step(&node, "tick", 4, answer, SIZE_MAX, &length) == MUOSWYLD_LENGTH);
    WANT(length == 77 && same());
    WANT(step("nonsense", sizeof answer) == MUOSWYLD_DONE && length == 10 && memcmp(answer, "bad line 1", 10) == 0);
}

/* An answer that finds no room waits: it is told once, to the same line, and other lines are refused until then. */
static void rooms(void) {
    WANT(step("send 61", 0) == MUOSWYLD_NO_ROOM && same());
    size_t wanted = length;
    WANT(muoswyld_step(&node, "send 61", 7, NULL, 0, &length) == MUOSWYLD_NO_ROOM && length == wanted);
    length = 77;
    WANT(step("send 62", sizeof answer) == MUOSWYLD_OTHER_LINE && same() && length == 77);
    WANT(step("send 6", sizeof answer) == MUOSWYLD_OTHER_LINE && same() && length == 77);
    WANT(step("", sizeof answer) == MUOSWYLD_OTHER_LINE && same() && length == 77);
    WANT(step("send 61", wanted - 1) == MUOSWYLD_NO_ROOM && same() && length == wanted);
    memset(answer, 0xee, sizeof answer);
    WANT(step("send 61", wanted) == MUOSWYLD_DONE && length == wanted && answer[wanted] == 0xee);
    WANT(memcmp(answer, "queued 1 | 0 ", 13) == 0);
    /* a request's number is new each time, so the line was done once */
    WANT(step("send 61", sizeof answer) == MUOSWYLD_DONE && memcmp(answer, "queued 2", 8) == 0);
    static char longer[10000];
    memset(longer, 'a', sizeof longer);
    WANT(muoswyld_step(&node, longer, 4097, answer, 0, &length) == MUOSWYLD_NO_ROOM && length == 10);
    WANT(muoswyld_step(&node, longer, 4096, answer, 20, &length) == MUOSWYLD_OTHER_LINE);
    WANT(muoswyld_step(&node, longer, sizeof longer, answer, 20, &length) == MUOSWYLD_DONE && memcmp(answer, "bad line 4", 10) == 0);
    WANT(step("", sizeof answer) == MUOSWYLD_DONE && length == 10 && memcmp(answer, "bad line 1", 10) == 0);
}

static int ask(const void *event, size_t n, size_t room) {
    memcpy(before, answer, sizeof answer);
    return muoswyld_do(&node, event, n, answer, room, &length);
}

/* Events, too: where an answer waits, neither another event nor a line of the same bytes is answered, and the other way round. */
static void events(void) {
    length = 77;
    memcpy(before, answer, sizeof answer);
    WANT(muoswyld_do(NULL, "\1", 1, answer, sizeof answer, &length) == MUOSWYLD_NULL);
    WANT(muoswyld_do(&node, NULL, 0, answer, sizeof answer, &length) == MUOSWYLD_NULL);
    WANT(muoswyld_do(&node, "\1", 1, NULL, 1, &length) == MUOSWYLD_NULL);
    WANT(muoswyld_do(&node, "\1", 1, answer, sizeof answer, NULL) == MUOSWYLD_NULL);
    WANT(muoswyld_do(&node, "\1", SIZE_MAX, answer, sizeof answer, &length) == MUOSWYLD_LENGTH);
    WANT(muoswyld_do(&node, "\1", 1, answer, SIZE_MAX, &length) == MUOSWYLD_LENGTH);
    WANT(length == 77 && same());
    WANT(ask("\1", 1, 0) == MUOSWYLD_NO_ROOM && same());
    size_t wanted = length;
    WANT(ask("\2", 1, sizeof answer) == MUOSWYLD_OTHER_LINE && same() && length == wanted);
    WANT(step("\1", sizeof answer) == MUOSWYLD_OTHER_LINE && same());
    WANT(step("tick", sizeof answer) == MUOSWYLD_OTHER_LINE && same());
    WANT(ask("\1", 1, wanted - 1) == MUOSWYLD_NO_ROOM && same() && length == wanted);
    WANT(ask("\1", 1, wanted) == MUOSWYLD_DONE && length == wanted && answer[48] == 14);
    WANT(step("tick", 0) == MUOSWYLD_NO_ROOM);
    WANT(ask("tick", 4, sizeof answer) == MUOSWYLD_OTHER_LINE);
    WANT(step("tick", sizeof answer) == MUOSWYLD_DONE && memcmp(answer, "ticked", 6) == 0);
    WANT(ask("", 0, sizeof answer) == MUOSWYLD_DONE && length == 51 && answer[48] == 255 && answer[49] == 1 && answer[50] == 0);
}

int main(void) {
    open_and_close();
    WANT(muoswyld_open(&node, options, strlen(options)) == MUOSWYLD_DONE);
    steps();
    rooms();
    events();
    WANT(muoswyld_close(&node) == MUOSWYLD_DONE);
    return 0;
}
