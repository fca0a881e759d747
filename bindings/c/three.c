/* Three members in one process, which pass letters to each other; the first one crashes, and the others go on without it. It prints
   what each member takes. */
#include "muoswyld.h"

#include <stdio.h>
#include <stdlib.h>
#include <string.h>

static muoswyld_node members[3];
static char answer[65536], letters[256][4096];
static int begun, ended;

/* Gives a member a line. Its letters are put into the queue, each as the line by which it is heard. */
static char *tell(int place, const char *line) {
    size_t length;
    int number = muoswyld_step(&members[place], line, strlen(line), answer, sizeof answer - 1, &length);
    if (number != MUOSWYLD_DONE) exit(number);
    answer[length] = '\0';
    char *letter = strstr(answer, " | "), *next;
    for (char *end = letter; letter != NULL; letter = next) {
        next = strstr(letter + 3, " | ");
        *end = '\0';
        end = next;
        if (next != NULL) *next = '\0';
        snprintf(letters[ended++ % 256], sizeof letters[0], "hear %s", letter + 3);
    }
    return answer;
}

/* Everybody who runs hears each letter: who isn't addressed answers so, and nothing changes. Then time passes. */
static void run(int ticks) {
    for (; ticks > 0; ticks--) {
        while (begun < ended) {
            char *letter = letters[begun++ % 256];
            for (int place = 0; place < 3; place++)
                if (members[place].at != NULL) tell(place, letter);
        }
        for (int place = 0; place < 3; place++)
            if (members[place].at != NULL) tell(place, "tick");
    }
}

static void take(int place) {
    while (strncmp(tell(place, "take"), "took ", 5) == 0) printf("member %d %s\n", place, answer);
}

int main(void) {
    for (int place = 0; place < 3; place++) {
        char options[64];
        int n = snprintf(options, sizeof options, "--name %d --founders 0,1,2 --resilience 1", place);
        if (muoswyld_open(&members[place], options, (size_t)n) != MUOSWYLD_DONE) return 1;
    }
    tell(1, "send 68656c6c6f");
    run(5);
    for (int place = 0; place < 3; place++) take(place);
    muoswyld_close(&members[0]); /* the sequencer crashes: nobody hears of it */
    tell(2, "send 7374696c6c2068657265");
    run(5);
    tell(1, "reset 2");  /* a ballot for a view of two members at least, */
    tell(1, "giveup 0"); /* without the one that has certainly stopped */
    run(20);
    for (int place = 1; place < 3; place++) take(place);
    printf("member 1 is %s\n", tell(1, "info"));
    muoswyld_close(&members[1]);
    muoswyld_close(&members[2]);
    return 0;
}
