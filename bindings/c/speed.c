/* How many lines are answered in a second of one processor's time, each line COUNT times: `speed COUNT OPTIONS < LINES`. A line that
   begins with an `=` is an event as bytes, two digits each, which the binary call is given. */
#include "muoswyld.h"

#include <stdio.h>
#include <stdlib.h>
#include <string.h>
#include <time.h>

static double now(void) {
    struct timespec t;
    clock_gettime(CLOCK_PROCESS_CPUTIME_ID, &t);
    return (double)t.tv_sec + (double)t.tv_nsec / 1e9;
}

typedef int (*call)(muoswyld_node *, const void *, size_t, void *, size_t, size_t *);

/* The bytes of digits, two each. */
static size_t bytes_of(const char *digits, size_t n, uint8_t *bytes) {
    for (size_t i = 0; i < n / 2; i++) {
        char pair[3] = {digits[2 * i], digits[2 * i + 1], 0};
        bytes[i] = (uint8_t)strtoul(pair, NULL, 16);
    }
    return n / 2;
}

int main(int count, char **words) {
    static char line[8192];
    static uint8_t asked[8192], answer[65536];
    size_t length;
    if (count != 3) return 2;
    long times = atol(words[1]);
    muoswyld_node node = {0};
    if (muoswyld_open(&node, words[2], strlen(words[2])) != MUOSWYLD_DONE) return 3;
    while (fgets(line, sizeof line, stdin) != NULL) {
        size_t n = strcspn(line, "\n");
        call ask = line[0] == '=' ? muoswyld_do : muoswyld_step;
        if (line[0] == '=') n = bytes_of(line + 1, n - 1, asked);
        else memcpy(asked, line, n);
        double start = now();
        for (long i = 0; i < times; i++)
            if (ask(&node, asked, n, answer, sizeof answer, &length) != MUOSWYLD_DONE) return 4;
        printf("%.*s %.0f\n", line[0] == '=' ? 3 : (int)strcspn(line, " \n"), line, (double)times / (now() - start));
    }
    return muoswyld_close(&node);
}
