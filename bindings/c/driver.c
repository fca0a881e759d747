/* Reads lines, and prints what a node answers to each: the word `node`, through muoswyld.h.

       driver OPTIONS.. < LINES

   An empty line is none. It begins with room for 16 bytes, and makes more where an answer wants it. Status 0 at the end of the
   input; else the number that a call gave. */
#include "muoswyld.h"

#include <stdio.h>
#include <stdlib.h>
#include <string.h>

static int answered(muoswyld_node *node, const char *line, size_t n, char **answer, size_t *room) {
    size_t length = 0;
    int number;
    while ((number = muoswyld_step(node, line, n, *answer, *room, &length)) == MUOSWYLD_NO_ROOM) {
        free(*answer);
        *room = length;
        if ((*answer = malloc(length)) == NULL) return MUOSWYLD_NO_MEMORY;
    }
    if (number == MUOSWYLD_DONE && (fwrite(*answer, 1, length, stdout) != length || putchar('\n') == EOF)) return 99;
    return number;
}

int main(int count, char **words) {
    char options[512] = "", *line = NULL, *answer = malloc(16);
    size_t capacity = 0, room = 16;
    for (int i = 1; i < count; i++) {
        if (strlen(options) + strlen(words[i]) + 2 > sizeof options) return MUOSWYLD_BAD_OPTIONS;
        if (i > 1) strcat(options, " ");
        strcat(options, words[i]);
    }
    muoswyld_node node = {0};
    int number = answer == NULL ? MUOSWYLD_NO_MEMORY : muoswyld_open(&node, options, strlen(options));
    ssize_t n;
    while (number == MUOSWYLD_DONE && (n = getline(&line, &capacity, stdin)) > 0) {
        if (line[n - 1] == '\n') n--;
        if (n > 0) number = answered(&node, line, (size_t)n, &answer, &room);
    }
    if (number == MUOSWYLD_DONE && !feof(stdin)) number = MUOSWYLD_NO_MEMORY; /* none for the line, which getline keeps */
    muoswyld_close(&node);
    free(line);
    free(answer);
    return number;
}
