/* A node of a group, called from C.

   You open a node with the options of the program's word `node` and give it lines, and it answers each. Lines and answers are
   those of that word, byte for byte, without the newline (docs/NETWORK.md, "A node that speaks lines"):

       muoswyld_node node = {0};
       char answer[4096];
       size_t length;
       muoswyld_open(&node, "--name 1 --founders 0,1,2", 25);
       muoswyld_step(&node, "tick", 4, answer, sizeof answer, &length);
       muoswyld_close(&node);

   muoswyld_do gives the same node an event as bytes, and gets its answer as bytes (docs/EMBEDDING.md, "The binary call"). They say
   the same as lines and their answers, but no digits have to be written and read.

   The contracts of these calls stand beside them in crates/am_c/src/lib.rt. They say that a handle's node is the one after the lines
   and events that have been answered, and that no call reads or writes outside what it is passed and what the handle owns. They hold
   for a caller that keeps to these rules:

   - A handle begins as {0}, and only these calls write to it. An open one isn't copied.
   - The pointers of one call lead to memory that is there, and no two to the same. `line`, `event` and `options` are only read.
   - Calls on one handle come one after another, from the thread that opened it. Two handles have nothing in common.
   - malloc, realloc and free are one allocator's, as a C library's are. No call is made from a signal handler.
   - The thread has MUOSWYLD_STACK bytes of stack left. No proof speaks of the stack; bindings/c/stack.c measures it.

   Link crates/am_c/out/libam_c.a, and after it c/liblibc_c.a of the toolchain's folder (docs/EMBEDDING.md). Nothing is proved of
   libam_c_unproved.a beside it, which `tools/library.py --quick` builds. */
#ifndef MUOSWYLD_H
#define MUOSWYLD_H

#include <stddef.h>
#include <stdint.h>

#ifdef __cplusplus
extern "C" {
#endif

/* A handle: closed while `at` is null, as it begins. */
typedef struct {
    void *at;
} muoswyld_node;

/* A call takes at most this many bytes of stack. `muoswyld_step` and `muoswyld_do` take the most, if a vote comes to a ballot. */
#define MUOSWYLD_STACK 65536

/* The numbers that a call returns. */
enum {
    /* all was done */
    MUOSWYLD_DONE = 0,
    /* There was no memory. A handle stays closed, or answers nothing any more: close it. */
    MUOSWYLD_NO_MEMORY = 1,
    /* the answer is longer than its room */
    MUOSWYLD_NO_ROOM = 2,
    /* the handle is closed */
    MUOSWYLD_CLOSED = 3,
    /* the handle is open already */
    MUOSWYLD_OPEN = 4,
    /* these aren't options */
    MUOSWYLD_BAD_OPTIONS = 5,
    /* the answer to another line or event waits for room */
    MUOSWYLD_OTHER_LINE = 6,
    /* a pointer is null that may not be */
    MUOSWYLD_NULL = 7,
    /* a length is greater than any memory's */
    MUOSWYLD_LENGTH = 8
};

/* The calls of the library. They are proved, and trust their pointers. After the end of this file these names stand for the
   functions below, which check pointers and lengths first, and then make the same call. */
int muoswyld_open(muoswyld_node *node, const uint8_t *options, size_t n);
int muoswyld_step(muoswyld_node *node, const uint8_t *line, size_t n, uint8_t *answer, size_t room, size_t *length);
int muoswyld_do(muoswyld_node *node, const uint8_t *event, size_t n, uint8_t *answer, size_t room, size_t *length);
int muoswyld_close(muoswyld_node *node);

/* The library that is linked: "proved SOURCES TOOLCHAIN", or "unproved SOURCES TOOLCHAIN" if `tools/library.py --quick` built it. SOURCES is the
   beginning of a sum of the sources. This call is C, which tools/library.py adds to the library. */
const char *muoswyld_version(void);

/* Opens a closed handle. `options` are the n bytes after the word `node` of a command, with one blank between two words:
   `--name N --founders N,N,..`, and optionally `--resilience N`, `--window N` and `--pb-up-to N`, each once, in any order. A founder
   begins as a member, and any other name as one that nobody has seen.

   DONE; NO_MEMORY, and the handle stays closed; OPEN, and it stays as it is; BAD_OPTIONS, and it stays closed. NULL, LENGTH. */
static inline int muoswyld_checked_open(muoswyld_node *node, const void *options, size_t n) {
    if (node == NULL || options == NULL) return MUOSWYLD_NULL;
    if (n > PTRDIFF_MAX) return MUOSWYLD_LENGTH;
    return muoswyld_open(node, (const uint8_t *)options, n);
}

/* Gives an open node a line of n bytes, without a newline. Its answer is written to the head of `answer`, which has `room`
   bytes, and its length to `length`. No zero follows it. A wrong line is answered `bad line CAUSE`, and so is a line with a newline
   in it. An empty line is answered so, too, while the word `node` ignores it.

   DONE: the line has its answer. At any other number it has none, and `answer` is as it was:
   NO_ROOM: `length` says how many bytes the answer has. Give the same line again, with that much room. The answer waits until
     then. So that it is never lost, any other line or event is refused with OTHER_LINE, and changes nothing. (Lines above 4,096 bytes
     are all the same to a node: their answer is `bad line 4`.) Few answers have more than 4,096 bytes; of nine letters, the most
     that there are, one has some 24,000.
   NO_MEMORY: no line or event is answered from now on. It doesn't come while an answer waits.
   CLOSED, and nothing changes. NULL (`answer` may be null if `room` is 0), LENGTH. */
static inline int muoswyld_checked_step(muoswyld_node *node, const void *line, size_t n, void *answer, size_t room, size_t *length) {
    uint8_t none;
    if (node == NULL || line == NULL || length == NULL || (answer == NULL && room != 0)) return MUOSWYLD_NULL;
    if (n > PTRDIFF_MAX || room > PTRDIFF_MAX) return MUOSWYLD_LENGTH;
    return muoswyld_step(node, (const uint8_t *)line, n, answer == NULL ? &none : (uint8_t *)answer, room, length);
}

/* Gives an open node an event of n bytes. Its answer is written to the head of `answer`, which has `room` bytes, and its length to
   `length`: the node's state, the outcome, and the letters. Bytes that are no event are answered like this, too. Lines and events
   may come in any order.

   DONE: the event has its answer. At any other number it has none, and `answer` is as it was:
   NO_ROOM: `length` says how many bytes the answer has. Give the same event again, with that much room. The answer waits until
     then. So that it is never lost, any other event or line is refused with OTHER_LINE, and changes nothing. (Events above 4,096
     bytes are all the same to a node.) Few answers have more than 4,096 bytes; of nine letters, the most that there are, one has
     some 11,600.
   NO_MEMORY: no line or event is answered from now on. It doesn't come while an answer waits.
   CLOSED, and nothing changes. NULL (`answer` may be null if `room` is 0), LENGTH. */
static inline int muoswyld_checked_do(muoswyld_node *node, const void *event, size_t n, void *answer, size_t room, size_t *length) {
    uint8_t none;
    if (node == NULL || event == NULL || length == NULL || (answer == NULL && room != 0)) return MUOSWYLD_NULL;
    if (n > PTRDIFF_MAX || room > PTRDIFF_MAX) return MUOSWYLD_LENGTH;
    return muoswyld_do(node, (const uint8_t *)event, n, answer == NULL ? &none : (uint8_t *)answer, room, length);
}

/* Closes a handle, and gives its memory back. DONE; CLOSED if it was closed. NULL. */
static inline int muoswyld_checked_close(muoswyld_node *node) {
    return node == NULL ? MUOSWYLD_NULL : muoswyld_close(node);
}

#define muoswyld_open muoswyld_checked_open
#define muoswyld_step muoswyld_checked_step
#define muoswyld_do muoswyld_checked_do
#define muoswyld_close muoswyld_checked_close

#ifdef __cplusplus
}
#endif
#endif
