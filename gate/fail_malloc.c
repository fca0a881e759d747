/* Loaded before a program, makes its allocation of the number FAIL_AT fail, and tells on standard error how many there were,
   and how many bytes they asked for together, where COUNT_ALLOCATIONS is set. */
#define _GNU_SOURCE
#include <dlfcn.h>
#include <errno.h>
#include <stdio.h>
#include <stdlib.h>
#include <unistd.h>

static long seen;
static long bytes;

static int fails(size_t size)
{
    const char *at = getenv("FAIL_AT");
    seen += 1;
    bytes += (long)size;
    if (at == NULL || seen != atol(at))
        return 0;
    errno = ENOMEM;
    return 1;
}

void *malloc(size_t size)
{
    void *(*next)(size_t) = (void *(*)(size_t))dlsym(RTLD_NEXT, "malloc");
    return fails(size) ? NULL : next(size);
}

void *realloc(void *block, size_t size)
{
    void *(*next)(void *, size_t) = (void *(*)(void *, size_t))dlsym(RTLD_NEXT, "realloc");
    return fails(size) ? NULL : next(block, size);
}

static void tell(void)
{
    if (getenv("COUNT_ALLOCATIONS") != NULL)
        fprintf(stderr, "%ld %ld\n", seen, bytes);
}

/* a program that may start threads ends by this, and others by the destructors */
void _exit(int status)
{
    void (*next)(int) = (void (*)(int))dlsym(RTLD_NEXT, "_exit");
    tell();
    next(status);
    __builtin_unreachable();
}

__attribute__((destructor)) static void end(void)
{
    tell();
}
