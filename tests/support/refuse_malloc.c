/* Refuses the N-th request for memory of a program (REFUSE_AT=N), and reports that by a byte on
   descriptor REFUSE_FD; if none was refused, the number of requests is written there at the end. */
#define _GNU_SOURCE
#include <dlfcn.h>
#include <errno.h>
#include <stdio.h>
#include <stdlib.h>
#include <unistd.h>

static long calls, at, fd = -1;
static int has_begun;

/* A request may come before any constructor. */
static void begin(void)
{
    const char *given_at = getenv("REFUSE_AT"), *given_fd = getenv("REFUSE_FD");
    at = given_at ? atol(given_at) : 0;
    fd = given_fd ? atol(given_fd) : -1;
    has_begun = 1;
}

__attribute__((destructor)) static void end(void)
{
    long counted = calls;
    if (fd >= 0 && counted < at)
        dprintf((int) fd, "%ld", counted);
}

static int refused(void)
{
    if (!has_begun)
        begin();
    if (at == 0 || ++calls != at)
        return 0;
    if (fd >= 0)
        (void) !write((int) fd, "!", 1);
    errno = ENOMEM;
    return 1;
}

void *malloc(size_t size)
{
    static void *(*real)(size_t);
    if (!real)
        real = (void *(*)(size_t)) dlsym(RTLD_NEXT, "malloc");
    return refused() ? NULL : real(size);
}

void *realloc(void *old, size_t size)
{
    static void *(*real)(void *, size_t);
    if (!real)
        real = (void *(*)(void *, size_t)) dlsym(RTLD_NEXT, "realloc");
    return refused() ? NULL : real(old, size);
}

int posix_memalign(void **out, size_t alignment, size_t size)
{
    static int (*real)(void **, size_t, size_t);
    if (!real)
        real = (int (*)(void **, size_t, size_t)) dlsym(RTLD_NEXT, "posix_memalign");
    return refused() ? ENOMEM : real(out, alignment, size);
}

void *aligned_alloc(size_t alignment, size_t size)
{
    static void *(*real)(size_t, size_t);
    if (!real)
        real = (void *(*)(size_t, size_t)) dlsym(RTLD_NEXT, "aligned_alloc");
    return refused() ? NULL : real(alignment, size);
}
