/* The first calls of accept fail, so many (ACCEPT_FAILS=N), with an error number (ACCEPT_ERROR=E).
   A connection that waits meanwhile is accepted by a later call. */
#define _GNU_SOURCE
#include <dlfcn.h>
#include <errno.h>
#include <stdlib.h>
#include <sys/socket.h>

static long left, error;

__attribute__((constructor)) static void begin(void)
{
    const char *fails = getenv("ACCEPT_FAILS"), *given = getenv("ACCEPT_ERROR");
    left = fails ? atol(fails) : 0;
    error = given ? atol(given) : 0;
}

static int is_refused(void)
{
    if (left <= 0)
        return 0;
    left--;
    errno = error;
    return 1;
}

int accept(int listener, struct sockaddr *address, socklen_t *size)
{
    int (*real)(int, struct sockaddr *, socklen_t *) =
        (int (*)(int, struct sockaddr *, socklen_t *)) dlsym(RTLD_NEXT, "accept");
    return is_refused() ? -1 : real(listener, address, size);
}

int accept4(int listener, struct sockaddr *address, socklen_t *size, int flags)
{
    int (*real)(int, struct sockaddr *, socklen_t *, int) =
        (int (*)(int, struct sockaddr *, socklen_t *, int)) dlsym(RTLD_NEXT, "accept4");
    return is_refused() ? -1 : real(listener, address, size, flags);
}
