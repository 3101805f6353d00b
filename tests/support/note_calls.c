/* Notes each call that writes a file, syncs one, cuts one off or writes a reply, in the order in
   which the calls end: a line on descriptor NOTE_FD with the call, the path of the file, or `reply`
   for standard output, and of what was written the first six bytes and whether it ends a line, with
   LF and blanks as `.`. */
#define _GNU_SOURCE
#include <dlfcn.h>
#include <stdio.h>
#include <stdlib.h>
#include <sys/types.h>
#include <unistd.h>

static void note(const char *call, int file, const char *bytes, size_t count)
{
    const char *given = getenv("NOTE_FD");
    char name[64], path[4096], front[7];
    size_t at;
    ssize_t length;
    if (!given || file == atoi(given))
        return;
    for (at = 0; at < count && at < 6; at++)
        front[at] = bytes[at] == '\n' || bytes[at] == ' ' ? '.' : bytes[at] > 0 ? bytes[at] : '?';
    front[at] = 0;
    snprintf(name, sizeof name, "/proc/self/fd/%d", file);
    length = readlink(name, path, sizeof path - 1);
    path[length < 0 ? 0 : length] = 0;
    dprintf(atoi(given), "%s %s %s %d\n", call, file == 1 ? "reply" : path, front,
            count > 0 && bytes[count - 1] == '\n');
}

ssize_t write(int file, const void *bytes, size_t count)
{
    static ssize_t (*real)(int, const void *, size_t);
    ssize_t done;
    if (!real)
        real = (ssize_t (*)(int, const void *, size_t)) dlsym(RTLD_NEXT, "write");
    done = real(file, bytes, count);
    note("write", file, bytes, count);
    return done;
}

ssize_t pwrite(int file, const void *bytes, size_t count, off_t place)
{
    static ssize_t (*real)(int, const void *, size_t, off_t);
    ssize_t done;
    if (!real)
        real = (ssize_t (*)(int, const void *, size_t, off_t)) dlsym(RTLD_NEXT, "pwrite");
    done = real(file, bytes, count, place);
    note("write", file, NULL, 0);
    return done;
}

int fdatasync(int file)
{
    static int (*real)(int);
    int done;
    if (!real)
        real = (int (*)(int)) dlsym(RTLD_NEXT, "fdatasync");
    done = real(file);
    note("sync", file, NULL, 0);
    return done;
}

int fsync(int file)
{
    static int (*real)(int);
    int done;
    if (!real)
        real = (int (*)(int)) dlsym(RTLD_NEXT, "fsync");
    done = real(file);
    note("sync", file, NULL, 0);
    return done;
}

int ftruncate(int file, off_t length)
{
    static int (*real)(int, off_t);
    int done;
    if (!real)
        real = (int (*)(int, off_t)) dlsym(RTLD_NEXT, "ftruncate");
    done = real(file, length);
    note("cut", file, NULL, 0);
    return done;
}
