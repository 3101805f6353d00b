/* From its N-th call on (REFUSE_AT=N) the disk refuses all that would change a file, as a disk does
   that stops or is full; with REFUSE_ONCE=E the N-th call alone fails, with the error number E, and
   reads count too, unless E is the one of a full disk. With REFUSE_IN=TEXT there are two disks, and
   only that of the files whose paths have the text stops; with =TEXT, of those that end with it. Of
   the first write to the end of a file that is refused half is written. With REFUSE_FORGET=1 the
   disk of a program that met a refusal has in the end what was synced alone: what was written to a
   file since then is undone. A byte on descriptor REFUSE_FD reports the first refusal; if none was
   refused, the number of calls is written there at the end. */
#define _GNU_SOURCE
#include <dlfcn.h>
#include <errno.h>
#include <fcntl.h>
#include <stdio.h>
#include <stdlib.h>
#include <string.h>
#include <sys/stat.h>
#include <sys/types.h>
#include <unistd.h>

static long calls, at, once, fd;
static const char *within, *forgets;

/* What a file had before a change that is not synced yet; the last change is the first one. */
struct change {
    struct change *before;
    struct stat was;
    char path[512];
    off_t place;
    ssize_t count;
    char bytes[];
};
static struct change *changes;

static void name_of(int file, char *path, size_t size)
{
    char name[64];
    ssize_t length;
    snprintf(name, sizeof name, "/proc/self/fd/%d", file);
    length = readlink(name, path, size - 1);
    path[length < 0 ? 0 : length] = 0;
}

static void note_change(int file, off_t place, size_t count)
{
    static ssize_t (*read_at)(int, void *, size_t, off_t);
    struct change *it;
    if (!forgets || !(it = malloc(sizeof *it + count)))
        return;
    if (!read_at)
        read_at = (ssize_t (*)(int, void *, size_t, off_t)) dlsym(RTLD_NEXT, "pread");
    fstat(file, &it->was);
    name_of(file, it->path, sizeof it->path);
    it->place = place;
    it->count = read_at(file, it->bytes, count, place);
    it->before = changes;
    changes = it;
}

static void keep_changes(int file)
{
    struct change **link = &changes, *it;
    struct stat now;
    fstat(file, &now);
    while ((it = *link)) {
        if (it->was.st_dev == now.st_dev && it->was.st_ino == now.st_ino) {
            *link = it->before;
            free(it);
        } else {
            link = &it->before;
        }
    }
}

static void undo_changes(void)
{
    ssize_t (*write_at)(int, const void *, size_t, off_t) =
        (ssize_t (*)(int, const void *, size_t, off_t)) dlsym(RTLD_NEXT, "pwrite");
    int (*cut)(int, off_t) = (int (*)(int, off_t)) dlsym(RTLD_NEXT, "ftruncate");
    for (; changes; changes = changes->before) {
        int file = open(changes->path, O_WRONLY);
        if (file < 0)
            continue;
        if (changes->count > 0)
            (void) !write_at(file, changes->bytes, changes->count, changes->place);
        (void) !cut(file, changes->was.st_size);
        close(file);
    }
}

__attribute__((constructor)) static void begin(void)
{
    const char *given_at = getenv("REFUSE_AT"), *given_once = getenv("REFUSE_ONCE");
    const char *given_fd = getenv("REFUSE_FD");
    within = getenv("REFUSE_IN");
    forgets = getenv("REFUSE_FORGET");
    at = given_at ? atol(given_at) : 0;
    once = given_once ? atol(given_once) : 0;
    fd = given_fd ? atol(given_fd) : -1;
}

__attribute__((destructor)) static void end(void)
{
    if (at && calls >= at)
        undo_changes();
    if (fd >= 0 && calls < at)
        dprintf((int) fd, "%ld", calls);
}

static int is_elsewhere(int file)
{
    char path[4096];
    ssize_t length;
    if (!within)
        return 0;
    name_of(file, path, sizeof path);
    if (*within != '=')
        return !strstr(path, within);
    length = strlen(path) - strlen(within + 1);
    return length < 0 || strcmp(path + length, within + 1);
}

static int refused(int file, int only_reads)
{
    if (at == 0 || (only_reads && (once == 0 || once == ENOSPC)) || is_elsewhere(file))
        return 0;
    if (++calls < at || (once && calls > at))
        return 0;
    if (fd >= 0 && calls == at)
        (void) !write((int) fd, "!", 1);
    errno = once ? (int) once : EIO;
    return 1;
}

ssize_t pread(int file, void *bytes, size_t count, off_t place)
{
    static ssize_t (*real)(int, void *, size_t, off_t);
    if (!real)
        real = (ssize_t (*)(int, void *, size_t, off_t)) dlsym(RTLD_NEXT, "pread");
    return refused(file, 1) ? -1 : real(file, bytes, count, place);
}

ssize_t pwrite(int file, const void *bytes, size_t count, off_t place)
{
    static ssize_t (*real)(int, const void *, size_t, off_t);
    if (!real)
        real = (ssize_t (*)(int, const void *, size_t, off_t)) dlsym(RTLD_NEXT, "pwrite");
    if (refused(file, 0))
        return -1;
    note_change(file, place, count);
    return real(file, bytes, count, place);
}

/* Pipes count for nothing, and neither does what is written to them. */
ssize_t write(int file, const void *bytes, size_t count)
{
    static ssize_t (*real)(int, const void *, size_t);
    struct stat what;
    if (!real)
        real = (ssize_t (*)(int, const void *, size_t)) dlsym(RTLD_NEXT, "write");
    if (at == 0 || fstat(file, &what) || !S_ISREG(what.st_mode))
        return real(file, bytes, count);
    note_change(file, what.st_size, 0);
    if (!refused(file, 0))
        return real(file, bytes, count);
    if (calls == at)
        (void) !real(file, bytes, count / 2);
    errno = once ? (int) once : EIO;
    return -1;
}

int fdatasync(int file)
{
    static int (*real)(int);
    if (!real)
        real = (int (*)(int)) dlsym(RTLD_NEXT, "fdatasync");
    if (refused(file, 0) || real(file))
        return -1;
    keep_changes(file);
    return 0;
}

int fsync(int file)
{
    static int (*real)(int);
    if (!real)
        real = (int (*)(int)) dlsym(RTLD_NEXT, "fsync");
    if (refused(file, 0) || real(file))
        return -1;
    keep_changes(file);
    return 0;
}

int ftruncate(int file, off_t length)
{
    static int (*real)(int, off_t);
    struct stat was;
    if (!real)
        real = (int (*)(int, off_t)) dlsym(RTLD_NEXT, "ftruncate");
    if (refused(file, 0))
        return -1;
    if (!fstat(file, &was))
        note_change(file, length, was.st_size > length ? (size_t) (was.st_size - length) : 0);
    return real(file, length);
}
