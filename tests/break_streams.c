/* Breaks the standard streams of the program that this is loaded into, as these variables say, each a number; those that are not there
 * break nothing. A read of the input gives at most READ_SIZE bytes. So many of the reads as READ_INTERRUPTED says are interrupted, one
 * before each of the others as long as there are any. Of these others the one with the number READ_FAILS_AT, from 1, fails. A write to
 * the output takes at most WRITE_SIZE bytes. The one with the number WRITE_BREAKS_AT, from 1, fails with the error WRITE_ERROR, and
 * takes nothing where that is 0. */
#define _GNU_SOURCE
#include <dlfcn.h>
#include <errno.h>
#include <stdlib.h>
#include <unistd.h>

static unsigned long setting(const char *name)
{
    const char *text = getenv(name);
    return text ? strtoul(text, NULL, 10) : 0;
}

static size_t at_most(size_t size, const char *name)
{
    size_t limit = setting(name);
    return limit && limit < size ? limit : size;
}

ssize_t read(int stream, void *room, size_t size)
{
    static ssize_t (*next)(int, void *, size_t);
    static unsigned long reads, interrupted;
    static int is_interrupted;
    if (!next)
        next = (ssize_t (*)(int, void *, size_t))dlsym(RTLD_NEXT, "read");
    if (stream != STDIN_FILENO)
        return next(stream, room, size);
    is_interrupted = !is_interrupted && interrupted < setting("READ_INTERRUPTED");
    if (is_interrupted) {
        interrupted += 1;
        errno = EINTR;
        return -1;
    }
    reads += 1;
    if (reads == setting("READ_FAILS_AT")) {
        errno = EIO;
        return -1;
    }
    return next(stream, room, at_most(size, "READ_SIZE"));
}

ssize_t write(int stream, const void *bytes, size_t size)
{
    static ssize_t (*next)(int, const void *, size_t);
    static unsigned long writes;
    if (!next)
        next = (ssize_t (*)(int, const void *, size_t))dlsym(RTLD_NEXT, "write");
    if (stream != STDOUT_FILENO)
        return next(stream, bytes, size);
    writes += 1;
    if (writes == setting("WRITE_BREAKS_AT")) {
        errno = setting("WRITE_ERROR");
        return errno ? -1 : 0;
    }
    return next(stream, bytes, at_most(size, "WRITE_SIZE"));
}
