/* Loaded into a program by LD_PRELOAD: a read of a file gives one byte, and the read at its end fails, as if a disk took too long. If UNREAD is
   the path of a file, each read of that one fails instead, and others are as they are.

   Used by: scripts/check-texts, for the rows with `reads = failing`; scripts/check-stories, for the lines `unread`. */
#define _GNU_SOURCE
#include <dlfcn.h>
#include <errno.h>
#include <stdlib.h>
#include <sys/stat.h>
#include <unistd.h>

static ssize_t (*next_read)(int, void *, size_t);

/* Whether this descriptor is of the file at a path. */
static int is_of(int descriptor, const char *path) {
    struct stat one, other;
    return !fstat(descriptor, &one) && !stat(path, &other) && one.st_dev == other.st_dev && one.st_ino == other.st_ino;
}

__attribute__((constructor)) static void begin(void) {
    next_read = (ssize_t (*)(int, void *, size_t))dlsym(RTLD_NEXT, "read");
    if (!next_read) abort();
}

ssize_t read(int descriptor, void *bytes, size_t count) {
    const char *unread = getenv("UNREAD");
    if (unread) {
        if (!is_of(descriptor, unread)) return next_read(descriptor, bytes, count);
        errno = EIO;
        return -1;
    }
    ssize_t given = next_read(descriptor, bytes, descriptor > STDERR_FILENO && count > 1 ? 1 : count);
    if (given == 0 && count > 0 && descriptor > STDERR_FILENO) {
        errno = ETIMEDOUT;
        return -1;
    }
    return given;
}
