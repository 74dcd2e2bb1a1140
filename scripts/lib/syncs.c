/* Loaded into a program by LD_PRELOAD: has its syncs last longer or fail, and writes down its writes and syncs. By these variables:

   SLOW_SYNC     each sync lasts so many milliseconds longer
   FAIL_SYNC     while there is a file of this name, each sync fails
   FAIL_SYNC_OF  a sync of this file or folder fails
   CALLS_LOG     a file that gets a line for each call that went well: `write PATH COUNT`, of so many bytes, or `sync PATH`. PATH is
                 that of the open file

   Used by: scripts/check-crowd, scripts/check-locks, and scripts/check-new-file, which reads the lines: change both together. */
#define _GNU_SOURCE
#include <dlfcn.h>
#include <errno.h>
#include <fcntl.h>
#include <stdio.h>
#include <stdlib.h>
#include <string.h>
#include <time.h>
#include <unistd.h>

static ssize_t (*next_write)(int, const void *, size_t);
static int records = -1;

__attribute__((constructor)) static void begin(void) {
    const char *log = getenv("CALLS_LOG");
    next_write = (ssize_t (*)(int, const void *, size_t))dlsym(RTLD_NEXT, "write");
    if (log) records = open(log, O_WRONLY | O_CREAT | O_APPEND | O_CLOEXEC, 0600);
    if (!next_write || (log && records < 0)) abort();
}

static void path_of(int descriptor, char *path, size_t size) {
    char link[64];
    ssize_t found;
    snprintf(link, sizeof link, "/proc/self/fd/%d", descriptor);
    found = readlink(link, path, size - 1);
    path[found < 0 ? 0 : found] = 0;
}

static void record(const char *what, int descriptor, long count) {
    char path[4096], line[4400];
    int length;
    if (records < 0) return;
    path_of(descriptor, path, sizeof path);
    length = snprintf(line, sizeof line, count < 0 ? "%s %s\n" : "%s %s %ld\n", what, path, count);
    if (next_write(records, line, (size_t)length) != length) abort();
}

ssize_t write(int descriptor, const void *bytes, size_t count) {
    ssize_t written = next_write(descriptor, bytes, count);
    if (written >= 0) record("write", descriptor, written);
    return written;
}

static int sync_by(const char *name, int descriptor) {
    const char *slow = getenv("SLOW_SYNC"), *fails = getenv("FAIL_SYNC"), *failing = getenv("FAIL_SYNC_OF");
    long milliseconds = slow ? atol(slow) : 0;
    struct timespec time = { milliseconds / 1000, milliseconds % 1000 * 1000000 };
    char path[4096];
    int synced;
    nanosleep(&time, 0);
    path_of(descriptor, path, sizeof path);
    if ((fails && access(fails, F_OK) == 0) || (failing && strcmp(failing, path) == 0)) {
        errno = EIO;
        return -1;
    }
    synced = ((int (*)(int))dlsym(RTLD_NEXT, name))(descriptor);
    if (synced == 0) record("sync", descriptor, -1);
    return synced;
}

int fsync(int descriptor) { return sync_by("fsync", descriptor); }

int fdatasync(int descriptor) { return sync_by("fdatasync", descriptor); }
