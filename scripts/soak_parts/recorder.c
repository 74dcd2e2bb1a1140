/* Loaded into mwserve by LD_PRELOAD: writes down its writes and syncs of tenants' files, and lets calls fail that are told to.

   Used by: recording.py, which builds it and reads its lines; server.py and scripts/check-cache, which set its variables. Change them
   together.

   RECORDER_LOG    the file of the records, a line each:
                       write NAME TIME OFFSET BYTES      before a write; the bytes in hexadecimal
                       sync NAME TIME                    before a sync
                       end NAME TIME                     a write or a sync went well
                       fail NAME TIME                    a call was let fail: a write, a sync or a read
                       drop NAME TIME                    the system was asked to drop its copies of the whole file
                       open NAME TIME                    the first read of the file, behind the sync at the start
   RECORDER_FILES  NAME:FAIL_AT words with commas between: the files NAME.mw, of which the call of number FAIL_AT fails, from 1
                   on; 0 for none. Writes, syncs and reads count. A write that fails has written the first half of its bytes.
   RECORDER_PAUSE  microseconds: a sync takes at random up to so long, and the system isn't asked for it, since what a power
                   cut leaves is made of the records.
   RECORDER_LIE    where this is 1, a sync answers well and is not written down: for trying what finds it.

   TIME is CLOCK_MONOTONIC in nanoseconds. The calls on one file are made one at a time, so the records stand in their order. */
#define _GNU_SOURCE
#include <dlfcn.h>
#include <errno.h>
#include <fcntl.h>
#include <pthread.h>
#include <stdint.h>
#include <stdio.h>
#include <stdlib.h>
#include <string.h>
#include <time.h>
#include <unistd.h>

enum { MOST_FILES = 16, LONGEST_NAME = 32, LONGEST_LINE = 1 << 17 };

struct tenant_file {
    char name[LONGEST_NAME];
    long fail_at;
    long calls;
    int was_read;
    unsigned dice;
    pthread_mutex_t lock;
};

static struct tenant_file files[MOST_FILES];
static int file_count;
static int lies;
static unsigned pause_up_to;
static int records = -1;
static pthread_mutex_t line_lock = PTHREAD_MUTEX_INITIALIZER;

static ssize_t (*next_pwrite)(int, const void *, size_t, off_t);
static ssize_t (*next_pread)(int, void *, size_t, off_t);
static int (*next_fdatasync)(int);
static int (*next_fadvise)(int, off_t, off_t, int);

__attribute__((constructor)) static void begin(void) {
    const char *log = getenv("RECORDER_LOG"), *named = getenv("RECORDER_FILES");
    const char *pause = getenv("RECORDER_PAUSE"), *lie = getenv("RECORDER_LIE");
    int taken;
    next_pwrite = (ssize_t (*)(int, const void *, size_t, off_t))dlsym(RTLD_NEXT, "pwrite64");
    next_pread = (ssize_t (*)(int, void *, size_t, off_t))dlsym(RTLD_NEXT, "pread64");
    next_fdatasync = (int (*)(int))dlsym(RTLD_NEXT, "fdatasync");
    next_fadvise = (int (*)(int, off_t, off_t, int))dlsym(RTLD_NEXT, "posix_fadvise64");
    pause_up_to = pause ? (unsigned)atoi(pause) : 0;
    lies = lie && strcmp(lie, "1") == 0;
    while (named && file_count < MOST_FILES) {
        struct tenant_file *file = &files[file_count];
        if (sscanf(named, "%31[^:]:%ld%n", file->name, &file->fail_at, &taken) != 2) break;
        pthread_mutex_init(&file->lock, NULL);
        file->dice = (unsigned)getpid() + (unsigned)file_count;
        file_count++;
        named += taken;
        if (*named++ != ',') break;
    }
    if (log) records = open(log, O_WRONLY | O_CREAT | O_APPEND | O_CLOEXEC, 0600);
    if (records < 0 || !next_pwrite || !next_pread || !next_fdatasync || !next_fadvise) abort();
}

/* The tenant's file that is open so; NULL for all other files. */
static struct tenant_file *file_of(int descriptor) {
    char link[64], path[4096], *name;
    ssize_t length;
    snprintf(link, sizeof link, "/proc/self/fd/%d", descriptor);
    length = readlink(link, path, sizeof path - 1);
    if (length < 3) return NULL;
    path[length] = 0;
    if (strcmp(path + length - 3, ".mw")) return NULL;
    path[length - 3] = 0;
    name = strrchr(path, '/');
    for (int i = 0; name && i < file_count; i++) {
        if (strcmp(files[i].name, name + 1) == 0) return &files[i];
    }
    return NULL;
}

/* One record, by a single write, so that it is there whole or not at all. */
static void record(const char *what, struct tenant_file *file, off_t offset, const unsigned char *bytes, size_t count) {
    static char line[LONGEST_LINE];
    struct timespec now;
    int length;
    pthread_mutex_lock(&line_lock);
    clock_gettime(CLOCK_MONOTONIC, &now);
    length = sprintf(line, "%s %s %lld", what, file->name, (long long)now.tv_sec * 1000000000 + now.tv_nsec);
    if (bytes) {
        if (count > LONGEST_LINE / 2 - 200) abort();
        length += sprintf(line + length, " %lld ", (long long)offset);
        for (size_t i = 0; i < count; i++) length += sprintf(line + length, "%02x", bytes[i]);
    }
    line[length++] = '\n';
    if (write(records, line, (size_t)length) != length) abort();
    pthread_mutex_unlock(&line_lock);
}

static void note(const char *what, struct tenant_file *file) { record(what, file, 0, NULL, 0); }

/* Whether this call is the one that is to fail. */
static int is_to_fail(struct tenant_file *file) { return ++file->calls == file->fail_at; }

ssize_t pwrite64(int descriptor, const void *bytes, size_t count, off_t offset) {
    struct tenant_file *file = file_of(descriptor);
    ssize_t written;
    int error;
    if (!file) return next_pwrite(descriptor, bytes, count, offset);
    pthread_mutex_lock(&file->lock);
    record("write", file, offset, bytes, count);
    if (is_to_fail(file)) {
        (void)!next_pwrite(descriptor, bytes, count / 2, offset);
        written = -1;
        error = EIO;
    } else {
        written = next_pwrite(descriptor, bytes, count, offset);
        error = errno;
    }
    note(written == (ssize_t)count ? "end" : "fail", file);
    pthread_mutex_unlock(&file->lock);
    errno = error;
    return written;
}

ssize_t pread64(int descriptor, void *bytes, size_t count, off_t offset) {
    struct tenant_file *file = file_of(descriptor);
    int fails;
    if (!file) return next_pread(descriptor, bytes, count, offset);
    pthread_mutex_lock(&file->lock);
    if (!file->was_read) note("open", file);
    file->was_read = 1;
    fails = is_to_fail(file);
    if (fails) note("fail", file);
    pthread_mutex_unlock(&file->lock);
    if (!fails) return next_pread(descriptor, bytes, count, offset);
    errno = EIO;
    return -1;
}

int fdatasync(int descriptor) {
    struct tenant_file *file = file_of(descriptor);
    int fails;
    if (!file) return next_fdatasync(descriptor);
    if (lies && file->was_read) return 0;
    pthread_mutex_lock(&file->lock);
    note("sync", file);
    fails = is_to_fail(file);
    if (!fails) usleep((unsigned)(rand_r(&file->dice) % (pause_up_to + 1)));
    note(fails ? "fail" : "end", file);
    pthread_mutex_unlock(&file->lock);
    errno = fails ? EIO : 0;
    return fails ? -1 : 0;
}

int posix_fadvise64(int descriptor, off_t offset, off_t length, int advice) {
    struct tenant_file *file = file_of(descriptor);
    if (file && offset == 0 && length == 0 && advice == POSIX_FADV_DONTNEED) {
        pthread_mutex_lock(&file->lock);
        note("drop", file);
        pthread_mutex_unlock(&file->lock);
    }
    return next_fadvise(descriptor, offset, length, advice);
}

/* The same calls by their other names. */
ssize_t pwrite(int, const void *, size_t, off_t) __attribute__((alias("pwrite64")));
ssize_t pread(int, void *, size_t, off_t) __attribute__((alias("pread64")));
int posix_fadvise(int, off_t, off_t, int) __attribute__((alias("posix_fadvise64")));
