/* Loaded into a server by LD_PRELOAD: each sync takes longer, is counted, and is timed.

   SYNC_DELAY   by how many microseconds longer; 2000 if not said
   SYNC_COUNT   a file of two numbers of eight bytes, which all processes that name it add to: how many syncs there were, and
                how many nanoseconds they took; if not said, none are counted

   Used by: scripts/bench-server, and one_tenant.py, which sets both variables. */
#define _GNU_SOURCE
#include <dlfcn.h>
#include <fcntl.h>
#include <stdatomic.h>
#include <stdint.h>
#include <stdlib.h>
#include <sys/mman.h>
#include <time.h>
#include <unistd.h>

static useconds_t delay = 2000;
static _Atomic uint64_t *count; /* and behind it the time */

__attribute__((constructor)) static void begin(void) {
    const char *said = getenv("SYNC_DELAY"), *path = getenv("SYNC_COUNT");
    if (said) delay = (useconds_t)atoi(said);
    if (!path) return;
    int file = open(path, O_RDWR | O_CLOEXEC);
    void *bytes = mmap(NULL, 2 * sizeof *count, PROT_READ | PROT_WRITE, MAP_SHARED, file, 0);
    if (bytes == MAP_FAILED) abort();
    close(file);
    count = bytes;
}

static uint64_t now(void) {
    struct timespec time;
    clock_gettime(CLOCK_MONOTONIC, &time);
    return (uint64_t)time.tv_sec * 1000000000u + (uint64_t)time.tv_nsec;
}

static int later(const char *name, int file) {
    uint64_t begun = now();
    if (delay) usleep(delay);
    int status = ((int (*)(int))dlsym(RTLD_NEXT, name))(file);
    if (count) {
        atomic_fetch_add(count, 1);
        atomic_fetch_add(count + 1, now() - begun);
    }
    return status;
}

int fsync(int file) { return later("fsync", file); }
int fdatasync(int file) { return later("fdatasync", file); }
