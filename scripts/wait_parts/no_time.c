/* Loaded into mwserve by LD_PRELOAD: a sleep of certain lengths doesn't end by time, so that only a wake ends it.

   ENDLESS_SLEEPS   these lengths in microseconds, with commas between them
   SLEEP_COUNT      a file of two numbers of eight bytes: how many such sleeps there were, and how many wakes of them
   LAST_WAKE        after so many wakes of a word on which a thread has slept so, none is made; if not said, all are

   Used by: scripts/check-wakes, which sets these variables. */
#define _GNU_SOURCE
#include <dlfcn.h>
#include <fcntl.h>
#include <linux/futex.h>
#include <stdarg.h>
#include <stdatomic.h>
#include <stdint.h>
#include <stdlib.h>
#include <sys/mman.h>
#include <sys/syscall.h>
#include <time.h>
#include <unistd.h>

#define MOST_LENGTHS 8
#define MOST_WORDS 256

static long lengths[MOST_LENGTHS];
static int most;
static uint64_t last = UINT64_MAX;
static _Atomic uint64_t *sleeps; /* and behind it the wakes */
static _Atomic long words[MOST_WORDS];
static long (*next)(long, ...);

__attribute__((constructor)) static void begin(void) {
    const char *said = getenv("ENDLESS_SLEEPS"), *path = getenv("SLEEP_COUNT"), *end = getenv("LAST_WAKE");
    if (!said || !path) abort();
    for (char *rest = (char *)said; *rest && most < MOST_LENGTHS; rest += *rest == ',') lengths[most++] = strtol(rest, &rest, 10);
    if (end) last = strtoull(end, NULL, 10);
    int file = open(path, O_RDWR | O_CLOEXEC);
    void *bytes = mmap(NULL, 2 * sizeof *sleeps, PROT_READ | PROT_WRITE, MAP_SHARED, file, 0);
    if (bytes == MAP_FAILED) abort();
    close(file);
    sleeps = bytes;
    next = (long (*)(long, ...))dlsym(RTLD_NEXT, "syscall");
}

static int is_endless(const struct timespec *length) {
    if (!length) return 0;
    for (int i = 0; i < most; i++)
        if (length->tv_sec == lengths[i] / 1000000 && length->tv_nsec == lengths[i] % 1000000 * 1000) return 1;
    return 0;
}

/* Whether a thread has slept so on this word; notes it if one is about to. */
static int is_known(long word, int sleeps_now) {
    for (int i = 0; i < MOST_WORDS; i++) {
        long found = atomic_load(words + i);
        if (!found && sleeps_now && atomic_compare_exchange_strong(words + i, &found, word)) return 1;
        if (found == word) return 1;
        if (!found) return 0;
    }
    abort();
}

long syscall(long number, ...) {
    va_list given;
    long of[6];
    va_start(given, number);
    for (int i = 0; i < 6; i++) of[i] = va_arg(given, long);
    va_end(given);
    if (number == SYS_futex) {
        int call = (int)of[1] & FUTEX_CMD_MASK;
        if ((call == FUTEX_WAIT || call == FUTEX_WAIT_BITSET) && is_endless((const struct timespec *)of[3])) {
            is_known(of[0], 1);
            atomic_fetch_add(sleeps, 1);
            of[3] = 0;
        } else if (call == FUTEX_WAKE && is_known(of[0], 0) && atomic_fetch_add(sleeps + 1, 1) >= last)
            return 0;
    }
    return next(number, of[0], of[1], of[2], of[3], of[4], of[5]);
}
