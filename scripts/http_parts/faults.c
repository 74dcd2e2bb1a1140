/* Loaded into mwserve by LD_PRELOAD: has its calls on sockets move few bytes or fail, and its clock fail. The file FAULTS has six numbers of
   four bytes, which may change at any time:

   0  the most bytes that one call moves
   1  how many bytes may still be received
   2  the error of a call that would receive more. 0: it receives nothing
   3  how many bytes may still be sent
   4  the error of a call that would send more. 0: it takes nothing
   5  whether the time of day can't be read

   Used by: scripts/http_parts/answers.py. */
#define _GNU_SOURCE
#include <dlfcn.h>
#include <errno.h>
#include <fcntl.h>
#include <stdlib.h>
#include <sys/mman.h>
#include <sys/socket.h>
#include <sys/syscall.h>
#include <time.h>
#include <unistd.h>

enum { PIECE, TO_RECEIVE, RECEIVE_ERROR, TO_SEND, SEND_ERROR, NO_DATE, NUMBERS };

static volatile int *numbers;

__attribute__((constructor)) static void begin(void) {
    const char *path = getenv("FAULTS");
    int file = path ? open(path, O_RDWR | O_CLOEXEC) : -1;
    void *mapped = file < 0 ? MAP_FAILED : mmap(0, NUMBERS * sizeof *numbers, PROT_READ | PROT_WRITE, MAP_SHARED, file, 0);
    if (mapped == MAP_FAILED) abort();
    numbers = mapped;
    close(file);
}

/* How many bytes a call may move. */
static size_t most(int left, size_t count) {
    if (count > (size_t)numbers[PIECE]) count = (size_t)numbers[PIECE];
    return count > (size_t)numbers[left] ? (size_t)numbers[left] : count;
}

/* What a call gives that may move nothing. */
static ssize_t none(int error) {
    errno = numbers[error];
    return errno ? -1 : 0;
}

ssize_t recv(int descriptor, void *bytes, size_t count, int flags) {
    ssize_t (*next)(int, void *, size_t, int) = (ssize_t (*)(int, void *, size_t, int))dlsym(RTLD_NEXT, "recv");
    ssize_t moved;
    if (count && !numbers[TO_RECEIVE]) return none(RECEIVE_ERROR);
    moved = next(descriptor, bytes, most(TO_RECEIVE, count), flags);
    if (moved > 0) numbers[TO_RECEIVE] -= (int)moved;
    return moved;
}

ssize_t send(int descriptor, const void *bytes, size_t count, int flags) {
    ssize_t (*next)(int, const void *, size_t, int) = (ssize_t (*)(int, const void *, size_t, int))dlsym(RTLD_NEXT, "send");
    ssize_t moved;
    if (count && !numbers[TO_SEND]) return none(SEND_ERROR);
    moved = next(descriptor, bytes, most(TO_SEND, count), flags);
    if (moved > 0) numbers[TO_SEND] -= (int)moved;
    return moved;
}

int clock_gettime(clockid_t clock, struct timespec *now) {
    if (clock == CLOCK_REALTIME && numbers && numbers[NO_DATE]) {
        errno = EINVAL;
        return -1;
    }
    return (int)syscall(SYS_clock_gettime, clock, now);
}
