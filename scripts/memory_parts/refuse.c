/* Loaded into a program by LD_PRELOAD: refuses one of its requests for memory, each by the C library's answer for "out of memory".

   REFUSE_AT    the number of the request that is refused, from 1 on; 0 or nothing: none. All threads count together.
   REFUSE_MARK  a file that is made when that request comes

   Requests are the calls of each function of glibc that gives memory. A request that is refused does nothing else: a `realloc`
   leaves the old block as it was. The C library's own requests by these names count too, such as those for a thread's stack data.
   What is asked for before the program's start is not counted. Used by: scripts/fail-each-allocation. */
#define _GNU_SOURCE
#include <errno.h>
#include <fcntl.h>
#include <malloc.h>
#include <stdint.h>
#include <stdlib.h>
#include <unistd.h>

/* The functions behind those of this file. `dlsym` would ask for memory itself. */
void *__libc_malloc(size_t);
void *__libc_calloc(size_t, size_t);
void *__libc_realloc(void *, size_t);
void *__libc_memalign(size_t, size_t);
void *__libc_valloc(size_t);
void *__libc_pvalloc(size_t);

static long left;
static const char *mark;

__attribute__((constructor)) static void set_up(void) {
    const char *at = getenv("REFUSE_AT");
    mark = getenv("REFUSE_MARK");
    __atomic_store_n(&left, at ? atol(at) : 0, __ATOMIC_SEQ_CST);
}

/* Counts a request. Of all threads one alone finds the last number. */
static int is_refused(void) {
    int made;
    if (__atomic_sub_fetch(&left, 1, __ATOMIC_SEQ_CST) != 0) return 0;
    made = mark ? open(mark, O_CREAT | O_WRONLY | O_CLOEXEC, 0600) : -1;
    if (made >= 0) close(made);
    errno = ENOMEM;
    return 1;
}

void *malloc(size_t size) { return is_refused() ? NULL : __libc_malloc(size); }

void *calloc(size_t count, size_t size) { return is_refused() ? NULL : __libc_calloc(count, size); }

void *realloc(void *block, size_t size) { return is_refused() ? NULL : __libc_realloc(block, size); }

void *reallocarray(void *block, size_t count, size_t size) {
    size_t whole;
    if (is_refused()) return NULL;
    if (__builtin_mul_overflow(count, size, &whole)) {
        errno = ENOMEM;
        return NULL;
    }
    return __libc_realloc(block, whole);
}

void *memalign(size_t alignment, size_t size) { return is_refused() ? NULL : __libc_memalign(alignment, size); }

void *aligned_alloc(size_t alignment, size_t size) { return is_refused() ? NULL : __libc_memalign(alignment, size); }

int posix_memalign(void **block, size_t alignment, size_t size) {
    void *given;
    if (alignment % sizeof(void *) != 0 || (alignment & (alignment - 1)) != 0 || alignment == 0) return EINVAL;
    given = is_refused() ? NULL : __libc_memalign(alignment, size);
    if (!given) return ENOMEM;
    *block = given;
    return 0;
}

void *valloc(size_t size) { return is_refused() ? NULL : __libc_valloc(size); }

void *pvalloc(size_t size) { return is_refused() ? NULL : __libc_pvalloc(size); }
