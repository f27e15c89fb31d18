/* Refuses one allocation: the one that MJ_STARVE counts, from 1. Where it comes to that, a file named by MJ_STARVED is made.
   It is preloaded by checks/starved. */
#define _GNU_SOURCE
#include <fcntl.h>
#include <stddef.h>
#include <stdlib.h>
#include <unistd.h>

extern void *__libc_malloc(size_t);
extern void *__libc_calloc(size_t, size_t);
extern void *__libc_realloc(void *, size_t);
extern void *__libc_memalign(size_t, size_t);

static long left = -1;

static int refused(void) {
    long before;
    if (left < 0) {
        const char *told = getenv("MJ_STARVE");
        left = told ? atol(told) : 0;
    }
    before = __atomic_fetch_sub(&left, left > 0, __ATOMIC_SEQ_CST);
    if (before != 1) return 0;
    const char *mark = getenv("MJ_STARVED");
    int file = mark ? open(mark, O_WRONLY | O_CREAT, 0600) : -1;
    if (file >= 0) close(file);
    return 1;
}

void *malloc(size_t n) { return refused() ? NULL : __libc_malloc(n); }
void *calloc(size_t n, size_t m) { return refused() ? NULL : __libc_calloc(n, m); }
void *realloc(void *p, size_t n) { return refused() ? NULL : __libc_realloc(p, n); }
void *memalign(size_t a, size_t n) { return refused() ? NULL : __libc_memalign(a, n); }
void *aligned_alloc(size_t a, size_t n) { return refused() ? NULL : __libc_memalign(a, n); }
