/* Loaded before a program (LD_PRELOAD), refuses one growth of memory: that whose number, counted from 1, is
   in REFUSED_ALLOCATION. */
#include <stdatomic.h>
#include <stdlib.h>

extern void *__libc_malloc(size_t);
extern void *__libc_realloc(void *, size_t);

static _Atomic long left;

__attribute__((constructor)) static void begin(void) {
    const char *number = getenv("REFUSED_ALLOCATION");
    left = number ? atol(number) : 0;
}

static int is_refused(void) { return left > 0 && atomic_fetch_sub(&left, 1) == 1; }

void *malloc(size_t octets) { return is_refused() ? NULL : __libc_malloc(octets); }

void *realloc(void *old, size_t octets) { return is_refused() ? NULL : __libc_realloc(old, octets); }
