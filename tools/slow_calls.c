/* Loaded before a program (LD_PRELOAD), has its threads give way at random where they take or give back memory: of SLOW_EVERY
   such calls one gives its processor away, and of eight of those one sleeps for up to SLOW_MICROSECONDS. What is drawn
   depends on SLOW_SEED and on how many threads have come before. */
#define _GNU_SOURCE
#include <sched.h>
#include <stdatomic.h>
#include <stdint.h>
#include <stdlib.h>
#include <time.h>

extern void *__libc_malloc(size_t);
extern void *__libc_realloc(void *, size_t);
extern void __libc_free(void *);

static _Atomic uint64_t threads;
static _Thread_local uint64_t drawn;
static uint64_t seed, every, microseconds;

static uint64_t number_in(const char *name, uint64_t usual) {
    const char *number = getenv(name);
    return number ? strtoull(number, NULL, 10) : usual;
}

__attribute__((constructor)) static void begin(void) {
    seed = number_in("SLOW_SEED", 1);
    microseconds = number_in("SLOW_MICROSECONDS", 50);
    every = number_in("SLOW_EVERY", 4);
}

static uint64_t draw(void) {
    if (!drawn) drawn = (seed + ++threads) * 0x9e3779b97f4a7c15u | 1;
    drawn ^= drawn << 13;
    drawn ^= drawn >> 7;
    drawn ^= drawn << 17;
    return drawn >> 8;
}

static void give_way(void) {
    if (!every || draw() % every) return;
    if (draw() % 8) {
        sched_yield();
        return;
    }
    struct timespec rest = {0, (long)(draw() % (1000 * microseconds + 1))};
    nanosleep(&rest, NULL);
}

void *malloc(size_t octets) {
    give_way();
    return __libc_malloc(octets);
}

void *realloc(void *old, size_t octets) {
    give_way();
    return __libc_realloc(old, octets);
}

void free(void *octets) {
    __libc_free(octets);
    give_way();
}
