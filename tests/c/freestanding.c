/* The ring of two masters without a C library: the heap is a block of memory of this file, which is given out once. Prints
 * the telegrams until 1400, as examples/c/ring.c does. x86-64 Linux alone. */
#include <stdbool.h>
#include <stddef.h>
#include <stdint.h>

/* What the library calls: the three functions of its heap, and three of memory. */
struct tried {
    bool ok;
    uint8_t *at;
};

static uint8_t heap[160 * 1024] __attribute__((aligned(16)));
static size_t taken;

void *memcpy(void *to, const void *from, size_t count);
void *memmove(void *to, const void *from, size_t count);
void *memset(void *to, int octet, size_t count);
struct tried rattle_alloc(size_t size, size_t alignment);
struct tried rattle_realloc(uint8_t *block, size_t kept, size_t size, size_t alignment);
void rattle_dealloc(uint8_t *block);

#include "two_masters.h"

void *memcpy(void *to, const void *from, size_t count)
{
    for (size_t i = 0; i < count; i++)
        ((volatile uint8_t *)to)[i] = ((const uint8_t *)from)[i];
    return to;
}

void *memmove(void *to, const void *from, size_t count)
{
    if ((uintptr_t)to < (uintptr_t)from)
        return memcpy(to, from, count);
    while (count-- > 0)
        ((volatile uint8_t *)to)[count] = ((const uint8_t *)from)[count];
    return to;
}

void *memset(void *to, int octet, size_t count)
{
    for (size_t i = 0; i < count; i++)
        ((volatile uint8_t *)to)[i] = (uint8_t)octet;
    return to;
}

struct tried rattle_alloc(size_t size, size_t alignment)
{
    (void)alignment; /* at most 16 */
    const size_t rounded = (size + 15) / 16 * 16;
    if (rounded < size || rounded > sizeof heap - taken)
        return (struct tried){false, heap};
    uint8_t *const block = heap + taken;
    taken += rounded;
    return (struct tried){true, block};
}

struct tried rattle_realloc(uint8_t *block, size_t kept, size_t size, size_t alignment)
{
    const struct tried grown = rattle_alloc(size, alignment);
    if (grown.ok)
        memcpy(grown.at, block, kept < size ? kept : size);
    return grown;
}

void rattle_dealloc(uint8_t *block)
{
    (void)block;
}

static long call_system(long number, long first, long second, long third)
{
    long answer;
    __asm__ volatile("syscall"
                     : "=a"(answer)
                     : "a"(number), "D"(first), "S"(second), "d"(third)
                     : "rcx", "r11", "memory");
    return answer;
}

static char line[600];
static size_t written;

static void put_number(uint64_t number)
{
    char digits[20];
    int count = 0;
    do
        digits[count++] = (char)('0' + number % 10);
    while ((number /= 10) > 0);
    while (count > 0)
        line[written++] = digits[--count];
    line[written++] = ' ';
}

static void sent(uint64_t begin, uint64_t end, int master, const uint8_t *octets, size_t count)
{
    written = 0;
    put_number(begin);
    put_number(end);
    line[written++] = "ab"[master];
    line[written++] = ' ';
    for (size_t i = 0; i < count; i++) {
        line[written++] = "0123456789abcdef"[octets[i] >> 4];
        line[written++] = "0123456789abcdef"[octets[i] & 15];
    }
    line[written++] = '\n';
    call_system(1, 1, (long)line, (long)written);
}

static int run(void)
{
    if (start_masters())
        return 1;
    play(1400);
    return 0;
}

void start(void);

void start(void)
{
    call_system(60, run(), 0, 0);
}

__asm__(".globl _start\n_start: and $-16, %rsp\n call start\n");
