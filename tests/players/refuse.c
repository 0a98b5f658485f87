/* Linked into the library with --wrap=malloc and --wrap=realloc, refuses one allocation: that whose number, counted from 1, was
 * given last. Of 0 none is refused. */
#include <stddef.h>

void *__real_malloc(size_t octets);
void *__real_realloc(void *old, size_t octets);
void *__wrap_malloc(size_t octets);
void *__wrap_realloc(void *old, size_t octets);
void refuse(long number);

static long left;

void refuse(long number)
{
    left = number;
}

static int is_refused(void)
{
    return left > 0 && --left == 0;
}

void *__wrap_malloc(size_t octets)
{
    return is_refused() ? NULL : __real_malloc(octets);
}

void *__wrap_realloc(void *old, size_t octets)
{
    return is_refused() ? NULL : __real_realloc(old, octets);
}
