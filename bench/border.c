/* The ring of examples/c/ring.c, for bench/border: prints how often each function was called, and what memory the ports took. Link with
 * --wrap=malloc. */
#include <inttypes.h>
#include <stdio.h>
#include <stdlib.h>
#include <string.h>

#include "../tests/c/two_masters.h"

static uint64_t blocks, octets_taken;

void *__real_malloc(size_t size);
void *__wrap_malloc(size_t size);

void *__wrap_malloc(size_t size)
{
    blocks++;
    octets_taken += size;
    return __real_malloc(size);
}

static void sent(uint64_t begin, uint64_t end, int master, const uint8_t *octets, size_t count)
{
    (void)begin, (void)end, (void)master, (void)octets, (void)count;
}

int main(int argc, char **argv)
{
    const uint64_t until = argc > 1 ? strtoull(argv[1], NULL, 10) : 1000000;
    const uint64_t before[2] = {blocks, octets_taken};
    if (start_masters())
        return 1;
    const uint64_t made[2] = {blocks - before[0], octets_taken - before[1]};
    play(until);
    printf("fdl_port_turn %" PRIu64 "\nfdl_port_due %" PRIu64 "\nfdl_port_begin %" PRIu64 "\nfdl_port_end_good %" PRIu64 "\n",
           turns, dues, begins, ends);
    printf("blocks %" PRIu64 "\noctets %" PRIu64 "\nlater %" PRIu64 "\n", made[0] / 2, made[1] / 2,
           blocks - before[0] - made[0] > 1 ? blocks - before[0] - made[0] - 1 : 0);
    return 0;
}
