/* Two masters on a bus of the library for C, event by event, for bench/border: prints how many turns and passes of time there were. */
#include "pbfdl.h"

#include <inttypes.h>
#include <stdio.h>
#include <stdlib.h>

#define TAPS 2

static struct fdl_bus bus = FDL_BUS_EMPTY;

static void check(uint32_t code)
{
    if (code != FDL_OK) {
        fprintf(stderr, "border_bus: %s\n", fdl_code_text(code));
        exit(1);
    }
}

static uint64_t due(size_t tap)
{
    uint64_t at;
    check(fdl_bus_due(&bus, tap, &at));
    return at;
}

/* The next moment at which something changes or a tap is due, at most until. */
static uint64_t next_instant(uint64_t now, uint64_t until)
{
    uint64_t next;
    check(fdl_bus_next_change(&bus, &next));
    if (next <= now || next > until)
        next = until;
    for (size_t tap = 0; tap < TAPS; tap++)
        if (due(tap) > now && due(tap) < next)
            next = due(tap);
    return next;
}

int main(int argc, char **argv)
{
    static const struct fdl_params params = {100, 37, 60, 11, 0, 10000, 10, 5, 1, 0};
    static const struct fdl_tap taps[TAPS] = {{1, true, 0, {0}}, {2, true, 0, {0}}};
    const uint64_t until = argc > 1 ? strtoull(argv[1], NULL, 10) : 1000000;
    uint64_t turns = 0, passes = 0;
    check(fdl_bus_new(&bus, &params, taps, TAPS));
    for (size_t tap = 0; tap < TAPS; tap++)
        check(fdl_bus_start(&bus, tap));
    for (uint64_t now = 0, next; now < until; now = next, passes++) {
        for (size_t tap = 0; tap < TAPS; tap++)
            if (due(tap) <= now) {
                check(fdl_bus_turn(&bus, tap));
                turns++;
            }
        next = next_instant(now, until);
        check(fdl_bus_pass(&bus, next - now));
    }
    printf("fdl_bus_turn %" PRIu64 "\nfdl_bus_pass %" PRIu64 "\n", turns, passes);
    fdl_bus_free(&bus);
    return 0;
}
