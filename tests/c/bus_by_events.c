/* Buses that run to a moment by fdl_bus_run and let go of what is over at random moments, and the same ones event by event, which
 * keep everything: their traces, audits and phases are equal. Events from outside come at random moments. Prints what differs, and
 * at last how many buses are equal. */
#include "pbfdl.h"

#include <inttypes.h>
#include <stdio.h>
#include <stdlib.h>
#include <string.h>

#define BUSES 300
#define MOST_TAPS 8
#define STRETCHES 20

static uint32_t seed = 1;

static uint32_t drawn(uint32_t below)
{
    seed = seed * 1664525 + 1013904223;
    return (seed >> 8) % below;
}

static void check(uint32_t code, const char *call)
{
    if (code != FDL_OK) {
        printf("bus_by_events: %s: %s\n", call, fdl_code_text(code));
        exit(1);
    }
}

/* The turns that are due, then time to the next instant, until a moment. */
static void play(struct fdl_bus *bus, size_t taps, uint64_t until)
{
    uint64_t now, due, next;
    check(fdl_bus_now(bus, &now), "now");
    for (;;) {
        for (size_t tap = 0; tap < taps; tap++) {
            check(fdl_bus_due(bus, tap, &due), "due");
            if (due <= now)
                check(fdl_bus_turn(bus, tap), "turn");
        }
        check(fdl_bus_next_change(bus, &next), "next change");
        for (size_t tap = 0; tap < taps; tap++) {
            check(fdl_bus_due(bus, tap, &due), "due");
            if (due > now && due < next)
                next = due;
        }
        if (now == until)
            return;
        if (next > until)
            next = until;
        check(fdl_bus_pass(bus, next - now), "pass");
        now = next;
    }
}

/* An event from outside, the same for both; it may be refused. */
static void disturb(struct fdl_bus *one, struct fdl_bus *other, size_t taps)
{
    static const uint8_t data[246] = {1, 2, 3};
    const size_t tap = drawn((uint32_t)taps), speaker = drawn((uint32_t)taps);
    const uint32_t place = drawn(300), kind = drawn(6);
    uint32_t codes[2];
    for (int k = 0; k < 2; k++) {
        struct fdl_bus *bus = k ? other : one;
        switch (kind) {
        case 0: codes[k] = fdl_bus_start(bus, tap); break;
        case 1: codes[k] = fdl_bus_stop(bus, tap); break;
        case 2: codes[k] = fdl_bus_noise(bus, 1 + place); break;
        case 3: codes[k] = fdl_bus_damage(bus, tap, speaker, place); break;
        case 4: codes[k] = fdl_bus_unheard(bus, tap, speaker); break;
        default: codes[k] = fdl_bus_queue(bus, tap, (uint8_t)(1 + speaker), FDL_SRD, place & 1, data, place % 247); break;
        }
    }
    if (codes[0] != codes[1]) {
        printf("bus_by_events: an event: %s, and %s\n", fdl_code_text(codes[0]), fdl_code_text(codes[1]));
        exit(1);
    }
}

/* Whether entries of two buses differ: count ones, from an index on in each. */
static int entries_differ(struct fdl_bus *one, size_t first, struct fdl_bus *other, size_t second, size_t count)
{
    static struct fdl_entry entry[2];
    for (size_t index = 0; index < count; index++) {
        memset(entry, 0, sizeof entry);
        check(fdl_bus_entry(one, first + index, &entry[0]), "entry");
        check(fdl_bus_entry(other, second + index, &entry[1]), "entry");
        if (memcmp(&entry[0], &entry[1], sizeof entry[0]))
            return 1;
    }
    return 0;
}

/* A bus lets go of what is over, which is so in the trace of the other, too; *gone counts all that it has let go. */
static int let_go(struct fdl_bus *one, struct fdl_bus *other, size_t *gone)
{
    size_t over, count, left;
    check(fdl_bus_entries(one, &left), "entries");
    check(fdl_bus_over(one, &over), "over");
    const int wrong = entries_differ(one, 0, other, *gone, over);
    check(fdl_bus_let_go(one, &count), "let go");
    *gone += count;
    const size_t before = left;
    check(fdl_bus_entries(one, &left), "entries");
    return wrong || count != over || left != before - over;
}

static int differ(struct fdl_bus *one, struct fdl_bus *other, size_t taps, size_t gone)
{
    struct fdl_bus *bus[2] = {one, other};
    static struct fdl_audit audit[2];
    size_t count[2];
    uint32_t phase[2];
    for (int k = 0; k < 2; k++) {
        memset(&audit[k], 0, sizeof audit[k]);
        check(fdl_bus_entries(bus[k], &count[k]), "entries");
        check(fdl_bus_audit(bus[k], &audit[k]), "audit");
    }
    if (gone + count[0] != count[1] || audit[0].premise != audit[1].premise || audit[0].moment != audit[1].moment)
        return 1;
    if (audit[0].illegal != audit[1].illegal || audit[0].entry != audit[1].entry)
        return 1;
    if (entries_differ(one, 0, other, gone, count[0]))
        return 1;
    for (size_t tap = 0; tap < taps; tap++) {
        for (int k = 0; k < 2; k++)
            check(fdl_bus_phase(bus[k], tap, &phase[k]), "phase");
        if (phase[0] != phase[1])
            return 1;
    }
    return 0;
}

int main(void)
{
    const struct fdl_params params = {
        .tsl = 200, .tid1 = 37, .tid2 = 60, .tsdr = 11, .lag = 0, .ttr = 10000, .gap = 2, .hsa = 9, .retries = 1, .ttd = 5};
    int equal = 0;
    size_t all_gone = 0;
    for (int number = 0; number < BUSES; number++) {
        static struct fdl_tap tap[MOST_TAPS];
        const size_t taps = 1 + drawn(MOST_TAPS);
        struct fdl_bus one = FDL_BUS_EMPTY, other = FDL_BUS_EMPTY;
        uint64_t now = 0;
        size_t gone = 0;
        int wrong = 0;
        for (size_t k = 0; k < taps; k++) {
            tap[k].address = (uint8_t)(1 + k);
            tap[k].master = drawn(3) > 0;
            tap[k].count = (uint8_t)drawn(20);
        }
        check(fdl_bus_new(&one, &params, tap, taps), "new");
        check(fdl_bus_new(&other, &params, tap, taps), "new");
        for (int stretch = 0; stretch < STRETCHES; stretch++) {
            for (uint32_t events = drawn(4); events > 0; events--)
                disturb(&one, &other, taps);
            now += drawn(4) ? drawn(5000) : drawn(40);
            check(fdl_bus_run(&one, now), "run");
            play(&other, taps, now);
            if (drawn(3) == 0)
                wrong |= let_go(&one, &other, &gone);
        }
        all_gone += gone;
        if (wrong || differ(&one, &other, taps, gone))
            printf("bus_by_events: bus %d differs\n", number);
        else
            equal++;
        fdl_bus_free(&one);
        fdl_bus_free(&other);
    }
    printf("bus_by_events: %d equal, %d differ, %zu entries let go\n", equal, BUSES - equal, all_gone);
    return equal != BUSES || all_gone < 10000;
}
