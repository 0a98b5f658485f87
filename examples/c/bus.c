/* Two masters on a simulated bus: they form a ring, and pass the token.
 *
 *     bus [UNTIL]
 *
 * Prints the trace until a moment (bit times, 1400 where none is given) as `ringplay run examples/two-masters.toml` does:
 * begin, end, sender, octets, and how each station heard it. */
#include "pbfdl.h"

#include <inttypes.h>
#include <stdio.h>
#include <stdlib.h>

#define MASTERS 2

static void check(uint32_t code, const char *call)
{
    if (code != FDL_OK) {
        fprintf(stderr, "bus: %s: %s\n", call, fdl_code_text(code));
        exit(1);
    }
}

static void print(const struct fdl_entry *entry)
{
    printf("%" PRIu64 " %" PRIu64 " ", entry->begin, entry->end);
    if (entry->noise) {
        printf("~ noise\n");
        return;
    }
    printf("%c ", 'a' + entry->tap);
    for (int k = 0; k < entry->count; k++)
        printf("%02x", entry->octets[k]);
    printf(" ");
    for (int tap = 0; tap < MASTERS; tap++)
        printf("%c", "-wdu."[entry->heard[tap]]);
    printf("\n");
}

int main(int argc, char **argv)
{
    const uint64_t until = argc > 1 ? strtoull(argv[1], NULL, 10) : 1400;
    const struct fdl_params params = {
        .tsl = 100, .tid1 = 37, .tid2 = 60, .tsdr = 11, .lag = 0, .ttr = 10000, .gap = 10, .hsa = 5, .retries = 1, .ttd = 0};
    const struct fdl_tap taps[MASTERS] = {{.address = 1, .master = true}, {.address = 2, .master = true}};
    struct fdl_bus bus = FDL_BUS_EMPTY;
    struct fdl_entry entry;
    struct fdl_audit audit;
    size_t count;
    check(fdl_bus_new(&bus, &params, taps, MASTERS), "new");
    for (size_t tap = 0; tap < MASTERS; tap++)
        check(fdl_bus_start(&bus, tap), "start");
    check(fdl_bus_run(&bus, until), "run");
    check(fdl_bus_entries(&bus, &count), "entries");
    for (size_t index = 0; index < count; index++) {
        check(fdl_bus_entry(&bus, index, &entry), "entry");
        print(&entry);
    }
    check(fdl_bus_audit(&bus, &audit), "audit");
    fdl_bus_free(&bus);
    return audit.premise != 0 || audit.illegal;
}
