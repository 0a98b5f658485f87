/* Plays a plan (tests/bindings) on a bus, event by event, and prints its trace and its audit, or the fault that ends it.
 *
 *     player < PLAN
 *
 * A call for which memory was refused is repeated once, and said on standard error. */
#include "pbfdl.h"

#include <inttypes.h>
#include <stdio.h>
#include <stdlib.h>
#include <string.h>

#define MOST_TAPS 127
#define MOST_STEPS 10000
#define MOST_DATA 246
#define MOST_LINE 700

enum deed { START, STOP, QUEUE, DAMAGE, NOISE, UNHEARD, WITHHOLD };
static const char *const deeds[] = {"start", "stop", "queue", "damage", "noise", "unheard", "withhold"};

struct step {
    uint64_t at;
    enum deed deed;
    uint64_t words[4]; /* tap, speaker and place, or bits; of a request: tap, da, service, priority */
    uint8_t data[MOST_DATA];
    size_t count;
};

static struct fdl_bus bus = FDL_BUS_EMPTY;
static struct fdl_params params;
static struct fdl_tap taps[MOST_TAPS];
static char names[MOST_TAPS][20];
static size_t tap_count, step_count;
static struct step steps[MOST_STEPS];
static uint64_t until, held_until[MOST_TAPS];

static void fail(const char *why)
{
    fprintf(stderr, "player: %s\n", why);
    exit(2);
}

/* ---- the plan */

static size_t octets_of(const char *hex, uint8_t *octets)
{
    size_t count = 0;
    unsigned octet;
    if (strcmp(hex, "-") == 0)
        return 0;
    for (; count < MOST_DATA && sscanf(hex + 2 * count, "%2x", &octet) == 1; count++)
        octets[count] = (uint8_t)octet;
    return count;
}

static void read_step(const char *line)
{
    char word[20], hex[2 * MOST_DATA + 2] = "-";
    struct step *const it = &steps[step_count++];
    if (step_count > MOST_STEPS)
        fail("too many steps");
    sscanf(line, "at %" SCNu64 " %19s %" SCNu64 " %" SCNu64 " %" SCNu64 " %" SCNu64 " %493s", &it->at, word, &it->words[0],
           &it->words[1], &it->words[2], &it->words[3], hex);
    for (it->deed = START; strcmp(deeds[it->deed], word) != 0;)
        if (it->deed++ == WITHHOLD)
            fail("no such deed");
    it->count = octets_of(hex, it->data);
}

static void read_line(const char *line)
{
    char kind[20], hex[2 * MOST_DATA + 2];
    struct fdl_tap *const tap = &taps[tap_count];
    if (sscanf(line, "until %" SCNu64, &until) == 1)
        return;
    if (sscanf(line, "bus %" SCNu32 " %" SCNu32 " %" SCNu32 " %" SCNu32 " %" SCNu32 " %" SCNu32 " %" SCNu32 " %" SCNu32 " %" SCNu32
                     " %" SCNu32, &params.tsl, &params.tid1, &params.tid2, &params.tsdr, &params.lag, &params.ttr, &params.gap,
               &params.hsa, &params.retries, &params.ttd) == 10)
        return;
    if (tap_count < MOST_TAPS && sscanf(line, "tap %19s %19s %" SCNu8 " %493s", names[tap_count], kind, &tap->address, hex) == 4) {
        tap->master = strcmp(kind, "master") == 0;
        tap->count = (uint8_t)octets_of(hex, tap->reply);
        tap_count++;
    } else {
        read_step(line);
    }
}

/* ---- the run */

static uint64_t now(void)
{
    uint64_t moment = 0;
    fdl_bus_now(&bus, &moment);
    return moment;
}

/* Ends the program where a call on the bus has a code. */
static void expect(uint32_t code)
{
    if (code == FDL_OK)
        return;
    printf("fault %" PRIu32 " at %" PRIu64 "\n", code, now());
    fdl_bus_free(&bus);
    exit(0);
}

static bool is_refused(uint32_t code)
{
    if (code == FDL_NO_MEMORY)
        fputs("refused\n", stderr);
    return code == FDL_NO_MEMORY;
}

static uint32_t does(const struct step *it)
{
    const uint64_t *const words = it->words;
    switch (it->deed) {
    case START: return fdl_bus_start(&bus, words[0]);
    case STOP: return fdl_bus_stop(&bus, words[0]);
    case QUEUE: return fdl_bus_queue(&bus, words[0], (uint8_t)words[1], (uint8_t)words[2], words[3], it->data, it->count);
    case DAMAGE: return fdl_bus_damage(&bus, words[0], words[1], (uint32_t)words[2]);
    case NOISE: return fdl_bus_noise(&bus, words[0]);
    case UNHEARD: return fdl_bus_unheard(&bus, words[0], words[1]);
    default: break;
    }
    if (it->at + words[1] > held_until[words[0]])
        held_until[words[0]] = it->at + words[1];
    return FDL_OK;
}

/* The steps of a moment: the losses, which come after the turns, or all others. */
static void do_steps(uint64_t at, bool late)
{
    for (size_t i = 0; i < step_count; i++) {
        if (steps[i].at != at || (steps[i].deed == UNHEARD) != late)
            continue;
        const uint32_t code = does(&steps[i]);
        expect(is_refused(code) ? does(&steps[i]) : code);
    }
}

static uint64_t due(size_t tap)
{
    uint64_t at = FDL_NEVER;
    expect(fdl_bus_due(&bus, tap, &at));
    return at;
}

static void take_turns(uint64_t at)
{
    for (size_t tap = 0; tap < tap_count; tap++) {
        if (due(tap) > at || held_until[tap] > at)
            continue;
        const uint32_t code = fdl_bus_turn(&bus, tap);
        expect(is_refused(code) ? fdl_bus_turn(&bus, tap) : code);
    }
}

static uint64_t least_after(uint64_t at, uint64_t moment, uint64_t least)
{
    return at < moment && moment < least ? moment : least;
}

/* The next instant, or FDL_NEVER. */
static uint64_t next_instant(uint64_t at)
{
    uint64_t next = FDL_NEVER, change = FDL_NEVER;
    expect(fdl_bus_next_change(&bus, &change));
    next = least_after(at, change, next);
    for (size_t i = 0; i < step_count; i++)
        next = least_after(at, steps[i].at, next);
    for (size_t tap = 0; tap < tap_count; tap++)
        next = least_after(at, at < held_until[tap] ? held_until[tap] : due(tap), next);
    return next;
}

static void pass(uint64_t bits)
{
    const uint32_t code = fdl_bus_pass(&bus, bits);
    expect(is_refused(code) ? fdl_bus_pass(&bus, bits) : code);
}

static void run(void)
{
    for (uint64_t at = 0;;) {
        do_steps(at, false);
        take_turns(at);
        do_steps(at, true);
        const uint64_t next = next_instant(at);
        const uint64_t to = next < until ? next : until;
        if (at < to)
            pass(to - at);
        if (next > until)
            return;
        at = next;
    }
}

/* ---- what is printed */

static void print_entry(size_t index)
{
    struct fdl_entry entry;
    expect(fdl_bus_entry(&bus, index, &entry));
    if (entry.noise) {
        printf("%" PRIu64 " %" PRIu64 " ~ noise\n", entry.begin, entry.end);
        return;
    }
    printf("%" PRIu64 " %" PRIu64 " %s ", entry.begin, entry.end, names[entry.tap]);
    for (size_t i = 0; i < entry.count; i++)
        printf("%02x", entry.octets[i]);
    putchar(' ');
    for (size_t tap = 0; tap < tap_count; tap++)
        putchar("-wdu."[entry.heard[tap]]);
    putchar('\n');
}

static void print_audit(void)
{
    struct fdl_audit audit;
    const uint32_t code = fdl_bus_audit(&bus, &audit);
    expect(is_refused(code) ? fdl_bus_audit(&bus, &audit) : code);
    if (audit.premise)
        printf("premise P%d broken at %" PRIu64 "\n", audit.premise, audit.moment);
    else
        puts("premises kept");
    if (audit.illegal)
        printf("record %" PRIu64 " illegal\n", audit.entry);
    else
        puts("trace legal");
}

int main(void)
{
    char line[MOST_LINE];
    size_t entries = 0;
    while (fgets(line, sizeof line, stdin))
        read_line(line);
    uint32_t code = fdl_bus_new(&bus, &params, taps, tap_count);
    if (is_refused(code))
        code = fdl_bus_new(&bus, &params, taps, tap_count);
    if (code) {
        printf("fault %" PRIu32 "\n", code);
        return 0;
    }
    run();
    expect(fdl_bus_entries(&bus, &entries));
    for (size_t i = 0; i < entries; i++)
        print_entry(i);
    print_audit();
    fdl_bus_free(&bus);
    return 0;
}
