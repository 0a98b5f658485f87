/* Calls the functions of libpbfdl.a at random, with arguments in and out of range, for some seconds (tools/fuzz-border).
 *
 * What a call is given, and what it may write, ends at a page that nobody may touch, and is filled with a pattern before the
 * call. Now and then memory is refused. Every answer has to be a code that the header names for that function; where the header
 * says so, a refused call has left what it was to write. At the end of a round all memory is given back. */
#define _DEFAULT_SOURCE
#include "pbfdl.h"

#include <inttypes.h>
#include <stdio.h>
#include <stdlib.h>
#include <string.h>
#include <sys/mman.h>
#include <time.h>

/* How much one argument has at most, and how many arguments there are at once. */
enum { AREA = 65536, AREAS = 4, CALLS = 400, PATTERN = 0xa5, MOST_TAPS = 8 };

static uint8_t *areas[AREAS];
static uint64_t seed, state, calls, refusals;
static bool refuses;
static long held;

void *__real_malloc(size_t size);
void *__real_realloc(void *at, size_t size);
void __real_free(void *at);
void *__wrap_malloc(size_t size);
void *__wrap_realloc(void *at, size_t size);
void __wrap_free(void *at);

static uint64_t next(void)
{
    state ^= state >> 12;
    state ^= state << 25;
    state ^= state >> 27;
    return state * 2685821657736338717u;
}

static uint64_t below(uint64_t bound)
{
    return next() % bound;
}

static bool one_in(uint64_t count)
{
    return below(count) == 0;
}

/* No more than this is given at once: a number of octets at random is more than there are. */
static const size_t most_octets = 1 << 30;

static bool is_refused(size_t size)
{
    bool is = size > most_octets || (refuses && one_in(4));
    refusals += is;
    return is;
}

void *__wrap_malloc(size_t size)
{
    void *at = is_refused(size) ? NULL : __real_malloc(size);
    held += at != NULL;
    return at;
}

void *__wrap_realloc(void *at, size_t size)
{
    void *to = is_refused(size) ? NULL : __real_realloc(at, size);
    held += at == NULL && to != NULL;
    return to;
}

void __wrap_free(void *at)
{
    held -= at != NULL;
    __real_free(at);
}

static void fail(const char *call, const char *why)
{
    printf("seed %" PRIu64 ": %s: %s\n", seed, call, why);
    exit(1);
}

/* Memory of this size that ends where nobody may write, full of the pattern. */
static void *area(size_t which, size_t size)
{
    memset(areas[which], PATTERN, AREA);
    return areas[which] + AREA - size;
}

static bool is_left(const void *at, size_t size)
{
    const uint8_t *octets = at;
    for (size_t index = 0; index < size; index++)
        if (octets[index] != PATTERN)
            return false;
    return true;
}

/* An octet string at random, often one that begins as telegrams do. */
static uint8_t *octets(size_t which, size_t count)
{
    static const uint8_t starts[] = {0x10, 0x68, 0xa2, 0xdc, 0xe5};
    uint8_t *made = area(which, count);
    for (size_t index = 0; index < count; index++)
        made[index] = one_in(3) ? starts[below(sizeof starts)] : (uint8_t)next();
    return made;
}

static size_t length(size_t most)
{
    return one_in(8) ? most + below(4) : below(most / (one_in(2) ? 1 : 16) + 1);
}

static bool is_param(uint32_t code)
{
    return code >= FDL_PARAM_SLOT && code <= FDL_PARAM_REPLY_LATE;
}

static bool is_of_octets(uint32_t code)
{
    return code >= FDL_EMPTY && code <= FDL_TRAILING;
}

/* The codes that a function may answer beside FDL_OK, ended by 0. */
static void among(const char *call, uint32_t code, const uint32_t *codes)
{
    calls++;
    if (code == FDL_OK)
        return;
    while (*codes != 0 && *codes != code)
        codes++;
    if (*codes == 0)
        fail(call, fdl_code_text(code));
}

#define AMONG(call, code, ...) among(call, code, (const uint32_t[]){__VA_ARGS__, 0})
/* The same of a call that leaves what it was to write where it is refused. */
#define LEAVES(call, code, at, size, ...) \
    do { \
        uint32_t answered = code; \
        AMONG(call, answered, __VA_ARGS__); \
        if (answered != FDL_OK && !is_left(at, size)) \
            fail(call, "it was refused, and has written"); \
    } while (0)

static struct fdl_params params(void)
{
    struct fdl_params made = {100 + below(200), 33 + below(20), 53 + below(8), 11 + below(20), below(5), 256 + below(20000), 1 + below(4),
                              3 + below(20), below(3), below(5)};
    uint32_t *fields = &made.tsl;
    if (one_in(6))
        fields[below(10)] = one_in(2) ? (uint32_t)next() : (uint32_t)below(64);
    return made;
}

static void telegrams(void)
{
    size_t count = length(255);
    const uint8_t *read = octets(0, count);
    struct fdl_telegram *telegram = area(1, sizeof *telegram);
    uint32_t code = fdl_parse(read, count, telegram);
    calls++;
    if (code != FDL_OK && (!is_of_octets(code) || !is_left(telegram, sizeof *telegram)))
        fail("fdl_parse", fdl_code_text(code));
    if (one_in(2)) {
        for (size_t index = 0; index < sizeof *telegram; index++)
            ((uint8_t *)telegram)[index] = (uint8_t)next();
        telegram->kind = (uint8_t)below(7);
        telegram->fc &= one_in(4) ? 0xff : 0x7f;
        telegram->count = one_in(4) ? (uint8_t)next() : telegram->kind == FDL_SD3 ? 8 : (uint8_t)below(9);
        code = FDL_OK;
    }
    size_t room = length(255), *written = area(3, sizeof *written);
    uint8_t *out = area(2, room);
    uint32_t answer = code == FDL_OK ? fdl_write(telegram, out, room, written) : FDL_EMPTY;
    if (code == FDL_OK && answer != FDL_OK && (*written != 0 || !is_left(out, room)))
        fail("fdl_write", "it was refused, and has written");
    if (code == FDL_OK && answer == FDL_OK && (*written > room || fdl_parse(out, *written, telegram) != FDL_OK))
        fail("fdl_write", "what it wrote is no telegram");
}

static void receivers(void)
{
    struct fdl_receiver *receiver = area(0, sizeof *receiver);
    struct fdl_telegram *telegram = area(1, sizeof *telegram);
    uint32_t code = FDL_EMPTY;
    receiver->count = one_in(9) ? (uint16_t)next() : 0;
    for (size_t index = 0; index < 300 && code != FDL_OK; index++)
        code = fdl_receive(receiver, one_in(30) ? (uint16_t)next() : (uint16_t)(index == 0 ? 0x68 : below(256)));
    uint32_t whole = fdl_received(receiver, telegram);
    calls += 2;
    if (code != whole && code != FDL_TOO_LONG)
        fail("fdl_received", fdl_code_text(whole));
    if (whole != FDL_OK && !is_left(telegram, sizeof *telegram))
        fail("fdl_received", "it was refused, and has written");
}

static struct fdl_port port = FDL_PORT_EMPTY;
static uint64_t clock_of_port;

static uint64_t moment(void)
{
    clock_of_port += below(one_in(3) ? 2000 : 80);
    return one_in(20) ? next() : one_in(9) ? clock_of_port - below(200) : clock_of_port;
}

static void new_port(void)
{
    struct fdl_params given = params();
    size_t count = length(246);
    uint8_t *reply = octets(0, count), address = (uint8_t)below(one_in(5) ? 256 : 4);
    bool is_master = !one_in(3), is_empty = port.at == NULL;
    uint32_t code = one_in(2) ? fdl_port_new(&port, &given, address, is_master, reply, count)
                              : fdl_port_new_with_room(&port, one_in(5) ? below(70) : 2 + below(63), &given, address, is_master, reply, count);
    if (!is_param(code))
        AMONG("fdl_port_new", code, FDL_PORT_IN_USE, FDL_BAD_ROOM, FDL_BAD_STATION, FDL_LONG_DATA, FDL_NO_MEMORY);
    if (is_empty != (code != FDL_PORT_IN_USE) || (is_empty && (code == FDL_OK) != (port.at != NULL)))
        fail("fdl_port_new", fdl_code_text(code));
    if (code == FDL_OK)
        clock_of_port = 0;
}

static void take_turn(void)
{
    size_t room = one_in(9) ? below(255) : 255 + below(9), *count = area(1, sizeof *count);
    uint8_t *out = area(0, room);
    uint64_t due = 0;
    if (fdl_port_due(&port, &due) == FDL_OK && due != FDL_NEVER && due > clock_of_port && due < clock_of_port + 100000 && one_in(2))
        clock_of_port = due;
    uint32_t code = fdl_port_turn(&port, moment(), out, room, count);
    AMONG("fdl_port_turn", code, FDL_NO_ROOM, FDL_NO_PORT, FDL_TOO_LATE, FDL_BACKWARDS);
    if (code != FDL_OK ? *count != 0 || !is_left(out, room) : *count > 255 || !is_left(out + *count, room - *count))
        fail("fdl_port_turn", "it wrote what it should not");
}

static void mark(void)
{
    uint64_t at = moment(), seen = one_in(9) ? moment() : at;
    size_t count = length(255);
    const uint8_t *brought = octets(0, count);
    uint16_t *characters = area(1, 2 * count);
    for (size_t index = 0; index < count; index++)
        characters[index] = one_in(40) ? (uint16_t)next() : brought[index];
    uint32_t code;
    switch (below(4)) {
    case 0: code = fdl_port_begin(&port, at, seen); break;
    case 1: code = fdl_port_noise(&port, at, seen); break;
    case 2: code = fdl_port_end(&port, at, seen, characters, count); break;
    default: code = fdl_port_end_good(&port, at, seen, brought, count);
    }
    AMONG("fdl_port_begin .. fdl_port_noise", code, FDL_TOO_LONG, FDL_NO_PORT, FDL_TOO_LATE, FDL_BACKWARDS, FDL_AHEAD, FDL_INBOX_FULL);
}

static void ask_port(void)
{
    size_t count = length(246);
    const uint8_t *data = octets(0, count);
    struct fdl_indication *indication = area(1, sizeof *indication);
    struct fdl_outcome *outcome = area(2, sizeof *outcome);
    uint64_t *number = area(3, sizeof *number);
    uint32_t phase = 99;
    size_t there = 0;
    bool active = false;
    AMONG("fdl_port_push", fdl_port_push(&port, (uint8_t)below(one_in(4) ? 256 : 6), (uint8_t)below(4), one_in(2), data, count),
          FDL_BAD_SERVICE, FDL_LONG_DATA, FDL_BAD_STATION, FDL_NO_PORT, FDL_QUEUE_FULL);
    AMONG("fdl_port_set_reply", fdl_port_set_reply(&port, data, count), FDL_LONG_DATA, FDL_NO_PORT);
    LEAVES("fdl_port_executed", fdl_port_executed(&port, number), number, sizeof *number, FDL_NO_PORT);
    LEAVES("fdl_port_outcome", fdl_port_outcome(&port, outcome), outcome, sizeof *outcome, FDL_NO_PORT);
    AMONG("fdl_port_indications", fdl_port_indications(&port, &there), FDL_NO_PORT);
    LEAVES("fdl_port_indication", fdl_port_indication(&port, below(there + 2), indication), indication, sizeof *indication, FDL_NO_PORT,
           FDL_NO_INDICATION);
    AMONG("fdl_port_phase", fdl_port_phase(&port, &phase), FDL_NO_PORT);
    AMONG("fdl_port_is_active", fdl_port_is_active(&port, (uint8_t)next(), &active), FDL_BAD_STATION, FDL_NO_PORT);
    if (port.at != NULL && phase > FDL_CHECKING)
        fail("fdl_port_phase", "there is no such phase");
}

static void on_a_port(void)
{
    switch (below(12)) {
    case 0: new_port(); break;
    case 1: AMONG("fdl_port_start", fdl_port_start(&port, moment()), FDL_NO_PORT, FDL_TOO_LATE, FDL_BACKWARDS); break;
    case 2: ask_port(); break;
    case 3:
        if (one_in(9))
            fdl_port_free(&port);
        else if (one_in(4))
            AMONG("fdl_port_stop", fdl_port_stop(&port), FDL_NO_PORT);
        break;
    case 4: case 5: case 6: mark(); break;
    default: take_turn();
    }
}

static struct fdl_bus bus = FDL_BUS_EMPTY;

static void new_bus(void)
{
    struct fdl_params given = params();
    size_t count = one_in(9) ? below(130) : 1 + below(MOST_TAPS);
    struct fdl_tap *taps = area(0, count * sizeof *taps);
    for (size_t tap = 0; tap < count; tap++) {
        taps[tap].address = (uint8_t)(one_in(40) ? next() : tap % 4);
        taps[tap].master = !one_in(3);
        taps[tap].count = (uint8_t)(one_in(40) ? next() : below(9));
    }
    bool is_empty = bus.at == NULL;
    uint32_t code = one_in(2) ? fdl_bus_new(&bus, &given, taps, count) : fdl_bus_new_within(&bus, &given, taps, count, below(3000));
    if (!is_param(code))
        AMONG("fdl_bus_new", code, FDL_BUS_IN_USE, FDL_LONG_DATA, FDL_NO_TAPS, FDL_TOO_MANY_TAPS, FDL_BAD_STATION, FDL_NO_MEMORY);
    if (is_empty != (code != FDL_BUS_IN_USE) || (is_empty && (code == FDL_OK) != (bus.at != NULL)))
        fail("fdl_bus_new", fdl_code_text(code));
}

static size_t tap(void)
{
    return one_in(30) ? (size_t)next() : below(MOST_TAPS);
}

static void event(void)
{
    size_t count = length(246);
    const uint8_t *data = octets(0, count);
    uint64_t bits = one_in(30) ? next() : below(one_in(3) ? 1500 : 40);
    switch (below(9)) {
    case 0: AMONG("fdl_bus_start", fdl_bus_start(&bus, tap()), FDL_NO_BUS, FDL_NO_SUCH_TAP, FDL_RUNNING); break;
    case 1:
        if (one_in(4))
            AMONG("fdl_bus_stop", fdl_bus_stop(&bus, tap()), FDL_NO_BUS, FDL_NO_SUCH_TAP, FDL_NOT_RUNNING);
        break;
    case 2:
        AMONG("fdl_bus_turn", fdl_bus_turn(&bus, tap()), FDL_NO_BUS, FDL_NO_SUCH_TAP, FDL_NOT_RUNNING, FDL_TRACE_FULL, FDL_NO_MEMORY);
        break;
    case 3:
        AMONG("fdl_bus_pass", fdl_bus_pass(&bus, bits), FDL_NO_BUS, FDL_ZERO_TIME, FDL_TOO_FAR, FDL_CLOCK_FULL, FDL_INBOX_FULL);
        break;
    case 4:
        if (one_in(4))
            AMONG("fdl_bus_noise", fdl_bus_noise(&bus, bits), FDL_TOO_FAR, FDL_NO_BUS, FDL_ZERO_TIME, FDL_TRACE_FULL, FDL_NO_MEMORY);
        break;
    case 5:
        AMONG("fdl_bus_damage", fdl_bus_damage(&bus, tap(), tap(), (uint32_t)below(300)), FDL_NO_BUS, FDL_NO_SUCH_TAP, FDL_NOTHING_IN_AIR,
              FDL_NO_MEMORY);
        break;
    case 6:
        AMONG("fdl_bus_unheard", fdl_bus_unheard(&bus, tap(), tap()), FDL_NO_BUS, FDL_NO_SUCH_TAP, FDL_NOTHING_IN_AIR);
        break;
    case 7:
        AMONG("fdl_bus_queue", fdl_bus_queue(&bus, tap(), (uint8_t)below(one_in(5) ? 256 : 5), (uint8_t)below(4), one_in(2), data, count),
              FDL_BAD_SERVICE, FDL_LONG_DATA, FDL_BAD_STATION, FDL_NO_BUS, FDL_NO_SUCH_TAP, FDL_NOT_RUNNING, FDL_QUEUE_FULL);
        break;
    default:
        AMONG("fdl_bus_set_reply", fdl_bus_set_reply(&bus, tap(), data, count), FDL_LONG_DATA, FDL_NO_BUS, FDL_NO_SUCH_TAP);
    }
}

static void run_bus(void)
{
    uint64_t now = 0, then = 0;
    AMONG("fdl_bus_now", fdl_bus_now(&bus, &now), FDL_NO_BUS);
    uint64_t until = one_in(20) ? below(now + 1) : one_in(30) ? 1000000000001 + below(99) : now + below(4000);
    AMONG("fdl_bus_run", fdl_bus_run(&bus, until), FDL_NO_BUS, FDL_BACKWARDS, FDL_CLOCK_FULL, FDL_TRACE_FULL, FDL_INBOX_FULL, FDL_NO_MEMORY);
    AMONG("fdl_bus_now", fdl_bus_now(&bus, &then), FDL_NO_BUS);
    if (then < now)
        fail("fdl_bus_run", "the clock went back");
}

static void ask_bus(void)
{
    uint64_t *moment_of = area(0, sizeof *moment_of);
    struct fdl_entry *entry = area(1, sizeof *entry);
    struct fdl_audit *audit = area(2, sizeof *audit);
    size_t entries = 0, over = 0;
    bool flag = false;
    uint32_t phase = 0;
    LEAVES("fdl_bus_due", fdl_bus_due(&bus, tap(), moment_of), moment_of, sizeof *moment_of, FDL_NO_BUS, FDL_NO_SUCH_TAP);
    AMONG("fdl_bus_entries", fdl_bus_entries(&bus, &entries), FDL_NO_BUS);
    AMONG("fdl_bus_over", fdl_bus_over(&bus, &over), FDL_NO_BUS);
    if (over > entries)
        fail("fdl_bus_over", "more are over than there are");
    LEAVES("fdl_bus_entry", fdl_bus_entry(&bus, below(entries + 2), entry), entry, sizeof *entry, FDL_NO_BUS, FDL_NO_ENTRY);
    LEAVES("fdl_bus_audit", fdl_bus_audit(&bus, audit), audit, sizeof *audit, FDL_NO_BUS, FDL_NO_MEMORY);
    if (bus.at != NULL && !is_left(audit, sizeof *audit) && (audit->premise > 4 || (audit->premise == 0 && audit->illegal)))
        fail("fdl_bus_audit", "an entry is illegal, and no premise broke");
    AMONG("fdl_bus_next_change", fdl_bus_next_change(&bus, &(uint64_t){0}), FDL_NO_BUS);
    AMONG("fdl_bus_is_settled", fdl_bus_is_settled(&bus, &flag), FDL_NO_BUS);
    AMONG("fdl_bus_phase", fdl_bus_phase(&bus, tap(), &phase), FDL_NO_BUS, FDL_NO_SUCH_TAP);
    AMONG("fdl_bus_is_active", fdl_bus_is_active(&bus, tap(), (uint8_t)next(), &flag), FDL_BAD_STATION, FDL_NO_BUS, FDL_NO_SUCH_TAP);
    AMONG("fdl_bus_executed", fdl_bus_executed(&bus, tap(), &(uint64_t){0}), FDL_NO_BUS, FDL_NO_SUCH_TAP);
    AMONG("fdl_bus_let_go", one_in(3) ? fdl_bus_let_go(&bus, &over) : 0, FDL_NO_BUS, FDL_NO_MEMORY);
}

static void ask_of_requests(void)
{
    struct fdl_indication *indication = area(0, sizeof *indication);
    struct fdl_outcome *outcome = area(1, sizeof *outcome);
    size_t which = tap(), there = 0;
    LEAVES("fdl_bus_outcome", fdl_bus_outcome(&bus, which, outcome), outcome, sizeof *outcome, FDL_NO_BUS, FDL_NO_SUCH_TAP);
    if (one_in(4))
        AMONG("fdl_bus_keep_indications", fdl_bus_keep_indications(&bus, which, one_in(9) ? (size_t)next() : below(20)), FDL_NO_BUS,
              FDL_NO_SUCH_TAP, FDL_NO_MEMORY);
    AMONG("fdl_bus_indications", fdl_bus_indications(&bus, which, &there), FDL_NO_BUS, FDL_NO_INDICATION);
    LEAVES("fdl_bus_indication", fdl_bus_indication(&bus, which, below(there + 2), indication), indication, sizeof *indication, FDL_NO_BUS,
           FDL_NO_INDICATION);
    if (one_in(9))
        AMONG("fdl_bus_forget_indications", fdl_bus_forget_indications(&bus, which), FDL_NO_BUS);
}

static void on_a_bus(void)
{
    switch (below(10)) {
    case 0: new_bus(); break;
    case 1:
        if (one_in(9))
            fdl_bus_free(&bus);
        break;
    case 2: case 3: run_bus(); break;
    case 4: ask_bus(); break;
    case 5: ask_of_requests(); break;
    default: event();
    }
}

static struct fdl_monitor monitor = FDL_MONITOR_EMPTY;

static void new_monitor(void)
{
    struct fdl_params given = params();
    struct fdl_monitor_options options = {(uint8_t)below(one_in(9) ? 9 : 3), (uint8_t)below(one_in(9) ? 9 : 4), one_in(2), one_in(2), one_in(2),
                                          one_in(2), one_in(2) ? 0 : below(5000), one_in(3) ? 0 : (uint32_t)next(), (uint32_t)below(9)};
    bool is_empty = monitor.at == NULL;
    uint32_t code = fdl_monitor_new(&monitor, &options, &given);
    if (!is_param(code))
        AMONG("fdl_monitor_new", code, FDL_MONITOR_IN_USE, FDL_BAD_FORM, FDL_NO_MEMORY);
    if (is_empty != (code != FDL_MONITOR_IN_USE) || (is_empty && (code == FDL_OK) != (monitor.at != NULL)))
        fail("fdl_monitor_new", fdl_code_text(code));
}

/* A piece of a capture: lines with moments and hex at random, or any octets. */
static void feed(void)
{
    static uint64_t line;
    char text[1200];
    size_t count = 0;
    for (int times = (int)below(6); times >= 0; times--) {
        line += below(300);
        uint64_t end = line + below(200);
        count += (size_t)sprintf(text + count, "%" PRIu64 " %" PRIu64 " dc%02x%02x\n", line, end, (unsigned)below(5), (unsigned)below(5));
        line = end;
    }
    size_t some = one_in(2) ? below(count + 1) : length(4000);
    uint8_t *given = octets(0, some);
    if (some <= count && one_in(2))
        memcpy(given, text, some);
    AMONG("fdl_monitor_feed", fdl_monitor_feed(&monitor, given, some), FDL_NO_MONITOR, FDL_FINISHED, FDL_NO_MEMORY);
}

static void take(void)
{
    size_t room = length(4000), *count = area(1, sizeof *count);
    uint8_t *out = area(0, room);
    uint32_t code = fdl_monitor_next(&monitor, out, room, count);
    AMONG("fdl_monitor_next", code, FDL_NO_MONITOR);
    if (*count > room || !is_left(out + *count, room - *count) || (code != FDL_OK && *count != 0))
        fail("fdl_monitor_next", "it wrote what it should not");
}

static void on_a_monitor(void)
{
    struct fdl_traffic *traffic = area(2, sizeof *traffic);
    struct fdl_station_counts *counts = area(3, sizeof *counts);
    switch (below(10)) {
    case 0: new_monitor(); break;
    case 1:
        if (one_in(9))
            fdl_monitor_free(&monitor);
        else if (one_in(4))
            AMONG("fdl_monitor_finish", fdl_monitor_finish(&monitor), FDL_NO_MONITOR, FDL_FINISHED, FDL_NO_MEMORY);
        break;
    case 2: LEAVES("fdl_monitor_traffic", fdl_monitor_traffic(&monitor, traffic), traffic, sizeof *traffic, FDL_NO_MONITOR); break;
    case 3:
        LEAVES("fdl_monitor_station", fdl_monitor_station(&monitor, (uint8_t)next(), counts), counts, sizeof *counts, FDL_BAD_STATION,
               FDL_NO_MONITOR);
        AMONG("fdl_monitor_is_refused", fdl_monitor_is_refused(&monitor, &(bool){false}), FDL_NO_MONITOR);
        break;
    case 4: case 5: case 6: take(); break;
    default: feed();
    }
}

/* Some calls by one seed, on one kind of handle. At the end nothing is held. */
static void round_of(uint64_t number)
{
    seed = number;
    state = number * 0x9e3779b97f4a7c15u + 1;
    refuses = one_in(3);
    uint64_t kind = below(7);
    for (int call = 0; call < CALLS; call++) {
        if (kind == 0)
            telegrams();
        else if (kind == 1)
            receivers();
        else if (kind < 4)
            on_a_port();
        else if (kind < 6)
            on_a_bus();
        else
            on_a_monitor();
    }
    fdl_port_free(&port);
    fdl_bus_free(&bus);
    fdl_monitor_free(&monitor);
    if (held != 0)
        fail("at the end", "memory was not given back");
}

int main(int count, char **words)
{
    time_t end = time(NULL) + (count > 1 ? atol(words[1]) : 60);
    uint64_t first = count > 2 ? strtoull(words[2], NULL, 10) : 1, number = first;
    for (size_t which = 0; which < AREAS; which++) {
        uint8_t *pages = mmap(NULL, AREA + 4096, PROT_READ | PROT_WRITE, MAP_PRIVATE | MAP_ANONYMOUS, -1, 0);
        if (pages == MAP_FAILED || mprotect(pages + AREA, 4096, PROT_NONE) != 0)
            return 2;
        areas[which] = pages;
    }
    while (time(NULL) < end) {
        round_of(number++);
    }
    printf("%" PRIu64 " rounds from seed %" PRIu64 ", %" PRIu64 " calls, %" PRIu64 " allocations refused, 0 wrong\n", number - first, first, calls,
           refusals);
    return 0;
}
