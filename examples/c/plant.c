/* A plant on a simulated bus: a master polls slaves by SRD, and makes each request of the last reply. Each slave controls a tank.
 *
 *     plant [UNTIL]
 *
 * Tanks and controllers are those of closed_loop.c, which has a wire of its own; here the bus is the library's, with its audit. Every
 * STEP bit times the plant looks at what its slaves were told, and sets what they reply. It runs to a moment (bit times, 1000000 where
 * none is given), and prints where the tanks are. */
#include "pbfdl.h"

#include <inttypes.h>
#include <stdio.h>
#include <stdlib.h>

#define STEP 200
#define MASTER_ADDRESS 1
#define ROOM 16

/* Addresses of the slaves, 2 to 10 of them, and the levels that their tanks shall have, in thousandths. */
static const struct {
    uint8_t address;
    int64_t target;
} targets[] = {{3, 300}, {4, 400}, {5, 500}, {6, 600}};

/* The master's tap, then one for each slave. */
enum { MASTER, SLAVES = sizeof targets / sizeof targets[0], TAPS };

/* A tank of 1,000,000 units. An open valve brings 40 a bit time; 1 in 50,000 of its content leaves it in a bit time. */
struct tank {
    uint64_t content, moment;
    uint8_t valve;
};

/* What the master knows of a slave. Levels in thousandths. */
struct controller {
    int64_t level, sum;
    uint64_t polls;
};

static const struct fdl_params params = {
    .tsl = 100, .tid1 = 37, .tid2 = 60, .tsdr = 11, .lag = 0, .ttr = 10000, .gap = 10, .hsa = 2, .retries = 1, .ttd = 0};

static struct fdl_bus bus = FDL_BUS_EMPTY;
static struct tank tank[SLAVES];
static struct controller controller[SLAVES];
static int asked;

static void check(uint32_t code, const char *call)
{
    if (code != FDL_OK) {
        fprintf(stderr, "plant: %s: %s\n", call, fdl_code_text(code));
        exit(1);
    }
}

static int64_t clamp(int64_t value, int64_t most)
{
    return value < 0 ? 0 : value > most ? most : value;
}

/* The level of a tank in thousandths. */
static uint64_t level_of(const struct tank *it)
{
    return it->content / 1000;
}

static void advance(struct tank *it, uint64_t now)
{
    const uint64_t passed = now - it->moment;
    it->content = it->content + it->valve * passed * 2 / 5 - it->content * passed / 50000;
    it->moment = now;
}

/* The master asks a slave: the valve is proportional to the error, and to its sum. */
static void ask(int slave)
{
    const struct controller *it = &controller[slave];
    const uint8_t valve = (uint8_t)(clamp(32 * (targets[slave].target - it->level) + it->sum, 6400) / 64);
    check(fdl_bus_queue(&bus, MASTER, targets[slave].address, FDL_SRD, false, &valve, 1), "queue");
    asked = slave;
}

static void learn(int slave, int64_t level)
{
    struct controller *it = &controller[slave];
    it->level = level;
    it->polls++;
    it->sum = clamp(it->sum + targets[slave].target - level, 6400);
}

/* Takes in the outcome of the request, if it has one: the outcome is then of the slave that was asked, and no other. */
static void look(void)
{
    struct fdl_outcome outcome;
    check(fdl_bus_outcome(&bus, MASTER, &outcome), "outcome");
    if (outcome.kind == FDL_NO_OUTCOME || outcome.station != targets[asked].address)
        return;
    if (outcome.kind == FDL_DATA)
        learn(asked, 256 * outcome.data[0] + outcome.data[1]);
    ask((asked + 1) % SLAVES);
}

/* The tank of a slave up to now: what the slave was told opens its valve, and its level is what the slave replies. */
static void control(int slave, uint64_t now)
{
    const size_t tap = slave + 1;
    size_t count;
    struct fdl_indication indication;
    advance(&tank[slave], now);
    check(fdl_bus_indications(&bus, tap, &count), "indications");
    for (size_t i = 0; i < count; i++) {
        check(fdl_bus_indication(&bus, tap, i, &indication), "indication");
        tank[slave].valve = indication.data[0];
    }
    check(fdl_bus_forget_indications(&bus, tap), "forget_indications");
    const uint64_t level = level_of(&tank[slave]);
    check(fdl_bus_set_reply(&bus, tap, (const uint8_t[]){(uint8_t)(level / 256), (uint8_t)level}, 2), "set_reply");
}

static void begin(void)
{
    struct fdl_tap taps[TAPS] = {{.address = MASTER_ADDRESS, .master = true}};
    for (int i = 0; i < SLAVES; i++)
        taps[i + 1].address = targets[i].address;
    check(fdl_bus_new(&bus, &params, taps, TAPS), "new");
    for (size_t tap = 0; tap < TAPS; tap++) {
        check(fdl_bus_start(&bus, tap), "start");
        if (tap != MASTER)
            check(fdl_bus_keep_indications(&bus, tap, ROOM), "keep_indications");
    }
    ask(0);
}

static void tell(uint64_t until)
{
    size_t telegrams;
    struct fdl_audit audit;
    for (int i = 0; i < SLAVES; i++) {
        const uint64_t level = level_of(&tank[i]);
        printf("tank %d: level %" PRIu64 ".%" PRIu64 " %% of %" PRId64 " %%, valve %d %%, %" PRIu64 " polls\n",
               targets[i].address, level / 10, level % 10, targets[i].target / 10, tank[i].valve, controller[i].polls);
    }
    check(fdl_bus_entries(&bus, &telegrams), "entries");
    check(fdl_bus_audit(&bus, &audit), "audit");
    printf("%zu telegrams in %" PRIu64 " bit times\n", telegrams, until);
    if (audit.premise)
        printf("premise P%d broken at %" PRIu64 "\n", audit.premise, audit.moment);
    else
        printf("premises kept\n");
    if (audit.illegal)
        printf("record %" PRIu64 " illegal\n", audit.entry);
    else
        printf("trace legal\n");
}

int main(int argc, char **argv)
{
    const uint64_t until = argc > 1 ? strtoull(argv[1], NULL, 10) : 1000000;
    uint64_t now = 0;
    begin();
    while (now < until) {
        now = until - now > STEP ? now + STEP : until;
        check(fdl_bus_run(&bus, now), "run");
        for (int i = 0; i < SLAVES; i++)
            control(i, now);
        look();
    }
    tell(until);
    fdl_bus_free(&bus);
    return 0;
}
