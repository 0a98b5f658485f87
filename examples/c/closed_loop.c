/* A closed loop: a master polls slaves by SRD, and makes each request of the last reply. Each slave controls a tank.
 *
 *     closed_loop [UNTIL]
 *
 * A request carries the opening of the valve that fills the tank, a reply the level of the tank. The stations are the library's;
 * wire, tanks and controller are this program's. It runs to a moment (bit times, 1000000 where none is given), and prints where
 * the tanks are. */
#include "pbfdl.h"

#include <inttypes.h>
#include <stdio.h>
#include <stdlib.h>
#include <string.h>

#define CHARACTER_BITS 11
#define MASTER_ADDRESS 1

/* Addresses of the slaves, 1 to 10 of them, and the levels that their tanks shall have, in thousandths. */
static const struct {
    uint8_t address;
    int64_t target;
} targets[] = {{3, 300}, {4, 400}, {5, 500}, {6, 600}};

/* The slaves come first, then the master. */
enum { SLAVES = sizeof targets / sizeof targets[0], MASTER = SLAVES, NODES };

/* A tank of 1,000,000 units. An open valve brings 40 a bit time; 1 in 50,000 of its content leaves it in a bit time. */
struct tank {
    uint64_t content, moment;
    uint8_t valve;
};

/* What the master knows of a slave. Levels in thousandths. */
struct controller {
    int64_t level, sum;
    uint64_t polls;
};

/* The telegram on the wire: heard by all nodes but the sender, at once. */
struct wire {
    uint8_t octets[FDL_TELEGRAM_MAX];
    size_t count;
    int sender;
    uint64_t end;
    uint64_t telegrams;
};

static const struct fdl_params params = {
    .tsl = 100, .tid1 = 37, .tid2 = 60, .tsdr = 11, .lag = 0, .ttr = 10000, .gap = 10, .hsa = 2, .retries = 1, .ttd = 0};

static struct fdl_port node[NODES];
static struct tank tank[SLAVES];
static struct controller controller[SLAVES];
static struct wire wire = {.end = FDL_NEVER};
static int asked;

static void check(uint32_t code, const char *call)
{
    if (code != FDL_OK) {
        fprintf(stderr, "closed_loop: %s: %s\n", call, fdl_code_text(code));
        exit(1);
    }
}

static int64_t clamp(int64_t value, int64_t most)
{
    return value < 0 ? 0 : value > most ? most : value;
}

/* The level of a tank in thousandths. */
static uint64_t level_of(const struct tank *it)
{
    return it->content / 1000;
}

static void advance(struct tank *it, uint64_t now)
{
    const uint64_t passed = now - it->moment;
    it->content = it->content + it->valve * passed * 2 / 5 - it->content * passed / 50000;
    it->moment = now;
}

/* The master asks a slave: the valve is proportional to the error, and to its sum. */
static void ask(int slave)
{
    const struct controller *it = &controller[slave];
    const uint8_t valve = (uint8_t)(clamp(32 * (targets[slave].target - it->level) + it->sum, 6400) / 64);
    check(fdl_port_push(&node[MASTER], targets[slave].address, FDL_SRD, false, &valve, 1), "push");
    asked = slave;
}

static void learn(int slave, int64_t level)
{
    struct controller *it = &controller[slave];
    it->level = level;
    it->polls++;
    it->sum = clamp(it->sum + targets[slave].target - level, 6400);
}

static uint32_t phase(int place)
{
    uint32_t found;
    check(fdl_port_phase(&node[place], &found), "phase");
    return found;
}

/* The poll is over: the master learns what came of it, and asks the next slave. */
static void close_poll(void)
{
    struct fdl_outcome outcome;
    check(fdl_port_outcome(&node[MASTER], &outcome), "outcome");
    if (outcome.kind == FDL_DATA)
        learn(asked, 256 * outcome.data[0] + outcome.data[1]);
    ask((asked + 1) % SLAVES);
}

/* After a turn of the master. The poll is open while the master awaits data, retries included. If it loses the token then, the
 * poll has no outcome. */
static void after_master(bool was_open)
{
    if (was_open && phase(MASTER) == FDL_IDLE)
        ask(asked);
    else if (was_open && phase(MASTER) != FDL_AWAIT_DATA)
        close_poll();
}

static void before_slave(int slave, uint64_t now)
{
    advance(&tank[slave], now);
    const uint64_t level = level_of(&tank[slave]);
    check(fdl_port_set_reply(&node[slave], (const uint8_t[]){(uint8_t)(level / 256), (uint8_t)level}, 2), "set_reply");
}

static void after_slave(int slave)
{
    size_t count;
    struct fdl_indication indication;
    check(fdl_port_indications(&node[slave], &count), "indications");
    for (size_t i = 0; i < count; i++) {
        check(fdl_port_indication(&node[slave], i, &indication), "indication");
        tank[slave].valve = indication.data[0];
    }
}

static void send(int sender, const uint8_t *octets, size_t count, uint64_t now)
{
    memcpy(wire.octets, octets, count);
    wire.count = count;
    wire.sender = sender;
    wire.end = now + CHARACTER_BITS * count;
    wire.telegrams++;
    for (int i = 0; i < NODES; i++)
        if (i != sender)
            check(fdl_port_begin(&node[i], now, now), "begin");
}

static void take_turn(int place, uint64_t now)
{
    uint8_t octets[FDL_TELEGRAM_MAX];
    size_t count;
    const bool was_open = place == MASTER && phase(MASTER) == FDL_AWAIT_DATA;
    if (place != MASTER)
        before_slave(place, now);
    check(fdl_port_turn(&node[place], now, octets, sizeof octets, &count), "turn");
    if (place == MASTER)
        after_master(was_open);
    else
        after_slave(place);
    if (count > 0)
        send(place, octets, count, now);
}

static uint64_t due(int place)
{
    uint64_t at;
    check(fdl_port_due(&node[place], &at), "due");
    return at;
}

/* The next moment at which something happens: the end of the telegram on the wire, or a turn. */
static uint64_t next_moment(void)
{
    uint64_t next = wire.end;
    for (int i = 0; i < NODES; i++)
        if (due(i) < next)
            next = due(i);
    return next;
}

static void step(uint64_t now)
{
    if (wire.end == now) {
        for (int i = 0; i < NODES; i++)
            if (i != wire.sender)
                check(fdl_port_end_good(&node[i], now, now, wire.octets, wire.count), "end");
        wire.end = FDL_NEVER;
    }
    /* The master first, as in the other languages. */
    for (int i = 0; i < NODES; i++)
        if (due((i + MASTER) % NODES) <= now)
            take_turn((i + MASTER) % NODES, now);
}

int main(int argc, char **argv)
{
    const uint64_t until = argc > 1 ? strtoull(argv[1], NULL, 10) : 1000000;
    for (int i = 0; i < NODES; i++) {
        const uint8_t address = i == MASTER ? MASTER_ADDRESS : targets[i].address;
        check(fdl_port_new(&node[i], &params, address, i == MASTER, (const uint8_t *)"", 0), "new");
        check(fdl_port_start(&node[i], 0), "start");
    }
    ask(0);
    for (uint64_t now = next_moment(); now <= until; now = next_moment())
        step(now);
    for (int i = 0; i < SLAVES; i++) {
        const uint64_t level = level_of(&tank[i]);
        printf("tank %d: level %" PRIu64 ".%" PRIu64 " %% of %" PRId64 " %%, valve %d %%, %" PRIu64 " polls\n",
               targets[i].address, level / 10, level % 10, targets[i].target / 10, tank[i].valve, controller[i].polls);
    }
    printf("%" PRIu64 " telegrams in %" PRIu64 " bit times\n", wire.telegrams, until);
    for (int i = 0; i < NODES; i++)
        fdl_port_free(&node[i]);
    return 0;
}
