/* Two masters on a wire of the program's own, with the parameters of examples/two-masters.toml. A program that includes it
 * declares memcpy before, and defines sent, which is called for each telegram. */
#ifndef TWO_MASTERS_H
#define TWO_MASTERS_H

#include "pbfdl.h"

#define CHARACTER_BITS 11

static struct fdl_port port[2];
static uint8_t wire[FDL_TELEGRAM_MAX];
static size_t on_wire;
static uint64_t wire_end = FDL_NEVER;
static int sender;

/* How often each function was called. */
static uint64_t begins, ends, dues, turns;

static void sent(uint64_t begin, uint64_t end, int master, const uint8_t *octets, size_t count);

static uint64_t due(int master)
{
    uint64_t at = FDL_NEVER;
    dues++;
    fdl_port_due(&port[master], &at);
    return at;
}

static void take_turn(int master, uint64_t now)
{
    uint8_t out[FDL_TELEGRAM_MAX];
    size_t count;
    turns++;
    fdl_port_turn(&port[master], now, out, sizeof out, &count);
    if (count == 0)
        return;
    memcpy(wire, out, count);
    on_wire = count;
    wire_end = now + CHARACTER_BITS * count;
    sender = master;
    begins++;
    fdl_port_begin(&port[1 - master], now, now);
    sent(now, wire_end, master, out, count);
}

/* Makes and starts both masters. Returns 0, or 1 if a call fails. */
static int start_masters(void)
{
    static const struct fdl_params params = {100, 37, 60, 11, 0, 10000, 10, 5, 1, 0};
    for (int i = 0; i < 2; i++)
        if (fdl_port_new(&port[i], &params, (uint8_t)(i + 1), true, wire, 0) || fdl_port_start(&port[i], 0))
            return 1;
    return 0;
}

static void play(uint64_t until)
{
    for (;;) {
        uint64_t now = wire_end;
        for (int i = 0; i < 2; i++) {
            const uint64_t at = due(i);
            if (at < now)
                now = at;
        }
        if (now > until)
            return;
        if (wire_end <= now) {
            ends++;
            fdl_port_end_good(&port[1 - sender], wire_end, now, wire, on_wire);
            wire_end = FDL_NEVER;
        }
        for (int i = 0; i < 2; i++)
            if (due(i) <= now)
                take_turn(i, now);
    }
}

#endif
