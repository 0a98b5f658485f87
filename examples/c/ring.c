/* Two masters on a wire that this program keeps itself: they form a ring on an idle bus, and pass the token.
 *
 *     ring [UNTIL]
 *
 * Prints each telegram until a moment (bit times, 1400 where none is given): begin, end, sender, octets. */
#include "pbfdl.h"

#include <inttypes.h>
#include <stdio.h>
#include <stdlib.h>
#include <string.h>

#define MASTERS 2
#define CHARACTER_BITS 11

/* A telegram on the wire. */
struct telegram {
    uint64_t begin, end;
    uint8_t octets[FDL_TELEGRAM_MAX];
    size_t count;
    int sender;
};

static struct fdl_port port[MASTERS];
static struct telegram wire;
static bool busy;

static void check(uint32_t code, const char *call)
{
    if (code != FDL_OK) {
        fprintf(stderr, "ring: %s: %s\n", call, fdl_code_text(code));
        exit(1);
    }
}

static uint64_t due(int master)
{
    uint64_t at;
    check(fdl_port_due(&port[master], &at), "due");
    return at;
}

/* The next moment at which something happens: the end of the telegram on the wire, or a turn. */
static uint64_t next_moment(void)
{
    uint64_t next = busy ? wire.end : FDL_NEVER;
    for (int i = 0; i < MASTERS; i++)
        if (due(i) < next)
            next = due(i);
    return next;
}

/* The telegram has ended: the other master is told its octets. */
static void end_telegram(uint64_t now)
{
    for (int i = 0; i < MASTERS; i++)
        if (i != wire.sender)
            check(fdl_port_end_good(&port[i], wire.end, now, wire.octets, wire.count), "end");
    busy = false;
}

/* A master takes its turn. What it sends begins at once, and the other master is told so. */
static void take_turn(int master, uint64_t now)
{
    struct telegram sent;
    sent.begin = now;
    sent.sender = master;
    check(fdl_port_turn(&port[master], now, sent.octets, sizeof sent.octets, &sent.count), "turn");
    if (sent.count == 0)
        return;
    sent.end = now + CHARACTER_BITS * sent.count;
    if (busy) {
        fprintf(stderr, "ring: two telegrams at %" PRIu64 "\n", now);
        exit(1);
    }
    wire = sent;
    busy = true;
    for (int i = 0; i < MASTERS; i++)
        if (i != master)
            check(fdl_port_begin(&port[i], now, now), "begin");
    printf("%" PRIu64 " %" PRIu64 " %c ", sent.begin, sent.end, 'a' + master);
    for (size_t k = 0; k < sent.count; k++)
        printf("%02x", sent.octets[k]);
    printf("\n");
}

int main(int argc, char **argv)
{
    const uint64_t until = argc > 1 ? strtoull(argv[1], NULL, 10) : 1400;
    const struct fdl_params params = {
        .tsl = 100, .tid1 = 37, .tid2 = 60, .tsdr = 11, .lag = 0, .ttr = 10000, .gap = 10, .hsa = 5, .retries = 1, .ttd = 0};
    for (int i = 0; i < MASTERS; i++) {
        check(fdl_port_new(&port[i], &params, (uint8_t)(i + 1), true, (const uint8_t *)"", 0), "new");
        check(fdl_port_start(&port[i], 0), "start");
    }
    for (uint64_t now = next_moment(); now <= until; now = next_moment()) {
        if (busy && wire.end <= now)
            end_telegram(now);
        for (int i = 0; i < MASTERS; i++)
            if (due(i) <= now)
                take_turn(i, now);
    }
    for (int i = 0; i < MASTERS; i++)
        fdl_port_free(&port[i]);
    return 0;
}
