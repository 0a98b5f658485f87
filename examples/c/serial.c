/* A master on a serial descriptor: it joins the ring on the line, or forms one, and passes the token.
 *
 *     serial DEVICE ADDRESS SECONDS [BITS]
 *
 * DEVICE is a path, or fd:N for a descriptor that is open; ADDRESS is 1 to 3; BITS are bits a second, 57600 where none are given.
 * Prints each telegram that it sends, with its moment (bit times), and at last what it knows. Status 0 if another master is in
 * its ring then.
 *
 * The device is used raw, and as it is set: this program sets no bit rate, and sends each octet at its own moment, so that
 * a pseudo-terminal stands for a line. (At a real UART, set rate and parity, write a telegram at once, and see to the echo.)
 * Moments come from the monotonic clock. The program doesn't see start bits, so the station hears late: a burst begins
 * for it with the end of the first character, and ends 11 bit times after the last one. docs/DRIVER.md has the reasons. */
#define _GNU_SOURCE
#include "pbfdl.h"

#include <errno.h>
#include <fcntl.h>
#include <inttypes.h>
#include <poll.h>
#include <stdio.h>
#include <stdlib.h>
#include <string.h>
#include <termios.h>
#include <time.h>
#include <unistd.h>

#define CHARACTER_BITS 11

/* A desktop wakes a program up late by many milliseconds. So the slot is long, and most of it is lag; the reply delay is long too,
 * since a pause of half of it inside a telegram is no end of the telegram. */
static const struct fdl_params params = {
    .tsl = 16383, .tid1 = 4000, .tid2 = 4100, .tsdr = 6000, .lag = 6000, .ttr = 400000, .gap = 5, .hsa = 3, .retries = 1, .ttd = 2000};

/* The characters of one telegram end 11 bit times apart, those of two telegrams the reply delay more. */
#define IDLE_BITS (CHARACTER_BITS + 6000 / 2)

static struct fdl_port port = FDL_PORT_EMPTY;
static int line;
static uint64_t bits_a_second = 57600;
static struct timespec began;

/* What is being sent: octet k is over at `from` + 11 * (k + 1). */
static struct {
    uint8_t octets[FDL_TELEGRAM_MAX];
    size_t count, sent;
    uint64_t from;
} output;

/* The burst that is being heard. */
static struct {
    struct fdl_receiver receiver;
    uint64_t last;
    bool begun, whole;
} burst;

static void check(uint32_t code, const char *call)
{
    if (code != FDL_OK) {
        fprintf(stderr, "serial: %s: %s\n", call, fdl_code_text(code));
        exit(1);
    }
}

static void check_system(int result, const char *call)
{
    if (result < 0) {
        perror(call);
        exit(1);
    }
}

/* Bit times since the program began. */
static uint64_t moment(void)
{
    struct timespec now;
    clock_gettime(CLOCK_MONOTONIC, &now);
    const uint64_t seconds = (uint64_t)(now.tv_sec - began.tv_sec);
    return (seconds * 1000000000u + (uint64_t)now.tv_nsec - (uint64_t)began.tv_nsec) / 1000u * bits_a_second / 1000000u;
}

/* ---- what is heard ---- */

/* When the end of the burst has to be told. */
static uint64_t end_moment(void)
{
    if (!burst.begun)
        return FDL_NEVER;
    return burst.last + (burst.whole ? CHARACTER_BITS : IDLE_BITS);
}

static void end_burst(uint64_t now)
{
    const uint64_t heard = burst.last + CHARACTER_BITS;
    const uint64_t at = heard < now ? heard : now;
    check(fdl_port_end(&port, at, now, burst.receiver.characters, burst.receiver.count), "end");
    burst.begun = false;
}

static void hear(uint8_t octet, uint64_t now)
{
    /* Two telegrams may come in one read, where this program was late. */
    if (burst.begun && burst.whole)
        end_burst(now);
    if (!burst.begun) {
        check(fdl_port_begin(&port, now, now), "begin");
        burst.begun = true;
        burst.receiver.count = 0;
    }
    burst.last = now;
    burst.whole = fdl_receive(&burst.receiver, octet) == FDL_OK;
}

static void read_line(uint64_t now)
{
    uint8_t octets[64];
    const ssize_t count = read(line, octets, sizeof octets);
    if (count < 0 && (errno == EIO || errno == EAGAIN))
        return; /* nobody is at the other end, or nothing came */
    check_system((int)count, "read");
    for (ssize_t i = 0; i < count; i++)
        hear(octets[i], now);
}

/* ---- what is sent ---- */

static uint64_t send_moment(void)
{
    return output.sent < output.count ? output.from + CHARACTER_BITS * (output.sent + 1) : FDL_NEVER;
}

static void send_octet(void)
{
    const ssize_t count = write(line, &output.octets[output.sent], 1);
    if (count < 0 && errno != EAGAIN && errno != EIO)
        check_system(-1, "write");
    output.sent++;
}

static void take_turn(uint64_t now)
{
    uint8_t octets[FDL_TELEGRAM_MAX];
    size_t count;
    check(fdl_port_turn(&port, now, octets, sizeof octets, &count), "turn");
    if (count == 0)
        return;
    while (output.sent < output.count) /* it was sent late */
        send_octet();
    memcpy(output.octets, octets, count);
    output.count = count;
    output.sent = 0;
    output.from = now;
    printf("%" PRIu64 " ", now);
    for (size_t k = 0; k < count; k++)
        printf("%02x", octets[k]);
    printf("\n");
}

/* ---- the loop ---- */

static uint64_t due(void)
{
    uint64_t at;
    check(fdl_port_due(&port, &at), "due");
    return at;
}

static uint64_t least(uint64_t a, uint64_t b)
{
    return a < b ? a : b;
}

/* Waits for a moment, or until something comes. */
static bool wait_until(uint64_t at)
{
    const uint64_t now = moment();
    const uint64_t nanoseconds = at > now ? (at - now) * 1000000u / bits_a_second * 1000u : 0;
    const struct timespec wait = {(time_t)(nanoseconds / 1000000000u), (long)(nanoseconds % 1000000000u)};
    struct pollfd event = {.fd = line, .events = POLLIN};
    const int count = ppoll(&event, 1, &wait, NULL);
    if (count < 0 && errno != EINTR)
        check_system(count, "poll");
    return count > 0 && (event.revents & POLLIN);
}

static void run(uint64_t until)
{
    while (moment() < until) {
        const bool heard = wait_until(least(least(due(), end_moment()), least(send_moment(), until)));
        const uint64_t now = moment();
        if (heard)
            read_line(now);
        if (end_moment() <= now)
            end_burst(now);
        if (send_moment() <= now)
            send_octet();
        if (due() <= now)
            take_turn(now);
    }
}

/* ---- the program ---- */

static int open_line(const char *device)
{
    struct termios raw;
    const int opened = strncmp(device, "fd:", 3) == 0 ? atoi(device + 3) : open(device, O_RDWR | O_NOCTTY);
    check_system(opened, device);
    if (tcgetattr(opened, &raw) == 0) {
        cfmakeraw(&raw);
        check_system(tcsetattr(opened, TCSANOW, &raw), "tcsetattr");
    }
    check_system(fcntl(opened, F_SETFL, O_NONBLOCK), "fcntl");
    return opened;
}

/* Prints the list of active stations, and answers whether another one is in it. */
static bool print_ring(uint8_t address)
{
    bool with_others = false;
    printf("ring");
    for (uint8_t station = 0; station <= params.hsa; station++) {
        bool active;
        check(fdl_port_is_active(&port, station, &active), "is_active");
        if (active)
            printf(" %u", station);
        with_others |= active && station != address;
    }
    printf("\n");
    return with_others;
}

int main(int argc, char **argv)
{
    if (argc < 4) {
        fprintf(stderr, "usage: serial DEVICE ADDRESS SECONDS [BITS]\n");
        return 2;
    }
    const uint8_t address = (uint8_t)atoi(argv[2]);
    if (argc > 4)
        bits_a_second = strtoull(argv[4], NULL, 10);
    setvbuf(stdout, NULL, _IOLBF, 0);
    line = open_line(argv[1]);
    clock_gettime(CLOCK_MONOTONIC, &began);
    check(fdl_port_new(&port, &params, address, true, (const uint8_t *)"", 0), "new");
    check(fdl_port_start(&port, moment()), "start");
    run(strtoull(argv[3], NULL, 10) * bits_a_second);
    const bool with_others = print_ring(address);
    fdl_port_free(&port);
    return with_others ? 0 : 1;
}
