/* Every function of the library with arguments out of range, an empty port, bus or monitor, one in use, and each allocation
 * of one refused in turn. Prints what differs from what is expected, and at last how many answers are right. */
#include "pbfdl.h"

#include <stdio.h>
#include <stdlib.h>
#include <string.h>

/* How many allocations are granted; -1: all of them. Link with --wrap=malloc. */
static long granted = -1;

void *__real_malloc(size_t size);
void *__wrap_malloc(size_t size);

void *__wrap_malloc(size_t size)
{
    if (granted == 0)
        return NULL;
    if (granted > 0)
        granted--;
    return __real_malloc(size);
}

static int right, wrong;
static uint8_t octets[256];
static uint16_t characters[256];

static void want(uint32_t expected, uint32_t code, const char *call)
{
    if (code == expected) {
        right++;
        return;
    }
    wrong++;
    printf("%s: %s, not %s\n", call, fdl_code_text(code), fdl_code_text(expected));
}

#define WANT(expected, call) want(expected, call, #call)

static const struct fdl_params usual = {100, 37, 60, 11, 0, 10000, 10, 5, 1, 0};

static void on_an_empty_port(void)
{
    struct fdl_port port = FDL_PORT_EMPTY;
    uint64_t moment = 7;
    uint32_t phase = 7;
    size_t count = 7;
    bool active = true;
    struct fdl_outcome outcome;
    struct fdl_indication indication;
    fdl_port_free(&port);
    WANT(FDL_NO_PORT, fdl_port_start(&port, 0));
    WANT(FDL_NO_PORT, fdl_port_stop(&port));
    WANT(FDL_NO_PORT, fdl_port_push(&port, 2, FDL_SDA, false, octets, 0));
    WANT(FDL_NO_PORT, fdl_port_begin(&port, 0, 0));
    WANT(FDL_NO_PORT, fdl_port_end(&port, 0, 0, characters, 1));
    WANT(FDL_NO_PORT, fdl_port_end_good(&port, 0, 0, octets, 1));
    WANT(FDL_NO_PORT, fdl_port_noise(&port, 0, 0));
    WANT(FDL_NO_PORT, fdl_port_due(&port, &moment));
    WANT(FDL_NO_PORT, fdl_port_turn(&port, 0, octets, 255, &count));
    WANT(FDL_NO_PORT, fdl_port_phase(&port, &phase));
    WANT(FDL_NO_PORT, fdl_port_is_active(&port, 1, &active));
    WANT(FDL_NO_PORT, fdl_port_executed(&port, &moment));
    WANT(FDL_NO_PORT, fdl_port_outcome(&port, &outcome));
    WANT(FDL_LONG_DATA, fdl_port_set_reply(&port, octets, 247));
    WANT(FDL_NO_PORT, fdl_port_set_reply(&port, octets, 246));
    WANT(FDL_NO_PORT, fdl_port_indications(&port, &count));
    WANT(FDL_NO_PORT, fdl_port_indication(&port, 0, &indication));
    want(7, (uint32_t)moment, "due is unchanged");
    want(7, phase, "phase is unchanged");
    want(0, (uint32_t)count, "nothing is sent");
    want(1, port.at == NULL, "the port stays empty");
}

static void on_a_new_port(void)
{
    struct fdl_port port = FDL_PORT_EMPTY;
    struct fdl_params late = usual;
    late.lag = 40;
    WANT(FDL_PARAM_TAKE_LATE, fdl_port_new(&port, &late, 1, true, octets, 0));
    WANT(FDL_BAD_STATION, fdl_port_new(&port, &usual, 6, true, octets, 0));
    WANT(FDL_BAD_STATION, fdl_port_new(&port, &usual, 127, false, octets, 0));
    WANT(FDL_LONG_DATA, fdl_port_new(&port, &usual, 1, true, octets, 247));
    want(1, port.at == NULL, "a refused port is empty");
    WANT(FDL_OK, fdl_port_new(&port, &usual, 126, false, octets, 246));
    WANT(FDL_PORT_IN_USE, fdl_port_new(&port, &usual, 1, true, octets, 0));
    fdl_port_free(&port);
    want(1, port.at == NULL, "a freed port is empty");
    fdl_port_free(&port);
}

static void on_room_for_marks(void)
{
    struct fdl_port port = FDL_PORT_EMPTY;
    size_t count;
    WANT(FDL_BAD_ROOM, fdl_port_new_with_room(&port, 1, &(struct fdl_params){0}, 6, true, octets, 247));
    WANT(FDL_BAD_ROOM, fdl_port_new_with_room(&port, 65, &usual, 1, true, octets, 0));
    WANT(FDL_PARAM_SLOT, fdl_port_new_with_room(&port, 2, &(struct fdl_params){0}, 6, true, octets, 247));
    WANT(FDL_BAD_STATION, fdl_port_new_with_room(&port, 2, &usual, 6, true, octets, 247));
    WANT(FDL_LONG_DATA, fdl_port_new_with_room(&port, 64, &usual, 1, true, octets, 247));
    want(1, port.at == NULL, "a refused port is empty");
    WANT(FDL_OK, fdl_port_new_with_room(&port, 2, &usual, 1, true, octets, 246));
    WANT(FDL_PORT_IN_USE, fdl_port_new_with_room(&port, 1, &usual, 1, true, octets, 0));
    WANT(FDL_OK, fdl_port_start(&port, 100));
    for (int i = 0; i < 2; i++) {
        WANT(FDL_OK, fdl_port_end(&port, 100, 100, characters, 255));
        WANT(FDL_OK, fdl_port_end_good(&port, 100, 100, octets, 255));
        WANT(FDL_INBOX_FULL, fdl_port_begin(&port, 100, 100));
        WANT(FDL_TOO_LONG, fdl_port_end(&port, 100, 100, characters, 256));
        WANT(FDL_OK, fdl_port_turn(&port, 100, octets, 255, &count));
    }
    fdl_port_free(&port);
}

static void on_a_port(void)
{
    struct fdl_port port = FDL_PORT_EMPTY;
    uint64_t moment;
    uint32_t phase;
    size_t count = 7;
    bool active = true;
    struct fdl_outcome outcome;
    WANT(FDL_OK, fdl_port_new(&port, &usual, 1, true, octets, 0));
    WANT(FDL_OK, fdl_port_due(&port, &moment));
    want(1, moment == FDL_NEVER, "a station that doesn't run is never due");
    WANT(FDL_TOO_LATE, fdl_port_start(&port, FDL_LAST_MOMENT + 1));
    WANT(FDL_OK, fdl_port_start(&port, 100));
    WANT(FDL_BACKWARDS, fdl_port_start(&port, 99));
    WANT(FDL_BACKWARDS, fdl_port_turn(&port, 99, octets, 255, &count));
    want(0, (uint32_t)count, "a refused turn sends nothing");
    WANT(FDL_TOO_LATE, fdl_port_turn(&port, FDL_LAST_MOMENT + 1, octets, 255, &count));
    WANT(FDL_NO_ROOM, fdl_port_turn(&port, 100, octets, 254, &count));
    WANT(FDL_BACKWARDS, fdl_port_begin(&port, 100, 99));
    WANT(FDL_BACKWARDS, fdl_port_begin(&port, 99, 100));
    WANT(FDL_AHEAD, fdl_port_begin(&port, 101, 100));
    WANT(FDL_TOO_LATE, fdl_port_begin(&port, 0, FDL_LAST_MOMENT + 1));
    WANT(FDL_TOO_LONG, fdl_port_end(&port, 100, 100, characters, 256));
    WANT(FDL_TOO_LONG, fdl_port_end_good(&port, 100, 100, octets, 256));
    for (int i = 0; i < 32; i++) {
        WANT(FDL_OK, fdl_port_begin(&port, 100, 100));
        WANT(FDL_OK, fdl_port_end(&port, 100, 100, characters, 255));
    }
    WANT(FDL_INBOX_FULL, fdl_port_noise(&port, 100, 100));
    WANT(FDL_BAD_SERVICE, fdl_port_push(&port, 2, 3, false, octets, 0));
    WANT(FDL_LONG_DATA, fdl_port_push(&port, 2, FDL_SRD, false, octets, 247));
    WANT(FDL_BAD_STATION, fdl_port_push(&port, 127, FDL_SDA, false, octets, 1));
    for (int i = 0; i < 16; i++)
        WANT(FDL_OK, fdl_port_push(&port, 127, FDL_SDN, true, octets, 246));
    WANT(FDL_QUEUE_FULL, fdl_port_push(&port, 2, FDL_SDA, true, octets, 1));
    WANT(FDL_OK, fdl_port_push(&port, 2, FDL_SDA, false, octets, 1));
    WANT(FDL_OK, fdl_port_phase(&port, &phase));
    want(FDL_LISTENING, phase, "a master that starts listens");
    WANT(FDL_BAD_STATION, fdl_port_is_active(&port, 127, &active));
    WANT(FDL_OK, fdl_port_is_active(&port, 1, &active));
    want(0, active, "a listener's list is empty");
    WANT(FDL_OK, fdl_port_executed(&port, &moment));
    want(0, (uint32_t)moment, "it has executed nothing");
    WANT(FDL_OK, fdl_port_outcome(&port, &outcome));
    want(FDL_NO_OUTCOME, outcome.kind, "it has asked nobody");
    WANT(FDL_OK, fdl_port_stop(&port));
    WANT(FDL_OK, fdl_port_phase(&port, &phase));
    want(FDL_OFFLINE, phase, "a stopped station is offline");
    fdl_port_free(&port);
}

/* A passive station at address 7 is asked for data by station 1, and asked again. */
static void on_data_in_and_out(void)
{
    static const uint8_t request[] = {0x68, 4, 4, 0x68, 7, 1, 0x7d, 0xaa, 0x2f, 0x16};
    static const uint8_t reply[] = {0x68, 5, 5, 0x68, 1, 7, 0x0a, 0xbb, 0xcc, 0x99, 0x16};
    struct fdl_port port = FDL_PORT_EMPTY;
    struct fdl_indication indication;
    size_t count = 7;
    WANT(FDL_OK, fdl_port_new(&port, &usual, 7, false, octets, 0));
    WANT(FDL_OK, fdl_port_start(&port, 0));
    WANT(FDL_OK, fdl_port_indications(&port, &count));
    want(0, (uint32_t)count, "nothing is executed yet");
    WANT(FDL_NO_INDICATION, fdl_port_indication(&port, 0, &indication));
    WANT(FDL_OK, fdl_port_set_reply(&port, (const uint8_t[]){0xbb, 0xcc}, 2));
    WANT(FDL_OK, fdl_port_begin(&port, 100, 100));
    WANT(FDL_OK, fdl_port_end_good(&port, 210, 210, request, sizeof request));
    WANT(FDL_OK, fdl_port_turn(&port, 210, octets, 255, &count));
    WANT(FDL_OK, fdl_port_indications(&port, &count));
    want(1, (uint32_t)count, "a request is executed");
    WANT(FDL_OK, fdl_port_indication(&port, 0, &indication));
    want(1, indication.source, "of station 1");
    want(FDL_SRD, indication.service, "an SRD");
    want(1, indication.high, "of high priority");
    want(1, indication.count == 1 && indication.data[0] == 0xaa, "with its data");
    WANT(FDL_NO_INDICATION, fdl_port_indication(&port, 1, &indication));
    WANT(FDL_OK, fdl_port_set_reply(&port, octets, 0));
    WANT(FDL_OK, fdl_port_turn(&port, 221, octets, 255, &count));
    want(1, count == sizeof reply && !memcmp(octets, reply, count), "it replies with what was set before");
    WANT(FDL_OK, fdl_port_indications(&port, &count));
    want(0, (uint32_t)count, "this turn executed nothing");
    WANT(FDL_OK, fdl_port_begin(&port, 400, 400));
    WANT(FDL_OK, fdl_port_end_good(&port, 510, 510, request, sizeof request));
    WANT(FDL_OK, fdl_port_turn(&port, 521, octets, 255, &count));
    want(1, count == sizeof reply && !memcmp(octets, reply, count), "a repeat gets the same reply");
    WANT(FDL_OK, fdl_port_indications(&port, &count));
    want(0, (uint32_t)count, "a repeat is not executed");
    fdl_port_free(&port);
}

static void on_telegrams(void)
{
    struct fdl_telegram telegram, again;
    uint8_t out[FDL_TELEGRAM_MAX];
    size_t count = 7;
    static const uint8_t diagnosis[] = {0x68, 5, 5, 0x68, 0x89, 0x85, 0x5d, 0x3c, 0x3e, 0xe5, 0x16};
    memset(&telegram, 0, sizeof telegram);
    WANT(FDL_BAD_KIND, fdl_write(&telegram, out, sizeof out, &count));
    telegram.kind = FDL_SD2;
    telegram.count = 247;
    WANT(FDL_BAD_KIND, fdl_write(&telegram, out, sizeof out, &count));
    want(0, (uint32_t)count, "a refused telegram has no octets");
    telegram.count = 0;
    WANT(FDL_BAD_LENGTH, fdl_write(&telegram, out, sizeof out, &count));
    telegram.kind = FDL_SD4;
    telegram.sa = 127;
    WANT(FDL_BAD_ADDRESS, fdl_write(&telegram, out, sizeof out, &count));
    telegram.sa = 1;
    WANT(FDL_NO_ROOM, fdl_write(&telegram, out, 2, &count));
    WANT(FDL_OK, fdl_write(&telegram, out, 3, &count));
    want(1, count == 3 && memcmp(out, "\xdc\0\1", 3) == 0, "a token");
    WANT(FDL_EMPTY, fdl_parse(out, 0, &again));
    WANT(FDL_TRUNCATED, fdl_parse(out, 2, &again));
    WANT(FDL_OK, fdl_parse(diagnosis, sizeof diagnosis, &again));
    want(1, again.kind == FDL_SD2 && again.da == 0x89 && again.count == 2 && again.unit[1] == 0x3e, "its fields");
    WANT(FDL_OK, fdl_write(&again, out, sizeof out, &count));
    want(1, count == sizeof diagnosis && memcmp(out, diagnosis, count) == 0, "the same octets");
    memset(octets, 0x10, sizeof octets);
    WANT(FDL_BAD_CHECK, fdl_parse(octets, sizeof octets, &again));
    WANT(FDL_PARAM_SLOT, fdl_params_fault(&(struct fdl_params){99, 0, 0, 0, 0, 0, 0, 0, 0, 0}));
    WANT(FDL_OK, fdl_params_fault(&usual));
}

/* Octets go into a telegram that had other ones, and each field of it is as expected. */
static void parses(const char *octets, size_t count, struct fdl_telegram expected)
{
    struct fdl_telegram found;
    memset(&found, 0x55, sizeof found);
    WANT(FDL_OK, fdl_parse((const uint8_t *)octets, count, &found));
    want(expected.kind, found.kind, "the kind");
    want(1, found.da == expected.da && found.sa == expected.sa && found.fc == expected.fc, "the octets before the data");
    want(expected.count, found.count, "how much data there is");
    want(0, (uint32_t)memcmp(found.unit, expected.unit, expected.count), "the data");
}

static void on_fields(void)
{
    struct fdl_receiver receiver = {1, {0xe5}};
    struct fdl_telegram found;
    parses("\x10\2\1\x49\x4c\x16", 6, (struct fdl_telegram){FDL_SD1, 2, 1, 0x49, 0, {0}});
    parses("\x68\4\4\x68\2\1\x4d\x41\x91\x16", 10, (struct fdl_telegram){FDL_SD2, 2, 1, 0x4d, 1, {0x41}});
    parses("\xa2\2\1\x4d\1\2\3\4\5\6\7\x08\x74\x16", 14, (struct fdl_telegram){FDL_SD3, 2, 1, 0x4d, 8, {1, 2, 3, 4, 5, 6, 7, 8}});
    parses("\xdc\2\1", 3, (struct fdl_telegram){FDL_SD4, 2, 1, 0, 0, {0}});
    parses("\xe5", 1, (struct fdl_telegram){FDL_SC, 0, 0, 0, 0, {0}});
    memset(&found, 0x55, sizeof found);
    WANT(FDL_OK, fdl_received(&receiver, &found));
    want(1, found.kind == FDL_SC && !found.da && !found.sa && !found.fc && !found.count, "an acknowledgement has no fields");
}

static void on_receivers(void)
{
    struct fdl_receiver receiver = {0, {0}};
    struct fdl_telegram telegram;
    WANT(FDL_EMPTY, fdl_received(&receiver, &telegram));
    WANT(FDL_TRUNCATED, fdl_receive(&receiver, 0xdc));
    WANT(FDL_TRUNCATED, fdl_receive(&receiver, 2));
    WANT(FDL_OK, fdl_receive(&receiver, 1));
    WANT(FDL_OK, fdl_received(&receiver, &telegram));
    want(1, telegram.kind == FDL_SD4 && telegram.da == 2 && telegram.sa == 1, "a token");
    WANT(FDL_TRAILING, fdl_receive(&receiver, 0));
    WANT(FDL_DAMAGED, fdl_receive(&receiver, 256));
    WANT(FDL_DAMAGED, fdl_received(&receiver, &telegram));
    receiver.count = 254;
    WANT(FDL_DAMAGED, fdl_receive(&receiver, 65535));
    WANT(FDL_TOO_LONG, fdl_receive(&receiver, 0));
    want(255, receiver.count, "a full receiver is unchanged");
    receiver.count = 256;
    WANT(FDL_TOO_LONG, fdl_received(&receiver, &telegram));
    WANT(FDL_TOO_LONG, fdl_receive(&receiver, 0));
}

/* Each allocation of a port with some room is refused in turn; with none, of fdl_port_new. */
static void with_memory_refused(size_t room)
{
    struct fdl_port port = FDL_PORT_EMPTY;
    for (granted = 0;; granted++) {
        const long allowed = granted;
        const uint32_t code = room ? fdl_port_new_with_room(&port, room, &usual, 1, true, octets, 0)
                                   : fdl_port_new(&port, &usual, 1, true, octets, 0);
        granted = allowed;
        if (code == FDL_OK)
            break;
        want(FDL_NO_MEMORY, code, "a refused allocation");
        want(1, port.at == NULL, "a port without memory is empty");
    }
    want(1, granted > 0, "an allocation is refused");
    granted = 0;
    WANT(FDL_OK, fdl_port_start(&port, 0));
    WANT(FDL_OK, fdl_port_push(&port, 2, FDL_SRD, true, octets, 246));
    fdl_port_free(&port);
    granted = -1;
}

static const struct fdl_tap stations[] = {{.address = 1, .master = true}, {.address = 2, .master = true}, {.address = 9}};

static void on_an_empty_bus(void)
{
    struct fdl_bus bus = FDL_BUS_EMPTY;
    uint64_t moment = 7;
    uint32_t phase = 7;
    size_t count = 7;
    struct fdl_indication indication;
    bool active = true;
    static struct fdl_outcome outcome;
    static struct fdl_entry entry;
    static struct fdl_audit audit;
    fdl_bus_free(&bus);
    WANT(FDL_NO_BUS, fdl_bus_start(&bus, 0));
    WANT(FDL_NO_BUS, fdl_bus_stop(&bus, 0));
    WANT(FDL_NO_BUS, fdl_bus_turn(&bus, 0));
    WANT(FDL_NO_BUS, fdl_bus_pass(&bus, 1));
    WANT(FDL_NO_BUS, fdl_bus_noise(&bus, UINT32_MAX));
    WANT(FDL_TOO_FAR, fdl_bus_noise(&bus, (uint64_t)UINT32_MAX + 1));
    WANT(FDL_NO_BUS, fdl_bus_damage(&bus, 0, 1, 0));
    WANT(FDL_NO_BUS, fdl_bus_unheard(&bus, 0, 1));
    WANT(FDL_BAD_SERVICE, fdl_bus_queue(&bus, 0, 2, 3, false, octets, 247));
    WANT(FDL_LONG_DATA, fdl_bus_queue(&bus, 0, 127, FDL_SDA, false, octets, 247));
    WANT(FDL_BAD_STATION, fdl_bus_queue(&bus, 0, 127, FDL_SDA, false, octets, 1));
    WANT(FDL_NO_BUS, fdl_bus_queue(&bus, 0, 2, FDL_SDA, false, octets, 1));
    WANT(FDL_LONG_DATA, fdl_bus_set_reply(&bus, 0, octets, 247));
    WANT(FDL_NO_BUS, fdl_bus_set_reply(&bus, 0, octets, 246));
    WANT(FDL_NO_BUS, fdl_bus_run(&bus, 0));
    WANT(FDL_NO_BUS, fdl_bus_now(&bus, &moment));
    WANT(FDL_NO_BUS, fdl_bus_due(&bus, 0, &moment));
    WANT(FDL_NO_BUS, fdl_bus_next_change(&bus, &moment));
    WANT(FDL_NO_BUS, fdl_bus_is_settled(&bus, &active));
    WANT(FDL_NO_BUS, fdl_bus_keep_indications(&bus, 0, 1));
    WANT(FDL_NO_BUS, fdl_bus_indications(&bus, 0, &count));
    WANT(FDL_NO_BUS, fdl_bus_indication(&bus, 0, 0, &indication));
    WANT(FDL_NO_BUS, fdl_bus_forget_indications(&bus, 0));
    WANT(FDL_NO_BUS, fdl_bus_phase(&bus, 0, &phase));
    WANT(FDL_BAD_STATION, fdl_bus_is_active(&bus, 0, 127, &active));
    WANT(FDL_NO_BUS, fdl_bus_is_active(&bus, 0, 126, &active));
    WANT(FDL_NO_BUS, fdl_bus_executed(&bus, 0, &moment));
    WANT(FDL_NO_BUS, fdl_bus_outcome(&bus, 0, &outcome));
    WANT(FDL_NO_BUS, fdl_bus_entries(&bus, &count));
    WANT(FDL_NO_BUS, fdl_bus_entry(&bus, 0, &entry));
    WANT(FDL_NO_BUS, fdl_bus_over(&bus, &count));
    WANT(FDL_NO_BUS, fdl_bus_let_go(&bus, &count));
    WANT(FDL_NO_BUS, fdl_bus_audit(&bus, &audit));
    want(1, moment == 7 && phase == 7 && count == 7 && active, "nothing is written");
    want(1, bus.at == NULL, "the bus stays empty");
}

static void on_a_new_bus(void)
{
    static struct fdl_tap many[128];
    struct fdl_bus bus = FDL_BUS_EMPTY;
    struct fdl_params late = usual;
    late.lag = 40;
    many[127].count = 247;
    WANT(FDL_PARAM_TAKE_LATE, fdl_bus_new(&bus, &late, many, 128));
    WANT(FDL_LONG_DATA, fdl_bus_new(&bus, &usual, many, 128));
    many[127].count = 246;
    many[0].address = 127;
    WANT(FDL_TOO_MANY_TAPS, fdl_bus_new(&bus, &usual, many, 128));
    WANT(FDL_NO_TAPS, fdl_bus_new(&bus, &usual, many, 0));
    WANT(FDL_BAD_STATION, fdl_bus_new(&bus, &usual, many, 127));
    many[0].address = 6;
    many[0].master = true;
    WANT(FDL_BAD_STATION, fdl_bus_new(&bus, &usual, many, 127));
    want(1, bus.at == NULL, "a refused bus is empty");
    many[0].address = 5;
    WANT(FDL_OK, fdl_bus_new(&bus, &usual, many, 127));
    WANT(FDL_BUS_IN_USE, fdl_bus_new(&bus, &late, many, 128));
    WANT(FDL_BUS_IN_USE, fdl_bus_new_within(&bus, &late, many, 128, 1));
    fdl_bus_free(&bus);
    want(1, bus.at == NULL, "a freed bus is empty");
    fdl_bus_free(&bus);
}

static void on_events(void)
{
    struct fdl_bus bus = FDL_BUS_EMPTY;
    uint64_t moment = 7;
    WANT(FDL_OK, fdl_bus_new(&bus, &usual, stations, 3));
    WANT(FDL_NO_SUCH_TAP, fdl_bus_start(&bus, 3));
    WANT(FDL_NO_SUCH_TAP, fdl_bus_stop(&bus, SIZE_MAX));
    WANT(FDL_NOT_RUNNING, fdl_bus_stop(&bus, 0));
    WANT(FDL_NO_SUCH_TAP, fdl_bus_turn(&bus, 3));
    WANT(FDL_NOT_RUNNING, fdl_bus_turn(&bus, 0));
    WANT(FDL_OK, fdl_bus_start(&bus, 0));
    WANT(FDL_RUNNING, fdl_bus_start(&bus, 0));
    WANT(FDL_OK, fdl_bus_start(&bus, 1));
    WANT(FDL_OK, fdl_bus_start(&bus, 2));
    WANT(FDL_NO_SUCH_TAP, fdl_bus_queue(&bus, 3, 2, FDL_SDA, true, octets, 1));
    WANT(FDL_NOT_RUNNING, fdl_bus_queue(&bus, 2, 2, FDL_SDA, true, octets, 1));
    for (int i = 0; i < 16; i++)
        WANT(FDL_OK, fdl_bus_queue(&bus, 1, 127, FDL_SDN, true, octets, 246));
    WANT(FDL_QUEUE_FULL, fdl_bus_queue(&bus, 1, 2, FDL_SDA, true, octets, 1));
    WANT(FDL_NO_SUCH_TAP, fdl_bus_set_reply(&bus, 3, octets, 1));
    WANT(FDL_OK, fdl_bus_set_reply(&bus, 2, octets, 0));
    WANT(FDL_ZERO_TIME, fdl_bus_pass(&bus, 0));
    WANT(FDL_CLOCK_FULL, fdl_bus_pass(&bus, UINT64_MAX));
    WANT(FDL_CLOCK_FULL, fdl_bus_pass(&bus, 1000000000001));
    WANT(FDL_ZERO_TIME, fdl_bus_noise(&bus, 0));
    WANT(FDL_TOO_FAR, fdl_bus_noise(&bus, UINT64_MAX));
    WANT(FDL_NO_SUCH_TAP, fdl_bus_damage(&bus, 0, 3, 0));
    WANT(FDL_NOTHING_IN_AIR, fdl_bus_damage(&bus, 0, 1, 256));
    WANT(FDL_NO_SUCH_TAP, fdl_bus_unheard(&bus, 3, 0));
    WANT(FDL_NOTHING_IN_AIR, fdl_bus_unheard(&bus, 0, 1));
    WANT(FDL_OK, fdl_bus_due(&bus, 0, &moment));
    want(800, (uint32_t)moment, "a master claims the token after its time-out");
    WANT(FDL_OK, fdl_bus_pass(&bus, 800));
    WANT(FDL_OK, fdl_bus_turn(&bus, 0));
    WANT(FDL_OK, fdl_bus_next_change(&bus, &moment));
    want(801, (uint32_t)moment, "the others can know of its telegram then");
    WANT(FDL_TOO_FAR, fdl_bus_pass(&bus, 34));
    WANT(FDL_OK, fdl_bus_damage(&bus, 1, 0, 2));
    WANT(FDL_NOTHING_IN_AIR, fdl_bus_damage(&bus, 1, 0, 3));
    WANT(FDL_OK, fdl_bus_damage(&bus, 1, 0, UINT32_MAX));
    WANT(FDL_OK, fdl_bus_pass(&bus, 33));
    WANT(FDL_OK, fdl_bus_now(&bus, &moment));
    want(833, (uint32_t)moment, "the clock");
    WANT(FDL_OK, fdl_bus_noise(&bus, 5));
    WANT(FDL_OK, fdl_bus_stop(&bus, 0));
    WANT(FDL_OK, fdl_bus_due(&bus, 0, &moment));
    want(1, moment == FDL_NEVER, "a stopped station is never due");
    fdl_bus_free(&bus);
}

/* A bus that may say four telegrams, and lets them go: those that are gone count, too. */
static void on_a_bus_that_lets_go(void)
{
    struct fdl_bus bus = FDL_BUS_EMPTY;
    struct fdl_audit audit;
    struct fdl_entry entry;
    size_t count = 7, gone = 7;
    WANT(FDL_NO_TAPS, fdl_bus_new_within(&bus, &usual, stations, 0, SIZE_MAX));
    WANT(FDL_OK, fdl_bus_new_within(&bus, &usual, stations, 3, 4));
    WANT(FDL_OK, fdl_bus_over(&bus, &count));
    WANT(FDL_OK, fdl_bus_let_go(&bus, &gone));
    want(1, count == 0 && gone == 0, "nothing is over yet");
    WANT(FDL_OK, fdl_bus_start(&bus, 0));
    WANT(FDL_OK, fdl_bus_run(&bus, 810));
    WANT(FDL_OK, fdl_bus_over(&bus, &count));
    want(0, (uint32_t)count, "the claim is on the bus still");
    WANT(FDL_OK, fdl_bus_run(&bus, 840));
    WANT(FDL_OK, fdl_bus_let_go(&bus, &gone));
    want(1, (uint32_t)gone, "the claim is over");
    WANT(FDL_NO_ENTRY, fdl_bus_entry(&bus, 0, &entry));
    WANT(FDL_TRACE_FULL, fdl_bus_run(&bus, 5000));
    WANT(FDL_OK, fdl_bus_entries(&bus, &count));
    want(3, (uint32_t)count, "the claim counts, too");
    WANT(FDL_OK, fdl_bus_audit(&bus, &audit));
    want(1, audit.premise == 0 && !audit.illegal, "the audit knows of it");
    fdl_bus_free(&bus);
}

static void on_a_run(void)
{
    struct fdl_bus bus = FDL_BUS_EMPTY;
    uint64_t moment = 7;
    uint32_t phase = 7;
    size_t count = 7;
    struct fdl_indication indication;
    bool active = false;
    struct fdl_outcome outcome;
    struct fdl_entry entry;
    struct fdl_audit audit;
    WANT(FDL_OK, fdl_bus_new(&bus, &usual, stations, 3));
    for (size_t tap = 0; tap < 3; tap++)
        WANT(FDL_OK, fdl_bus_start(&bus, tap));
    WANT(FDL_OK, fdl_bus_run(&bus, 1000));
    WANT(FDL_BACKWARDS, fdl_bus_run(&bus, 999));
    WANT(FDL_OK, fdl_bus_run(&bus, 1152));
    WANT(FDL_OK, fdl_bus_is_settled(&bus, &active));
    want(0, active, "a token is on its way");
    WANT(FDL_OK, fdl_bus_run(&bus, 1153));
    WANT(FDL_OK, fdl_bus_is_settled(&bus, &active));
    want(1, active, "the second master has the token");
    WANT(FDL_CLOCK_FULL, fdl_bus_run(&bus, 1000000000001));
    WANT(FDL_NO_INDICATION, fdl_bus_indications(&bus, 2, &count));
    WANT(FDL_NO_SUCH_TAP, fdl_bus_keep_indications(&bus, 3, 1));
    WANT(FDL_NO_MEMORY, fdl_bus_keep_indications(&bus, 2, SIZE_MAX));
    WANT(FDL_OK, fdl_bus_keep_indications(&bus, 2, 1));
    WANT(FDL_OK, fdl_bus_queue(&bus, 0, 9, FDL_SRD, true, octets, 1));
    WANT(FDL_OK, fdl_bus_run(&bus, 5000));
    WANT(FDL_OK, fdl_bus_indications(&bus, 2, &count));
    want(1, (uint32_t)count, "the request that the slave executed");
    WANT(FDL_OK, fdl_bus_indication(&bus, 2, 0, &indication));
    want(1, indication.source == 1 && indication.service == FDL_SRD && indication.high && indication.count == 1, "as it was asked");
    want(octets[0], indication.data[0], "its octet");
    WANT(FDL_NO_INDICATION, fdl_bus_indication(&bus, 2, 1, &indication));
    WANT(FDL_OK, fdl_bus_forget_indications(&bus, 2));
    WANT(FDL_OK, fdl_bus_indications(&bus, 2, &count));
    want(0, (uint32_t)count, "it is forgotten");
    WANT(FDL_OK, fdl_bus_run(&bus, 5000));
    WANT(FDL_OK, fdl_bus_now(&bus, &moment));
    want(5000, (uint32_t)moment, "the clock");
    WANT(FDL_NO_SUCH_TAP, fdl_bus_due(&bus, 3, &moment));
    WANT(FDL_NO_SUCH_TAP, fdl_bus_phase(&bus, 3, &phase));
    WANT(FDL_OK, fdl_bus_phase(&bus, 2, &phase));
    want(FDL_PASSIVE_IDLE, phase, "a passive station waits");
    WANT(FDL_BAD_STATION, fdl_bus_is_active(&bus, 3, 127, &active));
    WANT(FDL_NO_SUCH_TAP, fdl_bus_is_active(&bus, 3, 1, &active));
    WANT(FDL_OK, fdl_bus_is_active(&bus, 0, 2, &active));
    want(1, active, "the other master is in the ring");
    WANT(FDL_NO_SUCH_TAP, fdl_bus_executed(&bus, 3, &moment));
    WANT(FDL_OK, fdl_bus_executed(&bus, 2, &moment));
    want(1, (uint32_t)moment, "the request was executed once");
    WANT(FDL_NO_SUCH_TAP, fdl_bus_outcome(&bus, 3, &outcome));
    WANT(FDL_OK, fdl_bus_outcome(&bus, 0, &outcome));
    want(1, outcome.kind != FDL_NO_OUTCOME && outcome.station == 9, "it had an outcome");
    WANT(FDL_OK, fdl_bus_entries(&bus, &count));
    WANT(FDL_NO_ENTRY, fdl_bus_entry(&bus, count, &entry));
    WANT(FDL_OK, fdl_bus_entry(&bus, 0, &entry));
    want(1, entry.begin == 800 && entry.end == 833 && !entry.noise && entry.tap == 0 && entry.count == 3, "the claim");
    want(1, entry.heard[0] == FDL_OWN && entry.heard[1] == FDL_WHOLE && entry.heard[3] == FDL_PENDING, "as each tap heard it");
    audit = (struct fdl_audit){4, 7, true, 7};
    WANT(FDL_OK, fdl_bus_audit(&bus, &audit));
    want(1, audit.premise == 0 && audit.moment == 0, "no premise broke");
    want(1, !audit.illegal && audit.entry == 0, "no entry is illegal");
    WANT(FDL_OK, fdl_bus_pass(&bus, 1));
    fdl_bus_free(&bus);
}

static void with_memory_for_a_bus_refused(void)
{
    struct fdl_bus bus = FDL_BUS_EMPTY;
    struct fdl_audit audit = {.premise = 7};
    size_t count, over, left, gone = 7;
    uint64_t moment = 0;
    for (granted = 0;; granted++) {
        const long allowed = granted;
        const uint32_t code = fdl_bus_new(&bus, &usual, stations, 2);
        granted = allowed;
        if (code == FDL_OK)
            break;
        want(FDL_NO_MEMORY, code, "a refused allocation");
        want(1, bus.at == NULL, "a bus without memory is empty");
    }
    want(1, granted > 0, "an allocation is refused");
    granted = -1;
    WANT(FDL_OK, fdl_bus_start(&bus, 0));
    granted = 0;
    WANT(FDL_NO_MEMORY, fdl_bus_run(&bus, 2000));
    WANT(FDL_OK, fdl_bus_now(&bus, &moment));
    want(800, (uint32_t)moment, "it stands before the turn that sends");
    WANT(FDL_NO_MEMORY, fdl_bus_turn(&bus, 0));
    granted = -1;
    WANT(FDL_OK, fdl_bus_run(&bus, 2000));
    WANT(FDL_OK, fdl_bus_entries(&bus, &count));
    WANT(FDL_OK, fdl_bus_over(&bus, &over));
    granted = 0;
    WANT(FDL_NO_MEMORY, fdl_bus_let_go(&bus, &gone));
    WANT(FDL_NO_MEMORY, fdl_bus_audit(&bus, &audit));
    WANT(FDL_OK, fdl_bus_entries(&bus, &left));
    want(1, left == count && gone == 7 && audit.premise == 7, "nothing is let go or told");
    granted = -1;
    WANT(FDL_OK, fdl_bus_let_go(&bus, &gone));
    want(1, gone == over && over > 0, "what is over is let go");
    fdl_bus_free(&bus);
}

static const struct fdl_monitor_options all = {.judges = true, .legality = true, .loss = true, .timing = true};
static const char ring[] = "800 833 dc0101\n870 903 dc0101\n940 1006 100201494c16\n";
static const char answer[] = "800 833 token da=1 sa=1 | token to itself | holder 1\n870 903 token da=1 sa=1 | token to itself | holder 1\n"
                             "940 1006 short da=2 sa=1 fc=49 | FDL status request | holder 1\n";

static void on_an_empty_monitor(void)
{
    struct fdl_monitor monitor = FDL_MONITOR_EMPTY;
    struct fdl_traffic traffic = {.bursts = 7};
    struct fdl_station_counts counts = {.tokens = 7};
    size_t count = 7;
    bool refused = true;
    octets[0] = 7;
    fdl_monitor_free(&monitor);
    WANT(FDL_NO_MONITOR, fdl_monitor_feed(&monitor, octets, 1));
    WANT(FDL_NO_MONITOR, fdl_monitor_finish(&monitor));
    WANT(FDL_NO_MONITOR, fdl_monitor_next(&monitor, octets, sizeof octets, &count));
    want(0, (uint32_t)count, "nothing is taken");
    WANT(FDL_NO_MONITOR, fdl_monitor_is_refused(&monitor, &refused));
    WANT(FDL_NO_MONITOR, fdl_monitor_traffic(&monitor, &traffic));
    WANT(FDL_BAD_STATION, fdl_monitor_station(&monitor, 127, &counts));
    WANT(FDL_NO_MONITOR, fdl_monitor_station(&monitor, 126, &counts));
    want(1, refused && octets[0] == 7 && traffic.bursts == 7 && counts.tokens == 7, "nothing is written");
    want(1, monitor.at == NULL, "the monitor stays empty");
}

static void on_a_new_monitor(void)
{
    struct fdl_monitor monitor = FDL_MONITOR_EMPTY;
    struct fdl_monitor_options options = all;
    struct fdl_params late = usual;
    late.lag = 40;
    options.form = 3;
    WANT(FDL_BAD_FORM, fdl_monitor_new(&monitor, &options, &late));
    options.form = FDL_PCAP;
    options.summary = 4;
    WANT(FDL_BAD_FORM, fdl_monitor_new(&monitor, &options, &late));
    options.summary = FDL_TELLS_CSV;
    WANT(FDL_PARAM_TAKE_LATE, fdl_monitor_new(&monitor, &options, &late));
    want(1, monitor.at == NULL, "a refused monitor is empty");
    options.judges = false;
    WANT(FDL_OK, fdl_monitor_new(&monitor, &options, &late));
    options.form = 255;
    WANT(FDL_MONITOR_IN_USE, fdl_monitor_new(&monitor, &options, &late));
    fdl_monitor_free(&monitor);
    want(1, monitor.at == NULL, "a freed monitor is empty");
    fdl_monitor_free(&monitor);
}

/* The capture comes octet by octet; what is said is taken at last, three octets at a time. */
static void on_a_capture(void)
{
    static char said[4096];
    struct fdl_monitor monitor = FDL_MONITOR_EMPTY;
    struct fdl_traffic traffic;
    struct fdl_station_counts counts;
    size_t count, taken = 0;
    bool refused = true;
    WANT(FDL_OK, fdl_monitor_new(&monitor, &all, &usual));
    WANT(FDL_OK, fdl_monitor_feed(&monitor, octets, 0));
    for (size_t k = 0; k < sizeof ring - 1; k++)
        WANT(FDL_OK, fdl_monitor_feed(&monitor, (const uint8_t *)&ring[k], 1));
    WANT(FDL_OK, fdl_monitor_next(&monitor, octets, 0, &count));
    want(0, (uint32_t)count, "there is no room");
    octets[3] = 7;
    do {
        WANT(FDL_OK, fdl_monitor_next(&monitor, octets, 3, &count));
        memcpy(&said[taken], octets, count);
        taken += count;
        if (taken == 30)
            WANT(FDL_OK, fdl_monitor_feed(&monitor, (const uint8_t *)"# a remark\n", 11));
    } while (count > 0 && taken < sizeof said - 3);
    want(7, octets[3], "what is behind the room is unchanged");
    want(1, taken == sizeof answer - 1 && !memcmp(said, answer, taken), "the lines of the capture");
    WANT(FDL_OK, fdl_monitor_is_refused(&monitor, &refused));
    want(0, refused, "nothing is wrong with it");
    WANT(FDL_OK, fdl_monitor_feed(&monitor, (const uint8_t *)"what\n", 5));
    WANT(FDL_OK, fdl_monitor_is_refused(&monitor, &refused));
    want(1, refused, "a line is refused");
    WANT(FDL_OK, fdl_monitor_finish(&monitor));
    WANT(FDL_FINISHED, fdl_monitor_finish(&monitor));
    WANT(FDL_FINISHED, fdl_monitor_feed(&monitor, octets, 1));
    WANT(FDL_OK, fdl_monitor_next(&monitor, (uint8_t *)said, sizeof said, &count));
    want(1, count > 20 && !memcmp(said, "refused line 5: ", 16), "what is wrong, and a summary");
    WANT(FDL_OK, fdl_monitor_traffic(&monitor, &traffic));
    want(1, traffic.timed && traffic.first == 800 && traffic.last == 1006 && traffic.bursts == 3 && traffic.refused == 1, "its traffic");
    WANT(FDL_BAD_STATION, fdl_monitor_station(&monitor, 127, &counts));
    WANT(FDL_OK, fdl_monitor_station(&monitor, 126, &counts));
    want(1, counts.role == FDL_ROLE_UNKNOWN && counts.telegrams == 0 && !counts.timed, "a station that wasn't heard");
    WANT(FDL_OK, fdl_monitor_station(&monitor, 1, &counts));
    want(1, counts.role == FDL_ROLE_IN_RING && counts.tokens == 2 && counts.polls == 1 && counts.last_heard == 1006, "and one that was");
    fdl_monitor_free(&monitor);
}

/* Two masters pass the token, each 41 bit times after the last one: 4 later than the rules let them, which a slack of 4 allows. */
static void on_a_ring(void)
{
    static const char turns[] = "100 133 dc0201\n174 207 dc0102\n248 281 dc0201\n322 355 dc0102\n396 429 dc0201\n470 503 dc0102\n";
    for (uint32_t slack = 3; slack < 5; slack++) {
        struct fdl_monitor monitor = FDL_MONITOR_EMPTY;
        struct fdl_monitor_options options = all;
        struct fdl_traffic traffic;
        struct fdl_station_counts counts;
        options.slack = slack;
        WANT(FDL_OK, fdl_monitor_new(&monitor, &options, &usual));
        WANT(FDL_OK, fdl_monitor_feed(&monitor, (const uint8_t *)turns, 15));
        WANT(FDL_OK, fdl_monitor_traffic(&monitor, &traffic));
        want(0, traffic.complete, "after one token the ring is not known");
        WANT(FDL_OK, fdl_monitor_feed(&monitor, (const uint8_t *)&turns[15], sizeof turns - 1 - 15));
        WANT(FDL_OK, fdl_monitor_traffic(&monitor, &traffic));
        want(slack < 4 ? 5 : 0, (uint32_t)traffic.alarms, "the masters take the token late");
        want(1, traffic.complete, "the ring is known");
        for (uint8_t address = 0; address < 4; address++) {
            WANT(FDL_OK, fdl_monitor_station(&monitor, address, &counts));
            want(address == 1 || address == 2, counts.active, "its members");
        }
        fdl_monitor_free(&monitor);
    }
}

/* Whether a monitor hears a capture with so many allocations; what it said before one is refused can be taken. */
static bool is_heard(long allowed)
{
    struct fdl_monitor monitor = FDL_MONITOR_EMPTY;
    size_t count;
    granted = allowed;
    const uint32_t made = fdl_monitor_new(&monitor, &all, &usual);
    want(made == FDL_OK, monitor.at != NULL, "a monitor without memory is empty");
    const uint32_t fed = made ? made : fdl_monitor_feed(&monitor, (const uint8_t *)ring, sizeof ring - 1);
    const uint32_t again = fed ? fed : fdl_monitor_feed(&monitor, (const uint8_t *)ring, sizeof ring - 1);
    granted = -1;
    if (!made && again)
        WANT(FDL_FINISHED, fdl_monitor_feed(&monitor, octets, 1));
    if (!made) {
        WANT(FDL_OK, fdl_monitor_next(&monitor, octets, sizeof octets, &count));
        want(1, fed ? count == 0 : !memcmp(octets, answer, sizeof answer - 1), "what was said is kept");
    }
    fdl_monitor_free(&monitor);
    if (again)
        want(FDL_NO_MEMORY, again, "a refused allocation");
    return again == FDL_OK;
}

static void with_memory_for_a_monitor_refused(void)
{
    long allowed = 0;
    while (!is_heard(allowed))
        allowed++;
    want(1, allowed > 3, "allocations are refused");
}

int main(void)
{
    on_an_empty_port();
    on_a_new_port();
    on_room_for_marks();
    on_a_port();
    on_data_in_and_out();
    on_telegrams();
    on_fields();
    on_receivers();
    with_memory_refused(0);
    with_memory_refused(2);
    on_an_empty_bus();
    on_a_new_bus();
    on_events();
    on_a_bus_that_lets_go();
    on_a_run();
    with_memory_for_a_bus_refused();
    on_an_empty_monitor();
    on_a_new_monitor();
    on_a_ring();
    on_a_capture();
    with_memory_for_a_monitor_refused();
    printf("misuse: %d right, %d wrong\n", right, wrong);
    return wrong != 0;
}
