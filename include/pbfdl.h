/* PROFIBUS data link layer (FDL, IEC 61158-4-3): telegrams, bus parameters, a station at a line, a bus of stations, and a monitor.
 *
 * Link libpbfdl.a. The archive of a release has all that it needs; that of the repository also needs heap functions
 * (docs/DRIVER.md, "Build"). The functions come from proved code; docs/DRIVER.md says what a driver owes them, and what they
 * promise in return.
 *
 * Times are whole bit times. A moment is the number of bit times since the driver's clock began, 0 to 2^61
 * (FDL_LAST_MOMENT). Addresses are 0 to 126; 127 is all stations.
 *
 * Every function but fdl_port_free, fdl_bus_free and fdl_monitor_free answers a code: FDL_OK, or the first fault that applies, in the
 * order in which its comment names them. A call that answers another code than FDL_OK changes nothing, except where its comment says so.
 *
 * Ownership. An fdl_port is memory of the caller; fdl_port_new or fdl_port_new_with_room makes the station that it points to, and
 * fdl_port_free frees it. The same holds of an fdl_bus with fdl_bus_new and fdl_bus_free, and of an fdl_monitor. Arrays are read or written during the call alone; no pointer to them is kept.
 *
 * Threads. One call at a time for a port, a bus or a monitor. Different ones share nothing, but each stays on the thread that made it.
 * No call from a signal handler. No function blocks, calls back, or writes to a file. Of the functions for ports only
 * fdl_port_new and fdl_port_new_with_room take memory and only fdl_port_free gives it back; those that may take memory for a bus or a monitor name FDL_NO_MEMORY.
 *
 * The caller owes, and nothing checks: no pointer is NULL, also with a length of 0; an array has as many elements as
 * is said; a bool is 0 or 1; an fdl_port begins as FDL_PORT_EMPTY, an fdl_bus as FDL_BUS_EMPTY, an fdl_monitor as FDL_MONITOR_EMPTY,
 * and no code but these functions changes or copies it; what one argument points to is no part of what another one points to. */
#ifndef PBFDL_H
#define PBFDL_H

#include <stdbool.h>
#include <stddef.h>
#include <stdint.h>

#ifdef __cplusplus
extern "C" {
#endif

/* The codes. */
enum fdl_code {
    FDL_OK = 0,

    /* Why octets spell no telegram. */
    FDL_EMPTY = 1,              /* there is no octet */
    FDL_DAMAGED = 2,            /* a character is damaged */
    FDL_BAD_START = 3,          /* the first octet starts no telegram */
    FDL_TRUNCATED = 4,          /* there are fewer octets than the telegram has */
    FDL_BAD_LENGTH = 5,         /* the length octet is not 4 to 249 */
    FDL_LENGTHS_DIFFER = 6,     /* the length octet and its repetition differ */
    FDL_BAD_SECOND_START = 7,   /* the start delimiter is not repeated */
    FDL_BAD_ADDRESS = 8,        /* a token's address is over 126, or another telegram's source address is 127 */
    FDL_BAD_CONTROL = 9,        /* bit 7 of the control octet is set */
    FDL_BAD_CHECK = 10,         /* the check octet is not the sum */
    FDL_BAD_END = 11,           /* the end delimiter is missing */
    FDL_TRAILING = 12,          /* octets follow the end */

    /* Why bus parameters are refused. */
    FDL_PARAM_SLOT = 21,        /* tsl is not 100 to 16383 */
    FDL_PARAM_IDLE_SHORT = 22,  /* tid1 is under 33 */
    FDL_PARAM_IDLE_ORDER = 23,  /* tid2 is under tid1 */
    FDL_PARAM_REPLY_SHORT = 24, /* tsdr is under 11 */
    FDL_PARAM_ROTATION = 25,    /* ttr is not 256 to 16777215 */
    FDL_PARAM_GAP_FACTOR = 26,  /* gap is not 1 to 100 */
    FDL_PARAM_HIGHEST = 27,     /* hsa is not 2 to 126 */
    FDL_PARAM_RETRIES = 28,     /* retries is over 7 */
    FDL_PARAM_TAKE_LATE = 29,   /* tid2 + lag + 2 * ttd is not under tsl */
    FDL_PARAM_REPLY_LATE = 30,  /* tsdr + lag + 2 * ttd is not under tsl */

    /* Why a port refuses a call. */
    FDL_TOO_LATE = 41,          /* the moment of the call is past FDL_LAST_MOMENT */
    FDL_BACKWARDS = 42,         /* the moment of the call is before an earlier call's, or a mark's own moment is before
                                   an earlier mark's, the last turn's or the start's */
    FDL_AHEAD = 43,             /* a mark's own moment is after that of the call */
    FDL_TOO_LONG = 44,          /* an end brings more than 255 characters */
    FDL_INBOX_FULL = 45,        /* as many marks are unread as the port has room for */
    FDL_QUEUE_FULL = 46,        /* 16 requests of the priority wait */

    /* Why the border refuses a call. */
    FDL_NO_PORT = 61,           /* the port is empty */
    FDL_PORT_IN_USE = 62,       /* the port is not empty */
    FDL_NO_MEMORY = 63,         /* memory was refused */
    FDL_BAD_STATION = 64,       /* an address is out of its range */
    FDL_BAD_SERVICE = 65,       /* there is no such service */
    FDL_LONG_DATA = 66,         /* there are more than 246 octets of data */
    FDL_BAD_KIND = 67,          /* there is no such kind of telegram */
    FDL_NO_ROOM = 68,           /* the array is too short */
    FDL_NO_INDICATION = 69,     /* the last turn executed no such request; of a bus: no such one is kept */
    FDL_BAD_ROOM = 70,          /* the room of a port is not 2 to 64 */

    /* Why a bus refuses a call. The functions for a bus use some of the codes above too. FDL_INBOX_FULL: a tap would have
     * more than 64 unread marks. FDL_BACKWARDS: a moment is before the clock. */
    FDL_NO_TAPS = 71,           /* there is no tap */
    FDL_TOO_MANY_TAPS = 72,     /* there are more than 127 taps */
    FDL_NO_BUS = 73,            /* the bus is empty */
    FDL_BUS_IN_USE = 74,        /* the bus is not empty */
    FDL_NO_ENTRY = 75,          /* the trace has no such entry */
    FDL_NO_SUCH_TAP = 81,       /* there is no tap with this index */
    FDL_RUNNING = 82,           /* the tap runs, or a telegram of its own is still on the bus */
    FDL_NOT_RUNNING = 83,       /* the tap does not run, or the station for a request is passive */
    FDL_NOTHING_IN_AIR = 84,    /* no telegram on the bus can be damaged so, or none has just begun that can be lost */
    FDL_ZERO_TIME = 85,         /* 0 bit times */
    FDL_TOO_FAR = 86,           /* the clock would be past the next end on the bus; or noise of 2^32 bit times or more */
    FDL_CLOCK_FULL = 87,        /* the clock would be over 1,000,000,000,000 */
    FDL_TRACE_FULL = 90,        /* the trace has as many entries as the bus was made for */

    /* Why a monitor refuses a call. */
    FDL_NO_MONITOR = 91,        /* the monitor is empty */
    FDL_MONITOR_IN_USE = 92,    /* the monitor is not empty */
    FDL_BAD_FORM = 93,          /* there is no such form of a capture or of a summary */
    FDL_FINISHED = 94           /* the capture has ended, or memory was refused in the middle of it */
};

/* The name of a code, as text that is never freed; "unknown" for a number that is no code. */
static inline const char *fdl_code_text(uint32_t code)
{
    switch (code) {
    case FDL_OK: return "ok";
    case FDL_EMPTY: return "empty";
    case FDL_DAMAGED: return "damaged";
    case FDL_BAD_START: return "bad start";
    case FDL_TRUNCATED: return "truncated";
    case FDL_BAD_LENGTH: return "bad length";
    case FDL_LENGTHS_DIFFER: return "lengths differ";
    case FDL_BAD_SECOND_START: return "bad second start";
    case FDL_BAD_ADDRESS: return "bad address";
    case FDL_BAD_CONTROL: return "bad control";
    case FDL_BAD_CHECK: return "bad check";
    case FDL_BAD_END: return "bad end";
    case FDL_TRAILING: return "trailing";
    case FDL_PARAM_SLOT: return "slot time";
    case FDL_PARAM_IDLE_SHORT: return "idle time 1";
    case FDL_PARAM_IDLE_ORDER: return "idle time 2 under idle time 1";
    case FDL_PARAM_REPLY_SHORT: return "reply delay";
    case FDL_PARAM_ROTATION: return "target rotation time";
    case FDL_PARAM_GAP_FACTOR: return "GAP factor";
    case FDL_PARAM_HIGHEST: return "highest station address";
    case FDL_PARAM_RETRIES: return "retries";
    case FDL_PARAM_TAKE_LATE: return "a take may miss the slot";
    case FDL_PARAM_REPLY_LATE: return "a reply may miss the slot";
    case FDL_TOO_LATE: return "too late";
    case FDL_BACKWARDS: return "backwards";
    case FDL_AHEAD: return "ahead";
    case FDL_TOO_LONG: return "too long";
    case FDL_INBOX_FULL: return "inbox full";
    case FDL_QUEUE_FULL: return "queue full";
    case FDL_NO_PORT: return "no port";
    case FDL_PORT_IN_USE: return "port in use";
    case FDL_NO_MEMORY: return "no memory";
    case FDL_BAD_STATION: return "bad station";
    case FDL_BAD_SERVICE: return "bad service";
    case FDL_LONG_DATA: return "long data";
    case FDL_BAD_KIND: return "bad kind";
    case FDL_NO_ROOM: return "no room";
    case FDL_NO_INDICATION: return "no indication";
    case FDL_BAD_ROOM: return "bad room";
    case FDL_NO_TAPS: return "no taps";
    case FDL_TOO_MANY_TAPS: return "too many taps";
    case FDL_NO_BUS: return "no bus";
    case FDL_BUS_IN_USE: return "bus in use";
    case FDL_NO_ENTRY: return "no entry";
    case FDL_NO_SUCH_TAP: return "no such tap";
    case FDL_RUNNING: return "running";
    case FDL_NOT_RUNNING: return "not running";
    case FDL_NOTHING_IN_AIR: return "nothing in air";
    case FDL_ZERO_TIME: return "zero time";
    case FDL_TOO_FAR: return "too far";
    case FDL_CLOCK_FULL: return "clock full";
    case FDL_TRACE_FULL: return "trace full";
    case FDL_NO_MONITOR: return "no monitor";
    case FDL_MONITOR_IN_USE: return "monitor in use";
    case FDL_BAD_FORM: return "bad form";
    case FDL_FINISHED: return "finished";
    default: return "unknown";
    }
}

/* The last moment: 2^61. */
#define FDL_LAST_MOMENT ((uint64_t)1 << 61)

/* The moment that fdl_port_due, fdl_bus_due and fdl_bus_next_change answer where nothing is to come. */
#define FDL_NEVER UINT64_MAX

/* The longest telegram, and what fdl_port_turn needs room for. */
#define FDL_TELEGRAM_MAX 255

/* ---- Bus parameters ---- */

/* What all stations of a bus share (IEC 61158-4-3, timing parameters). Times in bit times. */
struct fdl_params {
    uint32_t tsl;     /* slot time, 100 to 16383: how long a station waits for a reply */
    uint32_t tid1;    /* idle time before the next telegram, 33 and more */
    uint32_t tid2;    /* the same after a request that nobody answers, tid1 and more */
    uint32_t tsdr;    /* how long a station takes to reply, 11 and more */
    uint32_t lag;     /* how late a station may take its turn */
    uint32_t ttr;     /* target rotation time of the token, 256 to 16777215 */
    uint32_t gap;     /* GAP factor, 1 to 100: target rotation times from one search for new masters to the next */
    uint32_t hsa;     /* highest address that a master may have, 2 to 126 */
    uint32_t retries; /* how often a request is sent again, 0 to 7 */
    uint32_t ttd;     /* cable delay: how much later the others hear a telegram */
};

/* FDL_OK, or the first fault of the parameters, FDL_PARAM_SLOT to FDL_PARAM_REPLY_LATE in that order. */
uint32_t fdl_params_fault(const struct fdl_params *params);

/* ---- Telegrams ---- */

/* The kinds of telegrams. */
enum fdl_kind {
    FDL_SD1 = 1, /* without data: da, sa, fc */
    FDL_SD2 = 2, /* with data of variable length: da, sa, fc, 1 to 246 octets of unit */
    FDL_SD3 = 3, /* with data of fixed length: da, sa, fc, 8 octets of unit */
    FDL_SD4 = 4, /* token: da, sa */
    FDL_SC = 5   /* short acknowledgement */
};

/* A telegram. da and sa are the address octets as they are sent; bit 7 of them says that the unit begins with an address
 * extension. Fields that its kind doesn't have are 0 in a parsed telegram, and not read in a written one; but its count is at
 * most 246. */
struct fdl_telegram {
    uint8_t kind;      /* an fdl_kind */
    uint8_t da;        /* destination address */
    uint8_t sa;        /* source address */
    uint8_t fc;        /* control octet, 0 to 127 */
    uint8_t count;     /* how many octets of unit there are */
    uint8_t unit[246]; /* the data; octets from count on have no meaning */
};

/* The telegram that count octets spell, as one burst brought them.
 * Codes: FDL_EMPTY, FDL_BAD_START to FDL_TRAILING; the telegram is unchanged then. */
uint32_t fdl_parse(const uint8_t *octets, size_t count, struct fdl_telegram *telegram);

/* The octets of a telegram, at most FDL_TELEGRAM_MAX, and how many they are; fdl_parse reads the telegram from them. With
 * a fault *count is 0 and out is unchanged.
 * Codes: FDL_BAD_KIND where kind is no fdl_kind or count is over 246; the fault of its octets where they spell no telegram,
 * as for FDL_SD3 with other than 8 octets of unit; FDL_NO_ROOM where there are more than room octets. */
uint32_t fdl_write(const struct fdl_telegram *telegram, uint8_t *out, size_t room, size_t *count);

/* Characters of one burst as they came off the line: a number under 256 is an octet that came good, any other a damaged
 * character. A burst begins with a count of 0. */
struct fdl_receiver {
    uint16_t count;           /* how many characters there are, at most 255 */
    uint16_t characters[255]; /* the characters; those from count on have no meaning */
};

/* Takes the next character of a burst, and answers what the characters spell now. A burst that spells a telegram has ended;
 * fdl_port_end tells it to a station.
 * Codes: FDL_TOO_LONG where there are 255 already, with the receiver unchanged. With the character taken: FDL_OK where the
 * characters spell a telegram; else the first fault, FDL_DAMAGED to FDL_TRAILING, which is FDL_TRUNCATED in the middle of
 * a telegram without a fault. */
uint32_t fdl_receive(struct fdl_receiver *receiver, uint16_t character);

/* The telegram that the characters of a burst spell.
 * Codes: FDL_TOO_LONG for a count over 255; FDL_EMPTY to FDL_TRAILING, the first fault. The telegram is unchanged then. */
uint32_t fdl_received(const struct fdl_receiver *receiver, struct fdl_telegram *telegram);

/* ---- A station at a line ---- */

/* A station with the marks of what it has heard and not read yet. It is empty where `at` is NULL. */
struct fdl_port {
    void *at;
};

#define FDL_PORT_EMPTY { NULL }

/* The phases of a station (IEC 61158-4-3, states of the data link layer of a master). */
enum fdl_phase {
    FDL_OFFLINE = 0,      /* it does not run, or has heard another station with its address while it listened */
    FDL_PASSIVE_IDLE = 1, /* a passive station, which waits for requests */
    FDL_LISTENING = 2,    /* a master that learns who is in the ring, and takes no token */
    FDL_IDLE = 3,         /* a master without the token, which may be passed to it */
    FDL_CLAIM = 4,        /* it claims the token, after a time-out of silence */
    FDL_USE = 5,          /* it has the token */
    FDL_AWAIT_DATA = 6,   /* it has the token, and waits for the reply to a request */
    FDL_AWAIT_STATUS = 7, /* it has the token, and waits for the status of a station that may join the ring */
    FDL_PASS = 8,         /* nobody took the token: it is about to pass it again */
    FDL_CHECKING = 9      /* it has passed the token, and listens whether somebody takes it */
};

/* The services (IEC 61158-4-3, data link service). */
enum fdl_service {
    FDL_SDA = 0, /* send data with acknowledge */
    FDL_SDN = 1, /* send data with no acknowledge */
    FDL_SRD = 2  /* send and request data */
};

/* The outcomes of a request. */
enum fdl_outcome_kind {
    FDL_NO_OUTCOME = 0,  /* no request has had an outcome since the start */
    FDL_ACKED = 1,       /* the data was taken, and none came back */
    FDL_DATA = 2,        /* data came back */
    FDL_NO_RESOURCE = 3, /* the station has no resource, or no such service */
    FDL_NO_ANSWER = 4    /* no reply came, and no retry is left */
};

/* What came of a request. */
struct fdl_outcome {
    uint8_t kind;      /* an fdl_outcome_kind; for FDL_NO_OUTCOME the other fields have no meaning */
    uint8_t station;   /* the station that was asked */
    uint8_t count;     /* how many octets of data came back */
    uint8_t data[246]; /* the data; octets from count on have no meaning */
};

/* A request of another station that a station has executed. */
struct fdl_indication {
    uint8_t source;    /* the station that asks, 0 to 126 */
    uint8_t service;   /* an fdl_service */
    bool high;         /* whether its priority is high */
    uint8_t count;     /* how many octets of data it brings */
    uint8_t data[246]; /* the data; octets from count on have no meaning */
};

/* Makes a station that doesn't run, at an empty port: a master or a passive station, and the count octets, at most 246,
 * that it replies to a request for data. 64 marks may be unread. It takes memory, about 80 KB; no later call does.
 * Codes: FDL_PORT_IN_USE; a fault of the parameters; FDL_BAD_STATION for a master's address over params->hsa, or another's
 * over 126; FDL_LONG_DATA; FDL_NO_MEMORY. */
uint32_t fdl_port_new(struct fdl_port *port, const struct fdl_params *params, uint8_t address, bool master,
                      const uint8_t *reply, size_t count);

/* The same with room for so many unread marks, 2 to 64. It takes about 11 KB, and 1.1 KB for each mark; no later call
 * takes memory.
 * Codes: FDL_PORT_IN_USE; FDL_BAD_ROOM; then those of fdl_port_new. */
uint32_t fdl_port_new_with_room(struct fdl_port *port, size_t room, const struct fdl_params *params, uint8_t address, bool master,
                                const uint8_t *reply, size_t count);

/* Frees the station of a port, which is empty then. An empty port stays so. */
void fdl_port_free(struct fdl_port *port);

/* The station starts at a moment: a master listens for the ring, a passive station waits for requests. All that it knew
 * and heard is forgotten, and requests that waited.
 * Codes: FDL_NO_PORT, FDL_TOO_LATE, FDL_BACKWARDS. */
uint32_t fdl_port_start(struct fdl_port *port, uint64_t now);

/* The station stops: it says nothing more, and drops its unread marks and a reply that it has not sent yet.
 * Code: FDL_NO_PORT. */
uint32_t fdl_port_stop(struct fdl_port *port);

/* A request with count octets of data, at most 246, waits behind the others of its priority, for a station with the address
 * da, or for all stations (127, FDL_SDN alone). A master sends it when it has the token. The answer says that it waits, not that
 * the station runs or is a master: start the station first, since a start forgets all requests, and a passive one sends none.
 * Codes: FDL_BAD_SERVICE, FDL_LONG_DATA, FDL_BAD_STATION, FDL_NO_PORT, FDL_QUEUE_FULL. */
uint32_t fdl_port_push(struct fdl_port *port, uint8_t da, uint8_t service, bool high, const uint8_t *data,
                       size_t count);

/* Activity of others has begun on the line at the moment `at`, which is told at the moment `seen`.
 * Codes: FDL_NO_PORT; FDL_TOO_LATE where seen is past the last moment; FDL_BACKWARDS where seen is before an earlier call, or
 * at is before an earlier mark's own moment, the last turn or the start; FDL_AHEAD where at is after seen; FDL_INBOX_FULL. */
uint32_t fdl_port_begin(struct fdl_port *port, uint64_t at, uint64_t seen);

/* Activity of others has ended on the line at the moment `at`, which is told at the moment `seen`, and has brought count
 * characters: a number under 256 is an octet that came good, any other a damaged character.
 * Codes: FDL_TOO_LONG; FDL_NO_PORT; those of fdl_port_begin. */
uint32_t fdl_port_end(struct fdl_port *port, uint64_t at, uint64_t seen, const uint16_t *characters, size_t count);

/* The same of count octets that all came good.
 * Codes: those of fdl_port_begin, and FDL_TOO_LONG before FDL_INBOX_FULL. */
uint32_t fdl_port_end_good(struct fdl_port *port, uint64_t at, uint64_t seen, const uint8_t *octets, size_t count);

/* Activity of others has ended on the line at the moment `at`, which is told at the moment `seen`, and was no telegram:
 * one damaged character.
 * Codes: those of fdl_port_begin. */
uint32_t fdl_port_noise(struct fdl_port *port, uint64_t at, uint64_t seen);

/* When the station has to take its turn: the moment goes to *at, FDL_NEVER where nothing is to come. A new mark or request
 * may change it. The turn may be taken up to `lag` bit times later.
 * Code: FDL_NO_PORT, with *at unchanged. */
uint32_t fdl_port_due(struct fdl_port *port, uint64_t *at);

/* The station takes its turn at a moment: it reads its unread marks and its timers in order of time, and sends a telegram if
 * its moment has come. The octets go to out, their number to *count, 0 where it sends nothing; they are on the line from
 * `now` on, 11 bit times an octet, without a pause. What out holds behind them is unchanged. With a fault *count is 0.
 * Codes: FDL_NO_ROOM where room is under FDL_TELEGRAM_MAX; FDL_NO_PORT; FDL_TOO_LATE; FDL_BACKWARDS. */
uint32_t fdl_port_turn(struct fdl_port *port, uint64_t now, uint8_t *out, size_t room, size_t *count);

/* The station replies to the next request for data (SRD) with these count octets, at most 246; with none, that it has no
 * data. A repeat of the last request still gets the reply that was sent.
 * Codes: FDL_LONG_DATA, FDL_NO_PORT. */
uint32_t fdl_port_set_reply(struct fdl_port *port, const uint8_t *reply, size_t count);

/* How many requests of others the station executed in its last turn (SDA, SDN and SRD that are no repeats) goes to *count.
 * A start forgets them.
 * Code: FDL_NO_PORT, with *count unchanged. */
uint32_t fdl_port_indications(struct fdl_port *port, size_t *count);

/* The request with an index, from 0, of those, in the order in which they were executed, goes to *indication.
 * Codes, with *indication unchanged: FDL_NO_PORT; FDL_NO_INDICATION where there are no more than index. */
uint32_t fdl_port_indication(struct fdl_port *port, size_t index, struct fdl_indication *indication);

/* The station's phase, an fdl_phase, goes to *phase.
 * Code: FDL_NO_PORT, with *phase unchanged. */
uint32_t fdl_port_phase(struct fdl_port *port, uint32_t *phase);

/* Whether an address is in the station's list of active stations goes to *active.
 * Codes, with *active unchanged: FDL_BAD_STATION for an address over 126; FDL_NO_PORT. */
uint32_t fdl_port_is_active(struct fdl_port *port, uint8_t address, bool *active);

/* How many requests of others the station has executed since its start, without repeats, goes to *count.
 * Code: FDL_NO_PORT, with *count unchanged. */
uint32_t fdl_port_executed(struct fdl_port *port, uint64_t *count);

/* What came of the station's last request that had an outcome goes to *outcome. Right after fdl_port_push it is still that of an
 * earlier request; an SDN has none. Of one request at a time the outcome is there after the turn that leaves FDL_AWAIT_DATA.
 * Code: FDL_NO_PORT, with *outcome unchanged. */
uint32_t fdl_port_outcome(struct fdl_port *port, struct fdl_outcome *outcome);

/* ---- A bus ---- */

/* A bus with stations at its taps: a simulation whose events and moments the caller chooses. A tap is an index, from 0. The
 * clock counts bit times from 0 to 1,000,000,000,000. Its trace has at most as many entries as it was made for, 100,000 by
 * fdl_bus_new, some 7,000,000 bit times of an idle ring of two; then events that add one are refused (FDL_TRACE_FULL). A bus that
 * runs on is made by fdl_bus_new_within, and lets go of what is over (fdl_bus_let_go). The bus is empty where `at` is NULL. */
struct fdl_bus {
    void *at;
};

#define FDL_BUS_EMPTY { NULL }

/* A station of a new bus. */
struct fdl_tap {
    uint8_t address;    /* 0 to params->hsa for a master, else 0 to 126 */
    bool master;        /* whether it is a master; else it is passive */
    uint8_t count;      /* how many octets it replies to a request for data, at most 246 */
    uint8_t reply[246]; /* the octets; those from count on have no meaning */
};

/* How a telegram reached a tap. */
enum fdl_heard {
    FDL_OWN = 0,           /* the tap sent it */
    FDL_WHOLE = 1,         /* it was received whole */
    FDL_HEARD_DAMAGED = 2, /* it was received damaged, or the tap did not run all the time */
    FDL_UNHEARD = 3,       /* it was lost */
    FDL_PENDING = 4        /* it has not reached the tap yet, or there is no such tap */
};

/* An entry of the trace: a telegram or noise. */
struct fdl_entry {
    uint64_t begin;      /* when it begins, in bit times */
    uint64_t end;        /* when it ends: the first moment after it */
    bool noise;          /* whether it is noise; then the fields below have no meaning */
    uint8_t tap;         /* the tap that sent it */
    uint8_t count;       /* how many octets it has, also those that a stop of its speaker cut off */
    uint8_t octets[255]; /* the octets; those from count on have no meaning */
    uint8_t heard[127];  /* an fdl_heard for each tap */
};

/* What an audit says of the events so far. */
struct fdl_audit {
    uint8_t premise; /* the first premise of the token theorem that broke, 1 to 4; 0: none */
    uint64_t moment; /* the clock after the event that broke it; 0 where none broke */
    bool illegal;    /* whether a telegram is illegal that only the holder of the token sends */
    uint64_t entry;  /* the index of the first such entry; 0 where there is none */
};

/* Makes a bus at clock 0 with count taps, 1 to 127, none of which runs, at an empty bus. Equal addresses are accepted.
 * Codes: FDL_BUS_IN_USE; a fault of the parameters; FDL_LONG_DATA where a tap's count is over 246; FDL_NO_TAPS;
 * FDL_TOO_MANY_TAPS; FDL_BAD_STATION for a master's address over params->hsa, or another's over 126; FDL_NO_MEMORY. */
uint32_t fdl_bus_new(struct fdl_bus *bus, const struct fdl_params *params, const struct fdl_tap *taps, size_t count);

/* The same, of a bus whose trace may have `entries` entries, those that are let go included: 1,000,000,000,000 are as many as its
 * clock has bit times. */
uint32_t fdl_bus_new_within(struct fdl_bus *bus, const struct fdl_params *params, const struct fdl_tap *taps, size_t count,
                            size_t entries);

/* Frees a bus, which is empty then. An empty bus stays so. */
void fdl_bus_free(struct fdl_bus *bus);

/* The station at a tap starts: a master listens for the ring, a passive station waits for requests.
 * Codes: FDL_NO_BUS, FDL_NO_SUCH_TAP, FDL_RUNNING. */
uint32_t fdl_bus_start(struct fdl_bus *bus, size_t tap);

/* The station at a tap stops. A telegram that it is sending ends with the character being sent.
 * Codes: FDL_NO_BUS, FDL_NO_SUCH_TAP, FDL_NOT_RUNNING. */
uint32_t fdl_bus_stop(struct fdl_bus *bus, size_t tap);

/* The station at a tap takes its turn. Whoever plays single events takes each turn when it is due (fdl_bus_due).
 * Codes: FDL_NO_BUS; FDL_NO_SUCH_TAP; FDL_NOT_RUNNING; FDL_TRACE_FULL or FDL_NO_MEMORY where it would send. */
uint32_t fdl_bus_turn(struct fdl_bus *bus, size_t tap);

/* Time passes, in bit times, at most to the next end on the bus; fdl_bus_next_change is never behind that.
 * Codes: FDL_NO_BUS, FDL_ZERO_TIME, FDL_TOO_FAR, FDL_CLOCK_FULL, FDL_INBOX_FULL. */
uint32_t fdl_bus_pass(struct fdl_bus *bus, uint64_t bits);

/* A disturbance that is no telegram reaches every tap from now on, for some bit times, at most 4,294,967,295. Noise that is
 * on the bus lasts to the later of both ends.
 * Codes: FDL_TOO_FAR for more bit times; FDL_NO_BUS; FDL_ZERO_TIME; FDL_TRACE_FULL; FDL_NO_MEMORY. */
uint32_t fdl_bus_noise(struct fdl_bus *bus, uint64_t bits);

/* A tap hears a speaker's telegram that is on the bus damaged: the character with index `place`, from 0, or each one where
 * place is over 255.
 * Codes: FDL_NO_BUS, FDL_NO_SUCH_TAP, FDL_NOTHING_IN_AIR, FDL_NO_MEMORY. */
uint32_t fdl_bus_damage(struct fdl_bus *bus, size_t tap, size_t speaker, uint32_t place);

/* The telegram that a speaker has begun at this moment is lost at a tap. This breaks premise 2.
 * Codes: FDL_NO_BUS, FDL_NO_SUCH_TAP, FDL_NOTHING_IN_AIR. */
uint32_t fdl_bus_unheard(struct fdl_bus *bus, size_t tap, size_t speaker);

/* A request with count octets of data, at most 246, waits at the master of a tap, behind the others of its priority, for a
 * station with the address da, or for all stations (127, FDL_SDN alone).
 * Codes: FDL_BAD_SERVICE, FDL_LONG_DATA, FDL_BAD_STATION, FDL_NO_BUS, FDL_NO_SUCH_TAP, FDL_NOT_RUNNING, FDL_QUEUE_FULL. */
uint32_t fdl_bus_queue(struct fdl_bus *bus, size_t tap, uint8_t da, uint8_t service, bool high, const uint8_t *data,
                       size_t count);

/* The station at a tap replies to the next request for data (SRD) with these count octets, at most 246; with none, that it has
 * no data. This is no event: nothing else changes, and fdl_bus_audit judges the events alone. A repeat of the last request
 * still gets the reply that was sent.
 * Codes: FDL_LONG_DATA, FDL_NO_BUS, FDL_NO_SUCH_TAP. */
uint32_t fdl_bus_set_reply(struct fdl_bus *bus, size_t tap, const uint8_t *reply, size_t count);

/* The bus runs to the moment `until`: instant by instant, the turns that are due, in the order of the taps, then time to the
 * next instant, as `ringplay run` plays between steps. The turns that are due now are taken first, and those that are due at
 * `until` too: a caller that acts at that moment before its turns, as a step of a scenario does, runs to until - 1 and lets
 * one bit time pass.
 * Codes: FDL_NO_BUS; FDL_BACKWARDS where until is before the clock; FDL_CLOCK_FULL where it is over 1,000,000,000,000; and
 * those of fdl_bus_turn and fdl_bus_pass: then the bus stands before the refused event, and what happened remains. */
uint32_t fdl_bus_run(struct fdl_bus *bus, uint64_t until);

/* The clock, in bit times, goes to *now.
 * Code: FDL_NO_BUS, with *now unchanged. */
uint32_t fdl_bus_now(struct fdl_bus *bus, uint64_t *now);

/* When the station at a tap has to take its turn: the moment goes to *at, FDL_NEVER where nothing is to come or it does not
 * run. Each event may change it.
 * Codes, with *at unchanged: FDL_NO_BUS, FDL_NO_SUCH_TAP. */
uint32_t fdl_bus_due(struct fdl_bus *bus, size_t tap, uint64_t *at);

/* The next moment at which something changes on the bus apart from turns goes to *at, FDL_NEVER where nothing is to come.
 * Code: FDL_NO_BUS, with *at unchanged. */
uint32_t fdl_bus_next_change(struct fdl_bus *bus, uint64_t *at);

/* Whether the ring is settled goes to *settled: all running masters that are not offline agree on who belongs to it and have had
 * the token, one of them has it, no station of the ring was skipped, listens, claims or passes again, no tap has just started, no
 * station has a reply to send, and nothing is on its way: so only between telegrams, as just after a token has arrived. If the
 * events so far and those to come break no premise (fdl_bus_audit), and no damage, noise, start or stop comes, each master of the
 * ring then gets the token within the rotation bound of 'ringplay bounds', again and again, whatever fdl_bus_set_reply changes
 * meanwhile.
 * Code: FDL_NO_BUS, with *settled unchanged. */
uint32_t fdl_bus_is_settled(struct fdl_bus *bus, bool *settled);

/* The phase of the station at a tap, an fdl_phase, goes to *phase.
 * Codes, with *phase unchanged: FDL_NO_BUS, FDL_NO_SUCH_TAP. */
uint32_t fdl_bus_phase(struct fdl_bus *bus, size_t tap, uint32_t *phase);

/* Whether an address is in the list of active stations of the station at a tap goes to *active.
 * Codes, with *active unchanged: FDL_BAD_STATION for an address over 126; FDL_NO_BUS; FDL_NO_SUCH_TAP. */
uint32_t fdl_bus_is_active(struct fdl_bus *bus, size_t tap, uint8_t address, bool *active);

/* How many requests of others the station at a tap has executed since its start, without repeats, goes to *count.
 * Codes, with *count unchanged: FDL_NO_BUS, FDL_NO_SUCH_TAP. */
uint32_t fdl_bus_executed(struct fdl_bus *bus, size_t tap, uint64_t *count);

/* What came of the last request of the station at a tap that had an outcome goes to *outcome. Right after fdl_bus_queue it is still
 * that of an earlier request, and that of the same slave looks alike: ask another slave each time, or look at the phase.
 * Codes, with *outcome unchanged: FDL_NO_BUS, FDL_NO_SUCH_TAP. */
uint32_t fdl_bus_outcome(struct fdl_bus *bus, size_t tap, struct fdl_outcome *outcome);

/* Keeps the requests of others that the station at a tap executes from now on, as a port tells them (fdl_port_indication): the
 * first ones, as many as there is room for; a request takes 264 octets of memory. Those beyond are not kept, but counted
 * (fdl_bus_executed). What was kept of this tap is forgotten.
 * Codes, with what was kept before: FDL_NO_BUS; FDL_NO_SUCH_TAP; FDL_NO_MEMORY. */
uint32_t fdl_bus_keep_indications(struct fdl_bus *bus, size_t tap, size_t room);

/* How many of them are kept goes to *count.
 * Codes, with *count unchanged: FDL_NO_BUS; FDL_NO_INDICATION where they are not asked for, or where there is no such tap. */
uint32_t fdl_bus_indications(struct fdl_bus *bus, size_t tap, size_t *count);

/* The one with an index, from 0, in the order in which they were executed, goes to *indication.
 * Codes, with *indication unchanged: FDL_NO_BUS; FDL_NO_INDICATION where no more than index are kept. */
uint32_t fdl_bus_indication(struct fdl_bus *bus, size_t tap, size_t index, struct fdl_indication *indication);

/* Forgets those that are kept, so that there is room again; later ones are kept.
 * Code: FDL_NO_BUS. */
uint32_t fdl_bus_forget_indications(struct fdl_bus *bus, size_t tap);

/* How many entries the trace has goes to *count. An entry that is not over may still change.
 * Code: FDL_NO_BUS, with *count unchanged. */
uint32_t fdl_bus_entries(struct fdl_bus *bus, size_t *count);

/* The entry of the trace with an index, from 0, goes to *entry. Entries are in the order of their begins.
 * Codes, with *entry unchanged: FDL_NO_BUS; FDL_NO_ENTRY where there are no more than index. */
uint32_t fdl_bus_entry(struct fdl_bus *bus, size_t index, struct fdl_entry *entry);

/* How many of the first entries are over goes to *count: what they say, `heard` included, no longer changes, and fdl_bus_let_go
 * removes them.
 * Code: FDL_NO_BUS, with *count unchanged. */
uint32_t fdl_bus_over(struct fdl_bus *bus, size_t *count);

/* Removes the entries that are over from the trace, as fdl_bus_over counts them; how many they were goes to *count. The run goes
 * on as if they still stood there, and an audit still knows them. The entries that are left have the indices from 0 on.
 * Codes: FDL_NO_BUS; FDL_NO_MEMORY. With either, *count is unchanged, and nothing is removed. */
uint32_t fdl_bus_let_go(struct fdl_bus *bus, size_t *count);

/* What an audit says of the events so far goes to *audit: where no premise broke, no entry is illegal. The index of an illegal
 * one is that in the whole trace, with the entries counted that were let go. It takes time in proportion to the entries that
 * were not.
 * Codes, with *audit unchanged: FDL_NO_BUS; FDL_NO_MEMORY. */
uint32_t fdl_bus_audit(struct fdl_bus *bus, struct fdl_audit *audit);

/* ---- A monitor ---- */

/* A monitor: it hears a capture as it comes, and says what `ringplay monitor` prints (docs/MONITOR.md). It is empty where `at` is
 * NULL. */
struct fdl_monitor {
    void *at;
};

#define FDL_MONITOR_EMPTY { NULL }

/* The form of a capture. */
enum fdl_form {
    FDL_LINES = 0, /* lines of text, a burst each */
    FDL_RAW = 1,   /* octets without boundaries */
    FDL_PCAP = 2   /* pcap or pcapng, link types 257 and 147 */
};

/* What a monitor says. */
enum fdl_summary {
    FDL_TELLS_BURSTS = 0, /* a line for each burst, and a summary at the end */
    FDL_TELLS_TEXT = 1,   /* a summary alone, as lines for people */
    FDL_TELLS_JSON = 2,   /* a summary alone, as a JSON object */
    FDL_TELLS_CSV = 3     /* a summary alone, as a table of the stations */
};

/* What is asked of a monitor. */
struct fdl_monitor_options {
    uint8_t form;    /* an fdl_form */
    uint8_t summary; /* an fdl_summary */
    bool judges;     /* whether it judges, by the parameters of the bus; else it decodes and counts alone */
    bool legality;   /* whether it raises alarms of legality */
    bool loss;       /* and of a lost token */
    bool timing;     /* and of timing */
    uint64_t every;  /* a summary each time that so many bit times have passed; 0: at the end alone */
    uint32_t baud;   /* bits a second; without it (0) packets have no moments */
    uint32_t slack;  /* how wrong the difference of two moments may be, in bit times */
};

/* What is counted for the bus. Counts saturate at 2^64 - 1; moments and durations are in bit times. */
struct fdl_traffic {
    bool timed;               /* whether there was a burst with a moment; else first and last are 0 */
    bool complete;            /* whether the list of active stations is complete: two equal rotations of the token were heard */
    uint64_t first;           /* the begin of the first burst with a moment */
    uint64_t last;            /* the end of the last one */
    uint64_t busy;            /* how long there was a burst, in sum */
    uint64_t bursts;          /* how many bursts there were */
    uint64_t after_loss;      /* how many of them spelled no telegram: after a silence that no token in use leaves, */
    uint64_t taking;          /* in the slot of a token, */
    uint64_t replying;        /* where a reply was due, */
    uint64_t other;           /* and anywhere else */
    uint64_t longest_silence; /* the longest silence between two bursts */
    uint64_t alarms;          /* how many alarms were raised */
    uint64_t refused;         /* how many lines, packets or runs of octets were refused */
};

/* Some durations, in bit times. */
struct fdl_spread {
    uint64_t count;    /* how many there are */
    uint64_t total;    /* their sum */
    uint64_t least;    /* 0 where there is none */
    uint64_t greatest; /* 0 where there is none */
};

/* What a station has shown itself to be. */
enum fdl_role {
    FDL_ROLE_UNKNOWN = 0,      /* it has neither sent a token nor replied with its type */
    FDL_ROLE_PASSIVE = 1,      /* it has replied that it only answers */
    FDL_ROLE_NOT_READY = 2,    /* that it is a master and not ready to enter the ring */
    FDL_ROLE_READY = 3,        /* that it is a master and ready to enter the ring */
    FDL_ROLE_IN_RING = 4       /* it has sent a token, or replied that it is in the ring */
};

/* What is counted for a station. Counts saturate at 2^64 - 1; moments and durations are in bit times. */
struct fdl_station_counts {
    uint8_t role;               /* an fdl_role */
    bool active;                /* whether it is in the list of active stations */
    bool timed;                 /* whether a telegram of it with a moment was heard; else last_heard is 0 */
    uint64_t last_heard;        /* the end of the last one */
    uint64_t telegrams;         /* how many telegrams it has sent, but replies that nobody asked for */
    uint64_t tokens;            /* how many tokens */
    uint64_t claims;            /* how many of them were the first of its claims */
    uint64_t requests;          /* how many requests */
    uint64_t polls;             /* how many of them asked for a status */
    uint64_t repeats;           /* how many tokens and requests had the octets of the one directly before */
    uint64_t unanswered;        /* how many of its requests nothing answered */
    uint64_t damaged_answers;   /* how many were answered with damage */
    uint64_t polled;            /* how often others have asked it for its status */
    uint64_t tokens_not_taken;  /* how many tokens to it were sent again after their slot */
    struct fdl_spread rotation; /* the time between two receipts of the token */
    struct fdl_spread taking;   /* from the end of a token to it to its first telegram */
    struct fdl_spread replying; /* from the end of a request to it to its reply */
};

/* Makes a monitor that has heard nothing, at an empty monitor. Without options->judges the parameters are not read. It takes
 * memory, about 30 KB, and later what is said and not taken.
 * Codes: FDL_MONITOR_IN_USE; FDL_BAD_FORM; where it judges, a fault of the parameters; FDL_NO_MEMORY. */
uint32_t fdl_monitor_new(struct fdl_monitor *monitor, const struct fdl_monitor_options *options, const struct fdl_params *params);

/* Frees a monitor, which is empty then. An empty monitor stays so. */
void fdl_monitor_free(struct fdl_monitor *monitor);

/* The next count octets of the capture, cut anywhere. What they complete is said at once: take it by fdl_monitor_next before more
 * is fed, or it is kept, and takes memory.
 * Codes: FDL_NO_MONITOR; FDL_FINISHED; FDL_NO_MEMORY: what was said before can still be taken, and the capture has ended. */
uint32_t fdl_monitor_feed(struct fdl_monitor *monitor, const uint8_t *octets, size_t count);

/* The capture ends: the monitor says what is left of it, and the summary.
 * Codes: FDL_NO_MONITOR; FDL_FINISHED; FDL_NO_MEMORY, as above. */
uint32_t fdl_monitor_finish(struct fdl_monitor *monitor);

/* The next octets of what the monitor has said, at most room, go to out, and their number to *count, 0 where none are left: nothing
 * is left out, and nothing comes twice. A line may come in pieces. What out holds behind them is unchanged.
 * Code: FDL_NO_MONITOR, with *count 0. */
uint32_t fdl_monitor_next(struct fdl_monitor *monitor, uint8_t *out, size_t room, size_t *count);

/* Whether input was refused or an alarm raised goes to *refused.
 * Code: FDL_NO_MONITOR, with *refused unchanged. */
uint32_t fdl_monitor_is_refused(struct fdl_monitor *monitor, bool *refused);

/* What is counted for the bus goes to *traffic.
 * Code: FDL_NO_MONITOR, with *traffic unchanged. */
uint32_t fdl_monitor_traffic(struct fdl_monitor *monitor, struct fdl_traffic *traffic);

/* What is counted for the station with an address goes to *counts.
 * Codes, with *counts unchanged: FDL_BAD_STATION for an address over 126; FDL_NO_MONITOR. */
uint32_t fdl_monitor_station(struct fdl_monitor *monitor, uint8_t address, struct fdl_station_counts *counts);

#ifdef __cplusplus
}
#endif

#endif
