"""A port of the library for C beside each station of the event lists of tests/events: it is told what its tap hears, and has to
say in each turn what the list says, and to end in the phase, and with the next turn, that the list says. Each list is played
with room for 64 unread marks, and again with room for as many as there were.

    python3 shadow.py LIBRARY

What a tap hears is computed here from what was said: docs/PROTOCOL.md has the rules of the medium. Prints each list that
differs, and at last how much was compared. Status 0 only where none differs.
"""

import ctypes
import json
import pathlib
import sys
from ctypes import byref, c_bool, c_size_t, c_uint8, c_uint16, c_uint32, c_uint64

sys.path.insert(0, str(pathlib.Path(__file__).resolve().parent.parent))
sys.dont_write_bytecode = True

import cases

library = ctypes.CDLL(sys.argv[1])
CHARACTER_BITS = 11
DAMAGED = 256
NEVER = 2**64 - 1
# The codes of a request, with its service by number and its priority.
REQUESTS = {3: (0, False), 4: (1, False), 5: (0, True), 6: (1, True), 12: (2, False), 13: (2, True)}
PHASES = "Offline PassiveIdle Listening Idle Claim Use AwaitData AwaitStatus Pass Checking".split()
SERVICES = "sda sdn srd".split()
MARKS = "begin noise end end_good".split()
LEAST_ROOM, MOST_ROOM = 2, 64


class Params(ctypes.Structure):
    _fields_ = [(name, c_uint32) for name in "tsl tid1 tid2 tsdr lag ttr gap hsa retries ttd".split()]


class Indication(ctypes.Structure):
    _fields_ = [("source", c_uint8), ("service", c_uint8), ("high", c_bool), ("count", c_uint8), ("data", c_uint8 * 246)]


def request_in(characters):
    """The request for a service that undamaged characters spell: source, service, priority and data."""
    if DAMAGED in characters or characters[:1] not in ([0x10], [0x68], [0xA2]):
        return None
    head = {0x10: 1, 0x68: 4, 0xA2: 1}[characters[0]]
    if len(characters) < head + 5:
        return None
    da, sa, fc, *unit = characters[head:-2]
    return (sa % 128, *REQUESTS[fc % 16], bytes(unit)) if fc & 0x40 and fc % 16 in REQUESTS else None


class Port(ctypes.Structure):
    _fields_ = [("at", ctypes.c_void_p)]

    def __init__(self):
        super().__init__()
        self.heard = []
        # How many marks are unread, and the most so far.
        self.unread = self.most = 0

    def __del__(self):
        library.fdl_port_free(byref(self))

    def call(self, name, *words):
        code = getattr(library, f"fdl_port_{name}")(byref(self), *words)
        assert code == 0, f"{name} has code {code}"
        if name in MARKS:
            self.unread += 1
            self.most = max(self.most, self.unread)
        elif name in ("start", "stop", "turn"):
            self.unread = 0

    def end(self, at, seen, characters):
        """The end of a burst, by the shortest call."""
        words = [c_uint64(at), c_uint64(seen)]
        self.heard.append(request_in(characters))
        if characters == [DAMAGED]:
            self.call("noise", *words)
        elif DAMAGED in characters:
            self.call("end", *words, (c_uint16 * len(characters))(*characters), c_size_t(len(characters)))
        else:
            self.call("end_good", *words, bytes(characters), c_size_t(len(characters)))

    def turn(self, now):
        out, count = (c_uint8 * 255)(), c_size_t()
        executed = self.executed()
        self.call("turn", c_uint64(now), out, c_size_t(255), byref(count))
        self.compare_indications(self.executed() - executed)
        return bytes(out[: count.value])

    def executed(self):
        count = c_uint64()
        self.call("executed", byref(count))
        return count.value

    def compare_indications(self, grown):
        """The last turn tells as many requests as it has executed, and each is one that was heard, in order."""
        count, told = c_size_t(), Indication()
        self.call("indications", byref(count))
        assert count.value == grown, f"{count.value} indications of {grown} requests"
        heard = iter(self.heard)
        for index in range(grown):
            self.call("indication", c_size_t(index), byref(told))
            request = told.source, told.service, told.high, bytes(told.data[: told.count])
            assert request in heard, f"{request} is told and was not heard"
        self.heard = []

    def due(self):
        at = c_uint64()
        self.call("due", byref(at))
        return at.value

    def phase(self):
        phase = c_uint32()
        self.call("phase", byref(phase))
        return PHASES[phase.value]


class Sent:
    """A telegram: its octets are all that were meant."""

    def __init__(self, tap, octets, begin):
        self.tap, self.octets, self.begin = tap, octets, begin
        self.end = begin + CHARACTER_BITS * len(octets)
        self.hits, self.unheard = [], set()

    def cut(self, now):
        """Its speaker stops: it ends with the character that is on its way."""
        if now < self.end:
            self.end = min(self.end, self.begin + CHARACTER_BITS * ((now - self.begin) // CHARACTER_BITS + 1))

    def characters(self, tap):
        out = self.octets[: (self.end - self.begin) // CHARACTER_BITS]
        hit = lambda place: any(at == tap and where in (None, place) for at, where in self.hits)
        return [DAMAGED if hit(place) else octet for place, octet in enumerate(out)]


class Noise:
    def __init__(self, begin, end):
        self.begin, self.end = begin, end


class Tap:
    def __init__(self, spec, params, room):
        self.port, self.running, self.since, self.amid = Port(), False, 0, False
        reply = bytes.fromhex(spec["reply"])
        words = byref(params), c_uint8(spec["address"]), c_bool(spec["kind"] == "master"), reply, c_size_t(len(reply))
        if room == MOST_ROOM:
            self.port.call("new", *words)
        else:
            self.port.call("new_with_room", c_size_t(room), *words)

    def least_room(self):
        """The least room for the marks that were unread at once."""
        return max(LEAST_ROOM, self.port.most)


class Bus:
    def __init__(self, given, rooms):
        self.delay, self.now, self.trace = given["bus"]["ttd"], 0, []
        params = Params(**given["bus"])
        self.taps = [Tap(spec, params, room) for spec, room in zip(given["taps"], rooms)]

    # ---- what a tap senses

    def at(self, place, entry):
        """When an entry is at a tap, or None."""
        if isinstance(entry, Noise):
            return entry.begin, entry.end
        if entry.tap == place or place in entry.unheard:
            return None
        return entry.begin + self.delay, entry.end + self.delay

    def sensed(self, place):
        since = self.taps[place].since
        spans = [self.at(place, entry) for entry in self.trace]
        return [(max(span[0], since), span[1]) for span in spans if span and since < span[1]]

    def fills_burst(self, place, sent, spans):
        """Whether a telegram fills a burst of the tap alone."""
        tap, span = self.taps[place], self.at(place, sent)
        if span is None or not (tap.since < span[0] or (tap.since == span[0] and not tap.amid)):
            return False
        overlaps = lambda a, b: a[0] < b[1] and b[0] < a[1]
        own = [(it.begin, it.end) for it in self.trace if isinstance(it, Sent) and it.tap == place]
        return sum(overlaps(span, it) for it in spans) == 1 and not any(overlaps(span, it) for it in own)

    def characters(self, place, end, spans):
        for entry in self.trace:
            if isinstance(entry, Sent) and entry.end + self.delay == end and self.fills_burst(place, entry, spans):
                return entry.characters(place)
        return [DAMAGED]

    def tell(self, place, old, new):
        """Tells a tap what has begun from the old clock on, and what has ended until the new one."""
        spans = self.sensed(place)
        lasts = lambda moment: any(span[0] < moment < span[1] for span in spans)
        port = self.taps[place].port
        for begin in sorted({span[0] for span in spans if old <= span[0] < new and not lasts(span[0])}):
            port.call("begin", c_uint64(begin), c_uint64(new))
        for end in sorted({span[1] for span in spans if old < span[1] <= new and not lasts(span[1])}):
            port.end(end, new, self.characters(place, end, spans))

    # ---- events that were accepted

    def turn(self, place):
        octets = self.taps[place].port.turn(self.now)
        if octets:
            self.trace.append(Sent(place, octets, self.now))
        return octets

    def pass_on(self, bits):
        old, self.now = self.now, self.now + bits
        for place, tap in enumerate(self.taps):
            if tap.running:
                self.tell(place, old, self.now)
        # What is long over is no longer asked for.
        self.trace = [entry for entry in self.trace if entry.end + 2 * self.delay + 4000 > self.now]

    def start(self, place):
        tap = self.taps[place]
        spans = [self.at(place, entry) for entry in self.trace]
        tap.running, tap.since = True, self.now
        tap.amid = any(span and span[0] <= self.now < span[1] for span in spans)
        tap.port.call("start", c_uint64(self.now))

    def stop(self, place):
        for entry in self.trace:
            if isinstance(entry, Sent) and entry.tap == place:
                entry.cut(self.now)
        self.taps[place].running = False
        self.taps[place].port.call("stop")

    def damage(self, tap, speaker, place):
        entry = next(it for it in self.trace if isinstance(it, Sent) and it.tap == speaker and self.now < it.end + self.delay)
        entry.hits.append((tap, place))

    def noise(self, bits):
        for entry in self.trace:
            if isinstance(entry, Noise) and self.now < entry.end:
                entry.end = max(entry.end, self.now + bits)
                return
        self.trace.append(Noise(self.now, self.now + bits))

    def unheard(self, tap, speaker):
        entry = next(it for it in self.trace if isinstance(it, Sent) and it.tap == speaker and it.begin == self.now)
        entry.unheard.add(tap)

    def queue(self, request):
        unit = bytes.fromhex(request["unit"])
        service = c_uint8(SERVICES.index(request["service"]))
        words = c_uint8(request["da"]), service, c_bool(request["high"]), unit, c_size_t(len(unit))
        self.taps[request["tap"]].port.call("push", *words)

    def does(self, event):
        """Does an event, and answers what was said."""
        ((kind, it),) = event.items()
        if kind == "Turn":
            return self.turn(it)
        if kind in ("Pass", "Start", "Stop", "Noise", "Queue"):
            {"Pass": self.pass_on, "Start": self.start, "Stop": self.stop, "Noise": self.noise, "Queue": self.queue}[kind](it)
        elif kind == "Damage":
            self.damage(it["tap"], it["speaker"], it["place"])
        else:
            self.unheard(it["tap"], it["speaker"])
        return b""


def play(given, counts, rooms):
    """Plays a list's accepted events, compares what is said and what becomes of each station, and returns the least rooms."""
    expect = given["expect"]
    if len(expect) == 1:
        return rooms
    bus = Bus(given, rooms)
    counts["ports"] += len(bus.taps)
    for number, (event, line) in enumerate(zip(given["events"], expect)):
        if " fault " in line:
            continue
        said = bus.does(event)
        wanted = line.partition(" spoke ")[2]
        counts["turns"] += "Turn" in event
        assert said.hex() == wanted, f"event {number} says {said.hex()!r}, not {wanted!r}"
    for place, tap in enumerate(bus.taps):
        line = next(it for it in expect if it.startswith(f"tap {place}:"))
        due = tap.port.due() if tap.running else NEVER
        said = f"tap {place}: {tap.port.phase()}, due {due}" if due != NEVER else f"tap {place}: {tap.port.phase()}, not due"
        assert said == line or (due == NEVER and line.startswith(f"tap {place}: {tap.port.phase()}")), f"{said!r}, not {line!r}"
    return [tap.least_room() for tap in bus.taps]


def main():
    counts, differ, lists = {"ports": 0, "turns": 0}, 0, cases.event_lists()
    for name, text in lists.items():
        try:
            given = json.loads(text)
            rooms = play(given, counts, [MOST_ROOM] * len(given["taps"]))
            play(given, counts, rooms)
        except AssertionError as fault:
            differ += 1
            print(f"{name}: {fault}")
    print(f"{len(lists) - differ} equal, {differ} differ; {counts['ports']} ports, {counts['turns']} turns")
    return differ > 0


sys.exit(main())
