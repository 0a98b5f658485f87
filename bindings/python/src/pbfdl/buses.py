"""A simulated bus with stations at its taps."""

from __future__ import annotations

from ctypes import byref, c_bool, c_size_t, c_uint32, c_uint64
from dataclasses import dataclass
from typing import Any, Dict, Iterable, Iterator, List, Mapping, Optional, Tuple

from ._library import (
    MOST_DATA,
    MOST_TAPS,
    AuditStruct,
    EntryStruct,
    Handle,
    IndicationStruct,
    OutcomeStruct,
    TapStruct,
    Texts,
    long_data,
    moment,
    moment_or_none,
    number,
    octet,
    octets_of,
    whole,
)
from .faults import (
    Backwards,
    BadStation,
    ClockFull,
    InboxFull,
    LongData,
    NoIndication,
    NoSuchTap,
    NothingInAir,
    NotRunning,
    Running,
    TooFar,
    TooManyTaps,
    ZeroTime,
)
from .params import Params, checked
from .stations import LAST_ADDRESS, Indication, Outcome, Phase, Service, request_texts, request_words, station_addresses
from .traces import Audit, Entry, Trace

ALL_CHARACTERS = 256


@dataclass(frozen=True)
class Tap:
    """A place on the bus with its station: a master, or a passive station.

    address  0 to `Params.hsa` for a master, 0 to 126 for a passive station (`BadStation`, by `Bus`); two running taps with one
             address break a premise (`audit`)
    master   whether it is a master
    reply    what it replies to a request for data, at most 246 octets (`LongData`, by `Bus`)
    """

    address: int
    master: bool = True
    reply: bytes = b""

    def _struct(self) -> TapStruct:
        reply = octets_of("reply", self.reply)
        if len(reply) > MOST_DATA:
            raise LongData(long_data("reply", reply))
        allowed = f"0 to {LAST_ADDRESS}, for a master to Params.hsa"
        given = TapStruct(octet("address", self.address, allowed), bool(self.master), len(reply))
        given.reply[: len(reply)] = reply
        return given


class Bus(Handle):
    """A bus with stations at its taps, at the moment 0. No station runs before `start`.

    A tap is named by its index, from 0. Times are whole bit times, moments count from 0 to 10**12. `run` plays the bus to a
    moment; between runs the caller starts, stops, queues requests and disturbs. Each method that is an event of the bus either
    happens, or raises a fault and changes nothing; all raise `NoSuchTap` first for a missing tap.

    A bus stays on the thread that made it: other threads get `RuntimeError`. After `close`, calls raise `NoBus`.

    >>> params = Params(tsl=100, tid1=37, tid2=60, tsdr=11, lag=0, ttr=10_000, gap=10, hsa=5, retries=1)
    >>> with Bus(params, [Tap(1), Tap(2)]) as bus:
    ...     bus.start(0)
    ...     bus.start(1)
    ...     bus.run(900)
    ...     print(bus.trace.text(["a", "b"]), end="")
    800 833 a dc0101 -w
    870 903 a dc0101 -.
    """

    _free = "fdl_bus_free"

    def __init__(self, params: Params, taps: Iterable[Tap], *, entries: int = 100_000) -> None:
        """A bus with 1 to 127 taps, whose trace may have this many entries; then events that add one raise `TraceFull`.

        Entries that are let go (`take_settled`, `stream`) count, too: `entries=10**12` is enough for any run.

        Raises `LongData`, `NoTaps`, `TooManyTaps`, `BadStation` (a master's address over `params.hsa`, or another's over 126),
        `NoMemory`.
        """
        super().__init__()
        self._params, self._taps = checked(params), tuple(taps)
        for index, tap in enumerate(self._taps):
            if not isinstance(tap, Tap):
                raise TypeError(f"taps[{index}] is {tap!r}; wanted: a Tap, as Tap(1)")
        given = (TapStruct * max(len(self._taps), 1))(*(tap._struct() for tap in self._taps))
        words = byref(params._struct()), given, len(self._taps), number("entries", entries, 2**64 - 1)
        self._call("fdl_bus_new_within", *words, texts=self._new_texts)

    def _new_texts(self) -> Mapping[Any, str]:
        texts: Dict[Any, str] = {TooManyTaps: f"there are {len(self._taps)} taps; allowed: 1 to {MOST_TAPS}"}
        for index, tap in enumerate(self._taps):
            if tap.address > (self._params.hsa if tap.master else LAST_ADDRESS):
                allowed = station_addresses(self._params.hsa, tap.master)
                texts.setdefault(BadStation, f"the address of tap {index} is {tap.address}; allowed: {allowed}")
        return texts

    def _tap(self, tap: int, name: str = "tap") -> int:
        """The index of a tap. Raises `NoSuchTap`."""
        tap = whole(name, tap)
        if not (0 <= tap < len(self._taps) or self.closed):
            raise NoSuchTap(f"{name} is {tap}; the bus has {len(self._taps)} taps: 0 to {len(self._taps) - 1}")
        return tap

    def _stopped(self, tap: int) -> Texts:
        return lambda: {NotRunning: f"tap {tap} does not run: start it first"}

    @property
    def params(self) -> Params:
        """The bus parameters."""
        return self._params

    @property
    def taps(self) -> Tuple[Tap, ...]:
        """The taps, as they were given."""
        return self._taps

    # ---- events

    def start(self, tap: int) -> None:
        """The station starts, with nothing heard, no outcome and nothing executed; its reply and what is kept of its requests stay.

        Raises `Running`, also while a telegram of its own is on the bus.
        """
        why = "runs, or a telegram of its own is still on the bus: stop it, or run to the end of that"
        self._call("fdl_bus_start", self._tap(tap), texts=lambda: {Running: f"tap {tap} {why}"})

    def stop(self, tap: int) -> None:
        """The station stops; a telegram that it is sending ends with the present character. A start then forgets its queue.

        Raises `NotRunning`.
        """
        self._call("fdl_bus_stop", self._tap(tap), texts=self._stopped(tap))

    def turn(self, tap: int) -> None:
        """The station takes its turn now. `run` does so when it is due.

        Raises `NotRunning`; `TraceFull` or `NoMemory` where it would send.
        """
        self._call("fdl_bus_turn", self._tap(tap), texts=self._stopped(tap))

    def pass_time(self, bits: int) -> None:
        """Time passes, 1 bit time and more. `run` does so, too.

        Raises `ZeroTime`; `TooFar` past the next end on the bus (`next_change` says which moment is allowed); `ClockFull`;
        `InboxFull` where a tap would have more than 64 unread marks.
        """
        self._call("fdl_bus_pass", moment("bits", bits), texts=lambda: self._pass_texts(bits))

    def _pass_texts(self, bits: int) -> Mapping[Any, str]:
        return {
            ZeroTime: "bits is 0; allowed: 1 and more",
            TooFar: f"bits is {bits} at {self.now}; allowed: to the next change on the bus, at {self.next_change}",
            ClockFull: f"bits is {bits} at {self.now}; allowed: to 10**12",
            InboxFull: "a tap would have more than 64 unread marks: take its turn first",
        }

    def noise(self, bits: int) -> None:
        """Noise reaches all taps from now on, for 1 to 4,294,967,295 bit times; with noise on the bus it is one, to the later end.

        Raises `TooFar` for more, `ZeroTime`, `TraceFull`, `NoMemory`.
        """
        texts = lambda: {fault: f"bits is {bits}; allowed: 1 to {2**32 - 1}" for fault in (TooFar, ZeroTime)}
        self._call("fdl_bus_noise", moment("bits", bits), texts=texts)

    def damage(self, tap: int, speaker: int, place: Optional[int] = None) -> None:
        """A tap hears what the speaker is sending damaged: one character, by its place from 0, or all (None).

        Raises `NothingInAir`, `NoMemory`.
        """
        where = ALL_CHARACTERS if place is None else octet("place", place)
        what = "no telegram" if place is None else f"no telegram with a character {place}"
        texts = lambda: {NothingInAir: f"{what} of tap {speaker} is on the bus to tap {tap} at {self.now}: run until one is"}
        self._call("fdl_bus_damage", self._tap(tap), self._tap(speaker, "speaker"), where, texts=texts)

    def unheard(self, tap: int, speaker: int) -> None:
        """A tap does not hear what the speaker begins to send now (this breaks premise 2). Raises `NothingInAir`."""
        why = f"no telegram of tap {speaker} to tap {tap} begins"
        texts = lambda: {NothingInAir: f"{why} at {self.now}: run to the moment at which one does"}
        self._call("fdl_bus_unheard", self._tap(tap), self._tap(speaker, "speaker"), texts=texts)

    def queue(self, tap: int, da: int, service: Service, data: bytes = b"", *, high: bool = False) -> None:
        """A request with at most 246 octets of data waits at a running master, behind the others of its priority.

        It is for the station with the address da, 0 to 126, or for all (127, `Service.SDN` alone). Raises `BadService`,
        `LongData`, `BadStation`, `NotRunning` (also for a passive station), `QueueFull` (16 wait).
        """
        texts = lambda: {**request_texts(da, service, data, high), **self._asking_texts(tap)}
        self._call("fdl_bus_queue", self._tap(tap), *request_words(da, service, data, high), texts=texts)

    def _asking_texts(self, tap: int) -> Mapping[Any, str]:
        why = "does not run: start it first" if self._taps[tap].master else "is passive: only a master sends requests"
        return {NotRunning: f"tap {tap} {why}"}

    def set_reply(self, tap: int, reply: bytes) -> None:
        """A tap replies to the next request for data (SRD) with at most 246 octets; with none it acknowledges (outcome ACKED).

        This is no event: nothing else changes, and `audit` judges the events alone. A repeat of the last request still gets the
        reply that was sent. Raises `LongData`.
        """
        reply = octets_of("reply", reply)
        self._call("fdl_bus_set_reply", self._tap(tap), reply, len(reply), texts=lambda: {LongData: long_data("reply", reply)})

    def keep_indications(self, tap: int, room: int = 1024) -> None:
        """Keeps the requests of others that the station at a tap executes from now on, without repeats: the first `room`.

        `take_indications` makes room again; `executed` counts also those for which there was none. What was kept of this tap is
        forgotten. Raises `NoSuchTap`, `NoMemory`.
        """
        self._call("fdl_bus_keep_indications", self._tap(tap), number("room", room, 2**64 - 1))

    def indications(self, tap: int) -> List[Indication]:
        """The requests that are kept of a tap, in the order of their execution. Raises `NoIndication` where none are asked for."""
        texts = lambda: {NoIndication: f"the requests to tap {tap} are not kept: call keep_indications({tap}) first"}
        count = self._number("fdl_bus_indications", c_size_t, self._tap(tap), texts=texts)
        return [Indication._of(self._ask("fdl_bus_indication", IndicationStruct, tap, index)) for index in range(count)]

    def take_indications(self, tap: int) -> List[Indication]:
        """`indications`, and forgets them: there is room for later ones."""
        taken = self.indications(tap)
        self._call("fdl_bus_forget_indications", tap)
        return taken

    def run(self, until: int) -> None:
        """The bus runs to the moment `until`: instant by instant the due turns, in the order of the taps, then time to the next.

        The turns that are due at `until` are taken, too, so what the caller does then comes after them. (`ringplay run` does the
        steps of a moment before its turns: `run(at - 1)` and `pass_time(1)` stop before the turns of `at`.) Raises `Backwards`
        where it is before `now`, `ClockFull` over 10**12, and the faults of `turn` and `pass_time`: the bus stands before the
        refused event then.
        """
        texts = lambda: {
            Backwards: f"until is {until}; allowed: the clock ({self.now}) and later moments",
            ClockFull: f"until is {until}; allowed: to 10**12",
        }
        self._call("fdl_bus_run", moment("until", until), texts=texts)

    def stream(self, until: int, *, step: int = 10_000) -> Iterator[Entry]:
        """The bus runs to the moment `until`, `step` bit times at a time, and each entry is given once it is over and let go.

        So memory stays the same, however long the run is. Between two entries the caller may do what it does between runs. What
        is not over at the end stays in `trace`, and a later `stream` goes on with it. Raises what `run` raises.

        >>> params = Params(tsl=100, tid1=37, tid2=60, tsdr=11, lag=0, ttr=10_000, gap=10, hsa=5, retries=1)
        >>> with Bus(params, [Tap(1), Tap(2)], entries=10**12) as bus:
        ...     bus.start(0)
        ...     bus.start(1)
        ...     sum(1 for entry in bus.stream(1_000_000) if entry.kind == "token")
        14177
        """
        step = moment("step", step)
        if step == 0:
            raise ValueError("step is 0; allowed: 1 and more")
        while True:
            self.run(min(self.now + step, until) if self.now < until else until)
            yield from self.take_settled()
            if self.now >= until:
                return

    def take_settled(self) -> List[Entry]:
        """The first entries of the trace, which are over and no longer change, and lets them go.

        They leave `trace`, whose other entries then count from 0. The run goes on as if they still stood there, and `audit` still
        knows them. Raises `NoMemory`, and nothing is let go then.
        """
        settled = self.trace[: self._number("fdl_bus_over", c_size_t)]
        self._number("fdl_bus_let_go", c_size_t)
        return settled

    # ---- what can be read

    @property
    def now(self) -> int:
        """The clock, in bit times."""
        return self._number("fdl_bus_now", c_uint64)

    def due(self, tap: int) -> Optional[int]:
        """When the station at a tap has to take its turn; None where nothing is to come."""
        return moment_or_none(self._number("fdl_bus_due", c_uint64, self._tap(tap)))

    @property
    def next_change(self) -> Optional[int]:
        """When something next changes on the bus, turns apart; None where nothing is to come."""
        return moment_or_none(self._number("fdl_bus_next_change", c_uint64))

    @property
    def is_settled(self) -> bool:
        """Whether the ring is settled: its masters agree on who belongs to it and have had the token, one of them has it, no reply waits
        and nothing is on its way, so only between telegrams. If no premise breaks (`audit`), each of them then gets the token again
        and again within the bound of a rotation (`ringplay bounds`), while there is no damage, noise, start or stop, whatever
        `set_reply` changes meanwhile."""
        return bool(self._number("fdl_bus_is_settled", c_bool))

    def phase(self, tap: int) -> Phase:
        """The phase of the station at a tap."""
        return Phase(self._number("fdl_bus_phase", c_uint32, self._tap(tap)))

    def is_active(self, tap: int, address: int) -> bool:
        """Whether an address, 0 to 126, is in the list of active stations of a tap. Raises `BadStation`."""
        texts = lambda: {BadStation: f"address is {address}; allowed: 0 to {LAST_ADDRESS}"}
        words = self._tap(tap), octet("address", address, f"0 to {LAST_ADDRESS}")
        return bool(self._number("fdl_bus_is_active", c_bool, *words, texts=texts))

    def active(self, tap: int) -> List[int]:
        """The addresses in the list of active stations of a tap, ascending."""
        return [address for address in range(LAST_ADDRESS + 1) if self.is_active(tap, address)]

    def executed(self, tap: int) -> int:
        """How many requests of others the station has executed since its start, without repeats."""
        return self._number("fdl_bus_executed", c_uint64, self._tap(tap))

    def outcome(self, tap: int) -> Optional[Outcome]:
        """What came of its last request that had an outcome; None where none has had one since its start.

        Right after `queue` it is still that of an earlier request. A request without a reply (SDN) never has one.
        """
        return Outcome._of(self._ask("fdl_bus_outcome", OutcomeStruct, self._tap(tap)))

    @property
    def trace(self) -> Trace:
        """What has been on the bus so far, and was not let go."""
        return Trace(self)

    def audit(self) -> Audit:
        """Judges all events so far: whether the premises were kept, and whether each token and request is legal.

        The index of an illegal entry is that in the whole trace, with those counted that were let go. It takes time in proportion
        to those that were not. Raises `NoMemory`.
        """
        return Audit._of(self._ask("fdl_bus_audit", AuditStruct))

    def _entries(self) -> int:
        return self._number("fdl_bus_entries", c_size_t)

    def _entry(self, index: int) -> Entry:
        return Entry._of(self._ask("fdl_bus_entry", EntryStruct, index), len(self._taps))

    def __repr__(self) -> str:
        state = "closed" if self.closed else f"now {self.now}"
        return f"<Bus of {len(self._taps)} taps, {state}>"
