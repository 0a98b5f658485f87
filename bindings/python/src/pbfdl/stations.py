"""A station at a line that the caller drives, and what can be read of a station."""

from __future__ import annotations

import enum
from ctypes import byref, c_bool, c_size_t, c_uint8, c_uint16, c_uint32, c_uint64
from dataclasses import dataclass
from typing import Any, List, Mapping, Optional, Sequence, Tuple, Union

from ._library import (
    TELEGRAM_MAX,
    Handle,
    IndicationStruct,
    OutcomeStruct,
    Texts,
    long_data,
    moment,
    moment_or_none,
    number,
    octet,
    octets_of,
    whole,
)
from .faults import Ahead, Backwards, BadRoom, BadService, BadStation, InboxFull, LongData, QueueFull, TooLate, TooLong
from .params import Params, checked

LAST_MOMENT = 2**61
"""The last moment of a station, in bit times."""
LEAST_ROOM, MOST_ROOM = 2, 64
"""How many unread marks a station has room for."""
LAST_ADDRESS = 126
"""The last address of a station."""
ALL_STATIONS = 127
"""The address of all stations, for a request by `Service.SDN`."""
ASKED = f"0 to {LAST_ADDRESS}, and {ALL_STATIONS} (all stations) with Service.SDN alone"
SERVICES = "Service.SDA, Service.SDN, Service.SRD"


class Phase(enum.IntEnum):
    """The phases of a station (IEC 61158-4-3, states of the data link layer of a master)."""

    OFFLINE = 0
    PASSIVE_IDLE = 1
    LISTENING = 2
    IDLE = 3
    CLAIM = 4
    USE = 5
    AWAIT_DATA = 6
    AWAIT_STATUS = 7
    PASS = 8
    CHECKING = 9


class Service(enum.IntEnum):
    """The services (IEC 61158-4-3, data link service)."""

    SDA = 0
    """send data with acknowledge"""
    SDN = 1
    """send data with no acknowledge"""
    SRD = 2
    """send and request data"""


class OutcomeKind(enum.IntEnum):
    """What can come of a request."""

    ACKED = 1
    """the data was taken, and none came back"""
    DATA = 2
    """data came back"""
    NO_RESOURCE = 3
    """the station has no resource, or no such service"""
    NO_ANSWER = 4
    """no reply came, and no retry is left"""


@dataclass(frozen=True)
class Outcome:
    """What came of a request."""

    kind: OutcomeKind
    station: int
    """The station that was asked, 0 to 126."""
    data: bytes = b""
    """The data that came back, at most 246 octets."""

    @classmethod
    def _of(cls, found: OutcomeStruct) -> Optional[Outcome]:
        if found.kind == 0:
            return None
        return cls(OutcomeKind(found.kind), found.station, bytes(found.data[: found.count]))


@dataclass(frozen=True)
class Indication:
    """A request of another station that a station has executed."""

    source: int
    """The station that asks, 0 to 126."""
    service: Service
    high: bool
    """Whether its priority is high."""
    data: bytes
    """The data that it brings, at most 246 octets."""

    @classmethod
    def _of(cls, found: IndicationStruct) -> Indication:
        return cls(found.source, Service(found.service), found.high, bytes(found.data[: found.count]))


def station_addresses(hsa: int, master: bool) -> str:
    """The addresses that a station may have."""
    return f"0 to {hsa} (Params.hsa) for a master" if master else f"0 to {LAST_ADDRESS} for a passive station"


def request_words(da: int, service: Service, data: bytes, high: bool) -> Tuple[Any, ...]:
    """A request for the library. Raises `TypeError` and `ValueError`."""
    data = octets_of("data", data)
    whole("service", service, "a Service, as Service.SRD")
    return octet("da", da, ASKED), octet("service", service, SERVICES), bool(high), data, len(data)


def request_texts(da: int, service: Service, data: bytes, high: bool) -> Mapping[Any, str]:
    """What the faults of a request say."""
    return {
        BadService: f"service is {int(service)}; allowed: {SERVICES}",
        LongData: long_data("data", bytes(data)),
        BadStation: f"da is {int(da)}; allowed: {ASKED}",
        QueueFull: f"16 requests of {'high' if high else 'low'} priority wait: let the bus run, then queue again",
    }


class Station(Handle):
    """A station at a line of the caller's own, real or simulated. It does not run before `start`.

    The caller tells it what others do on the line (`begin`, `end`, `noise`), takes its turn when it is `due`, and puts what
    `turn` returns on the line at once. A moment is a number of bit times since the caller's clock began, 0 to 2**61; an octet
    takes 11. `docs/DRIVER.md` says what a driver of a real line owes.

    A station stays on the thread that made it: other threads get `RuntimeError`. After `close`, calls raise `NoPort`.

    >>> params = Params(tsl=100, tid1=37, tid2=60, tsdr=11, lag=0, ttr=10_000, gap=10, hsa=5, retries=1)
    >>> with Station(params, 1) as master:
    ...     master.start(0)
    ...     master.due, master.turn(800).hex()
    (800, 'dc0101')
    """

    _free = "fdl_port_free"

    def __init__(
        self, params: Params, address: int, *, master: bool = True, reply: bytes = b"", room: int = MOST_ROOM
    ) -> None:
        """A master, or a passive station, that replies to a request for data with `reply`, at most 246 octets.

        It has room for so many unread marks, 2 to 64, and takes about 11 KB, and 1.1 KB for each; no later call takes memory.
        Raises `BadRoom`; `BadStation` for a master's address over `params.hsa`, or another's over 126; `LongData`; `NoMemory`.
        """
        super().__init__()
        params = checked(params)
        allowed = station_addresses(params.hsa, bool(master))
        self._params, self._address, self._master = params, octet("address", address, allowed), bool(master)
        reply = octets_of("reply", reply)
        self._room = number("room", room, 2**64 - 1, f"{LEAST_ROOM} to {MOST_ROOM}")
        words = self._room, byref(params._struct()), self._address, self._master, reply, len(reply)
        texts = lambda: {
            BadRoom: f"room is {room}; allowed: {LEAST_ROOM} to {MOST_ROOM}",
            BadStation: f"address is {address}; allowed: {allowed}",
            LongData: long_data("reply", reply),
        }
        self._call("fdl_port_new_with_room", *words, texts=texts)

    @property
    def params(self) -> Params:
        """The bus parameters."""
        return self._params

    @property
    def address(self) -> int:
        """The address, 0 to 126."""
        return self._address

    @property
    def master(self) -> bool:
        """Whether it is a master."""
        return self._master

    @property
    def room(self) -> int:
        """How many unread marks it has room for, 2 to 64."""
        return self._room

    def start(self, now: int) -> None:
        """It starts: a master listens for the ring, a passive station waits for requests.

        All that it knew and heard is forgotten, and requests that waited. Raises `TooLate`, `Backwards`.
        """
        self._call("fdl_port_start", moment("now", now), texts=self._now_texts(now))

    def stop(self) -> None:
        """It stops: it says nothing more, and drops its unread marks and a reply that it has not sent yet."""
        self._call("fdl_port_stop")

    def push(self, da: int, service: Service, data: bytes = b"", *, high: bool = False) -> None:
        """A request with at most 246 octets of data waits behind the others of its priority.

        It is for the station with the address da, 0 to 126, or for all (127, `Service.SDN` alone). A master sends it when it has
        the token; a start forgets it. Raises `BadService`, `LongData`, `BadStation`, `QueueFull` (16 wait).
        """
        texts = lambda: request_texts(da, service, data, high)
        self._call("fdl_port_push", *request_words(da, service, data, high), texts=texts)

    def begin(self, at: int, seen: Optional[int] = None) -> None:
        """Activity of others has begun on the line at the moment `at`, which is told at the moment `seen` (the same if None).

        Raises `TooLate`; `Backwards` where `seen` is before an earlier call, or `at` before an earlier mark's own moment, the
        last turn or the start; `Ahead` where `at` is after `seen`; `InboxFull` (there is no room for a mark more).
        """
        self._call("fdl_port_begin", *self._moments(at, seen), texts=self._mark_texts(at, seen))

    def end(self, at: int, characters: Union[bytes, bytearray, Sequence[int]], seen: Optional[int] = None) -> None:
        """Activity of others has ended, and has brought at most 255 characters: `bytes`, which all came good, or numbers, of
        which those over 255 (`DAMAGED`) are damaged characters.

        Raises `TooLong` and the faults of `begin`.
        """
        if isinstance(characters, (bytes, bytearray)):
            octets = bytes(characters)
            texts = self._mark_texts(at, seen, len(octets))
            self._call("fdl_port_end_good", *self._moments(at, seen), octets, len(octets), texts=texts)
        else:
            numbers = [number("a character", it, 2**16 - 1) for it in characters]
            array = (c_uint16 * max(len(numbers), 1))(*numbers)
            texts = self._mark_texts(at, seen, len(numbers))
            self._call("fdl_port_end", *self._moments(at, seen), array, len(numbers), texts=texts)

    def noise(self, at: int, seen: Optional[int] = None) -> None:
        """Activity of others has ended, and was no telegram: one damaged character. Raises the faults of `begin`."""
        self._call("fdl_port_noise", *self._moments(at, seen), texts=self._mark_texts(at, seen))

    @staticmethod
    def _moments(at: int, seen: Optional[int]) -> List[int]:
        return [moment("at", at), moment("seen", at if seen is None else seen)]

    @staticmethod
    def _now_texts(now: int) -> Texts:
        return lambda: {
            TooLate: f"now is {now}; allowed: 0 to 2**61",
            Backwards: f"now is {now}, before a moment of an earlier call; allowed: that moment and later ones",
        }

    def _mark_texts(self, at: int, seen: Optional[int], count: int = 0) -> Texts:
        told = at if seen is None else seen
        return lambda: {
            TooLate: f"seen is {told}; allowed: 0 to 2**61",
            Backwards: f"at is {at}, seen is {told}: one is before a moment of an earlier mark or call; allowed: later ones",
            Ahead: f"at is {at}; allowed: at most seen ({told})",
            TooLong: f"there are {count} characters; allowed: 0 to {TELEGRAM_MAX}",
            InboxFull: f"{self._room} marks are unread: take the turn, then repeat this mark",
        }

    @property
    def due(self) -> Optional[int]:
        """When it has to take its turn, in bit times; None where nothing is to come.

        A new mark or request may change it. The turn may be taken up to `params.lag` bit times later.
        """
        return moment_or_none(self._number("fdl_port_due", c_uint64))

    def turn(self, now: int) -> bytes:
        """It takes its turn: it reads its unread marks and timers, and sends a telegram if the moment for it has come.

        Returns the octets, at most 255, or none. They are on the line from `now` on, 11 bit times an octet, without a pause.
        Raises `TooLate`, `Backwards`.
        """
        out, count = (c_uint8 * TELEGRAM_MAX)(), c_size_t()
        self._call("fdl_port_turn", moment("now", now), out, TELEGRAM_MAX, byref(count), texts=self._now_texts(now))
        return bytes(out[: count.value])

    def set_reply(self, reply: bytes) -> None:
        """It replies to the next request for data (SRD) with at most 246 octets; with none, that it has no data.

        A repeat of the last request still gets the reply that was sent. Raises `LongData`.
        """
        reply = octets_of("reply", reply)
        self._call("fdl_port_set_reply", reply, len(reply), texts=lambda: {LongData: long_data("reply", reply)})

    @property
    def indications(self) -> List[Indication]:
        """The requests of others that it executed in its last turn, in order, without repeats. A start forgets them."""
        count = self._number("fdl_port_indications", c_size_t)
        return [Indication._of(self._ask("fdl_port_indication", IndicationStruct, index)) for index in range(count)]

    @property
    def phase(self) -> Phase:
        """Its phase."""
        return Phase(self._number("fdl_port_phase", c_uint32))

    def is_active(self, address: int) -> bool:
        """Whether an address, 0 to 126, is in its list of active stations. Raises `BadStation`."""
        texts = lambda: {BadStation: f"address is {address}; allowed: 0 to {LAST_ADDRESS}"}
        return bool(self._number("fdl_port_is_active", c_bool, octet("address", address, f"0 to {LAST_ADDRESS}"), texts=texts))

    @property
    def active(self) -> List[int]:
        """The addresses in its list of active stations, ascending."""
        return [address for address in range(LAST_ADDRESS + 1) if self.is_active(address)]

    @property
    def executed(self) -> int:
        """How many requests of others it has executed since its start, without repeats."""
        return self._number("fdl_port_executed", c_uint64)

    @property
    def outcome(self) -> Optional[Outcome]:
        """What came of its last request that had an outcome; None where none has had one since the start."""
        return Outcome._of(self._ask("fdl_port_outcome", OutcomeStruct))

    def __repr__(self) -> str:
        state = "closed" if self.closed else self.phase.name
        return f"<Station {self.address}, {'master' if self.master else 'passive'}, {state}>"

