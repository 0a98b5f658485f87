"""A monitor: it hears a capture as it comes, judges it, and counts."""

from __future__ import annotations

import enum
from ctypes import byref, c_bool, c_size_t, c_uint8
from dataclasses import dataclass
from typing import Any, FrozenSet, Iterable, Optional

from ._library import (
    Handle,
    MonitorOptionsStruct,
    ParamsStruct,
    SpreadStruct,
    StationCountsStruct,
    TrafficStruct,
    moment,
    octet,
    octets_of,
    word,
)
from .params import Params

ROOM = 65536


class Form(enum.IntEnum):
    """The form of a capture."""

    LINES = 0
    """lines of text, a burst each"""
    RAW = 1
    """octets without boundaries"""
    PCAP = 2
    """pcap or pcapng, link types 257 and 147"""


class Summary(enum.IntEnum):
    """The form of a summary alone."""

    TEXT = 1
    """lines for people"""
    JSON = 2
    """a JSON object"""
    CSV = 3
    """a table of the stations"""


class AlarmClass(enum.Enum):
    """What the alarms of a class rest on."""

    LEGALITY = "legality"
    """a telegram is illegal after those before it"""
    LOSS = "loss"
    """the token was lost, and the telegram is no valid claim"""
    TIMING = "timing"
    """the token was taken outside of the time for it"""


ALL_CLASSES: FrozenSet[AlarmClass] = frozenset(AlarmClass)


class Role(enum.IntEnum):
    """What a station has shown itself to be."""

    UNKNOWN = 0
    """it has neither sent a token nor replied with its type"""
    PASSIVE = 1
    """it has replied that it only answers"""
    NOT_READY = 2
    """that it is a master and not ready to enter the ring"""
    READY = 3
    """that it is a master and ready to enter the ring"""
    IN_RING = 4
    """it has sent a token, or replied that it is in the ring"""


@dataclass(frozen=True)
class Spread:
    """Some durations in bit times: how many, their sum, the least and the greatest (0 where there is none)."""

    count: int
    total: int
    least: int
    greatest: int

    @classmethod
    def _of(cls, told: SpreadStruct) -> Spread:
        return cls(told.count, told.total, told.least, told.greatest)


@dataclass(frozen=True)
class Traffic:
    """What is counted for the bus. Counts saturate at 2**64 - 1; moments and durations are in bit times."""

    complete: bool
    """Whether the list of active stations is complete: two equal rotations of the token were heard."""
    first: Optional[int]
    """The begin of the first burst with a moment."""
    last: Optional[int]
    """The end of the last one."""
    busy: int
    """How long there was a burst, in sum."""
    bursts: int
    after_loss: int
    """Bursts without a telegram after a silence that no token in use leaves,"""
    taking: int
    """in the slot of a token,"""
    replying: int
    """where a reply was due,"""
    other: int
    """and anywhere else."""
    longest_silence: int
    alarms: int
    refused: int
    """How many lines, packets or runs of octets were refused."""

    @classmethod
    def _of(cls, told: TrafficStruct) -> Traffic:
        given = _fields(told, "timed")
        return cls(**{**given, "first": told.first if told.timed else None, "last": told.last if told.timed else None})


@dataclass(frozen=True)
class StationCounts:
    """What is counted for a station. Counts saturate at 2**64 - 1; moments and durations are in bit times."""

    role: Role
    active: bool
    """Whether it is in the list of active stations."""
    last_heard: Optional[int]
    """The end of its last telegram with a moment."""
    telegrams: int
    """How many it has sent, but replies that nobody asked for."""
    tokens: int
    claims: int
    """How many tokens were the first of its claims."""
    requests: int
    polls: int
    """How many requests asked for a status."""
    repeats: int
    """How many tokens and requests had the octets of the one directly before."""
    unanswered: int
    damaged_answers: int
    polled: int
    """How often others have asked it for its status."""
    tokens_not_taken: int
    """How many tokens to it were sent again after their slot."""
    rotation: Spread
    """The time between two receipts of the token."""
    taking: Spread
    """From the end of a token to it to its first telegram."""
    replying: Spread
    """From the end of a request to it to its reply."""

    @classmethod
    def _of(cls, told: StationCountsStruct) -> StationCounts:
        given = _fields(told, "timed")
        given.update(role=Role(told.role), last_heard=told.last_heard if told.timed else None)
        given.update({name: Spread._of(getattr(told, name)) for name in ("rotation", "taking", "replying")})
        return cls(**given)


def _fields(told: Any, but: str) -> "dict[str, Any]":
    return {name: getattr(told, name) for name, _ in told._fields_ if name != but}


class Monitor(Handle):
    """A monitor of a bus. It says what `ringplay monitor` prints.

    With parameters of the bus it judges, and raises alarms of the classes; without them it decodes and counts alone. It says a
    line for each burst and a summary at the end, or a summary alone, and a summary each `every` bit times. `baud` gives packets
    moments; `slack` is how wrong the difference of two moments may be, in bit times.

    A monitor stays on the thread that made it: other threads get `RuntimeError`. After `close`, calls raise `NoMonitor`.

    >>> with Monitor(Params(tsl=100, tid1=37, tid2=60, tsdr=11, lag=0, ttr=10_000, gap=10, hsa=5, retries=1)) as monitor:
    ...     print(monitor.feed(b"800 833 dc0101\\n870 903 dc0"), end="")
    ...     print(monitor.feed(b"101\\n"), end="")
    800 833 token da=1 sa=1 | token to itself | holder 1
    870 903 token da=1 sa=1 | token to itself | holder 1
    """

    _free = "fdl_monitor_free"

    def __init__(
        self,
        params: Optional[Params] = None,
        *,
        form: Form = Form.LINES,
        classes: Iterable[AlarmClass] = ALL_CLASSES,
        every: Optional[int] = None,
        summary: Optional[Summary] = None,
        baud: Optional[int] = None,
        slack: int = 0,
    ) -> None:
        """A monitor that has heard nothing. Raises `BadForm`, `NoMemory`."""
        super().__init__()
        raised = frozenset(AlarmClass(kind) for kind in classes)
        options = MonitorOptionsStruct(
            octet("form", form),
            octet("summary", summary or 0),
            params is not None,
            *(kind in raised for kind in AlarmClass),
            moment("every", every or 0),
            word("baud", baud or 0),
            word("slack", slack),
        )
        given = ParamsStruct() if params is None else params._struct()
        self._call("fdl_monitor_new", byref(options), byref(given))

    def feed(self, octets: bytes) -> str:
        """The next octets of the capture, cut anywhere. Returns the lines for what they complete.

        Raises `Finished` after the end of the capture; `NoMemory`, which ends it.
        """
        octets = octets_of("octets", octets)
        self._call("fdl_monitor_feed", octets, len(octets))
        return self._said()

    def finish(self) -> str:
        """The capture ends. Returns the lines for what is left of it, and the summary. Raises `Finished`, `NoMemory`."""
        self._call("fdl_monitor_finish")
        return self._said()

    def _said(self) -> str:
        out, count, said = (c_uint8 * ROOM)(), c_size_t(1), bytearray()
        while count.value:
            self._call("fdl_monitor_next", out, ROOM, byref(count))
            said += memoryview(out)[: count.value]
        return said.decode()

    @property
    def is_refused(self) -> bool:
        """Whether input was refused or an alarm raised."""
        return bool(self._number("fdl_monitor_is_refused", c_bool))

    @property
    def traffic(self) -> Traffic:
        """What is counted for the bus."""
        return Traffic._of(self._ask("fdl_monitor_traffic", TrafficStruct))

    def station(self, address: int) -> StationCounts:
        """What is counted for the station with an address, 0 to 126. Raises `BadStation`."""
        return StationCounts._of(self._ask("fdl_monitor_station", StationCountsStruct, octet("address", address)))

    def __repr__(self) -> str:
        return f"<Monitor, {'closed' if self.closed else f'{self.traffic.bursts} bursts'}>"
