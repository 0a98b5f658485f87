"""Why a call is refused: an exception for each code of `include/pbfdl.h`, all under `Fault`.

A refused call changes nothing, except where its description says so.
"""

from __future__ import annotations

from typing import ClassVar, Dict, Iterator, Type

__all__ = [
    "Fault",
    "TelegramFault",
    "Empty",
    "Damaged",
    "BadStart",
    "Truncated",
    "BadLength",
    "LengthsDiffer",
    "BadSecondStart",
    "BadAddress",
    "BadControl",
    "BadCheck",
    "BadEnd",
    "Trailing",
    "ParamFault",
    "ParamSlot",
    "ParamIdleShort",
    "ParamIdleOrder",
    "ParamReplyShort",
    "ParamRotation",
    "ParamGapFactor",
    "ParamHighest",
    "ParamRetries",
    "ParamTakeLate",
    "ParamReplyLate",
    "TooLate",
    "Backwards",
    "Ahead",
    "TooLong",
    "InboxFull",
    "QueueFull",
    "NoPort",
    "PortInUse",
    "NoMemory",
    "BadStation",
    "BadService",
    "LongData",
    "BadKind",
    "NoRoom",
    "NoIndication",
    "BadRoom",
    "NoTaps",
    "TooManyTaps",
    "NoBus",
    "BusInUse",
    "NoEntry",
    "NoSuchTap",
    "Running",
    "NotRunning",
    "NothingInAir",
    "ZeroTime",
    "TooFar",
    "ClockFull",
    "TraceFull",
    "NoMonitor",
    "MonitorInUse",
    "BadForm",
    "Finished",
]


class Fault(Exception):
    """A call is refused. `code` is the number of the reason, `name` its name."""

    code: ClassVar[int] = 0

    def __init__(self, text: str = "") -> None:
        super().__init__(text or (self.__doc__ or "").strip().rstrip("."))

    @property
    def name(self) -> str:
        """The name of the fault, as that of its class."""
        return type(self).__name__


class TelegramFault(Fault):
    """Octets spell no telegram."""


class Empty(TelegramFault):
    """There is no octet."""

    code = 1


class Damaged(TelegramFault):
    """A character is damaged."""

    code = 2


class BadStart(TelegramFault):
    """The first octet starts no telegram."""

    code = 3


class Truncated(TelegramFault):
    """There are fewer octets than the telegram has."""

    code = 4


class BadLength(TelegramFault):
    """The length octet is not 4 to 249."""

    code = 5


class LengthsDiffer(TelegramFault):
    """The length octet and its repetition differ."""

    code = 6


class BadSecondStart(TelegramFault):
    """The start delimiter is not repeated."""

    code = 7


class BadAddress(TelegramFault):
    """A token's address is over 126, or another telegram's source address is 127."""

    code = 8


class BadControl(TelegramFault):
    """Bit 7 of the control octet is set."""

    code = 9


class BadCheck(TelegramFault):
    """The check octet is not the sum."""

    code = 10


class BadEnd(TelegramFault):
    """The end delimiter is missing."""

    code = 11


class Trailing(TelegramFault):
    """Octets follow the end."""

    code = 12


class ParamFault(Fault):
    """Bus parameters are refused."""


class ParamSlot(ParamFault):
    """tsl is not 100 to 16383."""

    code = 21


class ParamIdleShort(ParamFault):
    """tid1 is under 33."""

    code = 22


class ParamIdleOrder(ParamFault):
    """tid2 is under tid1."""

    code = 23


class ParamReplyShort(ParamFault):
    """tsdr is under 11."""

    code = 24


class ParamRotation(ParamFault):
    """ttr is not 256 to 16777215."""

    code = 25


class ParamGapFactor(ParamFault):
    """gap is not 1 to 100."""

    code = 26


class ParamHighest(ParamFault):
    """hsa is not 2 to 126."""

    code = 27


class ParamRetries(ParamFault):
    """retries is over 7."""

    code = 28


class ParamTakeLate(ParamFault):
    """tid2 + lag + 2 * ttd is not under tsl."""

    code = 29


class ParamReplyLate(ParamFault):
    """tsdr + lag + 2 * ttd is not under tsl."""

    code = 30


class TooLate(Fault):
    """The moment of the call is past 2**61."""

    code = 41


class Backwards(Fault):
    """The moment is before one that was named earlier."""

    code = 42


class Ahead(Fault):
    """The moment of a begin or an end is after that of the call."""

    code = 43


class TooLong(Fault):
    """There are more than 255 characters."""

    code = 44


class InboxFull(Fault):
    """As many marks are unread as the station has room for."""

    code = 45


class QueueFull(Fault):
    """16 requests of the priority wait."""

    code = 46


class NoPort(Fault):
    """The station is closed."""

    code = 61


class PortInUse(Fault):
    """The port is not empty."""

    code = 62


class NoMemory(Fault, MemoryError):
    """Memory was refused."""

    code = 63


class BadStation(Fault):
    """An address is out of its range."""

    code = 64


class BadService(Fault):
    """There is no such service."""

    code = 65


class LongData(Fault):
    """There are more than 246 octets of data."""

    code = 66


class BadKind(Fault):
    """There is no such kind of telegram."""

    code = 67


class NoRoom(Fault):
    """The array is too short."""

    code = 68


class NoIndication(Fault):
    """The last turn executed no such request."""

    code = 69


class BadRoom(Fault):
    """The room of a station is not 2 to 64 marks."""

    code = 70


class NoTaps(Fault):
    """There is no tap."""

    code = 71


class TooManyTaps(Fault):
    """There are more than 127 taps."""

    code = 72


class NoBus(Fault):
    """The bus is closed."""

    code = 73


class BusInUse(Fault):
    """The bus is not empty."""

    code = 74


class NoEntry(Fault):
    """The trace has no such entry."""

    code = 75


class NoSuchTap(Fault):
    """There is no tap with this index."""

    code = 81


class Running(Fault):
    """The tap runs, or a telegram of its own is still on the bus."""

    code = 82


class NotRunning(Fault):
    """The tap does not run, or the station for a request is passive."""

    code = 83


class NothingInAir(Fault):
    """Nothing is on the bus now that can be damaged or lost so."""

    code = 84


class ZeroTime(Fault):
    """The time is 0 bit times."""

    code = 85


class TooFar(Fault):
    """The clock would be past the next end on the bus."""

    code = 86


class ClockFull(Fault):
    """The clock would be over 10**12."""

    code = 87


class TraceFull(Fault):
    """The trace has as many entries as the bus was made for, and holds no more."""

    code = 90


class NoMonitor(Fault):
    """The monitor is closed."""

    code = 91


class MonitorInUse(Fault):
    """The monitor is not empty."""

    code = 92


class BadForm(Fault):
    """There is no such form of a capture or of a summary."""

    code = 93


class Finished(Fault):
    """The capture has ended, or memory was refused in the middle of it."""

    code = 94


def _faults_under(kind: Type[Fault]) -> Iterator[Type[Fault]]:
    for fault in kind.__subclasses__():
        yield from _faults_under(fault)
        if fault.code:
            yield fault


BY_CODE: Dict[int, Type[Fault]] = {fault.code: fault for fault in _faults_under(Fault)}
"""Each fault by its code."""


def fault_of(code: int) -> Fault:
    """The fault with a code of the library."""
    return BY_CODE[code]() if code in BY_CODE else Fault(f"unknown code {code}")
