"""The trace of a bus, and what an audit says of it."""

from __future__ import annotations

import enum
from dataclasses import dataclass
from typing import TYPE_CHECKING, Any, Dict, Iterator, List, Optional, Sequence, Tuple, Union, overload

from ._library import AuditStruct, EntryStruct
from .faults import NoEntry
from .telegrams import Kind, Telegram

if TYPE_CHECKING:
    from .buses import Bus

NOISE = "~"
# Bit 6 of the control octet: a request. Bits 0 to 6 of an address octet: the address.
REQUEST_BIT = 0x40
ADDRESS_BITS = 0x7F


class Heard(enum.IntEnum):
    """How a telegram reached a tap. `letter` is how a trace's text says it."""

    OWN = 0
    """the tap sent it: -"""
    WHOLE = 1
    """heard whole: w"""
    DAMAGED = 2
    """heard damaged or overlapped, or the station did not run throughout: d"""
    UNHEARD = 3
    """not heard: u"""
    PENDING = 4
    """not ended: ."""

    @property
    def letter(self) -> str:
        """The letter of a trace's text."""
        return "-wdu."[self]


@dataclass(frozen=True)
class Entry:
    """An entry of the trace: a telegram, or noise. Moments are in bit times since the bus began."""

    begin: int
    end: int
    """The first moment after it."""
    tap: Optional[int] = None
    """The index of the tap that sent it; None for noise."""
    octets: bytes = b""
    """The octets, as they were meant before a stop cut them; none for noise."""
    heard: Tuple[Heard, ...] = ()
    """How it reached each tap; empty for noise."""

    @property
    def is_noise(self) -> bool:
        """Whether it is noise."""
        return self.tap is None

    @property
    def telegram(self) -> Optional[Telegram]:
        """The telegram; None for noise."""
        return None if self.is_noise else Telegram.parse(self.octets)

    @property
    def letters(self) -> str:
        """A letter for each tap: - its own, w whole, d damaged, u unheard, . pending."""
        return "".join(it.letter for it in self.heard)

    def text(self, names: Sequence[str]) -> str:
        """Its line in the trace that `ringplay run` prints, with the names of the taps."""
        if self.tap is None:
            return f"{self.begin} {self.end} {NOISE} noise"
        return f"{self.begin} {self.end} {names[self.tap]} {self.octets.hex()} {self.letters}"

    @property
    def kind(self) -> str:
        """`token`, `request`, `reply`, `acknowledgement` or `noise`, the words of `ringplay export --to json`."""
        telegram = self.telegram
        if telegram is None:
            return "noise"
        if telegram.kind in (Kind.SD4, Kind.SC):
            return "token" if telegram.kind == Kind.SD4 else "acknowledgement"
        return "request" if telegram.fc & REQUEST_BIT else "reply"

    def row(self) -> Dict[str, Any]:
        """The same as plain values, a dictionary with these keys:

        `begin`, `end` (bit times), `tap` (index; None for noise), `octets` (hex), `kind`, `da`, `sa` (addresses, 0 to 127; None
        for noise and acknowledgements), `heard` (a letter for each tap, as `letters`).
        """
        telegram = self.telegram
        da = sa = None
        if telegram is not None and telegram.kind != Kind.SC:
            da, sa = telegram.da & ADDRESS_BITS, telegram.sa & ADDRESS_BITS
        return {
            "begin": self.begin,
            "end": self.end,
            "tap": self.tap,
            "octets": self.octets.hex(),
            "kind": self.kind,
            "da": da,
            "sa": sa,
            "heard": self.letters,
        }

    @classmethod
    def _of(cls, found: EntryStruct, taps: int) -> Entry:
        if found.noise:
            return cls(found.begin, found.end)
        heard = tuple(map(Heard, found.heard[:taps]))
        return cls(found.begin, found.end, found.tap, bytes(found.octets[: found.count]), heard)


class Trace(Sequence[Entry]):
    """What has been on a bus so far and was not let go, by begin, noise first, then by tap: a sequence of `Entry`.

    It reads the bus each time, so it grows with it, and an entry's `heard` changes while the telegram is on the bus;
    `list(bus.trace)` keeps it. With pandas: `pandas.DataFrame(bus.trace.rows())`.
    """

    def __init__(self, bus: Bus) -> None:
        self._bus = bus

    def __len__(self) -> int:
        return self._bus._entries()

    @overload
    def __getitem__(self, index: int) -> Entry: ...

    @overload
    def __getitem__(self, index: slice) -> List[Entry]: ...

    def __getitem__(self, index: Union[int, slice]) -> Union[Entry, List[Entry]]:
        """An entry, or a list of entries. Raises `IndexError`."""
        if isinstance(index, slice):
            return [self._bus._entry(it) for it in range(*index.indices(len(self)))]
        return self._bus._entry(range(len(self))[index])

    def __iter__(self) -> Iterator[Entry]:
        index = 0
        while True:
            try:
                yield self._bus._entry(index)
            except NoEntry:
                return
            index += 1

    def __eq__(self, other: object) -> bool:
        """Whether a trace or list has equal entries."""
        if not isinstance(other, (Trace, list, tuple)):
            return NotImplemented
        return list(self) == list(other)

    __hash__ = None  # type: ignore[assignment]

    def rows(self) -> List[Dict[str, Any]]:
        """Each entry as a dictionary of plain values (`Entry.row`)."""
        return [entry.row() for entry in self]

    def text(self, names: Optional[Sequence[str]] = None) -> str:
        """The text that `ringplay run` prints, a line an entry. The names are the taps', their indices where None are given.

        Raises `ValueError` where there isn't one for each tap.
        """
        taps = len(self._bus.taps)
        shown = [str(index) for index in range(taps)] if names is None else list(names)
        if len(shown) != taps:
            raise ValueError(f"names has {len(shown)}; wanted: one for each of the {taps} taps")
        return "".join(entry.text(shown) + "\n" for entry in self)

    def __repr__(self) -> str:
        return f"<Trace of {len(self)} entries>"


@dataclass(frozen=True)
class Audit:
    """What an audit says: the first premise that broke, and the first illegal entry."""

    premise: Optional[int] = None
    """The number of the first premise that broke, 1 to 4; None where all were kept."""
    moment: Optional[int] = None
    """The clock after the event that broke it, in bit times."""
    illegal: Optional[int] = None
    """The index of the first entry whose token or request is illegal; None where all are legal."""

    @property
    def is_clean(self) -> bool:
        """Whether all premises were kept and all tokens and requests are legal."""
        return self.premise is None and self.illegal is None

    def __str__(self) -> str:
        """The two lines that `ringplay audit` prints."""
        premise = "premises kept" if self.premise is None else f"premise P{self.premise} broken at {self.moment}"
        return f"{premise}\n" + ("trace legal" if self.illegal is None else f"record {self.illegal} illegal")

    @classmethod
    def _of(cls, found: AuditStruct) -> Audit:
        premise, at = (found.premise, found.moment) if found.premise else (None, None)
        return cls(premise, at, found.entry if found.illegal else None)
