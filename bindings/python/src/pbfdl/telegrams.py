"""Telegrams, and a receiver that reads them character by character."""

from __future__ import annotations

import ctypes
import enum
from dataclasses import dataclass
from typing import Any, Mapping, Optional, Tuple

from ._library import TELEGRAM_MAX, ReceiverStruct, TelegramStruct, library, number, octet, octets_of, said
from .faults import BadAddress, BadControl, BadKind, Fault, Truncated

DAMAGED = 256
"""A character that came damaged; an octet that came good is 0 to 255."""


class Kind(enum.IntEnum):
    """The kinds of telegrams."""

    SD1 = 1
    """without data"""
    SD2 = 2
    """with data of variable length, 1 to 246 octets"""
    SD3 = 3
    """with 8 octets of data"""
    SD4 = 4
    """token"""
    SC = 5
    """short acknowledgement"""


@dataclass(frozen=True)
class Telegram:
    """A telegram. Fields that its kind does not have are 0, and not read.

    `da` and `sa` are the address octets as they are sent: bit 7 says that the data begin with an address extension.

    >>> bytes(Telegram.token(da=2, sa=1)).hex()
    'dc0201'
    >>> Telegram.parse(bytes.fromhex("100201494c16"))
    Telegram(kind=<Kind.SD1: 1>, da=2, sa=1, fc=73, unit=b'')
    """

    kind: Kind
    da: int = 0
    """Destination address, 0 to 255."""
    sa: int = 0
    """Source address, 0 to 255."""
    fc: int = 0
    """Control octet, 0 to 127."""
    unit: bytes = b""
    """The data, at most 246 octets."""

    @classmethod
    def parse(cls, octets: bytes) -> Telegram:
        """The telegram that octets spell, as one burst brought them.

        Raises the first fault of the octets, `Empty` or `BadStart` to `Trailing` (all are `TelegramFault`).
        """
        found = TelegramStruct()
        octets = octets_of("octets", octets)
        library.fdl_parse(octets, len(octets), ctypes.byref(found))
        return cls._of(found)

    @classmethod
    def token(cls, da: int, sa: int) -> Telegram:
        """A token from station sa to station da, each 0 to 126."""
        return cls(Kind.SD4, da, sa)

    @classmethod
    def short_ack(cls) -> Telegram:
        """The short acknowledgement."""
        return cls(Kind.SC)

    @classmethod
    def with_data(cls, da: int, sa: int, fc: int, unit: bytes) -> Telegram:
        """A telegram with 0 to 246 octets of data: 0 give `SD1`, 8 `SD3`, others `SD2`."""
        unit = octets_of("unit", unit)
        return cls({0: Kind.SD1, 8: Kind.SD3}.get(len(unit), Kind.SD2), da, sa, fc, unit)

    def __bytes__(self) -> bytes:
        """Its octets, at most 255; `parse` reads the telegram from them.

        Raises `BadKind` for no kind or over 246 octets of data, else the first fault of its octets, as `BadAddress`,
        `BadControl`, or `BadLength` for `SD2` without data.
        """
        given, out, count = self._struct(), (ctypes.c_uint8 * TELEGRAM_MAX)(), ctypes.c_size_t()
        try:
            library.fdl_write(ctypes.byref(given), out, TELEGRAM_MAX, ctypes.byref(count))
        except Fault as fault:
            raise said(fault, self._texts) from None
        return bytes(out[: count.value])

    def _texts(self) -> Mapping[Any, str]:
        return {
            BadAddress: f"da is {self.da}, sa is {self.sa}; allowed: 0 to 126 in a token, else no sa of 127 or 255",
            BadControl: f"fc is {self.fc}; allowed: 0 to 127",
        }

    def _struct(self) -> TelegramStruct:
        given = TelegramStruct(octet("kind", self.kind), octet("da", self.da), octet("sa", self.sa), octet("fc", self.fc))
        if len(self.unit) > len(given.unit):
            raise BadKind
        given.count = len(self.unit)
        given.unit[: len(self.unit)] = self.unit
        return given

    @classmethod
    def _of(cls, found: TelegramStruct) -> Telegram:
        return cls(Kind(found.kind), found.da, found.sa, found.fc, bytes(found.unit[: found.count]))


class Receiver:
    """The characters of one burst, as they come off a line.

    >>> receiver = Receiver()
    >>> [receiver.receive(it) for it in (0xDC, 2)]
    [None, None]
    >>> receiver.receive(1)
    Telegram(kind=<Kind.SD4: 4>, da=2, sa=1, fc=0, unit=b'')
    """

    def __init__(self) -> None:
        self._struct = ReceiverStruct()

    def receive(self, character: int) -> Optional[Telegram]:
        """Takes the next character: an octet that came good, or `DAMAGED`.

        Returns the telegram that the characters spell now, or None in the middle of one without a fault. A burst that spells a
        telegram has ended: make a new receiver for the next. Raises `TooLong` where there are 255 characters already, which
        stay; and, with the character taken, the first fault of the characters, `Damaged` to `Trailing` without `Truncated`.
        """
        try:
            library.fdl_receive(ctypes.byref(self._struct), number("character", character, 2**16 - 1))
        except Truncated:
            return None
        return self.telegram()

    def telegram(self) -> Telegram:
        """The telegram that the characters spell. Raises their first fault, `Empty` to `Trailing`."""
        found = TelegramStruct()
        library.fdl_received(ctypes.byref(self._struct), ctypes.byref(found))
        return Telegram._of(found)

    @property
    def characters(self) -> Tuple[int, ...]:
        """The characters so far, at most 255: octets, and numbers over 255 for damaged ones."""
        return tuple(self._struct.characters[: self._struct.count])

    def __len__(self) -> int:
        return int(self._struct.count)

    def __eq__(self, other: object) -> bool:
        if not isinstance(other, Receiver):
            return NotImplemented
        return self.characters == other.characters

    __hash__ = None  # type: ignore[assignment]

    def __repr__(self) -> str:
        text = " ".join(f"{it:02x}" if it < DAMAGED else "--" for it in self.characters)
        return f"<Receiver [{text}]>"
