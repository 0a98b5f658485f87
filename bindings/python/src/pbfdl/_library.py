"""The shared object: its structs and functions, as `include/pbfdl.h` declares them.

It is `libpbfdl.so` in this folder, or the file that the environment variable PBFDL_LIBRARY names.
"""

from __future__ import annotations

import ctypes
import operator
import os
import pathlib
import threading
from ctypes import POINTER, c_bool, c_char_p, c_size_t, c_uint8, c_uint16, c_uint32, c_uint64, c_void_p
from typing import Any, Callable, Iterable, Mapping, Optional, Type, TypeVar

from .faults import Fault, fault_of

MOST_DATA = 246
TELEGRAM_MAX = 255
MOST_TAPS = 127
NEVER = 2**64 - 1

Self = TypeVar("Self", bound="Handle")

Texts = Callable[[], Mapping[Any, str]]
"""What a call's faults say, by their classes: what was found, what is allowed, what to do. It is called where one is raised."""


class ParamsStruct(ctypes.Structure):
    _fields_ = [(name, c_uint32) for name in "tsl tid1 tid2 tsdr lag ttr gap hsa retries ttd".split()]


class TelegramStruct(ctypes.Structure):
    _fields_ = [*((name, c_uint8) for name in "kind da sa fc count".split()), ("unit", c_uint8 * MOST_DATA)]


class ReceiverStruct(ctypes.Structure):
    _fields_ = [("count", c_uint16), ("characters", c_uint16 * TELEGRAM_MAX)]


class OutcomeStruct(ctypes.Structure):
    _fields_ = [("kind", c_uint8), ("station", c_uint8), ("count", c_uint8), ("data", c_uint8 * MOST_DATA)]


class IndicationStruct(ctypes.Structure):
    _fields_ = [("source", c_uint8), ("service", c_uint8), ("high", c_bool), ("count", c_uint8), ("data", c_uint8 * MOST_DATA)]


class TapStruct(ctypes.Structure):
    _fields_ = [("address", c_uint8), ("master", c_bool), ("count", c_uint8), ("reply", c_uint8 * MOST_DATA)]


class EntryStruct(ctypes.Structure):
    _fields_ = [
        ("begin", c_uint64),
        ("end", c_uint64),
        ("noise", c_bool),
        ("tap", c_uint8),
        ("count", c_uint8),
        ("octets", c_uint8 * TELEGRAM_MAX),
        ("heard", c_uint8 * MOST_TAPS),
    ]


class AuditStruct(ctypes.Structure):
    _fields_ = [("premise", c_uint8), ("moment", c_uint64), ("illegal", c_bool), ("entry", c_uint64)]


class MonitorOptionsStruct(ctypes.Structure):
    _fields_ = [
        *((name, c_uint8) for name in "form summary".split()),
        *((name, c_bool) for name in "judges legality loss timing".split()),
        ("every", c_uint64),
        ("baud", c_uint32),
        ("slack", c_uint32),
    ]


class TrafficStruct(ctypes.Structure):
    _fields_ = [
        *((name, c_bool) for name in "timed complete".split()),
        *((name, c_uint64) for name in "first last busy bursts after_loss taking replying other".split()),
        *((name, c_uint64) for name in "longest_silence alarms refused".split()),
    ]


class SpreadStruct(ctypes.Structure):
    _fields_ = [(name, c_uint64) for name in "count total least greatest".split()]


class StationCountsStruct(ctypes.Structure):
    _fields_ = [
        ("role", c_uint8),
        *((name, c_bool) for name in "active timed".split()),
        *((name, c_uint64) for name in "last_heard telegrams tokens claims requests polls repeats".split()),
        *((name, c_uint64) for name in "unanswered damaged_answers polled tokens_not_taken".split()),
        *((name, SpreadStruct) for name in "rotation taking replying".split()),
    ]


class HandleStruct(ctypes.Structure):
    """A port, a bus or a monitor. It is empty where `at` is null."""

    _fields_ = [("at", c_void_p)]


_HANDLE = POINTER(HandleStruct)
_PARAMS = POINTER(ParamsStruct)
_COUNT = POINTER(c_size_t)
_DATA = [c_char_p, c_size_t]
_REQUEST = [c_uint8, c_uint8, c_bool, *_DATA]

# The parameters of each function that answers a code.
_FUNCTIONS = {
    "fdl_params_fault": [_PARAMS],
    "fdl_parse": [c_char_p, c_size_t, POINTER(TelegramStruct)],
    "fdl_write": [POINTER(TelegramStruct), POINTER(c_uint8), c_size_t, _COUNT],
    "fdl_receive": [POINTER(ReceiverStruct), c_uint16],
    "fdl_received": [POINTER(ReceiverStruct), POINTER(TelegramStruct)],
    "fdl_port_new": [_HANDLE, _PARAMS, c_uint8, c_bool, *_DATA],
    "fdl_port_new_with_room": [_HANDLE, c_size_t, _PARAMS, c_uint8, c_bool, *_DATA],
    "fdl_port_start": [_HANDLE, c_uint64],
    "fdl_port_stop": [_HANDLE],
    "fdl_port_push": [_HANDLE, *_REQUEST],
    "fdl_port_begin": [_HANDLE, c_uint64, c_uint64],
    "fdl_port_end": [_HANDLE, c_uint64, c_uint64, POINTER(c_uint16), c_size_t],
    "fdl_port_end_good": [_HANDLE, c_uint64, c_uint64, *_DATA],
    "fdl_port_noise": [_HANDLE, c_uint64, c_uint64],
    "fdl_port_due": [_HANDLE, POINTER(c_uint64)],
    "fdl_port_turn": [_HANDLE, c_uint64, POINTER(c_uint8), c_size_t, _COUNT],
    "fdl_port_set_reply": [_HANDLE, *_DATA],
    "fdl_port_indications": [_HANDLE, _COUNT],
    "fdl_port_indication": [_HANDLE, c_size_t, POINTER(IndicationStruct)],
    "fdl_port_phase": [_HANDLE, POINTER(c_uint32)],
    "fdl_port_is_active": [_HANDLE, c_uint8, POINTER(c_bool)],
    "fdl_port_executed": [_HANDLE, POINTER(c_uint64)],
    "fdl_port_outcome": [_HANDLE, POINTER(OutcomeStruct)],
    "fdl_bus_new": [_HANDLE, _PARAMS, POINTER(TapStruct), c_size_t],
    "fdl_bus_new_within": [_HANDLE, _PARAMS, POINTER(TapStruct), c_size_t, c_size_t],
    "fdl_bus_start": [_HANDLE, c_size_t],
    "fdl_bus_stop": [_HANDLE, c_size_t],
    "fdl_bus_turn": [_HANDLE, c_size_t],
    "fdl_bus_pass": [_HANDLE, c_uint64],
    "fdl_bus_noise": [_HANDLE, c_uint64],
    "fdl_bus_damage": [_HANDLE, c_size_t, c_size_t, c_uint32],
    "fdl_bus_unheard": [_HANDLE, c_size_t, c_size_t],
    "fdl_bus_queue": [_HANDLE, c_size_t, *_REQUEST],
    "fdl_bus_set_reply": [_HANDLE, c_size_t, *_DATA],
    "fdl_bus_run": [_HANDLE, c_uint64],
    "fdl_bus_now": [_HANDLE, POINTER(c_uint64)],
    "fdl_bus_due": [_HANDLE, c_size_t, POINTER(c_uint64)],
    "fdl_bus_next_change": [_HANDLE, POINTER(c_uint64)],
    "fdl_bus_is_settled": [_HANDLE, POINTER(c_bool)],
    "fdl_bus_keep_indications": [_HANDLE, c_size_t, c_size_t],
    "fdl_bus_indications": [_HANDLE, c_size_t, _COUNT],
    "fdl_bus_indication": [_HANDLE, c_size_t, c_size_t, POINTER(IndicationStruct)],
    "fdl_bus_forget_indications": [_HANDLE, c_size_t],
    "fdl_bus_phase": [_HANDLE, c_size_t, POINTER(c_uint32)],
    "fdl_bus_is_active": [_HANDLE, c_size_t, c_uint8, POINTER(c_bool)],
    "fdl_bus_executed": [_HANDLE, c_size_t, POINTER(c_uint64)],
    "fdl_bus_outcome": [_HANDLE, c_size_t, POINTER(OutcomeStruct)],
    "fdl_bus_entries": [_HANDLE, _COUNT],
    "fdl_bus_entry": [_HANDLE, c_size_t, POINTER(EntryStruct)],
    "fdl_bus_over": [_HANDLE, _COUNT],
    "fdl_bus_let_go": [_HANDLE, _COUNT],
    "fdl_bus_audit": [_HANDLE, POINTER(AuditStruct)],
    "fdl_monitor_new": [_HANDLE, POINTER(MonitorOptionsStruct), _PARAMS],
    "fdl_monitor_feed": [_HANDLE, *_DATA],
    "fdl_monitor_finish": [_HANDLE],
    "fdl_monitor_next": [_HANDLE, POINTER(c_uint8), c_size_t, _COUNT],
    "fdl_monitor_is_refused": [_HANDLE, POINTER(c_bool)],
    "fdl_monitor_traffic": [_HANDLE, POINTER(TrafficStruct)],
    "fdl_monitor_station": [_HANDLE, c_uint8, POINTER(StationCountsStruct)],
}


def _raise_fault(code: int, function: Any, arguments: Any) -> None:
    if code:
        raise fault_of(code)


def _loaded() -> ctypes.CDLL:
    path = os.environ.get("PBFDL_LIBRARY") or pathlib.Path(__file__).with_name("libpbfdl.so")
    found = ctypes.CDLL(str(path))
    for name, types in _FUNCTIONS.items():
        function = getattr(found, name)
        function.argtypes, function.restype, function.errcheck = types, c_uint32, _raise_fault
    for name in ("fdl_port_free", "fdl_bus_free", "fdl_monitor_free"):
        function = getattr(found, name)
        function.argtypes, function.restype = [_HANDLE], None
    return found


library = _loaded()


def whole(name: str, value: Any, wanted: str = "a whole number") -> int:
    """A whole number. Raises `TypeError` for anything else."""
    try:
        return operator.index(value)
    except TypeError:
        raise TypeError(f"{name} is {value!r}; wanted: {wanted}") from None


def number(name: str, value: int, most: int, allowed: str = "") -> int:
    """A whole number that a parameter in C can hold. Raises `ValueError` for another, with what is allowed of those."""
    value = whole(name, value)
    if not 0 <= value <= most:
        raise ValueError(f"{name} is {value}; allowed: {allowed or f'0 to {most}'}")
    return value


def octet(name: str, value: int, allowed: str = "") -> int:
    """A whole number, 0 to 255. Raises `ValueError` for another."""
    return number(name, value, 255, allowed)


def word(name: str, value: int) -> int:
    """A whole number, 0 to 2**32 - 1. Raises `ValueError` for another."""
    return number(name, value, 2**32 - 1)


def moment(name: str, value: int) -> int:
    """A whole number, 0 to 2**64 - 1. Raises `ValueError` for another."""
    return number(name, value, 2**64 - 1)


def octets_of(name: str, value: Iterable[int]) -> bytes:
    """Octets as bytes. Raises `TypeError` for a text, or for a number, of which `bytes` would make so many zeros."""
    try:
        if isinstance(value, int):
            raise TypeError
        return bytes(value)
    except TypeError:
        raise TypeError(f"{name} is {value!r}; wanted: octets, as b'\\x01\\x02'") from None
    except ValueError:
        raise ValueError(f"{name} is {value!r}; allowed: octets, each 0 to 255") from None


def long_data(name: str, data: bytes) -> str:
    """What `LongData` says."""
    return f"{name} has {len(data)} octets; allowed: 0 to {MOST_DATA}"


def moment_or_none(value: int) -> Optional[int]:
    """A moment of the library: None stands for one that never comes."""
    return None if value == NEVER else value


def said(fault: Fault, texts: Optional[Texts]) -> Fault:
    """The fault with its text, if there is one."""
    text = texts().get(type(fault)) if texts else None
    return type(fault)(text) if text else fault


class Handle:
    """A station, a bus or a monitor of the library. It stays on the thread that made it."""

    _free: str

    def __init__(self) -> None:
        self._struct = HandleStruct()
        self._reference = ctypes.byref(self._struct)
        self._thread = threading.get_ident()

    def _call(self, name: str, *words: Any, texts: Optional[Texts] = None) -> None:
        """Calls a function of the library on the handle; raises the fault of its code, with its text where there is one."""
        if threading.get_ident() != self._thread:
            raise RuntimeError(f"a {type(self).__name__} stays on the thread that made it")
        try:
            getattr(library, name)(self._reference, *words)
        except Fault as fault:
            raise said(fault, texts) from None

    def _ask(self, name: str, kind: Type[Any], *words: Any, texts: Optional[Texts] = None) -> Any:
        """What a function writes through its last parameter."""
        answer = kind()
        self._call(name, *words, ctypes.byref(answer), texts=texts)
        return answer

    def _number(self, name: str, kind: Type[Any], *words: Any, texts: Optional[Texts] = None) -> int:
        """The same of a function that writes a number."""
        return int(self._ask(name, kind, *words, texts=texts).value)

    def close(self) -> None:
        """Frees the memory. Each later call raises `NoPort`, `NoBus` or `NoMonitor`; closing again does nothing."""
        getattr(library, self._free)(self._reference)

    @property
    def closed(self) -> bool:
        """Whether it is closed."""
        return not self._struct.at

    def __enter__(self: Self) -> Self:
        return self

    def __exit__(self, *_: object) -> None:
        self.close()

    def __del__(self) -> None:
        if hasattr(self, "_reference") and library is not None:
            self.close()
