"""Bus parameters."""

from __future__ import annotations

import ctypes
from dataclasses import astuple, dataclass
from typing import Any, Mapping

from . import faults
from ._library import ParamsStruct, library, said, word
from .faults import Fault


@dataclass(frozen=True)
class Params:
    """What all stations of a bus share (IEC 61158-4-3, timing parameters). Times are whole bit times.

    tsl      slot time, 100 to 16383: how long a station waits for a reply
    tid1     idle time before the next telegram, 33 and more
    tid2     the same after a request that nobody answers, tid1 and more
    tsdr     how long a station takes to reply, 11 and more
    lag      how late a station may take its turn (a bound on the latency of software; 0 for a bus that runs by itself)
    ttr      target rotation time of the token, 256 to 16777215
    gap      GAP factor, 1 to 100: target rotation times from one search for new masters to the next
    hsa      highest address that a master may have, 2 to 126
    retries  how often a request is sent again, 0 to 7
    ttd      cable delay: how much later the others hear a telegram

    Raises the first fault that applies: `ParamSlot`, `ParamIdleShort`, `ParamIdleOrder`, `ParamReplyShort`, `ParamRotation`,
    `ParamGapFactor`, `ParamHighest`, `ParamRetries`, `ParamTakeLate` (tid2 + lag + 2 * ttd has to be under tsl),
    `ParamReplyLate` (so has tsdr + lag + 2 * ttd).

    >>> Params(tsl=100, tid1=37, tid2=60, tsdr=11, lag=0, ttr=10_000, gap=10, hsa=5, retries=1).ttd
    0
    """

    tsl: int
    tid1: int
    tid2: int
    tsdr: int
    lag: int
    ttr: int
    gap: int
    hsa: int
    retries: int
    ttd: int = 0

    def __post_init__(self) -> None:
        given = self._struct()
        try:
            library.fdl_params_fault(ctypes.byref(given))
        except Fault as fault:
            raise said(fault, self._texts) from None

    def _texts(self) -> Mapping[Any, str]:
        return {
            faults.ParamSlot: f"tsl is {self.tsl}; allowed: 100 to 16383",
            faults.ParamIdleShort: f"tid1 is {self.tid1}; allowed: 33 and more",
            faults.ParamIdleOrder: f"tid2 is {self.tid2}; allowed: tid1 ({self.tid1}) and more",
            faults.ParamReplyShort: f"tsdr is {self.tsdr}; allowed: 11 and more",
            faults.ParamRotation: f"ttr is {self.ttr}; allowed: 256 to 16777215",
            faults.ParamGapFactor: f"gap is {self.gap}; allowed: 1 to 100",
            faults.ParamHighest: f"hsa is {self.hsa}; allowed: 2 to 126",
            faults.ParamRetries: f"retries is {self.retries}; allowed: 0 to 7",
            faults.ParamTakeLate: self._late("tid2", self.tid2),
            faults.ParamReplyLate: self._late("tsdr", self.tsdr),
        }

    def _late(self, name: str, value: int) -> str:
        total = value + self.lag + 2 * self.ttd
        return f"{name} + lag + 2 * ttd is {total}; allowed: under tsl ({self.tsl}), so lessen one of them, or raise tsl"

    def _struct(self) -> ParamsStruct:
        names = [name for name, _ in ParamsStruct._fields_]
        return ParamsStruct(*(word(name, value) for name, value in zip(names, astuple(self))))


def checked(params: Params) -> Params:
    """The parameters. Raises `TypeError` for anything else."""
    if not isinstance(params, Params):
        raise TypeError(f"params is {params!r}; wanted: Params")
    return params
