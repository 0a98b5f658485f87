"""The ring of examples/c/ring.c from Python, over a shared library.

    python3 ring.py LIBRARY [UNTIL]
"""

import ctypes
import sys

NEVER = 2**64 - 1
CHARACTER_BITS = 11
NAMES = "tsl tid1 tid2 tsdr lag ttr gap hsa retries ttd".split()
library = ctypes.CDLL(sys.argv[1])


class Params(ctypes.Structure):
    _fields_ = [(name, ctypes.c_uint32) for name in NAMES]


class Port(ctypes.Structure):
    _fields_ = [("at", ctypes.c_void_p)]

    def call(self, name, *words):
        code = getattr(library, f"fdl_port_{name}")(ctypes.byref(self), *words)
        if code:
            sys.exit(f"{name}: code {code}")

    def due(self):
        at = ctypes.c_uint64()
        self.call("due", ctypes.byref(at))
        return at.value

    def begin(self, at):
        self.call("begin", ctypes.c_uint64(at), ctypes.c_uint64(at))

    def end(self, at, octets):
        self.call("end_good", ctypes.c_uint64(at), ctypes.c_uint64(at), octets, ctypes.c_size_t(len(octets)))

    def turn(self, now):
        out, count = (ctypes.c_uint8 * 255)(), ctypes.c_size_t()
        self.call("turn", ctypes.c_uint64(now), out, ctypes.c_size_t(255), ctypes.byref(count))
        return bytes(out[: count.value])


def main(until):
    params = Params(100, 37, 60, 11, 0, 10000, 10, 5, 1, 0)
    ports = [Port(), Port()]
    for place, port in enumerate(ports):
        address, master, none = ctypes.c_uint8(place + 1), ctypes.c_bool(True), ctypes.c_size_t(0)
        port.call("new", ctypes.byref(params), address, master, b"", none)
        port.call("start", ctypes.c_uint64(0))
    end, sender, octets = NEVER, 0, b""
    while (now := min(end, *(port.due() for port in ports))) <= until:
        if end <= now:
            ports[1 - sender].end(end, octets)
            end = NEVER
        for place, port in enumerate(ports):
            said = port.turn(now) if port.due() <= now else b""
            if said:
                end, sender, octets = now + CHARACTER_BITS * len(said), place, said
                ports[1 - place].begin(now)
                print(now, end, "ab"[place], said.hex())
    for port in ports:
        library.fdl_port_free(ctypes.byref(port))


main(int(sys.argv[2]) if len(sys.argv) > 2 else 1400)
