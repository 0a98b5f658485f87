"""A plant on a simulated bus: a master polls slaves by SRD, and makes each request of the last reply. Each slave controls a tank.

    python3 plant.py [UNTIL]

Tanks, controllers and slaves are those of closed_loop.py, which has a wire of its own; here the bus is pbfdl's, with its audit. Every STEP
bit times the plant looks at what its slaves were told, and sets what they reply. It runs to a moment (bit times, 1000000 where none is
given), and prints where the tanks are.
"""

import itertools
import sys

from closed_loop import MASTER, PARAMS, TARGETS, Controller, Tank
from pbfdl import Bus, OutcomeKind, Service, Tap

STEP = 200


class Polls:
    """The master at tap 0: one request at a time, to each of two slaves or more in turn."""

    def __init__(self, bus):
        self.bus, self.order = bus, itertools.cycle(TARGETS)
        self.controllers = {address: Controller(target) for address, target in TARGETS.items()}
        self.ask()

    def ask(self):
        self.asked = next(self.order)
        self.bus.queue(0, self.asked, Service.SRD, bytes([self.controllers[self.asked].valve()]))

    def look(self):
        """Takes in the outcome of the request, if it has one."""
        outcome = self.bus.outcome(0)
        if outcome is None or outcome.station != self.asked:
            return
        if outcome.kind == OutcomeKind.DATA:
            self.controllers[self.asked].learn(int.from_bytes(outcome.data, "big"))
        self.ask()


def control(bus, tap, tank):
    """The tank of a slave up to now: what the slave was told opens its valve, and its level is what the slave replies."""
    tank.advance(bus.now)
    for indication in bus.take_indications(tap):
        tank.valve = indication.data[0]
    bus.set_reply(tap, tank.level().to_bytes(2, "big"))


def main(until):
    tanks = {tap: Tank() for tap in range(1, len(TARGETS) + 1)}
    with Bus(PARAMS, [Tap(MASTER), *(Tap(address, master=False) for address in TARGETS)]) as bus:
        for tap in range(len(bus.taps)):
            bus.start(tap)
        for tap in tanks:
            bus.keep_indications(tap)
        polls = Polls(bus)
        while bus.now < until:
            bus.run(min(bus.now + STEP, until))
            for tap, tank in tanks.items():
                control(bus, tap, tank)
            polls.look()
        for tap, tank in tanks.items():
            known = polls.controllers[bus.taps[tap].address]
            level = f"{tank.level() // 10}.{tank.level() % 10} % of {known.target // 10} %"
            print(f"tank {bus.taps[tap].address}: level {level}, valve {tank.valve} %, {known.polls} polls")
        print(f"{len(bus.trace)} telegrams in {until} bit times\n{bus.audit()}")


if __name__ == "__main__":
    main(int(sys.argv[1]) if len(sys.argv) > 1 else 1_000_000)
