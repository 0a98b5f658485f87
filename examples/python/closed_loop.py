"""A closed loop: a master polls slaves by SRD, and makes each request of the last reply. Each slave controls a tank.

    python3 closed_loop.py [UNTIL]

A request carries the opening of the valve that fills the tank, a reply the level of the tank. The stations are pbfdl's; wire, tanks
and controller are this program's. It runs to a moment (bit times, 1000000 where none is given), and prints where the tanks are.
"""

import itertools
import sys

from pbfdl import OutcomeKind, Params, Phase, Service, Station

CHARACTER_BITS = 11
PARAMS = Params(tsl=100, tid1=37, tid2=60, tsdr=11, lag=0, ttr=10_000, gap=10, hsa=2, retries=1)
MASTER = 1
# Addresses of the slaves, 1 to 10 of them, and the levels that their tanks shall have, in thousandths.
TARGETS = {3: 300, 4: 400, 5: 500, 6: 600}


class Tank:
    """A tank of 1,000,000 units. An open valve brings 40 a bit time; 1 in 50,000 of its content leaves it in a bit time."""

    def __init__(self):
        self.content = self.valve = self.moment = 0

    def advance(self, now):
        passed, self.moment = now - self.moment, now
        self.content += self.valve * passed * 2 // 5 - self.content * passed // 50_000

    def level(self):
        """In thousandths."""
        return self.content // 1000


class Slave:
    """A passive station with its tank."""

    def __init__(self, address):
        self.station = Station(PARAMS, address, master=False)
        self.station.start(0)
        self.tank = Tank()

    def turn(self, now):
        self.tank.advance(now)
        self.station.set_reply(self.tank.level().to_bytes(2, "big"))
        octets = self.station.turn(now)
        for indication in self.station.indications:
            self.tank.valve = indication.data[0]
        return octets


class Controller:
    """What the master knows of a slave, and the valve that it wants: proportional to the error, and to its sum."""

    def __init__(self, target):
        self.target, self.level, self.sum, self.polls = target, 0, 0, 0

    def valve(self):
        """In hundredths."""
        return min(max(32 * (self.target - self.level) + self.sum, 0), 6400) // 64

    def learn(self, level):
        self.level, self.polls = level, self.polls + 1
        self.sum = min(max(self.sum + self.target - level, 0), 6400)


class Master:
    """A master that polls the slaves in turn, one request at a time."""

    def __init__(self):
        self.station = Station(PARAMS, MASTER)
        self.station.start(0)
        self.controllers = {address: Controller(target) for address, target in TARGETS.items()}
        self.order = itertools.cycle(TARGETS)
        self.ask(next(self.order))

    def ask(self, address):
        self.asked = address
        self.station.push(address, Service.SRD, bytes([self.controllers[address].valve()]))

    def turn(self, now):
        """The poll is open while the master awaits data, retries included. If it loses the token then, the poll has no outcome."""
        was_open = self.station.phase == Phase.AWAIT_DATA
        octets = self.station.turn(now)
        if was_open and self.station.phase == Phase.IDLE:
            self.ask(self.asked)
        elif was_open and self.station.phase != Phase.AWAIT_DATA:
            self.close(self.station.outcome)
        return octets

    def close(self, outcome):
        if outcome.kind == OutcomeKind.DATA:
            self.controllers[self.asked].learn(int.from_bytes(outcome.data, "big"))
        self.ask(next(self.order))


class Wire:
    """The line between the nodes: one telegram at a time, heard by all others at once."""

    def __init__(self, nodes):
        self.nodes, self.sender, self.octets, self.end, self.telegrams = nodes, None, b"", None, 0

    def next_moment(self):
        moments = [node.station.due for node in self.nodes] + [self.end]
        return min(moment for moment in moments if moment is not None)

    def step(self, now):
        if self.end == now:
            for node in self.nodes:
                if node is not self.sender:
                    node.station.end(now, self.octets)
            self.end = None
        for node in self.nodes:
            due = node.station.due
            if due is not None and due <= now:
                self.send(node, node.turn(now), now)

    def send(self, sender, octets, now):
        if not octets:
            return
        self.sender, self.octets, self.end = sender, octets, now + CHARACTER_BITS * len(octets)
        self.telegrams += 1
        for node in self.nodes:
            if node is not sender:
                node.station.begin(now)


def main(until):
    master, slaves = Master(), [Slave(address) for address in TARGETS]
    wire = Wire([master, *slaves])
    while (now := wire.next_moment()) <= until:
        wire.step(now)
    for slave in slaves:
        known, tank = master.controllers[slave.station.address], slave.tank
        level = f"{tank.level() // 10}.{tank.level() % 10} % of {known.target // 10} %"
        print(f"tank {slave.station.address}: level {level}, valve {tank.valve} %, {known.polls} polls")
    print(f"{wire.telegrams} telegrams in {until} bit times")


if __name__ == "__main__":
    main(int(sys.argv[1]) if len(sys.argv) > 1 else 1_000_000)
