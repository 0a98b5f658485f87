"""Plays plans (tests/bindings) on buses of the Python package, and prints traces and audits, or the faults that end them.

    python3 player.py PLAN..

Between the moments of steps the bus runs by itself, except while a tap is withheld.
"""

import sys

from pbfdl import Bus, Fault, Params, Service, Tap

NOTHING = "-"


def data_of(word):
    return b"" if word == NOTHING else bytes.fromhex(word)


class Plan:
    def __init__(self, text):
        self.taps, self.names, self.steps = [], [], []
        for line in text.splitlines():
            head, *words = line.split()
            getattr(self, f"read_{head}")(words)

    def read_bus(self, words):
        self.params = Params(*map(int, words))

    def read_until(self, words):
        self.until = int(words[0])

    def read_tap(self, words):
        name, kind, address, reply = words
        self.names.append(name)
        self.taps.append(Tap(int(address), kind == "master", data_of(reply)))

    def read_at(self, words):
        at, deed, *rest = words
        self.steps.append((int(at), deed, rest))


class Play:
    def __init__(self, plan, bus):
        self.plan, self.bus = plan, bus
        self.held_until = [0] * len(plan.taps)

    def do(self, at, deed, words):
        """A step happens."""
        bus = self.bus
        if deed == "queue":
            tap, da, service, high, data = words
            bus.queue(int(tap), int(da), Service(int(service)), data_of(data), high=high == "1")
            return
        numbers = [int(word) for word in words]
        if deed == "withhold":
            tap, bits = numbers
            self.held_until[tap] = max(self.held_until[tap], at + bits)
        elif deed == "damage":
            tap, speaker, place = numbers
            bus.damage(tap, speaker, place if place < 256 else None)
        else:
            getattr(bus, deed)(*numbers)

    def do_steps(self, at, late):
        for moment, deed, words in self.plan.steps:
            if moment == at and (deed == "unheard") == late:
                self.do(at, deed, words)

    def take_turns(self, at):
        for tap, held in enumerate(self.held_until):
            due = self.bus.due(tap)
            if due is not None and due <= at and held <= at:
                self.bus.turn(tap)

    def next_instant(self, at, target):
        """The next moment at which something changes or a tap may take a turn, at most the target."""
        taps = enumerate(self.held_until)
        moments = [held if at < held else self.bus.due(tap) for tap, held in taps]
        moments += [self.bus.next_change, target]
        return min(moment for moment in moments if moment is not None and at < moment)

    def go(self, target):
        """Time goes to the moment of the next step, or to the end."""
        while (now := self.bus.now) < target:
            if max(self.held_until) <= now:
                # The turns of the target come after its steps.
                self.bus.run(target - 1)
                self.bus.pass_time(1)
                return
            self.bus.pass_time(self.next_instant(now, target) - now)
            if self.bus.now < target:
                self.take_turns(self.bus.now)

    def run(self):
        moments = {step[0] for step in self.plan.steps if step[0] <= self.plan.until}
        for at in sorted(moments | {self.plan.until}):
            self.go(at)
            self.do_steps(at, False)
            self.take_turns(at)
            self.do_steps(at, True)


def played(plan):
    try:
        bus = Bus(plan.params, plan.taps)
    except Fault as fault:
        return f"fault {fault.code}\n"
    with bus:
        try:
            Play(plan, bus).run()
        except Fault as fault:
            return f"fault {fault.code} at {bus.now}\n"
        return f"{bus.trace.text(plan.names)}{bus.audit()}\n"


for path in sys.argv[1:]:
    with open(path) as file:
        print(played(Plan(file.read())), end="")
