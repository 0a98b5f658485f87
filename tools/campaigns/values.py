"""What a plan gives a key: a value, `"$name"`, or a table that draws one (docs/CAMPAIGNS.md)."""

import dataclasses
import math
import random
import re
import typing

from campaigns.faults import Path, Source

DRAWS = ("random", "distinct", "pick", "sum", "product", "max", "hex", "any")
KINDS = ("tap", "master", "passive", "other")
Value = typing.Any


@dataclasses.dataclass(frozen=True)
class Tap:
    """What draws ask of a tap that was made."""

    name: str
    kind: str
    address: int


@dataclasses.dataclass
class Draw:
    """The draws of one run, and the values that have names so far."""

    source: Source
    random: random.Random
    named: dict[str, Value] = dataclasses.field(default_factory=dict)
    taken: dict[Path, set[int]] = dataclasses.field(default_factory=dict)
    taps: list[Tap] = dataclasses.field(default_factory=list)
    # The template's entry of each tap and step that was made, by identity.
    entries: dict[int, int] = dataclasses.field(default_factory=dict)

    def below(self, count: int) -> int:
        """A number under another. Only `random()` is the same in all versions of Python."""
        return int(self.random.random() * count)

    def value(self, wanted: Value, path: Path) -> Value:
        """The value that stands at a path."""
        if not isinstance(wanted, (str, dict)):
            return wanted
        if isinstance(wanted, str):
            return self.text(wanted, path) if "$" in wanted else wanted
        if len(wanted) != 1 or (way := next(iter(wanted))) not in DRAWS:
            raise self.source.fault(path, f"no draw: {', '.join(wanted) or 'an empty table'}; allowed: one of {', '.join(DRAWS)}")
        return getattr(self, f"_{way}")(wanted[way], path)

    def text(self, wanted: str, path: Path) -> Value:
        """A text with the values of its names; of a name alone its value."""
        if alone := re.fullmatch(r"\$(\w+)", wanted):
            return self.of_name(alone[1], path)
        return re.sub(r"\$(\w+)", lambda found: str(self.of_name(found[1], path)), wanted)

    def of_name(self, name: str, path: Path) -> Value:
        if name not in self.named:
            known = ", ".join(f"${known}" for known in self.named if "." not in known) or "no name here"
            raise self.source.fault(path, f"no value is named ${name}; allowed: {known}")
        return self.named[name]

    def number(self, wanted: Value, path: Path) -> int:
        """A value that has to be a whole number."""
        found = wanted if type(wanted) is int else self.value(wanted, path)
        if type(found) is not int:
            raise self.source.fault(path, f"{found!r} is no whole number; allowed: a whole number, or what gives one")
        return found

    def _list(self, wanted: Value, path: Path) -> list[Value]:
        if not isinstance(wanted, list) or not wanted:
            raise self.source.fault(path, f"{wanted!r} is no list; allowed: a list of at least one value")
        return wanted

    def _random(self, wanted: Value, path: Path) -> int:
        ends = [self.number(end, path) for end in self._list(wanted, path)]
        if len(ends) != 2 or ends[0] > ends[1]:
            raise self.source.fault(path, f"{ends} is no range; allowed: [A, B] with A at most B")
        return ends[0] + self.below(ends[1] - ends[0] + 1)

    def _distinct(self, wanted: Value, path: Path) -> int:
        ends = [self.number(end, path) for end in self._list(wanted, path)]
        place = tuple(part for part in path if isinstance(part, str))
        free = sorted(set(range(ends[0], ends[-1] + 1)) - self.taken.setdefault(place, set()))
        if len(ends) != 2 or not free:
            raise self.source.fault(path, f"no number of {ends} is left; allowed: [A, B] with as many numbers as are drawn")
        found = free[self.below(len(free))]
        self.taken[place].add(found)
        return found

    def _pick(self, wanted: Value, path: Path) -> Value:
        choices = self._list(wanted, path)
        return self.value(choices[self.below(len(choices))], path)

    def _sum(self, wanted: Value, path: Path) -> int:
        return sum(self.number(part, path) for part in self._list(wanted, path))

    def _product(self, wanted: Value, path: Path) -> int:
        return math.prod(self.number(part, path) for part in self._list(wanted, path))

    def _max(self, wanted: Value, path: Path) -> int:
        return max(self.number(part, path) for part in self._list(wanted, path))

    def _hex(self, wanted: Value, path: Path) -> str:
        draw = self.random.random
        return bytes([int(draw() * 256) for _ in range(self.number(wanted, path))]).hex()

    def _any(self, wanted: Value, path: Path) -> str:
        if wanted not in KINDS:
            raise self.source.fault(path, f"no kind of tap: {wanted!r}; allowed: {', '.join(KINDS)}")
        own = self.named.get("tap")
        taps = [tap for tap in self.taps if wanted in ("tap", tap.kind) or (wanted == "other" and tap.name != own)]
        if not taps:
            raise self.source.fault(path, f"the scenario has no tap of the kind {wanted!r}; allowed: a kind that it has")
        return taps[self.below(len(taps))].name
