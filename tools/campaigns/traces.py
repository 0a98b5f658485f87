"""What a trace says, read without the program: who spoke as initiator, and how long the bus was without a token."""

import dataclasses
import typing

# The bits of the longest telegram.
LONGEST = 255 * 11
# A token.
TOKEN = 3 * 11


@dataclasses.dataclass(frozen=True)
class Line:
    """A telegram of a trace, or noise, whose tap is `~`."""

    begin: int
    end: int
    tap: str
    octets: str

    @property
    def is_token(self) -> bool:
        return self.octets.startswith("dc")

    @property
    def ends_stretch(self) -> bool:
        return self.is_token or self.tap == "~"

    @property
    def is_initiators(self) -> bool:
        """Whether it is a token or a request: bit 6 of FC says so."""
        place = {"10": 3, "a2": 3, "68": 6}.get(self.octets[:2])
        return self.is_token or (place is not None and int(self.octets[2 * place : 2 * place + 2], 16) & 0x40 > 0)


@dataclasses.dataclass(frozen=True)
class Stretch:
    """The stretch without a token or noise that came nearest to its bound, of a master that ran."""

    lasts: int
    bound: int


def lines_of(trace: str) -> list[Line]:
    return [Line(int(words[0]), int(words[1]), words[2], words[3]) for line in trace.splitlines() if (words := line.split())]


def holders_fault(lines: list[Line], addresses: dict[str, int]) -> str:
    """What is wrong if two initiators speak at once, or one that neither spoke last, nor was passed the token, nor claims it."""
    before = None
    for line in lines:
        if not line.is_initiators:
            continue
        if before and line.begin < before.end:
            return f"two initiators at {line.begin}"
        may = {addresses[before.tap]} | ({int(before.octets[2:4], 16)} if before.is_token else set()) if before else set()
        address = addresses[line.tap]
        if address not in may and line.octets != f"dc{address:02x}{address:02x}":
            return f"an initiator that nobody named at {line.begin}"
        before = line
    return ""


def stays_of(steps: list[dict[str, typing.Any]], until: int) -> dict[str, list[tuple[int, int]]]:
    """From when to when each tap runs."""
    stays: dict[str, list[tuple[int, int]]] = {}
    since: dict[str, int] = {}
    for step in steps:
        if step["do"] == "start" and step["at"] < until:
            since[step["tap"]] = step["at"]
        elif step["do"] == "stop" and step["at"] < until and step["tap"] in since:
            stays.setdefault(step["tap"], []).append((since.pop(step["tap"]), step["at"]))
    for tap, start in since.items():
        stays.setdefault(tap, []).append((start, until))
    return stays


def longest_gap(lines: list[Line], begin: int, end: int) -> int:
    """The longest time without a token or noise from one moment to another."""
    longest, calm = 0, begin
    for line in lines:
        if line.ends_stretch and line.end > begin and line.begin < end:
            longest, calm = max(longest, line.begin - calm), max(calm, line.end)
    return max(longest, end - calm)


@dataclasses.dataclass(frozen=True)
class Bounds:
    """What is proved of a bus: the never-dead bound of each master, and the rotation bound, if there is a master."""

    never_dead: dict[str, int]
    rotation: int | None


def bounds_of(scenario: dict[str, typing.Any]) -> Bounds:
    """The bounds as they are defined (`longest_without`, `rotation_time`), to compare with what the program prints."""
    bus = scenario["bus"]
    delay = bus.get("ttd", 0)
    to_reply = 2 * LONGEST + bus["tsl"] - 1
    attempt = to_reply + bus["tid1"] + bus["lag"]
    cycle = (bus["retries"] + 1) * attempt
    shared = bus["ttr"] - 1 + cycle + bus["retries"] * attempt + to_reply + bus["lag"] + delay
    masters = [tap for tap in scenario["tap"] if tap["kind"] == "master"]
    rotation = bus["ttr"] + cycle + len(masters) * (cycle + TOKEN + delay + bus["tid1"] + bus["lag"])
    return Bounds({tap["name"]: shared + (6 + 2 * tap["address"]) * bus["tsl"] for tap in masters}, rotation if masters else None)


def stretch_of(lines: list[Line], stays: dict[str, list[tuple[int, int]]], bounds: dict[str, int]) -> Stretch | None:
    """The stretch nearest to its bound, by the bounds of the masters."""
    found = [Stretch(longest_gap(lines, *stay), bounds[tap]) for tap in bounds for stay in stays.get(tap, [])]
    return max(found, key=lambda stretch: stretch.lasts / stretch.bound, default=None)
