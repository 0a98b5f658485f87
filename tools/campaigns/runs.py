"""Plays the scenarios of some numbers of a plan by the program, and judges each run: one row each.

The program is called from one shell script for many scenarios, because a call from Python costs more than the call itself.
"""

import dataclasses
import json
import pathlib
import subprocess
import tempfile
import typing

from campaigns import scenarios, traces
from campaigns.plans import Plan

# So many scenarios are made, then played.
BATCH = 100
# A refused run gets no more calls. The status of each call is a line: its word, the scenario's number, the status.
SCRIPT = """
for n in $2; do
    "$1" run --quiet --workers 1 $n.toml >$n.run; s=$?; echo run $n $s
    [ $s = 0 ] || continue
    "$1" audit --quiet $n.toml >$n.audit; echo audit $n $?
    [ $((n % $3)) = 0 ] || continue
    "$1" bounds --quiet --json $n.toml >$n.bounds; echo bounds $n $?
    { "$1" capture --quiet $n.toml; echo capture $n $? >&3; } | "$1" monitor --quiet --summary json $n.toml >$n.monitor
    echo monitor $n $?
done 3>&1
"""
# The greatest status of a call that does not fail: 1 tells of an illegal record, or of an alarm.
MOST = {"audit": 1, "bounds": 0, "capture": 0, "monitor": 1}
MEASURES = (
    "verdict",  # fine, refused, premise broken, or the violation of a promise
    "premises",  # the first line of the audit, or the line of a refusal
    "trace",  # the second line of the audit
    "alarms",  # of all classes, and refused bursts
    "telegrams",  # sent, replies too
    "load_per_mille",
    "rotation_least",
    "rotation_mean",
    "rotation_greatest",
    "rotation_bound",  # of a settled ring of all masters that nothing disturbs; none without a master
    "tokens",  # sent, by all
    "requests",  # sent, by all, status requests too
    "repeats",  # tokens and requests sent again
    "unanswered",
    "claims",
    "damaged",
    "without_token",  # the longest time without a token or noise, of the master that came nearest to its bound
    "never_dead_bound",  # that bound
    "bound_percent",  # the one by the other
)
Row = dict[str, typing.Any]


@dataclasses.dataclass(frozen=True)
class Outcome:
    """A run: its number, the values of the plan, what was measured, and its file."""

    number: int
    values: Row
    measures: Row
    text: str

    @property
    def row(self) -> Row:
        return {"number": self.number} | self.values | self.measures

    @property
    def verdict(self) -> str:
        return self.measures["verdict"]

    @property
    def is_violation(self) -> bool:
        return self.verdict.startswith("VIOLATION")


def player(program: pathlib.Path) -> scenarios.Play:
    """Plays a scenario's text, and returns its trace: none where the run is refused."""

    def play(text: str) -> str:
        done = subprocess.run([program, "run", "--quiet", "--workers", "1", "-"], input=text, text=True, stdout=subprocess.PIPE)
        return done.stdout if done.returncode == 0 else ""

    return play


def outcomes(plan: Plan, program: pathlib.Path, numbers: typing.Sequence[int], every: int = 1) -> typing.Iterator[Outcome]:
    """The outcomes of the runs of these numbers, in this order. Numbers divisible by `every` get `bounds` and `monitor` too."""
    play = player(program)
    for start in range(0, len(numbers), BATCH):
        made = {number: scenarios.make(plan, number, play) for number in numbers[start : start + BATCH]}
        with tempfile.TemporaryDirectory(dir=scratch()) as name:
            folder = pathlib.Path(name)
            for number, each in made.items():
                (folder / f"{number}.toml").write_text(each.text)
            statuses = called(program, folder, list(made), every)
            for number, each in made.items():
                played = Played(folder, number, each, {call: statuses.get((call, number)) for call in ("run", *MOST)})
                yield Outcome(number, each.values, measured(played, number % every == 0), each.text)


def scratch() -> str | None:
    """A folder in memory, where there is one."""
    return "/dev/shm" if pathlib.Path("/dev/shm").is_dir() else None


def called(program: pathlib.Path, folder: pathlib.Path, numbers: list[int], every: int) -> dict[tuple[str, int], int]:
    """Has the scenarios of a folder played, and returns the status of each call."""
    words = ["sh", "-c", SCRIPT, "sh", program.resolve(), " ".join(map(str, numbers)), str(every)]
    told = subprocess.run(words, cwd=folder, text=True, stdout=subprocess.PIPE, check=True).stdout
    return {(word, int(number)): int(status) for word, number, status in map(str.split, told.splitlines())}


@dataclasses.dataclass(frozen=True)
class Played:
    """A scenario that was played: where the texts are, and the statuses of the calls."""

    folder: pathlib.Path
    number: int
    made: scenarios.Made
    statuses: dict[str, int | None]

    def text(self, call: str) -> str:
        return (self.folder / f"{self.number}.{call}").read_text()


def measured(played: Played, is_whole: bool) -> Row:
    """The measures of a run that was played, of a whole one those of `bounds` and `monitor` too."""
    row: Row = dict.fromkeys(MEASURES, "")
    trace, status = played.text("run"), played.statuses["run"]
    if status != 0:
        text = trace.strip() or f"status {status}"
        return row | {"verdict": "refused" if status == 1 else f"VIOLATION: run ends with status {status}", "premises": text}
    for call in MOST if is_whole else ("audit",):
        if not 0 <= (played.statuses[call] if played.statuses[call] is not None else -1) <= MOST[call]:
            return row | {"verdict": f"VIOLATION: {call} ends with status {played.statuses[call]}"}
    audit, lines = played.text("audit").splitlines(), traces.lines_of(trace)
    if len(audit) != 2:
        return row | {"verdict": f"VIOLATION: audit prints {' '.join(audit)!r} of a run that is played"}
    row["premises"], row["trace"] = audit
    row["telegrams"] = sum(line.tap != "~" for line in lines)
    # Refused bursts have lines of their own before the summary.
    row |= heard(json.loads(played.text("monitor").splitlines()[-1])) if is_whole else {}
    bounds = traces.bounds_of(played.made.scenario)
    row["rotation_bound"] = "" if bounds.rotation is None else bounds.rotation
    row |= stretched(played.made, lines, bounds.never_dead)
    addresses = {tap["name"]: tap["address"] for tap in played.made.scenario["tap"]}
    row["verdict"] = verdict(row, traces.holders_fault(lines, addresses))
    if is_whole and bounds != bounds_in(played.text("bounds")):
        row["verdict"] = "VIOLATION: bounds differs from its definition"
    return row


def bounds_in(text: str) -> traces.Bounds:
    """What `bounds --json` prints."""
    printed = json.loads(text)
    never_dead = {master["name"]: master["never_dead_bound"]["bit_times"] for master in printed["masters"]}
    return traces.Bounds(never_dead, printed["rotation_bound"]["bit_times"] if never_dead else None)


def heard(summary: dict[str, typing.Any]) -> Row:
    """What the monitor's summary says of the bus."""
    stations = summary["stations"]
    rotations = [station["rotation"] for station in stations if station["rotation"]]
    count = sum(rotation["count"] for rotation in rotations)
    return {
        "alarms": summary["alarms"] + summary["refused"],
        "load_per_mille": summary.get("load_per_mille", ""),
        "rotation_least": min((rotation["least"] for rotation in rotations), default=""),
        "rotation_mean": sum(rotation["mean"] * rotation["count"] for rotation in rotations) // count if count else "",
        "rotation_greatest": max((rotation["greatest"] for rotation in rotations), default=""),
        "tokens": sum(station["tokens"] for station in stations),
        "requests": sum(station["requests"] for station in stations),
        "repeats": sum(station["repeats"] for station in stations),
        "unanswered": sum(station["unanswered"] for station in stations),
        "claims": sum(station["claims"] for station in stations),
        "damaged": sum(summary["damaged"].values()),
    }


def stretched(made: scenarios.Made, lines: list[traces.Line], bounds: dict[str, int]) -> Row:
    """The longest time without a token, beside its bound."""
    stretch = traces.stretch_of(lines, traces.stays_of(made.scenario["step"], made.scenario["until"]), bounds)
    if not stretch:
        return {}
    percent = round(100 * stretch.lasts / stretch.bound, 2)
    return {"without_token": stretch.lasts, "never_dead_bound": stretch.bound, "bound_percent": percent}


def verdict(row: Row, holders: str) -> str:
    """What is to be said of a run. A broken premise excuses everything."""
    if row["premises"] != "premises kept":
        return "premise broken"
    if row["trace"] != "trace legal":
        return f"VIOLATION: {row['trace']}"
    if row["alarms"]:
        return f"VIOLATION: {row['alarms']} alarms"
    if holders:
        return f"VIOLATION: {holders}"
    if row["without_token"] != "" and row["without_token"] > row["never_dead_bound"]:
        return f"VIOLATION: {row['without_token']} without a token"
    return "fine"
