"""Makes the scenario of a run: the template with its values, its taps and steps as often as `count` or `each` says
(docs/CAMPAIGNS.md)."""

import copy
import dataclasses
import json
import random
import re
import typing

from campaigns.faults import Path, PlanFault, lines_of
from campaigns.plans import THEN_KEYS, Plan
from campaigns.values import Draw, Tap

Table = dict[str, typing.Any]
# Has a scenario's text played, and returns its trace.
Play = typing.Callable[[str], str]
RULES = ("count", "each", "then", "follow", "telegram")
EACH = ("tap", "master", "passive")


@dataclasses.dataclass(frozen=True)
class Made:
    """The values of a run by their names, and its scenario, with the template's entry for each tap and step, by identity."""

    values: Table
    scenario: Table
    entries: dict[int, int]

    @property
    def text(self) -> str:
        return text_of(self.scenario)


def make(plan: Plan, number: int, play: Play) -> Made:
    """The scenario of the run with this number, from 1. It is played only to aim at telegrams.

    Draws follow from the repetition: whatever is swept has the same.
    """
    draw = Draw(plan.source, random.Random(f"{plan.seed} {(number - 1) % plan.repeat + 1}"))
    swept = plan.swept_of(number)
    for value in plan.values:
        draw.named[value.name] = swept[value.name] if value.name in swept else draw.value(value.wanted, value.path)
    values = dict(draw.named)
    draw.source = plan.template.source
    template, path = overridden(plan.template.table, values), plan.template.path
    scenario: Table = {"version": draw.value(template.get("version", 1), (*path, "version"))}
    for key in ("until", *(key for key in template if key not in ("version", "until", "bus", "tap", "step"))):
        if key in template:
            scenario[key] = draw.named[key] = draw.value(template[key], (*path, key))
    scenario["bus"] = bus_of(draw, template.get("bus", {}), (*path, "bus"))
    scenario["tap"] = list(taps_of(draw, template.get("tap", []), (*path, "tap")))
    steps = list(steps_of(draw, template.get("step", []), (*path, "step")))
    scenario["step"] = sorted((step for step in steps if "telegram" not in step), key=lambda step: step["at"])
    for step in sorted((step for step in steps if "telegram" in step), key=lambda step: step["telegram"]):
        aim(draw, scenario, step, play)
    return Made(values, scenario, draw.entries)


def overridden(template: Table, values: Table) -> Table:
    """The template with the values of the plan that are named for its keys."""
    changed = copy.copy(template)
    changed["bus"] = dict(template.get("bus", {}))
    for name, value in values.items():
        if name.startswith("bus."):
            changed["bus"][name.removeprefix("bus.")] = value
        elif name in ("until", "version"):
            changed[name] = value
    return changed


def bus_of(draw: Draw, bus: Table, path: Path) -> Table:
    """The bus. Each key's value is then known by its name."""
    made: Table = {}
    for key, wanted in bus.items():
        made[key] = draw.named[key] = draw.value(wanted, (*path, key))
    return made


def copies_of(draw: Draw, entry: Table, path: Path) -> typing.Iterator[None]:
    """As often as an entry says: for each tap of a kind, by a count, or once."""
    each = entry.get("each")
    if each not in (None, *EACH):
        raise draw.source.fault((*path, "each"), f"each is {each!r}; allowed: one of {', '.join(EACH)}")
    for tap in [tap for tap in draw.taps if each in ("tap", tap.kind)] if each else [None]:
        if tap:
            draw.named["each"] = tap.name
        for turn in range(1, draw.number(entry.get("count", 1), (*path, "count")) + 1):
            draw.named["i"] = turn
            yield


def taps_of(draw: Draw, entries: list[Table], path: Path) -> typing.Iterator[Table]:
    for place, entry in enumerate(entries):
        for _ in copies_of(draw, entry, (*path, place)):
            tap = {key: draw.value(entry[key], (*path, place, key)) for key in entry if key not in RULES}
            draw.taps.append(Tap(str(tap.get("name")), str(tap.get("kind")), tap.get("address", 0)))
            draw.entries[id(tap)] = place
            yield tap


def steps_of(draw: Draw, entries: list[Table], path: Path) -> typing.Iterator[Table]:
    for place, entry in enumerate(entries):
        for _ in copies_of(draw, entry, (*path, place)):
            wanted = {"tap": "$each"} | entry if "each" in entry else entry
            step = step_of(draw, wanted, (*path, place))
            for made in (step, *followers_of(draw, entry, step, (*path, place))):
                draw.entries[id(made)] = place
                yield made


def step_of(draw: Draw, entry: Table, path: Path) -> Table:
    """A step. Its tap is drawn first, since others are drawn beside it."""
    step: Table = {"at": 0} if "at" in entry or "after" in entry else {}
    draw.named.pop("tap", None)
    keys = [key for key in entry if key not in RULES]
    for key in ["tap", *(key for key in keys if key != "tap")] if "tap" in entry else keys:
        step[key] = draw.value(entry[key], (*path, key))
        if key == "to":
            step[key] = next((tap.address for tap in draw.taps if tap.name == step[key]), step[key])
        if key == "tap":
            draw.named["tap"] = step["tap"]
    if "telegram" in entry:
        step["telegram"] = draw.number(entry["telegram"], (*path, "telegram"))
    elif isinstance(step.get("at", step.get("after")), bool) or not isinstance(step.get("at", step.get("after")), int):
        raise draw.source.fault(path, "the step has no moment; allowed: a whole number 'at', or 'telegram'")
    return step


def followers_of(draw: Draw, entry: Table, step: Table, path: Path) -> typing.Iterator[Table]:
    then = entry.get("then", [])
    if not isinstance(then, list) or not all(isinstance(follower, dict) for follower in then) or (then and "telegram" in entry):
        raise draw.source.fault((*path, "then"), "then is no list of steps; allowed: a list of tables, behind a step with 'at'")
    for place, follower in enumerate(then[: draw.number(entry.get("follow", len(then)), (*path, "follow"))]):
        if unknown := [key for key in follower if key not in THEN_KEYS]:
            raise draw.source.fault((*path, "then"), f"unknown key '{unknown[0]}' in then; allowed: {', '.join(THEN_KEYS)}")
        shared = {key: entry[key] for key in entry if key not in (*RULES, "at")}
        shared |= {"tap": step["tap"]} if "tap" in step else {}
        made = step_of(draw, shared | follower, (*path, "then", place))
        step = {"at": step["at"] + made.pop("after", 0)} | {key: made[key] for key in made if key not in ("at", "after")}
        yield step


def aim(draw: Draw, scenario: Table, step: Table, play: Play) -> None:
    """Adds a step at some moment of a telegram of the run so far, at another tap; none where the run has no telegram."""
    sent = [words for line in play(text_of(scenario)).splitlines() if len(words := line.split()) == 5]
    others = [tap.name for tap in draw.taps]
    if not sent or len(others) < 2:
        return
    begin, _, speaker, octets, _ = sent[step.pop("telegram") % len(sent)]
    others.remove(speaker)
    # The loss of a telegram comes as it begins, damage after it.
    later = 0 if step["do"] == "unheard" else draw.below(11 * (len(octets) // 2) - 1) + 1
    aimed = {"at": int(begin) + later, "do": step["do"], "tap": others[draw.below(len(others))], "speaker": speaker}
    aimed |= {key: step[key] for key in step if key not in aimed}
    draw.entries[id(aimed)] = draw.entries[id(step)]
    scenario["step"].append(aimed)
    scenario["step"].sort(key=lambda each: each["at"])


def blamed(plan: Plan, made: Made, printed: str, hint: str) -> PlanFault:
    """The fault of a plan whose scenario the program refuses: the program's hint, at its line of the plan or the template."""
    found = re.match(r"[^:]*:(\d+):\d+: (.*)", hint)
    text = (found[2] if found else f"{printed.strip()}; wanted: what docs/PROTOCOL.md says").replace("; wanted: ", "; allowed: ")
    paths = [path for path, line in lines_of(made.text).items() if found and line == int(found[1])]
    path = max(paths, key=len, default=())
    for value in plan.values:
        if value.name == ".".join(map(str, path)):
            return plan.source.fault(value.path, text)
    if len(path) > 1 and path[0] in ("tap", "step") and isinstance(path[1], int):
        path = (path[0], made.entries[id(made.scenario[path[0]][path[1]])], *path[2:])
    return plan.template.source.fault((*plan.template.path, *path), text)


def text_of(scenario: Table) -> str:
    """The text of a scenario file."""
    lines = [line_of(key, scenario[key]) for key in scenario if key not in ("bus", "tap", "step")]
    for header, tables in (("[bus]", [scenario["bus"]]), ("[[tap]]", scenario["tap"]), ("[[step]]", scenario["step"])):
        for table in tables:
            lines += ["", header, *(line_of(key, value) for key, value in table.items())]
    return "\n".join(lines) + "\n"


def line_of(key: str, value: typing.Any) -> str:
    if type(value) is int:
        return f"{key} = {value}"
    return f'{key} = "{value}"' if isinstance(value, str) and value.isalnum() else f"{key} = {json.dumps(value)}"
