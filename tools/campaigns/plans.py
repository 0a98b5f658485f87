"""A plan: a scenario as a template, values for it, and how many runs (docs/CAMPAIGNS.md)."""

import dataclasses
import pathlib
import tomllib
import typing

from campaigns.faults import Path, PlanFault, Source

KEYS = ("scenario", "seed", "repeat", "values")
TOP_KEYS = ("version", "until", "bus", "tap", "step")
BUS_KEYS = ("tsl", "tid1", "tid2", "tsdr", "lag", "ttr", "gap", "hsa", "retries", "ttd")
TAP_KEYS = ("name", "kind", "address", "reply", "count")
DEED_KEYS = ("do", "service", "to", "high", "unit", "speaker", "place", "bits")
STEP_KEYS = ("at", "tap", *DEED_KEYS, "count", "each", "then", "follow", "telegram")
THEN_KEYS = ("after", *DEED_KEYS)
SWEEP_KEYS = ("from", "to", "step")


@dataclasses.dataclass(frozen=True)
class Named:
    """A value of the plan: its name, its path in the plan, what gives it, and what it is in turn if it is swept."""

    name: str
    path: Path
    wanted: typing.Any
    swept: tuple[typing.Any, ...] | None


@dataclasses.dataclass(frozen=True)
class Template:
    """A scenario as a template, and where it stands: its file, and its path in that file."""

    table: dict[str, typing.Any]
    source: Source
    path: Path


@dataclasses.dataclass(frozen=True)
class Plan:
    source: Source
    seed: int
    repeat: int
    values: tuple[Named, ...]
    template: Template

    @property
    def sweeps(self) -> list[Named]:
        return [value for value in self.values if value.swept is not None]

    @property
    def runs(self) -> int:
        count = self.repeat
        for sweep in self.sweeps:
            count *= len(sweep.swept or ())
        return count

    def swept_of(self, number: int) -> dict[str, typing.Any]:
        """The swept values of a run: the first name changes slowest, repetitions follow each other."""
        place = (number - 1) // self.repeat
        found = {}
        for sweep in reversed(self.sweeps):
            place, turn = divmod(place, len(sweep.swept or ()))
            found[sweep.name] = (sweep.swept or ())[turn]
        return found


def read(file: pathlib.Path, given: pathlib.Path | None = None) -> Plan:
    """Reads a plan and its template, which may be given in place of the one that the plan names."""
    source = source_of(file)
    table = tables_of(source)
    check_keys(source, (), table, KEYS)
    if "scenario" not in table:
        text = "the plan has no key 'scenario'; allowed: the name of a scenario file, or a table [scenario]"
        raise source.fault((), text)
    template = template_of(source, table["scenario"], given)
    check_template(template.source, template.path, template.table)
    return Plan(
        source=source,
        seed=whole_number(source, table, "seed", 1, 0),
        repeat=whole_number(source, table, "repeat", 1, 1),
        values=tuple(values_of(source, table.get("values", {}))),
        template=template,
    )


def source_of(file: pathlib.Path) -> Source:
    try:
        return Source(file, file.read_text())
    except (OSError, UnicodeDecodeError) as fault:
        raise PlanFault(f"{file}:1: the file cannot be read: {fault}; allowed: a TOML file") from fault


def tables_of(source: Source) -> dict[str, typing.Any]:
    try:
        return tomllib.loads(source.text)
    except tomllib.TOMLDecodeError as fault:
        what, _, place = str(fault).rpartition(" (at ")
        last = str(source.text.count("\n") + 1)
        line = place.removeprefix("line ").split(",")[0] if place.startswith("line ") else last
        raise PlanFault(f"{source.file}:{line}: no TOML: {what or fault}; allowed: a TOML file") from fault


def template_of(source: Source, wanted: typing.Any, given: pathlib.Path | None) -> Template:
    path = ("scenario",)
    if isinstance(wanted, dict):
        return Template(wanted, source, path)
    if not isinstance(wanted, str):
        raise source.fault(path, f"{wanted!r} is no scenario; allowed: the name of a scenario file, or a table [scenario]")
    try:
        template = source_of(given or source.file.parent / wanted)
    except PlanFault as fault:
        text = f"no scenario file {wanted!r}; allowed: the name of a file, from the plan's folder on"
        raise source.fault(path, text) from fault
    return Template(tables_of(template), template, ())


def whole_number(source: Source, table: dict[str, typing.Any], key: str, usual: int, least: int) -> int:
    found = table.get(key, usual)
    if isinstance(found, bool) or not isinstance(found, int) or found < least:
        raise source.fault((key,), f"{key} is {found!r}; allowed: a whole number, {least} or more")
    return found


def check_keys(source: Source, path: Path, table: typing.Any, allowed: tuple[str, ...]) -> None:
    where = ".".join(str(part) for part in path if isinstance(part, str))
    if not isinstance(table, dict):
        raise source.fault(path, f"{where} is no table; allowed: a table with keys of {', '.join(allowed)}")
    for key in table:
        if key not in allowed:
            place = f" in {where}" if where else ""
            raise source.fault((*path, key), f"unknown key '{key}'{place}; allowed: {', '.join(allowed)}")


def check_template(source: Source, path: Path, template: dict[str, typing.Any]) -> None:
    """That the template has keys of a scenario. Its values the program judges, when they are known."""
    check_keys(source, path, template, TOP_KEYS)
    check_keys(source, (*path, "bus"), template.get("bus", {}), BUS_KEYS)
    for key, allowed in (("tap", TAP_KEYS), ("step", STEP_KEYS)):
        entries = template.get(key, [])
        if not isinstance(entries, list):
            raise source.fault((*path, key), f"{key} is no list; allowed: a list of tables, [[{key}]]")
        for place, entry in enumerate(entries):
            check_keys(source, (*path, key, place), entry, allowed)


def values_of(source: Source, values: typing.Any) -> typing.Iterator[Named]:
    """The values by name. Those of a key of the bus may stand as `bus.ttr = ..` or as `"bus.ttr" = ..`."""
    if not isinstance(values, dict):
        raise source.fault(("values",), "values is no table; allowed: a table, [values]")
    for key, wanted in values.items():
        if key == "bus" and isinstance(wanted, dict):
            for inner in wanted:
                yield named(source, f"bus.{inner}", ("values", "bus", inner), wanted[inner])
        else:
            if key in KEYS:
                raise source.fault(("values", key), f"{key} under [values] would be a label alone; allowed: {key} above [values], as a key of the plan")
            yield named(source, key, ("values", key), wanted)


def named(source: Source, name: str, path: Path, wanted: typing.Any) -> Named:
    if name in ("i", "each", "tap") or (not name.replace("_", "").isalnum() and name not in [f"bus.{key}" for key in BUS_KEYS]):
        allowed = "letters, digits and '_', but i, each and tap, or bus.KEY with a KEY of " + ", ".join(BUS_KEYS)
        raise source.fault(path, f"'{name}' is no name of a value; allowed: {allowed}")
    return Named(name, path, wanted, swept_in(source, path, wanted))


def swept_in(source: Source, path: Path, wanted: typing.Any) -> tuple[typing.Any, ...] | None:
    """The values that are taken in turn, if some are."""
    if isinstance(wanted, list):
        if not wanted or any(isinstance(value, (list, dict)) for value in wanted):
            raise source.fault(path, "a list without values, or with lists or tables; allowed: numbers, texts, true and false")
        return tuple(wanted)
    if not isinstance(wanted, dict) or not set(wanted) & set(SWEEP_KEYS):
        return None
    check_keys(source, path, wanted, SWEEP_KEYS)
    ends = [wanted.get("from"), wanted.get("to"), wanted.get("step", 1)]
    if any(isinstance(end, bool) or not isinstance(end, int) for end in ends) or ends[0] > ends[1] or ends[2] < 1:
        text = f"no sweep: {wanted}; allowed: whole numbers 'from', 'to' not under it, and 'step' of at least 1"
        raise source.fault(path, text)
    return tuple(range(ends[0], ends[1] + 1, ends[2]))
