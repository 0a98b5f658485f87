"""What is wrong with a plan: `FILE:LINE: what is wrong; what is allowed`."""

import dataclasses
import pathlib
import re

# The keys by which something in a TOML file is found: names, and positions in lists.
Path = tuple[str | int, ...]


class PlanFault(Exception):
    """A fault of a plan or of its template. Its text says where it is, what is wrong and what is allowed."""


@dataclasses.dataclass(frozen=True)
class Source:
    """A TOML file, for the lines of its faults."""

    file: pathlib.Path
    text: str

    def fault(self, path: Path, text: str) -> PlanFault:
        """A fault of what stands at a path, or of the nearest table around it that the file has."""
        lines = lines_of(self.text)
        while path and path not in lines:
            path = path[:-1]
        return PlanFault(f"{self.file}:{lines.get(path, 1)}: {text}")


def lines_of(text: str) -> dict[Path, int]:
    """The lines of the tables and keys of a TOML text; of what stands within one line's value, none."""
    lines: dict[Path, int] = {}
    counts: dict[Path, int] = {}
    table: Path = ()
    for number, line in enumerate(text.splitlines(), 1):
        if header := re.match(r"\s*(\[\[?)([^\]\[]+)\]", line):
            table = _placed(parts_of(header[2]), counts, header[1] == "[[")
            lines.setdefault(table, number)
        elif key := re.match(r"\s*((?:\"[^\"]*\"|'[^']*'|[\w.-]+\s*)+?)\s*=", line):
            parts = parts_of(key[1])
            for length in range(1, len(parts) + 1):
                lines.setdefault(table + parts[:length], number)
    return lines


def parts_of(key: str) -> Path:
    """The parts of a dotted key."""
    return tuple(part.strip().strip("\"'") for part in re.findall(r"\"[^\"]*\"|'[^']*'|[^.]+", key))


def _placed(parts: Path, counts: dict[Path, int], is_list: bool) -> Path:
    """The path of a table: within a list of tables that was begun, the last one's."""
    path: Path = ()
    for place, part in enumerate(parts):
        path += (part,)
        if is_list and place == len(parts) - 1:
            counts[path] = counts.get(path, -1) + 1
        if path in counts:
            path += (counts[path],)
    return path
