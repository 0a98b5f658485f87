"""Edits of a crate: a line 'file: PATH', then pairs of lines 'old: TEXT' and 'new: TEXT', where each old text stands once in
what the pairs before it made. A line '# body: NAME' names the function whose body alone the edit changes, a line
'# breaks: NAME' one that it must leave unproved by changing something else.

They stand in a crate's folder: in must-fail/ and misuse/ a file each, in gate.edits and more.edits many in one file (txtar.py).

    tools/edits.py apply EDIT CRATE     writes the edited files into the crate's folder
    tools/edits.py stale CRATE..        names each edit that can't be applied, that changes nothing, whose line '# body:' isn't true, that
                                        names no function, or one which the prover doesn't know, or that has other lines; and homes without
                                        edits
"""

import dataclasses
import os
import pathlib
import re
import sys

import txtar

# Where a crate's edits stand, but for those that must not compile.
HOMES = ("must-fail", "gate.edits", "more.edits")


@dataclasses.dataclass
class Edit:
    label: str
    pairs: list[tuple[str, str, str]]
    body: str = ""
    breaks: str = ""
    others: list[str] = dataclasses.field(default_factory=list)

    @property
    def target(self):
        """The function that must lose its proof."""
        return self.body or self.breaks


@dataclasses.dataclass
class Span:
    """What of a file an edit changes, from the first octet to the last, and what it puts there."""

    start: int
    end: int
    text: str
    edit: Edit


def of_crate(crate, home):
    """The edits that stand in one home in a crate's folder."""
    path = crate / home
    if home == "must-fail":
        return [read(it) for it in sorted(path.glob("*.edit"))]
    texts = txtar.texts(path) if path.exists() else {}
    return [parsed(f"{crate.name}/{home}: {name}", text.decode()) for name, text in texts.items()]


def read(path):
    """The edit that is a file of its own."""
    return parsed("/".join(path.parts[-3:]), path.read_text())


def parsed(label, text):
    edit, file, old = Edit(label, []), None, None
    for line in text.splitlines():
        key, _, text = line.removeprefix("# ").partition(":")
        text = text.removeprefix(" ")
        if key == "file":
            file = text
        elif key == "old":
            old = text
        elif key == "new":
            edit.pairs.append((file, old, text))
        elif key in ("body", "breaks") and not getattr(edit, key):
            setattr(edit, key, text)
        elif key != "wants" and line:
            edit.others.append(line)
    return edit


def spans(edit, crate):
    """What the edit changes, by file."""
    were = {file: (crate / file).read_text() for file, _, _ in edit.pairs}
    texts = dict(were)
    for file, old, new in edit.pairs:
        found = texts[file].count(old)
        if found != 1:
            raise ValueError(f"{edit.label}: the text stands {found} times: {old}")
        texts[file] = texts[file].replace(old, new)
    return {file: span(were[file], text, edit) for file, text in texts.items()}


def span(was, now, edit):
    same = len(os.path.commonprefix([was, now]))
    tail = len(os.path.commonprefix([was[same:][::-1], now[same:][::-1]]))
    return Span(same, len(was) - tail, now[same : len(now) - tail], edit)


def apply(edits, crate):
    """Writes what edits of different functions make of the crate's files together."""
    changed = {}
    for edit in edits:
        for file, it in spans(edit, crate).items():
            changed.setdefault(file, []).append(it)
    for file, parts in changed.items():
        text = (crate / file).read_text()
        for it in sorted(parts, key=lambda it: it.start, reverse=True):
            text = text[: it.start] + it.text + text[it.end :]
        (crate / file).write_text(text)


def places(name, text):
    """Where the functions of a name begin, where their bodies do, and where they end: as rt fmt sets one, at a brace as far in as its head."""
    for head in re.finditer(rf"^( *)(?:pub(?:\(\w+\))? )?(?:const )?(?:unsafe )?(?:extern .C. )?fn {re.escape(name)}\b", text, re.M):
        opens = re.compile(rf"^{head[1]}\{{$| \{{$", re.M).search(text, head.end())
        closes = re.compile(rf"^{head[1]}\}}$", re.M).search(text, head.end())
        if opens and closes:
            yield head.start(), opens.end(), closes.end()


def is_in_body(part, name, text):
    """Whether what is changed lies in the body of a function of this name."""
    return any(begin <= part.start and part.end < end for _, begin, end in places(name, text))


def is_line_of(name, text, line):
    """Whether a line, counted from 1, is one of a function of this name."""
    return any(text.count("\n", 0, begin) < line <= text.count("\n", 0, end) + 1 for begin, _, end in places(name, text))


def is_known(name, crate):
    """Whether the prover knows a function by a name: it has the module of its type, wherever the function stands. Behind the type
    may stand a trait or what the type is of, as in BusDefault or Holding+Use."""
    *modules, _ = name.split("::")
    if not modules or (crate / "src" / f"{'/'.join(modules)}.rt").exists():
        return True
    *modules, owner = modules
    texts = [crate / "src" / f"{'/'.join(modules) or root}.rt" for root in ("lib", "main")]
    types = [it for text in texts if text.exists() for it in re.findall(r"\b(?:struct|enum|trait) (\w+)", text.read_text())]
    return owner.startswith(tuple(types))


def faults(edit, crate):
    """What is wrong with an edit."""
    try:
        changed = spans(edit, crate)
        yield from (f"{edit.label}: it has the line: {line}" for line in edit.others)
        if not any(it.text or it.end > it.start for it in changed.values()):
            yield f"{edit.label}: it changes nothing"
        if not edit.target:
            yield f"{edit.label}: it names no function"
        name = edit.body.split("::")[-1]
        if name and not all(is_in_body(it, name, (crate / file).read_text()) for file, it in changed.items()):
            yield f"{edit.label}: it changes more than the body of {edit.body}"
        if not is_known(edit.target, crate):
            yield f"{edit.label}: the type of {edit.target} is another module's"
    except (ValueError, OSError) as wrong:
        yield str(wrong)


def empty(crate):
    """What is wrong with the files of a crate's edits as such: each begins with the name of one."""
    for home in HOMES[1:]:
        path = crate / home
        if path.exists() and not txtar.MARK.match(path.read_bytes()):
            yield f"{crate.name}/{home}: it does not begin with the name of an edit"


def main(verb, *paths):
    paths = [pathlib.Path(path) for path in paths]
    if verb == "apply":
        try:
            apply([read(paths[0])], paths[1])
        except (ValueError, OSError) as wrong:
            sys.exit(str(wrong))
    else:
        stand = [(edit, crate) for crate in paths for home in HOMES for edit in of_crate(crate, home)]
        found = [it for crate in paths for it in empty(crate)] + [it for edit, crate in stand for it in faults(edit, crate)]
        found += [] if stand else ["no edit was found"]
        print(*found, sep="\n", end="\n" if found else "")
        sys.exit(bool(found))


if __name__ == "__main__":
    main(*sys.argv[1:])
