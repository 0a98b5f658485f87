#!/usr/bin/env python3
"""The cases of tests/events, tests/scenarios and tests/streams, many in a file (tools/txtar.py).

    tests/cases.py write FOLDER [NAME..]    writes the files of these cases, or of all, into a folder, to be played or looked at

An event list is NAME.json, with the lines that it must print. A scenario file is NAME.toml, and its trace, or the line of its
fault, NAME.txt; those of examples/ stand there as they are, with NAME.trace. Those of tests/streams are for streams alone.
"""

import pathlib
import sys

HERE = pathlib.Path(__file__).resolve().parent
sys.path.insert(0, str(HERE.parent / "tools"))

import txtar

EXAMPLES = HERE.parent / "examples"


def event_lists():
    """The lists by name, as bytes."""
    return {name.removesuffix(".json"): text for name, text in txtar.texts_in(HERE / "events").items()}


def scenarios():
    """The scenario files by name, each with what its run must print."""
    return described("scenarios")


def streams():
    """The scenario files for streams, in the same form."""
    return described("streams")


def described(folder):
    texts = txtar.texts_in(HERE / folder)
    return {name.removesuffix(".toml"): (text, texts[name.replace(".toml", ".txt")]) for name, text in texts.items() if name.endswith(".toml")}


def examples():
    """The scenario files of examples/, in the same form."""
    return {path.stem: (path.read_bytes(), path.with_suffix(".trace").read_bytes()) for path in sorted(EXAMPLES.glob("*.toml"))}


def chosen(found, names):
    """The cases of these names, or all where none is given. It ends with status 2 where there is none, or none of a name."""
    if unknown := [name for name in names if name not in found]:
        print(*(f"no case is named {name}" for name in unknown), sep="\n", file=sys.stderr)
        sys.exit(2)
    if not found:
        print("no case is there", file=sys.stderr)
        sys.exit(2)
    return {name: found[name] for name in names or found}


def write(folder, names):
    files = {name: {f"{name}.json": text} for name, text in event_lists().items()}
    for name, (file, trace) in (scenarios() | streams()).items():
        files[name] = {f"{name}.toml": file, f"{name}.txt": trace}
    for case in chosen(files, names).values():
        for name, text in case.items():
            pathlib.Path(folder, name).write_bytes(text)


if __name__ == "__main__":
    if len(sys.argv) < 3 or sys.argv[1] != "write":
        sys.exit(__doc__)
    write(sys.argv[2], sys.argv[3:])
