"""What checks of crates take, in processor seconds. It looks once a second, so what a check takes in its last second is not seen,
and it counts the checks of rt ci alone that belong to its own session."""

import collections
import contextlib
import os
import pathlib
import re
import threading

TICK = os.sysconf("SC_CLK_TCK")
CRATE = re.compile(rb"--crate-name\0(\w+)\0")


def told(process):
    """The crate that a process works for, whether it tries an edit for rt ci, and its processor seconds so far; none where it is no
    check of rt ci, or somebody else's, or has ended."""
    try:
        crate = CRATE.search((process / "cmdline").read_bytes())
        folder = os.readlink(process / "cwd")
        if not crate or "/edits-" in folder:
            return None
        fields = (process / "stat").read_text().rpartition(")")[2].split()
        if int(fields[3]) != os.getsid(0):
            return None
        return (crate[1].decode(), "/rt-edit" in folder), sum(int(ticks) for ticks in fields[11:13]) / TICK
    except OSError:
        return None


def watch(seconds, ended):
    """Keeps for each process what it took when it was last seen."""
    seen = {}
    while not ended.wait(1):
        for process in pathlib.Path("/proc").glob("[0-9]*"):
            if found := told(process):
                seen[process.name, found[0]] = found[1]
    for (_, told_for), taken in seen.items():
        seconds[told_for] += taken


@contextlib.contextmanager
def watched():
    """What the checks took that ran meanwhile, by crate and whether they tried edits."""
    seconds, ended = collections.Counter(), threading.Event()
    watcher = threading.Thread(target=watch, args=(seconds, ended))
    watcher.start()
    try:
        yield seconds
    finally:
        ended.set()
        watcher.join()


def table(of_ci, of_trials):
    """The processor seconds of proofs, of the edits that rt ci tried, and of those that the gate did, by crate."""
    row = "{:14}{:>10}{:>10}{:>10}".format
    yield row("processor s", "proof", "rt's edits", "edits")
    crates = sorted({crate for crate, _ in of_ci} | set(of_trials))
    for crate in crates:
        yield row(crate, *map(round, (of_ci[crate, False], of_ci[crate, True], of_trials[crate])))
    proofs, tried = (sum(of_ci[crate, is_edit] for crate in crates) for is_edit in (False, True))
    yield row("in all", *map(round, (proofs, tried, sum(of_trials.values()))))
