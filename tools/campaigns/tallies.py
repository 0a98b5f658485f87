"""Counts the verdicts of many runs in one row."""

import hashlib
import pathlib

from campaigns import runs
from campaigns.plans import Plan

VERDICTS = ("fine", "premise_broken", "refused")
COLUMNS = ("first", "last", *VERDICTS, "violations", "violating", "telegrams", "most_bound_percent", "most_at", "files")
# Of so many runs one is also heard by the monitor, and its bounds are printed.
EVERY = 10


def tally(plan: Plan, program: pathlib.Path, numbers: range) -> runs.Row:
    """The counts of the runs of these numbers: `violating` has the numbers of violations, `files` is a check sum of the files."""
    row: runs.Row = dict.fromkeys(COLUMNS, 0) | {"first": numbers[0], "last": numbers[-1], "most_bound_percent": 0.0}
    files = hashlib.sha256()
    violating = []
    for outcome in runs.outcomes(plan, program, numbers, EVERY):
        files.update(outcome.text.encode())
        row["telegrams"] += outcome.measures["telegrams"] or 0
        if outcome.is_violation:
            violating.append(outcome.number)
        else:
            row[outcome.verdict.replace(" ", "_")] += 1
        if outcome.verdict == "fine" and (outcome.measures["bound_percent"] or 0) > row["most_bound_percent"]:
            row["most_bound_percent"], row["most_at"] = outcome.measures["bound_percent"], outcome.number
    violated = {"violations": len(violating), "violating": " ".join(map(str, violating))}
    return row | violated | {"files": files.hexdigest()[:16]}
