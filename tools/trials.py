"""Tries edits of crates: each has to leave unproved, by a goal of its own, the function that it names.

Edits that change bodies of different functions are tried in one check, which looks at those functions alone (--only); others each in
a check of their own. A function's proof rests on the contracts of what it calls and not on their bodies, so a broken callee leaves the goals
of its caller as they are; but then the prover says of a caller whose own edit does no harm only that what it calls is not proved.
So an edit that is neither refused nor still proved is tried once more, alone.
"""

import collections
import os
import pathlib
import re
import shutil
import signal
import subprocess
import tempfile
import threading
import time

import edits
import verdicts
from verdicts import Kind

# What the prover says where rt ci, which has told of a crate, hasn't put its library in place yet.
UNREADY = re.compile(r"rattle: .*\.rlib\b")
# How often it is asked again, with so many seconds between.
PATIENCE, PAUSE = 60, 5
# How long a check may take. Until the longest chain of crates is proved it gets little of the processors.
SECONDS = 9000
# How far it stands back behind the checks of rt ci (niceness).
BACK = "12"


class Trials:
    """Edits that are to be tried, and what came of those that were."""

    def __init__(self, repository, edits_of):
        self.repository = repository
        self.left = edits_of
        self.running = []
        self.seconds = collections.Counter()
        self.counts = collections.Counter()
        self.failed = []
        self.longest = SECONDS

    def begin(self, pool, proved):
        """Begins with the crates that are proved, with all below."""
        for name in [it for it in self.left if proved.issuperset([it, *self.repository.below(it)])]:
            labelled = [edit for edit in self.left.pop(name) if self.is_labelled(name, edit)]
            for together in rounds_of(labelled):
                self.running.append(pool.submit(self.try_round, name, together))

    def settle(self, pool, proved, later, said):
        """Edits that rt ci has tried too: those that its words settle are told, the others are tried here."""
        for name, found in later.items():
            self.left[name] = self.left.get(name, []) + [it for it in found if not self.is_settled(name, it, said.get(it.label, ""))]
        self.begin(pool, proved)

    def is_settled(self, name, edit, words):
        folder = self.repository.folder(name)
        kind = None if any(edits.faults(edit, folder)) else verdicts.of_rt(edit, folder, words)
        if kind:
            self.tell(edit, kind, words)
        return bool(kind)

    def end(self):
        """An edit that wasn't tried is a failure, also where its crate wasn't proved."""
        for it in self.running:
            it.result()
        for edits_left in self.left.values():
            for edit in edits_left:
                self.tell(edit, Kind.UNPROVED, "")

    def is_labelled(self, name, edit):
        """Whether the edit applies, and changes what it says. It is told where it doesn't."""
        crate = self.repository.folder(name)
        try:
            edits.spans(edit, crate)
        except (ValueError, OSError) as wrong:
            self.tell(edit, Kind.UNAPPLIED, str(wrong))
            return False
        wrong = next(edits.faults(edit, crate), None)
        if wrong:
            self.tell(edit, Kind.MISLABELLED, wrong)
        return not wrong

    def try_round(self, name, together):
        """Tries some edits of a crate in one check. Halves are tried where the compiler refuses them together."""
        lines = self.check(name, together)
        told = [(edit, *self.verdict(name, edit, together, lines)) for edit in together]
        if len(together) > 1 and all(kind is Kind.UNCOMPILED for _, kind, _ in told):
            half = len(together) // 2
            self.try_round(name, together[:half])
            self.try_round(name, together[half:])
            return
        for edit, kind, words in told:
            if len(together) > 1 and not (kind.is_refusal() or kind is Kind.PROVED):
                self.try_round(name, [edit])
            else:
                self.tell(edit, kind, words)

    def verdict(self, name, edit, together, lines):
        if lines is None:
            return Kind.UNTOLD, f"not done within {self.longest} seconds"
        others = [other.target for other in together if other is not edit]
        by_hand = verdicts.is_by_hand(edit.target, self.repository.folder(name))
        return verdicts.verdict(name, edit.target, others, by_hand, lines)

    def check(self, name, together):
        """The lines of a check that looks at the functions which the edits name. None where it takes too long."""
        with tempfile.TemporaryDirectory(prefix="edits-") as room:
            crate = pathlib.Path(room) / name
            shutil.copytree(self.repository.folder(name), crate, ignore=shutil.ignore_patterns("out"))
            edits.apply(together, crate)
            only = [word for it in together for word in ("--only", f"{name}::{it.target}")]
            for _ in range(PATIENCE):
                lines, taken = output(["nice", "-n", BACK, *self.repository.check(name), *only], crate, self.longest)
                self.seconds[name] += taken
                if lines is None or not any(map(UNREADY.match, lines)):
                    break
                time.sleep(PAUSE)
        return lines

    def tell(self, edit, kind, words):
        self.counts[kind] += 1
        if kind.is_refusal():
            print(f"edit {edit.label}: {kind.value}: {edit.target}: {words}"[:250], flush=True)
        else:
            self.failed.append(f"{edit.label}: {kind.value}: {words}"[:400])
            print(f"edit {self.failed[-1]}", flush=True)

    @property
    def refused(self):
        return sum(count for kind, count in self.counts.items() if kind.is_refusal())


def rounds_of(found):
    """Edits that can be tried in one check stand together: each changes the body of another function. Others stand alone."""
    rounds = []
    for edit in found:
        others = (it for it in rounds if edit.body and all(other.body and other.body != edit.body for other in it))
        if together := next(others, None):
            together.append(edit)
        else:
            rounds.append([edit])
    return rounds


def output(words, folder, seconds):
    """The lines that a program prints, None where it doesn't end in time, and the processor seconds that it takes."""
    with tempfile.TemporaryFile("w+", errors="replace") as said:
        ran = subprocess.Popen(words, cwd=folder, stdin=subprocess.DEVNULL, stdout=said, stderr=subprocess.STDOUT, process_group=0)
        late = threading.Event()
        clock = threading.Timer(seconds, lambda: (late.set(), os.killpg(ran.pid, signal.SIGKILL)))
        clock.start()
        _, status, used = os.wait4(ran.pid, 0)
        clock.cancel()
        ran.returncode = os.waitstatus_to_exitcode(status)
        said.seek(0)
        return None if late.is_set() else said.read().splitlines(), used.ru_utime + used.ru_stime
