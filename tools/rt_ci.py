#!/usr/bin/env python3
"""Runs rt ci, in an order that suits this tree.

    tools/rt_ci.py

What is checked, by which words, and what is said of it is rt's own: its file is loaded as a module. With kit 13b three things in it are
set, since it is not done in three hours for this tree without them: what it asks again and again of the graph of crates it computes once
(it follows each path of crates.txt, 67,000 from ringplay); the crate with the longest chain of others behind it gets the processors
that it can use, while others run on what it leaves, with one job each, since each further job loads all libraries once more; and the
check of a static library keeps what it has proved, as that of a program does, so that its archive is built without a second proof.
With another kit it is 'rt ci' as it is.
"""

import concurrent.futures
import functools
import importlib.machinery
import importlib.util
import json
import os
import pathlib
import re
import shutil
import sys
import threading

RT = pathlib.Path(os.path.realpath(shutil.which("rt") or "/opt/rattle/bin/rt"))
KIT = RT.parent.parent
# The kit that this file was written for.
KNOWN = "rattle-kit-13b "
# How far each kind of task stands back behind the check that most wait for (niceness).
BACK = {"proof": 5, "tests": 10, "edits": 15}
# How many lines of code are worth a job.
LINES = 1000
# What must stay free of memory, and what part of rt's estimate a check takes in fact, and with each further job.
SPARE = 2_000_000_000
PART = {"proof": 0.4, "tests": 0.6, "edits": 0.5}
PART_OF_JOB = 0.1


def main():
    if not (KIT / "KIT-ID").read_text().startswith(KNOWN):
        os.execv(RT, [RT, "ci"])
    rt = loaded()
    compute_once(rt.rtlib.Crate, "stamp")
    compute_once(rt.rtlib.Crate, "below")
    keep_checked(rt.Crate)
    rt.in_lanes = in_order
    return rt.main(["ci"])


def loaded():
    """The kit's rt, as a module. Nothing is written beside it."""
    sys.dont_write_bytecode = True
    loader = importlib.machinery.SourceFileLoader("rt", str(RT))
    rt = importlib.util.module_from_spec(importlib.util.spec_from_loader("rt", loader))
    loader.exec_module(rt)
    return rt


def compute_once(crates, name):
    """Has a method of crates keep what it gave for each. No source changes while rt ci runs."""
    whole, kept = getattr(crates, name), {}

    @functools.wraps(whole)
    def once(crate):
        if crate.folder not in kept:
            kept[crate.folder] = whole(crate)
        return kept[crate.folder]

    setattr(crates, name, once)


def keep_checked(crates):
    """Has the check of a static library leave in its out/ what it has proved, and its own words (library.py builds the archive by them)."""
    whole = crates.ci

    @functools.wraps(whole)
    def ci(crate, flags, tests):
        if tests or not crate.is_static:
            return whole(crate, flags, tests)
        words, out = crate.words(flags, keeps=False), pathlib.Path(crate.folder) / "out"
        (out / "checked.words").write_text(json.dumps(words))
        return crate.prove(["check", *words, "-o", str(out / "checked")])

    crates.ci = ci


def in_order(tasks):
    """Runs tasks side by side, each once those that it waits for have ended, and gives what each gave. A task is what it waits for, its
    lines, its memory by rt's estimate, and a call that gets what was given and a number of jobs."""
    processors = len(os.sched_getaffinity(0))
    behind = chains(tasks)
    left, running, given = sorted(tasks, key=lambda it: (it[1] != "proof", -behind[it])), {}, {}
    while left or running:
        proofs = [it for it in [*left, *(key for key, _ in running.values())] if it[1] == "proof"]
        first = max(proofs, key=behind.get, default=None)
        for key in [it for it in left if all(below in given for below in tasks[it][0])]:
            jobs = max(1, min(processors, tasks[key][1] // LINES)) if key == first else 1
            needs = tasks[key][2] * (PART[key[1]] + PART_OF_JOB * (jobs - 1))
            room = free() - sum(needs for _, needs in running.values()) / 2
            if not running or len(running) <= processors and needs <= room:
                left.remove(key)
                back = 0 if key == first else BACK[key[1]]
                running[begun(tasks[key][3], given, jobs, back)] = key, needs
            elif key == first:
                # Most wait for it: nothing is begun that takes the memory which it waits for.
                break
        for it in concurrent.futures.wait(running, return_when=concurrent.futures.FIRST_COMPLETED).done:
            given[running.pop(it)[0]] = it.result()
    return given


def chains(tasks):
    """For each task the lines of code of the longest chain that begins with it. Those a task waits for come before it."""
    behind = dict.fromkeys(tasks, 0)
    for key in reversed([*tasks]):
        behind[key] += tasks[key][1]
        for it in tasks[key][0]:
            behind[it] = max(behind[it], behind[key])
    return behind


def free():
    """The memory that is free, less what must stay so."""
    return int(re.search(r"MemAvailable: +(\d+)", pathlib.Path("/proc/meminfo").read_text())[1]) * 1024 - SPARE


def begun(call, given, jobs, back):
    """Begins a call in a thread of its own, whose niceness its children have."""
    made = concurrent.futures.Future()

    def work():
        os.setpriority(os.PRIO_PROCESS, threading.get_native_id(), back)
        try:
            made.set_result(call(given, jobs))
        except BaseException as wrong:
            made.set_exception(wrong)

    threading.Thread(target=work).start()
    return made


if __name__ == "__main__":
    sys.exit(main())
