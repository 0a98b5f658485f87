"""Has all runs of a plan played, by GNU parallel where it is installed, and joins their rows.

Beside ROWS.csv is a folder ROWS.csv.parts, until all rows are there. Its `kit` is all that a job needs (program, plan, template,
this tool), so what is changed meanwhile changes no row, and machines get no other file. `FIRST.rows` has the rows of a job,
`joblog` is that of parallel.
"""

import csv
import dataclasses
import hashlib
import os
import pathlib
import re
import shlex
import shutil
import subprocess
import sys
import time

import programs

from campaigns import plans, runs, scenarios, tallies

TOOLS = pathlib.Path(__file__).resolve().parent.parent
NO_PARALLEL = "GNU parallel is not installed (Debian: apt-get install parallel), so one job runs at a time"


class Stop(Exception):
    """Why a campaign ends early, with the exit status."""

    def __init__(self, text: str, status: int = 1) -> None:
        super().__init__(text)
        self.status = status


@dataclasses.dataclass(frozen=True)
class Job:
    first: int
    last: int


@dataclasses.dataclass(frozen=True)
class Campaign:
    plan: plans.Plan
    file: pathlib.Path
    out: pathlib.Path
    is_tally: bool
    chunk: int

    @property
    def parts(self) -> pathlib.Path:
        return self.out.with_name(self.out.name + ".parts")

    @property
    def kit(self) -> pathlib.Path:
        return self.parts / "kit"

    @property
    def jobs(self) -> list[Job]:
        return [Job(first, min(first + self.chunk - 1, self.plan.runs)) for first in range(1, self.plan.runs + 1, self.chunk)]

    @property
    def columns(self) -> list[str]:
        """The head of the rows of jobs."""
        if self.is_tally:
            return list(tallies.COLUMNS)
        return ["number", *(value.name for value in self.plan.values), *runs.MEASURES]

    def rows_of(self, job: Job) -> list[list[str]] | None:
        """The rows that a job left: none unless all are there."""
        part = self.parts / f"{job.first}.rows"
        if not part.exists():
            return None
        with open(part, newline="") as file:
            rows = list(csv.reader(file))
        wanted = [str(job.first)] if self.is_tally else [str(number) for number in range(job.first, job.last + 1)]
        is_whole = [row[0] for row in rows if row] == wanted and all(len(row) == len(self.columns) for row in rows)
        return rows if is_whole else None


def program(given: str | None) -> pathlib.Path:
    """The program that is named, that of a release, or the one that `./ringplay` starts, built first where it has to be."""
    if given:
        found = pathlib.Path(given)
        if not os.access(found, os.X_OK):
            raise Stop(f"{given} is no program that can be started; allowed: a built ringplay", 2)
        return found.resolve()
    if (released := programs.TOP / "bin/ringplay").exists():
        return released
    if subprocess.run([programs.TOP / "ringplay", "--version"], stdout=subprocess.DEVNULL).returncode:
        raise Stop("./ringplay cannot be built; see its message above")
    is_stale = subprocess.run([TOOLS / "is-stale", programs.RINGPLAY]).returncode == 0
    return programs.TOP / "out/ringplay-unproved" if is_stale else programs.RINGPLAY


def run(campaign: Campaign, ringplay: pathlib.Path, jobs: int, machines: str | None) -> int:
    """Plays what has not been played yet."""
    check_first(campaign, ringplay)
    begin(campaign, ringplay)
    if shutil.which("parallel"):
        here = ["--workdir", str(campaign.parts.resolve())]
        by_parallel(campaign, jobs, on_machines(campaign, machines) if machines else here)
        if machines:
            subprocess.run(["parallel", "--nonall", "--sshloginfile", machines, "rm", "-rf", folder_of(campaign)])
    elif machines:
        raise Stop(f"{NO_PARALLEL}: --machines needs it")
    else:
        print(f"campaign: {NO_PARALLEL}", file=sys.stderr)
        by_loop(campaign)
    return join(campaign)


def check_first(campaign: Campaign, ringplay: pathlib.Path) -> None:
    """That the program accepts the first run's file. Else the fault is one of the plan."""
    made = scenarios.make(campaign.plan, 1, runs.player(ringplay))
    done = subprocess.run([ringplay, "bounds", "-"], input=made.text, text=True, capture_output=True)
    if done.returncode:
        raise scenarios.blamed(campaign.plan, made, done.stdout, done.stderr)


def begin(campaign: Campaign, ringplay: pathlib.Path) -> None:
    """Makes the kit, or finds that it is the same as in an earlier call."""
    template = campaign.plan.template.source.file
    kit = {"ringplay": ringplay, "plan.toml": campaign.file} | ({"template.toml": template} if template != campaign.file else {})
    tools = [TOOLS / "campaign", TOOLS / "programs.py", *sorted(TOOLS.glob("campaigns/*.py"))]
    kit |= {f"tools/{file.relative_to(TOOLS)}": file for file in tools}
    stamp = "".join(f"{hashlib.sha256(file.read_bytes()).hexdigest()} {name}\n" for name, file in kit.items())
    stamp += f"chunk {campaign.chunk}, tally {campaign.is_tally}\n"
    stamped = campaign.parts / "stamp"
    if stamped.exists() and stamped.read_text() == stamp:
        return
    if stamped.exists():
        raise Stop(f"{campaign.parts} is of another plan, program or call; remove it, or name another --out")
    for name, file in kit.items():
        (campaign.kit / name).parent.mkdir(parents=True, exist_ok=True)
        shutil.copy(file, campaign.kit / name)
    stamped.write_text(stamp)


def words_of(campaign: Campaign, first: str, last: str) -> list[str]:
    """A job's call, in the kit's folder."""
    template = ["--template", "template.toml"] if (campaign.kit / "template.toml").exists() else []
    tally = ["--tally"] if campaign.is_tally else []
    return ["python3", "tools/campaign", "rows", "plan.toml", first, last, "--program", "./ringplay", *template, *tally]


def by_parallel(campaign: Campaign, jobs: int, where: list[str]) -> None:
    """Has GNU parallel start the jobs. What its log has is not done again."""
    results = ["--results", f"{campaign.parts.resolve()}/{{1}}.rows"]
    log = ["--joblog", str(campaign.parts / "joblog"), "--resume-failed"]
    words = ["parallel", "--jobs", str(jobs), "--colsep", " ", *log, *results]
    words += ["--bar", "--eta"] if sys.stderr.isatty() else []
    lines = "".join(f"{job.first} {job.last}\n" for job in campaign.jobs)
    words += [*where, "cd", "kit", "&&", *words_of(campaign, "{1}", "{2}")]
    # The rows are in the files of --results.
    subprocess.run(words, input=lines, text=True, stdout=subprocess.DEVNULL)


def on_machines(campaign: Campaign, machines: str) -> list[str]:
    """The machines of a file, each of which gets a copy of the kit."""
    if not pathlib.Path(machines).exists():
        raise Stop(f"no file of machines: {machines}; allowed: a file for parallel's --sshloginfile, a machine a line", 2)
    kit = f"{campaign.parts.resolve()}/./kit"
    return ["--sshloginfile", machines, "--workdir", folder_of(campaign), "--retries", "3", "--basefile", kit]


def folder_of(campaign: Campaign) -> str:
    """The folder of a campaign on another machine."""
    return "/tmp/ringplay-" + hashlib.sha256((campaign.parts / "stamp").read_bytes()).hexdigest()[:12]


def by_loop(campaign: Campaign) -> None:
    """Does the jobs one after the other, but those that are done, until one fails."""
    missing = [job for job in campaign.jobs if campaign.rows_of(job) is None]
    started = time.monotonic()
    for done, job in enumerate(missing):
        if sys.stderr.isatty() and done:
            left = (time.monotonic() - started) / done * (len(missing) - done)
            print(f"\rcampaign: {job.first - 1} of {campaign.plan.runs} runs, {left:.0f} s left  ", end="", file=sys.stderr)
        unfinished = campaign.parts / f"{job.first}.unfinished"
        with open(unfinished, "w") as file, open(campaign.parts / f"{job.first}.rows.err", "w") as said:
            words = words_of(campaign, str(job.first), str(job.last))
            if subprocess.run(words, cwd=campaign.kit, stdout=file, stderr=said).returncode:
                return
        unfinished.rename(campaign.parts / f"{job.first}.rows")


def join(campaign: Campaign) -> int:
    """Writes the rows of all jobs, in order, and removes the parts."""
    parts = [campaign.rows_of(job) for job in campaign.jobs]
    if missing := [job for job, part in zip(campaign.jobs, parts) if part is None]:
        print(*said_by(campaign, missing), sep="\n", file=sys.stderr)
        raise Stop(f"{len(missing)} of {len(parts)} jobs have left no rows in {campaign.parts}; the same call again does these")
    rows = [row for part in parts for row in part or []]
    ways = [f"tools/campaign make {shlex.quote(str(campaign.file))} {row[0]}" for row in rows]
    unfinished = campaign.out.with_name(campaign.out.name + ".unfinished")
    with open(unfinished, "w", newline="") as file:
        table = csv.writer(file, lineterminator="\n")
        table.writerow(campaign.columns + ([] if campaign.is_tally else ["make"]))
        table.writerows(row if campaign.is_tally else [*row, way] for row, way in zip(rows, ways))
    unfinished.rename(campaign.out)
    shutil.rmtree(campaign.parts)
    return told(campaign, rows)


def said_by(campaign: Campaign, missing: list[Job]) -> list[str]:
    """What the first of the failed jobs said, with the plan's own names for the files of the kit."""
    for job in missing:
        said = campaign.parts / f"{job.first}.rows.err"
        if said.exists() and (text := said.read_text().strip()):
            text = re.sub(r"^plan\.toml:", f"{campaign.file}:", text, flags=re.MULTILINE)
            return [re.sub(r"^template\.toml:", f"{campaign.plan.template.source.file}:", text, flags=re.MULTILINE)]
    return []


def told(campaign: Campaign, rows: list[list[str]]) -> int:
    """Says what was found, and how to make the files of violations."""
    named = [dict(zip(campaign.columns, row)) for row in rows]
    counts: dict[str, int] = {}
    violating: list[int] = []
    for row in named:
        if campaign.is_tally:
            found = {"fine": int(row["fine"]), "premise broken": int(row["premise_broken"]), "refused": int(row["refused"])}
            violating += map(int, row["violating"].split())
        else:
            found = {} if row["verdict"].startswith("VIOLATION") else {row["verdict"]: 1}
            violating += [int(row["number"])] if not found else []
        counts = {verdict: counts.get(verdict, 0) + found.get(verdict, 0) for verdict in {**counts, **found}}
    texts = [f"{count} {verdict}" for verdict, count in counts.items() if count]
    texts += [f"{len(violating)} VIOLATIONS"] if violating else []
    print(f"campaign: {campaign.plan.runs} runs in {campaign.out}: {', '.join(texts)}", file=sys.stderr)
    refused = [row for row in named if row.get("verdict") == "refused"]
    for row in refused[:1]:
        print(f"campaign: the first refused run, {row['number']}: {row['premises']}", file=sys.stderr)
    for number in violating[:10]:
        print(f"campaign: a violation: tools/campaign make {campaign.file} {number}", file=sys.stderr)
    return int(bool(violating))
