"""What the measurements of the program share: scenario files of the kinds that `world_plain make` makes, and how programs are
run and timed."""

import collections
import json
import os
import pathlib
import re
import resource
import shutil
import subprocess
import sys
import time

TOP = os.path.dirname(os.path.dirname(os.path.abspath(__file__)))
OURS = f"{TOP}/crates/ringplay/out/ringplay"
BUS = {"tsl": 100, "tid1": 37, "tid2": 60, "tsdr": 11, "lag": 0, "ttr": 10_000, "gap": 10, "hsa": 5, "retries": 1, "ttd": 0}

# The plain program as a crate that reads TOML by another.
MANIFEST = """[package]
name = "world_plain"
version = "0.1.0"
edition = "2024"
[[bin]]
name = "world_plain"
path = "%s/bench/world_plain.rs"
[features]
toml = []
[dependencies]
toml = { version = "0.5", default-features = false }
hex = "0.4"
"""

# Seconds by the wall's clock, and of processors for all threads.
Spent = collections.namedtuple("Spent", "wall processor")


def build(folder, name):
    """Builds a plain program of this folder into another, and answers its path."""
    path = f"{folder}/{name}"
    subprocess.run(["rustc", "--edition", "2024", "-O", "-o", path, f"{TOP}/bench/{name}.rs"], check=True)
    return path


def build_toml(folder):
    """Builds world_plain with the crates toml and hex of Debian, which reads any TOML, and answers its path; None where they or cargo are
    missing (Debian's packages librust-toml-dev, librust-hex-dev)."""
    registry = pathlib.Path("/usr/share/cargo/registry")
    if not shutil.which("cargo") or not all([*registry.glob(f"{name}-[0-9]*")] for name in ("toml", "hex")):
        return None
    crate = pathlib.Path(folder) / "world_toml"
    (crate / ".cargo").mkdir(parents=True)
    source = '[source.crates-io]\nreplace-with = "debian"\n[source.debian]\ndirectory = "%s"\n' % registry
    (crate / ".cargo/config.toml").write_text(source)
    (crate / "Cargo.toml").write_text(MANIFEST % TOP)
    subprocess.run(["cargo", "build", "--release", "--offline", "--quiet", "--features", "toml"], cwd=crate, check=True)
    return f"{crate}/target/release/world_plain"


def build_ours():
    """Proves and builds the program where a source is newer than it."""
    if subprocess.run([f"{TOP}/ringplay", "prove"], stdin=subprocess.DEVNULL).returncode != 0:
        sys.exit("bench: no program to measure")


def output(program, data=b"", *before):
    """What a program prints; stops where it fails."""
    done = subprocess.run([*before, *program], input=data, stdout=subprocess.PIPE, stderr=subprocess.PIPE)
    if done.returncode not in (0, 1):
        sys.exit(f"bench: {program} ended with {done.returncode}: {done.stderr[-500:].decode()}")
    return done.stdout, done.stderr


def processor_time():
    """What all programs that have ended have taken."""
    used = resource.getrusage(resource.RUSAGE_CHILDREN)
    return used.ru_utime + used.ru_stime


def timed(program, data=b""):
    """What a program takes."""
    before, began = processor_time(), time.perf_counter()
    output(program, data)
    return Spent(time.perf_counter() - began, processor_time() - before)


def instructions(program, data=b""):
    """How many instructions a program takes, with all its threads."""
    told = output(program, data, "valgrind", "--tool=callgrind", "--callgrind-out-file=/dev/null")[1]
    return int(re.search(rb"Collected : (\d+)", told).group(1))


def peak(program):
    """The most memory that a program holds, in KiB."""
    held = "import resource, subprocess, sys; subprocess.run(sys.argv[1:], stdout=subprocess.DEVNULL); "
    held += "print(resource.getrusage(resource.RUSAGE_CHILDREN).ru_maxrss)"
    return int(subprocess.run([sys.executable, "-c", held, *program], capture_output=True, check=True).stdout)


def step(now, event):
    """What an event is as a step of a scenario, or None for turns and time."""
    if "Start" in event:
        return f'{{ at = {now}, do = "start", tap = "t{event["Start"]}" }}'
    if "Queue" in event:
        q = event["Queue"]
        high = "true" if q["high"] else "false"
        asks = f'service = "{q["service"]}", to = {q["da"]}, high = {high}, unit = "{q.get("unit", "")}"'
        return f'{{ at = {now}, do = "queue", tap = "t{q["tap"]}", {asks} }}'
    return None


def scenario(data, until):
    """The scenario file of a list of events: its starts and requests become steps."""
    now, steps = 0, []
    for event in data["events"]:
        if "Pass" in event:
            now += event["Pass"]
        elif line := step(now, event):
            steps.append(line)
    bus = BUS | {key: value for key, value in data.get("bus", {}).items() if key in BUS}
    taps = [
        f'{{ name = "t{place}", kind = "{tap["kind"]}", address = {tap["address"]}, reply = "{tap.get("reply", "")}" }}'
        for place, tap in enumerate(data["taps"])
    ]
    written = ", ".join(f"{key} = {value}" for key, value in bus.items())
    tables = f"bus = {{ {written} }}\ntap = [{', '.join(taps)}]\nstep = [{', '.join(steps)}]\n"
    return f"version = 2\nuntil = {until}\n{tables}"


def make(plain, folder, kind, until):
    """The event list of a kind as `world_plain` makes it, and the path of the scenario file whose run it is."""
    made = output([plain, "make", kind, str(until)])[0]
    path = f"{folder}/{kind}-{until}.toml"
    with open(path, "w", encoding="utf-8") as file:
        # the list ends before that moment, and a scenario with its last one
        file.write(scenario(json.loads(made), until - 1))
    return made, path
