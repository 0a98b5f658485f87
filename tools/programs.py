"""The programs that tests run, and calls of them. A call that doesn't end within its seconds is ended, and has no status."""

import os
import pathlib
import signal
import subprocess
import sys

TOP = pathlib.Path(__file__).resolve().parent.parent
RINGPLAY = TOP / "crates/ringplay/out/ringplay"
PLAYER = TOP / "crates/event_player/out/event_player"
# Far more than any call of a test takes.
SECONDS = 120


def build(program):
    """Proves and builds a program first where a source is newer than it. A failed build ends the test with status 70."""
    if subprocess.run([TOP / "tools/is-stale", program]).returncode == 1:
        return
    print(f"proving and building {program.name}, which takes about half an hour the first time", file=sys.stderr)
    # 'rt run' also runs what it builds: over the crate's stored input.
    crate = program.parent.parent
    with open(crate / "stdin", "rb") as given:
        words = (crate / "args").read_text().splitlines() if (crate / "args").exists() else []
        built = subprocess.run(["rt", "run", "--", *words], cwd=crate, stdin=given, stdout=sys.stderr)
    if built.returncode or not program.exists():
        print(f"{program.name}: the build failed", file=sys.stderr)
        sys.exit(70)
    program.touch()


def call(words, seconds=SECONDS, **given):
    """What a call prints, and its status: None where it didn't end."""
    given = {"stdin": subprocess.DEVNULL, "stdout": subprocess.PIPE, "stderr": subprocess.PIPE} | given
    given_text = given.pop("input", None)
    if given_text is not None:
        given["stdin"] = subprocess.PIPE
    with subprocess.Popen(words, start_new_session=True, **given) as ran:
        try:
            out, said = ran.communicate(given_text, seconds)
            status = ran.returncode
        except subprocess.TimeoutExpired:
            os.killpg(ran.pid, signal.SIGKILL)
            out, said = ran.communicate()
            status, said = None, f"it does not end within {seconds} seconds".encode()
    return subprocess.CompletedProcess(words, status, out or b"", said or b"")


def tell(equal, differ):
    """Prints how many cases are as they must be, and gives the status of the script: 0 only where there are some, and all are."""
    print(f"{equal} equal, {differ} differ")
    return int(differ > 0 or equal == 0)
