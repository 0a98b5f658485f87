"""The crates of a repository, in its tree or in a copy, and the words of a check of one."""

import os
import pathlib
import shutil
import subprocess
import sys

TOP = pathlib.Path(__file__).resolve().parent.parent
KIT = pathlib.Path(os.path.realpath(shutil.which("rt") or "/opt/rattle/bin/rt")).parent.parent


class Repository:
    """What stands in a folder, by crates.txt's lines, lowest first."""

    def __init__(self, top, uses, static=()):
        self.top = top
        self.uses = uses
        self.static = static
        self.crates = list(uses)

    @classmethod
    def of_tree(cls):
        lines = (TOP / "crates.txt").read_text().splitlines()
        rows = [line.partition(":") for line in lines if line and not line.startswith("#")]
        static = {name.split()[0] for name, _, _ in rows if name.endswith(" staticlib")}
        return cls(TOP, {name.split()[0]: uses.split() for name, _, uses in rows}, static)

    def copy(self, top, names):
        """These crates and those below them, without the edits that rt ci would try."""
        for name in names:
            if name not in self.uses:
                sys.exit(f"gate: crates.txt has no crate {name}")
        wanted = {it for name in names for it in [name, *self.below(name)]}
        copied = Repository(top, {name: uses for name, uses in self.uses.items() if name in wanted}, self.static)
        left_out = shutil.ignore_patterns("out", "must-fail", "*.edits", "misuse")
        for name in copied.crates:
            shutil.copytree(self.folder(name), copied.folder(name), ignore=left_out)
        lines = [f"{copied.head(name)}: {' '.join(uses)}\n" for name, uses in copied.uses.items()]
        (top / "crates.txt").write_text("".join(lines))
        shutil.copy(TOP / "HANDLES", top)
        subprocess.run(["git", "init", "-q", top], check=True)
        return copied

    def head(self, name):
        """What stands before the colon of the crate's line: a static library, for C, is said to be one."""
        return f"{name} staticlib" if name in self.static else name

    def folder(self, name):
        return self.top / "crates" / name

    def below(self, name):
        """The crates that it stands on."""
        found = []
        for it in self.uses[name]:
            if it in self.uses:
                found += [low for low in [*self.below(it), it] if low not in found]
        return found

    def check(self, name):
        """The words of a check of the crate, over the libraries that rt ci has built."""
        rlib = lambda it: self.folder(it) / "out/rlib" / f"{it}.rlib"
        root = "main" if (self.folder(name) / "src/main.rt").exists() else "lib"
        words = [KIT / "bin/rattle", "check", "--crate-name", name, f"src/{root}.rt", "--jobs", "1"]
        words += ["--antt-project", f"{KIT}/rattle/logic/antt-project.json", "--logic-built", f"{KIT}/logic_built"]
        words += ["-L", f"dependency={KIT}/rlibs"]
        for it in ["std", *self.uses[name]]:
            words += ["--extern", f"{it}={rlib(it) if it in self.uses else f'{KIT}/rlibs/{it}.rlib'}"]
        for it in self.below(name):
            words += ["-L", f"dependency={rlib(it).parent}"]
        return words

    def drop_libraries(self):
        """Drops the libraries that earlier checks left: rt ci would set them aside, and put them in the place of its own as it ends, while
        edits are still being tried over these."""
        for name in self.crates:
            shutil.rmtree(self.folder(name) / "out/rlib", ignore_errors=True)

    def put_back(self):
        """Puts what a copy has built into the tree."""
        for name in self.crates:
            out = TOP / "crates" / name / "out"
            out.mkdir(exist_ok=True)
            for made in (self.folder(name) / "out").glob("*"):
                shutil.rmtree(out / made.name, ignore_errors=True)
                shutil.move(made, out / made.name)
                os.utime(out / made.name)
