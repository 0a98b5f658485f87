"""The library for C that tests link: how it is built, and laid out as a release has it."""

import json
import shutil
import subprocess
import sys

import repository

TOP = repository.TOP
# The library, its header, and the functions of its heap over malloc.
LIBRARY = TOP / "crates/pbfdl/out/libpbfdl.a"
HEADER = TOP / "include/pbfdl.h"
HEAP = repository.KIT / "c/liblibc_c.a"


def build():
    """Proves and builds the library for C first where a source is newer than it. A failed build ends the test with status 70."""
    if not is_stale():
        return
    built = subprocess.run(["rt", "lib"], cwd=LIBRARY.parent.parent, stdout=sys.stderr)
    if built.returncode or not LIBRARY.exists():
        print("libpbfdl.a: the build failed", file=sys.stderr)
        sys.exit(70)
    LIBRARY.touch()


def build_over(tree):
    """Builds the library over the crates that rt ci has proved and left in this tree: rt ci proves the border too, and keeps no archive of
    it, and 'rt lib' would prove all crates below once more. Gives what the compiler said where that failed."""
    LIBRARY.parent.mkdir(exist_ok=True)
    words = proved_words() or [*tree.check("pbfdl")[2:], "--crate-type", "staticlib"]
    words = ["nice", "-n", "19", repository.KIT / "bin/rattle", "build", *words]
    words += ["--toolchain", repository.KIT / "toolchain", "--backend", "llvm", "-o", LIBRARY]
    built = subprocess.run(words, cwd=tree.folder("pbfdl"), stdout=subprocess.PIPE, stderr=subprocess.STDOUT, text=True, errors="replace")
    return built.stdout if built.returncode or not LIBRARY.exists() else ""


def proved_words():
    """The words of a build that takes what the border's check has left (rt_ci.py), if it left that."""
    kept, checked = LIBRARY.parent / "checked.words", LIBRARY.parent / "checked"
    if not kept.exists() or not checked.exists():
        return []
    words = json.loads(kept.read_text())
    for flag in ("--logic-built", "--jobs"):
        at = words.index(flag)
        del words[at : at + 2]
    return [*words, "--crate-checked", checked]


def is_stale():
    """Whether the library is missing, or older than a source of it."""
    if not LIBRARY.exists():
        return True
    tree = repository.Repository.of_tree()
    folders = [tree.folder(name) / part for name in ["pbfdl", *tree.below("pbfdl")] for part in ("src", "specs", "proofs")]
    sources = [TOP / "crates.txt", *(it for folder in folders for it in folder.rglob("*") if it.is_file())]
    return max(it.stat().st_mtime for it in sources) > LIBRARY.stat().st_mtime


def lay(folder, library=LIBRARY, header=HEADER):
    """Puts lib/libpbfdl.a, with the functions of its heap, and include/pbfdl.h into a folder, as a release has them."""
    for part in ("lib", "include"):
        (folder / part).mkdir(parents=True, exist_ok=True)
    script = f"CREATE {folder}/lib/libpbfdl.a\nADDLIB {library}\nADDLIB {HEAP}\nSAVE\nEND\n"
    subprocess.run(["ar", "-M"], input=script, text=True, check=True)
    shutil.copy(header, folder / "include/pbfdl.h")
