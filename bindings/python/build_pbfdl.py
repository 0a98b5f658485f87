"""Builds the package: a wheel with its shared object, made by the C compiler from libpbfdl.a (PEP 517). It needs no other package.

libpbfdl.a is looked for in this order: in the folder `lib` of the folder that the environment variable PBFDL_DIR names; in
`lib` here, as in a source archive; in `lib` beside this folder, as in a release; in the repository, where `rt lib` in
crates/pbfdl builds it. CC names the C compiler, else it is cc.
"""

import base64
import hashlib
import io
import os
import pathlib
import re
import shutil
import subprocess
import sysconfig
import tarfile
import tempfile
import zipfile

HERE = pathlib.Path(__file__).resolve().parent
REPOSITORY = HERE.parent.parent
PACKAGE = HERE / "src/pbfdl"
# Only the library's own functions can be called from outside.
EXPORTS = "{ global: fdl_*; local: *; };\n"


def get_requires_for_build_wheel(config_settings=None):
    return []


def get_requires_for_build_sdist(config_settings=None):
    return []


def build_wheel(wheel_directory, config_settings=None, metadata_directory=None):
    name = f"pbfdl-{project('version')}"
    tag = f"py3-none-{re.sub('[-.]', '_', sysconfig.get_platform())}"
    files = {f"pbfdl/{path.name}": path.read_bytes() for path in [*sorted(PACKAGE.glob("*.py")), PACKAGE / "py.typed"]}
    files["pbfdl/libpbfdl.so"] = shared_object()
    files[f"{name}.dist-info/METADATA"] = metadata().encode()
    files[f"{name}.dist-info/WHEEL"] = f"Wheel-Version: 1.0\nGenerator: build_pbfdl\nRoot-Is-Purelib: false\nTag: {tag}\n".encode()
    files[f"{name}.dist-info/RECORD"] = record(files, f"{name}.dist-info/RECORD").encode()
    wheel = f"{name}-{tag}.whl"
    with zipfile.ZipFile(pathlib.Path(wheel_directory, wheel), "w", zipfile.ZIP_DEFLATED) as packed:
        for path, data in files.items():
            # A fixed date, so that equal files give an equal wheel.
            entry = zipfile.ZipInfo(path)
            entry.external_attr = 0o644 << 16
            packed.writestr(entry, data, zipfile.ZIP_DEFLATED)
    return wheel


def build_sdist(sdist_directory, config_settings=None):
    """The sources with the archive, which the source of a package would otherwise lack."""
    name = f"pbfdl-{project('version')}"
    with tempfile.TemporaryDirectory() as room:
        top = pathlib.Path(room, name)
        shutil.copytree(HERE, top, ignore=shutil.ignore_patterns("*.so", "*.whl", "__pycache__", "lib"))
        (top / "lib").mkdir()
        merge(archives(), top / "lib/libpbfdl.a")
        (top / "PKG-INFO").write_text(metadata())
        with tarfile.open(pathlib.Path(sdist_directory, f"{name}.tar.gz"), "w:gz", format=tarfile.PAX_FORMAT) as packed:
            packed.add(top, name)
    return f"{name}.tar.gz"


def archives():
    """The archives to link: libpbfdl.a, and one with its heap functions where it does not hold them itself."""
    named = os.environ.get("PBFDL_DIR")
    for folder in [pathlib.Path(named)] if named else [HERE, HERE.parent]:
        if (folder / "lib/libpbfdl.a").exists():
            return [folder / "lib/libpbfdl.a"]
    library = REPOSITORY / "crates/pbfdl/out/libpbfdl.a"
    if named or not library.exists():
        where = named or f"{HERE.parent}, nor in {library.parent}"
        raise SystemExit(f"pbfdl: there is no lib/libpbfdl.a in {where}; PBFDL_DIR can name the folder of a release")
    toolchain = pathlib.Path(os.path.realpath(shutil.which("rt") or "/opt/rattle/bin/rt")).parent.parent
    return [library, toolchain / "c/liblibc_c.a"]


def merge(parts, whole):
    """One archive with the members of others."""
    script = "".join([f"CREATE {whole}\n", *(f"ADDLIB {part}\n" for part in parts), "SAVE\nEND\n"])
    subprocess.run(["ar", "-M"], input=script, text=True, check=True)


def shared_object():
    """The library as a shared object."""
    with tempfile.TemporaryDirectory() as room:
        exports, made = pathlib.Path(room, "exports"), pathlib.Path(room, "libpbfdl.so")
        exports.write_text(EXPORTS)
        words = [*os.environ.get("CC", "cc").split(), "-shared", "-o", made, "-Wl,-soname,libpbfdl.so", "-Wl,-z,defs"]
        words += [f"-Wl,--version-script={exports}", "-Wl,--whole-archive", *archives(), "-Wl,--no-whole-archive"]
        subprocess.run(words, check=True)
        return made.read_bytes()


def project(key):
    """A text of pyproject.toml, which Python 3.9 and 3.10 have no reader for."""
    return re.search(rf'^{key} = "(.*)"$', (HERE / "pyproject.toml").read_text(), re.M)[1]


def metadata():
    head = f"Metadata-Version: 2.1\nName: pbfdl\nVersion: {project('version')}\nSummary: {project('description')}\n"
    head += f"Requires-Python: {project('requires-python')}\nDescription-Content-Type: text/markdown\n"
    return f"{head}\n{(HERE / 'README.md').read_text()}"


def record(files, own):
    """The list of a wheel's files with their checksums."""
    lines = io.StringIO()
    for path, data in files.items():
        digest = base64.urlsafe_b64encode(hashlib.sha256(data).digest()).rstrip(b"=").decode()
        lines.write(f"{path},sha256={digest},{len(data)}\n")
    lines.write(f"{own},,\n")
    return lines.getvalue()
