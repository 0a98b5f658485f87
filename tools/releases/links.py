"""The documents of a release: those of the repository, with links between what a release has."""

import os
import pathlib
import re

LINK = re.compile(r"(!?)\[([^]]*)\]\(([^)\s]+)\)")
HEADING = re.compile(r"^#+ (.*)$", re.M)
# Where a release has what stands elsewhere in the repository.
MOVED = {"docs/RELEASE.md": "README.md", "bindings/python": "python", "bindings/rust": "rust"}


def place_of(path):
    """Where a release has a path of the repository."""
    return moved(path, MOVED.items())


def source_of(place):
    """The path of the repository that a release has at a place."""
    return moved(place, ((new, old) for old, new in MOVED.items()))


def moved(path, pairs):
    for before, after in pairs:
        if path == before or path.startswith(before + "/"):
            return after + path[len(before) :]
    return path


def relinked(text, path, release):
    """The text of a document with its links as the release has them. A link to what it does not have becomes its text."""

    def linked(link):
        mark, shown, target = link.groups()
        if "://" in target:
            return link[0]
        file, _, heading = target.partition("#")
        wanted = place_of(os.path.normpath(os.path.join(os.path.dirname(path), file))) if file else place_of(path)
        if not (release / wanted).exists() or (heading and heading not in anchors(release / wanted)):
            return shown
        relative = os.path.relpath(wanted, os.path.dirname(place_of(path))) if file else ""
        return f"{mark}[{shown}]({relative}{'#' if heading else ''}{heading})"

    return LINK.sub(linked, text)


def anchors(document):
    """The names of a document's headings in links."""
    words = lambda heading: re.sub(r"[^\w\- ]", "", heading.lower()).replace(" ", "-")
    return {words(heading) for heading in HEADING.findall(pathlib.Path(document).read_text())}


def dead(release):
    """The relative links of a release's documents that lead nowhere, with their documents."""
    found = []
    for document in sorted(release.rglob("*.md")):
        for _, _, target in LINK.findall(document.read_text()):
            file, _, heading = target.partition("#")
            wanted = document.parent / file if file else document
            if "://" not in target and (not wanted.exists() or (heading and heading not in anchors(wanted))):
                found.append(f"{document.relative_to(release)}: {target}")
    return found
