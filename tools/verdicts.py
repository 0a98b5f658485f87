"""What a check says of an edit, by the line that the prover prints of the function that the edit names.

An edit is refused where a goal of that very function stays open, of its contract or of its own safety, and the prover could read all that it
was given. These are told apart:

    refused      the prover, which had proved the function with no answers of ours, finds no proof of the goal any more; or it names
                 values at which the goal is false
    misfit       the function is proved by hand, or a lemma is, and what stands in proofs/ no longer fits or has no answer for the
                 goal. Whether that is false can't be told from what the prover prints: an edit that means the same as the code ends so too

Everything else is no refusal: a text that can't be read or has a wrong type, a definition that isn't admitted, a borrow that the prover
has no rule for, a callee that isn't proved, a proof file that is wanted for a new loop, and a prover that could not tell. Of a goal that
`search` left when it met one of its own limits the prover says no more than of others, so that counts as refused too.
"""

import enum
import re

import edits

ERROR = re.compile(r"(?:\./)?(src|specs|proofs)/(\S+?):\d+:\d+: error\b")
NOTE = re.compile(r"note: src/(\S+?)\.rt:\d+:\d+: it is not proved that .*?\(`([^`]+)`\)(.*)")
OPEN = re.compile(r"`search` did not prove ((?:`[^`]+`(?:, )?)+)")
FALSE = "allow values at which this goal is false"


class Kind(enum.Enum):
    REFUSED = "refused by an open goal"
    MISFIT = "refused, since a proof by hand no longer fits"
    PROVED = "NOT REFUSED: it is still proved"
    CALLEE = "NO REFUSAL: only what it calls is not proved"
    BORROW = "NO REFUSAL: the prover has no rule for a borrow"
    UNREADABLE = "NO REFUSAL: a definition or a contract is not admitted"
    UNTOLD = "NO VERDICT"
    UNCOMPILED = "NOT TRIED: the compiler refuses it"
    UNAPPLIED = "NOT TRIED: it can't be applied"
    MISLABELLED = "NOT TRIED: its label is wrong"
    UNPROVED = "NOT TRIED: its crate is not proved"

    def is_refusal(self):
        return self in (Kind.REFUSED, Kind.MISFIT)


def verdict(crate, function, others, by_hand, lines):
    """What the lines of a check say of a function, which is proved by hand or not, and the words that say so, where bodies of other
    functions were edited too."""
    if not any(line.startswith(("only=", "logic=")) for line in lines):
        return unchecked(crate, function, lines)
    head = f"fn {crate}::{function}: "
    said = next((line.removeprefix(head) for line in lines if line.startswith(head)), None)
    if said is None:
        return Kind.MISLABELLED, f"no function is named {function}"
    return kind_of(function, others, by_hand, said, lines), said


def of_rt(edit, folder, words):
    """What rt ci's words on an edit of one body say of that function: they are the first place that the prover found fault with. None
    where that settles nothing."""
    if not edit.body:
        return None
    note = re.match(r"note: (src/\S+?\.rt):(\d+):\d+: it is not proved that ", words)
    if note and edits.is_line_of(edit.body.split("::")[-1], (folder / note[1]).read_text(), int(note[2])):
        return Kind.MISFIT if is_by_hand(edit.body, folder) else Kind.REFUSED
    own = re.escape(edit.body.replace("::", "/"))
    return Kind.MISFIT if re.match(rf"(?:\./)?proofs/{own}/\S+?:\d+:\d+: error\b", words) else None


def is_by_hand(function, folder):
    """Whether answers of a function's goals stand in a crate's folder."""
    return (folder / "proofs" / function.replace("::", "/")).is_dir()


def unchecked(crate, function, lines):
    """Of a check that came to no verdict on any function."""
    for line in lines:
        if re.match(r"\S+:\d+:\d+: error\[", line):
            return Kind.UNCOMPILED, line
        if f"has no function `{crate}::{function}`" in line:
            return Kind.MISLABELLED, line
    return Kind.UNTOLD, lines[-1] if lines else "the check printed nothing"


def kind_of(function, others, by_hand, said, lines):
    if said.startswith("proved"):
        return Kind.PROVED
    if said.startswith("could not tell"):
        return Kind.UNTOLD
    if "did not admit" in said or "which antt" in said:
        return Kind.UNREADABLE
    if "the borrow checker" in said:
        return Kind.BORROW
    errors = [it for it in map(ERROR.match, lines) if it]
    if any(it[1] != "proofs" for it in errors):
        return Kind.UNREADABLE
    # Each function has a folder of its own in proofs/.
    elsewhere = tuple(f"{other.replace('::', '/')}/" for other in others)
    misfits = [it for it in errors if not it[2].startswith(elsewhere)]
    open_goals = re.findall(r"`([^`]+)`", found[1]) if (found := OPEN.search(said)) else []
    if open_goals and (not (misfits or by_hand) or is_false(function, open_goals, lines)):
        return Kind.REFUSED
    if open_goals or misfits and said.startswith("not proved"):
        return Kind.MISFIT
    if "it calls " in said:
        return Kind.CALLEE
    return Kind.UNTOLD


def is_false(function, open_goals, lines):
    """Whether the prover names values at which one of the function's open goals is false."""
    notes = [it for it in map(NOTE.match, lines) if it]
    return any(it[2] in open_goals and function.startswith(it[1].replace("/", "::")) and FALSE in it[3] for it in notes)
