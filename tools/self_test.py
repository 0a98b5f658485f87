"""Shows that edits of each kind are told as what they are, on a crate of four functions, one of which is proved by hand."""

import concurrent.futures
import dataclasses
import pathlib
import tempfile

import edits
import verdicts
from repository import Repository
from trials import Trials
from verdicts import Kind

FILES = {
    "src/lib.rt": """\
//! A crate to try the gate with.

#![tactic(auto)]

ghost use Rattle.std.specs.Prelude.{◌≡◌};
ghost use Rattle.tiny.specs.Numbers.{smaller_of, least_of, sum_of};

/// The smaller of two numbers.
pub fn smaller(one: u8, other: u8) -> u8
    ensures { result ≡ smaller_of one other }
{
    if one < other { one } else { other }
}

/// The least of three numbers.
pub fn least(one: u8, other: u8, third: u8) -> u8
    ensures { result ≡ least_of one other third }
{
    smaller(smaller(one, other), third)
}

/// The sum of two numbers, which is proved by hand.
pub fn sum(one: u8, other: u8) -> u16
    ensures { result ≡ sum_of one other }
{
    one as u16 + other as u16
}

/// A list as two.
pub fn halves(list: &mut [u8]) -> (&mut [u8], &mut [u8]) {
    let middle = list.len() / 2;
    list.split_at_mut(middle)
}
""",
    "specs/Lib.antt": "pub mod Numbers\n",
    "specs/Numbers.antt": """\
-- What the functions give.
use Rattle.std.specs.Prelude.{ℕ, ◌+◌, nat_lt, if◌then◌else◌}

abbrev pub smaller_of : ℕ → ℕ → ℕ
smaller_of one other = if nat_lt one other then one else other

abbrev pub least_of : ℕ → ℕ → ℕ → ℕ
least_of one other third = smaller_of (smaller_of one other) third

unfoldable pub sum_of : ℕ → ℕ → ℕ
sum_of one other = one + other
""",
    "proofs/sum/Answers.antt": """\
use Rattle.std.proofs.Common.{refl}
use Rattle.tiny.specs.Numbers.{sum_of}
use Rattle.tiny.proofs.sum.Goals as goal

pub returns : goal.returns
unfolding sum_of
returns c = refl
""",
}

SMALLER = "    if one < other { one } else { other }"
LEAST = "    smaller(smaller(one, other), third)"
SUM = "    one as u16 + other as u16"

# What is tried: how it has to be told, the line that names a function, the file, the old text and the new one.
CASES = {
    "a wrong answer": (Kind.REFUSED, "body: smaller", "src/lib.rt", SMALLER, "    if one < other { other } else { one }"),
    "a wrong caller beside a broken callee": (Kind.REFUSED, "body: least", "src/lib.rt", LEAST, "    smaller(smaller(one, one), third)"),
    "a wrong answer where the proof is by hand": (Kind.MISFIT, "body: sum", "src/lib.rt", SUM, "    one as u16 + one as u16"),
    "the same, which the proof by hand doesn't fit": (Kind.MISFIT, "body: sum", "src/lib.rt", SUM, "    other as u16 + one as u16"),
    "the same, with a goal that no answer is for": (Kind.MISFIT, "body: sum", "src/lib.rt", SUM, "    if one == 5 { return other as u16 + 5; } one as u16 + other as u16"),
    "the same": (Kind.PROVED, "body: smaller", "src/lib.rt", SMALLER, "    if other < one { other } else { one }"),
    "the same in a caller beside a broken callee": (Kind.PROVED, "body: least", "src/lib.rt", LEAST, "    smaller(one, smaller(other, third))"),
    "a broken callee": (Kind.CALLEE, "breaks: least", "src/lib.rt", SMALLER, "    if one < other { other } else { one }"),
    "a borrow": (Kind.BORROW, "body: halves", "src/lib.rt", "    list.split_at_mut(middle)", "    list.split_at_mut(list.len() / 2)"),
    "a name that isn't there": (Kind.UNCOMPILED, "body: smaller", "src/lib.rt", SMALLER, "    if one < another { one } else { other }"),
    "a temporary that is lent": (Kind.UNCOMPILED, "body: smaller", "src/lib.rt", SMALLER, "    *(match one { lent => &lent })"),
    "a definition with a bracket missing": (Kind.UNREADABLE, "breaks: least", "specs/Numbers.antt", "smaller_of (smaller_of one other) third", "smaller_of (smaller_of one other third"),
    "a definition with an argument missing": (Kind.UNREADABLE, "breaks: least", "specs/Numbers.antt", "smaller_of (smaller_of one other) third", "smaller_of (smaller_of one other)"),
    "a clause with an argument missing": (Kind.UNREADABLE, "breaks: least", "src/lib.rt", "result ≡ least_of one other third", "result ≡ least_of one other"),
    "a function that isn't there": (Kind.MISLABELLED, "breaks: largest", "src/lib.rt", SMALLER, "    if one < other { other } else { one }"),
    "the body of another function": (Kind.MISLABELLED, "body: least", "src/lib.rt", SMALLER, "    if one < other { other } else { one }"),
    "no function at all": (Kind.MISLABELLED, "wants: an open goal", "src/lib.rt", SMALLER, "    if one < other { other } else { one }"),
    "a text that isn't there": (Kind.UNAPPLIED, "body: least", "src/lib.rt", "    larger(one, other)", LEAST),
}
# What is tried in one check: these, and then alone what isn't settled; and each of the others by itself.
TOGETHER = (
    ("a wrong answer", "a wrong caller beside a broken callee", "a wrong answer where the proof is by hand", "a borrow"),
    ("a wrong answer", "the same in a caller beside a broken callee", "the same, which the proof by hand doesn't fit"),
    ("a name that isn't there", "a wrong caller beside a broken callee"),
)
LATE = "a check that takes too long"
OPEN = "note: src/lib.rt:{}:1: it is not proved that what the function ensures holds when it returns (`returns`)"
# What rt ci may say of an edit, and what that settles.
RT_SAYS = (
    ("a wrong answer", OPEN.format(9), Kind.REFUSED),
    ("a wrong answer", OPEN.format(16), None),
    ("a wrong answer", "", None),
    ("a broken callee", OPEN.format(9), None),
    ("a wrong answer where the proof is by hand", OPEN.format(23), Kind.MISFIT),
    ("a wrong answer where the proof is by hand", "./proofs/sum/Answers.antt:7:13: error: `returns`: the two types differ", Kind.MISFIT),
    ("a wrong answer where the proof is by hand", "./proofs/least/Answers.antt:7:13: error: `returns`: the two types differ", None),
)


class Told(Trials):
    """Trials that keep what came of each edit."""

    def __init__(self, repository):
        super().__init__(repository, {})
        self.kinds = {}

    def tell(self, edit, kind, words):
        self.kinds.setdefault(edit.label, set()).add(kind)


def edit_of(name):
    _, label, file, old, new = CASES[name]
    return edits.parsed(name, f"# {label}\nfile: {file}\nold: {old}\nnew: {new}\n")


def run():
    with tempfile.TemporaryDirectory(prefix="gate-self-test-") as room:
        repository = Repository(pathlib.Path(room), {"tiny": []})
        for file, text in FILES.items():
            path = repository.folder("tiny") / file
            path.parent.mkdir(parents=True, exist_ok=True)
            path.write_text(text)
        trials = Told(repository)
        alone = [[name] for name in CASES if not any(name in names for names in TOGETHER)]
        with concurrent.futures.ThreadPoolExecutor(2) as pool:
            list(pool.map(lambda names: try_together(trials, names), [*TOGETHER, *alone]))
        misread = [it for it in RT_SAYS if verdicts.of_rt(edit_of(it[0]), repository.folder("tiny"), it[1]) is not it[2]]
        trials.longest = 1
        trials.try_round("tiny", [dataclasses.replace(edit_of("a wrong answer"), label=LATE)])
    wanted = {name: {kind} for name, (kind, *_) in CASES.items()} | {LATE: {Kind.UNTOLD}}
    wrong = [name for name in wanted if trials.kinds.get(name) != wanted[name]]
    for name in wrong:
        print(f"self-test: {name}: {trials.kinds.get(name, 'nothing')}, not {wanted[name]}")
    for name, words, kind in misread:
        print(f"self-test: {name}: rt ci's words '{words}' are not read as {kind}")
    print(f"self-test: {len(wanted) - len(wrong)} edits told as what they are, {len(wrong)} not; {trials.seconds['tiny']:.0f} processor seconds")
    return int(bool(wrong or misread))


def try_together(trials, names):
    labelled = [edit for edit in map(edit_of, names) if trials.is_labelled("tiny", edit)]
    if labelled:
        trials.try_round("tiny", labelled)
