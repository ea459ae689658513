#!/usr/bin/env python3
"""Tries tools/check_edits on a small crate with one edit and what the prover says of it: as they should be, and each with one fault,
which it must name."""
import os
import subprocess
import sys
import tempfile
from pathlib import Path

TOOL = Path(__file__).parent.parent / "tools" / "check_edits"

SOURCE = """const FIRST: u32 = 1;

pub fn above(n: u32) -> u32 {
    below(n) + FIRST
}

const LAST: u32 = 9;

#[unsafe(no_mangle)]
pub extern "C" fn exported(n: u32) -> u32 {
    n + LAST
}

fn below(n: u32) -> u32 {
    n - 1
}

impl Few {
    pub fn twice(self) -> u32 {
        2 * self.n
    }
}

impl<T> From<few::Few> for Many<T> {
    fn from(few: Few) -> Self {
        Many(few.n)
    }
}

impl Halves for u32 {
    fn half(self) -> u32 {
        self / 8
    }
}

fn last(n: u32) -> u32 {
    n * 3
}

pub trait Halved {
    fn halved(self) -> u32 {
        self.n / 2
    }

    #[cycle(down)]
    fn down(self) -> u32 {
        self.n - 3
    }
}
"""

BOTH = """# both: off by one
file: src/a.rt
old:     below(n) + FIRST
new:     below(n) + 2
old:     n - 1
new:     n - 2
"""

METHODS = """# a method, two of traits' impls, a function behind them, and two of a trait, one of which is in a cycle of calls
file: src/a.rt
old:         2 * self.n
new:         3 * self.n
old:         Many(few.n)
new:         Many(few.n + 1)
old:         self / 8
new:         self / 9
old:     n * 3
new:     n * 4
old:         self.n / 2
new:         self.n / 3
old:         self.n - 3
new:         self.n - 4
"""
BETWEEN = "file: src/a.rt\nold: impl Few {\nnew: impl Some {\n"

TWICE = BOTH + "old: below(n) + 2\nnew: below(n) + 3\n"
EXPORTED = "file: src/a.rt\nold:     n + LAST\nnew:     n + 8\n"
SIGNATURE = "file: src/a.rt\nold: fn below(n: u32)\nnew: fn below(n: u64)\n"
CONSTANT = "file: src/a.rt\nold: const LAST: u32 = 9;\nnew: const LAST: u32 = 8;\n"

AT = "./proofs/a/{0}/Answers.antt:5:1: "
OWN = AT + "error: `returns`: as printed, the two types differ only where one has `1` (expected) and the other has `2` (found)\n"
NOTE = AT + "note: the two sides may simply be different\n"
CALLED = AT + "error: 1 declaration that depends on `closed`, which was not admitted, was not checked: returns\n"
LAW = AT + "error: `returns`: `a-law` was not admitted, so this cannot be checked\n"
RENAMED = AT + "error: `returns-then-n`: `goal.returns-then-n`: module `Goals` has no `returns-then-n` that can be named from here\n"
FIELD = AT + "error: `returns`: record `Else1` has no field `if-n-lt0` (nearest: .if-n-lt1)\n"
WRAPPED = AT + "error: `returns`: record `Else1` (nearest: .if-n-lt1)\n  has no field `if-n-lt0`\n"
SCOPE = AT + "error: `returns`: `low` is not in scope\n"
SEARCH = "fn {1}::a::{0}: no proof: expected answers in ./proofs/a/{0}/Answers.antt; `search` did not prove `returns`\n"
OPEN = "fn small::a::{0}: not proved; `search` did not prove `returns`; it calls `small::a::low`, which is not proved\n"
CALLS = "fn small::a::{0}: not proved; it calls `small::a::low`, which is not proved\n"
CYCLE = OWN.format("+below_more")
OF_FEW = OWN.format("U32Halves/half") + OWN.format("Few/twice") + OWN.format("last") + OWN.format("Halved/halved") + OWN.format("Halved/+down")
OF_METHODS = OF_FEW + SEARCH.format("ManyFromFew::from", "small")
ABOVE, BELOW, RIGHT = OWN.format("above"), OWN.format("below"), OWN.format("above") + OWN.format("below")

# What is tried, the edit, what the prover says of it (None: no verdict), and a word that the tool must say, or None where nothing is
# wrong.
CASES = [
    ("as it should be", BOTH, RIGHT, None),
    ("a text that the edit itself made", TWICE, RIGHT, None),
    ("an export", EXPORTED, OWN.format("exported"), None),
    ("a signature", SIGNATURE, BELOW, None),
    ("methods", METHODS, OF_METHODS, None),
    ("a method that is not refused", METHODS, OF_FEW, "a::ManyFromFew::from"),
    ("a change between functions", BETWEEN, RIGHT, "outside every function"),
    ("refused without a proof file", BOTH, SEARCH.format("above", "small") + BELOW, None),
    ("refused by an open goal beside a refused call", BOTH, OPEN.format("above") + BELOW, None),
    ("a function that is not refused", BOTH, ABOVE, "a::below"),
    ("an export that is not refused", EXPORTED, RIGHT, "a::exported"),
    ("a function of another crate refused", BOTH, SEARCH.format("above", "other") + BELOW, "a::above"),
    ("another function refused", BOTH, SEARCH.format("exported", "small") + BELOW, "a::above"),
    ("refused only for what it calls", BOTH, CALLED.format("above") + BELOW, "a::above"),
    ("refused only for what it calls, without a proof file", BOTH, CALLS.format("above") + BELOW, "a::above"),
    ("refused only for a law that it cites", BOTH, LAW.format("above") + BELOW, "a::above"),
    ("a note and no error", BOTH, NOTE.format("above") + BELOW, "a::above"),
    ("another cycle of calls refused", BOTH, ABOVE + CYCLE, "a::below"),
    ("a goal that the edit took away", BOTH, RIGHT + RENAMED.format("above"), "unfit"),
    ("a proof that lacks a field now", BOTH, RIGHT + FIELD.format("above"), "unfit"),
    ("a proof that lacks a field now, told on two lines", BOTH, RIGHT + WRAPPED.format("above"), "unfit"),
    ("a proof that lacks a name now", BOTH, RIGHT + SCOPE.format("above"), "unfit"),
    ("an edit that does not compile", BOTH, None, "no verdict"),
    ("a text that is not there", BOTH.replace("n - 1", "n - 7"), RIGHT, "is not in"),
    ("a text that is there twice", BOTH.replace("old:     n - 1", "old: n: u32"), RIGHT, "more than once"),
    ("an old text without a new one", BOTH + "old:     n - 2\n", RIGHT, "has no `new:`"),
    ("a new text without an old one", BOTH + "new:     n - 2\n", RIGHT, "without an `old:`"),
    ("a file of another crate", BOTH.replace("src/a.rt", "src/../../other/src/a.rt"), RIGHT, "no file"),
    ("a file beside the source", BOTH.replace("src/a.rt", "must-fail/wrong.edit"), RIGHT, "no file"),
    ("nothing to change", "# nothing\n", RIGHT, "no `old:` and `new:` pair"),
    ("a constant without a function to refuse", CONSTANT, RIGHT, "no `refused:`"),
    ("a constant with one that is refused", CONSTANT + "refused: a::above\n", RIGHT, None),
    ("a constant with one that is not refused", CONSTANT + "refused: a::above\n", BELOW, "a::above"),
    ("a constant with no name", CONSTANT + "refused: \n", RIGHT, "does not name"),
    ("a constant with a name that is not there", CONSTANT + "refused: a::.*\n", RIGHT, "does not name"),
    ("a constant with a function that is changed too", BOTH + CONSTANT + "refused: a::above\n", RIGHT, "something else: a::above"),
]


# What stands in for `rt` here: it proves the source as it stands, and says of it with one of the edits what the log has.
RT = """#!/bin/sh
[ "$1" = check ] || exit 2
if cmp -s src/a.rt {0}/plain; then echo "logic=proved functions=3"; exit 0; fi
for made in {0}/made*; do if cmp -s src/a.rt $made; then cat {0}/log; fi; done
exit 1
"""


def made(edit, source):
    """A source with the replacements of an edit."""
    text, old = source, ""
    for line in edit.split("\n"):
        old = line[5:] if line.startswith("old: ") else old
        text = text.replace(old, line[5:], 1) if line.startswith("new: ") else text
    return text


def said(edits, log, folder, source=SOURCE, proved=True):
    """The tool's exit status, and what it says of faults, over a small crate with these edits, of each of which the prover says what the
    log has, and no verdict where that is None."""
    crate = folder / "crates" / "small"
    for path in (crate / "src", crate / "must-fail", folder / "bin"):
        path.mkdir(parents=True)
    (folder / "crates.txt").write_text("small:\n")
    (crate / "src" / "a.rt").write_text(source)
    for place, edit in enumerate(edits):
        (crate / "must-fail" / f"wrong{place}.edit").write_text(edit)
        (folder / f"made{place}").write_text(made(edit, source))
    (folder / "plain").write_text(source if proved else "")
    (folder / "log").write_text("" if log is None else log if log.startswith("logic=") else log + "logic=not-proved\n")
    (folder / "bin" / "rt").write_text(RT.format(folder))
    (folder / "bin" / "rt").chmod(0o755)
    words = [TOOL, "--refused", folder / "logs", folder / "crates"]
    path = f"{folder / 'bin'}:{os.environ['PATH']}"
    ran = subprocess.run(words, capture_output=True, text=True, check=False, env={**os.environ, "PATH": path})
    return ran.returncode, ran.stdout.rpartition("must-fail edits:")[0] + ran.stderr


def main():
    tried, failed = 0, []

    def expect(what, word, edits, log, **how):
        nonlocal tried
        with tempfile.TemporaryDirectory() as name:
            status, output = said(edits, log, Path(name), **how)
        tried += 1
        if status != (0 if word is None else 1) or (word or "") not in output or (word is None and output):
            failed.append(f"{what}: status {status}, and it said\n{output}")

    for what, edit, log, word in CASES:
        expect(what, word, [edit], log)
    expect("an edit that is still proved", "still proved", [BOTH], "logic=proved functions=3\n")
    expect("a crate that is not proved as it stands", "not proved without it", [BOTH], RIGHT, proved=False)
    expect("an edit after another one", None, [BOTH, EXPORTED], RIGHT + OWN.format("exported"))
    expect("no edit at all", "", [], None)
    one = BOTH[:BOTH.index("old:     n - 1")]
    cycle = SOURCE.replace("pub fn above", "#[cycle(both)]\npub fn above").replace("fn below", "#[cycle(both)]\n#[inline]\nfn below")
    shared = OWN.format("+both")
    expect("one of two functions that call each other", None, [one], shared, source=cycle)
    expect("another cycle in place of that", "a::above", [one], CYCLE, source=cycle)
    expect("a function beside two that call each other", None, [EXPORTED], OWN.format("exported"), source=cycle)
    expect("both of two functions that call each other", "call each other", [BOTH], shared, source=cycle)
    print("".join(failed) + f"check_edits: {tried} cases tried, {len(failed)} wrong")
    return 1 if failed else 0


sys.exit(main())
