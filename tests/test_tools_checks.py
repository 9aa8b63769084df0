"""What `tools.promises`, `tools.definitions` and `tools.contracts` find in a small repository."""

from __future__ import annotations

import re
from pathlib import Path

import pytest

from support.program import run
from support.tools import change, tool, write

CODE = """\
ghost use Rattle.toy.specs.Lib.{outer, hidden, pair};

/// A thing.
pub struct Thing { number: u8 }

impl Thing {
    pub fn new() -> Thing
        ensures is { result.number ≡ 0 }
    {
        Thing { number: 0 }
    }
}

/// One.
pub fn one(hidden: u8) -> u8
    ensures is { result ≡ outer } // not hidden
    ensures { hidden.pair }
{
    pair
}

pub const fn two() -> u8
    ensures is { result ≡ 2 }
    ensures more { result ≡ 1 + 1 }
{
    2
}

pub fn law()
    ensures { pair }
{}
"""
TABLE = """\
# toy: promises

| promise | function | clause | wrong bodies refused (edits) |
|---|---|---|---|
| It starts at zero. | `Thing::new` | `is` | `starts_at_one` |
| The numbers. | `one`, `more::{one, two}` | `is`, `more` | `one_is_two`, `two_is_one` (by its clause `more`) |
| What is inside. | `law` of `more.rs` | the one clause | `other_mutant` in low |
"""
LOW = """\
-- What contracts reach through `outer`.
-- (two lines)
low : Nat
low = 0

aside : Nat
aside = low
"""
HIGH = """\
use Rattle.low.specs.Lib.{low as lowest, aside}

-- Reached by a clause.
pub outer : Nat
outer = inner + lowest

inner : Nat
inner = 1 -- and not hidden

hidden : Nat
hidden = outer

-- A record with fields of these names, and a value of it whose variable has one, reach neither.
record Pair : Type where
  hidden : Nat
  aside : Nat

pair : Nat → Pair
pair aside = record { hidden = aside; aside = aside.hidden }
"""
# A view is a function of a value with hidden fields: `seen` is none, and the relation `Is` is none.
VIEWS = """\
use Rattle.low.specs.Lib.{low, aside}
use Rattle.toy.specs.declared.kept.Kept.{Kept}
use Rattle.toy.specs.declared.kept.Some.{Some}
use Rattle.toy.specs.declared.kept.Open.{Open}

view : Kept × Nat → Nat
view k = low

case : Some → Nat
case s = view s

seen : Open → Nat
seen o = aside

Is : Kept → Nat → Type 0
Is k n = seen n
"""
KEPT = """\
ghost use Rattle.toy.specs.Views.{view, case, seen, Is};

pub struct Kept<'a> {
    pub(crate) x: &'a u8,
    pub y: u8,
}

pub enum Some<'a> {
    One(Kept<'a>),
}

pub struct Open {
    pub x: u8,
    ghost is: { seen x },
}

""" + "\n".join(f"pub fn by_{it.lower()}()\n    ensures {{ {it} }}\n{{}}\n" for it in ("view", "case", "seen", "Is"))
FILES = {
    "crates.txt": "# the crates\nlow:\ntoy: low\ntoy_tests: toy\nhdt_probe: toy\nexample: toy\n",
    "crates/low/PROMISES.md": TABLE.split("| It")[0] + "| Nothing. | (none) | (none) | `other_mutant` |\n",
    "crates/low/src/lib.rt": "",
    "crates/low/wrong/010_other_mutant.edit": "",
    "crates/low/specs/Lib.antt": LOW,
    "crates/low/specs/Laws/More.antt": "law : Nat\nlaw = 1\n",
    "crates/toy/PROMISES.md": TABLE,
    "crates/toy/src/lib.rt": "pub use crate::more::{Thing, one};\npub use crate::more::two;\n",
    "crates/toy/specs/Views.antt": VIEWS,
    "crates/toy/src/kept.rt": KEPT,
    "crates/toy/src/more.rt": CODE,
    "crates/toy/src/more.rs": "",
    "crates/toy/specs/Lib.antt": HIGH,
    "crates/toy/proofs/one/Answers.antt": "-- one\n-- two\n",
    "crates/toy/must-fail/one_is_two.edit": "",
    "crates/toy/wrong/010_starts_at_one.edit": "",
    "crates/toy/wrong/020_two_is_one.edit": "",
    "crates/toy_tests/src/lib.rt": "#[test]\nfn all() {}\n",
    "crates/hdt_probe/src/main.rt": "fn main() {}\n",
    "crates/example/PROMISES.md": "# example\n",
    "crates/example/src/main.rt": "fn main() {\n}\n",
}
PROMISES, SOURCE, ROOT = "crates/toy/PROMISES.md", "crates/toy/src/more.rt", "crates/toy/src/lib.rt"


@pytest.fixture
def top(tmp_path: Path) -> Path:
    """A small repository whose promises are right."""
    return write(tmp_path, FILES)


# What is changed of the repository, and what is said of it.
CHANGES: list[tuple[str, str, str, list[str]]] = [
    (PROMISES, "`Thing::new`", "`Thing::old`", [
        "there is no function, type or trait old", "the exported function new is in no row"]),
    (PROMISES, "`is`, `more`", "`is`, `less`", ["there is no clause less, of `one`, `more::{one, two}`"]),
    (SOURCE, "ensures more", "ensures much", ["there is no clause more, of `one`, `more::{one, two}`"]),
    (PROMISES, "`starts_at_one`", "`starts_at_two`", [
        "there is no mutant starts_at_two", "the mutant starts_at_one is named 0 times, and not once"]),
    (PROMISES, "`starts_at_one`", "`starts_at_one`, `two_is_one`", [
        "the mutant two_is_one is named 2 times, and not once"]),
    (PROMISES, "`other_mutant` in low", "`some_mutant` in low", ["there is no mutant some_mutant in low"]),
    (PROMISES, "`two_is_one` (by", "(`two_is_one`, by", ["the mutant two_is_one is named 0 times, and not once"]),
    (PROMISES, " | `starts_at_one`", "", [
        "a row without its four cells: It starts at zero. | `Thing::new` | `is`",
        "the mutant starts_at_one is named 0 times, and not once", "the exported function new is in no row"]),
    (ROOT, "two;", "by_is;", ["the exported function by_is is in no row"]),
    (SOURCE, "    pub fn new", "    pub fn outer() {}\n    pub fn new", ["the exported function outer is in no row"]),
    (SOURCE, "/// One.", 'pub extern "C" fn c_one() {\n}\n\n', ["the exported function c_one is in no row"]),
    (SOURCE, "/// One.", "", []),
]


@pytest.mark.parametrize("file, old, new, wanted", CHANGES, ids=[f"{it[0]}: {it[1]}" for it in CHANGES])
def test_promises(top: Path, file: str, old: str, new: str, wanted: list[str]) -> None:
    """Each error is told, and nothing else is. Each crate has its PROMISES.md, but for tests and probes."""
    change(top, file, old, new)
    (top / "crates/example/PROMISES.md").unlink()
    status, out, err = tool("promises", "--top", top)
    *lines, last = out.decode().splitlines()
    assert (lines, status, err) == ([*(f"toy: {it}" for it in wanted), "example: there is no PROMISES.md"], 1, b"")
    assert re.fullmatch(rf"[1-9]\d* passed, {len(wanted) + 1} failed", last)


# What a command prints, without the two first lines of a table.
BELOW, ASIDE = ["low.Lib.low 4"], ["low.Lib.aside 2", "low.Lib.low 4"]
PRINTED = {
    "promises --counts": [
        "| low | 0 | 7 | 2 | 0 | 0 | 1 | 0 |", "| toy | 64 | 35 | 0 | 2 | 1 | 2 | 0 |",
        "| toy_tests | 0 | 0 | 0 | 0 | 0 | 0 | 1 |", "| hdt_probe | 1 | 0 | 0 | 0 | 0 | 0 | 0 |",
        "| example | 2 | 0 | 0 | 0 | 0 | 0 | 0 |", "| together | 67 | 42 | 2 | 2 | 1 | 3 | 1 |"],
    "definitions": ["| low | 1 | 4 | 2 | 1 | 2 | 1 | 2 |", "| toy | 2 | 5 | 1 | 7 | 16 | 0 | 0 |",
                    "| together | 3 | 9 | 3 | 8 | 18 | 1 | 2 |"],
    "definitions --list": [*BELOW, "toy.Lib.inner 2", "toy.Lib.outer 3"],
    "definitions --others": ["low.Laws.More.law 2", "low.Lib.aside 2", "toy.Lib.Pair 4", "toy.Lib.hidden 2",
                             "toy.Lib.pair 2", *(f"toy.Views.{it} 2" for it in ("Is", "case", "seen", "view"))],
    "definitions --of toy::one": ["3 definitions, 9 lines, 3 of them comments"],
    "definitions --of toy::one --clauses 1": ["0 definitions, 0 lines, 0 of them comments"],
    "definitions --of toy::law --list": ["toy.Lib.Pair 4", "toy.Lib.pair 2"],
    "definitions --of toy::by_case --list": [*BELOW, "toy.Views.case 2", "toy.Views.view 2"],
    **{f"definitions --of toy::by_{it} --list --no-views": [] for it in ("view", "case")},
    "definitions --of toy::by_seen --list --no-views": [*ASIDE, "toy.Views.seen 2"],
    "definitions --of toy::by_is --list --no-views": [*ASIDE, "toy.Views.Is 2", "toy.Views.seen 2"],
}


@pytest.mark.parametrize("words", PRINTED)
def test_printed(top: Path, words: str) -> None:
    """Lines of each kind, mutants and tests; definitions that contracts name, and all that these name."""
    name, *options = words.split()
    status, out, err = tool(name, "--top", top, *options)
    lines = [it for it in out.decode().splitlines() if not it.startswith(("| crate", "|---"))]
    assert (status, lines, err) == (0, PRINTED[words], b"")


# What is changed, and how that is reported: the last two change no contract.
CONTRACT_CHANGES = [
    (SOURCE, "result.number ≡ 0 }", "result.number ≤ 0 }", ["Thing::new: ensures is"]),
    (SOURCE, "ensures more { result", "ensures { result", ["two: ensures more", "two: ensures 1"]),
    (SOURCE, "new() -> Thing", "new() -> Self", ["Thing::new: signature"]),
    (ROOT, "{Thing, one}", "{Thing, law}", ["law: new", "one: gone"]),
    (SOURCE, "result ≡ 2 }", "result ≡\n        2 } // why", []),
    (SOURCE, "    2\n}", "    2 + 0\n}", []),
]


@pytest.mark.parametrize("file, old, new, wanted", CONTRACT_CHANGES, ids=[it[2] for it in CONTRACT_CHANGES])
def test_contracts(top: Path, file: str, old: str, new: str, wanted: list[str]) -> None:
    """Each clause that is gone, new or another is reported; whitespace, comments and bodies are not."""
    git = "git init -q && git add -A && git -c user.name=a -c user.email=a@example.org commit -qm old"
    assert run(["sh", "-c", git], cwd=top).status == 0
    change(top, file, old, new)
    status, out, err = tool("contracts", "--top", top, "HEAD")
    lines = [it for it in out.decode().splitlines() if it and not it.startswith("    ")]
    assert (status, err, lines) == (int(bool(wanted)), b"", [*wanted, f"3 functions, {len(wanted)} differences"])
