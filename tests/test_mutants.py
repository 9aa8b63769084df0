"""The judgement of mutants, `python3 -m tools.mutants`, over small repositories.

The prover goes by words in the bodies, and prints its findings as the real one does; `test_kit` has the real one.
"""

from __future__ import annotations

import re
import shutil
from collections import Counter
from collections.abc import Mapping
from datetime import date
from pathlib import Path
from types import SimpleNamespace
from typing import Any

import pytest

from support.tools import change, tool, write
from tools import mutants

SOURCE = """\
#![tactic(auto)]

ghost use Rattle.std.specs.Prelude.{◌≡◌, ◌+◌, ◌/◌};

/// Half of a number, rounded down.
pub fn half(number: u8) -> u8
    ensures { result ≡ number / 2 }
{
    number / 2
}

/// A quarter of a number, rounded down.
pub fn quarter(number: u8) -> u8
    ensures { result ≡ number / 2 / 2 }
{
    half(half(number))
}

/// One more, where that fits.
pub fn next(number: u8) -> u8
    ensures { (number + 1) / 256 ≡ 0 → result ≡ number + 1 }
{
    number.wrapping_add(1)
}
"""
# What the crate `toy` uses. A constant function's value can be part of a type.
BASE = """\
pub const fn width() -> u8 {
    8
}

/// The number itself.
pub fn same(number: u8) -> u8
    ensures { result ≡ number }
{
    number
}
"""
TOY, LOW, W, IN = "crates/toy/src/lib.rt", "crates/base/src/lib.rt", "crates/toy/wrong", "file: src/lib.rt\n"
FILES = {
    "crates.txt": "base:\ntoy: base\nother: base\n",
    LOW: BASE,
    "crates/base/specs/Lib.antt": "eight : Nat\n",
    "crates/base/proofs/same/Answers.antt": "-- nothing\n",
    "crates/base/out/rlib/base.rlib/kept": "",
    TOY: SOURCE,
    "crates/toy/specs/Lib.antt": "nine : Nat\n",
    "crates/toy/proofs/half/Answers.antt": "-- nothing\n",
    "crates/toy/PROMISES.md": "# toy\n",
    "crates/other/src/lib.rt": "",
}


def repository(top: Path, changes: Mapping[str, str], source: str = SOURCE) -> Path:
    """Make a repository of the crate `toy` and the crate `base`, which it uses, with these mutants of `toy`."""
    return write(top, {**FILES, TOY: source, **{f"{W}/{name}.edit": f"{IN}{it}\n" for name, it in changes.items()}})


def judge(top: Path, *words: str, path: str | None = None) -> tuple[list[str], int]:
    """Run the command over a repository, with the kit of words beside it or this PATH.

    Return the lines that it prints, without comments, and its status.
    """
    kit = f"{top.parent}/kit/bin:/usr/bin:/bin"
    ran = tool("mutants", "--top", top, "--jobs", "1", *words, path=kit if path is None else path)
    return [it for it in (ran.out + ran.err).decode().splitlines() if not it.startswith("-- ")], ran.status


# ---- with the real kit

HALF, NEXT = "old:     number / 2\nnew:     ", "old:     number.wrapping_add(1)\nnew:     "
QUARTER = "old:     half(half(number))\nnew:     "
# Mutants that are judged together, and how the line of each goes on.
TRIALS = {
    "half_rounded_up": (HALF + "number / 2 + number % 2", "refused, by toy::half: "),
    "harmless": (QUARTER + "let first = half(number); half(first)", "NOT REFUSED: the crate is still proved"),
    "uncompiled": (QUARTER + "half(halves(number))", "BAD MUTANT: it did not reach the prover"),
    "unsaid": ("old: result ≡ number / 2 }\nnew: result ≡ number / 2 + 1 }", "refused, by toy::half: "),
}


@pytest.mark.kit
@pytest.mark.slow
@pytest.mark.skipif(not shutil.which("rt"), reason="there is no Rattle kit")
def test_kit(tmp_path: Path) -> None:
    """Each mutant is judged as it should be, and the counts and the status are right."""
    edits = {f"{W}/{name}.edit": f"{IN}{change}\n" for name, (change, _) in TRIALS.items()}
    lines, status = judge(write(tmp_path, {"crates.txt": "toy:\n", TOY: SOURCE, **edits}), "--all", path="")
    begins = [f"toy/{name}: {begin}" for name, (_, begin) in TRIALS.items()]
    missing = [it for it in begins if not any(line.startswith(it) for line in lines)]
    assert (missing, lines[-1], status) == ([], "2 refused, 2 failed", 1), lines


# ---- with a kit of words

# The words in a body, and what becomes of its function. `wrong`: a goal is left open. `answer`: a written answer fails.
# `shape`: a written answer no longer fits. `unknown`: it does not compile. `strange`: the function `next` fails, too.
# `killed`: the check is killed once. `edit`: a source is changed while the check runs. `interrupt`: the command that
# runs the check is killed, unless it has judged nothing yet.
RATTLE = r"""#!/usr/bin/python3 -IS
import os, re, signal, sys
from pathlib import Path

top = Path(sys.argv[0]).parents[2]
with open(top / "log", "a") as log:
    log.write("1")
checks = (top / "log").stat().st_size
functions = r"fn (\w+)[^{]*(?:\n *ensures [^\n]*\n)?{(.*?)\n}"
bodies = dict(re.findall(functions, Path("src/lib.rt").read_text(), re.S))
text = " ".join(bodies.values())
if "unknown" in text:
    sys.exit("src/lib.rt:16:10: error[unknown-name]: cannot find value `unknown` in this scope")
if "killed" in text and checks < 3:
    os.kill(os.getpid(), signal.SIGKILL)
if "interrupt" in text and checks > 2:
    os.kill(os.getppid(), signal.SIGKILL)
if "edit" in text:
    (top / "top/crates/toy/specs/Lib.antt").write_text("edited")
said = {
    "wrong": "note: src/lib.rt:6:1: it is not proved that what the function ensures holds when it returns (`returns`)",
    "answer": "./proofs/NAME/Answers.antt:3:1: error: the sides of the goal differ",
    "shape": "./proofs/NAME/Answers.antt:3:1: error: `c` has no field `first`",
}
failed = []
for name, body in bodies.items():
    told = [it.replace("NAME", name) for word, it in said.items() if word in body]
    is_strange = name == "next" and "strange" in text
    if told or is_strange:
        why = "`search` did not prove `returns`" if "wrong" in body or is_strange else "its answers fail"
    elif name == "quarter" and "half" in failed and "half" in body:
        why = "it calls `toy::half`, which is not proved"
    else:
        print(f"fn toy::{name}: proved")
        continue
    print(*told, f"fn toy::{name}: no proof: {why}", sep="\n")
    failed.append(name)
print("logic=not-proved" if failed else "logic=proved functions=3 sum=0")
sys.exit(1 if failed else 0)
"""
KIT = {"kit/bin/rt": '#!/bin/sh\n[ "$1" = version ] && echo kit of words 1\n', "kit/bin/rattle": RATTLE}
WRONG = HALF + "wrong(number)"


@pytest.fixture
def top(tmp_path: Path) -> Path:
    """The place of a repository, beside a kit of words, which writes a byte for each check into the file `log`."""
    return write(tmp_path, {**KIT, "log": ""}) / "top"


OPEN = "left open: `returns`"
BY_HALF, BY_QUARTER, BY_NEXT = (f"refused, by toy::{it}: {OPEN}" for it in ("half", "quarter", "next"))
PROVED = "NOT REFUSED: the crate is still proved with this mutant"
UNREAD = "src/lib.rt:16:10: error[unknown-name]: cannot find value `unknown` in this scope"
SHAPE = "only because a proof written by hand no longer fits its body: give the mutant another form"
WRONG_NEXT, WRONG_QUARTER = (NEXT + "wrong", BY_NEXT), (QUARTER + "wrong", BY_QUARTER)
BAD = [
    ("old: pub fn\nnew: 1", "an 'old:' text is in src/lib.rt 3 times, and not once"),
    ("old: third\nnew: 1", "an 'old:' text is in src/lib.rt 0 times, and not once"),
    (HALF + "number / 2", "it changes nothing"),
    ("new: 1", "a 'new:' line comes before any 'file:' or 'old:' line"),
    ("old:     number / 2", "the last 'old:' line has no 'new:' line"),
    (f"file: src/none.rt\n{HALF}wrong", "there is no file src/none.rt below src/"),
]
# Mutants that are judged together, each with what is told of it, and how many checks that takes.
CASES: dict[str, tuple[list[tuple[str, str]], int]] = {
    "refused together": ([(HALF + "wrong", BY_HALF), WRONG_QUARTER, WRONG_NEXT], 2),
    "of one function": ([(HALF + "wrong", BY_HALF), (HALF + "wrong again", BY_HALF)], 3),
    "of two functions": ([(HALF + "wrong\n" + QUARTER + "right", BY_HALF)], 2),
    "a written answer fails": (
        [(HALF + "answer", "refused, by toy::half: its answer fails: the sides of the goal differ")], 2),
    "harmless": ([(HALF + "wrong", BY_HALF), (QUARTER + "half(number)", PROVED)], 3),
    "shows nothing": ([(HALF + "shape", f"SHOWS NOTHING: toy::half is refused {SHAPE}"), WRONG_NEXT], 3),
    "does not compile": (
        [(HALF + "unknown", f"BAD MUTANT: it did not reach the prover: {UNREAD}"), WRONG_NEXT, WRONG_QUARTER], 5),
    "another function fails": (
        [(HALF + "strange", "NOT REFUSED by toy::half: no goal of its own fails; logic=not-proved"), WRONG_QUARTER], 4),
    "killed once": ([(HALF + "wrong killed", BY_HALF)], 3),
    "more than bodies": (
        [("old: { result ≡ number / 2 }\nnew: { result ≡ number }\n" + HALF + "wrong", BY_HALF), WRONG_NEXT], 3),
    "in a cycle of calls": ([(QUARTER + "right", PROVED), (HALF + "wrong", BY_HALF), WRONG_NEXT], 4),
    "not applicable": ([(text, f"BAD MUTANT: {why}") for text, why in BAD], 1),
    "no mutants": ([], 0),
}


@pytest.mark.parametrize("case", CASES)
def test_judgement(top: Path, case: str) -> None:
    """Each mutant is judged by the goals of its own function, in as few checks as that takes; counts and status."""
    rows, count = CASES[case]
    source = SOURCE.replace("pub fn next", "#[cycle(quarter)]\npub fn next") if "cycle" in case else SOURCE
    changes = dict(zip("abcdefg", (change for change, _ in rows)))
    lines, status = judge(repository(top, changes, source), "--all")
    wanted = [f"toy/{name}: {said}" for name, (_, said) in zip(changes, rows)]
    failed = [it.partition(":")[0] for it in wanted if ": refused, by " not in it]
    assert sorted(lines[:-1]) == sorted(wanted + ([f"FAILED: {' '.join(failed)}"] if failed else []))
    assert lines[-1] == f"{len(wanted) - len(failed)} refused, {len(failed)} failed"
    assert (status, (top.parent / "log").stat().st_size) == (1 if failed or not wanted else 0, count)


def test_nothing_can_be_judged(top: Path) -> None:
    """Without its ground, a proved crate and built libraries, nothing is judged, and the record stays as it was."""
    lines, status = judge(repository(top, {"a": WRONG}), "--all", path="/usr/bin:/bin")
    assert status and "there is no Rattle kit on this machine" in lines[-1]
    assert judge(top, "--all") == ([f"toy/a: {BY_HALF}", "1 refused, 0 failed"], 0)
    before = record(top)
    write(top, {TOY: SOURCE.replace("number.wrapping_add(1)", "wrong")})
    for begin in ("toy: it is not proved without a mutant: ", "toy: its library base is not built: run rt ci first"):
        lines, status = judge(top, "--all")
        assert lines[0].startswith(begin)
        assert (lines[1:], status, record(top)) == (["FAILED: toy", "0 refused, 1 failed"], 1, before)
        shutil.rmtree(top / "crates/base/out", ignore_errors=True)


@pytest.mark.parametrize("words, judged, status", [("--only ^a$", "a", 0), ("none toy", "ab", 1)])
def test_choice(top: Path, words: str, judged: str, status: int) -> None:
    """Words choose crates and mutants; an unknown crate is a failure."""
    lines, found = judge(repository(top, {"a": WRONG, "b": NEXT + "wrong"}), "--all", *words.split())
    assert ("none: crates.txt has no such crate" in lines, found) == (status > 0, status)
    assert sorted(it[4] for it in lines if ": refused" in it) == list(record(top)) == list(judged)
    assert lines[-1] == f"{len(judged)} refused, {status} failed"


# ---- the record


def record(top: Path) -> dict[str, list[str]]:
    """Return what the record of `toy` has, by the mutants' names."""
    file = top / W / "RECORD"
    rows = [line.split("\t") for line in file.read_text().splitlines()] if file.exists() else []
    return {name: rest for name, *rest in rows}


def test_record(top: Path) -> None:
    """It has those that were refused alone, by name; an entry goes if its mutant is no longer refused, or is gone."""
    repository(top, {"b": NEXT + "wrong", "a": WRONG, "c": QUARTER + "right", "d": HALF + "wrong 2"})
    judge(top, "--all")
    before, more = record(top), [OPEN, date.today().isoformat(), "kit of words 1"]
    wanted = {"a": ["toy::half", *more], "b": ["toy::next", *more], "d": ["toy::half", *more]}
    assert list({name: row[1:] for name, row in before.items()}.items()) == list(wanted.items())
    assert all(re.fullmatch("[0-9a-f]{64}", row[0]) for row in before.values())
    change(top, f"{W}/a.edit", "wrong", "right")
    (top / W / "d.edit").unlink()
    assert judge(top, "--all", "--only", "a")[0][-1] == "0 refused, 1 failed"
    assert record(top) == {"b": before["b"]}


@pytest.mark.parametrize("changes, kept", [
    ({"a": WRONG, "b": WRONG + " interrupt"}, "a"), ({"a": WRONG + " edit"}, "")])
def test_record_of_another_end(top: Path, changes: dict[str, str], kept: str) -> None:
    """A run that is killed keeps what it has judged; if sources change meanwhile, the record stays as it was."""
    judge(repository(top, changes), "--all")
    assert "".join(record(top)) == kept
    assert ((top / "crates/toy/specs/Lib.antt").read_text() == "edited") == (not kept)


# What is changed in a file, or the text of one that is written anew, and the mutants whose entries no longer count.
CHANGES: list[tuple[str, str, str, str]] = [
    (f"{W}/a.edit", "wrong", "wrong again", "a"),
    (f"{W}/c.edit", "", f"{IN}{QUARTER}wrong\n", "c"),
    (TOY, "    half(half(number))", "    half(half(number) )", "ab"),
    (TOY, "{ result ≡ number / 2 }", "{ result ≡ number/2 }", "ab"),
    (TOY, "/// One more", "// Next\n    /// The next one", ""),
    ("crates/toy/src/more.rt", "", "fn more() {}\n", "ab"),
    ("crates/toy/specs/Lib.antt", "Nat", "ℕ", "ab"),
    ("crates/toy/proofs/half/Answers.antt", "-- nothing", "use Prim", "ab"),
    ("crates/toy/proofs/half/Answers.antt", "-- nothing", "-- something\n  -- more", ""),
    ("crates/toy/proofs/next/Answers.antt", "", "-- new\n", "ab"),
    ("crates/toy/PROMISES.md", "toy", "more", ""),
    ("crates/toy/out/more", "", "more", ""),
    (LOW, "    number\n}", "    // (as it is)\n    number + 0\n}", ""),
    (LOW, "/// The number", "/// This number", ""),
    (LOW, "    8\n", "    9\n", "ab"),
    (LOW, "{ result ≡ number }", "{ number ≡ result }", "ab"),
    (LOW, "same(number: u8)", "same(number: u16)", "ab"),
    ("crates/base/src/more.rt", "", "fn more() {}\n", "ab"),
    ("crates/base/specs/Lib.antt", "Nat", "ℕ", "ab"),
    ("crates/base/proofs/same/Answers.antt", "-- nothing", "use Prim", ""),
    ("crates/base/wrong/x.edit", "", IN, ""),
    ("crates/other/src/lib.rt", "", "pub fn other() {}\n", ""),
    ("crates.txt", "toy: base", "toy: base other", "ab"),
    ("crates.txt", "base:\ntoy: base\nother: base", "other:\nbase:\ntoy: base", ""),
]


@pytest.fixture(scope="module")
def judged(tmp_path_factory: pytest.TempPathFactory) -> Path:
    """A repository with two mutants that were refused, and their record."""
    top = write(tmp_path_factory.mktemp("judged"), {**KIT, "log": ""}) / "top"
    assert judge(repository(top, {"a": WRONG, "b": NEXT + "wrong"}))[1] == 0
    return top


@pytest.mark.parametrize("file, old, new, stale", CHANGES, ids=[f"{it[0]} {it[2]!r}" for it in CHANGES])
def test_what_a_record_depends_on(top: Path, judged: Path, file: str, old: str, new: str, stale: str) -> None:
    """An entry counts as long as its mutant, its crate and the interfaces below are as they were; `--list` says so."""
    change(shutil.copytree(judged, top), file, old, new)
    current = 2 - len(stale.replace("c", ""))
    wanted = [*(f"toy/{it}" for it in stale), f"{len(stale)} to judge, {current} judged for these inputs"]
    assert (judge(top, "--list", "toy"), (top.parent / "log").read_text()) == ((wanted, 0), "")


def test_only_what_changed_is_judged(top: Path) -> None:
    """Without --all, of the mutants with an entry only a sample is judged; so a false entry shows when it is drawn."""
    repository(top, {f"m{i:02}": f"{HALF}wrong {i}" for i in range(21)})
    assert [judge(top)[0][-1] for _ in "ab"] == ["21 refused, 0 failed", "2 refused, 0 failed"]
    change(top, f"{W}/m07.edit", "wrong", "right")
    lines, status = judge(top)  # (and one of the others)
    assert (lines[-1], status) == ("1 refused, 1 failed", 1)
    shutil.rmtree(top)
    assert judge(repository(top, {"a": WRONG}))[1] == 0
    change(top.parent, "kit/bin/rattle", "if word in body", "if word in ()")
    assert judge(top) == ([f"toy/a: {PROVED}", "FAILED: toy/a", "0 refused, 1 failed"], 1)
    assert record(top) == {}


# ---- the sample


@pytest.mark.parametrize("sizes", [[], [1], [20], [21], [1] * 50, [3, 40, 7], [5, 619], [1, 3, 30, 30, 60]], ids=str)
def test_sample(sizes: list[int]) -> None:
    """At least 5 percent, each once, of as few crates as that takes, by the seed; each mutant is drawn at times."""
    crates = {f"c{i}": size for i, size in enumerate(sizes)}
    whole: list[Any] = [SimpleNamespace(crate=SimpleNamespace(name=name), label=f"{name}/m{k}")
                        for name, size in crates.items() for k in range(size)]
    count = Counter[str]()
    for seed in map(str, range(600)):
        drawn = [it.label for it in mutants.drawn(whole, seed)]
        assert drawn == [it.label for it in mutants.drawn(whole[::-1], seed)]
        assert len(drawn) * 20 >= len(whole) > (len(drawn) - 1) * 20 or not whole
        taken = [crates[name] for name in dict.fromkeys(label.partition("/")[0] for label in drawn)]
        assert not drawn or sum(taken[:-1]) < len(drawn) <= sum(taken)
        count.update(drawn)
    assert count.keys() == {it.label for it in whole}
