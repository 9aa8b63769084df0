"""The layout of the crates' sources, and what checks scripts and Python files: mypy, flake8, shellcheck.

Probes are test programs.
"""

from __future__ import annotations

import re
import shutil
from collections.abc import Iterator
from pathlib import Path

import pytest

from support.built import TOP
from support.program import done, run
from tools import definitions, mutants

CRATES = sorted(it.name for it in (TOP / "crates").iterdir() if not it.name.startswith("hdt_probe"))
# `rt fmt` writes an attribute on one line, however long its list of lemmas is. An import of one name cannot be parted,
# nor can the bytes of a file.
ONE_LINE = re.compile(r"#!?\[tactic\(|use [^,]*$|b\"")
# Longer lines that are still to be parted: how many, by file.
STILL_LONG = {
    "hdt_file/proofs/TermFlagLaws.antt": 1,
    "hdt_file/proofs/non_terms/verify_terms/Answers.antt": 1,
    "hdt_file/proofs/tight/layout_is_tight/Answers.antt": 1,
    "hdt_file/proofs/windows/stream_batch/Answers.antt": 2,
    "hdt_file/src/streaming.rt": 1,
    "hdt_file/src/term_flags.rt": 1,
    "hdt_seq/proofs/sequence_writer/SequenceWriter/begin/Answers.antt": 1,
    "hdt_seq/proofs/sequence_writer/SequenceWriter/finish/Answers.antt": 1,
}
# Modules of more than 400 lines that are still to be parted: their lines.
STILL_LARGE = {"hdt_terms/lines.rt": 402}
# The module of the help: it is text, which stands in one place.
TEXTS = {"help.rt"}
IMPL = re.compile(r"impl(?:<[^>]*>)? (?:[\w:<>', ]+ for )?(\w+)(?:<.*>)? (?:\{|where)")


def sources(crate: str, *folders: str) -> Iterator[Path]:
    """Yield the files of a crate that are written by hand."""
    for folder in folders:
        yield from sorted(it for it in (TOP / "crates" / crate / folder).rglob("*") if it.suffix in (".rt", ".antt"))


@pytest.mark.parametrize("crate", CRATES)
def test_lines(crate: str) -> None:
    """A line has at most 120 columns."""
    found = {}
    for path in sources(crate, "src", "specs", "proofs"):
        name = str(path.relative_to(TOP / "crates"))
        lines = path.read_text().split("\n")
        long = [it for it in lines if len(it) > 120 and not ONE_LINE.match(it.strip())]
        found[name] = long[STILL_LONG.get(name, 0) :]
    assert {name: lines for name, lines in found.items() if lines} == {}


@pytest.mark.parametrize("crate", CRATES)
def test_modules(crate: str) -> None:
    """A module of code has 40 to 400 lines; the crate's root, and the examples of one crate, may be shorter."""
    lengths = {path.name: path.read_text().count("\n") for path in sources(crate, "src") if path.name not in TEXTS}
    short = {name for name in lengths if name in ("lib.rt", "main.rt") or crate == "example"}
    most = {name: STILL_LARGE.get(f"{crate}/{name}", 400) for name in lengths}
    wrong = {name: it for name, it in lengths.items() if it > most[name] or it < 40 and name not in short}
    assert wrong == {}


@pytest.mark.parametrize("crate", CRATES)
def test_impls(crate: str) -> None:
    """The `impl`s of a type stand in at most two files."""
    files: dict[str, set[str]] = {}
    for path in sources(crate, "src"):
        for line in path.read_text().split("\n"):
            if found := IMPL.match(line):
                files.setdefault(found[1], set()).add(path.name)
    assert {name: found for name, found in files.items() if len(found) > 2} == {}


@pytest.mark.parametrize("crate", CRATES)
def test_mutants_can_be_applied(crate: str) -> None:
    """Each changes text that is there, once, and names no type that its file doesn't."""
    for mutant in mutants.Crate(crate, TOP).mutants():
        mutant.apply()
        for path, text in mutant.texts.items():
            used, known = (set(re.findall(r"(?<![:\w])[A-Z]\w+(?=::)", it)) for it in (text, mutant.crate.texts[path]))
            unknown = {it for it in used - known if not re.search(rf"\b{it}\b", mutant.crate.texts[path])}
            assert unknown <= {"Vec", "Some", "String"}, f"{mutant.label}: {unknown}"


def test_definitions_have_names_of_their_own() -> None:
    """Laws and operators aside, a name is defined once in the specs/ of all crates."""
    places: dict[str, list[str]] = {}
    for crate, module, name in definitions.definitions(TOP):
        if "◌" not in name and not module.startswith("Laws."):
            places.setdefault(name, []).append(f"{crate}: {module}")
    assert {name: found for name, found in places.items() if len(found) > 1} == {}


SCRIPTS = ["hdt", "test", "tools/current", "tools/install", "tools/package", ".ci/run"]
FOLDERS = ["tools", "python", "reference", "tests"]
CHECKS = [*(["shellcheck", "-s", "sh", it] for it in SCRIPTS), ["flake8", "--extend-exclude=build", *FOLDERS]]
TYPES = pytest.param(["mypy", "--strict", "--no-error-summary", "--exclude=/build/", *FOLDERS], marks=pytest.mark.slow)


@pytest.mark.parametrize("words", [*CHECKS, TYPES], ids=" ".join)
def test_clean(tmp_path: Path, words: list[str]) -> None:
    """Scripts are clean and for any POSIX shell, Python files are clean and have the types that they say."""
    if not shutil.which(words[0]):
        pytest.skip(f"there is no {words[0]}")
    env = {"MYPYPATH": "python", "MYPY_CACHE_DIR": str(tmp_path)}
    assert run(words, cwd=TOP, env=env, seconds=600) == done()


PRIVATE = re.compile(r"^ *(?:from|import) hdt\.([a-z]\w*)(?:\.| import )_[a-z]\w*", re.M)


def test_private_modules() -> None:
    """No package in python/hdt imports a private module of another one; those of hdt itself are for all."""
    files = [*(TOP / "python/hdt").glob("*/*.py")]
    assert [it for it in files if set(PRIVATE.findall(it.read_text())) - {it.parent.name}] == []
    assert any(PRIVATE.search(it.read_text()) for it in files)
