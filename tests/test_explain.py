"""`hdt explain`: meaning, cause and remedy of each error, in the words of docs/ERRORS.md."""

from __future__ import annotations

import subprocess
from functools import lru_cache

import pytest

from support.built import BUILT
from support.program import Result, done, hdt
from tools import errors

NO_SUCH_REASON = Result(
    2, b"", b"error: no error of a file or a text has this number or name; see docs/ERRORS.md\n")


@lru_cache(maxsize=None)
def entries() -> list[errors.Entry]:
    """The errors of files and of texts that docs/ERRORS.md explains."""
    return [entry for entry in errors.entries(errors.PAGE.read_text()) if entry.kind in errors.TABLES]


def explanation(entry: errors.Entry) -> str:
    """What is printed of an error of a file or a text."""
    meaning, cause, remedy = entry.plain()
    heading = f"Error {entry.number} of {errors.TABLES[entry.kind][1]}: {entry.name}"
    return f"{heading}\n\n{meaning}\n\nCause: {cause}\n\nRemedy: {remedy}"


def printed(found: list[errors.Entry]) -> Result:
    """The result of explaining these errors: a line first that names them, if there are two."""
    names = [f"{entry.number} {entry.name} of {errors.TABLES[entry.kind][1]}" for entry in found]
    heading = [f"Two errors: {names[0]}, and {names[1]}."] if len(found) == 2 else []
    return done("\n\n".join([*heading, *map(explanation, found)]).encode() + b"\n")


@pytest.mark.parametrize("number", range(1, 35))
def test_numbers(number: int) -> None:
    """A number explains the file's error, and then the text's error."""
    found = [entry for entry in entries() if entry.number == number]
    assert [entry.kind for entry in found] == ["file", "text"][:2 if number <= 9 else 1]
    assert hdt("explain", str(number)) == printed(found)


@pytest.mark.parametrize("name", sorted({entry.name for entry in entries()}))
def test_names(name: str) -> None:
    """A name explains the errors of that name, in letters of any case."""
    found = [entry for entry in entries() if entry.name == name]
    assert found
    for word in (name, name.lower(), name.upper()):
        assert hdt("explain", word) == printed(found)


@pytest.mark.parametrize("word", ["0", "35", "01", "+1", "1 ", "", "Trunc", "Truncatedd", "no triples", "\u0131"])
def test_unknown_reasons(word: str) -> None:
    """A word that is the number and the name of no error is a usage error."""
    assert hdt("explain", word) == NO_SUCH_REASON


def test_one_reason() -> None:
    """There is exactly one reason."""
    assert [hdt("explain").status, hdt("explain", "1", "2").status] == [2, 2]


def test_layout() -> None:
    """The lines fit into a terminal of 80 columns, commands aside, and have no spaces at their end."""
    for entry in entries():
        for line in explanation(entry).splitlines():
            assert line == line.rstrip() and (len(line) <= errors.COLUMNS or "hdt " in line), line


def test_lines_of_the_page() -> None:
    """Each part of an explanation is short."""
    assert [entry for entry in entries() for part in entry.plain() if part.count("\n") >= errors.LINES] == []


@pytest.mark.parametrize("kind", errors.TABLES)
def test_tables(kind: str) -> None:
    """The tables of the program are made of the page."""
    name, _ = errors.TABLES[kind]
    assert (errors.SOURCES / f"{name}.rt").read_text() == errors.rattle_module(kind, entries())


def test_full_disk() -> None:
    """An explanation that cannot be written is a failed write."""
    with open("/dev/full", "wb") as full:
        ran = subprocess.run([BUILT / "hdt", "explain", "1"], stdout=full, stderr=subprocess.PIPE, check=False)
    assert (ran.returncode, ran.stderr) == (3, b"hdt: writing failed\n")
