"""No command writes to a file that it reads: that is a usage error, and the file stays as it was."""

from __future__ import annotations

import os
import shutil
from pathlib import Path

import pytest

from support.built import SAMPLES
from support.files import names, shell
from support.program import Result, done

DOCUMENT, FILE = SAMPLES / "three.nt", SAMPLES / "three.hdt"

# Each command and its arguments; `own` is what it reads.
OF_DOCUMENTS = ("build own -", "lint own", "lint --keep own", "split own --of 0/1", "split own folder --parts 2",
                "split other own --of 0/1", "split --blank-nodes one other other own --of 1/2")
OF_FILES = ("head own", "verify own", "verify --tight own", "verify --terms own", "info own", "strings own subject",
            "string own subject 1", "number own predicate '<u:p>'", "find own '?' '?' '?'",
            "find own --count '?' '?' '?'", "dump own", "dump --skip-non-terms own", "count own predicate",
            "answer own", "rewrite own -", "rewrite own other.hdt")
# How the shell makes standard output what is read.
INTO = (">> own", "1<> own", ">> soft", ">> hard")


def refused(reading: str, writing: str) -> Result:
    """The result of a command whose input and output are one file."""
    return Result(2, b"", f"error: {reading} and {writing} are the same file\n\n".encode()
                  + b"For more information, try '--help'.\n")


def named(command: str) -> str:
    """The name of the file that a command reads, in its help."""
    return "IN" if command.split()[0] in ("build", "lint", "split", "rewrite") else "FILE"


@pytest.fixture
def folder(tmp_path: Path) -> Path:
    """A folder with `other`, a document, and links to `own`, which is not there yet."""
    shutil.copy(DOCUMENT, tmp_path / "other")
    (tmp_path / "soft").symlink_to("own")
    return tmp_path


def given(folder: Path, command: str) -> bytes:
    """Make `own` and `hard` what the command reads; return their bytes."""
    source = DOCUMENT if command in OF_DOCUMENTS else FILE
    shutil.copy(source, folder / "own")
    os.link(folder / "own", folder / "hard")
    return source.read_bytes()


@pytest.mark.parametrize("command", [*OF_DOCUMENTS, *OF_FILES])
def test_standard_output(command: str, folder: Path) -> None:
    """Standard output is the input, by each kind of link; it is not written to, and the program ends."""
    before = given(folder, command)
    for into in INTO:
        assert shell(f'"$0" {command} {into} < other', cwd=folder) == refused(
            named(command), "OUT" if command == "build own -" else "standard output"), into
    assert ((folder / "own").read_bytes(), names(folder)) == (before, ["hard", "other", "own", "soft"])


@pytest.mark.parametrize("command", [*OF_DOCUMENTS, *OF_FILES])
def test_standard_error(command: str, folder: Path) -> None:
    """Standard error is the input: no message is written to it, either."""
    before = given(folder, command)
    for into in INTO:
        script = f'"$0" {command} 2{into.removeprefix("1")} < other'
        assert shell(script, cwd=folder) == Result(2, b"", b""), into
    assert ((folder / "own").read_bytes(), names(folder)) == (before, ["hard", "other", "own", "soft"])


@pytest.mark.parametrize("path", ["-", "/dev/stdin", "/dev/fd/0"])
@pytest.mark.parametrize("command", ["lint own", "split own --of 0/1", "split other own --of 0/1", "dump own"])
def test_standard_input(command: str, path: str, folder: Path) -> None:
    """What is read is standard input, which is the same file as standard output."""
    before = given(folder, command)
    script = f'"$0" {command.replace("own", path)} < own >> own'
    assert shell(script, cwd=folder) == refused(named(command), "standard output")
    assert (folder / "own").read_bytes() == before


def test_requests(folder: Path) -> None:
    """The requests of `answer` are read while the answers are written."""
    (folder / "own").write_bytes(b"? ? ?\n")
    shutil.copy(FILE, folder / "graph.hdt")
    for into in (">> own", "1<> own", ">> soft"):
        assert shell(f'"$0" answer graph.hdt < own {into}', cwd=folder) == refused("standard input", "standard output")
    assert shell('"$0" answer graph.hdt < own 2>> own', cwd=folder) == Result(2, b"", b"")
    assert (folder / "own").read_bytes() == b"? ? ?\n"


def test_other_files(folder: Path) -> None:
    """Another file is written to, and so is a device that is read; `rewrite` replaces its input."""
    shutil.copy(FILE, folder / "graph.hdt")
    before = (folder / "graph.hdt").read_bytes()
    assert shell('"$0" split other --of 0/1 >> new && "$0" lint other >> new 2>> new', cwd=folder) == done()
    assert (folder / "new").read_bytes() == DOCUMENT.read_bytes()
    assert shell('"$0" lint /dev/null > /dev/null 2> /dev/null', cwd=folder) == done()
    assert shell('"$0" rewrite graph.hdt graph.hdt > /dev/null', cwd=folder) == done()
    assert (folder / "graph.hdt").read_bytes() == before
