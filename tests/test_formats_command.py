"""The command of the Python package: the program, and `build` of what `hdt.build` takes, with the same statuses."""

from __future__ import annotations

import gzip
import os
import shutil
from pathlib import Path
from typing import Any

import pytest

from support import program
from support.built import PROGRAM, SAMPLES
from support.formats import BASE, GRAPH, LINES, TURTLE, XML, command, needs, strings_of
from support.program import Word
from support.python_package import ENVIRONMENT, hdt

NOT_RDF = "<u:a> <u:p>\n"


@pytest.fixture
def folder(tmp_path: Path) -> Path:
    """A folder with a file of each kind."""
    (tmp_path / "a.ttl").write_text(TURTLE)
    (tmp_path / "b.rdf.gz").write_bytes(gzip.compress(XML.encode()))
    (tmp_path / "c.nt").write_text("<u:c> <u:p> <u:d> .\n")
    (tmp_path / "bad.nt").write_text(NOT_RDF)
    return tmp_path


@pytest.mark.parametrize("words", [
    ["--version"], ["--help"], ["help", "build"], ["verify", SAMPLES / "three.hdt"],
    ["verify", SAMPLES / "v1-head.hdt"],
    ["find", SAMPLES / "three.hdt", "?", "<u:p>", "?"], ["count", SAMPLES / "three.hdt", "subject"], ["nothing"], [],
    ["info", SAMPLES / "three.hdt"], ["verify", "none.hdt"], ["explain", "Syntax"]], ids=str)
def test_commands_of_the_program(words: list[Word], tmp_path: Path) -> None:
    """All commands but `build` are those of the program: status, output and errors."""
    assert command(tmp_path, *words) == program.hdt(*words, cwd=tmp_path)


@pytest.mark.parametrize("words, stdin", [
    (["c.nt", "c.hdt"], b""), (["c.nt", "-"], b""), (["-", "out.hdt", "--base", "u:g"], LINES.encode()),
    (["c.nt", "c.hdt", "--block-size", "4", "--progress"], b""), (["bad.nt", "out.hdt"], b""),
    (["none.nt", "out.hdt"], b"")], ids=str)
def test_build_of_one_document(words: list[Word], stdin: bytes, folder: Path) -> None:
    """One document of N-Triples is built by the program."""
    assert command(folder, "build", *words, stdin=stdin) == program.hdt("build", *words, stdin=stdin, cwd=folder)


def test_build_of_several(folder: Path) -> None:
    """Inputs of several syntaxes are built into one file, whose counts are printed as the program does."""
    needs("serdi")
    needs("rapper")
    done = command(folder, "build", "a.ttl", "b.rdf.gz", "c.nt", "out.hdt", "--base", BASE)
    size = (folder / "out.hdt").stat().st_size
    assert done == (0, f"built 5 0 3 2 5 {size}\n".encode(), b"")
    assert strings_of(folder / "out.hdt") == sorted([*GRAPH, ("u:c", "u:p", "u:d")])
    hdt.build(folder / "a.ttl", folder / "one.hdt", base=BASE)
    data = (folder / "one.hdt").read_bytes()
    printed = b"built 4 0 2 2 4 %d\n" % len(data)
    assert command(folder, "build", "a.ttl", "-", "--base", BASE) == (0, data, printed)


def test_standard_input(folder: Path) -> None:
    """Standard input may be one of the inputs, in the syntax that is told."""
    needs("serdi")
    done = command(folder, "build", "-", "out.hdt", "--syntax", "turtle", "--base", BASE, stdin=TURTLE.encode())
    assert (done.status, strings_of(folder / "out.hdt")) == (0, GRAPH)
    done = command(folder, "build", "-", "c.nt", "out.hdt", stdin=gzip.compress(LINES.encode()))
    assert (done.status, len(strings_of(folder / "out.hdt"))) == (0, 5)
    assert command(folder, "build", "-", "-", "out.hdt").status == 2


def test_options(folder: Path) -> None:
    """The options are those of `hdt.build`."""
    (folder / "g.nq").write_text("_:b <u:p> <u:b> <u:g> .\n")
    done = command(folder, "build", "g.nq", "g.nq", "out.hdt", "--graphs", "merge", "--blank-nodes", "one",
                   "--block-size", "2", "--largest-text", "100", "--longest-line", "50", "--progress")
    assert (done.status, strings_of(folder / "out.hdt")) == (0, [("_:b", "u:p", "u:b")])
    assert b"48" in done.err


@pytest.mark.parametrize("words, status, told", [
    (["bad.nt", "c.nt"], 1, "bad.nt: line 1 column 12: 1 Syntax"), (["cut.ttl"], 1, "cut.ttl: line 2: serdi: "),
    (["empty.ttl"], 1, "empty.ttl: no triples"), (["none.ttl"], 3, "none.ttl"),
    (["cut.nt.gz"], 3, "not a whole gzip file"),
    (["g.nq"], 1, "1 named graph"), (["a.ttl", "--largest-text", "1"], 1, "than 1 bytes"),
    (["c.nt", "c.nt", "--base", "relative"], 2, "the base is not an absolute IRI"),
    (["c.nt", "out.hdt"], 2, "OUT is one of the inputs"), (["a.ttl", "--block-size", "0"], 2, "1 to 65535"),
    (["a.ttl", "--converter", "any23"], 2, "invalid choice"), (["a.ttl", "--largest-text", "-1"], 2, "negative"),
    (["a.ttl", "--lar", "1"], 2, "--lar"), ([], 2, "required"),
    (["c.nt", "--header", "bad.nt"], 1, "bad.nt: line 1 column 12: 1 Syntax"),
    (["c.nt", "--header", "none"], 3, "none"), (["c.nt", "--header", "out.hdt"], 2, "OUT is one of the inputs"),
    (["-", "--header", "-"], 2, "read once"), (["c.nt", "--header", "c.nt", "--title", "A"], 2, "the whole header"),
    (["bad.nt", "--title", "A"], 1, "bad.nt: line 1 column 12: 1 Syntax"),
    (["c.nt", "--title", b"\xff"], 2, "half of a surrogate pair")])
def test_statuses(words: list[Word], status: int, told: str, folder: Path) -> None:
    """A failure has the status that it has of the program, one line, and leaves OUT as it was."""
    needs("serdi")
    (folder / "cut.ttl").write_text("<u:a> <u:p> <u:b> .\n<u:a> <u:p>")
    (folder / "empty.ttl").write_text("")
    (folder / "cut.nt.gz").write_bytes(gzip.compress(LINES.encode())[:-1])
    (folder / "g.nq").write_text("_:b <u:p> <u:b> <u:g> .\n")
    (folder / "out.hdt").write_text("before")
    names = sorted(os.listdir(folder))
    at = next((n for n, it in enumerate(words) if str(it).startswith("--")), len(words))
    done = command(folder, "build", *words[:at], "out.hdt", *words[at:])
    assert (done.status, done.out, told in done.err.decode()) == (status, b"", True), done
    assert status == 2 or done.err.count(b"\n") == 1 and done.err.startswith(b"hdt: ")
    assert ((folder / "out.hdt").read_text(), sorted(os.listdir(folder))) == ("before", names)


def test_metadata(folder: Path) -> None:
    """The header is made with the file: by properties, or of a file as it is, also for one document of N-Triples."""
    given = ["--title", "A", "--title", 'B "C"', "--licence", "u:l", "--publisher", "Us", "--issued", "2026-11-29"]
    words: dict[str, Any] = {"title": ["A", 'B "C"'], "license": "u:l", "publisher": "Us", "issued": "2026-11-29"}
    for inputs in (["c.nt"], ["c.nt", "c.nt"], ["-"]):
        done = command(folder, "build", *inputs, "out.hdt", *given, stdin=b"<u:c> <u:p> <u:d> .\n")
        assert done.status == 0, done
        with hdt.open(folder / "out.hdt") as graph:
            assert graph.header.decode() == hdt.metadata(graph, **words)
            assert [list(graph), graph.header.count(b"\n")] == [[("u:c", "u:p", "u:d")], 12]
    (folder / "header.nt").write_text("# as it is\n")
    assert command(folder, "build", "c.nt", "out.hdt", "--header", "header.nt").status == 0
    assert program.hdt("head", "--body", folder / "out.hdt").out == b"# as it is\n"
    assert command(folder, "build", "c.nt", "out.hdt", "--header", "-", stdin=b"# read\n").status == 0
    assert program.hdt("head", "--body", folder / "out.hdt").out == b"# read\n"


def test_verbose(folder: Path) -> None:
    """With --verbose an error of N-Triples is explained, as `hdt explain` does."""
    done = command(folder, "build", "c.nt", "bad.nt", "out.hdt", "--verbose")
    assert done.err == b"hdt: bad.nt: line 1 column 12: 1 Syntax\n" + program.hdt("explain", "Syntax").out


def test_help_of_build(tmp_path: Path) -> None:
    """The help of `build` names all its options, and those of the program."""
    done = command(tmp_path, "build", "--help")
    assert (done.status, done.err) == (0, b"")
    of_program = {word.strip(b",") for word in program.hdt("build", "--help").out.split() if word.startswith(b"--")}
    assert [it for it in of_program if it not in done.out] == []


def test_no_program(tmp_path: Path, monkeypatch: pytest.MonkeyPatch) -> None:
    """A script named hdt in PATH, as that of the package itself, is not the program: it would run this again."""
    shutil.copy(ENVIRONMENT["HDT_LIBRARY"], tmp_path / "libhdt.so")
    script = tmp_path / "hdt"
    script.write_text("#!/bin/sh\necho again\n")
    script.chmod(0o755)
    environment = {"HDT_LIBRARY": str(tmp_path), "PATH": str(tmp_path)}
    done = command(tmp_path, "verify", "x", env=environment)
    assert (done.status, done.out) == (3, b"") and done.err.startswith(b"hdt: the program hdt is neither")
    script.unlink()
    script.symlink_to(PROGRAM)
    assert command(tmp_path, "--version", env=environment) == program.hdt("--version")


def test_called_from_python(folder: Path, capfd: Any) -> None:
    """`main` takes words and returns the status."""
    from hdt.__main__ import main

    assert main(["build", str(folder / "c.nt"), str(folder / "c.nt"), str(folder / "out.hdt")]) == 0
    assert capfd.readouterr().out.startswith("built 1 0 1 1 1 ")
