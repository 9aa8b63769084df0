"""The line after an error message that a log has, too: a path and the system's reason, or what an input is instead."""

from __future__ import annotations

import gzip
import subprocess
from pathlib import Path

import pytest

from support import terminal_errors
from support.built import PROGRAM, SAMPLES
from support.files import shell
from support.program import Result, Word, hdt, hdt_from

TRIPLE = b"<u:a> <u:p> <u:b> .\n"
TURTLE = b"Turtle: serdi -i turtle -o ntriples FILE, or rapper, makes N-Triples"
INDEX = b"an index of another program: only the .hdt file beside it is needed"
# Documents that begin as files of another kind, and the hint.
DOCUMENTS = {
    "gzip": (gzip.compress(TRIPLE), b"compressed by gzip: set -o pipefail; zcat FILE | hdt build - NEW && mv NEW OUT"),
    "turtle": (b"@prefix u: <u:> .\nu:a u:p u:b .\n", TURTLE),
    "commented": (b"# a licence\n\n@prefix u: <u:> .\n", TURTLE),
    "xml": (b"<?xml version='1.0'?>\n<rdf:RDF/>\n",
            b"XML: rapper -i rdfxml -o ntriples FILE makes N-Triples of RDF/XML"),
    "hdt": ((SAMPLES / "v1.hdt").read_bytes(),
            b"an HDT file: hdt verify FILE checks it, hdt dump FILE prints N-Triples"),
    "index": (b"$HDT\x05<http://purl.org/HDT/hdt#indexFoQ>\0", INDEX),
}
FILES = {
    "gzip": (gzip.compress(TRIPLE), b"compressed by gzip: zcat FILE > NEW"),
    "turtle": (b"@prefix u: <u:> .\n", TURTLE),
    "index": DOCUMENTS["index"],
}


def second_line(ran: Result) -> bytes:
    """The line after the error message, which is the last one and indented; nothing if there is none."""
    lines = ran.err.splitlines()
    assert ran.status in (1, 3) and len(lines) <= 2 and lines[0].startswith(b"hdt: ")
    assert lines[1:] == [] or lines[1].startswith(b"  ")
    return b"".join(lines[1:]).removeprefix(b"  ")


@pytest.mark.parametrize("name", DOCUMENTS)
def test_documents(name: str, tmp_path: Path) -> None:
    """`build` and `split` say what a document is instead: of a file, of a pipe, of a later input."""
    document, hint = DOCUMENTS[name]
    path = tmp_path / "in"
    path.write_bytes(document)
    (tmp_path / "good.nt").write_bytes(TRIPLE)
    assert second_line(hdt("build", path, tmp_path / "out.hdt")) == hint
    assert second_line(hdt("split", "--of", "0/1", tmp_path / "good.nt", path)) == hint
    if name != "commented":  # (the line of an error is read again only of a file with a path)
        assert second_line(hdt_from(path, "build", "-", tmp_path / "out.hdt")) == hint
        assert second_line(hdt("build", "-", tmp_path / "out.hdt", stdin=document)) == hint
    assert not (tmp_path / "out.hdt").exists()


@pytest.mark.parametrize("name", [name for name in DOCUMENTS if name != "commented"])
def test_lint(name: str, tmp_path: Path) -> None:
    """`lint` prints it after the reports."""
    document, hint = DOCUMENTS[name]
    (tmp_path / "in").write_bytes(document)
    for ran in hdt("lint", tmp_path / "in"), hdt("lint", "-", stdin=document):
        assert (ran.status, ran.err) == (1, b"  " + hint + b"\n") and ran.out.startswith(b"line 1 column ")


@pytest.mark.parametrize("name", FILES)
def test_files(name: str, tmp_path: Path) -> None:
    """Commands that read an HDT file say what it is instead."""
    file, hint = FILES[name]
    (tmp_path / "in").write_bytes(file)
    for words in ["verify"], ["dump"], ["info"], ["answer"], ["rewrite"]:
        command: list[Word] = [words[0], tmp_path / "in", *([tmp_path / "out"] if words == ["rewrite"] else [])]
        assert second_line(hdt(*command)) == hint
    assert second_line(hdt("verify", "-", stdin=file)) == hint


def test_none(tmp_path: Path) -> None:
    """Other errors have one line."""
    (tmp_path / "in").write_bytes(TRIPLE + b"<u:a> <u:p>\n")
    assert hdt("build", tmp_path / "in", tmp_path / "out.hdt") == Result(1, b"", b"hdt: line 2 column 12: 1 Syntax\n")
    assert hdt("lint", tmp_path / "in") == Result(1, b"line 2 column 12: 1 Syntax\n", b"")
    assert hdt("verify", SAMPLES / "v1-head.hdt").err.count(b"\n") == 1


def test_paths_and_reasons(tmp_path: Path) -> None:
    """A failed read or write names the path, and the system's reason."""
    (tmp_path / "in.nt").write_bytes(TRIPLE)
    rows = {
        '"$0" verify nope.hdt': (b"reading", b"nope.hdt: No such file or directory"),
        '"$0" build nope.nt out.hdt': (b"reading", b"nope.nt: No such file or directory"),
        '"$0" dump .': (b"reading", b".: Is a directory"),
        '"$0" lint .': (b"reading", b".: Is a directory"),
        '"$0" build in.nt nope/out.hdt': (b"writing", b"nope/out.hdt: No such file or directory"),
        '"$0" build in.nt /dev/full': (b"writing", b"/dev/full: No space left on device"),
        '"$0" split in.nt nope/parts --parts 2': (b"writing", b"nope/parts: No such file or directory"),
        '"$0" answer .': (b"reading", b".: Is a directory"),
        '"$0" answer "$1" < .': (b"reading", b"standard input: Is a directory"),
        '"$0" head "$1" > /dev/full': (b"writing", b"standard output: No space left on device"),
    }
    for script, (what, why) in rows.items():
        ran = shell(script, SAMPLES / "v1.hdt", cwd=tmp_path)
        assert ran == Result(3, b"", b"hdt: " + what + b" failed\n  " + why + b"\n"), script
    ran = shell('"$0" split --of 0/1 in.nt nope.nt', cwd=tmp_path)
    assert ran.err == b"hdt: nope.nt: reading failed\n  nope.nt: No such file or directory\n"


def test_a_variable(tmp_path: Path) -> None:
    """A variable of SPARQL is not a term: `?` matches any."""
    ran = hdt("find", "--verbose", SAMPLES / "v1.hdt", "?s", "?", "?")
    assert ran.status == 2 and ran.err.endswith(b"\n  any term is written ?, without a name: '?'\n")


@pytest.mark.parametrize("words", [
    ["sum\x1b[31mmon"], ["verify", "a", "b\x1b]0;x\x07"], ["find", "a", "--m\nost\x9b", "b"]])
def test_usage_errors_on_a_terminal(words: list[str], tmp_path: Path) -> None:
    """Control characters of an argument do not reach a terminal; elsewhere the argument is printed as it is."""
    shown = terminal_errors.on_terminal(*words, cwd=tmp_path)
    text = shown.text.replace(b"\r\n", b"\n")
    assert all(byte == 10 or 32 <= byte < 127 for byte in text) and (b"\\033" in text or b"\\302\\233" in text)
    plain = subprocess.run([PROGRAM, *words], capture_output=True, check=False)
    assert plain.returncode == 2 and any(word.encode() in plain.stderr for word in words)
