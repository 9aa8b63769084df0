"""`hdt lint`: the reports of the faulty lines of a document and the other lines, against the reference's lines."""

from __future__ import annotations

import fcntl
import os
import subprocess
from collections.abc import Callable, Iterator
from functools import lru_cache
from pathlib import Path
from typing import NamedTuple

import pytest
from hypothesis import HealthCheck, given, settings
from hypothesis import strategies as st

from reference import ntriples
from support.built import PROGRAM, SAMPLES
from support.documents import canonical_file, counts
from support.program import (NO_TRIPLES, READING_FAILED, WRITING_FAILED, Result, Word, brief, closed, done, fed, hdt,
                             hdt_from, piped, run)
from support.refusing import message
from support.timing import is_linear, measure, timed

SAME_FILE = Result(2, b"", b"error: IN and standard output are the same file\n\nFor more information, try '--help'.\n")


class Linted(NamedTuple):
    """What `lint` gives of a document: the reports, and the lines without an error."""

    reports: bytes
    kept: bytes


@lru_cache(maxsize=4_096)
def fault(text: bytes) -> tuple[int, int, str] | None:
    """The column, the number and the name of the first error of a line, or None."""
    try:
        ntriples.parse_line(text)
    except ntriples.TermError as error:
        return error.column, int(error.reason), error.reason.name
    return None


def whole_lines(document: bytes) -> Iterator[tuple[int, bytes, bytes]]:
    """Each line of a document: its number, its text, and its end."""
    at = 0
    for number, text in ntriples.lines(document):
        at += len(text) + 1
        yield number, text, document[at - 1:at]


def linted(document: bytes, most: int | None = None) -> Linted:
    """The reports and the kept lines of a document, up to as many faulty lines. A line feed belongs to its line."""
    reports: list[bytes] = []
    kept: list[bytes] = []
    faulty = 0
    for number, text, end in whole_lines(document):
        if len(reports) == most:
            break
        error = fault(text)
        if error is not None:
            column, reason, name = error
            reports.append(b"line %d column %d: %d %s\n" % (number, column, reason, name.encode()))
            faulty = number
        elif number != faulty:
            kept.append(text + end)
    return Linted(b"".join(reports), b"".join(kept))


def wanted(it: Linted) -> tuple[Result, Result]:
    """The results without and with `--keep`."""
    status = 1 if it.reports else 0
    return Result(status, it.reports, b""), Result(status, it.kept, it.reports)


def check(document: bytes, path: Path, most: int | None = None) -> Linted:
    """Compare the results for a document, which is written to the path, but for a hint after them."""
    path.write_bytes(document)
    options: list[Word] = [] if most is None else ["--most", str(most)]
    it = linted(document, most)
    reported, kept = wanted(it)
    assert brief(message(hdt("lint", path, *options))) == brief(reported)
    assert brief(message(hdt("lint", "--keep", *options, path))) == brief(kept)
    return it


def check_kept(kept: bytes, folder: Path) -> None:
    """Kept lines have no error, and build the file of their triples."""
    (folder / "kept.nt").write_bytes(kept)
    assert brief(hdt("lint", "--keep", folder / "kept.nt")) == brief(done(kept))
    triples = {ntriples.triple_strings(triple) for triple in ntriples.triples(kept)}
    built = hdt("build", folder / "kept.nt", folder / "kept.hdt")
    if not triples:
        assert built == NO_TRIPLES
        return
    data = canonical_file(triples)
    assert built == done(b"built %s\n" % " ".join(map(str, [*counts(triples), len(data)])).encode())
    assert (folder / "kept.hdt").read_bytes() == data


# ---- documents

GOOD = b"<u:a> <u:p> <u:b> ."
# Documents, the reports of each, and the lines that are kept.
DOCUMENTS: dict[str, tuple[bytes, bytes, bytes]] = {
    "empty": (b"", b"", b""),
    "an empty line": (b"\n", b"", b"\n"),
    "a comment": (b"# x\r\n \t\r", b"", b"# x\r\n \t\r"),
    "a triple without an end": (GOOD, b"", GOOD),
    "a faulty line without an end": (b"<u:a>", b"line 1 column 6: 1 Syntax\n", b""),
    "two faulty lines": (b"x\n" + GOOD + b"\ny", b"line 1 column 1: 1 Syntax\nline 3 column 1: 1 Syntax\n",
                         GOOD + b"\n"),
    "a line feed of a faulty line": (b"x\r\n\n" + GOOD + b"\r\n", b"line 1 column 1: 1 Syntax\n",
                                     b"\n" + GOOD + b"\r\n"),
    "a carriage return of a faulty line": (b"x\r" + GOOD, b"line 1 column 1: 1 Syntax\n", GOOD),
    "a line feed and a carriage return": (b"x\n\r" + GOOD, b"line 1 column 1: 1 Syntax\n", b"\r" + GOOD),
    "not UTF-8": (GOOD + b" # \xff\n# \xc3\xa9", b"line 1 column 23: 2 NotUtf8\n", b"# \xc3\xa9"),
    "a bad escape": (b'<u:a> <u:p> "\\z" .\n', b"line 1 column 14: 3 BadEscape\n", b""),
    "a relative IRI": (b"<a> <u:p> <u:b> .\n", b"line 1 column 1: 4 RelativeIri\n", b""),
    "a character of no IRI": (b"<u:a\\u0020b> <u:p> <u:b> .\n", b"line 1 column 5: 5 IriCharacter\n", b""),
    "a space in an IRI": (b"<u:a b> <u:p> <u:b> .\n", b"line 1 column 5: 1 Syntax\n", b""),
    "a zero": (b'<u:a> <u:p> "\\u0000" .\n', b"line 1 column 14: 6 ZeroCharacter\n", b""),
    "a literal as subject": (b'"a" <u:p> <u:b> .\n' + GOOD, b"line 1 column 1: 1 Syntax\n", GOOD),
    "a byte order mark": (b"\xef\xbb\xbf" + GOOD + b"\n" + GOOD, b"line 1 column 1: 1 Syntax\n", GOOD),
    "two triples in a line": (GOOD + GOOD + b"\n#", b"line 1 column 20: 1 Syntax\n", b"#"),
}


@pytest.mark.parametrize("name", DOCUMENTS)
def test_documents(name: str, tmp_path: Path) -> None:
    """The reports and the kept lines of a few documents."""
    document, reports, kept = DOCUMENTS[name]
    assert check(document, tmp_path / "document.nt") == Linted(reports, kept)
    check_kept(kept, tmp_path)


TEXTS = st.sampled_from([
    GOOD, b"<u:b> <u:p> \"x\"@en . # a comment", b"_:b <u:q> \"1\"^^<u:t>.", b"# \xc3\xa9", b"", b" \t", b"<u:a>", b"x",
    b"<u:a> <u:p> <u:b>", b"<a> <u:p> <u:b> .", b"<u:a> _:b <u:b> .", b"<u:a> <u:p> \"\\z\" .",
    b"<u:a> <u:p> \"\\u0000\" .", b"<u:a> <u:p> <u:b> . \xff", b"# \xff", b"\"a\" <u:p> <u:b> .",
    b"<u:a> <u:p> <u: b> .", GOOD + GOOD,
])
ENDS = st.sampled_from([b"\n", b"\r", b"\r\n", b"\n\r"])
LINES = st.lists(st.tuples(TEXTS, ENDS).map(b"".join), max_size=10).map(b"".join)
DOCUMENTS_OF_LINES = st.tuples(LINES, TEXTS | st.just(b"")).map(b"".join)
PIECES = st.sampled_from([b"\r", b"\n", b"<u:a> ", b"_:b ", b"\"", b".", b"\xff", b"#"])
ANY_DOCUMENTS = DOCUMENTS_OF_LINES | st.lists(PIECES, max_size=20).map(b"".join)


@settings(max_examples=60, deadline=None, suppress_health_check=[HealthCheck.function_scoped_fixture])
@given(ANY_DOCUMENTS)
def test_any_document(tmp_path: Path, document: bytes) -> None:
    """Any document: exactly the lines that the reference refuses are reported; the others are kept and build."""
    check_kept(check(document, tmp_path / "document.nt").kept, tmp_path)


@settings(max_examples=30, deadline=None, suppress_health_check=[HealthCheck.function_scoped_fixture])
@given(DOCUMENTS_OF_LINES, st.integers(0, 5) | st.just(2**64 - 1))
def test_most(tmp_path: Path, document: bytes, most: int) -> None:
    """With `--most` only the first faulty lines are reported, and what follows them is not checked."""
    check(document, tmp_path / "document.nt", most)


# ---- input and output

LARGE = b"".join(b"<u:a%d> <u:p> \"%d\" .%s\n" % (n % 97, n % 89, b"." if n % 7 == 3 else b"") for n in range(300_000))
MIXED = b"x\r\n" + GOOD + b"\r\n" + b"y"


def test_large(tmp_path: Path) -> None:
    """A document of 300,000 lines, of which every seventh is faulty; and one faulty line of 300,000 bytes."""
    check(LARGE, tmp_path / "large.nt")
    check(LARGE, tmp_path / "large.nt", 12_345)
    check(b"<u:a> <u:p> \"" + b"x" * 300_000 + b"\n" + GOOD, tmp_path / "long.nt")


@pytest.mark.parametrize("size", [65_535, 65_536, 65_537, 131_072])
def test_buffer(size: int, tmp_path: Path) -> None:
    """The pair of a carriage return and a line feed at the end of a buffer is one line end."""
    for end in (b"\r\n", b"\n", b"\r"):
        check(b"#" * (size - 1) + end + b"x\r\n" + GOOD + end, tmp_path / "document.nt")
        check(b"." * (size - 1) + end + b"x\r\n" + GOOD + end, tmp_path / "document.nt")


@pytest.mark.parametrize("keep", [False, True])
def test_standard_input(keep: bool, tmp_path: Path) -> None:
    """`-` is standard input: a pipe, in any pieces, or a file."""
    words: list[Word] = ["lint", "--keep", "-"] if keep else ["lint", "-"]
    result = wanted(linted(MIXED))[keep]
    assert [piped(MIXED, step, *words) for step in (1, 2, 7, 100)] == [result] * 4
    (tmp_path / "document.nt").write_bytes(MIXED)
    assert hdt_from(tmp_path / "document.nt", *words) == result
    assert hdt(*words) == done()


def test_reports_before_the_end() -> None:
    """Reports of more than 64 KiB are written before the input ends."""
    def pieces() -> Iterator[bytes]:
        yield LARGE[:1 << 20]
        yield LARGE[1 << 20:]

    assert brief(fed(pieces(), "lint", "-")) == brief(wanted(linted(LARGE))[0])


def test_pipe_to_build(tmp_path: Path) -> None:
    """A file is built from the lines without an error of a dirty dump."""
    (tmp_path / "dump.nt").write_bytes(LARGE)
    it = linted(LARGE)
    pipe = '"$0" lint --keep dump.nt 2>reports | "$0" build - good.hdt'
    triples = {ntriples.triple_strings(triple) for triple in ntriples.triples(it.kept)}
    data = canonical_file(triples)
    result = run(["sh", "-c", pipe, PROGRAM], cwd=tmp_path)
    assert result == done(b"built %s\n" % " ".join(map(str, [*counts(triples), len(data)])).encode())
    assert (tmp_path / "good.hdt").read_bytes() == data
    assert (tmp_path / "reports").read_bytes() == it.reports


def into_closed_pipe(*words: Word) -> Result:
    """The result of a program whose standard output is a pipe that nothing reads; standard output is not seen."""
    reading, writing = os.pipe()
    os.close(reading)
    try:
        ended = subprocess.run([os.fsencode(word) for word in (PROGRAM, *words)], stdout=writing,
                               stderr=subprocess.PIPE, timeout=60)
    finally:
        os.close(writing)
    return Result(ended.returncode, b"", ended.stderr)


@pytest.mark.parametrize("ended", [lambda *words: closed(1, *words), into_closed_pipe], ids=["closed", "pipe"])
def test_closed_output(ended: Callable[..., Result], tmp_path: Path) -> None:
    """Writing to closed standard output fails, where something is written. The reports may be written before."""
    path = tmp_path / "document.nt"
    path.write_bytes(GOOD)
    assert ended("lint", path) == done()
    assert ended("lint", "--keep", path) == WRITING_FAILED
    path.write_bytes(MIXED)
    assert ended("lint", path) == WRITING_FAILED
    path.write_bytes(LARGE)
    assert ended("lint", path) == WRITING_FAILED
    assert ended("lint", "--keep", path)[:2] == (3, b"")


def test_closed_errors(tmp_path: Path) -> None:
    """With `--keep`, reports that cannot be written are a failure; the kept lines are written before."""
    path = tmp_path / "document.nt"
    path.write_bytes(MIXED)
    assert closed(2, "lint", "--keep", path) == Result(3, linted(MIXED).kept, b"")
    assert closed(2, "lint", path) == wanted(linted(MIXED))[0]


def test_no_input(tmp_path: Path) -> None:
    """A document that cannot be read."""
    for words in (["lint"], ["lint", "--keep"]):
        assert hdt(*words, tmp_path / "missing.nt") == READING_FAILED
        assert hdt(*words, tmp_path) == READING_FAILED
        assert closed(0, *words, "-") == READING_FAILED
    missing = hdt("lint", tmp_path / "missing.nt", "--verbose")
    assert missing.err.startswith(READING_FAILED.err) and b"missing.nt: No such file" in missing.err


@pytest.mark.parametrize("count", [1, 1_000, 20_000])
@pytest.mark.parametrize("keep", [False, True])
def test_input_that_fails_midway(keep: bool, count: int) -> None:
    """What belongs to the lines before is printed before the message, be it little or more than 64 KiB."""
    document = b"".join(b"<u:a%d> <u:p> <u:b> .\n<u:a> x\n" % n for n in range(count))
    reader, writer = os.pipe()
    fcntl.fcntl(writer, fcntl.F_SETPIPE_SZ, 1 << 20)
    assert os.write(writer, document + b"<u:a> x") == len(document) + 7
    os.set_blocking(reader, False)  # (then reading fails where a program would have to wait)
    ended = subprocess.run([PROGRAM, "lint", *(["--keep"] if keep else []), "-"], stdin=reader, capture_output=True,
                           timeout=60)
    os.close(reader)
    os.close(writer)
    before = wanted(linted(document))[keep]
    result = Result(3, before.out, before.err + READING_FAILED.err + b"  -: Resource temporarily unavailable\n")
    assert brief(Result(ended.returncode, ended.stdout, ended.stderr)) == brief(result)


def test_same_file(tmp_path: Path) -> None:
    """The document is not written to."""
    path = tmp_path / "document.nt"
    path.write_bytes(MIXED)
    for words in ('lint "$1"', 'lint --keep "$1"', 'lint - <"$1"', 'lint --keep - <"$1"'):
        assert run(["sh", "-c", f'"$0" {words} >>"$1"', PROGRAM, path]) == SAME_FILE
    assert path.read_bytes() == MIXED


def test_arguments() -> None:
    """IN is required, N is a number, and other options are refused."""
    path = SAMPLES / "three.nt"
    assert hdt("lint", path) == done()
    refused: list[list[Word]] = [
        [], [path, path], [path, "--most"], [path, "--most", "x"], [path, "--most", str(2**64)], [path, "--tight"],
    ]
    for words in refused:
        result = hdt("lint", *words)
        assert (result.status, result.out, result.err[:6]) == (2, b"", b"error:")


# ---- time

FAMILIES: dict[str, Callable[[int], bytes]] = {
    "one huge line": lambda scale: GOOD + b" #" + b"x" * (200_000 * scale),
    "one huge faulty line": lambda scale: b"<u:" + b"x" * (200_000 * scale),
    "a huge literal with escapes": lambda scale: b"<u:a> <u:p> \"" + b"\\u0041" * (40_000 * scale) + b"\" x",
    "faulty lines of a byte": lambda scale: b"x\n" * (62_500 * scale),
    "lines of nothing": lambda scale: b"\r\n" * (100_000 * scale),
}


@pytest.mark.parametrize("keep", [False, True])
@pytest.mark.parametrize("name", FAMILIES)
def test_linear_time(name: str, keep: bool, tmp_path: Path) -> None:
    """Sixteen times the input takes far less than 256 times as long."""
    words: list[Word] = ["lint", "--keep"] if keep else ["lint"]
    expected: dict[int, Result] = {}
    for scale in (1, 16):
        document = FAMILIES[name](scale)
        (tmp_path / f"{scale}.nt").write_bytes(document)
        expected[scale] = wanted(linted(document))[keep]

    def seconds(scale: int) -> float:
        result, taken = timed([PROGRAM, *words, tmp_path / f"{scale}.nt"])
        assert brief(result) == brief(expected[scale])
        return taken

    measured = measure(lambda: seconds(1), lambda: seconds(16), 32, 0.01)
    assert is_linear(measured, 32, 0.01), measured
