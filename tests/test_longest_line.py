"""`--longest-line`: lines that are too long for `build`, `lint` and `split`, against a model."""

from __future__ import annotations

import re
from pathlib import Path

import pytest
from hypothesis import HealthCheck, given, settings
from hypothesis import strategies as st

from reference import ntriples
from support.built import PROGRAM, SAMPLES
from support.documents import DEFAULT_BASE, canonical_file, printed
from support.program import NO_TRIPLES, OUT_OF_MEMORY, Result, Word, brief, done, failed, fed, hdt, piped, run

GOOD = b"<u:a> <u:p> <u:b> ."
HINT = "The line is longer than --longest-line allows."


def without_hint(result: Result) -> Result:
    """A result without the hint that follows its message."""
    return result._replace(err=re.sub(rb"(?<=\n)  [^\n]*\n\Z", b"", result.err))


def first_fault(text: bytes, longest: int) -> str | None:
    """The column, the number and the name of the first error of a line that may have so many bytes, or None."""
    if len(text) > longest:
        return f"column {longest + 1}: 9 TooLong"
    try:
        ntriples.parse_line(text)
    except ntriples.TermError as error:
        return f"column {error.column}: {int(error.reason)} {error.reason.name}"
    return None


def faults(document: bytes, longest: int) -> list[str]:
    """The reports of the faulty lines of a document, in order."""
    found = ((number, first_fault(text, longest)) for number, text in ntriples.lines(document))
    return [f"line {number} {fault}" for number, fault in found if fault is not None]


def linted(document: bytes, longest: int, most: int | None) -> tuple[bytes, bytes]:
    """The reports of `lint`, up to so many, and the lines that it keeps."""
    reports: list[str] = []
    kept, faulty, at = b"", 0, 0
    for number, text in ntriples.lines(document):
        if len(reports) == most:
            break
        whole = document[at:at + len(text) + 1]
        at += len(whole)
        fault = first_fault(text, longest)
        if fault is not None:
            reports.append(f"line {number} {fault}\n")
            faulty = number
        elif number != faulty:
            kept += whole
    return "".join(reports).encode(), kept


# ---- any document

TEXTS = st.sampled_from([
    GOOD, b"", b"#", b" \t", b"# \xc3\xa9", b"x", b"<u:a>", b"\xff", b"<u:b> <u:p> \"x\" .", b"_:b <u:p> \"y\" .",
    GOOD + b" ", GOOD + b" #", GOOD + b" # more", b"<u:a> <u:p> <u:bc> .", b"<a> <u:p> <u:b> . #", b"\xff" * 21,
])
ENDS = st.sampled_from([b"\n", b"\r", b"\r\n", b"\n\r"])
LINES = st.lists(st.tuples(TEXTS, ENDS).map(b"".join), max_size=8).map(b"".join)
DOCUMENTS = st.tuples(LINES, TEXTS).map(b"".join)
LIMITS = st.integers(0, 24) | st.sampled_from([2**63 - 1, 2**63, 2**64 - 1])
LONG_EXAMPLES = settings(max_examples=40, deadline=None,
                         suppress_health_check=[HealthCheck.function_scoped_fixture])


@LONG_EXAMPLES
@given(DOCUMENTS, LIMITS, st.none() | st.integers(0, 3), st.integers(1, 30))
def test_lint(tmp_path: Path, document: bytes, longest: int, most: int | None, step: int) -> None:
    """A line that is too long is reported in its place among the other faulty lines, counts for `--most`, and is not
    kept; its neighbours are."""
    path = tmp_path / "document.nt"
    path.write_bytes(document)
    options: list[Word] = ["--longest-line", str(longest)]
    if most is not None:
        options += ["--most", str(most)]
    reports, kept = linted(document, longest, most)
    status = 1 if reports else 0
    assert hdt("lint", path, *options) == Result(status, reports, b"")
    assert hdt("lint", "--keep", *options, path) == Result(status, kept, reports)
    assert piped(document, step, "lint", "--keep", *options, "-") == Result(status, kept, reports)


@LONG_EXAMPLES
@given(DOCUMENTS, LIMITS, st.integers(1, 30))
def test_build(tmp_path: Path, document: bytes, longest: int, step: int) -> None:
    """The first faulty line is the error, and one that is too long is faulty. Without one the file is built."""
    path, out = tmp_path / "document.nt", tmp_path / "new.hdt"
    path.write_bytes(document)
    out.unlink(missing_ok=True)
    found = faults(document, longest)
    results = [hdt("build", "--longest-line", str(longest), path, out),
               piped(document, step, "build", "-", out, "--longest-line", str(longest))]
    if found:
        assert list(map(without_hint, results)) == [failed(1, found[0])] * 2 and not out.exists()
        return
    triples = {ntriples.triple_strings(triple) for triple in ntriples.triples(document)}
    if not triples:
        assert results == [NO_TRIPLES] * 2
        return
    data = canonical_file(triples, DEFAULT_BASE)
    assert results == [printed("built", triples, len(data))] * 2
    assert out.read_bytes() == data


@LONG_EXAMPLES
@given(DOCUMENTS, DOCUMENTS, LIMITS)
def test_split(tmp_path: Path, first: bytes, second: bytes, longest: int) -> None:
    """The first faulty line of the first input that has one is the error, and its path is in the message."""
    paths = [tmp_path / "first.nt", tmp_path / "second.nt"]
    folder = tmp_path / "parts"
    documents = [first, second]
    for path, document in zip(paths, documents):
        path.write_bytes(document)
    options: list[Word] = ["--longest-line", str(longest), "--blank-nodes", "one"]
    errors = [f"{path}: {found[0]}" for path, document in zip(paths, documents)
              if (found := faults(document, longest))]
    one = hdt("split", *paths, "--of", "0/1", *options)
    both = hdt("split", *paths, folder, "--parts", "1", *options)
    if errors:
        assert without_hint(both) == failed(1, errors[0]) and not folder.exists()
        assert (one.status, one.err) == (1, both.err)
        return
    lines = [text + b"\n" for document in documents for _, text in ntriples.lines(document)
             if ntriples.parse_line(text) is not None]
    assert one.status == 0 and one.out.replace(b"\r", b"\n") == b"".join(lines)
    assert both == done()
    if lines:
        assert (folder / "part-00000.nt").read_bytes() == one.out
        (folder / "part-00000.nt").unlink()
    folder.rmdir()


# ---- large documents

FAR = 70_001
MANY = b"".join(b"<u:a%d> <u:p> \"%d\" .\r\n" % (n % 97, n) for n in range(FAR - 1))
LONG = b"<u:a> <u:p> \"" + b"x" * 100_000
AFTER = b"\r\n" + GOOD + b"\r\nx\r\n"


@pytest.mark.parametrize("longest", [30, 65_535, 65_536, 99_999])
def test_far_line(longest: int, tmp_path: Path) -> None:
    """A line that is too long after 70,000 others, in a file, a pipe and a second input."""
    document = MANY + LONG + AFTER
    path = tmp_path / "document.nt"
    path.write_bytes(document)
    limit: list[Word] = ["--longest-line", str(longest)]
    long = f"line {FAR} column {longest + 1}: 9 TooLong"
    reports = f"{long}\nline {FAR + 2} column 1: 1 Syntax\n".encode()
    assert hdt("lint", path, *limit) == Result(1, reports, b"")
    kept = MANY + GOOD + b"\r\n"
    assert brief(fed([document], "lint", "-", "--keep", *limit)) == brief(Result(1, kept, reports))
    wanted = Result(1, b"", f"hdt: {long}\n  {HINT}\n".encode())
    assert hdt("build", path, tmp_path / "new.hdt", *limit) == wanted
    assert fed([document], "build", "-", tmp_path / "new.hdt", *limit) == wanted
    split = hdt("split", SAMPLES / "three.nt", path, "--of", "0/2", *limit)
    assert (split.status, split.err) == (1, f"hdt: {path}: {long}\n  {HINT}\n".encode())


def test_lines_of_the_limit(tmp_path: Path) -> None:
    """Lines of exactly N bytes are right, in every buffer and at the end of the input."""
    for size in (21, 1_000, 65_534, 65_535, 65_536, 65_537, 200_000):
        text = GOOD + b" #" + b"x" * (size - len(GOOD) - 2)
        for document in (text, (text + b"\n") * 3, (text + b"\r\n") * 3 + text):
            path = tmp_path / "document.nt"
            path.write_bytes(document)
            assert hdt("lint", path, "--longest-line", str(size)) == done()
            assert hdt("build", path, tmp_path / "new.hdt", "--longest-line", str(size)).status == 0
            assert hdt("split", path, "--of", "0/1", "--longest-line", str(size)).status == 0
            too_long = f"line 1 column {size}: 9 TooLong"
            assert hdt("lint", path, "--longest-line", str(size - 1)).out.startswith(too_long.encode())
            built = hdt("build", path, tmp_path / "new.hdt", "--longest-line", str(size - 1))
            assert without_hint(built) == failed(1, too_long)


# ---- memory

HUGE = 50_000_000
ROOM = 24 << 20


def in_little_memory(document: bytes, *words: Word) -> Result:
    """Run the program in 24 MiB of address space; it reads the document from a pipe."""
    return run(["prlimit", f"--as={ROOM}:{ROOM}", "--", PROGRAM, *words], stdin=document)


@pytest.mark.parametrize("end", [b"", b"\n" + GOOD + b"\n"])
def test_memory(end: bytes, tmp_path: Path) -> None:
    """A line of 50 MB is found in little memory, whether it is right or wrong, and whether it ends or not."""
    out = tmp_path / "new.hdt"
    for long in (b"<u:a> <u:p> \"" + b"x" * HUGE, GOOD + b" #" + b"x" * HUGE):
        document = GOOD + b"\n" + long + end
        limit: list[Word] = ["--longest-line", "1000000"]
        error = "line 2 column 1000001: 9 TooLong"
        report = f"{error}\n".encode()
        assert in_little_memory(document, "lint", "-", *limit) == Result(1, report, b"")
        kept = GOOD + b"\n" + end[1:]
        assert in_little_memory(document, "lint", "-", "--keep", *limit) == Result(1, kept, report)
        assert without_hint(in_little_memory(document, "build", "-", out, *limit)) == failed(1, error)
        split = in_little_memory(document, "split", "-", "--of", "0/1", *limit)
        assert (split.status, without_hint(split).err) == (1, f"hdt: -: {error}\n".encode())
        assert in_little_memory(document, "build", "-", out) == OUT_OF_MEMORY


# ---- hints and arguments


@pytest.mark.parametrize("words", [["build", "{path}", "{out}"], ["split", "{path}", "--of", "0/1"]], ids=str)
def test_hint(words: list[str], tmp_path: Path) -> None:
    """With `--verbose`, the place, the meaning and what the limit was; the line is not printed."""
    path = tmp_path / "document.nt"
    path.write_bytes(GOOD + b"\n" + LONG)
    filled = [word.format(path=path, out=tmp_path / "new.hdt") for word in words]
    result = hdt(*filled, "--verbose", "--longest-line", "40")
    lines = result.err.decode().splitlines()
    assert result.status == 1 and lines[0].endswith("line 2 column 41: 9 TooLong")
    assert lines[1] == f"  {path}:2:41"
    assert "  hdt explain TooLong, or docs/ERRORS.md#9-toolong" in lines
    assert lines[-1] == f"  {HINT}"
    assert len(result.err) < 1_000


def test_arguments(tmp_path: Path) -> None:
    """N is a number of 64 bits, and only `build`, `lint` and `split` have the option."""
    path = SAMPLES / "three.nt"
    refused: list[list[Word]] = [
        ["lint", path, "--longest-line"], ["lint", path, "--longest-line", "x"],
        ["build", path, tmp_path / "new.hdt", "--longest-line", str(2**64)],
        ["split", path, "--of", "0/1", "--longest-line", "-1"],
        ["lint", path, "--longest-line", "5", "--longest-line", "5"],
        ["verify", SAMPLES / "three.hdt", "--longest-line", "5"],
        ["rewrite", SAMPLES / "three.hdt", tmp_path / "new.hdt", "--longest-line", "5"],
    ]
    for words in refused:
        result = hdt(*words)
        assert (result.status, result.out, result.err[:6]) == (2, b"", b"error:")
