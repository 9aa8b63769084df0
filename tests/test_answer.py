"""`hdt answer`: requests of standard input, each of which has the answer of `find`."""

from __future__ import annotations

import os
import subprocess
from collections.abc import Callable, Sequence
from itertools import accumulate, pairwise
from pathlib import Path
from typing import IO

import pytest
from hypothesis import HealthCheck, example, given, settings
from hypothesis import strategies as st

from reference import hdt as reference
from reference import ntriples
from support.built import PROGRAM, SAMPLES
from support.probe import Argument, Probe
from support.program import (READING_FAILED, WRITING_FAILED, Result, Word, brief, closed, done, fault, fed, hdt,
                             hdt_from, hdt_into, piped)
from support.search import THREE as THREE_TRIPLES
from support.search import Graph, Pattern, Triple, not_a_term_past_16_bits, spelled

THREE = SAMPLES / "three.hdt"
LINES = (SAMPLES / "three.nt").read_bytes().splitlines(keepends=True)
FIRST, SECOND, THIRD = LINES
IDS = [b"1 1 2\n", b"1 2 3\n", b"2 1 1\n"]


# ---- requests one by one

# Requests over the three triples, and the answer to each: the indices of its triples, its column and error, or nothing.
ANSWERED: list[tuple[bytes, "tuple[int, ...] | tuple[int, str] | None"]] = [
    (b"? ? ?", (0, 1, 2)),
    (b"<u:a> ? ? .", (0, 1)),
    (b"\t?<u:p>? # a comment", (0, 2)),
    (rb'? ? "\u0078"', (1,)),
    (b"?\t?\t<u:b>.", (0,)),
    (b"<u:z> ? ?", ()),
    (b'? ? "x"@en', ()),
    (b"_:x ? ?", ()),
    (b"", None),
    (b" \t# ? ? ?", None),
    (b'"x" ? ?', (1, "1 Syntax")),
    (b"? _:b ?", (3, "1 Syntax")),
    (b"? ?", (4, "1 Syntax")),
    (b"? ? ? ?", (7, "1 Syntax")),
    (b"<a> ? ?", (1, "4 RelativeIri")),
    (rb'? ? "\z"', (6, "3 BadEscape")),
    (b"? \xff", (3, "2 NotUtf8")),
    (b"<u:a> <u:q> ?", (1,)),
]


def shown(found: Sequence[int], options: Sequence[str]) -> bytes:
    """What is printed of the triples with these indices."""
    most = int(options[options.index("--most") + 1]) if "--most" in options else None
    if "--count" in options:
        return b"%d\n" % len(found[:most])
    return b"".join((IDS if "--numbers" in options else LINES)[n] for n in found[:most])


def wanted_answers(options: Sequence[str]) -> bytes:
    """The answers to all requests above, one in a line."""
    answers = b""
    for number, (_, answer) in enumerate(ANSWERED, 1):
        if answer is None:
            continue
        last = answer[-1] if answer else None
        if isinstance(last, str):
            answers += f"# line {number} column {answer[0]}: {last}\n\n".encode()
        else:
            answers += shown([n for n in answer if isinstance(n, int)], options) + b"\n"
    return answers


OPTIONS: list[list[str]] = [[], ["--numbers"], ["--count"], ["--count", "--numbers"], ["--most", "1"], ["--most", "0"],
                            ["--count", "--most", "2"]]


@pytest.mark.parametrize("step", [1, 7, 1 << 16])
@pytest.mark.parametrize("end", [b"\n", b"\r\n", b"\r"], ids=["LF", "CR LF", "CR"])
@pytest.mark.parametrize("options", OPTIONS, ids=[" ".join(options) or "-" for options in OPTIONS])
def test_answers(options: list[str], end: bytes, step: int) -> None:
    """Each request has its answer, in all forms, whatever the pieces and the line ends are."""
    requests = end.join(request for request, _ in ANSWERED)
    assert piped(requests, step, "answer", THREE, *options) == Result(1, wanted_answers(options), b"")


INPUTS = {
    "nothing": (b"", done()),
    "a comment and an empty line": (b"# nothing\n\n", done()),
    "a request without a line end": (b"? ? <u:b>", done(FIRST + b"\n")),
    "an error in a request without a line end": (
        b"<u:b> ? ? .\n? ? x", Result(1, THIRD + b"\n# line 2 column 5: 1 Syntax\n\n", b"")),
}


@pytest.mark.parametrize("requests, wanted", INPUTS.values(), ids=INPUTS)
def test_ends_of_the_input(requests: bytes, wanted: Result) -> None:
    """The input ends with or without a line end, or has no request."""
    assert hdt("answer", THREE, stdin=requests) == wanted


def test_answers_are_a_document(tmp_path: Path) -> None:
    """All answers together are an N-Triples document, which is built into the triples."""
    document, built = tmp_path / "answers.nt", tmp_path / "answers.hdt"
    document.write_bytes(hdt("answer", THREE, stdin=b"\n".join(request for request, _ in ANSWERED)).out)
    assert hdt("build", document, built).status == 0
    assert hdt("dump", built) == done(b"".join(LINES))


ODD: list[Triple] = [(b"u:s", b"u:p", b"u:o"), (b"u:s", b"u:q", b"no\ta\nterm\\\r")]
RAW = b'u:a\t?\t"x"\n?\tu:p\t?\nu:a ? ?\n?\t\\q\t?\n# raw\n?\t?\tu:b\t\n?\t?\t?'
RAW_ANSWERS = (SECOND + b"\n" + FIRST + THIRD + b"\n# line 3 column 8: 1 Syntax\n\n# line 4 column 3: 3 BadEscape\n\n"
               b"# line 6 column 8: 1 Syntax\n\n" + FIRST + SECOND + THIRD + b"\n")

# The triples, the options, the requests and the result.
STRINGS: dict[str, tuple[list[Triple], list[str], bytes, Result]] = {
    "strings": (THREE_TRIPLES, ["--raw"], RAW, Result(1, RAW_ANSWERS, b"")),
    "escapes": (ODD, ["--raw", "--count"], b"?\t?\tno\\ta\\nterm\\\\\\r\n?\t?\tno\n", done(b"1\n\n0\n\n")),
    "a string that is not a term": (
        ODD, [], b"? ? ?\n? <u:p> ?\n", Result(1, b"# object 1 is not a term\n\n<u:s> <u:p> <u:o> .\n\n", b"")),
    "a count of strings that are not terms": (
        ODD, ["--count"], b"? ? ?\nx\n", Result(1, b"2\n\n# line 2 column 1: 1 Syntax\n\n", b"")),
}


@pytest.mark.parametrize("triples, options, requests, wanted", STRINGS.values(), ids=STRINGS)
def test_strings(tmp_path: Path, triples: list[Triple], options: list[str], requests: bytes, wanted: Result) -> None:
    """Requests of dictionary strings, their escapes, and strings that are not terms."""
    path = tmp_path / "strings.hdt"
    path.write_bytes(reference.graph(triples).data)
    assert hdt("answer", *options, path, stdin=requests) == wanted


# ---- a dialogue


def line_of(reader: IO[bytes]) -> bytes:
    """One line of a reader without a buffer."""
    line = b""
    while not line.endswith(b"\n") and (byte := reader.read(1)):
        line += byte
    return line


def test_answers_one_by_one() -> None:
    """A program that writes a request and reads up to the empty line has its answer before it writes the next."""
    with subprocess.Popen([PROGRAM, "answer", THREE], bufsize=0, stdin=subprocess.PIPE,
                          stdout=subprocess.PIPE) as program:
        assert program.stdin is not None and program.stdout is not None
        for request, answer in (
            (b"? ? <u:b>\n", FIRST),
            (b"# a comment\n\n? <u:p> ?\n", FIRST + THIRD),
            (b"x\n", b"# line 5 column 1: 1 Syntax\n"),
            (b"<u:z> ? ?\n", b""),
            (b"<u:a> ? ?\n", FIRST + SECOND),
        ):
            program.stdin.write(request)
            seen = [line_of(program.stdout)]
            while seen[-1].strip():
                seen.append(line_of(program.stdout))
            assert (request, b"".join(seen)) == (request, answer + b"\n")
        # Several requests at once and a part of the next: those that are whole are answered at once.
        for requests, answer in (
            (b"? ? <u:b>\n<u:z> ? ?\r\n<u:a> ?", FIRST + b"\n\n"),
            (b" ?\n? ? <u:b>\n" + b"# a comment\n" * 1_000 + b"<u:a", FIRST + SECOND + b"\n" + FIRST + b"\n"),
            (b"> ? ?\r", FIRST + SECOND + b"\n"),
            (b"\n? ? <u:b>", b""),
        ):
            program.stdin.write(requests)
            got = b"".join(line_of(program.stdout) for _ in answer.splitlines())
            assert (requests[:40], got) == (requests[:40], answer)
        program.stdin.close()
        assert program.stdout.read() == FIRST + b"\n"
        assert program.wait(60) == 1


@pytest.mark.parametrize("change", ["cut", "overwritten", "replaced", "removed"])
def test_file_that_changes_meanwhile(change: str, tmp_path: Path) -> None:
    """The file is read once, before the first answer: what is done to it then changes no answer."""
    path, other = tmp_path / "three.hdt", tmp_path / "other"
    path.write_bytes(THREE.read_bytes())
    other.write_bytes(bytes(1_000))
    with subprocess.Popen([PROGRAM, "answer", path], bufsize=0, stdin=subprocess.PIPE,
                          stdout=subprocess.PIPE) as program:
        assert program.stdin is not None and program.stdout is not None
        program.stdin.write(b"? ? <u:b>\n")
        assert line_of(program.stdout) + line_of(program.stdout) == FIRST + b"\n"
        if change == "cut":
            os.truncate(path, 10)
        elif change == "overwritten":
            path.write_bytes(bytes(path.stat().st_size))
        elif change == "replaced":
            other.replace(path)
        else:
            path.unlink()
        program.stdin.write(b"? <u:p> ?\n")
        program.stdin.close()
        assert (program.stdout.read(), program.wait(60)) == (FIRST + THIRD + b"\n", 0)


# ---- what stops the answers


@pytest.mark.parametrize("file, wanted", [
    ("none", READING_FAILED),
    (".", READING_FAILED),
    ("short.hdt", fault(1, "Truncated", 291)),
], ids=["a missing file", "a folder", "a file cut off"])
def test_files_that_cannot_be_opened(tmp_path: Path, file: str, wanted: Result) -> None:
    """Without a file there are no answers."""
    (tmp_path / "short.hdt").write_bytes((SAMPLES / "v1.hdt").read_bytes()[:300])
    assert hdt("answer", tmp_path / file, stdin=b"? ? ?\n") == wanted


REFUSED_WORDS: dict[str, list[Word]] = {
    "no file": [],
    "a value that is no number": ["--most", "x", THREE],
    "a longest request that is no number": ["--longest-request", "-1", THREE],
    "a longest request of more than 32 bits": ["--longest-request", "4294967296", THREE],
    "an unknown option": [THREE, "--tight"],
    "a second word": [THREE, "? ? ?"],
}


@pytest.mark.parametrize("words", REFUSED_WORDS.values(), ids=REFUSED_WORDS)
def test_refused_words(words: list[Word]) -> None:
    """A wrong command line has status 2, and prints nothing on standard output."""
    status, out, err = hdt("answer", *words)
    assert (status, out, err[:7]) == (2, b"", b"error: ")


@pytest.mark.parametrize("descriptor, wanted", [(0, READING_FAILED), (2, done())])
def test_closed_descriptors(descriptor: int, wanted: Result) -> None:
    """A closed standard input cannot be read; a closed standard error changes nothing."""
    assert closed(descriptor, "answer", THREE) == wanted


def test_full_disk() -> None:
    """Answers that cannot be written are a failed write."""
    assert hdt_into("/dev/full", "answer", THREE, stdin=b"? ? <u:b>\n" * 1_000) == WRITING_FAILED


def test_reader_that_goes_away(tmp_path: Path) -> None:
    """A reader that goes away after its first answer is a failed write."""
    requests = tmp_path / "requests"
    requests.write_bytes(b"? ? <u:b>\n" * 100_000)
    with open(requests, "rb") as source, subprocess.Popen([PROGRAM, "answer", THREE], stdin=source,
                                                          stdout=subprocess.PIPE, stderr=subprocess.PIPE) as program:
        assert program.stdout is not None and program.stderr is not None
        begin = program.stdout.read(len(FIRST) + 1)
        program.stdout.close()
        seen = program.wait(60), begin, program.stderr.read()
    assert seen == (3, FIRST + b"\n", WRITING_FAILED.err)


# ---- many and long requests


@pytest.fixture(scope="module")
def many(tmp_path_factory: pytest.TempPathFactory) -> Path:
    """A file of 20,000 triples."""
    path = tmp_path_factory.mktemp("many") / "many.hdt"
    path.write_bytes(reference.graph([(b"u:s%d" % i, b"u:p", b"u:o%d" % (i % 100)) for i in range(20_000)]).data)
    return path


ASKED = [i * 7 % 30_000 for i in range(100_000)]


def test_many_requests(tmp_path: Path, many: Path) -> None:
    """100,000 requests over 20,000 triples: a third finds nothing."""
    requests = tmp_path / "requests"
    requests.write_bytes(b"".join(b"<u:s%d> ? ?\n" % i for i in ASKED))
    wanted = b"".join((b"<u:s%d> <u:p> <u:o%d> .\n" % (i, i % 100) if i < 20_000 else b"") + b"\n" for i in ASKED)
    assert brief(hdt_from(requests, "answer", many)) == brief(done(wanted))


def test_many_requests_of_strings(tmp_path: Path, many: Path) -> None:
    """100,000 requests by dictionary strings, counted."""
    requests = tmp_path / "requests"
    requests.write_bytes(b"".join(b"u:s%d\t?\t?\n" % i for i in ASKED))
    wanted = b"".join(b"%d\n\n" % (i < 20_000) for i in ASKED)
    assert brief(hdt_from(requests, "answer", "--raw", "--count", many)) == brief(done(wanted))


def test_long_requests(many: Path) -> None:
    """Requests of more than a million bytes, one of them with an error in a column beyond 16 bits."""
    requests = b'? ? "' + b"b" * 1_000_000 + b'"\n? ? <u:o' + b"a" * 1_000_000 + b"\n<u:s0> ? ?\n"
    wanted = Result(1, b"0\n\n# line 2 column 1000009: 1 Syntax\n\n1\n\n", b"")
    assert hdt("answer", "--count", many, stdin=requests) == wanted


# ---- requests that are longer than they may be


def too_long(line: int) -> bytes:
    """The answer to a line that is longer than a request may be."""
    return f"# line {line} column 0: 9 TooLong\n\n".encode()


BOUNDED = b"<u:b> ? ?"
# A line of one byte more than the request above, and what it is.
LONGER = {"a request": b"<u:b> ? ?.", "a comment": b"# 34567890", "a blank line": b" " * 10, "no UTF-8": b"\xff" * 10,
          "an error": b"x" * 10}


@pytest.mark.parametrize("step", [1, 3, 1 << 16])
@pytest.mark.parametrize("end", [b"\n", b"\r\n", b"\r", b""], ids=["LF", "CR LF", "CR", "the end of the input"])
@pytest.mark.parametrize("line", LONGER.values(), ids=LONGER)
def test_longest_request(line: bytes, end: bytes, step: int) -> None:
    """A line of as many bytes as a request may have is answered; one of a byte more is too long, whatever it is."""
    whole = BOUNDED + b"\n" + line + end
    wanted = Result(1, THIRD + b"\n" + too_long(2), b"")
    assert piped(whole, step, "answer", THREE, "--longest-request", "9") == wanted
    if end:
        wanted = Result(1, too_long(1) + THIRD + b"\n", b"")
        assert piped(line + end + BOUNDED, step, "answer", THREE, "--longest-request", "9") == wanted


def test_longest_request_by_strings() -> None:
    """With --raw the bytes of a line count as they stand in it, escapes and tabs too."""
    requests = b"u:b\t?\t?\nu:b\t?\tu:c\nu:\\\\\t?\t?\n"
    wanted = Result(1, b"1\n\n" + too_long(2) + b"0\n\n", b"")
    assert hdt("answer", "--raw", "--count", THREE, "--longest-request", "8", stdin=requests) == wanted


def test_no_request_of_a_byte() -> None:
    """Where a request may have no byte each line that has one is too long, and empty lines have no answer."""
    assert hdt("answer", THREE, "--longest-request", "0", stdin=b"\n?\n\r\n") == Result(1, too_long(2), b"")


@pytest.mark.parametrize("length, wanted", [(2**20, b"0\n\n"), (2**20 + 1, too_long(1))])
def test_longest_request_by_default(length: int, wanted: bytes) -> None:
    """A line may have 1,048,576 bytes where nothing else is said."""
    request = b'? ? "' + b"b" * (length - 6) + b'"'
    assert hdt("answer", "--count", THREE, stdin=request + b"\n") == Result(int(length > 2**20), wanted, b"")


@pytest.mark.parametrize("megabytes", [25, 400])
def test_huge_request(megabytes: int) -> None:
    """A line of 400 MB in an address space of 64 MB: it is passed over, and the next request is answered."""
    line = b"x" * 1_000_000
    pieces = [*[line] * megabytes, b"\n", BOUNDED]
    limited = [PROGRAM, "answer", THREE]
    wanted = Result(1, too_long(1) + THIRD + b"\n", b"")
    with subprocess.Popen(["sh", "-c", 'ulimit -v 65536; exec "$@"', "sh", *map(str, limited)], stdin=subprocess.PIPE,
                          stdout=subprocess.PIPE, stderr=subprocess.PIPE) as program:
        assert program.stdin is not None and program.stdout is not None and program.stderr is not None
        for piece in pieces:
            program.stdin.write(piece)
        program.stdin.close()
        assert Result(program.wait(60), program.stdout.read(), program.stderr.read()) == wanted


# After how many bytes the reader fails: before the long line, in it before and behind the bound, and behind its end.
@pytest.mark.parametrize("fails, wanted", [(10, THIRD + b"\n"), (15, THIRD + b"\n"), (40, THIRD + b"\n"),
                                           (61, THIRD + b"\n" + too_long(2))])
def test_reader_that_fails_in_a_long_request(probe: Probe, fails: int, wanted: bytes) -> None:
    """A reader that fails in a line that is passed over ends the answers; they are those of the lines before."""
    requests = BOUNDED + b"\n" + b"x" * 50 + b"\n? ? ?"
    answer = probe.on(THREE.read_bytes(), "answer_requests", LINES_FORM, "-", 0, 9, 3, fails, ALL, "-", requests)
    assert answer == ("reading", "failed", wanted.hex())
    assert probe.ask("reads")[3:5] == ("0", "0")


@pytest.mark.parametrize("lines, column", [(254, 255), (255, 256), (65_534, 65_535), (65_535, 65_536), (70_000, 255)])
def test_lines_and_columns_beyond_8_and_16_bits(lines: int, column: int) -> None:
    """The line and the column of an error are counted beyond 8 and 16 bits."""
    requests = b"\n" * lines + b" " * (column - 1) + b"x"
    wanted = f"# line {lines + 1} column {column}: 1 Syntax\n\n".encode()
    assert hdt("answer", THREE, stdin=requests) == Result(1, wanted, b"")


# ---- readers and writers that fail or give and take pieces

REQUESTS = b"? ? <u:b>\n\n# c\nx\n? <u:p> ?\n<u:z> ? ?"
ANSWERS = FIRST + b"\n# line 4 column 1: 1 Syntax\n\n" + FIRST + THIRD + b"\n\n"
LINES_FORM, IDS_FORM = 0, 1
LONGEST = 2**20
ALL = 2**64 - 1


def answered(probe: Probe, step: int, fails: int | str, taken: int, calls: int | str) -> tuple[str, ...]:
    """The probe's answer to these requests over the three triples, by a reader and a writer."""
    asking: list[Argument] = ["answer_requests", LINES_FORM, "-", 0, LONGEST]
    return probe.on(THREE.read_bytes(), *asking, step, fails, taken, calls, REQUESTS)


@pytest.mark.parametrize("step", [1, 2, 5, 7, 9, 50, 200, ALL])
def test_any_pieces(probe: Probe, step: int) -> None:
    """Requests and answers in pieces of any size; nothing is read past the end."""
    assert answered(probe, step, "-", step, "-") == ("ok", "true", "0", ANSWERS.hex())
    assert probe.ask("reads")[3:5] == ("0", "0")


# After how many bytes the reader fails, and how many bytes of answers are written by then.
@pytest.mark.parametrize("fails, length", [(0, 0), (9, 0), (10, 21), (16, 21), (17, 50)])
def test_reader_that_fails(probe: Probe, fails: int, length: int) -> None:
    """The requests that came whole before the reader failed are answered; it is not read again."""
    assert answered(probe, 3, fails, ALL, "-") == ("reading", "failed", ANSWERS[:length].hex())
    assert probe.ask("reads")[3:5] == ("0", "0")


@pytest.mark.parametrize("length", [0, 1, 20, 21, 48])
def test_writer_that_fails(probe: Probe, length: int) -> None:
    """A writer that fails after so many bytes has taken the first bytes of the answers; it is not called again."""
    assert answered(probe, 2, "-", 1, length) == ("written", str(length), ANSWERS[:length].hex())
    assert probe.ask("writes")[3] == "0"


def test_equal_requests(probe: Probe) -> None:
    """A thousand equal requests, as lines and as IDs of the first triple by strings."""
    data = THREE.read_bytes()
    terms = probe.on(data, "answer_requests", LINES_FORM, "-", 0, LONGEST, ALL, "-", ALL, "-", b"? ? <u:b>\n" * 1_000)
    strings = probe.on(data, "answer_requests", IDS_FORM, 1, 1, LONGEST, ALL, "-", ALL, "-", b"u:a\t?\t?\n" * 1_000)
    assert terms == ("ok", "false", "0", ((FIRST + b"\n") * 1_000).hex())
    assert strings == ("ok", "false", "0", (b"1 1 2\n\n" * 1_000).hex())


# ---- any requests

IRIS = [b"u:a", b"u:b", b"u:p", "u:\u00e9".encode()]
NODES = [*IRIS, b"_:b", b"_:b.1"]
TERMS = [*NODES, b'"x"', b'""', b'"x"@en', b'"x"^^<u:t>', b'"a"b\\\n\r\t"@en-GB', b'"_:b"']
STRANGE = [b"", b"rel", b'"open', b"??", b"no\ttab\nor\\line", b"u:with space", b"# no comment"]
BLANKS = [b"", b" ", b"\t", b" \t "]

triples_of_terms = st.tuples(st.sampled_from(NODES), st.sampled_from(IRIS), st.sampled_from(TERMS))
triples_of_strings = st.tuples(*[st.sampled_from(TERMS + STRANGE)] * 3)
graphs = st.lists(triples_of_terms, min_size=1, max_size=12) | st.lists(triples_of_strings, min_size=1, max_size=6)


@st.composite
def term_requests(draw: st.DrawFn) -> bytes:
    """A request of terms, with any blanks, a full stop or none and a comment or none."""
    request = b""
    for role in (NODES, IRIS, TERMS):
        given = draw(st.none() | st.sampled_from(role))
        request += draw(st.sampled_from(BLANKS)) + (b"?" if given is None else spelled(given))
    return (request + draw(st.sampled_from([b" ", b"", b" .", b"\t."]))
            + draw(st.sampled_from([b"", b"", b" # c", b"# \xc3\xa9"])))


def escaped(string: bytes) -> bytes:
    """A dictionary string as it is written in a request of strings."""
    for byte, escape in ((b"\\", b"\\\\"), (b"\n", b"\\n"), (b"\r", b"\\r"), (b"\t", b"\\t")):
        string = string.replace(byte, escape)
    return string


string_requests = st.lists(st.just(b"?") | st.sampled_from(TERMS + STRANGE).map(escaped), min_size=3,
                           max_size=3).map(b"\t".join)


@st.composite
def damaged(draw: st.DrawFn, requests: st.SearchStrategy[bytes]) -> bytes:
    """A request in which a few bytes are removed, inserted or replaced."""
    line = draw(requests)
    for _ in range(draw(st.integers(1, 3))):
        start = draw(st.integers(0, len(line)))
        put = draw(st.sampled_from([b"", b"?", b"<", b">", b'"', b"\\", b"@", b"^", b".", b":", b" ", b"\t", b"#", b"_",
                                    b"\xff", b"\xc3", b"\0", b"x"]))
        line = line[:start] + put + line[start + draw(st.integers(0, 2)):]
    return line.replace(b"\n", b"").replace(b"\r", b"")


def inputs(requests: st.SearchStrategy[bytes]) -> st.SearchStrategy[list[tuple[bytes, bytes]]]:
    """Lines with their ends: requests, damaged requests, and bare lines."""
    line = requests | damaged(requests) | st.sampled_from([b"", b" \t", b"# bare", b"\t#"])
    return st.lists(st.tuples(line, st.sampled_from([b"\n", b"\n", b"\r\n", b"\r", b"\n\n"])), max_size=8)


FORMS: list[list[str]] = [[], ["--numbers"], ["--count"]]


def answers_to(requests: bytes, raw: bool, find: Callable[[Pattern], Result],
               fails: int | None = None, longest: int = LONGEST) -> tuple[bytes, bool, bool]:
    """The answers to lines, whether one is an error, and whether the reader failed, once it had given `fails` bytes."""
    answers, is_error = b"", False
    try:
        for number, line in ntriples.lines(requests, fails=fails):
            if len(line) > longest:
                is_error = True
                answers += too_long(number)
                continue
            try:
                asked = ntriples.parse_raw_request(line) if raw else ntriples.parse_request(line)
            except ntriples.TermError as error:
                is_error = True
                answers += f"# line {number} column {error.column}: {error.reason} {error.reason.name}\n\n".encode()
                continue
            if asked is not None:
                found = find(asked)
                is_error = is_error or found.status != 0
                answers += (b"# " + found.err[5:] if found.status else found.out) + b"\n"
    except ntriples.LineError:
        return answers, is_error, True
    return answers, is_error, False


def joined(lines: list[tuple[bytes, bytes]], ended: bool) -> bytes:
    """Lines with their ends, or without the last end."""
    requests = b"".join(line + end for line, end in lines)
    return requests if ended else requests.rstrip(b"\r\n")


def check_answers(path: Path, triples: list[Triple], requests: bytes, cuts: list[int], raw: bool, form: int,
                  most: int | None) -> None:
    """Compare the answers to these lines, written in pieces, with what `find` prints for each of them."""
    graph = Graph(triples)
    path.write_bytes(graph.data)
    options = [*FORMS[form], *(["--raw"] if raw else []), *([] if most is None else ["--most", str(most)])]

    def find(asked: Pattern) -> Result:
        words = [b"?" if part is None else part if raw else spelled(part) for part in asked]
        if any(b"\0" in word for word in words):  # no word of a command line has a zero byte
            return graph.results(asked, most)[form]
        return hdt("find", *options, "--", path, *words)

    answers, is_error, _ = answers_to(requests, raw, find)
    pieces = [requests[a:b] for a, b in pairwise([0, *accumulate(cuts), len(requests)]) if a < b]
    assert fed(pieces, "answer", path, *options) == Result(int(is_error), answers, b"")


pieces_of = st.lists(st.integers(1, 40), max_size=6)
mosts = st.none() | st.integers(0, 4) | st.sampled_from([256, 2**32, 2**64 - 1])
# Each example writes its file to the same path, and runs the program once for each request.
any_path = settings(suppress_health_check=[HealthCheck.function_scoped_fixture],
                    max_examples=settings.default.max_examples // 2)


@any_path
@given(graphs, inputs(term_requests()), pieces_of, st.booleans(), st.integers(0, 2), mosts)
@example(THREE_TRIPLES, [(line, b"\n") for line, _ in ANSWERED], [1, 2, 40], False, 0, None)
def test_any_requests(tmp_path: Path, triples: list[Triple], lines: list[tuple[bytes, bytes]], cuts: list[int],
                      ended: bool, form: int, most: int | None) -> None:
    """Each line of requests, whole or damaged, has the answer that `find` gives for it, or the error of the line."""
    check_answers(tmp_path / "any.hdt", triples, joined(lines, ended), cuts, False, form, most)


@any_path
@given(graphs, inputs(string_requests), pieces_of, st.booleans(), st.integers(0, 2), mosts)
@example(ODD, [(b"?\t?\tno\\ta\\nterm\\\\\\r", b"\n")], [], True, 2, None)
def test_any_requests_of_strings(tmp_path: Path, triples: list[Triple], lines: list[tuple[bytes, bytes]],
                                 cuts: list[int], ended: bool, form: int, most: int | None) -> None:
    """The same of requests by dictionary strings."""
    check_answers(tmp_path / "any.hdt", triples, joined(lines, ended), cuts, True, form, most)


raw_inputs = st.tuples(st.just(False), inputs(term_requests())) | st.tuples(st.just(True), inputs(string_requests))


@settings(max_examples=settings.default.max_examples // 2)
@given(graphs, raw_inputs, st.booleans(), st.integers(0, 2), mosts, st.integers(1, 50), st.none() | st.integers(0, 120),
       st.integers(1, 50), st.none() | st.integers(0, 200), st.just(LONGEST) | st.integers(0, 20))
@example(THREE_TRIPLES, (False, [(REQUESTS, b"\n")]), False, 0, None, 3, 17, ALL, None, LONGEST)
@example(THREE_TRIPLES, (False, [(REQUESTS, b"\n")]), False, 0, None, 3, 21, ALL, None, 8)
def test_any_reader_and_writer(probe: Probe, triples: list[Triple], given_lines: tuple[bool, list[tuple[bytes, bytes]]],
                               ended: bool, form: int, most: int | None, step: int, fails: int | None, taken: int,
                               limit: int | None, longest: int) -> None:
    """Readers and writers of pieces that fail anywhere: what came whole is answered, up to what the writer takes."""
    raw, requests = given_lines[0], joined(given_lines[1], ended)
    graph = Graph(triples)

    def find(asked: Pattern) -> Result:
        return graph.results(asked, most)[form]

    answers, is_error, fails_first = answers_to(requests, raw, find, fails, longest)
    wanted: tuple[str, ...] = ("ok", str(is_error).lower(), "0", answers.hex())
    if limit is not None and limit < len(answers):
        wanted = ("written", str(limit), answers[:limit].hex())
    elif fails_first:
        wanted = ("reading", "failed", answers.hex())
    asking: list[Argument] = [form, "-" if most is None else most, int(raw), longest]
    reader: list[Argument] = [step, "-" if fails is None else fails]
    writer: list[Argument] = [taken, "-" if limit is None else f"@{limit}"]
    seen = probe.send(("file", graph.data), ["answer_requests", *asking, *reader, *writer, requests],
                      ["answer_file", *asking, len(answers), 9, "-", *reader, *writer, requests])
    assert seen[1:] == [wanted, wanted]


@settings(max_examples=settings.default.max_examples // 4)
@given(graphs, st.integers(0, 2000), st.integers(1, 500), st.integers(0, 3_000))
@example(THREE_TRIPLES, 0, 1, 0)
def test_any_file_that_cannot_be_read(probe: Probe, triples: list[Triple], fails: int, step: int, room: int) -> None:
    """Where the file cannot be read to its end there are no answers, and no request is read."""
    data = Graph(triples).data
    fails = min(fails, len(data))
    asked: list[Argument] = ["answer_file", 0, "-", 0, LONGEST, room, step, fails, 1, "-", 1, "-", b"? ? ?\n"]
    answer, reads, writes = probe.send(("file", data), asked, ["reads"], ["writes"])[1:]
    assert (answer, reads[1], writes[1]) == (("reading", "failed", ""), "0", "0")


def test_not_a_term_past_16_bits(tmp_path: Path) -> None:
    """The ID of a string that is no term is printed whole, and the requests after it are answered."""
    path = tmp_path / "large.hdt"
    path.write_bytes(not_a_term_past_16_bits())
    wanted = b'# object 70001 is not a term\n\n<u:s> <u:p> "69999" .\n\n'
    assert hdt("answer", path, stdin=b'? ? ?\n? ? "69999"\n') == (1, wanted, b"")
    assert hdt("answer", "--raw", path, stdin=b'?\t?\trel\n?\t?\t"69999"\n') == (1, wanted, b"")
