"""The command over readers and writers that fail, or give and take pieces."""

from __future__ import annotations

from collections.abc import Sequence

import pytest
from hypothesis import example, given
from hypothesis import strategies as st

from reference import hdt as reference
from support.built import SAMPLES
from support.heads import ALL, HEAD_END, THREE, V1, V1_HEAD
from support.probe import Answer, Argument, Probe, Request

LINE = b"<http://a/> <http://a/> <http://a/> .\n"
DOCUMENT = (SAMPLES / "three.nt").read_bytes()
BASE = ["--base", "http://a/"]
STEPS = 1, 2, 5, 7, 9, 50, 200, ALL
# What was made before the command: a file is appended to it, and an error leaves it as it is.
BEFORE = b"made"
KEPT = BEFORE.hex()

# The command line, the input, the text that is printed, and the file that is made.
COMMANDS: dict[str, tuple[list[str], bytes, bytes, bytes]] = {
    "head": (["head", "in"], V1, V1_HEAD, b""),
    "verify": (["verify", "in"], THREE, b"ok 3 2 0 2 1\n", b""),
    "verify --tight": (["verify", "--tight", "in"], V1, b"ok 1 1 0 1 0\n", b""),
    "verify --tight of three triples": (["verify", "--tight", "in"], THREE, b"ok 3 2 0 2 1\n", b""),
    "dump": (["dump", "in"], THREE, DOCUMENT, b""),
    "build": (["build", *BASE, "in", "out"], LINE, b"built 1 1 0 1 0 459\n", V1),
    "build of three triples": (["build", *BASE, "in", "out"], DOCUMENT, b"built 3 2 0 2 1 457\n", THREE),
    "rewrite": (["rewrite", "in", "out"], V1, b"rewritten 1 1 0 1 0 459\n", V1),
    "strings": (["strings", "in", "object"], THREE, b'1\tu:a\n2\tu:b\n3\t"x"\n', b""),
    "string": (["string", "in", "object", "3"], THREE, b'"x"\n', b""),
    "number": (["number", "in", "object", '"x"'], THREE, b"3\n", b""),
    "find --numbers": (["find", "--numbers", "in", "?", "<u:p>", "?"], THREE, b"1 1 2\n2 1 1\n", b""),
    "find --count": (["find", "--count", "in", "?", "<u:p>", "?"], THREE, b"2\n", b""),
}
every_command = pytest.mark.parametrize("words, data, text, made", COMMANDS.values(), ids=COMMANDS)

Answers = list[tuple[object, Answer, str]]


def request(step: int, fails: int | str, taken: int, calls: int | str, words: Sequence[str]) -> Request:
    """A request to run a command line, with a reader and a writer of pieces that fail or not."""
    return ["run_made", BEFORE, step, fails, taken, calls, *(word.encode() for word in ["hdt", *words])]


def answers(probe: Probe, data: bytes, requests: dict[object, Request], after: str) -> Answers:
    """The answers to requests over an input, and how often each called its reader or writer after it had to stop."""
    sent: list[Request] = [part for asked in requests.values() for part in (asked, [after])]
    answered = probe.send(("file", data), *sent)[1:]
    calls = [counts[3:5] if after == "reads" else counts[3:4] for counts in answered[1::2]]
    return [(name, answer, " ".join(late)) for name, answer, late in zip(requests, answered[::2], calls)]


@every_command
def test_any_pieces(probe: Probe, words: list[str], data: bytes, text: bytes, made: bytes) -> None:
    """A command reads and writes in pieces of any size; it does not read past the end of its input."""
    requests: dict[object, Request] = {step: request(step, "-", step, "-", words) for step in STEPS}
    wanted = ("ok", text.hex(), (BEFORE + made).hex())
    assert answers(probe, data, requests, "reads") == [(step, wanted, "0 0") for step in STEPS]


@every_command
def test_reader_that_fails(probe: Probe, words: list[str], data: bytes, text: bytes, made: bytes) -> None:
    """A reader that fails after any number of bytes is reported; it is not read again, and nothing is written."""
    requests: dict[object, Request] = {
        (length, step, how): request(step, f"{length}{how}", ALL, "-", words)
        for length in range(len(data) + 1) for step, how in ((1, ""), (ALL, ""), (7, ":interrupted"))}
    wanted = ("reading", "failed", "", KEPT)
    assert answers(probe, data, requests, "reads") == [(case, wanted, "0 0") for case in requests]


@every_command
def test_writer_that_fails(probe: Probe, words: list[str], data: bytes, text: bytes, made: bytes) -> None:
    """A writer that fails has taken the first bytes of the text; it is not called again, and no file is made."""
    requests: dict[object, Request] = {
        (length, how): request(50, "-", 1, f"{length}{how}", words)
        for length in range(len(text)) for how in ("", ":interrupted", ":zero")}
    wanted = [((length, how), ("written", str(length), text[:length].hex(), KEPT), "0") for length, how in
              ((length, how) for length in range(len(text)) for how in ("", ":interrupted", ":zero"))]
    assert answers(probe, data, requests, "writes") == wanted
    requests = {"whole": request(50, "-", 1, len(text), words)}
    assert answers(probe, data, requests, "writes") == [("whole", ("ok", text.hex(), (BEFORE + made).hex()), "0")]


@pytest.mark.parametrize("step, calls, taken", [(7, 35, 245), (250, 1, 250), (0, 9, 0)])
def test_writer_that_fails_in_a_part(probe: Probe, step: int, calls: int, taken: int) -> None:
    """A writer that takes several bytes a call, or none, and fails after a part of a head."""
    requests: dict[object, Request] = {"head": request(50, "-", step, calls, ["head", "in"])}
    wanted = ("written", str(taken), V1_HEAD[:taken].hex(), KEPT)
    assert answers(probe, V1, requests, "writes") == [("head", wanted, "0")]


@pytest.mark.parametrize("length", [HEAD_END, 65_535, 65_536, 65_537])
def test_long_input(probe: Probe, length: int) -> None:
    """Files shorter than the program's buffer, as long and longer are not read past their end."""
    data = V1[:HEAD_END].ljust(length, b"x")
    steps = 7, 200, 65_536, ALL
    requests: dict[object, Request] = {(step, "whole"): request(step, "-", ALL, "-", ["head", "in"]) for step in steps}
    requests |= {(step, "cut"): request(step, "-", 7, 35, ["head", "in"]) for step in steps}
    wanted = {"whole": ("ok", V1_HEAD.hex(), KEPT), "cut": ("written", "245", V1_HEAD[:245].hex(), KEPT)}
    assert answers(probe, data, requests, "reads") == [
        ((step, kind), wanted[kind], "0 0") for kind in wanted for step in steps]


BAD, NONE, CUT_OFF = ("bad", "options"), ("no", "triples"), ("fault", "1", "Truncated", "0")
BUILD = ["build", *BASE, "in", "out"]
# Commands that are refused: the command line, the input, the answer, and how many bytes are read, where that is given.
REFUSED_RUNS: dict[str, tuple[list[str], bytes, tuple[str, ...], int | None]] = {
    "head of nothing": (["head", "in"], b"", CUT_OFF, 0),
    "head of three bytes": (["head", "in"], b"$HD", CUT_OFF, 3),
    "build in blocks of 0": ([*BUILD, "--block-size", "0"], LINE, BAD, 0),
    "build in blocks of 65,536": ([*BUILD, "--block-size", "65536"], LINE, BAD, 0),
    "build in blocks of 2^32 - 1": ([*BUILD, "--block-size", "4294967295"], LINE, BAD, 0),
    "build with a relative base": (["build", "--base", "rel", "in", "out"], LINE, BAD, 0),
    "build without a base": (["build", "--base", "", "in", "out"], LINE, BAD, 0),
    "build of nothing": (BUILD, b"", NONE, 0),
    "build of a comment": (BUILD, b"# nothing", NONE, 9),
    "build without a full stop": (
        BUILD, b"\n<u:a> <u:p> <u:o>\n", ("fault", "1", "Syntax", "2", "18"), None),
    "build with a relative IRI": (
        BUILD, b"<u:a> <u:p> <o> .\n", ("fault", "4", "RelativeIri", "1", "13"), None),
    "build with a blank node as predicate": (
        BUILD, b"<u:a> <u:p> <u:o> .\n<u:a> _:p <u:o> .\n", ("fault", "1", "Syntax", "2", "7"), None),
    "build with the character U+0000": (
        BUILD, b'<u:a> <u:p> "\\u0000" .\n', ("fault", "6", "ZeroCharacter", "1", "14"), None),
    "rewrite in blocks of 0": (["rewrite", "--block-size", "0", "in", "out"], V1, BAD, len(V1)),
    "rewrite in blocks of 65,536": (["rewrite", "--block-size", "65536", "in", "out"], V1, BAD, len(V1)),
    "rewrite in blocks of 2^32 - 1": (["rewrite", "--block-size", "4294967295", "in", "out"], V1, BAD, len(V1)),
    "rewrite of nothing in blocks of 0": (["rewrite", "--block-size", "0", "in", "out"], b"", CUT_OFF, 0),
    "rewrite of another cookie": (["rewrite", "in", "out"], b"$hDT", ("fault", "4", "NotHdt", "0"), 4),
}


@pytest.mark.parametrize("words, data, wanted, read", REFUSED_RUNS.values(), ids=REFUSED_RUNS)
def test_refused_run(probe: Probe, words: list[str], data: bytes, wanted: tuple[str, ...], read: int | None) -> None:
    """A command that is refused prints nothing and makes no file. Bad options of `build` are found before reading."""
    answer, reads = probe.send(("file", data), request(4, "-", ALL, "-", words), ("reads",))[1:]
    assert answer == (*wanted, "", KEPT)
    assert reads[3:5] == ("0", "0") and read in (None, int(reads[2]))


def test_large_literal(probe: Probe) -> None:
    """A literal of 150,000 bytes, longer than any word of a command line, is built and found."""
    literal = '"' + "x" * 150_000 + '"'
    words = ["build", "--base", "u:base", "--block-size", "65535", "in", "out"]
    built = probe.send(("file", b"<u:a> <u:p> %s .\n" % literal.encode()), request(7_000, "-", ALL, "-", words))[1]
    data = reference.graph([(b"u:a", b"u:p", literal.encode())], b"u:base", 65_535).data
    line = b"built 1 0 1 1 1 %d\n" % len(data)
    assert built == ("ok", line.hex(), (BEFORE + data).hex())
    found: dict[object, tuple[list[str], bytes]] = {
        "found": (["find", "--raw", "--numbers"], b"1 1 1\n"),
        "counted": (["find", "--raw", "--count", "--most", "1"], b"1\n"),
        "counted where none is asked for": (["find", "--raw", "--count", "--most", "0"], b"0\n"),
    }
    requests: dict[object, Request] = {
        name: request(7_000, "-", ALL, "-", [*options, "in", "?", "?", literal])
        for name, (options, _) in found.items()}
    assert answers(probe, data, requests, "reads") == [
        (name, ("ok", text.hex(), KEPT), "0 0") for name, (_, text) in found.items()]


# ---- any command, any reader and any writer


steps = st.integers(1, 100) | st.just(ALL)
hows = st.sampled_from(["", ":interrupted"])
rooms = st.integers(0, 1_000) | st.sampled_from([65_535, 65_536, 1 << 20])


@given(st.sampled_from(list(COMMANDS)), rooms, steps, st.none() | st.integers(0, 500), hows, steps,
       st.none() | st.integers(0, 400), hows)
@example("dump", 0, 1, None, "", 1, 57, "")
@example("build", 38, ALL, 38, "", ALL, None, "")
def test_any_reader_and_writer(probe: Probe, name: str, room: int, step: int, fails: int | None, how: str, taken: int,
                               limit: int | None, how_written: str) -> None:
    """A command prints its text or a prefix of it, makes its file or none, whatever room there is for its input."""
    words, data, text, made = COMMANDS[name]
    wanted: tuple[str, ...] = ("ok", text.hex(), made.hex())
    if fails is not None and fails <= len(data):
        wanted = ("reading", "failed", "", "")
    elif limit is not None and limit < len(text):
        wanted = ("written", str(limit), text[:limit].hex(), "")
    asked: list[Argument] = [step, "-" if fails is None else f"{fails}{how}", taken,
                             "-" if limit is None else f"@{limit}{how_written}",
                             *(word.encode() for word in ["hdt", *words])]
    assert probe.send(("file", data), ["run", *asked], ["run_in", room, *asked])[1:] == [wanted, wanted]
