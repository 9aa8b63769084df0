"""The probe programs themselves: their protocol, their words, and readers and writers that work in pieces and fail."""

from __future__ import annotations

import re
from collections.abc import Iterator
from pathlib import Path

import pytest

from reference.hdt import Reason
from support.built import BUILT, TOP
from support.probe import PROGRAMS, Answer, Probe, ProbeError, Program, Request, fault, ok, spelled
from support.program import run

COMMON = {"file", "help", "reads", "writes"}
NO_CALL = str(2**64 - 1)
# "oK" in hexadecimal, and texts that are no bytes in hexadecimal.
MISSPELT = ["0", "0g", "zz", "0x00", " 00", "é"]


def path_of(name: str) -> Path:
    """A probe program, or a skipped test where it is not built."""
    path = BUILT / name
    if not path.exists():
        pytest.skip(f"{name} is not built")
    return path


@pytest.fixture(params=PROGRAMS)
def program(request: pytest.FixtureRequest) -> Iterator[Program]:
    """Each probe program in turn, started anew."""
    it = Program(path_of(request.param))
    yield it
    assert it.close() == 0


def words_of(program: Program) -> dict[str, str]:
    """The words that `help` lists, each with its count of arguments."""
    status, *listed = program.send(["help"])[0].split(" ")
    assert status == "ok" and len(listed) % 2 == 0
    return dict(zip(listed[::2], listed[1::2]))


# ---- requests and answers

def test_help(program: Program) -> None:
    """Each word is listed once, with a count of arguments; the common ones are there."""
    listed = program.send(["help"])[0].split(" ")[1::2]
    assert sorted(listed) == sorted(set(listed))
    assert COMMON <= set(listed)
    assert [word for word in listed if not re.fullmatch(r"[a-z0-9_]+", word)] == []
    assert [count for count in words_of(program).values() if not re.fullmatch(r"\d+\+?", count)] == []


def documented(name: str) -> set[str]:
    """The words that tests/PROBES.md has of a program, without the common ones."""
    text = (TOP / "tests/PROBES.md").read_text()
    parts = re.findall(rf"^## {name}: .*?(?=^## |\Z)", text, re.M | re.S)
    rows = [row for part in parts for row in re.findall(r"^\| ([a-z0-9_, ]+) \|", part, re.M)]
    return {word for row in rows for word in row.split(", ")} - {"word"}


def test_words_are_documented(probe: Probe) -> None:
    """tests/PROBES.md has each word of each program, and no other."""
    assert {name: set(probe.words(name)) - COMMON for name in probe.paths} == {
        name: documented(name) for name in probe.paths
    }


def test_no_word_twice(probe: Probe) -> None:
    """No two programs have the same word, so a request goes to one of them."""
    listed = [word for name in probe.paths for word in probe.words(name) if word not in COMMON]
    assert sorted(listed) == sorted(set(listed))


def test_every_word_is_known(program: Program) -> None:
    """Each word that is listed is one that the program knows."""
    words = list(words_of(program))
    assert [word for word, answer in zip(words, program.send(words)) if answer == "? unknown"] == []


def test_unknown(program: Program) -> None:
    """A word that no library has, whatever its arguments."""
    requests = ["nothing", "nothing 1 2", "", " ", "HELP", "help_", "files 00"]
    assert program.send(requests) == ["? unknown"] * len(requests)


def test_missing_arguments(program: Program) -> None:
    """A word without all of its arguments is a usage error, and so are arguments behind the last one."""
    counts = words_of(program)
    needed = [word for word, count in counts.items() if count.rstrip("+") != "0"]
    assert [(word, answer) for word, answer in zip(needed, program.send(needed))
            if answer != "? usage" and not answer.startswith(("fault", "bad options", "usage"))] == []


@pytest.mark.parametrize("request_", ["vbyte_len", "vbyte_len ", "vbyte_len -1", "vbyte_len x", "vbyte_len 1x",
                                      "vbyte_len 18446744073709551616", "vbyte_len 1 2", "vbyte_len 1 ",
                                      "check8 0", "zero_in ", "section_read", "put_section 00 4294967296",
                                      "put_control 5 00 00", "demand 0 1 35", "demand 0 1 0"])
def test_usage(probe: Probe, request_: str) -> None:
    """Missing, misspelt and superfluous arguments."""
    assert probe.program("hdt_probe_parts").send([request_]) == ["? usage"]


@pytest.mark.parametrize("text", MISSPELT)
def test_misspelt_bytes(program: Program, text: str) -> None:
    """What is not hexadecimal is a usage error; the program goes on."""
    assert program.send([f"file {text}", "reads"])[0] == "? usage"


def test_empty_tokens(probe: Probe) -> None:
    """A token without characters is no bytes; the last one may be such a token."""
    assert probe.program("hdt_probe_parts").send([
        "common_prefix  ", "common_prefix 61 ", "common_prefix  61", "common_prefix 6162 6163", "put_vbyte  5",
        "are_strings", "are_strings ", "are_strings  ", "are_strings  61"]) == [
        "ok 0", "ok 0", "ok 0", "ok 1", "ok 85", "ok true", "ok true", "ok false", "ok true"]


def test_refused(probe: Probe) -> None:
    """A call whose condition does not hold is not made."""
    assert probe.send(
        ("file", b""), ("put_section", b"", 16, b"b", b"a"), ("put_section", b"", 0, b"a"),
        ("put_section", b"", 16, b"\xff"), ("put_bits", b""), ("put_control", 1, b"\0", b""),
        ("compared_from", b"ab", b"ac", 2), ("compared_from", b"ab", b"ac", 1), ("triples", 0, 1, 0, 0))[1:] == [
        ("refused",), ("refused",), ("refused",), ("refused",), ("refused",), ("refused",), ok("less", 1), ("refused",)]


def test_input(probe: Probe) -> None:
    """The input stays from one request to the next, for each program."""
    assert probe.on(b"\x80", "read_vbyte", 0) == ok(0, 1)
    assert probe.ask("read_vbyte", 0) == ok(0, 1)
    assert probe.on(b"", "read_vbyte", 0) == fault(Reason.Truncated, 0)
    assert probe.send(("file", b"\x81"), ("read_vbyte", 0), ("file", b"\x82"), ("read_vbyte", 0)) == [
        ok(), ok(1, 1), ok(), ok(2, 1)]


def test_input_is_kept_where_a_request_fails(program: Program) -> None:
    """A misspelt word and a usage error leave the program as it was."""
    program.send(["file 6162", "nothing", "file"])
    assert program.send(["help 1", "help"])[1].startswith("ok file 1")


def test_long_batches(probe: Probe) -> None:
    """Requests and answers of more bytes than a pipe holds."""
    texts = [bytes([65 + n % 26]) * 1000 for n in range(1000)]
    assert probe.send(*(("common_prefix", text, text) for text in texts)) == [ok(1000)] * 1000
    assert probe.send(("file", bytes(1_000_000)), *[("bytes_at", 0, 1000)] * 1000)[1:] == [ok(bytes(1000), 1000)] * 1000
    assert probe.on(bytes(3_000_000), "zero_in") == ok(0)


@pytest.mark.parametrize("name", PROGRAMS)
def test_last_line(name: str) -> None:
    """The last line may lack its end, and is answered too."""
    done = run([path_of(name)], stdin=b"reads\nwrites")
    assert done == (0, f"ok 0 0 0 0 0 {NO_CALL} 0\n".encode() * 2, b"")


def test_end_of_a_program(tmp_path: Path) -> None:
    """A program that ends while a request is open: the error shows the request, and later requests start it anew."""
    path_of(PROGRAMS[0])
    probe = Probe()
    assert probe.ask("vbyte_len", 5) == ok(1)
    probe.running[PROGRAMS[0]].child.kill()
    with pytest.raises(ProbeError, match="ended with status -9 at the request: vbyte_len 6"):
        probe.ask("vbyte_len", 6)
    assert probe.ask("vbyte_len", 7) == ok(1)
    assert set(probe.close().values()) == {0}


def test_program_that_does_not_answer(tmp_path: Path) -> None:
    """A program that takes requests and answers only some of them."""
    path = tmp_path / PROGRAMS[0]
    path.write_text("#!/bin/sh\nread x; echo 'ok a 1'; read x; echo ok 1; read x; exit 3\n")
    path.chmod(0o755)
    with pytest.raises(ProbeError, match=r"ended with status 3 at the request: a 2"):
        Probe(tmp_path).send(("a", 1), ("a", 2), ("a", 3))


@pytest.mark.parametrize("argument, text", [(b"", ""), (b"\x00\xff", "00ff"), (0, "0"), (2**64, str(2**64)),
                                            (None, "-"), (True, "1"), (False, "0"), ("5:zero", "5:zero")])
def test_spelling(argument: bytes | int | str | None, text: str) -> None:
    """How arguments are spelled."""
    assert spelled(argument) == text


def test_values() -> None:
    """How values are spelled."""
    assert ok(1, b"a", "end", True, False, None) == ("ok", "1", "61", "end", "true", "false", "none")
    assert fault(Reason.Truncated, 68) == ("fault", "1", "Truncated", "68")


# ---- readers

def seen(calls: int, count: int, after_end: int, after_failure: int, smallest: int, largest: int) -> Answer:
    """What `reads` and `writes` answer, where nothing was flushed."""
    return ok(calls, count, after_end, after_failure, 0, smallest, largest)


# The steps, the failure, the lengths of the buffers; what each call gives, and what `reads` answers.
READERS = {
    "as much as there is": ("9", "-", [3, 3, 3], ["616263", "6465", ""], seen(3, 5, 0, 0, 3, 3)),
    "one byte at a time": ("1", "-", [9, 9], ["61", "62"], seen(2, 2, 0, 0, 9, 9)),
    "another first step": ("3/1", "-", [9, 9, 9], ["616263", "64", "65"], seen(3, 5, 0, 0, 9, 9)),
    "empty buffers": ("9", "-", [0, 1, 0, 9], ["", "61", "", "62636465"], seen(4, 5, 0, 0, 0, 9)),
    "after its end": ("9", "-", [9, 9, 9, 9], ["6162636465", "", "", ""], seen(4, 5, 2, 0, 9, 9)),
    "fails at once": ("9", "0", [9, 9], ["failed", "failed"], seen(2, 0, 0, 1, 9, 9)),
    "fails after two bytes": ("9", "2", [9, 9, 9], ["6162", "failed", "failed"], seen(3, 2, 0, 1, 9, 9)),
    "fails at its end": ("9", "5", [9, 9], ["6162636465", "failed"], seen(2, 5, 0, 0, 9, 9)),
    "fails later": ("9", "6", [9, 9], ["6162636465", ""], seen(2, 5, 0, 0, 9, 9)),
    "is interrupted": ("9", "2:interrupted", [9, 9, 9], ["6162", "failed", "636465"], seen(3, 5, 0, 1, 9, 9)),
    "has an end that is none": ("9", "2:zero", [9, 9, 9], ["6162", "", "636465"], seen(3, 5, 1, 0, 9, 9)),
    "an error by its name": ("9", "2:error", [9, 9], ["6162", "failed"], seen(2, 2, 0, 0, 9, 9)),
}


@pytest.mark.parametrize("case", READERS)
def test_readers(probe: Probe, case: str) -> None:
    """What a reader of pieces gives, and what it counts."""
    step, fails, sizes, given, counted = READERS[case]
    assert probe.send(("file", b"abcde"), ("counted_read", step, fails, *sizes), ("reads",))[1:] == [
        ("ok", *given), counted]


# ---- writers

# The step, the failure, the texts; how much of each is taken, all that was taken, and what `writes` answers.
WRITERS = {
    "all": ("9", "-", [b"ab", b"c"], ["2", "1"], b"abc", seen(2, 3, 0, 0, 1, 2)),
    "one byte at a time": ("1", "-", [b"ab", b"c"], ["1", "1"], b"ac", seen(2, 2, 0, 0, 1, 2)),
    "an empty text": ("9", "-", [b"", b"c"], ["0", "1"], b"c", seen(2, 1, 0, 0, 0, 1)),
    "fails at once": ("9", "0", [b"ab", b"c"], ["failed", "failed"], b"", seen(2, 0, 0, 1, 1, 2)),
    "fails after a call": ("9", "1", [b"ab", b"c", b"d"], ["2", "failed", "failed"], b"ab", seen(3, 2, 0, 1, 1, 2)),
    "is interrupted": ("9", "1:interrupted", [b"ab", b"c", b"d"], ["2", "failed", "1"], b"abd", seen(3, 3, 0, 1, 1, 2)),
    "takes nothing": ("9", "1:zero", [b"ab", b"c", b"d"], ["2", "failed", "1"], b"abd", seen(3, 3, 0, 1, 1, 2)),
    "fails after bytes": ("9", "@3", [b"ab", b"cd", b"e"], ["2", "1", "failed"], b"abc", seen(3, 3, 0, 0, 1, 2)),
    "takes nothing after bytes": ("9", "@2:zero", [b"ab", b"cd", b"e"], ["2", "failed", "1"], b"abe",
                                  seen(3, 3, 0, 1, 1, 2)),
    "never by bytes": ("9", "@-", [b"ab"], ["2"], b"ab", seen(1, 2, 0, 0, 2, 2)),
}


@pytest.mark.parametrize("case", WRITERS)
def test_writers(probe: Probe, case: str) -> None:
    """What a writer of pieces takes, and what it counts."""
    step, calls, texts, counts, taken, counted = WRITERS[case]
    assert probe.send(("counted_write", step, calls, *texts), ("writes",)) == [("ok", *counts, taken.hex()), counted]


@pytest.mark.parametrize("calls", ["5:broken", "x", "@x", "1:", ":zero", ""])
def test_misspelt_failures(probe: Probe, calls: str) -> None:
    """Failures that are none are usage errors."""
    assert probe.send(("counted_write", 1, calls, b"a"), ("counted_read", 1, calls, 1)) == [("?", "usage")] * 2


# ---- allocation failures

@pytest.mark.parametrize("request_", [("arena", 1, 2**60), ("counted_read", 1, "-", 2**60)])
def test_allocation_failure(probe: Probe, request_: Request) -> None:
    """A refused allocation is answered as out of memory, never as another error, and the program goes on."""
    answers = probe.send(request_, ("vbyte_len", 5))
    assert answers[0][:3] == ("out", "of", "memory") and answers[1] == ok(1)
