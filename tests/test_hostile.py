"""Hostile files are read in linear time and memory: strings with long common prefixes, and huge blocks.

A file that is small may have strings that are large together. Each test of time compares the CPU seconds of two files
of one family, the second one of sixteen times the size: linear time takes sixteen times as long, quadratic time 256
times. The bound lies between them.
"""

from __future__ import annotations

from collections.abc import Callable
from pathlib import Path
from time import process_time

import pytest

from reference.hdt import long_prefixes, loose_prefixes
from support.built import PROGRAM
from support.program import Result, hdt, run
from support.python_package import hdt as hdt_package
from support.timing import is_linear, measure, timed

Counts = tuple[int, int, int, int, int]
# A family of files: the bytes of the member of a scale, and its counts.
Family = Callable[[int], tuple[bytes, Counts]]

SCALES = 1, 16
# Sixteen times the size may take so many times as long, where the smaller file takes this many seconds at least.
RATIO, FLOOR = 32, 0.004


def verdict(counts: Counts) -> Result:
    """The answer of `verify` to a file with these counts."""
    return Result(0, b"ok %d %d %d %d %d\n" % counts, b"")


def abridged(result: Result) -> Result | tuple[int, int, int, bytes]:
    """A result to compare; of a large one the status, the length and a hash of the output, and the errors."""
    if len(result.out) < 1_000:
        return result
    return result.status, len(result.out), hash(result.out), result.err


def check_linear(seconds: Callable[[int], float], ratio: float = RATIO, floor: float = FLOOR) -> None:
    """Check what the member of a scale takes, by the measured seconds of both scales."""
    small, large = SCALES
    measured = measure(lambda: seconds(small), lambda: seconds(large), ratio, floor)
    assert is_linear(measured, ratio, floor), measured


@pytest.mark.parametrize("kinds", [2, 3])
def test_verify_long_prefixes(kinds: int, tmp_path: Path) -> None:
    """Sections of one block, whose strings share a prefix of two fifths of the file, are verified in linear time."""
    counts = {}
    for scale in SCALES:
        data, counts[scale] = long_prefixes(kinds, 40_000 * scale, 1_000 * scale)
        (tmp_path / f"{scale}.hdt").write_bytes(data)

    def seconds(scale: int) -> float:
        result, taken = timed([PROGRAM, "verify", tmp_path / f"{scale}.hdt"])
        assert result == verdict(counts[scale])
        return taken

    check_linear(seconds)


FAMILIES: dict[str, Family] = {
    "two sections of long prefixes": lambda scale: long_prefixes(2, 20_000 * scale, 500 * scale),
    "three sections of long prefixes": lambda scale: long_prefixes(3, 20_000 * scale, 500 * scale),
    "unused strings of long prefixes": lambda scale: loose_prefixes(20_000 * scale, 500 * scale),
    "one huge block": lambda scale: long_prefixes(2, 0, 6_250 * scale),
}


def test_python_finds_in_one_block(tmp_path: Path) -> None:
    """Python gives the triples of a file whose strings are all in one block in linear time."""
    counts = {}
    for scale in SCALES:
        data, counts[scale] = FAMILIES["one huge block"](scale)
        (tmp_path / f"{scale}.hdt").write_bytes(data)

    def seconds(scale: int) -> float:
        began = process_time()
        with hdt_package.open(tmp_path / f"{scale}.hdt") as graph:
            assert sum(1 for _ in graph) == counts[scale][0]
        return process_time() - began

    check_linear(seconds)


def rewritten(counts: Counts, out: Path) -> Result:
    """The answer of `rewrite` to a file of these counts, that made this file."""
    return Result(0, b"rewritten %d %d %d %d %d %d\n" % (*counts, out.stat().st_size), b"")


@pytest.mark.parametrize("family", FAMILIES)
def test_rewrite_long_prefixes(family: str, tmp_path: Path) -> None:
    """Such strings are rewritten in time linear in the file, not in the bytes of all strings.

    All strings are used, or one of seven. The new file is accepted by `verify --tight`.
    """
    counts = {}
    for scale in SCALES:
        data, counts[scale] = FAMILIES[family](scale)
        (tmp_path / f"{scale}.hdt").write_bytes(data)

    def seconds(scale: int) -> float:
        source, out = tmp_path / f"{scale}.hdt", tmp_path / f"{scale}-again.hdt"
        result, taken = timed([PROGRAM, "rewrite", source, out, "--block-size", "65535"])
        assert result == rewritten(counts[scale], out)
        return taken

    check_linear(seconds)
    for scale in SCALES:
        assert hdt("verify", "--tight", tmp_path / f"{scale}-again.hdt") == verdict(counts[scale])


def test_rewrite_long_prefixes_in_little_memory(tmp_path: Path) -> None:
    """Strings of 240 MB together are rewritten in memory for the file and the new file only, also over the file."""
    source, out = tmp_path / "in.hdt", tmp_path / "out.hdt"
    data, counts = long_prefixes(3, 40_000, 2_000)
    source.write_bytes(data)
    room = (1 << 24) + 8 * len(data)
    for path, made in ((source, out), (out, out)):
        answer = run(["prlimit", f"--as={room}", "--", PROGRAM, "rewrite", path, made, "--block-size", "65535"])
        assert answer == rewritten(counts, out)
    assert hdt("verify", "--tight", out) == verdict(counts)


@pytest.mark.parametrize("words", [["find", "?", "<u:p>", "?"], ["find", "?", "?", "?"], ["dump"]],
                         ids=["find a predicate", "find all", "dump"])
def test_print_huge_blocks(words: list[str], tmp_path: Path) -> None:
    """Strings in one block are found and printed in time linear in the file and the text."""
    lines = {}
    for scale in SCALES:
        count = 6_250 * scale
        (tmp_path / f"{scale}.hdt").write_bytes(long_prefixes(2, 0, count)[0])
        lines[scale] = b"".join(b"<http://a/%07d> <u:p> <http://a/%07d> .\n" % (2 * i, 2 * i + 1) for i in range(count))

    def seconds(scale: int) -> float:
        result, taken = timed([PROGRAM, words[0], tmp_path / f"{scale}.hdt", *words[1:]])
        assert abridged(result) == abridged(Result(0, lines[scale], b""))
        return taken

    check_linear(seconds)


def test_answers_at_the_start_of_a_huge_block(tmp_path: Path) -> None:
    """A string at the start of a block is found in the time of the strings before it, not of the block.

    5,000 requests take at most some four times as long in a file of sixteen times the size, without opening it.
    """
    request, line = b"<http://a/0000000> ? ?\n", b"<http://a/0000000> <u:p> <http://a/0000001> .\n\n"
    for scale in SCALES:
        (tmp_path / f"{scale}.hdt").write_bytes(long_prefixes(2, 0, 12_500 * scale)[0])

    def seconds(scale: int) -> float:
        taken = []
        for asked in (0, 5_000):
            result, one = timed([PROGRAM, "answer", tmp_path / f"{scale}.hdt"], stdin=request * asked)
            assert abridged(result) == abridged(Result(0, line * asked, b""))
            taken.append(one)
        return taken[1] - taken[0]

    check_linear(seconds, 4, 0.02)


def test_predicate_that_is_kept(tmp_path: Path) -> None:
    """The term of a predicate that is met first is kept, also where another one that has its place is asked for.

    It stands at the end of a huge block, and the other one at its start: so 4,000 requests take at most some four times
    as long in a file of sixteen times the size, without opening it.
    """
    for scale in SCALES:
        last = 2_304 * scale
        rows = [b"<u:a> <u:p%06d> <u:o> .\n" % last, b"<u:b> <u:p000000> <u:o> .\n"]
        rows += [b"<u:c> <u:p%06d> <u:o> .\n" % i for i in range(last + 1)]
        (tmp_path / "many.nt").write_bytes(b"".join(rows))
        out = tmp_path / f"{scale}.hdt"
        assert hdt("build", "--block-size", "65535", tmp_path / "many.nt", out).status == 0

    def seconds(scale: int) -> float:
        line = b"<u:a> <u:p%06d> <u:o> .\n\n<u:b> <u:p000000> <u:o> .\n\n" % (2_304 * scale)
        taken = []
        for asked in (0, 2_000):
            requests = b"<u:a> ? ?\n<u:b> ? ?\n" * asked
            result, one = timed([PROGRAM, "answer", tmp_path / f"{scale}.hdt"], stdin=requests)
            assert abridged(result) == abridged(Result(0, line * asked, b""))
            taken.append(one)
        return taken[1] - taken[0]

    check_linear(seconds, 4, 0.02)


def one_subject(count: int) -> bytes:
    """A document of one subject, one predicate and so many objects."""
    return b"".join(b'<u:s> <u:p> "%07d" .\n' % i for i in range(count))


def one_object(count: int) -> bytes:
    """A document of so many subjects, each with one predicate and one object, and one triple of another predicate."""
    return b"<u:s> <u:q> <u:o> .\n" + b"".join(b"<u:s%07d> <u:p> <u:o> .\n" % i for i in range(count))


# Requests whose answer is short although a list that it could be found by is as long as the file: how the file is made,
# the options, the request, and the answer.
SHORT_ANSWERS: dict[str, tuple[Callable[[int], bytes], list[str], bytes, bytes]] = {
    "a subject with an object": (one_subject, [], b'<u:s> ? "0000000"\n', b'<u:s> <u:p> "0000000" .\n\n'),
    "a predicate with an object": (one_object, [], b"? <u:q> <u:o>\n", b"<u:s> <u:q> <u:o> .\n\n"),
    "a count of one subject of many": (one_object, ["--count"], b"<u:s> ? <u:o>\n", b"1\n\n"),
    "a count of a subject with an object": (one_subject, ["--count"], b'<u:s> ? "0000000"\n', b"1\n\n"),
    "some of a predicate's": (one_object, ["--count", "--most", "3"], b"? <u:p> ?\n", b"3\n\n"),
    "some of a predicate's with an object": (
        one_object, ["--count", "--most", "3"], b"? <u:p> <u:o>\n", b"3\n\n"),
}


@pytest.mark.parametrize("name", SHORT_ANSWERS)
def test_short_answers_from_long_lists(name: str, tmp_path: Path) -> None:
    """2,000 requests take no longer in a file of sixteen times the size, without opening it."""
    document, options, request, reply = SHORT_ANSWERS[name]
    for scale in SCALES:
        (tmp_path / f"{scale}.nt").write_bytes(document(12_500 * scale))
        assert hdt("build", tmp_path / f"{scale}.nt", tmp_path / f"{scale}.hdt").status == 0

    def seconds(scale: int) -> float:
        taken = []
        for asked in (0, 2_000):
            result, one = timed([PROGRAM, "answer", *options, tmp_path / f"{scale}.hdt"], stdin=request * asked)
            assert abridged(result) == abridged(Result(0, reply * asked, b""))
            taken.append(one)
        return taken[1] - taken[0]

    check_linear(seconds, 4, 0.02)
