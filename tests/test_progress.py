"""`--progress`: how many bytes of the input were read, now and then and at its end."""

from __future__ import annotations

import re
import subprocess
from pathlib import Path

import pytest

from support.built import PROGRAM, SAMPLES
from support.documents import LONG_LINE
from support.program import Result, Word, closed, done, hdt, hdt_from, run

THREE = SAMPLES / "three.hdt"
SIZE = THREE.stat().st_size
ONCE = b"hdt: read %d of %d bytes\n" % (SIZE, SIZE)
STEP = 1 << 24


def progress_of(err: bytes) -> tuple[list[tuple[int, int | None]], list[bytes]]:
    """The lines of a progress, how many bytes were read and of how many or None, and the other lines."""
    counts, others = [], []
    for line in err.splitlines():
        match = re.fullmatch(rb"hdt: read (\d+)(?: of (\d+))? bytes", line)
        if match is None:
            others.append(line)
        else:
            counts.append((int(match[1]), None if match[2] is None else int(match[2])))
    return counts, others


SMALL: dict[str, tuple[list[Word], bytes]] = {
    "verify --progress": (["verify", "--progress", THREE], b"ok 3 2 0 2 1\n"),
    "verify --tight --progress": (["verify", THREE, "--tight", "--progress"], b"ok 3 2 0 2 1\n"),
}


@pytest.mark.parametrize("words, out", SMALL.values(), ids=SMALL)
def test_small_file(words: list[Word], out: bytes) -> None:
    """Of a small file one line is printed, at its end, and nothing else changes."""
    assert hdt(*words) == Result(0, out, ONCE)


def test_standard_input_from_a_file() -> None:
    """The length of a file is known as standard input, too."""
    assert hdt_from(THREE, "verify", "--progress", "-") == Result(0, b"ok 3 2 0 2 1\n", ONCE)


def test_rewrite(tmp_path: Path) -> None:
    """`rewrite --progress` prints the same as `rewrite`, and one line of progress."""
    plain = hdt("rewrite", THREE, tmp_path / "plain.hdt")
    assert hdt("rewrite", THREE, tmp_path / "progress.hdt", "--progress") == Result(0, plain.out, ONCE)
    assert (tmp_path / "progress.hdt").read_bytes() == (tmp_path / "plain.hdt").read_bytes()


def test_without_the_option(tmp_path: Path, large_document: Path) -> None:
    """Without `--progress` nothing is printed on standard error."""
    seen = hdt("build", large_document, tmp_path / "out.hdt")
    assert (seen.status, seen.out.split()[:2], seen.err) == (0, [b"built", b"1"], b"")


# How a document is given, and whether its length is known.
GIVEN = {
    "a file": ('"$0" build --progress "$1" "$2"', True),
    "a file as standard input": ('"$0" build --progress - "$2" <"$1"', True),
    "a file as standard input, by its path": ('"$0" build --progress /dev/stdin "$2" <"$1"', True),
    "a pipe": ('cat "$1" | "$0" build --progress /dev/stdin "$2"', False),
    "a named pipe": ('mkfifo "$2.in"\ntimeout 60 dd if="$1" of="$2.in" bs=64k status=none &\n'
                     '"$0" build --progress "$2.in" "$2"', False),
}


@pytest.mark.parametrize("how", GIVEN)
def test_large_document(how: str, tmp_path: Path, large_document: Path) -> None:
    """A line is printed each 16 MiB and at the end; a pipe does not know how many bytes there are."""
    plain = hdt("build", large_document, tmp_path / "plain.hdt")
    script, is_known = GIVEN[how]
    seen = run(["sh", "-c", script, PROGRAM, large_document, tmp_path / "out.hdt"])
    counts, others = progress_of(seen.err)
    length = large_document.stat().st_size
    assert (seen.status, seen.out, others) == (0, plain.out, [])
    assert {of for _, of in counts} == {length if is_known else None}
    read = [count for count, _ in counts]
    assert read[-1] == length
    steps = [after - before for before, after in zip([0, *read], read[:-1])]
    assert len(steps) == length // STEP
    assert [step for step in steps if not STEP <= step < STEP + (1 << 17)] == []


def test_error_after_the_progress(tmp_path: Path) -> None:
    """The error of an input is printed after the lines of progress."""
    path = tmp_path / "bad.nt"
    path.write_bytes(LONG_LINE * 20_000 + b"x\n")
    seen = hdt("build", path, tmp_path / "out.hdt", "--progress")
    counts, others = progress_of(seen.err)
    assert (seen.status, seen.out, others) == (1, b"", [b"hdt: line 20001 column 1: 1 Syntax"])
    assert len(counts) >= 1 and seen.err.endswith(others[0] + b"\n")


def test_closed_standard_error() -> None:
    """Progress that cannot be written is dropped."""
    assert closed(2, "verify", "--progress", THREE) == done(b"ok 3 2 0 2 1\n")


def test_commands_without_progress() -> None:
    """`find` has no option `--progress`."""
    assert hdt("find", "--progress", THREE, "?", "?", "?").status == 2


def test_output_that_is_standard_error_too(tmp_path: Path) -> None:
    """Where the built file goes to what standard error is too, no line of progress is mixed into it."""
    source, out = SAMPLES / "three.nt", tmp_path / "out.hdt"
    assert hdt("build", source, out).status == 0
    with open(tmp_path / "both", "w+b") as both:
        status = subprocess.run([PROGRAM, "build", source, "/dev/stdout", "--progress"], stdout=both, stderr=both,
                                timeout=60).returncode
        both.seek(0)
        assert (status, both.read()) == (0, out.read_bytes())
