"""`hdt.build` with `longest_line`: a line that is too long is an error, which takes little memory and linear time."""

from __future__ import annotations

import os
import sys
import threading
import time
from pathlib import Path
from typing import Any, Optional, Union
from unittest import mock

import pytest
from hypothesis import example, given
from hypothesis import strategies as st

from support import program
from support.built import SAMPLES
from support.python_package import ENVIRONMENT, hdt

from hdt import _files, _library, _lines

Outcome = Union[hdt.Counts, tuple[Any, ...]]

TRIPLE = "<u:s><u:p><u:o>."  # of 16 bytes
LINES = st.sampled_from([
    "", "#", "# longer", TRIPLE, TRIPLE + "#", "_:b<u:p>\"x\".", "<u:s> <u:p> <u:o2> . # a triple and more", "x", "\t",
    "a fault in a line that is long", "<u:s> <u:p> <rel> .", "_:b<u:p>\"\u20ac\".", "x" * 60,
])
DOCUMENTS = st.lists(st.tuples(LINES, st.sampled_from(["\n", "\r", "\r\n", "\n\r", "\n\n"])), max_size=8)


def outcome(text: Path, out: Path, longest: Optional[int] = None) -> Outcome:
    """What `build` returns, or the error that it raises."""
    try:
        return hdt.build(text, out, longest_line=longest)
    except hdt.LineFault as fault:
        return fault.line, fault.column, fault.reason, fault.path
    except hdt.NoTriples:
        return ("no triples",)


def first_long(document: bytes, longest: int) -> Optional[int]:
    """The number of the first line with more bytes than there may be."""
    lines = document.replace(b"\r\n", b"\n").replace(b"\r", b"\n").split(b"\n")
    return next((number for number, line in enumerate(lines, 1) if len(line) > longest), None)


@given(DOCUMENTS, st.sampled_from(["", TRIPLE, "x" * 20]), st.integers(0, 40), st.integers(1, 9), st.booleans())
@example([("x" * 60, "\n")], "", 59, 3, False)
@example([(TRIPLE, "\r\n"), ("x", "\r"), ("x" * 60, "\n")], "", 40, 4, True)
def test_random_documents(tmp_path_factory: pytest.TempPathFactory, pieces: list[tuple[str, str]], last: str,
                          longest: int, piece: int, is_mapped: bool) -> None:
    """The first line that is too long or faulty is the error; without one the file is as without a limit."""
    folder = tmp_path_factory.getbasetemp()
    text, out, other = folder / "lines.nt", folder / "lines.hdt", folder / "other.hdt"
    document = ("".join(line + end for line, end in pieces) + last).encode()
    text.write_bytes(document)
    wanted, long = outcome(text, out), first_long(document, longest)
    if long is not None and (len(wanted) != 4 or wanted[0] >= long):
        wanted = long, longest + 1, 9, str(text)
    if isinstance(wanted, hdt.Counts):
        before = out.read_bytes()
    with mock.patch.object(_lines, "_PIECE", piece), mock.patch.object(_files, "_MAPPED", 0 if is_mapped else 2**30):
        assert outcome(text, other, longest) == wanted
    if isinstance(wanted, hdt.Counts):
        assert other.read_bytes() == before


@pytest.mark.parametrize("longest, error", [(-1, ValueError), (1.0, TypeError), ("1", TypeError), (2**70, None)])
def test_limits(longest: Any, error: Optional[type[Exception]], tmp_path: Path) -> None:
    """A limit is an integer that isn't negative, and may be large."""
    out = tmp_path / "out.hdt"
    if error is None:
        assert hdt.build(SAMPLES / "three.nt", out, longest_line=longest).triples == 3
    else:
        with pytest.raises(error) as raised:
            hdt.build(SAMPLES / "three.nt", out, longest_line=longest)
        assert type(raised.value) is error and not out.exists()  # (an error of a line is a ValueError, too)


# A line of 2^28 bytes, after two others, whose end is never read.
HOLE = r"""
import re, sys, hdt
try:
    hdt.build(sys.argv[1], "out.hdt", longest_line=100_000)
except hdt.LineFault as fault:
    print(fault.line, fault.column, fault.name)
print(int(re.search(r"VmHWM:\s*(\d+) kB", open("/proc/self/status").read())[1]) < 60_000)
"""


@pytest.mark.parametrize("kind", ["file", "pipe"])
def test_long_line_takes_little_memory(kind: str, tmp_path: Path) -> None:
    """A line without an end is refused as soon as it is too long, of a file and of a pipe."""
    text = tmp_path / "text.nt"
    text.write_text(f"{TRIPLE}\n{TRIPLE}\n")
    if kind == "file":
        os.truncate(text, 2**28)
        done = program.run([sys.executable, "-c", HOLE, text], env=ENVIRONMENT, cwd=tmp_path)
    else:
        command = 'cat "$1" /dev/zero | "$2" -c "$3" /dev/stdin'
        done = program.run(["sh", "-c", command, "sh", text, sys.executable, HOLE], env=ENVIRONMENT, cwd=tmp_path)
    assert done == (0, b"3 100001 TooLong\nTrue\n", b"")
    assert os.listdir(tmp_path) == ["text.nt"]


def test_pipe_that_stays_open(tmp_path: Path) -> None:
    """A line of a pipe is refused as soon as it is too long, though the other end stays open and silent."""
    reading, writing = os.pipe()
    os.write(writing, TRIPLE.encode() + b"\n" + b"x" * 11)
    found: list[Outcome] = []
    thread = threading.Thread(
        target=lambda: found.append(outcome(Path(f"/dev/fd/{reading}"), tmp_path / "out.hdt", 10)), daemon=True)
    thread.start()
    thread.join(30)
    seen = list(found)
    os.close(writing)
    thread.join(30)
    os.close(reading)
    assert seen == [(1, 11, 9, f"/dev/fd/{reading}")]


@pytest.mark.parametrize("end", [b"\n", b"\r", b"\r\n"], ids=["LF", "CR", "both"])
@pytest.mark.parametrize("longest", [16, 1_000, 10**6])
def test_time_is_linear(longest: int, end: bytes) -> None:
    """Lines of a long text are checked in a time that is linear in the text, whatever their ends and the limit are."""

    def took(count: int) -> float:
        text = (TRIPLE.encode() + end) * count
        begin = time.process_time()
        _lines.LongestLine(longest, "text.nt").check(text)
        return time.process_time() - begin

    took(1_000)
    assert took(400_000) < 40 * max(took(50_000), 0.01)


def test_large_text(tmp_path: Path) -> None:
    """The number of a line far behind, past several pieces, and an error in a line before it."""
    text, out = tmp_path / "text.nt", tmp_path / "out.hdt"
    line = b"<u:s> <u:p> <u:o> . # some more bytes, so that the text is longer\r\n"
    text.write_bytes(line * 70_000 + b"x" * 200 + b"\n" + line)
    assert outcome(text, out, 100) == (70_001, 101, 9, str(text))
    with open(text, "r+b") as file:
        file.seek(60_000 * len(line))
        file.write(b"y")
    assert outcome(text, out, 100) == (60_001, 1, 1, str(text))
    assert not out.exists()


def test_without_memory(tmp_path: Path) -> None:
    """If memory runs out while the lines before are checked, it is a MemoryError."""
    (tmp_path / "text.nt").write_bytes(TRIPLE.encode() + b"\n" + b"x" * 100)

    def refused(*parameters: Any) -> None:
        parameters[-1].reason = 255

    with mock.patch.object(_library.library, "hdt_split", refused), pytest.raises(MemoryError):
        hdt.build(tmp_path / "text.nt", tmp_path / "out.hdt", longest_line=20)
