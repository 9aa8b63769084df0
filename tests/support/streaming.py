"""Graphs whose text is written in several windows, and running a program whose output is long.

A text of at most `WINDOW` lines and `SHORT` bytes is made in memory. A longer one is written window by window, each of
at most `WINDOW` triples, and of fewer if their terms are long. The strings of each role in a graph of `sorted_text`
have one length, so the lines in ascending order are the text.
"""

from __future__ import annotations

import os
import random
import resource
import signal
import subprocess
import sys
import tempfile
from collections.abc import Callable, Iterable, Iterator, Sequence
from pathlib import Path
from typing import IO, NamedTuple, Optional

from reference import hdt as reference
from support.built import PROGRAM
from support.program import SECONDS, Result, Word, brief, hdt

WINDOW, SHORT, PIECE = 131_072, 16_777_216, 65_536
# In roles with at most so many strings, IDs are marked in a table; in others they are sorted.
MARKED = 65_536
# What a command may take beside the file, in bytes.
ROOM = 64 << 20


class Made(NamedTuple):
    """A file, and the text of its triples."""

    path: Path
    text: bytes


def sorted_text(lines: Iterable[bytes]) -> bytes:
    """The text of a graph of these lines, whose strings have one length in each role."""
    return b"".join(sorted(lines))


def built(path: Path, text: bytes, block_size: int = 16) -> Made:
    """A file that is built of a canonical text."""
    result = hdt("build", "--block-size", str(block_size), "-", path, stdin=text)
    assert (result.status, result.err) == (0, b"")
    return Made(path, text)


# ---- files that are written by the reference, since no program builds them so quickly, or at all


def whole(sections: Sequence[bytes], triples: bytes) -> bytes:
    """A file of the four sections of a dictionary and of triples."""
    dictionary = reference.write_control(reference.DICTIONARY, b"mapping=1;")
    return b"".join([reference.write_head(), dictionary, *sections, triples])


def packed_bits(data: bytes) -> bytes:
    """A bitmap of whole bytes."""
    preamble = b"\x01" + reference.write_vbyte(8 * len(data))
    return preamble + reference.write_crc8(preamble) + data + reference.write_crc32(data)


def grid_triples(subjects: int, objects: int) -> bytes:
    """The triples of each subject with one predicate and each object; both counts are multiples of 8."""
    width = objects.bit_length()
    row = reference.pack(range(1, objects + 1), width)
    return b"".join([
        reference.write_control(reference.TRIPLES, b"order=1;"), packed_bits(b"\xff" * (subjects // 8)),
        packed_bits((bytes(objects // 8 - 1) + b"\x80") * subjects), reference.write_numbers([1] * subjects),
        reference.write_numbers_data(row * subjects, width, subjects * objects)])


def shuffled(count: int) -> list[int]:
    """The numbers below a count in another order, always the same."""
    return random.Random(count).sample(range(count), count)


class Prefixed(NamedTuple):
    """A graph of objects in one block that share a long prefix: subject i has object `order[i]`."""

    prefix: bytes
    order: list[int]

    @classmethod
    def of(cls, length: int, count: int, in_order: bool) -> Prefixed:
        """So many objects with a prefix of this length, that of the subjects in order or not."""
        return cls(b"http://a/" + b"x" * length, list(range(count)) if in_order else shuffled(count))

    @property
    def data(self) -> bytes:
        """The file."""
        count = range(len(self.order))
        sections = [reference.write_section([]), reference.write_section([b"u:%07d" % i for i in count]),
                    reference.write_section([b"u:p"]),
                    reference.write_one_block(self.prefix, [b"%07d" % i for i in count])]
        return whole(sections, reference.write_triples([(i + 1, 1, it + 1) for i, it in enumerate(self.order)]))

    def lines(self) -> Iterator[bytes]:
        """The lines of its text."""
        for i, it in enumerate(self.order):
            yield b"<u:%07d> <u:p> <%s%07d> .\n" % (i, self.prefix, it)


def replaced(data: bytes, section: bytes, changes: Sequence[tuple[bytes, bytes]]) -> bytes:
    """A file with blocks of one string, in which strings of a section, whose packed bytes are given, are others.

    Each has the length of the one before.
    """
    at = data.index(section)
    packed = section
    for old, new in changes:
        assert len(old) == len(new) and packed.count(old + b"\0") == 1
        packed = packed.replace(old + b"\0", new + b"\0")
    end = at + len(section)
    return data[:at] + packed + reference.write_crc32(packed) + data[end + 4:]


# ---- running the program


def differs(command: Sequence[Word], pieces: Iterable[bytes]) -> Optional[Result]:
    """The result of a command that does not end with status 0 after it has printed these pieces, with some output."""
    with subprocess.Popen([os.fsencode(word) for word in command], stdin=subprocess.DEVNULL, stdout=subprocess.PIPE,
                          stderr=subprocess.PIPE) as program:
        assert program.stdout and program.stderr
        found = unequal(program.stdout, pieces)
        program.stdout.close()
        err = program.stderr.read()
        status = program.wait(SECONDS)
    return None if (found, status, err) == (None, 0, b"") else brief(Result(status, found or b"", err))


def unequal(source: IO[bytes], pieces: Iterable[bytes]) -> Optional[bytes]:
    """What is read in place of the first piece that is not read; None if there is no other one."""
    for piece in pieces:
        found = source.read(len(piece))
        if found != piece:
            return found
    return source.read(1) or None


class Used(NamedTuple):
    """How a command ended, the CPU seconds that it took, and the most bytes that it had in memory."""

    status: int
    err: bytes
    seconds: float
    memory: int


# (A program begins with the peak of the process that starts it, so that has to be a small one.)
MEASURE = """
import resource, subprocess, sys
program = subprocess.run(sys.argv[2:], stdin=subprocess.DEVNULL, stdout=open(sys.argv[1], "wb"), stderr=subprocess.PIPE)
used = resource.getrusage(resource.RUSAGE_CHILDREN)
print(program.returncode, program.stderr.hex() or "-", used.ru_utime + used.ru_stime, used.ru_maxrss * 1024)
"""


def used(command: Sequence[Word], out: Word = os.devnull) -> Used:
    """What a command takes that writes to a file."""
    words = [os.fsencode(word) for word in (out, *command)]
    done = subprocess.run([sys.executable, "-S", "-c", MEASURE, *words], capture_output=True, check=True,
                          timeout=SECONDS)
    status, err, seconds, memory = done.stdout.decode().split()
    return Used(int(status), bytes.fromhex(err.strip("-")), float(seconds), int(memory))


def limited_to(size: int) -> Callable[[], None]:
    """What makes writing fail after so many bytes of a file, in the process that runs it."""
    def limit() -> None:
        signal.signal(signal.SIGXFSZ, signal.SIG_IGN)
        resource.setrlimit(resource.RLIMIT_FSIZE, (size, size))
    return limit


def cut_off(size: int, *words: Word) -> Result:
    """The result of the command `hdt` whose standard output is full after so many bytes."""
    with tempfile.TemporaryFile() as out:
        done = subprocess.run([os.fsencode(word) for word in (PROGRAM, *words)], stdin=subprocess.DEVNULL, stdout=out,
                              stderr=subprocess.PIPE, timeout=SECONDS, preexec_fn=limited_to(size), check=False)
        out.seek(0)
        return Result(done.returncode, out.read(), done.stderr)


def closed_after(size: int, *words: Word) -> tuple[Result, float]:
    """The result of `hdt` whose standard output is closed after so many bytes are read, and its CPU seconds."""
    with subprocess.Popen([os.fsencode(word) for word in (PROGRAM, *words)], stdin=subprocess.DEVNULL,
                          stdout=subprocess.PIPE, stderr=subprocess.PIPE) as program:
        assert program.stdout and program.stderr
        begin = program.stdout.read(size)
        program.stdout.close()
        err = program.stderr.read()
        _, status, usage = os.wait4(program.pid, 0)
        program.returncode = os.waitstatus_to_exitcode(status)
    return Result(program.returncode, begin, err), usage.ru_utime + usage.ru_stime
