"""The program over whole files: verdicts of `verify`, files that can't be read, large files, and limited memory."""

from __future__ import annotations

import itertools
import os
import subprocess
from pathlib import Path
from typing import BinaryIO, NamedTuple

import pytest

from reference import hdt as model
from support.built import PROGRAM, SAMPLES
from support.program import READING_FAILED, SECONDS, WRITING_FAILED, Result, Word, hdt, run

V1 = (SAMPLES / "v1.hdt").read_bytes()
THREE = (SAMPLES / "three.hdt").read_bytes()

NO_SUCH_NUMBER = Result(1, b"", b"hdt: no such number\n")

# What `head` prints of the sample: five lines, and the header body.
V1_HEAD = (b"global <http://purl.org/HDT/hdt#HDTv1>\nproperties \nheader ntriples\nproperties length=150;\nlength 150\n"
           + V1[68:218])


def accepted(*counts: int) -> Result:
    """The verdict of a file with these counts: triples, then strings in each section."""
    return Result(0, b"ok %d %d %d %d %d\n" % counts, b"")


def refused(number: int, name: str, offset: int) -> Result:
    """The verdict of a file with this error."""
    return Result(1, b"", b"hdt: fault %d %s at %d\n" % (number, name.encode(), offset))


def replaced(data: bytes, start: int, end: int, part: bytes) -> bytes:
    """The bytes with a part replaced."""
    return data[:start] + part + data[end:]


class Case(NamedTuple):
    """A file, its verdict, and the offset of the first string that no triple uses in a role, if there is one."""

    name: str
    data: bytes
    verdict: Result
    unused: int | None = None


UX, EMPTY = model.write_section([b"u:x"]), model.write_section([])
MANY_BITS = b"\x01" + model.write_vbyte(2**64 - 1)
MANY_NUMBERS = b"\x01\x00" + model.write_vbyte(2**64 - 1)
ONCE = (model.write_head() + model.write_dictionary([b"u:a", b"u:b"], [], [b"u:p"], [])
        + model.write_triples([(1, 1, 1), (2, 1, 1)]))
TWO_MARKS = model.write_bits([1]) + model.write_bits([1, 1]) + model.write_numbers([1]) + model.write_numbers([1, 1])

CASES = [
    Case("sample", V1, accepted(1, 1, 0, 1, 0)),
    Case("three-triples", THREE, accepted(3, 2, 0, 2, 1)),
    Case("unused-subject", replaced(V1, 305, 323, UX), accepted(1, 1, 1, 1, 0), 319),
    Case("unused-object", replaced(V1, 351, 369, UX), accepted(1, 1, 0, 1, 1), 365),
    Case("header-body-changed", replaced(V1, 100, 101, b"\xff"), accepted(1, 1, 0, 1, 0)),
    Case("empty-file", b"", refused(1, "Truncated", 0)),
    Case("one-byte-less", V1[:-1], refused(1, "Truncated", 455)),
    Case("one-byte-more", V1 + b"x", refused(33, "TrailingBytes", 459)),
    Case("sections-overlap", replaced(replaced(V1, 351, 369, UX), 305, 323, UX), refused(23, "SectionsOverlap", 369)),
    Case("last-mark-missing", replaced(V1, 433, 441, model.write_bits([0])), refused(26, "LastMark", 436)),
    Case("more-marks-than-pairs", V1[:425] + TWO_MARKS, refused(27, "MarkCount", 434)),
    Case("predicate-0", replaced(V1, 441, 450, model.write_numbers([0])), refused(29, "PredicateRange", 445)),
    Case("object-past-the-count", V1[:450] + model.write_numbers([2]), refused(30, "ObjectRange", 454)),
    Case("packed-byte-changed", replaced(V1, 298, 299, b"\x62"), refused(11, "Check32", 301)),
    Case("block-size-changed", replaced(V1, 283, 284, b"\x05"), refused(10, "Check8", 285)),
    Case("shared-section-empty", replaced(V1, 277, 305, EMPTY), refused(28, "SubjectRange", 418)),
    Case("shared-string-never-an-object", ONCE, accepted(2, 2, 0, 1, 0), 143),
    Case("2^64-1-bits", replaced(V1, 425, 428, MANY_BITS + model.write_crc8(MANY_BITS)), refused(1, "Truncated", 437)),
    Case("2^64-1-numbers-of-width-0",
         replaced(V1, 441, 450, MANY_NUMBERS + model.write_crc8(MANY_NUMBERS) + model.write_crc32(b"")),
         refused(25, "LengthsDiffer", 443)),
    Case("shared-string-never-a-subject-or-object", replaced(V1, 351, 369, UX)[:-9] + model.write_numbers([2]),
         accepted(1, 1, 0, 1, 1), 291),
]
LOOSE = [case for case in CASES if case.name in ("unused-subject", "unused-object",
                                                 "shared-string-never-a-subject-or-object")]
CUT = CASES[:2] + LOOSE


def verdicts(path: Path, data: bytes) -> tuple[Result, Result, Result]:
    """What `verify` and `verify --tight`, before and behind the name, print of a file of these bytes."""
    path.write_bytes(data)
    return hdt("verify", path), hdt("verify", "--tight", path), hdt("verify", path, "--tight")


@pytest.mark.parametrize("case", CASES, ids=[case.name for case in CASES])
def test_verdict(tmp_path: Path, case: Case) -> None:
    """`verify` prints the counts or the first error; `verify --tight` also refuses a string that no triple uses."""
    tight = case.verdict if case.unused is None else refused(34, "Unused", case.unused)
    assert verdicts(tmp_path / "file.hdt", case.data) == (case.verdict, tight, tight)


@pytest.mark.parametrize("case", LOOSE, ids=[case.name for case in LOOSE])
def test_byte_behind_a_file_with_an_unused_string(tmp_path: Path, case: Case) -> None:
    """A byte behind the file is reported before the unused string."""
    assert verdicts(tmp_path / "file.hdt", case.data + b"x") == (refused(33, "TrailingBytes", 463),) * 3


def error_of(data: bytes) -> Result:
    """The verdict of a damaged file by the reference."""
    try:
        model.read_file(data)
    except model.Error as error:
        return refused(error.reason, error.name, error.offset)
    raise AssertionError("the file is accepted")


@pytest.mark.parametrize("case", CUT, ids=[case.name for case in CUT])
def test_file_cut_off(tmp_path: Path, case: Case) -> None:
    """A file that is cut off at any length is Truncated, in tight mode too."""
    path = tmp_path / "file.hdt"
    lengths = range(len(case.data))
    modes: list[list[str]] = [[], ["--tight"]] if case.unused else [[]]
    seen = []
    for length in lengths:
        path.write_bytes(case.data[:length])
        seen.append((length, [hdt("verify", path, *mode) for mode in modes]))
    expected = [(length, error_of(case.data[:length])) for length in lengths]
    assert seen == [(length, [verdict] * len(modes)) for length, verdict in expected]
    assert {verdict.err.split()[2:4] == [b"1", b"Truncated"] for _, verdict in expected} == {True}


def test_verify_without_a_file() -> None:
    """`verify --tight` without a file is a usage error."""
    status, out, err = hdt("verify", "--tight")
    assert (status, out, err[:7]) == (2, b"", b"error: ")


def with_memory(size: int, *words: Word) -> list[Word]:
    """The command `hdt` with an address space of at most `size` bytes."""
    return ["sh", "-c", f"ulimit -v {size // 1024} && exec \"$0\" \"$@\"", PROGRAM, *words]


def least_memory() -> int:
    """The address space in which the program starts and prints its help, in bytes."""
    return next(size for size in range(1 << 20, 1 << 26, 1 << 16) if run(with_memory(size, "--help")).status == 0)


def test_verify_takes_little_memory(tmp_path: Path) -> None:
    """`verify` of 250,000 triples takes one megabyte and the file twice: less than the lists of a graph would."""
    source, path = tmp_path / "square.nt", tmp_path / "square.hdt"
    source.write_bytes(b"".join(b"<u:s%03d> <u:p> <u:o%03d> .\n" % (s, o) for s in range(500) for o in range(500)))
    assert hdt("build", source, path).status == 0
    size = path.stat().st_size
    seen = run(with_memory(least_memory() + 2 * size + (1 << 20), "verify", path))
    assert seen == accepted(250_000, 0, 500, 1, 500)


ROLE_STRINGS = {
    "subject": [b"http://example.org/subject/%04d" % n for n in range(2_000)],
    "predicate": [b"http://example.org/predicate/%d" % n for n in range(5)],
    "object": [b"http://example.org/value/%02d" % n for n in range(10)],
}


@pytest.fixture(scope="module")
def many(tmp_path_factory: pytest.TempPathFactory) -> Path:
    """A file of 100,000 triples: each of 2,000 subjects with each of 5 predicates and each of 10 objects."""
    path = tmp_path_factory.mktemp("many") / "many.hdt"
    front = model.write_head()
    front += model.write_dictionary([], ROLE_STRINGS["subject"], ROLE_STRINGS["predicate"], ROLE_STRINGS["object"])
    ids = itertools.product(range(1, 2_001), range(1, 6), range(1, 11))
    path.write_bytes(front + model.write_triples(list(ids)))
    return path


def test_verify_of_many_triples(many: Path) -> None:
    """100,000 triples are accepted."""
    assert hdt("verify", many) == accepted(100_000, 0, 2_000, 5, 10)


@pytest.mark.parametrize("role", ROLE_STRINGS)
def test_strings_of_many_triples(many: Path, role: str) -> None:
    """Strings and IDs are found near both ends of a role, and none is past its count."""
    strings = ROLE_STRINGS[role]
    ids = sorted({1, 2, 17, 1_024, 1_999, 2_000, len(strings)})
    found = [n for n in ids if n <= len(strings)]
    assert [(n, hdt("string", many, role, str(n))) for n in ids] == [
        (n, Result(0, strings[n - 1] + b"\n", b"") if n in found else NO_SUCH_NUMBER) for n in ids]
    assert [hdt("number", "--raw", many, role, strings[n - 1]) for n in found] == [
        Result(0, b"%d\n" % n, b"") for n in found]


def test_last_of_many_objects_equal(many: Path, tmp_path: Path) -> None:
    """The last object of 100,000 triples equals the one before it: the error is at its entry."""
    data = many.read_bytes()
    objects = list(range(1, 11)) * 10_000
    numbers, equal = model.write_numbers(objects), model.write_numbers([*objects[:-1], 9])
    assert data.endswith(numbers) and len(equal) == len(numbers)
    path = tmp_path / "equal.hdt"
    path.write_bytes(data[:-len(numbers)] + equal)
    # Entries have 4 bits: the last one's byte is the one before the CRC.
    assert hdt("verify", path) == refused(32, "ObjectsNotAscending", len(data) - 5)


def run_into(out: int | BinaryIO, *words: Word) -> tuple[int, bytes]:
    """Exit status and standard error of the command `hdt` with this standard output."""
    done = subprocess.run([os.fsencode(word) for word in (PROGRAM, *words)], stdin=subprocess.DEVNULL, stdout=out,
                          stderr=subprocess.PIPE, timeout=SECONDS)
    return done.returncode, done.stderr


def run_half_way(size: int, *words: Word) -> Result:
    """The result of the command `hdt` whose standard output is a pipe that is closed after `size` bytes are read."""
    with subprocess.Popen([os.fsencode(word) for word in (PROGRAM, *words)], stdin=subprocess.DEVNULL,
                          stdout=subprocess.PIPE, stderr=subprocess.PIPE) as program:
        assert program.stdout is not None and program.stderr is not None
        begin = program.stdout.read(size)
        program.stdout.close()
        err = program.stderr.read()
        return Result(program.wait(timeout=SECONDS), begin, err)


@pytest.mark.parametrize("name", ["missing.hdt", ".", ""], ids=["missing", "a-folder", "an-empty-name"])
def test_file_that_cannot_be_read(tmp_path: Path, name: str) -> None:
    """A file that is missing, a folder and an empty name are failures of reading."""
    assert hdt("head", tmp_path / name if name else "") == READING_FAILED


def test_full_disk() -> None:
    """A full disk is a failure of writing."""
    with open("/dev/full", "wb") as full:
        assert run_into(full, "head", SAMPLES / "v1-head.hdt") == (WRITING_FAILED.status, WRITING_FAILED.err)


def test_closed_pipe() -> None:
    """A pipe that nobody reads is a failure of writing."""
    source, sink = os.pipe()
    os.close(source)
    try:
        assert run_into(sink, "head", SAMPLES / "v1-head.hdt") == (WRITING_FAILED.status, WRITING_FAILED.err)
    finally:
        os.close(sink)


def test_name_with_blanks_at_its_ends(tmp_path: Path) -> None:
    """The name of a file is taken as it is, with blanks at its ends."""
    path = tmp_path / " v1.hdt "
    path.write_bytes(V1)
    assert [hdt("head", path), hdt("head", str(path).rstrip())] == [Result(0, V1_HEAD, b""), READING_FAILED]


def brief(result: Result) -> tuple[int, int, bytes]:
    """A large result, short enough to be shown."""
    return result.status, len(result.out), result.err


def assert_prints(result: Result, out: bytes, err: bytes = b"") -> None:
    """The command succeeded and printed `out`, which is large."""
    assert brief(result) == (0, len(out), err)
    assert result.out == out, "the same length, but other bytes"


def large_head() -> tuple[bytes, bytes]:
    """A file with a header body of 40 MiB and properties of one, and what `head` prints of it."""
    body = b"0123456789abcdef" * (40 << 16)
    properties = b"y=" + b"z" * (1 << 20) + b";length=%d;" % len(body)
    data = V1[:40] + model.write_control(2, properties) + body + V1[218:]
    lines = V1_HEAD[:-150].replace(b"length=150;", properties).replace(b"\nlength 150\n", b"\nlength %d\n" % len(body))
    return data, lines + body


def test_large_head(tmp_path: Path) -> None:
    """`head` of a file of 40 MiB, which takes many reads and writes, whole and into a pipe that is closed half-way."""
    path = tmp_path / "large.hdt"
    data, lines = large_head()
    path.write_bytes(data)
    assert_prints(hdt("head", path), lines)
    seen = run_half_way(100_000, "head", path)
    assert brief(seen) == (3, 100_000, WRITING_FAILED.err)
    assert seen.out == lines[:100_000]


def test_head_of_a_large_sparse_file(tmp_path: Path) -> None:
    """`head` of a file of 256 MiB: thousands of reads."""
    path = tmp_path / "sparse.hdt"
    path.write_bytes(V1)
    os.truncate(path, 1 << 28)
    assert hdt("head", path) == Result(0, V1_HEAD, b"")


def test_large_output(tmp_path: Path) -> None:
    """A file of more than 16 MiB is built over another one, into a pipe, and rewritten."""
    document, out, again = tmp_path / "large.nt", tmp_path / "large.hdt", tmp_path / "again.hdt"
    document.write_bytes(b"<u:a> <u:p> \"" + b"x" * (17 << 20) + b"\" .\n")
    out.write_bytes(b"")
    again.write_bytes(b"")
    built = hdt("build", document, out)
    size = out.stat().st_size
    assert size > 17 << 20
    line = b"built 1 0 1 1 1 %d\n" % size
    assert built == Result(0, line, b"")
    assert hdt("rewrite", out, again).status == 0
    data = out.read_bytes()
    assert again.read_bytes() == data, "rewritten as other bytes"
    # The line is then printed on standard error.
    assert_prints(hdt("build", document, "/dev/stdout"), data, line)


def test_strings_in_pieces(tmp_path: Path) -> None:
    """`strings` prints in pieces: 40 MB of text from half a megabyte take a quarter of that memory."""
    path, out = tmp_path / "pieces.hdt", tmp_path / "pieces.txt"
    prefix = b"http://a/" + b"x" * 40_000
    path.write_bytes(model.long_prefixes(2, 40_000, 1_000)[0])
    expected = b"".join(b"%d\t%s%07d\n" % (n + 1, prefix, 2 * n + 1) for n in range(1_000))
    with open(out, "wb") as lines:
        done = subprocess.run(with_memory(len(expected) // 4, "strings", path, "object"), stdin=subprocess.DEVNULL,
                              stdout=lines, stderr=subprocess.PIPE, timeout=SECONDS)
    assert (done.returncode, done.stderr, out.stat().st_size) == (0, b"", len(expected))
    assert out.read_bytes() == expected, "the same length, but other bytes"
    seen = run_half_way(1_000_000, "strings", path, "object")
    assert brief(seen) == (3, 1_000_000, WRITING_FAILED.err)
    assert seen.out == expected[:1_000_000], "the same length, but other bytes"


def test_memory_of_a_dump(tmp_path: Path) -> None:
    """A text is made in memory of its size: 44 MB of text take at most 20 MB more, file and program included."""
    source, path, out = tmp_path / "long.nt", tmp_path / "long.hdt", tmp_path / "again.nt"
    subject = b"<http://a/" + b"x" * 40_000 + b">"
    lines = b"".join(b"%s <u:p> \"%04d\" .\n" % (subject, n) for n in range(1_100))
    source.write_bytes(lines)
    built = hdt("build", source, path)
    assert (built.status, built.err) == (0, b"")
    with open(out, "wb") as text:
        done = subprocess.run(with_memory(len(lines) + 20_000_000, "dump", path), stdin=subprocess.DEVNULL, stdout=text,
                              stderr=subprocess.PIPE, timeout=SECONDS)
    assert (done.returncode, done.stderr, out.stat().st_size) == (0, b"", len(lines))
    assert out.read_bytes() == lines, "the same length, but other bytes"
