"""How much memory the program takes: it answers in little, and otherwise reports that memory ran out.

A limit is one of the address space, so the program, its libraries and its stack count too. What a program asks the
allocator for is measured beside it, to the byte.
"""

from __future__ import annotations

import hashlib
from bisect import bisect_left
from pathlib import Path

import pytest

from reference import ntriples
from reference.hdt import Strings, graph
from support.built import BUILT, PROGRAM, SAMPLES
from support.measuring import Meter
from support.probe import Argument, line_of
from support.program import Result, Word, brief, done, hdt, run

BASE = b"http://example.org/dataset"
OUT_OF_MEMORY = Result(4, b"", b"hdt: out of memory\n")
STEP = 1 << 16
ROOMS = range(1 << 20, 1 << 26, STEP)


def limited(room: int, *words: Word) -> Result:
    """Run the program with an address space of so many bytes."""
    return run(["prlimit", f"--as={room}:{room}", "--", PROGRAM, *words])


@pytest.fixture(scope="module")
def least() -> int:
    """The least address space in which the program starts, and two steps more: it depends on the random addresses."""
    return ROOMS[bisect_left(ROOMS, True, key=lambda room: limited(room, "--help").status == 0) + 2]


def many_triples() -> list[Strings]:
    """20,000 triples, one of which has a literal of 100,000 bytes."""
    subject = b"http://example.org/subject/%d"
    many = [(subject % s, b"http://example.org/predicate/%d" % p, b'"%d"@en' % (s % 700 + p * o))
            for s in range(2_000) for p in range(2) for o in range(1, 6)]
    links = [(subject % s, b"http://example.org/next", subject % (s * n % 2_000))
             for s in range(2_000) for n in range(7)]
    long = (subject % 7, b"http://example.org/text", b'"' + b"long " * 20_000 + b'"')
    return [*sorted({*many, *links})[:19_999], long]


class Many:
    """20,000 triples as a document, and the file of them."""

    def __init__(self, folder: Path) -> None:
        self.document, self.file = folder / "many.nt", folder / "many.hdt"
        self.data, _, strings = graph(many_triples(), BASE)
        assert len(strings) == 20_000
        self.file.write_bytes(self.data)
        self.document.write_bytes(b"".join(map(ntriples.put_strings, strings)))


@pytest.fixture(scope="module")
def many(tmp_path_factory: pytest.TempPathFactory) -> Many:
    """20,000 triples."""
    return Many(tmp_path_factory.mktemp("many"))


@pytest.mark.parametrize("command, step", [("rewrite", STEP), ("build", 4 * STEP)])
def test_making_in_little_memory(command: str, step: int, least: int, many: Many, tmp_path: Path) -> None:
    """From the least memory on to what is enough, OUT stays as it was while memory runs out."""
    source, out = many.document if command == "build" else many.file, tmp_path / "out.hdt"
    failures, statuses = [], set()
    for room in range(least, 1 << 26, step):
        out.write_bytes(b"before")
        answer = limited(room, command, source, out)
        statuses.add(answer.status)
        if answer.status == 0:
            assert (room, out.read_bytes() == many.data) == (room, True)
            break
        if (answer, out.read_bytes()) != (OUT_OF_MEMORY, b"before"):
            failures.append((room, answer))
    assert failures == []
    assert statuses == {0, 4}


READERS: dict[str, list[str]] = {
    "verify": [],
    "dump": [],
    "find": ["?", "<http://example.org/next>", "?"],
    "strings": ["object"],
}


@pytest.mark.parametrize("command", READERS)
def test_reading_in_little_memory(command: str, least: int, many: Many) -> None:
    """What is read is answered as in ample memory, or with the error; then what was printed is a beginning."""
    words: list[Word] = [command, many.file, *READERS[command]]
    ample = hdt(*words)
    assert (ample.status, ample.err) == (0, b"")
    failures, statuses = [], set()
    for room in range(least, 1 << 26, 2 * STEP):
        answer = limited(room, *words)
        statuses.add(answer.status)
        if answer == ample:
            break
        if answer != OUT_OF_MEMORY._replace(out=answer.out) or not ample.out.startswith(answer.out):
            failures.append((room, answer.status, len(answer.out), answer.err))
    assert failures == []
    assert statuses == {0, 4}


# ---- what is asked of the allocator

THREE = SAMPLES / "three.hdt"
# What a run may take beside what is counted: a fixed amount, whatever the input.
FIXED = 1 << 16


@pytest.fixture(scope="module")
def meter(tmp_path_factory: pytest.TempPathFactory) -> Meter:
    """Measures what programs allocate."""
    return Meter(tmp_path_factory.mktemp("meter"))


@pytest.fixture(scope="module")
def objects(tmp_path_factory: pytest.TempPathFactory) -> Path:
    """20,000 triples of one subject and predicate, whose objects are literals of 128 bytes that begin differently."""
    folder = tmp_path_factory.mktemp("objects")
    texts = (hashlib.sha512(b"%d" % i).hexdigest().encode() for i in range(20_000))
    (folder / "in.nt").write_bytes(b"".join(b'<u:s> <u:p> "%s" .\n' % text for text in texts))
    assert hdt("build", folder / "in.nt", folder / "out.hdt").status == 0
    return folder / "out.hdt"


@pytest.mark.parametrize("command", ["verify", "head"])
def test_file_is_read_into_its_size(command: str, meter: Meter, objects: Path) -> None:
    """A regular file is read into memory of its size, and that is most of what a command takes."""
    small, large = (meter.run([PROGRAM, command, path]) for path in (THREE, objects))
    assert (small.result.status, large.result.status) == (0, 0)
    assert large.most <= small.most + objects.stat().st_size + FIXED


def test_string_takes_little(meter: Meter) -> None:
    """A short string takes no room for a long one."""
    measured = meter.run([PROGRAM, "string", THREE, "object", "3"])
    assert measured.result == done(b'"x"\n')
    assert measured.largest < FIXED


@pytest.mark.parametrize("line", [b"# a comment\n", b"    \n"], ids=["comment", "blanks"])
def test_lines_take_no_new_memory(line: bytes, meter: Meter) -> None:
    """A line is read into the memory of the line before: lines that are no requests take no allocation of their own."""
    few, more = (meter.run([PROGRAM, "answer", THREE], stdin=line * count) for count in (2, 200))
    assert (few.result, more.result) == (done(), done())
    assert more.allocations == few.allocations


def test_answers_are_written_as_they_come(meter: Meter, objects: Path) -> None:
    """Many requests that come together take the memory of one answer and 64 KiB: what is more is written before."""
    command: list[Word] = [PROGRAM, "answer", "--most", "500", objects]
    few, more = (meter.run(command, stdin=b"? ? ?\n" * count) for count in (3, 150))
    assert brief(more.result) == brief(done(few.result.out * 50))
    assert more.most <= few.most + FIXED


def test_room_of_a_long_answer_is_given_back(meter: Meter, objects: Path) -> None:
    """What a long answer took is there for a long request after it."""
    answer, request = b"? ? ?\n", b'? ? "' + b"x" * 1_000_000 + b'"\n'
    one, other, both = (meter.run([PROGRAM, "answer", objects], stdin=it) for it in (answer, request, answer + request))
    assert brief(both.result) == brief(done(one.result.out + other.result.out))
    assert both.most <= max(one.most, other.most) + FIXED


# Commands that write as they read a document, `in.nt`.
WRITING: dict[str, list[Word]] = {
    "lint": ["lint", "in.nt"],
    "lint --keep": ["lint", "--keep", "in.nt"],
    "split": ["split", "good.nt", "parts", "--parts", "1"],
    "split into 16 parts": ["split", "good.nt", "parts", "--parts", "16"],
    "split, printed": ["split", "good.nt", "--of", "0/1"],
    "split, one of three printed": ["split", "good.nt", "--of", "1/3"],
    "split, two inputs": ["split", "good.nt", "good.nt", "--of", "0/1"],
}


@pytest.mark.parametrize("name", WRITING)
def test_output_is_written_as_it_comes(name: str, meter: Meter, tmp_path: Path) -> None:
    """A document of four times the size, and its output, take no more memory."""
    most = []
    for count in (40_000, 160_000):
        folder = tmp_path / str(count)
        folder.mkdir()
        good = [b'<u:%d> <u:p> "%d" . #%s\n' % (n % 977, n, b"#" * 80) for n in range(count)]
        (folder / "good.nt").write_bytes(b"".join(good))
        (folder / "in.nt").write_bytes(b"".join(line + b"x\n" for line in good))
        measured = meter.run([PROGRAM, *WRITING[name]], cwd=folder)
        assert measured.result.status == ("lint" in name)
        most.append(measured.most)
    assert most[1] <= most[0] + FIXED


def test_directories_take_8_bytes_for_512_marks(meter: Meter, tmp_path: Path) -> None:
    """A search with a subject takes two directories beside what one without a subject takes."""
    subjects, objects = 250, 1_000
    text = b"".join(b"<u:s%03d> <u:p> <u:o%03d> .\n" % (s, o) for s in range(subjects) for o in range(objects))
    (tmp_path / "in.nt").write_bytes(text + b"<u:t> <u:q> <u:r> .\n")
    assert hdt("build", tmp_path / "in.nt", tmp_path / "out.hdt").status == 0
    command: list[Word] = [PROGRAM, "find", "--numbers", tmp_path / "out.hdt"]
    with_subject, without = (meter.run([*command, *words.split()]) for words in ("<u:t> ? ?", "? ? <u:r>"))
    assert with_subject.result == without.result == done(b"251 2 1001\n")
    marks = subjects * objects + subjects + 3
    assert without.most <= with_subject.most <= without.most + 8 * (marks // 512 + 4) + 1_024


def arena(meter: Meter, *arguments: Argument) -> int:
    """How many allocations the probe makes that puts strings into an arena with this room."""
    request = line_of(["arena", *arguments, *(b"x" * 100 for _ in range(20))])
    measured = meter.run([BUILT / "hdt_probe_parts"], stdin=request.encode() + b"\n")
    assert measured.result.out.startswith(b"ok 20 ")
    return measured.allocations


def test_room_of_an_arena_is_allocated_at_once(meter: Meter) -> None:
    """An arena with room for its strings and their bytes never grows."""
    assert arena(meter, 20, 2_000) == arena(meter, 20, 20_000) < arena(meter, 20, 0)
    assert arena(meter, 20, 2_000) < arena(meter, 0, 2_000)
