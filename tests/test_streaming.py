"""Text that is written window by window: `dump` and `find` of more than 131,072 triples, or of long strings.

A text of at most 131,072 lines and 16 MB is made in memory. Before the first byte of a longer one, terms are checked.
Then come windows: the terms of at most 131,072 triples, of fewer if they are long, and their lines in pieces of 64 KiB.
With `--skip-non-terms` each window has triples whose strings are all terms. Lines of numbers need no windows.
"""

from __future__ import annotations

from collections.abc import Callable, Iterator, Sequence
from functools import lru_cache
from pathlib import Path
from typing import NamedTuple

import pytest

from reference import hdt as reference
from support.built import PROGRAM
from support.program import OUT_OF_MEMORY, WRITING_FAILED, Result, Word, brief, done, failed, hdt
from support.refusing import Refuser
from support.streaming import (MARKED, PIECE, ROOM, SHORT, WINDOW, Made, Prefixed, built, closed_after, cut_off,
                               differs, grid_triples, replaced, shuffled, sorted_text, used, whole)
from support.timing import is_linear, measure

COUNTS = [WINDOW - 1, WINDOW, WINDOW + 1, 2 * WINDOW + 1]
MANY = COUNTS[-1]


@pytest.fixture(scope="module")
def folder(tmp_path_factory: pytest.TempPathFactory) -> Path:
    """Where the files of this module are."""
    return tmp_path_factory.mktemp("streaming")


def check(wanted: bytes, *words: Word) -> None:
    """Check that a command prints this text."""
    result = hdt(*words)
    if result != done(wanted):
        assert (words, brief(result)) == (words, brief(done(wanted)))


def searches(path: Path, given: Sequence[Sequence[str]]) -> Iterator[list[Word]]:
    """The command lines of `dump`, and of `find` with these terms."""
    yield ["dump", path]
    for terms in given:
        yield ["find", path, *terms]


# ---- how many triples match


class Kind(NamedTuple):
    """Graphs of triples that differ in one role: a line, the same in numbers, and the patterns that match all."""

    line: bytes
    numbers: bytes
    patterns: list[list[str]]


KINDS = {
    "subjects": Kind(b"<u:%07d> <u:p> <v:o> .\n", b"%d 1 1\n", [
        ["?", "?", "?"], ["?", "<u:p>", "?"], ["?", "?", "<v:o>"], ["?", "<u:p>", "<v:o>"]]),
    "predicates": Kind(b"<u:s> <u:%07d> <v:o> .\n", b"1 %d 1\n", [
        ["?", "?", "?"], ["<u:s>", "?", "?"], ["?", "?", "<v:o>"], ["<u:s>", "?", "<v:o>"]]),
    "objects": Kind(b'<u:s> <u:p> "%07d" .\n', b"1 1 %d\n", [
        ["?", "?", "?"], ["<u:s>", "?", "?"], ["?", "<u:p>", "?"], ["<u:s>", "<u:p>", "?"]]),
}


@pytest.fixture(scope="module")
def kinds(folder: Path) -> Callable[[str, int], Made]:
    """The file of a kind with so many triples, which is built when it is first asked for."""
    @lru_cache(maxsize=None)
    def made(name: str, count: int) -> Made:
        line = KINDS[name].line
        return built(folder / f"{name}-{count}.hdt", b"".join(line % number for number in range(count)))
    return made


@pytest.mark.parametrize("count", COUNTS)
@pytest.mark.parametrize("name", KINDS)
def test_numbers_of_matches(name: str, count: int, kinds: Callable[[str, int], Made]) -> None:
    """A window's triples, one more and one less, and those of two windows and one more, by each pattern."""
    file, kind = kinds(name, count), KINDS[name]
    numbers = b"".join(kind.numbers % (it + 1) for it in range(count))
    for words in searches(file.path, kind.patterns):
        check(file.text, *words)
        check(file.text, *words, "--skip-non-terms")
        if words[0] == "find":
            check(numbers, *words, "--numbers")


MOSTS = [*range(WINDOW - 1, WINDOW + 2), *range(2 * WINDOW - 1, 2 * WINDOW + 3)]


@pytest.mark.parametrize("name", KINDS)
def test_most(name: str, kinds: Callable[[str, int], Made]) -> None:
    """`--most` with numbers around the ends of windows, by each pattern."""
    file, kind = kinds(name, MANY), KINDS[name]
    size = len(file.text) // MANY
    numbers = [kind.numbers % (it + 1) for it in range(MANY)]
    for most, pattern in zip(MOSTS, kind.patterns * 2):
        words: list[Word] = ["find", "--most", str(most), file.path, *pattern]
        check(file.text[:size * most], *words)
        check(file.text[:size * most], *words, "--skip-non-terms")
        check(b"".join(numbers[:most]), *words, "--numbers")


def test_few_matches_of_a_long_file(kinds: Callable[[str, int], Made]) -> None:
    """One triple of two windows, and none."""
    path, line = kinds("objects", MANY).path, KINDS["objects"].line % WINDOW
    check(line, "find", path, "?", "?", '"%07d"' % WINDOW)
    check(line, "find", path, "<u:s>", "<u:p>", '"%07d"' % WINDOW)
    check(b"", "find", path, "?", "?", "<u:s>")
    options: list[list[Word]] = [[], ["--skip-non-terms"], ["--numbers"]]
    for option in options:
        check(b"", "find", "--most", "0", path, "?", "?", "?", *option)
        check(b"", "find", path, "?", "?", "<u:s>", *option)


# ---- terms of two windows, and IDs that are marked or sorted

LINKS = 150_000


def of_three_roles(strings: int) -> bytes:
    """A text with three triples of each of so many subjects, and as many predicates and objects, far apart."""
    predicates, objects = shuffled(strings), shuffled(strings)[::-1]
    return sorted_text(
        b"<s:%06d> <p:%06d> <o:%06d> .\n" % (it, predicates[(it + more) % strings], objects[(it + 5 * more) % strings])
        for it in range(strings) for more in range(3))


def of_shared_strings(strings: int) -> bytes:
    """A text of more than a window, whose subjects are objects, too; some objects are no subjects."""
    far = shuffled(strings)
    links = {(it, far[(it + more) % strings]) for it in range(strings) for more in range(-(-LINKS // strings))}
    return sorted_text([*(b"<a:%06d> <u:p> <a:%06d> .\n" % link for link in links),
                        *(b"<a:%06d> <u:q> <b:%06d> .\n" % (it, far[it] // 7) for it in range(strings))])


TEXTS: dict[str, Callable[[], bytes]] = {
    "65,536 strings a role": lambda: of_three_roles(MARKED),
    "65,537 strings a role": lambda: of_three_roles(MARKED + 1),
    "few shared strings": lambda: of_shared_strings(10_000),
    "many shared strings": lambda: of_shared_strings(80_000),
}


@pytest.mark.parametrize("name", TEXTS)
def test_terms_of_two_windows(name: str, folder: Path) -> None:
    """Terms come again in a later window, and in any order."""
    file = built(folder / "terms.hdt", TEXTS[name]())
    assert file.text.count(b"\n") > WINDOW
    for words in searches(file.path, [["?", "?", "?"]]):
        check(file.text, *words)


# ---- strings that are not terms

SUBJECTS, COMMON = 300, 1_000
# The subjects of the first, the second and the last window.
FIRST, SECOND, LAST = 0, 150, SUBJECTS - 1


def rows_of(subject: int) -> list[bytes]:
    """The lines of a subject: of objects that all subjects have, and one with a predicate and an object of its own."""
    common = [b"<s%03d:x> <p:x> <o%04d:x> .\n" % (subject, number) for number in range(COMMON)]
    return [*common, b"<s%03d:x> <q%03d:x> <r%03d:x> .\n" % (subject, subject, subject)]


@pytest.fixture(scope="module")
def grid(folder: Path) -> Made:
    """A file with blocks of one string, of three windows of triples and few strings."""
    return built(folder / "grid.hdt", b"".join(line for it in range(SUBJECTS) for line in rows_of(it)), 1)


# The packed bytes of the sections of subjects, predicates and objects.
SECTIONS = [
    b"".join(b"s%03d:x\0" % it for it in range(SUBJECTS)),
    b"p:x\0" + b"".join(b"q%03d:x\0" % it for it in range(SUBJECTS)),
    b"".join([*(b"o%04d:x\0" % it for it in range(COMMON)), *(b"r%03d:x\0" % it for it in range(SUBJECTS))]),
]


class Wrong(NamedTuple):
    """Strings of a grid that are no terms: what the error says, and how many lines come before."""

    strings: list[bytes]
    error: str
    before: int


def before(subject: int) -> int:
    """How many triples come before the last one of a subject."""
    return subject * (COMMON + 1) + COMMON


WRONG = {
    "a subject of the first window": Wrong([b"s000"], "subject 1", 0),
    "a subject of the second window": Wrong([b"s150"], "subject 151", before(SECOND) - COMMON),
    "a subject of the last window": Wrong([b"s299"], "subject 300", before(LAST) - COMMON),
    "a predicate of the first window": Wrong([b"q000"], "predicate 2", before(FIRST)),
    "a predicate of the second window": Wrong([b"q150"], "predicate 152", before(SECOND)),
    "a predicate of the last triple": Wrong([b"q299"], "predicate 301", before(LAST)),
    "an object of all windows": Wrong([b"o0999"], "object 1000", COMMON - 1),
    "an object of the second window": Wrong([b"r150"], "object 1151", before(SECOND)),
    "an object of the last triple": Wrong([b"r299"], "object 1300", before(LAST)),
    "a later predicate, and a subject": Wrong([b"q299", b"s200"], "subject 201", before(200) - COMMON),
    "a later subject, and an object": Wrong([b"s299", b"r150"], "object 1151", before(SECOND)),
    "an object and a predicate of one triple": Wrong([b"r299", b"q299"], "predicate 301", before(LAST)),
}


def with_wrong(grid: Made, strings: Sequence[bytes], path: Path) -> None:
    """Write a grid in which these strings have no colon."""
    data = grid.path.read_bytes()
    for section in SECTIONS:
        changes = [(it + b":x", it + b";x") for it in strings if it + b":x\0" in section]
        data = replaced(data, section, changes)
    path.write_bytes(data)


@pytest.mark.parametrize("name", WRONG)
def test_strings_that_are_not_terms(name: str, grid: Made, tmp_path: Path) -> None:
    """The first one is reported, and nothing is printed, unless it is behind the limit."""
    strings, error, before_it = WRONG[name]
    path = tmp_path / "wrong.hdt"
    with_wrong(grid, strings, path)
    refused = failed(1, f"{error} is not a term")
    for words in searches(path, [["?", "?", "?"]]):
        assert brief(hdt(*words)) == brief(refused)
    lines = grid.text.splitlines(keepends=True)
    find: list[Word] = ["find", path, "?", "?", "?", "--most"]
    assert brief(hdt(*find, str(before_it))) == brief(done(b"".join(lines[:before_it])))
    assert brief(hdt(*find, str(before_it + 1))) == brief(refused)


@pytest.mark.parametrize("name", WRONG)
def test_skipped_triples(name: str, grid: Made, tmp_path: Path) -> None:
    """`--skip-non-terms` prints the other lines, and counts those of all windows, or those before the last line."""
    path = tmp_path / "wrong.hdt"
    with_wrong(grid, WRONG[name].strings, path)
    lines = grid.text.splitlines(keepends=True)
    faulty = [any(it + b":x>" in line for it in WRONG[name].strings) for line in lines]
    kept = [line for line, wrong in zip(lines, faulty) if not wrong]
    for words in searches(path, [["?", "?", "?"]]):
        result = hdt(*words, "--skip-non-terms")
        assert brief(result) == brief(skipping(kept, sum(faulty)))
    for most in (1, COMMON, WINDOW, WINDOW + 1, len(kept) - 1, len(kept)):
        last = [it for it, wrong in enumerate(faulty) if not wrong][most - 1]
        result = hdt("find", path, "?", "?", "?", "--skip-non-terms", "--most", str(most))
        assert brief(result) == brief(skipping(kept[:most], sum(faulty[:last])))


def skipping(lines: Sequence[bytes], skipped: int) -> Result:
    """The output of a command that prints these lines and skips so many."""
    if not skipped:
        return done(b"".join(lines))
    return Result(1, b"".join(lines), b"hdt: triples skipped: %d\n" % skipped)


def test_strings_that_are_not_terms_of_other_triples(grid: Made, tmp_path: Path) -> None:
    """Strings that are not terms are no error in a search of more than a window that has none of them."""
    path = tmp_path / "wrong.hdt"
    with_wrong(grid, [b"q000", b"r150", b"q299"], path)
    text = b"".join(line for line in grid.text.splitlines(keepends=True) if b"<p:x>" in line)
    check(text, "find", path, "?", "<p:x>", "?")


# ---- long strings


@pytest.mark.parametrize("in_order", [True, False], ids=["in order", "shuffled"])
def test_windows_that_are_halved(in_order: bool, tmp_path: Path) -> None:
    """3,000 objects of 90 kB that share a prefix: a text of 270 MB in memory for the file and a few windows."""
    it, path = Prefixed.of(90_000, 3_000, in_order), tmp_path / "long.hdt"
    path.write_bytes(it.data)
    assert path.stat().st_size < 200_000
    assert differs([PROGRAM, "dump", path], it.lines()) is None
    command: list[Word] = [PROGRAM, "find", path, "?", "<u:p>", "?"]
    assert differs(command, it.lines()) is None
    taken = used(command)
    assert (taken.status, taken.err) == (0, b"")
    assert taken.memory <= path.stat().st_size + ROOM


# The length of an object of which not even one fits into a window, and of some of which few do.
HUGE, LARGE = 34_000_000, 400_000


def test_long_strings_among_short_ones(tmp_path: Path) -> None:
    """Windows are halved where strings are long, down to one triple, and grow again after them."""
    lengths = dict.fromkeys(range(70_000, 70_060), LARGE)
    lengths.update({0: HUGE, 70_030: HUGE, 139_999: HUGE})
    lines = (b'<u:s%06d> <u:p> "%s%06d" .\n' % (it, b"x" * lengths.get(it, 0), it) for it in range(140_000))
    file = built(tmp_path / "mixed.hdt", b"".join(lines))
    for words in searches(file.path, [["?", "<u:p>", "?"]]):
        check(file.text, *words)


def test_short_texts(tmp_path: Path) -> None:
    """A text of about 16 MB is printed the same way where it is made in memory and where it is not."""
    line = b'<u:s%06d> <u:p> "' + b"x" * 1_000 + b'" .\n'
    size = len(line % 0)
    for count in (SHORT // size - 1, SHORT // size, SHORT // size + 1, SHORT // size + 2, SHORT // size + 3):
        file = built(tmp_path / "short.hdt", b"".join(line % it for it in range(count)))
        check(file.text, "dump", file.path)


# ---- memory, and output that ends

GRID = 256, 4_000
PREFIX = b"http://example.org/resources/of/a/graph/whose/lines/are/longer/than/those/of/most/graphs/"


def wide_lines(prefix: bytes, subjects: int, objects: int) -> Iterator[bytes]:
    """The text of each subject of a grid."""
    rows = b"".join(b"<@> <u:p> <%s%07d> .\n" % (prefix, it) for it in range(objects))
    for it in range(subjects):
        yield rows.replace(b"@", b"u:%07d" % it)


def wide_data(prefix: bytes, subjects: int, objects: int) -> bytes:
    """A file of so many subjects, each with the same objects, which have a prefix."""
    sections: list[list[bytes]] = [
        [], [b"u:%07d" % it for it in range(subjects)], [b"u:p"], [b"%s%07d" % (prefix, it) for it in range(objects)]]
    return whole([reference.write_section(it) for it in sections], grid_triples(subjects, objects))


def test_a_million_triples(tmp_path: Path) -> None:
    """The text of eight windows, of 118 MB, and its numbers, in memory for the file and one of them."""
    path = tmp_path / "wide.hdt"
    path.write_bytes(wide_data(PREFIX, *GRID))
    commands: list[list[Word]] = [[PROGRAM, "dump", path], [PROGRAM, "dump", path, "--skip-non-terms"]]
    for command in commands:
        assert differs(command, wide_lines(PREFIX, *GRID)) is None
    commands.append([PROGRAM, "find", path, "?", "?", "?", "--numbers"])
    for command in commands:
        taken = used(command)
        assert (taken.status, taken.err) == (0, b"")
        assert taken.memory <= path.stat().st_size + ROOM


def test_reader_that_goes_away(tmp_path: Path) -> None:
    """A reader that goes away in the first line ends the program, in a small part of the time of a text of 1.6 GB."""
    prefix, path = b"u:" + b"x" * 2_000, tmp_path / "wide.hdt"
    path.write_bytes(wide_data(prefix, 2_048, 400))
    begin = next(wide_lines(prefix, 1, 400))[:2_000]
    seconds = []
    for _ in range(3):
        result, taken = closed_after(len(begin), "dump", path)
        assert brief(result) == brief(Result(3, begin, WRITING_FAILED.err))
        seconds.append(taken)
    assert min(seconds) < used([PROGRAM, "dump", path]).seconds / 2


ENDS = [0, 1, PIECE - 1, PIECE, PIECE + 1, 1_000_000]


@pytest.mark.parametrize("words", [["dump"], ["find", "?", "<p:x>", "?"], ["find", "s0", "?", "?"],
                                   ["dump", "--skip-non-terms"], ["find", "?", "?", "?", "--numbers"],
                                   ["find", "?", "?", "?", "--count"]],
                         ids=["dump", "find of many", "find of one subject", "skipping", "numbers", "count"])
def test_full_devices(words: list[str], grid: Made) -> None:
    """A device that is full after some bytes has a beginning of the text: of one and of many windows."""
    given = ["<s000:x>" if word == "s0" else word for word in words[1:]]
    command: list[Word] = [words[0], grid.path, *given]
    text = hdt(*command).out
    for size in [*(it for it in ENDS if it < len(text)), len(text) - PIECE, len(text) - 1]:
        if 0 <= size < len(text):
            assert brief(cut_off(size, *command)) == brief(Result(3, text[:size], WRITING_FAILED.err))
    assert brief(cut_off(len(text), *command)) == brief(done(text))


# ---- memory that is refused

REFUSED: dict[str, Callable[[], Iterator[bytes]]] = {
    "many lines": lambda: (b'<u:s> <u:p> "%06d" .\n' % it for it in range(WINDOW + 100)),
    "long strings": lambda: (b'<u:s> <u:p> "%02d%s" .\n' % (it, b"x" * LARGE) for it in range(90)),
}


@pytest.mark.parametrize("options", [["dump"], ["dump", "--skip-non-terms"], ["find", "?", "?", "?", "--numbers"]],
                         ids=["dump", "skipping", "numbers"])
@pytest.mark.parametrize("name", REFUSED)
def test_refused_allocations(name: str, options: list[str], folder: Path, tmp_path: Path) -> None:
    """With each allocation refused in turn, what is printed is a beginning of the text of a few windows."""
    file = built(folder / "refused.hdt", b"".join(REFUSED[name]()))
    count = file.text.count(b"\n")
    text = b"".join(b"1 1 %d\n" % (it + 1) for it in range(count)) if "--numbers" in options else file.text
    ample, ends = Refuser(tmp_path).run_long([PROGRAM, options[0], file.path, *options[1:]])
    assert brief(ample) == brief(done(text))
    for it in ends:
        assert (it.status, it.err) == (OUT_OF_MEMORY.status, OUT_OF_MEMORY.err)
        assert text.startswith(it.out, it.printed)
    printed = {it.printed for it in ends}
    assert min(printed) == 0
    assert max(printed) > 0 or "--numbers" in options


# ---- time

SCALES = 1, 16
# Sixteen times the size may take so many times as long, where the smaller file takes this many seconds at least.
RATIO, FLOOR = 32, 0.004
# The lengths of the common prefix of all objects, and how many of these there are at the smaller scale.
FAMILIES = {"long prefixes": (20_000, 500), "huge blocks": (1_000, 4_000)}


@pytest.mark.parametrize("in_order", [True, False], ids=["in order", "shuffled"])
@pytest.mark.parametrize("name", FAMILIES)
def test_time_is_linear(name: str, in_order: bool, tmp_path: Path) -> None:
    """Objects in one block that share a prefix are printed in time linear in the file and the text, in any order."""
    length, count = FAMILIES[name]
    for scale in SCALES:
        (tmp_path / f"{scale}.hdt").write_bytes(Prefixed.of(length, count * scale, in_order).data)

    def seconds(scale: int) -> float:
        taken = used([PROGRAM, "dump", tmp_path / f"{scale}.hdt"])
        assert (taken.status, taken.err) == (0, b"")
        assert taken.memory <= (tmp_path / f"{scale}.hdt").stat().st_size + ROOM
        return taken.seconds

    small, large = SCALES
    measured = measure(lambda: seconds(small), lambda: seconds(large), RATIO, FLOOR)
    assert is_linear(measured, RATIO, FLOOR), measured
