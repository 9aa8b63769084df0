"""Bitmap triples: reading them, the eight patterns by three types, counts, what is used, and writing them."""

from __future__ import annotations

from collections.abc import Iterable, Sequence
from itertools import product
from typing import NamedTuple, Optional

import pytest
from hypothesis import example, given
from hypothesis import strategies as st

from reference import checks, hdt as model
from reference.hdt import MAX, Pattern, Triple
from support.probe import Answer, Probe, fault, ok
from support.properties import examples

Counts = tuple[int, int, int]

# The three types: the triples alone, with directories, and also with lists.
FIND = "find", "indexed_find", "listed_find"
MATCHING = "matching", "indexed_matching", "listed_matching"
UP_TO = "matching_up_to", "listed_matching_up_to"
ROLES = model.ROLES

ANY: Pattern = (None, None, None)
ORDER = model.write_control(model.TRIPLES, b"order=1;")


def read_up_to(end: int, count: int) -> Answer:
    """The answer that so many triples are read, up to this offset: their count, and that of a copy."""
    return ok(count, end, count)


def flat(triples: Iterable[Triple]) -> list[int]:
    """The IDs of triples, one after another."""
    return [n for triple in triples for n in triple]


def pattern_of(*numbers: int) -> Pattern:
    """The pattern of three numbers, of which 0 is any."""
    s, p, o = (n or None for n in numbers)
    return s, p, o


def parts_of(patterns: Iterable[Pattern]) -> list[Optional[int]]:
    """Patterns as arguments of a request: IDs, of which None is any."""
    return [n for pattern in patterns for n in pattern]


def items_of(ids: Sequence[Triple]) -> Answer:
    """The matches of a pattern as they are answered: their count, and their IDs."""
    return tuple(map(str, (len(ids), *flat(ids))))


def split_by_pattern(answer: Answer) -> list[Answer]:
    """What is answered for each pattern: the count, the IDs, and `again` if a match comes behind the end."""
    assert answer[0] == "ok", answer
    parts, at = [], 1
    while at < len(answer):
        end = at + 1 + 3 * int(answer[at])
        end += answer[end:end + 1] == ("again",)
        parts.append(answer[at:end])
        at = end
    return parts


def assert_finds(probe: Probe, data: bytes, at: int, counts: Counts, ids: Sequence[Triple],
                 patterns: Iterable[Pattern]) -> None:
    """All three types find and count, for each pattern, the triples that match."""
    asked = list(patterns)
    expected = model.matches_of(ids, asked)
    probe.send(("file", data))
    for word in FIND:
        seen = split_by_pattern(probe.ask(word, at, *counts, *parts_of(asked)))
        assert list(zip(asked, seen)) == [(pattern, items_of(expected[pattern])) for pattern in asked], word
    for word in MATCHING:
        answer = probe.ask(word, at, *counts, *parts_of(asked))
        assert answer == ok(*(len(expected[pattern]) for pattern in asked)), word
    for word, most in product(UP_TO, (0, 1, 2, MAX)):
        answer = probe.ask(word, at, *counts, most, *parts_of(asked))
        assert answer == ok(*(min(most, len(expected[pattern])) for pattern in asked)), (word, most)


# Reading

class Sequences(NamedTuple):
    """The four sequences of triples, and the count of strings in each role."""

    bits_y: Sequence[int]
    bits_z: Sequence[int]
    numbers_y: Sequence[int]
    numbers_z: Sequence[int]
    counts: Counts

    def written(self, padding: int = 0) -> bytes:
        """The triples' bytes, with this padding behind the bits."""
        return (ORDER + model.write_bits(self.bits_y, padding) + model.write_bits(self.bits_z, padding)
                + model.write_numbers(self.numbers_y) + model.write_numbers(self.numbers_z))


THREE = Sequences([0, 1, 1], [1, 1, 1], [1, 2, 1], [2, 3, 1], (2, 2, 3))
THREE_IDS = [(1, 1, 2), (1, 2, 3), (2, 1, 1)]
ONE = Sequences([1], [1], [1], [1], (1, 1, 1))


def test_three_triples(probe: Probe) -> None:
    """Three triples are read up to the byte behind them, by their indexes."""
    data = THREE.written() + b"U"
    assert probe.on(data, "triples", 0, *THREE.counts) == read_up_to(len(data) - 1, 3)
    assert probe.ask("triple", 0, *THREE.counts, 0, 1, 2) == ok(*flat(THREE_IDS))
    assert probe.ask("triple", 0, *THREE.counts, 3) == ("refused",)


# Sequences of which one check fails, or two, with the reason and the offset of the first. Each sequence has one byte of
# data. Counts are at 57 and 65 in the bitmaps, 74 and 83 in the numbers; data are at 59, 67, 76 and 85.
REFUSED = {
    "count-of-pairs": (Sequences([1], [1], [1, 1], [1], (1, 1, 1)), "LengthsDiffer", 74),
    "count-of-triples": (Sequences([1], [1], [1], [1, 2], (1, 1, 2)), "LengthsDiffer", 83),
    "both-counts": (Sequences([1], [1], [1, 1], [1, 2], (1, 1, 2)), "LengthsDiffer", 74),
    "last-pair-unmarked": (Sequences([0], [1], [1], [1], (1, 1, 1)), "LastMark", 59),
    "last-triple-unmarked": (Sequences([1], [0], [1], [1], (1, 1, 1)), "LastMark", 67),
    "fewer-marks-than-pairs": (Sequences([0, 1], [0, 1], [1, 2], [1, 2], (1, 2, 2)), "MarkCount", 65),
    "more-marks-than-pairs": (Sequences([1], [1, 1], [1], [1, 1], (1, 1, 1)), "MarkCount", 65),
    "subject-past-the-count": (Sequences([1, 1], [1, 1], [1, 1], [1, 1], (1, 1, 1)), "SubjectRange", 59),
    "subject-past-the-count-predicate-0": (Sequences([1, 1], [1, 1], [1, 0], [1, 1], (1, 1, 1)), "SubjectRange", 59),
    "predicate-0": (Sequences([1], [1], [0], [1], (1, 1, 1)), "PredicateRange", 76),
    "predicate-past-the-count": (Sequences([1], [1], [2], [1], (1, 1, 1)), "PredicateRange", 76),
    "predicate-0-behind-another": (Sequences([0, 1], [1, 1], [1, 0], [1, 1], (1, 1, 1)), "PredicateRange", 76),
    "predicate-equal": (Sequences([0, 1], [1, 1], [1, 1], [1, 2], (1, 1, 2)), "PredicatesNotAscending", 76),
    "predicate-smaller": (Sequences([0, 1], [1, 1], [2, 1], [1, 1], (1, 2, 1)), "PredicatesNotAscending", 76),
    "object-0": (Sequences([1], [1], [1], [0], (1, 1, 1)), "ObjectRange", 85),
    "object-past-the-count": (Sequences([1], [1], [1], [2], (1, 1, 1)), "ObjectRange", 85),
    "object-equal": (Sequences([1], [0, 1], [1], [1, 1], (1, 1, 1)), "ObjectsNotAscending", 85),
    "object-smaller": (Sequences([1], [0, 1], [1], [2, 1], (1, 1, 2)), "ObjectsNotAscending", 85),
    "predicate-and-object-past-the-count": (Sequences([1], [1], [2], [2], (1, 1, 1)), "PredicateRange", 76),
}


@pytest.mark.parametrize("sequences, reason, offset", REFUSED.values(), ids=REFUSED)
def test_refused(probe: Probe, sequences: Sequences, reason: str, offset: int) -> None:
    """The first check that fails is reported, at its byte offset."""
    error = fault(model.Reason[reason], offset)
    assert probe.on(sequences.written() + b"U", "triples", 0, *sequences.counts) == error


@pytest.mark.parametrize("properties", [b"", b"order=2;", b"order=1;order=01"])
def test_another_order(probe: Probe, properties: bytes) -> None:
    """The last property `order` has to be 1."""
    data = model.write_control(model.TRIPLES, properties) + THREE.written()[len(ORDER):]
    assert probe.on(data, "triples", 0, *THREE.counts) == fault(model.Reason.TripleOrder, 45)


@pytest.mark.parametrize("sequences", [
    pytest.param(Sequences([1, 1], [1, 1], [2, 1], [2, 1], (2, 2, 2)), id="smaller-predicate-of-the-next-subject"),
    pytest.param(Sequences([0, 1], [0, 1, 1], [1, 2], [1, 2, 1], (1, 2, 2)), id="smaller-object-of-the-next-pair"),
    pytest.param(Sequences([1], [1], [1], [1], (9, 9, 9)), id="more-strings-than-are-used")])
def test_accepted(probe: Probe, sequences: Sequences) -> None:
    """A predicate and an object may be smaller in the next group; strings may be unused; the last `order` counts."""
    data = model.write_control(model.TRIPLES, b"order=2;order=1") + sequences.written()[len(ORDER):] + b"U"
    assert probe.on(data, "triples", 0, *sequences.counts) == read_up_to(
        len(data) - 1, len(sequences.numbers_z))


def error_of(data: bytes, counts: Counts) -> Answer:
    """The error of triples by the reference."""
    with pytest.raises(model.Error) as raised:
        model.read_triples(data, 0, counts)
    return raised.value.answer


def test_many_triples(probe: Probe) -> None:
    """100 subjects, each with 10 predicates, each with 100 objects; and counts of which one is too small by one."""
    ids = list(product(range(1, 101), range(1, 11), range(1, 101)))
    data = model.write_triples(ids)
    assert probe.on(data, "triples", 0, 100, 10, 100) == read_up_to(len(data), 100_000)
    rows = [0, 99, 100, 54_321, 99_999]
    assert probe.ask("triple", 0, 100, 10, 100, *rows) == ok(*flat(ids[j] for j in rows))
    small = [(99, 10, 100), (100, 9, 100), (100, 10, 99)]
    expected = [error_of(data, counts) for counts in small]
    assert probe.send(*(("triples", 0, *counts) for counts in small)) == expected
    assert [answer[2] for answer in expected] == ["SubjectRange", "PredicateRange", "ObjectRange"]


# Searching and counting

ROWS: dict[Pattern, list[Triple]] = {
    (None, None, None): [(1, 1, 2), (1, 2, 3), (2, 1, 1)],
    (1, None, None): [(1, 1, 2), (1, 2, 3)],
    (None, 1, None): [(1, 1, 2), (2, 1, 1)],
    (None, None, 1): [(2, 1, 1)],
    (1, 2, None): [(1, 2, 3)],
    (1, None, 2): [(1, 1, 2)],
    (None, 1, 1): [(2, 1, 1)],
    (2, 1, 1): [(2, 1, 1)],
    (None, 1, 3): [],
    (9, None, None): [],
}


@pytest.mark.parametrize("padding", [0, -1])
def test_patterns_of_three_triples(probe: Probe, padding: int) -> None:
    """Patterns and their matches among three triples, by all three types; the bits behind the last may be ones."""
    assert {pattern: model.matches(THREE_IDS, pattern) for pattern in ROWS} == ROWS
    assert_finds(probe, THREE.written(padding), 0, THREE.counts, THREE_IDS, ROWS)


TWO_PAIRS = Sequences([1, 1], [0] * 512 + [1, 1], [1, 1], [*range(1, 514), 1], (2, 1, 513))
TWO_PAIRS_IDS = [*((1, 1, o) for o in range(1, 514)), (2, 1, 1)]

# Patterns, some of them found before the border of a group of 512 bits, some behind it; and the count of matches.
PAST_A_GROUP = {
    (None, None, None): 514,
    (1, None, None): 513, (2, None, None): 1, (3, None, None): 0,
    (None, 1, None): 514, (None, 2, None): 0,
    (None, None, 1): 2, (None, None, 513): 1, (None, None, 514): 0,
    (None, 1, 1): 2,
    (1, None, 513): 1,
    (1, 1, None): 513, (2, 1, None): 1, (3, 1, None): 0,
    (1, 1, 513): 1, (2, 1, 513): 0,
}


@pytest.mark.parametrize("padding", [0, -1])
def test_patterns_past_a_group(probe: Probe, padding: int) -> None:
    """514 triples, whose bitmap is longer than a group of the directory."""
    assert {pattern: len(model.matches(TWO_PAIRS_IDS, pattern)) for pattern in PAST_A_GROUP} == PAST_A_GROUP
    assert_finds(probe, TWO_PAIRS.written(padding), 0, TWO_PAIRS.counts, TWO_PAIRS_IDS, PAST_A_GROUP)


def test_end_of_the_matches(probe: Probe) -> None:
    """Behind the last match comes none, also where matches are empty: else `again` would be answered."""
    data = model.write_triples([(1, 1, 2), (1, 2, 3)])
    answers = {word: probe.on(data, word, 0, 3, 3, 3, 1, 2, None) for word in FIND}
    assert answers == {word: ok(1, 1, 2, 3) for word in FIND}
    assert probe.ask("empty_matches") == ok(0)


def held(sequences: Sequences) -> tuple[int, int]:
    """How many numbers triples keep by directories, and how many with lists.

    A directory has a number for each group of 512 bits, and one more. The lists have one for each pair, triple,
    predicate and object, and two more.
    """
    pairs, triples = len(sequences.bits_y), len(sequences.bits_z)
    _, predicates, objects = sequences.counts
    directories = -(-pairs // 512) + 1 + -(-triples // 512) + 1
    return directories, directories + pairs + triples + predicates + objects + 2


@pytest.mark.parametrize("sequences, numbers", [
    pytest.param(THREE, (4, 17), id="three"),
    pytest.param(ONE, (4, 10), id="one"),
    pytest.param(TWO_PAIRS, (5, 1037), id="two-groups")])
def test_numbers_held(probe: Probe, sequences: Sequences, numbers: tuple[int, int]) -> None:
    """How many numbers the directories keep, and how many with the lists."""
    assert held(sequences) == numbers
    probe.send(("file", sequences.written()))
    words = "indexed_held", "listed_held"
    assert probe.send(*((word, 0, *sequences.counts) for word in words)) == [ok(n) for n in numbers]


def test_handed_back(probe: Probe) -> None:
    """With memory enough nothing is handed back, and the directories below the lists answer."""
    probe.send(("file", THREE.written()))
    answers = probe.send(*(("handed_back", 0, *THREE.counts, *pattern) for pattern in ROWS))
    assert dict(zip(ROWS, answers)) == {pattern: ok("listed", 3, *flat(rows)) for pattern, rows in ROWS.items()}


def some_of(subjects: int, predicates: int, objects: int) -> list[Triple]:
    """About every other one of these triples."""
    ids = product(range(1, subjects + 1), range(1, predicates + 1), range(1, objects + 1))
    return [triple for count, triple in enumerate(ids, 1) if count % 7 % 2 == 1]


GIVEN: list[Optional[int]] = [None, 0, 1, 3, 5, 6, MAX]


@pytest.mark.parametrize("ids, counts", [
    pytest.param(some_of(4, 3, 5), (5, 5, 5), id="some-of-60"),
    pytest.param(THREE_IDS, (3, 3, 3), id="three"),
    pytest.param(some_of(5, 3, 6), (5, 3, 6), id="some-of-90"),
    pytest.param(some_of(5, 3, 6), (9, 9, 9), id="some-of-90-among-more-strings"),
    pytest.param([(1, 1, 1)], (1, 1, 1), id="one")])
def test_every_pattern(probe: Probe, ids: list[Triple], counts: Counts) -> None:
    """Each of 343 patterns: nothing given, 0, IDs that are there and that aren't, and the last of all numbers."""
    assert_finds(probe, model.write_triples(ids), 0, counts, ids, product(GIVEN, GIVEN, GIVEN))


def test_patterns_that_occur(probe: Probe) -> None:
    """Nearly 5,000 triples, each by every pattern that gives its subject; and pairs of a predicate and an object."""
    ids = sorted({(s, p, max(1, 10 * step + s % 10 + p % 3)) for s in range(1, 126) for p in (1, 2, 3, 5, 6, 7, 9, 10)
                  for step in range(5) if 10 * step + s % 10 + p % 3 != 25})
    assert 4_500 < len(ids) < 5_000
    by_subject = {pattern for triple in ids for pattern in model.patterns(triple) if pattern[0]}
    others = [pattern_of(0, p, o) for p, o in product(range(12), range(57))]
    assert_finds(probe, model.write_triples(ids), 0, (125, 10, 55), ids, [*by_subject, *others])


def test_search_among_many(probe: Probe) -> None:
    """2,000 subjects, each with 5 predicates, each with 12 objects."""
    ids = [(s, p, o * (s % 5 + 1)) for s in range(1, 2_001) for p in range(1, 6) for o in range(1, 13)]
    expected = {ANY: 120_000, (None, 3, None): 24_000, (2_000, 5, 12): 1}
    assert {pattern: len(model.matches(ids, pattern)) for pattern in expected} == expected
    assert_finds(probe, model.write_triples(ids), 0, (2_000, 2_000, 2_000), ids, expected)


# Counts among 210,000 triples: of subject 1 predicate 1 and each object; of subject 2 each predicate and object 7; of
# each subject behind them predicate 2 and object 5. Each kind of count is greater than 16 bits hold.
AMONG_MANY = {
    (0, 0, 0): 210_000,
    (1, 0, 0): 70_000, (2, 0, 0): 70_000, (3, 0, 0): 1, (70_002, 0, 0): 1, (70_003, 0, 0): 0,
    (0, 1, 0): 70_001, (0, 2, 0): 70_001, (0, 3, 0): 1, (0, 70_000, 0): 1, (0, 70_001, 0): 0,
    (0, 0, 5): 70_001, (0, 0, 7): 70_001, (0, 0, 70_000): 1, (0, 0, 70_001): 0,
    (1, 1, 0): 70_000, (2, 1, 0): 1, (1, 2, 0): 0, (70_002, 2, 0): 1,
    (1, 0, 5): 1, (2, 0, 7): 70_000, (3, 0, 7): 0,
    (0, 2, 5): 70_000, (0, 1, 7): 2, (0, 3, 5): 0,
    (1, 1, 70_000): 1, (2, 70_000, 7): 1, (70_002, 2, 7): 0,
}


def test_counts_among_many(probe: Probe) -> None:
    """All three types count the matches among 210,000 triples, also up to a limit."""
    ids = [(1, 1, n) for n in range(1, 70_001)]
    ids += [(2, n, 7) for n in range(1, 70_001)]
    ids += [(n, 2, 5) for n in range(3, 70_003)]
    probe.send(("file", model.write_triples(ids)))
    patterns = parts_of(pattern_of(*pattern) for pattern in AMONG_MANY)
    for word in MATCHING:
        answer = probe.ask(word, 0, 70_002, 70_000, 70_000, *patterns)
        assert list(zip(AMONG_MANY, answer[1:])) == [(pattern, str(n)) for pattern, n in AMONG_MANY.items()], word
    for word, most in product(UP_TO, (0, 1, 65_536, 70_000, 70_001, MAX)):
        answer = probe.ask(word, 0, 70_002, 70_000, 70_000, most, *patterns)
        wanted = [(pattern, str(min(most, n))) for pattern, n in AMONG_MANY.items()]
        assert list(zip(AMONG_MANY, answer[1:])) == wanted, (word, most)


@pytest.mark.parametrize("step", [1, 2, 3, 7, 45, 100, 1_000, 99_999])
def test_subject_with_an_object_among_many(step: int, probe: Probe) -> None:
    """Every so many of a subject's 100,000 pairs has object 2, and so have the subjects before and behind; in order."""
    ids = [(1, p, 2) for p in range(1, 51)]
    ids += [(2, p, 2 if p % step == 0 else 1) for p in range(1, 100_001)]
    ids += [(3, p, 2) for p in range(1, 101)] + [(4, 1, 1), (5, 1, 3)]
    patterns: list[Pattern] = [(s, None, o) for s in range(7) for o in range(5)]
    assert len(model.matches(ids, (2, None, 2))) == 100_000 // step
    assert_finds(probe, model.write_triples(ids), 0, (5, 100_000, 4), ids, patterns)


def test_finds_by_the_shorter_list(probe: Probe) -> None:
    """A predicate with an object is found by the pairs of the one and by the triples of the other, in order.

    Predicate 1 has 10 pairs, of which 5 have object 1, and predicates 2 and 3 have one for each of 50,000 subjects, all
    with object 1.
    """
    ids = [(s, p, 1) for s in range(1, 50_001) for p in (2, 3)]
    ids += [(s, 1, o) for s in range(5_000, 50_001, 5_000) for o in ([2, 3] if s % 10_000 else [1])]
    ids.sort()
    patterns: list[Pattern] = [(None, 1, 1), (None, 1, 2), (None, 1, 3), (None, 2, 1), (None, 2, 2), (None, 4, 1),
                               (None, 1, 4), (5_000, None, 2), (10_000, None, 1), (10_000, None, 3)]
    assert [len(model.matches(ids, pattern)) for pattern in patterns] == [5, 5, 5, 50_000, 0, 0, 0, 1, 3, 0]
    assert_finds(probe, model.write_triples(ids), 0, (50_000, 4, 4), ids, patterns)


def test_more_than_a_million_pairs(probe: Probe) -> None:
    """1,100,000 subjects, each with predicate 1 and object 1: directories and lists past 2^20 pairs and triples."""
    n = 1_100_000
    ones = b"\xff" * (n // 8)
    preamble = b"\x01" + model.write_vbyte(n)
    bits = preamble + model.write_crc8(preamble) + ones + model.write_crc32(ones)
    # Bytes behind the triples, since no role has more strings than the input has bytes.
    probe.send(("file", ORDER + bits + bits + 2 * model.write_numbers_data(ones, 1, n) + bytes(n)))
    expected: dict[Pattern, list[Triple]] = {
        (1, None, None): [(1, 1, 1)], (n, None, None): [(n, 1, 1)],
        (n, 1, None): [(n, 1, 1)], (n, None, 1): [(n, 1, 1)],
        (1 << 20, 1, 1): [(1 << 20, 1, 1)], (n + 1, None, None): [], (n, 2, None): [], (None, 2, None): [],
        (None, None, 2): []}
    for word in FIND:
        seen = split_by_pattern(probe.ask(word, 0, n, 2, 2, *parts_of(expected)))
        assert list(zip(expected, seen)) == [(pattern, items_of(ids)) for pattern, ids in expected.items()], word
    counted: dict[Pattern, int] = {ANY: n, (None, 1, None): n, (None, None, 1): n, (None, 1, 1): n, (n, None, None): 1}
    for word in MATCHING:
        assert probe.ask(word, 0, n, 2, 2, *parts_of(counted)) == ok(*counted.values()), word
    assert probe.ask("handed_back", 0, n, 2, 2, n, None, None) == ok("listed", n, n, 1, 1)


# What is used

USED = {
    0: {0: False, 1: True, 2: True, 3: False, MAX: False},
    1: {0: False, 1: True, 2: True, 3: False, MAX: False},
    2: {0: False, 1: True, 2: True, 3: True, 4: False, MAX: False},
}


def uses(probe: Probe, data: bytes, at: int, counts: Counts,
         asked: list[tuple[int, int]]) -> dict[tuple[int, int], bool]:
    """Which IDs, each with its role, triples use."""
    answer = probe.on(data, "uses", at, *counts, *(n for pair in asked for n in pair))
    assert answer[0] == "ok" and len(answer) == 1 + len(asked)
    return {pair: word == "true" for pair, word in zip(asked, answer[1:])}


@pytest.mark.parametrize("padding", [0, -1])
@pytest.mark.parametrize("counts", [THREE.counts, (9, 9, 9)])
def test_ids_that_three_triples_use(probe: Probe, padding: int, counts: Counts) -> None:
    """Which IDs occur in a role of three triples; the counts of strings may be larger."""
    asked = [(role, n) for role, row in USED.items() for n in row]
    assert uses(probe, THREE.written(padding), 0, counts, asked) == {(role, n): USED[role][n] for role, n in asked}


def test_ids_that_many_triples_use(probe: Probe) -> None:
    """5,000 triples that use 125 of 150 subjects, and of predicates and objects no multiple of ten."""
    no_tenths = [n for n in range(1, 1_000) if n % 10]
    ids = [(s, p, no_tenths[9 * ten + (s + p) % 9]) for s in range(1, 126) for p in
           [no_tenths[4 * step + s % 6] for step in range(4)] for ten in range(10)]
    assert len(ids) == 5_000
    occurring = [{triple[role] for triple in ids} for role in range(3)]
    assert [len(used) for used in occurring] == [125, 18, 90]
    asked = [(role, n) for role, last in enumerate((151, 21, 101)) for n in range(last + 1)]
    seen = uses(probe, model.write_triples(ids), 0, (150, 20, 100), asked)
    assert seen == {(role, n): n in occurring[role] for role, n in asked}


# Writing

BEFORE = b"\xff\x01\x80"


@pytest.mark.parametrize("ids, sequences", [
    pytest.param([(1, 1, 1)], "01819b0152d016a0 01819b0152d016a0 010181f00152d016a0 010181f00152d016a0", id="one"),
    pytest.param(THREE_IDS, "01839506b9b4dc74 01839507ba37b786 010283c119f24f913a 010283c11e192b5bee", id="three")])
def test_written_samples(probe: Probe, ids: list[Triple], sequences: str) -> None:
    """Triples are written as in sample files, behind what is there, and read again before another byte."""
    control = b"$HDT\x04<http://purl.org/HDT/hdt#triplesBitmap>\x00order=1;\x00\x59\xe9"
    data = BEFORE + control + bytes.fromhex(sequences)
    assert probe.ask("put_triples", BEFORE, *flat(ids)) == ok(data)
    assert probe.on(data + b"U", "triples", len(BEFORE), 3, 3, 3) == read_up_to(len(data), len(ids))
    assert probe.ask("find", len(BEFORE), 3, 3, 3, *ANY) == ("ok", *items_of(ids))


WIDE = [(1, 1, MAX), (1, MAX - 1, 1), (1, MAX, MAX - 1), (1, MAX, MAX), (2, 1, 1)]


def test_written_wide_numbers(probe: Probe) -> None:
    """IDs at both ends of what 64 bits hold, in sequences of width 64."""
    sequences = Sequences([0, 0, 1, 1], [1, 1, 0, 1, 1], [1, MAX - 1, MAX, 1], [MAX, 1, MAX - 1, MAX, 1], (0, 0, 0))
    assert probe.ask("are_writable", *flat(WIDE)) == ok(True)
    assert probe.ask("put_triples", BEFORE, *flat(WIDE)) == ok(BEFORE + sequences.written())


UNWRITABLE: dict[str, list[Triple]] = {
    "none": [],
    "subject-0": [(0, 1, 1)],
    "subject-2-first": [(2, 1, 1)],
    "gap": [(1, 1, 1), (3, 1, 1)],
    "predicate-0": [(1, 0, 1)],
    "object-0": [(1, 1, 0)],
    "object-0-later": [(1, 1, 1), (2, 1, 0)],
    "twice": [(1, 1, 1), (1, 1, 1)],
    "smaller-object": [(1, 1, 2), (1, 1, 1)],
    "smaller-predicate": [(1, 2, 1), (1, 1, 2)],
    "smaller-subject": [(1, 1, 1), (2, 1, 1), (1, 2, 1)],
    "smaller-object-at-the-end": [(1, 1, 1), (2, 1, 1), (3, 2, 2), (3, 2, 1)],
}


@pytest.mark.parametrize("ids", UNWRITABLE.values(), ids=UNWRITABLE)
def test_unwritable(probe: Probe, ids: list[Triple]) -> None:
    """A list that doesn't ascend, has a gap in its subjects or a 0 can't be written."""
    assert probe.ask("are_writable", *flat(ids)) == ok(False)
    assert probe.ask("put_triples", b"", *flat(ids)) == ("refused",)


@pytest.mark.parametrize("ids", [[(1, 1, 1)], THREE_IDS, WIDE], ids=["one", "three", "wide"])
def test_writable(probe: Probe, ids: list[Triple]) -> None:
    """Lists that can be written."""
    assert probe.ask("are_writable", *flat(ids)) == ok(True)


def assert_written(probe: Probe, before: bytes, ids: Sequence[Triple], counts: Counts) -> None:
    """A large list is written behind other bytes, and read again."""
    data = before + model.write_triples(ids)
    assert (probe.ask("put_triples", before, *flat(ids)) == ok(data)) is True, "other bytes than the reference writes"
    assert probe.on(data, "triples", len(before), *counts) == read_up_to(len(data), len(ids))
    found = probe.ask("find", len(before), *counts, *ANY)
    assert (found == ("ok", *items_of(ids))) is True, "other triples are read again"


def test_written_many(probe: Probe) -> None:
    """1,000 subjects with 1 to 11 predicates, each with 1 to 37 objects: more than 100,000 triples."""
    ids = [(s, p, o) for s in range(1, 1_001) for p in range(1, s % 11 + 2) for o in range(1, (s + p) % 37 + 2)]
    assert len(ids) > 100_000
    assert_written(probe, BEFORE, ids, (1_000, 1_000, 1_000))


def test_written_subject_by_subject(probe: Probe) -> None:
    """1,500 objects of the first pair, then 299,999 subjects of one triple, behind 100,000 bytes."""
    ids = [(1, 1, o) for o in range(1, 1_501)]
    ids += [(s, s % 7 + 1, s % 1_000 + 1) for s in range(2, 300_001)]
    assert_written(probe, b"U" * 100_000, ids, (300_000, 7, 1_500))


# Properties

small_ids = st.integers(1, 6)
any_ids = st.one_of(small_ids, st.integers(1, 300), st.integers(1, MAX))


def triples_of(predicates: st.SearchStrategy[int], objects: st.SearchStrategy[int],
               subjects: int = 6) -> st.SearchStrategy[list[Triple]]:
    """Lists of triples that can be written, with these predicates and objects."""
    groups = st.lists(st.sets(st.tuples(predicates, objects), min_size=1, max_size=8), min_size=1, max_size=subjects)
    return groups.map(lambda rows: [(s, p, o) for s, row in enumerate(rows, 1) for p, o in sorted(row)])


styles = st.builds(model.Style, width=st.integers(3, 64), padding=st.sampled_from([0, -1, 0x55]),
                   before=st.sampled_from([b"", b"order=2;", b"a;=;"]),
                   behind=st.sampled_from([b"", b"numTriples=3", b";"]))
part = st.one_of(st.none(), st.integers(0, 8), st.sampled_from([MAX]))


@examples(2)
@given(triples_of(small_ids, small_ids), styles, st.binary(max_size=3), st.tuples(part, part, part), st.data())
@example(THREE_IDS, model.Style(), b"", (None, 1, 3), None)
def test_search_is_a_filter(probe: Probe, ids: list[Triple], style: model.Style, before: bytes, pattern: Pattern,
                            data: Optional[st.DataObject]) -> None:
    """All three types find and count the triples that match a pattern, in their order, however the file is written."""
    some = ids[0] if data is None else data.draw(st.sampled_from(ids))
    file = before + model.write_triples(ids, style) + b"U"
    assert_finds(probe, file, len(before), (8, 8, 8), ids, [pattern, *model.patterns(some)])
    asked = [(role, n) for role in range(3) for n in range(10)]
    assert uses(probe, file, len(before), (8, 8, 8), asked) == {
        (role, n): n in {triple[role] for triple in ids} for role, n in asked}
    assert probe.ask("triple", len(before), 8, 8, 8, *range(len(ids))) == ok(*flat(ids))


@examples(2)
@given(triples_of(any_ids, any_ids), st.binary(max_size=3))
def test_written_as_the_reference(probe: Probe, ids: list[Triple], before: bytes) -> None:
    """The bytes that are written are the canonical form."""
    assert probe.ask("put_triples", before, *flat(ids)) == ok(before + model.write_triples(ids))


def is_writable(ids: Sequence[Triple]) -> bool:
    """Whether triples ascend, their subjects count up from 1, and no ID is 0."""
    subjects = sorted({s for s, _, _ in ids})
    return (bool(ids) and list(ids) == sorted(set(ids)) and subjects == list(range(1, len(subjects) + 1))
            and all(p and o for _, p, o in ids))


nearly_ids = st.integers(0, 3)


@examples()
@given(st.one_of(st.lists(st.tuples(nearly_ids, nearly_ids, nearly_ids), max_size=4), triples_of(any_ids, any_ids)))
def test_what_can_be_written(probe: Probe, ids: list[Triple]) -> None:
    """`are_writable` holds exactly for the lists that the format can hold."""
    assert probe.ask("are_writable", *flat(ids)) == ok(is_writable(ids))


@st.composite
def nearly_triples(draw: st.DrawFn) -> bytes:
    """The bytes of triples, most often with an error: in a sequence, or in a byte, with right CRCs or without."""
    ids = draw(triples_of(st.integers(1, 2), st.integers(1, 4), 3))
    sequences = model.read_triples(model.write_triples(ids), 0, (9, 9, 9))[0]
    bits_y, bits_z = list(sequences.bits_y), list(sequences.bits_z)
    numbers_y, numbers_z = list(sequences.numbers_y), list(sequences.numbers_z)
    for _ in range(draw(st.integers(0, 2))):
        numbers = draw(st.sampled_from([bits_y, bits_z, numbers_y, numbers_z]))
        i = draw(st.integers(0, len(numbers)))
        most = 1 if numbers is bits_y or numbers is bits_z else 5
        taken, put = draw(st.sampled_from([(1, 1), (1, 1), (1, 0), (0, 1)]))
        numbers[i:i + taken] = [draw(st.integers(0, most))][:put]
    data = model.write_sequences(bits_y, bits_z, numbers_y, numbers_z)
    if draw(st.integers(0, 3)) == 0:
        i = draw(st.integers(0, len(data)))
        data = data[:i] + draw(st.binary(max_size=1)) + data[i + draw(st.integers(0, 1)):]
        if draw(st.booleans()):
            data = checks.with_right_crcs(data, lambda read: model.read_triples(read, 0, (4, 4, 4)))
    return data


@examples()
@given(st.binary(max_size=2), nearly_triples(), st.tuples(*[st.integers(1, 5)] * 3))
def test_damaged_triples(probe: Probe, before: bytes, triples: bytes, counts: Counts) -> None:
    """Triples with any damage give the error that the reference gives, or are read as it reads them."""
    data, at = before + triples, len(before)
    try:
        read, end = model.read_triples(data, at, counts)
        expected = read_up_to(end, len(read.ids))
    except model.Error as error:
        expected = error.answer
    assert probe.on(data, "triples", at, *counts) == expected
