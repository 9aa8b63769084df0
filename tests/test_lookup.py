"""`hdt strings`, `hdt string` and `hdt number`: the strings of each role and their IDs."""

from __future__ import annotations

import functools
import operator
from pathlib import Path

import pytest
from hypothesis import HealthCheck, example, given, settings
from hypothesis import strategies as st

from reference import checks, hdt as reference
from support.built import SAMPLES
from support.program import NO_SUCH_NUMBER, NO_SUCH_TERM, READING_FAILED, Result, Word, done, failed, fault, hdt
from support.search import escaped, spelled

V1 = (SAMPLES / "v1.hdt").read_bytes()
THREE = (SAMPLES / "three.hdt").read_bytes()
SAMPLE = SAMPLES / "v1.hdt"

Roles = tuple[list[bytes], list[bytes], list[bytes]]

SHARED, SUBJECTS, PREDICATES, OBJECTS = [b'"\\ \n\r"', b"u:b"], [b"\n", b"u:a"], [b"p\\q", b"u:p\r"], [b'"x\n', b"u:c"]


def file_of(shared: list[bytes], subjects: list[bytes], predicates: list[bytes], objects: list[bytes],
            block_size: int = 16) -> bytes:
    """A file with these strings in its sections, and one triple."""
    dictionary = reference.write_dictionary(shared, subjects, predicates, objects, reference.Style(block_size))
    return reference.write_head() + dictionary + reference.write_triples([(1, 1, 1)])


FILES: dict[str, tuple[bytes, Roles]] = {
    "the sample": (V1, ([b"http://a/"], [b"http://a/"], [b"http://a/"])),
    "three triples": (THREE, ([b"u:a", b"u:b"], [b"u:p", b"u:q"], [b"u:a", b"u:b", b'"x"'])),
    "strings to escape": (file_of(SHARED, SUBJECTS, PREDICATES, OBJECTS, 1),
                          (SHARED + SUBJECTS, PREDICATES, SHARED + OBJECTS)),
}


def lookups(path: Path, role: str, strings: list[bytes], nowhere: list[bytes]) -> list[tuple[list[Word], Result]]:
    """All look-ups of a role, and their results."""
    lines = b"".join(b"%d\t%s\n" % (n, escaped(string)) for n, string in enumerate(strings, 1))
    cases: list[tuple[list[Word], Result]] = [(["strings", path, role], done(lines))]
    for n, string in enumerate(strings, 1):
        cases += [(["string", path, role, str(n)], done(escaped(string) + b"\n")),
                  (["number", "--raw", "--", path, role, string], done(b"%d\n" % n))]
    cases += [(["string", path, role, str(n)], NO_SUCH_NUMBER) for n in (0, len(strings) + 1, 2**64 - 1)]
    cases += [(["number", "--raw", "--", path, role, string], NO_SUCH_TERM) for string in nowhere]
    return cases


@pytest.mark.parametrize("role", [0, 1, 2], ids=reference.ROLES)
@pytest.mark.parametrize("data, roles", FILES.values(), ids=FILES)
def test_strings(tmp_path: Path, data: bytes, roles: Roles, role: int) -> None:
    """Each string of a role is listed, found by its ID, and its ID by the string; others are not found."""
    path = tmp_path / "strings.hdt"
    path.write_bytes(data)
    cases = lookups(path, reference.ROLES[role], roles[role], [b"u:z", b"", b"http://a", b"http://a/b"])
    assert [(words, hdt(*words)) for words, _ in cases] == cases


UX = reference.write_section([b"u:x"])
OVERLAP = fault(23, "SectionsOverlap", 369)
# The command and its options, the file and the rest: `none` is missing, `short` cut off, `overlap` has a string twice.
RESULTS: dict[str, tuple[list[str], str, list[str], Result]] = {
    "a term": (["number"], "v1", ["predicate", "<http://a/>"], done(b"1\n")),
    "a string, after all options": (["number", "--raw", "--"], "v1", ["predicate", "http://a/"], done(b"1\n")),
    "a literal that is not there": (["number"], "v1", ["object", '"x"@en'], NO_SUCH_TERM),
    "a word that is not a term": (["number"], "v1", ["subject", "rel"], failed(2, "TERM column 1: 1 Syntax")),
    "that before a missing file": (
        ["number"], "none", ["subject", r"<u:\u0020>"], failed(2, "TERM column 4: 5 IriCharacter")),
    "a missing file": (["strings"], "none", ["subject"], READING_FAILED),
    "strings of sections that overlap": (["strings"], "overlap", ["subject"], OVERLAP),
    "a string of sections that overlap": (["string"], "overlap", ["predicate", "1"], OVERLAP),
    "an ID of sections that overlap": (["number"], "overlap", ["object", "<u:x>"], OVERLAP),
    "strings of a file cut off": (["strings"], "short", ["subject"], fault(1, "Truncated", 291)),
}


@pytest.mark.parametrize("command, file, words, wanted", RESULTS.values(), ids=RESULTS)
def test_results(tmp_path: Path, command: list[str], file: str, words: list[str], wanted: Result) -> None:
    """Look-ups by terms, and of damaged and missing files."""
    (tmp_path / "v1").write_bytes(V1)
    (tmp_path / "short").write_bytes(V1[:300])
    (tmp_path / "overlap").write_bytes(V1[:305] + UX + V1[323:351] + UX + V1[369:])
    assert hdt(*command, tmp_path / file, *words) == wanted


def test_empty_section() -> None:
    """The bytes that the overlapping sections replace are an empty section of the sample."""
    assert V1[305:323] == V1[351:369] == reference.write_section([])


REFUSED_WORDS: dict[str, list[Word]] = {
    "a role that is none": ["strings", SAMPLE, "thing"],
    "an ID of 2^64": ["string", SAMPLE, "object", str(2**64)],
    "an ID below 0": ["string", SAMPLE, "object", "--", "-1"],
    "no term": ["number", SAMPLE, "object"],
    "an unknown option": ["strings", SAMPLE, "object", "--raw"],
}


@pytest.mark.parametrize("words", REFUSED_WORDS.values(), ids=REFUSED_WORDS)
def test_refused_words(words: list[Word]) -> None:
    """A wrong command line has status 2, and prints nothing on standard output."""
    status, out, err = hdt(*words)
    assert (status, out, err[:7]) == (2, b"", b"error: ")


def test_ids_beyond_16_bits(tmp_path: Path) -> None:
    """IDs beyond 8 and 16 bits, also of a string that is not a term, in look-ups and in the error of a dump."""
    objects = [b"u:%05d" % n for n in range(66_000)]
    strange = [*objects[:65_790], b"v", *objects[65_790:]]
    strange.sort()
    at = strange.index(b"v") + 1
    path = tmp_path / "ids.hdt"
    path.write_bytes(reference.write_head() + reference.write_dictionary([], [b"u:s"], [b"u:p"], strange)
                     + reference.write_triples([(1, 1, n) for n in range(1, len(strange) + 1)]))
    seen = [(n, hdt("string", path, "object", str(n)), hdt("number", "--raw", path, "object", strange[n - 1]))
            for n in (255, 256, 65_535, 65_536, 65_537, 66_001)]
    assert seen == [(n, done(strange[n - 1] + b"\n"), done(b"%d\n" % n)) for n, _, _ in seen]
    assert at == 66_001 and hdt("dump", path) == failed(1, "object 66001 is not a term")
    assert hdt("find", "--numbers", path, "?", "?", "<u:65999>") == done(b"1 1 66000\n")
    assert hdt("answer", path, stdin=b"? ? ?\n") == Result(1, b"# object 66001 is not a term\n\n", b"")


# ---- any strings


# Each example runs the program some thirty times.
some_examples = settings(suppress_health_check=[HealthCheck.function_scoped_fixture],
                         max_examples=settings.default.max_examples // 6)
texts = st.text(st.characters(min_codepoint=1, blacklist_categories=["Cs"]), max_size=12).map(str.encode)
terms = st.sampled_from([b"u:a", b"u:b", b"http://a/", b"_:b", b"_:b.1", b'"x"', b'"x"@en', b'"a"b\\\n\r\t"',
                         b'"x"^^<u:t>'])
sections = st.lists(texts | terms, max_size=6, unique=True).map(lambda strings: sorted(strings))


@some_examples
@given(sections, sections, sections, sections, texts, st.sampled_from([1, 2, 3, 16, 65_535]))
@example(SHARED, SUBJECTS, PREDICATES, OBJECTS, b"u:z", 1)
def test_any_strings(tmp_path: Path, shared: list[bytes], subjects: list[bytes], predicates: list[bytes],
                     objects: list[bytes], nowhere: bytes, block_size: int) -> None:
    """The strings of any dictionary are listed, found by their IDs, and their IDs by them."""
    shared = sorted({*shared, b"a:shared"})
    subjects, objects = (sorted({*strings} - {*shared}) for strings in (subjects, objects))
    objects = sorted({*objects} - {*subjects})
    predicates = sorted({*predicates, b"a:predicate"})
    path = tmp_path / "any.hdt"
    path.write_bytes(file_of(shared, subjects, predicates, objects, block_size))
    for role, strings in zip(reference.ROLES, (shared + subjects, predicates, shared + objects)):
        cases = lookups(path, role, strings, [] if nowhere in strings else [nowhere])
        assert [(words, hdt(*words)) for words, _ in cases] == cases


@some_examples
@given(st.lists(terms, min_size=1, unique=True), terms)
def test_any_terms(tmp_path: Path, strings: list[bytes], other: bytes) -> None:
    """The ID of a term is that of its string."""
    strings = sorted(strings)
    path = tmp_path / "terms.hdt"
    path.write_bytes(file_of([], [b"u:s"], [b"u:p"], strings))
    cases = [(string, done(b"%d\n" % (strings.index(string) + 1)) if string in strings else NO_SUCH_TERM)
             for string in [*strings, other]]
    assert [(string, hdt("number", path, "object", spelled(string))) for string, _ in cases] == cases


# ---- more than 2^24 strings

# Strings of four bytes, the first one of nine and each other one of 127: all of them, in order, 18,435,447.
FIRST, OTHERS = range(33, 42), range(1, 128)


def string_at(n: int) -> bytes:
    """String n of these, from 0."""
    n, last = divmod(n, 127)
    n, third = divmod(n, 127)
    return bytes([FIRST[n // 127], OTHERS[n % 127], OTHERS[third], OTHERS[last]])


def shifted(register: int, length: int) -> int:
    """The register of CRC-32C after so many zero bytes."""
    for _ in range(length):
        register = register >> 8 ^ checks.TABLE32[register & 0xFF]
    return register


def all_strings() -> bytes:
    """The section of these strings, in one block.

    The pieces behind a string that ends in 1 1 are the same for every front, and so is what they do to a CRC.
    """
    fronts = [reference.write_vbyte(kept) for kept in range(4)]
    same = b"".join(fronts[3 if d > 1 else 2] + bytes([d] if d > 1 else [c, 1]) + b"\0"
                    for c in OTHERS for d in OTHERS if (c, d) != (1, 1))
    own = checks.crc32(same) ^ 0xFFFFFFFF ^ shifted(0xFFFFFFFF, len(same))
    moved = [shifted(1 << bit, len(same)) for bit in range(32)]
    pieces, register = list[bytes](), 0xFFFFFFFF
    for a in FIRST:
        for b in OTHERS:
            front = fronts[1] + bytes([b, 1, 1, 0]) if b > 1 else fronts[0] + bytes([a, 1, 1, 1, 0])
            front = front if pieces else front[1:]
            for byte in front:
                register = register >> 8 ^ checks.TABLE32[(register ^ byte) & 0xFF]
            register = functools.reduce(operator.xor, (moved[bit] for bit in range(32) if register >> bit & 1), own)
            pieces += [front, same]
    packed = b"".join(pieces)
    count = len(FIRST) * 127**3
    return (reference.write_section_preamble(count, len(packed), count) + reference.write_numbers([0, len(packed)])
            + packed + (register ^ 0xFFFFFFFF).to_bytes(4, "little"))


def test_more_than_2_to_the_24_strings(tmp_path: Path) -> None:
    """A string is found by its ID past 2^24, and its ID by it."""
    path, count = tmp_path / "many.hdt", len(FIRST) * 127**3
    sections = [reference.write_section([]), reference.write_section([b"u:s"]), reference.write_section([b"u:p"])]
    path.write_bytes(reference.write_head() + reference.write_control(reference.DICTIONARY, b"mapping=1;")
                     + b"".join(sections) + all_strings() + reference.write_triples([(1, 1, 1)]))
    assert hdt("string", path, "object", str(count)) == done(string_at(count - 1) + b"\n")
    assert hdt("number", "--raw", path, "object", string_at(1 << 24)) == done(b"%d\n" % ((1 << 24) + 1))
