"""The reference itself: published check values, worked rows, and the sample files byte for byte."""

from __future__ import annotations

import re
from pathlib import Path

import pytest
from hypothesis import given
from hypothesis import strategies as st

from reference import checks, hdt
from reference.hdt import Reason
from support.strategies import DIGITS, VALUES, ascending, loose_sections

A = b"http://a/"

ONE: list[hdt.Strings] = [(A, A, A)]

THREE: list[hdt.Strings] = [(b"u:a", b"u:p", b"u:b"), (b"u:a", b"u:q", b'"x"'), (b"u:b", b"u:p", b"u:a")]


@pytest.fixture
def v1(samples: Path) -> bytes:
    """The sample file of one triple."""
    return (samples / "v1.hdt").read_bytes()


@pytest.fixture
def three(samples: Path) -> bytes:
    """The sample file of three triples."""
    return (samples / "three.hdt").read_bytes()


def test_reasons_of_the_description(samples: Path) -> None:
    """The numbers and names of the reasons are those of docs/FORMAT.md."""
    text = (samples.parent / "docs/FORMAT.md").read_text()
    rows = re.findall(r"(?<=\| )(\d+) ([A-Z]\w+)(?= \|)", text.split("## Reasons")[1].split("##")[0])
    assert [(int(number), name) for number, name in rows] == [(int(reason), reason.name) for reason in Reason]


# CRCs and numbers

@pytest.mark.parametrize("data, of_8, of_16, of_32", [
    (b"123456789", 0xF4, 0xBB3D, 0xE3069283), (b"", 0, 0, 0)], ids=["digits", "nothing"])
def test_published_check_values(data: bytes, of_8: int, of_16: int, of_32: int) -> None:
    """The check values of CRC-8/SMBUS, CRC-16/ARC and CRC-32C, and those of nothing."""
    assert (checks.crc8(data), checks.crc16(data), checks.crc32(data)) == (of_8, of_16, of_32)


def bitwise(data: bytes, width: int, polynomial: int, start: int, reflected: bool, end: int) -> int:
    """A CRC by its definition: one bit at a time, the polynomial without reflection."""
    register, top = start, 1 << width - 1
    for byte in data:
        for k in range(8):
            bit = byte >> (k if reflected else 7 - k) & 1
            carry = bool(register & top) != bool(bit)
            register = (register << 1) & (1 << width) - 1
            register ^= polynomial if carry else 0
    if reflected:
        register = int(f"{register:0{width}b}"[::-1], 2)
    return register ^ end


@given(st.binary(max_size=40))
def test_crcs_by_definition(data: bytes) -> None:
    """The tables agree with the definition."""
    assert checks.crc8(data) == bitwise(data, 8, 0x07, 0, False, 0)
    assert checks.crc16(data) == bitwise(data, 16, 0x8005, 0, True, 0)
    assert checks.crc32(data) == bitwise(data, 32, 0x1EDC6F41, 0xFFFFFFFF, True, 0xFFFFFFFF)


@pytest.mark.parametrize("value, spelling", [
    (0, "80"), (127, "ff"), (128, "00 81"), (16383, "7f ff"), (2**64 - 1, "7f 7f 7f 7f 7f 7f 7f 7f 7f 81")])
def test_numbers(value: int, spelling: str) -> None:
    """Worked numbers."""
    spelled = bytes.fromhex(spelling)
    assert hdt.write_vbyte(value) == spelled
    assert hdt.read_vbyte(b"x" + spelled + b"\x80", 1) == (value, 1 + len(spelled))


@given(DIGITS)
def test_one_spelling(data: bytes) -> None:
    """What is read as a number is the spelling of that number."""
    if checks.error_of(hdt.read_vbyte, data, 0) is None:
        value, end = hdt.read_vbyte(data, 0)
        assert hdt.write_vbyte(value) == data[:end]


@given(VALUES, st.integers(1, 10))
def test_overlong(value: int, digits: int) -> None:
    """A spelling of more digits than needed is overlong."""
    shortest, spelling = hdt.write_vbyte(value), hdt.write_vbyte(value, digits)
    error = None if spelling == shortest else (2, "OverlongNumber", 0)
    assert checks.error_of(hdt.read_vbyte, spelling, 0) == error


# Parts

@pytest.mark.parametrize("written, spelling", [
    (hdt.write_numbers([1, 2, 5]), "01 03 83 D4 51 01 23 5B 7A D0"),
    (hdt.write_numbers([1, 2, 5], padding=-1), "01 03 83 D4 51 FF 71 8B 6C 8F"),
    (hdt.write_numbers([]), "01 01 80 F7 00 00 00 00"),
    (hdt.write_numbers_data(b"", 0, 1), "01 00 81 E5 00 00 00 00"),
    (hdt.write_bits([0, 1, 1]), "01 83 95 06 B9 B4 DC 74"),
    (hdt.write_bits([1]), "01 81 9B 01 52 D0 16 A0"),
    (hdt.write_section([]), "02 80 80 90 68 01 01 81 F0 00 51 53 7D 52 00 00 00 00"),
    (hdt.write_section_preamble(3, 22, 2), "02 83 96 82 82"),
    (hdt.write_numbers([0, 13, 22]), "01 05 83 AA A0 59 36 6F BE 5C"),
    (hdt.write_section([b"u:x"]), "02 81 84 90 57 01 03 82 D3 20 8F DD C0 72 75 3A 78 00 B4 D7 72 BF"),
], ids=["numbers", "padding", "no numbers", "width 0", "bits", "one bit", "no strings", "preamble", "starts", "string"])
def test_parts(written: bytes, spelling: str) -> None:
    """Worked parts of files."""
    assert written.hex(" ") == spelling.lower()


@given(st.integers(0, 64), st.data(), st.integers(-1, 255))
def test_packing(width: int, data: st.DataObject, padding: int) -> None:
    """Packed entries are one little-endian number, with padding behind them; each has its offset."""
    entries = data.draw(st.lists(st.integers(0, (1 << width) - 1), max_size=30))
    packed = hdt.pack(entries, width, padding)
    joined = sum(entry << width * i for i, entry in enumerate(entries))
    bits = width * len(entries)
    assert len(packed) == -(-bits // 8)
    assert int.from_bytes(packed, "little") & (1 << bits) - 1 == joined
    assert int.from_bytes(packed, "little") >> bits == padding & ((1 << 8 * len(packed) - bits) - 1)
    numbers, end = hdt.read_numbers(b"xy" + hdt.write_numbers_data(packed, width, len(entries)), 2)
    assert (list(numbers), numbers.count_at) == (entries, 4)
    assert [numbers.offset_of(i) for i in range(len(entries))] == [6 + width * i // 8 for i in range(len(entries))]


def test_rank_and_select() -> None:
    """Ones before an index, and the index of the k-th one."""
    bits = [0] * 512 + [1, 1]
    assert [hdt.rank(bits, i) for i in (512, 513, 514)] == [0, 1, 2]
    assert [hdt.select(bits, k) for k in (1, 2)] == [512, 513]


@given(ascending(), st.integers(1, 5))
def test_sections(strings: list[bytes], block_size: int) -> None:
    """A section is read as it was written; offsets, prefixes and blocks follow each other."""
    data = b"x" + hdt.write_section(strings, block_size)
    section, end = hdt.read_section(data, 1)
    assert (section.strings, section.block_size, end) == (strings, block_size, len(data))
    assert b"".join(section.block_of(i) for i in range(0, len(strings), block_size)) == section.packed
    for i, (offset, prefix) in enumerate(zip(section.offsets, section.prefixes)):
        first = i % block_size == 0
        assert prefix == (0 if first else hdt.common_prefix(strings[i - 1], strings[i]))
        spelled = (b"" if first else hdt.write_vbyte(prefix)) + strings[i][prefix:] + b"\0"
        assert data[offset:offset + len(spelled)] == spelled


@given(loose_sections())
def test_loose_sections(made: tuple[list[bytes], bytes]) -> None:
    """A section in any form is read as the same strings; after a wrong CRC is made right it is the same again."""
    strings, data = made
    section, end = hdt.read_section(data, 0)
    assert (section.strings, end) == (strings, len(data))
    wrong = data[:-4] + bytes(byte ^ 1 for byte in data[-4:])
    assert checks.error_of(hdt.read_section, wrong, 0) == (11, "Check32", len(data) - 4)
    assert checks.with_right_crcs(wrong, lambda file: hdt.read_section(file, 0)) == data


# Whole files

def test_v1(v1: bytes) -> None:
    """The sample file of one triple is written and read."""
    assert hdt.graph(ONE, A).data == v1
    file = hdt.read_file(v1, tight=True)
    assert (file.counts, file.denoted) == ((1, 1, 0, 1, 0), ONE)
    assert file.head.body == hdt.header_body(A, 1)
    sections = [277, 305, 323, 351]
    assert [section.starts.count_at - 7 for section in file.dictionary.sections] == sections
    assert file.triples.control.properties_at == 369 + 5 + len(hdt.FORMATS[hdt.TRIPLES]) + 1
    assert (file.triples.bits_y.data_at, file.triples.bits_z.data_at) == (428, 436)
    assert (file.triples.numbers_y.data_at, file.triples.numbers_z.data_at) == (445, 454)


def test_three(three: bytes) -> None:
    """The sample file of three triples is written and read, and its parts are where the description says."""
    assert hdt.graph(THREE, A).data == three
    file = hdt.read_file(three, tight=True)
    assert (file.counts, file.denoted) == ((3, 2, 0, 2, 1), THREE)
    assert file.triples.ids == [(1, 1, 2), (1, 2, 3), (2, 1, 1)]
    assert [section.starts.count_at - 7 for section in file.dictionary.sections] == [277, 302, 320, 345]
    assert (list(file.triples.bits_y), list(file.triples.bits_z)) == ([0, 1, 1], [1, 1, 1])
    assert (list(file.triples.numbers_y), list(file.triples.numbers_z)) == ([1, 2, 1], [2, 3, 1])


def put(data: bytes, at: int, *hexadecimal: str) -> bytes:
    """The file with these bytes from an offset on, as long as before."""
    written = bytes.fromhex("".join(hexadecimal))
    return data[:at] + written + data[at + len(written):]


UX = hdt.write_section([b"u:x"])


def v1_errors(v1: bytes) -> list[tuple[str, bytes, Reason, int]]:
    """Damaged forms of v1.hdt, with the error of each."""
    two = [hdt.write_bits([1]), hdt.write_bits([1, 1]), hdt.write_numbers([1]), hdt.write_numbers([1, 1])]
    return [
        ("the last bit of Y is 0", v1[:425] + hdt.write_bits([0]) + v1[433:], Reason.LastMark, 428),
        ("the last bit of Z is 0", v1[:433] + hdt.write_bits([0]) + v1[441:], Reason.LastMark, 436),
        ("two triples for one pair", v1[:425] + b"".join(two), Reason.MarkCount, 434),
        ("predicate 0", v1[:441] + hdt.write_numbers([0]) + v1[450:], Reason.PredicateRange, 445),
        ("object 2", v1[:450] + hdt.write_numbers([2]), Reason.ObjectRange, 454),
        ("a subject is an object", v1[:305] + UX + v1[323:351] + UX + v1[369:], Reason.SectionsOverlap, 369),
        ("a byte behind", v1 + b"x", Reason.TrailingBytes, 459),
        ("a byte less", v1[:-1], Reason.Truncated, 455),
        ("nothing", b"", Reason.Truncated, 0),
        ("three bytes", v1[:3], Reason.Truncated, 0),
        ("100 bytes", v1[:100], Reason.Truncated, 68),
        ("a wrong string", put(v1, 298, "62"), Reason.Check32, 301),
        ("a wrong width", put(v1, 283, "05"), Reason.Check8, 285),
        ("a wrong CRC", put(v1, 38, "77"), Reason.Check16, 38),
        ("another order", v1[:369] + hdt.write_control(hdt.TRIPLES, b"order=2;") + v1[425:], Reason.TripleOrder, 414),
        ("no length", v1[:40] + hdt.write_control(hdt.HEADER, b"x") + v1[68:], Reason.HeaderLength, 54),
        ("more bits than numbers of Y", v1[:425] + hdt.write_bits([1, 1]) + v1[433:], Reason.LengthsDiffer, 443),
        ("more bits than numbers of Z", v1[:433] + hdt.write_bits([1, 1]) + v1[441:], Reason.LengthsDiffer, 452),
    ]


def test_errors_of_v1(v1: bytes) -> None:
    """Damaged forms of the sample file, each with the error that the description gives."""
    rows = v1_errors(v1)
    answers = [(name, checks.error_of(hdt.read_file, data)) for name, data, _, _ in rows]
    assert answers == [(name, (int(reason), reason.name, offset)) for name, _, reason, offset in rows]


def test_beginnings_of_v1(v1: bytes) -> None:
    """Every proper beginning of the sample file is truncated."""
    errors = [checks.error_of(hdt.read_file, v1[:end]) for end in range(len(v1))]
    assert {error and error[1] for error in errors} == {"Truncated"}


def test_accepted_forms_of_v1(v1: bytes) -> None:
    """Any byte of the header body may be changed, and the subjects section may have an unused string."""
    assert hdt.read_file(put(v1, 100, "00")).counts == (1, 1, 0, 1, 0)
    unused = v1[:305] + UX + v1[323:]
    assert hdt.read_file(unused).counts == (1, 1, 1, 1, 0)
    assert checks.error_of(hdt.read_file, unused, True) == (34, "Unused", 319)


@pytest.mark.parametrize("text, value", [
    (b"0", 0), (b"150", 150), (b"0" * 5000 + b"7", 7), (b"%d" % (2**64 - 1), 2**64 - 1), (b"%d" % 2**64, None),
    (b"9" * 5000, None), (b"", None), (b"+1", None), (b"1 ", None), (b"-0", None)])
def test_lengths(text: bytes, value: int | None) -> None:
    """The length of a header body is a decimal number below 2^64, maybe with leading zeros."""
    assert hdt.decimal(text) == value


def test_triples_out_of_range_or_order() -> None:
    """Subjects, predicates and objects beyond their counts, or that do not ascend."""
    front = hdt.write_head() + hdt.write_dictionary([], [b"a"], [b"p", b"q"], [b"x", b"y"])
    at = len(front) + len(hdt.write_control(hdt.TRIPLES, b"order=1;"))

    def error_at(bits_y: list[int], bits_z: list[int], ps: list[int], os: list[int]) -> tuple[str, int]:
        error = checks.error_of(hdt.read_file, front + hdt.write_sequences(bits_y, bits_z, ps, os))
        assert error is not None
        return error[1], error[2] - at

    assert error_at([1, 1], [1, 1], [1, 1], [1, 1]) == ("SubjectRange", 3)
    assert error_at([0, 1], [1, 1], [2, 1], [1, 1]) == ("PredicatesNotAscending", 20)
    assert error_at([0, 1], [1, 1], [1, 3], [1, 1]) == ("PredicateRange", 20)
    assert error_at([1], [0, 1], [1], [2, 1]) == ("ObjectsNotAscending", 29)
    assert error_at([1], [0, 1], [1], [1, 3]) == ("ObjectRange", 29)


IDS = st.sets(st.tuples(st.integers(1, 4), st.integers(1, 3), st.integers(1, 4)), min_size=1, max_size=20)


@given(IDS, st.integers(0, 64), st.integers(1, 5))
def test_graphs(ids: set[tuple[int, int, int]], width: int, block_size: int) -> None:
    """A file of triples is read as these triples, be it canonical or loose, and patterns take what they match."""
    strings = [(b"u:%d" % s, b"u:%d" % p, b"u:%d" % o) for s, p, o in ids]
    ss, ps, os = ({triple[k] for triple in strings} for k in range(3))
    made = hdt.loose(strings, ss, ps, os, b"u:base", block_size, max(width, 9) if width else 0)
    file = hdt.read_file(made.data, tight=True)
    assert (file.triples.ids, file.denoted) == (made.ids, made.strings)
    assert sorted(file.denoted) == sorted(strings)
    assert made.ids == sorted(made.ids)
    for triple in made.ids:
        found = [hdt.matches(made.ids, pattern) for pattern in hdt.patterns(triple)]
        assert len(found) == 8 and all(triple in matches for matches in found)
        assert (min(map(len, found)), max(map(len, found))) == (1, len(made.ids))


@pytest.mark.parametrize("kinds", [2, 3])
def test_long_prefixes(kinds: int) -> None:
    """Files of strings with long common prefixes are valid."""
    data, counts = hdt.long_prefixes(kinds, 1000, 50)
    assert hdt.read_file(data).counts == counts


def test_loose_prefixes() -> None:
    """The counts are those of the strings that triples use."""
    data, counts = hdt.loose_prefixes(100, 70)
    file = hdt.read_file(data)
    assert hdt.read_file(hdt.graph(file.denoted).data).counts == counts
    error = checks.error_of(hdt.read_file, data, True)
    assert error is not None and error[1] == "Unused"
