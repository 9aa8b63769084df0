"""Sections of the dictionary: front-coded strings."""

from __future__ import annotations

import pytest
from hypothesis import example, given
from hypothesis import strategies as st

from reference import checks, hdt
from reference.hdt import MAX, Reason, Section, common_prefix, fold, write_packed, write_section
from support import prefixes
from support.answers import REFUSED, answered
from support.probe import Answer, Argument, Probe, Request, fault, ok
from support.strategies import AROUND, BLOCK_SIZES, STRING, ascending, changed, loose_sections, packed_sections

BEFORE = b"\xff\x02\x80"


def read_of(read: tuple[Section, int]) -> tuple[Argument, ...]:
    """A section as the word `section_read` answers it."""
    section, end = read
    return len(section), section.blocks, end


def wanted(data: bytes, at: int = 0) -> Answer:
    """The answer of `section_read`, by the reference."""
    return answered(hdt.read_section, (data, at), read_of)


def order(a: bytes, b: bytes) -> str:
    """How a string lies to another one."""
    return "less" if a < b else "equal" if a == b else "more"


def requests_and_answers(section: Section, at: int, end: int, others: list[bytes]) -> list[tuple[Request, Answer]]:
    """Requests about a section with the answers of the reference: each string and number in each way, and others."""
    strings, offsets, prefixes, count = section.strings, section.offsets, section.prefixes, len(section)
    absent = [other for other in others if other not in set(strings)]
    walked: list[Argument] = []
    for offset, string in zip(offsets, strings):
        walked += [offset, string]
    kept: list[Argument] = []
    for offset, prefix, string in zip(offsets, prefixes, strings):
        kept += [offset, prefix, string]
    pairs: list[tuple[Request, Answer]] = [
        (("section_read", at), ok(count, section.blocks, end)),
        (("section_place_of", at, *absent), ok(*[None] * len(absent))),
        (("section_walk", at), ok(*walked)),
        (("section_walk_kept", at), ok(*kept, None, 0)),
        (("section_string", at, 0, b""), REFUSED),
        (("section_string", at, count + 1, b""), REFUSED),
        (("section_seek", at, count + 1), (*REFUSED, "")),
        (("section_block", at, count + 1), REFUSED),
        (("section_head", at, section.blocks), REFUSED),
        *((("section_head", at, block), ok(strings[block * section.block_size])) for block in range(section.blocks)),
        *((("section_block", at, i + 1), ok(section.block_of(i), offsets[i])) for i in range(count)),
    ]
    if count:
        numbers = [*range(1, count + 1), *range(count, 0, -1), *range(1, count + 1, 2), count, count]
        pairs += [(("section_place_of", at, *strings), ok(*range(1, count + 1))),
                  (("section_seek", at, *numbers), ok(b"", *(strings[n - 1] for n in numbers))),
                  (("section_strings", at, *range(count, 0, -1)), ok(*reversed(strings))),
                  (("section_string", at, count, b"before"), ok(b"before" + strings[-1]))]
    for other in [*absent[:2], *strings[:1]]:
        ordered: list[Argument] = []
        for string in strings:
            ordered += [string, order(string, other)]
        pairs.append((("section_cursor", at, other), ok(*ordered)))
        pairs += [(("section_cursor_compared", at, start, other), compared_of(section, other)) for start in (0, 1, MAX)]
    return pairs


def compared_of(section: Section, other: bytes) -> Answer:
    """The answer of `section_cursor_compared`: each string, how it lies to another and agrees with it, and how much the
    next one keeps."""
    values: list[Argument] = []
    for offset, string, after in zip(section.offsets, section.strings, [*section.prefixes[1:], 0]):
        values += [offset, string, order(string, other), common_prefix(string, other), after]
    return ok(*values, "end", "more", 0)


def check(probe: Probe, data: bytes, at: int = 0, others: list[bytes] | None = None) -> None:
    """Compare all that the engine answers about a section with the reference."""
    section, end = hdt.read_section(data, at)
    near = [string + b"\0" for string in section.strings] + [string[:-1] for string in section.strings]
    pairs = requests_and_answers(section, at, end, (others or []) + near)
    answers = probe.send(("file", data), *(request for request, _ in pairs))[1:]
    assert list(zip((request for request, _ in pairs), answers)) == pairs


SEVENTEEN = [b"s%02d" % i for i in range(17)]

CANONICAL: list[tuple[str, int, list[bytes], bytes]] = [
    ("no strings", 16, [], b"\x02\x80\x80\x90h\x01\x01\x81\xF0\x00QS}R\x00\x00\x00\x00"),
    ("a block ends within a common prefix", 2, [b"http://a/", b"http://a/b", b"http://b"],
     b"\x02\x83\x96\x82\x82\x01\x05\x83\xAA\xA0Y6o\xBE\x5Chttp://a/\x00\x89b\x00http://b\x00\xC6\xB5\xF8="),
    ("v1.hdt", 16, [b"http://a/"],
     b"\x02\x81\x8A\x90\x81\x01\x04\x82\xB8\xA0\xF7\xE66\xF0http://a/\x00\xF4\x81z\xD4"),
    ("three.hdt, shared", 16, [b"u:a", b"u:b"],
     b"\x02\x82\x87\x90\xD5\x01\x03\x82\xD38/BG\xE8u:a\x00\x82b\x00\x89\xE3a$"),
    ("three.hdt, predicates", 16, [b"u:p", b"u:q"],
     b"\x02\x82\x87\x90\xD5\x01\x03\x82\xD38/BG\xE8u:p\x00\x82q\x00\xEE\xB4p\x98"),
    ("three.hdt, objects", 16, [b'"x"'],
     b'\x02\x81\x84\x90W\x01\x03\x82\xD3 \x8F\xDD\xC0r"x"\x00\xA3\x979\x16'),
    ("seventeen strings", 16, SEVENTEEN,
     b"\x02\x91\xB6\x90&\x01\x06\x83\x95\x80l\x03\xAF\xA0\x11\xABs00\x00\x821\x00\x822\x00\x823\x00\x824\x00\x825\x00"
     b"\x826\x00\x827\x00\x828\x00\x829\x00\x8110\x00\x821\x00\x822\x00\x823\x00\x824\x00\x825\x00s16\x00"
     b"\xB1\xF3\xF8\x94"),
    ("blocks of one", 1, [b"", b"a", b"ab"],
     b"\x02\x83\x86\x81\xDC\x01\x03\x84\xC1\xC8\x0CGG\xE2%\x00a\x00ab\x00\x840{g"),
    ("the largest block", 65_535, [b"aab", b"aac", b"ab"],
     b"\x02\x83\x8A\x7F\x7F\x83\x0F\x01\x04\x82\xB8\xA0\xF7\xE66\xF0aab\x00\x82c\x00\x81b\x00\xC6\xF0ak"),
]

OTHERS = [b"", b"a", b"aa", b"aad", b"ab", b"b", b"abcd", b"s", b"s17", b"http://", b"http://a", b"u:z",
          b"\xF0\x9F\x98", b"a\0"]

WRITERS = "put_section", "write_section", "write_section_agreeing"


def by_each_writer(before: bytes, block_size: int, strings: list[bytes]) -> list[Request]:
    """The requests that write a section behind other bytes."""
    return [(word, before, block_size, *strings) for word in WRITERS]


@pytest.mark.parametrize("block_size, strings, spelling", [row[1:] for row in CANONICAL],
                         ids=[row[0] for row in CANONICAL])
def test_canonical(probe: Probe, block_size: int, strings: list[bytes], spelling: bytes) -> None:
    """The canonical form behind other bytes, by each of the writers; it is read again with a byte behind it."""
    answers = probe.send(*by_each_writer(BEFORE, block_size, strings))
    assert list(zip(WRITERS, answers)) == [(word, ok(BEFORE + spelling)) for word in WRITERS]
    assert hdt.read_section(spelling, 0)[0].strings == strings
    check(probe, BEFORE + spelling + b"\x55", len(BEFORE), OTHERS)


EMOJI = ["😀".encode(), "😁".encode(), "😂x".encode()]
AB = [b"ab", b"abc"]
ABB = [b"ab", b"abc", b"b"]

LOOSE: list[tuple[str, list[bytes], bytes]] = [
    ("one start of the width 0", [],
     hdt.write_section_preamble(0, 0, 16) + hdt.write_numbers_data(b"", 0, 1) + bytes(4)),
    ("no start", [], write_packed(0, b"", [])),
    ("blocks of none", [], write_packed(0, b"", [0], 0)),
    ("a prefix of 0", AB, b"\x02\x82\x88\x90\x16\x01\x04\x82\xB8\x80)h\x8B\xD0ab\x00\x80abc\x00\x86,\xAFW"),
    ("a prefix of 1", AB, b"\x02\x82\x87\x90\xD5\x01\x03\x82\xD38/BG\xE8ab\x00\x81bc\x00\x1F\xE8}\x96"),
    ("a prefix of 2", AB, b"\x02\x82\x86\x90\xC0\x01\x03\x82\xD30\xE0\x1A\x9Ebab\x00\x82c\x00\x85\xF2\x02\x1F"),
    ("a cut character", ["é".encode(), "ê".encode()],
     b"\x02\x82\x86\x90\xC0\x01\x03\x82\xD30\xE0\x1A\x9Eb\xC3\xA9\x00\x81\xAA\x00\xCBP\x99\xE9"),
    ("a shorter prefix than before", [b"aab", b"aac", b"ab"], write_section([b"aab", b"aac", b"ab"])),
    ("no prefixes", SEVENTEEN, write_section(SEVENTEEN, 16, [0] * 17)),
    ("a block of 2^64 - 1", [b"a", b"b", b"c"], write_section([b"a", b"b", b"c"], MAX)),
    ("a character cut after 1", EMOJI, write_section(EMOJI, 16, [1, 1, 1])),
    ("a character cut after 2", EMOJI, write_section(EMOJI, 16, [2, 2, 2])),
    ("a character cut after 3", EMOJI, write_section(EMOJI)),
    ("wide starts, padding of ones", ABB, write_section(ABB, 2, None, 9, -1)),
    ("starts of 64 bits", ABB, write_section(ABB, 2, None, 64)),
]


@pytest.mark.parametrize("strings, data", [row[1:] for row in LOOSE], ids=[row[0] for row in LOOSE])
def test_loose(probe: Probe, strings: list[bytes], data: bytes) -> None:
    """What is read though it is not canonical."""
    assert hdt.read_section(data, 0)[0].strings == strings
    check(probe, data, 0, OTHERS)


def starts(count: int, length: int, *entries: int, width: int = 0) -> bytes:
    """The beginning of a section up to its packed bytes, in blocks of 16: wrong starts, say."""
    return hdt.write_section_preamble(count, length, 16) + hdt.write_numbers(entries, width)


def two(packed: bytes) -> bytes:
    """A section of two strings in one block, whose packed bytes may be wrong."""
    return write_packed(2, packed, [0, len(packed)])


ONE_BLOCK = write_section(AB)
EMPTY = write_section([])
TOO_LARGE = b"\x7F" * 9 + b"\x82"

ERRORS: list[tuple[str, bytes, int, Reason]] = [
    ("nothing", b"", 0, Reason.Truncated),
    ("another type", b"\x01" + ONE_BLOCK[1:], 0, Reason.SectionKind),
    ("a hash section", b"\x03" + ONE_BLOCK[1:], 0, Reason.SectionKind),
    ("no count", b"\x02", 1, Reason.Truncated),
    ("an overlong count", b"\x02\x00\x80", 1, Reason.OverlongNumber),
    ("an overlong length", b"\x02\x82\x00\x80", 2, Reason.OverlongNumber),
    ("too large a block size", b"\x02\x82\x88" + TOO_LARGE, 3, Reason.NumberTooLarge),
    ("no CRC of the preamble", ONE_BLOCK[:4], 4, Reason.Truncated),
    ("another CRC of the preamble", ONE_BLOCK[:4] + b"\xC1" + ONE_BLOCK[5:], 4, Reason.Check8),
    ("blocks of none for a string", hdt.write_section_preamble(1, 4, 0), 3, Reason.BlockSize),
    ("packed bytes without strings", hdt.write_section_preamble(0, 1, 16), 2, Reason.PackedLength),
    ("starts of another type", EMPTY[:5] + b"\x02\x01\x81M" + EMPTY[9:], 5, Reason.SequenceKind),
    ("another CRC of the starts", EMPTY[:13] + b"S" + EMPTY[14:], 10, Reason.Check32),
    ("two starts without strings", starts(0, 0, 0, 0) + bytes(4), 7, Reason.BlockCount),
    ("one start for a block", starts(2, 6, 0) + ONE_BLOCK[14:], 7, Reason.BlockCount),
    ("three starts for a block", starts(2, 6, 0, 6, 6) + ONE_BLOCK[14:], 7, Reason.BlockCount),
    ("2^64 starts wanted", write_packed(MAX, b"", [], 1)[:-4], 16, Reason.BlockCount),
    ("a start other than 0 without strings", write_packed(0, b"", [1]), 9, Reason.BlockPlace),
    ("packed bytes cut", ONE_BLOCK[:19], 14, Reason.Truncated),
    ("no CRC of the packed bytes", ONE_BLOCK[:20], 20, Reason.Truncated),
    ("a short CRC of the packed bytes", ONE_BLOCK[:23], 20, Reason.Truncated),
    ("another CRC of the packed bytes", ONE_BLOCK[:23] + b"\x1E", 20, Reason.Check32),
    ("the first block elsewhere", starts(2, 6, 1, 6) + ONE_BLOCK[14:], 9, Reason.BlockPlace),
    ("the second block elsewhere", write_packed(3, b"ab\0\x82c\0b\0", [0, 5, 8], 2, 8), 10, Reason.BlockPlace),
    ("the last start elsewhere", write_packed(2, b"ab\0\x82c\0", [0, 5], 16, 8), 10, Reason.BlockPlace),
    ("an overlong prefix length", two(b"ab\0\x00\x80c\0"), 17, Reason.OverlongNumber),
    ("too large a prefix length", two(b"ab\0" + TOO_LARGE + b"c\0"), 17, Reason.NumberTooLarge),
    ("a prefix length of 2^64", two(b"ab\0" + hdt.write_vbyte(MAX + 1) + b"c\0"), 17, Reason.NumberTooLarge),
    ("ten digits and no last one", two(b"ab\0" + b"\x01" * 10), 17, Reason.NumberTooLarge),
    ("a prefix length that does not end", two(b"ab\0\x01\x01"), 17, Reason.PackedLength),
    ("no prefix length", two(b"ab\0"), 17, Reason.PackedLength),
    ("a prefix one byte too long", two(b"ab\0\x83\0"), 17, Reason.PrefixTooLong),
    ("a prefix length of ten bytes", two(b"ab\0" + bytes(9) + b"\x81\0"), 17, Reason.PrefixTooLong),
    ("a first string that does not end", two(b"ab"), 14, Reason.PackedLength),
    ("a string that does not end", two(b"ab\0\x82c"), 18, Reason.PackedLength),
    ("no packed byte", write_packed(1, b"", [0, 0]), 14, Reason.PackedLength),
    ("a byte left", two(b"ab\0\x82c\0\0"), 20, Reason.PackedLength),
    ("a string that is not UTF-8", write_packed(1, b"\xC3\0", [0, 2]), 14, Reason.NotUtf8),
    ("a cut character with nothing behind", two(b"\xC3\xA9\0\x81\0"), 17, Reason.NotUtf8),
    ("a cut character with another behind", two(b"\xC3\xA9\0\x81\xC3\xA9\0"), 17, Reason.NotUtf8),
    ("a character of four bytes broken after 1", two(EMOJI[0] + b"\0\x81\xC0\0"), 19, Reason.NotUtf8),
    ("a character of four bytes broken after 2", two(EMOJI[0] + b"\0\x82\xC0\0"), 19, Reason.NotUtf8),
    ("a character of four bytes broken after 3", two(EMOJI[0] + b"\0\x83\xC0\0"), 19, Reason.NotUtf8),
    ("less and not UTF-8", two(b"\xC3\xA9\0\x80\x80\0"), 17, Reason.NotUtf8),
    ("bytes of a character alone", two(b"a\0\x81\xA9\0"), 16, Reason.NotUtf8),
    ("a string that is less", two(b"b\0\x80a\0"), 16, Reason.StringsNotAscending),
    ("an equal string", two(b"ab\0\x82\0"), 17, Reason.StringsNotAscending),
    ("the beginning of the string before", two(b"ab\0\x81\0"), 17, Reason.StringsNotAscending),
    ("a block's first string that is less", write_packed(2, b"b\0a\0", [0, 2, 4], 1), 17, Reason.StringsNotAscending),
    ("an empty string twice", write_packed(2, b"\0\0", [0, 1, 2], 1), 15, Reason.StringsNotAscending),
]


@pytest.mark.parametrize("data, offset, reason", [row[1:] for row in ERRORS], ids=[row[0] for row in ERRORS])
def test_refuses(probe: Probe, data: bytes, offset: int, reason: Reason) -> None:
    """Bytes that are no section; the reference finds the same."""
    assert wanted(data) == fault(reason, offset)
    assert probe.on(data, "section_read", 0) == fault(reason, offset)


@given(ascending(), BLOCK_SIZES, AROUND)
@example([b""], 1, b"")
def test_writes(probe: Probe, strings: list[bytes], block_size: int, before: bytes) -> None:
    """Any strings in blocks of any size are written as the reference writes them, by each of the writers."""
    written = ok(before + write_section(strings, block_size))
    answers = probe.send(("are_strings", *strings), *by_each_writer(before, block_size, strings))
    assert answers == [ok(True)] + [written] * len(WRITERS)


@given(st.lists(STRING, max_size=8), st.integers(0, 3))
def test_writers_keep_count(probe: Probe, strings: list[bytes], block_size: int) -> None:
    """A writer knows how many strings it was given, in any order, and the last of them; a block has some."""
    values: list[Argument] = []
    for i, string in enumerate(strings, 1):
        values += [i, string]
    answer = probe.ask("section_writer", block_size, *strings)
    assert answer == (ok(*values) if block_size else REFUSED)


@given(st.lists(STRING | st.binary(max_size=3), max_size=5))
@example([b"a", b"a"])
@example([b"", b""])
def test_what_sections_hold(probe: Probe, strings: list[bytes]) -> None:
    """Ascending UTF-8 strings without zero bytes are written, others not."""
    fit = sorted(set(strings)) == strings and all(hdt.is_utf8(s) and b"\0" not in s for s in strings)
    written = ok(write_section(strings, 2)) if fit else REFUSED
    answers = probe.send(("are_strings", *strings), *by_each_writer(b"", 2, strings))
    assert answers == [ok(fit)] + [written] * len(WRITERS)


def test_blocks_of_none_are_not_written(probe: Probe) -> None:
    """A block has at least one string."""
    assert probe.send(*by_each_writer(b"", 0, [b"a"])) == [REFUSED] * len(WRITERS)


@given(loose_sections(), AROUND, AROUND, st.lists(STRING, max_size=3))
def test_reads(probe: Probe, made: tuple[list[bytes], bytes], before: bytes, behind: bytes,
               others: list[bytes]) -> None:
    """Sections of any prefixes, block size, width and padding are read; all answers are those of the reference."""
    strings, data = made
    assert hdt.read_section(data, 0)[0].strings == strings
    check(probe, before + data + behind, len(before), others)


@given(st.data(), loose_sections(8))
def test_damaged(probe: Probe, data: st.DataObject, made: tuple[list[bytes], bytes]) -> None:
    """A section with a byte changed is refused as by the reference; also with its CRCs made right."""
    damaged = data.draw(changed(made[1]))
    for file in damaged, checks.with_right_crcs(damaged, lambda file: hdt.read_section(file, 0)):
        assert probe.on(file, "section_read", 0) == wanted(file)


@given(packed_sections(), AROUND)
def test_any_packed_bytes(probe: Probe, file: bytes, before: bytes) -> None:
    """Any packed bytes and block starts under right CRCs are read or refused as by the reference."""
    assert probe.on(before + file, "section_read", len(before)) == wanted(before + file, len(before))


@given(st.lists(st.text("ab", max_size=3).map(str.encode), min_size=1, max_size=5), st.integers(1, 3), st.data())
def test_any_strings_and_prefixes(probe: Probe, strings: list[bytes], block_size: int, data: st.DataObject) -> None:
    """Strings in any order, with prefixes that may be too long, are read or refused as by the reference."""
    packed, entries = bytearray(), []
    for i, string in enumerate(strings):
        if i % block_size == 0:
            entries.append(len(packed))
        else:
            packed += hdt.write_vbyte(data.draw(st.integers(0, 4)))
        packed += string + b"\0"
    file = write_packed(len(strings), bytes(packed), [*entries, len(packed)], block_size)
    assert probe.on(file, "section_read", 0) == wanted(file)


# Common prefixes

def test_common_prefixes(probe: Probe) -> None:
    """Strings of each length about 32 and 64 bytes, with a copy that is changed at each byte, cut there, or equal."""
    pairs = []
    for length in 0, 1, 2, 7, 8, 9, 15, 16, 17, 31, 32, 33, 47, 48, 63, 64, 65, 96, 97:
        a = bytes(37 * i % 256 for i in range(length))
        pairs += [(a, a[:i] + bytes([255 - a[i]]) + a[i + 1:]) for i in range(length)]
        pairs += [(a, a[:i]) for i in range(length)] + [(a[:i], a) for i in range(length + 1)]
    answers = probe.send(*(("common_prefix", a, b) for a, b in pairs))
    assert list(zip(pairs, answers)) == [((a, b), ok(common_prefix(a, b))) for a, b in pairs]


@given(st.integers(0, 70), st.binary(max_size=70), st.binary(max_size=70), st.integers(0, 140))
def test_compared(probe: Probe, length: int, a: bytes, b: bytes, start: int) -> None:
    """How strings lie to each other and agree, also from an offset up to which they are known to agree."""
    a, b = bytes(length) + a, bytes(length) + b
    same = common_prefix(a, b)
    answers = probe.send(("common_prefix", a, b), ("compared_from", a, b, start))
    assert answers == [ok(same), ok(order(a, b), same) if start <= same else REFUSED]


# Large sections

def numerals(count: int) -> list[bytes]:
    """The numbers below a count in six digits."""
    return [b"%06d" % i for i in range(count)]


LONG = b"x" * 1_100_000


@pytest.fixture(scope="module")
def large() -> list[bytes]:
    """140,000 numerals, and a string of 1,100,000 bytes behind them."""
    return [*numerals(140_000), LONG]


@pytest.mark.parametrize("block_size", [1, 3, 16, 65_535, 200_000])
def test_large(probe: Probe, large: list[bytes], block_size: int) -> None:
    """Many strings and a long one: written by each writer, read again, looked up, walked and passed."""
    written = write_section(large, block_size)
    for request in by_each_writer(b"before", block_size, large):
        assert probe.ask(*request) == ok(b"before" + written), request[0]
    numbers = 1, 5_001, 140_000, 140_001
    requests: list[Request] = [
        ("file", written), ("section_read", 0), ("section_strings", 0, *numbers), ("section_walk", 0),
        ("section_seek", 0, *numbers, *reversed(numbers)),
        ("section_place_of", 0, *(large[n - 1] for n in numbers), b"139999x"), ("section_cursor", 0, b"139999x")]
    _, read, strings, walked, sought, places, passed = probe.send(*requests)
    assert read == ok(140_001, -(-140_001 // block_size), len(written))
    assert strings == ok(*(large[n - 1] for n in numbers))
    assert sought == ok(b"", *(large[n - 1] for n in (*numbers, *reversed(numbers))))
    assert places == ok(*numbers, None)
    assert walked[2::2] == tuple(string.hex() for string in large)
    assert passed[1::2] == walked[2::2]
    assert passed[2::2] == ("less",) * 140_000 + ("more",)


@given(loose_sections(), AROUND, st.lists(STRING | st.binary(max_size=3), max_size=3))
def test_prefixes(probe: Probe, made: tuple[list[bytes], bytes], before: bytes, others: list[bytes]) -> None:
    """In any section the IDs of the strings that begin with a prefix are those of a plain filter."""
    strings, data = made
    tried = [*prefixes.SPECIAL, *prefixes.near(strings), *others]
    answer = probe.on(before + data, "section_prefix_range", len(before), *tried)
    assert prefixes.ids_of(answer, len(strings), 1) == [prefixes.begin(strings, prefix) for prefix in tried]


@pytest.mark.parametrize("block_size", [1, 3, 16, 65_535, 200_000])
def test_prefixes_of_many_strings(probe: Probe, large: list[bytes], block_size: int) -> None:
    """The same with 140,001 strings."""
    tried = [*prefixes.SPECIAL, *prefixes.near([large[0], large[70_000], LONG]), *prefixes.some(large, 30, block_size)]
    answer = probe.on(write_section(large, block_size), "section_prefix_range", 0, *tried)
    assert prefixes.ids_of(answer, len(large), 1) == [prefixes.begin(large, prefix) for prefix in tried]


@pytest.mark.parametrize("byte, reason", [(b"0", Reason.StringsNotAscending), (b"\xff", Reason.NotUtf8)],
                         ids=["not ascending", "not UTF-8"])
def test_an_error_behind_many_strings(probe: Probe, large: list[bytes], byte: bytes, reason: Reason) -> None:
    """A byte of string 120,000 is wrong, under the right CRC."""
    packed, entries = fold(large, 200_000)
    section, _ = hdt.read_section(write_packed(len(large), packed, entries, 200_000), 0)
    offset = section.offsets[119_999]
    own = offset - section.offsets[0] + 1
    spoiled = write_packed(len(large), packed[:own] + byte + packed[own + 1:], entries, 200_000)
    assert probe.on(spoiled, "section_read", 0) == fault(reason, offset)


def test_many_empty_strings(probe: Probe) -> None:
    """100,000 empty strings, which take no memory, and another: no strings of a section."""
    assert probe.ask("are_strings", *[b""] * 100_000, b"z") == ok(False)


def test_many_blocks(probe: Probe) -> None:
    """3,000 strings in 188 blocks of 16, one of them of 100,000 bytes: each looked up in each way."""
    strings = numerals(3000)
    strings[1500] += b"x" * 100_000
    check(probe, BEFORE + write_section(strings) + b"\x55", len(BEFORE), OTHERS)
