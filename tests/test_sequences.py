"""Log sequences of numbers, bitmaps, and directories over bitmaps (rank and select)."""

from __future__ import annotations

import pytest
from hypothesis import example, given
from hypothesis import strategies as st

from reference import checks, hdt
from reference.hdt import MAX, Bits, Numbers, Reason, write_bits, write_numbers, write_numbers_data
from support.answers import REFUSED, answered
from support.probe import Answer, Argument, Probe, fault, ok
from support.strategies import AROUND, PADDING, VALUES, changed, entries_of

BEFORE = b"\xff\x01\x80"

WIDTHS = st.integers(0, 64)


def numbers_of(read: tuple[Numbers, int]) -> tuple[Argument, ...]:
    """A log sequence as the word `numbers` answers it, with at most 50 entries."""
    numbers, end = read
    return numbers.length, numbers.count_at, end, *(numbers[i] for i in range(min(numbers.length, 50)))


def bits_of(read: tuple[Bits, int]) -> tuple[Argument, ...]:
    """A bitmap as the word `bits` answers it, with at most 500 bits."""
    bits, end = read
    return len(bits), bits.count_at, end, *bits.bits[:500]


def wanted_numbers(data: bytes, at: int) -> Answer:
    """The answer of `numbers`, by the reference."""
    return answered(hdt.read_numbers, (data, at), numbers_of)


def wanted_bits(data: bytes, at: int) -> Answer:
    """The answer of `bits`, by the reference."""
    return answered(hdt.read_bits, (data, at), bits_of)


def mixed(width: int, count: int) -> list[int]:
    """Entries of a width: the greatest one, then ones with mixed digits."""
    entries, digits = [], MAX
    for _ in range(count):
        entries.append(digits >> 64 - width)
        digits = (digits * 0x9E3779B97F4A7C15 + 0x123456789ABCDEF1) % 2**64
    return entries


# Log sequences

NUMBERS = [
    ([1, 2, 5], "01 03 83 D4 51 01 23 5B 7A D0"),
    ([], "01 01 80 F7 00 00 00 00"),
    ([0], "01 01 81 F0 00 51 53 7D 52"),
    ([1], "01 01 81 F0 01 52 D0 16 A0"),
    ([2], "01 02 81 CF 02 A6 23 46 B3"),
    ([0, 4], "01 03 82 D3 20 8F DD C0 72"),
    ([0, 10], "01 04 82 B8 A0 F7 E6 36 F0"),
    ([0, 13, 22], "01 05 83 AA A0 59 36 6F BE 5C"),
    ([1, 2, 1], "01 02 83 C1 19 F2 4F 91 3A"),
    ([2, 3, 1], "01 02 83 C1 1E 19 2B 5B EE"),
]


@pytest.mark.parametrize("entries, spelling", NUMBERS)
def test_numbers_are_spelled_and_read(probe: Probe, entries: list[int], spelling: str) -> None:
    """The canonical spelling, behind other bytes and before another; each entry has its offset."""
    width, written = hdt.width_of(entries), BEFORE + bytes.fromhex(spelling)
    data_at = len(BEFORE) + 4
    answers = probe.send(("put_numbers", BEFORE, *entries), ("width_of", *entries), ("file", written + b"\x55"),
                         ("numbers", 3, 50), *(("number", 3, i) for i in range(len(entries))))
    assert answers == [ok(written), ok(width), ok(), ok(len(entries), 5, len(written), *entries),
                       *(ok(entry, data_at + width * i // 8) for i, entry in enumerate(entries))]


OTHER_NUMBERS = [
    ("padding bits of 1", "01 03 83 D4 51 FF 71 8B 6C 8F", [1, 2, 5]),
    ("an entry of the width 0", "01 00 81 E5 00 00 00 00", [0]),
    ("no entry of the width 0", "01 00 80 E2 00 00 00 00", []),
]


@pytest.mark.parametrize("spelling, entries", [row[1:] for row in OTHER_NUMBERS], ids=[r[0] for r in OTHER_NUMBERS])
def test_other_spellings_are_read(probe: Probe, spelling: str, entries: list[int]) -> None:
    """What is read though it is not canonical."""
    data = BEFORE + bytes.fromhex(spelling)
    assert probe.on(data, "numbers", 3, 50) == ok(len(entries), 5, len(data), *entries)


def test_most_entries_of_the_width_0(probe: Probe) -> None:
    """As many entries of no bits as there can be, in 17 bytes."""
    data = write_numbers_data(b"", 0, MAX)
    answers = probe.send(("file", data), ("numbers", 0, 2), ("number", 0, 0), ("number", 0, MAX - 1),
                         ("number", 0, MAX))
    assert answers[1:] == [ok(MAX, 2, 17, 0, 0), ok(0, 13), ok(0, 13), REFUSED]


@pytest.mark.parametrize("width", range(65))
def test_each_width(probe: Probe, width: int) -> None:
    """Few and more entries of each width, read with padding bits of 1, and written and read again.

    With 41 of them, entries of an odd width begin at each bit of a byte.
    """
    for count in 1, 2, 5, 41:
        entries = mixed(width, count)
        packed = hdt.pack(entries, width, -1)
        loose = BEFORE + write_numbers_data(packed, width, count)
        written = BEFORE + write_numbers(entries)
        data_at, least = len(BEFORE) + 4, max(width, 1)
        for data, used in (loose, width), (written + b"\x55", least):
            end = len(BEFORE) + 4 + (used * count + 7) // 8 + 4
            answers = probe.send(("file", data), ("numbers", 3, 50), *(("number", 3, i) for i in range(count)),
                                 ("number", 3, count))
            assert answers[1:] == [ok(count, 5, end, *entries), *(
                ok(entry, data_at + used * i // 8) for i, entry in enumerate(entries)), REFUSED]
        assert probe.ask("put_numbers", BEFORE, *entries) == ok(written)


@pytest.mark.parametrize("width", [1, 23, 64])
def test_many_numbers(probe: Probe, width: int) -> None:
    """100,000 entries are written as they are packed, and read again."""
    entries = mixed(width, 100_000)
    written = BEFORE + write_numbers(entries)
    assert probe.ask("put_numbers", BEFORE, *entries) == ok(written)
    assert probe.on(written + b"\x55", "numbers", 3, 100_000) == ok(100_000, 5, len(written), *entries)


NUMBERS_ERRORS = [
    ("nothing", "", 0, Reason.Truncated),
    ("another type", "02", 0, Reason.SequenceKind),
    ("no width", "01", 1, Reason.Truncated),
    ("a width of 65", "01 41", 1, Reason.Width),
    ("a width of 255", "01 FF", 1, Reason.Width),
    ("no count", "01 40", 2, Reason.Truncated),
    ("an overlong count", "01 03 00 80", 2, Reason.OverlongNumber),
    ("2^64 entries", "01 40 7F 7F 7F 7F 7F 7F 7F 7F 7F 82 7A", 2, Reason.NumberTooLarge),
    ("no CRC of the preamble", "01 03 83", 3, Reason.Truncated),
    ("another CRC of the preamble", "01 03 83 D5", 3, Reason.Check8),
    ("no entries", "01 03 83 D4", 4, Reason.Truncated),
    ("half the entries", "01 03 83 D4 51", 4, Reason.Truncated),
    ("2^64 - 1 entries of 64 bits", "01 40 7F 7F 7F 7F 7F 7F 7F 7F 7F 81 7A", 13, Reason.Truncated),
    ("no CRC", "01 03 83 D4 51 01", 6, Reason.Truncated),
    ("three bytes of the CRC", "01 03 83 D4 51 01 23 5B 7A", 6, Reason.Truncated),
    ("another CRC", "01 03 83 D4 51 01 23 5B 7A D1", 6, Reason.Check32),
]


@pytest.mark.parametrize("data, offset, reason", [r[1:] for r in NUMBERS_ERRORS], ids=[r[0] for r in NUMBERS_ERRORS])
def test_numbers_are_refused(probe: Probe, data: str, offset: int, reason: Reason) -> None:
    """Bytes that are no log sequence."""
    assert probe.on(bytes.fromhex(data), "numbers", 0, 50) == fault(reason, offset)


WIDTHS_OF = [([], 1), ([0], 1), ([5], 3), ([MAX], 64), ([1, 8, 7], 4), ([0, 1, 1], 1)]


@pytest.mark.parametrize("entries, width", WIDTHS_OF)
def test_width(probe: Probe, entries: list[int], width: int) -> None:
    """The width that entries are written in."""
    assert probe.ask("width_of", *entries) == ok(width)


@given(st.lists(VALUES, max_size=40))
@example([MAX, 0])
def test_numbers_as_written(probe: Probe, entries: list[int]) -> None:
    """Any entries are written as the reference writes them."""
    written = BEFORE + write_numbers(entries)
    assert probe.send(("put_numbers", BEFORE, *entries), ("width_of", *entries)) == [
        ok(written), ok(hdt.width_of(entries))]


@given(st.data(), WIDTHS, PADDING, AROUND, AROUND)
def test_numbers_of_any_width(probe: Probe, data: st.DataObject, width: int, padding: int, before: bytes,
                              behind: bytes) -> None:
    """Entries of any width with any padding bits are read, each at its offset, and no entry past them."""
    entries, at = data.draw(entries_of(width)), len(before)
    file = before + write_numbers_data(hdt.pack(entries, width, padding), width, len(entries)) + behind
    numbers, end = hdt.read_numbers(file, at)
    assert list(numbers) == entries
    answers = probe.send(("file", file), ("numbers", at, 50), *(("number", at, i) for i in range(len(entries))),
                         ("entries", at, *reversed(range(len(entries)))), ("number", at, len(entries)))
    assert answers[1:] == [
        ok(*numbers_of((numbers, end))), *(ok(entry, numbers.offset_of(i)) for i, entry in enumerate(entries)),
        ok(*reversed(entries)), REFUSED]


@given(st.data(), WIDTHS)
def test_damaged_numbers(probe: Probe, data: st.DataObject, width: int) -> None:
    """A log sequence with a byte changed is refused as by the reference; also with its CRCs made right."""
    entries = data.draw(entries_of(width))
    damaged = data.draw(changed(write_numbers_data(hdt.pack(entries, width), width, len(entries))))
    for file in damaged, checks.with_right_crcs(damaged, lambda file: hdt.read_numbers(file, 0)):
        assert probe.on(file, "numbers", 0, 50) == wanted_numbers(file, 0)


# Bitmaps

BITMAPS = [
    ([1], "01 81 9B 01 52 D0 16 A0"),
    ([0], "01 81 9B 00 51 53 7D 52"),
    ([1, 1], "01 82 92 03 A5 A0 2D 41"),
    ([0, 1, 1], "01 83 95 06 B9 B4 DC 74"),
    ([1, 1, 1], "01 83 95 07 BA 37 B7 86"),
]


@pytest.mark.parametrize("bits, spelling", BITMAPS)
def test_bits_are_spelled_and_read(probe: Probe, bits: list[int], spelling: str) -> None:
    """The canonical spelling, behind other bytes and before another; each bit has its offset."""
    written = BEFORE + bytes.fromhex(spelling)
    answers = probe.send(("put_bits", BEFORE, *bits), ("file", written + b"\x55"), ("bits", 3, 50),
                         *(("bit", 3, i) for i in range(len(bits))))
    assert answers == [ok(written), ok(), ok(len(bits), 4, len(written), *bits), *(ok(bit, 6) for bit in bits)]


BITS_ERRORS = [
    ("nothing", "", 0, Reason.Truncated),
    ("another type", "02", 0, Reason.BitsKind),
    ("no count", "01", 1, Reason.Truncated),
    ("no bits", "01 80 9C", 1, Reason.NoTriples),
    ("another CRC of the preamble", "01 80 00", 2, Reason.Check8),
    ("no CRC of the preamble", "01 83", 2, Reason.Truncated),
    ("no bytes", "01 83 95", 3, Reason.Truncated),
    ("no CRC", "01 83 95 06", 4, Reason.Truncated),
    ("another CRC", "01 83 95 06 B9 B4 DC 75", 4, Reason.Check32),
]


@pytest.mark.parametrize("data, offset, reason", [row[1:] for row in BITS_ERRORS], ids=[row[0] for row in BITS_ERRORS])
def test_bits_are_refused(probe: Probe, data: str, offset: int, reason: Reason) -> None:
    """Bytes that are no bitmap."""
    assert probe.on(bytes.fromhex(data), "bits", 0, 50) == fault(reason, offset)


def test_no_bits_are_not_written(probe: Probe) -> None:
    """A bitmap has at least one bit."""
    assert probe.ask("put_bits", b"") == REFUSED


def test_bits_over_many_bytes(probe: Probe) -> None:
    """41 bits at their offsets, with padding bits of 1."""
    bits = mixed(1, 41)
    answers = probe.send(("file", write_bits(bits, -1)), ("bits", 0, 50), *(("bit", 0, i) for i in range(41)))
    assert answers[1:] == [ok(41, 1, 13, *bits), *(ok(bit, 3 + i // 8) for i, bit in enumerate(bits))]


def test_a_million_bits(probe: Probe) -> None:
    """A million bits are written as they are packed, and read again."""
    bits = mixed(1, 1_000_000)
    written = write_bits(bits)
    assert len(written) == 1 + 3 + 1 + 125_000 + 4
    assert probe.ask("put_bits", b"", *bits) == ok(written)
    assert probe.on(written, "bits", 0, 1_000_000) == ok(1_000_000, 1, len(written), *bits)


BIT_LISTS = st.one_of(st.lists(st.integers(0, 1), min_size=1, max_size=70),
                      st.integers(500, 1600).flatmap(lambda n: st.integers(0, 2**n - 1).map(
                          lambda joined: [joined >> i & 1 for i in range(n)])),
                      st.tuples(st.integers(0, 1), st.integers(1, 1600)).map(lambda run: [run[0]] * run[1]))


@given(BIT_LISTS, PADDING, AROUND, AROUND)
def test_any_bits(probe: Probe, bits: list[int], padding: int, before: bytes, behind: bytes) -> None:
    """Any bits are written as the reference writes them, and read with any padding bits."""
    at, file = len(before), before + write_bits(bits, padding) + behind
    read, end = hdt.read_bits(file, at)
    asked = sorted({0, len(bits) // 2, len(bits) - 1})
    answers = probe.send(("put_bits", before, *bits), ("file", file), ("bits", at, 500),
                         *(("bit", at, i) for i in asked), ("bit", at, len(bits)))
    assert answers == [ok(before + write_bits(bits)), ok(), ok(*bits_of((read, end))),
                       *(ok(bits[i], read.offset_of(i)) for i in asked), REFUSED]


@given(st.data(), BIT_LISTS)
def test_damaged_bits(probe: Probe, data: st.DataObject, bits: list[int]) -> None:
    """A bitmap with a byte changed is refused as by the reference; also with its CRCs made right."""
    damaged = data.draw(changed(write_bits(bits)))
    for file in damaged, checks.with_right_crcs(damaged, lambda file: hdt.read_bits(file, 0)):
        assert probe.on(file, "bits", 0, 500) == wanted_bits(file, 0)


# Directories: the ones before a bit (rank), and the index of the k-th one, from 1 (select)

DIRECTORIES = [
    ("a zero", 1, b"\x00", {0: 0, 1: 0}, {}, 2),
    ("a zero, padding of ones", 1, b"\xfe", {0: 0, 1: 0}, {}, 2),
    ("a one", 1, b"\xff", {0: 0, 1: 1}, {1: 0}, 2),
    ("three triples", 3, b"\x06", {1: 0, 2: 1, 3: 2}, {1: 1, 2: 2}, 2),
    ("three triples, padding of ones", 3, b"\xfe", {1: 0, 2: 1, 3: 2}, {1: 1, 2: 2}, 2),
    ("500 ones: a part of the last word", 500, b"\xff" * 63, {447: 447, 448: 448, 449: 449, 500: 500},
     {448: 447, 449: 448, 500: 499}, 2),
    ("512 ones: a whole group", 512, b"\xff" * 64, {0: 0, 448: 448, 511: 511, 512: 512},
     {1: 0, 449: 448, 512: 511}, 2),
    ("ones on both sides of a group's end", 513, bytes(63) + b"\x80\x01", {511: 0, 512: 1, 513: 2},
     {1: 511, 2: 512}, 3),
    ("the same, padding of ones", 513, bytes(63) + b"\x80\xff", {511: 0, 512: 1, 513: 2}, {1: 511, 2: 512}, 3),
    ("513 triples of a subject and one of another", 514, bytes(64) + b"\x03", {512: 0, 513: 1, 514: 2},
     {1: 512, 2: 513}, 3),
    ("the same, padding of ones", 514, bytes(64) + b"\xff", {512: 0, 513: 1, 514: 2}, {1: 512, 2: 513}, 3),
    ("the only one is the last of two groups", 1024, bytes(127) + b"\x80", {511: 0, 1023: 0, 1024: 1}, {1: 1023}, 3),
    ("a million zeros and two ones", 1_000_003, bytes(125_000) + b"\x05",
     {1_000_000: 0, 1_000_001: 1, 1_000_003: 2}, {1: 1_000_000, 2: 1_000_002}, 1955),
]


@pytest.mark.parametrize("count, packed, ranks, indexes, held", [row[1:] for row in DIRECTORIES],
                         ids=[row[0] for row in DIRECTORIES])
def test_rank_and_select(probe: Probe, count: int, packed: bytes, ranks: dict[int, int], indexes: dict[int, int],
                         held: int) -> None:
    """Ranks and indexes of worked bitmaps, and how many numbers a directory holds."""
    preamble = b"\x01" + hdt.write_vbyte(count)
    data = preamble + hdt.write_crc8(preamble) + packed + hdt.write_crc32(packed)
    answers = probe.send(("file", data), ("held", 0), ("rank", 0, *ranks), ("rank", 0, count + 1),
                         ("select", 0, 0), ("select", 0, max(indexes, default=0) + 1))
    assert answers[1:] == [ok(held), ok(*ranks.values()), REFUSED, REFUSED, REFUSED]
    if indexes:
        assert probe.ask("select", 0, *indexes) == ok(*indexes.values())


def test_a_plain_count(probe: Probe) -> None:
    """Ranks before each of 100,003 mixed bits, and the index of each one, are those of a plain count."""
    digits, packed = 1, bytearray()
    for _ in range(12_501):
        digits = (digits * 0x5851F42D4C957F2D + 0x14057B7EF767814F) % 2**64
        packed.append(digits >> 56)
    bits = [byte >> k & 1 for byte in packed for k in range(8)][:100_003]
    ranks, ones = [0], []
    for i, bit in enumerate(bits):
        ranks.append(ranks[-1] + bit)
        ones += [i] * bit
    data = write_bits(bits, packed[-1] >> 3)
    assert data[-5] == packed[-1]
    answers = probe.send(("file", data), ("rank", 0, *range(len(ranks))), ("select", 0, *range(1, len(ones) + 1)))
    assert answers[1:] == [ok(*ranks), ok(*ones)]


@given(BIT_LISTS, PADDING)
def test_any_rank_and_select(probe: Probe, bits: list[int], padding: int) -> None:
    """Rank before each bit and select of each one, of any bits and padding bits."""
    ones = [i for i, bit in enumerate(bits) if bit]
    answers = probe.send(("file", write_bits(bits, padding)), ("rank", 0, *range(len(bits) + 1)),
                         ("select", 0, *range(1, len(ones) + 1)), ("rank", 0, len(bits) + 1),
                         ("select", 0, len(ones) + 1))
    ranks = [0]
    for bit in bits:
        ranks.append(ranks[-1] + bit)
    assert ranks[len(bits) // 2] == hdt.rank(bits, len(bits) // 2)
    assert answers[1:2] + answers[3:] == [ok(*ranks), REFUSED, REFUSED]
    assert not ones or answers[2] == ok(*ones)


# What sequences and sections share

@given(st.binary(max_size=12), st.integers(0, 13))
def test_takes_a_byte(probe: Probe, data: bytes, at: int) -> None:
    """The byte at an offset, or Truncated there."""
    assert probe.on(data, "byte_at", at) == (
        ok(data[at], at + 1) if at < len(data) else fault(Reason.Truncated, at))


@given(st.binary(max_size=12), st.data())
def test_checks_8_bit_crcs(probe: Probe, data: bytes, drawn: st.DataObject) -> None:
    """The 8-bit CRC behind bytes, right or wrong or not there."""
    at = drawn.draw(st.integers(0, len(data)))
    start = drawn.draw(st.integers(0, at))
    right = hdt.write_crc8(data[start:at])
    for file in data, data[:at], data[:at] + right + data[at:]:
        wanted = answered(hdt.read_crc8, (file, start, at), lambda end: (end,))
        assert probe.on(file, "code8_at", start, at) == wanted


@given(st.binary(max_size=12), st.integers(0, 13), st.integers(0, 110) | st.just(MAX))
def test_takes_packed_bytes(probe: Probe, data: bytes, at: int, bits: int) -> None:
    """The bytes that so many bits take, behind which their 32-bit CRC is right, wrong or not there."""
    end = at + (bits + 7) // 8
    for file in data, data[:end] + hdt.write_crc32(data[at:end]) + data[end:]:
        there = end <= len(file)
        wanted = (answered(hdt.read_crc32, (file, at, end), lambda behind: (file[at:end], behind)) if there
                  else fault(Reason.Truncated, at))
        assert probe.on(file, "packed_at", at, bits) == wanted
