"""Numbers: the variable-length ones of a file (VByte), and decimal ones of a text."""

from __future__ import annotations

import pytest
from hypothesis import example, given
from hypothesis import strategies as st

from reference import hdt
from reference.hdt import Reason
from support.probe import Probe, fault, ok
from support.strategies import AROUND, DIGITS, VALUES

LARGE = b"x" * (1 << 20)

SPELLINGS = [
    (0, "80"),
    (127, "ff"),
    (128, "00 81"),
    (16383, "7f ff"),
    (2**64 - 1, "7f 7f 7f 7f 7f 7f 7f 7f 7f 81"),
]


@pytest.mark.parametrize("value, spelling", SPELLINGS)
def test_spells_and_reads(probe: Probe, value: int, spelling: str) -> None:
    """A number is spelled so behind other bytes, and read again there with another byte behind it."""
    before, spelled = b"\xff\x00", bytes.fromhex(spelling)
    data = before + spelled + b"\x55"
    answers = probe.send(("vbyte_len", value), ("put_vbyte", before, value), ("file", data), ("read_vbyte", 2))
    assert answers == [ok(len(spelled)), ok(data[:-1]), ok(), ok(value, len(data) - 1)]


ERRORS = [
    ("a last digit 0", "00 80", 0, Reason.OverlongNumber),
    ("a last digit 0 not at the start", "ff 00 80", 1, Reason.OverlongNumber),
    ("eleven digits", "00 00 00 00 00 00 00 00 00 00 81", 0, Reason.NumberTooLarge),
    ("ten bytes and no last digit", "00" * 11, 1, Reason.NumberTooLarge),
    ("nine bytes and no last digit", "00" * 11, 2, Reason.Truncated),
    ("2^64", "7f 7f 7f 7f 7f 7f 7f 7f 7f 82", 0, Reason.NumberTooLarge),
    ("2^64 with a last digit 0", "7f 7f 7f 7f 7f 7f 7f 7f 7f 02 80", 0, Reason.NumberTooLarge),
    ("ten digits, the last one 0", "7f 7f 7f 7f 7f 7f 7f 7f 7f 80", 0, Reason.OverlongNumber),
    ("no last digit", "00", 0, Reason.Truncated),
    ("nothing", "", 0, Reason.Truncated),
    ("at the end", "80", 1, Reason.Truncated),
    ("past the end", "80", 9, Reason.Truncated),
    ("far past the end", "80", 2**64 - 1, Reason.Truncated),
]


@pytest.mark.parametrize("data, at, reason", [row[1:] for row in ERRORS], ids=[row[0] for row in ERRORS])
def test_refuses(probe: Probe, data: str, at: int, reason: Reason) -> None:
    """Bytes that are no number at an offset."""
    assert probe.on(bytes.fromhex(data), "read_vbyte", at) == fault(reason, at)


@given(DIGITS, st.integers(0, 16))
@example(b"\x00" * 9 + b"\x81", 0)
@example(b"\x7f" * 9 + b"\x81", 0)
@example(b"\x7f" * 9 + b"\x82", 0)
def test_reads_any_bytes(probe: Probe, data: bytes, at: int) -> None:
    """Any bytes are read as the reference reads them."""
    try:
        answer = ok(*hdt.read_vbyte(data, at))
    except hdt.Error as error:
        answer = error.answer
    assert probe.on(data, "read_vbyte", at) == answer


@given(AROUND, VALUES, AROUND)
def test_reads_what_it_writes(probe: Probe, before: bytes, value: int, behind: bytes) -> None:
    """Each number is written as the reference writes it, and read again."""
    written = before + hdt.write_vbyte(value)
    answers = probe.send(("put_vbyte", before, value), ("vbyte_len", value), ("file", written + behind),
                         ("read_vbyte", len(before)))
    assert answers == [ok(written), ok(len(written) - len(before)), ok(), ok(value, len(written))]


@given(VALUES, st.integers(2, 10), AROUND)
def test_refuses_overlong_spellings(probe: Probe, value: int, digits: int, behind: bytes) -> None:
    """Of all spellings of a number the shortest alone is read."""
    spelling = hdt.write_vbyte(value, digits)
    overlong = len(spelling) > len(hdt.write_vbyte(value))
    wanted = fault(Reason.OverlongNumber, 0) if overlong else ok(value, len(spelling))
    assert probe.on(spelling + behind, "read_vbyte", 0) == wanted


@given(AROUND, VALUES)
@example(b"", 2**64 - 1)
def test_writes_decimals(probe: Probe, before: bytes, value: int) -> None:
    """A decimal number goes behind what is there."""
    assert probe.ask("put_decimal", before, value) == ok(before + b"%d" % value)


def test_each_count_of_digits(probe: Probe) -> None:
    """The numbers on both sides of each power of two and of ten."""
    near = {power + k for power in [2**i for i in range(65)] + [10**i for i in range(20)] for k in (-1, 0, 1)}
    values = sorted(value for value in near if 0 <= value <= hdt.MAX)
    assert probe.send(*[("put_vbyte", b"", value) for value in values]) == [ok(hdt.write_vbyte(v)) for v in values]
    assert probe.send(*[("put_decimal", b"", value) for value in values]) == [ok(b"%d" % v) for v in values]


def test_writes_behind_large_output(probe: Probe) -> None:
    """Numbers go behind a mebibyte, and 100,000 more behind those."""
    assert probe.ask("put_vbyte", LARGE, 128) == ok(LARGE + b"\x00\x81")
    assert probe.ask("put_decimal", LARGE, hdt.MAX) == ok(LARGE + b"18446744073709551615")


@pytest.mark.parametrize("word, write", [("put_vbyte", hdt.write_vbyte), ("put_decimal", b"%d".__mod__)],
                         ids=["put_vbyte", "put_decimal"])
def test_writes_many(probe: Probe, word: str, write: object) -> None:
    """100,000 numbers, one after another in one vector behind a mebibyte."""
    assert callable(write)
    values = range(100_000)
    assert probe.ask(word, LARGE, *values) == ok(LARGE + b"".join(map(write, values)))
