"""The CRCs of 8, 16 and 32 bits."""

from __future__ import annotations

import pytest
from hypothesis import given
from hypothesis import strategies as st

from reference import checks
from support.probe import Answer, Probe, ok

WORDS = "check8", "check16", "check32"


def crcs(data: bytes) -> list[Answer]:
    """The answers of the three words, by the reference."""
    return [ok(checks.crc8(data)), ok(checks.crc16(data)), ok(checks.crc32(data))]


def asked(probe: Probe, data: bytes) -> list[Answer]:
    """The answers of the three words."""
    return probe.send(("file", data), *((word,) for word in WORDS))[1:]


PUBLISHED = [
    (b"123456789", 0xF4, 0xBB3D, 0xE3069283),
    (b"", 0, 0, 0),
    # 32 bytes of zeros, of ones, ascending and descending: RFC 3720, B.4.
    (bytes(32), 0, 0, 0x8A9136AA),
    (b"\xff" * 32, None, None, 0x62A8AB43),
    (bytes(range(32)), None, None, 0x46DD794E),
    (bytes(range(31, -1, -1)), None, None, 0x113FDB5C),
]


@pytest.mark.parametrize("data, of_8, of_16, of_32", PUBLISHED, ids=[
    "digits", "nothing", "zeros", "ones", "ascending", "descending"])
def test_published_values(probe: Probe, data: bytes, of_8: int | None, of_16: int | None, of_32: int | None) -> None:
    """The published check values; where a CRC has none, the value of the reference."""
    wanted = [ok(known) if known is not None else other for known, other in zip((of_8, of_16, of_32), crcs(data))]
    assert asked(probe, data) == wanted


@given(st.binary(max_size=300))
def test_any_bytes(probe: Probe, data: bytes) -> None:
    """The CRCs of any bytes."""
    assert asked(probe, data) == crcs(data)


def test_each_length_and_byte(probe: Probe) -> None:
    """Each length up to 200, and each single byte, also behind others: each entry of a table."""
    mixed = bytes(37 * i % 251 for i in range(200))
    texts = [mixed[:length] for length in range(201)]
    texts += [bytes([byte]) for byte in range(256)] + [bytes(8) + bytes([byte]) + bytes(8) for byte in range(256)]
    assert [(text, asked(probe, text)) for text in texts] == [(text, crcs(text)) for text in texts]


def test_large(probe: Probe) -> None:
    """A mebibyte and some bytes more."""
    data = bytes(range(251)) * 4200
    assert asked(probe, data) == crcs(data)
