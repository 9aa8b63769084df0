"""Hypothesis strategies for the parts of a file."""

from __future__ import annotations

from hypothesis import strategies as st

from reference import hdt

# Numbers of any size: each count of binary digits is as likely as another.
VALUES = st.one_of(st.integers(0, 64).map(lambda k: min(1 << k, hdt.MAX)), st.integers(0, 64).flatmap(
    lambda k: st.integers(0, (1 << k) - 1)))

# Bytes that often are the digits of a number: runs of small ones, ended or not.
DIGITS = st.lists(st.integers(0, 255) | st.sampled_from([0, 1, 127, 128, 129, 255]), max_size=14).map(bytes)

# Bytes before and behind a part.
AROUND = st.binary(max_size=5)

# Strings as they are in dictionaries, with common prefixes and characters of one to four bytes.
STRING = st.one_of(
    st.text(st.characters(min_codepoint=1, blacklist_categories=["Cs"]), max_size=8),
    st.text("ab/é€😀", max_size=12),
    st.tuples(st.sampled_from(["", "http://a/", "x" * 31, "y" * 70]), st.text("ab0", max_size=6)).map("".join),
).map(str.encode)

BLOCK_SIZES = st.sampled_from([1, 2, 3, 4, 16, 127, 128, 65_535])

# Padding bits: zeros, ones, or mixed ones.
PADDING = st.sampled_from([0, -1]) | st.integers(0, 255)


def ascending(max_size: int = 30) -> st.SearchStrategy[list[bytes]]:
    """Strictly ascending strings."""
    return st.lists(STRING, unique=True, max_size=max_size).map(sorted)


def entries_of(width: int, max_size: int = 40) -> st.SearchStrategy[list[int]]:
    """Entries of a width: any, and often the greatest."""
    most = (1 << width) - 1
    return st.lists(st.integers(0, most) | st.just(most), max_size=max_size)


@st.composite
def loose_sections(draw: st.DrawFn, max_size: int = 20) -> tuple[list[bytes], bytes]:
    """Strings, and a section of them: of any block size, any prefixes, any width and padding of its block starts."""
    strings = draw(ascending(max_size))
    block_size = draw(BLOCK_SIZES)
    prefixes = [draw(st.integers(0, 12)) if draw(st.booleans()) else len(string) for string in strings]
    starts = hdt.fold(strings, block_size, prefixes)[1]
    width = draw(st.integers(hdt.width_of(starts), 64))
    return strings, hdt.write_section(strings, block_size, prefixes, width, draw(PADDING))


@st.composite
def packed_sections(draw: st.DrawFn) -> bytes:
    """A section under right CRCs whose packed bytes and block starts may be anything that looks like them."""
    pieces = st.sampled_from([b"\0", b"\x80", b"\x81", b"\x82", b"\x83", b"\x01", b"a", b"b", b"\xc3", b"\xa9",
                              b"a\0", b"b\0", b"\x80b\0", b"\x81a\0", b"\x81b\0"])
    packed = b"".join(draw(st.lists(pieces, max_size=10)))
    count, block_size = draw(st.integers(0, 5)), draw(st.integers(0, 4))
    blocks = -(-count // block_size) if count and block_size else draw(st.integers(0, 2))
    likely = [i + 1 for i, byte in enumerate(packed) if byte == 0] or [0]
    inner = [draw(st.sampled_from(likely)) for _ in range(blocks - 1)]
    starts = [0] * (blocks > 0) + sorted(inner) + [len(packed)]
    if draw(st.integers(0, 5)) == 0:
        starts[draw(st.integers(0, len(starts) - 1))] = draw(st.integers(0, len(packed) + 1))
    width = draw(st.integers(hdt.width_of(starts), 64))
    return hdt.write_packed(count, packed, starts, block_size, width, draw(PADDING))


@st.composite
def changed(draw: st.DrawFn, data: bytes, start: int = 0) -> bytes:
    """The data with a byte from an offset on changed, taken out or put in, or without its end."""
    at = draw(st.integers(start, len(data) - 1))
    byte = bytes([draw(st.integers(0, 255) | st.sampled_from([0, 1, 2, 127, 128, 129, 130]))])
    way = draw(st.sampled_from(["changed", "changed", "taken out", "put in", "cut"]))
    if way == "changed":
        return data[:at] + byte + data[at + 1:]
    if way == "taken out":
        return data[:at] + data[at + 1:]
    return data[:at] + byte + data[at:] if way == "put in" else data[:at]
