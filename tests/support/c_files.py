"""HDT files, valid and invalid, that c/test.c reads, and damaged files whose CRCs are right."""

from __future__ import annotations

from collections.abc import Callable
from itertools import product
from unittest import mock

from reference import checks, hdt as reference
from reference.hdt import (Strings, write_bits, write_crc8, write_crc16, write_crc32, write_dictionary, write_head,
                           write_numbers, write_section, write_triples, write_vbyte)
from support.built import SAMPLES

V1 = (SAMPLES / "v1.hdt").read_bytes()
THREE = (SAMPLES / "three.hdt").read_bytes()
BASE = b"http://a/"

# Triples of dictionary strings: terms of each kind, and strings that are no terms.
TERMS: list[Strings] = list(product(
    (b"_:b", b"_:b.1", b"u:a", "u:\u00e9".encode()),
    (b"u:p", b"u:q"),
    (b'"x"', b'"x"@en', b'"x"^^<u:t>', b'"a\\"b"\n\r\t"@en-GB', b'""@""', b"_:b", b"u:a", '"\u20ac"'.encode()),
))
NO_TERMS: list[Strings] = [(b"<a>", b"u:p", b""), (b"<u:a>", b"??", b'"?"'), (b"u:a", b"u:p", b"<u:a>")]
NUMBERED: list[Strings] = [
    (b"u:s%d" % s, b"u:p%d" % p, b'"%d"' % o) for s, p, o in product(range(3), range(2), range(2))
] + [(b"u:s1", b"u:p1", b"u:s2")]


def samples() -> dict[str, bytes]:
    """The sample files, and a file of no bytes."""
    return {**{path.stem: path.read_bytes() for path in sorted(SAMPLES.glob("*.hdt"))}, "nothing": b""}


def loose_files() -> dict[str, bytes]:
    """The sample with a string that its triple doesn't use in its role."""
    other = write_section([b"u:x"])
    used = V1[:351] + other + V1[369:]
    return {
        "an unused subject": V1[:305] + other + V1[323:],
        "an unused object": used,
        "a shared string used once": used[:-9] + write_numbers([2]),
    }


def small_files() -> dict[str, bytes]:
    """The sample with a part replaced, most of them invalid."""
    other, empty, most = write_section([b"u:x"]), write_section([]), write_vbyte(2**64 - 1)
    pairs = (write_bits([1]), write_bits([1, 1]), write_numbers([1]), write_numbers([1, 1]))
    once = write_dictionary([b"u:a", b"u:b"], [], [b"u:p"], []) + write_triples([(1, 1, 1), (2, 1, 1)])
    many_bits, many_numbers = b"\x01" + most, b"\x01\x00" + most
    return {
        "an altered header body": V1[:100] + b"\xff" + V1[101:],
        "one byte less": V1[:-1],
        "one byte more": V1 + b"x",
        "overlapping sections": V1[:305] + other + V1[323:351] + other + V1[369:],
        "a last bit that is 0": V1[:433] + write_bits([0]) + V1[441:],
        "more bits than pairs": V1[:425] + b"".join(pairs),
        "predicate 0": V1[:441] + write_numbers([0]) + V1[450:],
        "an object too many": V1[:450] + write_numbers([2]),
        "an altered packed byte": V1[:298] + b"\x62" + V1[299:],
        "an altered block size": V1[:283] + b"\x05" + V1[284:],
        "an empty shared section": V1[:277] + empty + V1[305:],
        "a shared string that is only a subject": write_head() + once,
        "2^64 - 1 bits": V1[:425] + many_bits + write_crc8(many_bits) + V1[428:],
        "2^64 - 1 numbers": V1[:441] + many_numbers + write_crc8(many_numbers) + write_crc32(b"") + V1[450:],
    }


def graphs() -> dict[str, bytes]:
    """Graphs of terms of each kind, and of strings that are no terms, in canonical and in other encodings."""
    subjects, predicates, objects = ({triple[role] for triple in TERMS} for role in range(3))
    return {
        "terms of each kind": reference.graph(TERMS, BASE).data,
        "terms in blocks of three": reference.graph(TERMS, BASE, 3).data,
        "no terms": reference.graph(NO_TERMS).data,
        "a foreign encoding": reference.loose(TERMS, subjects, predicates, objects, BASE, 5, 23).data,
    }


# ---- damaged files

CRCS = {1: write_crc8, 2: write_crc16, 4: write_crc32}


def damageable() -> dict[str, bytes]:
    """The files of which `damaged` makes others."""
    return {
        "three": THREE,
        "numbered": reference.graph(NUMBERED, b"u:b", 2).data,
        "terms": reference.graph(TERMS[:9], None, 4).data,
    }


def crcs(data: bytes) -> list[tuple[int, int, int]]:
    """The CRCs of a valid file: where the bytes that each covers begin and end, and its length."""
    found = []

    def recorder(length: int) -> Callable[[bytes, int, int], int]:
        def record(data: bytes, start: int, at: int) -> int:
            found.append((start, at, length))
            return at + length
        return record

    with mock.patch.multiple(reference, read_crc8=recorder(1), read_crc16=recorder(2), read_crc32=recorder(4)):
        reference.read_file(data)
    return found


def damaged(data: bytes) -> list[bytes]:
    """Other files: this one with one byte changed and CRCs made right, so that the checks after those are reached.

    Each change comes with the CRCs right that a reader of the changed file comes to, and with those right that the
    original file has.
    """
    found, covered = {data: None}, crcs(data)
    for at, flip in product(range(len(data)), (1, 2, 4, 8, 0x40, 0x80, 0xFF)):
        changed = bytearray(data)
        changed[at] ^= flip
        found[checks.with_right_crcs(bytes(changed), reference.read_file)] = None
        for start, end, length in covered:
            changed[end:end + length] = CRCS[length](bytes(changed[start:end]))
        found[bytes(changed)] = None
    return list(found)[1:]
