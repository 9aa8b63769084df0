"""A file for each error: samples/three.hdt with a change, and right CRCs where those are not what is wrong."""

from __future__ import annotations

from pathlib import Path

from reference import hdt as model
from reference.hdt import write_bits, write_numbers, write_section

THREE = (Path(__file__).resolve().parent.parent / "samples/three.hdt").read_bytes()
BODY = model.header_body(b"http://a/", 3)
# The parts of samples/three.hdt, in their order.
PARTS = {
    "global": model.write_control(model.GLOBAL),
    "header": model.write_control(model.HEADER, b"length=%d;" % len(BODY)),
    "body": BODY,
    "dictionary": model.write_control(model.DICTIONARY, b"mapping=1;"),
    "shared": write_section([b"u:a", b"u:b"]),
    "subjects": write_section([]),
    "predicates": write_section([b"u:p", b"u:q"]),
    "objects": write_section([b'"x"']),
    "triples": model.write_control(model.TRIPLES, b"order=1;"),
    "bits_y": write_bits([0, 1, 1]),
    "bits_z": write_bits([1, 1, 1]),
    "numbers_y": write_numbers([1, 2, 1]),
    "numbers_z": write_numbers([2, 3, 1]),
}
LIST = b"<http://purl.org/HDT/hdt#triplesList>"


def having(**parts: bytes) -> bytes:
    """Return the file of three triples with these parts in place of its own."""
    return b"".join({**PARTS, **parts}.values())


def changed(part: str, at: int, value: int) -> bytes:
    """Return the file with a byte of a part replaced, and the part's CRCs as they were."""
    old = PARTS[part]
    return having(**{part: old[:at] + bytes([value]) + old[at + 1 :]})


def section(count: int, packed: bytes, starts: list[int], block_size: int = 16) -> bytes:
    """Return the file with this shared section, and right CRCs."""
    return having(shared=model.write_packed(count, packed, starts, block_size))


# The file of each error, made of samples/three.hdt.
FILES = {
    "Truncated": THREE[:-1],
    "OverlongNumber": having(shared=b"\x02\x02\x80" + PARTS["shared"][2:]),
    "NumberTooLarge": having(shared=b"\x02" + b"\x7f" * 10 + PARTS["shared"][2:]),
    "NotHdt": b"\xef\xbb\xbf" + THREE,
    "WrongKind": having(header=b"", body=b""),
    "Check16": having(triples=PARTS["triples"].replace(b"order=1", b"order=2")),
    "WrongFormat": having(triples=model.write_control(model.TRIPLES, b"order=1;", LIST)),
    "HeaderLength": having(header=model.write_control(model.HEADER)),
    "TripleOrder": having(triples=model.write_control(model.TRIPLES, b"order=4;")),
    "Check8": changed("shared", 1, 0x83),
    "Check32": changed("shared", 14, ord("v")),
    "SequenceKind": changed("numbers_y", 0, 2),
    "Width": changed("numbers_y", 1, 65),
    "BitsKind": changed("bits_y", 0, 2),
    "SectionKind": changed("shared", 0, 3),
    "BlockSize": section(2, b"u:a\0\x82b\0", [0, 7], 0),
    "BlockCount": section(2, b"u:a\0\x82b\0", [0]),
    "BlockPlace": section(2, b"u:a\0\x82b\0", [0, 8]),
    "PrefixTooLong": section(2, b"u:a\0\x84b\0", [0, 7]),
    "PackedLength": section(2, b"u:a\0\x82b\0\0", [0, 8]),
    "NotUtf8": section(2, b"u:a\0\x82\xe9\0", [0, 7]),
    "StringsNotAscending": section(2, b"u:a\0\x82B\0", [0, 7]),
    "SectionsOverlap": having(objects=write_section([b'"x"', b"u:a"])),
    "NoTriples": having(bits_y=write_bits([])),
    "LengthsDiffer": having(numbers_y=write_numbers([1, 2])),
    "LastMark": having(bits_y=write_bits([0, 1, 0])),
    "MarkCount": having(bits_z=write_bits([0, 1, 1])),
    "SubjectRange": having(bits_y=write_bits([1, 1, 1])),
    "PredicateRange": having(numbers_y=write_numbers([0, 1, 0])),
    "ObjectRange": having(numbers_z=write_numbers([2, 4, 1])),
    "PredicatesNotAscending": having(numbers_y=write_numbers([2, 1, 1])),
    "ObjectsNotAscending": having(
        bits_y=write_bits([1, 1]), bits_z=write_bits([0, 1, 1]),
        numbers_y=write_numbers([1, 1]), numbers_z=write_numbers([3, 2, 1]),
    ),
    "TrailingBytes": THREE + b"\n",
    "Unused": having(objects=write_section([b'"x"', b'"y"'])),
}
# A file with an object that has no form in N-Triples.
NOT_A_TERM = having(objects=write_section([b"x"]))
