"""The errors of the HDT format, with their reasons, and its three checksums. `reference.hdt` exports what is here."""

from __future__ import annotations

import enum
from collections.abc import Callable
from typing import TypeVar

T = TypeVar("T")


# Errors

class Reason(enum.IntEnum):
    """Why a file is refused."""

    Truncated = 1
    OverlongNumber = 2
    NumberTooLarge = 3
    NotHdt = 4
    WrongKind = 5
    Check16 = 6
    WrongFormat = 7
    HeaderLength = 8
    TripleOrder = 9
    Check8 = 10
    Check32 = 11
    SequenceKind = 12
    Width = 13
    BitsKind = 14
    SectionKind = 15
    BlockSize = 16
    BlockCount = 17
    BlockPlace = 18
    PrefixTooLong = 19
    PackedLength = 20
    NotUtf8 = 21
    StringsNotAscending = 22
    SectionsOverlap = 23
    NoTriples = 24
    LengthsDiffer = 25
    LastMark = 26
    MarkCount = 27
    SubjectRange = 28
    PredicateRange = 29
    ObjectRange = 30
    PredicatesNotAscending = 31
    ObjectsNotAscending = 32
    TrailingBytes = 33
    Unused = 34


class Error(Exception):
    """The first check that fails: the number and name of its reason, and a byte offset.

    Where a CRC is wrong, `right_crc` is what should be there, else it is empty.
    """

    def __init__(self, reason: Reason, offset: int, right_crc: bytes = b"") -> None:
        super().__init__(int(reason), reason.name, offset)
        self.reason = int(reason)
        self.name = reason.name
        self.offset = offset
        self.right_crc = right_crc

    @property
    def answer(self) -> tuple[str, ...]:
        """The error as a probe answers it."""
        return "fault", str(self.reason), self.name, str(self.offset)


def demand(condition: bool, reason: Reason, offset: int) -> None:
    """Check a condition of the format."""
    if not condition:
        raise Error(reason, offset)


def error_of(read: Callable[..., object], *args: object) -> tuple[int, str, int] | None:
    """The number, name and byte offset of a reader's error, or None where it reads."""
    try:
        read(*args)
    except Error as error:
        return error.reason, error.name, error.offset
    return None


def outcome(read: Callable[..., T], *args: object) -> T | tuple[int, str, int]:
    """What a reader returns, or its error as by `error_of`."""
    return error_of(read, *args) or read(*args)


def with_right_crcs(data: bytes, read: Callable[[bytes], object]) -> bytes:
    """The data with each CRC made right that `read` finds wrong, so that the checks after them are reached."""
    while True:
        try:
            read(data)
            return data
        except Error as error:
            crc = error.right_crc
            if not crc:
                return data
            data = data[:error.offset] + crc + data[error.offset + len(crc):]


# CRCs

def reflected_table(polynomial: int) -> list[int]:
    """The registers after one byte, of a CRC that shifts right."""
    table = []
    for register in range(256):
        for _ in range(8):
            register = register >> 1 ^ polynomial if register & 1 else register >> 1
        table.append(register)
    return table


def crc8_table() -> list[int]:
    """The registers after one byte, of CRC-8/SMBUS, which shifts left."""
    table = []
    for register in range(256):
        for _ in range(8):
            register = (register << 1 ^ 0x07) & 0xFF if register & 0x80 else register << 1
        table.append(register)
    return table


TABLE8 = crc8_table()
TABLE16 = reflected_table(0xA001)
TABLE32 = reflected_table(0x82F63B78)


def crc8(data: bytes) -> int:
    """CRC-8/SMBUS."""
    register = 0
    for byte in data:
        register = TABLE8[register ^ byte]
    return register


def crc16(data: bytes) -> int:
    """CRC-16/ARC."""
    register = 0
    for byte in data:
        register = register >> 8 ^ TABLE16[(register ^ byte) & 0xFF]
    return register


def crc32(data: bytes) -> int:
    """CRC-32C."""
    register = 0xFFFFFFFF
    for byte in data:
        register = register >> 8 ^ TABLE32[(register ^ byte) & 0xFF]
    return register ^ 0xFFFFFFFF


def write_crc8(data: bytes) -> bytes:
    """The 8-bit CRC of the data, as it is stored after them."""
    return bytes([crc8(data)])


def write_crc16(data: bytes) -> bytes:
    """The 16-bit CRC of the data, as it is stored after them."""
    return crc16(data).to_bytes(2, "little")


def write_crc32(data: bytes) -> bytes:
    """The 32-bit CRC of the data, as it is stored after them."""
    return crc32(data).to_bytes(4, "little")


def read_crc(data: bytes, at: int, right: bytes, reason: Reason) -> int:
    """Check that the right CRC is at `at`; return the offset after it."""
    stored = data[at:at + len(right)]
    demand(len(stored) == len(right), Reason.Truncated, at)
    if stored != right:
        raise Error(reason, at, right)
    return at + len(right)


def read_crc8(data: bytes, start: int, at: int) -> int:
    """Check the 8-bit CRC at `at` of the bytes from `start`; return the offset after it."""
    return read_crc(data, at, write_crc8(data[start:at]), Reason.Check8)


def read_crc16(data: bytes, start: int, at: int) -> int:
    """Check the 16-bit CRC at `at` of the bytes from `start`; return the offset after it."""
    return read_crc(data, at, write_crc16(data[start:at]), Reason.Check16)


def read_crc32(data: bytes, start: int, at: int) -> int:
    """Check the 32-bit CRC at `at` of the bytes from `start`; return the offset after it."""
    return read_crc(data, at, write_crc32(data[start:at]), Reason.Check32)
