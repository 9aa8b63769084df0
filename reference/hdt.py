"""The HDT format: a small writer and a small reader of every part of a file, and of whole files.

It follows docs/FORMAT.md and shares no code with the engine, so that each can be compared with the other.

- `write_PART(..)` returns the bytes of a part. Without further arguments it is the canonical form; the arguments give
  the other spellings that a reader has to accept (a greater width, padding bits, shorter prefixes, more properties).
- `read_PART(data, at)` returns the part that begins at the byte offset `at`, and the offset after it. It raises
  `Error` for the first check that fails.
- `graph` and `loose` write whole files from triples of dictionary strings.
"""

from __future__ import annotations

from collections.abc import Collection, Iterable, Iterator, Sequence
from dataclasses import dataclass
from itertools import product
from typing import NamedTuple, Optional

from reference.checks import (
    Error as Error,
    Reason as Reason,
    demand as demand,
    read_crc16 as read_crc16,
    read_crc32 as read_crc32,
    read_crc8 as read_crc8,
    write_crc16 as write_crc16,
    write_crc32 as write_crc32,
    write_crc8 as write_crc8,
)

Triple = tuple[int, int, int]
Pattern = tuple[Optional[int], Optional[int], Optional[int]]
Strings = tuple[bytes, bytes, bytes]

MAX = 2**64 - 1


# Numbers (VByte)

def write_vbyte(value: int, digits: int = 1) -> bytes:
    """A number in base 128, least digit first; the last byte has its top bit set.

    More `digits` than the number needs give an overlong spelling, which readers refuse.
    """
    written = bytearray()
    while value >= 128 or len(written) + 1 < digits:
        written.append(value % 128)
        value //= 128
    return bytes(written) + bytes([value + 128])


def read_vbyte(data: bytes, at: int, stop: int | None = None) -> tuple[int, int]:
    """The number at `at`, which ends before `stop` (else before the end of the data), and the offset after it."""
    window = data[at:at + 10 if stop is None else min(at + 10, stop)]
    last = next((i for i, byte in enumerate(window) if byte >= 128), None)
    if last is None:
        raise Error(Reason.NumberTooLarge if len(window) == 10 else Reason.Truncated, at)
    value = sum((byte & 127) << 7 * i for i, byte in enumerate(window[:last + 1]))
    demand(value <= MAX, Reason.NumberTooLarge, at)
    demand(last == 0 or window[last] != 128, Reason.OverlongNumber, at)
    return value, at + last + 1


# Control information

GLOBAL, HEADER, DICTIONARY, TRIPLES = 1, 2, 3, 4

FORMATS = {
    GLOBAL: b"<http://purl.org/HDT/hdt#HDTv1>",
    HEADER: b"ntriples",
    DICTIONARY: b"<http://purl.org/HDT/hdt#dictionaryFour>",
    TRIPLES: b"<http://purl.org/HDT/hdt#triplesBitmap>",
}


class Control(NamedTuple):
    """Control information: its format, its properties, and the offset where the properties begin."""

    format: bytes
    properties: bytes
    properties_at: int


def write_control(kind: int, properties: bytes = b"", format: bytes | None = None) -> bytes:
    """Control information of a kind, with the format that belongs to it or with another."""
    control = b"$HDT" + bytes([kind]) + (FORMATS[kind] if format is None else format) + b"\0" + properties + b"\0"
    return control + write_crc16(control)


def read_control(data: bytes, at: int, kind: int) -> tuple[Control, int]:
    """The control information at `at`, which has to be of this kind, and the offset after it."""
    cookie = data[at:at + 4]
    demand(len(cookie) == 4, Reason.Truncated, at)
    demand(cookie == b"$HDT", Reason.NotHdt, at)
    demand(len(data) > at + 4, Reason.Truncated, at + 4)
    demand(data[at + 4] == kind, Reason.WrongKind, at + 4)
    format_end = data.find(b"\0", at + 5)
    demand(format_end >= 0, Reason.Truncated, at + 5)
    properties_end = data.find(b"\0", format_end + 1)
    demand(properties_end >= 0, Reason.Truncated, format_end + 1)
    end = read_crc16(data, at, properties_end + 1)
    demand(data[at + 5:format_end] == FORMATS[kind], Reason.WrongFormat, at + 5)
    return Control(data[at + 5:format_end], data[format_end + 1:properties_end], format_end + 1), end


def property_of(text: bytes, key: bytes) -> bytes | None:
    """The value of the last property with this key."""
    value = None
    for piece in text.split(b";"):
        name, equals, behind = piece.partition(b"=")
        if equals and name == key:
            value = behind
    return value


# Log sequences and bitmaps

def pack(entries: Sequence[int], width: int, padding: int = 0) -> bytes:
    """Entries side by side, least bit first.

    The bits behind the last entry are the lowest ones of `padding`: 0 for zeros, -1 for ones.
    """
    packed = bytearray()
    for i in range(0, len(entries), 8):
        group = entries[i:i + 8]
        size = (width * len(group) + 7) // 8
        joined = sum(entry << width * k for k, entry in enumerate(group)) | padding << width * len(group)
        packed += (joined & (1 << 8 * size) - 1).to_bytes(size, "little")
    return bytes(packed)


def width_of(entries: Iterable[int]) -> int:
    """The canonical width: the number of binary digits of the greatest entry, at least 1."""
    return max(1, max(entries, default=0).bit_length())


@dataclass(frozen=True)
class Numbers:
    """A log sequence. With the width 0 its length can be any number, so its entries are read on demand."""

    length: int
    width: int
    data: bytes
    data_at: int
    count_at: int

    def __len__(self) -> int:
        return self.length

    def __getitem__(self, i: int) -> int:
        if not 0 <= i < self.length:
            raise IndexError(i)
        first = self.width * i
        held = int.from_bytes(self.data[first // 8:(first + self.width + 7) // 8], "little")
        return held >> first % 8 & (1 << self.width) - 1

    def __iter__(self) -> Iterator[int]:
        return (self[i] for i in range(self.length))

    def offset_of(self, i: int) -> int:
        """The byte offset of an entry."""
        return self.data_at + self.width * i // 8


@dataclass(frozen=True)
class Bits:
    """A bitmap."""

    bits: list[int]
    data_at: int
    count_at: int

    def __len__(self) -> int:
        return len(self.bits)

    def __getitem__(self, i: int) -> int:
        return self.bits[i]

    def __iter__(self) -> Iterator[int]:
        return iter(self.bits)

    def offset_of(self, i: int) -> int:
        """The byte offset of a bit."""
        return self.data_at + i // 8


def rank(bits: Sequence[int], i: int) -> int:
    """The count of ones before index i."""
    return sum(bits[:i])


def select(bits: Sequence[int], k: int) -> int:
    """The index of the k-th one, from 1."""
    return [i for i, bit in enumerate(bits) if bit][k - 1]


def write_numbers(entries: Sequence[int], width: int = 0, padding: int = 0) -> bytes:
    """A log sequence; `width` 0 is the canonical width."""
    width = width or width_of(entries)
    return write_numbers_data(pack(entries, width, padding), width, len(entries))


def write_numbers_data(data: bytes, width: int, length: int) -> bytes:
    """A log sequence from its width, its length and its data."""
    preamble = bytes([1, width]) + write_vbyte(length)
    return preamble + write_crc8(preamble) + data + write_crc32(data)


def write_bits(bits: Sequence[int], padding: int = 0) -> bytes:
    """A bitmap."""
    preamble = b"\x01" + write_vbyte(len(bits))
    data = pack(bits, 1, padding)
    return preamble + write_crc8(preamble) + data + write_crc32(data)


def read_kind(data: bytes, at: int, kind: int, reason: Reason) -> None:
    """Check the type byte at `at`."""
    demand(at < len(data), Reason.Truncated, at)
    demand(data[at] == kind, reason, at)


def read_numbers(data: bytes, at: int) -> tuple[Numbers, int]:
    """The log sequence at `at`, and the offset after it."""
    read_kind(data, at, 1, Reason.SequenceKind)
    demand(at + 1 < len(data), Reason.Truncated, at + 1)
    width = data[at + 1]
    demand(width <= 64, Reason.Width, at + 1)
    length, preamble_end = read_vbyte(data, at + 2)
    data_at = read_crc8(data, at, preamble_end)
    data_end = data_at + (width * length + 7) // 8
    demand(data_end <= len(data), Reason.Truncated, data_at)
    end = read_crc32(data, data_at, data_end)
    return Numbers(length, width, data[data_at:data_end], data_at, at + 2), end


def read_bits(data: bytes, at: int) -> tuple[Bits, int]:
    """The bitmap at `at`, and the offset after it."""
    read_kind(data, at, 1, Reason.BitsKind)
    length, preamble_end = read_vbyte(data, at + 1)
    data_at = read_crc8(data, at, preamble_end)
    demand(length >= 1, Reason.NoTriples, at + 1)
    data_end = data_at + (length + 7) // 8
    demand(data_end <= len(data), Reason.Truncated, data_at)
    end = read_crc32(data, data_at, data_end)
    bits = [byte >> k & 1 for byte in data[data_at:data_end] for k in range(8)][:length]
    return Bits(bits, data_at, at + 1), end


# Sections of the dictionary

@dataclass(frozen=True)
class Section:
    """A front-coded section: its strings, the byte offset of each, and the length of the prefix that it keeps."""

    strings: list[bytes]
    offsets: list[int]
    prefixes: list[int]
    block_size: int
    starts: Numbers
    packed: bytes

    def __len__(self) -> int:
        return len(self.strings)

    @property
    def blocks(self) -> int:
        """The count of blocks."""
        return -(-len(self.strings) // self.block_size) if self.strings else 0

    def block_of(self, i: int) -> bytes:
        """The packed bytes of the block of string i, from 0."""
        block = i // self.block_size
        return self.packed[self.starts[block]:self.starts[block + 1]]


def common_prefix(a: bytes, b: bytes) -> int:
    """The length of the longest common prefix."""
    shorter = min(len(a), len(b))
    if a[:shorter] == b[:shorter]:
        return shorter
    return next(k for k in range(shorter) if a[k] != b[k])


def fold(strings: Sequence[bytes], block_size: int, prefixes: Sequence[int] | None = None) -> tuple[bytes, list[int]]:
    """The packed bytes of strings, and where each block starts in them, followed by the length of them all.

    `prefixes` are the lengths of the prefixes, one for each string, as far as they are common ones. Else each is the
    longest common prefix.
    """
    packed, starts, before = bytearray(), [], b""
    for i, string in enumerate(strings):
        if i % block_size == 0:
            starts.append(len(packed))
            packed += string + b"\0"
        else:
            kept = common_prefix(before, string)
            kept = kept if prefixes is None else min(kept, prefixes[i])
            packed += write_vbyte(kept) + string[kept:] + b"\0"
        before = string
    return bytes(packed), starts + [len(packed)]


def write_section(strings: Sequence[bytes], block_size: int = 16, prefixes: Sequence[int] | None = None,
                  width: int = 0, padding: int = 0) -> bytes:
    """A section; `prefixes` as in `fold`, `width` and `padding` of the block starts."""
    packed, starts = fold(strings, block_size, prefixes)
    return write_packed(len(strings), packed, starts, block_size, width, padding)


def write_packed(count: int, packed: bytes, starts: Sequence[int], block_size: int = 16,
                 width: int = 0, padding: int = 0) -> bytes:
    """A section from its packed bytes and block starts, which may be wrong ones."""
    preamble = write_section_preamble(count, len(packed), block_size)
    return preamble + write_numbers(starts, width, padding) + packed + write_crc32(packed)


def write_section_preamble(count: int, length: int, block_size: int) -> bytes:
    """The first bytes of a section: its type, three numbers and their CRC."""
    preamble = b"\x02" + write_vbyte(count) + write_vbyte(length) + write_vbyte(block_size)
    return preamble + write_crc8(preamble)


def read_section(data: bytes, at: int) -> tuple[Section, int]:
    """The section at `at`, and the offset after it."""
    read_kind(data, at, 2, Reason.SectionKind)
    count, length_at = read_vbyte(data, at + 1)
    length, size_at = read_vbyte(data, length_at)
    block_size, preamble_end = read_vbyte(data, size_at)
    starts_at = read_crc8(data, at, preamble_end)
    demand(count == 0 or block_size >= 1, Reason.BlockSize, size_at)
    demand(count > 0 or length == 0, Reason.PackedLength, length_at)
    starts, packed_at = read_numbers(data, starts_at)
    if count == 0:
        demand(starts.length <= 1, Reason.BlockCount, starts.count_at)
        demand(starts.length == 0 or starts[0] == 0, Reason.BlockPlace, starts.data_at)
    else:
        demand(starts.length == -(-count // block_size) + 1, Reason.BlockCount, starts.count_at)
    packed_end = packed_at + length
    demand(packed_end <= len(data), Reason.Truncated, packed_at)
    end = read_crc32(data, packed_at, packed_end)
    section = Section([], [], [], block_size, starts, data[packed_at:packed_end])
    at, before = packed_at, b""
    for i in range(count):
        section.offsets.append(at)
        prefix, own_at = 0, at
        if i % block_size == 0:
            block = i // block_size
            demand(starts[block] == at - packed_at, Reason.BlockPlace, starts.offset_of(block))
        else:
            prefix, own_at = read_prefix(data, at, packed_end, before)
        string, end_of_string = read_string(data, at, own_at, packed_end, before[:prefix])
        demand(i == 0 or string > before, Reason.StringsNotAscending, at)
        section.strings.append(string)
        section.prefixes.append(prefix)
        before, at = string, end_of_string
    demand(at == packed_end, Reason.PackedLength, at)
    if count:
        demand(starts[starts.length - 1] == length, Reason.BlockPlace, starts.offset_of(starts.length - 1))
    return section, end


def read_prefix(data: bytes, at: int, packed_end: int, before: bytes) -> tuple[int, int]:
    """The length of the prefix that a string keeps of the one before, and the offset after it."""
    try:
        prefix, own_at = read_vbyte(data, at, packed_end)
    except Error as error:
        raise Error(Reason.PackedLength, at) if error.reason == Reason.Truncated else error
    demand(prefix <= len(before), Reason.PrefixTooLong, at)
    return prefix, own_at


def read_string(data: bytes, at: int, own_at: int, packed_end: int, prefix: bytes) -> tuple[bytes, int]:
    """The string at `at` with this prefix, whose own bytes begin at `own_at`, and the offset after it."""
    zero = data.find(b"\0", own_at, packed_end)
    demand(zero >= 0, Reason.PackedLength, own_at)
    string = prefix + data[own_at:zero]
    demand(is_utf8(string), Reason.NotUtf8, at)
    return string, zero + 1


def is_utf8(text: bytes) -> bool:
    """Whether the bytes are UTF-8."""
    try:
        text.decode()
        return True
    except UnicodeDecodeError:
        return False


# Dictionaries

ROLES = SUBJECT, PREDICATE, OBJECT = "subject", "predicate", "object"


@dataclass(frozen=True)
class Dictionary:
    """The four sections, and their control information."""

    control: Control
    shared: Section
    subjects: Section
    predicates: Section
    objects: Section

    @property
    def sections(self) -> tuple[Section, Section, Section, Section]:
        """The sections in the order of the file."""
        return self.shared, self.subjects, self.predicates, self.objects

    @property
    def section_lens(self) -> tuple[int, int, int, int]:
        """The count of strings of each section."""
        return len(self.shared), len(self.subjects), len(self.predicates), len(self.objects)

    def strings(self, role: str) -> list[bytes]:
        """The strings of a role, by ascending ID: the first has the ID 1."""
        if role == PREDICATE:
            return self.predicates.strings
        return self.shared.strings + (self.subjects if role == SUBJECT else self.objects).strings

    def offsets(self, role: str) -> list[int]:
        """The byte offset of each string of a role."""
        if role == PREDICATE:
            return self.predicates.offsets
        return self.shared.offsets + (self.subjects if role == SUBJECT else self.objects).offsets

    @property
    def counts(self) -> tuple[int, int, int]:
        """The count of strings of each role."""
        shared, subjects, predicates, objects = self.section_lens
        return shared + subjects, predicates, shared + objects


class Parts(NamedTuple):
    """The strings of the four sections."""

    shared: list[bytes]
    subjects: list[bytes]
    predicates: list[bytes]
    objects: list[bytes]


def split(subjects: Iterable[bytes], predicates: Iterable[bytes], objects: Iterable[bytes]) -> Parts:
    """The sections of three sets of strings."""
    ss, os = set(subjects), set(objects)
    return Parts(sorted(ss & os), sorted(ss - os), sorted(set(predicates)), sorted(os - ss))


@dataclass(frozen=True)
class Style:
    """The choices of a writer that readers have to accept. The canonical form is `Style()`, up to the block size."""

    block_size: int = 16
    width: int = 0
    padding: int = 0
    longest_prefixes: bool = True
    before: bytes = b""
    behind: bytes = b""

    def properties(self, needed: bytes) -> bytes:
        """The properties that a part needs, with further ones before and behind them."""
        return self.before + needed + self.behind

    def section(self, strings: Sequence[bytes]) -> bytes:
        """A section in this style."""
        prefixes = None if self.longest_prefixes else [0] * len(strings)
        return write_section(strings, self.block_size, prefixes, self.width, self.padding)


FURTHER = b"a=b;Codification=x=y;", b"sizeStrings=12;last"


def loose_style(block_size: int = 16, width: int = 0) -> Style:
    """A style that differs from the canonical form wherever it can; with the width 0 the canonical form."""
    return Style(block_size, width, -1, False, *FURTHER) if width else Style(block_size)


def write_dictionary(shared: Sequence[bytes], subjects: Sequence[bytes], predicates: Sequence[bytes],
                     objects: Sequence[bytes], style: Style = Style()) -> bytes:
    """A dictionary from the strings of its sections."""
    control = write_control(DICTIONARY, style.properties(b"mapping=1;"))
    return control + b"".join(style.section(strings) for strings in (shared, subjects, predicates, objects))


def read_dictionary(data: bytes, at: int) -> tuple[Dictionary, int]:
    """The dictionary at `at`, and the offset after it."""
    control, at = read_control(data, at, DICTIONARY)
    shared, at = read_section(data, at)
    subjects, at = read_section(data, at)
    predicates, at = read_section(data, at)
    objects, at = read_section(data, at)
    taken = set(shared.strings)
    for section in subjects, objects:
        for string, offset in zip(section.strings, section.offsets):
            demand(string not in taken, Reason.SectionsOverlap, offset)
        taken.update(section.strings)
    return Dictionary(control, shared, subjects, predicates, objects), at


# Triples

@dataclass(frozen=True)
class Triples:
    """Bitmap triples: their list, and the four sequences."""

    control: Control
    ids: list[Triple]
    bits_y: Bits
    bits_z: Bits
    numbers_y: Numbers
    numbers_z: Numbers


def write_sequences(bits_y: Sequence[int], bits_z: Sequence[int], numbers_y: Sequence[int], numbers_z: Sequence[int],
                    style: Style = Style()) -> bytes:
    """The triples' control information and these four sequences, which may be wrong ones."""
    return b"".join([
        write_control(TRIPLES, style.properties(b"order=1;")),
        write_bits(bits_y, style.padding), write_bits(bits_z, style.padding),
        write_numbers(numbers_y, style.width, style.padding), write_numbers(numbers_z, style.width, style.padding)])


def write_triples(ascending: Sequence[Triple], style: Style = Style()) -> bytes:
    """Bitmap triples of a strictly ascending list whose subjects are 1, 2, 3, .. without a gap."""
    pairs = sorted({(s, p) for s, p, _ in ascending})
    bits_y = [int(after is None or after[0] != pair[0]) for pair, after in zip(pairs, [*pairs[1:], None])]
    bits_z = [int(after is None or after[:2] != triple[:2])
              for triple, after in zip(ascending, [*ascending[1:], None])]
    return write_sequences(bits_y, bits_z, [p for _, p in pairs], [o for _, _, o in ascending], style)


def read_triples(data: bytes, at: int, counts: tuple[int, int, int]) -> tuple[Triples, int]:
    """The bitmap triples at `at`, and the offset behind them; `counts` are the strings of each role."""
    control, at = read_control(data, at, TRIPLES)
    demand(property_of(control.properties, b"order") == b"1", Reason.TripleOrder, control.properties_at)
    bits_y, at = read_bits(data, at)
    bits_z, at = read_bits(data, at)
    numbers_y, at = read_numbers(data, at)
    numbers_z, end = read_numbers(data, at)
    demand(len(bits_y) == numbers_y.length, Reason.LengthsDiffer, numbers_y.count_at)
    demand(len(bits_z) == numbers_z.length, Reason.LengthsDiffer, numbers_z.count_at)
    for bits in bits_y, bits_z:
        demand(bits[len(bits) - 1] == 1, Reason.LastMark, bits.offset_of(len(bits) - 1))
    demand(sum(bits_z) == len(bits_y), Reason.MarkCount, bits_z.count_at)
    pairs = read_pairs(bits_y, numbers_y, counts)
    ids: list[Triple] = []
    before, pair = 0, 0
    for j, (o, is_last) in enumerate(zip(numbers_z, bits_z)):
        demand(1 <= o <= counts[2], Reason.ObjectRange, numbers_z.offset_of(j))
        demand(o > before, Reason.ObjectsNotAscending, numbers_z.offset_of(j))
        ids.append((*pairs[pair], o))
        before, pair = (0, pair + 1) if is_last else (o, pair)
    return Triples(control, ids, bits_y, bits_z, numbers_y, numbers_z), end


def read_pairs(bits_y: Bits, numbers_y: Numbers, counts: tuple[int, int, int]) -> list[tuple[int, int]]:
    """The pairs of subject and predicate of bitmap triples."""
    pairs = []
    s, before = 1, 0
    for q, (p, is_last) in enumerate(zip(numbers_y, bits_y)):
        demand(s <= counts[0], Reason.SubjectRange, bits_y.offset_of(q))
        demand(1 <= p <= counts[1], Reason.PredicateRange, numbers_y.offset_of(q))
        demand(p > before, Reason.PredicatesNotAscending, numbers_y.offset_of(q))
        pairs.append((s, p))
        s, before = (s + 1, 0) if is_last else (s, p)
    return pairs


def matches(ids: Iterable[Triple], pattern: Pattern) -> list[Triple]:
    """The triples that match a pattern, whose IDs are given or None."""
    return [triple for triple in ids if all(given in (None, n) for given, n in zip(pattern, triple))]


def patterns(triple: Triple) -> list[Pattern]:
    """The eight patterns that a triple matches, by which of its IDs are given."""
    return [(s, p, o) for s, p, o in product(*((None, n) for n in triple))]


def matches_of(ids: Iterable[Triple], asked: Iterable[Pattern]) -> dict[Pattern, list[Triple]]:
    """The triples that match each of many patterns, by one pass over all triples."""
    found: dict[Pattern, list[Triple]] = {pattern: [] for pattern in asked}
    for triple in ids:
        for pattern in patterns(triple):
            if pattern in found:
                found[pattern].append(triple)
    return found


# Whole files

@dataclass(frozen=True)
class Head:
    """The global and header control information, and the header body."""

    of_file: Control
    header: Control
    body: bytes


@dataclass(frozen=True)
class File:
    """A whole file."""

    head: Head
    dictionary: Dictionary
    triples: Triples

    @property
    def counts(self) -> tuple[int, int, int, int, int]:
        """The counts of triples and of the strings of each section, as `hdt verify` prints them."""
        return (len(self.triples.ids), *self.dictionary.section_lens)

    @property
    def denoted(self) -> list[Strings]:
        """The triples of dictionary strings, in the order of the file."""
        ss, ps, os = map(self.dictionary.strings, ROLES)
        return [(ss[s - 1], ps[p - 1], os[o - 1]) for s, p, o in self.triples.ids]


def header_body(base: bytes, count: int) -> bytes:
    """The header body that a builder writes of so many triples."""
    dataset = b"<%s> <http://www.w3.org/1999/02/22-rdf-syntax-ns#type> <http://purl.org/HDT/hdt#Dataset> .\n"
    return dataset % base + b'<%s> <http://rdfs.org/ns/void#triples> "%d" .\n' % (base, count)


def write_head(body: bytes = b"", style: Style = Style()) -> bytes:
    """The global and header control information, and the header body."""
    header = write_control(HEADER, style.properties(b"length=%d;" % len(body)))
    return write_control(GLOBAL, style.properties(b"")) + header + body


def read_head(data: bytes) -> tuple[Head, int]:
    """The head of a file, and the offset after it."""
    of_file, at = read_control(data, 0, GLOBAL)
    header, at = read_control(data, at, HEADER)
    length = decimal(property_of(header.properties, b"length") or b"")
    if length is None:
        raise Error(Reason.HeaderLength, header.properties_at)
    demand(at + length <= len(data), Reason.Truncated, at)
    return Head(of_file, header, data[at:at + length]), at + length


def decimal(text: bytes) -> int | None:
    """The number below 2^64 that is spelled so, maybe with leading zeros."""
    digits = text.lstrip(b"0")
    if not text.isdigit() or len(digits) > 20:
        return None
    value = int(digits or b"0")
    return value if value <= MAX else None


def read_file(data: bytes, tight: bool = False) -> File:
    """A whole file; a tight one has no string that triples do not use."""
    head, at = read_head(data)
    dictionary, at = read_dictionary(data, at)
    triples, end = read_triples(data, at, dictionary.counts)
    demand(end == len(data), Reason.TrailingBytes, end)
    if tight:
        check_all_used(dictionary, triples.ids)
    return File(head, dictionary, triples)


def check_all_used(dictionary: Dictionary, ids: Sequence[Triple]) -> None:
    """Check that triples use each string in each of its roles."""
    used_s, used_p, used_o = ({triple[k] for triple in ids} for k in range(3))
    n = len(dictionary.shared)
    for first, section, uses in ((1, dictionary.shared, [used_s, used_o]), (n + 1, dictionary.subjects, [used_s]),
                                 (1, dictionary.predicates, [used_p]), (n + 1, dictionary.objects, [used_o])):
        for number, offset in enumerate(section.offsets, first):
            demand(all(number in used for used in uses), Reason.Unused, offset)


class Written(NamedTuple):
    """A file, its triples by IDs, and its triples by strings, both in the order of the file."""

    data: bytes
    ids: list[Triple]
    strings: list[Strings]


def graph(strings: Collection[Strings], base: bytes | None = None, block_size: int = 16) -> Written:
    """The canonical file of these triples; without a base its header body is empty."""
    ss, ps, os = ({triple[k] for triple in strings} for k in range(3))
    return loose(strings, ss, ps, os, base, block_size)


def loose(strings: Collection[Strings], subjects: Collection[bytes], predicates: Collection[bytes],
          objects: Collection[bytes], base: bytes | None = None, block_size: int = 16, width: int = 0) -> Written:
    """The same with these strings in each role, in a loose style of this width if it is not 0.

    Strings may be unused, but of the subjects only the last ones: the subjects of triples are counted.
    """
    return write_file(strings, split(subjects, predicates, objects), base, loose_style(block_size, width))


def write_file(strings: Collection[Strings], parts: Parts, base: bytes | None, style: Style) -> Written:
    """A file of these triples with the strings of these sections, in this style."""
    roles = parts.shared + parts.subjects, parts.predicates, parts.shared + parts.objects
    s_ids, p_ids, o_ids = ({string: n for n, string in enumerate(role, 1)} for role in roles)
    ids = sorted({(s_ids[s], p_ids[p], o_ids[o]) for s, p, o in strings})
    head = write_head(b"" if base is None else header_body(base, len(ids)), style)
    data = head + write_dictionary(*parts, style) + write_triples(ids, style)
    return Written(data, ids, [(roles[0][s - 1], roles[1][p - 1], roles[2][o - 1]) for s, p, o in ids])


# Large files for tests of linear time

def write_one_block(prefix: bytes, tails: Sequence[bytes]) -> bytes:
    """A section of one block, whose strings share a prefix and keep just this prefix of the string before."""
    packed = prefix + tails[0] + b"\0" + b"".join(write_vbyte(len(prefix)) + tail + b"\0" for tail in tails[1:])
    return write_packed(len(tails), packed, [0, len(packed)], 1 << 40)


def long_prefixes(kinds: int, length: int, count: int) -> tuple[bytes, tuple[int, int, int, int, int]]:
    """A file and its counts, whose strings have a common prefix of so many bytes.

    The strings of the sections, so many each, take turns in their order: those of subjects and objects, and with 3
    kinds those of shared too.
    """
    prefix = b"http://a/" + b"x" * length
    tails = [[b"%07d" % (kinds * i + kind) for i in range(count)] for kind in range(kinds)]
    shared, subjects, objects = ([] if kinds == 2 else tails[0]), tails[-2], tails[-1]
    sections = [write_one_block(prefix, shared) if shared else write_section([]), write_one_block(prefix, subjects),
                write_section([b"u:p"]), write_one_block(prefix, objects)]
    used = len(shared) + count
    front = write_head() + write_control(DICTIONARY, b"mapping=1;") + b"".join(sections)
    return front + write_triples([(i, 1, i) for i in range(1, used + 1)]), (used, len(shared), count, 1, count)


def loose_prefixes(length: int, count: int) -> tuple[bytes, tuple[int, int, int, int, int]]:
    """A file with unused strings, and the counts of the file that is rewritten from it.

    Its dictionary is that of `long_prefixes` with 3 kinds, of which triples use all shared strings, the first half of
    the subjects and each seventh of the objects.
    """
    data = long_prefixes(3, length, count)[0]
    subjects = count + count // 2
    used = [(i, 1, 7 * (i % (2 * count // 7)) + 1) for i in range(1, subjects + 1)]
    objects = {o for _, _, o in used}
    both = sum(o <= count for o in objects)
    return (data[:data.index(b"$HDT\4")] + write_triples(used),
            (len(used), both, subjects - both, 1, len(objects) - both))
