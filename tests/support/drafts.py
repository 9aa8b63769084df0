"""Files in parts, and damage for each reason of an error: what test_file.py draws."""

from __future__ import annotations

from collections.abc import Callable, Sequence
from dataclasses import dataclass, field
from itertools import product
from typing import Protocol, TypeVar

from hypothesis import strategies as st

from reference import hdt as model
from reference.hdt import MAX, Triple

T = TypeVar("T")


def replaced(data: bytes, start: int, size: int, part: bytes) -> bytes:
    """The bytes with `size` of them replaced."""
    return data[:start] + part + data[start + size:]


SECTIONS = "shared", "subjects", "predicates", "objects"
CONTROLS = "global", "header", "dictionary", "triples"
BITMAPS, NUMBERS = ("bits_y", "bits_z"), ("numbers_y", "numbers_z")

# Strings with common prefixes, some of which end within a character.
TEXTS = sorted("".join(characters).encode() for n in range(4) for characters in product("a/\u00e9\u00ea", repeat=n))
texts = st.sampled_from(TEXTS)
styles = st.builds(
    model.Style, block_size=st.sampled_from([1, 2, 3, 16]), width=st.sampled_from([0, 0, 10, 13, 63, 64]),
    padding=st.sampled_from([0, -1, 0x55]), longest_prefixes=st.booleans(),
    before=st.sampled_from([b"", b"length=7;order=2;", b"a;=;"]), behind=st.sampled_from([b"", b"a=b=c", b";"]))


@dataclass
class Draft:
    """A file in parts, which are damaged; and what the parts are written from."""

    sections: dict[str, list[bytes]]
    ids: list[Triple]
    style: model.Style
    body: bytes = b""
    parts: dict[str, bytes] = field(default_factory=dict)
    lists: dict[str, list[int]] = field(default_factory=dict)

    def __post_init__(self) -> None:
        style = self.style
        triples = model.read_triples(model.write_triples(self.ids), 0, (MAX, MAX, MAX))[0]
        self.lists = {"bits_y": list(triples.bits_y), "bits_z": list(triples.bits_z),
                      "numbers_y": list(triples.numbers_y), "numbers_z": list(triples.numbers_z)}
        self.parts = {
            "global": model.write_control(model.GLOBAL, style.properties(b"")),
            "header": model.write_control(model.HEADER, style.properties(b"length=%d;" % len(self.body))),
            "body": self.body,
            "dictionary": model.write_control(model.DICTIONARY, style.properties(b"mapping=1;")),
            **{name: style.section(strings) for name, strings in self.sections.items()},
            "triples": model.write_control(model.TRIPLES, style.properties(b"order=1;")),
            **{name: model.write_bits(self.lists[name], style.padding) for name in BITMAPS},
            **{name: model.write_numbers(self.lists[name], style.width, style.padding) for name in NUMBERS},
        }

    def write_section(self, name: str, strings: Sequence[bytes]) -> None:
        """Replace a section by one of these strings."""
        self.parts[name] = self.style.section(strings)

    def write_list(self, name: str, entries: Sequence[int]) -> None:
        """Replace a sequence by one of these entries."""
        if name in BITMAPS:
            self.parts[name] = model.write_bits(entries, self.style.padding)
        else:
            self.parts[name] = model.write_numbers(entries, 0, self.style.padding)

    @property
    def data(self) -> bytes:
        """The file."""
        return b"".join(self.parts.values())


@st.composite
def drafts(draw: st.DrawFn) -> Draft:
    """Tight files: each section has a string, a subject has two predicates, and a pair two objects."""
    names = draw(st.lists(texts, unique=True, min_size=4, max_size=9))
    first = draw(st.integers(1, len(names) - 3))
    second = draw(st.integers(first + 1, len(names) - 2))
    shared, subjects, objects = sorted(names[:first]), sorted(names[first:second]), sorted(names[second:])
    predicates = sorted(draw(st.lists(texts, unique=True, min_size=2, max_size=4)))
    last, p_count, o_count = len(shared + subjects), len(predicates), len(shared + objects)
    ids = {(last, p, 1) for p in range(1, p_count + 1)} | {(last, 1, o) for o in range(1, o_count + 1)}
    pairs = list(product(range(1, p_count + 1), range(1, o_count + 1)))
    for s in range(1, last):
        ids |= {(s, p, o) for p, o in draw(st.lists(st.sampled_from(pairs), min_size=1, max_size=3))}
    sections = dict(zip(SECTIONS, (shared, subjects, predicates, objects)))
    return Draft(sections, sorted(ids), draw(styles), draw(st.binary(max_size=9)))


class Draw(Protocol):
    """Draws a value from a strategy."""

    def __call__(self, strategy: st.SearchStrategy[T]) -> T: ...


Damage = Callable[[Draw, Draft], None]
DAMAGES: dict[str, Damage] = {}


def damage(function: Damage) -> Damage:
    """Register a function that damages a draft so that one check fails: that of the reason in its docstring."""
    DAMAGES[(function.__doc__ or "").split(":")[0]] = function
    return function


def another(draw: Draw, part: bytes, *indexes: int) -> bytes:
    """The part with another byte at one of these indexes, which may be negative."""
    index = draw(st.sampled_from(indexes)) % len(part)
    return replaced(part, index, 1, bytes([part[index] ^ draw(st.integers(1, 255))]))


def numbers_at(draft: Draft, name: str) -> list[int]:
    """Where the numbers of a section's or a sequence's preamble begin, and where its CRC is."""
    at = [2 if name in NUMBERS else 1]
    for _ in range(3 if name in SECTIONS else 1):
        at.append(model.read_vbyte(draft.parts[name], at[-1])[1])
    return at


def some_part(draw: Draw, *names: str) -> str:
    """The name of a part."""
    return draw(st.sampled_from(names))


@damage
def cut(draw: Draw, draft: Draft) -> None:
    """Truncated: the file ends early."""
    data = draft.data
    draft.parts = {"begin": data[:draw(st.integers(0, len(data) - 1))]}


def spell_number(draw: Draw, draft: Draft, spell: Callable[[bytes], bytes]) -> None:
    """Spell a number of a preamble differently."""
    name = some_part(draw, *SECTIONS, *BITMAPS, *NUMBERS)
    at = numbers_at(draft, name)
    i = draw(st.integers(0, len(at) - 2))
    part = draft.parts[name]
    draft.parts[name] = part[:at[i]] + spell(part[at[i]:at[i + 1]]) + part[at[i + 1]:]


@damage
def spell_too_long(draw: Draw, draft: Draft) -> None:
    """OverlongNumber: a number has a last digit 0."""
    zeros = draw(st.integers(0, 3))
    spell_number(draw, draft, lambda old: old[:-1] + bytes([old[-1] & 127]) + bytes(zeros) + b"\x80")


@damage
def spell_too_large(draw: Draw, draft: Draft) -> None:
    """NumberTooLarge: a number has more than ten digits, or is above 2^64 - 1."""
    new = draw(st.sampled_from([b"\x7f" * 10, b"\0" * 10 + b"\x81", b"\x7f" * 9 + b"\x82", b"\0" * 9 + b"\xff"]))
    spell_number(draw, draft, lambda old: new)


@damage
def change_cookie(draw: Draw, draft: Draft) -> None:
    """NotHdt: the cookie of a control block is another."""
    name = some_part(draw, *CONTROLS)
    draft.parts[name] = another(draw, draft.parts[name], 0, 1, 2, 3)


@damage
def change_kind(draw: Draw, draft: Draft) -> None:
    """WrongKind: a control block has another kind."""
    name = some_part(draw, *CONTROLS)
    draft.parts[name] = another(draw, draft.parts[name], 4)


@damage
def change_crc16(draw: Draw, draft: Draft) -> None:
    """Check16: the CRC of a control block is wrong."""
    name = some_part(draw, *CONTROLS)
    draft.parts[name] = another(draw, draft.parts[name], -1, -2)


@damage
def change_format(draw: Draw, draft: Draft) -> None:
    """WrongFormat: a control block has another format."""
    kind = draw(st.integers(1, 4))
    other = draw(st.sampled_from([b"", b"ntriples ", *model.FORMATS.values()]).filter(
        lambda text: text != model.FORMATS[kind]))
    draft.parts[CONTROLS[kind - 1]] = model.write_control(kind, b"length=0;order=1;", other)


@damage
def change_length(draw: Draw, draft: Draft) -> None:
    """HeaderLength: the header has no length."""
    properties = draw(st.sampled_from([b"", b"length", b"length=", b"length=+0", b"length= 0", b"length=0;length=a",
                                       b"length=0;length=", b"Length=0", b"length=18446744073709551616"]))
    draft.parts["header"] = model.write_control(model.HEADER, properties)


@damage
def change_order(draw: Draw, draft: Draft) -> None:
    """TripleOrder: the triples have another order."""
    properties = draw(st.sampled_from([b"", b"order", b"order=", b"order=01", b"order=2;", b"order=1;order=3",
                                       b"Order=1"]))
    draft.parts["triples"] = model.write_control(model.TRIPLES, properties)


@damage
def change_crc8(draw: Draw, draft: Draft) -> None:
    """Check8: the CRC of a preamble is wrong."""
    name = some_part(draw, *SECTIONS, *BITMAPS, *NUMBERS)
    draft.parts[name] = another(draw, draft.parts[name], numbers_at(draft, name)[-1])


@damage
def change_crc32(draw: Draw, draft: Draft) -> None:
    """Check32: the CRC of data is wrong, or a byte of them."""
    name = some_part(draw, *SECTIONS, *BITMAPS, *NUMBERS)
    draft.parts[name] = another(draw, draft.parts[name], -1, -2, -3, -4, -5)


@damage
def change_type_of_numbers(draw: Draw, draft: Draft) -> None:
    """SequenceKind: a log sequence has another type."""
    name = some_part(draw, *SECTIONS, *NUMBERS)
    at = numbers_at(draft, name)[-1] + 1 if name in SECTIONS else 0
    draft.parts[name] = another(draw, draft.parts[name], at)


@damage
def change_width(draw: Draw, draft: Draft) -> None:
    """Width: the entries of a log sequence are too wide."""
    name = some_part(draw, *SECTIONS, *NUMBERS)
    at = numbers_at(draft, name)[-1] + 2 if name in SECTIONS else 1
    draft.parts[name] = replaced(draft.parts[name], at, 1, bytes([draw(st.integers(65, 255))]))


@damage
def change_type_of_bits(draw: Draw, draft: Draft) -> None:
    """BitsKind: a bitmap has another type."""
    name = some_part(draw, *BITMAPS)
    draft.parts[name] = another(draw, draft.parts[name], 0)


@damage
def change_type_of_section(draw: Draw, draft: Draft) -> None:
    """SectionKind: a section has another type."""
    name = some_part(draw, *SECTIONS)
    draft.parts[name] = another(draw, draft.parts[name], 0)


def pack(draw: Draw, draft: Draft) -> tuple[str, int, bytes, list[int], int]:
    """A section: its name, its count of strings, its packed bytes, its block starts and its block size."""
    name = some_part(draw, *SECTIONS)
    size = draft.style.block_size
    packed, starts = model.fold(draft.sections[name], size)
    return name, len(draft.sections[name]), packed, starts, size


@damage
def change_block_size(draw: Draw, draft: Draft) -> None:
    """BlockSize: the block size of strings is 0."""
    name, count, packed, starts, _ = pack(draw, draft)
    draft.parts[name] = model.write_packed(count, packed, starts, 0)


@damage
def change_count_of_starts(draw: Draw, draft: Draft) -> None:
    """BlockCount: there are too many or too few block starts."""
    name, count, packed, starts, size = pack(draw, draft)
    other: list[int] = draw(st.sampled_from([[], starts[1:], starts[:-1], [*starts, len(packed)], [0, *starts]]))
    draft.parts[name] = model.write_packed(count, packed, other, size)


@damage
def change_start(draw: Draw, draft: Draft) -> None:
    """BlockPlace: a block start is another."""
    name, count, packed, starts, size = pack(draw, draft)
    starts[draw(st.integers(0, len(starts) - 1))] += draw(st.integers(1, 9))
    draft.parts[name] = model.write_packed(count, packed, starts, size)


@damage
def lengthen_prefix(draw: Draw, draft: Draft) -> None:
    """PrefixTooLong: a string keeps more bytes than the string before has."""
    first, *others = draft.sections["predicates"]
    prefix = model.write_vbyte(len(first) + draw(st.integers(1, 200)))
    packed = first + b"\0" + prefix + b"".join(string + b"\0" for string in others)
    draft.parts["predicates"] = model.write_packed(1 + len(others), packed, [0, len(packed)], 99)


@damage
def change_packed_length(draw: Draw, draft: Draft) -> None:
    """PackedLength: packed bytes are missing or left over."""
    name, count, packed, starts, size = pack(draw, draft)
    count, packed = draw(st.sampled_from([(count, packed + b"a\0"), (count, packed[:-1]), (count, packed + b"\0")]))
    draft.parts[name] = model.write_packed(count, packed, starts, size)


@damage
def write_other_than_utf8(draw: Draw, draft: Draft) -> None:
    """NotUtf8: a string isn't UTF-8."""
    name = some_part(draw, *SECTIONS)
    *others, last = draft.sections[name]
    bad = draw(st.sampled_from([b"\xff", b"\xc3", b"\x80", b"\xc0\x80", b"\xed\xa0\x80", b"\xf4\x90\x80\x80",
                                b"\xe2\x82"]))
    draft.write_section(name, [*others, last + bad])


@damage
def change_order_of_strings(draw: Draw, draft: Draft) -> None:
    """StringsNotAscending: a string isn't greater than the one before."""
    name = some_part(draw, *(name for name in SECTIONS if len(draft.sections[name]) > 1))
    strings = draft.sections[name]
    i = draw(st.integers(0, len(strings) - 2))
    other = draw(st.sampled_from([[strings[i + 1], strings[i]], [strings[i], strings[i]]]))
    draft.write_section(name, [*strings[:i], *other, *strings[i + 2:]])


@damage
def repeat_string(draw: Draw, draft: Draft) -> None:
    """SectionsOverlap: a string is in two sections."""
    there, name = draw(st.sampled_from([("shared", "subjects"), ("shared", "objects"), ("subjects", "objects")]))
    again = draw(st.sampled_from(draft.sections[there]))
    draft.write_section(name, sorted([*draft.sections[name], again]))


@damage
def remove_bits(draw: Draw, draft: Draft) -> None:
    """NoTriples: a bitmap has no bits."""
    draft.write_list(some_part(draw, *BITMAPS), [])


@damage
def change_count_of_numbers(draw: Draw, draft: Draft) -> None:
    """LengthsDiffer: a bitmap and its log sequence have different lengths."""
    name = some_part(draw, *NUMBERS)
    entries = draft.lists[name]
    draft.write_list(name, draw(st.sampled_from([[], entries[:-1], entries[1:], [*entries, 1]])))


@damage
def clear_last_bit(draw: Draw, draft: Draft) -> None:
    """LastMark: the last bit of a bitmap is 0."""
    name = some_part(draw, *BITMAPS)
    draft.write_list(name, [*draft.lists[name][:-1], 0])


@damage
def change_bit(draw: Draw, draft: Draft) -> None:
    """MarkCount: there are more or fewer pairs than ones."""
    bits = draft.lists["bits_z"]
    bits[draw(st.integers(0, len(bits) - 2))] ^= 1
    draft.write_list("bits_z", bits)


@damage
def remove_subject(draw: Draw, draft: Draft) -> None:
    """SubjectRange: there are fewer subjects than triples have."""
    draft.write_section("subjects", draft.sections["subjects"][:-1])


@damage
def change_predicate(draw: Draw, draft: Draft) -> None:
    """PredicateRange: a predicate is 0, or past the count."""
    entries = draft.lists["numbers_y"]
    past = len(draft.sections["predicates"]) + 1
    entries[draw(st.integers(0, len(entries) - 1))] = draw(st.sampled_from([0, past, past + 1, 1_000]))
    draft.write_list("numbers_y", entries)


@damage
def change_object(draw: Draw, draft: Draft) -> None:
    """ObjectRange: an object is 0, or past the count."""
    entries = draft.lists["numbers_z"]
    past = len(draft.sections["shared"] + draft.sections["objects"]) + 1
    entries[draw(st.integers(0, len(entries) - 1))] = draw(st.sampled_from([0, past, past + 1, 1_000]))
    draft.write_list("numbers_z", entries)


def repeat_entry(draw: Draw, draft: Draft, bits: str, numbers: str) -> None:
    """Make an entry of a group no greater than the one before."""
    marks, entries = draft.lists[bits], draft.lists[numbers]
    i = draw(st.sampled_from([i for i in range(1, len(marks)) if not marks[i - 1]]))
    entries[i] = draw(st.integers(1, entries[i - 1]))
    draft.write_list(numbers, entries)


@damage
def repeat_predicate(draw: Draw, draft: Draft) -> None:
    """PredicatesNotAscending: a predicate isn't greater than the one before of its subject."""
    repeat_entry(draw, draft, "bits_y", "numbers_y")


@damage
def repeat_object(draw: Draw, draft: Draft) -> None:
    """ObjectsNotAscending: an object isn't greater than the one before of its pair."""
    repeat_entry(draw, draft, "bits_z", "numbers_z")


@damage
def append(draw: Draw, draft: Draft) -> None:
    """TrailingBytes: bytes follow the triples."""
    draft.parts["behind"] = draw(st.binary(min_size=1, max_size=9))


@damage
def add_unused_string(draw: Draw, draft: Draft) -> None:
    """Unused: a string isn't used by triples."""
    name = some_part(draw, *SECTIONS)
    new = draw(texts) + b"z"
    draft.write_section(name, sorted([*draft.sections[name], new]))
