"""Dictionaries: four sections, and the IDs of their strings in each role."""

from __future__ import annotations

from itertools import accumulate

import pytest
from hypothesis import example, given
from hypothesis import strategies as st

from reference import checks, hdt
from reference.hdt import MAX, Dictionary, Reason, Style, write_dictionary, write_section
from support import prefixes
from support.answers import REFUSED, answered
from support.probe import Answer, Argument, Probe, Request, fault, ok
from support.strategies import AROUND, BLOCK_SIZES, PADDING, STRING, changed

Lists = tuple[list[bytes], list[bytes], list[bytes], list[bytes]]

# Where the dictionary of the sample file v1.hdt begins.
AT = 218

WRITERS = "put_dictionary", "put_written_dictionary"


def counted(lists: list[list[bytes]]) -> list[Argument]:
    """The arguments for three lists of strings: their counts, and all strings."""
    return [*map(len, lists), *(string for strings in lists for string in strings)]


def by_each_writer(before: bytes, block_size: int, lists: list[list[bytes]]) -> list[Request]:
    """The requests that write the dictionary of the strings of three roles behind other bytes."""
    return [(word, before, block_size, *counted(lists)) for word in WRITERS]


def read_of(read: tuple[Dictionary, int]) -> tuple[Argument, ...]:
    """A dictionary as the word `dictionary` answers it."""
    dictionary, end = read
    return end, *dictionary.section_lens, *dictionary.counts


def wanted(data: bytes, at: int = 0) -> Answer:
    """The answer of `dictionary`, by the reference."""
    return answered(hdt.read_dictionary, (data, at), read_of)


def blocks_of(dictionary: Dictionary, role: int) -> list[bytes]:
    """The packed bytes of the block of each string of a role."""
    sections = [dictionary.predicates] if role == 1 else [
        dictionary.shared, dictionary.subjects if role == 0 else dictionary.objects]
    return [section.block_of(i) for section in sections for i in range(len(section))]


def prefixes_of(dictionary: Dictionary, role: int) -> list[int]:
    """The length of the prefix that each string of a role keeps of the one before."""
    if role == 1:
        return dictionary.predicates.prefixes
    return dictionary.shared.prefixes + (dictionary.subjects if role == 0 else dictionary.objects).prefixes


def laid(before: bytes, strings: list[bytes]) -> Answer:
    """The answer of `dictionary_strings_of` where these strings are there: all bytes, and the ends in them."""
    return ok(True, before + b"".join(strings), *accumulate([len(before), *map(len, strings)]))


def requests_and_answers(dictionary: Dictionary, at: int, end: int,
                         others: list[bytes]) -> list[tuple[Request, Answer]]:
    """Requests about a dictionary with the answers of the reference: each string and ID of each role, and others."""
    pairs: list[tuple[Request, Answer]] = [(("dictionary", at), ok(*read_of((dictionary, end))))]
    for role, name in enumerate(hdt.ROLES):
        strings = dictionary.strings(name)
        count, absent = len(strings), [other for other in others if other not in set(strings)]
        walked: list[Argument] = []
        kept: list[Argument] = []
        for n, (string, prefix) in enumerate(zip(strings, prefixes_of(dictionary, role)), 1):
            walked += [n, string]
            kept += [n, prefix, string]
        pairs += [
            (("dictionary_strings", at, role), ok(*walked)),
            (("dictionary_strings_kept", at, role), ok(*kept, None, 0)),
            (("dictionary_number_of", at, role, *strings, *absent), ok(*range(1, count + 1), *[None] * len(absent))),
            *((("dictionary_string_of", at, role, n, b"before"), ok(True, b"before" + string))
              for n, string in enumerate(strings, 1)),
            *((("dictionary_string_of", at, role, n, b"before"), ok(False, b"before")) for n in (0, count + 1, MAX)),
            *((("dictionary_strings_of", at, role, b"before", *ids), laid(b"before", [strings[n - 1] for n in ids]))
              for ids in ([], [*range(1, count + 1)], [*range(count, 0, -1)] * 2, [*range(1, count + 1, 3)] * 2)),
            *((("dictionary_strings_of", at, role, b"before", *range(1, count + 1), n), ok(False, b"before", 6))
              for n in (0, count + 1, MAX)),
            *((("dictionary_block", at, role, n), ok(block))
              for n, block in enumerate(blocks_of(dictionary, role), 1)),
            *((("dictionary_block", at, role, n), ok(b"")) for n in (0, count + 1, MAX)),
        ]
    for i, section in enumerate(dictionary.sections):
        pairs += [(("dictionary_string_start", at, i, n), ok(offset)) for n, offset in enumerate(section.offsets, 1)]
        pairs += [(("dictionary_string_start", at, i, n), REFUSED) for n in (0, len(section) + 1)]
    return pairs


def check(probe: Probe, data: bytes, at: int = 0, others: list[bytes] | None = None) -> None:
    """Compare all that the engine answers about a dictionary with the reference."""
    dictionary, end = hdt.read_dictionary(data, at)
    all_strings = [string for section in dictionary.sections for string in section.strings]
    pairs = requests_and_answers(dictionary, at, end, (others or []) + all_strings + [s + b"\0" for s in all_strings])
    answers = probe.send(("file", data), *(request for request, _ in pairs))[1:]
    assert list(zip((request for request, _ in pairs), answers)) == pairs


def loose(lists: Lists, block_size: int = 16) -> bytes:
    """A dictionary of these sections without prefixes, where v1.hdt has it, with bytes behind it."""
    style = Style(block_size, longest_prefixes=False)
    return bytes(AT) + write_dictionary(*lists, style) + b"$HDT"


X = [b"http://a/"]
UX = [b"u:x"]

# Sections, the block size, and the offset of the first string that is in two of shared, subjects and objects.
OVERLAPS: list[tuple[str, Lists, int, int | None]] = [
    ("subjects and objects", (X, UX, X, UX), 16, 369),
    ("shared and predicates", (X, UX, X, []), 16, None),
    ("shared and subjects", (UX, UX, [], []), 16, 313),
    ("shared and objects", (UX, [], [], UX), 16, 349),
    ("subjects first", (UX, UX, [], UX), 16, 313),
    ("subjects before objects", ([b"m"], [b"a", b"m"], [], [b"m"]), 16, 313),
    ("the first object, of subjects", ([b"m"], [b"c"], [], [b"a", b"c", b"m"]), 16, 351),
    ("the first object, of shared", ([b"c"], [b"m"], [], [b"a", b"c", b"m"]), 16, 351),
    ("the first subject", ([b"a"], [b"a", b"b"], [], []), 16, 311),
    ("the last subject", ([b"b"], [b"a", b"b"], [], []), 16, 313),
    ("the first object", ([], [b"a"], [], [b"a", b"b"]), 16, 347),
    ("the last object", ([], [b"b"], [], [b"a", b"b"]), 16, 349),
    ("in the second block", ([b"b", b"d", b"f", b"h"], [b"a", b"c", b"e", b"f", b"g"], [b"f"], []), 2, 328),
    ("in the third block", ([b"b", b"d", b"f", b"h"], [b"a", b"c", b"e", b"g", b"h"], [], [b"i"]), 2, 331),
    ("prefixes of each other", ([b"ab"], [b"a", b"abc"], [b"ab"], [b"abcd"]), 16, None),
    ("predicates of each", ([b"a"], [b"b"], [b"a", b"b", b"c"], [b"c"]), 16, None),
]


@pytest.mark.parametrize("lists, block_size, offset", [row[1:] for row in OVERLAPS], ids=[row[0] for row in OVERLAPS])
def test_overlaps(probe: Probe, lists: Lists, block_size: int, offset: int | None) -> None:
    """The first string that is in two sections is refused; predicates may have any."""
    data = loose(lists, block_size)
    shared, subjects, predicates, objects = lengths = [len(strings) for strings in lists]
    accepted = ok(len(data) - 4, *lengths, shared + subjects, predicates, shared + objects)
    answer = accepted if offset is None else fault(Reason.SectionsOverlap, offset)
    assert wanted(data, AT) == answer
    assert probe.on(data, "dictionary", AT) == answer


THREE: Lists = ([b"u:a", b"u:b"], [], [b"u:p", b"u:q"], [b'"x"'])

OTHERS = [b"u:p", b"u:", b'"x"', b"u:a", b"", b"u:q ", b'""', b"u:aa"]


def test_three_triples(probe: Probe) -> None:
    """The dictionary of three triples: each string and ID of each role, and others."""
    data = loose(THREE)
    assert [hdt.read_dictionary(data, AT)[0].strings(role) for role in hdt.ROLES] == [
        [b"u:a", b"u:b"], [b"u:p", b"u:q"], [b"u:a", b"u:b", b'"x"']]
    check(probe, data, AT, OTHERS)


def test_offsets_of_strings(probe: Probe) -> None:
    """Where strings of each section begin."""
    lists: Lists = ([b"ab", b"abc"], [b"a", b"b"], [b"p"], [b'"x\n"', b"c\\\r"])
    requests = [("dictionary_string_start", AT, section, n) for section, n in ((0, 1), (0, 2), (1, 2), (2, 1), (3, 2))]
    answers = probe.send(("file", loose(lists, 2)), ("dictionary", AT), *requests)
    assert answers[1][2:6] == ("2", "2", "1", "2")
    assert answers[2:] == [ok(291), ok(294), ok(319), ok(340), ok(365)]
    check(probe, loose(lists, 2), AT)


SPLITS: list[tuple[list[list[bytes]], Lists]] = [
    ([[], [], []], ([], [], [], [])),
    ([[b"u:b", b"u:a", b"u:b"], [b"u:p"], [b"u:c", b"u:b"]], ([b"u:b"], [b"u:a"], [b"u:p"], [b"u:c"])),
    ([[b"x"], [b"x", b"w", b"x"], [b"x", b"x"]], ([b"x"], [], [b"w", b"x"], [])),
    ([[b"ab", b"a", b"\xc3\xa9", b"z"], [], [b"b", b"abc", b"a"]],
     ([b"a"], [b"ab", b"z", b"\xc3\xa9"], [], [b"abc", b"b"])),
]


def split_answer(lists: Lists | hdt.Parts) -> Answer:
    """Four lists, each behind its count."""
    values: list[Argument] = []
    for strings in lists:
        values += [len(strings), *strings]
    return ok(*values)


@pytest.mark.parametrize("given_lists, lists", SPLITS, ids=["nothing", "shared", "repeats", "order"])
def test_splits(probe: Probe, given_lists: list[list[bytes]], lists: Lists) -> None:
    """Strings of three roles, in any order and with repeats, and the sections that they make."""
    assert tuple(hdt.split(*given_lists)) == lists
    assert probe.ask("split", *counted(given_lists)) == split_answer(lists)


SUBJECTS = [b"abc", b"b", b"ab", b"a", b"abc"]
PREDICATES = [b"p", b"p"]
OBJECTS = [b"c\\\r", b"abc", b'"x\n"', b"ab"]

CANONICAL = [
    b"before ",
    b"$HDT\x03<http://purl.org/HDT/hdt#dictionaryFour>\0mapping=1;\0\x82\xB8",
    b"\x02\x82\x86\x82\xBE\x01\x03\x82\xD30\xE0\x1A\x9Ebab\x00\x82c\x00\x85\xF2\x02\x1F",
    b"\x02\x82\x85\x82\x81\x01\x03\x82\xD3(@\x85\x19\xF8a\x00\x80b\x00\xCB\xA4d}",
    b"\x02\x81\x82\x82W\x01\x02\x82\xC6\x08\x9E\x0B\xA4\xD8p\x00U\xA38N",
    b'\x02\x82\x8A\x82B\x01\x04\x82\xB8\xA0\xF7\xE66\xF0"x\n"\x00\x80c\\\r\x00M\xBA\xDE\x04',
]


@pytest.mark.parametrize("word", WRITERS)
def test_writes(probe: Probe, word: str) -> None:
    """The canonical dictionary in blocks of two, behind other bytes."""
    assert probe.ask(word, b"before ", 2, *counted([SUBJECTS, PREDICATES, OBJECTS])) == ok(b"".join(CANONICAL))


ROLE_STRINGS = st.lists(STRING, max_size=12)


@given(ROLE_STRINGS, ROLE_STRINGS, ROLE_STRINGS, st.lists(STRING, max_size=5), BLOCK_SIZES, AROUND, AROUND)
@example([b""], [b""], [b""], [], 1, b"", b"")
def test_any_strings(probe: Probe, subjects: list[bytes], predicates: list[bytes], objects: list[bytes],
                     both: list[bytes], block_size: int, before: bytes, behind: bytes) -> None:
    """Any strings of three roles are split and written as by the reference, and looked up again."""
    lists = [subjects + both, predicates, both + objects]
    parts = hdt.split(*lists)
    written = before + write_dictionary(*parts, Style(block_size))
    answers = probe.send(("split", *counted(lists)), *by_each_writer(before, block_size, lists))
    assert answers == [split_answer(parts)] + [ok(written)] * len(WRITERS)
    check(probe, written + behind, len(before), subjects)


@st.composite
def dictionaries(draw: st.DrawFn, most_in_two: int = 0) -> tuple[Lists, bytes]:
    """The strings of four sections, and a dictionary of them in any block sizes, prefixes, widths and padding.

    At most so many strings are in two of shared, subjects and objects.
    """
    strings = draw(st.lists(STRING, unique=True, max_size=24))
    lists: tuple[list[bytes], ...] = ([], [], [])
    for string in strings:
        draw(st.sampled_from(lists)).append(string)
    if strings:
        for string in draw(st.lists(st.sampled_from(strings), max_size=most_in_two)):
            draw(st.sampled_from(lists)).append(string)
    shared, subjects, objects = (sorted(set(strings)) for strings in lists)
    predicates = sorted(draw(st.sets(STRING, max_size=6)))
    style = Style(draw(BLOCK_SIZES), draw(st.sampled_from([0, 11, 64])), draw(PADDING), draw(st.booleans()),
                  draw(st.sampled_from([b"", b"mapping=2;"])), draw(st.sampled_from([b"", b"x"])))
    return (shared, subjects, predicates, objects), write_dictionary(shared, subjects, predicates, objects, style)


@given(dictionaries(), AROUND, AROUND, st.lists(STRING, max_size=3))
def test_reads(probe: Probe, made: tuple[Lists, bytes], before: bytes, behind: bytes, others: list[bytes]) -> None:
    """Any dictionary is read, and all answers are those of the reference."""
    lists, data = made
    assert tuple(section.strings for section in hdt.read_dictionary(data, 0)[0].sections) == lists
    check(probe, before + data + behind, len(before), others)


@given(dictionaries(), AROUND, st.lists(STRING | st.binary(max_size=3), max_size=3))
def test_prefixes(probe: Probe, made: tuple[Lists, bytes], before: bytes, others: list[bytes]) -> None:
    """In any dictionary the IDs of a role's strings that begin with a prefix are those of a plain filter."""
    (shared, subjects, predicates, objects), data = made
    for role, strings in enumerate([shared + subjects, predicates, shared + objects]):
        tried = [*prefixes.SPECIAL, *prefixes.near(strings), *others]
        answer = probe.on(before + data, "dictionary_ids_with_prefix", len(before), role, *tried)
        assert prefixes.ids_of(answer, len(strings), 2) == [prefixes.begin(strings, prefix) for prefix in tried]


@given(dictionaries(most_in_two=3), AROUND)
def test_any_overlaps(probe: Probe, made: tuple[Lists, bytes], before: bytes) -> None:
    """Strings in two sections are found as by the reference."""
    data = before + made[1]
    assert probe.on(data, "dictionary", len(before)) == wanted(data, len(before))


@given(st.data(), dictionaries())
def test_damaged(probe: Probe, data: st.DataObject, made: tuple[Lists, bytes]) -> None:
    """A dictionary with a byte changed is refused as by the reference; also with its CRCs made right."""
    damaged = data.draw(changed(made[1], start=54))
    for file in damaged, checks.with_right_crcs(damaged, lambda file: hdt.read_dictionary(file, 0)):
        assert probe.on(file, "dictionary", 0) == wanted(file)


@given(st.lists(STRING | st.binary(max_size=3), max_size=4), st.integers(0, 2))
def test_what_dictionaries_hold(probe: Probe, strings: list[bytes], block_size: int) -> None:
    """UTF-8 strings without zero bytes are written in blocks of one at least, others not."""
    fit = block_size > 0 and all(hdt.is_utf8(string) and b"\0" not in string for string in strings)
    none: list[bytes] = []
    for lists in [strings, none, none], [none, strings, none], [none, none, strings]:
        answers = probe.send(*by_each_writer(b"", block_size, lists))
        written = ok(write_dictionary(*hdt.split(*lists), Style(block_size))) if fit else REFUSED
        assert answers == [written] * len(WRITERS)


# Arenas

def test_arena_of_many_strings(probe: Probe) -> None:
    """30,000 strings and an empty one, in an arena that grows; and an arena without strings."""
    strings = [b"%c%c%c%c" % (0, 0, i >> 8, i & 255) for i in range(30_000)] + [b""]
    assert probe.ask("arena", 0, 0, *strings) == ok(len(strings), *strings)
    assert probe.ask("arena", 0, 0) == ok(0)


@given(st.lists(st.binary(max_size=20), max_size=20), st.integers(0, 30), st.integers(0, 300))
def test_arena(probe: Probe, strings: list[bytes], room: int, room_of_bytes: int) -> None:
    """Any strings, with any room at first; and an arena of strings that are put one behind another before."""
    answer = ok(len(strings), *strings)
    assert probe.send(("arena", room, room_of_bytes, *strings), ("arena_of", *strings)) == [answer, answer]


# Large dictionaries

SIZES = [1, 3, 16, 65_535]


def numerals(count: int, digits: int = 6) -> list[bytes]:
    """The numbers below a count in so many digits."""
    return [b"%0*d" % (digits, i) for i in range(count)]


def look_up(probe: Probe, data: bytes, strings: list[tuple[int, int, bytes]]) -> None:
    """Look up strings of roles by their IDs and the IDs by the strings."""
    requests: list[Request] = [("file", data)]
    answers = [ok()]
    for role, n, string in strings:
        requests += [("dictionary_number_of", AT, role, string), ("dictionary_string_of", AT, role, n, b"before ")]
        answers += [ok(n), ok(True, b"before " + string)]
    assert list(zip(strings, probe.send(*requests))) == list(zip(strings, answers))


def test_many_strings_in_each_section(probe: Probe) -> None:
    """70,000 subjects and predicates and 140,000 objects in blocks of 70,000: the ends of the roles, and walks."""
    all_of = numerals(280_000)
    subjects, objects, predicates = all_of[:70_000], all_of[70_000:210_000], all_of[210_000:]
    answer = probe.ask("put_dictionary", bytes(AT), 70_000, *counted([subjects, predicates, objects]))
    data = bytes(AT) + write_dictionary([], subjects, predicates, objects, Style(70_000))
    assert answer == ok(data)
    look_up(probe, data + b"$HDT", [(0, 70_000, b"069999"), (2, 1, b"070000"), (2, 140_000, b"209999"),
                                    (1, 70_000, b"279999")])
    for role, strings in enumerate([subjects, predicates, objects]):
        for ids in (range(1, len(strings) + 1), range(len(strings), 0, -7_001)):
            answer = laid(b"", [strings[n - 1] for n in ids])
            assert (probe.ask("dictionary_strings_of", AT, role, b"", *ids) == answer) is True, "other strings"
        walked = probe.ask("dictionary_strings", AT, role)
        assert walked[1::2] == tuple(map(str, range(1, len(strings) + 1)))
        assert walked[2::2] == tuple(string.hex() for string in strings)
    assert probe.ask("arena", 0, 0, *all_of) == ok(len(all_of), *all_of)


def test_errors_of_large_dictionaries(probe: Probe) -> None:
    """An overlap with the last of 140,000 objects, one string out of order behind them, and a wrong CRC."""
    all_of = numerals(210_000)
    objects = all_of[70_000:]
    # The bytes "$HDT" and the CRC are behind the last string, which is in the middle of a block in the first file, and
    # alone in its block in the other.
    overlapping = loose(([], objects[-1:], [], objects))
    assert probe.on(overlapping, "dictionary", AT) == fault(Reason.SectionsOverlap, len(overlapping) - 8 - 8)
    unordered = loose(([], [], [], [*objects, objects[0]]))
    assert probe.on(unordered, "dictionary", AT) == fault(Reason.StringsNotAscending, len(unordered) - 8 - 7)
    apart = loose(([], all_of[69_999:70_000], [], objects))
    assert probe.on(apart, "dictionary", AT) == ok(len(apart) - 4, 0, 1, 0, 140_000, 1, 0, 140_000)
    empty = loose(([], [], [], []))
    crc = AT + 57
    assert probe.on(empty[:crc] + bytes([empty[crc] ^ 255]) + empty[crc + 1:], "dictionary", AT) == fault(
        Reason.Check16, crc)


@pytest.mark.parametrize("block_size", SIZES)
def test_many_strings_by_each_writer(probe: Probe, block_size: int) -> None:
    """110,000 objects and one of 100,000 bytes, of which 10,000 are subjects and predicates too."""
    all_of = numerals(110_000)
    objects, others = [*all_of, b"x" * 100_000], all_of[100_000:]
    parts = hdt.split(others, others, objects)
    written = ok(b"before " + write_dictionary(*parts, Style(block_size)))
    for request in by_each_writer(b"before ", block_size, [others, others, objects]):
        assert probe.ask(*request) == written, request[0]


def test_every_fourth(probe: Probe) -> None:
    """20,000 numerals dealt to the four sections in turn: the roles are walked."""
    all_of = numerals(20_000, 5)
    lists: Lists = (all_of[0::4], all_of[1::4], all_of[2::4], all_of[3::4])
    data = loose(lists)
    look_up(probe, data, [(2, 10_000, b"19999"), (0, 5_001, b"00001"), (1, 1, b"00002")])
    for role, strings in enumerate([lists[0] + lists[1], lists[2], lists[0] + lists[3]]):
        walked = probe.ask("dictionary_strings", AT, role)
        assert walked[1::2] == tuple(map(str, range(1, len(strings) + 1)))
        assert walked[2::2] == tuple(string.hex() for string in strings)
        assert probe.ask("dictionary_number_of", AT, role, *strings) == ok(*range(1, len(strings) + 1))


@pytest.mark.parametrize("shared", [0, 30_000, 130_000])
def test_prefixes_of_many_strings(probe: Probe, shared: int) -> None:
    """The same with 130,000 subjects and 110,000 predicates and objects, of which none, some or all are shared."""
    all_of = numerals(130_000)
    lists: Lists = (all_of[:shared], all_of[shared:], all_of[20_000:], [b"x" + string for string in all_of[shared:]])
    data = loose(lists)
    for role, strings in enumerate([lists[0] + lists[1], lists[2], lists[0] + lists[3]]):
        tried = [*prefixes.SPECIAL, *prefixes.near([strings[0], strings[-1]]), *prefixes.some(strings, 30, role)]
        answer = probe.on(data, "dictionary_ids_with_prefix", AT, role, *tried)
        assert prefixes.ids_of(answer, len(strings), 2) == [prefixes.begin(strings, prefix) for prefix in tried]


def test_large_roles(probe: Probe) -> None:
    """100,000 subjects, the last first, of which each fourth is a predicate and an object."""
    all_of = numerals(100_000, 5)
    fourth = all_of[2::4]
    lists = [all_of[::-1], fourth, fourth]
    data = bytes(AT) + write_dictionary(*hdt.split(*lists), Style(16)) + b"$HDT"
    assert probe.ask("put_dictionary", bytes(AT), 16, *counted(lists)) == ok(data[:-4])
    answer = probe.on(data, "dictionary", AT)
    assert answer == ok(len(data) - 4, 25_000, 75_000, 25_000, 0, 100_000, 25_000, 25_000)
    look_up(probe, data, [(0, 1, b"00002"), (0, 25_001, b"00000"), (2, 25_000, b"99998")])


LONG = [letter * 100_000 for letter in (b"a", b"b", b"c", b"d")]


def test_long_strings(probe: Probe) -> None:
    """Strings of 100,000 bytes in each section, and in two of them."""
    a, b, c, d = LONG
    check(probe, loose(([a], [b], [c], [d])), AT)
    look_up(probe, loose(([a], [b], [c], [d])), [(0, 1, a), (0, 2, b), (1, 1, c), (2, 2, d)])
    overlapping = loose(([a], [b], [c], [b]))
    assert probe.on(overlapping, "dictionary", AT) == fault(Reason.SectionsOverlap, len(overlapping) - 8 - 100_001)


def test_writes_long_strings(probe: Probe) -> None:
    """Strings of 100,000 bytes are written, and looked up."""
    a, b = LONG[:2]
    data = bytes(AT) + write_dictionary([b], [a], [], [], Style(16))
    assert probe.ask("put_dictionary", bytes(AT), 16, *counted([[b, a], [], [b]])) == ok(data)
    look_up(probe, data + b"$HDT", [(2, 1, b), (0, 2, a)])


def test_sections_stay_apart(probe: Probe) -> None:
    """The sections of a dictionary may have other block sizes each."""
    sections = [write_section([b"a", b"ab"], 1), write_section([b"b", b"bc", b"c"], 2), write_section([b"a"], 7),
                write_section([b"aa", b"ac", b"d"], 3)]
    check(probe, hdt.write_control(hdt.DICTIONARY) + b"".join(sections))
