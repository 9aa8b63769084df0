"""Whole files: the head, the dictionary behind it, opening and verifying in both modes, and every error of a file."""

from __future__ import annotations

from collections.abc import Sequence
from typing import NamedTuple, Optional, TypeVar

import pytest
from hypothesis import given
from hypothesis import strategies as st

from reference import checks, hdt as model
from reference.hdt import Reason, Triple
from support.built import SAMPLES
from support.drafts import DAMAGES, Draft, drafts, replaced
from support.probe import Answer, Argument, Probe, Request, fault, ok
from support.properties import examples

T = TypeVar("T")

V1 = (SAMPLES / "v1.hdt").read_bytes()
THREE = (SAMPLES / "three.hdt").read_bytes()
BODY = V1[68:218]

# The calls that read a whole file.
WORDS = "verify", "verify_tight", "open", "open_tight", "layout"


def error(reason: str, offset: int) -> Answer:
    """The answer with this error."""
    return fault(Reason[reason], offset)


def held(file: model.File) -> int:
    """How many numbers a graph keeps beside its file.

    A directory has a number for each group of 512 bits, and one more. The lists have one for each pair, triple,
    predicate and object, and two more.
    """
    pairs, triples = len(file.triples.bits_y), len(file.triples.bits_z)
    _, predicates, objects = file.dictionary.counts
    return -(-pairs // 512) + 1 + -(-triples // 512) + 1 + pairs + triples + predicates + objects + 2


def verdicts(data: bytes) -> dict[str, Answer]:
    """What the reference says of a file, by each of the calls."""
    try:
        file = model.read_file(data)
    except model.Error as found:
        return dict.fromkeys(WORDS, found.answer)
    counted, opened = ok(*file.counts), ok(*file.counts, held(file))
    answers = {"verify": counted, "verify_tight": counted, "open": opened, "open_tight": opened,
               "layout": ok(*file.counts, *file.dictionary.counts)}
    try:
        model.check_all_used(file.dictionary, file.triples.ids)
    except model.Error as unused:
        answers["verify_tight"] = answers["open_tight"] = unused.answer
    return answers


def read(probe: Probe, data: bytes) -> dict[str, Answer]:
    """What the engine says of a file, by each of the calls."""
    return dict(zip(WORDS, probe.send(("file", data), *((word,) for word in WORDS))[1:]))


def values_of(control: model.Control) -> tuple[bytes, bytes, int, int]:
    """Control information as it is answered: format, properties, where these begin, and where it ends."""
    end = control.properties_at + len(control.properties) + 1 + 2
    return control.format, control.properties, control.properties_at, end


def fronts(data: bytes) -> dict[str, Answer]:
    """What the reference says of the head of a file, and of the head and the dictionary, whatever follows."""
    answers = {}
    try:
        head, end = model.read_head(data)
        answers["head"] = ok(*values_of(head.of_file), *values_of(head.header), head.body, end)
        dictionary, behind = model.read_dictionary(data, end)
        answers["read_dictionary"] = ok(end, *dictionary.section_lens, behind)
    except model.Error as found:
        answers = {"head": found.answer, "read_dictionary": found.answer, **answers}
    return answers


def read_fronts(probe: Probe, data: bytes) -> dict[str, Answer]:
    """What the engine says of the same."""
    words = "head", "read_dictionary"
    return dict(zip(words, probe.send(("file", data), *((word,) for word in words))[1:]))


# Heads

GLOBAL_BLOCK = model.FORMATS[model.GLOBAL], b"", 37, 40


@pytest.mark.parametrize("behind", [b"", b"$HDT\x03", b"\x00\xff"])
def test_head(probe: Probe, behind: bytes) -> None:
    """The head of the sample is read, whatever follows it."""
    header = b"ntriples", b"length=150;", 54, 68
    assert probe.on(V1[:218] + behind, "head") == ok(*GLOBAL_BLOCK, *header, BODY, 218)


def test_large_head(probe: Probe) -> None:
    """Properties and a body of a mebibyte each."""
    size = 1 << 20
    properties, body = b"x" * size + b"=;length=%d;" % size, b"y" * size
    data = model.write_control(model.GLOBAL) + model.write_control(model.HEADER, properties) + body + b"what follows"
    # The cookie, the kind, the format, the properties and the CRC of the header, and its body.
    end = 40 + 5 + 9 + len(properties) + 1 + 2
    header = b"ntriples", properties, 54, end
    expected = ok(*GLOBAL_BLOCK, *header, body, end + size)
    assert (probe.on(data, "head") == expected) is True, "another head than the reference's"


@pytest.mark.parametrize("size", [68, 100, 217])
def test_body_cut_off(probe: Probe, size: int) -> None:
    """A body that is cut off is reported where it begins."""
    assert probe.on(V1[:size], "head") == error("Truncated", 68)


@pytest.mark.parametrize("properties, expected", [
    pytest.param(b"length=18446744073709551615;", fault(Reason.Truncated, 85), id="2^64-1"),
    pytest.param(b"length=9223372036854775808;", fault(Reason.Truncated, 84), id="2^63"),
    pytest.param(b"length=18446744073709551616;", fault(Reason.HeaderLength, 54), id="2^64"),
    pytest.param(b"length=99999999999999999999999;", fault(Reason.HeaderLength, 54), id="23-digits")])
def test_length_of_the_body(probe: Probe, properties: bytes, expected: Answer) -> None:
    """Any length of 64 bits is a length; the body is then cut off."""
    data = V1[:40] + model.write_control(model.HEADER, properties) + V1[68:]
    assert [probe.on(data, word) for word in ("head", *WORDS)] == [expected] * 6
    assert set(verdicts(data).values()) == {expected}


# Dictionaries

CONTROL = model.write_control(model.DICTIONARY, b"mapping=1;")
# Sections of no string, and of one or two; they take 18, 28, 22, 22, 33 and 25 bytes.
NONE, A, X, Y = map(model.write_section, ([b""][:0], [b"http://a/"], [b"u:x"], [b"u:y"]))
AX, XY = model.write_section([b"http://a/", b"u:x"]), model.write_section([b"u:x", b"u:y"])
FOUR = tuple[bytes, bytes, bytes, bytes]


def test_sections_are_those_of_the_sample() -> None:
    """The reference writes the sections of the sample files."""
    assert [len(section) for section in (NONE, A, X, Y, AX, XY)] == [18, 28, 22, 22, 33, 25]
    assert V1[218:369] == CONTROL + A + NONE + A + NONE
    assert X == bytes.fromhex("02818490570103 82d3208fddc072753a7800b4d772bf")


@pytest.mark.parametrize("sections, behind, expected", [
    pytest.param((A, NONE, A, NONE), b"", ok(218, 1, 0, 1, 0, 369), id="sample"),
    pytest.param((A, NONE, A, NONE), b"$HDT\x04", ok(218, 1, 0, 1, 0, 369), id="triples-behind"),
    pytest.param((A, X, A, NONE), b"", ok(218, 1, 1, 1, 0, 373), id="a-subject"),
    pytest.param((A, X, A, X), b"", error("SectionsOverlap", 369), id="overlap"),
    pytest.param((A, NONE, A, b""), b"", error("Truncated", 351), id="cut-off")])
def test_dictionary(probe: Probe, sections: FOUR, behind: bytes, expected: Answer) -> None:
    """The dictionary is read behind the head, up to what follows it."""
    assert probe.on(V1[:218] + CONTROL + b"".join(sections) + behind, "read_dictionary") == expected


def test_error_of_the_head_comes_first(probe: Probe) -> None:
    """A dictionary behind a head with an error isn't looked at."""
    assert probe.on(V1[:68], "read_dictionary") == error("Truncated", 68)


# Whole files

def test_sample(probe: Probe) -> None:
    """The sample: its counts, its header body, and its one string in each role, by each look-up."""
    assert read(probe, V1) == {"verify": ok(1, 1, 0, 1, 0), "verify_tight": ok(1, 1, 0, 1, 0),
                               "open": ok(1, 1, 0, 1, 0, 10), "open_tight": ok(1, 1, 0, 1, 0, 10),
                               "layout": ok(1, 1, 0, 1, 0, 1, 1, 1)}
    assert verdicts(V1) == read(probe, V1) and len(V1) == 459
    assert probe.ask("graph") == ok(BODY, 1, 1, 1, 1, 1, 0, 1, 0)
    for role in range(3):
        assert probe.send(
            ("number_of", role, b"http://a/", b"http://a"), ("string_of", role, 1, b"x"), ("string_of", role, 2, b"x"),
            ("strings", role)) == [
                ok(1, None), ok(True, b"xhttp://a/", True), ok(False, b"x", False), ok(1, b"http://a/")]


# Strings that triples don't use in a role of their section; the first of them is reported in tight mode.
ONE, OBJECT_2, PREDICATE_2 = ([(1, 1, 1)], [(1, 1, 2)], [(1, 2, 1)])
OBJECTS_1_2, OBJECTS_1_3 = ([(1, 1, 1), (1, 1, 2)], [(1, 1, 1), (1, 1, 3)])
LOOSE: dict[str, tuple[FOUR, list[Triple], tuple[int, ...], Optional[int]]] = {
    "tight": ((A, NONE, A, NONE), ONE, (1, 1, 0, 1, 0), None),
    "subject": ((A, X, A, NONE), ONE, (1, 1, 1, 1, 0), 319),
    "object": ((A, NONE, A, X), ONE, (1, 1, 0, 1, 1), 365),
    "second-predicate": ((A, NONE, AX, NONE), ONE, (1, 1, 0, 2, 0), 347),
    "first-predicate": ((A, NONE, AX, NONE), PREDICATE_2, (1, 1, 0, 2, 0), 337),
    "shared-used-as-subject": ((A, NONE, A, X), OBJECT_2, (1, 1, 0, 1, 1), 291),
    "shared-used-as-object": ((AX, NONE, A, NONE), OBJECTS_1_2, (2, 2, 0, 1, 0), 301),
    "objects-behind-the-shared": ((A, NONE, A, X), OBJECTS_1_2, (2, 1, 0, 1, 1), None),
    "second-object": ((A, NONE, A, XY), OBJECTS_1_2, (2, 1, 0, 1, 2), 369),
    "first-object": ((A, NONE, A, XY), OBJECTS_1_3, (2, 1, 0, 1, 2), 365),
    "shared-before-predicate": ((A, NONE, AX, X), OBJECT_2, (1, 1, 0, 2, 1), 291),
    "subject-before-predicate": ((A, X, AX, NONE), ONE, (1, 1, 1, 2, 0), 319),
    "subject-before-object": ((A, X, A, Y), ONE, (1, 1, 1, 1, 1), 319),
    "predicate-before-object": ((A, NONE, AX, X), ONE, (1, 1, 0, 2, 1), 347),
}


def loose_file(sections: FOUR, ids: Sequence[Triple]) -> bytes:
    """A file of these sections and triples."""
    return V1[:218] + CONTROL + b"".join(sections) + model.write_triples(ids)


def counted_and_tight(probe: Probe, data: bytes) -> tuple[Answer, Answer]:
    """What `verify` and `verify_tight` answer, after a check that opening answers the same."""
    answers = read(probe, data)
    shortened = {word: answer[:6] if answer[0] == "ok" else answer for word, answer in answers.items()}
    assert shortened["open"] == shortened["verify"] == shortened["layout"]
    assert shortened["open_tight"] == shortened["verify_tight"]
    return answers["verify"], answers["verify_tight"]


@pytest.mark.parametrize("sections, ids, counts, unused", LOOSE.values(), ids=LOOSE)
def test_unused_strings(probe: Probe, sections: FOUR, ids: list[Triple], counts: tuple[int, ...],
                        unused: Optional[int]) -> None:
    """Tight mode refuses the first string that no triple uses in a role of its section; a byte behind comes before."""
    data = loose_file(sections, ids)
    tight = ok(*counts) if unused is None else error("Unused", unused)
    assert counted_and_tight(probe, data) == (ok(*counts), tight)
    assert counted_and_tight(probe, data + b"\0") == (error("TrailingBytes", len(data)),) * 2
    assert read(probe, data) == verdicts(data)


# The sample with a part replaced: its offset and size, and what is answered.
DAMAGED = {
    "last-mark": (433, 8, model.write_bits([0]), error("LastMark", 436)),
    "predicate-0": (441, 9, model.write_numbers([0]), error("PredicateRange", 445)),
    "object-2": (450, 9, model.write_numbers([2]), error("ObjectRange", 454)),
    "one-byte-more": (459, 0, b"\0", error("TrailingBytes", 459)),
    "one-byte-less": (458, 1, b"", error("Truncated", 455)),
    "packed-byte": (298, 1, b"\x62", error("Check32", 301)),
    "packed-length": (283, 1, b"\x05", error("Check8", 285)),
    "crc": (38, 1, b"\x77", error("Check16", 38)),
    "another-subject": (305, 18, X, ok(1, 1, 1, 1, 0)),
    "another-object": (351, 18, X, ok(1, 1, 0, 1, 1)),
}


@pytest.mark.parametrize("start, size, part, expected", DAMAGED.values(), ids=DAMAGED)
def test_damaged_sample(probe: Probe, start: int, size: int, part: bytes, expected: Answer) -> None:
    """Damage is reported at its byte offset, by all calls, before unused strings."""
    data = replaced(V1, start, size, part)
    counted, tight = counted_and_tight(probe, data)
    assert counted == expected
    assert tight == expected or expected[0] == "ok"
    assert read(probe, data) == verdicts(data)


CUT = {"sample": V1, "three": THREE, **{name: loose_file(*LOOSE[name][:2])
                                        for name in ("subject", "object", "shared-used-as-subject")}}


@pytest.mark.parametrize("data", CUT.values(), ids=CUT)
def test_every_beginning(probe: Probe, data: bytes) -> None:
    """Every proper beginning of a file is Truncated, at the offset of what is missing, in each mode."""
    words = "verify", "verify_tight", "open_tight"
    requests: list[Request] = []
    for size in range(len(data)):
        requests += [("file", data[:size]), *((word,) for word in words)]
    answers = probe.send(*requests)
    step = 1 + len(words)
    seen = [(size, answers[step * size + 1:step * size + step]) for size in range(len(data))]
    expected = [(size, [verdicts(data[:size])[word] for word in words]) for size in range(len(data))]
    assert seen == expected
    assert {answer[2] for _, row in expected for answer in row} == {"Truncated"}


def test_every_bit(probe: Probe) -> None:
    """A change of any bit of the sample is refused, but for the header body; each error is the reference's."""
    changed = [(at, bit, replaced(V1, at, 1, bytes([V1[at] ^ 1 << bit]))) for at in range(len(V1)) for bit in range(8)]
    requests: list[Request] = []
    for _, _, data in changed:
        requests += [("file", data), ("verify",)]
    answers = probe.send(*requests)
    seen = [(at, bit, answer) for (at, bit, _), answer in zip(changed, answers[1::2])]
    assert seen == [(at, bit, verdicts(data)["verify"]) for at, bit, data in changed]
    assert {at for at, _, answer in seen if answer[0] == "ok"} == set(range(68, 218))


class Change(NamedTuple):
    """A part of the file of three triples replaced, and the offset of the error that comes of it."""

    start: int
    size: int
    part: bytes
    offset: int


# Each reason but Unused, for which the two modes answer differently.
CHANGES = {
    "Truncated": Change(456, 1, b"", 453),
    "OverlongNumber": Change(278, 1, b"\x02\x80", 278),
    "NumberTooLarge": Change(278, 1, b"\x7f" * 10, 278),
    "NotHdt": Change(367, 1, b"#", 367),
    "WrongKind": Change(371, 1, b"\x03", 371),
    "Check16": Change(421, 1, b"Z", 421),
    "WrongFormat": Change(404, 19, b"List>\x00order=1;\x00\xd7w", 372),
    "HeaderLength": Change(63, 5, b"x;\x00\x8e[", 54),
    "TripleOrder": Change(418, 4, b"2;\x00\xa9", 412),
    "Check8": Change(281, 1, b"\xd4", 281),
    "Check32": Change(298, 1, b"\x88", 298),
    "SequenceKind": Change(282, 1, b"\x02", 282),
    "Width": Change(283, 1, b"A", 283),
    "BitsKind": Change(423, 1, b"\x02", 423),
    "SectionKind": Change(277, 1, b"\x01", 277),
    "BlockSize": Change(280, 2, b"\x80\xa5", 280),
    "BlockCount": Change(284, 7, b"\x83\xd4\xf8\x01\x17\x19\x84\xda", 284),
    "BlockPlace": Change(286, 5, b"9,\xc1,\x1a", 286),
    "PrefixTooLong": Change(295, 7, b"\x84b\x00\x9e\x15\xd0\xf5", 295),
    "PackedLength": Change(279, 23, b"\x88\x90\x16\x01\x04\x82\xb8\x80)h\x8b\xd0u:a\x00\x82b\x00\x00\x06\xd2\x1d\xa8",
                           298),
    "NotUtf8": Change(296, 6, b"\xff\x00\xe2\xd2[ ", 295),
    "StringsNotAscending": Change(296, 6, b"a\x00\x10K\x86\x10", 295),
    "SectionsOverlap": Change(359, 8, b"u:a\x00\xfa}\x01\x0e", 359),
    "NoTriples": Change(424, 7, b"\x80\x9c\x00\x00\x00\x00", 424),
    "LengthsDiffer": Change(441, 7, b"\x82\xc6\x09\x9d\x88\xcf*", 441),
    "LastMark": Change(426, 5, b"\x02\xa6#F\xb3", 426),
    "MarkCount": Change(434, 5, b"\x06\xb9\xb4\xdct", 432),
    "SubjectRange": Change(426, 5, b"\x07\xba7\xb7\x86", 426),
    "PredicateRange": Change(443, 5, b"\x1d\xed\xd8\x0b\xfd", 443),
    "ObjectRange": Change(449, 8, b"\x03\x83\xd4b\x00:b\xb8V", 452),
    "PredicatesNotAscending": Change(443, 5, b"\x16\xd6s\x82d", 443),
    "ObjectsNotAscending": Change(424, 33, b"\x82\x92\x03\xa5\xa0-A\x01\x83\x95\x06\xb9\xb4\xdct\x01\x01\x82\xf9\x03"
                                           b"\xa5\xa0-A\x01\x02\x83\xc1\x16\xd6s\x82d", 452),
    "TrailingBytes": Change(457, 0, b"\x00", 457),
}
# Global control information of more than 100,000 bytes, in place of the 40 bytes of the file's own.
LONG_FRONT = model.write_control(model.GLOBAL, b"x" * 100_000)


@pytest.mark.parametrize("front", [THREE[:40], LONG_FRONT], ids=["", "behind-100000-bytes"])
@pytest.mark.parametrize("reason", CHANGES)
def test_reason(probe: Probe, reason: str, front: bytes) -> None:
    """Each reason is reported by each call, at its byte offset, however many bytes stand before."""
    start, size, part, offset = CHANGES[reason]
    data = front + replaced(THREE, start, size, part)[40:]
    answer = error(reason, offset + len(front) - 40)
    assert read(probe, data) == dict.fromkeys(WORDS, answer)


def test_reasons_are_all() -> None:
    """The table has each of the 34 reasons but Unused, with the number and name of the format's description."""
    assert {*CHANGES, "Unused"} == {reason.name for reason in Reason}
    assert sorted(Reason) == list(range(1, 35))


@pytest.mark.parametrize("text, arguments", [
    (b"the file has a fault: Truncated at 68", ("fault", 68, 1)),
    (b"out of memory", ("out_of_memory",))], ids=["fault", "memory"])
def test_text_of_an_error(probe: Probe, text: bytes, arguments: tuple[Argument, ...]) -> None:
    """The text of the error of opening."""
    assert probe.ask("open_fault_text", *arguments) == ok(text)


@pytest.mark.parametrize("last_object", [60_000, 1], ids=["tight", "last-object-unused"])
def test_tightness_of_a_large_file(probe: Probe, last_object: int) -> None:
    """60,000 triples of 100,100 strings: `00000` to `59999` are subjects, `40000` to `99999` objects."""
    texts = [b"%05d" % n for n in range(100_000)]
    parts = model.split(texts[:60_000], texts[:100], texts[40_000:])
    front = V1[:218] + model.write_dictionary(*parts)
    ids = [(n, n % 100 + 1, n) for n in range(1, 60_000)] + [(60_000, 1, last_object)]
    counts = ok(60_000, 20_000, 40_000, 100, 40_000)
    # The last object is the last of its block: its prefix, its last byte and a zero byte, and then the CRC.
    tight = counts if last_object == 60_000 else error("Unused", len(front) - 7)
    assert counted_and_tight(probe, front + model.write_triples(ids)) == (counts, tight)


# Files that are damaged in each check of the format

@examples()
@given(drafts())
def test_files(probe: Probe, draft: Draft) -> None:
    """Files of any graph and style are read as the reference reads them."""
    expected = verdicts(draft.data)
    assert (read(probe, draft.data), read_fronts(probe, draft.data)) == (expected, fronts(draft.data))
    assert expected["open_tight"][0] == "ok"


def test_damages_are_all() -> None:
    """There is a damage for each of the 34 reasons."""
    assert set(DAMAGES) == {reason.name for reason in Reason}


@pytest.mark.parametrize("reason", [reason.name for reason in Reason])
@examples(8)
@given(draft=drafts(), data=st.data())
def test_damaged_file(probe: Probe, reason: str, draft: Draft, data: st.DataObject) -> None:
    """A file in which one check of the format fails is refused for its reason, where the reference finds it."""
    DAMAGES[reason](data.draw, draft)
    expected = verdicts(draft.data)
    assert expected["verify_tight"][2] == reason, "the damage of this reason makes another error"
    assert (read(probe, draft.data), read_fronts(probe, draft.data)) == (expected, fronts(draft.data))


@st.composite
def changed_files(draw: st.DrawFn) -> bytes:
    """Files with bytes changed, removed and added anywhere; with the CRCs made right again, or not."""
    data = draw(drafts()).data
    for _ in range(draw(st.integers(1, 3))):
        at = draw(st.integers(0, len(data)))
        part = draw(st.one_of(st.binary(max_size=2), st.sampled_from([b"\0", b"\x80", b"\x81", b"\xff"])))
        data = replaced(data, at, draw(st.integers(0, 2)), part)
    return checks.with_right_crcs(data, model.read_file) if draw(st.booleans()) else data


@examples()
@given(changed_files())
def test_changed_file(probe: Probe, data: bytes) -> None:
    """Files that are changed anywhere are read, or refused, as the reference reads them."""
    assert (read(probe, data), read_fronts(probe, data)) == (verdicts(data), fronts(data))
