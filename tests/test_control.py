"""Control information and properties, the reasons of errors, and the readers and writers that count their failures."""

from __future__ import annotations

import pytest
from hypothesis import example, given
from hypothesis import strategies as st

from reference import checks, hdt
from reference.hdt import DICTIONARY, GLOBAL, HEADER, TRIPLES, Control, Reason
from support.answers import REFUSED, answered
from support.probe import Answer, Argument, Probe, fault, ok
from support.strategies import AROUND, changed

KINDS = st.sampled_from([GLOBAL, HEADER, DICTIONARY, TRIPLES])
TEXT = st.binary(max_size=40).map(lambda text: text.replace(b"\0", b"="))
LARGE = b"x" * (1 << 20)


def values_of(read: tuple[Control, int]) -> tuple[Argument, ...]:
    """Control information as the probe answers it."""
    control, end = read
    return control.format, control.properties, control.properties_at, end


def wanted(data: bytes, at: int, kind: int) -> Answer:
    """The answer of `read_control`, by the reference."""
    return answered(hdt.read_control, (data, at, kind), values_of)


# Those of the sample file v1.hdt: the kind, the properties, the stored CRC, and the offset in the file.
SAMPLES = [
    (GLOBAL, b"", "76 35", 0),
    (HEADER, b"length=150;", "0e 4d", 40),
    (DICTIONARY, b"mapping=1;", "82 b8", 218),
    (TRIPLES, b"order=1;", "59 e9", 369),
]


@pytest.mark.parametrize("kind, properties, crc, at", SAMPLES, ids=["global", "header", "dictionary", "triples"])
def test_reads_and_writes(probe: Probe, kind: int, properties: bytes, crc: str, at: int) -> None:
    """Control information is written so behind other bytes, and read again there with another byte behind it."""
    before, text = b"\xaa" * at, hdt.FORMATS[kind]
    written = before + b"$HDT" + bytes([kind]) + text + b"\0" + properties + b"\0" + bytes.fromhex(crc)
    assert probe.ask("put_control", kind, properties, before) == ok(written)
    answer = ok(text, properties, at + 6 + len(text), len(written))
    assert probe.on(written + b"\x55", "read_control", kind, at) == answer


V1 = b"<http://purl.org/HDT/hdt#HDTv1>"

ERRORS = [
    ("nothing", b"", 0, Reason.Truncated),
    ("a short cookie", b"$HD", 0, Reason.Truncated),
    ("another cookie", b"$HDX", 0, Reason.NotHdt),
    ("no kind", b"$HDT", 4, Reason.Truncated),
    ("another kind", b"$HDT\x02" + V1 + b"\0\0\x76\x35", 4, Reason.WrongKind),
    ("no end of the format", b"$HDT\x01" + V1, 5, Reason.Truncated),
    ("no end of the properties", b"$HDT\x01\0abc", 6, Reason.Truncated),
    ("no CRC", b"$HDT\x01" + V1 + b"\0\0", 38, Reason.Truncated),
    ("half a CRC", b"$HDT\x01" + V1 + b"\0\0\x76", 38, Reason.Truncated),
    ("another CRC", b"$HDT\x01" + V1 + b"\0x\0\x76\x35", 39, Reason.Check16),
    ("another format", b"$HDT\x01other\0\0\x09\x73", 5, Reason.WrongFormat),
    ("the format of another kind", hdt.write_control(GLOBAL, b"", b"ntriples"), 5, Reason.WrongFormat),
]


@pytest.mark.parametrize("data, offset, reason", [row[1:] for row in ERRORS], ids=[row[0] for row in ERRORS])
def test_refuses(probe: Probe, data: bytes, offset: int, reason: Reason) -> None:
    """Bytes that are no global control information."""
    assert probe.on(data, "read_control", GLOBAL, 0) == fault(reason, offset)


def test_a_zero_byte_is_not_written(probe: Probe) -> None:
    """Properties hold no zero byte."""
    assert probe.ask("put_control", HEADER, b"a\0b", b"") == REFUSED


def test_large_properties(probe: Probe) -> None:
    """Properties may be large."""
    written = hdt.write_control(HEADER, LARGE)
    assert probe.ask("put_control", HEADER, LARGE, b"") == ok(written)
    assert probe.on(written, "read_control", HEADER, 0) == ok(b"ntriples", LARGE, 14, len(written))


@given(KINDS, KINDS, TEXT, AROUND, AROUND)
def test_reads_what_it_writes(probe: Probe, kind: int, read_as: int, properties: bytes, before: bytes,
                              behind: bytes) -> None:
    """Any properties, also read as the information of another kind."""
    written = before + hdt.write_control(kind, properties)
    assert probe.ask("put_control", kind, properties, before) == ok(written)
    data, at = written + behind, len(before)
    assert probe.on(data, "read_control", read_as, at) == wanted(data, at, read_as)


@given(st.data(), KINDS, TEXT)
def test_damaged(probe: Probe, data: st.DataObject, kind: int, properties: bytes) -> None:
    """Control information with a byte changed is refused as by the reference; also with its CRC made right."""
    damaged = data.draw(changed(hdt.write_control(kind, properties)))
    for file in damaged, checks.with_right_crcs(damaged, lambda file: hdt.read_control(file, 0, kind)):
        assert probe.on(file, "read_control", kind, 0) == wanted(file, 0, kind)


PROPERTIES = [
    (b"length=5;x;length=150", b"length", b"150"),
    (b"a=b=c;", b"a", b"b=c"),
    (b"a;", b"a", None),
    (b"", b"a", None),
    (b"a=1;a", b"a", b"1"),
    (b"a=1;b=2;", b"b", b"2"),
    (b"a=;", b"a", b""),
    (b"=x", b"", b"x"),
    (b"aa=1;A=2", b"a", None),
]


@pytest.mark.parametrize("text, key, value", PROPERTIES)
def test_property(probe: Probe, text: bytes, key: bytes, value: bytes | None) -> None:
    """The last property with a key counts; a piece without `=` is none."""
    assert probe.ask("property", text, key) == ok(value)


@given(st.text("ab=;", max_size=16).map(str.encode), st.text("ab=;", max_size=2).map(str.encode))
@example(b"a=1;a=2;a", b"a")
def test_any_property(probe: Probe, text: bytes, key: bytes) -> None:
    """Any text and key."""
    assert probe.ask("property", text, key) == ok(hdt.property_of(text, key))


def test_reasons(probe: Probe) -> None:
    """Each reason has its number and its name; a condition that holds is no error."""
    requests = [("demand", 0, 7, int(reason)) for reason in Reason]
    assert probe.send(*requests) == [fault(reason, 7) for reason in Reason]
    assert probe.send(*(("demand", 1, 7, int(reason)) for reason in Reason)) == [ok()] * len(Reason)


def test_texts_of_errors(probe: Probe) -> None:
    """The text of an error of a file, and that of a failed read or write."""
    assert probe.ask("fault_text", 68, 1) == ok(b"Truncated at 68")
    assert probe.ask("failed_text") == ok(b"a read or a write failed")


def test_counters_take_no_bytes(probe: Probe) -> None:
    """Counts of failures and steps are for contracts alone: no bytes, and one of a counted value of one byte."""
    assert probe.ask("sizes") == ok(0, 1, 0)


# What the parts of a file share.

@given(st.binary(max_size=20), st.integers(0, 22), st.integers(0, 22) | st.just(2**64 - 1))
def test_takes_bytes(probe: Probe, data: bytes, at: int, count: int) -> None:
    """So many bytes from an offset, or Truncated there."""
    found = at + count <= len(data)
    answer = ok(data[at:at + count], at + count) if found else fault(Reason.Truncated, at)
    assert probe.on(data, "bytes_at", at, count) == answer


@given(st.text("\0ab", max_size=20).map(str.encode) | st.integers(0, 100).map(lambda n: b"x" * n + b"\0y"),
       st.integers(0, 102))
def test_takes_texts(probe: Probe, data: bytes, at: int) -> None:
    """The text from an offset up to its zero byte, and the first zero byte of all."""
    end = data.find(b"\0", at)
    assert probe.on(data, "text_at", at) == (
        fault(Reason.Truncated, at) if end < 0 else ok(data[at:end], end + 1))
    assert probe.on(data, "zero_in") == ok(len(data.split(b"\0")[0]))


@pytest.mark.parametrize("appended, length, answer", [
    (1, 2, ok(True, b"abc")), (0, 2, ok(False, b"ab")), (0, 0, ok(False, b"")), (0, 3, ok(False, b"abc"))])
def test_cuts_on_error(probe: Probe, appended: int, length: int, answer: Answer) -> None:
    """What was appended is cut off where appending failed."""
    assert probe.ask("cut_on_error", appended, length, b"abc") == answer


# Readers and writers that count their failures: each request is one call.

READS = [
    ("an error and then none", b"abc", 2, "2:interrupted", [3, 3, 3, 3], [b"ab", "failed", b"c", b""]),
    ("errors for ever", b"abc", 2, "2", [3, 3, 3], [b"ab", "failed", "failed"]),
    ("an early end and then more", b"abc", 2, "2:zero", [3, 3, 3, 3], [b"ab", b"", b"c", b""]),
    ("an error at once", b"abc", 2, "0", [3], ["failed"]),
    ("nothing to read", b"", 2, "-", [3, 3], [b"", b""]),
    ("into nothing", b"abc", 2, "-", [0, 3, 0], [b"", b"ab", b""]),
    ("into a large buffer", b"abc", 2, "-", [4 << 20], [b"ab"]),
]


@pytest.mark.parametrize("data, step, fails, sizes, answers", [row[1:] for row in READS], ids=[row[0] for row in READS])
def test_counted_reads(probe: Probe, data: bytes, step: int, fails: str, sizes: list[int],
                       answers: list[Argument]) -> None:
    """Each read is one call of the reader, whose answer is handed on."""
    assert probe.on(data, "counted_read", step, fails, *sizes) == ok(*answers)
    calls, _, _, _, _, smallest, largest = map(int, probe.ask("reads")[1:])
    assert (calls, smallest, largest) == (len(sizes), min(sizes), max(sizes))


WRITES = [
    ("an error and then none", 2, "1:interrupted", [b"abc", b"abc", b"abc"], [2, "failed", 2, b"abab"]),
    ("nothing taken and then more", 2, "1:zero", [b"abc", b"abc", b"abc"], [2, "failed", 2, b"abab"]),
    ("errors for ever", 2, "1", [b"abc", b"abc", b"abc"], [2, "failed", "failed", b"ab"]),
    ("nothing to write", 2, "-", [b"", b"abc", b""], [0, 2, 0, b"ab"]),
    ("nothing to write, and an error", 2, "1", [b"", b""], [0, "failed", b""]),
    ("large", 2, "-", [LARGE * 4], [2, b"xx"]),
]


@pytest.mark.parametrize("step, calls, texts, answers", [row[1:] for row in WRITES], ids=[row[0] for row in WRITES])
def test_counted_writes(probe: Probe, step: int, calls: str, texts: list[bytes], answers: list[Argument]) -> None:
    """Each write is one call of the writer, without a flush; one that takes nothing of something is a failure."""
    assert probe.ask("counted_write", step, calls, *texts) == ok(*answers)
    made, _, _, _, flushes, smallest, largest = map(int, probe.ask("writes")[1:])
    sizes = [len(text) for text in texts]
    assert (made, flushes, smallest, largest) == (len(texts), 0, min(sizes), max(sizes))


WAYS = st.sampled_from(["", ":interrupted", ":zero"])


@given(st.binary(max_size=10), st.integers(1, 4), st.integers(0, 10), WAYS, st.lists(st.integers(0, 5), max_size=8))
def test_any_counted_reads(probe: Probe, data: bytes, step: int, most: int, way: str, sizes: list[int]) -> None:
    """A reader that fails after so many bytes: for ever, or once, or by a call that gives nothing."""
    at, fails, answers = 0, True, list[Argument]()
    for size in sizes:
        if fails and at == most:
            answers.append(b"" if way == ":zero" else "failed")
            fails = way == ""
            continue
        given_bytes = data[at:min(at + size, at + step, most if fails else len(data))]
        at += len(given_bytes)
        answers.append(given_bytes)
    assert probe.on(data, "counted_read", step, f"{most}{way}", *sizes) == ok(*answers)
    assert probe.ask("reads")[1:3] == (str(len(sizes)), str(at))


@given(st.integers(1, 4), st.integers(0, 6), WAYS, st.lists(st.binary(max_size=5), max_size=8))
def test_any_counted_writes(probe: Probe, step: int, calls: int, way: str, texts: list[bytes]) -> None:
    """A writer that fails after so many calls: for ever, or once, or by taking nothing of something."""
    taken, answers = b"", list[Argument]()
    for i, text in enumerate(texts):
        if i == calls or (i > calls and way == ""):
            answers.append(0 if way == ":zero" and not text else "failed")
        else:
            answers.append(min(step, len(text)))
            taken += text[:step]
    assert probe.ask("counted_write", step, f"{calls}{way}", *texts) == ok(*answers, taken)
    assert probe.ask("writes")[1:3] == (str(len(texts)), str(len(taken)))


@given(st.binary(max_size=12), st.integers(1, 5), st.integers(0, 12), WAYS)
def test_writes_all(probe: Probe, text: bytes, step: int, calls: int, way: str) -> None:
    """All is written in as many calls as it takes, up to the first failure, which is not tried again."""
    needed = -(-len(text) // step)
    taken = text[:step * calls]
    answer = ok(text) if calls >= needed else ("written", str(len(taken)), taken.hex())
    assert probe.ask("counted_write_all", step, f"{calls}{way}", text) == answer
    made, _, _, after_failure, flushes = map(int, probe.ask("writes")[1:6])
    assert (made, after_failure, flushes) == (min(needed, calls + 1), 0, 0)
