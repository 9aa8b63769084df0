"""Rewriting a file: the canonical file of its graph with its header body, without strings that triples don't use."""

from __future__ import annotations

import shutil
from collections.abc import Iterator, Sequence
from pathlib import Path
from typing import NamedTuple, Optional

import pytest
from hypothesis import example, given
from hypothesis import strategies as st

from reference import checks, hdt as reference
from reference.hdt import Parts, Style
from support.built import PROGRAM, SAMPLES
from support.documents import (
    DEFAULT_BASE, GRAPHS, THREE, Strings, canonical_file, check_build, check_rewrite, counts, difference, document,
    printed, same_lines,
)
from support.probe import Answer, Probe, ok
from support.program import READING_FAILED, WRITING_FAILED, Result, hdt, run
from support.terms import STEPS, Case, Request, answered, damaged, shortened
from support.timing import is_linear, measure, timed

GRAPH_NAMES = pytest.mark.parametrize("name", GRAPHS)
V1 = (SAMPLES / "v1.hdt").read_bytes()
V1_TRIPLE: Strings = (b"http://a/", b"http://a/", b"http://a/")
ALL = 10**9


# ---- files with unused strings

def unused_samples() -> dict[str, tuple[bytes, Strings]]:
    """The sample `v1` with a string that its triple doesn't use in a role, and the triple."""
    ux = reference.write_section([b"u:x"])
    with_object = V1[:351] + ux + V1[369:]
    return {
        "an unused subject": (V1[:305] + ux + V1[323:], V1_TRIPLE),
        "an unused object": (with_object, V1_TRIPLE),
        "a shared string used once": (with_object[:-9] + reference.write_numbers([2]), (*V1_TRIPLE[:2], b"u:x")),
    }


@pytest.mark.parametrize("name", unused_samples())
def test_unused_strings(tmp_path: Path, name: str) -> None:
    """A string that is not used in a role is left out of that role's section."""
    data, triple = unused_samples()[name]
    check_rewrite(tmp_path, data, canonical_file([triple], b"http://a/"), [triple])


def test_other_blocks_and_back(tmp_path: Path) -> None:
    """A file in blocks of one, in one block, and as it was."""
    three = (SAMPLES / "three.hdt").read_bytes()
    apart, whole = (canonical_file(THREE, b"http://a/", size) for size in (1, 65_535))
    check_rewrite(tmp_path, three, apart, THREE, "--block-size", "1")
    check_rewrite(tmp_path, apart, three, THREE)
    check_rewrite(tmp_path, apart, whole, THREE, "--block-size", "65535")
    check_rewrite(tmp_path, whole, three, THREE)


@pytest.mark.parametrize("at", [None, 68, 100, 217])
def test_header_bodies(tmp_path: Path, at: Optional[int]) -> None:
    """A canonical file stays as it is, whatever its header body holds."""
    data = V1 if at is None else V1[:at] + b"\xff" + V1[at + 1:]
    check_rewrite(tmp_path, data, data, [V1_TRIPLE])


def test_strings_of_no_term(tmp_path: Path) -> None:
    """Strings that belong to no term are kept."""
    triples = [(b"u:s", b"rel", b"u:o"), (b'"x"', b"", b"_:")]
    check_rewrite(tmp_path, canonical_file(triples, b"", 3), canonical_file(triples, b""), triples)


@GRAPH_NAMES
@pytest.mark.parametrize("block_size", [1, 2, 16, 65_535])
def test_block_sizes(tmp_path: Path, name: str, block_size: int) -> None:
    """Blocks of any size; the triples stay."""
    triples = GRAPHS[name]
    data, wanted = canonical_file(triples, block_size=7), canonical_file(triples, block_size=block_size)
    out = check_rewrite(tmp_path, data, wanted, triples, f"--block-size={block_size}")
    status, dump, _ = hdt("dump", out)
    assert status == 0 and same_lines(dump, document(triples))


@GRAPH_NAMES
def test_over_its_input(tmp_path: Path, name: str) -> None:
    """A file that is replaced by the rewritten one."""
    triples = GRAPHS[name]
    path = tmp_path / "over.hdt"
    path.write_bytes(canonical_file(triples, block_size=7))
    assert hdt("rewrite", path, path) == printed("rewritten", triples, len(canonical_file(triples)))
    assert difference(path.read_bytes(), canonical_file(triples)) == ""


@GRAPH_NAMES
@pytest.mark.parametrize("width", [64, 61])
def test_foreign(tmp_path: Path, name: str, width: int) -> None:
    """A file as another program may write it becomes what `build` makes of its dump, but for the header body."""
    triples = GRAPHS[name]
    subjects, predicates, objects = ({triple[role] for triple in triples} for role in range(3))
    data = reference.loose(triples, subjects, predicates, objects, b"u:foreign", 5, width).data
    source = tmp_path / "foreign.hdt"
    source.write_bytes(data)
    status, dump, _ = hdt("dump", source)
    assert status == 0
    built = check_build(tmp_path, dump, triples).read_bytes()
    head, other = (reference.write_head(reference.header_body(base, len(set(triples))))
                   for base in (DEFAULT_BASE, b"u:foreign"))
    assert built.startswith(head)
    check_rewrite(tmp_path, data, other + built[len(head):], triples)


class Loose(NamedTuple):
    """Triples, and the strings of each role of a file that holds them, of which some are unused."""

    triples: list[Strings]
    subjects: set[bytes]
    predicates: set[bytes]
    objects: set[bytes]


def loose_triples() -> Loose:
    """5,000 triples, and a set of strings for each role of which triples use nine of ten."""
    nodes = [b"http://example.org/node/%03d" % n for n in range(500)]
    predicates = [b"http://example.org/predicate/%02d" % n for n in range(20)]
    values = [b'"%d"@en' % n for n in range(1_000)]
    links = [node for n, node in enumerate(nodes) if n % 10 != 3 and n < 475]
    triples = {
        (node, predicates[p if p % 10 != 3 else 0], object_)
        for n, node in enumerate(nodes[:450])
        for p in range(20)
        for object_ in (links[(n * 7 + p) % len(links)], values[(n * 20 + p) % 1_000 // 10 * 10 + p % 9])
    }
    mixed = sorted(triples, key=lambda triple: (triple[0], reference.write_crc32(b"".join(triple))))
    rows: dict[bytes, list[Strings]] = {}
    for triple in mixed:
        rows.setdefault(triple[0], []).append(triple)
    # Each subject has its first eleven triples, and the first 50 subjects one more.
    chosen = [triple for n, row in enumerate(rows.values()) for triple in row[:12 if n < 50 else 11]]
    # A node from 450 on is no subject, one from 475 on nothing; one of ten before is no object.
    unused = {b"http://example.org/nowhere/%02d" % n for n in range(50)}
    return Loose(chosen, {*nodes, *unused}, set(predicates), {*nodes, *values})


def row_triples(subjects: int) -> Iterator[Strings]:
    """Eleven triples of each of so many subjects: web addresses, some of them subjects, and literals."""
    marks = [b""] * 8 + [b"8", b"9", b"a"]
    for s in range(subjects):
        for k, mark in enumerate(marks):
            text = mark + b"%05d" % ((s * 7 + k * 131) % 4_000)
            object_ = b"http://example.org/" + text if k < 4 else b'"' + text + b'"' + (b"@en" if k > 7 else b"")
            yield b"http://example.org/%05d" % s, b"u:p%x" % k, object_


def thinned_triples() -> Loose:
    """The rows of 500 subjects without the last tenth of the subjects and every tenth object, and all strings."""
    triples = list(row_triples(500))
    roles = [{triple[role] for triple in triples} for role in range(3)]
    parts = reference.split(*roles)
    subjects = set((parts.shared + parts.subjects)[:450])
    left_out = {string for n, string in enumerate(parts.shared + parts.objects, 1) if n % 10 == 0}
    return Loose([triple for triple in triples if triple[0] in subjects and triple[2] not in left_out], *roles)


LOOSE = {"loose": loose_triples(), "thinned": thinned_triples()}


def test_loose_triples() -> None:
    """There are unused strings in one role and in both."""
    triples, *roles = LOOSE["loose"]
    used = [{triple[role] for triple in triples} for role in range(3)]
    assert len(triples) == len(set(triples)) == 5_000
    assert len({(string in used[0], string in used[2]) for string in roles[0] & roles[2]}) == 4
    assert all(some < strings for some, strings in zip(used, roles))


@pytest.mark.parametrize("name", LOOSE)
@pytest.mark.parametrize("block_size", [1, 16, 1_000])
def test_loose(tmp_path: Path, name: str, block_size: int) -> None:
    """Files with strings that triples don't use: the triples stay, and the file is canonical."""
    triples, subjects, predicates, objects = LOOSE[name]
    data = reference.loose(triples, subjects, predicates, objects, b"u:loose", 16).data
    path = tmp_path / "source.hdt"
    path.write_bytes(data)
    status, dump, _ = hdt("dump", path)
    assert status == 0 and same_lines(dump, document(triples))
    assert hdt("verify", path).status == 0
    status, _, error = hdt("verify", "--tight", path)
    assert (status, error[:24]) == (1, b"hdt: fault 34 Unused at ")
    options = "--block-size", str(block_size)
    wanted = canonical_file(triples, b"u:loose", block_size)
    out = check_rewrite(tmp_path, data, wanted, triples, *options)
    status, again, _ = hdt("dump", out)
    assert status == 0 and same_lines(again, dump)
    check_rewrite(tmp_path, wanted, wanted, triples, *options)
    check_build(tmp_path, again, triples, "--base", "u:loose", *options, base=b"u:loose", block_size=block_size)


# ---- large files

def test_large_rows(tmp_path: Path) -> None:
    """22,000 triples: built, rewritten in the same blocks and in others."""
    triples = list(row_triples(2_000))
    data = check_build(tmp_path, document(triples), triples).read_bytes()
    assert len(triples) == 22_000 and len(data) > 100_000
    check_rewrite(tmp_path, data, data, triples)
    out = check_build(tmp_path, document(triples), triples, "--block-size", "3", block_size=3)
    check_rewrite(tmp_path, data, out.read_bytes(), triples, "--block-size", "3")


def test_large_literal(tmp_path: Path) -> None:
    """A literal of 150,000 bytes, in other blocks and back."""
    triple = b"u:a", b"u:p", b'"' + b"x" * 150_000 + b'"'
    data, apart = canonical_file([triple], b"u:base"), canonical_file([triple], b"u:base", 1)
    check_rewrite(tmp_path, data, apart, [triple], "--block-size", "1")
    check_rewrite(tmp_path, apart, data, [triple])


def test_large_dictionary(tmp_path: Path) -> None:
    """A dictionary of 20,000 objects with a string of 100,000 bytes in each section."""
    long = b"z" * 100_000
    objects = [b"http://example.org/object/%05d" % n for n in range(20_000)] + [b"o" + long]
    strings = [b"h" + long, *objects]
    triples = [(1, 1, n) for n in range(1, 20_003)] + [(2, 1, 1)]
    data = b"".join([
        reference.write_head(), reference.write_dictionary([b"h" + long], [b"i" + long], [b"p" + long], objects),
        reference.write_triples(triples)])
    path, short = tmp_path / "large.hdt", tmp_path / "short.hdt"
    path.write_bytes(data)
    assert hdt("verify", path) == Result(0, b"ok 20003 1 1 1 20001\n", b"")
    # The error is at the CRC of the last sequence.
    short.write_bytes(data[:-1])
    assert hdt("verify", short) == Result(1, b"", b"hdt: fault 1 Truncated at %d\n" % (len(data) - 4))
    status, out, error = hdt("strings", path, "object")
    wanted = b"".join(b"%d\t%s\n" % (n, string) for n, string in enumerate(strings, 1))
    assert (status, difference(out, wanted), error) == (0, "", b"")
    for n in (1, 2, 17, 10_001, 20_001, 20_002):
        status, out, error = hdt("string", path, "object", str(n))
        assert (n, status, difference(out, strings[n - 1] + b"\n"), error) == (n, 0, "", b"")
    for n in (2, 17, 10_001, 20_001):
        assert hdt("number", path, "object", b"<%s>" % strings[n - 1]) == Result(0, b"%d\n" % n, b"")


def test_linear_time_with_long_prefixes(tmp_path: Path) -> None:
    """40,000 strings of each kind share a prefix: one of 500,000 bytes takes little longer than one of 500."""
    counts_of = {}
    for length in (500, 500_000):
        data, counts_of[length] = reference.long_prefixes(3, length, 40_000)
        (tmp_path / f"{length}.hdt").write_bytes(data)

    def seconds(length: int) -> float:
        out = tmp_path / "out.hdt"
        result, taken = timed([PROGRAM, "rewrite", tmp_path / f"{length}.hdt", out, "--block-size", "65535"])
        assert result == Result(0, b"rewritten %d %d %d %d %d %d\n" % (*counts_of[length], out.stat().st_size), b"")
        return taken

    measured = measure(lambda: seconds(500), lambda: seconds(500_000), 8, 0.02)
    assert is_linear(measured, 8, 0.02), measured


# ---- errors of the program

def failed(status: int, message: str) -> Result:
    """The result of a command that prints this message."""
    return Result(status, b"", f"hdt: {message}\n".encode())


BAD_OPTIONS = failed(2, "bad options")
CUT = failed(1, "fault 1 Truncated at 291")


@pytest.fixture
def folder(tmp_path: Path) -> Path:
    """A folder with good and bad files, and a file `out.hdt` that is to stay as it is."""
    shutil.copy(SAMPLES / "v1.hdt", tmp_path / "v1.hdt")
    (tmp_path / "short.hdt").write_bytes(V1[:300])
    (tmp_path / "longer.hdt").write_bytes(V1 + b"x")
    (tmp_path / "one-less.hdt").write_bytes(V1[:-1])
    (tmp_path / "other.hdt").write_bytes(b"$hDT" + V1)
    (tmp_path / "out.hdt").write_bytes(b"before")
    return tmp_path


# Files that can't be read, and their errors.
FAULTY = [
    ("short.hdt", CUT),
    ("one-less.hdt", failed(1, "fault 1 Truncated at 455")),
    ("/dev/null", failed(1, "fault 1 Truncated at 0")),
    ("longer.hdt", failed(1, "fault 33 TrailingBytes at 459")),
    ("other.hdt", failed(1, "fault 4 NotHdt at 0")),
]


@pytest.mark.parametrize("source, result", FAULTY)
@pytest.mark.parametrize("block_size", [None, "0", "1", "16", "4294967295"])
def test_faulty_files(folder: Path, source: str, result: Result, block_size: Optional[str]) -> None:
    """The error of a file comes before that of the options: OUT stays as it was, or is not created."""
    options = [] if block_size is None else ["--block-size", block_size]
    assert hdt("rewrite", *options, source, "out.hdt", cwd=folder) == result
    assert (folder / "out.hdt").read_bytes() == b"before"
    assert hdt("rewrite", *options, source, "new.hdt", cwd=folder) == result
    assert not (folder / "new.hdt").exists()


REFUSED = [
    pytest.param(["--block-size", "0", "v1.hdt", "out.hdt"], BAD_OPTIONS, id="block size 0"),
    pytest.param(["--block-size", "65536", "v1.hdt", "out.hdt"], BAD_OPTIONS, id="block size 65,536"),
    pytest.param(["--block-size", "4294967295", "v1.hdt", "out.hdt"], BAD_OPTIONS, id="block size 2^32 - 1"),
    pytest.param(["--block-size", "0", "missing.hdt", "out.hdt"], READING_FAILED, id="no input before bad options"),
    pytest.param([".", "out.hdt"], READING_FAILED, id="an input that is a folder"),
    pytest.param(["v1.hdt", "."], WRITING_FAILED, id="an output that is a folder"),
    pytest.param(["short.hdt", "."], CUT, id="an error of the file before an output that is a folder"),
    pytest.param(["--block-size", "0", "v1.hdt", "."], BAD_OPTIONS, id="bad options before an output that is a folder"),
    pytest.param(["v1.hdt", "/dev/full"], WRITING_FAILED, id="a full output"),
]


@pytest.mark.parametrize("words, result", REFUSED)
def test_refused(folder: Path, words: list[str], result: Result) -> None:
    """Options, inputs and outputs with which nothing is rewritten: OUT stays as it was."""
    assert hdt("rewrite", *words, cwd=folder) == result
    assert (folder / "out.hdt").read_bytes() == b"before"


@pytest.mark.parametrize("words", [
    ["v1.hdt"], ["v1.hdt", "out.hdt", "--base", "x"], ["v1.hdt", "out.hdt", "out.hdt"],
    ["--block-size", "x", "v1.hdt", "out.hdt"], ["--block-size", "4294967296", "v1.hdt", "out.hdt"],
], ids=" ".join)
def test_usage(folder: Path, words: list[str]) -> None:
    """Words that are no command line."""
    status, out, error = hdt("rewrite", *words, cwd=folder)
    assert (status, out, error[:7]) == (2, b"", b"error: ")
    assert (folder / "out.hdt").read_bytes() == b"before"


def test_line_that_cannot_be_printed(folder: Path) -> None:
    """The file is written before the line that reports it."""
    shell = 'exec "$1" rewrite v1.hdt out.hdt >/dev/full'
    assert run(["sh", "-c", shell, "sh", PROGRAM], cwd=folder) == WRITING_FAILED
    assert difference((folder / "out.hdt").read_bytes(), V1) == ""


# ---- the calls: worked rows

REPORT = 1, 1, 0, 1, 0, 459


@pytest.mark.parametrize("name", ["the sample itself", "an unused subject", "an unused object"])
def test_rewritten_samples(probe: Probe, name: str) -> None:
    """A file is rewritten as the sample; the base of the options doesn't count."""
    data = V1 if name == "the sample itself" else unused_samples()[name][0]
    cases: list[Case] = [(("file", data), ok())]
    for base in b"", b"http://a/", b"rel", b"\xff":
        cases.append((("rewrite_bytes", 16, base), ok(V1, *REPORT)))
        cases.append((("rewrite", 16, base, ALL, "-"), ok(*REPORT, V1)))
    assert answered(probe, cases) == cases


def test_bad_block_sizes(probe: Probe) -> None:
    """Block sizes that are not written: nothing is written."""
    cases: list[Case] = [(("file", (SAMPLES / "three.hdt").read_bytes()), ok())]
    for block_size in 0, 65_536, 2**32 - 1:
        cases.append((("rewrite_bytes", block_size, b"http://a/"), ("bad", "options")))
        cases.append((("rewrite", block_size, b"http://a/", ALL, "-"), ("bad", "options", "")))
        cases.append((("is_canonical", block_size), ok(False)))
    assert answered(probe, cases) == cases
    assert probe.ask("writes")[1:3] == ("0", "0")


@pytest.mark.parametrize("name", ["three.hdt", "v1.hdt"])
def test_one_byte_changed(probe: Probe, name: str) -> None:
    """A canonical file, and one with a changed byte, the CRCs made right or not: canonical if it is the same."""
    data = (SAMPLES / name).read_bytes()
    for at in range(len(data)):
        changed = data[:at] + bytes([data[at] ^ 1]) + data[at + 1:]
        for file in {data, changed, checks.with_right_crcs(changed, reference.read_file), data[:at]}:
            try:
                read = reference.read_file(file)
                wanted = rewritten(Written(file, read.head.body, read.denoted, True), 16)[1] == file.hex()
            except reference.Error:
                wanted = False
            cases: list[Case] = [(("file", file), ok()), (("is_canonical", 16), ok(wanted))]
            assert (at, answered(probe, cases)) == (at, cases)


@pytest.mark.parametrize("how", ["", ":interrupted", ":zero"])
def test_failing_writers(probe: Probe, how: str) -> None:
    """A writer that fails at each byte, by an error, an interruption or by taking nothing: it took the bytes before."""
    cases: list[Case] = [(("file", unused_samples()["an unused subject"][0]), ok())]
    for calls in range(len(V1)):
        answer = "written", str(calls), V1[:calls].hex()
        cases.append((("rewrite", 16, b"", 1, f"{calls}{how}"), answer))
        cases.append((("rewrite", 16, b"", 100, f"@{calls}{how}"), answer))
    assert answered(probe, cases) == cases


@pytest.mark.parametrize("step, calls", [(1, 459), (100, 5), (ALL, 1)])
def test_writers_in_pieces(probe: Probe, step: int, calls: int) -> None:
    """A writer that takes the file in pieces, and is not called once more."""
    request: Request = ("rewrite", 16, b"", step, calls)
    data = unused_samples()["an unused subject"][0]
    _, answer, writes = probe.send(("file", data), request, ("writes",))
    assert answer == ok(*REPORT, V1)
    assert writes[1:4] == (str(calls), "459", "0")


# ---- the calls: dictionaries of other graphs

def lines_in_turn(third: int) -> list[Strings]:
    """Triples with so many shared strings, subjects and objects, which take turns in their order."""
    triples = []
    for at in range(third):
        shared, subject, object_ = (b"u:x%06d" % (3 * at + k) for k in range(3))
        triples.append((shared, b"u:p%06d" % (at % 4 * 2), shared))
        triples.append((subject, b"u:p%06d" % (at % 4 * 2 + 1), object_))
    return triples


def ids_over(subjects: int, objects: int) -> list[reference.Triple]:
    """Triples of IDs with so many subjects and objects, and up to four predicates."""
    most = max(subjects, objects)
    return sorted({(at * subjects // most + 1, at % 4 + 1, at * objects // most + 1) for at in range(most)})


SHARED = [(4, 7, 2), (4, 2, 7), (3, 3, 3), (2, 4, 4), (65_536, 114_688, 32_768), (65_536, 32_768, 114_688)]


@pytest.mark.parametrize("third, subjects, objects", SHARED)
def test_shared_in_one_role(probe: Probe, third: int, subjects: int, objects: int) -> None:
    """A dictionary whose shared strings are subjects, objects, both or neither: what is rewritten is what is built."""
    parts = reference.split(*zip(*lines_in_turn(third)))
    ids = ids_over(subjects, objects)
    front = reference.write_head(reference.header_body(b"http://a/", len(ids)))
    data = front + reference.write_dictionary(*parts, Style(7)) + reference.write_triples(ids)
    roles = parts.shared + parts.subjects, parts.predicates, parts.shared + parts.objects
    triples = [(roles[0][s - 1], roles[1][p - 1], roles[2][o - 1]) for s, p, o in ids]
    text = b"".join(b"<%s> <%s> <%s> .\n" % triple for triple in triples)
    wanted = canonical_file(triples, b"http://a/")
    report = counts(triples)
    assert report[1] == min(third, subjects, objects)
    cases: list[Case] = [
        (("file", data), ok()), (("rewrite_bytes", 16, b""), ok(wanted, *report, len(wanted))),
        (("graph_text", None, None, None), ok(text)),
        (("file", text), ok()), (("build_bytes", 16, b"http://a/", ALL, None), ok(wanted, *report, len(wanted))),
    ]
    assert shortened(answered(probe, cases)) == shortened(cases)
    apart = probe.on(data, "rewrite_bytes", 1, b"")
    assert apart[0] == "ok" and apart == probe.on(text, "build_bytes", 1, b"http://a/", ALL, None)


# ---- any files, against the reference

STRINGS = st.text(st.sampled_from("ab:\u00e9\u20ac\U0001f600\n\" "), max_size=5).map(str.encode)
TERM_STRINGS = st.sampled_from([b"u:a", b"u:ab", b"u:b", b"_:a", b'"x"', b'"x"@en', b'"x"^^<u:t>', b"u:\xc3\xa9"])
# Further properties before and after those that are needed. The last property with a key counts.
BEFORE = st.sampled_from([b"", b"a=b;", b";", b"x;", b"length=1;", b"order=2;", b"mapping=2;", b"numTriples=12;"])
AFTER = st.sampled_from([b"", b"a=b", b";", b"x", b"a=b=c;", b"order;", b"length", b"=1;"])


class Written(NamedTuple):
    """A file, and the same by the reference in its canonical form."""

    data: bytes
    body: bytes
    triples: list[Strings]
    is_tight: bool


def canonical_form(body: bytes, triples: Sequence[Strings], block_size: int) -> bytes:
    """The canonical file of these triples with this header body."""
    data = reference.graph(triples, None, block_size).data
    return reference.write_head(body) + data[len(reference.write_head()):]


@st.composite
def loose_files(draw: st.DrawFn) -> Written:
    """A file with any widths, padding bits, prefixes, block sizes and properties, and with unused strings."""
    some = draw(st.lists(STRINGS | TERM_STRINGS, min_size=1, max_size=12, unique=True))
    kinds = draw(st.lists(st.sampled_from(["both", "subject", "object"]), min_size=len(some), max_size=len(some)))
    shared, subjects, objects = (sorted(string for string, kind in zip(some, kinds) if kind == name)
                                 for name in ("both", "subject", "object"))
    if not shared and not (subjects and objects):
        shared, subjects, objects = sorted(some), [], []
    predicates = sorted(draw(st.lists(STRINGS | TERM_STRINGS, min_size=1, max_size=5, unique=True)))
    parts = Parts(shared, subjects, predicates, objects)
    roles = shared + subjects, predicates, shared + objects
    pairs = st.tuples(st.integers(1, len(roles[1])), st.integers(1, len(roles[2])))
    used = draw(st.integers(1, len(roles[0])))
    ids = [(s, p, o) for s in range(1, used + 1) for p, o in sorted(draw(st.sets(pairs, min_size=1, max_size=4)))]
    body = draw(st.binary(max_size=6))
    style = Style(padding=draw(st.sampled_from([0, -1, 0b101])), before=draw(BEFORE), behind=draw(AFTER))
    style_of_triples = Style(width=draw(st.integers(4, 64)), padding=style.padding, before=style.before)
    data = b"".join([
        reference.write_head(body, style),
        reference.write_control(reference.DICTIONARY, style.properties(b"mapping=1;")),
        *(draw(loose_section(strings, style.padding)) for strings in parts),
        reference.write_triples(ids, style_of_triples),
    ])
    triples = [(roles[0][s - 1], roles[1][p - 1], roles[2][o - 1]) for s, p, o in ids]
    return Written(data, body, triples, reference.split(*zip(*triples)) == parts)


@st.composite
def loose_section(draw: st.DrawFn, strings: list[bytes], padding: int) -> bytes:
    """A section with any block size, prefixes, width and padding bits."""
    prefixes = draw(st.lists(st.integers(0, 6), min_size=len(strings), max_size=len(strings)))
    width = draw(st.sampled_from([0, 12, 33, 64]))
    return reference.write_section(strings, draw(st.integers(1, 14)), prefixes, width, padding)


def data_of(file: Written) -> bytes:
    """The bytes of a file."""
    return file.data


block_sizes = st.sampled_from([1, 2, 3, 16, 65_535]) | st.integers(1, 65_535)


def rewritten(file: Written, block_size: int) -> Answer:
    """What `rewrite_bytes` answers for a file."""
    wanted = canonical_form(file.body, file.triples, block_size)
    return ok(wanted, *counts(file.triples), len(wanted))


@given(file=loose_files(), block_size=block_sizes, step=STEPS, room=st.none() | st.integers(0, 700))
def test_any_file(probe: Probe, file: Written, block_size: int, step: int, room: Optional[int]) -> None:
    """Files in any style and with unused strings: the canonical file of the graph, and again the same."""
    assert reference.read_file(file.data).denoted == file.triples
    answer = rewritten(file, block_size)
    wanted = bytes.fromhex(answer[1])
    whole = room is None or room >= len(wanted)
    cases: list[Case] = [
        (("file", file.data), ok()),
        (("verify",), ok(*reference.read_file(file.data).counts)),
        (("is_canonical", block_size), ok(file.data == wanted)),
        (("rewrite_bytes", block_size, b""), answer),
        (("rewrite", block_size, b"", step, "-" if room is None else f"@{room}"),
         ("ok", *answer[2:], answer[1]) if whole else ("written", str(room), wanted[:room].hex())),
        (("file", wanted), ok()),
        (("verify_tight",), ok(*counts(file.triples))),
        (("is_canonical", block_size), ok(True)),
        (("rewrite_bytes", block_size, b""), answer),
    ]
    seen = answered(probe, cases)
    assert seen == cases
    is_tight = probe.on(file.data, "verify_tight")[0] == "ok"
    assert is_tight == file.is_tight


@given(file=damaged(loose_files().map(data_of)), block_size=block_sizes | st.just(0))
@example(file=V1[:300], block_size=0)
@example(file=V1 + b"x", block_size=16)
def test_any_damaged_file(probe: Probe, file: bytes, block_size: int) -> None:
    """A damaged file, also with its CRCs made right: its error comes before that of the options."""
    for data in file, checks.with_right_crcs(file, reference.read_file):
        answer: Answer
        try:
            read = reference.read_file(data)
            answer = rewritten(Written(data, read.head.body, read.denoted, True), block_size or 1)
            if block_size == 0:
                answer = "bad", "options"
        except reference.Error as error:
            answer = error.answer
        assert probe.on(data, "rewrite_bytes", block_size, b"") == answer
