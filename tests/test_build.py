"""Building a file from N-Triples: the canonical file of the document's graph, its report, and errors."""

from __future__ import annotations

import random
import shutil
from collections.abc import Iterable
from pathlib import Path
from typing import Optional

import pytest
from hypothesis import example, given
from hypothesis import strategies as st

from reference import hdt as reference
from reference.ntriples import Reason, is_iri, read_document, triple_strings
from support.built import PROGRAM, SAMPLES
from support.documents import (
    GRAPHS, THREE, Strings, canonical_file, check_build, counts, difference, document, line, printed,
    same_lines, shuffled,
)
from support.probe import Answer, Argument, Probe, fault, ok
from support.program import READING_FAILED, WRITING_FAILED, Result, Word, hdt, run
from support.terms import (
    IRIS, STEPS, TEXTS, Case, Request, answered, documents, document_texts, error_answer, shortened,
)
from support.timing import is_linear, measure, timed

GRAPH_NAMES = pytest.mark.parametrize("name", GRAPHS)
BLOCK_SIZES = pytest.mark.parametrize("block_size", [1, 2, 16, 65_535])
ALL = 10**9


# ---- the program: files

@pytest.mark.parametrize("sample, report", [("v1", b"built 1 1 0 1 0 459\n"), ("three", b"built 3 2 0 2 1 457\n")])
def test_samples(tmp_path: Path, sample: str, report: bytes) -> None:
    """The sample files are built from the sample documents."""
    out = tmp_path / "out.hdt"
    assert hdt("build", "--base", "http://a/", SAMPLES / f"{sample}.nt", out) == Result(0, report, b"")
    assert difference(out.read_bytes(), (SAMPLES / f"{sample}.hdt").read_bytes()) == ""


@GRAPH_NAMES
@BLOCK_SIZES
def test_block_sizes(tmp_path: Path, name: str, block_size: int) -> None:
    """Blocks of any size."""
    triples = GRAPHS[name]
    check_build(tmp_path, document(triples), triples, "--block-size", str(block_size), block_size=block_size)


@GRAPH_NAMES
def test_bases(tmp_path: Path, name: str) -> None:
    """Another base than the default one."""
    triples = GRAPHS[name]
    check_build(tmp_path, document(triples), triples, "--base=u:\u20ac", base="u:\u20ac".encode())


@GRAPH_NAMES
def test_dumps(tmp_path: Path, name: str) -> None:
    """What is built is verified, and its dump has the lines of the document and gives the same file."""
    triples = GRAPHS[name]
    out = check_build(tmp_path, document(triples), triples)
    assert hdt("verify", out) == printed("ok", triples)
    status, dump, _ = hdt("dump", out)
    assert status == 0 and same_lines(dump, document(triples))
    check_build(tmp_path, dump, triples)


@GRAPH_NAMES
@pytest.mark.parametrize("seed", range(10))
def test_orders(tmp_path: Path, name: str, seed: int) -> None:
    """The order of the lines, and lines that come twice, make no difference."""
    triples = GRAPHS[name]
    mixed = shuffled([line(triple) for triple in triples], seed, 50)
    check_build(tmp_path, b"# mixed\n\r\n" + mixed, triples)


@pytest.mark.parametrize("seed", range(10))
def test_line_orders(tmp_path: Path, seed: int) -> None:
    """Eight lines in other orders, two of them twice, in blocks of two."""
    triples = [
        (b"u:a", b"u:p", b"u:b"), (b"u:b", b"u:p", b"u:a"), (b"u:p", b"u:p", b"u:p"), (b"_:x", b"u:q", b"_:y"),
        (b"u:c", b"u:p", b"u:c"), (b"_:x", b"u:q", b'"1"@en'), (b"u:c", b"u:q", b'"1"'), (b"u:c", b"u:q", b'""^^<u:d>'),
    ]
    mixed = shuffled([line(triple) for triple in triples], seed, 2)
    check_build(tmp_path, mixed, triples, "--block-size", "2", block_size=2)


@pytest.mark.parametrize("seeds", [range(0, 50), range(50, 100)], ids=str)
def test_roles(tmp_path: Path, seeds: range) -> None:
    """Few strings in many triples: each is in the sections of just the roles in which it is used."""
    names = [b"u:%d" % i for i in range(4)]
    every = [(s, p, o) for s in names for p in names for o in names]
    for seed in seeds:
        source = random.Random(seed)
        triples = source.sample(every, source.randrange(1, 12))
        check_build(tmp_path, document(triples), triples)


# Documents whose triples are written in other words, and these triples.
SAME_GRAPHS = [
    pytest.param(
        b'<u:s> <u:p> "x" .\n<u:s> <u:p> "x"^^<http://www.w3.org/2001/XMLSchema#string> .\n', (b"u:s", b"u:p", b'"x"'),
        b'"x"', id="a literal with the datatype of strings"),
    pytest.param(
        b'<u:s> <u:p> "a\\"b\\\\c\\n\\"@en" .\n', (b"u:s", b"u:p", b'"a"b\\c\n"@en"'), b'"a"b\\\\c\\n"@en"',
        id="a literal with escapes"),
    pytest.param(b"<u:a> <u:p> <u:b> .", (b"u:a", b"u:p", b"u:b"), b"u:b", id="a last line without its end"),
]


@pytest.mark.parametrize("text, triple, shown", SAME_GRAPHS)
def test_spellings(tmp_path: Path, text: bytes, triple: Strings, shown: bytes) -> None:
    """One triple in other words; its object is found."""
    out = check_build(tmp_path, text, [triple])
    assert hdt("string", out, "object", "1") == Result(0, shown + b"\n", b"")
    assert hdt("number", "--raw", out, "object", triple[2]) == Result(0, b"1\n", b"")


@pytest.mark.parametrize("block_size", [1, 2, 65_535])
def test_found_again(tmp_path: Path, block_size: int) -> None:
    """Blocks of any size hold the same strings: each of twenty triples is found."""
    triples = [(b"u:s%d" % i, b"u:p", b'"o%d"' % i) for i in range(1, 21)]
    out = check_build(tmp_path, document(triples), triples, "--block-size", str(block_size), block_size=block_size)
    found = [hdt("find", "--raw", out, triple[0], "?", triple[2]) for triple in triples]
    assert found == [Result(0, line(triple), b"") for triple in triples]


def test_many_objects(tmp_path: Path) -> None:
    """A subject with 513 objects, and one after it."""
    triples = [(b"u:s1", b"u:p", b"u:o%04d" % i) for i in range(1, 514)] + [(b"u:s2", b"u:p", b"u:o0001")]
    out = check_build(tmp_path, document(triples), triples)
    assert hdt("find", "--numbers", out, "<u:s2>", "?", "?") == Result(0, b"2 1 1\n", b"")


# ---- the program: large documents

# Lines and their triples: `r` is an IRI, `i` the number of the line, and three lines in turn have one `n`.
LINES = [
    (b'<%(r)b> <u:name> "n%(i)d" .\n', (b"%(r)b", b"u:name", b'"n%(i)d"')),
    (b'<%(r)b> <u:label> "l\\u00E9\\n%(i)d"@en-GB .\n', (b"%(r)b", b"u:label", b'"l\xc3\xa9\n%(i)d"@en-GB')),
    (b'<%(r)b> <u:size> "%(i)d"^^<http://www.w3.org/2001/XMLSchema#integer> .\n',
     (b"%(r)b", b"u:size", b'"%(i)d"^^<http://www.w3.org/2001/XMLSchema#integer>')),
    (b"_:b%(n)d <u:next> _:b%(i)d .\n", (b"_:b%(n)d", b"u:next", b"_:b%(i)d")),
    (b"<%(r)b> <u:next> <http://example.org/resource/%(i)d> .\n",
     (b"%(r)b", b"u:next", b"http://example.org/resource/%(i)d")),
    (b"<%(r)b> <u:next> <u:name> .\n", (b"%(r)b", b"u:next", b"u:name")),
    (b'<u:name> <u:is> "\\"%(n)d\\\\" .\n', (b"u:name", b"u:is", b'""%(n)d\\"')),
    (b"<http://example.org/resource/1> <u:next> <http://example.org/resource/2> .\n",
     (b"http://example.org/resource/1", b"u:next", b"http://example.org/resource/2")),
]


def any_line(i: int) -> tuple[bytes, Strings]:
    """Line i of a document with every kind of term, and its triple."""
    values = {b"i": i, b"n": i // 3, b"r": b"http://example.org/resource/%d" % (i // 3)}
    text, (s, p, o) = LINES[i % 8]
    return text % values, (s % values, p % values, o % values)


def test_large_document(tmp_path: Path) -> None:
    """20,000 lines with every kind of term and a literal of 100,000 bytes: built, verified, dumped and built again."""
    long = b"u:long", b"u:name", b'"' + b"x" * 100_000 + b'"'
    texts, triples = zip(*map(any_line, range(20_000)))
    graph = {*triples, long}
    out = check_build(tmp_path, b"".join(texts) + line(long), graph)
    assert hdt("verify", "--tight", out) == printed("ok", graph)
    status, dump, _ = hdt("dump", out)
    assert status == 0
    check_build(tmp_path, dump, graph)


def test_large_literal(tmp_path: Path) -> None:
    """A literal of 150,000 bytes."""
    triple = b"u:a", b"u:p", b'"' + b"x" * 150_000 + b'"'
    out = check_build(tmp_path, line(triple), [triple], "--base", "u:base", base=b"u:base")
    assert hdt("verify", "--tight", out) == Result(0, b"ok 1 0 1 1 1\n", b"")


# ---- the program: memory and time

def in_memory(room: int, *words: Word) -> Result:
    """Run the program with an address space of so many bytes."""
    return run(["sh", "-c", 'ulimit -v "$0" && exec "$@"', str(room // 1024), PROGRAM, *words])


def numbered_lines(numbers: Iterable[int], prefix: bytes) -> bytes:
    """Lines of triples whose strings begin alike, end with a letter and a number in six digits, and come once."""
    return b"".join(b"<%ss%06d> <%sp%06d> <%so%06d> .\n" % (prefix, n, prefix, n, prefix, n) for n in numbers)


def numbered_triples(prefix: bytes, count: int) -> list[Strings]:
    """The triples of `numbered_lines`."""
    return [(prefix + b"s%06d" % n, prefix + b"p%06d" % n, prefix + b"o%06d" % n) for n in range(count)]


def test_waiting_strings(tmp_path: Path) -> None:
    """Strings that wait to be looked up take little memory: 80 MB of lines with one long literal are built in 24 MB."""
    source, out = tmp_path / "waiting.nt", tmp_path / "waiting.hdt"
    source.write_bytes((b'<u:a> <u:p> "' + b"x" * 400_000 + b'" .\n') * 200)
    status, report, error = in_memory(24_000_000, "build", source, out)
    assert (status, report[:16], error) == (0, b"built 1 0 1 1 1 ", b"")


OUT_OF_MEMORY = Result(4, b"", b"hdt: out of memory\n")


@pytest.mark.parametrize("k, length, room", [(11, 16_384, 56_000_000), (19, 64, 95_000_000)])
def test_strings_found_again(tmp_path: Path, k: int, length: int, room: int) -> None:
    """Strings that come again are found, and not kept once more, but for one of sixteen that the cache may have lost.

    The list of strings has room for 2^k. Sixteen seventeenths of these, each twice, are built where there is no memory
    for twice the list, as 2^k + 1 strings show. The cache has doubled twice (k = 11) and ten times (k = 19).
    """
    source, out = tmp_path / "again.nt", tmp_path / "again.hdt"
    prefix = b"u:" + b"x" * (length - 9)
    fitting, over = -(-(16 << k) // 51), (1 << k) // 3 + 1
    source.write_bytes(numbered_lines(range(fitting), prefix) * 2)
    status, report, error = in_memory(room, "build", source, out)
    built = b"built %d 0 %d %d %d" % (fitting, fitting, fitting, fitting)
    assert (status, report.rpartition(b" ")[0], error) == (0, built, b"")
    source.write_bytes(numbered_lines(range(over), prefix))
    assert in_memory(room, "build", source, out) == OUT_OF_MEMORY


def test_more_than_a_million_strings(tmp_path: Path) -> None:
    """1,050,000 strings, each used once: built, verified, and found past 2^20 strings."""
    count = 350_000
    source, out = tmp_path / "many.nt", tmp_path / "many.hdt"
    source.write_bytes(numbered_lines(range(count), b"u:"))
    built = b"built %d 0 %d %d %d " % (count, count, count, count)
    status, report, error = hdt("build", source, out)
    assert (status, report, error) == (0, built + b"%d\n" % out.stat().st_size, b"")
    assert hdt("verify", "--tight", out) == Result(0, b"ok" + built[5:-1] + b"\n", b"")
    last = numbered_lines([count - 1], b"u:")
    assert hdt("find", out, *last.split()[:3]) == Result(0, last, b"")


# Strings of 32 bytes that begin so have one hash: their third eight bytes undo what the hash made of those before, and
# nothing that follows counts.
COLLIDING = b"u:one-hash166742jByz7XnI/"


def cpu_seconds(command: list[Word]) -> float:
    """The CPU time of a command, which has to succeed."""
    result, seconds = timed(command)
    assert result.status == 0, result
    return seconds


def test_strings_of_one_hash(tmp_path: Path) -> None:
    """Strings of one hash, each twice, are built in linear time: 16 times as many take at most 32 times as long."""
    commands: list[list[Word]] = []
    for count in 2_000, 32_000:
        folder = tmp_path / str(count)
        folder.mkdir()
        triples = numbered_triples(COLLIDING, count)
        out = check_build(folder, numbered_lines(range(count), COLLIDING) * 2, triples)
        commands.append([PROGRAM, "build", folder / "document.nt", out])
    small, large = commands
    measured = measure(lambda: cpu_seconds(small), lambda: cpu_seconds(large), 32, 0.004)
    assert is_linear(measured, 32, 0.004), measured


def literals(count: int, length: int) -> bytes:
    """A document of so many literals of so many equal bytes, but for their ends."""
    return b"".join(b'<u:s> <u:p> "%b%d" .\n' % (b"x" * length, i) for i in range(count))


def unlike_literals(count: int, length: int) -> bytes:
    """The same, but for their fronts: they share nothing."""
    return b"".join(b'<u:s> <u:p> "%05d%b" .\n' % (i, b"x" * length) for i in range(count))


@pytest.mark.parametrize("count", [1, 8, 9, 40])
def test_few_long_strings(tmp_path: Path, count: int) -> None:
    """Few long strings with one beginning take at most thrice the time of as many bytes that share nothing."""
    commands: list[list[Word]] = []
    for name, data in ("few", literals(count, 16_000_000 // count)), ("many", unlike_literals(10_000, 1_600)):
        (tmp_path / name).write_bytes(data)
        commands.append([PROGRAM, "build", tmp_path / name, tmp_path / f"{name}.hdt"])
    few, many = commands
    measured = measure(lambda: cpu_seconds(many), lambda: cpu_seconds(few), 3, 0.004)
    assert is_linear(measured, 3, 0.004), measured


def staged_literals(count: int) -> list[bytes]:
    """Lines of so many literals that share 400 bytes, and of forty that differ from them after 8, 16, 24, .. bytes."""
    return [b'<u:s> <u:p> "%bz" .\n' % (b"x" * 8 * i) for i in range(1, 41)] + literals(count, 400).splitlines(True)


def test_staged_prefixes(tmp_path: Path) -> None:
    """If each key tells only one string from the others, all are sorted by comparison in the end, in linear time."""
    commands: list[list[Word]] = []
    for count in 2_000, 32_000:
        source, out = tmp_path / f"{count}.nt", tmp_path / f"{count}.hdt"
        lines = staged_literals(count)
        source.write_bytes(b"".join(reversed(lines)))
        assert hdt("build", source, out).status == 0
        assert hdt("dump", out).out == b"".join(sorted(lines))
        commands.append([PROGRAM, "build", source, out])
    small, large = commands
    measured = measure(lambda: cpu_seconds(small), lambda: cpu_seconds(large), 32, 0.004)
    assert is_linear(measured, 32, 0.004), measured


# ---- the program: errors

def failed(status: int, message: str) -> Result:
    """The result of a command that prints this message."""
    return Result(status, b"", f"hdt: {message}\n".encode())


BAD_OPTIONS, NO_TRIPLES = failed(2, "bad options"), failed(1, "no triples")
BAD_LINE = failed(1, "line 2 column 13: 4 RelativeIri")

# Documents of which nothing is built, and why.
REFUSED_DOCUMENTS = [
    (b"", "no triples"),
    (b"# nothing", "no triples"),
    (b"\n\r\n \n", "no triples"),
    (b"\n<u:a> <u:p> <u:o>\n", "line 2 column 18: 1 Syntax"),
    (b"<u:a> <u:p> <o> .\n", "line 1 column 13: 4 RelativeIri"),
    (b"<u:a> <u:p> <u:o> .\n<u:a> _:p <u:o> .\n", "line 2 column 7: 1 Syntax"),
    (b'<u:a> <u:p> "\\u0000" .\n', "line 1 column 14: 6 ZeroCharacter"),
    (b"<u:a> <u:p> <u:b> .\n<u:a> <u:p>", "line 2 column 12: 1 Syntax"),
    (b"<rel> <u:p> <u:b> .", "line 1 column 1: 4 RelativeIri"),
    (b"<u:a> <u:p> <u:b> .\n<u:a> <u:p> <b> .\n", "line 2 column 13: 4 RelativeIri"),
]


@pytest.fixture
def folder(tmp_path: Path) -> Path:
    """A folder with a good and a bad document, and a file `out.hdt` that is to stay as it is."""
    shutil.copy(SAMPLES / "three.nt", tmp_path / "good.nt")
    (tmp_path / "bad.nt").write_bytes(b"<u:a> <u:p> <u:b> .\n<u:a> <u:p> <b> .\n")
    (tmp_path / "out.hdt").write_bytes(b"before")
    return tmp_path


@pytest.mark.parametrize("text, message", REFUSED_DOCUMENTS)
def test_refused_documents(folder: Path, text: bytes, message: str) -> None:
    """A document of which nothing is built: OUT stays as it was, or is not created."""
    source = folder / "refused.nt"
    source.write_bytes(text)
    assert hdt("build", source, "out.hdt", cwd=folder) == failed(1, message)
    assert (folder / "out.hdt").read_bytes() == b"before"
    assert hdt("build", source, "new.hdt", cwd=folder) == failed(1, message)
    assert not (folder / "new.hdt").exists()


REFUSED = [
    pytest.param(["/dev/null", "out.hdt"], NO_TRIPLES, id="an empty device"),
    pytest.param(["--block-size", "0", "good.nt", "out.hdt"], BAD_OPTIONS, id="block size 0"),
    pytest.param(["--block-size", "65536", "good.nt", "out.hdt"], BAD_OPTIONS, id="block size 65,536"),
    pytest.param(["--block-size", "4294967295", "good.nt", "out.hdt"], BAD_OPTIONS, id="block size 2^32 - 1"),
    pytest.param(["--base", "", "good.nt", "out.hdt"], BAD_OPTIONS, id="an empty base"),
    pytest.param(["--base", "rel", "good.nt", "out.hdt"], BAD_OPTIONS, id="a relative base"),
    pytest.param(["--base", "", "bad.nt", "out.hdt"], BAD_OPTIONS, id="bad options before a bad line"),
    pytest.param(["missing.nt", "out.hdt"], READING_FAILED, id="no input"),
    pytest.param(["--base", "", "missing.nt", "out.hdt"], READING_FAILED, id="no input before bad options"),
    pytest.param([".", "out.hdt"], READING_FAILED, id="an input that is a folder"),
    pytest.param(["good.nt", "."], WRITING_FAILED, id="an output that is a folder"),
    pytest.param(["bad.nt", "."], BAD_LINE, id="a bad line before an output that is a folder"),
    pytest.param(["good.nt", "/dev/full"], WRITING_FAILED, id="a full output"),
]


@pytest.mark.parametrize("words, result", REFUSED)
def test_refused(folder: Path, words: list[str], result: Result) -> None:
    """Options, inputs and outputs with which nothing is built: OUT stays as it was."""
    assert hdt("build", *words, cwd=folder) == result
    assert (folder / "out.hdt").read_bytes() == b"before"


@pytest.mark.parametrize("words", [
    ["--block-size", "4294967296"], ["--block-size", "-1"], ["--block-size", "x"], ["--base"],
], ids=" ".join)
def test_usage(folder: Path, words: list[str]) -> None:
    """Words that are no command line."""
    status, out, error = hdt("build", *words, "good.nt", "out.hdt", cwd=folder)
    assert (status, out, error[:7]) == (2, b"", b"error: ")
    assert (folder / "out.hdt").read_bytes() == b"before"


def test_line_that_cannot_be_printed(folder: Path) -> None:
    """The file is written before the line that reports it."""
    shell = 'exec "$1" build good.nt out.hdt >/dev/full'
    assert run(["sh", "-c", shell, "sh", PROGRAM], cwd=folder) == WRITING_FAILED
    assert difference((folder / "out.hdt").read_bytes(), canonical_file(THREE)) == ""


def test_pipe(folder: Path) -> None:
    """A document that is read from a pipe."""
    result = hdt("build", "/dev/stdin", "out.hdt", cwd=folder, stdin=document(THREE))
    assert result == printed("built", THREE, len(canonical_file(THREE)))
    assert difference((folder / "out.hdt").read_bytes(), canonical_file(THREE)) == ""


# ---- the calls: worked rows

def built(triples: list[Strings], base: bytes, block_size: int) -> Answer:
    """The answer of `build_bytes`: the canonical file and the report."""
    data = canonical_file(triples, base, block_size)
    return ok(data, *counts(triples), len(data))


def written(triples: list[Strings], base: bytes, block_size: int, taken: Optional[int] = None) -> Answer:
    """The answer of `build`: the report and what the writer took, or how many bytes it took before it failed."""
    data = canonical_file(triples, base, block_size)
    if taken is None:
        return ok(*counts(triples), len(data), data)
    return "written", str(taken), data[:taken].hex()


V1_LINE = b"<http://a/> <http://a/> <http://a/> .\n"
V1_TRIPLE = (b"http://a/",) * 3

# Documents with the triple of the sample `v1`, and then with those of the sample `three` in other words.
SAME_FILES = [
    ("v1", V1_LINE),
    ("three", document(THREE)),
    ("three", b'<u:b> <u:p> <u:a> .\n<u:a> <u:q> "x" .\n<u:a> <u:p> <u:b> .\n'),
    ("three", b'# note\n<u:a> <u:q> "x" . # behind\n\n<u:b> <u:p> <u:a> .\r\n\t\n<u:a> <u:p> <u:b> .\r\n# end'),
    ("three", b'<u:a> <u:p> <u:b> .\r<u:a> <u:p> <u:b> .\r\n<u:b>\t<u:p> <u:a>.\n<u:a><u:q>"x".'),
    ("three", b'<u:a> <u:q> "x" .\n<u:a> <u:q> "\\u0078" .\n<u:b> <u:p> <u:\\u0061> .\n<u:a> <u:p> <u:b> .\n'
              b"<u:b> <u:p> <u:a> ."),
]


@pytest.mark.parametrize("sample, text", SAME_FILES)
def test_pieces(probe: Probe, sample: str, text: bytes) -> None:
    """The same graph in other words, in pieces of each size, gives the same file."""
    file = (SAMPLES / f"{sample}.hdt").read_bytes()
    report = {"v1": (1, 1, 0, 1, 0, 459), "three": (3, 2, 0, 2, 1, 457)}[sample]
    cases: list[Case] = [(("file", text), ok())]
    for step in 1, 2, 7, ALL:
        cases.append((("build_bytes", 16, b"http://a/", step, "-"), ok(file, *report)))
        cases.append((("build", 16, b"http://a/", step, "-", step, "-"), ok(*report, file)))
    assert answered(probe, cases) == cases


# Documents, block sizes and bases of which nothing is built, why, and whether the document is read.
NOT_BUILT = [
    (b"", 16, b"http://a/", ("no", "triples"), True),
    (b"# nothing", 16, b"http://a/", ("no", "triples"), True),
    (b"\n\r\n \n", 16, b"http://a/", ("no", "triples"), True),
    (b"<u:a> <u:p> <u:b> .\n<u:a> <u:p>", 16, b"u:", fault(Reason.Syntax, 2, 12), True),
    (b"<rel> <u:p> <u:b> .", 16, b"u:", fault(Reason.RelativeIri, 1, 1), True),
    (document(THREE), 0, b"http://a/", ("bad", "options"), False),
    (document(THREE), 65_536, b"http://a/", ("bad", "options"), False),
    (document(THREE), 2**32 - 1, b"http://a/", ("bad", "options"), False),
    (document(THREE), 16, b"rel", ("bad", "options"), False),
    (document(THREE), 16, b"u:a b", ("bad", "options"), False),
    (document(THREE), 16, b"u:\xff", ("bad", "options"), False),
    (document(THREE), 16, b"", ("bad", "options"), False),
]


@pytest.mark.parametrize("text, block_size, base, answer, read", NOT_BUILT)
def test_not_built(probe: Probe, text: bytes, block_size: int, base: bytes, answer: Answer, read: bool) -> None:
    """Nothing is written; with bad options nothing is read."""
    cases: list[Case] = [(("build_bytes", block_size, base, ALL, "-"), answer),
                         (("build", block_size, base, ALL, "-", ALL, "-"), (*answer, ""))]
    probe.ask("file", text)
    for request, wanted in cases:
        seen, reads, writes = probe.send(request, ("reads",), ("writes",))
        assert (request, seen) == (request, wanted)
        assert (reads[1] != "0") == read
    assert writes[1:3] == ("0", "0")


def test_failing_readers(probe: Probe) -> None:
    """A reader that fails after each byte of a document: its line is answered, and nothing is written."""
    text = document(THREE)
    cases: list[Case] = [(("file", text), ok())]
    for fails in range(len(text) + 1):
        answer = fault(Reason.Read, text[:fails].count(b"\n") + 1, 0)
        for how in "", ":interrupted":
            cases.append((("build_bytes", 16, b"http://a/", 7, f"{fails}{how}"), answer))
            cases.append((("build", 16, b"http://a/", ALL, f"{fails}{how}", ALL, "-"), (*answer, "")))
    assert answered(probe, cases) == cases


@pytest.mark.parametrize("how", ["", ":interrupted", ":zero"])
def test_failing_writers(probe: Probe, how: str) -> None:
    """A writer that fails at each byte, by an error, an interruption or by taking nothing: it took the bytes before."""
    cases: list[Case] = [(("file", V1_LINE), ok())]
    for calls in range(459):
        answer = written([V1_TRIPLE], b"http://a/", 16, calls)
        cases.append((("build", 16, b"http://a/", ALL, "-", 1, f"{calls}{how}"), answer))
        cases.append((("build", 16, b"http://a/", ALL, "-", 100, f"@{calls}{how}"), answer))
    assert answered(probe, cases) == cases


@pytest.mark.parametrize("step, calls", [(1, 459), (100, 5), (ALL, 1)])
def test_writers_in_pieces(probe: Probe, step: int, calls: int) -> None:
    """A writer that takes the file in pieces, and is not called once more."""
    request: Request = ("build", 16, b"http://a/", ALL, "-", step, calls)
    _, answer, writes = probe.send(("file", V1_LINE), request, ("writes",))
    assert answer == written([V1_TRIPLE], b"http://a/", 16)
    assert writes[1:4] == (str(calls), "459", "0")


PRINTED: list[tuple[Request, bytes]] = [
    (("build_fault_text", "no_triples"), b"the input has no triples"),
    (("build_fault_text", "bad_options"), b"the options are not ones that can be taken"),
    (("build_fault_text", "out_of_memory"), b"out of memory"),
    (("build_fault_text", "write", 7), b"writing failed after 7 bytes"),
    (("build_fault_text", "line", 2, 12, 1), b"the input has a fault: Syntax at line 2 column 12"),
    (("rewrite_fault_text", "bad_options"), b"the options are not ones that can be taken"),
    (("rewrite_fault_text", "out_of_memory"), b"out of memory"),
    (("rewrite_fault_text", "write", 7), b"writing failed after 7 bytes"),
]


@pytest.mark.parametrize("request_, text", PRINTED, ids=str)
def test_printed_errors(probe: Probe, request_: Request, text: bytes) -> None:
    """Errors as text."""
    assert probe.ask(*request_) == ok(text)


# ---- the calls: large documents

def check_large(probe: Probe, text: bytes, triples: list[Strings], base: bytes, block_size: int) -> bytes:
    """Build a large document, also with a writer, open it and rewrite it: each time it is the canonical file."""
    data = canonical_file(triples, base, block_size)
    report = *counts(triples), len(data)
    cases: list[Case] = [
        (("file", text), ok()),
        (("build_bytes", block_size, base, ALL, "-"), ok(data, *report)),
        (("build", block_size, base, 4_096, "-", 65_536, "-"), ok(*report, data)),
        (("file", data), ok()),
        (("verify_tight",), ok(*report[:5])),
        (("rewrite_bytes", block_size, base), ok(data, *report)),
        (("rewrite", block_size, base, 65_536, "-"), ok(*report, data)),
    ]
    assert shortened(answered(probe, cases)) == shortened(cases)
    return data


@pytest.mark.parametrize("prefix, count", [(b"u:", 131_072), (COLLIDING, 66_667)], ids=["plain", "of one hash"])
def test_many_strings(probe: Probe, prefix: bytes, count: int) -> None:
    """Many triples, each of strings of its own, the last first and one of them twice."""
    triples = numbered_triples(prefix, count)
    text = numbered_lines([*range(count)][::-1] + [count - 1], prefix)
    data = check_large(probe, text, triples, b"http://a/", 16)
    cases: list[Case] = [(("file", data), ok())]
    chosen = [0, 1, count // 2, count - 2, count - 1]
    for role, letter in enumerate([b"s", b"p", b"o"]):
        strings = [prefix + letter + b"%06d" % n for n in chosen]
        cases.append((("number_of", role, *strings), ok(*(n + 1 for n in chosen))))
        cases += [(("string_of", role, n + 1, b""), ok(True, string, True)) for n, string in zip(chosen, strings)]
    assert answered(probe, cases) == cases


def test_colliding_strings(probe: Probe) -> None:
    """The strings that the tests above call strings of one hash have one hash."""
    strings = [COLLIDING + letter + b"%06d" % n for letter in (b"s", b"p", b"o") for n in (0, 1, 66_666)]
    assert probe.ask("fold_hash", *strings) == ok(*[0] * len(strings))


@pytest.mark.parametrize("length", [256, 65_536, 100_000])
def test_long_strings_and_bases(probe: Probe, length: int) -> None:
    """Strings of up to 200,000 bytes in each role, and a base of this length, in blocks of two."""
    iris = [b"u:" + b"b" * (size - 2) for size in (1_024, 65_536, 100_000)]
    triples = [(iri, iri, b'"' + iri + b'"^^<' + iri + b">") for iri in iris]
    base = b"u:" + b"b" * (length - 2)
    data = check_large(probe, document(triples), triples, base, 2)
    assert reference.read_file(data, tight=True).head.body == reference.header_body(base, 3)
    cases: list[Case] = [(("file", data), ok())]
    for number, triple in enumerate(triples, 1):
        for role, string in enumerate(triple):
            cases.append((("number_of", role, string), ok(number)))
            cases.append((("string_of", role, number, b""), ok(True, string, True)))
    assert shortened(answered(probe, cases)) == shortened(cases)


# ---- any documents, against the reference

bases = IRIS.map(str.encode)
bad_bases = st.builds("{}{}".format, st.sampled_from(["", "u:", "1:"]), TEXTS).map(str.encode)
block_sizes = st.sampled_from([1, 2, 3, 16, 65_535]) | st.integers(1, 65_535)
bad_block_sizes = st.sampled_from([0, 65_536, 2**32 - 1])


def built_of(text: bytes, block_size: int, base: bytes, fails: Optional[int] = None) -> Answer:
    """What `build_bytes` answers for any document and any options."""
    if not 1 <= block_size <= 65_535 or not is_iri(base):
        return "bad", "options"
    triples, error = read_document(text, fails=fails)
    if error is not None:
        return error_answer(error)
    if not triples:
        return "no", "triples"
    strings = [triple_strings(triple) for triple in triples]
    data = reference.graph(set(strings), base, block_size).data
    return ok(data, *counts(strings), len(data))


def written_of(answer: Answer, room: Optional[int]) -> Answer:
    """What `build` answers, with a writer that fails after so many bytes, if `build_bytes` answers this."""
    if answer[0] != "ok":
        return *answer, ""
    data, *report = answer[1:]
    if room is None or room >= len(data) // 2:
        return ("ok", *report, data)
    return "written", str(room), data[:2 * room]


@given(text=document_texts(), block_size=block_sizes | bad_block_sizes, base=bases | bad_bases, step=STEPS,
       fails=st.none() | st.integers(0, 80), room=st.none() | st.integers(0, 900), piece=STEPS)
@example(text=V1_LINE, block_size=16, base=b"http://a/", step=7, fails=None, room=458, piece=7)
@example(text=V1_LINE, block_size=16, base=b"http://a/", step=7, fails=None, room=459, piece=7)
def test_any_document(probe: Probe, text: bytes, block_size: int, base: bytes, step: int, fails: Optional[int],
                      room: Optional[int], piece: int) -> None:
    """Documents, damaged ones and random texts, any options, any pieces, readers and writers that fail."""
    answer = built_of(text, block_size, base, fails)
    reading: tuple[Argument, ...] = step, "-" if fails is None else fails
    cases: list[Case] = [
        (("file", text), ok()),
        (("build_bytes", block_size, base, *reading), answer),
        (("build", block_size, base, *reading, piece, "-" if room is None else f"@{room}"), written_of(answer, room)),
    ]
    assert answered(probe, cases) == cases


@given(pair=documents(most=12), block_size=block_sizes, base=bases, step=STEPS, data=st.data())
def test_any_graph(probe: Probe, pair: tuple[bytes, list[object]], block_size: int, base: bytes, step: int,
                   data: st.DataObject) -> None:
    """Another order of a document's lines gives the same file, which is tight and whose text gives it again."""
    text, _ = pair
    triples, _ = read_document(text)
    if not triples:
        return
    other = document(data.draw(st.permutations([triple_strings(triple) for triple in triples])))
    answer = built_of(text, block_size, base)
    file = bytes.fromhex(answer[1])
    dump = document(reference.read_file(file, tight=True).denoted)
    cases: list[Case] = []
    for document_ in text, other, dump:
        cases += [(("file", document_), ok()), (("build_bytes", block_size, base, step, "-"), answer)]
    cases += [(("file", file), ok()), (("verify_tight",), ok(*answer[2:7])), (("graph_text", "-", "-", "-"), ok(dump))]
    assert answered(probe, cases) == cases
