"""Each command on more than 2^20 triples, strings of a role, lines and requests, and on strings of 17 MiB.

A body that gives up at 65,536 or at 2^20 of anything would meet every contract. The answers have closed formulas.
"""

from __future__ import annotations

import json
import os
import zlib
from collections.abc import Callable, Iterator, Sequence
from itertools import islice, product
from pathlib import Path
from typing import NamedTuple

import pytest

from reference import hdt as reference
from support.built import SAMPLES
from support.large import (BLOCK_SIZE, COUNT, LARGE, MOST, NOT_TERMS, ROLES, Files, Large, entry, first, last, many,
                           with_last_subject)
from support.program import Result, Word, brief, done, failed, hdt, hdt_from
from support.search import escaped, spelled

Words = Sequence[Word]
# The word of a case in place of which the file is read.
FILE = "FILE"
SECTIONS = ["shared", "subjects", "predicates", "objects"]
GIVEN = list(product((False, True), repeat=3))
SECONDS = 120


class Case(NamedTuple):
    """A command line with FILE, its result, and what it reads from standard input."""

    words: Words
    wanted: Result
    stdin: bytes = b""


def seen(case: Case, source: str, path: Path) -> Result:
    """The result of a command that reads a file by its path, from a pipe, or as standard input."""
    words: list[Word] = [(path if source == "path" else "-") if word is FILE else word for word in case.words]
    if source == "file":
        return hdt_from(path, *words, seconds=SECONDS)
    return hdt(*words, stdin=path.read_bytes() if source == "pipe" else case.stdin, seconds=SECONDS)


def check(case: Case, path: Path, source: str = "path") -> None:
    """Compare the result of a command with what is wanted."""
    result = seen(case, source, path)
    if result != case.wanted:
        assert (case.words, brief(result)) == (case.words, brief(case.wanted))


# ---- the commands that read an HDT file


def counted(it: Large) -> bytes:
    """The counts of a graph."""
    return b" ".join(b"%d" % count for count in it.counts)


def verify(it: Large) -> Iterator[Case]:
    """`verify`."""
    all_options: list[Words] = [[], ["--tight"], ["--terms"], ["--tight", "--terms"]]
    for options in all_options:
        yield Case(["verify", *options, FILE], done(b"ok " + counted(it) + b"\n"))


def dump(it: Large) -> Iterator[Case]:
    """`dump`."""
    yield Case(["dump", FILE], done(it.document))
    yield Case(["dump", "--skip-non-terms", FILE], done(it.document))


def outputs(it: Large) -> Iterator[tuple[Words, bytes, bytes]]:
    """The options of a search, what it prints of all triples, and what of the last one."""
    yield [], it.document, last(it.line)
    yield ["--count"], b"%d\n" % COUNT, b"1\n"
    yield ["--numbers"], many(it.ids), last(it.ids)
    yield ["--skip-non-terms"], it.document, last(it.line)
    yield ["--most", str(MOST)], first(it.line, MOST), last(it.line)
    yield ["--count", "--most", str(MOST)], b"%d\n" % MOST, b"1\n"


def given_terms(patterns: Sequence[bytes], given: Sequence[bool]) -> list[bytes]:
    """S, P and O of a search: the last terms of the roles that are given, and `?`."""
    return [last(pattern) if it else b"?" for pattern, it in zip(patterns, given)]


def find(it: Large) -> Iterator[Case]:
    """`find`, by each pattern that matches all triples, or the last one; with options by the roles of one term."""
    for given in GIVEN:
        terms = given_terms(it.terms, given)
        for options, of_all, of_last in islice(outputs(it), None if given == it.constant else 2):
            yield Case(["find", *options, FILE, *terms], done(of_all if it.matches_all(given) else of_last))
    yield Case(["find", "--raw", FILE, *given_terms(it.strings, it.constant)], done(it.document))
    yield Case(["find", "--quiet", FILE, *given_terms(it.terms, it.large)], done())


def answer(it: Large) -> Iterator[Case]:
    """`answer`, by the roles of one term, by the other ones, and by no role."""
    requests, raw = ([blank.join(given_terms(patterns, given)) + b"\n" for given in (it.constant, it.large)]
                     for patterns, blank in ((it.terms, b" "), (it.strings, b"\t")))
    for options, of_all, of_last in outputs(it):
        yield Case(["answer", *options, FILE], done(b"\n".join([of_all, of_last, b""])), b"".join(requests))
    yield Case(["answer", "--raw", FILE], done(it.document + b"\n"), raw[0])
    yield Case(["answer", FILE], done(it.document + b"\n"), b"? ? ?\n")


def count(it: Large) -> Iterator[Case]:
    """`count`, of each role."""
    for role, term, string in zip(ROLES, it.terms, it.strings):
        if b"#" not in string:
            yield Case(["count", FILE, role], done(b"%d\t%s\n" % (COUNT, term)))
            yield Case(["count", FILE, role, "--top", "5"], done(b"%d\t%s\n" % (COUNT, term)))
            continue
        line, raw = b"1\t" + term + b"\n", b"1\t" + string + b"\n"
        yield Case(["count", FILE, role], done(many(line)))
        yield Case(["count", FILE, role, "--top", str(MOST)], done(first(line, MOST)))
        yield Case(["count", FILE, role, "--top", "5", "--raw"], done(first(raw, 5)))


def strings(it: Large) -> Iterator[Case]:
    """`strings`, of each role with many: all, and those from number 1,000,000 on."""
    for role, term, string in zip(ROLES, it.terms, it.strings):
        if b"#" not in string:
            continue
        prefix = string[:string.index(b"#")]
        printed: list[tuple[Words, bytes]] = [([], b"@\t" + string + b"\n"), (["--terms"], term + b"\n")]
        for options, line in printed:
            lines = many(line)
            yield Case(["strings", *options, FILE, role], done(lines))
            yield Case(["strings", *options, FILE, role, b"--prefix=" + prefix], done(lines))
            beginning = lines.index(b"\n" + entry(line, 1_000_000))
            yield Case(["strings", *options, FILE, role, b"--prefix=" + prefix + b"1"], done(lines[beginning + 1:]))


def look_up(it: Large) -> Iterator[Case]:
    """`string` and `number`, of the last string of each role."""
    for role, term, string in zip(ROLES, it.terms, it.strings):
        number = str(COUNT if b"#" in string else 1)
        yield Case(["string", FILE, role, number], done(last(string) + b"\n"))
        yield Case(["number", FILE, role, last(term)], done(number.encode() + b"\n"))
        yield Case(["number", "--raw", FILE, role, last(string)], done(number.encode() + b"\n"))


COMMANDS: list[Callable[[Large], Iterator[Case]]] = [verify, dump, find, answer, count, strings, look_up]


@pytest.mark.parametrize("name", LARGE)
@pytest.mark.parametrize("command", COMMANDS, ids=[command.__name__ for command in COMMANDS])
def test_files(command: Callable[[Large], Iterator[Case]], name: str, large_files: Files) -> None:
    """Each command that reads an HDT file, with each option."""
    path = large_files.file(LARGE[name])
    for case in command(LARGE[name]):
        check(case, path)


SOURCES = ["path", "pipe", "file"]
KINDS_AND_SOURCES = [*((name, "path") for name in LARGE), ("shared", "pipe"), ("objects", "file")]


@pytest.mark.parametrize("source", SOURCES[1:])
@pytest.mark.parametrize("name", ["shared", "objects"])
def test_files_from_standard_input(name: str, source: str, large_files: Files) -> None:
    """The first case of each command, but for `answer`, whose standard input has the requests."""
    for command in COMMANDS:
        if command is not answer:
            check(next(command(LARGE[name])), large_files.file(LARGE[name]), source)


@pytest.mark.parametrize("name, source", KINDS_AND_SOURCES)
def test_info(name: str, source: str, large_files: Files) -> None:
    """`info`, whose values are the same as JSON."""
    it, path = LARGE[name], large_files.file(LARGE[name])
    wanted: dict[str, float] = {"tight": True, "canonical": True, "bytes": path.stat().st_size}
    wanted.update(zip(("triples", *SECTIONS), it.counts))
    for section, string in zip(SECTIONS, it.sections):
        wanted[f"{section}-block-size"] = BLOCK_SIZE
        wanted[f"{section}-mean-length"] = 0.0 if string is None else float(len(last(string)))
    for at, large in zip("yz", it.large[1:]):
        wanted[f"array-{at}-bits"] = COUNT.bit_length() if large else 1
    values = json.loads(printed(Case(["info", "--json", FILE], done()), source, path))
    assert {key: values[key] for key in wanted} == wanted
    shown = {True: "yes", False: "no"}
    lines = [f"{key}\t{shown[value] if isinstance(value, bool) else value}" for key, value in values.items()]
    assert printed(Case(["info", FILE], done()), source, path).decode().splitlines() == lines


def printed(case: Case, source: str, path: Path) -> bytes:
    """What a command prints that is done."""
    result = seen(case, source, path)
    assert (result.status, result.err) == (0, b"")
    return result.out


@pytest.mark.parametrize("name, source", KINDS_AND_SOURCES)
def test_rewrite(name: str, source: str, large_files: Files, tmp_path: Path) -> None:
    """`rewrite` with another block size, and back: the file is as it was."""
    it, path, other, out = LARGE[name], large_files.file(LARGE[name]), tmp_path / "other.hdt", tmp_path / "out.hdt"
    seen_counts = printed(Case(["rewrite", "--block-size", "65535", FILE, other], done()), source, path)
    assert seen_counts == b"rewritten %s %d\n" % (counted(it), other.stat().st_size)
    seen_counts = printed(Case(["rewrite", FILE, out], done()), source, other)
    assert seen_counts == b"rewritten %s %d\n" % (counted(it), path.stat().st_size)
    assert out.read_bytes() == path.read_bytes()


# ---- the commands that read documents


@pytest.mark.parametrize("name, source", KINDS_AND_SOURCES)
def test_build(name: str, source: str, large_files: Files, tmp_path: Path) -> None:
    """`build` of all lines, and of more than 2^21, of which half are repeated: the file of the reference."""
    it, path, out = LARGE[name], large_files.document(LARGE[name]), tmp_path / "out.hdt"
    wanted = large_files.file(it).read_bytes()
    assert printed(Case(["build", FILE, out], done()), source, path) == b"built %s %d\n" % (counted(it), len(wanted))
    assert out.read_bytes() == wanted
    if source == "pipe":
        lines = path.read_bytes()
        result = hdt("build", "-", "-", stdin=lines[len(lines) // 2:] + b"\n" + lines, seconds=SECONDS)
        assert (result.status, result.out == wanted) == (0, True)


# The last line of a large document, which is faulty, and its error.
FAULTY = b"<u:a> <u:p> x"
ERROR = b"line %d column 13: 1 Syntax\n"
# What is shown of it.
SHOWN = b":%d:13\n  <u:a> <u:p> x\n              ^\n"


@pytest.fixture(scope="module")
def faulty(large_files: Files) -> Path:
    """A document whose last line, one of more than 2^20, has an error."""
    return large_files.made("faulty.nt", lambda: LARGE["shared"].document + FAULTY)


@pytest.mark.parametrize("source", SOURCES)
def test_an_error_in_the_last_line(source: str, faulty: Path, tmp_path: Path) -> None:
    """`build`, `lint` and `split` report the number of the line, and show it."""
    document, at = LARGE["shared"].document, COUNT + 1
    out = tmp_path / "out"
    check(Case(["build", FILE, out], Result(1, b"", b"hdt: " + ERROR % at)), faulty, source)
    check(Case(["lint", FILE], Result(1, ERROR % at, b"")), faulty, source)
    check(Case(["lint", "--keep", FILE], Result(1, document, ERROR % at)), faulty, source)
    name = os.fsencode(faulty) if source == "path" else b"-"
    result = seen(Case(["build", FILE, out, "--verbose"], done()), source, faulty)
    assert result.err.startswith(b"hdt: " + ERROR % at + b"  " + name + SHOWN % at)
    wanted = Result(1, b"", b"hdt: " + name + b": " + ERROR % at)
    check(Case(["split", FILE, out, "--parts", "2"], wanted), faulty, source)
    result = seen(Case(["split", FILE, "--of", "0/1"], done()), source, faulty)
    assert (result.status, document.startswith(result.out)) == (1, True)
    assert list(tmp_path.iterdir()) == []


@pytest.mark.parametrize("source", SOURCES)
def test_lint(source: str, large_files: Files) -> None:
    """`lint`: more than 2^20 lines, of which all have an error, or none."""
    path = large_files.document(LARGE["subjects"])
    check(Case(["lint", FILE], done()), path, source)
    check(Case(["lint", "--keep", FILE], done(LARGE["subjects"].document)), path, source)
    bad, reports = large_files.made("bad.nt", lambda: b"x\n" * COUNT), many(b"line @ column 1: 1 Syntax\n")
    check(Case(["lint", FILE], Result(1, reports, b"")), bad, source)
    check(Case(["lint", "--keep", FILE], Result(1, b"", reports)), bad, source)
    most = first(b"line @ column 1: 1 Syntax\n", MOST)
    check(Case(["lint", "--most", str(MOST), FILE], Result(1, most, b"")), bad, source)
    check(Case(["lint", "--most", str(COUNT), FILE], Result(1, reports, b"")), bad, source)


NODES = Large("nodes", (b"_:b#", b"u:p", b"_:b#"))
SMALL = b"_:a <u:p> <u:o> .\n"


@pytest.mark.parametrize("source", SOURCES)
def test_split(source: str, large_files: Files, tmp_path: Path) -> None:
    """`split`, with the large document as the first input, and as the second one; its labels too."""
    path, nodes = large_files.document(LARGE["subjects"]), large_files.document(NODES)
    small = tmp_path / "small.nt"
    small.write_bytes(SMALL)
    document = LARGE["subjects"].document
    check(Case(["split", FILE, small, "--of", "0/1"], done(document + SMALL)), path, source)
    check(Case(["split", small, FILE, "--of", "0/1"], done(SMALL + document)), path, source)
    words: list[Word] = ["split", small, FILE, "--of", "0/1", "--blank-nodes"]
    check(Case([*words, "one"], done(SMALL + NODES.document)), nodes, source)
    apart = many(b"_:f1_b# <u:p> _:f1_b# .\n")
    check(Case([*words, "apart"], done(SMALL.replace(b"_:", b"_:f0_") + apart)), nodes, source)


def test_split_into_parts(large_files: Files, tmp_path: Path) -> None:
    """`split` into a folder: more than 2^20 lines in each of two parts, and in one."""
    it, out = LARGE["subjects"], tmp_path / "parts"
    path = large_files.document(it)
    lines = it.document.splitlines(keepends=True)
    texts = [b"".join(line for line in lines if zlib.crc32(line[1:10]) % 2 == part) for part in range(2)]
    check(Case(["split", FILE, path, path, out, "--parts", "2"], done()), path)
    assert [(out / f"part-0000{part}.nt").read_bytes() == 3 * texts[part] for part in range(2)] == [True, True]
    assert [len(text) * 3 > 2**20 * len(it.line) for text in texts] == [True, True]
    for part in range(2):
        check(Case(["split", FILE, "--of", f"{part}/2"], done(texts[part])), path, "pipe")
    one = large_files.document(LARGE["predicates"])
    check(Case(["split", FILE, tmp_path / "one", "--parts", "65536"], done()), one)
    (made,) = (tmp_path / "one").iterdir()
    assert made.read_bytes() == LARGE["predicates"].document


# ---- strings that are not terms


def skipped(lines: bytes, count: int) -> Result:
    """The result of a command that skips so many triples."""
    return Result(1, lines, b"hdt: triples skipped: %d\n" % count)


@pytest.mark.parametrize("name", NOT_TERMS)
def test_not_terms(name: str, large_files: Files) -> None:
    """More than 2^20 strings that are not terms: each is reported, and each triple is skipped."""
    it, path = NOT_TERMS[name], large_files.file(NOT_TERMS[name])
    found = it.not_terms(path.read_bytes())
    report = b"hdt: strings that are not terms: %d\n" % (COUNT * len(found))
    wanted = Result(1, b"".join(lines for _, lines in found), report)
    check(Case(["verify", "--terms", FILE], wanted), path)
    check(Case(["verify", "--terms", "--tight", FILE], wanted), path, "pipe")
    role = found[0][0]
    given = [b"?" if large else string for large, string in zip(it.large, it.strings)]
    refused = failed(1, f"{ROLES[role]} 1 is not a term")
    searches: list[Words] = [["dump", FILE], ["find", FILE, "?", "?", "?"], ["find", "--raw", FILE, *given]]
    for words in searches:
        check(Case(words, refused), path)
        check(Case([*words, "--skip-non-terms"], skipped(b"", COUNT)), path)
    requests = b"\t".join(given) + b"\n"
    check(Case(["answer", "--raw", FILE], Result(1, b"# %s 1 is not a term\n\n" % ROLES[role].encode(), b""), requests),
          path)
    check(Case(["answer", "--raw", "--skip-non-terms", FILE], skipped(2 * b"\n", 2 * COUNT), 2 * requests), path)
    check(Case(["find", "--numbers", FILE, "?", "?", "?"], done(many(it.ids))), path)
    for role, _ in found:
        name, string = ROLES[role], it.strings[role]
        check(Case(["count", FILE, name], failed(1, f"{name} 1 is not a term")), path)
        check(Case(["count", "--raw", FILE, name], done(many(b"1\t" + string + b"\n"))), path)
        check(Case(["strings", "--terms", FILE, name], failed(1, f"{name} 1 is not a term")), path)
        check(Case(["strings", FILE, name], done(many(b"@\t" + string + b"\n"))), path)


def test_one_that_is_not_a_term(large_files: Files) -> None:
    """More than 2^20 triples with lines, and a last one whose subject is not a term."""
    it, last_id = LARGE["subjects"], COUNT + 1
    path = large_files.made("one.hdt", lambda: with_last_subject(it, b"x"))
    refused = failed(1, f"subject {last_id} is not a term")
    searches: list[Words] = [["dump", FILE], ["find", FILE, "?", "<u:p>", "?"], ["find", FILE, "?", "?", "?"]]
    for words in searches:
        check(Case(words, refused), path)
        check(Case([*words, "--skip-non-terms"], skipped(it.document, 1)), path)
    check(Case(["find", "--count", "--skip-non-terms", FILE, "?", "?", "<u:o>"], skipped(b"%d\n" % COUNT, 1)), path)
    check(Case(["find", "--most", str(MOST), "--skip-non-terms", FILE, "?", "?", "<u:o>"],
               done(first(it.line, MOST))), path)
    check(Case(["answer", "--skip-non-terms", FILE], skipped(2 * (it.document + b"\n"), 2), b"? ? ?\n? <u:p> <u:o>\n"),
          path)
    result = seen(Case(["verify", "--terms", FILE], done()), "path", path)
    assert result.out.startswith(b"subject\t%d\t" % last_id) and result.out.count(b"\n") == 1


# ---- a literal of 17 MiB, and IRIs of 2 MiB

LENGTH, LESS = 17 << 20, 2 << 20
LONG = b"x" * LENGTH
LONG_STRINGS = (b"u:s" + LONG[:LESS], b"u:p" + LONG[:LESS], b'"' + LONG + b'\n"@en')
LONG_TERMS = [spelled(string) for string in LONG_STRINGS]
LONG_LINE = b" ".join(LONG_TERMS) + b" .\n"


@pytest.fixture(scope="module")
def long_file(large_files: Files) -> Path:
    """The file of a triple of long strings."""
    def data() -> bytes:
        result = hdt("build", "-", "-", stdin=LONG_LINE, seconds=SECONDS)
        assert result.status == 0
        return result.out
    return large_files.made("long.hdt", data)


def test_long_strings(long_file: Path, tmp_path: Path) -> None:
    """Each command that reads an HDT file."""
    requests = b"? ? ?\n" + LONG_LINE
    longest = ["--longest-request", str(4 * LENGTH)]
    for case in (
        Case(["verify", FILE], done(b"ok 1 0 1 1 1\n")),
        Case(["verify", "--tight", "--terms", FILE], done(b"ok 1 0 1 1 1\n")),
        Case(["dump", FILE], done(LONG_LINE)),
        Case(["dump", "--skip-non-terms", FILE], done(LONG_LINE)),
        Case(["find", FILE, "?", "?", "?"], done(LONG_LINE)),
        Case(["answer", *longest, FILE], done(2 * (LONG_LINE + b"\n")), requests),
        Case(["answer", "--raw", *longest, FILE], done(LONG_LINE + b"\n"), LONG_STRINGS[0] + b"\t?\t?\n"),
        Case(["answer", "--count", FILE], Result(1, b"# line 1 column 0: 9 TooLong\n\n1\n\n", b""),
             LONG_LINE + b"? ? ?\n"),
        Case(["rewrite", FILE, tmp_path / "1.hdt"], done(b"rewritten 1 0 1 1 1 %d\n" % long_file.stat().st_size)),
    ):
        check(case, long_file)
    assert (tmp_path / "1.hdt").read_bytes() == long_file.read_bytes()
    values = json.loads(printed(Case(["info", "--json", FILE], done()), "path", long_file))
    assert (values["canonical"], values["objects-mean-length"]) == (True, LENGTH + 6.0)


@pytest.mark.parametrize("role", range(3))
def test_long_strings_of_a_role(role: int, long_file: Path) -> None:
    """Each command that prints the strings of a role."""
    name, string, term = ROLES[role], escaped(LONG_STRINGS[role]), LONG_TERMS[role]
    for case in (
        Case(["strings", FILE, name], done(b"1\t" + string + b"\n")),
        Case(["strings", FILE, name, b"--prefix=" + string[:100_000]], done(b"1\t" + string + b"\n")),
        Case(["strings", FILE, name, "--terms"], done(term + b"\n")),
        Case(["string", FILE, name, "1"], done(string + b"\n")),
        Case(["number", "--raw", FILE, name, string[:100_000]], failed(1, "no such term")),
        Case(["count", FILE, name], done(b"1\t" + term + b"\n")),
        Case(["count", FILE, name, "--top", "1", "--raw"], done(b"1\t" + string + b"\n")),
    ):
        check(case, long_file)


@pytest.mark.parametrize("source", SOURCES)
def test_long_lines(source: str, large_files: Files, long_file: Path, tmp_path: Path) -> None:
    """Each command that reads documents: a line without an error, one without an end, and one with an error."""
    path, out = large_files.made("long.nt", lambda: LONG_LINE), tmp_path / "out"
    check(Case(["build", FILE, out], done(b"built 1 0 1 1 1 %d\n" % long_file.stat().st_size)), path, source)
    assert out.read_bytes() == long_file.read_bytes()
    check(Case(["lint", "--keep", FILE], done(LONG_LINE)), path, source)
    check(Case(["split", path, FILE, "--of", "0/1"], done(2 * LONG_LINE)), path, source)
    bad = large_files.made("bad_long.nt", lambda: LONG_LINE[:-2])
    error = b"line 1 column %d: 1 Syntax\n" % (len(LONG_LINE) - 1)
    check(Case(["build", FILE, out], Result(1, b"", b"hdt: " + error)), bad, source)
    check(Case(["lint", FILE], Result(1, error, b"")), bad, source)
    name = os.fsencode(bad) if source == "path" else b"-"
    check(Case(["split", FILE, "--of", "0/1"], Result(1, b"", b"hdt: " + name + b": " + error)), bad, source)


# ---- headers and requests


@pytest.mark.parametrize("source", SOURCES)
def test_long_header(source: str, large_files: Files, tmp_path: Path) -> None:
    """A header of 17 MiB, and properties of 2 MiB."""
    style, rest = reference.Style(before=LONG[:LESS] + b"=1;"), (SAMPLES / "v1.hdt").read_bytes()
    _, body = reference.read_head(rest)
    path = large_files.made("header.hdt", lambda: reference.write_head(LONG, style) + rest[body:])
    lines = printed(Case(["head", FILE], done()), source, path)
    assert lines.endswith(b"length %d\n" % LENGTH + LONG)
    assert lines.count(LONG[:LESS] + b"=1;") == 2
    check(Case(["verify", FILE], done(hdt("verify", SAMPLES / "v1.hdt").out)), path, source)
    if source != "path":
        return
    assert json.loads(printed(Case(["info", "--json", FILE], done()), source, path))["header-bytes"] == LENGTH
    printed(Case(["rewrite", FILE, tmp_path / "out.hdt"], done()), source, path)
    assert reference.read_head((tmp_path / "out.hdt").read_bytes())[0].body == LONG


@pytest.mark.parametrize("options, one", [
    ([], b"<u:a> <u:q> \"x\" .\n"), (["--count"], b"1\n"),
])
def test_requests(options: list[Word], one: bytes) -> None:
    """More than 2^20 requests, and an error in the last one."""
    requests = b"? <u:q> ?\n" * COUNT + b"x"
    wanted = (one + b"\n") * COUNT + b"# line %d column 1: 1 Syntax\n\n" % (COUNT + 1)
    check(Case(["answer", *options, FILE], Result(1, wanted, b""), requests), SAMPLES / "three.hdt")
