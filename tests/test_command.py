"""The command `hdt`: its heads, its command lines, its help, and its readers and writers that give pieces or fail.

Other commands have modules of their own: test_find.py, test_answer.py, test_lookup.py and test_progress.py.
"""

from __future__ import annotations

import os
import re
import subprocess
from pathlib import Path

import pytest

from reference import hdt as reference
from support.built import PROGRAM, SAMPLES, TOP
from support.heads import HEAD_END, THREE, V1, V1_HEAD
from support.probe import Argument, Probe, Request
from support.program import (BAD_OPTIONS, NO_SUCH_NUMBER, Result, Word, brief, done,
                             failed, fault, hdt, hdt_from, hdt_into, piped, run)

# ---- head


def altered(offset: int, byte: int) -> bytes:
    """The sample with one byte changed."""
    return V1[:offset] + bytes([byte]) + V1[offset + 1:]


def with_properties(text: bytes) -> bytes:
    """The sample with another property text of its header, and the right CRC."""
    return V1[:40] + reference.write_control(reference.HEADER, text) + V1[68:]


# Properties, formats and a body whose bytes have to be escaped where they are printed in a line.
ESCAPED_HEAD = (reference.write_control(reference.GLOBAL, b"a\\b=\xff\n\r;")
                + reference.write_control(reference.HEADER, b"length=3") + b"\\\n\r")

HEADS = {
    "the head alone": (V1[:HEAD_END], done(V1_HEAD)),
    "the whole sample": (V1, done(V1_HEAD)),
    "properties to escape": (
        with_properties(b"a=\\\n\r;length=150"),
        done(V1_HEAD.replace(b"properties length=150;", b"properties a=\\\\\\n\\r;length=150"))),
    "100 bytes": (V1[:100], fault(1, "Truncated", 68)),
    "no bytes": (b"", fault(1, "Truncated", 0)),
    "three bytes": (V1[:3], fault(1, "Truncated", 0)),
    "another cookie": (altered(1, ord("h")), fault(4, "NotHdt", 0)),
    "another kind": (altered(4, 2), fault(5, "WrongKind", 4)),
    "an altered CRC": (altered(38, 0x77), fault(6, "Check16", 38)),
    "an altered CRC of the header": (altered(66, 0x0F), fault(6, "Check16", 66)),
    "a length with a letter": (with_properties(b"length=15x;"), fault(8, "HeaderLength", 54)),
    "no length": (with_properties(b"size=150;"), fault(8, "HeaderLength", 54)),
    "a length of 2^64": (with_properties(b"length=18446744073709551616"), fault(8, "HeaderLength", 54)),
    "a length beyond the end": (with_properties(b"length=151")[:216], fault(1, "Truncated", 67)),
    "a length of 2^64 - 1": (with_properties(b"length=18446744073709551615"), fault(1, "Truncated", 84)),
    "another last byte of the cookie": (altered(3, ord("U")), fault(4, "NotHdt", 0)),
    "an altered second byte of the CRC": (altered(39, 0x36), fault(6, "Check16", 38)),
    "another cookie of the header": (altered(43, ord("U")), fault(4, "NotHdt", 40)),
    "another kind of the header": (altered(44, 3), fault(5, "WrongKind", 44)),
    "altered properties of the header": (altered(60, ord("2")), fault(6, "Check16", 66)),
    "another format": (
        reference.write_control(reference.GLOBAL, format=b"<http://purl.org/HDT/hdt#HDTv2>") + V1[40:],
        fault(7, "WrongFormat", 5)),
    "another format of the header": (
        V1[:40] + reference.write_control(reference.HEADER, b"length=150;", b"turtle") + V1[68:],
        fault(7, "WrongFormat", 45)),
    "escaped in one line": (
        ESCAPED_HEAD,
        done(b"global <http://purl.org/HDT/hdt#HDTv1>\nproperties a\\\\b=\xff\\n\\r;\n"
             b"header ntriples\nproperties length=3\nlength 3\n\\\n\r")),
    # Properties with the length 150, and some without a length that is a number.
    **{f"properties {text.decode()}": (with_properties(text), done(V1_HEAD.replace(b"length=150;", text)))
       for text in (b"length=150", b"length=00000000000000000000150;", b"length=5;x;length=150",
                    b"a=b;length=150;length")},
    **{f"no length in [{text.decode()}]": (with_properties(text), fault(8, "HeaderLength", 54))
       for text in (b"", b"length", b"length=", b"length=15a", b"length=a50", b"length=+150", b"length= 150",
                    b"length=-1", b"Length=150", b"length=18446744073709551616",
                    b"length=100000000000000000000000000", b"length=150;length=")},
}


@pytest.mark.parametrize("data, wanted", HEADS.values(), ids=HEADS)
def test_head(tmp_path: Path, data: bytes, wanted: Result) -> None:
    """`head` prints the head of a file, escaped, or the first error of the head; what follows it is not looked at."""
    path = tmp_path / "input.hdt"
    path.write_bytes(data)
    assert hdt("head", path) == wanted


def test_head_cut_off(tmp_path: Path) -> None:
    """Each proper beginning of a head is truncated in the part of the head that it ends in."""
    parts = 0, 4, 5, 37, 38, 40, 44, 45, 54, 66, 68
    path = tmp_path / "input.hdt"
    seen, wanted = [], []
    for length in range(HEAD_END):
        path.write_bytes(V1[:length])
        seen.append((length, hdt("head", path)))
        wanted.append((length, fault(1, "Truncated", max(part for part in parts if part <= length))))
    assert seen == wanted


def test_large_head_in_pieces() -> None:
    """A head of more than a MiB, with properties to escape, comes through a pipe in pieces."""
    padding, body = b"x" * 100_000, b"y" * (1 << 20)
    properties = padding + b"=\\;length=1048576"
    data = V1[:40] + reference.write_control(reference.HEADER, properties) + body + V1[HEAD_END:]
    lines = V1_HEAD[:-150].replace(b"length=150;", padding + b"=\\\\;length=1048576")
    wanted = done(lines.replace(b"length 150", b"length 1048576") + body)
    assert brief(piped(data, 7_000, "head", "/dev/stdin")) == brief(wanted)


# ---- errors beyond 8 and 16 bits
#
# A byte offset, line or column beyond 32 bits needs an input of 4 GiB; test_fault_lines prints such numbers.


@pytest.mark.parametrize("offset", [255, 256, 65_535, 65_536, 2**24])
def test_large_byte_offsets(tmp_path: Path, offset: int) -> None:
    """An error after a header body of any length has its byte offset."""
    room = offset - len(reference.write_head()) + 1
    length = next(length for length in range(room, 0, -1) if length + len(str(length)) == room)
    head = reference.write_head(b"x" * length)
    path = tmp_path / "input.hdt"
    path.write_bytes(head + b"$HD")
    assert len(head) == offset and hdt("verify", path) == fault(1, "Truncated", offset)


@pytest.mark.parametrize("line, column", [(255, 256), (256, 255), (65_536, 65_537), (70_000, 300)])
def test_large_lines_and_columns(tmp_path: Path, line: int, column: int) -> None:
    """An error in any line and column of a document is reported there."""
    document = b"\n" * (line - 1) + b" " * (column - 1) + b"x"
    wanted = failed(1, f"line {line} column {column}: 1 Syntax")
    assert hdt("build", "/dev/stdin", tmp_path / "out.hdt", stdin=document) == wanted


# ---- input in pieces


UX = reference.write_section([b"u:x"])
# The sample with a string that its triple does not use in its role.
UNUSED_SUBJECT = V1[:305] + UX + V1[323:]
UNUSED_OBJECT = V1[:351] + UX + V1[369:]
SHARED_USED_ONCE = UNUSED_OBJECT[:-9] + reference.write_numbers([2])

FILES = {
    "the sample": V1,
    "three triples": THREE,
    "an unused subject": UNUSED_SUBJECT,
    "an unused object": UNUSED_OBJECT,
    "a shared string used once": SHARED_USED_ONCE,
}


def reading_commands(path: Word) -> list[list[Word]]:
    """Command lines that read a file and print of it."""
    return [
        ["head", path],
        ["verify", path],
        ["verify", "--tight", path],
        ["strings", path, "object"],
        ["string", path, "object", "1"],
        ["number", "--raw", path, "subject", "u:x"],
        ["find", "--numbers", path, "?", "?", "<u:x>"],
        ["find", "--count", path, "?", "?", "<u:x>"],
        ["find", "--most", "1", path, "?", "?", "?"],
        ["dump", path],
        ["info", path],
        ["info", path, "--json"],
        ["count", path, "object", "--raw"],
        ["count", path, "object", "--raw", "--top", "1"],
    ]


@pytest.mark.parametrize("step", [1, 7, 9])
@pytest.mark.parametrize("data", FILES.values(), ids=FILES)
def test_files_in_pieces(tmp_path: Path, data: bytes, step: int) -> None:
    """A file that comes through a pipe in pieces has the answers of a file on disk."""
    path, out = tmp_path / "whole.hdt", tmp_path / "out.hdt"
    path.write_bytes(data)
    seen = [(words, piped(data, step, *words)) for words in reading_commands("/dev/stdin")]
    wanted = [(words, hdt(*whole)) for words, whole in zip(reading_commands("/dev/stdin"), reading_commands(path))]
    assert seen == wanted
    pieces = piped(data, step, "rewrite", "/dev/stdin", out), out.read_bytes()
    assert pieces == (hdt("rewrite", path, out), out.read_bytes())


@pytest.mark.parametrize("step", [1, 2, 5, 7])
@pytest.mark.parametrize("sample", ["v1", "three"])
def test_documents_in_pieces(tmp_path: Path, sample: str, step: int) -> None:
    """A document that comes through a pipe in pieces is built into the sample file."""
    out = tmp_path / "pieces.hdt"
    document = (SAMPLES / f"{sample}.nt").read_bytes()
    result = piped(document, step, "build", "--base", "http://a/", "/dev/stdin", out)
    assert (result.status, result.err) == (0, b"")
    assert out.read_bytes() == (SAMPLES / f"{sample}.hdt").read_bytes()


# ---- command lines


HELP = {
    ("--help",): b"Builds and reads RDF HDT files",
    ("help",): b"Builds and reads RDF HDT files",
    ("head", "--help"): b"Print the head of an HDT file.\n\n",
    ("head", "-h"): b"Print a file's head",
    ("help", "head"): b"Print the head of an HDT file.\n\n",
    ("find", "--help"): b"Print the triples that have the given terms.\n\n",
    ("build", "--help"): b"Build an HDT file from N-Triples.\n\n",
    ("verify", "--help"): b"Verify a file.\n\n",
    ("rewrite", "--help"): b"Write an HDT file again, as the canonical file of its triples.\n\n",
    ("help", "dump"): b"Print all triples in N-Triples",
}


VERSION = [("--version",), ("-V",)]


@pytest.mark.parametrize("words, begin", HELP.items(), ids=map(" ".join, HELP))
def test_help(words: tuple[str, ...], begin: bytes) -> None:
    """Help goes to standard output, with one usage line and one line feed at the end, and the status 0."""
    status, out, err = hdt(*words)
    assert (status, out[:len(begin)], err) == (0, begin, b"")
    assert b"\n\nUsage: hdt " in out and out.count(b"Usage: hdt ") == 1
    assert out.endswith(b"\n") and not out.endswith(b"\n\n")


@pytest.mark.parametrize("words", VERSION, ids=map(" ".join, VERSION))
def test_version(words: tuple[str, ...]) -> None:
    """The version goes to standard output."""
    assert hdt(*words) == done(b"hdt 1.1.0\n")


@pytest.mark.parametrize("words", [*HELP, *VERSION], ids=map(" ".join, [*HELP, *VERSION]))
def test_help_into_a_full_disk(words: tuple[str, ...]) -> None:
    """Help that cannot be written is a failed write."""
    assert hdt_into("/dev/full", *words) == failed(3, "writing failed")


@pytest.mark.parametrize("command", ["build", "find", "lint", "merge"])
def test_examples_in_help(command: str, tmp_path: Path) -> None:
    """The help ends with examples: what is typed after `$` prints the lines that follow, one command after another."""
    text = hdt("help", command).out.decode().partition("\nExamples")[2]
    examples = re.findall(r"^  \$ (.*)\n((?:  [^$].*\n)*)", text, re.M)
    assert len(re.findall(rf"\bhdt {command} ", text)) == 2
    for typed, printed in examples:
        shell: list[Word] = ["sh", "-c", f"{{ {typed}\n}} 2>&1"]
        out = run(shell, cwd=tmp_path, env={"PATH": f"{PROGRAM.parent}:{os.environ['PATH']}"}).out.decode()
        assert (typed, out) == (typed, re.sub(r"^  ", "", printed, flags=re.M))


STATUSES = """Exit status:
  0  success
  1  invalid input, with the first error and its position on standard error; no triples to build
     from; no such term or ID; a string that has no form in N-Triples; an invalid request of
     `answer`; a faulty line for `lint`
  2  usage error, or the command would write to a file that it reads
  3  reading or writing failed; a closed pipe is a failed write
  4  out of memory
"""


def test_help_names_each_status() -> None:
    """The help names each exit status, once, in these words."""
    out = hdt("--help").out.decode()
    assert re.findall(r"^  (\d)  \w", out[out.index("Exit status:"):], re.MULTILINE) == ["0", "1", "2", "3", "4"]
    assert STATUSES in out


REFUSED_WORDS: dict[str, list[Word]] = {
    "no word": [],
    "an unknown command": ["summon", SAMPLES / "v1-head.hdt"],
    "no file": ["head"],
    "two files": ["head", SAMPLES / "v1-head.hdt", SAMPLES / "v1-head.hdt"],
    "an unknown option": ["head", "--loud", SAMPLES / "v1-head.hdt"],
    "help for an unknown command": ["help", "summon"],
    "a word that is not UTF-8": ["head", b"\xff\xfe"],
}


@pytest.mark.parametrize("words", REFUSED_WORDS.values(), ids=REFUSED_WORDS)
def test_refused_words(words: list[Word]) -> None:
    """A wrong command line has status 2 and a text on standard error alone."""
    status, out, err = hdt(*words)
    assert (status, out, err != b"") == (2, b"", True)


def usage(text: bytes) -> Result:
    """The result of a wrong command line with this text."""
    return Result(2, b"", b"error: " + text + b"\n\nFor more information, try '--help'.\n")


LACKS = b"the following required arguments were not provided:\n  "
# Command lines that are refused, and the text of each.
USAGES: list[tuple[list[Word], bytes]] = [
    (["build", "a.nt"], b"OUT is missing"),
    (["build"], LACKS + b"<IN>\n\nUsage: hdt build [OPTIONS] <IN>... <OUT>"),
    (["build", "--block-size", "4294967296", "a.nt", "b.hdt"],
     b"invalid value '4294967296' for '--block-size <N>': 4294967296 is not in 0..=4294967295"),
    (["strings", "a.hdt", "thing"],
     b"invalid value 'thing' for '<ROLE>'\n  [possible values: subject, predicate, object]"),
    (["string", "a.hdt", "object", "18446744073709551616"],
     b"invalid value '18446744073709551616' for '<N>': number too large to fit in target type"),
    (["string", "a.hdt", "object", "x"], b"invalid value 'x' for '<N>': invalid digit found in string"),
    (["strings", "a.hdt"], LACKS + b"<ROLE>\n\nUsage: hdt strings <FILE> <ROLE>"),
    (["head"], LACKS + b"<FILE>\n\nUsage: hdt head <FILE>"),
    (["verify", "--tight"], LACKS + b"<FILE>\n\nUsage: hdt verify --tight <FILE>"),
    (["head", "--tight", "a.hdt"],
     b"unexpected argument '--tight' found\n\n  tip: to pass '--tight' as a value, use '-- --tight'\n\n"
     b"Usage: hdt head [OPTIONS] <FILE>"),
    (["rewrite", "a.hdt"], LACKS + b"<OUT>\n\nUsage: hdt rewrite <IN> <OUT>"),
    (["rewrite", "a.hdt", "b.hdt", "--base", "x"],
     b"unexpected argument '--base' found\n\n  tip: to pass '--base' as a value, use '-- --base'\n\n"
     b"Usage: hdt rewrite <IN> <OUT>"),
    (["rewrite", "a.hdt", "b.hdt", "--block-size", "x"],
     b"invalid value 'x' for '--block-size <N>': invalid digit found in string"),
    (["find", "a.hdt", "?", "?", "?", "--most", "x"],
     b"invalid value 'x' for '--most <N>': invalid digit found in string"),
    (["find", "a.hdt", "x", "y"], LACKS + b"<O>\n\nUsage: hdt find <FILE> <S> <P> <O>"),
    (["dump", "a.hdt", "x"], b"unexpected argument 'x' found\n\nUsage: hdt dump [OPTIONS] <FILE>"),
    (["dump", "--numbers", "a.hdt"],
     b"unexpected argument '--numbers' found\n\n  tip: to pass '--numbers' as a value, use '-- --numbers'\n\n"
     b"Usage: hdt dump [OPTIONS] <FILE>"),
    (["merge", "a.hdt"], b"OUT is missing"),
    (["merge", "a.hdt", "b.hdt", "--longest-line", "9"],
     b"unexpected argument '--longest-line' found\n\n  tip: to pass '--longest-line' as a value, use "
     b"'-- --longest-line'\n\nUsage: hdt merge [OPTIONS] <FILE>... <OUT>"),
    (["merge"], LACKS + b"<FILE>\n\nUsage: hdt merge [OPTIONS] <FILE>... <OUT>"),
    (["vierge", "a.hdt"],
     b"unrecognized subcommand 'vierge'\n\n  tip: a similar subcommand exists: 'merge'\n\nUsage: hdt <COMMAND>"),
    (["hdtSearch", "a.hdt"],
     b"unrecognized subcommand 'hdtSearch'\n\n  tip: the command here is 'hdt find FILE S P O'\n\n"
     b"Usage: hdt <COMMAND>"),
    (["help", "rdf2hdt"], b"unrecognized subcommand 'rdf2hdt'\n\nUsage: hdt <COMMAND>"),
    (["head", "a.hdt", "b.hdt"], b"unexpected argument 'b.hdt' found\n\nUsage: hdt head [OPTIONS] <FILE>"),
    ([], b"'hdt' requires a subcommand but one was not provided\n  [subcommands: head, verify, info, strings, string, "
         b"number, find, answer, dump, count, build, rewrite, merge, lint, split, explain, help]\n\n"
         b"Usage: hdt <COMMAND>"),
    (["head", b"\xff"], b"an argument is not UTF-8"),
]


def shown(words: list[Word]) -> str:
    """A command line as the name of a case."""
    return b" ".join(b"''" if word == "" else os.fsencode(word) for word in words).decode("ascii", "replace") or "-"


@pytest.mark.parametrize("words, text", USAGES, ids=[shown(words) for words, _ in USAGES])
def test_usage(words: list[Word], text: bytes) -> None:
    """Each wrong command line has this text."""
    assert hdt(*words) == usage(text)


def test_file_whose_name_is_not_utf8(tmp_path: Path) -> None:
    """It is read by standard input, or another descriptor, and written by standard output."""
    names = [os.fsencode(tmp_path) + b"/\xff", os.fsencode(tmp_path) + b"/\xfe"]
    document, file = (Path(os.fsdecode(name)) for name in names)
    document.write_bytes((SAMPLES / "three.nt").read_bytes())
    shell: list[Word] = ["sh", "-c", 'exec "$0" build /dev/stdin /dev/stdout <"$1" >"$2"', PROGRAM, document, file]
    assert run(shell) == done()._replace(err=b"built 3 2 0 2 1 491\n")
    assert hdt_from(file, "verify", "/dev/stdin") == done(b"ok 3 2 0 2 1\n")
    for number in (0, 3, 9):
        read = f'exec "$0" verify /proc/self/fd/{number} {number}<"$1"'
        assert run(["sh", "-c", read, PROGRAM, file]) == done(b"ok 3 2 0 2 1\n")
    assert hdt_from(file, "verify", "-") == done(b"ok 3 2 0 2 1\n")


# Command lines with a word that is not a term, and the line of each. They are refused before the file is opened.
NO_TERMS: list[tuple[list[Word], str]] = [
    (["number", "a.hdt", "subject", "rel"], "TERM column 1: 1 Syntax"),
    (["number", "a.hdt", "subject", "<rel>"], "TERM column 1: 4 RelativeIri"),
    (["number", "a.hdt", "object", '"x"@en-'], "TERM column 7: 1 Syntax"),
    (["number", "a.hdt", "object", '"xy"^^<rel>'], "TERM column 7: 4 RelativeIri"),
    (["find", "a.hdt", "x", "<y>", "z"], "S column 1: 1 Syntax"),
    (["find", "a.hdt", "?", "<y>", "z"], "P column 1: 4 RelativeIri"),
    (["find", "a.hdt", "<u:a>", "?", '"z'], "O column 3: 1 Syntax"),
    (["find", "a.hdt", "<u:a>", "<u:p>", "??"], "O column 1: 1 Syntax"),
    (["find", "a.hdt", "<u:a>", "x", "z"], "P column 1: 1 Syntax"),
    (["find", "a.hdt", "?", "?", "<u:aaaaaaaaaaaaaaaa\\u0020>"], "O column 20: 5 IriCharacter"),
    # Columns beyond 8 and 16 bits.
    (["number", "a.hdt", "object", '"' + "x" * 253 + '"@'], "TERM column 256: 1 Syntax"),
    (["number", "a.hdt", "object", '"' + "x" * 254 + '"@'], "TERM column 257: 1 Syntax"),
    (["find", "a.hdt", "?", "?", '"' + "x" * 65_533 + '"@'], "O column 65536: 1 Syntax"),
    (["find", "a.hdt", "?", "<u:" + "a" * 70_000 + "\\u0020>", "?"], "P column 70004: 5 IriCharacter"),
]


@pytest.mark.parametrize("words, line", NO_TERMS, ids=[f"{shown(words)[:60]} {line}" for words, line in NO_TERMS])
def test_words_that_are_not_terms(words: list[Word], line: str) -> None:
    """A word that is not a term is refused with its name, the column and the error."""
    assert hdt(*words) == failed(2, line)


# The triples of a.hdt, whose strings are terms, and of raw.hdt, where a string reads as the term of another string.
READ = [(b"_:b", b"u:p", b"u:a"), (b"u:a", b"u:p", b"u:b"), (b"u:a", b"u:q", b'"x"')]
RAW = [(b"<a>", b"u:p", b""), (b"<u:a>", b"??", b'"?"'), (b"u:a", b"u:p", b"<u:a>")]
A_NT = b'_:b <u:p> <u:a> .\n<u:a> <u:p> <u:b> .\n<u:a> <u:q> "x" .\n'
# The same triples as they are printed from the file, where u:a is subject 1 and _:b subject 2.
A_LINES = b'<u:a> <u:p> <u:b> .\n<u:a> <u:q> "x" .\n_:b <u:p> <u:a> .\n'
A_HEAD = b"global <http://purl.org/HDT/hdt#HDTv1>\nproperties \nheader ntriples\nproperties length=0;\nlength 0\n"


@pytest.fixture(scope="module")
def lines_folder(tmp_path_factory: pytest.TempPathFactory) -> Path:
    """A folder with a.nt, a.hdt, raw.hdt, loose.hdt and copies with names that look like options."""
    folder = tmp_path_factory.mktemp("lines")
    (folder / "a.nt").write_bytes(A_NT)
    (folder / "raw.hdt").write_bytes(reference.graph(RAW)[0])
    for name in ("a.hdt", "-", "--help", " "):
        (folder / name).write_bytes(reference.graph(READ)[0])
    for name in ("loose.hdt", "--tight"):
        (folder / name).write_bytes(UNUSED_SUBJECT)
    return folder


UNUSED_AT_319 = fault(34, "Unused", 319)
# Command lines over these files, and their results.
READ_LINES: list[tuple[list[Word], Result]] = [
    (["head", "a.hdt"], done(A_HEAD)),
    (["head", "./-"], done(A_HEAD)),
    (["head", "--", "--help"], done(A_HEAD)),
    (["strings", "a.hdt", "subject"], done(b"1\tu:a\n2\t_:b\n")),
    (["strings", "a.hdt", "predicate"], done(b"1\tu:p\n2\tu:q\n")),
    (["strings", " ", "object"], done(b'1\tu:a\n2\t"x"\n3\tu:b\n')),
    (["number", "raw.hdt", "subject", "<u:a>"], done(b"3\n")),
    (["number", "raw.hdt", "subject", "--raw", "<u:a>"], done(b"1\n")),
    (["number", "--raw", "raw.hdt", "object", ""], done(b"2\n")),
    (["verify", "a.hdt"], done(b"ok 3 1 1 2 2\n")),
    (["verify", "--tight", "a.hdt"], done(b"ok 3 1 1 2 2\n")),
    (["verify", "a.hdt", "--tight"], done(b"ok 3 1 1 2 2\n")),
    (["verify", "--", "--tight"], done(b"ok 1 1 1 1 0\n")),
    (["verify", "loose.hdt"], done(b"ok 1 1 1 1 0\n")),
    (["dump", "a.hdt"], done(A_LINES)),
    (["find", "a.hdt", "?", "?", "?"], done(A_LINES)),
    (["find", "a.hdt", "<u:a>", "?", '"x"'], done(b'<u:a> <u:q> "x" .\n')),
    (["find", "--numbers", "a.hdt", "_:b", "<u:p>", "?"], done(b"2 1 1\n")),
    (["find", "raw.hdt", "<a>", "?", "", "--raw", "--numbers"], done(b"2 2 2\n")),
    (["find", "--raw", "--numbers", "raw.hdt", "?", "??", '"?"'], done(b"1 1 3\n")),
    (["string", "a.hdt", "object", "0"], NO_SUCH_NUMBER),
    (["string", "a.hdt", "object", "18446744073709551615"], NO_SUCH_NUMBER),
    (["find", "raw.hdt", "<a>", "?", "", "--raw"], failed(1, "subject 2 is not a term")),
    (["verify", "--tight", "loose.hdt"], UNUSED_AT_319),
    (["verify", "loose.hdt", "--tight"], UNUSED_AT_319),
    (["build", "--block-size", "0", "a.nt", "b.hdt", "--base", "u:x"], BAD_OPTIONS),
    (["build", "--base=", "--block-size=4294967295", "/dev/stdin", "-"], BAD_OPTIONS),
    (["rewrite", "a.hdt", "a.hdt", "--block-size", "0"], BAD_OPTIONS),
    (["rewrite", "--block-size=4294967295", "a.hdt", "-"], BAD_OPTIONS),
]


@pytest.mark.parametrize("words, wanted", READ_LINES, ids=[shown(words) for words, _ in READ_LINES])
def test_command_lines(lines_folder: Path, words: list[Word], wanted: Result) -> None:
    """What command lines ask for: options before and after the files, `--`, `-` and names like options."""
    assert hdt(*words, cwd=lines_folder) == wanted


MADE_LINES: list[tuple[list[Word], str, bytes | None, int]] = [
    (["build", "a.nt", "b.hdt"], "b.hdt", b"http://example.org/dataset", 16),
    (["build", "--block-size", "1", "a.nt", "c.hdt", "--base", "u:x"], "c.hdt", b"u:x", 1),
    (["build", "--base=u:y", "--block-size=65535", "a.nt", "./-"], "-", b"u:y", 65_535),
    (["rewrite", "a.hdt", "b.hdt"], "b.hdt", None, 16),
    (["rewrite", "a.hdt", "a.hdt", "--block-size", "1"], "a.hdt", None, 1),
    (["rewrite", "--block-size=65535", "a.hdt", "./-"], "-", None, 65_535),
]


@pytest.mark.parametrize("words, out, base, block_size", MADE_LINES, ids=[shown(row[0]) for row in MADE_LINES])
def test_command_lines_that_make_files(tmp_path: Path, words: list[Word], out: str, base: bytes | None,
                                       block_size: int) -> None:
    """What command lines that write a file ask for: the line that is printed, and the file."""
    (tmp_path / "a.nt").write_bytes(A_NT)
    (tmp_path / "a.hdt").write_bytes(reference.graph(READ)[0])
    data = reference.graph(READ, base, block_size)[0]
    line = b"%s 3 1 1 2 2 %d\n" % (b"built" if words[0] == "build" else b"rewritten", len(data))
    assert hdt(*words, cwd=tmp_path) == done(line)
    assert (tmp_path / out).read_bytes() == data


def test_name_of_the_program(lines_folder: Path) -> None:
    """The program's own name, the first word of its command line, is not looked at."""
    other = subprocess.run(["other", "head", "raw.hdt"], executable=PROGRAM, cwd=lines_folder, capture_output=True,
                           timeout=60)
    seen = Result(other.returncode, other.stdout, other.stderr)
    assert seen == hdt("head", "raw.hdt", cwd=lines_folder) and seen.status == 0


def test_long_word() -> None:
    """An unknown word of 10,000 bytes is printed whole."""
    word = "x" * 10_000
    status, out, err = hdt(word)
    assert (status, out, word.encode() in err) == (2, b"", True)


@pytest.mark.parametrize("words", [["--help"], ["dump", SAMPLES / "three.hdt"]], ids=["--help", "dump"])
def test_pipe_without_reader(words: list[Word]) -> None:
    """A pipe that nobody reads is a failed write, also for the help."""
    reading, writing = os.pipe()
    os.close(reading)
    with open(writing, "wb") as pipe:
        seen = subprocess.run([os.fsencode(word) for word in (PROGRAM, *words)], stdout=pipe, stderr=subprocess.PIPE,
                              timeout=60)
    assert Result(seen.returncode, b"", seen.stderr.partition(b"  standard output")[0]) == failed(3, "writing failed")


# ---- the lines of errors

U64 = 2**64 - 1
# An error, its exit status and its line. Lines and columns beyond 32 bits, and IDs and byte offsets up to 2^64 - 1.
FAULT_LINES: list[tuple[tuple[Argument, ...], int, str]] = [
    (("file", 1, 68), 1, "hdt: fault 1 Truncated at 68"),
    (("file", 33, U64), 1, "hdt: fault 33 TrailingBytes at 18446744073709551615"),
    (("file", 34, 319), 1, "hdt: fault 34 Unused at 319"),
    (("input", 1, 20, 7), 1, "hdt: line 20 column 7: 1 Syntax"),
    (("input", 2, 2**32, 2**32 + 1), 1, "hdt: line 4294967296 column 4294967297: 2 NotUtf8"),
    (("input", 3, U64, U64), 1, "hdt: line 18446744073709551615 column 18446744073709551615: 3 BadEscape"),
    (("no_triples",), 1, "hdt: no triples"),
    (("no_such_term",), 1, "hdt: no such term"),
    (("no_such_number",), 1, "hdt: no such number"),
    (("not_a_term", 0, 1), 1, "hdt: subject 1 is not a term"),
    (("not_a_term", 1, U64), 1, "hdt: predicate 18446744073709551615 is not a term"),
    (("not_a_term", 2, 20), 1, "hdt: object 20 is not a term"),
    (("bad_options",), 2, "hdt: bad options"),
    (("read",), 3, "hdt: reading failed"),
    (("write", 7), 3, "hdt: writing failed"),
    (("memory",), 4, "hdt: out of memory"),
    *((("file", 32, offset), 1, f"hdt: fault 32 ObjectsNotAscending at {offset}")
      for bits in (8, 16, 32, 63) for offset in (2**bits - 1, 2**bits)),
    *((("input", 5, n, n + 1), 1, f"hdt: line {n} column {n + 1}: 5 IriCharacter")
      for bits in (8, 16, 32, 63) for n in (2**bits - 1, 2**bits)),
    *((("not_a_term", 2, n), 1, f"hdt: object {n} is not a term")
      for bits in (8, 16, 32, 63) for n in (2**bits - 1, 2**bits)),
]


def test_fault_lines(probe: Probe) -> None:
    """Each error of a command has its exit status and its line."""
    answered = probe.send(*(("fault_line", *case) for case, _, _ in FAULT_LINES))
    seen = [(case, int(answer[1]), bytes.fromhex(answer[2]).decode())
            for (case, _, _), answer in zip(FAULT_LINES, answered)]
    assert seen == FAULT_LINES


# The same errors as those of a library: their text.
FAULT_TEXTS: list[tuple[tuple[Argument, ...], str]] = [
    (("file", 1, 68), "the file has a fault: Truncated at 68"),
    (("file", 33, U64), "the file has a fault: TrailingBytes at 18446744073709551615"),
    (("file", 34, 319), "the file has a fault: Unused at 319"),
    (("input", 1, 20, 7), "the input has a fault: Syntax at line 20 column 7"),
    (("input", 2, 2**32, 2**32 + 1), "the input has a fault: NotUtf8 at line 4294967296 column 4294967297"),
    (("input", 3, U64, U64),
     "the input has a fault: BadEscape at line 18446744073709551615 column 18446744073709551615"),
    (("no_triples",), "no triples"),
    (("no_such_term",), "no such term"),
    (("no_such_number",), "no such number"),
    (("not_a_term", 0, 1), "a string that is not a term: Subject 1"),
    (("not_a_term", 1, U64), "a string that is not a term: Predicate 18446744073709551615"),
    (("not_a_term", 2, 20), "a string that is not a term: Object 20"),
    (("bad_options",), "bad options"),
    (("read",), "reading failed"),
    (("write", 7), "writing failed after 7 bytes"),
    (("memory",), "out of memory"),
]


def test_fault_texts(probe: Probe) -> None:
    """Each error of a command has a text as an error of a library."""
    seen = probe.send(*(("fault_line", *case) for case, _ in FAULT_TEXTS))
    assert [(case, bytes.fromhex(answer[3]).decode()) for (case, _), answer in zip(FAULT_TEXTS, seen)] == FAULT_TEXTS


USAGE_LINES: list[tuple[tuple[Argument, ...], int, str]] = [
    (("usage", b"error: no"), 2, "error: no"),
    (("help", b"Builds\n\nUsage: hdt"), 0, "Builds\n\nUsage: hdt"),
    (("word", 0, 1, 1), 2, "hdt: TERM column 1: 1 Syntax"),
    (("word", 1, 4, 256), 2, "hdt: S column 256: 4 RelativeIri"),
    (("word", 2, 5, 65_536), 2, "hdt: P column 65536: 5 IriCharacter"),
    (("word", 3, 6, 2**32), 2, "hdt: O column 4294967296: 6 ZeroCharacter"),
    (("word", 3, 2, U64), 2, "hdt: O column 18446744073709551615: 2 NotUtf8"),
    (("memory",), 4, "hdt: out of memory"),
]


def test_usage_lines(probe: Probe) -> None:
    """Each error of a command line has its exit status and its text; help has the status 0."""
    answered = probe.send(*(("usage_line", *case) for case, _, _ in USAGE_LINES))
    seen = [(case, int(answer[1]), bytes.fromhex(answer[2]).decode())
            for (case, _, _), answer in zip(USAGE_LINES, answered)]
    assert seen == USAGE_LINES


def reasons_of_the_format() -> list[tuple[int, str]]:
    """The reasons of docs/FORMAT.md: their numbers and names."""
    text = (TOP / "docs/FORMAT.md").read_text()
    table = text[text.index("## Reasons"):text.index("## The parts of a file")]
    return sorted((int(number), name) for number, name in re.findall(r"\| (\d+) (\w+)(?= \|)", table))


def test_reasons_of_the_format() -> None:
    """The table of the format names 34 reasons, those of the reference."""
    assert reasons_of_the_format() == [(reason.value, reason.name) for reason in reference.Reason]
    assert [number for number, _ in reasons_of_the_format()] == list(range(1, 35))


def test_reasons(probe: Probe) -> None:
    """Each reason is printed by the number and the name that the format has for it."""
    seen = probe.send(*(("fault_line", "file", number, 0) for number, _ in reasons_of_the_format()))
    assert [bytes.fromhex(answer[2]).decode() for answer in seen] == [
        f"hdt: fault {number} {name} at 0" for number, name in reasons_of_the_format()]


# ---- words

A, B = b"a.hdt".hex(), b"b.hdt".hex()
DEFAULT = b"http://example.org/dataset".hex()
# A command line, and the request that it is.
REQUESTS: list[tuple[str, str]] = [
    ("head a.hdt", f"{A} none head"),
    ("verify a.hdt", f"{A} none verify"),
    ("verify a.hdt --tight", f"{A} none verify_tight"),
    ("strings a.hdt predicate", f"{A} none strings 1"),
    ("string a.hdt object 18446744073709551615", f"{A} none nth 2 18446744073709551615"),
    ("number a.hdt subject <u:a>", f"{A} none number 0 {b'u:a'.hex()}"),
    ("number a.hdt subject --raw <u:a>", f"{A} none number 0 {b'<u:a>'.hex()}"),
    ('number a.hdt object "x"@en', f"{A} none number 2 {b'.x.@en'.replace(b'.', bytes([34])).hex()}"),
    ("build a.hdt b.hdt", f"{A} {B} build 16 {DEFAULT}"),
    ("build --base u:x a.hdt --block-size 4294967295 b.hdt", f"{A} {B} build 4294967295 {b'u:x'.hex()}"),
    ("build --base= --block-size=0 a.hdt b.hdt", f"{A} {B} build 0 "),
    ("rewrite a.hdt b.hdt", f"{A} {B} rewrite 16"),
    ("rewrite --block-size 65535 a.hdt b.hdt", f"{A} {B} rewrite 65535"),
    ("info a.hdt", f"{A} none info false"),
    ("info --json a.hdt", f"{A} none info true"),
    ("count a.hdt subject", f"{A} none count 0 none 0"),
    ("count --raw a.hdt object --top=18446744073709551615", f"{A} none count 2 18446744073709551615 1"),
    ("answer a.hdt", f"{A} none answer 0 none 0 1048576 false"),
    ("answer --raw --numbers --most 7 a.hdt", f"{A} none answer 1 7 1 1048576 false"),
    ("answer --count --numbers --longest-request 4294967295 a.hdt", f"{A} none answer 2 none 0 4294967295 false"),
    ("answer --skip-non-terms a.hdt", f"{A} none answer 0 none 0 1048576 true"),
    ("answer a.hdt --skip-non-terms --count --most 0", f"{A} none answer 2 0 0 1048576 true"),
]


def test_requests(probe: Probe) -> None:
    """What the words of a command line ask for, without a look at any file."""
    asked: list[Request] = [["parse_words", b"hdt", *words.encode().split(b" ")] for words, _ in REQUESTS]
    seen = probe.send(*asked)
    assert [(words, " ".join(answer)) for (words, _), answer in zip(REQUESTS, seen)] == [
        (words, f"ok {wanted}") for words, wanted in REQUESTS]


def test_requests_with_progress(probe: Probe) -> None:
    """`--progress` and `--no-progress`, which wins, change nothing of what a command line asks for."""
    lines = [("verify a.hdt --tight", f"{A} none verify_tight"), ("verify a.hdt", f"{A} none verify"),
             ("build a.hdt b.hdt", f"{A} {B} build 16 {DEFAULT}"), ("rewrite a.hdt b.hdt", f"{A} {B} rewrite 16")]
    cases = [*((words, f"ok automatic {wanted}") for words, wanted in REQUESTS),
             *((f"{words} --no-progress", f"ok off {wanted}") for words, wanted in REQUESTS),
             *((f"{words} --progress", f"ok lines {wanted}") for words, wanted in lines),
             *((f"{words} --no-progress --progress", f"ok off {wanted}") for words, wanted in lines)]
    asked: list[Request] = [["parse_all_words", b"hdt", *words.encode().split(b" ")] for words, _ in cases]
    assert [(words, " ".join(answer)) for (words, _), answer in zip(cases, probe.send(*asked))] == cases


def test_usage_of_words(probe: Probe) -> None:
    """What is wrong with the words of a command line, and help, as the program prints them."""
    cases: list[tuple[list[Word], int, bytes]] = [
        *((words, 2, usage(text).err.rstrip(b"\n")) for words, text in USAGES if b"\xff" not in words),
        *((words, 2, failed(2, line).err.rstrip(b"\n")) for words, line in NO_TERMS),
    ]
    cases += [(list(words), 0, hdt(*words).out.rstrip(b"\n")) for words in [*HELP, *VERSION]]
    asked: list[Request] = [["parse_words", b"hdt", *map(os.fsencode, words)] for words, _, _ in cases]
    assert [(words, answer) for (words, _, _), answer in zip(cases, probe.send(*asked))] == [
        (words, ("usage", str(status), text.hex())) for words, status, text in cases]


def test_table(probe: Probe) -> None:
    """The table of commands has each command, with any names of the three roles."""
    names = b"s", b"p", b"o"
    commands: list[list[bytes]] = [
        [b"head", b"a"], [b"verify", b"a"], [b"strings", b"a", b"s"], [b"string", b"a", b"p", b"1"],
        [b"number", b"a", b"o", b"x"], [b"find", b"a", b"?", b"?", b"?"], [b"answer", b"a"], [b"dump", b"a"],
        [b"build", b"a", b"b"], [b"rewrite", b"a", b"b"]]
    asked: list[Request] = [["table", *names, b"hdt", *words] for words in commands]
    assert probe.send(*asked) == [("ok", words[0].hex()) for words in commands]
    answer = probe.ask("table", *names, b"hdt", b"strings", b"a", b"subject")
    text = b"error: invalid value 'subject' for '<ROLE>'\n  [possible values: s, p, o]\n\n"
    assert answer[:2] == ("ok", "error") and bytes.fromhex(answer[2]).startswith(text)
