"""`hdt build IN.. OUT`: several documents are built as if they were one after another."""

from __future__ import annotations

import os
import random
from collections.abc import Sequence
from pathlib import Path

import pytest
from hypothesis import given
from hypothesis import strategies as st

from reference import ntriples
from support.built import PROGRAM
from support.documents import DEFAULT_BASE, Strings, canonical_file, document, printed
from support.files import write
from support.program import BAD_OPTIONS, NO_TRIPLES, Result, Word, failed, hdt, run
from support.refusing import Refuser

LINES = [
    b"<u:a> <u:p> <u:b> .", b"<u:\\u0061> <u:p> <u:c> . # again", b" \t<u:b><u:p>\"x\\n\"@en.", b"", b"# nothing",
    b"<u:_:b> <u:p> \"_:b\" .", b"<u:c> <u:p> \"1\"^^<u:t> .", "<u:é> <u:p> \"€\" .".encode(),
]
NODES = [b"_:b <u:p> <u:a> .", b"<u:a> <u:p> _:b .", b"_:c <u:p> _:b .", b"_:0.1<u:p>_:b.", b"_:f0_b <u:p> <u:a> ."]
ENDS = [b"\n", b"\r\n", b"\r", b"\n\n"]
HELP = b"\n\nFor more information, try '--help'.\n"


def strings_of(data: bytes, prefix: bytes = b"") -> list[Strings]:
    """The triples of a document, with a prefix before the labels of blank nodes."""
    def named(string: bytes) -> bytes:
        return b"_:" + prefix + string[2:] if string.startswith(b"_:") else string

    lines = [ntriples.parse_line(line) for line in data.replace(b"\r", b"\n").split(b"\n")]
    triples = [[ntriples.term_string(term) for term in triple] for triple in lines if triple is not None]
    return [(named(s), p, named(o)) for s, p, o in triples]


def check(folder: Path, documents: Sequence[bytes], *options: Word, apart: bool = False, base: bytes = DEFAULT_BASE,
          size: int = 16) -> None:
    """Check that the documents are built to the canonical file of all their triples, and what is printed."""
    prefixes = [b"f%d_" % number if apart else b"" for number in range(len(documents))]
    triples = [it for data, prefix in zip(documents, prefixes) for it in strings_of(data, prefix)]
    wanted, out = canonical_file(triples, base, size), folder / "out.hdt"
    assert hdt("build", *write(folder, documents), out, *options) == printed("built", triples, len(wanted))
    assert out.read_bytes() == wanted


@st.composite
def documents_of(draw: st.DrawFn, lines: Sequence[bytes]) -> list[bytes]:
    """Documents of these lines with any ends; the last line of one may have none. The first has a triple."""
    found = []
    for _ in range(draw(st.integers(2, 5))):
        some = draw(st.lists(st.sampled_from(lines), max_size=6))
        found.append(b"".join(line + draw(st.sampled_from(ENDS)) for line in some) + draw(st.sampled_from(lines)))
    return [LINES[0] + b"\n" + found[0], *found[1:]]


# ---- what is built

@given(documents_of(LINES))
def test_any_documents(tmp_path_factory: pytest.TempPathFactory, documents: list[bytes]) -> None:
    """Without blank nodes no word is needed; a line end between two is not needed."""
    check(tmp_path_factory.mktemp("build"), documents)


@given(documents_of(LINES + NODES), st.booleans(), st.sampled_from([1, 16, 65_535]))
def test_blank_nodes(tmp_path_factory: pytest.TempPathFactory, documents: list[bytes], apart: bool, size: int) -> None:
    """A label is one node in all documents, or one in each, as is said."""
    word = "apart" if apart else "one"
    options: list[Word] = ["--blank-nodes", word, "--block-size", str(size), "--base", "u:base"]
    check(tmp_path_factory.mktemp("build"), documents, *options, apart=apart, base=b"u:base", size=size)


def test_one_document(tmp_path: Path) -> None:
    """One document with the option is renamed, as `split` does it; without it nothing changes."""
    data = b"\n".join(LINES + NODES)
    check(tmp_path, [data])
    check(tmp_path, [data], "--blank-nodes=one")
    check(tmp_path, [data], "--blank-nodes=apart", apart=True)
    one = hdt("split", "--of", "0/1", "--blank-nodes=apart", tmp_path / "0.nt")
    assert hdt("build", "-", tmp_path / "split.hdt", stdin=one.out).status == 0
    assert (tmp_path / "split.hdt").read_bytes() == (tmp_path / "out.hdt").read_bytes()


def test_cut_document(tmp_path: Path) -> None:
    """A document that is cut between lines, with and without its line ends, gives the file of the whole."""
    draw = random.Random(1)
    triples = [(b"u:s%d" % draw.randrange(900), b"u:p%d" % draw.randrange(9), b'"%d"' % draw.randrange(900))
               for _ in range(3_000)]
    lines = [document([triple]) for triple in triples]
    for count in (2, 3, 12):
        cuts = sorted(draw.sample(range(1, len(lines)), count - 1))
        pieces = [b"".join(lines[a:b]) for a, b in zip([0, *cuts], [*cuts, len(lines)])]
        check(tmp_path, pieces)
        check(tmp_path, [piece.rstrip(b"\n") for piece in draw.sample(pieces, count)])


def test_many_documents(tmp_path: Path) -> None:
    """One document at a time is open."""
    triples = [(b"u:%03d" % it, b"u:p", b"u:o") for it in range(100)]
    paths = write(tmp_path, [document([triple]) for triple in triples])
    command = 'ulimit -n 6; exec "$@"'
    assert run(["sh", "-c", command, "sh", PROGRAM, "build", *paths, tmp_path / "out.hdt"]).status == 0
    assert (tmp_path / "out.hdt").read_bytes() == canonical_file(triples)


def test_standard_streams(tmp_path: Path) -> None:
    """One document may be standard input, and OUT standard output."""
    path = write(tmp_path, [LINES[0]])[0]
    wanted = canonical_file(strings_of(LINES[0] + b"\n" + LINES[2]))
    once: list[list[Word]] = [[path, "-"], ["-", path]]
    for paths in once:
        seen = hdt("build", *paths, "-", stdin=LINES[2])
        assert (seen.status, seen.out, seen.err.startswith(b"built 2 ")) == (0, wanted, True)
    twice: list[list[Word]] = [["-", path, "-"], ["-", "/dev/stdin"]]
    for paths in twice:
        seen = hdt("build", *paths, tmp_path / "out.hdt", stdin=LINES[2])
        assert seen == Result(2, b"", b"error: only one IN can be standard input" + HELP)
    assert not (tmp_path / "out.hdt").exists()


# ---- errors

def test_two_with_blank_nodes(tmp_path: Path) -> None:
    """Two documents with blank nodes need a word; the error names both, and OUT is unchanged."""
    paths = write(tmp_path, [LINES[0], NODES[0], LINES[2], NODES[1]])
    out = tmp_path / "out.hdt"
    out.write_bytes(b"old")
    line = b"error: %s and %s have blank nodes: say by --blank-nodes" % (os.fsencode(paths[1]), os.fsencode(paths[3]))
    seen = hdt("build", *paths, out)
    assert (seen.status, seen.out, out.read_bytes()) == (2, b"", b"old")
    assert seen.err.startswith(line) and seen.err.endswith(HELP)
    assert hdt("build", *paths[:3], out).status == 0
    seen = hdt("build", *paths, out, "--blank-nodes", "both")
    assert (seen.status, seen.err) == (2, b"error: the value of --blank-nodes is one or apart" + HELP)


def test_faulty_line(tmp_path: Path) -> None:
    """A line counts in its document, and the message has the path; the first document with an error is named."""
    paths = write(tmp_path, [LINES[0] + b"\n" + LINES[2], LINES[0] + b"\nx\n", b"y"])
    out = tmp_path / "out.hdt"
    wanted = failed(1, f"{paths[1]}: line 2 column 1: 1 Syntax")
    assert hdt("build", *paths, out) == wanted
    assert hdt("build", *paths, out, "--blank-nodes=apart") == wanted
    seen = hdt("build", *paths, out, "--verbose")
    assert seen.err.startswith(wanted.err) and b"\n  x\n" in seen.err
    assert not out.exists()


def test_long_line(tmp_path: Path) -> None:
    """`--longest-line` counts the bytes of each line of each document, also where no line end is between two."""
    paths = write(tmp_path, [LINES[0], LINES[0], LINES[0] + b"\n" + LINES[7]])
    out, most = tmp_path / "out.hdt", str(len(LINES[0]))
    assert hdt("build", *paths[:2], out, "--longest-line", most).status == 0
    path = write(tmp_path, [LINES[0], LINES[0] + b"\n" + LINES[6]])[1]
    seen = hdt("build", *paths[:2], out, "--longest-line", most)
    line = failed(1, f"{path}: line 2 column {int(most) + 1}: 9 TooLong").err
    assert (seen.status, seen.err) == (1, line + b"  The line is longer than --longest-line allows.\n")


def test_missing_document(tmp_path: Path) -> None:
    """A document that can't be read is named, and earlier errors come first."""
    path = write(tmp_path, [LINES[0]])[0]
    seen = hdt("build", path, tmp_path / "none.nt", tmp_path / "out.hdt")
    assert seen.status == 3 and seen.err.startswith(b"hdt: " + os.fsencode(tmp_path / "none.nt") + b": reading failed")
    assert hdt("build", path, tmp_path, tmp_path / "out.hdt").status == 3


def test_no_triples(tmp_path: Path) -> None:
    """Documents without triples are no error while one has some."""
    check(tmp_path, [b"", LINES[0], b"# nothing\n"])
    paths = write(tmp_path, [b"", b"# nothing\n"])
    seen = hdt("build", *paths, tmp_path / "none.hdt")
    assert (seen.status, seen.out, seen.err.splitlines()[0] + b"\n") == (1, b"", NO_TRIPLES.err)


def test_bad_options(tmp_path: Path) -> None:
    """Options are checked before anything is read."""
    missing: list[Word] = [tmp_path / "none.nt", tmp_path / "none.nt", tmp_path / "out.hdt"]
    assert hdt("build", *missing, "--block-size", "0") == BAD_OPTIONS
    assert hdt("build", *missing, "--base", "x") == BAD_OPTIONS


def test_output_over_an_input(tmp_path: Path) -> None:
    """OUT must be none of the documents."""
    paths = write(tmp_path, [LINES[0], LINES[2]])
    for path in paths:
        assert hdt("build", *paths, path) == Result(2, b"", b"error: IN and OUT are the same file" + HELP)
    assert [path.read_bytes() for path in paths] == [LINES[0], LINES[2]]


def test_memory(tmp_path: Path) -> None:
    """If memory runs out, that is the error, and OUT is not there."""
    paths = write(tmp_path, [b"\n".join(LINES + NODES), b"\n".join(NODES)])
    out = tmp_path / "out.hdt"
    command: list[Word] = [PROGRAM, "build", *paths, out, "--blank-nodes", "apart"]
    ample, ends = Refuser(tmp_path).run_long(command)
    assert ample.status == 0
    assert {it.status for it in ends} <= {0, 4}
    assert sum(it.status == 4 for it in ends) > 20


def test_many_lines(tmp_path: Path) -> None:
    """Documents of 110,000 and 90,000 lines, one with a string of 200,000 bytes, from files and a pipe."""
    first = b"".join(b"<s:%06d> <u:p> <u:o> .\n" % it for it in range(110_000))
    nodes = [b"_:b%06d <u:p> \"%d\" .\n" % (it, it) for it in range(90_000)]
    second = b"".join([*nodes[:70_000], b'_:long <u:p> "' + b"x" * 200_000 + b'" .\n', *nodes[70_000:]])
    one, other, whole = write(tmp_path, [first, second, first + second])
    out, wanted = tmp_path / "out.hdt", tmp_path / "wanted.hdt"
    assert hdt("build", whole, wanted).status == 0
    commands: list[list[Word]] = [["build", one, other, out], ["build", one, "-", out], ["build", "-", one, out]]
    for words in commands:
        out.unlink(missing_ok=True)
        assert hdt(*words, stdin=second).status == 0
        assert out.read_bytes() == wanted.read_bytes()
    whole.write_bytes(first + second.replace(b"_:", b"_:f1_"))
    assert hdt("build", whole, wanted).status == 0
    assert hdt("build", "--blank-nodes", "apart", one, other, out).status == 0
    assert out.read_bytes() == wanted.read_bytes()
    other.write_bytes(second + b"<u:a> <u:p> .\n")
    before = out.read_bytes()
    result = hdt("build", one, other, out)
    assert (result.status, result.err.startswith(b"hdt: %s: line 90002 column " % os.fsencode(other))) == (1, True)
    assert out.read_bytes() == before
