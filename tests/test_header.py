"""A new header: `rewrite --header` and `head --body` change the header, its length and its CRC, and nothing else."""

from __future__ import annotations

import os
import random
from pathlib import Path

import pytest
from hypothesis import given
from hypothesis import strategies as st

from reference import hdt as reference
from support.built import PROGRAM, SAMPLES
from support.documents import THREE, Strings, canonical_file
from support.files import mounts
from support.program import (READING_FAILED, WRITING_FAILED, Result, Word, done, fault, hdt, run)
from support.refusing import Refuser

TITLE = b'<http://a/> <http://purl.org/dc/terms/title> "Tea" .\n'
COUNTS = (3, 2, 0, 2, 1)
HELP = b"\n\nFor more information, try '--help'.\n"


def replaced(data: bytes, body: bytes) -> bytes:
    """The file with this header, by the reference: `length` in the header's properties changes wherever it is."""
    head, end = reference.read_head(data)
    items = head.header.properties.split(b";")
    items = [b"length=%d" % len(body) if it.startswith(b"length=") else it for it in items]
    _, start = reference.read_control(data, 0, reference.GLOBAL)
    return data[:start] + reference.write_control(reference.HEADER, b";".join(items)) + body + data[end:]


def rewritten(counts: tuple[int, ...], data: bytes) -> Result:
    """What the command prints."""
    return done(b"rewritten %s %d\n" % (b" ".join(b"%d" % it for it in counts), len(data)))


def check(folder: Path, data: bytes, body: bytes, *options: Word) -> bytes:
    """Give a file this header; check the new file, its graph, and that `head --body` prints the header. Return it."""
    source, text, out = folder / "in.hdt", folder / "head.nt", folder / "out.hdt"
    source.write_bytes(data)
    text.write_bytes(body)
    was, wanted = reference.read_file(data), replaced(data, body)
    assert hdt("rewrite", "--header", text, source, out, *options) == rewritten(was.counts, wanted)
    assert out.read_bytes() == wanted
    now = reference.read_file(wanted)
    assert (now.head.body, now.denoted, now.counts) == (body, was.denoted, was.counts)
    assert hdt("head", "--body", out) == done(body)
    return wanted


def loose(triples: list[Strings], before: bytes = b"a=b;", behind: bytes = b"c=d;last") -> bytes:
    """A file of another tool: not canonical, with strings that no triple uses, and further properties."""
    strings = [sorted({it[role] for it in triples} | {b"v:zzz"}) for role in range(3)]
    style = reference.Style(3, 61, -1, False, before, behind)
    return bytes(reference.write_file(triples, reference.split(*strings), b"u:foreign", style).data)


# ---- what is written

BODIES = st.one_of(
    st.just(b""), st.just(b"# no triples\n"), st.just(TITLE[:-1]), st.just(TITLE * 20),
    st.integers(0, 3_000).map(lambda it: b"#" + b"x" * it),
    st.text(st.characters(blacklist_characters='"\\\0\n\r', blacklist_categories=["Cs"]), max_size=40).map(
        lambda it: b'<u:a> <u:p> "' + it.encode() + b'"@en .\r\n'))


@given(BODIES, st.booleans(), st.randoms())
def test_any_header(tmp_path_factory: pytest.TempPathFactory, body: bytes, is_canonical: bool,
                    draw: random.Random) -> None:
    """Files of this tool and of others get any header; all other bytes stay. Again is the same; so is the way back."""
    folder = tmp_path_factory.mktemp("header")
    data = canonical_file(THREE, b"u:base", draw.choice([1, 16])) if is_canonical else loose(THREE)
    made = check(folder, data, body)
    assert check(folder, made, body) == made
    assert check(folder, made, reference.read_head(data)[0].body) == data


@pytest.mark.parametrize("before, behind", [
    (b"", b""), (b"length=9;", b""), (b"length=x;", b"length;"), (b"length;=;;", b";;"), (b"Length=1;", b"xlength=2"),
    (b"length =1;", b" length=7;")])
def test_properties(tmp_path: Path, before: bytes, behind: bytes) -> None:
    """The last `length` counts, wherever it is; each gets the new length, and nothing else changes."""
    check(tmp_path, loose(THREE, before, behind), TITLE)


def test_head_of_a_cut_file(tmp_path: Path) -> None:
    """`head --body` reads nothing after the header, and fails as `head` does."""
    data = canonical_file(THREE)
    _, end = reference.read_head(data)
    (tmp_path / "cut.hdt").write_bytes(data[:end])
    assert hdt("head", "--body", tmp_path / "cut.hdt") == done(reference.header_body(b"http://example.org/dataset", 3))
    (tmp_path / "cut.hdt").write_bytes(data[:end - 1])
    assert hdt("head", "--body", tmp_path / "cut.hdt") == hdt("head", tmp_path / "cut.hdt")


def test_length_of_another_form(tmp_path: Path) -> None:
    """Zeros before the old length are gone, as it is written anew."""
    data = canonical_file(THREE)
    head, end = reference.read_head(data)
    start = reference.read_control(data, 0, reference.GLOBAL)[1]
    zeros = reference.write_control(reference.HEADER, b"length=000%d;" % len(head.body))
    check(tmp_path, data[:start] + zeros + head.body + data[end:], TITLE)


# ---- paths

def test_in_is_out(tmp_path: Path) -> None:
    """OUT may be IN; it is replaced whole, and keeps its permissions."""
    path, text = tmp_path / "own.hdt", tmp_path / "head.nt"
    path.write_bytes(canonical_file(THREE))
    path.chmod(0o640)
    text.write_bytes(TITLE)
    wanted = replaced(path.read_bytes(), TITLE)
    assert hdt("rewrite", path, path, "--header", text) == rewritten(COUNTS, wanted)
    assert path.read_bytes() == wanted and path.stat().st_mode & 0o777 == 0o640
    assert sorted(os.listdir(tmp_path)) == ["head.nt", "own.hdt"]


def test_streams(tmp_path: Path) -> None:
    """The header, or IN, may be standard input, and OUT standard output, but not both of the first."""
    data = canonical_file(THREE)
    path, text, wanted = tmp_path / "own.hdt", tmp_path / "head.nt", replaced(data, TITLE)
    path.write_bytes(data)
    text.write_bytes(TITLE)
    line = rewritten(COUNTS, wanted).out
    assert hdt("rewrite", "--header", "-", path, "-", stdin=TITLE) == Result(0, wanted, line)
    assert hdt("rewrite", "--header", text, "-", "-", stdin=data) == Result(0, wanted, line)
    refused = Result(2, b"", b"error: the FILE of --header and IN are the same file" + HELP)
    assert hdt("rewrite", "--header", "-", "-", tmp_path / "out.hdt", stdin=data) == refused
    assert hdt("rewrite", "--header", "/dev/stdin", "-", tmp_path / "out.hdt", stdin=data) == refused
    assert not (tmp_path / "out.hdt").exists()


def test_header_is_out(tmp_path: Path) -> None:
    """OUT is not the text of the header, under any name; nor does its text go into itself."""
    text, link = tmp_path / "head.nt", tmp_path / "link.nt"
    text.write_bytes(TITLE)
    link.symlink_to("head.nt")
    refused = Result(2, b"", b"error: the FILE of --header and OUT are the same file" + HELP)
    for one, other in ((text, text), (link, text), (text, link)):
        assert hdt("rewrite", "--header", one, SAMPLES / "three.hdt", other) == refused
    script = 'exec "$0" rewrite --header "$1" "$2" "$3" >> "$1"'
    assert run(["sh", "-c", script, PROGRAM, text, SAMPLES / "three.hdt", tmp_path / "out.hdt"]) == Result(
        2, b"", b"error: the FILE of --header and standard output are the same file" + HELP)
    assert text.read_bytes() == TITLE and sorted(os.listdir(tmp_path)) == ["head.nt", "link.nt"]


def test_with_block_size(tmp_path: Path) -> None:
    """Nothing is encoded again, so --block-size is refused, whatever it says; OUT is not touched."""
    out = tmp_path / "out.hdt"
    refused = Result(2, b"", b"error: --header replaces only the header, so --block-size has no use" + HELP)
    for size in ("16", "8"):
        words = "--header", SAMPLES / "three.nt", "--block-size", size
        assert hdt("rewrite", *words, SAMPLES / "three.hdt", out) == refused
    assert not out.exists()
    assert hdt("rewrite", "--header=", SAMPLES / "three.hdt", out).status == 3


# ---- faults: OUT stays as it was

BAD = {
    b"no triple\n": (1, "Syntax", 1, 1), TITLE + b"<u:a> <u:p> .\n": (1, "Syntax", 2, 13),
    b'<u:a> <u:p> "\xff" .\n': (2, "NotUtf8", 1, 14), b'<u:a> <u:p> "\\q" .': (3, "BadEscape", 1, 14),
    b"<a> <u:p> <u:b> .": (4, "RelativeIri", 1, 1), b'<u:a> <u:p> "\0" .': (6, "ZeroCharacter", 1, 14),
    b"$HDT": (1, "Syntax", 1, 1),
}


@pytest.mark.parametrize("body", BAD)
def test_faulty_headers(tmp_path: Path, body: bytes) -> None:
    """The first error of the header has its path, line and column."""
    text, out = tmp_path / "head.nt", tmp_path / "out.hdt"
    text.write_bytes(body)
    out.write_bytes(b"before")
    result = hdt("rewrite", "--header", text, SAMPLES / "three.hdt", out)
    number, name, line, column = BAD[body]
    first = f"hdt: {text}: line {line} column {column}: {number} {name}\n".encode()
    assert (result.status, result.out) == (1, b"") and result.err.startswith(first), result
    assert out.read_bytes() == b"before"
    more = hdt("rewrite", "--verbose", "--header", text, SAMPLES / "three.hdt", out)
    assert more.err.startswith(first + b"  %s:%d:%d\n" % (os.fsencode(text), line, column)), more.err


def test_faulty_files(tmp_path: Path) -> None:
    """An error of IN is the same as without a header, and comes before one of the header."""
    good, bad, out = tmp_path / "head.nt", tmp_path / "bad.nt", tmp_path / "out.hdt"
    good.write_bytes(TITLE)
    bad.write_bytes(b"no triple\n")
    out.write_bytes(b"before")
    data = canonical_file(THREE)
    for cut in [*range(0, len(data), 7), len(data) - 1]:
        (tmp_path / "in.hdt").write_bytes(data[:cut])
        wanted = hdt("rewrite", tmp_path / "in.hdt", out)
        assert wanted.status == 1
        assert hdt("rewrite", "--header", good, tmp_path / "in.hdt", out) == wanted
        assert hdt("rewrite", "--header", bad, tmp_path / "in.hdt", out) == wanted
    (tmp_path / "in.hdt").write_bytes(data + b"\n")
    assert hdt("rewrite", "--header", good, tmp_path / "in.hdt", out) == fault(33, "TrailingBytes", len(data))
    assert out.read_bytes() == b"before"


def test_files_that_cannot_be_read(tmp_path: Path) -> None:
    """A header that is not there is named; so is IN."""
    out = tmp_path / "out.hdt"
    missing = hdt("rewrite", "--header", tmp_path / "none.nt", SAMPLES / "three.hdt", out)
    assert missing.status == 3 and missing.err.startswith(f"hdt: {tmp_path}/none.nt: reading failed\n".encode())
    assert hdt("rewrite", "--header", SAMPLES / "three.nt", tmp_path / "none.hdt", out) == READING_FAILED
    assert hdt("rewrite", "--header", tmp_path, SAMPLES / "three.hdt", out).status == 3
    assert not out.exists()


def test_failed_writes(tmp_path: Path) -> None:
    """On a full file system OUT stays what it was."""
    text = tmp_path / "head.nt"
    text.write_bytes(b"#" + b"x" * (1 << 17))
    script = ('mount -t tmpfs -o size=64k tmpfs "$1"; out="$1/out.hdt"; printf before > "$out"; '
              '"$0" rewrite --header "$2" "$3" "$out"; echo $?; ls "$1"; cat "$out"')
    (tmp_path / "mounted").mkdir()
    answer = run([*mounts(), "sh", "-c", script, PROGRAM, tmp_path / "mounted", text, SAMPLES / "three.hdt"])
    assert answer == Result(0, b"3\nout.hdt\nbefore", WRITING_FAILED.err)
    assert hdt("rewrite", "--header", text, SAMPLES / "three.hdt", "/dev/full") == WRITING_FAILED


def test_out_of_memory(tmp_path: Path) -> None:
    """Where any allocation fails the command says so, and OUT stays as it was, or is complete."""
    text, out = tmp_path / "head.nt", tmp_path / "out.hdt"
    text.write_bytes(TITLE * 40)
    wanted = replaced((SAMPLES / "three.hdt").read_bytes(), TITLE * 40)
    refuser = Refuser(tmp_path)
    found = refuser.run([PROGRAM, "rewrite", "--header", text, SAMPLES / "three.hdt", out])
    assert found.ample == rewritten(COUNTS, wanted) and out.read_bytes() == wanted
    assert len(found.refused) > 50
    for it in found.refused:
        assert it.result.status == 4 and it.result.out == b"" or it.result == found.ample, it


def test_long_headers(tmp_path: Path) -> None:
    """A header of 5 MB, of many lines or of one, and a file of 150,000 triples."""
    triples: list[Strings] = [(b"s:%06d" % it, b"u:p", b'"%d"' % it) for it in range(150_000)]
    data = canonical_file(triples)
    for body in (TITLE * 95_000, b'<u:a> <u:p> "' + b"x" * 5_000_000 + b'" .'):
        assert len(body) > 5_000_000 - 50_000
        source, text, out = tmp_path / "in.hdt", tmp_path / "head.nt", tmp_path / "out.hdt"
        source.write_bytes(data)
        text.write_bytes(body)
        wanted = replaced(data, body)
        assert hdt("rewrite", "--header", text, source, out) == rewritten((150_000, 0, 150_000, 1, 150_000), wanted)
        assert out.read_bytes() == wanted
        assert hdt("head", "--body", out) == done(body)
