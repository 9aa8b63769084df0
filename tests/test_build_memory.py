"""`hdt build --memory SIZE`: the file, the counts and the errors of a build without it, in little memory.

Batches that don't fit into the memory, and what is made of them, are in scratch files. Where these and OUT are is in
test_build_memory_outputs, and what happens to them if a program is ended or something fails in
test_build_memory_failures.
"""

from __future__ import annotations

import fcntl
import os
import random
import socket
import struct
import subprocess
import threading
from pathlib import Path

import pytest
from hypothesis import given
from hypothesis import strategies as st

from support.build_memory import LEAST, LINES_OF, MIB, SECONDS, Built, Documents, build, check_same
from support.built import PROGRAM, SAMPLES
from support.documents import LONG_LINE
from support.files import THREE, names, write
from support.large import LARGE, Files
from support.measuring import Meter
from support.program import BAD_OPTIONS, NO_TRIPLES, OUT_OF_MEMORY, Result, Word, hdt, run
from support.properties import examples
from test_build_inputs import HELP, LINES, NODES, documents_of

FAULTY = [b"x", b"<a> <u:p> <u:b> .", b"<u:a> <u:p> \"\xff\" .", b"<u:a> <u:p> <u:b>", b"<u:\\u0020> <u:p> <u:b> ."]


# ---- documents


@examples(2)
@given(documents_of(LINES + NODES), st.sampled_from(["one", "apart", None]), st.sampled_from([1, 2, 16, 65_535]),
       st.sampled_from(["u:base", "http://a/é"]))
def test_any_documents(tmp_path_factory: pytest.TempPathFactory, documents: list[bytes], nodes: str | None, size: int,
                       base: str) -> None:
    """Any documents, of which one may be standard input, with any options."""
    folder = tmp_path_factory.mktemp("any")
    paths: list[Word] = [*write(folder, documents)]
    options = ["--block-size", str(size), "--base", base, *(["--blank-nodes", nodes] if nodes else [])]
    check_same(folder, *options, *paths)
    check_same(folder, *options, *paths[1:], "-", stdin=documents[0])


@examples(2)
@given(documents_of(LINES + FAULTY), st.integers(0, 40) | st.none(), st.sampled_from(["", "--verbose"]))
def test_any_faulty_documents(tmp_path_factory: pytest.TempPathFactory, documents: list[bytes], longest: int | None,
                              verbose: str) -> None:
    """The first error of the documents, with its hints, also of a line that is too long; one document has no name."""
    folder = tmp_path_factory.mktemp("faulty")
    paths: list[Word] = [*write(folder, documents)]
    options = [*([verbose] if verbose else []), *([] if longest is None else [f"--longest-line={longest}"])]
    check_same(folder, *options, *paths)
    check_same(folder, *options, "-", stdin=documents[-1])


@pytest.mark.slow
@pytest.mark.parametrize("kind", LINES_OF)
def test_many_batches(kind: str, batches: Documents, tmp_path: Path) -> None:
    """Documents that are many times larger than the memory."""
    made = check_same(tmp_path, batches.path(kind))
    assert made.result.status == 0


@pytest.mark.slow
@pytest.mark.parametrize("memory", ["4194304", "5000K", "16M", "1G", "16000000G"])
def test_any_memory(memory: str, batches: Documents, tmp_path: Path) -> None:
    """Any memory gives the same file, also more than there is."""
    assert check_same(tmp_path, batches.path("shuffled"), memory=memory).result.status == 0


@pytest.mark.slow
def test_many_batches_of_several_documents(batches: Documents, tmp_path: Path) -> None:
    """Blank nodes in several large documents, one of which is read from a pipe."""
    nodes = b"".join(b'_:b%d <u:p> "%d" .\n_:b%d <u:q> _:b%d .\n' % (n, n, n, n * 7919 % 90_000) for n in range(90_000))
    (tmp_path / "nodes.nt").write_bytes(nodes)
    for options in (["--blank-nodes", "apart"], ["--blank-nodes", "one", "--block-size", "3"]):
        made = check_same(tmp_path, *options, batches.path("people"), "nodes.nt", "-", stdin=nodes)
        assert made.result.status == 0


@pytest.mark.slow
@pytest.mark.parametrize("name", LARGE)
def test_more_than_a_million_lines(name: str, large_files: Files, tmp_path: Path) -> None:
    """More than 2^20 triples, lines and strings of a section."""
    it = LARGE[name]
    wanted = large_files.file(it).read_bytes()
    made = build(tmp_path, "--memory", LEAST, large_files.document(it))
    counts = " ".join(map(str, [*it.counts, len(wanted)]))
    assert (made.result, made.names) == (Result(0, f"built {counts}\n".encode(), b""), ["out.hdt"])
    assert made.file == wanted


def test_long_lines(tmp_path: Path) -> None:
    """Strings and lines of a megabyte, and comments: as subjects, predicates and objects, with long common prefixes."""
    long = b"x" * MIB
    lines = [b'<u:%s%d> <u:p> "a" .\n' % (long, n) for n in range(4)]
    lines += [b"<u:a> <u:%s%d> <u:%s%d> .\n" % (long, n, long, n % 3) for n in range(4)]
    lines += [b'<u:a> <u:p> "%s%d"@en .\n' % (long[n:], n) for n in range(8)]
    lines += [b"<u:a> <u:p> \"%d\" . # %s\n" % (n, long) for n in range(4)]
    random.Random(1).shuffle(lines)
    (tmp_path / "in.nt").write_bytes(b"".join(lines))
    assert check_same(tmp_path, "in.nt").result.status == 0


def test_a_string_longer_than_the_memory(tmp_path: Path) -> None:
    """A string of 17 MB, among others."""
    lines = [b'<u:%d> <u:p> "%d" .\n' % (n, n * n) for n in range(20_000)]
    (tmp_path / "in.nt").write_bytes(b"".join([*lines, b'<u:a> <u:p> "%s" .\n' % (b"y" * (17 * MIB)), *lines]))
    assert check_same(tmp_path, "in.nt").result.status == 0


def test_one_line_again_and_again(tmp_path: Path, large_document: Path) -> None:
    """Equal lines in all batches are one triple."""
    assert check_same(tmp_path, large_document).result.out.startswith(b"built 1 0 1 1 1 ")


EMPTY = [[b""], [b"\n"], [b"# nothing"], [b"\xef\xbb\xbf"], [b"", b"# nothing\n"], [b"", LINES[0]], [LINES[0], b""]]


@pytest.mark.parametrize("documents", EMPTY, ids=str)
def test_empty_documents(documents: list[bytes], tmp_path: Path) -> None:
    """Documents without triples are an error, unless another one has some."""
    made = check_same(tmp_path, *write(tmp_path, documents))
    assert made.result.status == 0 if LINES[0] in documents else made.result.status == 1
    if documents[0] in (b"", b"\n", b"# nothing") and len(documents) == 1:
        assert made.result == NO_TRIPLES


# ---- options

SIZES: dict[str, bool] = {
    "4194304": True, "4096K": True, "4M": True, "1G": True, "18446744073709551615": True, "17179869183G": True,
    "4194303": False, "4095K": False, "3M": False, "0": False, "0G": False, "": False, "M": False, "4m": False,
    "4MB": False, "4MiB": False, "4 M": False, " 4M": False, "4M ": False, "-4M": False, "+4M": False,
    "+4194304": False, "4.5M": False, "4T": False, "0x400000": False, "1e9": False, "18446744073709551616": False,
    "17179869184G": False, "9" * 30: False,
}


@pytest.fixture(scope="module")
def three(tmp_path_factory: pytest.TempPathFactory) -> Built:
    """The three triples, built in memory."""
    return build(tmp_path_factory.mktemp("three"), THREE)


@pytest.mark.parametrize("size, is_taken", SIZES.items(), ids=SIZES)
def test_sizes(size: str, is_taken: bool, three: Built, tmp_path: Path) -> None:
    """A size is a number of bytes, or of K, M or G, from 4M on; others are a usage error before anything is read."""
    if is_taken:
        assert build(tmp_path, f"--memory={size}", THREE) == three
        return
    made = build(tmp_path, f"--memory={size}", "missing.nt")
    assert (made.result.status, made.result.out, made.names, made.file) == (2, b"", ["out.hdt"], b"before")
    assert made.result.err.startswith(b"error: ") and b"--memory" in made.result.err and made.result.err.endswith(HELP)


BAD: list[list[Word]] = [
    ["--memory"], ["--scratch", "."], ["--memory", "4M", "--memory", "4M"], ["--memory", "4M", "--scratch"],
    ["--memory", "4M", "--blank-nodes", "both"], ["--memory", "4M", "--longest-line", "x"]]


@pytest.mark.parametrize("options", BAD, ids=str)
def test_usage_errors(options: list[Word], tmp_path: Path) -> None:
    """What is wrong with a command line is found before anything is read."""
    made = build(tmp_path, "missing.nt", *options)
    assert (made.result.status, made.result.out, made.names, made.file) == (2, b"", ["out.hdt"], b"before")


def test_bad_options(tmp_path: Path) -> None:
    """So are a block size and a base, if there are several documents."""
    missing = tmp_path / "missing.nt"
    for options in (["--block-size", "0"], ["--block-size", "65536"], ["--base", "x"], ["--base="]):
        assert check_same(tmp_path, *options, missing, missing).result == BAD_OPTIONS
        assert check_same(tmp_path, *options, THREE).result == BAD_OPTIONS


def test_other_commands(tmp_path: Path) -> None:
    """Only `build` and `merge` have these options."""
    for options in ("--memory 4M", "--memory 4M --scratch ."):
        assert hdt("rewrite", SAMPLES / "three.hdt", tmp_path / "out.hdt", *options.split()).status == 2
    assert names(tmp_path) == []


# ---- errors


def lines_with(fault: bytes, at: int, count: int = 120_000) -> bytes:
    """So many lines, one of which is faulty."""
    lines = [b'<http://example.org/subject/%d> <u:p> "%d" .\n' % (n, n * n) for n in range(count)]
    lines[at] = fault + b"\n"
    return b"".join(lines)


@pytest.mark.parametrize("at", [0, 1_000, 60_000, 119_999])
@pytest.mark.parametrize("fault", [*FAULTY[:3], LONG_LINE[:-1] * 2], ids=["syntax", "relative", "UTF-8", "long"])
def test_faulty_line(fault: bytes, at: int, tmp_path: Path) -> None:
    """A faulty line in the first batch, and in a later one, is the error that it is without `--memory`."""
    (tmp_path / "in.nt").write_bytes(lines_with(fault, at))
    made = check_same(tmp_path, "in.nt", "--longest-line", "1000")
    assert (made.result.status, made.file) == (1, b"before")
    assert made.result.err.startswith(b"hdt: line %d column " % (at + 1))
    if at > 1_000:
        (tmp_path / "first.nt").write_bytes(lines_with(LINES[0], 0))
        made = check_same(tmp_path, "first.nt", "in.nt", "--longest-line", "1000")
        assert made.result.err.startswith(b"hdt: in.nt: line %d column " % (at + 1))


def test_blank_nodes_of_a_later_document(tmp_path: Path) -> None:
    """Two documents with blank nodes need a word, also if the second one is found after many batches."""
    (tmp_path / "a.nt").write_bytes(lines_with(NODES[0], 5))
    (tmp_path / "b.nt").write_bytes(lines_with(NODES[0], 110_000))
    made = check_same(tmp_path, "a.nt", "b.nt")
    assert (made.result.status, made.file) == (2, b"before")


def test_missing_documents(tmp_path: Path) -> None:
    """A document that can't be read is named, also after many batches of another one."""
    (tmp_path / "a.nt").write_bytes(lines_with(LINES[0], 0))
    cases: list[list[Word]] = [["missing.nt"], ["."], ["a.nt", "missing.nt"], ["a.nt", "."], ["missing.nt", "a.nt"]]
    for inputs in cases:
        made = check_same(tmp_path, *inputs)
        assert (made.result.status, made.file) == (3, b"before")


def built_from(descriptor: int, folder: Path) -> Built:
    """Build over an old OUT what a descriptor gives."""
    (folder / "out.hdt").write_bytes(b"before")
    words: list[Word] = [PROGRAM, "build", "--memory", "4M", "-", folder / "out.hdt"]
    seen = subprocess.run([os.fsencode(word) for word in words], stdin=descriptor, capture_output=True, timeout=SECONDS)
    return Built(Result(seen.returncode, seen.stdout, seen.stderr), names(folder), (folder / "out.hdt").read_bytes())


@pytest.mark.parametrize("size", [0, 1, 30, 4_096, 60_000])
def test_a_reader_that_fails(size: int, tmp_path: Path) -> None:
    """Reading fails after so many bytes, as those of a pipe that is set not to wait: that is the error."""
    reader, writer = os.pipe()
    try:
        os.write(writer, lines_with(LINES[0], 0, 2_000)[:size])
        fcntl.fcntl(reader, fcntl.F_SETFL, os.O_NONBLOCK)
        made = built_from(reader, tmp_path)
    finally:
        os.close(reader)
        os.close(writer)
    wanted = b"hdt: reading failed\n  -: Resource temporarily unavailable\n"
    assert made == Built(Result(3, b"", wanted), ["out.hdt"], b"before")


def test_a_reader_that_fails_late(tmp_path: Path) -> None:
    """So it does after many batches, if a connection is reset."""
    with socket.create_server(("127.0.0.1", 0)) as server:
        here = socket.create_connection(server.getsockname())
        there, _ = server.accept()

    def send() -> None:
        here.sendall(lines_with(LINES[0], 0, 500_000))
        here.setsockopt(socket.SOL_SOCKET, socket.SO_LINGER, struct.pack("ii", 1, 0))
        here.close()

    sender = threading.Thread(target=send)
    sender.start()
    with there:
        made = built_from(there.fileno(), tmp_path)
    sender.join()
    wanted = b"hdt: reading failed\n  -: Connection reset by peer\n"
    assert made == Built(Result(3, b"", wanted), ["out.hdt"], b"before")


# ---- memory


@pytest.mark.slow
def test_memory_is_bounded(batches: Documents, tmp_path: Path) -> None:
    """What is asked of the allocator doesn't grow with the document: it is about the memory that is given."""
    meter = Meter(tmp_path)
    lines = (batches.path("exported")).read_bytes().splitlines(keepends=True)
    for megabytes in (4, 16):
        most = []
        for count in (100_000, 200_000, 300_000):
            (tmp_path / "in.nt").write_bytes(b"".join(lines[:count]))
            measured = meter.run([PROGRAM, "build", "--memory", f"{megabytes}M", "in.nt", "out.hdt"], cwd=tmp_path)
            assert measured.result.status == 0
            most.append(measured.most)
        assert max(most) < megabytes * MIB * 1.25 + MIB, (megabytes, most)
        assert most[2] < 1.1 * most[1], (megabytes, most)


@pytest.mark.slow
def test_a_million_lines_in_64_megabytes(large_files: Files, tmp_path: Path) -> None:
    """More than a million lines are built where a process has 64 MB of addresses in all."""
    it, room = LARGE["shared"], 64_000_000
    (tmp_path / "out.hdt").write_bytes(b"before")
    words: list[Word] = ["prlimit", f"--as={room}:{room}", "--", PROGRAM, "build", large_files.document(it), "out.hdt"]
    assert run(words, cwd=tmp_path, seconds=SECONDS) == OUT_OF_MEMORY
    assert (names(tmp_path), (tmp_path / "out.hdt").read_bytes()) == (["out.hdt"], b"before")
    seen = run([*words, "--memory", "8M"], cwd=tmp_path, seconds=SECONDS)
    assert (seen.status, seen.err, names(tmp_path)) == (0, b"", ["out.hdt"])
    assert (tmp_path / "out.hdt").read_bytes() == it.data
