"""`hdt split`: the parts of documents, against the reference and against `hdt.parts`."""

from __future__ import annotations

import gzip
import itertools
import os
import random
import re
import resource
import shutil
import signal
import subprocess
import time
import zlib
from collections.abc import Sequence
from pathlib import Path

import pytest
from hypothesis import HealthCheck, given, settings
from hypothesis import strategies as st

from reference import ntriples
from support.built import PROGRAM
from support.files import write
from support.parts import graph_of, parts, split, text_of
from support.program import (OUT_OF_MEMORY, WRITING_FAILED, InputOutputError, Result, Word, done, hdt, hdt_into,
                             run)
from support.system_calls import Caller

# Lines of N-Triples, good and bad, with their ends.
GOOD = [
    b"<u:a> <u:p> <u:b> .", b"<u:\\u0061> <u:p> <u:c> . # again", b" \t<u:b><u:p>\"x\\n\"@en.",
    b"<u:\xc3\xa9> <u:p> \"\xe2\x82\xac\" .",
    b"<u:c> <u:p> \"1\"^^<u:t> .", b"", b"# nothing", b"  ", b"<u:d> <u:p> <u:d> .",
]
NODES = [b"_:b <u:p> <u:a> .", b"<u:a> <u:p> _:b .", b"_:c <u:p> _:b .", b"_:0.1<u:p>_:b."]
BAD = [b"<u:a> <u:p> .", b"x", b"<rel> <u:p> <u:a> .", b"<u:a> <u:p> \"\xff\" ."]
ENDS = [b"\n", b"\r\n", b"\r", b"\n\n"]
HELP = b"\n\nFor more information, try '--help'.\n"


def lines_of(data: bytes) -> list[bytes]:
    """The lines of a document with their ends; the last one gets one."""
    found = data.replace(b"\r\n", b"\0").replace(b"\r", b"\1").replace(b"\n", b"\n\2").replace(b"\0", b"\r\n\2")
    pieces = found.replace(b"\1", b"\r\2").split(b"\2")
    return [*pieces[:-1], *([pieces[-1] + b"\n"] if pieces[-1] else [])]


def wanted(documents: Sequence[bytes], count: int) -> list[bytes]:
    """The text of each part."""
    texts = [b""] * count
    for data in documents:
        for line in lines_of(data):
            triple = ntriples.parse_line(line.rstrip(b"\r\n"))
            if triple is not None:
                texts[zlib.crc32(ntriples.term_string(triple[0])) % count] += line
    return texts


def found(folder: Path, count: int) -> list[bytes]:
    """The text of each part in a folder, which has nothing else."""
    names = [f"part-{part:05}.nt" for part in range(count)]
    assert set(os.listdir(folder)) <= set(names)
    return [(folder / name).read_bytes() if (folder / name).exists() else b"" for name in names]


def check(folder: Path, documents: Sequence[bytes], count: int, *options: Word) -> None:
    """The parts of documents, as files and on standard output, are those of the reference."""
    paths, made = write(folder, documents), folder / "parts"
    assert hdt("split", *paths, made, "--parts", str(count), *options) == done()
    texts = wanted(documents, count)
    assert found(made, count) == texts
    assert sorted(os.listdir(made)) == [f"part-{part:05}.nt" for part in range(count) if texts[part]]
    for part in range(count):
        assert hdt("split", "--of", f"{part}/{count}", *paths, *options) == done(texts[part])
        (made / f"part-{part:05}.nt").unlink(missing_ok=True)
    made.rmdir()


documents = st.lists(st.tuples(st.sampled_from(GOOD), st.sampled_from(ENDS))).map(
    lambda pieces: b"".join(line + end for line, end in pieces))


@settings(suppress_health_check=[HealthCheck.function_scoped_fixture], deadline=None)
@given(data=st.lists(documents, min_size=1, max_size=3), last=st.sampled_from(GOOD), count=st.integers(1, 9))
def test_documents(tmp_path: Path, data: list[bytes], last: bytes, count: int) -> None:
    """Documents without blank nodes, whatever their ends; the last line has none."""
    check(tmp_path, [*data[:-1], data[-1] + last], count)


def test_blank_nodes(tmp_path: Path) -> None:
    """A label is one node in all inputs if that is said, and an input alone needs no word."""
    one = b"\n".join(NODES)
    check(tmp_path, [one], 3)
    check(tmp_path, [one, b"\n".join(GOOD)], 3)
    check(tmp_path, [one, one, one], 5, "--blank-nodes", "one")


@pytest.mark.parametrize("count", [1, 3])
def test_labels_apart(count: int, tmp_path: Path) -> None:
    """Labels get the number of their input, also those of an input alone, and the part is that of the new label."""
    one = b"\n".join(NODES) + b"\n"
    inputs = [split(one, count, b"f%d_" % number).texts for number in range(2)]
    texts = [b"".join(texts) for texts in zip(*inputs)]
    paths = write(tmp_path, [one, one])
    words: list[Word] = ["split", *paths, tmp_path / "parts", "--parts", str(count), "--blank-nodes", "apart"]
    assert hdt(*words) == done()
    assert found(tmp_path / "parts", count) == texts
    assert hdt("split", "--of", "0/1", "--blank-nodes=apart", "-", stdin=one) == done(split(one, 1, b"f0_").texts[0])


def test_two_inputs_with_blank_nodes(tmp_path: Path) -> None:
    """It is an error that names both, wherever they are, and nothing is left."""
    paths = write(tmp_path, [GOOD[0], NODES[0], GOOD[0], NODES[1]])
    line = b"error: %s and %s have blank nodes: say by --blank-nodes" % (os.fsencode(paths[1]), os.fsencode(paths[3]))
    cases: list[list[Word]] = [["--parts", "3", *paths, tmp_path / "parts"], ["--of", "0/2", *paths]]
    for words in cases:
        seen = hdt("split", *words)
        assert seen.status == 2 and seen.err.startswith(line) and seen.err.endswith(HELP)
    assert not [name for name in os.listdir(tmp_path) if "parts" in name]


@pytest.mark.parametrize("count", [1, 2, 8, 65_536])
def test_as_hdt_parts(count: int, tmp_path: Path) -> None:
    """The parts are those of `hdt.parts`, whose function is written in Python."""
    text = text_of(graph_of(2_000)).encode()
    assert split(text, count).texts == wanted([text], count)
    (path,) = write(tmp_path, [text])
    assert hdt("split", path, tmp_path / "parts", "--parts", str(count)) == done()
    assert found(tmp_path / "parts", count) == split(text, count).texts


def test_published_hashes(tmp_path: Path) -> None:
    """The check value of CRC-32 (gzip) is that of its catalogue, and the part of a subject that of the guide."""
    assert zlib.crc32(b"123456789") == 0xCBF43926
    assert parts.part_of("http://example.org/a", 8) == 6
    line = b"<http://example.org/a> <u:p> <u:o> .\n"
    assert hdt("split", "--of", "6/8", "-", stdin=line) == done(line)
    assert [hdt("split", "--of", f"{part}/8", "-", stdin=line).out for part in range(8)].count(line) == 1


def test_standard_input(tmp_path: Path) -> None:
    """`-` is standard input, among other inputs too; a second time it is at its end."""
    (path,) = write(tmp_path, [GOOD[0]])
    data = GOOD[3] + b"\n"
    assert hdt("split", path, "-", "-", tmp_path / "parts", "--parts", "2", stdin=data) == done()
    assert found(tmp_path / "parts", 2) == wanted([GOOD[0], data], 2)


def test_compressed_input(tmp_path: Path) -> None:
    """A compressed file is not N-Triples, and `zcat` makes it so."""
    text = text_of(graph_of(200)).encode()
    path = tmp_path / "graph.nt.gz"
    path.write_bytes(gzip.compress(text))
    seen = hdt("split", "--of", "0/2", path)
    assert (seen.status, seen.out) == (1, b"") and seen.err.startswith(b"hdt: %s: line 1 column" % os.fsencode(path))
    assert hdt("split", "--of", "0/2", "-", stdin=gzip.decompress(path.read_bytes())).out == wanted([text], 2)[0]


@settings(suppress_health_check=[HealthCheck.function_scoped_fixture], deadline=None)
@given(before=documents, bad=st.sampled_from(BAD), after=documents, count=st.integers(1, 3))
def test_the_first_error(tmp_path: Path, before: bytes, bad: bytes, after: bytes, count: int) -> None:
    """It is that of a build of the input, with the path; inputs before it are good; nothing is left."""
    whole = before + bad + b"\n" + after
    paths = write(tmp_path, [b"\n".join(GOOD), whole, bad])
    built = hdt("build", paths[1], tmp_path / "x.hdt")
    line = built.err.replace(b"hdt: ", b"hdt: %s: " % os.fsencode(paths[1]), 1)
    assert built.status == 1
    assert hdt("split", *paths, tmp_path / "parts", "--parts", str(count)) == Result(1, b"", line)
    assert hdt("split", "--of", "0/1", *paths)[::2] == (1, line)
    assert sorted(os.listdir(tmp_path)) == ["0.nt", "1.nt", "2.nt"]


def test_inputs_that_cannot_be_read(tmp_path: Path) -> None:
    """A missing input and a folder; an error of an input before comes first."""
    (path,) = write(tmp_path, [BAD[0]])
    for lost in (tmp_path / "none.nt", tmp_path):
        reading = Result(3, b"", InputOutputError(b"hdt: %s: reading failed\n" % os.fsencode(lost)))
        assert hdt("split", lost, tmp_path / "parts", "--parts", "2") == reading
        assert hdt("split", path, lost, tmp_path / "parts", "--parts", "2").status == 1
    assert os.listdir(tmp_path) == ["0.nt"]


def test_a_folder_that_is_there(tmp_path: Path) -> None:
    """FOLDER is neither changed nor read, whatever it is: it is looked for before the inputs are."""
    taken = Result(2, b"", b"error: FOLDER is there already" + HELP)
    (path,) = write(tmp_path, [GOOD[0]])
    (tmp_path / "link").symlink_to("nowhere")
    for name in ("0.nt", "link", ".", ""):
        assert hdt("split", path, f"{tmp_path}/{name}", "--parts", "2") == taken
        assert hdt("split", tmp_path / "missing", f"{tmp_path}/{name}", "--parts", "2") == taken
    assert sorted(os.listdir(tmp_path)) == ["0.nt", "link"]
    assert hdt("split", path, f"{tmp_path}/parts//", "--parts", "2") == done()
    assert found(tmp_path / "parts", 2) == wanted([GOOD[0]], 2)


def test_a_folder_that_cannot_be_made(tmp_path: Path) -> None:
    """The folder in which it is to be is missing."""
    (path,) = write(tmp_path, [GOOD[0]])
    assert hdt("split", path, tmp_path / "none/parts", "--parts", "2") == WRITING_FAILED


def test_pipes() -> None:
    """A full disk, and a reader that has gone."""
    text = text_of(graph_of(2_000)).encode()
    assert hdt_into("/dev/full", "split", "--of", "0/1", "-", stdin=text) == WRITING_FAILED
    assert run(["sh", "-c", '"$0" split --of 0/1 - | :; exit 0', PROGRAM], stdin=text).err in (b"", WRITING_FAILED.err)


def test_a_part_is_built(tmp_path: Path) -> None:
    """The parts need no space on a disk, and have all triples."""
    text = text_of(graph_of(500)).encode()
    counts = []
    for part in range(3):
        out = tmp_path / f"{part}.hdt"
        seen = run(["sh", "-c", f'"$0" split --of {part}/3 - | "$0" build - "$1"', PROGRAM, out], stdin=text)
        assert seen.status == 0
        counts.append(int(seen.out.split()[1]))
    assert sum(counts) == len(set(graph_of(500)))


def test_a_limited_file_size(tmp_path: Path) -> None:
    """Beyond a limit on the size of files the signal is ignored here: writing fails, and nothing is left."""
    (path,) = write(tmp_path, [text_of(graph_of(20_000)).encode()])

    def limit() -> None:
        signal.signal(signal.SIGXFSZ, signal.SIG_IGN)
        resource.setrlimit(resource.RLIMIT_FSIZE, (70_000, 70_000))

    seen = subprocess.run([PROGRAM, "split", path, tmp_path / "parts", "--parts", "2"], capture_output=True,
                          preexec_fn=limit, check=False)
    assert (seen.returncode, seen.stderr) == (3, WRITING_FAILED.err)
    assert os.listdir(tmp_path) == ["0.nt"]


@pytest.mark.parametrize("descriptors", [4, 5])
def test_few_descriptors(descriptors: int, tmp_path: Path) -> None:
    """With too few descriptors writing fails, and nothing is left."""
    (path,) = write(tmp_path, [GOOD[0]])
    limit: list[Word] = ["prlimit", f"--nofile={descriptors}:{descriptors}", "--", PROGRAM]
    assert run([*limit, "split", path, tmp_path / "parts", "--parts", "2"]) == (
        WRITING_FAILED if descriptors == 4 else done())
    assert sorted(os.listdir(tmp_path)) == ["0.nt"] + ["parts"] * (descriptors != 4)


def test_more_parts_than_descriptors(tmp_path: Path) -> None:
    """2,000 parts of 100,000 lines, with 16 descriptors."""
    lines = [b"<u:%d> <u:p> <u:%d> .\n" % (random.Random(n).randrange(5_000), n) for n in range(100_000)]
    (path,) = write(tmp_path, [b"".join(lines)])

    def limit() -> None:
        resource.setrlimit(resource.RLIMIT_NOFILE, (16, 16))

    subprocess.run([PROGRAM, "split", path, path, tmp_path / "parts", "--parts", "2000"], preexec_fn=limit, check=True)
    texts = [b""] * 2_000
    for line in [*lines, *lines]:
        texts[zlib.crc32(line[1:line.index(b">")]) % 2_000] += line
    assert found(tmp_path / "parts", 2_000) == texts


@pytest.mark.parametrize(("words", "message"), [
    (["a.nt", "parts"], b"error: give either the number of parts, --parts N from 1 to 65536, or the part"),
    (["a.nt", "parts", "--parts", "0"], b"error: give either"),
    (["a.nt", "parts", "--parts", "65537"], b"error: give either"),
    (["a.nt", "parts", "--parts", "2", "--of", "0/2"], b"error: give either"),
    (["a.nt", "--parts", "2"], b"error: FOLDER is missing"),
    (["a.nt", "parts", "--parts", "2", "--blank-nodes", "both"], b"error: the value of --blank-nodes is one"),
    (["a.nt", "--of", "2/2"], b"error: the value of --of is K/N"),
    (["a.nt", "--of", "0/65537"], b"error: the value of --of is K/N"),
    (["a.nt", "--of", "0/0"], b"error: the value of --of is K/N"),
    (["a.nt", "--of", "1"], b"error: the value of --of is K/N"),
    (["a.nt", "--of", "/2"], b"error: the value of --of is K/N"),
    (["a.nt", "--of", "-1/2"], b"error: "),
    (["a.nt", "--of", "0/2/3"], b"error: the value of --of is K/N"),
    (["a.nt", "--of", "4294967296/4294967297"], b"error: the value of --of is K/N"),
    ([], b"error: the following required arguments were not provided:\n  <IN>"),
], ids=lambda value: " ".join(value) if isinstance(value, list) else "")
def test_usage_errors(words: list[str], message: bytes) -> None:
    """Command lines that are refused before anything is read."""
    seen = hdt("split", *words)
    assert (seen.status, seen.out) == (2, b"") and seen.err.startswith(message) and seen.err.endswith(HELP)


# ---- the calls of the system that put FOLDER in its place


@pytest.fixture(scope="module")
def caller(tmp_path_factory: pytest.TempPathFactory) -> Caller:
    """Runs programs and logs the calls that they make."""
    return Caller(tmp_path_factory.mktemp("calls"))


# An input with lines of two parts, and what `split` calls for two of them.
TWO_PARTS = b"\n".join([*GOOD, *NODES]) + b"\n"
SYNCED = [*["fsync of another file"] * 2, "fsync folder", "rename"]
CALLS = ["random", "mkdir 777", *["append 666", "write"] * 4, *SYNCED]


def splitting(folder: Path) -> list[Word]:
    """The command line that splits two inputs into the new folder `parts`."""
    (path,) = write(folder, [TWO_PARTS])
    return [PROGRAM, "split", path, path, folder / "parts", "--parts", "2", "--blank-nodes", "one"]


@pytest.mark.parametrize("size", [0, 2_000_000, 70_000_000], ids=["few triples", "2 MB", "70 MB"])
def test_the_order_of_calls(size: int, caller: Caller, tmp_path: Path) -> None:
    """The folder gets its name after all parts, of any size, and the folder were written and synced."""
    line = b'<u:a> <u:p> "%s" .\n' % (b"x" * 1_000)
    more, command = size // len(line) // 2, splitting(tmp_path)
    with open(tmp_path / "0.nt", "ab") as out:
        out.writelines([line] * more)
    ended = caller.run(command)
    assert (ended.result, ended.made[:2], ended.made[-4:]) == (done(), CALLS[:2], SYNCED)
    assert set(ended.made[2:-4]) == {"append 666", "write"} and len(ended.made) >= len(CALLS)
    written = sum(it.stat().st_size for it in (tmp_path / "parts").iterdir())
    assert written == 2 * (sum(map(len, wanted([TWO_PARTS], 2))) + more * len(line))
    shutil.rmtree(tmp_path)


@pytest.mark.parametrize("failing", range(1, len(CALLS) + 1))
def test_a_call_that_fails(failing: int, caller: Caller, tmp_path: Path) -> None:
    """Writing fails, and nothing is left; without random numbers the clock gives the name."""
    ended = caller.run(splitting(tmp_path), failing=failing).result
    if CALLS[failing - 1] == "random":
        assert (ended, sorted(os.listdir(tmp_path))) == (done(), ["0.nt", "parts"])
    else:
        assert (ended, os.listdir(tmp_path)) == (WRITING_FAILED, ["0.nt"])


@pytest.mark.parametrize("killed", range(1, len(CALLS) + 1))
def test_killed_before_a_call(killed: int, caller: Caller, tmp_path: Path) -> None:
    """The folder is not there; what is left has another name, and is whole before it gets its own."""
    command = splitting(tmp_path)
    assert caller.run(command, killed=killed) == (Result(-signal.SIGKILL, b"", b""), CALLS[:killed])
    left = [name for name in os.listdir(tmp_path) if name != "0.nt"]
    assert len(left) == (killed > 2)
    assert all(re.fullmatch(r"parts\.unfinished-[0-9a-f]{16}", name) for name in left)
    if killed > len(CALLS) - len(SYNCED):
        assert found(tmp_path / left[0], 2) == wanted([TWO_PARTS] * 2, 2)
    assert caller.run(command) == (done(), CALLS)


@pytest.mark.parametrize("taken", [1, 2, 900])
def test_names_that_are_taken(taken: int, caller: Caller, tmp_path: Path) -> None:
    """If the name of the unfinished folder is taken, another one is tried."""
    assert caller.run(splitting(tmp_path), taken=taken) == (done(), ["random", "taken"] * taken + CALLS)
    assert found(tmp_path / "parts", 2) == wanted([TWO_PARTS] * 2, 2)


def test_all_names_are_taken(caller: Caller, tmp_path: Path) -> None:
    """In the end writing fails."""
    ended = caller.run(splitting(tmp_path), taken=-1)
    assert (ended.result, set(ended.made)) == (WRITING_FAILED, {"random", "taken"})
    assert os.listdir(tmp_path) == ["0.nt"]


def test_no_memory(caller: Caller, tmp_path: Path) -> None:
    """With each allocation refused in turn memory runs out, and nothing is left."""
    command = splitting(tmp_path)
    for number in itertools.count(1):
        ended = caller.run(command, refused=number)
        if "refused" not in ended.made:
            break
        assert (number, ended.result, os.listdir(tmp_path)) == (number, OUT_OF_MEMORY, ["0.nt"])
    assert (ended, number > 50) == ((done(), CALLS), True)
    assert found(tmp_path / "parts", 2) == wanted([TWO_PARTS] * 2, 2)


@pytest.mark.parametrize("streams", ["", "0", "1", "2", "01", "02", "12", "012"])
def test_no_part_in_the_place_of_a_stream(streams: str, caller: Caller, tmp_path: Path) -> None:
    """If standard streams are closed, no part is written through their descriptors, where messages go."""
    closing = " ".join(f"{it}>&-" for it in streams)
    ended = caller.run(["sh", "-c", f'exec "$0" "$@" {closing}', *splitting(tmp_path)])
    assert ended == (done(), CALLS)
    assert found(tmp_path / "parts", 2) == wanted([TWO_PARTS] * 2, 2)


@pytest.mark.parametrize("streams", ["0", "1", "2", "012"])
def test_messages_with_closed_streams(streams: str, tmp_path: Path) -> None:
    """The message of a faulty input is lost with its stream, and nothing is left; a closed stream cannot be used."""
    one, other = write(tmp_path, [GOOD[0], BAD[0]])
    closing = " ".join(f"{it}>&-" for it in streams)
    script = f'exec "$0" split "$@" {closing}'
    ended = run(["sh", "-c", script, PROGRAM, one, other, tmp_path / "parts", "--parts", "2", "--verbose"])
    assert (ended.status, ended.err != b"", sorted(os.listdir(tmp_path))) == (1, "2" not in streams, ["0.nt", "1.nt"])
    ended = run(["sh", "-c", script, PROGRAM, one, "-", "--of", "0/1"], stdin=GOOD[0])
    assert ended.status == (3 if {"0", "1"} & {*streams} else 0)


def test_linear_time(tmp_path: Path) -> None:
    """Long lines and lines of one subject: twice the input takes no more than some three times as long."""
    def seconds(data: bytes) -> float:
        (path,) = write(tmp_path, [data])
        times = []
        for _ in range(3):
            start = time.process_time() + resource.getrusage(resource.RUSAGE_CHILDREN).ru_utime
            assert hdt("split", "--of", "0/65536", path).status == 0
            times.append(time.process_time() + resource.getrusage(resource.RUSAGE_CHILDREN).ru_utime - start)
        return min(times)

    cases: list[tuple[bytes, bytes, bytes]] = [
        (b'<u:a> <u:p> "', b"x", b'" .\n'), (b"", b"<u:a> <u:p> <u:b> .\n", b""), (b"", b"\n", b""),
        (b'<u:a> <u:p> "', b"\\u0041", b'" .\n'),
    ]
    for before, piece, after in cases:
        count = 8_000_000 // len(piece)
        assert seconds(before + piece * (2 * count) + after) < 3.5 * seconds(before + piece * count + after) + 0.1
