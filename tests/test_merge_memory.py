"""`hdt merge --memory SIZE`: the file, the counts and the errors of a merge without it, in little memory beside a file.

What happens if a merge is ended midway, or something fails, is in test_build_memory_failures.
"""

from __future__ import annotations

import os
import random
import re
from pathlib import Path

import pytest
from hypothesis import given
from hypothesis import strategies as st

from support.build_memory import LINES_OF, MIB, SECONDS, Built, build, check_same, halves
from support.built import PROGRAM
from support.documents import Strings, canonical_file
from support.files import mounts, names, shell, write
from support.large import LARGE, Files
from support.measuring import Meter
from support.program import BAD_OPTIONS, OUT_OF_MEMORY, WRITING_FAILED, Result, Word, hdt, run
from support.properties import examples
from test_build_inputs import HELP
from test_build_memory import SIZES
from test_merge import WITH_STRANGE, loose

NODE: Strings = (b"_:b", b"u:p", b"_:c")


def merge(folder: Path, *words: Word, stdin: bytes = b"") -> Built:
    """Merge with and without `--memory`: the result and the file are the same, and nothing else is there."""
    return check_same(folder, *words, stdin=stdin, command="merge")


@pytest.fixture
def two(tmp_path: Path) -> list[Path]:
    """Two files with a blank node of one label."""
    return write(tmp_path, [canonical_file([NODE, (b"u:%d" % it, b"u:p", b"u:o")]) for it in range(2)], ".hdt")


# ---- files


@examples(2)
@given(st.lists(st.lists(WITH_STRANGE, min_size=1, max_size=12, unique=True), min_size=1, max_size=12), st.randoms(),
       st.sampled_from(["one", "apart", None]), st.sampled_from([1, 2, 16, 65_535]), st.sampled_from(["u:b", "a:é"]))
def test_any_files(tmp_path_factory: pytest.TempPathFactory, parts: list[list[Strings]], draw: random.Random,
                   nodes: str | None, size: int, base: str) -> None:
    """Files of this tool and of others, with strings that are no terms, in any order and again, with any options."""
    folder = tmp_path_factory.mktemp("any")
    files = [loose(part, draw) if draw.random() < 0.4 else canonical_file(part, b"u:some", draw.choice([1, 2, 16]))
             for part in parts]
    paths = write(folder, [*files, draw.choice(files)], ".hdt")
    options = ["--block-size", str(size), "--base", base, *(["--blank-nodes", nodes] if nodes else [])]
    assert merge(folder, *options, *paths).result.status == 0
    assert merge(folder, *options, *paths[1:], "-", stdin=files[0]).result.status == 0


def many(count: int, start: int = 0) -> bytes:
    """A file of so many triples, whose predicates are strings that no triple before has."""
    return canonical_file([(b"_:%d" % (it // 3), b"p:%06d" % it, b'"%d"' % (it * 7_919 % count))
                           for it in range(start, start + count)])


@pytest.mark.parametrize("nodes", ["one", "apart"])
def test_more_than_100_000_triples(nodes: str, tmp_path: Path) -> None:
    """A file of many batches, among small ones, of which one has the same triples."""
    large = many(120_000)
    paths = write(tmp_path, [canonical_file([NODE]), large, many(10), canonical_file([NODE])], ".hdt")
    assert merge(tmp_path, "--blank-nodes", nodes, *paths).result.status == 0


@pytest.mark.slow
@pytest.mark.parametrize("kind", LINES_OF)
def test_many_batches(kind: str, large_files: Files, tmp_path: Path) -> None:
    """Files of many batches make the file of the document of which they have a half each."""
    merged = merge(tmp_path, *halves(large_files, kind))
    assert merged.result.status == 0
    assert merge(tmp_path, "--blank-nodes=apart", *halves(large_files, kind)).result.status == 0


@pytest.mark.slow
@pytest.mark.parametrize("name", LARGE)
def test_more_than_a_million_triples(name: str, large_files: Files, tmp_path: Path) -> None:
    """More than 2^20 triples and strings of a section, which are in both files."""
    it = LARGE[name]
    made = build(tmp_path, "--memory", "4M", *[large_files.file(it)] * 2, command="merge")
    counts = " ".join(map(str, [*it.counts, len(it.data)]))
    assert (made.result, made.names) == (Result(0, f"merged {counts}\n".encode(), b""), ["out.hdt"])
    assert made.file == it.data


def test_long_strings(tmp_path: Path) -> None:
    """Strings of a megabyte, with a long prefix in common, and one that is longer than the memory."""
    long = b"x" * MIB
    files = [[(b"u:%s%d" % (long, it), b"u:p", b'"%s%d"' % (long[it:], part)) for it in range(3)] for part in range(2)]
    files.append([(b"u:a", b"u:p", b'"%s"' % (b"y" * (9 * MIB)))])
    assert merge(tmp_path, *write(tmp_path, [canonical_file(it) for it in files], ".hdt")).result.status == 0


def test_long_prefixes(tmp_path: Path) -> None:
    """A small file whose strings have 36 MB, with a prefix in common."""
    triples = [(b"u:%s%06d" % (b"x" * 6_000, it), b"u:p", b"u:o") for it in range(6_000)]
    paths = write(tmp_path, [canonical_file(triples, block_size=65_535), canonical_file([NODE])], ".hdt")
    assert paths[0].stat().st_size < 100_000
    assert merge(tmp_path, *paths).result.status == 0


# ---- options


@pytest.mark.parametrize("size, is_taken", SIZES.items(), ids=SIZES)
def test_sizes(size: str, is_taken: bool, two: list[Path], tmp_path: Path) -> None:
    """A size is that of `build`; another text is a usage error before anything is read."""
    if is_taken:
        check_same(tmp_path, *two, memory=size, command="merge")
        return
    made = build(tmp_path / "out", f"--memory={size}", "missing.hdt", command="merge")
    assert (made.result.status, made.result.out, made.names, made.file) == (2, b"", ["out.hdt"], b"before")
    assert made.result.err.startswith(b"error: ") and b"--memory" in made.result.err and made.result.err.endswith(HELP)


BAD: list[list[Word]] = [["--memory"], ["--scratch", "."], ["--memory", "4M", "--memory", "4M"],
                         ["--memory", "4M", "--scratch"], ["--memory", "4M", "--blank-nodes", "both"]]


@pytest.mark.parametrize("options", BAD, ids=str)
def test_usage_errors(options: list[Word], tmp_path: Path) -> None:
    """What is wrong with a command line is found before anything is read."""
    made = build(tmp_path, "missing.hdt", *options, command="merge")
    assert (made.result.status, made.result.out, made.names, made.file) == (2, b"", ["out.hdt"], b"before")


def test_bad_options(two: list[Path], tmp_path: Path) -> None:
    """So are a block size and a base; without `--memory` the files are read before."""
    for options in (["--block-size", "0"], ["--block-size", "65536"], ["--base", "x"], ["--base="]):
        assert merge(tmp_path, *options, *two).result == BAD_OPTIONS
        made = build(tmp_path / "out", "--memory=4M", *options, "missing.hdt", command="merge")
        assert (made.result, made.file) == (BAD_OPTIONS, b"before")


# ---- outputs


def test_output_over_an_input(two: list[Path]) -> None:
    """OUT may be one of the files: it is replaced by another file."""
    assert hdt("merge", *two, two[0].parent / "wanted").status == 0
    before = two[1].stat().st_ino
    assert hdt("merge", "--memory", "4M", *two, two[1]).status == 0
    assert two[1].read_bytes() == (two[0].parent / "wanted").read_bytes()
    assert two[1].stat().st_ino != before and names(two[1].parent) == ["0.hdt", "1.hdt", "wanted"]


OUTPUTS: dict[str, str] = {
    "standard output": '"$0" merge --memory 4M --scratch . "$1" "$2" -',
    "a file as standard output": '"$0" merge --memory 4M --scratch . "$1" "$2" - > file && cat file',
    "a named pipe": 'mkfifo pipe; cat pipe & "$0" merge --memory 4M --scratch . "$1" "$2" pipe >&2; wait; rm pipe',
    "a new file": '"$0" merge --memory 4M "$1" "$2" file >&2 && cat file',
    "standard input": '"$0" merge --memory 4M - "$2" file >&2 < "$1" && cat file',
    "standard input and output": 'cat "$1" | "$0" merge --memory 4M --scratch . - "$2" - | cat',
}


@pytest.mark.parametrize("name", OUTPUTS)
def test_outputs(name: str, two: list[Path], tmp_path: Path) -> None:
    """The file goes where it goes without `--memory`, and so does the line of counts."""
    plain = build(tmp_path / "plain", *two, command="merge")
    (tmp_path / "folder").mkdir()
    assert shell(OUTPUTS[name], *two, cwd=tmp_path / "folder") == Result(0, plain.file, plain.result.out)
    assert names(tmp_path / "folder") in ([], ["file"])


def test_an_output_that_is_no_file(two: list[Path]) -> None:
    """Scratch files have no place beside a device or standard output: `--scratch` names one."""
    for out in ("/dev/null", "-"):
        seen = hdt("merge", "--memory", "4M", *two, out)
        assert (seen.status, seen.out, b"--scratch" in seen.err, seen.err.endswith(HELP)) == (2, b"", True, True)
    assert hdt("merge", "--memory", "4M", "--scratch", two[0].parent, *two, "/dev/full") == WRITING_FAILED
    assert names(two[0].parent) == ["0.hdt", "1.hdt"]


def test_output_into_an_input(two: list[Path]) -> None:
    """Standard output may be none of the files."""
    before = two[1].read_bytes()
    seen = shell('exec "$0" merge --memory 4M --scratch . "$1" "$2" - >> "$2"', *two, cwd=two[0].parent)
    assert (seen.status, b"are the same file" in seen.err, two[1].read_bytes() == before) == (2, True, True)


# ---- errors: as without `--memory`


def faulty(data: bytes) -> dict[str, bytes]:
    """Files with an error, by its kind."""
    return {"empty": b"", "cut": data[:-1], "longer": data + b"\0", "no file": b"<u:a> <u:p> <u:b> .\n" * 9,
            "gzip": b"\x1f\x8b\x08" + data, "changed": data[:-20] + bytes([data[-20] ^ 1]) + data[-19:],
            "head": data[:30]}


@pytest.mark.parametrize("verbose", [[], ["--verbose"]], ids=["brief", "verbose"])
@pytest.mark.parametrize("kind", faulty(bytes(30)))
@pytest.mark.parametrize("place", [0, 1, 2])
def test_invalid_files(kind: str, place: int, verbose: list[Word], two: list[Path], tmp_path: Path) -> None:
    """The first file that is not valid is named, with the first error in it, and its hints."""
    (tmp_path / "bad.hdt").write_bytes(faulty(two[0].read_bytes())[kind])
    paths: list[Word] = [*two, tmp_path / "missing.hdt"]
    paths.insert(place, "bad.hdt")
    made = merge(tmp_path, *verbose, *paths)
    assert (made.result.status, made.file) == (1, b"before")
    assert made.result.err.startswith(b"hdt: bad.hdt: fault ")


@pytest.mark.parametrize("place", [0, 1, 2])
@pytest.mark.parametrize("name", ["missing.hdt", ".", "", "0.hdt/more"])
def test_files_that_cannot_be_read(name: str, place: int, two: list[Path], tmp_path: Path) -> None:
    """A file that cannot be read is named."""
    paths: list[Word] = [*two]
    paths.insert(place, name)
    made = merge(tmp_path, *paths)
    assert (made.result.status, made.file) == (3, b"before")
    assert made.result.err.startswith(b"hdt: %s: reading failed\n" % name.encode())


def test_an_invalid_file_after_many_batches(two: list[Path], tmp_path: Path) -> None:
    """So it is if it comes after a file of many batches."""
    paths = write(tmp_path, [many(120_000), two[0].read_bytes()[:-1]], ".hdt")
    made = merge(tmp_path, *paths)
    assert (made.result.status, made.file) == (1, b"before")


def test_standard_input_twice(two: list[Path], tmp_path: Path) -> None:
    """The second time it is at its end, so it is no valid file."""
    made = merge(tmp_path, "-", "-", stdin=two[0].read_bytes())
    assert (made.result.status, made.file) == (1, b"before")


def test_outputs_that_cannot_be_written(two: list[Path]) -> None:
    """A file in a missing folder is no OUT, and a missing folder has no scratch files."""
    for words in ([""], ["missing/out.hdt"], ["0.hdt/out.hdt"], ["--scratch=missing", "out.hdt"]):
        assert run([PROGRAM, "merge", "--memory=4M", *two, *words], cwd=two[0].parent) == WRITING_FAILED
        assert names(two[0].parent) == ["0.hdt", "1.hdt"]


def test_a_full_file_system(tmp_path: Path) -> None:
    """On a full file system writing fails, of scratch files or of OUT, which stays what it was; or all has room."""
    namespace = mounts()
    paths = write(tmp_path, [many(120_000), many(120_000, 60_000)], ".hdt")
    (tmp_path / "disk").mkdir()
    script = ('mount -t tmpfs -o size="$1" tmpfs disk && printf before > disk/out.hdt || exit; '
              '"$0" merge --memory 4M "$2" "$3" disk/out.hdt 2>&1; echo $?; ls disk; head -c 6 disk/out.hdt')
    failed = rb"hdt: writing failed\n  [^\n]*: No space left on device\n3\nout.hdt\nbefore"
    merged = rb"merged [0-9 ]+\n0\nout.hdt\n\$HDT\x01."
    ends = []
    for size in ("16k", "1m", "4m", "16m", "128m"):
        seen = run([*namespace, "sh", "-c", script, PROGRAM, size, *paths], cwd=tmp_path, seconds=SECONDS)
        ends.append(next((it for it in (failed, merged) if re.fullmatch(it, seen.out)), seen.out))
    assert set(ends) == {failed, merged} and (ends[0], ends[-1]) == (failed, merged)


# ---- memory


def test_few_descriptors(tmp_path: Path) -> None:
    """One file at a time is open, beside a scratch file."""
    paths = write(tmp_path, [canonical_file([(b"u:%03d" % it, b"u:p", b"u:o")]) for it in range(100)], ".hdt")
    merged = merge(tmp_path, *paths)
    assert shell('ulimit -n 6; exec "$0" merge --memory 4M "$@"', *paths, tmp_path / "out.hdt") == merged.result
    assert (tmp_path / "out.hdt").read_bytes() == merged.file


@pytest.mark.slow
def test_memory_is_bounded(large_files: Files, tmp_path: Path) -> None:
    """What is asked of the allocator is about the memory that is given and the largest file, however many there are."""
    meter = Meter(tmp_path)
    paths = halves(large_files, "shuffled")
    for megabytes in (4, 16):
        for files in (paths, paths * 3):
            words: list[Word] = [PROGRAM, "merge", "--memory", f"{megabytes}M", "--blank-nodes=apart", *files]
            measured = meter.run([*words, tmp_path / "out.hdt"], cwd=tmp_path)
            assert measured.result.status == 0
            largest = max(os.path.getsize(path) for path in files)
            assert measured.most < megabytes * MIB * 1.25 + largest + MIB, (megabytes, len(files), measured.most)


@pytest.mark.slow
def test_a_million_triples_in_64_megabytes(large_files: Files, tmp_path: Path) -> None:
    """More than a million triples are merged where a process has 64 MB of addresses in all."""
    it, room = LARGE["shared"], 64_000_000
    (tmp_path / "out.hdt").write_bytes(b"before")
    inputs: list[Word] = [large_files.file(it)] * 2
    words: list[Word] = ["prlimit", f"--as={room}:{room}", "--", PROGRAM, "merge", *inputs, "out.hdt"]
    assert run(words, cwd=tmp_path, seconds=SECONDS) == OUT_OF_MEMORY
    assert (names(tmp_path), (tmp_path / "out.hdt").read_bytes()) == (["out.hdt"], b"before")
    seen = run([*words, "--memory", "8M"], cwd=tmp_path, seconds=SECONDS)
    assert (seen.status, seen.err, names(tmp_path)) == (0, b"", ["out.hdt"])
    assert (tmp_path / "out.hdt").read_bytes() == it.data
