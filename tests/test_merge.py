"""Merging files: the canonical file of all their triples, whatever the files look like, in any order."""

from __future__ import annotations

import os
import random
from collections.abc import Iterator, Sequence
from pathlib import Path

import pytest
from hypothesis import given
from hypothesis import strategies as st

from reference import hdt as reference
from support.built import PROGRAM, SAMPLES
from support.documents import DEFAULT_BASE, THREE, Strings, canonical_file, document, printed
from support.program import Result, Word, brief, failed, hdt, run
from support.refusing import Refuser
from support.timing import is_linear, measure, timed

NAMES = [*(b"u:%c" % it for it in b"abcdef"), b"u:" + b"x" * 50, b"u:" + b"x" * 300, b"_:b", b"_:b1", "u:é".encode()]
PREDICATES = [b"u:a", b"u:p", b"u:q", b"u:" + b"x" * 50]
LITERALS = [b'"x"', b'"x"@en', b'"x"^^<u:t>', b'""', '"€"'.encode(), b'"' + b"long " * 100 + b'"']
TRIPLES = st.tuples(st.sampled_from(NAMES), st.sampled_from(PREDICATES), st.sampled_from(NAMES + LITERALS))


def check_merge(folder: Path, files: Sequence[bytes], triples: Sequence[Strings], *options: Word,
                base: bytes = DEFAULT_BASE, size: int = 16) -> None:
    """Check that the files are merged to the canonical file of these triples, and what is printed."""
    paths = [folder / f"{number}.hdt" for number in range(len(files))]
    for path, data in zip(paths, files):
        path.write_bytes(data)
    wanted, out = canonical_file(triples, base, size), folder / "out.hdt"
    assert hdt("merge", *paths, out, *options) == printed("merged", triples, len(wanted))
    assert out.read_bytes() == wanted


def loose(triples: Sequence[Strings], draw: random.Random) -> bytes:
    """A file of another tool: with strings that no triple uses, wide numbers and another base."""
    roles = [{triple[role] for triple in triples} for role in range(3)]
    for role, more in zip(roles[1:], (PREDICATES, NAMES + LITERALS)):
        role.update(draw.sample(more, draw.randrange(len(more))))
    roles[0].add(b"v:zzz")
    subjects, predicates, objects = roles
    size, width = draw.choice([1, 3, 16]), draw.choice([61, 64])
    return bytes(reference.loose(triples, subjects, predicates, objects, b"u:foreign", size, width).data)


# ---- what is merged

@given(st.lists(st.lists(TRIPLES, min_size=1, max_size=12, unique=True), min_size=1, max_size=12), st.randoms())
def test_any_files(tmp_path_factory: pytest.TempPathFactory, parts: list[list[Strings]], draw: random.Random) -> None:
    """Files of this tool and of others, in any order and again, have the triples of all."""
    folder = tmp_path_factory.mktemp("merge")
    files = [loose(part, draw) if draw.random() < 0.4 else canonical_file(part, b"u:some", draw.choice([1, 2, 16]))
             for part in parts]
    union = [triple for part in parts for triple in part]
    size = draw.choice([1, 16, 65_535])
    check_merge(folder, files, union, "--block-size", str(size), size=size)
    draw.shuffle(files)
    check_merge(folder, [*files, files[0]], union)


# Strings of files of other tools: `_`, `_b` and `_.b` aren't blank nodes, but `_:` without a label is taken as one.
STRANGE = [b"_", b"_b", b"_.b", b"_:", b"_:f0_b", b"no term"]
WITH_STRANGE = st.tuples(st.sampled_from(NAMES + STRANGE), st.sampled_from(PREDICATES + [b"_:b", b"_b"]),
                         st.sampled_from(NAMES + LITERALS + STRANGE))


def renamed(triple: Strings, number: int) -> Strings:
    """A triple with the prefix of the file with this number before the labels of its blank nodes."""
    s, p, o = (b"_:f%d_" % number + it[2:] if it.startswith(b"_:") else it for it in triple)
    return s, p, o


@given(st.lists(st.lists(WITH_STRANGE, min_size=1, max_size=12, unique=True), min_size=1, max_size=12), st.randoms())
def test_blank_nodes_apart(tmp_path_factory: pytest.TempPathFactory, parts: list[list[Strings]],
                           draw: random.Random) -> None:
    """With `apart` each string that begins with `_:` gets the prefix of its file, and no other string."""
    folder = tmp_path_factory.mktemp("merge")
    files = [loose(part, draw) if draw.random() < 0.4 else canonical_file(part, b"u:some", draw.choice([1, 2, 16]))
             for part in parts]
    union = [renamed(triple, number) for number, part in enumerate(parts) for triple in part]
    check_merge(folder, files, union, "--blank-nodes", "apart")
    check_merge(folder, files, [triple for part in parts for triple in part], "--blank-nodes=one")


@given(st.lists(st.lists(TRIPLES, min_size=1, max_size=12), min_size=1, max_size=12))
def test_apart_as_built(tmp_path_factory: pytest.TempPathFactory, parts: list[list[Strings]]) -> None:
    """Merging files apart is building the documents that they are dumped to apart."""
    folder = tmp_path_factory.mktemp("merge")
    files = [folder / f"{number}.hdt" for number in range(len(parts))]
    for path, part in zip(files, parts):
        path.write_bytes(canonical_file(part))
        path.with_suffix(".nt").write_bytes(hdt("dump", path).out)
    built, merged = folder / "built.hdt", folder / "merged.hdt"
    assert hdt("build", "--blank-nodes", "apart", *(it.with_suffix(".nt") for it in files), built).status == 0
    assert hdt("merge", "--blank-nodes", "apart", *files, merged).status == 0
    assert merged.read_bytes() == built.read_bytes()


def test_base_and_rewriting(tmp_path: Path) -> None:
    """`--base` is that of the new file. One file is merged to what `build` makes of its triples."""
    data = canonical_file(THREE, b"http://other/", 2)
    check_merge(tmp_path, [data], THREE, "--base", "http://a/", base=b"http://a/")
    check_merge(tmp_path, [data, data, data], THREE)


COUNT = 150_000


def many() -> Iterator[Strings]:
    """Triples with more than 2^17 strings in each role."""
    for it in range(COUNT):
        yield b"s:%06d" % it, b"p:%06d" % (it * 7 % COUNT), b"o:%06d" % (it * 13 % COUNT)


def test_many_strings(tmp_path: Path) -> None:
    """Merging files is building their lines together, with many strings in each role."""
    lines = [document([triple]) for triple in many()]
    texts = [b"".join(lines), *(b"".join(lines[part::3]) for part in range(3)), b"".join(lines[:COUNT // 2])]
    for number, text in enumerate(texts):
        (tmp_path / "in.nt").write_bytes(text)
        assert hdt("build", tmp_path / "in.nt", tmp_path / f"{number}.hdt").status == 0
    whole, *parts = [tmp_path / f"{number}.hdt" for number in range(len(texts))]
    assert hdt("merge", *parts, tmp_path / "out.hdt").status == 0
    assert (tmp_path / "out.hdt").read_bytes() == whole.read_bytes()


def test_long_prefixes(tmp_path: Path) -> None:
    """Files of some 35 KB whose strings have 72 MB, with a prefix in common, are merged in 48 MiB."""
    lines = [[b"<u:%s%06d> <u:p> <u:o> .\n" % (b"x" * 6_000, 2 * it + part) for it in range(6_000)]
             for part in range(2)]
    whole, *parts = [tmp_path / f"{number}.hdt" for number in range(3)]
    documents = [lines[0] + lines[1], lines[0], lines[1]]
    for path, text in zip([whole, *parts], documents):
        (tmp_path / "in.nt").write_bytes(b"".join(text))
        assert hdt("build", "--block-size", "65535", tmp_path / "in.nt", path).status == 0
    limited = ["prlimit", f"--as={48 << 20}:{48 << 20}", "--", PROGRAM]
    assert run([*map(str, limited), "merge", "--block-size", "65535", *parts, tmp_path / "out.hdt"]).status == 0
    assert (tmp_path / "out.hdt").read_bytes() == whole.read_bytes()


def test_many_files(tmp_path: Path) -> None:
    """One file at a time is open."""
    paths = [tmp_path / f"{number}.hdt" for number in range(100)]
    for number, path in enumerate(paths):
        path.write_bytes(canonical_file([(b"u:%03d" % number, b"u:p", b"u:o")]))
    command = 'ulimit -n 6; exec "$@"'
    assert run(["sh", "-c", command, "sh", PROGRAM, "merge", *paths, tmp_path / "out.hdt"]).status == 0
    union = [(b"u:%03d" % it, b"u:p", b"u:o") for it in range(100)]
    assert (tmp_path / "out.hdt").read_bytes() == canonical_file(union)


# ---- files and outputs

@pytest.fixture
def two(tmp_path: Path) -> list[Path]:
    """Two files, of a triple each."""
    for number in range(2):
        (tmp_path / f"{number}.hdt").write_bytes(canonical_file([(b"u:%d" % number, b"u:p", b"u:o")]))
    return [tmp_path / f"{number}.hdt" for number in range(2)]


BOTH: list[Strings] = [(b"u:0", b"u:p", b"u:o"), (b"u:1", b"u:p", b"u:o")]
MERGED = canonical_file(BOTH)


def test_output_over_an_input(two: list[Path]) -> None:
    """OUT may be one of the files: it is replaced by another file."""
    before = two[1].stat().st_ino
    assert hdt("merge", *two, two[1]).status == 0
    assert two[1].read_bytes() == MERGED
    assert two[1].stat().st_ino != before


def test_standard_streams(two: list[Path]) -> None:
    """A file from standard input, and the new one to standard output, its line to standard error."""
    line = printed("merged", BOTH, len(MERGED)).out
    assert hdt("merge", "-", two[1], "-", stdin=two[0].read_bytes()) == Result(0, MERGED, line)


def test_output_into_an_input(two: list[Path]) -> None:
    """Standard output may be none of the files."""
    for path in two:
        with path.open("ab") as out:
            result = run(["sh", "-c", 'exec "$0" merge "$1" "$2" - >> "$3"', PROGRAM, *two, path])
        assert (result.status, b"are the same file" in result.err, out.closed) == (2, True, True)
    assert [path.read_bytes() for path in two] == [canonical_file([it]) for it in BOTH]


def unchanged(two: list[Path], wanted: Result, *words: Word) -> None:
    """Check that a merge fails like this, and leaves OUT and the folder as they were."""
    out = two[0].parent / "out.hdt"
    out.write_bytes(b"as it was")
    names = sorted(os.listdir(two[0].parent))
    assert brief(hdt("merge", *words, out)) == brief(wanted)
    assert (out.read_bytes(), sorted(os.listdir(two[0].parent))) == (b"as it was", names)


@pytest.mark.parametrize("place", [0, 1])
def test_invalid_files(two: list[Path], place: int) -> None:
    """The first invalid file is named, with the first error in it."""
    two[place].write_bytes(two[place].read_bytes()[:-1])
    verified = hdt("verify", two[place]).err.removeprefix(b"hdt: ")
    unchanged(two, Result(1, b"", b"hdt: %s: %s" % (bytes(two[place]), verified)), *two)


def test_missing_files(two: list[Path]) -> None:
    """A file that isn't there is named."""
    missing = two[0].parent / "missing.hdt"
    wanted = b"hdt: %s: reading failed\n  %s: No such file or directory\n" % (bytes(missing), bytes(missing))
    unchanged(two, Result(3, b"", wanted), two[0], missing)
    unchanged(two, Result(3, b"", wanted), missing, two[0])


def test_invalid_options(two: list[Path]) -> None:
    """A base that isn't an absolute IRI, and a block size of 0."""
    unchanged(two, failed(2, "bad options"), *two, "--base", "no")
    unchanged(two, failed(2, "bad options"), *two, "--block-size", "0")


def test_invalid_word(two: list[Path]) -> None:
    """A value of `--blank-nodes` that is neither `one` nor `apart` is an error of usage."""
    result = hdt("merge", *two, two[0].parent / "out.hdt", "--blank-nodes", "two")
    assert (result.status, result.out) == (2, b"")
    assert result.err.startswith(b"error: the value of --blank-nodes is one or apart\n")
    assert not (two[0].parent / "out.hdt").exists()


def test_no_output() -> None:
    """A file alone is an error of usage."""
    result = hdt("merge", SAMPLES / "v1.hdt")
    assert (result.status, result.out, b"OUT is missing" in result.err) == (2, b"", True)


def test_refused_allocations(two: list[Path], tmp_path: Path) -> None:
    """With each allocation refused in turn, OUT is as it was, or new; with blank nodes kept apart, too."""
    out = tmp_path / "out.hdt"
    command: list[Word] = [PROGRAM, "merge", *two, out]
    node: Strings = (b"_:b", b"u:p", b"_:c")
    (tmp_path / "node.hdt").write_bytes(canonical_file([node]))
    apart: list[Word] = [PROGRAM, "merge", *[tmp_path / "node.hdt"] * 2, out, "--blank-nodes=apart"]
    for words, wanted in ((command, MERGED), (apart, canonical_file([renamed(node, 0), renamed(node, 1)]))):
        ample, ends = Refuser(tmp_path).run_long(words)
        assert (ample.status, out.read_bytes()) == (0, wanted)
        assert {it.status for it in ends} <= {0, 4}
        assert sum(it.status == 4 for it in ends) > 20


# ---- time

@pytest.mark.parametrize("kind", ["apart", "equal", "one subject"])
def test_time_is_linear(kind: str, tmp_path: Path) -> None:
    """Sixteen times as many triples take at most 32 times as long: in turn, the same, or all of one subject."""
    def files(count: int) -> list[Path]:
        paths = [tmp_path / f"{count}-{number}.hdt" for number in range(4)]
        for number, path in enumerate(paths):
            step, start = {"apart": (4, number), "equal": (1, 0), "one subject": (0, 0)}[kind]
            text = b"".join(b"<u:%07d> <u:p> <o:%07d> .\n" % (step * it + start, it * 4 + number)
                            for it in range(count))
            (tmp_path / "in.nt").write_bytes(text)
            assert hdt("build", tmp_path / "in.nt", path).status == 0
        return paths

    def seconds(paths: Sequence[Path]) -> float:
        taken = timed([PROGRAM, "merge", *paths, tmp_path / "out.hdt"])
        assert taken.result.status == 0
        return taken.seconds

    few, lots = files(3_000), files(48_000)
    measured = measure(lambda: seconds(few), lambda: seconds(lots), 32, 0.004)
    assert is_linear(measured, 32, 0.004), measured
