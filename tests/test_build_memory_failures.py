"""`build` and `merge --memory`, if the program is ended midway, scratch files are altered, or a call or memory fails.

OUT is what it was, or whole. Scratch files are gone at the end, and if another program alters one meanwhile, that is an
error.
"""

from __future__ import annotations

import itertools
import os
import random
import shutil
import signal
import stat
import subprocess
import time
from collections.abc import Callable
from pathlib import Path
from typing import NamedTuple

import pytest

from support.build_memory import Documents, Running, build, halves
from support.built import PROGRAM
from support.documents import canonical_file
from support.files import THREE, UNFINISHED, names, write
from support.large import Files
from support.program import OUT_OF_MEMORY, WRITING_FAILED, Result, Word, hdt, run
from support.system_calls import Caller
from test_build_inputs import LINES, NODES

DAMAGED = Result(3, b"", b"hdt: scratch file damaged\n")


# ---- scratch files, and programs that are ended midway


class Sample(NamedTuple):
    """A command and its inputs of many batches, the new file, how the run ends, and the seconds that it takes."""

    command: str
    inputs: list[Path]
    file: bytes
    result: Result
    seconds: float

    def start(self, folder: Path, *options: Word) -> Running:
        """Start the run."""
        return Running(folder, *options, *self.inputs, command=self.command)


@pytest.fixture(scope="module", params=["build", "merge"])
def sample(request: pytest.FixtureRequest, large_files: Files, tmp_path_factory: pytest.TempPathFactory) -> Sample:
    """The document of people, or the files of its halves."""
    folder, command = tmp_path_factory.mktemp("sample"), request.param
    whole = Documents(large_files).path("people")
    inputs = [whole] if command == "build" else halves(large_files, "people")
    plain = build(folder, *inputs, command=command)
    start = time.monotonic()
    little = build(folder, "--memory", "4M", *inputs, command=command)
    assert little == plain and little.result.status == 0
    assert little.file == build(folder, whole).file
    return Sample(command, inputs, plain.file, plain.result, time.monotonic() - start)


@pytest.mark.parametrize("where", ["beside", "beside, by a link", "scratch"])
def test_scratch_files(where: str, sample: Sample, tmp_path: Path) -> None:
    """They are in a folder that only its owner can open, beside OUT or in that of `--scratch`, and gone at the end."""
    folder, other = tmp_path / "out", tmp_path / "other"
    folder.mkdir()
    other.mkdir()
    options: list[Word] = ["--scratch", other] if where == "scratch" else []
    running = sample.start(folder, *options)
    if where == "beside, by a link":
        assert running.end() == sample.result
        (other / "link.hdt").symlink_to(running.out)
        words: list[Word] = [PROGRAM, sample.command, "--memory", "4M", *sample.inputs, other / "link.hdt"]
        running.program = subprocess.Popen([os.fsencode(word) for word in words], stdout=subprocess.PIPE,
                                           stderr=subprocess.PIPE)
    parent = other if where == "scratch" else folder
    while not (found := running.scratch(parent)):
        assert running.program.poll() is None
        time.sleep(0.001)
    assert running.stop()
    found = running.scratch(parent)
    modes = {stat.S_IMODE(it.lstat().st_mode) for it in found}
    made = found[0].parent
    assert (modes, stat.S_IMODE(made.stat().st_mode)) == ({0o600}, 0o700) and UNFINISHED.fullmatch(made.name)
    running.resume()
    assert running.end() == sample.result
    assert (running.out.read_bytes(), names(folder)) == (sample.file, ["out.hdt"])
    assert names(other) == (["link.hdt"] if where == "beside, by a link" else [])


@pytest.mark.slow
def test_killed_midway(sample: Sample, tmp_path: Path) -> None:
    """A run that is killed at any moment leaves OUT as it was or whole, and scratch files under a name of theirs."""
    turns, ends, left = 40, set(), set()
    for turn in range(turns):
        running = sample.start(tmp_path)
        time.sleep(sample.seconds * 1.1 * turn / turns)
        running.program.kill()
        ends.add(running.end().status)
        assert (turn, running.out.read_bytes() in (b"before", sample.file)) == (turn, True)
        for name in set(names(tmp_path)) - {"out.hdt"}:
            assert UNFINISHED.fullmatch(name)
            left.add(name)
            it = tmp_path / name
            it.unlink() if it.is_file() else shutil.rmtree(it)
    assert -signal.SIGKILL in ends and left


def flip(path: Path) -> None:
    """Change each byte of a file."""
    path.write_bytes(path.read_bytes().translate(bytes(it ^ 0x55 for it in range(256))))


def flip_one(path: Path) -> None:
    """Change one bit of a file."""
    data = bytearray(path.read_bytes())
    if data:
        at = random.Random(len(data)).randrange(len(data))
        data[at] ^= 1 << at % 8
        path.write_bytes(data)


def swap_halves(path: Path) -> None:
    """Write the halves of a file the other way round."""
    data = path.read_bytes()
    path.write_bytes(data[len(data) // 2:] + data[:len(data) // 2])


def cut(path: Path) -> None:
    """Cut a file short."""
    os.truncate(path, path.stat().st_size // 2)


def lengthen(path: Path) -> None:
    """Write something behind a file."""
    with open(path, "ab") as file:
        file.write(b"\0" * 100)


def zero(path: Path) -> None:
    """Fill a file with zeros."""
    path.write_bytes(bytes(path.stat().st_size))


ALTERATIONS: dict[str, Callable[[Path], object]] = {
    "each byte": flip, "one bit": flip_one, "halves": swap_halves, "cut": cut, "longer": lengthen, "zeros": zero,
    "emptied": lambda path: path.write_bytes(b""), "removed": Path.unlink,
}


@pytest.mark.slow
@pytest.mark.parametrize("name", ALTERATIONS)
def test_altered_scratch_files(name: str, sample: Sample, tmp_path: Path) -> None:
    """If another program alters scratch files, that is an error, or the file is right; it is never another one."""
    turns, damaged = 16, 0
    for turn in range(turns):
        running = sample.start(tmp_path)
        time.sleep(sample.seconds * (turn + 0.5) / turns)
        altered = 0
        if running.stop():
            for path in running.scratch():
                ALTERATIONS[name](path)
                altered += 1
            running.resume()
        end, file = running.end(), running.out.read_bytes()
        assert (turn, file in (b"before", sample.file)) == (turn, True)
        if end.status == 0:
            assert (end, file) == (sample.result, sample.file)
        else:
            removed = name == "removed" and end.status == 3 and b"ing failed\n" in end.err
            assert removed or end == DAMAGED, (turn, end)
            assert file == b"before" and altered
            damaged += 1
        assert names(tmp_path) == ["out.hdt"]
    assert damaged > 0 or name == "longer"


@pytest.mark.slow
def test_another_folder_in_its_place(sample: Sample, batches: Documents, tmp_path: Path) -> None:
    """Scratch files of another build in the place of these are damage, too."""
    other = tmp_path / "other"
    other.mkdir()
    (other / "in.nt").write_bytes(batches.path("people").read_bytes().replace(b"a", b"b"))
    (tmp_path / "one").mkdir()
    pair = [sample.start(tmp_path / "one"), Running(other, other / "in.nt")]
    time.sleep(sample.seconds / 2)
    if all([it.stop() for it in pair]):
        for path, from_other in zip(*(it.scratch() for it in pair)):
            path.write_bytes(from_other.read_bytes())
    for it in pair:
        it.resume()
    assert pair[1].end().status == 0
    assert pair[0].end() in (DAMAGED, sample.result)
    assert pair[0].out.read_bytes() in (b"before", sample.file)


# ---- each system call and each allocation


class Small(NamedTuple):
    """A command with its inputs, how it ends, and the new file."""

    words: list[Word]
    result: Result
    file: bytes


@pytest.fixture(scope="module", params=["build", "merge"])
def small(request: pytest.FixtureRequest, tmp_path_factory: pytest.TempPathFactory) -> Small:
    """The three triples, or two files with a blank node of one label."""
    folder = tmp_path_factory.mktemp("small")
    words: list[Word] = [THREE]
    if request.param == "merge":
        words = [*(folder / f"{number}.hdt" for number in range(2)), "--blank-nodes", "apart"]
        for number in range(2):
            (folder / f"{number}.hdt").write_bytes(canonical_file([(b"_:b", b"u:p", b"u:%d" % number)]))
    plain = build(folder / "out", *words, command=request.param)
    return Small([PROGRAM, request.param, "--memory", "4M", *words], plain.result, plain.file)


@pytest.fixture(scope="module")
def caller(tmp_path_factory: pytest.TempPathFactory) -> Caller:
    """Makes system calls fail."""
    return Caller(tmp_path_factory.mktemp("caller"))


def test_each_call_fails(caller: Caller, small: Small, tmp_path: Path) -> None:
    """If a call fails, OUT is old or new, never else; only what could not be removed is left."""
    out = tmp_path / "out.hdt"
    command: list[Word] = [*small.words, out]
    statuses = set()
    for number in itertools.count(1):
        out.write_bytes(b"before")
        calls = caller.run(command, failing=number)
        statuses.add(calls.result.status)
        assert (calls.result.status, out.read_bytes()) in ((0, small.file), (3, b"before"), (3, small.file)), calls
        for name in set(names(tmp_path)) - {"out.hdt"}:
            assert UNFINISHED.fullmatch(name) and calls.made[number - 1] in ("unlink", "rmdir"), calls
            it = tmp_path / name
            it.unlink() if it.is_file() else shutil.rmtree(it)
        if len(calls.made) < number:
            break
    assert statuses == {0, 3}


def test_names_that_are_taken(caller: Caller, small: Small, tmp_path: Path) -> None:
    """If a name is taken, another one is tried, but not for ever."""
    command: list[Word] = [*small.words, tmp_path / "out.hdt"]
    assert caller.run(command, taken=3).result == small.result
    (tmp_path / "out.hdt").unlink()
    assert (caller.run(command, taken=-1).result, names(tmp_path)) == (WRITING_FAILED, [])


@pytest.mark.parametrize("name", ["build", "merge"])
def test_refused_allocations(name: str, caller: Caller, tmp_path: Path) -> None:
    """If memory runs out at any allocation, that is the error, OUT is as it was, and nothing is left beside it."""
    paths = write(tmp_path, [b"\n".join(LINES + NODES), b"\n".join(NODES)])
    if name == "merge":
        for path in paths:
            assert hdt("build", path, path.with_suffix(".hdt")).status == 0
        paths = [path.with_suffix(".hdt") for path in paths]
    folder = tmp_path / "out"
    folder.mkdir()
    out = folder / "out.hdt"
    command: list[Word] = [PROGRAM, name, "--memory", "4M", *paths, out, "--blank-nodes", "apart"]
    assert run(command).status == 0
    wanted, failures, refused = out.read_bytes(), [], 0
    for number in itertools.count(1):
        out.write_bytes(b"before")
        calls = caller.run(command, refused=number)
        if "refused" not in calls.made:
            break
        file, left = out.read_bytes(), set(names(folder)) - {"out.hdt"}
        refused += calls.result.status == 4
        is_right = calls.result == OUT_OF_MEMORY and file == b"before" or calls.result.status == 0 and file == wanted
        if not is_right or left:
            failures.append((number, calls.result, len(file), left))
        for name in left:
            shutil.rmtree(folder / name)
    assert failures == [] and refused > 20


@pytest.mark.slow
def test_too_little_memory(sample: Sample, tmp_path: Path) -> None:
    """Where a process has less, memory runs out, or the file is right; there is never another end."""
    statuses = set()
    for megabytes in itertools.count(3):
        room = megabytes * 1_000_000
        (tmp_path / "out.hdt").write_bytes(b"before")
        words: list[Word] = [PROGRAM, sample.command, "--memory", "16M", *sample.inputs, tmp_path / "out.hdt"]
        seen, file = run(["prlimit", f"--as={room}:{room}", "--", *words]), (tmp_path / "out.hdt").read_bytes()
        if (seen.status, file) == (127, b"before"):
            continue  # (the program can't start)
        assert (megabytes, seen, file == sample.file) in (
            (megabytes, OUT_OF_MEMORY, False), (megabytes, sample.result, True))
        assert names(tmp_path) == ["out.hdt"]
        statuses.add(seen.status)
        if seen.status == 0:
            break
    assert statuses == {0, 4}
