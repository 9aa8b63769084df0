"""Where the program reads and writes: paths, kinds of files, standard streams, limits, full disks, ends midway."""

from __future__ import annotations

import fcntl
import itertools
import os
import re
import shutil
import signal
import socket
import subprocess
import tempfile
import time
from collections.abc import Iterator
from pathlib import Path
from typing import NamedTuple

import pytest

from support.built import PROGRAM, SAMPLES
from support.files import MAKERS, THREE, UNFINISHED, as_root, mounts, names, shell
from support.program import READING_FAILED, WRITING_FAILED, Result, Word, hdt, run

ONE_FILE = Result(2, b"", b"error: IN and OUT are the same file\n\nFor more information, try '--help'.\n")
# Paths of the standard output.
OUTPUTS = ("/dev/stdout", "/dev/fd/1", "/proc/self/fd/1", "-")


class Made(NamedTuple):
    """What a command makes of the three triples: its input, the file, and the line that it prints."""

    source: Path
    file: bytes
    line: bytes


@pytest.fixture(scope="module")
def made(tmp_path_factory: pytest.TempPathFactory) -> dict[str, Made]:
    """What each maker makes."""
    folder = tmp_path_factory.mktemp("made")
    built, rewritten = folder / "built.hdt", folder / "rewritten.hdt"
    lines = [hdt("build", THREE, built), hdt("rewrite", built, rewritten)]
    assert [(it.status, it.err) for it in lines] == [(0, b""), (0, b"")]
    assert built.read_bytes() == rewritten.read_bytes()
    return {"build": Made(THREE, built.read_bytes(), lines[0].out),
            "rewrite": Made(built, rewritten.read_bytes(), lines[1].out)}


# ---- closed descriptors

CLOSED = {0: "<&-", 1: ">&-", 2: "2>&-"}
READERS = {
    "head": ["head", "FILE"],
    "verify": ["verify", "FILE"],
    "strings": ["strings", "FILE", "object"],
    "string": ["string", "FILE", "object", "1"],
    "number": ["number", "FILE", "object", "<u:a>"],
    "find": ["find", "FILE", "?", "?", "?"],
    "dump": ["dump", "FILE"],
}


def closed(descriptor: int, *words: Word) -> Result:
    """Run the program with one of its standard descriptors closed."""
    return shell(f'exec "$0" "$@" {CLOSED[descriptor]}', *words)


@pytest.mark.parametrize("descriptor", CLOSED)
@pytest.mark.parametrize("command", MAKERS)
def test_making_with_a_closed_descriptor(command: str, descriptor: int, made: dict[str, Made], tmp_path: Path) -> None:
    """The file is whole and has nothing else in it; a line that cannot be printed is an error."""
    source, file, line = made[command]
    out = tmp_path / "out.hdt"
    out.write_bytes(b"what was there before")
    answer = closed(descriptor, command, source, out)
    assert (answer, out.read_bytes()) == (WRITING_FAILED if descriptor == 1 else Result(0, line, b""), file)


@pytest.mark.parametrize("descriptor", CLOSED)
def test_rewriting_in_place_with_a_closed_descriptor(descriptor: int, made: dict[str, Made], tmp_path: Path) -> None:
    """A file that is rewritten over itself is whole too."""
    own = tmp_path / "own.hdt"
    own.write_bytes((SAMPLES / "three.hdt").read_bytes())
    hdt("rewrite", SAMPLES / "three.hdt", tmp_path / "apart.hdt")
    answer = closed(descriptor, "rewrite", own, own)
    assert (answer.status, own.read_bytes()) == (3 if descriptor == 1 else 0, (tmp_path / "apart.hdt").read_bytes())


@pytest.mark.parametrize("descriptor", CLOSED)
@pytest.mark.parametrize("command", READERS)
def test_reading_with_a_closed_descriptor(command: str, descriptor: int, tmp_path: Path) -> None:
    """The file is read as usual and not changed; without standard output the answer is an error."""
    own = tmp_path / "own.hdt"
    own.write_bytes((SAMPLES / "three.hdt").read_bytes())
    words: list[Word] = [own if word == "FILE" else word for word in READERS[command]]
    usual = hdt(*words)
    assert usual.status == 0
    assert closed(descriptor, *words) == (WRITING_FAILED if descriptor == 1 else usual)
    assert own.read_bytes() == (SAMPLES / "three.hdt").read_bytes()


def test_reading_a_closed_standard_input() -> None:
    """A closed standard input is no file."""
    assert closed(0, "verify", "/dev/stdin") == READING_FAILED


# ---- paths

STRANGE_NAMES = (" blanks at its ends ", "file:", "a\nb", "--", "c.hdt ", "--base")
LIKE_ADDRESSES = ("http://three.hdt", "http://./three.hdt", "file://three.hdt")
# Each is the path of an output that can't be written.
NO_OUTPUTS = ("", ".", "missing/out.hdt")


@pytest.mark.parametrize("as_output", [True, False], ids=["out", "in"])
@pytest.mark.parametrize("name", STRANGE_NAMES)
def test_a_path_is_taken_as_it_is(name: str, as_output: bool, made: dict[str, Made], tmp_path: Path) -> None:
    """No path is trimmed, and none means a standard stream or an address."""
    source, out = (f"in{name}", name) if as_output else (name, f"out{name}")
    (tmp_path / source).write_bytes(THREE.read_bytes())
    built = run([PROGRAM, "build", "--", source, out], cwd=tmp_path)
    assert (built.status, built.err, (tmp_path / out).read_bytes()) == (0, b"", made["build"].file)
    assert run([PROGRAM, "verify", "--", out], cwd=tmp_path) == Result(0, b"ok 3 2 0 2 1\n", b"")
    rewritten = run([PROGRAM, "rewrite", "--", out, source], cwd=tmp_path)
    assert (rewritten.status, rewritten.err, (tmp_path / source).read_bytes()) == (0, b"", made["build"].file)
    assert names(tmp_path) == sorted([source, out])


@pytest.fixture
def addressed(tmp_path: Path, made: dict[str, Made]) -> Path:
    """A folder with a file, a document, and an empty folder whose name ends in a colon."""
    (tmp_path / "three.hdt").write_bytes(made["build"].file)
    (tmp_path / "three.nt").write_bytes(THREE.read_bytes())
    (tmp_path / "http:").mkdir()
    return tmp_path


@pytest.mark.parametrize("path", LIKE_ADDRESSES)
def test_a_path_like_an_address(path: str, addressed: Path) -> None:
    """What reads like an address is the path of a file in a folder whose name ends in a colon."""
    assert run([PROGRAM, "verify", "--", path], cwd=addressed) == READING_FAILED


def test_a_document_with_a_path_like_an_address(addressed: Path) -> None:
    """The same for an input of `build`."""
    before = names(addressed)
    assert run([PROGRAM, "build", "http://three.nt", "other.hdt"], cwd=addressed) == READING_FAILED
    assert names(addressed) == before


def test_a_file_in_a_folder_with_a_colon(addressed: Path) -> None:
    """There such a path is read."""
    (addressed / "http:/three.hdt").write_bytes((SAMPLES / "v1.hdt").read_bytes())
    assert run([PROGRAM, "verify", "http://three.hdt"], cwd=addressed) == Result(0, b"ok 1 1 0 1 0\n", b"")


@pytest.mark.parametrize("out", NO_OUTPUTS)
@pytest.mark.parametrize("words, answer", [
    (["build", "missing.nt"], READING_FAILED),
    (["build", THREE], WRITING_FAILED),
    (["rewrite", "missing.hdt"], READING_FAILED),
    (["rewrite", SAMPLES / "three.hdt"], WRITING_FAILED),
], ids=["build-missing", "build", "rewrite-missing", "rewrite"])
def test_an_output_that_cannot_be_written(words: list[Word], answer: Result, out: str, tmp_path: Path) -> None:
    """An input that cannot be read is reported first. A missing folder is not made."""
    assert run([PROGRAM, *words, out], cwd=tmp_path) == answer
    assert names(tmp_path) == []


# ---- kinds of output files


@pytest.mark.parametrize("kind", ["soft", "hard"])
@pytest.mark.parametrize("command", MAKERS)
def test_an_output_that_is_a_link(command: str, kind: str, made: dict[str, Made], tmp_path: Path) -> None:
    """A symbolic link is followed and stays; other hard links of the file keep what they had."""
    source, file, line = made[command]
    own, link = tmp_path / "own.hdt", tmp_path / "link.hdt"
    own.write_bytes(b"before")
    if kind == "soft":
        link.symlink_to(own)
    else:
        os.link(own, link)
    assert hdt(command, source, link) == Result(0, line, b"")
    after = link.read_bytes(), own.read_bytes(), link.is_symlink(), own.samefile(link)
    assert after == ((file, file, True, True) if kind == "soft" else (file, b"before", False, False))


@pytest.mark.parametrize("command", MAKERS)
def test_an_output_that_is_a_socket(command: str, made: dict[str, Made], tmp_path: Path) -> None:
    """A socket is no output, and stays. (Its path is short, as the system demands it.)"""
    with socket.socket(socket.AF_UNIX) as listener, tempfile.TemporaryDirectory() as folder:
        at = Path(folder) / "socket"
        listener.bind(os.fsencode(at))
        assert hdt(command, made[command].source, at) == WRITING_FAILED
        assert at.is_socket() and names(at.parent) == ["socket"]


@pytest.mark.parametrize("command", MAKERS)
def test_an_output_that_is_a_named_pipe(command: str, made: dict[str, Made], tmp_path: Path) -> None:
    """The program waits until another one opens the pipe for reading, and writes the file into it."""
    source, file, line = made[command]
    pipe = tmp_path / "pipe"
    os.mkfifo(pipe)
    with subprocess.Popen([PROGRAM, command, source, pipe], stdin=subprocess.DEVNULL, stdout=subprocess.PIPE,
                          stderr=subprocess.PIPE) as program:
        time.sleep(0.3)
        assert program.poll() is None
        read = pipe.read_bytes()
        out, err = program.communicate(timeout=60)
    assert (program.returncode, out, err, read, pipe.is_fifo()) == (0, line, b"", file, True)


def test_a_named_pipe_with_a_reader(tmp_path: Path) -> None:
    """A pipe that another program reads already is written and stays."""
    pipe = tmp_path / "pipe"
    os.mkfifo(pipe)
    with subprocess.Popen(["cat", pipe], stdout=subprocess.PIPE) as reader:
        answer = hdt("build", "--base", "http://a/", THREE, pipe)
        read = reader.communicate(timeout=60)[0]
    assert (answer, read) == (Result(0, b"built 3 2 0 2 1 457\n", b""), (SAMPLES / "three.hdt").read_bytes())
    assert pipe.is_fifo() and names(tmp_path) == ["pipe"]


# ---- an output that is the standard output


@pytest.fixture
def one(tmp_path: Path) -> Path:
    """A folder with an empty output, a symbolic link to it and another hard link."""
    folder = tmp_path / "one"
    folder.mkdir()
    (folder / "out.hdt").write_bytes(b"")
    (folder / "soft.hdt").symlink_to(folder / "out.hdt")
    os.link(folder / "out.hdt", folder / "hard.hdt")
    return folder


PATHS_OF_OUT = (*OUTPUTS, "out.hdt", "soft.hdt", "hard.hdt", "../one/out.hdt")
# How the shell redirects the outputs, what the output file has before and after (FILE is the file that is made), the
# exit status, and whether the line comes out on standard error.
REDIRECTIONS = {
    "replacing": ('> out.hdt', b"before", b"FILE", 0, True),
    "appending": ('>> out.hdt', b"before", b"beforeFILE", 0, True),
    "replacing, errors too": ('> out.hdt 2>&1', b"", b"FILE", 0, False),
    "appending, errors too": ('>> out.hdt 2>&1', b"x", b"xFILE", 0, False),
    "over less": ('1<> out.hdt', b"before", b"FILE", 0, True),
    "over more": ('1<> out.hdt', b"", b"FILEbehind", 0, True),
    "errors to a full disk": ('> out.hdt 2> /dev/full', b"", b"FILE", 3, False),
    "errors closed": ('> out.hdt 2>&-', b"", b"FILE", 3, False),
}


@pytest.mark.parametrize("redirection", REDIRECTIONS)
@pytest.mark.parametrize("path", PATHS_OF_OUT)
@pytest.mark.parametrize("command", MAKERS)
def test_one_output(command: str, path: str, redirection: str, made: dict[str, Made], one: Path) -> None:
    """Where OUT is the standard output, the file and nothing else comes out there, and the line on standard error."""
    source, file, line = made[command]
    redirected, before, after, status, printed = REDIRECTIONS[redirection]
    (one / "out.hdt").write_bytes(b"x" * len(file) + b"behind" if redirection == "over more" else before)
    answer = shell(f'"$0" {command} "$1" "$2" {redirected}', source, path, cwd=one)
    assert answer == Result(status, b"", line if printed else b"")
    assert (one / "out.hdt").read_bytes() == after.replace(b"FILE", file)
    assert names(one) == ["hard.hdt", "out.hdt", "soft.hdt"]


@pytest.mark.parametrize("path", OUTPUTS)
@pytest.mark.parametrize("command", MAKERS)
def test_an_output_that_is_no_file(command: str, path: str, made: dict[str, Made]) -> None:
    """The standard output as a pipe, a pipe for errors too, a full disk, closed; and an input that is missing."""
    source, file, line = made[command]
    assert hdt(command, source, path) == Result(0, file, line)
    assert shell('"$0" "$1" "$2" "$3" 2>&1 | cat', command, source, path) == Result(0, file, b"")
    assert shell('exec "$0" "$1" "$2" "$3" > /dev/full', command, source, path) == WRITING_FAILED
    assert closed(1, command, source, path) == WRITING_FAILED
    assert hdt(command, source.parent / "missing", path) == READING_FAILED


@pytest.mark.parametrize("command", MAKERS)
def test_a_file_named_like_a_stream(command: str, made: dict[str, Made], tmp_path: Path) -> None:
    """`./-` is a file with the name `-`, not a standard stream."""
    source, file, line = made[command]
    assert shell('"$0" "$1" "$2" ./-', command, source, cwd=tmp_path) == Result(0, line, b"")
    assert ((tmp_path / "-").read_bytes(), names(tmp_path)) == (file, ["-"])
    assert shell('"$0" verify ./- < /dev/null', cwd=tmp_path) == Result(0, b"ok 3 2 0 2 1\n", b"")


@pytest.mark.parametrize("command", MAKERS)
def test_a_file_like_the_standard_output(command: str, made: dict[str, Made], one: Path) -> None:
    """Another file with the same bytes is another file: it gets the file, and the standard output the line."""
    source, file, line = made[command]
    (one / "apart.hdt").write_bytes(b"")
    assert shell('"$0" "$1" "$2" apart.hdt > out.hdt', command, source, cwd=one) == Result(0, b"", b"")
    assert ((one / "out.hdt").read_bytes(), (one / "apart.hdt").read_bytes()) == (line, file)


def test_rewriting_what_is_appended_to(made: dict[str, Made], tmp_path: Path) -> None:
    """IN and OUT may be one file, but not if the standard output is this file, too, which would be appended to."""
    own = tmp_path / "own.hdt"
    own.write_bytes(made["rewrite"].file)
    answer = shell('"$0" rewrite own.hdt own.hdt >> own.hdt', cwd=tmp_path)
    assert (answer.status, answer.out, own.read_bytes()) == (2, b"", made["rewrite"].file)


# ---- a limit on the size of files


class Limited(NamedTuple):
    """An input, the file that a command makes of it, and its line."""

    words: tuple[Word, ...]
    file: bytes
    line: bytes


@pytest.fixture(scope="module")
def limited(tmp_path_factory: pytest.TempPathFactory) -> dict[str, Limited]:
    """A document of 1,000 triples, and the file of it."""
    folder = tmp_path_factory.mktemp("limited")
    document, file, again = folder / "many.nt", folder / "many.hdt", folder / "again.hdt"
    document.write_bytes(b"".join(b"<u:s%d> <u:p> <u:o%d> .\n" % (n, n) for n in range(1_000)))
    lines = [hdt("build", document, file).out, hdt("rewrite", file, again).out]
    return {"build": Limited(("build", document), file.read_bytes(), lines[0]),
            "rewrite": Limited(("rewrite", file), again.read_bytes(), lines[1])}


@pytest.mark.parametrize("ignored", [False, True], ids=["by signal", "ignored"])
@pytest.mark.parametrize("size", [0, 1, 512, -1, None])
@pytest.mark.parametrize("command", MAKERS)
def test_a_limit_on_files(command: str, size: int | None, ignored: bool, limited: dict[str, Limited],
                          tmp_path: Path) -> None:
    """Past the limit the system ends the program by a signal; where that is ignored, writing fails.

    Either way OUT is what it was. What was written of the new file stays beside OUT only where a signal ended the
    program. A limit of exactly the size of the file is enough.
    """
    words, file, line = limited[command]
    limit = len(file) if size is None else size % len(file)
    out = tmp_path / "out.hdt"
    out.write_bytes(b"before")
    script = f'{"trap" if ignored else ":"} "" XFSZ; exec prlimit --fsize={limit}:{limit} -- "$0" "$@"'
    answer = shell(script, *words, out)
    after = {it.name: it.read_bytes() for it in tmp_path.iterdir()}
    if size is None:
        assert (answer, after) == (Result(0, line, b""), {"out.hdt": file})
    elif ignored:
        assert (answer, after) == (WRITING_FAILED, {"out.hdt": b"before"})
    else:
        assert (answer, after.pop("out.hdt")) == (Result(-signal.SIGXFSZ, b"", b""), b"before")
        assert list(after.values()) == [file[:limit]] and UNFINISHED.fullmatch(next(iter(after)))


@pytest.mark.parametrize("command", MAKERS)
def test_ulimit(command: str, limited: dict[str, Limited], tmp_path: Path) -> None:
    """The same by the shell's own limit, over a whole file."""
    words, file, _ = limited[command]
    out = tmp_path / "out.hdt"
    out.write_bytes(file)
    answer = shell('ulimit -f 1; exec "$0" "$@"', *words, out)
    assert (answer, out.read_bytes()) == (Result(-signal.SIGXFSZ, b"", b""), file)
    left, other = names(tmp_path)
    assert UNFINISHED.fullmatch(left) and other == "out.hdt"


def test_the_help_names_the_signal() -> None:
    """The help says what ends the program at a limit."""
    assert b"SIGXFSZ" in hdt("--help").out


# ---- several programs at once, and programs that are ended midway


def test_builds_at_once(tmp_path: Path) -> None:
    """Eight builds of one OUT at once all succeed; in the end OUT is the whole file of one. Nothing else is left."""
    files = []
    for n in range(8):
        lines = b"".join(b"<u:s%d> <u:p%d> <u:o> .\n" % (m, n) for m in range(2_000))
        (tmp_path / f"{n}.nt").write_bytes(lines)
        assert hdt("build", tmp_path / f"{n}.nt", tmp_path / f"{n}.hdt").status == 0
        files.append((tmp_path / f"{n}.hdt").read_bytes())
    out = tmp_path / "out.hdt"
    for turn in range(5):
        programs = [subprocess.Popen([PROGRAM, "build", tmp_path / f"{n}.nt", out], stdout=subprocess.PIPE)
                    for n in range(8)]
        ends = [(it.communicate(timeout=60)[0][:11], it.returncode) for it in programs]
        assert (turn, ends) == (turn, [(b"built 2000 ", 0)] * 8)
        assert out.read_bytes() in files
    assert names(tmp_path) == sorted([f"{n}.{kind}" for n in range(8) for kind in ("nt", "hdt")] + ["out.hdt"])


@pytest.mark.parametrize("command", MAKERS)
def test_killed_midway(command: str, tmp_path: Path) -> None:
    """A program that is killed at any moment leaves OUT as it was or whole, and the next run replaces it."""
    document, source, whole, out = (tmp_path / name for name in ("in.nt", "in.hdt", "whole.hdt", "out.hdt"))
    document.write_bytes(b"".join(b"<u:s%05d> <u:p> <u:o%05d> .\n" % (n, n * 7 % 20_011) for n in range(20_000)))
    hdt("build", document, source)
    words: list[Word] = [PROGRAM, command, document if command == "build" else source]
    start = time.monotonic()
    assert run([*words, whole]).status == 0
    taken = time.monotonic() - start
    wanted, turns, ends = whole.read_bytes(), 40, set()
    for turn in range(turns):
        out.write_bytes(b"before")
        with subprocess.Popen(list(map(os.fsencode, (*words, out))), stdout=subprocess.DEVNULL) as program:
            time.sleep(taken * 1.2 * turn / turns)
            program.kill()
        ends.add(program.returncode)
        assert (turn, out.read_bytes() in (b"before", wanted)) == (turn, True)
        assert program.returncode in (0, -signal.SIGKILL)
        if program.returncode == 0:
            assert out.read_bytes() == wanted
    assert -signal.SIGKILL in ends
    assert run([*words, out]).status == 0
    assert out.read_bytes() == wanted


# ---- file systems of one's own


@pytest.fixture(scope="module")
def filling(tmp_path_factory: pytest.TempPathFactory) -> Path:
    """A folder with a document whose file has more than 64 KiB, and that file."""
    folder = tmp_path_factory.mktemp("filling")
    lines = (b'<u:s%d> <u:p> "%032x" .\n' % (n, pow(3, n, 2 ** 127 - 1)) for n in range(4_000))
    (folder / "in.nt").write_bytes(b"".join(lines))
    assert hdt("build", folder / "in.nt", folder / "in.hdt").status == 0
    assert (folder / "in.hdt").stat().st_size > 1 << 16
    return folder


@pytest.mark.parametrize("command", MAKERS)
def test_a_full_file_system(command: str, filling: Path, tmp_path: Path) -> None:
    """On a full file system writing fails, OUT stays what it was, and nothing is left beside it.

    The file system is mounted in a namespace of its own, which ends with the shell.
    """
    namespace = mounts()
    mount = 'mount -t tmpfs -o size=64k tmpfs "$1"'
    source = filling / ("in.nt" if command == "build" else "in.hdt")
    script = f'{mount}; out="$1/out.hdt"; printf before > "$out"; "$0" "$2" "$3" "$out"; echo $?; ls "$1"; cat "$out"'
    answer = run([*namespace, "sh", "-c", script, PROGRAM, tmp_path, command, source])
    assert answer == Result(0, b"3\nout.hdt\nbefore", WRITING_FAILED.err)


# Two file systems in which the files `in` and `out` have the same number.
TWINS = """
for part in a b; do
    mkdir "$1/$part" && mount -t tmpfs tmpfs "$1/$part" || exit 99
done
cp "$2" "$1/a/in" && printf before > "$1/b/out" || exit 99
[ "$(stat -c %i "$1/a/in")" = "$(stat -c %i "$1/b/out")" ] || exit 98
"""


@pytest.mark.parametrize("command", MAKERS)
def test_two_files_of_one_number(command: str, made: dict[str, Made], tmp_path: Path) -> None:
    """Files of one number in two file systems are two files: as IN and OUT, and as standard output and OUT."""
    namespace, (source, file, line) = mounts(), made[command]
    (tmp_path / "wanted").write_bytes(file)
    as_files = f'{TWINS}"$0" {command} "$1/a/in" "$1/b/out" && cmp "$1/b/out" "$1/wanted"'
    as_output = f'{TWINS}"$0" {command} "$2" "$1/b/out" > "$1/a/in" && cmp "$1/b/out" "$1/wanted" && cat "$1/a/in"'
    for script in (as_files, as_output):
        answer = run([*namespace, "sh", "-c", script, PROGRAM, tmp_path, source])
        if answer.status == 98:
            pytest.skip("file systems that number files otherwise")
        assert answer == Result(0, line, b"")
        (tmp_path / "a").rmdir()
        (tmp_path / "b").rmdir()


# ---- an output that is the input


@pytest.fixture
def own(tmp_path: Path) -> Path:
    """A document that isn't N-Triples, with a symbolic link to it and another hard link."""
    (tmp_path / "own.nt").write_bytes(b"no triple\n")
    (tmp_path / "soft.nt").symlink_to("own.nt")
    os.link(tmp_path / "own.nt", tmp_path / "hard.nt")
    return tmp_path


# How the shell calls `build` with IN and OUT the same file.
OVER_ITSELF = [
    '"$0" build own.nt own.nt',
    '"$0" build own.nt soft.nt',
    '"$0" build soft.nt own.nt',
    '"$0" build hard.nt own.nt',
    '"$0" build own.nt --progress ./own.nt',
    '"$0" build /dev/stdin own.nt < own.nt',
    '"$0" build /proc/self/fd/0 soft.nt < own.nt',
    '"$0" build /dev/fd/7 own.nt 7< own.nt',
    '"$0" build own.nt /dev/stdout >> own.nt',
    '"$0" build /dev/stdin /dev/stdout < own.nt >> own.nt',
]


@pytest.mark.parametrize("script", OVER_ITSELF)
def test_a_document_is_not_built_over(script: str, own: Path) -> None:
    """A build over its own input is a wrong command line, before the input is read, whose fault would be told else."""
    assert shell(script, cwd=own) == ONE_FILE
    assert ((own / "own.nt").read_bytes(), names(own)) == (b"no triple\n", ["hard.nt", "own.nt", "soft.nt"])


@pytest.fixture
def block_device(tmp_path: Path) -> Iterator[Path]:
    """A block device with a document. Skips the test if none may be made here."""
    image = tmp_path / "image"
    image.write_bytes(THREE.read_bytes().ljust(1 << 20, b"\n"))
    if not shutil.which("losetup"):
        pytest.skip("there is no losetup")
    made = run(["losetup", "--find", "--show", image])
    if made.status != 0:
        pytest.skip("no loop device may be made here")
    device = Path(os.fsdecode(made.out.strip()))
    yield device
    assert run(["losetup", "--detach", device]).status == 0


@as_root
@pytest.mark.parametrize("script", [
    '"$0" build "$1" "$1"',
    '"$0" build "$1" link',
    '"$0" build link "$1"',
    '"$0" build - "$1" < "$1"',
    '"$0" build /dev/stdin link < link',
    '"$0" build "$1" - >> "$1"',
    '"$0" build "$1" /dev/stdout 1<> link',
])
def test_a_document_on_a_block_device_is_not_built_over(script: str, block_device: Path, made: dict[str, Made],
                                                        tmp_path: Path) -> None:
    """A block device keeps bytes: a build over the document on it is a wrong command line, and changes nothing."""
    (tmp_path / "link").symlink_to(block_device)
    before = block_device.read_bytes()
    assert shell(script, block_device, cwd=tmp_path) == ONE_FILE
    assert block_device.read_bytes() == before
    assert hdt("build", block_device, tmp_path / "out.hdt") == Result(0, made["build"].line, b"")
    assert (tmp_path / "out.hdt").read_bytes() == made["build"].file
    assert hdt("build", THREE, block_device) == Result(0, made["build"].line, b"")
    assert block_device.is_block_device() and block_device.read_bytes().startswith(made["build"].file)


def test_a_build_from_a_device_into_it() -> None:
    """A device keeps no bytes, so none are lost."""
    assert hdt("build", "/dev/null", "/dev/null") == Result(1, b"", b"hdt: no triples\n")


def test_one_socket_for_both_streams(made: dict[str, Made]) -> None:
    """A socket is read and written: what is written isn't what is read."""
    here, there = socket.socketpair()
    with here, there:
        here.sendall(THREE.read_bytes())
        here.shutdown(socket.SHUT_WR)
        built = subprocess.run([PROGRAM, "build", "/dev/stdin", "/dev/stdout"], stdin=there.fileno(),
                               stdout=there.fileno(), stderr=subprocess.PIPE, timeout=60)
        there.close()
        with here.makefile("rb") as answer:
            assert (built.returncode, answer.read()) == (0, made["build"].file)


# ---- standard input by its path

INPUTS = ("/dev/stdin", "/dev/fd/0", "/proc/self/fd/0", "-")


class Reading(NamedTuple):
    """A command on its standard input, what stands there, and how the command ends (it may make `out.hdt`)."""

    words: tuple[str, ...]
    stdin: bytes
    wanted: Result


def hdt_on(descriptor: int, *words: str) -> Result:
    """Run the program with this standard input."""
    ended = subprocess.run([PROGRAM, *words], stdin=descriptor, capture_output=True, timeout=60)
    return Result(ended.returncode, ended.stdout, ended.stderr)


def reading(path: str, made: dict[str, Made], out: str) -> list[Reading]:
    """Commands that read the file at this path."""
    file = made["rewrite"].file
    return [
        Reading(("build", path, out), THREE.read_bytes(), Result(0, made["build"].line, b"")),
        Reading(("rewrite", path, out), file, Result(0, made["rewrite"].line, b"")),
        Reading(("verify", path), file, Result(0, b"ok 3 2 0 2 1\n", b"")),
        Reading(("find", path, "?", "?", "?", "--count"), file, Result(0, b"3\n", b"")),
    ]


@pytest.mark.parametrize("path", INPUTS)
def test_standard_input_that_is_a_socket(path: str, made: dict[str, Made], tmp_path: Path) -> None:
    """A socket can't be opened by a path, and is read all the same."""
    for words, data, wanted in reading(path, made, os.fspath(tmp_path / "out.hdt")):
        here, there = socket.socketpair()
        with here, there:
            here.sendall(data)
            here.shutdown(socket.SHUT_WR)
            assert (words, hdt_on(there.fileno(), *words)) == (words, wanted)


@as_root
@pytest.mark.parametrize("path", INPUTS)
def test_standard_input_that_is_the_pipe_of_another_user(path: str, made: dict[str, Made], public_folder: Path) -> None:
    """Nor can the pipe of another user."""
    shutil.copy(PROGRAM, public_folder / "hdt")
    public_folder.chmod(0o777)
    for words, data, wanted in reading(path, made, os.fspath(public_folder / "out.hdt")):
        as_nobody = ["setpriv", "--reuid=65534", "--clear-groups", "--"]
        assert (words, run([*as_nobody, public_folder / "hdt", *words], stdin=data)) == (words, wanted)


@pytest.mark.parametrize("path", INPUTS)
def test_standard_input_from_where_it_stands(path: str, made: dict[str, Made], tmp_path: Path) -> None:
    """A file is read from where its descriptor stands."""
    for words, data, wanted in reading(path, made, os.fspath(tmp_path / "out.hdt")):
        (tmp_path / "in").write_bytes(b"before" + data)
        with open(tmp_path / "in", "rb") as source:
            os.lseek(source.fileno(), 6, os.SEEK_SET)
            assert (words, hdt_on(source.fileno(), *words)) == (words, wanted)


def test_streams_that_do_not_wait(tmp_path: Path) -> None:
    """A stream that is set not to wait and would have to is reading or writing that failed."""
    reader, writer = os.pipe()
    fcntl.fcntl(reader, fcntl.F_SETFL, os.O_NONBLOCK)
    assert hdt_on(reader, "verify", "/dev/stdin") == READING_FAILED
    (tmp_path / "many.nt").write_bytes(b"".join(b"<u:s%d> <u:p> <u:o> .\n" % n for n in range(10_000)))
    assert hdt("build", tmp_path / "many.nt", tmp_path / "many.hdt").status == 0
    fcntl.fcntl(writer, fcntl.F_SETFL, os.O_NONBLOCK)
    ended = subprocess.run([PROGRAM, "dump", tmp_path / "many.hdt"], stdout=writer, stderr=subprocess.PIPE, timeout=60)
    assert (ended.returncode, ended.stderr) == (3, WRITING_FAILED.err)
    os.close(reader)
    os.close(writer)


# ---- closed streams and few descriptors

STREAMS = [set(it) for count in range(4) for it in itertools.combinations((0, 1, 2), count)]
FILE = os.fspath(SAMPLES / "three.hdt")
# Commands by name: the words, and what is printed of them.
TOUCHING: dict[str, tuple[list[str], bytes]] = {
    "version": (["--version"], b"hdt 1.1.0\n"),
    "verify": (["verify", "FILE"], b"ok 3 2 0 2 1\n"),
    "find": (["find", "FILE", "?", "?", "?", "--count"], b"3\n"),
    "build": (["build", "--base", "http://a/", "IN", "OUT"], b"built 3 2 0 2 1 457\n"),
    "answer": (["answer", "FILE", "--count"], b"3\n\n"),
    "stdin": (["verify", "/dev/stdin"], b""),
}


def touched(name: str, closed_ones: set[int], descriptors: int | None, folder: str, *before: Word) -> Result:
    """Run a command on the files of a folder, with these streams closed and this limit of descriptors."""
    names_of = {"FILE": "three.hdt", "IN": "three.nt", "OUT": "out/new.hdt"}
    words = [f"{folder}/{names_of[word]}" if word in names_of else word for word in TOUCHING[name][0]]
    closing = " ".join(CLOSED[it] for it in sorted(closed_ones))
    limit = [] if descriptors is None else ["prlimit", f"--nofile={descriptors}:{descriptors}", "--"]
    return run(["sh", "-c", f'exec "$0" "$@" {closing}', *limit, *before, *words], stdin=b"? ? ?\n")


def wanted_of(name: str, closed_ones: set[int], descriptors: int | None) -> Result:
    """How such a command ends: a file needs a descriptor beside the three."""
    opens = name not in ("version", "stdin")
    out, err, status = TOUCHING[name][1], b"", 0
    if opens and descriptors == 3 or 0 in closed_ones and name in ("answer", "stdin"):
        out, err, status = b"", READING_FAILED.err, 3
    elif name == "stdin":
        out, err, status = b"", b"hdt: fault 4 NotHdt at 0\n", 1
    elif 1 in closed_ones:
        out, err, status = b"", b"hdt: writing failed\n" if name == "version" else WRITING_FAILED.err, 3
    return Result(status, out, b"" if 2 in closed_ones else err)


@pytest.fixture
def touching(public_folder: Path) -> Path:
    """A folder with the three triples as a document and as a file, and one in which everyone may make a file."""
    shutil.copy(THREE, public_folder / "three.nt")
    shutil.copy(FILE, public_folder / "three.hdt")
    (public_folder / "out").mkdir()
    (public_folder / "out").chmod(0o777)
    return public_folder


def assert_all_touch(folder: Path, descriptors: int | None, *before: Word, at: str | None = None) -> None:
    """Each command ends as it should, with any of the streams closed, and makes the file that it should."""
    for closed_ones, name in itertools.product(STREAMS, TOUCHING):
        if descriptors == 3 and not closed_ones:
            continue  # (then the C library can't be loaded)
        case = sorted(closed_ones), name
        ended = touched(name, closed_ones, descriptors, os.fspath(folder) if at is None else at, *before)
        assert (case, ended) == (case, wanted_of(name, closed_ones, descriptors))
        made = {it.name: it.read_bytes() for it in (folder / "out").iterdir()}
        is_made = name == "build" and descriptors != 3
        assert (case, made) == (case, {"new.hdt": (folder / "three.hdt").read_bytes()} if is_made else {})
        if is_made:
            (folder / "out/new.hdt").unlink()


@pytest.mark.parametrize("descriptors", [None, 3, 4, 5, 6, 7, 8])
def test_closed_streams_and_few_descriptors(descriptors: int | None, touching: Path) -> None:
    """A closed stream fails where it is used, and never meets a file; one descriptor beside the three is enough."""
    assert_all_touch(touching, descriptors, PROGRAM)


@as_root
def test_an_unreadable_root(touching: Path) -> None:
    """The same below a root folder that can't be read, without /proc and /dev."""
    libraries = re.findall(r"(/\S+) \(0x", run(["ldd", PROGRAM]).out.decode())
    for path in (PROGRAM, *map(Path, libraries)):
        inside = touching / ("hdt" if path == PROGRAM else os.fspath(path)[1:])
        inside.parent.mkdir(parents=True, exist_ok=True)
        shutil.copy(path, inside)
    touching.chmod(0o711)
    assert_all_touch(touching, None, "chroot", "--userspec=65534:65534", touching, "/hdt", at="")
