"""`hdt.build(.., memory=)` and `python3 -m hdt build --memory`: the same files and errors as without it."""

from __future__ import annotations

import errno
import gzip
import io
import os
import pickle
import re
import shutil
import signal
import stat
import subprocess
import sys
import tempfile
import threading
import time
import tracemalloc
from contextlib import suppress
from pathlib import Path
from typing import Any, Optional

import pytest
from hypothesis import given
from hypothesis import strategies as st

from support import program
from support.built import PROGRAM, SAMPLES
from support.formats import BASE, LINES, TURTLE, built, children, command, fails, fake, needs, stand_in
from support.program import run
from support.properties import examples
from support.python_package import ENVIRONMENT, hdt

THREE = SAMPLES / "three.nt"
LEAST = 4 * 1024 * 1024
GOOD = [b"<u:a> <u:p> <u:b> .", b'<u:a> <u:p> "x\\n"@en . # again', b"_:b <u:p> _:c .", b"", b"# nothing"]
TEXTS = st.lists(st.sampled_from([*GOOD, b"x", b"<a> <u:p> <u:b> .", b"\xff", b"<u:a> <u:p> <u:b>"]), max_size=5)


def outcome(inputs: Any, out: Path, **options: Any) -> tuple[object, ...]:
    """What a build returns, and the file that it makes; or its exception and what that says of the place."""
    out.unlink(missing_ok=True)
    try:
        return hdt.build(inputs, out, **options), out.read_bytes()
    except ValueError as error:
        assert not out.exists()
        places = [getattr(error, name, None) for name in ("path", "reason", "name", "line", "column")]
        return type(error), str(error), error.args, *places


# ---- what is built

@examples(4)
@given(TEXTS, st.integers(1, 40), st.none() | st.integers(0, 30), st.sampled_from(["u:base", None, "rel"]))
def test_any_text(tmp_path_factory: pytest.TempPathFactory, lines: list[bytes], size: int, longest: Optional[int],
                  base: Optional[str]) -> None:
    """A text has the same file, counts or error with a little memory: as a path, as an open file, or twice."""
    folder = tmp_path_factory.mktemp("text")
    path, out = folder / "text.nt", folder / "out.hdt"
    data = b"\n".join(lines)
    path.write_bytes(data)
    options: dict[str, Any] = {"block_size": size, "longest_line": longest, "base": base}
    for times in (1, 2):
        for inputs in (path, [path] * times):
            assert outcome(inputs, out, **options, memory=LEAST) == outcome(inputs, out, **options)
        once, again = ([io.BytesIO(data) for _ in range(times)] for _ in range(2))
        assert outcome(once, out, **options, memory=LEAST) == outcome(again, out, **options)
    assert sorted(os.listdir(folder)) in (["out.hdt", "text.nt"], ["text.nt"])


INPUTS = {"Turtle": "a.ttl", "compressed": "a.nt.gz", "a folder": "folder", "several": ["a.ttl", "a.nt.gz", "folder"]}


@pytest.mark.parametrize("name", INPUTS)
def test_each_input(name: str, tmp_path: Path) -> None:
    """Other inputs become N-Triples first, as ever; then their file is that of a build in memory."""
    needs("serdi")
    (tmp_path / "a.ttl").write_text(TURTLE)
    (tmp_path / "a.nt.gz").write_bytes(gzip.compress(LINES.encode() + b"_:b <u:p> _:b .\n"))
    (tmp_path / "folder").mkdir()
    (tmp_path / "folder/b.nt").write_text(LINES + "_:b <u:p> _:c .\n")
    names = INPUTS[name]
    given = tmp_path / names if isinstance(names, str) else [tmp_path / it for it in names]
    more: list[dict[str, Any]] = [{}, {"largest_text": 10_000}, {"progress": lambda *_: None}]
    for options in more:
        triples = built(tmp_path, given, base=BASE, **options)
        wanted = (tmp_path / "built.hdt").read_bytes()
        assert built(tmp_path, given, base=BASE, memory="4M", **options) == triples
        assert (tmp_path / "built.hdt").read_bytes() == wanted


def test_triples(tmp_path: Path) -> None:
    """Triples are an input, too: a hundred thousand, with a long string, in memory that they don't fit into."""
    triples = [(f"u:{n * 7919 % 100_000}", "u:p", f'"{n}"') for n in range(100_000)]
    triples.append(("u:s", "u:p", f'"{"x" * 10**6}"'))
    counts = hdt.build(triples, tmp_path / "one.hdt")
    assert hdt.build(triples, tmp_path / "other.hdt", memory=LEAST) == counts
    assert (tmp_path / "one.hdt").read_bytes() == (tmp_path / "other.hdt").read_bytes()


def test_memory_of_python(tmp_path: Path, large_document: Path) -> None:
    """A text of 58 MB takes next to no memory of this process, as a path and as one that is read in pieces."""
    given: list[Any] = [large_document, [large_document]]
    for inputs in given:
        tracemalloc.start()
        assert hdt.build(inputs, tmp_path / "out.hdt", memory="4M").triples == 1
        most = tracemalloc.get_traced_memory()[1]
        tracemalloc.stop()
        assert most < 8 * 1024 * 1024


SIZES: list[tuple[Any, Optional[type[Exception]]]] = [
    (LEAST, None), ("4194304", None), ("4096K", None), ("4M", None), ("1G", None), ("0" * 30 + "4M", None),
    (LEAST - 1, ValueError), (0, ValueError), (-LEAST, ValueError), (2**64, ValueError), (True, ValueError),
    ("4194303", ValueError), ("3M", ValueError), ("4m", ValueError), ("4MB", ValueError), ("4 M", ValueError),
    ("-4M", ValueError), ("4.5M", ValueError), ("", ValueError), ("M", ValueError), ("4M\n", ValueError),
    ("٤M", ValueError), ("18446744073709551616", ValueError), ("17179869184G", ValueError), ("9" * 5_000, ValueError),
    (4.0 * LEAST, TypeError), (b"4M", TypeError), ([4], TypeError)]


@pytest.mark.parametrize("size, error", SIZES, ids=[repr(size)[:20] for size, _ in SIZES])
def test_sizes(size: Any, error: Optional[type[Exception]], tmp_path: Path) -> None:
    """A size is a number of bytes, or a text as the command takes it; others are refused before anything is read."""
    if error is None:
        assert hdt.build(THREE, tmp_path / "out.hdt", memory=size).triples == 3
    else:
        fails(tmp_path, tmp_path / "missing.nt", error, memory=size)


def test_refused_together(tmp_path: Path) -> None:
    """There is no header with memory, and no scratch without it."""
    headers: list[dict[str, Any]] = [{"header": "# here"}, {"metadata": {"title": "A"}}, {"header": ""}]
    for options in headers:
        assert "rewrite" in fails(tmp_path, THREE, ValueError, memory="4M", **options)
    assert "scratch" in fails(tmp_path, THREE, ValueError, scratch=tmp_path)
    with pytest.raises(TypeError):
        hdt.build(THREE, tmp_path / "new.hdt", memory="4M", scratch=1.0)  # type: ignore[arg-type]


# ---- the output

def test_replaced_whole(tmp_path: Path) -> None:
    """The file is a new one with the old one's permissions, also through a link; other links keep the old one."""
    out, link, other = (tmp_path / name for name in ("out.hdt", "soft.hdt", "hard.hdt"))
    out.write_bytes(b"before")
    out.chmod(0o640)
    os.link(out, other)
    link.symlink_to(out.name)
    hdt.build(THREE, link, memory="4M", base="http://a/")
    assert (out.read_bytes(), other.read_bytes()) == ((SAMPLES / "three.hdt").read_bytes(), b"before")
    assert link.is_symlink() and stat.S_IMODE(out.stat().st_mode) == 0o640
    assert sorted(os.listdir(tmp_path)) == ["hard.hdt", "out.hdt", "soft.hdt"]


@pytest.mark.parametrize("mask, mode", [(0o022, 0o644), (0o077, 0o600), (0, 0o666)])
def test_permissions_of_a_new_file(mask: int, mode: int, tmp_path: Path) -> None:
    """A new file has the permissions that the mask leaves."""
    before = os.umask(mask)
    try:
        hdt.build(THREE, tmp_path / "new.hdt", memory="4M")
    finally:
        os.umask(before)
    assert stat.S_IMODE((tmp_path / "new.hdt").stat().st_mode) == mode


def test_strange_names(tmp_path: Path, monkeypatch: pytest.MonkeyPatch) -> None:
    """A name means no option, standard stream or number."""
    monkeypatch.chdir(tmp_path)
    for name in ("-", "--base", "a\nb", " "):
        Path(f"{name}.nt").write_bytes(THREE.read_bytes())
        assert hdt.build(f"{name}.nt", name, memory="4M", scratch=".").triples == 3
        assert hdt.verify(name).triples == 3
    assert len(os.listdir(tmp_path)) == 8


def test_a_device_or_a_pipe(tmp_path: Path) -> None:
    """These are written to, by way of a file in a folder for scratch files, and stay."""
    pipe, got = tmp_path / "pipe", []
    os.mkfifo(pipe)
    for scratch in (None, tmp_path):
        reader = threading.Thread(target=lambda: got.append(pipe.read_bytes()))
        reader.start()
        hdt.build(THREE, pipe, base="http://a/", memory="4M", scratch=scratch)
        reader.join()
    assert got == [(SAMPLES / "three.hdt").read_bytes()] * 2 and pipe.is_fifo()
    hdt.build([THREE, THREE], "/dev/null", memory="4M")
    with pytest.raises(OSError) as full:
        hdt.build(THREE, "/dev/full", memory="4M")
    assert full.value.errno == errno.ENOSPC and os.listdir(tmp_path) == ["pipe"]


def test_input_is_not_replaced(tmp_path: Path) -> None:
    """An output that is an input is refused."""
    text = tmp_path / "text.nt"
    text.write_bytes(THREE.read_bytes())
    both: list[Any] = [text, [THREE, text]]
    for inputs in both:
        with pytest.raises(ValueError, match="one file"):
            hdt.build(inputs, text, memory="4M")
    assert text.read_bytes() == THREE.read_bytes()


# ---- scratch files and errors

@pytest.mark.parametrize("out", ["out/new.hdt", "/dev/null"])
@pytest.mark.parametrize("inputs", ["one", "several"])
def test_folders(inputs: str, out: str, tmp_path: Path, monkeypatch: pytest.MonkeyPatch) -> None:
    """The program's output is in a new folder beside OUT, and scratch files there or in one of `scratch`.

    If OUT is a device, the first folder is where scratch files are, too.
    """
    told, other, default = tmp_path / "told", tmp_path / "scratch", tmp_path / "default"
    for folder in (other, default, tmp_path / "out"):
        folder.mkdir()
    monkeypatch.setattr(tempfile, "tempdir", str(default))
    script = f'stat -c "%a %n" "$scratch" "${{out%/*}}" >> {told}; echo x > "$scratch/0"; mkdir "$scratch/1"\n'
    stand_in(tmp_path, monkeypatch, f'{script}exec {PROGRAM} build - "$out" --base u:x')
    is_device = out == "/dev/null"
    for scratch, folders in ((None, ["default"] * 2 if is_device else ["out"] * 2),
                             (other, ["scratch", "scratch" if is_device else "out"])):
        told.write_text("")
        source: Any = THREE if inputs == "one" else [THREE, THREE]
        assert hdt.build(source, tmp_path / out, memory="4M", scratch=scratch).triples == 3
        pattern = "".join(f"700 {tmp_path / it}/hdt-unfinished-[0-9a-f]{{16}}\n" for it in folders)
        assert re.fullmatch(pattern, told.read_text())
    assert os.listdir(other) == os.listdir(default) == []
    assert os.listdir(tmp_path / "out") == ([] if is_device else ["new.hdt"])


def says(text: str, status: int) -> str:
    """A script that says a text on standard error, and ends with a status."""
    return f"printf '{text}' >&2; exit {status}"


ERRORS: dict[str, tuple[str, type[BaseException], str]] = {
    "memory": (says("hdt: out of memory\\n", 4), MemoryError, ""),
    "damaged": (says("hdt: scratch file damaged\\n", 3), OSError, "scratch file damaged: 'OUT'"),
    "full": (says("hdt: writing failed\\n  /x: y/0: No space left on device\\n", 3), OSError,
             "[Errno 28] No space left on device: 'OUT'"),
    "not permitted": (says("hdt: writing failed\\n  /x: Permission denied\\n", 3), PermissionError, "'OUT'"),
    "not read": (says("hdt: reading failed\\n  -: Input/output error\\n", 3), OSError,
                 "[Errno 5] Input/output error: 'IN'"),
    "scratch not read": (says("hdt: reading failed\\n  /x/hdt: Input/output error\\n", 3), OSError,
                         "[Errno 5] Input/output error: 'OUT'"),
    "unknown": (says("hdt: writing failed\\n", 3), OSError, "[Errno 5] writing failed: 'OUT'"),
    "too long": (says("hdt: line 70000000000 column 9: 9 TooLong\\n  The line is long.\\n", 1), hdt.LineFault,
                 "IN: line 70000000000 column 9: 9 TooLong"),
    "no triples": (says("hdt: no triples\\n", 1), hdt.NoTriples, "IN: no triples"),
    "an older program": (says("error: no such option\\n\\nFor more\\n", 2), ValueError, "no such option"),
    "killed": ("kill -9 $$", ChildProcessError, "-9"),
    "silent": ("exit 127", ChildProcessError, "127"),
    "verbose": ("yes | head -c 1000000 >&2; exit 5", ChildProcessError, "5"),
}


def test_options(tmp_path: Path, monkeypatch: pytest.MonkeyPatch) -> None:
    """The program is told the memory, the scratch files' folder, and the options of the build."""
    stand_in(tmp_path, monkeypatch, f'echo "$*" > {tmp_path}/told; exec {PROGRAM} build - "$out"')
    hdt.build(THREE, tmp_path / "out.hdt", memory="5000K", base="u:x", block_size=7, longest_line=2**70)
    words = rf"build --memory=5120000 --scratch=(\S+) --base=u:x --block-size=7 --longest-line={2**64 - 1} - \1/out.hdt"
    assert re.fullmatch(words, (tmp_path / "told").read_text().rstrip())
    hdt.build([THREE, THREE], tmp_path / "out.hdt", memory=LEAST, longest_line=90)
    words = rf"build --memory={LEAST} --scratch=(\S+) --base=http://example.org/dataset --block-size=16 - \1/out.hdt"
    assert re.fullmatch(words, (tmp_path / "told").read_text().rstrip())


@pytest.mark.parametrize("name", ERRORS)
def test_errors_of_the_program(name: str, tmp_path: Path, monkeypatch: pytest.MonkeyPatch) -> None:
    """Each end of the program is an exception; the output is as it was, and what the program left is removed."""
    script, error, text = ERRORS[name]
    stand_in(tmp_path, monkeypatch, f'echo x > "$scratch/0"; echo x > "$out"; mkdir "$scratch/more"; {script}')
    told = fails(tmp_path, THREE, error, memory="4M")
    assert text.replace("OUT", f"{tmp_path}/out/out.hdt").replace("IN", str(THREE)) in told


def test_faults_are_pickled(tmp_path: Path) -> None:
    """An exception of the program has the fields of one of the library."""
    (tmp_path / "bad.nt").write_bytes(b"<u:a> <u:p> <u:b> .\r\n<u:a> <u:p> <u:b>\n")
    with pytest.raises(hdt.LineFault) as told:
        hdt.build(tmp_path / "bad.nt", tmp_path / "out.hdt", memory="4M")
    fault = pickle.loads(pickle.dumps(told.value))
    assert (fault.path, fault.line, fault.column, fault.name) == (str(tmp_path / "bad.nt"), 2, 18, "Syntax")


def test_missing_files(tmp_path: Path) -> None:
    """A missing input, output folder and scratch folder are named; a folder is no input."""
    missing = tmp_path / "missing"
    cases: list[tuple[Any, Path, Optional[Path], Path]] = [
        (missing, tmp_path / "out.hdt", None, missing), (THREE, missing / "out.hdt", None, missing / "out.hdt"),
        (THREE, tmp_path / "out.hdt", missing, missing), ([THREE], tmp_path / "out.hdt", missing, missing)]
    for inputs, out, scratch, named in cases:
        with pytest.raises(FileNotFoundError) as told:
            hdt.build(inputs, out, memory="4M", scratch=scratch)
        assert told.value.filename == str(named)
    (tmp_path / "a.nt").mkdir()
    with pytest.raises(ValueError):
        hdt.build(tmp_path / "a.nt", tmp_path / "out.hdt", memory="4M")
    given: list[Any] = [THREE, [THREE]]
    for folder, error in (("", FileNotFoundError), (os.fspath(THREE), NotADirectoryError)):
        for inputs in given:
            with pytest.raises(error):
                hdt.build(inputs, tmp_path / "out.hdt", memory="4M", scratch=folder)
    assert os.listdir(tmp_path) == ["a.nt"]


def test_interrupted(tmp_path: Path, monkeypatch: pytest.MonkeyPatch) -> None:
    """An interrupt ends the program, and removes its files."""
    stand_in(tmp_path, monkeypatch, 'echo x > "$scratch/0"; exec sleep 60')

    def interrupt(*_: object) -> None:
        raise KeyboardInterrupt

    start, before, handler = time.monotonic(), children(), signal.signal(signal.SIGALRM, interrupt)
    try:
        signal.setitimer(signal.ITIMER_REAL, 0.5)
        fails(tmp_path, THREE, KeyboardInterrupt, memory="4M")
    finally:
        signal.setitimer(signal.ITIMER_REAL, 0)
        signal.signal(signal.SIGALRM, handler)
    assert children() <= before and time.monotonic() - start < 30


HANDLER = "import signal, sys, hdt\nsignal.signal(signal.SIGTERM, lambda *_: sys.exit(143))\n"
COMMAND = ["-m", "hdt", "build", "a.ttl", "a.ttl", "out.hdt", "--memory", "4M"]
CALLS = {
    "a call, with a handler": (signal.SIGTERM, ["-c", f"{HANDLER}hdt.merge(['a.hdt', 'pipe'], 'out', memory='4M')"]),
    "the command": (signal.SIGTERM, COMMAND), "the command, hung up": (signal.SIGHUP, COMMAND)}


@pytest.mark.parametrize("name", CALLS)
def test_ended_by_a_signal(name: str, tmp_path: Path, monkeypatch: pytest.MonkeyPatch) -> None:
    """A process that ends itself for a signal, as the command does, ends its child, and removes its files."""
    number, words = CALLS[name]
    fake(tmp_path, monkeypatch, "exec cat pipe")
    os.mkfifo(tmp_path / "pipe")
    (tmp_path / "a.ttl").write_text(TURTLE)
    shutil.copy(SAMPLES / "three.hdt", tmp_path / "a.hdt")
    before, child = sorted(os.listdir(tmp_path)), -1
    ignored = signal.signal(number, signal.SIG_DFL)  # (tests that run after nohup ignore SIGHUP)
    with subprocess.Popen([sys.executable, *words], cwd=tmp_path, env={**os.environ, **ENVIRONMENT}) as process:
        signal.signal(number, ignored)
        try:
            while child < 0 and process.poll() is None:
                with suppress(OSError):  # (of a pipe that the child has not opened yet)
                    child = os.open(tmp_path / "pipe", os.O_WRONLY | os.O_NONBLOCK)
                time.sleep(0.01)
            process.send_signal(number)
            assert process.wait(30) == 128 + number
        finally:
            process.kill()
    with pytest.raises(BrokenPipeError), open(child, "wb", buffering=0) as pipe:
        pipe.write(b"x")
    assert sorted(os.listdir(tmp_path)) == before


LIMITED = """
import resource, sys, hdt

resource.setrlimit(resource.RLIMIT_FSIZE, (100, 100))
hdt.build(*sys.argv[1:], memory="4M")
"""


def test_a_limit_on_files(tmp_path: Path) -> None:
    """A limit of the size of files is an error, as without memory: the program is not ended by a signal."""
    done = run([sys.executable, "-c", LIMITED, THREE, tmp_path / "out.hdt"], env=ENVIRONMENT)
    assert done.status == 1 and b"OSError: [Errno 27] File too large: " in done.err.splitlines()[-1]
    assert os.listdir(tmp_path) == []


def test_no_program(tmp_path: Path) -> None:
    """Without the program that is the error, before anything is read; other builds don't need it."""
    shutil.copy(ENVIRONMENT["HDT_LIBRARY"], tmp_path / "libhdt.so")
    script = "import sys, hdt\nhdt.build(sys.argv[1], '/dev/null')\nhdt.build('missing.nt', '/dev/null', memory='4M')"
    environment = {**ENVIRONMENT, "HDT_LIBRARY": str(tmp_path), "PATH": ""}
    done = run([sys.executable, "-c", script, THREE], env=environment)
    last = done.err.splitlines()[-1]
    assert (done.status, last.startswith(b"FileNotFoundError: the program hdt is neither")) == (1, True), done


# ---- the command

def test_command(tmp_path: Path) -> None:
    """One document is built by the program, several are by `hdt.build`: the same output and counts as without."""
    needs("serdi")
    (tmp_path / "a.ttl").write_text(TURTLE)
    (tmp_path / "b.nt").write_text(LINES)
    for inputs in (["b.nt"], ["-"], ["a.ttl"], ["a.ttl", "b.nt"], ["-", "b.nt"]):
        words = [*inputs, "out.hdt", "--base", BASE, "--block-size", "3"]
        wanted = command(tmp_path, "build", *words, stdin=LINES.encode())
        data = (tmp_path / "out.hdt").read_bytes()
        assert wanted.status == 0
        for more in (["--memory", "4M"], ["--memory=4194304", "--scratch", "."]):
            assert command(tmp_path, "build", *words, *more, stdin=LINES.encode()) == wanted
            assert (tmp_path / "out.hdt").read_bytes() == data
    assert sorted(os.listdir(tmp_path)) == ["a.ttl", "b.nt", "out.hdt"]
    written = command(tmp_path, "build", "-", "b.nt", "-", "--memory", "4M", "--scratch", ".", "--base", BASE)
    assert (written.status, written.err.startswith(b"built 4 ")) == (0, True)
    assert written.out == command(tmp_path, "build", "b.nt", "-", "--base", BASE).out


@pytest.mark.parametrize("inputs", [["b.nt"], ["b.nt", "b.nt"]], ids=["one", "two"])
@pytest.mark.parametrize("options, status, told", [
    (["--memory", "3M"], 2, ""), (["--memory", "4MB"], 2, ""), (["--memory", ""], 2, ""), (["--memory"], 2, ""),
    (["--scratch", "."], 2, "--memory"), (["--memory", "4M", "--title", "A"], 2, "rewrite"),
    (["--memory", "4M", "--header", "b.nt"], 2, "rewrite"),
    (["--memory", "4M", "--scratch", "missing"], 3, "No such file or directory")], ids=str)
def test_statuses(options: list[str], status: int, told: str, inputs: list[str], tmp_path: Path) -> None:
    """A failure has the status that it has of the program, and leaves OUT as it was."""
    (tmp_path / "b.nt").write_text(LINES)
    (tmp_path / "out.hdt").write_bytes(b"before")
    done = command(tmp_path, "build", *inputs, "out.hdt", *options)
    assert (done.status, done.out, told in done.err.decode()) == (status, b"", True), done
    assert sorted(os.listdir(tmp_path)) == ["b.nt", "out.hdt"] and (tmp_path / "out.hdt").read_bytes() == b"before"


def test_faulty_document(tmp_path: Path) -> None:
    """The error of one document is the program's."""
    (tmp_path / "bad.nt").write_text("<u:a> <u:p>\n")
    wanted = program.hdt("build", "bad.nt", "out.hdt", cwd=tmp_path)
    assert command(tmp_path, "build", "bad.nt", "out.hdt", "--memory", "4M") == wanted and wanted.status == 1


@pytest.mark.parametrize("is_scratch", [False, True])
def test_paths_that_are_not_utf8(tmp_path: Path, is_scratch: bool) -> None:
    """A path that the program can't be told is an error that names it; nothing is left."""
    folder = os.fsencode(tmp_path) + b"/\xff"
    os.mkdir(folder)
    out = os.fsencode(tmp_path) + b"/out.hdt" if is_scratch else folder + b"/out.hdt"
    scratch = folder if is_scratch else None
    with pytest.raises(ValueError, match="takes paths in UTF-8"):
        hdt.build(THREE, out, memory=LEAST, scratch=scratch)
    assert (os.listdir(folder), os.listdir(tmp_path)) == ([], ["\udcff"])
