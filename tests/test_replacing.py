"""How an output file is replaced as a whole: private until it is complete, with OUT's permissions, by a rename."""

from __future__ import annotations

import filecmp
import os
import re
import shutil
import signal
import subprocess
import sys
from collections.abc import Iterator
from pathlib import Path
from typing import Any, Callable

import pytest

from support.built import PROGRAM, SAMPLES
from support.files import LEFT, THREE, UNFINISHED, as_root, mounts, names, shell
from support.program import WRITING_FAILED, Result, Word, hdt, run
from support.python_package import ENVIRONMENT
from support.system_calls import Caller, Calls, logged

BUILT = Result(0, b"built 3 2 0 2 1 457\n", b"")


def build(*words: Word) -> Result:
    """Build the three triples so that the file is the sample."""
    return hdt("build", "--base", "http://a/", THREE, *words)


@pytest.fixture
def replaced(tmp_path: Path) -> Path:
    """A folder with an output, a link to it, and what a program that was ended midway left."""
    (tmp_path / "out.hdt").write_bytes(b"x" * 1_000_000)
    (tmp_path / "out.hdt").chmod(0o640)
    (tmp_path / "link.hdt").symlink_to("out.hdt")
    (tmp_path / LEFT).write_bytes(b"left")
    return tmp_path


@pytest.mark.parametrize("name", ["out.hdt", "link.hdt"])
def test_an_output_is_replaced(name: str, replaced: Path) -> None:
    """OUT becomes a new file with the same permissions: a program that reads the old one goes on. Nothing is left."""
    out = replaced / "out.hdt"
    before, expected = out.stat(), [LEFT, "link.hdt", "out.hdt"]
    with open(out, "rb") as old:
        assert build(replaced / name) == BUILT
        assert old.read() == b"x" * 1_000_000
    after = out.stat()
    assert out.read_bytes() == (SAMPLES / "three.hdt").read_bytes()
    assert (after.st_ino != before.st_ino, after.st_mode) == (True, before.st_mode)
    assert (replaced / "link.hdt").is_symlink() and names(replaced) == expected
    assert (replaced / LEFT).read_bytes() == b"left"


def test_an_input_is_replaced(replaced: Path) -> None:
    """IN may be OUT, by a link too."""
    build(replaced / "out.hdt")
    answer = hdt("rewrite", replaced / "link.hdt", replaced / "out.hdt")
    assert (answer.status, answer.err) == (0, b"")
    assert (replaced / "out.hdt").read_bytes()[-100:] == (SAMPLES / "three.hdt").read_bytes()[-100:]


def test_a_link_to_nothing(tmp_path: Path) -> None:
    """A symbolic link to no file is followed too."""
    (tmp_path / "link.hdt").symlink_to("other.hdt")
    assert build(tmp_path / "link.hdt") == BUILT
    assert (tmp_path / "other.hdt").read_bytes() == (SAMPLES / "three.hdt").read_bytes()
    assert (tmp_path / "link.hdt").is_symlink() and names(tmp_path) == ["link.hdt", "other.hdt"]


def test_a_new_file(tmp_path: Path) -> None:
    """A new file has the permissions that the process's mask leaves."""
    new = tmp_path / "new.hdt"
    assert shell('umask 027; exec "$0" build --base http://a/ "$@"', THREE, new) == BUILT
    assert (new.stat().st_mode & 0o777, names(tmp_path)) == (0o640, ["new.hdt"])


@pytest.mark.parametrize("name", ["", "/", "/missing/out.hdt", "/out.hdt/", "/none/", "/out.hdt/x"])
def test_a_path_of_no_file(name: str, replaced: Path) -> None:
    """A folder, a missing folder, and a file that is used like a folder are no outputs."""
    before = names(replaced)
    assert build(f"{replaced}{name}") == WRITING_FAILED
    assert names(replaced) == before


def test_an_empty_path(tmp_path: Path) -> None:
    """An empty path is no output."""
    assert run([PROGRAM, "build", THREE, ""], cwd=tmp_path) == WRITING_FAILED
    assert names(tmp_path) == []


def test_a_new_file_without_proc(tmp_path: Path) -> None:
    """The same where the system shows no processes."""
    namespace = mounts()
    script = 'umask 027; mount -t tmpfs tmpfs /proc; exec "$0" build --base http://a/ "$@"'
    assert run([*namespace, "sh", "-c", script, PROGRAM, THREE, tmp_path / "new.hdt"]) == BUILT
    assert ((tmp_path / "new.hdt").stat().st_mode & 0o777, names(tmp_path)) == (0o640, ["new.hdt"])


@pytest.mark.parametrize("mode", [0o600, 0o640, 0o644, 0o666, 0o400, 0o000])
def test_permissions_are_kept(mode: int, tmp_path: Path) -> None:
    """OUT keeps its permissions, whatever the process's mask."""
    out = tmp_path / "out.hdt"
    out.write_bytes(b"before")
    out.chmod(mode)
    assert shell('umask 077; exec "$0" build --base http://a/ "$@"', THREE, out) == BUILT
    assert (out.stat().st_mode & 0o7777, names(tmp_path)) == (mode, ["out.hdt"])


def test_many_leftovers(tmp_path: Path) -> None:
    """What others put into the folder blocks no build, and stays."""
    for number in range(1_000):
        (tmp_path / f"hdt-unfinished-{number}").write_bytes(b"left")
    assert build(tmp_path / "out.hdt") == BUILT
    assert len(names(tmp_path)) == 1_001


@pytest.fixture
def long_path(tmp_path: Path) -> Path:
    """A path of 4,095 bytes, the longest that the system takes, in folders that are there."""
    folder = os.fspath(tmp_path)
    while len(folder) < 4_093 - 200:
        folder += "/" + "d" * 199
    folder += "/" + "d" * (4_093 - len(folder) - 1)
    os.makedirs(folder)
    assert len(os.fsencode(f"{folder}/o")) == 4_095
    return Path(f"{folder}/o")


def test_the_longest_path(long_path: Path) -> None:
    """There a file is made, read, rewritten over itself and replaced."""
    wanted = (SAMPLES / "three.hdt").read_bytes()
    assert (build(long_path), long_path.read_bytes()) == (BUILT, wanted)
    assert hdt("verify", long_path) == Result(0, b"ok 3 2 0 2 1\n", b"")
    assert (hdt("rewrite", long_path, long_path).status, long_path.read_bytes()) == (0, wanted)
    assert (build(long_path), names(long_path.parent)) == (BUILT, ["o"])


# ---- the calls of the system that put OUT in its place


@pytest.fixture(scope="module")
def caller(tmp_path_factory: pytest.TempPathFactory) -> Caller:
    """Runs programs and logs the calls that they make."""
    return Caller(tmp_path_factory.mktemp("calls"))


@pytest.fixture(scope="module")
def calls(caller: Caller) -> Callable[..., Calls]:
    """Build the three triples, with what `Caller.run` makes happen."""
    def building(out: Path, **happening: Any) -> Calls:
        return caller.run([PROGRAM, "build", "--base", "http://a/", THREE, out], **happening)

    return building


# The calls that replace an OUT of the mode 640, and that make a new one under the mask 022.
REPLACING = ["chdir", "random", "create 600", "write", "fsync", "mode 640", "rename"]
MAKING = ["chdir", "random", "create 666", "unlink", "random", "create 600", "write", "fsync", "mode 644", "rename"]
THERE = pytest.mark.parametrize("there", [True, False], ids=["replacing", "making"])


@pytest.fixture
def mask() -> Iterator[None]:
    """The usual mask."""
    before = os.umask(0o022)
    yield
    os.umask(before)


def put_before(out: Path) -> None:
    """Put an OUT there, of the mode 640."""
    out.write_bytes(b"before")
    out.chmod(0o640)


# How the program and the Python package make a file of another: the command, its environment, and the calls that
# replace a file and that make a new one. (Python takes the mask from /proc.)
SCRIPT = "import sys, hdt; getattr(hdt, sys.argv[1])(*sys.argv[2:])"
WAYS: dict[str, tuple[list[Word], dict[str, str], list[str], list[str]]] = {
    "program": ([PROGRAM], {}, REPLACING, MAKING),
    "python": ([sys.executable, "-c", SCRIPT], ENVIRONMENT, REPLACING[2:], MAKING[5:]),
}


def check_order(caller: Caller, way: str, words: list[Word], out: Path, there: bool) -> None:
    """Make a file, which replaces one or is new, by a command that ends with OUT, and check the calls."""
    command, env, replacing, making = WAYS[way]
    if there:
        put_before(out)
    ended = caller.run([*command, *words, out], env=env)
    assert (ended.result.status, ended.result.err, ended.made) == (0, b"", replacing if there else making)
    assert out.stat().st_mode & 0o777 == (0o640 if there else 0o644)


def literal(size: int) -> bytes:
    """The three triples, and one with a literal of so many bytes, if any."""
    return THREE.read_bytes() + (b'<u:a> <u:p> "%s" .\n' % (b"x" * size) if size else b"")


@pytest.mark.usefixtures("mask")
@THERE
@pytest.mark.parametrize("size", [0, 2_000_000], ids=["3 triples", "2 MB"])
@pytest.mark.parametrize("way", WAYS)
def test_the_order_of_calls(way: str, size: int, there: bool, caller: Caller, tmp_path: Path) -> None:
    """A new file is private until it is whole and on the disk; then it gets its permissions, and last its name."""
    document, built, rewritten = (tmp_path / name for name in ("in.nt", "built.hdt", "rewritten.hdt"))
    document.write_bytes(literal(size))
    check_order(caller, way, ["build", document], built, there)
    check_order(caller, way, ["rewrite", built], rewritten, there)
    assert built.stat().st_size > size and filecmp.cmp(built, rewritten, shallow=False)
    assert names(tmp_path) == ["built.hdt", "in.nt", "rewritten.hdt"]


@pytest.mark.usefixtures("mask")
def test_the_order_of_calls_of_a_large_file(caller: Caller, tmp_path: Path) -> None:
    """The same for files of 70 MB."""
    document, out, first = (tmp_path / name for name in ("in.nt", "out.hdt", "first.hdt"))
    document.write_bytes(literal(70_000_000))
    check_order(caller, "program", ["build", document], first, False)
    assert first.stat().st_size > 70_000_000
    others: list[tuple[str, list[Word]]] = [
        ("program", ["rewrite", first]), ("python", ["build", document]), ("python", ["rewrite", first])]
    for way, words in others:
        check_order(caller, way, words, out, True)
        assert filecmp.cmp(out, first, shallow=False)
    assert names(tmp_path) == ["first.hdt", "in.nt", "out.hdt"]
    shutil.rmtree(tmp_path)


# Paths of OUT in the current folder, in another one, and by a link, and whether OUT is there. (If it isn't, a link
# leads to nothing, and is written through.)
PATHS = [(path, there) for path in ("out.hdt", "./out.hdt", "../folder/out.hdt") for there in (True, False)]


@pytest.mark.usefixtures("mask")
@pytest.mark.parametrize("path, there", [*PATHS, ("../links/link.hdt", True)])
def test_the_order_of_calls_by_any_path(path: str, there: bool, caller: Caller, tmp_path: Path) -> None:
    """The new file is made beside OUT, also beside what a link leads to, as a program shows that is killed midway."""
    folder, links = tmp_path / "folder", tmp_path / "links"
    folder.mkdir()
    links.mkdir()
    (links / "link.hdt").symlink_to("../folder/out.hdt")
    wanted = REPLACING if there else MAKING
    if there:
        put_before(folder / "out.hdt")
    command: list[Word] = [PROGRAM, "build", "--base", "http://a/", THREE, path]
    ended = caller.run(command, killed=wanted.index("rename") + 1, cwd=folder)
    assert ended == (Result(-signal.SIGKILL, b"", b""), wanted)
    left = [it for it in names(folder) if it != "out.hdt"]
    assert len(left) == 1 and UNFINISHED.fullmatch(left[0]) and names(links) == ["link.hdt"]
    assert caller.run(command, cwd=folder) == (BUILT, wanted)
    assert (folder / "out.hdt").read_bytes() == (SAMPLES / "three.hdt").read_bytes()
    assert (names(folder), names(links)) == (sorted([*left, "out.hdt"]), ["link.hdt"])


@pytest.fixture
def root(public_folder: Path, caller: Caller) -> Path:
    """A folder to take for the root: it has the program, what this needs, the three triples, and an empty folder."""
    libraries = re.findall(r"(/\S+) \(0x", run(["ldd", PROGRAM]).out.decode())
    for path in map(Path, libraries):
        inside = public_folder / os.fspath(path)[1:]
        inside.parent.mkdir(parents=True, exist_ok=True)
        shutil.copy(path, inside)
    needed = {"hdt": PROGRAM, "env": Path("/usr/bin/env"), "calls.so": caller.library, "in.nt": THREE}
    for name, there in needed.items():
        shutil.copy(there, public_folder / name)
    (public_folder / "here").mkdir()
    (public_folder / "log").touch()
    return public_folder


@pytest.mark.usefixtures("mask")
@THERE
@pytest.mark.parametrize("path", ["/out.hdt", "//out.hdt", "/./out.hdt", "../out.hdt"])
def test_an_output_at_the_root(path: str, there: bool, root: Path) -> None:
    """OUT directly below the root is made there, by the same calls, and nothing in the current folder."""
    wanted, mode = (REPLACING, 0o640) if there else (MAKING, 0o644)
    before, out = names(root), root / "out.hdt"
    if there:
        put_before(out)
    command: list[Word] = [*mounts(), f"--root={root}", "--wd=/here", "/env", "LD_PRELOAD=/calls.so", "CALLS_LOG=/log",
                           "/hdt", "build", "--base", "http://a/", "/in.nt"]
    assert (run([*command, path]), logged(root / "log")) == (BUILT, wanted)
    assert (names(root), names(root / "here")) == (sorted([*before, "out.hdt"]), [])
    assert out.read_bytes() == (SAMPLES / "three.hdt").read_bytes() and out.stat().st_mode & 0o777 == mode
    assert run([*command, "/"]) == WRITING_FAILED


@pytest.mark.parametrize("path", ["/parts", "//parts/", "../parts"])
def test_a_folder_at_the_root(path: str, root: Path) -> None:
    """The folder of `split` is made there, too."""
    before = names(root)
    command: list[Word] = [*mounts(), f"--root={root}", "--wd=/here", "/hdt", "split", "/in.nt", path, "--parts", "1"]
    assert run(command) == Result(0, b"", b"")
    assert (names(root), names(root / "here")) == (sorted([*before, "parts"]), [])
    assert (root / "parts/part-00000.nt").read_bytes() == THREE.read_bytes()


@pytest.mark.usefixtures("mask")
@pytest.mark.parametrize("size", [0, 2_000_000], ids=["3 triples", "2 MB"])
@pytest.mark.parametrize("failing", range(1, len(REPLACING) + 1))
def test_a_call_that_fails(failing: int, size: int, caller: Caller, tmp_path: Path) -> None:
    """Writing fails, OUT stays what it was and nothing is left; without random numbers the clock gives the name."""
    document, out = tmp_path / "in.nt", tmp_path / "out.hdt"
    document.write_bytes(literal(size))
    put_before(out)
    ended = caller.run([PROGRAM, "build", document, out], failing=failing).result
    assert names(tmp_path) == ["in.nt", "out.hdt"] and out.stat().st_mode & 0o777 == 0o640
    if REPLACING[failing - 1] == "random":
        assert (ended.status, ended.err, out.stat().st_size > size) == (0, b"", True)
    else:
        assert (ended, out.read_bytes()) == (WRITING_FAILED, b"before")


@pytest.mark.usefixtures("mask")
@THERE
@pytest.mark.parametrize("failing", range(1, len(REPLACING[2:]) + 1))
def test_a_call_that_fails_in_python(failing: int, there: bool, caller: Caller, tmp_path: Path) -> None:
    """Nor does the Python package leave anything, which raises OSError."""
    out, (command, env, *_) = tmp_path / "out.hdt", WAYS["python"]
    if there:
        put_before(out)
    ended = caller.run([*command, "build", THREE, out], env=env, failing=failing)
    assert (ended.result.status, len(ended.made) >= failing) == (1, True)
    assert ended.result.err.splitlines()[-1].startswith(b"OSError: [Errno 5]")
    assert {it.name: it.read_bytes() for it in tmp_path.iterdir()} == ({"out.hdt": b"before"} if there else {})


@pytest.mark.usefixtures("mask")
@pytest.mark.parametrize("failing", range(1, len(MAKING) + 1))
def test_a_call_that_fails_for_a_new_file(failing: int, calls: Callable[..., Calls], tmp_path: Path) -> None:
    """The same where nothing is there. (An empty file stays where it is its removal that fails.)"""
    out, call = tmp_path / "out.hdt", MAKING[failing - 1]
    ended = calls(out, failing=failing).result
    if call == "random":
        assert (ended, names(tmp_path)) == (BUILT, ["out.hdt"])
    else:
        left = [it.stat().st_size for it in tmp_path.iterdir()]
        assert (ended, left) == (WRITING_FAILED, [0] if call == "unlink" else [])


@pytest.mark.usefixtures("mask")
@pytest.mark.parametrize("killed", range(1, len(REPLACING) + 1))
def test_killed_before_a_call(killed: int, calls: Callable[..., Calls], tmp_path: Path) -> None:
    """OUT stays what it was; what is left beside it is private, and from the sync on whole."""
    out = tmp_path / "out.hdt"
    put_before(out)
    assert calls(out, killed=killed) == (Result(-signal.SIGKILL, b"", b""), REPLACING[:killed])
    assert (out.read_bytes(), out.stat().st_mode & 0o777) == (b"before", 0o640)
    left = [it for it in tmp_path.iterdir() if it != out]
    assert len(left) == (REPLACING[killed - 1] not in ("chdir", "random", "create 600"))
    for it in left:
        assert UNFINISHED.fullmatch(it.name)
        assert it.stat().st_mode & 0o777 == (0o640 if killed == len(REPLACING) else 0o600)
        wanted = b"" if REPLACING[killed - 1] == "write" else (SAMPLES / "three.hdt").read_bytes()
        assert it.read_bytes() == wanted


@pytest.mark.usefixtures("mask")
@THERE
@pytest.mark.parametrize("taken", [1, 2, 900])
def test_names_that_are_taken(taken: int, there: bool, calls: Callable[..., Calls], tmp_path: Path) -> None:
    """If the name of a new file is taken, another one is tried."""
    out = tmp_path / "out.hdt"
    if there:
        put_before(out)
    first, *rest = REPLACING if there else MAKING
    assert calls(out, taken=taken) == (BUILT, [first, *(["random", "taken"] * taken), *rest])
    assert (out.read_bytes(), names(tmp_path)) == ((SAMPLES / "three.hdt").read_bytes(), ["out.hdt"])


@THERE
def test_all_names_are_taken(there: bool, calls: Callable[..., Calls], tmp_path: Path) -> None:
    """In the end writing fails."""
    out = tmp_path / "out.hdt"
    if there:
        put_before(out)
    ended = calls(out, taken=-1)
    assert (ended.result, set(ended.made)) == (WRITING_FAILED, {"chdir", "random", "taken"})
    assert {it.name: it.read_bytes() for it in tmp_path.iterdir()} == ({"out.hdt": b"before"} if there else {})


# What happens to OUT while the new file is written: whether it was there, the script, and the permissions at the end.
MEANWHILE: dict[str, tuple[bool, str, int]] = {
    "nothing": (True, ":", 0o640),
    "nothing, and it is new": (False, ":", 0o644),
    "as private as the new file": (True, "chmod 600 out.hdt", 0o600),
    "nobody may read it": (True, "chmod 000 out.hdt", 0o000),
    "more is permitted": (True, "chmod 666 out.hdt", 0o666),
    "another file is put there": (True, "echo other >o; chmod 604 o; mv o out.hdt", 0o604),
    "a file is put there": (False, "echo other >out.hdt; chmod 604 out.hdt", 0o604),
    "it is removed": (True, "rm out.hdt", 0o640),
}


@pytest.mark.usefixtures("mask")
@pytest.mark.parametrize("there, script, mode", MEANWHILE.values(), ids=MEANWHILE)
def test_an_output_that_changes_meanwhile(there: bool, script: str, mode: int, calls: Callable[..., Calls],
                                          tmp_path: Path) -> None:
    """OUT has the permissions of the file that it replaces in the end, not of the one at the start."""
    out = tmp_path / "out.hdt"
    if there:
        put_before(out)
    assert calls(out, meanwhile=f"cd '{tmp_path}' && {{ {script}; }}").result == BUILT
    assert (out.stat().st_mode & 0o777, names(tmp_path)) == (mode, ["out.hdt"])
    assert out.read_bytes() == (SAMPLES / "three.hdt").read_bytes()


@pytest.mark.parametrize("streams", ["", "0", "1", "2", "01", "02", "12", "012"])
def test_no_file_in_the_place_of_a_stream(streams: str, caller: Caller, tmp_path: Path) -> None:
    """If standard streams are closed, the new file is never written through their descriptors."""
    closing = " ".join(f"{it}>&-" for it in streams)
    ended = caller.run(["sh", "-c", f'exec "$0" build "$1" out.hdt {closing}', PROGRAM, THREE], cwd=tmp_path)
    assert ended.result.status == (3 if "1" in streams else 0)
    assert [it for it in ended.made if it.startswith("write")] == ["write"]


def test_a_read_only_folder(public_folder: Path) -> None:
    """In a folder that a user can't write OUT stays what it was, although the user may write OUT itself."""
    program, document, out = (public_folder / name for name in ("hdt", "in.nt", "out.hdt"))
    shutil.copy(PROGRAM, program)
    shutil.copy(THREE, document)
    document.chmod(0o644)
    out.write_bytes(b"before")
    out.chmod(0o666)
    public_folder.chmod(0o555)
    as_nobody = ["setpriv", "--reuid=65534", "--clear-groups", "--"] if os.geteuid() == 0 else []
    assert run([*as_nobody, program, "build", document, out]) == WRITING_FAILED
    assert (out.read_bytes(), names(public_folder)) == (b"before", ["hdt", "in.nt", "out.hdt"])


# Opens the new files of a folder as soon as they are there, until its input ends; prints how many could be read.
SPY = """
import os, select, sys
read, seen = 0, 0
print("ready", flush=True)
while not select.select([sys.stdin], [], [], 0)[0]:
    for name in os.listdir(sys.argv[1]):
        if name.startswith("hdt-unfinished-"):
            seen += 1
            try:
                os.close(os.open(os.path.join(sys.argv[1], name), os.O_RDONLY))
                read += 1
            except OSError:
                pass
print(seen, read)
"""


@as_root
def test_a_private_output_stays_private(public_folder: Path) -> None:
    """No other user can open the new file while a private OUT is replaced, in none of 1,000 builds."""
    out = public_folder / "out.hdt"
    out.write_bytes(b"before")
    out.chmod(0o600)
    with subprocess.Popen(["setpriv", "--reuid=65534", "--clear-groups", "--", "/usr/bin/python3", "-c", SPY,
                           public_folder], stdin=subprocess.PIPE, stdout=subprocess.PIPE, text=True) as spy:
        assert spy.stdout is not None and spy.stdout.readline() == "ready\n"
        ends = {build(out) for _ in range(1_000)}
        seen, read = map(int, spy.communicate("\n", timeout=60)[0].split())
    assert (ends, read, seen > 0, names(public_folder)) == ({BUILT}, 0, True, ["out.hdt"])
