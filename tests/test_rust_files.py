"""How the Rust crate replaces a file: as the program does, by the same calls of the system."""

from __future__ import annotations

import os
import signal
from collections.abc import Iterator
from pathlib import Path

import pytest

from support.built import PROGRAM, SAMPLES, TOP
from support.files import THREE, UNFINISHED, as_root, names
from support.program import Result, Word, hdt, run
from support.rust_crate import compiled, needs_cargo
from support.system_calls import Caller

CALLS = TOP / "tests/support/rust_calls.rs"
# The calls that replace a file of the mode 640. Others name a mode in place of 640.
REPLACING = ["create 600", "write", "fsync", "mode 640", "rename", "fsync folder"]
THERE = pytest.mark.parametrize("there", [True, False], ids=["replacing", "making"])
BUILT = Result(0, b"3 triples\n", b"")
pytestmark = needs_cargo


@pytest.fixture(scope="module")
def calls(tmp_path_factory: pytest.TempPathFactory) -> Path:
    """The program tests/support/rust_calls.rs."""
    return compiled(tmp_path_factory, CALLS.read_text())


@pytest.fixture(scope="module")
def caller(tmp_path_factory: pytest.TempPathFactory) -> Caller:
    """Runs programs and logs the calls that they make."""
    return Caller(tmp_path_factory.mktemp("caller"))


@pytest.fixture(autouse=True)
def mask() -> Iterator[None]:
    """The usual mask."""
    before = os.umask(0o022)
    yield
    os.umask(before)


def made(there: bool) -> list[str]:
    """The calls that make a file, whether or not one was there."""
    return REPLACING if there else [call.replace("640", "644") for call in REPLACING]


def put_before(out: Path, there: bool = True) -> None:
    """Put a file there, of the mode 640, if one shall be there."""
    if there:
        out.write_bytes(b"before")
        out.chmod(0o640)


def content(folder: Path) -> dict[str, bytes]:
    """The files of a folder."""
    return {it.name: it.read_bytes() for it in folder.iterdir()}


@THERE
@pytest.mark.parametrize("size", [0, 2_000_000, 70_000_000], ids=["3 triples", "2 MB", "70 MB"])
def test_the_order_of_calls(size: int, there: bool, calls: Path, caller: Caller, tmp_path: Path) -> None:
    """A new file is private until it is whole and on the disk; then it gets its permissions, and last its name."""
    document, built, rewritten, wanted = (tmp_path / name for name in ("in.nt", "a.hdt", "b.hdt", "wanted.hdt"))
    document.write_bytes(THREE.read_bytes() + (b'<u:a> <u:p> "%s" .\n' % (b"x" * size) if size else b""))
    assert hdt("build", "--base", "http://a/", document, wanted).status == 0
    for command, given, out in [("build", document, built), ("rewrite", wanted, rewritten)]:
        put_before(out, there)
        ended = caller.run([calls, command, given, out])
        assert ended == (Result(0, b"%d triples\n" % (4 if size else 3), b""), made(there))
        assert out.stat().st_mode & 0o777 == (0o640 if there else 0o644)
        assert out.read_bytes() == wanted.read_bytes()
    assert names(tmp_path) == ["a.hdt", "b.hdt", "in.nt", "wanted.hdt"]
    for it in tmp_path.iterdir():
        it.unlink()


@pytest.mark.parametrize("path", ["out.hdt", "./out.hdt", "../folder/out.hdt", "../links/link.hdt"])
def test_the_order_of_calls_by_any_path(path: str, calls: Path, caller: Caller, tmp_path: Path) -> None:
    """The new file is made beside the old one, also beside what a link leads to."""
    folder, links = tmp_path / "folder", tmp_path / "links"
    folder.mkdir()
    links.mkdir()
    (links / "link.hdt").symlink_to("../folder/out.hdt")
    put_before(folder / "out.hdt")
    ended = caller.run([calls, "build", THREE, path], killed=REPLACING.index("rename") + 1, cwd=folder)
    assert ended == (Result(-signal.SIGKILL, b"", b""), REPLACING[:5])
    (left,) = [it for it in names(folder) if it != "out.hdt"]
    assert UNFINISHED.fullmatch(left)
    assert caller.run([calls, "build", THREE, path], cwd=folder) == (BUILT, REPLACING)
    assert (folder / "out.hdt").read_bytes() == (SAMPLES / "three.hdt").read_bytes()
    assert (names(folder), names(links)) == (sorted([left, "out.hdt"]), ["link.hdt"])


@THERE
@pytest.mark.parametrize("failing", range(1, len(REPLACING) + 1))
def test_a_call_that_fails(failing: int, there: bool, calls: Path, caller: Caller, tmp_path: Path) -> None:
    """The old file stays and nothing else is left. After the rename a folder that can't be synced is no error."""
    out = tmp_path / "out.hdt"
    put_before(out, there)
    ended = caller.run([calls, "build", THREE, out], failing=failing)
    if made(there)[failing - 1] == "fsync folder":
        assert ended == (BUILT, made(there))
        assert content(tmp_path) == {"out.hdt": (SAMPLES / "three.hdt").read_bytes()}
    else:
        assert ended.result.status == 1 and b"Input/output error" in ended.result.err
        assert ended.made == [*made(there)[:failing], *(["unlink"] if failing > 1 else [])]
        assert content(tmp_path) == ({"out.hdt": b"before"} if there else {})


@pytest.mark.parametrize("killed", range(1, len(REPLACING) + 1))
def test_killed_before_a_call(killed: int, calls: Path, caller: Caller, tmp_path: Path) -> None:
    """The old file stays; what is left beside it is private, and from the sync on whole."""
    out, three = tmp_path / "out.hdt", (SAMPLES / "three.hdt").read_bytes()
    put_before(out)
    ended = caller.run([calls, "build", THREE, out], killed=killed)
    assert ended == (Result(-signal.SIGKILL, b"", b""), REPLACING[:killed])
    is_renamed = REPLACING[killed - 1] == "fsync folder"
    assert out.read_bytes() == (three if is_renamed else b"before")
    left = [it for it in tmp_path.iterdir() if it != out]
    assert len(left) == (0 if is_renamed or killed == 1 else 1)
    for it in left:
        assert UNFINISHED.fullmatch(it.name)
        assert it.stat().st_mode & 0o777 == (0o640 if REPLACING[killed - 1] == "rename" else 0o600)
        assert it.read_bytes() == (b"" if REPLACING[killed - 1] == "write" else three)


@pytest.mark.parametrize("taken", [1, 2, 39, -1])
def test_names_that_are_taken(taken: int, calls: Path, caller: Caller, tmp_path: Path) -> None:
    """If the name of a new file is taken another one is tried, up to a limit."""
    out = tmp_path / "out.hdt"
    put_before(out)
    ended = caller.run([calls, "build", THREE, out], taken=taken)
    if taken > 0:
        assert ended == (BUILT, [*["taken"] * taken, *REPLACING])
    else:
        assert (ended.result.status, set(ended.made)) == (1, {"taken"})
        assert content(tmp_path) == {"out.hdt": b"before"}


MEANWHILE: dict[str, tuple[bool, str, int]] = {
    "as private as the new file": (True, "chmod 600 out.hdt", 0o600),
    "more is permitted": (True, "chmod 666 out.hdt", 0o666),
    "another file is put there": (True, "echo other >o; chmod 604 o; mv o out.hdt", 0o604),
    "a file is put there": (False, "echo other >out.hdt; chmod 604 out.hdt", 0o604),
    "it is removed": (True, "rm out.hdt", 0o644),
}


@pytest.mark.parametrize("there, script, mode", MEANWHILE.values(), ids=MEANWHILE)
def test_a_file_that_changes_meanwhile(there: bool, script: str, mode: int, calls: Path, caller: Caller,
                                       tmp_path: Path) -> None:
    """The new file has the permissions of the file that it replaces in the end, not of the one at the start."""
    out = tmp_path / "out.hdt"
    put_before(out, there)
    ended = caller.run([calls, "build", THREE, out], meanwhile=f"cd '{tmp_path}' && {{ {script}; }}")
    assert (ended.result, out.stat().st_mode & 0o777, names(tmp_path)) == (BUILT, mode, ["out.hdt"])
    assert out.read_bytes() == (SAMPLES / "three.hdt").read_bytes()


@as_root
@pytest.mark.parametrize("mode, wanted", [(0o640, 0o640), (0o6664, 0o664), (0o604, 0o604)])
def test_the_group_is_taken_over(mode: int, wanted: int, calls: Path, caller: Caller, tmp_path: Path) -> None:
    """The new file has the group of the old one before its permissions, but no setuid, setgid or sticky bit."""
    out = tmp_path / "out.hdt"
    put_before(out)
    os.chown(out, 0, 33)
    out.chmod(mode)
    ended = caller.run([calls, "build", THREE, out])
    assert ended == (BUILT, [*REPLACING[:3], "group 41", f"mode {wanted:o}", *REPLACING[4:]])
    assert (out.stat().st_gid, out.stat().st_mode & 0o7777) == (33, wanted)


@as_root
@pytest.mark.parametrize("mode, wanted", [(0o640, 0o600), (0o664, 0o644), (0o604, 0o600), (0o646, 0o644)])
def test_a_group_that_may_not_be_given(mode: int, wanted: int, calls: Path, public_folder: Path) -> None:
    """Then the group that the file has and others get what both had."""
    program, folder = public_folder / "calls", public_folder / "owned"
    program.write_bytes(calls.read_bytes())
    program.chmod(0o755)
    folder.mkdir()
    out, document = folder / "out.hdt", folder / "in.nt"
    document.write_bytes(THREE.read_bytes())
    put_before(out)
    for path, group in [(folder, 65534), (document, 65534), (out, 33)]:
        os.chown(path, 65534, group)
    out.chmod(mode)
    as_nobody: list[Word] = ["setpriv", "--reuid=65534", "--regid=65534", "--clear-groups", "--"]
    assert run([*as_nobody, program, "build", document, out]) == BUILT
    assert (out.stat().st_gid, out.stat().st_mode & 0o7777) == (65534, wanted)


def test_a_new_file_without_proc(calls: Path, tmp_path: Path) -> None:
    """Where the system does not say the mask, a new file is private."""
    namespace: list[Word] = ["unshare", "--mount", *([] if os.geteuid() == 0 else ["--map-root-user"])]
    script = 'mount -t tmpfs tmpfs /proc && exec "$@"'
    done = run([*namespace, "sh", "-c", script, "sh", calls, "build", THREE, tmp_path / "out.hdt"])
    if done.status == 0:
        assert (tmp_path / "out.hdt").stat().st_mode & 0o777 == 0o600
    else:
        pytest.skip("no file system may be mounted here")


def test_the_files_are_those_of_the_program(calls: Path, tmp_path: Path) -> None:
    """The crate and the program make the same file, and each rewrites the file of the other."""
    by_program, by_crate, again = (tmp_path / name for name in ("program.hdt", "crate.hdt", "again.hdt"))
    assert hdt("build", "--base", "http://a/", "--block-size", "3", THREE, by_program).status == 0
    assert run([calls, "rewrite", by_program, by_crate]) == BUILT
    assert run([PROGRAM, "rewrite", "--block-size", "3", by_crate, again]).status == 0
    assert again.read_bytes() == by_program.read_bytes()
    assert by_crate.read_bytes() == (SAMPLES / "three.hdt").read_bytes()
