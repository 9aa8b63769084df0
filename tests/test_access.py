"""Who may read and write OUT: it keeps its permissions and its group where the user may give them, and never more."""

from __future__ import annotations

import os
import shutil
import stat
from pathlib import Path

import pytest

from support.built import PROGRAM, SAMPLES
from support.files import MAKERS, as_root, names
from support.program import Word, run
from support.system_calls import Caller

OTHER, GROUP, STRANGE = 65_534, 65_533, 65_532  # a user, a group of the user, and a group that isn't
SOURCES = {"build": SAMPLES / "three.nt", "rewrite": SAMPLES / "v1.hdt"}


def access(path: Path) -> tuple[int, int, str]:
    """The user and the group of a file, and its permissions as `ls -l` shows them."""
    there = path.stat()
    return there.st_uid, there.st_gid, stat.filemode(there.st_mode)


def make(command: str, folder: Path, as_user: bool = False) -> None:
    """Make out.hdt in a folder, as this user or as one who is only in the group GROUP."""
    words: list[Word] = [PROGRAM, command, SOURCES[command], folder / "out.hdt"]
    if as_user:
        words = ["setpriv", f"--reuid={OTHER}", f"--regid={OTHER}", f"--groups={GROUP}", *words]
    ran = run(words)
    assert (ran.status, ran.err) == (0, b"")
    assert (folder / "out.hdt").read_bytes()[:4] == b"$HDT" and names(folder) == ["out.hdt"]


def out_of(folder: Path, user: int, group: int, mode: int) -> Path:
    """An old out.hdt in a folder, with this user, group and mode."""
    out = folder / "out.hdt"
    shutil.copy(SAMPLES / "v1.hdt", out)
    os.chown(out, user, group)
    out.chmod(mode)
    return out


@as_root
@pytest.mark.parametrize("command", MAKERS)
@pytest.mark.parametrize("mode, shown", [(0o640, "-rw-r-----"), (0o664, "-rw-rw-r--"), (0o060, "----rw----"),
                                         (0o6755, "-rwxr-xr-x"), (0o2640, "-rw-r-----"), (0o1644, "-rw-r--r--")])
def test_group(command: str, mode: int, shown: str, tmp_path: Path) -> None:
    """The new file has the old one's group and permissions, without setuid, setgid and sticky bits."""
    out = out_of(tmp_path, 0, GROUP, mode)
    make(command, tmp_path)
    assert access(out) == (0, GROUP, shown)


@as_root
@pytest.mark.parametrize("command", MAKERS)
@pytest.mark.parametrize("mode, group, shown", [
    (0o640, GROUP, "-rw-r-----"), (0o640, STRANGE, "-rw-------"), (0o664, STRANGE, "-rw-r--r--"),
    (0o646, STRANGE, "-rw-r--r--"), (0o604, STRANGE, "-rw-------"), (0o6775, STRANGE, "-rwxr-xr-x"),
    (0o600, STRANGE, "-rw-------")])
def test_group_of_others(command: str, mode: int, group: int, shown: str, public_folder: Path) -> None:
    """A group that the user may not give is not kept; then group and others may do what both might."""
    public_folder.chmod(0o777)
    out = out_of(public_folder, OTHER, group, mode)
    make(command, public_folder, as_user=True)
    assert access(out) == (OTHER, group if group == GROUP else OTHER, shown)


@as_root
def test_the_order_of_calls(tmp_path: Path) -> None:
    """The group is given before the permissions, which would be those of another group else."""
    caller, out = Caller(tmp_path), out_of(tmp_path, 0, GROUP, 0o640)
    made = caller.run([PROGRAM, "build", SOURCES["build"], out]).made
    assert made[made.index("fsync"):] == ["fsync", f"group {GROUP:o}", "mode 640", "rename"]


@as_root
def test_folder_that_gives_its_group(public_folder: Path) -> None:
    """A new file has the group of a folder with the setgid bit; one that is replaced keeps its own."""
    os.chown(public_folder, 0, GROUP)
    public_folder.chmod(0o2777)
    make("build", public_folder)
    assert access(public_folder / "out.hdt")[:2] == (0, GROUP)
    out = out_of(public_folder, 0, STRANGE, 0o640)
    make("build", public_folder)
    assert access(out) == (0, STRANGE, "-rw-r-----")
