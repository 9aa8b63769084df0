"""Files that the Python package writes: replaced whole or not at all, with their permissions; files that it opens."""

from __future__ import annotations

import io
import os
import stat
import threading
from pathlib import Path
from typing import Any, Optional

import pytest

from support.built import SAMPLES
from support.python_package import hdt

THREE = SAMPLES / "three.hdt"
LINE = "<u:s> <u:p> <u:o> .\n"


@pytest.mark.parametrize("call, wanted", [("build", 1), ("rewrite", 3)])
def test_written_whole(call: str, wanted: int, tmp_path: Path) -> None:
    """The file is a new one with the old one's permissions, also through a link; nothing else is left in the folder."""
    text, out, link = tmp_path / "text.nt", tmp_path / "out.hdt", tmp_path / "link.hdt"
    text.write_text(LINE)
    out.write_bytes(b"before")
    out.chmod(0o640)
    link.symlink_to(out.name)
    with open(out, "rb") as before:
        counts = hdt.build(text, link, base="http://a/") if call == "build" else hdt.rewrite(THREE, link)
        assert before.read() == b"before"
    assert (counts.triples, hdt.verify(out)) == (wanted, counts)
    assert link.is_symlink()
    assert stat.S_IMODE(out.stat().st_mode) == 0o640
    assert sorted(os.listdir(tmp_path)) == ["link.hdt", "out.hdt", "text.nt"]


def test_permissions_of_a_new_file(tmp_path: Path) -> None:
    """A new file has the permissions that the mask leaves."""
    (tmp_path / "text.nt").write_text(LINE)
    mask = os.umask(0o027)
    try:
        hdt.build(tmp_path / "text.nt", tmp_path / "new.hdt")
    finally:
        os.umask(mask)
    assert stat.S_IMODE((tmp_path / "new.hdt").stat().st_mode) == 0o640


def test_same_file(tmp_path: Path) -> None:
    """A file may be rewritten over itself, also while it is open."""
    path = tmp_path / "own.hdt"
    path.write_bytes(THREE.read_bytes())
    with hdt.open(path) as graph:
        hdt.rewrite(path, path, block_size=1)
        assert len(list(graph)) == 3  # the file that was opened is still there for it
    assert path.read_bytes() != THREE.read_bytes()
    hdt.rewrite(path, path)
    assert path.read_bytes() == THREE.read_bytes()


def test_not_replaced(tmp_path: Path) -> None:
    """After an error the file is unchanged, and nothing is left beside it."""
    text, out = tmp_path / "text.nt", tmp_path / "out.hdt"
    text.write_text("no triples\n")
    out.write_bytes(b"before")
    with pytest.raises(hdt.LineFault):
        hdt.build(text, out)
    with pytest.raises(hdt.Fault):
        hdt.rewrite(text, out)
    text.write_text(LINE)
    for path in (tmp_path, tmp_path / "none/out.hdt"):
        with pytest.raises(OSError):
            hdt.build(text, path)
    assert out.read_bytes() == b"before"
    assert sorted(os.listdir(tmp_path)) == ["out.hdt", "text.nt"]


@pytest.mark.parametrize("call", ["build", "rewrite"])
@pytest.mark.parametrize("mode", [0o4755, 0o2640, 0o1644, 0o6711], ids=oct)
def test_special_bits_are_not_taken_over(tmp_path: Path, mode: int, call: str) -> None:
    """The file has the permissions of the one that it replaces, but no setuid, setgid or sticky bit."""
    out = tmp_path / "out.hdt"
    out.write_bytes(b"before")
    out.chmod(mode)
    if stat.S_IMODE(out.stat().st_mode) != mode:
        pytest.skip("the system doesn't set these bits")
    if call == "build":
        hdt.build(SAMPLES / "three.nt", out)
    else:
        hdt.rewrite(THREE, out)
    assert stat.S_IMODE(out.stat().st_mode) == mode & 0o777


def other_group() -> int:
    """A group that is not that of new files, and that this process may give."""
    groups = [12_345] if os.geteuid() == 0 else [group for group in os.getgroups() if group != os.getegid()]
    return groups[0] if groups else pytest.skip("this user is in one group only")


@pytest.mark.parametrize("mode", [0o640, 0o604, 0o664])
def test_group_is_taken_over(tmp_path: Path, monkeypatch: pytest.MonkeyPatch, mode: int) -> None:
    """The file has the group of the one that it replaces, before it gets permissions."""
    out, seen = tmp_path / "out.hdt", []
    out.write_bytes(b"before")
    os.chown(out, -1, other_group())
    out.chmod(mode)
    change = os.fchmod

    def fchmod(descriptor: int, to: int) -> None:
        there = os.fstat(descriptor)
        seen.append((there.st_gid, stat.S_IMODE(there.st_mode), to))
        change(descriptor, to)

    monkeypatch.setattr(os, "fchmod", fchmod)
    hdt.build(SAMPLES / "three.nt", out)
    assert seen == [(other_group(), 0o600, mode)]
    assert (out.stat().st_gid, stat.S_IMODE(out.stat().st_mode)) == (other_group(), mode)


@pytest.mark.parametrize("mode, wanted", [
    (0o640, 0o600), (0o644, 0o644), (0o604, 0o600), (0o664, 0o644), (0o677, 0o677), (0o751, 0o711), (0o526, 0o522)])
def test_group_that_may_not_be_given(tmp_path: Path, monkeypatch: pytest.MonkeyPatch, mode: int, wanted: int) -> None:
    """If the group can't be given, neither another group nor others get what one of them had not."""
    out = tmp_path / "out.hdt"
    out.write_bytes(b"before")
    os.chown(out, -1, other_group())
    out.chmod(mode)

    def fchown(descriptor: int, owner: int, group: int) -> None:
        assert (owner, group) == (-1, other_group())
        raise PermissionError(1, "Operation not permitted")

    monkeypatch.setattr(os, "fchown", fchown)
    hdt.rewrite(THREE, out)
    assert stat.S_IMODE(out.stat().st_mode) == wanted
    assert out.stat().st_gid != other_group() and os.listdir(tmp_path) == ["out.hdt"]


def test_permissions_that_change_meanwhile(tmp_path: Path, monkeypatch: pytest.MonkeyPatch) -> None:
    """The permissions are those that the file has in the end: of one that is closed to others while it is written."""
    out, sync = tmp_path / "out.hdt", os.fsync
    out.write_bytes(b"before")
    out.chmod(0o644)

    def fsync(descriptor: int) -> None:
        out.chmod(0o600)
        sync(descriptor)

    monkeypatch.setattr(os, "fsync", fsync)
    hdt.build(SAMPLES / "three.nt", out)
    assert stat.S_IMODE(out.stat().st_mode) == 0o600


@pytest.mark.parametrize("error", [KeyboardInterrupt, SystemExit, OSError, MemoryError])
@pytest.mark.parametrize("call", ["fsync", "fchmod", "replace"])
def test_interrupted(tmp_path: Path, monkeypatch: pytest.MonkeyPatch, call: str, error: type[BaseException]) -> None:
    """An interrupt leaves the file as it was, and nothing beside it, as an error does."""
    out = tmp_path / "out.hdt"
    out.write_bytes(b"before")

    def interrupted(*_: object) -> None:
        raise error

    monkeypatch.setattr(os, call, interrupted)
    with pytest.raises(error):
        hdt.build(SAMPLES / "three.nt", out)
    assert out.read_bytes() == b"before" and os.listdir(tmp_path) == ["out.hdt"]


@pytest.mark.parametrize("mode", [0o600, 0o640, 0o444, None], ids=["private", "group", "read-only", "new"])
def test_private_while_it_is_written(tmp_path: Path, monkeypatch: pytest.MonkeyPatch, mode: Optional[int]) -> None:
    """Until it has its name, only its owner can read a new file; then it has the mode of the one that it replaces."""
    out, seen = tmp_path / "out.hdt", []
    if mode is not None:
        out.write_bytes(b"before")
        out.chmod(mode)
    sync = os.fsync

    def fsync(descriptor: int) -> None:
        seen.append(stat.S_IMODE(os.fstat(descriptor).st_mode))
        sync(descriptor)

    monkeypatch.setattr(os, "fsync", fsync)
    hdt.build(SAMPLES / "three.nt", out)
    assert seen == [0o600]
    umask = os.umask(0)
    os.umask(umask)
    assert stat.S_IMODE(out.stat().st_mode) == (0o666 & ~umask if mode is None else mode)


def test_mode_without_proc(tmp_path: Path, monkeypatch: pytest.MonkeyPatch) -> None:
    """If /proc doesn't tell the umask, a new file is its owner's alone."""
    opened = io.open

    def open_but_proc(path: Any, *rest: Any, **options: Any) -> Any:
        if path == "/proc/self/status":
            raise FileNotFoundError(path)
        return opened(path, *rest, **options)

    monkeypatch.setattr(io, "open", open_but_proc)
    hdt.build(SAMPLES / "three.nt", tmp_path / "out.hdt")
    monkeypatch.undo()
    assert stat.S_IMODE((tmp_path / "out.hdt").stat().st_mode) == 0o600


def test_device_is_written(tmp_path: Path) -> None:
    """A device, or a pipe that is read, is written to and not replaced. One device may be input and output."""
    hdt.build(SAMPLES / "three.nt", "/dev/null")
    with pytest.raises(hdt.NoTriples):
        hdt.build("/dev/null", "/dev/null")
    assert Path("/dev/null").is_char_device()
    pipe, got = tmp_path / "pipe", []
    os.mkfifo(pipe)
    reader = threading.Thread(target=lambda: got.append(pipe.read_bytes()))
    reader.start()
    hdt.build(SAMPLES / "three.nt", pipe, base="http://a/")
    reader.join()
    assert got == [THREE.read_bytes()] and pipe.is_fifo()


def test_link_that_leads_to_itself(tmp_path: Path) -> None:
    """Such a link is no output, and stays."""
    link = tmp_path / "link"
    link.symlink_to("link")
    with pytest.raises(OSError, match="[Ss]ymbolic links|ELOOP"):
        hdt.build(SAMPLES / "three.nt", link)
    assert link.is_symlink() and os.listdir(tmp_path) == ["link"]


def test_link_to_nothing(tmp_path: Path) -> None:
    """What a link leads to is made, and the link stays."""
    link = tmp_path / "link"
    link.symlink_to("out.hdt")
    hdt.build(SAMPLES / "three.nt", link, base="http://a/")
    assert link.is_symlink() and (tmp_path / "out.hdt").read_bytes() == THREE.read_bytes()


@pytest.mark.parametrize("kind", ["name", "symbolic link", "link"])
def test_input_is_not_replaced(tmp_path: Path, kind: str) -> None:
    """`build` refuses an output that is its input, by any name; `rewrite` may take one file for both."""
    text, out = tmp_path / "text.nt", tmp_path / "out"
    text.write_text(LINE)
    if kind == "name":
        out = text
    elif kind == "symbolic link":
        out.symlink_to(text)
    else:
        os.link(text, out)
    with pytest.raises(ValueError, match="one file"):
        hdt.build(text, out)
    assert text.read_text() == LINE


@pytest.mark.parametrize("size", [16.0, "16", None])
def test_block_size_is_an_integer(tmp_path: Path, size: Any) -> None:
    """A block size of another type is a TypeError, of both calls; for `rewrite` None is the default."""
    with pytest.raises(TypeError):
        hdt.build(SAMPLES / "three.nt", tmp_path / "out.hdt", block_size=size)
    if size is not None:
        with pytest.raises(TypeError):
            hdt.rewrite(THREE, tmp_path / "out.hdt", block_size=size)
    assert os.listdir(tmp_path) == []


@pytest.mark.parametrize("copied", [True, None])
def test_opened_as_a_copy(copied: Optional[bool], tmp_path: Path) -> None:
    """A file that was read into memory, as a small one is, may be cut or overwritten while it is open."""
    path = tmp_path / "own.hdt"
    path.write_bytes(THREE.read_bytes())
    with hdt.open(path, copy=copied) as graph:
        os.truncate(path, 0)
        assert sorted(graph) == [("u:a", "u:p", "u:b"), ("u:a", "u:q", '"x"'), ("u:b", "u:p", "u:a")]


def test_sample_is_built(tmp_path: Path) -> None:
    """The sample is what its text gives, byte for byte."""
    hdt.build(SAMPLES / "three.nt", tmp_path / "out.hdt", base="http://a/")
    assert (tmp_path / "out.hdt").read_bytes() == THREE.read_bytes()


def test_error_names_the_given_file(tmp_path: Path) -> None:
    """In a folder that does not exist, the error is about the file that was to be written, not one beside it."""
    with pytest.raises(FileNotFoundError) as told:
        hdt.build(SAMPLES / "three.nt", tmp_path / "none/graph.hdt")
    assert told.value.filename == str(tmp_path / "none/graph.hdt")
