"""Folders of parts that are made to do harm: each field of a manifest, and what is no regular file."""

from __future__ import annotations

import json
import os
import signal
import tracemalloc
from collections.abc import Iterator
from pathlib import Path
from typing import Any

import pytest

from support.parts import (NUMBERS, ROWS, SPECIAL, TEXTS, files, graph_of, inputs, manifests, parts, places, put,
                           regular, text_of)

GRAPH = graph_of(60)


@pytest.fixture
def folder(tmp_path: Path) -> Path:
    """A folder of four parts, one of which has no file."""
    lines = [line for line, (s, _, _) in zip(text_of(GRAPH).splitlines(), GRAPH) if parts.part_of(s, 4) != 3]
    parts.build(inputs(tmp_path, lines, 1), tmp_path / "out", 4)
    return tmp_path / "out"


@pytest.fixture
def in_time() -> Iterator[None]:
    """This process ends if a test is stuck."""
    signal.alarm(600)  # (the machine may have other work)
    yield
    signal.alarm(0)


# ---- manifests

def told(folder: Path, text: str) -> str:
    """The error of a manifest."""
    (folder / "manifest.json").write_text(text)
    with pytest.raises(parts.PartFault) as fault:
        parts.open(folder)
    assert fault.value.file == "manifest.json" and len(str(fault.value)) < 250 and str(fault.value).isascii()
    return fault.value.what


def test_each_field_of_a_manifest(folder: Path) -> None:
    """Each has its type and range, or the error names it."""
    values = json.loads((folder / "manifest.json").read_text())
    tried = 0
    for place in places(values):
        value: Any = values
        for key in place:
            value = value[key]
        name = next(str(key) for key in reversed(place) if isinstance(key, str))
        wrong = ROWS if isinstance(value, list) else TEXTS if isinstance(value, str) else NUMBERS
        for each in ["null", "true", "1", '"x"', "[]"] if isinstance(value, dict) else wrong:
            assert name in told(folder, put(values, place, each)), (place, each)
            tried += 1
    assert tried > 600


def test_fields_that_are_missing_or_twice(folder: Path) -> None:
    """The error names them."""
    values = json.loads((folder / "manifest.json").read_text())
    names = [place for place in places(values) if isinstance(place[-1], str)]
    for place in names:
        text = put(values, place, '"@"')
        name = f'"{place[-1]}": "@"'
        assert text.count(name) == 1
        assert str(place[-1]) in told(folder, text.replace(f"{name}, ", "").replace(f", {name}", ""))
        value: Any = values
        for key in place:
            value = value[key]
        twice = f'"{place[-1]}": {json.dumps(value)}'
        assert told(folder, text.replace(name, f"{twice}, {twice}")) == f"has '{place[-1]}' twice"


@pytest.mark.parametrize("text", [
    "", "{", "null", "7", "[]", '"x"', "[" * 100_000, '{"kind":' * 100_000, '{"a":[' * 300_000, "\ufeff{}", "{} {}",
    "1e999", '{"kind":"' + "x" * 10**6 + '"}', '{"' + "k" * 10**6 + '":1}', "nan", "{'kind': 1}",
    "{" + ",".join(f'"{n}":0' for n in range(300_000)) + ',"0":1}',
], ids=range(17))
def test_what_is_no_manifest(folder: Path, text: str) -> None:
    """It is an error, also if it is deep, and in a time that is linear."""
    assert told(folder, text)


def test_bytes_that_are_no_text(folder: Path) -> None:
    """A manifest is UTF-8."""
    (folder / "manifest.json").write_bytes(b'{"kind":"\xff"}')
    with pytest.raises(parts.PartFault, match="is no JSON"):
        parts.open(folder)


def test_long_manifests(folder: Path) -> None:
    """No more is read of one than the longest that `build` makes, which is checked before it begins."""
    good = (folder / "manifest.json").read_bytes()
    with (folder / "manifest.json").open("ab") as file:
        file.write(b" " * (manifests.MOST_BYTES - len(good)))
    assert len(parts.open(folder).manifest.parts) == 4
    os.truncate(folder / "manifest.json", 2**30)
    tracemalloc.start()
    try:
        with pytest.raises(parts.PartFault, match="has more than 33,554,432 bytes"):
            parts.open(folder)
        assert tracemalloc.get_traced_memory()[1] < 2 * manifests.MOST_BYTES
    finally:
        tracemalloc.stop()
    with pytest.raises(ValueError, match="there are too many inputs"):
        parts.build(["\udcff" * 1_000] * 6_000, folder.parent / "new", 2)
    with pytest.raises(FileNotFoundError):
        parts.build(["\udcff" * 10] * 6_000, folder.parent / "new", 65_536)


def test_odd_paths_of_inputs(tmp_path: Path) -> None:
    """An input may have any name; the manifest has it as it was given, relative or not."""
    (tmp_path / "in").mkdir()
    names = [os.path.join("in", name) for name in ("\udcff\u2028\"\\.nt", "\u00e9 \n.nt")]
    before = os.getcwd()
    os.chdir(tmp_path)
    try:
        for name in names:
            Path(name).write_text("<u:a> <u:p> <u:o> .\n")
        made = parts.build(names, "out", 2)
    finally:
        os.chdir(before)
    assert made.inputs == tuple((name, 20) for name in names)
    assert parts.open(tmp_path / "out").manifest == made


# ---- what is no regular file


@pytest.mark.parametrize("kind", SPECIAL)
@pytest.mark.parametrize("size", [0, None])
def test_part_that_is_no_regular_file(folder: Path, kind: str, size: Any, in_time: None) -> None:
    """It is an error that names the part, and nothing waits, whatever size the manifest says."""
    name = "part-00001.hdt"
    (folder / name).unlink()
    SPECIAL[kind](folder / name)
    if size is not None:
        values = json.loads((folder / "manifest.json").read_text())
        values["parts"][1]["bytes"] = size
        (folder / "manifest.json").write_text(json.dumps(values))
    with pytest.raises(parts.PartFault) as fault, parts.open(folder) as graph:
        graph.verify()
    assert fault.value.file == (name if size is None else "manifest.json")
    row = parts.Part(name, size or 0, "0" * 64, 1)
    for part in (row, parts.Part(name, 1, "0" * 64, 1)):
        with pytest.raises(parts.PartFault, match=name):
            files.opened(str(folder), part)  # (whatever a look at its size said before)


@pytest.mark.parametrize("kind", SPECIAL)
def test_manifest_that_is_no_regular_file(folder: Path, kind: str, in_time: None) -> None:
    """It is an error, and nothing waits."""
    (folder / "manifest.json").unlink()
    SPECIAL[kind](folder / "manifest.json")
    with pytest.raises((OSError, parts.PartFault)):
        parts.open(folder)


def test_how_files_are_opened(folder: Path) -> None:
    """No other program gets the file, a terminal doesn't become that of the process, and nothing is waited for."""
    flags: list[int] = []
    before = os.open

    def noted(path: Any, given: int, *more: Any, **named: Any) -> int:
        flags.append(given)
        return before(path, given, *more, **named)

    with pytest.MonkeyPatch.context() as patched:
        patched.setattr(os, "open", noted)
        with parts.open(folder) as graph:
            assert len(list(graph)) == len(graph)
    assert len(flags) == 4
    assert set(flags) == {os.O_RDONLY | os.O_CLOEXEC | os.O_NONBLOCK | os.O_NOCTTY}


def test_file_that_becomes_a_pipe(tmp_path: Path, in_time: None) -> None:
    """What was opened is looked at again."""
    os.mkfifo(tmp_path / "pipe")
    (tmp_path / "file").write_bytes(b"x")
    there = os.stat(tmp_path / "file")
    with pytest.MonkeyPatch.context() as patched:
        patched.setattr(os, "stat", lambda *_: there)
        with pytest.raises(OSError, match="not a regular file"):
            regular.opened(tmp_path / "pipe")


def test_file_that_has_nothing_yet(tmp_path: Path) -> None:
    """What would have to be waited for is empty, as a file of /proc that says that it is a regular one."""
    os.mkfifo(tmp_path / "pipe")
    (tmp_path / "manifest.json").touch()
    with open(tmp_path / "pipe", "rb", opener=lambda path, _: os.open(path, os.O_RDWR | os.O_NONBLOCK)) as file:
        assert file.read(1) is None
        assert regular.data_of(file) == b""
        with pytest.MonkeyPatch.context() as patched:
            patched.setattr(regular, "opened", lambda _: file)
            with pytest.raises(parts.PartFault, match="manifest.json is no JSON"):
                parts.open(tmp_path)


@pytest.mark.parametrize("copy", [True, False])
@pytest.mark.parametrize("size", [0, 1, 5000, 9999, 10_001, 50_000])
def test_file_that_changes_while_it_is_read(tmp_path: Path, copy: bool, size: int) -> None:
    """At most one byte more is read than it had; a file of another size is an error."""
    (tmp_path / "file").write_bytes(b"x" * 10_000)
    with regular.opened(tmp_path / "file") as file:
        assert len(regular.data_of(file, copy)) == 10_000
    fstat = os.fstat

    def growing(descriptor: int) -> os.stat_result:
        found = fstat(descriptor)
        os.truncate(tmp_path / "file", size)
        return found

    with regular.opened(tmp_path / "file") as file, pytest.MonkeyPatch.context() as patched:
        patched.setattr(os, "fstat", growing)
        with pytest.raises(OSError, match="it changed while it was read"):
            regular.data_of(file, copy)
        assert file.tell() <= 10_001
