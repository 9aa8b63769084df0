"""The line of progress on a terminal: what it says, when there is none, and that it is gone at the end."""

from __future__ import annotations

import os
import pty
import random
import re
import subprocess
from pathlib import Path

import pytest

from support.built import PROGRAM, SAMPLES
from support.documents import LONG_LINE
from support.program import Word, hdt
from support.terminal_errors import on_terminal, read_until, screen

ERASED = b"\r\x1b[K"


def texts(shown: bytes) -> list[str]:
    """The texts that the line of progress had, one after another."""
    return [text.decode() for text in re.findall(rb"\r\x1b\[\?7l(.*?)\x1b\[K\x1b\[\?7h", shown)]


def megabytes(path: Path) -> int:
    """The size of a file in megabytes."""
    return path.stat().st_size // 1_000_000


@pytest.fixture(scope="module")
def file(tmp_path_factory: pytest.TempPathFactory) -> Path:
    """An HDT file of some 20 MB."""
    folder = tmp_path_factory.mktemp("file")
    rng = random.Random(6)
    with open(folder / "in.nt", "wb") as out:
        for _ in range(20_000):
            out.write(b'<u:s> <u:p> "%s" .\n' % rng.randbytes(500).hex().encode())
    assert hdt("build", folder / "in.nt", folder / "file.hdt").status == 0
    return folder / "file.hdt"


def test_build(large_document: Path, tmp_path: Path) -> None:
    """The percentage and the megabytes, at each 16 MiB; then that it is sorted; and nothing is left."""
    shown = on_terminal("build", large_document, tmp_path / "out.hdt")
    size = large_document.stat().st_size
    *reading, last = texts(shown.text)
    assert shown.status == 0 and shown.text.endswith(ERASED) and screen(shown.text) == []
    assert last == f"hdt: sorting, {megabytes(large_document)} MB"
    assert len(reading) == size // (16 << 20)
    for step, text in enumerate(reading, 1):
        match = re.fullmatch(rf"hdt: reading (\d+)%, (\d+) of {megabytes(large_document)} MB", text)
        assert match is not None
        low, high = (step << 24) + 0, (step << 24) + (step << 17)
        assert low // 1_000_000 <= int(match[2]) <= high // 1_000_000
        assert low * 100 // size <= int(match[1]) <= high * 100 // size


def test_output_on_the_same_terminal(large_document: Path, tmp_path: Path) -> None:
    """The line is gone before the output is printed on the same terminal."""
    shown = on_terminal("build", large_document, tmp_path / "out.hdt", out_too=True)
    assert len(texts(shown.text)) == 4
    assert screen(shown.text) == hdt("build", large_document, tmp_path / "out.hdt").out.decode().splitlines()


@pytest.mark.parametrize("columns", [10, 33, 40, 120])
def test_width(columns: int, large_document: Path, tmp_path: Path) -> None:
    """The line is not wrapped, so nothing of it is left on a narrow terminal."""
    shown = on_terminal("build", large_document, tmp_path / "out.hdt", out_too=True)
    assert screen(shown.text, columns)[0].startswith("built")
    assert max(map(len, texts(shown.text))) < 40


def test_error_after_progress(tmp_path: Path) -> None:
    """The line is gone before the message of an error."""
    path = tmp_path / "bad.nt"
    path.write_bytes(LONG_LINE * 20_000 + b"x\n")
    shown = on_terminal("build", path, "out.hdt", cwd=tmp_path)
    lines = hdt("build", "--verbose", path, "out.hdt", cwd=tmp_path).err.decode().splitlines()
    assert shown.status == 1 and len(texts(shown.text)) == 1 and lines[0] == "hdt: line 20001 column 1: 1 Syntax"
    assert screen(shown.text, 200) == lines


def test_file_as_standard_input(large_document: Path, tmp_path: Path) -> None:
    """A file has a percentage as standard input, too."""
    with open(large_document, "rb") as source:
        shown = on_terminal("build", "-", tmp_path / "out.hdt", stdin=source)
    *reading, last = texts(shown.text)
    assert last == f"hdt: sorting, {megabytes(large_document)} MB" and len(reading) == 3
    pattern = rf"hdt: reading \d+%, \d+ of {megabytes(large_document)} MB"
    assert [re.fullmatch(pattern, text) is not None for text in reading] == [True] * 3
    assert screen(shown.text) == []


def test_pipe(large_document: Path, tmp_path: Path) -> None:
    """The megabytes that were read of a pipe, as its length is not known."""
    with subprocess.Popen(["cat", large_document], stdout=subprocess.PIPE) as cat:
        assert cat.stdout is not None
        shown = on_terminal("build", "-", tmp_path / "out.hdt", stdin=cat.stdout)
    *reading, last = texts(shown.text)
    assert last == f"hdt: sorting, {megabytes(large_document)} MB" and len(reading) == 3
    assert [re.fullmatch(r"hdt: reading, \d+ MB", text) is not None for text in reading] == [True] * 3
    assert screen(shown.text) == []


@pytest.mark.parametrize("words, phases", [
    (["verify"], ["checking"]), (["verify", "--tight"], ["indexing"]), (["head"], ["checking"]),
    (["info"], ["checking"]), (["count", "", "predicate"], ["indexing"]), (["answer"], ["indexing"]),
    (["find", "", "?", "<u:p>", '"x"'], ["checking"]), (["string", "", "object", "1"], ["checking"])])
def test_commands(words: list[Word], phases: list[str], file: Path) -> None:
    """Each command that reads a file shows what it does, and prints the same as without a terminal."""
    words = [*words[:1], file, *words[2:]] if len(words) > 2 else [*words, file]
    shown = on_terminal(*words, out_too=True)
    _, *later = texts(shown.text)
    assert later == [f"hdt: {phase}, {megabytes(file)} MB" for phase in phases]
    assert shown.text.count(ERASED) == 1
    assert shown.text.rpartition(ERASED)[2].replace(b"\r\n", b"\n") == hdt(*words).out


def test_writing(file: Path, tmp_path: Path) -> None:
    """A large file is written, too, and to a pipe."""
    shown = on_terminal("rewrite", file, tmp_path / "out.hdt")
    _, *later = texts(shown.text)
    assert (shown.status, screen(shown.text)) == (0, [])
    assert later == [f"hdt: {phase}, {megabytes(file)} MB" for phase in ("rewriting", "writing")]
    assert (tmp_path / "out.hdt").read_bytes() == file.read_bytes()
    assert texts(on_terminal("rewrite", file, "-").text)[1:] == later


def test_scratch(file: Path, tmp_path: Path) -> None:
    """With `--memory` the batches that are written, and how much of their merge is done; a log has the same."""
    words: list[Word] = ["merge", "--memory", "4M", file, tmp_path / "out.hdt"]
    shown = on_terminal(*words)
    steps = [text for text in texts(shown.text) if re.match("hdt: (batch|merge) ", text)]
    assert steps[0] == f"hdt: batch 1, {(1 << 24) // 1_000_000} MB" and len(steps) > 1
    percents = [int(text.removeprefix("hdt: merge ").removesuffix("%")) for text in steps[1:]]
    assert percents == sorted(set(percents)) and 0 < percents[0] and percents[-1] <= 100
    assert texts(shown.text)[-1].startswith("hdt: writing, ") and (shown.status, screen(shown.text)) == (0, [])
    logged = hdt("merge", "--progress", *words[1:]).err.decode().splitlines()
    assert [line for line in logged if not line.startswith("hdt: read ")] == steps


def test_small_file() -> None:
    """Below 16 MiB there is no line."""
    assert on_terminal("verify", SAMPLES / "three.hdt").text == b""


@pytest.mark.parametrize("word", ["verify", "dump", "find", "count", "info", "strings", "answer", "rewrite"])
def test_option(word: str, file: Path, tmp_path: Path) -> None:
    """With `--no-progress` nothing is shown, also with `--progress`."""
    more: dict[str, list[Word]] = {"find": ["?", "?", '"x"'], "count": ["predicate"], "strings": ["predicate"],
                                   "rewrite": [tmp_path / "out.hdt"]}
    assert on_terminal(word, "--no-progress", file, *more.get(word, [])) == (0, b"")
    if word in ("verify", "rewrite"):
        assert on_terminal(word, "--no-progress", file, "--progress", *more.get(word, [])) == (0, b"")


def test_lines(file: Path) -> None:
    """With `--progress` a terminal gets the lines of a log."""
    shown = on_terminal("verify", "--progress", file)
    assert texts(shown.text) == [] and screen(shown.text) == hdt("verify", "--progress", file).err.decode().splitlines()


@pytest.mark.parametrize("name", ["dumb", ""])
def test_dumb_terminal(name: str, file: Path) -> None:
    """A terminal that knows no codes gets none."""
    assert on_terminal("verify", file, env={"TERM": name}) == (0, b"")


def test_no_terminal(file: Path) -> None:
    """Nothing is shown where standard error is no terminal."""
    assert hdt("verify", file).err == b""


def test_requests_typed_by_hand(file: Path) -> None:
    """`answer` removes the line before it reads the first request."""
    leader, follower = pty.openpty()
    with subprocess.Popen([PROGRAM, "answer", "--count", file], stdin=subprocess.PIPE, stdout=subprocess.PIPE,
                          stderr=follower, env={**os.environ, "TERM": "xterm"}) as process:
        os.close(follower)
        assert process.stdin is not None and process.stdout is not None
        text = read_until(leader, process, lambda text: text.endswith(ERASED))
        assert texts(text)[-1] == f"hdt: indexing, {megabytes(file)} MB" and screen(text) == []
        process.stdin.write(b"? ? ?\n")
        process.stdin.close()
        assert (process.stdout.read(), process.wait()) == (b"20000\n\n", 0)
    os.close(leader)


@pytest.mark.parametrize("requests", [b"", b"# nothing\n", b"? ? ?\n", b"<u:none> ? ?\n? ? ?\n", b"x\n"])
def test_requests_from_a_file(requests: bytes, file: Path, tmp_path: Path) -> None:
    """After `answer` the terminal shows the answers only."""
    (tmp_path / "requests").write_bytes(requests)
    with open(tmp_path / "requests", "rb") as stdin:
        shown = on_terminal("answer", "--count", file, stdin=stdin, out_too=True)
    answers = hdt("answer", "--count", file, stdin=requests)
    assert texts(shown.text)[-1] == f"hdt: indexing, {megabytes(file)} MB"
    assert (shown.status, screen(shown.text)) == (answers.status, [it for it in answers.out.decode().split("\n") if it])


def test_output_that_is_the_terminal(large_document: Path) -> None:
    """If OUT is standard error, no line is mixed into the file."""
    shown = on_terminal("build", large_document, "/dev/stderr")
    assert texts(shown.text) == []
