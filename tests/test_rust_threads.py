"""Graphs of the Rust crate in threads: at random, under valgrind, and the server of its examples."""

from __future__ import annotations

import re
import socket
import subprocess
from collections.abc import Iterator
from concurrent.futures import ThreadPoolExecutor
from pathlib import Path

import pytest
from hypothesis import settings

from support.built import PROGRAM, SAMPLES, TOP
from support.c_library import succeeds
from support.program import run
from support.rust_crate import CRATE, compiled, needs, needs_cargo

SOURCE = TOP / "tests/support/rust_threads.rs"
# The random threads run for so many seconds: with --hypothesis-profile long for a minute.
SECONDS = 60 if settings.default.max_examples > 1000 else 2
PATIENCE = 300
# The status of what valgrind has found something in.
FOUND = 99
pytestmark = needs_cargo


@pytest.fixture(scope="module")
def files(tmp_path_factory: pytest.TempPathFactory) -> list[Path]:
    """Files of different graphs: two samples, and two of more triples."""
    folder, made = tmp_path_factory.mktemp("files"), []
    for count, name in [(500, "few"), (20_000, "many")]:
        lines = [f'<http://a/{name}/{n // 4}> <http://a/p{n % 7}> "{name} {n % 97}"@en .\n' for n in range(count)]
        (folder / f"{name}.nt").write_text("".join(lines))
        succeeds(PROGRAM, "build", folder / f"{name}.nt", folder / f"{name}.hdt")
        made.append(folder / f"{name}.hdt")
    return [SAMPLES / "three.hdt", SAMPLES / "v1.hdt", *made]


@pytest.fixture(scope="module")
def threads(tmp_path_factory: pytest.TempPathFactory) -> Path:
    """The program whose threads open, clone, search and drop graphs at random."""
    return compiled(tmp_path_factory, SOURCE.read_text())


def things(out: bytes) -> tuple[int, int]:
    """How many things the threads did, and how many graphs they opened. No answer was wrong, and no owner is left."""
    found = re.fullmatch(rb"(\d+) things, (\d+) graphs, 0 wrong, 0 owners left\n", out)
    assert found, out
    return int(found[1]), int(found[2])


def test_at_random(threads: Path, files: list[Path]) -> None:
    """Each answer is that of a single thread, and each owner of bytes is dropped with the last clone."""
    done = run([threads, str(SECONDS), str(10**9), *files], seconds=PATIENCE)
    assert (done.status, done.err) == (0, b"")
    count, graphs = things(done.out)
    assert count > 100 * SECONDS and graphs > 8


@needs("valgrind")
def test_at_random_under_valgrind(threads: Path, files: list[Path]) -> None:
    """Nothing is read after it is freed, and what is in use at the end does not depend on what was done."""
    in_use = []
    for most in (0, 150):
        done = run(["valgrind", f"--error-exitcode={FOUND}", "--leak-check=full", "--errors-for-leak-kinds=definite",
                    threads, str(PATIENCE), str(most), *files[:3]], seconds=PATIENCE)
        assert done.status == 0, done.err.decode()
        in_use += re.findall(rb"in use at exit: (.*)", done.err)
        count, graphs = things(done.out)
        assert (count, graphs > 8) == (8 * most, most > 0)
    assert len(in_use) == 2 and in_use[0] == in_use[1]


@pytest.fixture
def address(tmp_path_factory: pytest.TempPathFactory) -> Iterator[tuple[str, int]]:
    """Where the server of rust/examples serves the sample."""
    text = (CRATE / "examples/server.rs").read_text()
    command: list[str | Path] = [compiled(tmp_path_factory, text), SAMPLES / "three.hdt", "127.0.0.1:0"]
    with subprocess.Popen(command, stdout=subprocess.PIPE, text=True) as server:
        assert server.stdout is not None
        host, port = server.stdout.readline().strip().split(":")
        yield host, int(port)
        server.kill()


def test_server_of_the_examples(address: tuple[str, int]) -> None:
    """It answers many connections at once, also while as many as it has threads but one say nothing."""
    of_a, of_b = b'<u:a> <u:p> <u:b> .\n<u:a> <u:q> "x" .\n', b"<u:b> <u:p> <u:a> .\n"
    answers = {b"u:a": of_a, b"u:b": of_b, b"u:c": b"", b"": b""}

    def ask(number: int) -> bool:
        subject = list(answers)[number % len(answers)]
        with socket.create_connection(address, timeout=60) as connection:
            connection.sendall(subject + b"\n")
            with connection.makefile("rb") as reader:
                return reader.read() == answers[subject]

    silent = [socket.create_connection(address, timeout=60) for _ in range(3)]
    with ThreadPoolExecutor(8) as executor:
        assert all(executor.map(ask, range(200)))
    for connection in silent:
        connection.close()
    assert ask(0)
