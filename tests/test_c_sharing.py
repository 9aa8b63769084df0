"""Handles in C that share a graph, in threads: at random, and under valgrind's memcheck, helgrind and drd."""

from __future__ import annotations

import re
import shutil
from pathlib import Path

import pytest
from hypothesis import settings

from support.built import PROGRAM, SAMPLES, STATIC_LIBRARY, TOP
from support.c_library import CC, HEADER, WARNINGS, WRAPPED, succeeds
from support.program import Result, Word, run

SOURCE, SERVER = TOP / "tests/support/sharing.c", TOP / "c/server.c"
# The random threads run for so many seconds: with --hypothesis-profile long for a minute.
SECONDS = 60 if settings.default.max_examples > 1000 else 2
THREADS = 8
PATIENCE = 300
# The status of what valgrind has found something in.
FOUND = 99
needs_valgrind = pytest.mark.skipif(not shutil.which("valgrind"), reason="there is no valgrind (Debian: valgrind)")
TOOLS: dict[str, list[Word]] = {
    "memcheck": ["--tool=memcheck", "--leak-check=full", "--show-leak-kinds=all", "--errors-for-leak-kinds=all"],
    "helgrind": ["--tool=helgrind"],
    "drd": ["--tool=drd"],
}


@pytest.fixture(scope="module")
def files(tmp_path_factory: pytest.TempPathFactory) -> list[Path]:
    """Files of different graphs: two samples, and two of more triples."""
    folder = tmp_path_factory.mktemp("files")
    made = []
    for count, name in [(500, "few"), (20_000, "many")]:
        lines = [f'<http://a/{name}/{n // 4}> <http://a/p{n % 7}> "{name} {n % 97}"@en .\n' for n in range(count)]
        (folder / f"{name}.nt").write_text("".join(lines))
        succeeds(PROGRAM, "build", folder / f"{name}.nt", folder / f"{name}.hdt")
        made.append(folder / f"{name}.hdt")
    return [SAMPLES / "three.hdt", SAMPLES / "v1.hdt", *made]


@pytest.fixture(scope="module")
def sharing(tmp_path_factory: pytest.TempPathFactory) -> Path:
    """The program whose threads share handles at random."""
    program = tmp_path_factory.mktemp("sharing") / "sharing"
    succeeds(CC, "-std=gnu11", *WARNINGS, "-O2", "-g", f"-I{HEADER.parent}", "-o", program, SOURCE, STATIC_LIBRARY,
             "-pthread", *WRAPPED)
    return program


@pytest.fixture(scope="module")
def server(tmp_path_factory: pytest.TempPathFactory) -> Path:
    """The program c/server.c."""
    return compiled_server(tmp_path_factory.mktemp("server"), SERVER.read_text())


def compiled_server(folder: Path, text: str) -> Path:
    """Compile a program of this text."""
    (folder / "server.c").write_text(text)
    succeeds(CC, "-std=c99", *WARNINGS, "-g", f"-I{HEADER.parent}", "-o", folder / "server", folder / "server.c",
             STATIC_LIBRARY, "-pthread")
    return folder / "server"


def things(done: Result) -> tuple[int, int]:
    """How many things the random threads did, and how many graphs they opened. None was wrong, and nothing is left."""
    found = re.fullmatch(rb"(\d+) things, (\d+) graphs, 0 wrong, 0 blocks left\n", done.out)
    assert done.status == 0 and found, done
    return int(found[1]), int(found[2])


# ---- at random


def test_at_random(sharing: Path, files: list[Path]) -> None:
    """Eight threads search, share, hand over and close; each answer is right, and all memory is freed."""
    done = run([sharing, str(THREADS), str(SECONDS), "0", "1", *files], seconds=PATIENCE)
    count, graphs = things(done)
    assert count > 1000 * SECONDS and graphs > THREADS


def test_more_threads_than_processors(sharing: Path, files: list[Path]) -> None:
    """64 threads on one small graph, which is opened and freed again and again."""
    count, graphs = things(run([sharing, "64", "100", "2000", "2", files[0]], seconds=PATIENCE))
    assert count == 64 * 2000 and graphs > 64


# ---- under valgrind


def under(tool: str, *command: Word) -> Result:
    """Run a command under a tool of valgrind."""
    return run(["valgrind", "-q", f"--error-exitcode={FOUND}", *TOOLS[tool], *command], seconds=PATIENCE)


@needs_valgrind
@pytest.mark.parametrize("tool", TOOLS)
def test_random_threads_under(tool: str, sharing: Path, files: list[Path]) -> None:
    """Nothing is read after it is freed, nothing is lost, and no two threads use memory without an order."""
    done = under(tool, sharing, "4", "100", "300", "3", *files[:3])
    assert things(done)[0] == 4 * 300
    assert done.err == b""


@needs_valgrind
@pytest.mark.parametrize("tool", TOOLS)
def test_server_under(tool: str, server: Path) -> None:
    """The server: no error, and its answers."""
    assert under(tool, server, SAMPLES / "three.hdt") == Result(0, b"u:a 2\nu:b 1\nu:c 0\n", b"")


@pytest.mark.parametrize("name", ["server", "replace"])
def test_programs_with_threads(name: str, tmp_path: Path) -> None:
    """The programs of c/ with threads compile without a warning, answer, and say what is wrong with a file."""
    program = compiled_server(tmp_path, (TOP / f"c/{name}.c").read_text())
    answers = {"server": b"u:a 2\nu:b 1\nu:c 0\n", "replace": b"3 3\n"}
    assert run([program, SAMPLES / "three.hdt"]) == (0, answers[name], b"")
    assert run([program, "/nowhere"], env={"LC_ALL": "C"}) == (1, b"", b"FILE: No such file or directory\n")
    assert run([program, TOP / "README.md"]) == (1, b"", b"reason 4\n")


@needs_valgrind
@pytest.mark.parametrize("tool", ["helgrind", "drd"])
def test_one_handle_in_two_threads_is_seen(tool: str, tmp_path: Path) -> None:
    """These tools see a handle that several threads use at the same time, so their silence says something."""
    own, one = "serve, &handles[i].graph)", "serve, &handles[0].graph)"
    text = SERVER.read_text()
    assert text.count(own) == 1
    server = compiled_server(tmp_path, text.replace(own, one))
    done = under(tool, server, SAMPLES / "three.hdt")
    assert done.status != 0 and (b"data race" in done.err or b"Conflicting" in done.err), done


# ---- the speed program


def test_speed_program(files: list[Path], tmp_path: Path) -> None:
    """c/speed_threads.c compiles, and prints a row for each kind of work, way and number of threads."""
    program = tmp_path / "speed"
    succeeds(CC, "-std=gnu11", *WARNINGS, f"-I{HEADER.parent}", "-o", program, TOP / "c/speed_threads.c",
             STATIC_LIBRARY, "-pthread")
    done = run([program, files[2], "0.01"], seconds=PATIENCE)
    rows = re.findall(r"^\| ([^|]+) \| ([^|]+) \| (\d) \| (\d+|-) \| ([\d.]+|-) \|$", done.out.decode(), re.M)
    assert done.status == 0 and len(rows) == 18
    assert re.search(r"^64 more handles take \d+ bytes and their own 8192; hdt_share \d+ ns, hdt_close \d+ ns$",
                     done.out.decode(), re.M)
