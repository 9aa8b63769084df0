"""The C library under test: compiling programs against it, its symbols, and the files that c/test.c reads."""

from __future__ import annotations

import os
import re
from collections.abc import Mapping
from pathlib import Path

from support.built import STATIC_LIBRARY, TOP
from support.program import Result, Word, run

HEADER = TOP / "c/hdt.h"
EXAMPLE = TOP / "c/example.c"
TEST = TOP / "c/test.c"
CC, CXX = os.environ.get("CC", "cc"), os.environ.get("CXX", "c++")
WARNINGS = ("-Wall", "-Wextra", "-pedantic", "-Werror")
# c/test.c counts what is allocated, and refuses allocations.
WRAPPED = tuple(f"-Wl,--wrap={name}" for name in ("malloc", "realloc", "free"))
SECONDS = 300


def succeeds(*command: Word, env: Mapping[str, str] | None = None, cwd: Path | None = None) -> str:
    """Run a command that has to end with status 0, and return what it prints, on both streams."""
    done = run(command, env=env, cwd=cwd, seconds=SECONDS)
    printed = (done.out + done.err).decode(errors="replace")
    assert done.status == 0, f"{' '.join(map(os.fsdecode, command))} ended with {done.status}:\n{printed[-6000:]}"
    return printed


def declared() -> set[str]:
    """The calls that the header declares."""
    return set(re.findall(r"\b(hdt_\w+)\(", re.sub(r"/\*.*?\*/", "", HEADER.read_text(), flags=re.S)))


def symbols(library: Path, *options: str) -> set[str]:
    """The symbols of a library that `nm` prints with these options, without versions."""
    lines = succeeds("nm", *options, library).splitlines()
    return {line.split()[-1].partition("@")[0] for line in lines if len(line.split()) > 1}


def compile_program(program: Path, source: Path, *options: Word, cwd: Path | None = None) -> Path:
    """Compile a C program without warnings, and return its path."""
    succeeds(CC, *WARNINGS, "-o", program, source, *options, cwd=cwd)
    return program


def compile_test(program: Path, source: Path, *options: Word, archive: Path = STATIC_LIBRARY) -> Path:
    """Compile c/test.c, or an object file made of it, against a static library."""
    head = (CC, "-std=gnu99", *WARNINGS, "-g", *options, f"-I{HEADER.parent}")
    succeeds(*head, "-o", program, source, archive, "-pthread", *WRAPPED)
    return program


def failures_of(done: Result) -> list[str]:
    """What c/test.c prints of failures: its FAILED lines, and how it ended if that is not `N passed, 0 failed`."""
    out = (done.out + done.err).decode(errors="replace")
    ended = re.search(r"^(\d+) passed, (\d+) failed\n\Z", out, re.M)
    failed = re.findall(r"^FAILED .*", out, re.M)
    if done.status != 0 or not ended or int(ended[1]) == 0 or int(ended[2]) != 0:
        failed.append(f"ended with status {done.status}: {out[-6000:]}")
    return failed


def passed_cases(done: Result) -> int:
    """How many cases c/test.c has passed."""
    ended = re.search(rb"^(\d+) passed, \d+ failed\n\Z", done.out, re.M)
    return int(ended[1]) if ended else 0


def file_reasons() -> list[str]:
    """The names of the errors of files, in the order of their numbers, as docs/FORMAT.md has them."""
    text = (TOP / "docs/FORMAT.md").read_text()
    table = text[text.index("## Reasons"):text.index("## The parts of a file")]
    rows = sorted((int(number), name) for number, name in re.findall(r"\| (\d+) (\w+)(?= \|)", table))
    assert [number for number, _ in rows] == list(range(1, len(rows) + 1))
    return [name for _, name in rows]


def text_reasons() -> list[str]:
    """The names of the errors of N-Triples, in the order of their numbers, as docs/NTRIPLES.md has them."""
    text = (TOP / "docs/NTRIPLES.md").read_text()
    rows = sorted({(int(number), name) for number, name in re.findall(r"(\d+) `(\w+)`", text)})
    assert [number for number, _ in rows] == list(range(1, len(rows) + 1))
    return [name for _, name in rows]
