"""docs/SERVERS.md: its program in Rust is run, as test_documents runs that in Python, c/replace.c too; it is short."""

from __future__ import annotations

import re
from pathlib import Path

import pytest

from support.built import SAMPLES, TOP
from support.program import run
from support.rust_crate import compiled, needs_cargo, programs
from test_c_sharing import TOOLS, compiled_server, needs_valgrind, under

PAGE = "docs/SERVERS.md"


def test_size() -> None:
    """The page has at most 6 KiB."""
    assert len((TOP / PAGE).read_bytes()) <= 6 * 1024


@needs_valgrind
@pytest.mark.parametrize("tool", TOOLS)
def test_c_program_under(tool: str, tmp_path: Path) -> None:
    """The program in C uses no memory that is freed, frees all, and has no race."""
    program = compiled_server(tmp_path, (TOP / "c/replace.c").read_text())
    assert under(tool, program, SAMPLES / "three.hdt") == (0, b"3 3\n", b"")


@needs_cargo
def test_rust_program(tmp_path_factory: pytest.TempPathFactory, tmp_path: Path) -> None:
    """The program in Rust compiles without a warning, and prints what its comments say."""
    (program,) = programs(TOP / PAGE)
    (tmp_path / "samples").symlink_to(SAMPLES)
    done = run([compiled(tmp_path_factory, program)], cwd=tmp_path)
    assert done == (0, "".join(f"{it}\n" for it in re.findall("println!.*; // (.*)", program)).encode(), b"")
    assert done.out.count(b"\n") == 2
