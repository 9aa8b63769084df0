"""The commands in `tools/`, and small trees that they run in."""

from __future__ import annotations

import sys
from collections.abc import Mapping
from pathlib import Path

from support.built import TOP
from support.program import Result, run


def tool(name: str, *words: str | Path, path: str = "", top: Path = TOP) -> Result:
    """Run a module of the `tools` of a tree as a command; `path` is the PATH, if it is another one."""
    env = {"COLUMNS": "100", **({"PATH": path} if path else {})}
    return run([sys.executable, "-B", "-m", f"tools.{name}", *words], cwd=top, env=env, seconds=600)


def write(top: Path, files: Mapping[str, str]) -> Path:
    """Write files into a folder, which may be run, and return it."""
    for name, text in files.items():
        (top / name).parent.mkdir(parents=True, exist_ok=True)
        (top / name).write_text(text)
        (top / name).chmod(0o755)
    return top


def change(top: Path, file: str, old: str, new: str) -> None:
    """Replace a text that is in a file once; if that is empty, write a new file."""
    text = (top / file).read_text() if old else ""
    assert text.count(old) == 1, (file, old)
    write(top, {file: text.replace(old, new)})
