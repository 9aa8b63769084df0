"""What tools share: the crates of crates.txt, the Rattle kit, the built files, and the form of command lines."""

from __future__ import annotations

import argparse
import os
import re
import shutil
import subprocess
import sys
from collections.abc import Iterator, Mapping
from functools import lru_cache
from pathlib import Path

TOP = Path(__file__).resolve().parent.parent
# What is made in a file that is else written by hand: the lines between `# of the help:`, say, and `# end`.
MADE = re.compile(r'^( *(?:#|\.\\") of [^\n]*:\n).*?^( *(?:#|\.\\") end\n)', re.M | re.S)


class Failed(Exception):
    """A step of a tool failed; the message says which, and where to read on."""


class NoKit(Failed):
    """There is no Rattle kit on this machine: no command `rt` on the path."""


def command_line(name: str, text: str | None) -> argparse.ArgumentParser:
    """Return the parser of the command line of a tool with this name and this documentation."""
    form = argparse.RawDescriptionHelpFormatter
    return argparse.ArgumentParser(prog=f"python3 -m tools.{name}", description=text, formatter_class=form)


def with_parts(text: str, parts: list[str]) -> str:
    """Return the text of a file with these parts, in their order, in place of the lines that are made in it."""
    left = iter(parts)
    new, count = MADE.subn(lambda it: it[1] + next(left) + it[2], text)
    assert count == len(parts)
    return new


def print_table(columns: list[str], rows: dict[str, list[int]]) -> None:
    """Print a table in Markdown with a row for each crate, and their sums."""
    print(f"| crate | {' | '.join(columns)} |\n{'|---' * (len(columns) + 1)}|")
    for name, row in {**rows, "together": [sum(it) for it in zip(*rows.values())]}.items():
        print(f"| {name} | {' | '.join(f'{it:,}' for it in row)} |")


def lines_of(*words: str, env: Mapping[str, str] | None = None) -> Iterator[str]:
    """Run a command at the top of the repository, and give what it prints line by line. Raises Failed if it fails."""
    pipe, both, whole = subprocess.PIPE, subprocess.STDOUT, {**os.environ, **(env or {})}
    ran = subprocess.Popen(words, cwd=TOP, stdout=pipe, stderr=both, text=True, errors="replace", env=whole)
    assert ran.stdout
    yield from ran.stdout
    if ran.wait():
        raise Failed(f"{' '.join(words)} ended with status {ran.returncode}")


def lanes() -> int:
    """Return how many checks may run side by side: one a processor, four at most, and one for each 2.5 GB of memory."""
    found = re.search(r"MemAvailable:\s+(\d+)", Path("/proc/meminfo").read_text())
    return max(1, min(4, len(os.sched_getaffinity(0)), int(found[1]) // 2_500_000 if found else 1))


@lru_cache(maxsize=None)
def kit() -> Path:
    """Return the kit's folder. Raises NoKit."""
    found = shutil.which("rt")
    if not found:
        raise NoKit("there is no Rattle kit on this machine (no command rt on the path)")
    return Path(found).resolve().parent.parent


@lru_cache(maxsize=None)
def kit_line() -> str:
    """Return the kit's one-line identity, as `rt version` prints it. Raises NoKit."""
    kit()
    return subprocess.run(["rt", "version"], check=True, stdout=subprocess.PIPE, text=True).stdout.strip()


@lru_cache(maxsize=None)
def built() -> Path:
    """Return the folder of built files: that of HDT_BUILT, else the one that belongs to the sources.

    Ends the program if there is none, with the line of `tools/current`.
    """
    if named := os.environ.get("HDT_BUILT"):
        return Path(named).resolve()
    ran = subprocess.run(TOP / "tools/current", stdout=subprocess.PIPE, text=True)
    return TOP / ran.stdout.strip() if ran.returncode == 0 else sys.exit(2)


def crates(top: Path = TOP) -> dict[str, list[str]]:
    """Return the crates of crates.txt in its order, each with the libraries that it uses."""
    rows = [row.partition("#")[0].strip() for row in (top / "crates.txt").read_text().splitlines()]
    return {row.partition(":")[0].split()[0]: row.partition(":")[2].split() for row in rows if row}


def below(name: str, uses: dict[str, list[str]]) -> list[str]:
    """Return the crates of the repository that a crate stands on, each after those that it uses itself."""
    found: list[str] = []
    for crate in uses[name]:
        if crate in uses:
            found += [it for it in [*below(crate, uses), crate] if it not in found]
    return found


class Crate:
    """A crate of the repository, and how the kit's prover is called on it."""

    def __init__(self, name: str, top: Path = TOP) -> None:
        self.name, self.top, self.uses = name, top, crates(top)
        self.folder = top / "crates" / name
        self.is_program = (self.folder / "src/main.rt").is_file()
        self.root = "src/main.rt" if self.is_program else "src/lib.rt"

    def below(self) -> list[str]:
        """Return the crates of the repository that this one stands on, lowest first."""
        return below(self.name, self.uses)

    def library(self, name: str) -> Path:
        """Return where `rt ci` leaves the built library of a crate."""
        return self.top / "crates" / name / "out/rlib" / f"{name}.rlib"

    def missing(self) -> list[str]:
        """Return the crates below whose library is not built."""
        return [it for it in self.below() if not self.library(it).is_dir()]

    def rattle(self, command: str) -> list[str]:
        """Return the words that run a command of the prover, `check` or `build`, in the crate's folder.

        The libraries below are those that `rt ci` has built.
        """
        words = ["rattle", command, "--crate-name", self.name, self.root]
        for name in ["std", *self.uses[self.name]]:
            library = self.library(name) if name in self.uses else kit() / f"rlibs/{name}.rlib"
            words += ["--extern", f"{name}={library}"]
        words += ["-L", f"dependency={kit()}/rlibs"]
        for name in self.below():
            words += ["-L", f"dependency={self.library(name).parent}"]
        words += ["--antt-project", f"{kit()}/rattle/logic/antt-project.json", "--logic-built", f"{kit()}/logic_built"]
        return [*words, "--links", f"{self.name}="]
