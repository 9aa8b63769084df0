"""The manifest of a folder of built files: what they are, what they were made of, and with which kit.

A manifest is a text of lines, each a word and its value: `kit` (the line of `rt version`), `glibc` (the least version
that the files run with), `sources` (the checksum that `tools/current --sources` prints), and for each file
`file SHA256 BYTES NAME`.
"""

from __future__ import annotations

import hashlib
import re
import subprocess
from pathlib import Path
from typing import NamedTuple

from tools.repository import TOP

PLATFORM = "x86_64-linux-gnu"
SHIPPED = TOP / "dist"
BUILT = TOP / "out"


class Manifest(NamedTuple):
    """What a MANIFEST says. `files` has the checksum and the size in bytes of each file, by its name."""

    kit: str
    glibc: str
    sources: str
    files: dict[str, tuple[str, int]]

    def text(self) -> str:
        """Return the manifest as it is written."""
        rows = [f"file {checksum} {size} {name}" for name, (checksum, size) in sorted(self.files.items())]
        return "\n".join([f"kit {self.kit}", f"glibc {self.glibc}", f"sources {self.sources}", *rows, ""])


def checksum(path: Path) -> str:
    """Return the sha256 of a file, in hexadecimal. Raises OSError."""
    return hashlib.sha256(path.read_bytes()).hexdigest()


def sources() -> str:
    """Return the checksum of the tree's sources, as `tools/current --sources` computes it."""
    words = [str(TOP / "tools/current"), "--sources"]
    return subprocess.run(words, check=True, stdout=subprocess.PIPE, text=True).stdout.strip()


def describe(folder: Path, kit: str) -> Manifest:
    """Return the manifest of the files in `folder`/PLATFORM, made with this kit of the tree's sources as they are.

    Its glibc is the greatest version whose symbols these files name.
    """
    files = sorted(it for it in (folder / PLATFORM).iterdir() if it.is_file())
    named = [pair for it in files for pair in re.findall(rb"GLIBC_(\d+)\.(\d+)", it.read_bytes())]
    major, minor = max([(int(one), int(other)) for one, other in named], default=(2, 17))
    told = {f"{PLATFORM}/{it.name}": (checksum(it), it.stat().st_size) for it in files}
    return Manifest(kit, f"{major}.{minor}", sources(), told)


def read(folder: Path) -> Manifest:
    """Read the manifest of a folder. Raises OSError, and ValueError where it is no manifest."""
    rows = [line.split(" ", 1) for line in (folder / "MANIFEST").read_text().splitlines() if " " in line]
    values = {word: value for word, value in rows if word != "file"}
    parts = [value.split(" ", 2) for word, value in rows if word == "file"]
    files = {name: (checksum, int(size)) for checksum, size, name in parts}
    try:
        return Manifest(values["kit"], values["glibc"], values["sources"], files)
    except KeyError as missing:
        raise ValueError(f"{folder / 'MANIFEST'} has no line {missing}") from None


def altered(folder: Path) -> list[str]:
    """Return the files of the folder's manifest that are missing or altered."""
    files = read(folder).files.items()
    return [it for it, (was, _) in files if not (folder / it).is_file() or checksum(folder / it) != was]


def current(folder: Path) -> Manifest:
    """Return the manifest of a folder whose files belong to the tree's sources. Raises OSError and ValueError."""
    made = read(folder)
    if made.sources != sources() or altered(folder):
        raise ValueError(f"{folder.name}/ does not belong to the sources")
    return made
