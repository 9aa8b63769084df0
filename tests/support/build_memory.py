"""What tests of `--memory` share: builds and merges, documents of many batches, and runs that are under way."""

from __future__ import annotations

import os
import signal
import subprocess
import sys
import tempfile
import time
from pathlib import Path
from typing import NamedTuple

from support.built import PROGRAM, TOP
from support.files import names
from support.large import Files
from support.program import Result, Word, brief, hdt, run

LEAST = "4M"
MIB = 1 << 20
SECONDS = 300


class Built(NamedTuple):
    """How a run ended, and what it left: the names in the folder of OUT, and the bytes of OUT."""

    result: Result
    names: list[str]
    file: bytes


def build(folder: Path, *words: Word, stdin: bytes = b"", cwd: Path | None = None, command: str = "build") -> Built:
    """Build or merge over an old `out.hdt` in a folder of its own."""
    folder.mkdir(exist_ok=True)
    out = folder / "out.hdt"
    out.write_bytes(b"before")
    result = hdt(command, *words, out, stdin=stdin, cwd=cwd, seconds=SECONDS)
    return Built(result, names(folder), out.read_bytes())


def check_same(folder: Path, *words: Word, stdin: bytes = b"", memory: str = LEAST, command: str = "build") -> Built:
    """Build or merge with and without `--memory`: the result and the file are the same, and nothing else is there."""
    plain = build(folder / "plain", *words, stdin=stdin, cwd=folder, command=command)
    little = build(folder / "little", "--memory", memory, *words, stdin=stdin, cwd=folder, command=command)
    assert (brief(little.result), little.names) == (brief(plain.result), ["out.hdt"])
    assert little.file == plain.file
    return little


# ---- documents of many batches

# Kinds of these documents, and how many lines they have.
LINES_OF = {"exported": 300_000, "shuffled": 300_000, "distinct": 100_000, "people": 100_000, "labels": 100_000,
            "short": 200_000, "long": 30_000}


class Documents:
    """These documents, which processes share."""

    def __init__(self, files: Files) -> None:
        self.files = files

    def path(self, kind: str) -> Path:
        """The document of this kind."""
        words: list[Word] = [sys.executable, "-B", "-m", "tools.documents", kind, str(LINES_OF[kind])]
        return self.files.made(f"many {kind}.nt", lambda: run(words, cwd=TOP, seconds=SECONDS).out)


def halves(files: Files, kind: str) -> list[Path]:
    """The files of the two halves of the document of this kind: of every second line."""
    lines = Documents(files).path(kind).read_bytes().splitlines(keepends=True)

    def made(half: list[bytes]) -> bytes:
        with tempfile.TemporaryDirectory() as folder:
            built = build(Path(folder) / "out", "-", stdin=b"".join(half))
        assert built.result.status == 0
        return built.file

    return [files.made(f"half {half} of {kind}.hdt", lambda: made(lines[half::2])) for half in range(2)]


# ---- runs that are under way


class Running:
    """A build or a merge over an old OUT that is under way, and its scratch files."""

    def __init__(self, folder: Path, *words: Word, command: str = "build") -> None:
        self.folder, self.out = folder, folder / "out.hdt"
        self.out.write_bytes(b"before")
        words = (PROGRAM, command, "--memory", "4M", *words, self.out)
        self.program = subprocess.Popen([os.fsencode(word) for word in words], stdout=subprocess.PIPE,
                                        stderr=subprocess.PIPE)

    def stop(self) -> bool:
        """Stop the program; whether it has stopped, and not ended before."""
        self.program.send_signal(signal.SIGSTOP)
        while self.program.poll() is None:
            if Path(f"/proc/{self.program.pid}/stat").read_text().rpartition(")")[2].split()[0] == "T":
                return True
            time.sleep(0.001)
        return False

    def resume(self) -> None:
        """Have the program go on."""
        self.program.send_signal(signal.SIGCONT)

    def scratch(self, parent: Path | None = None) -> list[Path]:
        """The scratch files, the oldest first."""
        folders = [it for it in (parent or self.folder).glob("hdt-unfinished-*") if it.is_dir()]
        assert len(folders) <= 1
        return sorted((path for it in folders for path in it.iterdir()), key=lambda path: (len(path.name), path.name))

    def end(self) -> Result:
        """How the program ends."""
        out, err = self.program.communicate(timeout=SECONDS)
        return Result(self.program.returncode, out, err)
