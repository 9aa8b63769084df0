"""Building and merging in about a given amount of memory: by the program `hdt`, which keeps the rest in scratch files.

The program runs as a child. It makes the file in a new folder beside the output, and scratch files in it or in another
new folder. Both are removed at the end, also if the child was killed.
"""

from __future__ import annotations

import errno
import operator
import os
import re
import subprocess
import tempfile
from collections.abc import Iterable, Iterator, Mapping, Sequence
from contextlib import ExitStack
from typing import IO, NamedTuple, Optional, Union

from . import _program
from ._calls import Counts, Path
from ._faults import Fault, LineFault, NoTriples
from ._files import move, target_of, unfinished
from ._progress import Meter

_LEAST = 4 * 1024 * 1024  # bytes of memory
_UNITS = {"": 1, "K": 2**10, "M": 2**20, "G": 2**30}
_SIZE = re.compile(r"([0-9]+)([KMG]?)")
_LINE_FAULT = re.compile(r"line (\d+) column (\d+): (\d+) ")
_FAULT = re.compile(r"fault (\d+) \w+ at (\d+)")
_READ = re.compile(rb"hdt: read (\d+) of (\d+) bytes")
_PHASE = re.compile(rb"hdt: (batch|merge) \d+")
_NUMBERS = {os.strerror(number): number for number in errno.errorcode}  # of errors of the system


def size_of(memory: Union[int, str]) -> int:
    """The bytes of a number or of a text as "64M". Raises ValueError for another text and for under 4M, TypeError."""
    if isinstance(memory, str):
        found = _SIZE.fullmatch(memory)
        if found is None:
            raise ValueError(f"{memory!r} is no size of memory: it is a number of bytes, perhaps with K, M or G")
        size = int(found[1]) * _UNITS[found[2]]
    else:
        size = operator.index(memory)
    if not _LEAST <= size < 2**64:
        raise ValueError("the memory of a build is 4M or more, and below 2^64 bytes")
    return size


class LowMemory(NamedTuple):
    """The memory in bytes, the folder for scratch files (None: that of the output), and the program."""

    size: int
    scratch: Optional[str]
    program: str

    @classmethod
    def of(cls, memory: Union[int, str, None], scratch: Optional[Path]) -> Optional[LowMemory]:
        """What a call was told; None without memory. Raises ValueError, TypeError, FileNotFoundError (no program)."""
        if memory is None:
            if scratch is not None:
                raise ValueError("scratch is the folder of a build with memory")
            return None
        size = size_of(memory)
        if scratch is not None:
            os.stat(scratch)  # (so it is missed before any work)
        told = None if scratch is None else os.path.abspath(os.fsdecode(scratch))
        return cls(size, told, os.path.abspath(_program.path()))  # (as the program runs in another folder)

    def build(self, text: IO[bytes], out_path: Path, options: list[str], path: Optional[Path] = None) -> Counts:
        """Build the file of N-Triples, read from its current position, and return its counts.

        The options are the program's. Errors are those of `hdt.build`, with the path of the text.
        """
        names = {"-": None if path is None else os.fsdecode(path)}
        return self._made("build", options, names, out_path, text, Meter(False, None))

    def merge(self, paths: Sequence[str], out_path: Path, options: list[str], meter: Meter) -> Counts:
        """Merge HDT files, whose bytes are counted, and return the counts of the new one.

        The options are the program's. Errors are those of `hdt.merge`.
        """
        names = {str(number): path for number, path in enumerate(paths)}
        return self._made("merge", ["--progress", *options], names, out_path, None, meter)

    def _made(
        self,
        command: str,
        options: Sequence[str],
        names: Mapping[str, Optional[str]],
        out_path: Path,
        text: Optional[IO[bytes]],
        meter: Meter,
    ) -> Counts:
        """Run a command on inputs, of which each is a text (`-`) or has a link to it beside the new file."""
        with ExitStack() as kept:
            folder = kept.enter_context(unfinished(self._beside(out_path), out_path))
            scratch = folder if self.scratch is None else kept.enter_context(unfinished(self.scratch, self.scratch))
            _check_text(folder, scratch)
            if text is None:
                for word, name in names.items():
                    os.symlink(os.path.abspath(str(name)), os.path.join(folder, word))
            made = os.path.join(folder, "out.hdt")
            limits = f"--memory={self.size}", f"--scratch={scratch}"
            words = [self.program, command, *limits, *options, *names, made]
            status, counts, said = _run(words, text, folder, meter)
            if status:
                raise _error(status, said.decode("utf-8", "replace"), names, out_path)
            meter.count_rest()
            move(made, out_path)
        return Counts(*map(int, counts.split()[1:6]))

    def _beside(self, out_path: Path) -> str:
        """The folder of the output; if that is a device, the one for scratch files."""
        target, is_replaced = target_of(out_path)
        return os.path.dirname(target) if is_replaced else self.scratch or tempfile.gettempdir()


def _check_text(*paths: str) -> None:
    """Raises ValueError for a path that is not UTF-8, which the program takes as no argument."""
    for path in paths:
        try:
            os.fsencode(path).decode()
        except UnicodeDecodeError:
            raise ValueError(f"a call with memory takes paths in UTF-8, not {path!r}") from None


def _run(words: list[str], text: Optional[IO[bytes]], folder: str, meter: Meter) -> tuple[int, bytes, bytes]:
    """Run the program in a folder, and give its status and what it printed. It has ended behind this.

    It ignores SIGXFSZ, as Python does: so a limit of the size of files is an error, and ends it by no signal. Raises
    OSError, and what the meter raises.
    """
    given: Union[int, IO[bytes]] = subprocess.DEVNULL if text is None else text
    pipe = subprocess.PIPE
    with subprocess.Popen(words, stdin=given, stdout=pipe, stderr=pipe, cwd=folder, restore_signals=False) as child:
        try:
            said = b"".join(_counted(child.stderr or (), meter))
            counts, _ = child.communicate()
        finally:
            child.kill()  # (nothing, if it has ended)
            child.wait()
    return child.returncode, counts, said


def _counted(lines: Iterable[bytes], meter: Meter) -> Iterator[bytes]:
    """What the program said, without the lines of its progress. The bytes of inputs are counted.

    An input follows another one if its size is another, or if fewer bytes have been read.
    """
    last = 0, 0
    for line in lines:
        if found := _READ.match(line):
            read, of = map(int, found.groups())
            meter.count(read - last[0] if of == last[1] and read >= last[0] else read)
            last = read, of
        elif not _PHASE.match(line):
            yield line


def _error(status: int, said: str, names: Mapping[str, Optional[str]], out_path: Path) -> Exception:
    """The exception for a status of the program, negative for a signal, and what it said of inputs with these names."""
    first, _, more = said.partition("\n")
    message = first.partition(": ")[2]  # (after `hdt` or `error`)
    word, _, rest = message.partition(": ")
    name, message = (names[word], rest) if word in names else (names.get("-"), message)
    if line_fault := _LINE_FAULT.match(message):
        line, column, reason = map(int, line_fault.groups())
        return LineFault(reason, line, column, name)
    if fault := _FAULT.match(message):
        return Fault(int(fault[1]), int(fault[2]), name)
    if status == 1:
        return NoTriples(message, name)
    if status == 2:
        return ValueError(message)
    if status == 3:
        why = more.strip().rpartition(": ")[2]  # the system's reason, after a path
        file = names.get(more.strip().partition(": ")[0]) or os.fsdecode(out_path)
        return OSError(_NUMBERS.get(why, errno.EIO), why if why in _NUMBERS else message, file)
    if status == 4:
        return MemoryError()
    return ChildProcessError(f"the program hdt ended with status {status}: {message}")
