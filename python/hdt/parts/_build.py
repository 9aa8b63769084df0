"""Building a folder: tasks split the inputs by subject, then a task for each part builds its file.

A task may run twice, or go on though its process was believed dead. So each attempt writes to files of its own in a
scratch folder, and gives their names back; files of the graph are only moved out of it here.
"""

from __future__ import annotations

import errno
import hashlib
import io
import operator
import os
import secrets
import shutil
import time
from collections.abc import Iterable, Sequence
from concurrent.futures import Executor
from contextlib import closing
from dataclasses import replace
from typing import NamedTuple, Optional

import hdt
from hdt._calls import Path
from hdt._files import built
from hdt._library import Made
from hdt._mapped import Mapped
from hdt.parts import _inputs
from hdt.parts._errors import InputFault
from hdt.parts._executor import Task, check, results
from hdt.parts._inputs import Range
from hdt.parts._manifest import MOST_PARTS, Manifest, Part, base_of, check_size, file_of
from hdt.parts._split import lines_of, split


class Pieces(NamedTuple):
    """A range that was split: the file with its blocks, and the bytes of each part."""

    file: str
    sizes: list[int]
    lines: int
    has_blank_nodes: bool


def build(
    inputs: Iterable[Path],
    folder: Path,
    parts: int,
    executor: Optional[Executor] = None,
    blank_nodes: Optional[str] = None,
    base: str = "http://example.org/dataset",
    block_size: int = 16,
    longest_line: Optional[int] = None,
) -> Manifest:
    """Build a graph in parts from N-Triples and HDT files, by their paths, and return its manifest.

    The names of HDT files end with `.hdt`, those of compressed files with `.gz`, also after `.hdt`.

    The folder gets `manifest.json` and a file for each part that has triples, `part-00000.hdt` and so on, of which a
    subject has one (`part_of`). Equal graphs give equal files, whatever the inputs, their order and the executor. The
    folder is made under another name beside it, and is either complete or not there.

    `executor` runs the tasks: one of `concurrent.futures`, or derived from it, as Dask's `Client.get_executor` gives.
    Its processes have to see the inputs and the folder by the same paths. Without one, this process runs them, one
    after another. `blank_nodes="one"` says that the inputs are pieces of one document, so a label is one node in all of
    them; `"apart"` that each is a document of its own: labels of the first input get the prefix `f0_`, those of the
    second one `f1_`. Without it, two inputs with blank nodes are an error. `base` and `block_size` are those of
    `hdt.build`; the base of a part has `#part-0-of-8` after it. A line with more than `longest_line` bytes, without its
    end, is an error, and no more of it is in memory: set it for documents of strangers.

    Errors: `InputFault` with the first error of the inputs, in their order (`TooLong`, in column `longest_line` + 1,
    for a line that is too long, whatever else is wrong with it); for an HDT file `hdt.Fault`, `hdt.NotATerm` for a
    string without a form in N-Triples, and `InputFault` with the line of `hdt dump`; `hdt.NoTriples`; FileExistsError,
    also if the folder was made meanwhile; ValueError for the options, and for an input that is no regular file;
    `WorkerDied`; MemoryError; OSError; TypeError. A task has 1 MiB of an input in memory, or a longer line, several
    times over, or the build of a part. One task splits a compressed file, or an HDT file, which a program of its own
    has in memory with up to 60 MB. The folder needs room for the inputs as N-Triples meanwhile, and for those of each
    part that is being built.

    >>> hdt.parts.build(["graph.nt", "graph.hdt"], "other.parts", 2).triples
    3
    """
    if isinstance(inputs, (str, bytes, os.PathLike)):
        raise TypeError("inputs are paths, not one path")
    names = [os.fsdecode(path) for path in inputs]
    count, size = operator.index(parts), operator.index(block_size)
    longest = None if longest_line is None else operator.index(longest_line)
    check(executor)
    if blank_nodes not in (None, "one", "apart"):
        raise ValueError('blank_nodes is "one", "apart" or None')
    if not 1 <= count <= MOST_PARTS:
        raise ValueError(f"the number of parts isn't 1 to {MOST_PARTS}")
    if not 1 <= size <= 65_535:
        raise ValueError("the block size isn't 1 to 65535")
    if longest is not None and longest < 0:
        raise ValueError("the longest line is negative")
    check_size(base, names, count)
    target = os.path.abspath(os.fsdecode(folder))
    _check_absent(target)
    os.stat(os.path.dirname(target))  # (an error names the folder that is missing)
    beside = f"{target}.unfinished-{secrets.token_hex(8)}"
    os.mkdir(beside)
    try:
        job = _Job(names, beside, count, executor, blank_nodes, base, size, longest)
        manifest = job.run()
        try:
            os.rename(job.made, target)
        except OSError:
            _check_absent(target)  # (another build may have made it meanwhile)
            raise
        _sync(os.path.dirname(target))
    finally:
        _remove(beside)
    return manifest


def _check_absent(target: str) -> None:
    """Raises FileExistsError if anything has the name of a folder, also a link that leads nowhere."""
    if os.path.lexists(target):
        raise FileExistsError(errno.EEXIST, os.strerror(errno.EEXIST), target)


class _Job:
    """What one call of `build` works on."""

    def __init__(
        self,
        names: list[str],
        folder: str,
        parts: int,
        executor: Optional[Executor],
        blank_nodes: Optional[str],
        base: str,
        block_size: int,
        longest: Optional[int],
    ) -> None:
        self._names, self._parts, self._executor = names, parts, executor
        self._paths = [os.path.abspath(name) for name in names]  # (a process may be in another folder)
        self._blank_nodes, self._base, self._block_size, self._longest = blank_nodes, base, block_size, longest
        self._scratch, self.made = os.path.join(folder, "scratch"), os.path.join(folder, "made")
        os.mkdir(self._scratch)
        os.mkdir(self.made)

    def run(self) -> Manifest:
        """Make the files and the manifest in `made`."""
        self._check_base()
        ranges = list(_inputs.ranges(self._paths))
        sizes = [os.stat(path).st_size for path in self._paths]
        rows = self._built(self._split(ranges))
        if not any(row.triples for row in rows):
            raise hdt.NoTriples("no triples")
        parts = []
        for number, row in enumerate(rows):
            if row.file:
                os.rename(row.file, os.path.join(self.made, file_of(number)))
            parts.append(replace(row, file=row.file and file_of(number)))
        inputs = tuple(zip(self._names, sizes))
        manifest = Manifest(self._base, self._block_size, self._blank_nodes or "one", inputs, tuple(parts))
        manifest.write(self.made)
        _sync(self.made)
        return manifest

    def _check_base(self) -> None:
        """Raises ValueError for a base that the library refuses, before any work."""
        text, made = os.path.join(self._scratch, "base.nt"), os.path.join(self._scratch, "base.hdt")
        with io.open(text, "w", encoding="ascii") as file:
            file.write("<x:> <x:> <x:> .\n")
        hdt.build(text, made, base_of(self._base, 0, self._parts))

    def _split(self, ranges: Sequence[Range]) -> list[Pieces]:
        """Split all ranges. Raises InputFault, and Fault and NotATerm with the name of their input."""
        tasks = []
        for number, it in enumerate(ranges):
            prefix = f"f{it.number}_" if self._blank_nodes == "apart" else ""
            what = f"the split of {self._names[it.number]}"
            call = number, it, self._parts, prefix, self._scratch, self._longest
            tasks.append(Task(self._executor, what, split_range, *call))
        found: list[Pieces] = []
        lines = [0] * len(self._paths)
        split_results = results(tasks)
        for it in ranges:
            name = self._names[it.number]
            try:
                found.append(next(split_results))
            except hdt.LineFault as fault:
                raise InputFault(name, fault.reason, lines[it.number] + fault.line, fault.column) from None
            except hdt.Fault as fault:
                raise hdt.Fault(fault.reason, fault.place, name) from None
            except hdt.NotATerm as error:
                raise hdt.NotATerm(error.role, error.number, name) from None
            lines[it.number] += found[-1].lines
        self._check_blank_nodes({it.number for it, pieces in zip(ranges, found) if pieces.has_blank_nodes})
        return found

    def _check_blank_nodes(self, having: set[int]) -> None:
        if self._blank_nodes is None and len(having) > 1:
            one, other, *_ = (self._names[number] for number in sorted(having))
            raise ValueError(
                f"{one} and {other} have blank nodes: say by blank_nodes whether a label is one node in all inputs "
                '("one"), or not ("apart")'
            )

    def _built(self, pieces: Sequence[Pieces]) -> list[Part]:
        """Build the files of all parts."""
        tasks = {}
        for number in range(self._parts):
            files = [each.file for each in pieces if each.sizes[number]]
            if files:
                call = build_part, number, self._parts, files, self._scratch, self._base, self._block_size
                tasks[number] = Task(self._executor, file_of(number), *call)
        found = dict(zip(tasks, results(tasks.values())))
        return [found.get(number, Part()) for number in range(self._parts)]


def _attempt(folder: str, name: str) -> str:
    """The path of a file that no other attempt at the same task has."""
    return os.path.join(folder, f"{name}.{os.getpid()}-{secrets.token_hex(8)}")


def split_range(
    number: int, it: Range, parts: int, prefix: str, folder: str, longest: Optional[int] = None
) -> Pieces:
    """A task: split a range of an input, block by block, into one file.

    Raises LineFault, whose line is counted from the range on, Fault and NotATerm without a path, OSError, MemoryError.
    """
    file, sizes = _attempt(folder, f"split-{number:05}"), [0] * parts
    lines, has_blank_nodes = 0, False
    with io.open(file, "xb") as out:
        try:
            with closing(_inputs.blocks(it, longest)) as blocks:
                for block in blocks:
                    found = split(block, parts, out, prefix.encode())
                    lines += found.lines
                    has_blank_nodes = has_blank_nodes or found.has_blank_nodes
                    sizes = list(map(operator.add, sizes, found.sizes))
        except hdt.LineFault as fault:
            raise hdt.LineFault(fault.reason, lines + fault.line, fault.column) from None
    return Pieces(file, sizes, lines, has_blank_nodes)


def build_part(number: int, parts: int, files: list[str], folder: str, base: str, block_size: int) -> Part:
    """A task: build the file of a part from its lines in the files of ranges. Its row has the path of the file.

    Raises OSError and MemoryError.
    """
    text, file = _attempt(folder, f"text-{number:05}"), _attempt(folder, f"part-{number:05}")
    with io.open(text, "xb") as out:
        for name in files:
            out.writelines(lines_of(name, number, parts))
    with Made() as made:
        with _Mapped(text) as lines:
            counts = built(lines, made, base_of(base, number, parts), block_size)
        data = made.view()
        with io.open(file, "xb") as out:
            out.write(data)
            out.flush()
            os.fsync(out.fileno())
        return Part(file, len(data), hashlib.sha256(data).hexdigest(), *counts)


class _Mapped(Mapped):
    """The same of a path, whose name goes."""

    def __init__(self, path: str) -> None:
        with io.open(path, "rb") as file:
            super().__init__(file.fileno())
        os.unlink(path)


def _sync(folder: str) -> None:
    """Hand the names in a folder to the disk."""
    descriptor = os.open(folder, os.O_RDONLY)
    try:
        os.fsync(descriptor)
    finally:
        os.close(descriptor)


def _remove(folder: str) -> None:
    """Remove a folder, in which tasks that are no longer wanted may still write for a moment."""
    for _ in range(100):
        shutil.rmtree(folder, ignore_errors=True)
        if not os.path.lexists(folder):
            return
        time.sleep(0.05)
