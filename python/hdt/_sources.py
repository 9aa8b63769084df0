"""What people build of: paths, folders, files that are open, triples, and several of them, as a list of sources."""

from __future__ import annotations

import io
import os
import stat
from collections.abc import Generator, Iterable, Iterator
from pathlib import Path as _Path
from typing import Any, BinaryIO, NamedTuple, Optional, Union, cast

from ._calls import Path
from ._compressed import PIECE, decompressed, pieces_of, suffix_by, suffix_of
from ._progress import Meter
from ._quads import Graphs
from ._syntaxes import HDT, NTRIPLES, SUFFIXES, syntax_of, without_compression
from ._triples import first_of, is_statement, is_triple, text_of

# One input: a path of a file or a folder, a binary file that is open, or triples. Or several of these.
Input = Union[Path, BinaryIO, Iterable[Any]]
_MOST = 100_000  # inputs
_IN_FOLDERS = [suffix for suffix, syntax in SUFFIXES.items() if syntax != HDT]  # (that may be what was built of it)


class Source(NamedTuple):
    """One input: its name for messages, its syntax, its size in bytes if that is known, and what it is read from."""

    name: Optional[str]
    syntax: str
    size: Optional[int]
    path: Optional[str] = None
    file: Any = None
    triples: Any = None

    def base(self) -> Optional[str]:
        """The IRI of the file, without the suffix of a compressed one, or None if it has no name."""
        return None if self.name is None else _Path(os.path.abspath(without_compression(self.name))).as_uri()

    def title(self) -> str:
        """The name for messages."""
        return "the input" if self.name is None else self.name

    def pieces(self, meter: Meter, graphs: Graphs) -> Generator[bytes, None, None]:
        """The text, without compression, in pieces. Raises OSError, and what the file or the triples raise."""
        if self.triples is not None:
            yield from text_of(self.triples, graphs)
        elif self.path is not None:
            with io.open(self.path, "rb", buffering=0) as file:
                yield from self._of(file, suffix_of(self.path), meter)
        else:
            yield from self._of(self.file, None, meter)

    def _of(self, file: Any, suffix: Optional[str], meter: Meter) -> Iterator[bytes]:
        """The text of a file. That of one without a path is looked at: GzipFile, say, gives text, and has the name."""
        pieces = meter.counted(pieces_of(file))
        if suffix is None:
            first = next(pieces, b"")
            while 0 < len(first) < 8 and (more := next(pieces, b"")):
                first += more
            suffix, pieces = suffix_by(first), _with(first, pieces)
        yield from decompressed(pieces, suffix, self.title()) if suffix else pieces


def _with(first: bytes, rest: Iterator[bytes]) -> Iterator[bytes]:
    if first:
        yield first
    yield from rest


def sources_of(given: Any, syntax: Optional[str]) -> list[Source]:
    """The sources of what was given to `build`, in order; the files of a folder by their names.

    Raises TypeError for what is no input, ValueError for a folder without one and for too many, OSError.
    """
    found: list[Source] = []
    for it in _each(given):
        found.extend(_sources(it, syntax))
        if len(found) > _MOST:
            raise ValueError(f"there are more than {_MOST:,} inputs")
    return found


def _is_path(it: Any) -> bool:
    return isinstance(it, (str, bytes, os.PathLike))


def _each(given: Any) -> Iterator[Any]:
    """The inputs: one, or those of an iterable that has no triples."""
    if _is_path(given) or hasattr(given, "read"):
        yield given
        return
    if not isinstance(given, Iterable):
        raise TypeError(f"an input is a path, a binary file, triples or several of them, not {type(given).__name__}")
    first, items = first_of(given)
    if is_triple(first):
        yield items
    elif first is not None:
        yield from items


def _sources(it: Any, syntax: Optional[str]) -> Iterator[Source]:
    """The sources of one input."""
    if _is_path(it) and not is_statement(it):
        name = os.fsdecode(cast(Path, it))
        if os.path.isdir(name):
            yield from _of_folder(name, syntax)
            return
        there = os.stat(name)
        size = there.st_size if stat.S_ISREG(there.st_mode) else None
        yield Source(name, syntax or syntax_of(name) or NTRIPLES, size, path=name)
    elif hasattr(it, "read"):
        given = getattr(it, "name", None)
        named = given if isinstance(given, str) and not given.startswith("<") else None
        yield Source(named, syntax or syntax_of(named or "") or NTRIPLES, None, file=_Binary(it))
    elif isinstance(it, Iterable) and not isinstance(it, tuple) and not is_statement(it):
        first, items = first_of(it)
        if first is not None and not is_triple(first):
            raise TypeError(f"an input in a list is a path, a binary file or triples, not an iterable of {first!r:.50}")
        yield Source(None, NTRIPLES, None, triples=items)
    else:
        raise TypeError(f"an input is a path, a binary file or an iterable of triples, not {it!r:.50}")


def _of_folder(name: str, syntax: Optional[str]) -> Iterator[Source]:
    """The regular files below a folder whose names have a suffix of RDF, in the order of their paths."""
    found = sorted(
        os.path.join(folder, each)
        for folder, _, names in os.walk(name, onerror=_raise)
        for each in names
        if syntax_of(each) not in (None, HDT) and not each.startswith(".")
    )
    if not found:
        raise ValueError(f"{name}: no file in this folder has a name that ends with {', '.join(_IN_FOLDERS)}")
    for path in found:
        for source in _sources(path, syntax):
            if source.size is None:  # (a pipe could hold this up for ever)
                raise ValueError(f"{path} is no regular file")
            yield source


def _raise(error: OSError) -> None:
    raise error


class _Binary:
    """A file that was given open. Raises TypeError for one that reads str, or that nothing can be read of now."""

    def __init__(self, file: Any) -> None:
        self._file = file

    def read(self, size: int = PIECE) -> bytes:
        """Read some bytes."""
        found = self._file.read(size)
        if not isinstance(found, (bytes, bytearray)):
            what = "nothing" if found is None else type(found).__name__
            raise TypeError(f"a file must be open in binary mode, and wait for its bytes: read() gave {what}")
        return bytes(found)
