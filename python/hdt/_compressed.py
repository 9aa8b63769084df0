"""Compressed inputs: gzip, bzip2, xz and Zstandard, decompressed piece by piece.

What is cut, damaged or followed by anything is an OSError: also a second stream of a bzip2 file that is damaged where
it begins, which the module bz2 takes for the end.
"""

from __future__ import annotations

import bz2
import gzip
import importlib
import io
import lzma
import shutil
import zlib
from collections.abc import Iterator
from contextlib import closing
from typing import Any, BinaryIO, Callable, Optional, cast

from ._faults import NoConverter
from ._process import ProgramFailed, piped

PIECE = 1024 * 1024  # bytes that are read at once, and at most decompressed at once
_MEMORY = 256 * 1024 * 1024  # bytes that an xz stream may ask for: `xz -9` asks for 65 MiB

# How a compressed file begins, and the suffix of its name.
_MAGIC = {".gz": b"\x1f\x8b", ".bz2": b"BZh", ".xz": b"\xfd7zXZ\0", ".zst": b"\x28\xb5\x2f\xfd"}
SUFFIXES = tuple(_MAGIC)
_NAMES = {".gz": "gzip", ".bz2": "bzip2", ".xz": "xz", ".zst": "Zstandard"}


def suffix_of(name: str) -> str:
    """The suffix of a name that says how the file is compressed, in lower case, or an empty string."""
    return next((suffix for suffix in SUFFIXES if name.lower().endswith(suffix)), "")


def suffix_by(start: bytes) -> str:
    """The suffix that a file with these first bytes should have. No RDF text begins like that."""
    return next((suffix for suffix, magic in _MAGIC.items() if start.startswith(magic)), "")


def decompressed(pieces: Iterator[bytes], suffix: str, name: str) -> Iterator[bytes]:
    """The bytes of a compressed file, in pieces of at most 1 MiB.

    Raises OSError with the name if it isn't a whole file of its kind, NoConverter if Zstandard can't be read here, and
    what `pieces` raise. The time is linear in the bytes that come out. Memory: a piece, the window of the file (up to
    128 MiB, for xz 256 MiB).
    """
    try:
        yield from _READERS[suffix](pieces, name)
    except (EOFError, zlib.error, gzip.BadGzipFile, lzma.LZMAError, _Damaged) as error:
        raise OSError(f"{name}: not a whole {_NAMES[suffix]} file: {error}") from error


class _Damaged(Exception):
    """A file that is damaged."""


class Pieces(io.RawIOBase):
    """Pieces as a file."""

    def __init__(self, pieces: Iterator[bytes]) -> None:
        self._pieces, self._left = pieces, memoryview(b"")

    def readable(self) -> bool:
        return True

    def readinto(self, room: Any) -> int:
        self._left = self._left or memoryview(next(self._pieces, b""))
        size = min(len(room), len(self._left))
        room[:size] = self._left[:size]
        self._left = self._left[size:]
        return size


def _gzip(pieces: Iterator[bytes], _: str) -> Iterator[bytes]:
    with gzip.GzipFile(fileobj=io.BufferedReader(Pieces(_not_empty(pieces)), PIECE)) as file:
        yield from iter(lambda: file.read(PIECE), b"")


def _bzip2(pieces: Iterator[bytes], _: str) -> Iterator[bytes]:
    return _streams(pieces, bz2.BZ2Decompressor, b"")


def _xz(pieces: Iterator[bytes], _: str) -> Iterator[bytes]:
    return _streams(pieces, lambda: lzma.LZMADecompressor(lzma.FORMAT_XZ, _MEMORY), b"\0")


def _streams(pieces: Iterator[bytes], new: Callable[[], Any], padding: bytes) -> Iterator[bytes]:
    """The bytes of streams one after another, between and after which padding may be."""
    stream, has_begun = new(), False
    for piece in _not_empty(pieces):
        left = piece
        while has_begun or (left := left.lstrip(padding) if padding else left):
            try:
                found, has_begun, left = stream.decompress(left, PIECE), True, b""
            except (OSError, ValueError) as error:
                raise _Damaged(str(error)) from error
            if found:
                yield found
            if stream.eof:
                left, stream, has_begun = stream.unused_data, new(), False
            elif stream.needs_input:
                break
    if has_begun:
        raise EOFError("it ends too early")


def _not_empty(pieces: Iterator[bytes]) -> Iterator[bytes]:
    """The same, but an error for no bytes at all."""
    first = next(pieces, b"")
    if not first:
        raise EOFError("it is empty")
    yield first
    yield from pieces


def _zstandard(pieces: Iterator[bytes], name: str) -> Iterator[bytes]:
    """By the program zstd, which reads the frames one after another and checks them; else by the module."""
    program = shutil.which("zstd")
    if program:
        try:
            with closing(piped([program, "-q", "-d", "-c"], pieces)) as found:
                yield from found
            return
        except ProgramFailed as error:
            raise _Damaged(error.first_line() or str(error)) from error
    module = _module("zstandard")
    if module is None:
        raise NoConverter(f"{name}: reading it needs the program zstd (Debian: zstd) or the package zstandard (PyPI)")
    yield from _zstandard_by(module, pieces)


def _zstandard_by(module: Any, pieces: Iterator[bytes]) -> Iterator[bytes]:
    """By the module zstandard, frame by frame: read across frames it would take a cut one for the end.

    It gives all that an input decompresses to at once: at most 8 MiB for 256 bytes.
    """
    short = (piece[at : at + 256] for piece in _not_empty(pieces) for at in range(0, len(piece), 256))
    yield from _streams(short, lambda: _Frame(module), b"")


class _Frame:
    """One frame, in the form of the decompressors of bz2 and lzma."""

    needs_input = True

    def __init__(self, module: Any) -> None:
        self._module, self._frame = module, module.ZstdDecompressor(max_window_size=2**27).decompressobj()
        self.eof, self.unused_data = False, b""

    def decompress(self, data: bytes, _: int) -> bytes:
        try:
            found = cast(bytes, self._frame.decompress(data))
        except self._module.ZstdError as error:
            raise _Damaged(str(error)) from error
        self.eof, self.unused_data = self._frame.eof, self._frame.unused_data
        return found


def _module(name: str) -> Optional[Any]:
    try:
        return importlib.import_module(name)
    except ImportError:
        return None


def pieces_of(file: BinaryIO) -> Iterator[bytes]:
    """The bytes of a file that is open for reading, in pieces."""
    yield from iter(lambda: file.read(PIECE), b"")


_READERS = {".gz": _gzip, ".bz2": _bzip2, ".xz": _xz, ".zst": _zstandard}
