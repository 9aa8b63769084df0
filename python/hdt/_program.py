"""The program `hdt` that belongs to this package."""

from __future__ import annotations

import os
import re
import shutil
from collections.abc import Generator, Iterator
from contextlib import closing
from typing import NoReturn, Optional

from ._faults import Fault, NotATerm
from ._library import library
from ._process import ProgramFailed, piped

_FAULT = re.compile(r"hdt: fault (\d+) \w+ at (\d+)$", re.M)
_NOT_A_TERM = re.compile(r"hdt: (\w+) (\d+) is not a term$", re.M)
_MAGIC = b"\x7fELF"  # of a program that is no script, as that of an installed package, which would run this again


def path() -> str:
    """The program beside the library that is used, in the package, or in PATH. Raises FileNotFoundError."""
    used = library._name
    candidates = [
        os.path.join(os.path.dirname(used), "hdt") if os.path.isabs(used) else "",
        os.path.join(os.path.dirname(os.path.abspath(__file__)), "bin/hdt"),
        shutil.which("hdt") or "",
    ]
    for it in candidates:
        if os.path.isfile(it) and os.access(it, os.X_OK) and _is_program(it):
            return it
    raise FileNotFoundError("the program hdt is neither beside the library, nor in the package, nor in PATH")


def _is_program(it: str) -> bool:
    with open(it, "rb") as file:
        return file.read(len(_MAGIC)) == _MAGIC


def run(words: list[str]) -> NoReturn:
    """Go on as the program, with these arguments. Raises OSError."""
    there = path()
    os.execv(there, [there, *words])


def dumped(pieces: Iterator[bytes], name: Optional[str]) -> Generator[bytes, None, None]:
    """The triples of an HDT file as N-Triples, in pieces: none if it has an error. The program keeps the whole file.

    Raises Fault and NotATerm with the name, MemoryError, OSError, and what `pieces` raise.
    """
    try:
        with closing(piped([path(), "dump", "-"], pieces)) as found:
            yield from found
    except ProgramFailed as error:
        raise _error(error, name) from None


def _error(error: ProgramFailed, name: Optional[str]) -> Exception:
    """The exception for a dump that failed."""
    if fault := _FAULT.match(error.said):
        return Fault(int(fault[1]), int(fault[2]), name)
    if string := _NOT_A_TERM.match(error.said):
        return NotATerm(string[1], int(string[2]), name)
    return MemoryError() if error.status == 4 else ChildProcessError(f"{error}: {error.first_line()}")
