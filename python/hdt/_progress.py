"""Progress: how many bytes of the inputs have been read, told to a function, to tqdm or in lines."""

from __future__ import annotations

import importlib
import sys
import time
from collections.abc import Callable, Iterator
from typing import Any, Optional, Union

Progress = Union[bool, Callable[[int, Optional[int]], object]]

_SECONDS = 0.1  # between two calls
_LINE_SECONDS = 1.0  # between two lines


class Meter:
    """Counts bytes, and tells them, and of how many (None if that isn't known), at most ten times a second."""

    def __init__(self, progress: Progress, of: Optional[int]) -> None:
        self._of, self._read, self._next = of, 0, 0.0
        self._bar: Any = None
        self._tell: Optional[Callable[[int, Optional[int]], object]] = None
        if progress is True:
            self._bar = _bar(of)
            self._tell = self._advance if self._bar is not None else _Lines()
        elif progress:
            self._tell = progress

    def counted(self, pieces: Iterator[bytes]) -> Iterator[bytes]:
        """The same pieces, which are counted. Raises what the function raises."""
        for piece in pieces:
            yield piece
            self._read += len(piece)
            if self._tell is not None and time.monotonic() >= self._next:
                self._tell(self._read, self._of)
                self._next = time.monotonic() + _SECONDS

    def count(self, size: int) -> None:
        """Count bytes that were read otherwise. Raises what the function raises."""
        self._read += size
        if self._tell is not None:
            self._tell(self._read, self._of)

    def count_rest(self) -> None:
        """Count all that is left, if it is known how much that is. Raises what the function raises."""
        self.count((self._of or self._read) - self._read)

    def read(self) -> int:
        """The bytes so far."""
        return self._read

    def go_back(self, read: int) -> None:
        """Count from an earlier number on, for an input that is read again."""
        self._read = read

    def end(self) -> None:
        """Tell that all has been read."""
        if self._tell is not None:
            self._tell(self._read, self._of)

    def close(self) -> None:
        """End the bar, if there is one."""
        if self._bar is not None:
            self._bar.close()

    def _advance(self, read: int, _: Optional[int]) -> None:
        self._bar.update(read - self._bar.n)


def _bar(of: Optional[int]) -> Any:
    """A bar of tqdm; None if that isn't installed."""
    try:
        tqdm: Any = importlib.import_module("tqdm")
    except ImportError:
        return None
    return tqdm.tqdm(total=of, unit="B", unit_scale=True, unit_divisor=1024, desc="reading")


class _Lines:
    """Lines on standard error, as those of the command, at most one a second but for the last one."""

    def __init__(self) -> None:
        self._next, self._last = time.monotonic() + _LINE_SECONDS, -1

    def __call__(self, read: int, of: Optional[int]) -> None:
        if read == self._last or read != of and time.monotonic() < self._next:
            return
        self._next, self._last = time.monotonic() + _LINE_SECONDS, read
        print(f"hdt: read {read} bytes" if of is None else f"hdt: read {read} of {of} bytes", file=sys.stderr)
