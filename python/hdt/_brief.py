"""Calls of the library that take microseconds as a rule: they keep Python's lock, which may take longer to get back."""

from __future__ import annotations

import ctypes
from time import perf_counter
from typing import Any

_LONG = 0.001  # seconds
_AFTER_LONG = 100  # calls


class Brief:
    """A call of the library that decodes one block of strings.

    That takes microseconds for blocks of sixteen strings, as of `build`. The block of a stranger may be as large as the
    file: if a call takes longer than a millisecond, the next hundred give up Python's lock.
    """

    def __init__(self, keeps: Any, gives_up: Any) -> None:
        """Take the call as it keeps Python's lock, and as it gives it up."""
        self._keeps, self._gives_up = keeps, gives_up
        self._keeps.restype = ctypes.c_uint64
        self._left = 0  # calls that give the lock up

    def call(self, *parameters: Any) -> Any:
        """The answer of the call.

        Checking the types of parameters would take half of the time. So each one is what C takes: a reference, `bytes`
        for a `char *`, a value of ctypes, or a small int for an `int`.
        """
        if self._left:
            self._left -= 1
            return self._gives_up(*parameters)
        begun = perf_counter()
        answer = self._keeps(*parameters)
        if perf_counter() - begun > _LONG:
            self._left = _AFTER_LONG
        return answer
