"""The handles of an open graph: each serves one call at a time, so each call that runs has its own."""

from __future__ import annotations

import ctypes
from typing import Any, Optional

from . import _library
from ._calls import Counts, closed, counts_of
from ._forks import Locked
from ._library import Handle, Lent, Verdict, library

_FIRST_BYTES = 256  # room for a string; a longer one gets more,
_MOST_BYTES = 65_536  # which is kept for the next one if it is no more than this


def room_for(size: int) -> tuple[Any, Any, Any]:
    """Room for so many bytes, a reference to it, and its size as C has it."""
    room = ctypes.create_string_buffer(size)
    return room, ctypes.byref(room), ctypes.c_size_t(size)


class Shared(Locked):
    """A handle of a graph that has others, and room for a string. Its lock is held while a call uses them."""

    def __init__(self) -> None:
        super().__init__()
        self.handle = Handle()
        self.at = ctypes.byref(self.handle)
        self.room = room_for(_FIRST_BYTES)

    def _is_left_in_use(self) -> None:
        """The handle is with a thread that this process doesn't have: it is lost, and never closed."""
        self.handle = Handle()


class Handles(Locked):
    """The handles of an open graph, and the bytes that all of them borrow.

    A call takes a handle that is free, or a new one if there is none, so calls of several threads run at the same time.
    The first handle serves no call: others are shared from it, under the lock. Whether the graph is closed is known
    without a lock: a long call delays no other thread that only wants to know.
    """

    def __init__(self, data: Any) -> None:
        super().__init__()
        self._is_closed = False
        self._first: Optional[Handle] = None  # (or left in use by a thread of the process that forked this one)
        self._shared: list[Shared] = []
        self._free: list[Shared] = []  # (`pop` and `append` are whole, without a lock)
        self._lent = Lent(data)
        try:
            self._first, self._counts = self._opened()
        except BaseException:
            self._end()
            raise

    def _opened(self) -> tuple[Handle, Counts]:
        """The bytes, opened, and their counts. Raises what `open` raises."""
        handle, verdict = Handle(), Verdict()
        library.hdt_open(self._lent.address, self._lent.size, handle, verdict)
        return handle, counts_of(verdict)

    def __del__(self) -> None:
        if hasattr(self, "_lent"):
            self._end()

    def _end(self) -> None:
        """Close the graph, after all calls that run, and give its bytes back. A second call waits for these calls, too.

        A call that begins meanwhile finds the graph closed: it looks once it has the lock of its handle.
        """
        self._is_closed = True
        with self._lock:
            if self._first is not None:
                library.hdt_close(self._first)
        for shared in self._shared:  # (no more are made of a closed graph)
            with shared._lock:
                library.hdt_close(shared.handle)
        self._lent.give_back()

    def _is_left_in_use(self) -> None:
        """The first handle is with a thread that this process doesn't have: the bytes are opened again to share it."""
        self._first = None

    def _check_open(self) -> None:
        """Raises ValueError once the graph is closed."""
        if self._is_closed:
            raise closed()

    def _another(self) -> Shared:
        """Another handle. Raises ValueError once the graph is closed, and MemoryError."""
        shared = Shared()
        with self._lock, shared._lock:
            self._check_open()
            if self._first is None:
                self._first, self._counts = self._opened()
            self._shared.append(shared)  # (before it is open: so an interrupt leaves none that nobody closes)
            if library.hdt_share(self._first, shared.handle) != _library.DONE:
                self._shared.pop()
                raise MemoryError
        return shared

    # An interrupt may come between any two steps. Then a handle is in no list but `_shared`, with its lock free, and is
    # closed with the graph. (So the lock says whether a call runs, and not the list.)

    def _call(self, call: Any, parameters: tuple[Any, ...], is_brief: bool = False) -> Any:
        """The answer of a call, a `Brief` one or another, on a handle of its own. Raises what `_another` raises."""
        try:
            shared = self._free.pop()
        except IndexError:
            shared = self._another()
        try:
            with shared._lock:
                if self._is_closed:
                    raise closed()
                return call(shared.at if is_brief else shared.handle, *parameters)
        finally:
            self._free.append(shared)

    def _put(self, call: Any, *parameters: Any) -> Optional[bytes]:
        """The bytes that a call puts into a large enough buffer, or None if there are none. Raises what `_call` does.

        (It is `_call` once more, as the room is that of the handle.)
        """
        try:
            shared = self._free.pop()
        except IndexError:
            shared = self._another()
        try:
            room, at, room_size = shared.room
            most = len(room)
            with shared._lock:
                if self._is_closed:
                    raise closed()
                size: int = call(shared.at, *parameters, at, room_size)
                if most < size < _library.CLOSED:
                    larger = room, at, room_size = room_for(size)
                    most = size
                    size = call(shared.at, *parameters, at, room_size)
                    if most <= _MOST_BYTES:
                        shared.room = larger
            if size <= most:
                put: bytes = room[:size]
                return put
        finally:
            self._free.append(shared)
        if size == _library.NO_MEMORY:
            raise MemoryError
        return None
