"""Files that are mapped for one call, which reads them from start to end."""

from __future__ import annotations

import mmap
import threading

_SECONDS = 0.05  # between one time and the next that pages are given back


class Mapped:
    """A file that is mapped for a call which reads it once from its start to its end.

    A thread gives its pages back meanwhile, as they would count as memory of the process.
    """

    def __init__(self, descriptor: int) -> None:
        self._data = mmap.mmap(descriptor, 0, access=mmap.ACCESS_READ)
        self._is_read = threading.Event()
        self._thread = threading.Thread(target=self._give_back)

    def _give_back(self) -> None:
        while not self._is_read.wait(_SECONDS):
            self._data.madvise(mmap.MADV_DONTNEED)  # (those that are read again come from the file)

    def __enter__(self) -> mmap.mmap:
        self._thread.start()
        return self._data

    def __exit__(self, *_: object) -> None:
        self._is_read.set()
        self._thread.join()
        self._data.close()
