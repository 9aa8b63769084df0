"""Locks that a forked child can take: one that another thread held at the fork would never be free in the child."""

from __future__ import annotations

import os
import threading
import weakref


class Locked:
    """What threads share under a lock, `_lock`. A forked child has a new lock if the old one was held at the fork."""

    def __init__(self) -> None:
        self._lock = threading.Lock()
        _all.add(self)

    def _is_left_in_use(self) -> None:
        """Called in such a child: the thread that held the lock isn't there, so what it was changing may be torn."""


_all: weakref.WeakSet[Locked] = weakref.WeakSet()


def _after_fork() -> None:
    for it in list(_all):
        if it._lock.acquire(blocking=False):  # (`locked` says no of a lock that a thread is just given)
            it._lock.release()
        else:
            it._lock = threading.Lock()
            it._is_left_in_use()


os.register_at_fork(after_in_child=_after_fork)
