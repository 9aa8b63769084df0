"""Opening a file for searches."""

from __future__ import annotations

from typing import Optional

from ._calls import Path
from ._graph import Graph


def open(path: Path, copy: Optional[bool] = None) -> Graph:
    """Open a file for searches: use it in a `with` statement, or call `close`.

    The whole file is validated first. A file under 64 MiB is read into memory, a larger one is mapped, which processes
    share; `copy=True` reads any, `copy=False` maps any. A mapped file must not change while the graph is open: one that
    is cut or overwritten in place ends the process by a signal (SIGBUS). Rename a new file over it, as `build` does.
    Errors: `Fault`, MemoryError, OSError. Time and memory, for the indexes, are linear in the file.

    >>> with hdt.open("graph.hdt") as graph: print(len(graph), graph.count("subject"))
    3 2
    """
    return Graph._of_file(path, copy)
