"""Merging: one file of many, or of open graphs."""

from __future__ import annotations

import ctypes
import operator
import os
from collections.abc import Iterable, Iterator, Sequence
from contextlib import ExitStack, closing, contextmanager
from typing import Any, Optional, Union, cast

from . import _library
from ._build import check_header
from ._calls import Counts, Path, closed, counts_of, encoded
from ._faults import NoTriples
from ._files import _checked, replace
from ._graph import Graph
from ._library import Handle, Made, PlainHandle, Report, library
from ._low_memory import LowMemory
from ._progress import Meter, Progress


@contextmanager
def _kept_open(graph: Graph) -> Iterator[Handle]:
    """A handle of a graph, which stays open meanwhile: a `close` in another thread waits, as for any call.

    Raises ValueError if the graph is closed, and MemoryError.
    """
    try:
        shared = graph._free.pop()
    except IndexError:
        shared = graph._another()
    try:
        with shared._lock:
            if graph._is_closed:
                raise closed()
            yield shared.handle
    finally:
        graph._free.append(shared)


class _Row:
    """Handles of graphs side by side, as the library takes them. Used with `with`, they are closed behind it."""

    def __init__(self, graphs: Sequence[Graph]) -> None:
        self._graphs = graphs
        self._handles: Any = (PlainHandle * len(graphs))()
        self._kept = ExitStack()

    def __enter__(self) -> Any:
        try:
            for graph, handle in zip(self._graphs, self._handles):
                first, other = self._kept.enter_context(_kept_open(graph)), ctypes.pointer(handle)
                if library.hdt_share(first, ctypes.cast(other, ctypes.POINTER(Handle))) != _library.DONE:
                    raise MemoryError
        except BaseException:
            self.__exit__()
            raise
        return self._handles

    def __exit__(self, *_: object) -> None:
        with self._kept:
            for handle in self._handles:
                library.hdt_close(ctypes.cast(ctypes.pointer(handle), ctypes.POINTER(Handle)))


def merged(
    graphs: Sequence[Graph], made: Made, base: str, block_size: int, blank_nodes: Optional[str] = None
) -> Counts:
    """Make the file of all triples of these graphs, and return its counts. Raises what `merge` does, but OSError."""
    report, name, word, size = Report(), encoded(base), _library.BLANK_NODES[blank_nodes], _checked(block_size)
    with _Row(graphs) as row:
        library.hdt_merge_with(ctypes.addressof(row), len(graphs), word, name, len(name), size, made, report)
    return counts_of(report)


def _opened(inputs: Sequence[Union[Path, Graph]], kept: ExitStack, progress: Progress) -> list[Graph]:
    """The graphs of the inputs, of which those of paths are closed with `kept`. Raises what `merge` does."""
    sizes = [0 if isinstance(it, Graph) else os.stat(os.fsdecode(it)).st_size for it in inputs]
    graphs = []
    with closing(Meter(progress, sum(sizes))) as meter:
        for it, size in zip(inputs, sizes):
            graphs.append(it if isinstance(it, Graph) else kept.enter_context(Graph._of_file(it, None)))
            meter.count(size)
    return graphs


def merge_files(
    paths: Iterable[Path],
    out_path: Path,
    base: str,
    block_size: int,
    blank_nodes: Optional[str],
    low: LowMemory,
    progress: Progress = False,
) -> Counts:
    """What `merge` does with memory. Raises what it does."""
    names = list(map(os.fsdecode, paths))
    options = [f"--base={base}", f"--block-size={operator.index(block_size)}", f"--blank-nodes={blank_nodes or 'one'}"]
    with closing(Meter(progress, sum(os.stat(name).st_size for name in names))) as meter:
        return low.merge(names, out_path, options, meter)


def merge(
    inputs: Iterable[Union[Path, Graph]],
    out_path: Path,
    base: str = "http://example.org/dataset",
    block_size: int = 16,
    progress: Progress = False,
    *,
    blank_nodes: Optional[str] = None,
    memory: Union[int, str, None] = None,
    scratch: Optional[Path] = None,
) -> Counts:
    """Merge files, by their paths, and open graphs into one file of all their triples, and return its counts.

    The file is the one that `build` makes of the triples as one text, so a blank node label in two inputs is one node
    (`blank_nodes="one"`) or, by `"apart"`, several: labels get the prefix `f0_`, `f1_` and so on, also a single
    input's. `base` and `block_size` are those of `build`. The output is replaced atomically, and may be one of the
    inputs. Graphs stay open. `progress` is that of `build`, of the bytes of opened files; the merge comes after it.
    With `memory` and `scratch`, as of `build`, inputs are paths, and the program `hdt` makes the same file in about so
    much beside the largest input, with scratch files, in more time.

    Errors: `Fault` with an input's path; ValueError for options and a closed graph; `NoTriples` without an input;
    TypeError; MemoryError; OSError; what `progress` raises. The time is linear in the inputs, with their strings
    decoded, except for sorting. Memory beside the inputs, which are all open: their strings, front-coded, with 24 bytes
    each, and the distinct ones again; 5 to 9 bytes a triple, and as much for sorting, with 24 MB; and the file.

    >>> hdt.merge([graph, "graph.hdt"], "merged.hdt")
    Counts(triples=3, shared=2, subjects=0, predicates=2, objects=1)
    """
    if isinstance(inputs, (str, bytes, os.PathLike, Graph)):
        raise TypeError("inputs are paths and graphs, not one of them")
    if blank_nodes not in (None, "one", "apart"):
        raise ValueError('blank_nodes is "one", "apart" or None')
    given, low = list(inputs), LowMemory.of(memory, scratch)
    check_header(base, block_size)
    if not given:
        raise NoTriples("there are no inputs")
    if low is not None:
        return merge_files(cast("list[Path]", given), out_path, base, block_size, blank_nodes, low, progress)
    with ExitStack() as kept, Made() as made:
        counts = merged(_opened(given, kept, progress), made, base, block_size, blank_nodes)
        replace(out_path, made.view())
    return counts
