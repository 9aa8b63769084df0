"""Graphs in parts: files that are built, and searched as one graph, by one process or many.

    import hdt.parts
    from concurrent.futures import ProcessPoolExecutor

    with ProcessPoolExecutor() as executor:
        hdt.parts.build(["a.nt.gz", "b.nt.gz"], "graph.parts", 16, executor, blank_nodes="apart")
    with hdt.parts.open("graph.parts") as graph:
        print(len(graph), graph.matching(p="http://example.org/name"))
        for subject, predicate, object in graph.find("http://example.org/a"):
            print(predicate, object)
    hdt.parts.merge("graph.parts", "graph.hdt")

A build needs memory for a part at a time. A search for a subject asks one part, any other one asks all of them. Most
graphs need no parts: one file is smaller, and built and searched faster by one process.

An executor is one of `concurrent.futures`, or derived from it, as those of Dask (`Client.get_executor()`) and mpi4py:
tasks are given paths, numbers and text, and give the same. All processes have to see the folder by one path. A
program that starts processes has to be a file, and needs `if __name__ == "__main__":`, unless they are forked.

Exceptions, besides those of `hdt`: `InputFault`, a LineFault with the path of an input; `PartFault`, a ValueError, for
a file of the folder that is missing, damaged or another one; `WorkerDied`, a RuntimeError.
"""

from __future__ import annotations

from hdt.parts._build import build
from hdt.parts._errors import InputFault, PartFault, WorkerDied
from hdt.parts._graph import Graph, Order, open
from hdt.parts._manifest import Manifest, Part, part_of
from hdt.parts._merging import merge
from hdt.parts.string_ids import open_any

__all__ = [
    "Graph", "InputFault", "Manifest", "Order", "Part", "PartFault", "WorkerDied",
    "build", "merge", "open", "open_any", "part_of",
]

for _name in __all__:
    if _name != "Order":
        globals()[_name].__module__ = __name__  # (so they are shown and pickled by their public names)
