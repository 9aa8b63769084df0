"""Errors of graphs in parts."""

from __future__ import annotations

from typing import Any

from hdt._faults import LineFault


class InputFault(LineFault):
    """An input is not valid N-Triples, or an HDT file has a string that isn't; the line is then that of its dump.

    `path` names the input; `reason`, `name`, `line` and `column` are those of `hdt.LineFault`.

    >>> try:
    ...     hdt.parts.build(["graph.nt"], "other.parts", 2, longest_line=9)
    ... except hdt.parts.InputFault as fault:
    ...     print(fault)
    graph.nt: line 1 column 10: 9 TooLong
    """

    def __init__(self, path: str, reason: int, line: int, column: int) -> None:
        super().__init__(reason, line, column)
        self.path = path
        self.args = (f"{path}: {self.args[0]}",)

    def __reduce__(self) -> tuple[Any, Any]:
        return type(self), (self.path, self.reason, self.line, self.column)


class PartFault(ValueError):
    """A file of a folder is missing, damaged, or another one than it should be: `file` is its name.

    >>> error = hdt.parts.PartFault("part-00002.hdt", "is missing")
    >>> print(error)
    part-00002.hdt is missing
    """

    def __init__(self, file: str, what: str) -> None:
        super().__init__(f"{file} {what}")
        self.file, self.what = file, what

    def __reduce__(self) -> tuple[type, tuple[str, str]]:
        return type(self), (self.file, self.what)


class WorkerDied(RuntimeError):
    """The processes that an executor gave a task to died.

    An executor of processes of Python is of no use after that; one of Dask is, as it has tried other workers.

    >>> issubclass(hdt.parts.WorkerDied, RuntimeError)
    True
    """
