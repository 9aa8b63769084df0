"""What the parts of a query become."""

from __future__ import annotations

from collections.abc import Iterable, Iterator
from typing import Any, NamedTuple

from hdt.rdflib._cells import Batch, Layout, Row


class Filter:
    """A test of rows that a join makes as soon as the variables have their values."""

    variables: frozenset[Any]

    def passing(self, batch: Batch, layout: Layout) -> Batch:
        """Those of the rows that pass."""
        raise NotImplementedError


class Operator:
    """A part of a query: it makes rows of rows.

    Rows that come out begin with those that come in. `schema` are their variables, of which those in `certain` have a
    value in each row.
    """

    schema: tuple[Any, ...]
    certain: frozenset[Any]

    def run(self, batches: Iterable[Batch]) -> Iterator[Batch]:
        """The rows for the rows of some batches."""
        raise NotImplementedError

    def holds(self, row: Row) -> bool:
        """Whether there is a row for a row."""
        return any(batch for batch in self.run([[row]]))


class Given(NamedTuple):
    """The rows that come into an operator."""

    schema: tuple[Any, ...]
    certain: frozenset[Any]
