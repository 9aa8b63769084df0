"""Triples of IDs in one array."""

from __future__ import annotations

import array
from collections.abc import Iterator, Sequence
from typing import Any, Union, overload

from ._calls import IdTriple, Role, role_number
from ._documented import DocumentedABC


def rows(ids: array.array[int]) -> Iterator[IdTriple]:
    """The triples of an array that has their IDs one after another."""
    each = iter(ids)
    return zip(each, each, each)


class IdArray(Sequence[IdTriple], metaclass=DocumentedABC):
    """Triples of IDs, 24 bytes each, without an object for each ID. `Graph.ids.array` makes it.

    It is a sequence of tuples; a slice is another one, with a copy. `array` has the IDs of its rows one after another,
    and lends them by the buffer protocol. `numpy.asarray` takes it as rows of three, without a copy.

    >>> with hdt.open("graph.hdt") as graph:
    ...     ids = graph.ids.array("u:a")
    >>> ids
    <hdt.IdArray of 2 triples>
    >>> list(ids), ids[-1], ids.array.tolist()
    ([(1, 1, 2), (1, 2, 3)], (1, 2, 3), [1, 1, 2, 1, 2, 3])
    """

    __slots__ = ("array",)

    def __init__(self, ids: array.array[int]) -> None:
        """Take an array of type code `Q`, three IDs a triple. Raises ValueError for another one."""
        if ids.typecode != "Q" or len(ids) % 3:
            raise ValueError("the array isn't of triples of type code Q")
        self.array: array.array[int] = ids

    def __len__(self) -> int:
        return len(self.array) // 3

    @overload
    def __getitem__(self, at: int) -> IdTriple:
        ...

    @overload
    def __getitem__(self, at: slice) -> IdArray:
        ...

    def __getitem__(self, at: Union[int, slice]) -> Union[IdTriple, IdArray]:
        if isinstance(at, slice):
            first, last, step = at.indices(len(self))
            if step == 1:
                return IdArray(self.array[3 * first : 3 * last])
            picked = array.array("Q", bytes(24 * len(range(first, last, step))))
            for role in range(3):
                picked[role::3] = array.array("Q", [self.array[3 * n + role] for n in range(first, last, step)])
            return IdArray(picked)
        row = range(len(self))[at]
        s, p, o = self.array[3 * row : 3 * row + 3]
        return s, p, o

    def __iter__(self) -> Iterator[IdTriple]:
        return rows(self.array)

    def __eq__(self, other: object) -> bool:
        return isinstance(other, IdArray) and self.array == other.array

    __hash__ = None  # type: ignore[assignment]

    def __repr__(self) -> str:
        return f"<hdt.IdArray of {len(self):,} triples>"

    def __reduce__(self) -> tuple[Any, ...]:
        return IdArray, (self.array,)

    def column(self, role: Role) -> array.array[int]:
        """The IDs of a role, in the order of the triples, as a new array. Linear time. Raises ValueError.

        >>> graph.ids.array().column("object")
        array('Q', [2, 3, 1])
        """
        return self.array[role_number(role) :: 3]

    @property
    def __array_interface__(self) -> dict[str, Any]:
        """What numpy takes it by."""
        return {"version": 3, "shape": (len(self), 3), "typestr": "<u8", "data": memoryview(self.array)}
