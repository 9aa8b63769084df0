"""Properties that are computed once."""

from __future__ import annotations

from typing import Any, Callable, Generic, TypeVar

T = TypeVar("T")


class once(Generic[T]):
    """A property of an object that is computed when it is first asked for, and kept in the object.

    Before Python 3.12 functools.cached_property has one lock for all objects: threads would make their pages in turn.
    """

    def __init__(self, compute: Callable[[Any], T]) -> None:
        self._compute, self.__doc__ = compute, compute.__doc__

    def __set_name__(self, _: type, name: str) -> None:
        self._name = name

    def __get__(self, it: Any, _: Any = None) -> T:
        value: T = self._compute(it)
        it.__dict__[self._name] = value  # (which is found before this one from now on)
        return value
