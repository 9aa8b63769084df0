"""Answers of the probe programs, by the reference."""

from __future__ import annotations

from collections.abc import Callable
from typing import TypeVar

from reference.hdt import Error
from support.probe import Answer, Argument, ok

T = TypeVar("T")

REFUSED: Answer = ("refused",)


def answered(read: Callable[..., T], args: tuple[object, ...], values: Callable[[T], tuple[Argument, ...]]) -> Answer:
    """The answer that follows from the reference: `values` of what it reads, or its error."""
    try:
        found = read(*args)
    except Error as error:
        return error.answer
    return ok(*values(found))
