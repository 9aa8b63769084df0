"""The docstrings of a Python module: which calls have them, what they lack, and whether their examples are right."""

from __future__ import annotations

import doctest
import inspect
import re
from collections.abc import Mapping
from typing import Any

Names = Mapping[str, Any]


def public(exported: Names) -> dict[str, Any]:
    """What is exported, and the public methods and properties of its classes, by their names."""
    members = {
        f"{name}.{key}": getattr(kind, key)
        for name, kind in exported.items() if inspect.isclass(kind) for key in vars(kind) if not key.startswith("_")
    }
    return {**exported, **{name: it for name, it in members.items() if callable(it) or isinstance(it, property)}}


def examples(exported: Names, words: Names) -> dict[str, doctest.DocTest]:
    """The examples of what is exported and of its members, or of a module itself, by their names. They know `words`."""
    found: dict[str, doctest.DocTest] = {}
    for name, it in exported.items():
        finder = doctest.DocTestFinder(recurse=not inspect.ismodule(it))
        found.update((test.name, test) for test in finder.find(it, name, module=False, globs={**words}))
    return {name: test for name, test in found.items() if test.examples}


def check_example(example: doctest.DocTest) -> None:
    """The examples of a docstring give what they say."""
    told: list[str] = []
    result = doctest.DocTestRunner(verbose=False).run(example, out=told.append)
    assert (result.failed, "".join(told)) == (0, "")
    assert result.attempted > 0


def lacking(words: str, names: Names) -> set[str]:
    """The names whose docstring has no such words."""
    return {name for name, it in names.items() if not re.search(words, inspect.getdoc(it) or "")}


def calls(names: Names) -> dict[str, inspect.Signature]:
    """The signatures of functions and methods."""
    return {name: inspect.signature(it) for name, it in names.items() if inspect.isroutine(it)}


def untyped(names: Names) -> list[str]:
    """The names of functions and methods that have a parameter or a result without a type."""
    empty = inspect.Signature.empty
    return [
        name for name, it in calls(names).items()
        if it.return_annotation is empty
        or any(one.annotation is empty for key, one in it.parameters.items() if key not in ("self", "cls"))
    ]
