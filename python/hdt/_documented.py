"""Classes whose `help` has what they define, and not what all objects and exceptions have."""

from __future__ import annotations

from abc import ABCMeta


class Documented(type):
    """A class of which `dir` and `help` list the public names that it defines, or that others of this kind do.

    Deprecated names, and defaults of fields, are not listed.
    """

    def __dir__(cls) -> list[str]:
        """The public names."""
        found = [item for it in cls.__mro__ if isinstance(it, Documented) for item in vars(it).items()]
        named = [(name, it) for name, it in found if name[0] != "_" and it is not None]
        return [name for name, it in named if "deprecated" not in (it.__doc__ or "")]


class DocumentedABC(Documented, ABCMeta):
    """The same of a class below an abstract one, as a sequence or a tuple is."""
