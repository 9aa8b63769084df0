"""The text of a query as rdflib's algebra, with three repairs of its translation."""

from __future__ import annotations

import re
from collections.abc import Iterator
from typing import Any, Optional

from pyparsing import ParseResults
from rdflib.plugins.sparql.algebra import translateQuery
from rdflib.plugins.sparql.parser import parseQuery
from rdflib.plugins.sparql.parserutils import CompValue, Expr

_VARIABLE = re.compile(r"[?$](\w+)")


class _Exists(Expr):
    """EXISTS, whose pattern is translated once. rdflib does so twice within another one, and loses it thereby."""

    def __setattr__(self, name: str, value: Any) -> None:
        if name != "graph" or "graph" not in self.__dict__:
            super().__setattr__(name, value)


def translated(query: str, base: Optional[str], namespaces: Any) -> tuple[Any, Any]:
    """The algebra of a query, and what DESCRIBE names: None if it is another query. Raises what rdflib raises."""
    parsed = parseQuery(query)
    form = parsed[1]
    for part in parts_of(form):
        if part.name in ("Builtin_EXISTS", "Builtin_NOTEXISTS"):
            part.__class__ = _Exists
    is_describe = form.name == "DescribeQuery"
    if is_describe and not form.where:  # (without a pattern rdflib 6.1.1 can't translate it)
        form["where"] = CompValue("GroupGraphPatternSub", part=[])
    translation = translateQuery(parsed, base, namespaces)
    if not form.projection and translation.algebra.PV:  # (`SELECT *` has the variables in any order, by rdflib)
        found = list(dict.fromkeys(_VARIABLE.findall(query)))
        translation.algebra.PV.sort(key=lambda it: found.index(str(it)) if str(it) in found else len(found))
    return translation, list(form.var or []) if is_describe else None


def parts_of(tree: Any) -> Iterator[CompValue]:
    """The parts of a parsed query."""
    left = [tree]
    while left:
        it = left.pop()
        if isinstance(it, CompValue):
            yield it
            left += list(it.values())
        elif isinstance(it, (list, tuple, ParseResults)):
            left += list(it)
