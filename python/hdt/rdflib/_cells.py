"""Rows of solutions, and what a cell of one stands for.

A row is a tuple. A cell is the ID of a node of the file, a term of rdflib that a query computed, or None where a
variable has no value. So a term of the file is made only if the query asks for more than whether two are the same.
"""

from __future__ import annotations

from collections.abc import Callable, Iterable, Sequence
from decimal import Decimal
from typing import Any, NamedTuple, Optional, Union

from hdt._rdflib_terms import string_of
from hdt.rdflib._file import OpenFile
from hdt.rdflib._terms import Kept, Term
from rdflib import XSD
from rdflib.plugins.sparql.sparql import FrozenBindings
from rdflib.term import BNode, Identifier, Literal, URIRef

Cell = Any
Row = tuple[Cell, ...]
Batch = list[Row]
Layout = dict[Any, int]  # the place of each variable in a row
Value = Union[int, float, Decimal]
Order = tuple[Any, ...]

FULL = 4_096  # rows of a batch, as a rule
_LONGEST = 4_000  # characters of a number: Python converts no integer of 4,301 digits
_MOST = 65_536  # answers that are kept, at most twice as many
_STRING = str(XSD.string)


class Number(NamedTuple):
    """The value of a literal that is a number, and its datatype."""

    value: Value
    datatype: URIRef


_INTEGERS = """integer nonPositiveInteger negativeInteger long int short byte nonNegativeInteger unsignedLong
    unsignedInt unsignedShort unsignedByte positiveInteger""".split()
_KINDS: dict[str, Callable[[str], Value]] = {
    "decimal": Decimal, "float": float, "double": float, **dict.fromkeys(_INTEGERS, int)}
NUMERIC = {XSD[name]: kind for name, kind in _KINDS.items()}
_TAILS = {f"^^<{datatype}>": datatype for datatype in NUMERIC}


def _number(text: str, datatype: URIRef) -> Optional[Number]:
    """The number that a literal is; None if its text isn't of its type. The time is linear in the text."""
    kind = NUMERIC[datatype]
    if len(text) > _LONGEST or "_" in text or (kind is Decimal and not set(text) <= set("+-.0123456789 \t\r\n")):
        return None
    try:
        return Number(kind(text), datatype)
    except (ValueError, ArithmeticError):
        return None


def number_of(term: object) -> Optional[Number]:
    """The number that a term is, or None."""
    if isinstance(term, Literal) and term.datatype in NUMERIC:
        return _number(str.__str__(term), term.datatype)
    return None


def _number_of_string(string: str) -> Optional[Number]:
    if not string.endswith(">") or not string.startswith('"'):
        return None
    end = string.rindex('"')
    datatype = _TAILS.get(string[end + 1:])
    return None if datatype is None else _number(string[1:end], datatype)


# ---- the order of ORDER BY, MIN and MAX

_NUMBERS = str(XSD.decimal)
_ORDERED = {"bool", "bytes", "date", "str", "timedelta"}


def order_of(term: Optional[Term]) -> Order:
    """What a term that is no number is sorted by: no value, blank nodes, IRIs, literals.

    Literals of one datatype are in the order of their values if Python has an order of them. Others are sorted by their
    datatypes, tags and texts, so that there is one order of all terms.
    """
    if term is None:
        return (0,)
    if isinstance(term, BNode):
        return 1, str(term)
    if isinstance(term, URIRef):
        return 2, str(term)
    return 3, str(term.datatype or _STRING), (term.language or "").lower(), *_order_of_value(term)


def order_of_number(value: Value) -> Order:
    """What a number is sorted by: NaN first."""
    is_nan = value != value
    return 3, _NUMBERS, "", not is_nan, 0 if is_nan else value


def _order_of_value(literal: Literal) -> Order:
    value, name = literal.value, type(literal.value).__name__
    if name in ("datetime", "time"):
        return f"{name} {value.tzinfo is not None}", value
    return (name, value) if name in _ORDERED else ("", str(literal))


# ---- cells


class Cells:
    """What the cells of a query over a file stand for. What was looked up is kept, up to a bound."""

    def __init__(self, file: OpenFile) -> None:
        self.file = file
        self._numbers: dict[Cell, Optional[Number]] = {}
        self._orders: dict[Cell, Order] = {}
        self._same: Kept[Cell, Cell] = Kept(_MOST, self._same_as)

    def terms(self, cells: Iterable[Cell]) -> dict[Cell, Term]:
        """The terms of the IDs among some cells, by ID: `.get(cell, cell)` is that of each cell. Raises NotATerm."""
        return self.file.node_terms({cell for cell in cells if cell is not None and not isinstance(cell, Identifier)})

    def same(self, cells: Iterable[Cell]) -> dict[Cell, Cell]:
        """Those of the cells which are compared by another one, with it: so that equal terms have equal cells.

        Terms are equal as rdflib says: tags of either case are the same. A term that the file has is compared by its
        ID, and a literal with a tag by itself.
        """
        is_literal, place, found = self.file.is_literal, self.file.place, {}
        for cell in set(cells):
            if cell is not None and (isinstance(cell, Identifier) or is_literal(*place(cell))):
                other = self._same[cell]
                if other is not cell:
                    found[cell] = other
        return found

    def _same_as(self, cell: Cell) -> Cell:
        if not isinstance(cell, Identifier):
            term = self.file.node_term[cell]
            return term if isinstance(term, Literal) and term.language else cell
        if isinstance(cell, Literal) and cell.language:
            return cell
        node = self.known(cell)
        return cell if node is None else node

    def known(self, term: Identifier) -> Optional[Cell]:
        """The ID of a term, in its spelling, if the file has it."""
        string = string_of(term, self.file.scope)
        return None if string is None else self.file.node_of(string)

    def numbers(self, cells: set[Cell]) -> dict[Cell, Optional[Number]]:
        """The numbers that cells are, each converted once while it is kept."""
        known = self._numbers
        if len(known) > 2 * _MOST:
            known.clear()
        ids = []
        for cell in cells:
            if isinstance(cell, Identifier):
                known[cell] = number_of(cell)
            elif cell not in known:
                ids.append(cell)
        ids.sort()
        known.update(zip(ids, map(_number_of_string, self.file.strings(ids))))
        return known

    def orders(self, cells: set[Optional[Cell]]) -> dict[Optional[Cell], Order]:
        """What cells are sorted by."""
        known = self._orders
        if len(known) > 2 * _MOST:
            known.clear()
        known[None] = order_of(None)
        numbers = self.numbers(cells - {None})
        others = []
        for cell in cells - {None}:
            if (number := numbers[cell]) is not None:
                known[cell] = order_of_number(number.value)
            elif isinstance(cell, Identifier) or cell not in known:
                others.append(cell)
        terms = self.terms(others)
        known.update((cell, order_of(terms.get(cell, cell))) for cell in others)
        return known


class Solution(FrozenBindings):
    """Bindings in a dictionary of their own, which isn't copied, and whose keys aren't checked where they are there."""

    def __init__(self, ctx: Any, bindings: dict[Any, Any]) -> None:
        self._d, self._hash, self.ctx = bindings, None, ctx

    def items(self) -> Any:
        return self._d.items()

    def get(self, key: Any, default: Any = None) -> Any:
        found = self._d.get(key)
        return super().get(key, default) if found is None else found


def layout_of(schema: Sequence[Any]) -> Layout:
    """The place of each variable of a row."""
    return {variable: at for at, variable in enumerate(schema)}
