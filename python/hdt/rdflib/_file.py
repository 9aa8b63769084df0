"""An open file, as the store and the evaluator of queries search it: spellings, terms and IDs."""

from __future__ import annotations

from bisect import bisect_left, bisect_right
from collections.abc import Iterable, Iterator, Sequence
from itertools import chain, islice, product
from typing import Any, Optional, TypeVar

import hdt
from hdt._rdflib_terms import string_of
from hdt.rdflib._terms import XSD_STRING, Kept, Term, term_of
from rdflib.term import Identifier

Ids = tuple[Optional[int], ...]
Page = list[tuple[int, int, int]]
Search = tuple[Optional[int], Optional[int], Optional[int]]  # the parameters of `hdt.Graph.find_ids`
T = TypeVar("T")

ROLES: tuple[hdt.Role, ...] = ("subject", "predicate", "object")
_MOST_LETTERS = 4  # of a tag whose spellings in both cases are looked up one by one
_FEW = 3  # terms that are made one by one
_FIRST = 64  # triples of the first page of a search
_PORTION = 4_096  # what is looked up at once, at most


def portions(found: Iterator[T]) -> Iterator[list[T]]:
    """What an iterator gives, in lists: the first of one, and longer ones after that."""
    size = 1
    while portion := list(islice(found, size)):
        yield portion
        size = min(4 * size, _PORTION)


class OpenFile:
    """An open file with the terms of it that are kept.

    Whoever goes through a file holds this, so that nothing is mixed if the store opens another file meanwhile. Subjects
    and objects together are the *nodes*, with one row of IDs: first the strings that are both, then those that are
    subjects only, then those that are objects only; and a predicate that is neither has its own ID, negated. So a term
    of the file is compared by its ID alone.
    """

    def __init__(self, graph: hdt.Graph, scope: str, exact: bool, keep: int) -> None:
        self.graph, self.scope, self.exact = graph, scope, exact
        self.shared, self.subjects = graph.counts.shared, graph.count("subject")
        self.more = self.subjects - self.shared
        self.node_term: Kept[int, Term] = Kept(keep, lambda node: self._term(*self.place(node)))
        self.predicate_term: Kept[int, Term] = Kept(keep, lambda number: self._term(1, number))
        self._of_predicate: Kept[int, int] = Kept(keep, lambda p: graph.matching_ids(None, p, None))
        self._like: Kept[tuple[int, str], tuple[int, ...]] = Kept(keep, self._spellings)
        self.node_of_predicate: Kept[int, int] = Kept(keep, self._node_of_predicate)
        # By role, the IDs to search for if it has to be the term with an ID, or a term that the file lacks.
        self.ids: tuple[Kept[Any, Ids], ...] = (
            Kept(keep, lambda node: self._ids_of_node(0, node)),
            Kept(keep, lambda node: self._ids_of_node(1, node)),
            Kept(keep, lambda node: self._ids_of_node(2, node)),
        )
        self._literals = [graph.ids_with_prefix('"', role) for role in ROLES]

    # ---- nodes

    def place(self, node: int) -> tuple[int, int]:
        """A role that has the node, and its number there."""
        if node < 0:
            return 1, -node
        return (0, node) if node <= self.subjects else (2, node - self.more)

    def node_of_object(self, number: int) -> int:
        """The node of an object."""
        return number if number <= self.shared else number + self.more

    def is_literal(self, role: int, number: int) -> bool:
        """Whether the string with an ID is that of a literal."""
        return any(number in literals for literals in self._literals[role])

    def nodes(self) -> Iterator[int]:
        """Each subject and object, once."""
        return iter(range(1, self.graph.count("object") + self.more + 1))

    def is_node(self, cell: Any) -> bool:
        """Whether what is an ID of this class, or a term, is a subject or an object."""
        if isinstance(cell, Identifier):
            return bool(self.ids[0][cell] or self.ids[2][cell])
        return bool(cell > 0)

    def node_of(self, string: str) -> Optional[int]:
        """The node with a string, be it that of a predicate only."""
        if (number := self.graph.number("subject", string)) is not None:
            return number
        if (number := self.graph.number("object", string)) is not None:
            return self.node_of_object(number)
        number = self.graph.number("predicate", string)
        return None if number is None else -number

    def _node_of_predicate(self, number: int) -> int:
        node = self.node_of(self.graph.string("predicate", number))
        return -number if node is None else node

    def subjects_of(self, predicate: int) -> set[int]:
        """The subjects that a predicate has. Their IDs are in memory."""
        return set(self.graph.id_array(None, predicate, None).column("subject"))

    def objects_of(self, predicate: int) -> set[int]:
        """The nodes that are objects of a predicate. Their IDs are in memory."""
        return set(map(self.node_of_object, self.graph.id_array(None, predicate, None).column("object")))

    def _ids_of_node(self, role: int, node: Any) -> Ids:
        """The IDs of a role that are the same term as a node, or as a term without a node (which only another spelling
        of a literal may have)."""
        if isinstance(node, Identifier):
            return () if self.exact else self.spellings(role, node)
        at, number = self.place(node)
        if not self.exact and self.is_literal(at, number):
            return self._like[role, self.graph.string(ROLES[at], number)]
        if at == role or (role != 1 and 0 < node <= self.shared):
            return (number,)
        return self._known(role, [self.graph.string(ROLES[at], number)]) if role == 1 else ()

    # ---- terms

    def _term(self, role: int, number: int) -> Term:
        return self._made(role, number, self.graph.string(ROLES[role], number))

    def _made(self, role: int, number: int, string: str) -> Term:
        try:
            return term_of(string, self.scope)
        except ValueError:
            raise hdt.NotATerm(ROLES[role], number) from None

    def node_terms(self, nodes: set[int]) -> dict[int, Term]:
        """The terms of nodes. Those that aren't kept are made of strings that are looked up together."""
        found, lacking = {}, []
        for node in nodes:
            if (term := self.node_term.known(node)) is None:
                lacking.append(node)
            else:
                found[node] = term
        if len(lacking) <= _FEW:
            found.update((node, self.node_term[node]) for node in lacking)
            return found
        lacking.sort()
        for node, string in zip(lacking, self.strings(lacking)):
            found[node] = self.node_term.keep(node, self._made(*self.place(node), string))
        return found

    def strings(self, nodes: list[int]) -> list[str]:
        """The strings of nodes that ascend, in their order."""
        first, middle = bisect_left(nodes, 0), bisect_right(nodes, self.subjects)
        strings = [self.graph.string("predicate", -node) for node in nodes[:first]]
        strings += self.graph.strings("subject", nodes[first:middle])
        return strings + self.graph.strings("object", [node - self.more for node in nodes[middle:]])

    # ---- spellings

    def spellings(self, role: int, term: object) -> tuple[int, ...]:
        """The IDs to search a role, 0 to 2, for a term: none if it isn't there."""
        string = string_of(term, self.scope)
        if string is None:
            return ()
        return self._like[role, string] if string.startswith('"') and not self.exact else self._known(role, [string])

    def _known(self, role: int, strings: Iterable[str]) -> tuple[int, ...]:
        """The IDs of those of the strings that the role has."""
        found = (self.graph.number(ROLES[role], string) for string in strings)
        return tuple(number for number in found if number is not None)

    def _spellings(self, key: tuple[int, str]) -> tuple[int, ...]:
        """The IDs of the strings of a role that are the same literal as a string: with the tag in any case, or with
        and without xsd:string."""
        role, string = key
        end = string.rindex('"') + 1
        front, tail = string[:end], string[end:]
        if tail.startswith("@"):
            if sum(map(str.isalpha, tail)) > _MOST_LETTERS:
                return tuple(self._tagged(role, front + "@", tail[1:].lower()))
            candidates = [front + "".join(tag) for tag in product(*(sorted({c.lower(), c.upper()}) for c in tail))]
        elif tail in ("", XSD_STRING):
            candidates = [front, front + XSD_STRING]
        else:
            candidates = [string]
        return self._known(role, candidates)

    def _tagged(self, role: int, front: str, tag: str) -> Iterator[int]:
        """The IDs of the strings of a role with that front, and behind it the tag in any case."""
        name = ROLES[role]
        for ids in self.graph.ids_with_prefix(front, name):
            for number, string in zip(ids, self.graph.strings(name, ids)):
                if string[len(front):].lower() == tag:
                    yield number

    # ---- searches

    def searches(self, pattern: Sequence[object]) -> list[Search]:
        """The searches that together answer a pattern of terms: one as a rule, none if a term can't be there."""
        s, p, o = ((None,) if term is None else self.spellings(role, term) for role, term in enumerate(pattern))
        return list(product(s, p, o))

    def count(self, searches: Iterable[Search]) -> int:
        """How many triples the searches find, one after another."""
        return sum(
            self._of_predicate[p] if s is None and o is None and p is not None else self.graph.matching_ids(s, p, o)
            for s, p, o in searches
        )

    def by_predicate(self) -> dict[int, int]:
        """How many triples each predicate has, by its ID."""
        return {number: count for number, (_, count) in enumerate(self.graph.predicates(), 1)}

    def has(self, searches: Iterable[Search]) -> bool:
        """Whether one of the searches finds a triple."""
        return any(self.graph.matching_ids(*search) for search in searches)

    def found(self, search: Search) -> Iterator[tuple[int, int, int]]:
        """The triples that a search finds, as IDs. As most of a join find few, the first page is asked for at once."""
        return chain.from_iterable(self.pages(search))

    def pages(self, search: Search) -> Iterator[Page]:
        """The triples that a search finds, in lists of up to 4,096, the first of up to 64; none of them is empty."""
        page, has_more = self.graph._first_ids(*search, _FIRST)
        if page:
            yield page
        if has_more:
            more = self.graph.find_ids(*search, start=_FIRST)
            while page := list(islice(more, _PORTION)):
                yield page

    def triples(self, given: Sequence[Any], searches: list[Search], skip: int = 0) -> Iterator[tuple[Any, Any, Any]]:
        """The triples that searches find, each once, as terms, without the first `skip` ones.

        The terms that are given are in them as they are given. Raises NotATerm.
        """
        if len(searches) == 1:
            yield from self._found(given, self.graph.find_ids(*searches[0], start=skip))
            return
        seen = set()
        for search in searches:
            for found in self._found(given, self.graph.find_ids(*search)):
                if found not in seen:
                    seen.add(found)
                    if len(seen) > skip:
                        yield found

    def _found(
        self, given: Sequence[Any], numbers: Iterator[tuple[int, int, int]]
    ) -> Iterator[tuple[Any, Any, Any]]:
        s, p, o = given
        shared, more, predicate = self.shared, self.more, self.predicate_term
        for portion in portions(numbers):
            nodes: set[int] = set()
            if s is None:
                nodes.update(a for a, _, _ in portion)
            if o is None:
                nodes.update(c if c <= shared else c + more for _, _, c in portion)
            node = self.node_terms(nodes)
            for a, b, c in portion:
                yield (
                    node[a] if s is None else s,
                    predicate[b] if p is None else p,
                    node[c if c <= shared else c + more] if o is None else o,
                )
