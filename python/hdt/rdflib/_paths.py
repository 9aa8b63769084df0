"""Property paths over IDs, without recursion over the graph.

`p*`, `p+` and `p?` give each node that they lead to once (SPARQL 1.1, 18.4): a breadth-first search over pairs of a
node and a state of an automaton, so from one start each triple is looked at once for each step of the path that it may
be, however often nodes lead back to one another. `/`, `|` and `!` elsewhere give a node as often as ways lead to it.
"""

from __future__ import annotations

from collections import Counter
from collections.abc import Iterable, Iterator
from itertools import chain
from typing import Any, Optional, Union

from hdt.rdflib._file import OpenFile
from rdflib.paths import AlternativePath, InvPath, MulPath, NegatedPath, Path, SequencePath
from rdflib.term import URIRef

Node = Any
Found = Iterable[Node]

_DUE = 16  # searches along a predicate, after which it is asked whether its triples are read into a table,
_READ = 6  # which takes about as long as one search for so many triples
_MOST_READ = 100_000  # triples of a table


class Edge:
    """One step over a triple of some predicates, or back over one."""

    gives_once = False

    def __init__(self, file: OpenFile, back: bool) -> None:
        self.file, self.back = file, back
        self.role = 2 if back else 0

    def _found(self, predicate: Optional[int], node: Node) -> Iterator[tuple[int, int, int]]:
        for number in self.file.ids[self.role][node]:
            search = (None, predicate, number) if self.back else (number, predicate, None)
            yield from self.file.found(search)

    def follow(self, node: Node) -> Found:
        """The nodes that one step leads to."""
        raise NotImplementedError

    def starts(self) -> Found:
        """The nodes from which there is a step, each once."""
        raise NotImplementedError


class Link(Edge):
    """A step over a triple of a predicate. After many steps its triples are read at once, if they are not too many."""

    def __init__(self, file: OpenFile, predicate: int, back: bool) -> None:
        super().__init__(file, back)
        self.predicate = predicate
        self.count = file.count([(None, predicate, None)])
        self.asked = 0
        self.table: Optional[dict[Any, list[Node]]] = None

    def follow(self, node: Node) -> Found:
        """The nodes that one step leads to."""
        if self.table is None:
            self.asked += 1
            if self.asked <= _DUE or self.count > min(_READ * self.asked, _MOST_READ):
                node_of_object, found = self.file.node_of_object, self._found(self.predicate, node)
                return [s for s, _, _ in found] if self.back else [node_of_object(o) for _, _, o in found]
            self.table = self._read()
        numbers, table = self.file.ids[self.role][node], self.table
        if len(numbers) == 1:
            return table.get(numbers[0], ())
        return [other for number in numbers for other in table.get(number, ())]

    def _read(self) -> dict[Any, list[Node]]:
        """The nodes that a step leads to, by the ID in its role of where it begins."""
        table: dict[Any, list[Node]] = {}
        node_of_object = self.file.node_of_object
        for s, _, o in self.file.graph.find_ids(None, self.predicate, None):
            here, there = (o, s) if self.back else (s, node_of_object(o))
            table.setdefault(here, []).append(there)
        return table

    def starts(self) -> Found:
        """The nodes from which there is a step, each once."""
        return self.file.objects_of(self.predicate) if self.back else self.file.subjects_of(self.predicate)


class Other(Edge):
    """A step over a triple of any predicate but some."""

    def __init__(self, file: OpenFile, predicates: set[int], back: bool) -> None:
        super().__init__(file, back)
        self.predicates = predicates

    def follow(self, node: Node) -> Found:
        """The nodes that one step leads to."""
        node_of_object, not_these = self.file.node_of_object, self.predicates
        found = ((s, o) for s, p, o in self._found(None, node) if p not in not_these)
        return (s for s, _ in found) if self.back else (node_of_object(o) for _, o in found)

    def starts(self) -> Found:
        """The nodes from which there is a step, each once."""
        node_of_object, not_these, seen = self.file.node_of_object, self.predicates, set()
        for s, p, o in self.file.found((None, None, None)):
            if p not in not_these:
                seen.add(node_of_object(o) if self.back else s)
        return seen


def edges_of(file: OpenFile, path: Any, back: bool) -> Optional[list[Edge]]:
    """The steps of an IRI, or of a set of those that a step may not be; None for another path."""
    if isinstance(path, URIRef):
        return [Link(file, number, back) for number in file.spellings(1, path)]
    if isinstance(path, InvPath):
        return edges_of(file, path.arg, not back)
    if not isinstance(path, NegatedPath):
        return None
    onward = [it for it in path.args if isinstance(it, URIRef)]
    inverse = [it.arg for it in path.args if isinstance(it, InvPath)]
    if len(onward) + len(inverse) < len(path.args):
        raise NotImplementedError  # (rdflib's parser loses the IRI of an inverse one)
    made: list[Edge] = []
    for predicates, its in ((onward, back), (inverse, not back)):
        if predicates:
            made.append(Other(file, {n for it in predicates for n in file.spellings(1, it)}, its))
    return made


# ---- paths of which each node comes once


class Closure:
    """`p*`, `p+` or `p?`: the nodes that a path leads to from a node, each once."""

    gives_once = True

    def __init__(self, file: OpenFile, path: MulPath, back: bool) -> None:
        self.file = file
        self._epsilon: dict[int, list[int]] = {}
        self._edges: dict[int, list[tuple[Edge, int]]] = {}
        self._last = 1  # state 0 is the first one, 1 the final one
        self._add(path, 0, 1, back)
        # By state, the steps from it and from those that it is as good as; and whether the final one is among them.
        self.steps: dict[int, list[tuple[Edge, int]]] = {}
        self.final: dict[int, bool] = {}
        for state in {0, *(to for edges in self._edges.values() for _, to in edges)}:
            near = self._near(state)
            self.final[state] = 1 in near
            self.steps[state] = [edge for it in near for edge in self._edges.get(it, [])]

    def _add(self, path: Any, first: int, last: int, back: bool) -> None:
        """Add what leads from a state to another one over a path."""
        if isinstance(path, InvPath) and isinstance(path.arg, Path):
            self._add(path.arg, first, last, not back)
        elif isinstance(path, AlternativePath):
            for each in path.args:
                self._add(each, first, last, back)
        elif isinstance(path, SequencePath):
            at = first
            for each in path.args[::-1] if back else path.args:
                following = self._state()
                self._add(each, at, following, back)
                at = following
            self._epsilon.setdefault(at, []).append(last)
        elif isinstance(path, MulPath):
            before, behind = self._state(), self._state()
            self._epsilon.setdefault(first, []).append(before)
            self._epsilon.setdefault(behind, []).append(last)
            if path.zero:
                self._epsilon[first].append(last)
            if path.more:
                self._epsilon[behind].append(before)
            self._add(path.path, before, behind, back)
        else:
            steps = edges_of(self.file, path, back)
            if steps is None:
                raise NotImplementedError
            self._edges.setdefault(first, []).extend((edge, last) for edge in steps)

    def _state(self) -> int:
        self._last += 1
        return self._last

    def _near(self, state: int) -> list[int]:
        """The states that a state is as good as."""
        near, seen = [state], {state}
        for it in near:
            further = [other for other in self._epsilon.get(it, ()) if other not in seen]
            near += dict.fromkeys(further)
            seen.update(further)
        return near

    def follow(self, start: Node) -> Iterator[Node]:
        """The nodes that the path leads to. What comes first costs little; all of them, a search for each of them."""
        seen: dict[int, set[Node]] = {state: set() for state in self.steps}
        seen[0].add(start)
        left, given = [(0, start)], set()
        if self.final[0]:
            given.add(start)
            yield start
        while left:
            state, node = left.pop()
            for edge, to in self.steps[state]:
                known, is_final = seen[to], self.final[to]
                for other in edge.follow(node):
                    if other in known:
                        continue
                    known.add(other)
                    left.append((to, other))
                    if is_final and other not in given:
                        given.add(other)
                        yield other

    def starts(self) -> Found:
        """The nodes from which the path may lead somewhere, each once."""
        if self.final[0]:
            return self.file.nodes()
        edges = [edge for edge, _ in self.steps[0]]
        return edges[0].starts() if len(edges) == 1 else set(chain.from_iterable(edge.starts() for edge in edges))


# ---- paths of which a node comes as often as ways lead to it


class Choice:
    """Alternatives, or the steps of one part."""

    gives_once = False

    def __init__(self, parts: list[Walk]) -> None:
        self.parts = parts

    def follow(self, node: Node) -> Iterator[Node]:
        """The nodes that each of the parts leads to."""
        return chain.from_iterable(part.follow(node) for part in self.parts)

    def starts(self) -> Found:
        """The nodes from which one of the parts may lead somewhere, each once."""
        return set(chain.from_iterable(part.starts() for part in self.parts))


class Sequence:
    """Parts one after another. It keeps how often each node is reached by the first parts, not the ways to it."""

    gives_once = False

    def __init__(self, parts: list[Walk]) -> None:
        self.parts = parts

    def follow(self, node: Node) -> Iterator[Node]:
        """The nodes that the parts lead to."""
        reached = {node: 1}
        for part in self.parts[:-1]:
            following: Counter[Node] = Counter()
            for each, times in reached.items():
                for other in part.follow(each):
                    following[other] += times
            reached = following
        for each, times in reached.items():
            for other in self.parts[-1].follow(each):
                for _ in range(times):
                    yield other

    def starts(self) -> Found:
        """The nodes from which the first part may lead somewhere, each once."""
        return self.parts[0].starts()


Walk = Union[Edge, Closure, Choice, Sequence]


def walk_of(file: OpenFile, path: Any, back: bool = False) -> Walk:
    """A path over a file, or back over it. Raises NotImplementedError for what is no path of SPARQL.

    `follow(node)` gives the nodes that it leads to, `starts()` the nodes from which it may lead somewhere.
    """
    if isinstance(path, MulPath):
        return Closure(file, path, back)
    if isinstance(path, InvPath):
        return walk_of(file, path.arg, not back)
    if isinstance(path, AlternativePath):
        return Choice([walk_of(file, each, back) for each in path.args])
    if isinstance(path, SequencePath):
        return Sequence([walk_of(file, each, back) for each in (path.args[::-1] if back else path.args)])
    edges = edges_of(file, path, back)
    if edges is None:
        raise NotImplementedError
    return edges[0] if len(edges) == 1 else Choice(list(edges))
