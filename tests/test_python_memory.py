"""The Python package if memory is refused, and how much of a graph it has in memory."""

from __future__ import annotations

import shutil
import sys
from collections.abc import Callable, Iterator
from pathlib import Path
from typing import Any
from unittest import mock

import pytest

from support import program
from support.built import SAMPLES
from support.python_package import ENVIRONMENT, hdt
from support.refusing import preloaded
from test_python import Triple, built

from hdt import _columns, _handle, _library

# Calls on the file and the text that the command line names, each with every allocation of the library refused.
CALLS = """
import ctypes, itertools, sys, hdt

refuse_at = ctypes.CDLL(None).refuse_at
path, text, out = sys.argv[1:]
graph = hdt.open(path)
triple = list(graph)[-1]
patterns = [[it if has else None for it, has in zip(triple, kind)] for kind in itertools.product((0, 1), repeat=3)]
ids = [graph.number(role, it) for role, it in zip(("subject", "predicate", "object"), triple)]
searches = ("find", "find_ids", "id_array", "matching", "matching_ids", "page", "page_ids", "page_text", "position",
            "text", "text_pieces")

def opened(data):
    with hdt.Graph(data) as graph:
        return graph.counts, graph.matching()

def written(call, *parameters, **options):
    counts = call(*parameters, out, **options)
    return counts, open(out, "rb").read()

calls = {
    "open": lambda: opened(open(path, "rb").read()),
    "verify": lambda: hdt.verify(path),
    "verify tight": lambda: hdt.verify(path, tight=True),
    "build": lambda: written(hdt.build, text),
    "build of short lines": lambda: written(hdt.build, text, longest_line=200),
    "rewrite": lambda: written(hdt.rewrite, path, block_size=2),
    "merge": lambda: written(hdt.merge, [path, graph]),
    "merge apart": lambda: written(hdt.merge, [graph, path, graph], blank_nodes="apart"),
    "header": lambda: graph.header,
    "count": lambda: graph.count("object"),
    "predicates": lambda: list(graph.predicates()),
    **{f"{call} {role}": lambda call=call, role=role: call(role)
       for role in ("subject", "object") for call in (
           lambda role: graph.number(role, triple[0]), lambda role: graph.string(role, 2),
           lambda role: graph.strings(role, [1, 2, 1]), lambda role: list(graph.terms(role)),
           lambda role: graph.ids_with_prefix("u:", role))},
    **{f"{name} {pattern}": lambda name=name, pattern=pattern: getattr(graph, name)(*pattern)
       for name in searches for pattern in patterns},
    "find by IDs": lambda: list(graph.find_ids(*ids)),
}
made, refusals, errors = 0, 0, set()
for name, call in calls.items():
    def values():
        found = call()
        return list(found) if hasattr(found, "__next__") else found
    wanted, number, reached = values(), 0, True
    while reached:
        number += 1
        refuse_at(number)
        try:
            found = values()
        except MemoryError:
            found = wanted
            errors.add(name.partition(" ")[0])
        except BaseException as error:
            found = error
        reached = refuse_at(0)
        if found != wanted:
            print(f"{name}: without allocation {number} it is {found!r:.100}, not {wanted!r:.100}")
    assert values() == wanted
    made, refusals = made + 1, refusals + number - 1
print(made > 100, refusals > 100, len(errors) > 10, {"open", "build", "rewrite", "merge", "text", "page_text"} - errors)
"""


@pytest.mark.skipif(not shutil.which("cc"), reason="there is no cc")
def test_refused_allocations(tmp_path: Path) -> None:
    """Each call, with each allocation of the library refused, gives its answer or a MemoryError, and never another."""
    library = preloaded("refuse_library.c", tmp_path)
    environment = {**ENVIRONMENT, "LD_PRELOAD": str(library)}
    files = SAMPLES / "three.hdt", SAMPLES / "three.nt", tmp_path / "out.hdt"
    done = program.run([sys.executable, "-c", CALLS, *files], env=environment)
    assert done == (0, b"True True True set()\n", b""), done.out.decode()


ANSWERS: dict[str, tuple[str, Callable[[Any], object]]] = {
    "string": ("hdt_string", lambda graph: graph.string("object", 1)),
    "header": ("hdt_header", lambda graph: graph.header),
    "number": ("hdt_number", lambda graph: graph.number("object", "u:a")),
    "strings": ("hdt_strings", lambda graph: graph.strings("object", [1])),
    "matching": ("hdt_pattern_matching", lambda graph: graph.matching()),
    "find": ("hdt_page", lambda graph: list(graph.find())),
    "predicates": ("hdt_predicates", lambda graph: list(graph.predicates())),
    "ids_with_prefix": ("hdt_prefix", lambda graph: graph.ids_with_prefix("u:", "object")),
    "text": ("hdt_pattern_text", lambda graph: graph.text()),
    "page_text": ("hdt_page_text", lambda graph: graph.page_text()),
}


@pytest.mark.parametrize("call", ANSWERS)
def test_answers_of_no_memory(call: str) -> None:
    """If the library answers that memory ran out, a call raises MemoryError, and the next one has its answer."""
    name, ask = ANSWERS[call]

    def refused(*parameters: Any) -> int:
        if name.endswith("text"):
            parameters[-1].reason = 255
        return 2**64 - 2

    with hdt.open(SAMPLES / "three.hdt") as graph:
        wanted = ask(graph)
        with mock.patch.object(_library.library, name, refused), pytest.raises(MemoryError):
            ask(graph)
        assert ask(graph) == wanted


# ---- what is in memory at once


class Asked:
    """What a graph looks up: of each call the role, how many strings, and their characters."""

    def __init__(self, graph: hdt.Graph) -> None:
        self.calls: list[tuple[int, int, int]] = []
        look_up = graph._strings

        def strings(role: int, ids: Any) -> Any:
            found = look_up(role, ids)
            self.calls.append((role, len(found or ()), sum(map(len, found or ()))))
            return found

        self.patch = mock.patch.object(graph, "_strings", strings)

    def __enter__(self) -> Asked:
        self.patch.start()
        return self

    def __exit__(self, *_: object) -> None:
        self.patch.stop()


@pytest.fixture(scope="module")
def graph(tmp_path_factory: pytest.TempPathFactory) -> Iterator[hdt.Graph]:
    """A graph of 12,000 triples with as many subjects, 1,000 short objects, and as many objects of 1,000 characters."""
    folder = tmp_path_factory.mktemp("memory")
    triples: list[Triple] = [(f"u:{n}", "u:p", f'"{n % 1_000}"') for n in range(9_000)]
    triples += [(f"u:{n}", "u:q", f'"{n % 1_000:03}{"x" * 1_000}"') for n in range(9_000, 12_000)]
    path, _ = built(folder, triples)
    with hdt.open(path) as opened:
        yield opened


def test_little_is_looked_up_for_a_small_limit(graph: hdt.Graph) -> None:
    """A search with a small limit looks up no more strings than its triples have."""
    with Asked(graph) as asked:
        assert len(list(graph.find(p="u:p", limit=300))) == 300
    assert sum(count for _, count, _ in asked.calls) <= 2 * 300
    with Asked(graph) as asked:
        assert len(list(graph.find(p="u:p"))) == 9_000
    assert sum(count for role, count, _ in asked.calls if role == 2) <= 2 * 2_000


@pytest.mark.parametrize("most", [50_000, 160_000])
def test_portions_of_long_strings_are_small(most: int, graph: hdt.Graph) -> None:
    """A portion whose strings take much is followed by a smaller one, and no role is kept that takes much.

    The rest of a page, which takes less than the second bound, is followed by none that is larger.
    """
    with mock.patch.multiple(_columns, _BYTES=most, _WHOLE_BYTES=100_000), Asked(graph) as asked:
        assert len(list(graph.find(p="u:q"))) == 3_000
    assert max(characters for _, _, characters in asked.calls) < 300_000
    assert 20 < len(asked.calls) < 300


@pytest.mark.parametrize("role, sizes", [
    ("subject", [64, 256, 1_024, 4_096, 4_096, 2_464]), ("object", [64, 256, 1_024, 656])])
def test_portions_of_all_strings(role: hdt.Role, sizes: list[int], graph: hdt.Graph) -> None:
    """`terms` looks up 4,096 strings at once at most, fewer if they are long, and not one by one."""
    with mock.patch.object(_handle, "_PORTION_BYTES", 20_000), Asked(graph) as asked:
        assert len(list(graph.terms(role))) == graph.count(role)
    assert max(characters for _, _, characters in asked.calls) < 100_000 and len(asked.calls) < 400
    with Asked(graph) as asked:
        assert len(list(graph.terms(role))) == graph.count(role)
    assert [count for _, count, _ in asked.calls] == sizes
