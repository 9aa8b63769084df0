"""The documents of `hdt.rdflib`: the examples of docstrings are run, and each call has types, errors and an example."""

from __future__ import annotations

import pydoc
import re
import shutil
from collections.abc import Iterator
from pathlib import Path

import pytest

from support.built import SAMPLES
from support.docstrings import check_example, examples, lacking, public, untyped
from support.rdflib_package import store

import rdflib

NAMES = {name: getattr(store, name) for name in store.__all__ if name not in ("Fault", "NotATerm", "Term")}
WORDS = {**vars(store), **{name: getattr(rdflib, name) for name in ("Graph", "Literal", "URIRef")}}
# What rdflib's interface asks for, which its documents describe.
INTERFACE = {f"HDTStore.{name}" for name in ("opened", "contexts", "namespace", "prefix", "namespaces")}
REFUSED = {f"HDTStore.{name}" for name in ("add", "addN", "remove", "create", "destroy", "add_graph", "remove_graph",
                                           "update")}
PUBLIC = public(NAMES)
EXAMPLES = examples({"rdflib": store, **NAMES}, WORDS)


@pytest.fixture(autouse=True)
def folder(tmp_path: Path, monkeypatch: pytest.MonkeyPatch) -> Iterator[None]:
    """Examples run in a folder that has graph.hdt, and queries are not planned after them."""
    shutil.copy(SAMPLES / "three.hdt", tmp_path / "graph.hdt")
    monkeypatch.chdir(tmp_path)
    yield
    store.plan_sparql(False)


@pytest.mark.parametrize("name", EXAMPLES)
def test_examples(name: str) -> None:
    """The examples of a docstring give what they say."""
    check_example(EXAMPLES[name])


def test_each_call_has_an_example() -> None:
    """All that is exported has a docstring with an example, but what rdflib asks for and what is refused."""
    assert {name for name in PUBLIC if name not in EXAMPLES} == INTERFACE | REFUSED
    assert lacking(".", PUBLIC) == set()
    assert len(EXAMPLES) >= 17


def test_calls_name_their_errors_and_their_time() -> None:
    """A call that can be given something wrong says what it raises, and one that searches how long it takes."""
    own = {name: it for name, it in PUBLIC.items() if name not in INTERFACE | REFUSED}
    quiet = {"plan_sparql", "planned", "string_of", "ReadOnly", "HDTStore.close", "HDTStore.bind"}
    assert lacking(r"Errors|[Rr]aises?\b", own) <= quiet
    timeless = {"planned", "ReadOnly", "HDTStore", "HDTStore.close", "HDTStore.hdt", "HDTStore.query"}
    assert lacking(r"\btime\b", own) <= timeless


def test_annotations() -> None:
    """Each parameter and each result has a type."""
    assert untyped(PUBLIC) == []


def test_help() -> None:
    """`help(hdt.rdflib)` names what is exported."""
    text = pydoc.plain(pydoc.render_doc(store))
    assert [name for name in store.__all__ if not re.search(rf"\b{name}\b", text)] == []
