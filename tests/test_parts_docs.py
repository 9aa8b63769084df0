"""The documents of `hdt.parts`: the examples of docstrings are run, and each call has one and is on the page."""

from __future__ import annotations

import pydoc
import re
import shutil
from pathlib import Path

import pytest

from support.built import SAMPLES, TOP
from support.docstrings import calls, check_example, examples, lacking, public
from support.parts import hdt, parts

PAGE = TOP / "docs/PYTHON.md"


EXPORTED = {name: getattr(parts, name) for name in parts.__all__ if name != "Order"}
PUBLIC = public(EXPORTED)
EXAMPLES = examples(EXPORTED, {"hdt": hdt})


@pytest.mark.parametrize("name", EXAMPLES)
def test_examples(name: str, tmp_path: Path, monkeypatch: pytest.MonkeyPatch) -> None:
    """The examples of a docstring give what they say."""
    monkeypatch.chdir(tmp_path)
    shutil.copy(SAMPLES / "three.nt", "graph.nt")
    shutil.copy(SAMPLES / "three.hdt", "graph.hdt")
    parts.build(["graph.nt"], "graph.parts", 3)
    check_example(EXAMPLES[name])


def test_each_call_has_an_example() -> None:
    """What is exported has an example, and its methods, but those of the manifest."""
    assert {name for name in PUBLIC if name not in EXAMPLES} == {
        "Part.counts", "Manifest.read", "Manifest.write", "Manifest.triples", "Manifest.subjects"}


def test_calls_name_their_errors() -> None:
    """A call that can be given something wrong says what it raises."""
    given = {name: PUBLIC[name] for name, signature in calls(PUBLIC).items() if signature.parameters}
    assert lacking("Errors|Raises", given) <= {"Graph.close", "Graph.predicates"}


def test_help() -> None:
    """`help(hdt.parts)` has the public names."""
    text = pydoc.plain(pydoc.render_doc(parts))
    assert re.search(r"^    class Graph\(", text, re.M) and "hdt.parts._build" not in text


def test_page() -> None:
    """The page names each call."""
    page = PAGE.read_text().partition("## Graphs in parts")[2]
    names = [name.rpartition(".")[2] for name in PUBLIC if not name.startswith(("Manifest.", "Part."))]
    assert [name for name in names if not re.search(rf"\b{name}\b", page)] == []
