"""The documents of the Python package: the examples of docstrings are run, and each call has one and is on the page."""

from __future__ import annotations

import pydoc
import re
import shutil
import sys
from pathlib import Path

import pytest

from support.built import SAMPLES, TOP
from support.code_blocks import blocks
from support.docstrings import calls, check_example, examples, lacking, public, untyped
from support.program import run
from support.python_package import ENVIRONMENT, PACKAGE, hdt

PAGE = "docs/PYTHON.md"


@pytest.fixture
def folder(tmp_path: Path, monkeypatch: pytest.MonkeyPatch) -> Path:
    """The folder that examples run in: it has graph.nt and graph.hdt."""
    shutil.copy(SAMPLES / "three.nt", tmp_path / "graph.nt")
    shutil.copy(SAMPLES / "three.hdt", tmp_path / "graph.hdt")
    monkeypatch.chdir(tmp_path)
    return tmp_path


EXPORTED = {name: getattr(hdt, name) for name in hdt.__all__ if name not in ("Path", "Role")}
PUBLIC = public(EXPORTED)
EXAMPLES = examples(EXPORTED, {"hdt": hdt, "graph": hdt.open(SAMPLES / "three.hdt")})


@pytest.mark.parametrize("name", EXAMPLES)
def test_examples(name: str, folder: Path) -> None:
    """The examples of a docstring give what they say."""
    check_example(EXAMPLES[name])


def test_each_call_has_an_example() -> None:
    """All that is exported has a docstring with an example."""
    assert [name for name in PUBLIC if name not in EXAMPLES] == ["Graph.find_numbers"]
    assert hdt.Graph.find_numbers is hdt.Graph.find_ids
    assert len(PUBLIC) > 35


def test_calls_name_their_errors() -> None:
    """A call that can be given something wrong says what it raises."""
    quiet = {"Graph.close", "Graph.predicates", "Term.format", "Term.format_ntriples"}
    given = {name: PUBLIC[name] for name, signature in calls(PUBLIC).items() if signature.parameters}
    assert lacking("Errors|Raises", given) <= quiet


def test_calls_name_their_cost() -> None:
    """Each call says what time or memory it takes; of terms, the class says it for all."""
    values = {"ConversionFault", "Counts", "Fault", "LineFault", "NoConverter", "NoTriples", "NotATerm"}
    silent = lacking(r"\btime\b|takes|decodes|memory", PUBLIC)
    assert silent - values == {f"Term.{name}" for name in ("parse", "format", "parse_ntriples", "format_ntriples")}


def test_annotations() -> None:
    """Each parameter and each result has a type."""
    assert untyped(PUBLIC) == []


def test_help() -> None:
    """`help(hdt)` names what is exported by its public name, in lines that fit, and no deprecated call."""
    text = pydoc.plain(pydoc.render_doc(hdt))
    assert text.startswith("Python Library Documentation: package hdt")
    for name in hdt.__all__:
        assert re.search(rf"\b{name}\b", text), name
    assert text.count("\n") < 400 and "inherited from" not in text and "__init__(" not in text
    assert "deprecated" not in text and "older name of" in pydoc.plain(pydoc.render_doc(hdt.Graph.find_ids))
    assert re.search(r"^    class Graph\(", text, re.M) and not re.search(r"hdt\._(?:graph|calls)\.(?!_)", text)
    assert re.search(r"^VERSION\n    2\.1\.0$", text, re.M)


def test_modules_are_short() -> None:
    """No module of the package has more than 400 lines."""
    sizes = {path: len(path.read_text().splitlines()) for path in PACKAGE.rglob("*.py")}
    assert {path: size for path, size in sizes.items() if size > 400} == {}


def test_page_has_its_blocks() -> None:
    """docs/PYTHON.md has its programs, which tests/test_documents.py runs, and names every call and every error."""
    text = (TOP / PAGE).read_text()
    assert len(blocks(PAGE, "python")) >= 6
    missing = [name for name in PUBLIC if not re.search(rf"\b{name.rpartition('.')[2]}\b", text)]
    assert missing == []
    assert "SIGBUS" in text and "tickmarl_hdt" in text


def test_speed() -> None:
    """python/speed.py prints a row for each call."""
    done = run([sys.executable, PACKAGE / "speed.py", SAMPLES / "three.hdt", "--rounds", "1"], env=ENVIRONMENT)
    assert (done.status, len(re.findall(rb"^\| [a-z].*\d \|$", done.out, re.M)), done.err) == (0, 14, b"")
