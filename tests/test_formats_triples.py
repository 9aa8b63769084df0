"""`hdt.build` of triples: dictionary strings, `Term`s, terms of rdflib and N-Triples give the graph of these terms."""

from __future__ import annotations

import copy
from pathlib import Path
from typing import Any

import pytest
from hypothesis import given, settings
from hypothesis import strategies as st

from support.built import SAMPLES
from support.formats import built, fails, strings_of
from support.python_package import hdt

TEXT = st.one_of(
    st.text(st.characters(min_codepoint=1, blacklist_categories=["Cs"]), max_size=8),
    st.text('a"\\\n\r\té<>.@^', max_size=8),
)
IRIS = st.sampled_from(["u:a", "u:b", "http://a/b#c", "u:é", "http://a/?b=c%20d"]).map(lambda it: hdt.Term("iri", it))
BLANKS = st.sampled_from(["b", "f0_b", "a.b", "B1", "0"]).map(lambda it: hdt.Term("blank", it))
TAGS = st.sampled_from(["en", "en-GB", "EN"])
LITERALS = st.one_of(
    TEXT.map(lambda text: hdt.Term("literal", text)),
    st.builds(lambda text, tag: hdt.Term("literal", text, language=tag), TEXT, TAGS),
    st.builds(lambda text: hdt.Term("literal", text, datatype="u:t"), TEXT),
)
TRIPLES = st.tuples(IRIS | BLANKS, IRIS, st.one_of(IRIS, BLANKS, LITERALS))


def of_rdflib(term: hdt.Term) -> Any:
    """A term as one of rdflib."""
    rdflib: Any = pytest.importorskip("rdflib")
    if term.kind != "literal":
        return getattr(rdflib, "URIRef" if term.kind == "iri" else "BNode")(term.lexical)
    return rdflib.Literal(term.lexical, lang=term.language, datatype=term.datatype and rdflib.URIRef(term.datatype))


FORMS: dict[str, Any] = {
    "strings": lambda triple: tuple(it.format() for it in triple),
    "terms": lambda triple: triple,
    "rdflib": lambda triple: tuple(map(of_rdflib, triple)),
    "N-Triples": lambda triple: tuple(it.format_ntriples() for it in triple),
    "lines": lambda triple: " ".join(it.format_ntriples() for it in triple) + " .",
    "lines with ends": lambda triple: " ".join(it.format_ntriples() for it in triple) + ".\r\n",
    "mixed": lambda triple: (triple[0].format(), triple[1], of_rdflib(triple[2])),
}


@settings(max_examples=100)
@given(triples=st.lists(TRIPLES, min_size=1, max_size=12), forms=st.data())
def test_each_form(triples: list[Any], forms: st.DataObject, tmp_path_factory: pytest.TempPathFactory) -> None:
    """Triples in any form, also in several, give the file of these triples."""
    wanted = sorted({tuple(it.format() for it in triple) for triple in triples})
    folder = tmp_path_factory.mktemp("triples")
    given = [FORMS[forms.draw(st.sampled_from(sorted(FORMS)))](copy.copy(triple)) for triple in triples]
    assert built(folder, iter(given)) == wanted
    with hdt.open(folder / "built.hdt") as graph:
        hdt.build(graph, folder / "again.hdt")
    assert (folder / "again.hdt").read_bytes() == (folder / "built.hdt").read_bytes()


@pytest.mark.parametrize("triple", [
    ("u:a> <u:p> <u:o> .\n<u:b", "u:p", "u:o"), ("_:b> <u:p> <u:o> .\n_:b", "u:p", "u:o"), ("_:b c", "u:p", "u:o"),
    ("u:a", "u:p", '"x"@en .\n<u:a> <u:p> <u:o>'), ("u:a", "u:p", '"x"^^<u:t> .\n<u:a> <u:p> <u:o>'),
    ("u:a", "u:p", "b"), ("u:a", "u:p", '"'), ("u:a", "u:p", '"x'), ("u:a", "u:p", "\ud800:a"),
    ("u:a", "u:p", '"\ud800"'), ("", "u:p", "u:o"),
    ("<u:a>", "<u:p>", "<u:o> .\n<u:a> <u:p> <u:b>"), ("<u:a>", "<u:p>", "u:o"), ("u:a", "<u:p>", "<u:o>"),
    ("<u:a>", "<u:p>", '"\\q"'), ("<u:a>", "<u:p>", "_:b ."), ("?", "u:p", "u:o")])
def test_strings_that_are_no_terms(triple: Any, tmp_path: Path) -> None:
    """What is no term is an error with the number of the triple: no string makes other triples of a file."""
    told = fails(tmp_path, [("u:a", "u:p", "u:b"), triple], ValueError)
    assert told.startswith("triple 2: ") or "line 2 column" in told


@pytest.mark.parametrize("triple", [
    ('"x"', "u:p", "u:o"), ("u:a", "_:p", "u:o"), ("u:a", '"p"', "u:o"), ("u:a b", "u:p", "u:o"),
    ("u:a", "u:p", "u:<")])
def test_terms_in_other_places(triple: Any, tmp_path: Path) -> None:
    """A term that N-Triples doesn't have there is an error of the line of the triple."""
    assert "line 2 column" in fails(tmp_path, [("u:a", "u:p", "u:b"), triple], hdt.LineFault)


@pytest.mark.parametrize("triple", [
    ("u:a", "u:p"), 5, None, ("u:a", "u:p", 5), ["u:a", "u:p", "u:o"], b"<u:a> <u:p> <u:o> ."])
def test_no_triples_among_triples(triple: Any, tmp_path: Path) -> None:
    """What is no triple is a TypeError with its number."""
    assert fails(tmp_path, [("u:a", "u:p", "u:b"), triple], TypeError).startswith("triple 2: ")


def test_lines_of_triples(tmp_path: Path) -> None:
    """A faulty line of N-Triples is reported with its number."""
    told = fails(tmp_path, ["<u:a> <u:p> <u:b> .", "<u:a> <u:p> ."], hdt.LineFault)
    assert told == "line 2 column 13: 1 Syntax"


def test_graphs_of_rdflib(tmp_path: Path) -> None:
    """A graph of rdflib is built; quads of named graphs are an error, or merged."""
    rdflib: Any = pytest.importorskip("rdflib")
    graph = rdflib.Graph().parse(data="<u:a> <u:p> <u:b>, 'x'@en .", format="turtle")
    wanted = [("u:a", "u:p", '"x"@en'), ("u:a", "u:p", "u:b")]
    assert built(tmp_path, graph) == wanted
    dataset = rdflib.Dataset()
    dataset.add((rdflib.URIRef("u:a"), rdflib.URIRef("u:p"), rdflib.URIRef("u:b")))
    assert built(tmp_path, dataset.quads((None, None, None, None))) == wanted[1:]
    for name in ("u:g", "u:h"):
        dataset.graph(rdflib.URIRef(name)).add((rdflib.URIRef("u:a"), rdflib.URIRef("u:p"), rdflib.URIRef("u:c")))
    told = fails(tmp_path, dataset.quads((None, None, None, None)), ValueError)
    assert told.startswith("the input: it has 2 named graphs")
    assert len(built(tmp_path, dataset.quads((None, None, None, None)), graphs="merge")) == 2


def test_part_of_a_graph(tmp_path: Path) -> None:
    """The matches of a pattern are triples."""
    with hdt.open(SAMPLES / "three.hdt") as graph:
        assert built(tmp_path, graph.find(p="u:p")) == sorted(graph.find(p="u:p"))
        hdt.build(graph, tmp_path / "all.hdt", base="http://a/")
    assert (tmp_path / "all.hdt").read_bytes() == (SAMPLES / "three.hdt").read_bytes()


def test_many_triples(tmp_path: Path) -> None:
    """Triples are taken one after another, in pieces, also long ones."""
    long = '"' + "x" * 300_000 + '"'
    triples = (("u:a", "u:p", f'"{number}"' if number % 1_000 else long) for number in range(30_000))
    hdt.build(triples, tmp_path / "out.hdt")
    assert len(strings_of(tmp_path / "out.hdt")) == 29_971
