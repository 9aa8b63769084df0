"""Documents of Debian's packages through each converter: the same graphs, by their counts and up to blank nodes.

Those of lv2-dev, tracker, librdf-query-perl and Jena are taken, as far as they are installed, or below the folder that
the environment variable DOCUMENTS names. None of them is N-Triples, so N-Triples are those of the graphs.
"""

from __future__ import annotations

import gzip
import os
import warnings
import zipfile
from pathlib import Path
from typing import Any
from unittest import mock

import pytest

from support.formats import READS, built, needs
from support.python_package import hdt

SUFFIXES = {".ttl": "ttl", ".ontology": "ttl", ".rdf": "rdf", ".owl": "rdf", ".trig": "trig", ".jsonld": "jsonld"}
FOLDERS = ["/usr/lib/lv2", "/usr/share/tracker3/ontologies", "/usr/share/doc/librdf-query-perl/examples/data"]
JENA = [
    ("/usr/share/java/jena-core.jar", "ont-policy.rdf"), ("/usr/share/java/jena-core.jar", "etc/schemagen_example.rdf"),
    ("/usr/share/java/jena-core.jar", "org/apache/jena/vocabulary/assembler.ttl"),
    ("/usr/share/java/jena-shacl.jar", "std/shacl.ttl"), ("/usr/share/java/jena-shacl.jar", "std/shacl-shacl.ttl"),
]
MOST = 40  # documents
SMALL = 1_500  # triples of a graph that is compared up to blank nodes


def documents() -> list[Path]:
    """The documents, evenly chosen if there are many."""
    named = os.environ.get("DOCUMENTS")
    folders = [named] if named else FOLDERS
    found = sorted(path for it in folders for path in Path(it).rglob("*") if path.suffix in SUFFIXES and path.is_file())
    return found[:: -(-len(found) // MOST)] if len(found) > MOST and not named else found


def of_rdflib(text: str, syntax: str) -> Any:
    """A graph of rdflib, with literals as they are written, but for xsd:string, which is that of all plain ones."""
    rdflib: Any = pytest.importorskip("rdflib")
    with warnings.catch_warnings(), mock.patch.object(rdflib, "NORMALIZE_LITERALS", False):
        warnings.simplefilter("ignore")
        graph = rdflib.Graph().parse(data=text, format=syntax, publicID="http://a/base")
    for s, p, o in list(graph):
        if getattr(o, "datatype", None) == rdflib.XSD.string:
            graph.remove((s, p, o))
            graph.add((s, p, rdflib.Literal(str(o))))
    return graph


def compare(path: Path, folder: Path) -> None:
    """All converters give as many triples; serdi and rapper the same graph, and rdflib what it reads by itself."""
    isomorphic: Any = pytest.importorskip("rdflib.compare").isomorphic
    syntax, graphs, counts = SUFFIXES[path.suffix], dict[str, Any](), dict[str, int]()
    for converter in (name for name, found in READS.items() if syntax in found):
        needs(converter)
        if b"genid" in path.read_bytes() and converter == "rapper":
            continue
        try:
            counts[converter] = len(built(folder, path, syntax=syntax, base="http://a/base", converter=converter))
        except hdt.NoTriples:
            counts[converter] = 0
            continue
        with hdt.open(folder / "built.hdt") as graph:
            graphs[converter] = of_rdflib(graph.text(), "nt") if len(graph) <= SMALL else None
    assert len(set(counts.values())) == 1, counts
    if len(graphs) > 1 and None not in graphs.values():
        if {"serdi", "rapper"} <= set(graphs):
            assert isomorphic(graphs["serdi"], graphs["rapper"])
        itself = of_rdflib(path.read_text(), {"ttl": "turtle", "rdf": "xml", "jsonld": "json-ld"}[syntax])
        assert isomorphic(graphs["rdflib"], itself)


@pytest.mark.skipif(not documents(), reason="none of the packages lv2-dev, tracker and librdf-query-perl is installed")
@pytest.mark.parametrize("path", documents(), ids=str)
def test_document(path: Path, tmp_path: Path) -> None:
    """All converters agree on a document of a package."""
    compare(path, tmp_path)


@pytest.mark.parametrize("jar, name", JENA)
def test_document_of_jena(jar: str, name: str, tmp_path: Path) -> None:
    """The same of a document in a jar of Jena."""
    if not Path(jar).exists():
        pytest.skip("there is no Jena (Debian: libapache-jena-java)")
    with zipfile.ZipFile(jar) as file:
        path = Path(file.extract(name, tmp_path))
    compare(path, tmp_path)


@pytest.mark.skipif(not documents(), reason="none of the packages lv2-dev, tracker and librdf-query-perl is installed")
@pytest.mark.parametrize("path", documents()[::8], ids=str)
def test_its_lines(path: Path, tmp_path: Path) -> None:
    """The N-Triples of a document give the same file, also compressed and as N-Quads, and as many triples as Turtle."""
    try:
        wanted = built(tmp_path, path, syntax=SUFFIXES[path.suffix], base="http://a/base")
    except hdt.NoTriples:
        pytest.skip("it has no triples")
    first, lines = (tmp_path / "built.hdt").read_bytes(), tmp_path / "lines.nt"
    with hdt.open(tmp_path / "built.hdt") as graph:
        lines.write_text(graph.text())
    (tmp_path / "lines.nq.gz").write_bytes(gzip.compress(lines.read_bytes()))
    for name in ("lines.nt", "lines.nq.gz"):
        assert built(tmp_path, tmp_path / name, base="http://a/base") == wanted
        assert (tmp_path / "built.hdt").read_bytes() == first
    for converter in (name for name, found in READS.items() if "ttl" in found):
        needs(converter)
        if b"genid" not in lines.read_bytes() or converter != "rapper":
            assert len(built(tmp_path, lines, syntax="turtle", converter=converter)) == len(wanted)
