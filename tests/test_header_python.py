"""Headers by the Python package: `rewrite` with a header, and `metadata`, which makes one."""

from __future__ import annotations

import datetime
from pathlib import Path
from typing import Any
from unittest import mock

import pytest

from support.built import SAMPLES
from support.program import done
from support.program import hdt as command
from support.python_package import hdt

from hdt._about import said_of
from hdt._library import library

THREE = SAMPLES / "three.hdt"
TITLE = '<http://a/> <http://purl.org/dc/terms/title> "Tea é" .\n'
TERMS, VOID, XSD = "http://purl.org/dc/terms/", "http://rdfs.org/ns/void#", "http://www.w3.org/2001/XMLSchema#"


@pytest.mark.parametrize(
    "header", [TITLE, TITLE.encode(), "", b"", "# none", memoryview(TITLE.encode()), TITLE * 5_000],
    ids=["text", "bytes", "no text", "no bytes", "comment", "view", "long"])
def test_rewrite(tmp_path: Path, header: Any) -> None:
    """The same file as by the command; the graph has the header, and the triples stay."""
    text = header.encode() if isinstance(header, str) else bytes(header)
    out, other = tmp_path / "out.hdt", tmp_path / "other.hdt"
    (tmp_path / "head.nt").write_bytes(text)
    counts = hdt.rewrite(THREE, out, header=header)
    assert counts == hdt.verify(out) == hdt.verify(THREE)
    assert command("rewrite", "--header", tmp_path / "head.nt", THREE, other).status == 0
    assert out.read_bytes() == other.read_bytes()
    with hdt.open(out) as graph, hdt.open(THREE) as before:
        assert graph.header == text and list(graph) == list(before)
        assert hdt.rewrite(out, out, header=before.header) == counts
    assert out.read_bytes() == THREE.read_bytes()


def test_errors(tmp_path: Path) -> None:
    """The output stays as it was; the error of the file comes first, with its path."""
    out, bad = tmp_path / "out.hdt", tmp_path / "bad.hdt"
    out.write_bytes(b"before")
    bad.write_bytes(THREE.read_bytes()[:-1])
    with pytest.raises(hdt.LineFault) as line:
        hdt.rewrite(THREE, out, header=TITLE + "<u:a> .\n")
    assert (line.value.path, line.value.line, line.value.name) == (None, 2, "Syntax")
    with pytest.raises(hdt.Fault) as fault:
        hdt.rewrite(bad, out, header="no")
    assert fault.value.path == str(bad)
    with pytest.raises(ValueError, match="block size"):
        hdt.rewrite(THREE, out, 16, header=TITLE)
    with pytest.raises(ValueError):
        hdt.rewrite(THREE, out, 0)
    for header in (1, object(), ["a"]):
        with pytest.raises(TypeError):
            hdt.rewrite(THREE, out, header=header)  # type: ignore[arg-type]
    with pytest.raises(OSError):
        hdt.rewrite(tmp_path / "none.hdt", out, header=TITLE)
    with mock.patch.object(library, "hdt_with_header", lambda *_: setattr(_[5], "reason", 255)):
        with pytest.raises(MemoryError):
            hdt.rewrite(THREE, out, header=TITLE)
    assert out.read_bytes() == b"before"


def described(text: str) -> list[tuple[str, str, str]]:
    """The triples of a text, by a file that is built of it."""
    lines = [line.rstrip(" .").split(" ", 2) for line in text.splitlines()]
    return [(s, p[1:-1], o) for s, p, o in lines]


def test_metadata(tmp_path: Path) -> None:
    """The graph is named as in its header, with VoID's numbers and what is given, term by term."""
    day = datetime.date(2026, 11, 29)
    text = hdt.metadata(
        THREE,
        title='A "title"\n',
        license="https://a/l",
        publisher=["Tea", "http://t/"],
        issued=day,
        created="2026",
        modified="2026-11-30",
        creator=hdt.Term("literal", "x", language="en"),
        source="not an IRI",
        properties={"u:more": ["1", hdt.Term("iri", "u:x")]},
    )
    triples = described(text)
    assert {subject for subject, _, _ in triples} == {"<http://a/>"}
    found = [(p.replace(TERMS, "dc ").replace(VOID, "void "), o) for _, p, o in triples[2:]]

    def number(value: int) -> str:
        return f'"{value}"^^<{XSD}integer>'

    assert found == [
        ("void triples", number(3)), ("void distinctSubjects", number(2)), ("void properties", number(2)),
        ("void distinctObjects", number(3)), ("void classes", number(0)), ("dc title", '"A \\"title\\"\\n"'),
        ("dc license", "<https://a/l>"), ("dc publisher", '"Tea"'), ("dc publisher", "<http://t/>"),
        ("dc creator", '"x"@en'), ("dc source", '"not an IRI"'), ("dc issued", f'"2026-11-29"^^<{XSD}date>'),
        ("dc created", '"2026"'), ("dc modified", f'"2026-11-30"^^<{XSD}date>'), ("u:more", '"1"'), ("u:more", "<u:x>")]
    out = tmp_path / "out.hdt"
    hdt.rewrite(THREE, out, header=text)
    assert command("head", "--body", out) == done(text.encode())
    with hdt.open(out) as graph:
        assert hdt.metadata(graph) == hdt.metadata(THREE)
        assert hdt.metadata(graph, base="u:other").startswith("<u:other> ")


def test_classes(tmp_path: Path) -> None:
    """Classes are the different objects of rdf:type."""
    kind = "http://www.w3.org/1999/02/22-rdf-syntax-ns#type"
    triples = [(f"u:{it}", kind, f"u:C{it % 7}") for it in range(100)] + [("u:1", "u:p", "u:C99")]
    hdt.build(triples, tmp_path / "out.hdt")
    assert f'<{VOID}classes> "7"^^' in hdt.metadata(tmp_path / "out.hdt")


@pytest.mark.parametrize("given, error", [
    ({"title": 1}, TypeError), ({"title": [None]}, TypeError), ({"title": "a\0b"}, ValueError),
    ({"properties": {"rel": "x"}}, ValueError), ({"base": "rel"}, ValueError), ({"base": "u:a b"}, ValueError)])
def test_what_is_no_metadata(given: dict[str, Any], error: type[Exception]) -> None:
    """Values that are no terms, and names that are no IRIs."""
    with pytest.raises(error):
        hdt.rewrite(THREE, "/dev/null", header=hdt.metadata(THREE, **given))


# ---- what servers show

A, DC, KIND = "<u:a>", "http://purl.org/dc/elements/1.1/", "<http://www.w3.org/1999/02/22-rdf-syntax-ns#type>"
HDT, DATASET = "http://purl.org/HDT/hdt#", f"{A} {KIND} <http://purl.org/HDT/hdt#Dataset> .\n"
TITLED = f'{A} <{TERMS}title> "T" .\n'


@pytest.mark.parametrize("header, said", [
    (DATASET + TITLED, {"title": ['"T"']}), (TITLED, {"title": ['"T"']}), (f"{TITLED}<u:b> <u:p> <u:o> .", {}),
    (f"{DATASET}{TITLED}<u:b> <{TERMS}title> \"B\" .", {"title": ['"T"']}),
    (f"{TITLED}{A} {KIND} <{VOID}Dataset> .\n<u:b> {KIND} <{HDT}Dataset> .", {}),
    (f"{DATASET}{TITLED}<u:b> {KIND} <{HDT}Dataset> .", {}),
    (f"{DATASET}{TITLED}<u:b> {KIND} <{VOID}Dataset> .", {"title": ['"T"']}),
    (f'{DATASET}{A} <{DC}title> "D"@de .\n{A} <{TERMS}title> "E"@en-GB .\n{TITLED}',
     {"title": ['"T"', '"E"@en-GB', '"D"@de']}),
    (f'{DATASET}{A} <{HDT}publicationInformation> _:p .\n_:p <{TERMS}issued> "2012" .\n_:q <{TERMS}issued> "2013" .',
     {"issued": ['"2012"']}),
    (f"{A} <{TERMS}publisher> _:b .\n{A} <{TERMS}license> <javascript:x> .", {"license": ["javascript:x"]}),
    (f'{A} <{HDT}publicationInformation> "x" .\n{TITLED}', {"title": ['"T"']}),
    ("", {}), ("# none", {}), ("not N-Triples", {}), (f"{TITLED}cut off", {}), ("\xff\0", {}),
    (TITLED + "#" * 2**20, {}), (f'{TITLED}{A} <{TERMS}license> "{"x" * 2_000}" .', {"title": ['"T"']}),
    ("".join(f"{A} <{TERMS}source> <u:{n}> .\n" for n in range(9)), {"source": [f"u:{n}" for n in range(5)]})],
    ids=lambda it: str(it)[:40])
def test_what_a_header_says(header: str, said: dict[str, list[str]]) -> None:
    """The values of one dataset, with a bound; of what is no header, nothing."""
    assert said_of(header.encode("latin-1")) == said


# ---- a header from the beginning

GIVEN: dict[str, Any] = {"title": ["A", "B"], "license": "https://a/l", "properties": {"u:more": "x"}}


@pytest.mark.parametrize(
    "options",
    [{}, {"progress": lambda *_: None}, {"base": "u:graph", "block_size": 4}],
    ids=["none", "progress", "base"],
)
def test_build_with_metadata(tmp_path: Path, options: dict[str, Any]) -> None:
    """The file is that of a build and of `rewrite` with what `metadata` makes, whichever way it is built."""
    out, other = tmp_path / "out.hdt", tmp_path / "other.hdt"
    counts = hdt.build(SAMPLES / "three.nt", out, metadata=GIVEN, **options)
    assert counts == hdt.build(SAMPLES / "three.nt", other, **options)
    text = hdt.metadata(other, **GIVEN)
    hdt.rewrite(other, other, header=text)
    assert out.read_bytes() == other.read_bytes()
    hdt.build(SAMPLES / "three.nt", out, header=text, **options)
    assert out.read_bytes() == other.read_bytes()
    hdt.build([SAMPLES / "three.nt"], out, header=b"# none", **options)
    assert command("head", "--body", out) == done(b"# none")
    titles = (it for it in ("A", "B"))  # (what can be iterated once)
    hdt.build(SAMPLES / "three.nt", out, metadata={**GIVEN, "title": titles}, **options)
    assert out.read_bytes() == other.read_bytes()


@pytest.mark.parametrize("options, error", [
    ({"metadata": {"title": 1}}, TypeError), ({"metadata": {"titel": "x"}}, TypeError), ({"metadata": 1}, TypeError),
    ({"metadata": {"base": "u:x"}}, TypeError), ({"metadata": {"title": "\ud800"}}, ValueError),
    ({"metadata": {"properties": {"rel": "x"}}}, ValueError), ({"metadata": {}, "header": ""}, ValueError),
    ({"header": "<u:a> .\n"}, hdt.LineFault), ({"header": 1}, TypeError), ({"metadata": {}, "base": "x"}, ValueError)])
def test_build_with_wrong_metadata(options: dict[str, Any], error: type[Exception], tmp_path: Path) -> None:
    """What can't be a header is an error before any input is read; the output stays as it was."""
    out = tmp_path / "out.hdt"
    out.write_bytes(b"before")

    def triples() -> Any:
        raise AssertionError
        yield

    for given in list[Any]((tmp_path / "none.nt", [tmp_path / "none.ttl"], triples)):
        with pytest.raises(error):
            hdt.build(given() if callable(given) else given, out, **options)
    assert (out.read_bytes(), [it.name for it in tmp_path.iterdir()]) == (b"before", ["out.hdt"])


def test_build_without_memory_for_the_header(tmp_path: Path) -> None:
    """If there is no memory for the header of what was built, the output stays as it was: there is no other one."""
    out = tmp_path / "out.hdt"
    out.write_bytes(b"before")
    given, calls = library.hdt_with_header, list[int]()

    def fails(*words: Any) -> Any:
        calls.append(1)
        return given(*words) if len(calls) == 1 else setattr(words[5], "reason", 255)

    for text in list[Any]((SAMPLES / "three.nt", [SAMPLES / "three.nt"])):
        calls.clear()
        with mock.patch.object(library, "hdt_with_header", fails), pytest.raises(MemoryError):
            hdt.build(text, out, metadata=GIVEN)
        assert (len(calls), out.read_bytes(), [it.name for it in tmp_path.iterdir()]) == (2, b"before", ["out.hdt"])
