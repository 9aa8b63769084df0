"""`hdt.Term`: dictionary strings and N-Triples are taken apart as the engine does, and put together again."""

from __future__ import annotations

import copy
import dataclasses
import importlib.util
import io
import pickle
import re
import sys
from collections.abc import Callable, Iterator
from itertools import product
from pathlib import Path
from typing import Any, Optional

import pytest
from hypothesis import example, given
from hypothesis import strategies as st

from reference import hdt as reference
from support import program
from support.built import SAMPLES
from support.parts import parts
from support.python_package import ENVIRONMENT, PACKAGE, hdt

XSD = "http://www.w3.org/2001/XMLSchema#"

TERMS = {
    "http://a/b": hdt.Term("iri", "http://a/b"),
    "u:": hdt.Term("iri", "u:"),
    "_:b": hdt.Term("blank", "b"),
    "_:0.a-\u00b7": hdt.Term("blank", "0.a-\u00b7"),
    '"x"': hdt.Term("literal", "x"),
    '""': hdt.Term("literal", ""),
    '"""': hdt.Term("literal", '"'),
    '"x"@en-GB': hdt.Term("literal", "x", language="en-GB"),
    f'"1"^^<{XSD}integer>': hdt.Term("literal", "1", datatype=f"{XSD}integer"),
    '"a "@en\n"@de': hdt.Term("literal", 'a "@en\n', language="de"),
}
NO_STRINGS = [
    "", "rel", "/a", ":a", "1:a", "u:\0", "u:\ud800", "<u:a>", "_:", "_:.", "_:a.", "_:-", "_: a", "_:\u00d7", "_:a\n",
    '"', '"x', '"x"@', '"x"@1', '"x"@en-', '"x"@en\n', '"x"^^', '"x"^^<rel>', '"x"^^<>', '"x"^^<u:t', '"x"^^u:t',
    '"x"^^<u:t>\n', '"\0"', '"\ud800"', '"x" ', '"x"^^<u:a b>',
]
SPELLED = {
    "<http://a/b>": "http://a/b",
    "<u:\\u00e9\\U0001F600>": "u:\u00e9\U0001f600",
    "<\\u0075:a>": "u:a",
    "_:b": "_:b",
    '"x"': '"x"',
    '"\\t\\b\\n\\r\\f\\"\\\'\\\\"': '"\t\b\n\r\f"\'\\"',
    '"x" \t@en': '"x"@en',
    '"x" ^^ \t<u:t>': '"x"^^<u:t>',
    f'"x"^^<{XSD}string>': '"x"',
    f'"x"^^<{XSD}strin\\u0067>': '"x"',
    '"x"^^<\\u0075:t>': '"x"^^<u:t>',
}
NO_TEXTS = [
    "", "<rel>", "<u:a", "u:a", "<u:a b>", "<u:\\u0020>", "<u:\\n>", "<u:\\u003e>", "<\\u0072el>", "_:", "_:a.",
    "_:a b", "_b", '"', '"x', '"\n"', '"\r"', '"\\x"', '"\\u00"', '"\\ud800"', '"\\u0000"', '"\\U00110000"',
    '"\\Uffffffff"', '"x"@', '"x"@en-', '"x" ', ' "x"', '"x"@ en', '"x"^', '"x"^^u:t', '"x"^^<rel>', '"x"@en^^<u:t>',
    '"x"x', '"\0"', "<u:\ud800>", '"\ud800"', "_:\ud800", "<u:a>\n", '"x"\n', "_:b\n",
]


@pytest.mark.parametrize("string", TERMS)
def test_dictionary_strings(string: str) -> None:
    """A dictionary string is taken apart, and put together again."""
    assert hdt.Term.parse(string) == TERMS[string]
    assert TERMS[string].format() == string
    assert hdt.Term.parse_ntriples(TERMS[string].format_ntriples()) == TERMS[string]


def test_iris_of_dictionaries() -> None:
    """An IRI of a dictionary may have characters that N-Triples excludes."""
    term = hdt.Term.parse("u:a b<\\")
    assert (term.kind, term.lexical, term.format()) == ("iri", "u:a b<\\", "u:a b<\\")
    assert term.format_ntriples() == "<u:a\\u0020b\\u003C\\u005C>"
    with pytest.raises(ValueError):
        hdt.Term.parse_ntriples(term.format_ntriples())


@pytest.mark.parametrize("string", NO_STRINGS)
def test_strings_of_no_term(string: str) -> None:
    """The string of no term is a ValueError."""
    with pytest.raises(ValueError, match="not a term"):
        hdt.Term.parse(string)


@pytest.mark.parametrize("text", SPELLED)
def test_ntriples(text: str) -> None:
    """A term of N-Triples is read."""
    assert hdt.Term.parse_ntriples(text).format() == SPELLED[text]


@pytest.mark.parametrize("text", NO_TEXTS)
def test_texts_of_no_term(text: str) -> None:
    """Other texts are a ValueError."""
    with pytest.raises(ValueError, match="not a term"):
        hdt.Term.parse_ntriples(text)


# Why a text is no term of N-Triples.
REASONS = {
    "<http://a/b": "no > at the end",
    "<u:a b>": "a character or an escape that no IRI has",
    "<rel>": "not an absolute IRI of N-Triples",
    '"v1': "not a text in quotation marks, and then nothing, a language tag or ^^ and a datatype",
    "u:a": "an IRI begins with <, a literal with a quotation mark, a blank node with _:",
    "_:.": "not the label of a blank node",
    '"\\U00110000"': "an escape of no character",
    '"\\ud800"': "it has U+0000 or half of a surrogate pair",
}


@pytest.mark.parametrize("text", REASONS)
def test_why_a_text_is_no_term(text: str) -> None:
    """The message ends with the reason."""
    with pytest.raises(ValueError, match=f": {re.escape(REASONS[text])}$"):
        hdt.Term.parse_ntriples(text)


@pytest.mark.parametrize("string, wanted", [
    ("<u:a>", "not a term: '<u:a>': an IRI of a dictionary string has no brackets"),
    ("rel", "not a term: 'rel': not an absolute IRI"),
    ("_:", "not a term: '_:': not the label of a blank node"),
])
def test_why_a_string_is_no_term(string: str, wanted: str) -> None:
    """The message has the whole string and the reason."""
    with pytest.raises(ValueError) as why:
        hdt.Term.parse(string)
    assert str(why.value) == wanted


FIELDS: dict[str, tuple[Any, ...]] = {
    "another kind": ("IRI", "u:a"),
    "an IRI with a language": ("iri", "u:a", "en"),
    "a blank node with a datatype": ("blank", "b", None, "u:t"),
    "both": ("literal", "x", "en", "u:t"),
    "no language": ("literal", "x", ""),
    "no datatype": ("literal", "x", None, ""),
    "a relative datatype": ("literal", "x", None, "t"),
    "a relative IRI": ("iri", "a"),
    "a label with a colon before it": ("blank", "_:."),
    "U+0000": ("literal", "\0"),
}


@pytest.mark.parametrize("fields", FIELDS)
def test_fields_of_no_term(fields: str) -> None:
    """Fields that no term has are a ValueError."""
    with pytest.raises(ValueError):
        hdt.Term(*FIELDS[fields])


def test_terms_are_values() -> None:
    """A term can't be changed; it is hashable, and equal to another one with the same fields only."""
    term = hdt.Term("literal", "x", language="en")
    for same in (hdt.Term.parse('"x"@en'), copy.deepcopy(term), pickle.loads(pickle.dumps(term))):
        assert same == term and hash(same) == hash(term)
    assert len({term, *TERMS.values(), *TERMS.values()}) == len(TERMS) + 1
    assert term != hdt.Term("literal", "x", language="EN") and term != hdt.Term("literal", "x")
    with pytest.raises(dataclasses.FrozenInstanceError):
        term.lexical = "y"  # type: ignore[misc]


# ---- beside the engine


PIECES = st.sampled_from([
    "u:", "http://a/", "_:", "_", ":", ".", "-", '"', '"', "@", "en", "-GB", "^^<", "^^", "<", ">", "\\", " ", "\n",
    "\r", "\t", "a", "1", "\u00e9", "\u00b7", "\u00d7", "\u037e", "\u200c", "\u2040", "\ufdd0", "\U0001f600",
    "\U000f0000", "\x7f", f"^^<{XSD}string>", "{", "|", "`", "e\u0301",
])
STRINGS = st.lists(PIECES, min_size=1, max_size=6).map("".join) | st.text(max_size=4).filter(lambda it: "\0" not in it)
ESCAPES = st.sampled_from([
    "\\n", "\\t", "\\u0041", "\\u0000", "\\ud800", "\\U0001F600", "\\U00110000", "\\u00e9", "\\x", "\\u00", "\\\\",
    '\\"', "\\u003e", "\\u0020", "\\'",
])
TEXTS = (
    st.lists(PIECES | ESCAPES, max_size=5).map(lambda it: f"<u:{''.join(it)}>")
    | st.builds(lambda text, tail: f'"{"".join(text)}"{tail}', st.lists(PIECES | ESCAPES, max_size=5),
                st.sampled_from(["", "@en", " @en-GB", "^^<u:t>", " ^^ <u:\\u0041>", f"^^<{XSD}string>", "@", "^^<t>"]))
    | st.lists(PIECES | ESCAPES, min_size=1, max_size=5).map("".join)
    | st.lists(PIECES, max_size=4).map(lambda it: f"_:{''.join(it)}")
)


def text_of(string: str) -> Optional[str]:
    """An object's string as N-Triples by the engine; None if it is no term."""
    with hdt.Graph(reference.graph([(b"u:s", b"u:p", string.encode())]).data) as graph:
        try:
            return graph.text()[len("<u:s> <u:p> "):-len(" .\n")]
        except hdt.NotATerm:
            return None


def parsed(parse: Any, text: str) -> Optional[hdt.Term]:
    """A term, or None where there is none."""
    try:
        term: hdt.Term = parse(text)
    except ValueError:
        return None
    return term


@given(STRINGS)
@example('"x"@en')
@example("_:a.b")
@example(f'"x"^^<{XSD}string>')
def test_strings_as_the_engine_takes_them(string: str) -> None:
    """A string is a term if the engine says so, and has the engine's N-Triples."""
    term = parsed(hdt.Term.parse, string)
    assert (term and term.format_ntriples()) == text_of(string)
    if term:
        assert term.format() == string


@given(TEXTS)
@example('"x" ^^ <u:t>')
@example("<\\u0075:a>")
def test_ntriples_as_the_engine_reads_it(tmp_path_factory: pytest.TempPathFactory, text: str) -> None:
    """A term of N-Triples is read as the engine reads it as the object of a line."""
    if set(text) & {"\n", "\r"} or text != text.strip(" \t"):
        return  # (there it is no term of a line, or it is with blanks around it)
    folder = tmp_path_factory.getbasetemp()
    line, built = Path(folder, "term.nt"), Path(folder, "term.hdt")
    line.write_text(f"<u:s> <u:p> {text} .\n", encoding="utf-8", newline="")
    wanted = None
    try:
        hdt.build(line, built)
        with hdt.open(built) as graph:
            wanted = next(iter(graph))[2]
    except hdt.LineFault:
        pass
    term = parsed(hdt.Term.parse_ntriples, text)
    assert (term and term.format()) == wanted


# ---- terms in place of strings


def written(graph: Any, *pattern: Any) -> str:
    """What a graph writes of a pattern."""
    file = io.StringIO()
    graph.write_text(file, *pattern)
    return file.getvalue()


# The calls that take a pattern, of both kinds of graphs,
SEARCHES: dict[str, Callable[..., object]] = {
    "find": lambda graph, *pattern: list(graph.find(*pattern)),
    "matching": lambda graph, *pattern: graph.matching(*pattern),
    "page": lambda graph, *pattern: graph.page(*pattern),
    "position": lambda graph, *pattern: graph.position(*pattern),
    "text": lambda graph, *pattern: graph.text(*pattern),
    "text_pieces": lambda graph, *pattern: list(graph.text_pieces(*pattern)),
    "write_text": written,
}
# and of one kind.
SEARCHES_OF: dict[str, dict[str, Callable[..., object]]] = {
    "hdt": {
        **SEARCHES,
        "find_ids": lambda graph, *pattern: list(graph.find_ids(*pattern)),
        "id_array": lambda graph, *pattern: list(graph.id_array(*pattern)),
        "matching_ids": lambda graph, *pattern: graph.matching_ids(*pattern),
        "page_ids": lambda graph, *pattern: graph.page_ids(*pattern),
        "page_text": lambda graph, *pattern: graph.page_text(*pattern),
    },
    "hdt.parts": {
        **SEARCHES,
        "matching_all": lambda graph, *pattern: graph.matching_all([pattern]),
        "find by strings": lambda graph, *pattern: list(graph.find(*pattern, order="strings")),
    },
}
ROWS = [(kind, call) for kind, calls in SEARCHES_OF.items() for call in calls]
OBJECTS = ["u:a", "_:b", '"x"', '"x"@en', f'"1"^^<{XSD}integer>', '"http://a/"', '"_:b"']
KINDS = list(product((False, True), repeat=3))


@pytest.fixture(scope="module")
def graphs(tmp_path_factory: pytest.TempPathFactory) -> Iterator[dict[str, Any]]:
    """A graph with terms of each kind, as a file and as a folder of parts."""
    folder = tmp_path_factory.mktemp("terms")
    lines = [
        f"{hdt.Term.parse(s).format_ntriples()} <u:p> {hdt.Term.parse(o).format_ntriples()} .\n"
        for s, o in product(("u:a", "_:b"), OBJECTS)]
    (folder / "terms.nt").write_text("".join(lines))
    hdt.build(folder / "terms.nt", folder / "terms.hdt")
    parts.build([folder / "terms.nt"], folder / "parts", 2)
    with hdt.open(folder / "terms.hdt") as graph, parts.open(folder / "parts") as folded:
        yield {"hdt": graph, "hdt.parts": folded}


def term_of(string: str, kind: str) -> Any:
    """A dictionary string as a term of a kind."""
    if kind == "hdt":
        return hdt.Term.parse(string)
    pytest.importorskip("rdflib")
    from hdt.rdflib import term_of as rdflib_term

    return rdflib_term(string)


@pytest.mark.parametrize("terms", ["hdt", "rdflib"])
@pytest.mark.parametrize("kind, call", ROWS)
def test_terms_are_searched_for(kind: str, call: str, terms: str, graphs: dict[str, Any]) -> None:
    """A Term, and a term of rdflib, is its dictionary string: in each call, at each place, and in what is found."""
    graph, search = graphs[kind], SEARCHES_OF[kind][call]
    for o in OBJECTS:
        for given_ones in KINDS[1:]:
            strings = [it if is_given else None for it, is_given in zip(("_:b", "u:p", o), given_ones)]
            found = search(graph, *(it and term_of(it, terms) for it in strings))
            assert found == search(graph, *strings)
            assert found not in ([], None, "", [0]) and (found or call == "position")
    if call == "find":
        triple = next(graph.find(o=term_of('"x"@en', terms)))
        assert [type(string) for string in triple] == [str, str, str] and triple[2] == '"x"@en'


@pytest.mark.parametrize("terms", ["hdt", "rdflib"])
def test_terms_are_looked_up(terms: str, graphs: dict[str, Any]) -> None:
    """`in`, `number` and `Term.parse` take terms, too."""
    graph = graphs["hdt"]
    for o in OBJECTS:
        term = term_of(o, terms)
        assert graph.number("object", term) == graph.number("object", o) is not None
        assert hdt.Term.parse(term) == hdt.Term.parse(o)
        for it in graphs.values():
            assert (term_of("_:b", terms), "u:p", term) in it
            assert (term_of("_:c", terms), "u:p", term) not in it


@pytest.mark.parametrize("kind, call", ROWS)
def test_terms_that_are_none(kind: str, call: str, graphs: dict[str, Any]) -> None:
    """What looks like any is a ValueError that says what any is, and another type a TypeError, at each place."""
    graph, search = graphs[kind], SEARCHES_OF[kind][call]
    for place in range(3):
        before = [None] * place
        for term in ("", "?"):
            with pytest.raises(ValueError, match=rf"^{re.escape(repr(term))} is not a term: None matches any$"):
                search(graph, *before, term)
        for other in (b"u:a", 1.0, ["u:a"], ("u:a",), object()):
            with pytest.raises(TypeError):
                search(graph, *before, other)
    if "ids" not in call and call not in ("id_array", "page_text") and (kind, call) != ("hdt", "position"):
        with pytest.raises(TypeError):
            search(graph, 1)


def test_triples_that_are_none(graphs: dict[str, Any]) -> None:
    """A triple of other types is not in a graph; one with what looks like any is a ValueError."""
    for graph in graphs.values():
        assert (b"u:a", "u:p", '"x"') not in graph and ("u:a", "u:p", None) not in graph and (1, 1, 1) not in graph
        with pytest.raises(ValueError, match="None matches any"):
            ("u:a", "?", '"x"') in graph
    for wrong in (5, None, b"u:a"):
        with pytest.raises(TypeError, match="a term is a str, an hdt.Term or a term of rdflib, not"):
            graphs["hdt"].number("object", wrong)
        with pytest.raises(TypeError):
            hdt.Term.parse(wrong)  # type: ignore[arg-type]
        with pytest.raises(TypeError):
            graphs["hdt"].ids_with_prefix(wrong, "object")


def test_rdflib_terms_that_are_none(graphs: dict[str, Any]) -> None:
    """A URIRef that is no IRI, and a Literal with a datatype that no file has, are ValueErrors, a Variable another."""
    term = pytest.importorskip("rdflib.term")
    wrong = [term.URIRef(""), term.URIRef("_:b"), term.URIRef('"x"'), term.Literal("x", datatype=term.URIRef('u:"'))]
    for graph in graphs.values():
        for it in wrong:
            with pytest.raises(ValueError, match="no dictionary string is that of"):
                graph.find(it)
        with pytest.raises(ValueError, match="None matches any"):
            graph.find(term.URIRef("?"))
        with pytest.raises(TypeError, match="not Variable"):
            graph.find(term.Variable("s"))


def test_strings_that_look_like_any() -> None:
    """If another program's file has them, they are searched for by their IDs."""
    data = reference.graph([(b"u:a", b"u:p", b""), (b"u:a", b"u:p", b"?"), (b"u:a", b"u:p", b"u:b")]).data
    with hdt.Graph(data) as graph:
        for term in ("", "?"):
            number = graph.number("object", term)
            assert number is not None and [graph.string("object", o) for _, _, o in graph.find_ids(o=number)] == [term]
            with pytest.raises(ValueError, match="None matches any"):
                graph.find(o=term)


@pytest.mark.parametrize("module", ["hdt", "tickmarl_hdt"])
def test_rdflib_is_not_imported(module: str, tmp_path: Path) -> None:
    """rdflib is not imported by searches; its terms are taken also if the package has only its other name."""
    if module != "hdt":
        (tmp_path / "hdt.py").write_text("")
    code = f"""
import sys, {module} as hdt
class Own(str):
    pass
wanted = [("u:b", "u:p", "u:a")]
with hdt.open({str(SAMPLES / "three.hdt")!r}) as graph:
    for term in (Own("u:b"), hdt.Term("iri", "u:b")):
        assert list(graph.find(term)) == wanted and "rdflib" not in sys.modules
    if {importlib.util.find_spec("rdflib") is not None}:
        from rdflib.term import URIRef
        assert list(graph.find(URIRef("u:b"))) == wanted
"""
    environment = {**ENVIRONMENT, "PYTHONPATH": f"{tmp_path}:{PACKAGE}"}
    assert program.run([sys.executable, "-c", code], env=environment) == (0, b"", b"")
