"""The fragment server: the pages of each pattern, terms of requests, formats, controls, VoID, configurations."""

from __future__ import annotations

import importlib
import json
import re
import sys
from contextlib import ExitStack
from itertools import product
from pathlib import Path
from typing import Any, Optional
from unittest import mock
from urllib.parse import quote, unquote

import pytest

from reference import hdt as reference
from support.fragments import BASE, MANY, ODD, Answer, Site, build, fragments, hdt, url
from test_python import lines as ntriples
from test_python import matching

P, N = "http://odd.example/p", "http://odd.example/n"
XSD = "http://www.w3.org/2001/XMLSchema#"
HYDRA = "http://www.w3.org/ns/hydra/core#"
GENID = BASE + ".well-known/genid/odd/"
SHOUT = f'<http://odd.example/s1> <{P}> "shout"@EN-gb .\n'
ROLES = ("subject", "predicate", "object")
FORMATS = {
    "text/turtle": "turtle",
    "application/trig": "trig",
    "application/n-quads": "nquads",
    "application/n-triples": "nt11",
    "application/ld+json": "json-ld",
}


@pytest.fixture(scope="session")
def odd(tmp_path_factory: pytest.TempPathFactory) -> Path:
    """The file of odd terms."""
    return build(tmp_path_factory.mktemp("odd"), ODD + SHOUT)


@pytest.fixture(scope="session")
def site(odd: Path) -> Site:
    """The application of the file, with small pages too."""
    return Site(fragments.Application({
        "datasets": {"odd": {"file": str(odd), "title": "Odd terms", "description": 'Terms of "all" <kinds>',
                             "license": "http://odd.example/license", "download": True}},
        "dereference": {"resource/": "odd"},
    }))


def skolemized(text: str) -> str:
    """N-Triples with the blank nodes as the server names them."""
    return re.sub(r"(?<![^\s])_:(\S+)(?= )", lambda match: f"<{GENID}{quote(match[1])}>", text)


def data(quads: str) -> str:
    """The lines of N-Quads that are data: those without a graph."""
    return "".join(line + "\n" for line in quads.split("\n") if line and not line.endswith("#metadata> ."))


def controls(quads: str) -> list[tuple[str, str, str]]:
    """The triples of N-Quads that are in the graph of controls, without brackets."""
    found = re.findall(r"^<([^>]*)> <([^>]*)> (?:<([^>]*)>|(.*)) <[^>]*#metadata> \.$", quads, re.MULTILINE)
    return [(s, p, o or literal) for s, p, o, literal in found]


def followed(site: Site, target: str) -> tuple[str, int]:
    """The data of all pages, by the control `next`, and how many pages there are."""
    joined, pages = "", 0
    while target:
        answer = site.nquads(target)
        assert answer.status == 200
        joined, pages = joined + data(answer.text), pages + 1
        following = [o for _, p, o in controls(answer.text) if p == HYDRA + "next"]
        target = "/" + following[0][len(BASE):] if following else ""
    return joined, pages


# ---- pages


def asked_for(term: Optional[str]) -> Optional[str]:
    """A dictionary string as a client asks for it."""
    return GENID + quote(term[2:]) if term and term.startswith("_:") else term


@pytest.mark.parametrize("size", [7, 100, 1000])
def test_pages_joined(odd: Path, size: int) -> None:
    """The pages of each of the eight patterns, joined, are what a plain filter finds."""
    site = Site(fragments.Application({"datasets": {"odd": str(odd)}, "page_size": size}))
    with hdt.open(odd) as graph:
        triples = list(graph)
    chosen = triples[::9] if size == 7 else triples[::60]
    patterns = {tuple(term if has else None for term, has in zip(triple, kind))
                for triple in chosen for kind in product((False, True), repeat=3)}
    assert len(patterns) > 25
    for pattern in patterns:
        wanted = matching(triples, pattern)
        given = {role: term for role, term in zip(ROLES, map(asked_for, pattern)) if term and len(term) < 2000}
        if len(given) < sum(term is not None for term in pattern):
            continue
        joined, pages = followed(site, url(**given))
        assert joined == skolemized(ntriples(wanted)), pattern
        assert pages == max(1, -(-len(wanted) // size))
        assert site.nquads(url(**given)).total == len(wanted)


def test_far_pages(tmp_path: Path) -> None:
    """Pages behind thousands of triples are those of the graph, in any order."""
    numbers = 5000
    text = "".join(f"<u:s{n % 100:02}> <u:{p}> <u:o{n:05}> .\n" for n in range(numbers) for p in "pq")
    site = Site(fragments.Application({"datasets": {"odd": str(build(tmp_path, text))}}))
    with hdt.open(tmp_path / "odd.hdt") as graph:
        for predicate in ("", "u:q"):
            found = list(graph.find(p=predicate or None))
            for page in (len(found) // 100, 1, 21, 22, 49, 33, 21):
                answer = site.nquads(url(predicate=predicate, page=page))
                assert data(answer.text) == ntriples(found[100 * page - 100:100 * page])


def test_far_pages_take_one_walk(tmp_path: Path) -> None:
    """All far pages of a pattern together take one walk over its matches; then a page takes a thousand of them."""
    text = "".join(f"<u:s{n:05}> <u:{p}> <u:o> .\n" for n in range(9_000) for p in "pq")
    site = Site(fragments.Application({"datasets": {"odd": str(build(tmp_path, text))}}))
    skipped: list[int] = []
    position = hdt.Graph.position

    def counting(graph: hdt.Graph, *pattern: Any, skip: int = 0, start: int = 0) -> Optional[int]:
        skipped.append(skip)
        return position(graph, *pattern, skip=skip, start=start)

    with mock.patch.object(hdt.Graph, "position", counting):
        for given in ({"predicate": "u:p"}, {"object": "u:o"}, {"predicate": "u:q", "object": "u:o"}):
            matches = site.nquads(url(**given)).total
            skipped.clear()
            for page in (matches // 100, matches // 100, 3, 41, matches // 200):
                before = sum(skipped)
                answer = site.nquads(url(**given, page=page))
                assert data(answer.text).count("\n") == 100
                assert sum(skipped) - before < (1_000 if before else matches)
            assert max(skipped) <= 1_000


def test_what_is_kept_has_bounds(tmp_path: Path) -> None:
    """Counts and positions of the last patterns are kept, and what is written of predicates, but not of objects."""
    text = "".join(f"<u:s{n:03}> <u:p{p}> <u:o> .\n" for n in range(120) for p in range(9))
    reader, writers = (importlib.import_module(f"hdt.fragments._{name}") for name in ("reader", "writers"))
    with mock.patch.multiple(reader, _KEPT=5, _KEPT_POSITIONS=3):
        site = Site(fragments.Application({"datasets": {"odd": str(build(tmp_path, text))}, "page_size": 7}))
    kept = site.application.datasets["odd"].loaded().reader
    for page in (3, 2, 17, 9):
        for p in range(9):
            answer = site.ask(url(predicate=f"u:p{p}", page=page), Accept="text/turtle")
            wanted = "".join(f"<u:s{n:03}> <u:p{p}> <u:o> .\n" for n in range(7 * page - 7, 7 * page))
            assert wanted in answer.text
            assert len(kept._positions._values) == min(p + 1 if page == 3 else 9, 3)
            assert len(kept._counted._values) == min(p + 1 if page == 3 else 9, 5)
    writers._known.cache_clear()
    for page in range(1, 18):
        assert site.ask(url(predicate="u:p1", page=page), Accept="text/turtle").status == 200
    assert 0 < writers._known.cache_info().currsize < 20


@pytest.mark.parametrize("media", [*FORMATS, "text/html"])
@pytest.mark.parametrize("given", [{}, {"predicate": N}, {"predicate": P}, {"subject": "http://odd.example/s1"}],
                         ids=["all", "numbers", "odd terms", "a subject"])
def test_few_calls_a_page(odd: Path, media: str, given: dict[str, str]) -> None:
    """A page takes a few calls of the engine, however many terms it has."""
    site, called = Site(fragments.Application({"datasets": {"odd": str(odd)}})), list[str]()
    with ExitStack() as patches:
        for name in ("_asked", "_put", "_text"):
            call = getattr(hdt.Graph, name)

            def counting(graph: hdt.Graph, *parameters: Any, call: Any = call, name: str = name) -> Any:
                called.append(name)
                return call(graph, *parameters)

            patches.enter_context(mock.patch.object(hdt.Graph, name, counting))
        assert site.ask(url(**given), Accept=media).status == 200
    assert 0 < len(called) <= 12, called


def next_of(answer: Answer) -> str:
    """The path that the control `next` leads to."""
    found = [o for _, p, o in controls(answer.text) if p == HYDRA + "next"]
    assert len(found) == 1
    return "/" + found[0][len(BASE):]


def test_next_pages_take_no_walk(odd: Path) -> None:
    """Who follows `next` gets each page by its position: nothing is counted up to it."""
    site = Site(fragments.Application({"datasets": {"odd": str(odd)}, "page_size": 7}))
    with mock.patch.object(hdt.Graph, "position", side_effect=AssertionError):
        patterns: list[dict[str, str]] = [{}, {"predicate": N}, {"subject": "http://odd.example/many", "predicate": N}]
        for given in patterns:
            joined, pages = followed(site, url(**given))
            assert pages > 30 and joined.count("\n") >= MANY
            assert data(site.nquads(url(**{**given, "page": "1"})).text) == data(site.nquads(url(**given)).text)


def test_positions_of_no_link(odd: Path) -> None:
    """Where a page begins is taken from a link to that page of that file only, else it is ignored."""
    site = Site(fragments.Application({"datasets": {"odd": str(odd)}}))
    second = next_of(site.nquads(url(predicate=N)))
    third = next_of(site.nquads(second))
    begins, position = second.partition("&from=")[2], third.partition("&from=")[2]
    assert re.fullmatch("[0-9]+-[0-9a-f]{8}", begins) and "&page=2&" in second
    wanted = data(site.nquads(url(predicate=N, page=2)).text)
    assert data(site.nquads(second).text) == wanted and wanted.count("\n") == 100
    number, digest = begins.split("-")
    other = Site(fragments.Application({"datasets": {"odd": str(odd)}, "page_size": 50}))
    assert data(other.nquads(second).text) == data(other.nquads(url(predicate=N, page=2)).text)
    for wrong in (number, f"{number}-", f"{int(number) + 1}-{digest}", f"0{begins}", f"{begins}0", position, "0", "-1",
                  "x", "", "9" * 30, f"\u0661-{digest}", f"{number}-{'0' * 8}", "<script>", "\x00"):
        answer = site.nquads(url(predicate=N, page=2, **{"from": wrong}))
        assert (answer.status, data(answer.text)) == (200, wanted), wrong
        assert next_of(answer) == third
    assert site.nquads(url(predicate=N, object="http://none/", page=2, **{"from": begins})).status == 404
    assert data(site.nquads(url(predicate=N, page=3, **{"from": begins})).text) == data(site.nquads(third).text)
    assert site.nquads(second + "&from=" + begins).status == 400
    whole = url(**{"from": begins})
    assert data(site.nquads(whole).text) == data(site.nquads("/odd").text)


def test_positions_of_another_file(tmp_path: Path) -> None:
    """A link of the file before it was replaced leads to the same page of the new one."""
    path = build(tmp_path, "".join(f"<u:s> <u:p> <u:o{n:03}> .\n" for n in range(300)))
    site = Site(fragments.Application({"datasets": {"odd": str(path)}}))
    second = next_of(site.nquads(url(predicate="u:p")))
    build(tmp_path, "".join(f"<u:r> <u:{p}> <u:o{n:03}> .\n" for n in range(300) for p in "op"), "other").replace(path)
    again = Site(fragments.Application({"datasets": {"odd": str(path)}}))
    assert data(again.nquads(second).text) == "".join(f"<u:r> <u:p> <u:o{n:03}> .\n" for n in range(100, 200))


def test_past_the_last_page(site: Site) -> None:
    """A page behind the last one is 404; the first page of nothing is empty."""
    assert site.nquads(url(predicate="http://odd.example/n", page=3)).total == MANY
    for target in (url(predicate="http://odd.example/n", page=4), url(subject="http://none/", page=2),
                   url(page=999_999_999_999_999)):
        assert site.nquads(target).status == 404
    empty = site.nquads(url(subject="http://none/", page=1))
    assert (empty.status, empty.total, data(empty.text)) == (200, 0, "")
    assert not [p for _, p, _ in controls(empty.text) if p in (HYDRA + "next", HYDRA + "last", HYDRA + "previous")]


@pytest.mark.parametrize("page", ["0", "-1", "x", "1e3", "\u0661", "1.0", "99999999999999999999", " 1", "1\n"])
def test_wrong_pages(site: Site, page: str) -> None:
    """A page that is no number is 400 with a reason."""
    answer = site.nquads(url(page=page))
    assert (answer.status, answer.text) == (400, "Bad Request: The page must be a number from 1 on.\n")


# ---- terms of requests


@pytest.mark.parametrize("text, count", [
    ('"plain"', 1), ('"plain"^^http://www.w3.org/2001/XMLSchema#string', 1), ('""', 1), ('"?x"', 1),
    ('"colour"@en-GB', 1), ('"colour"@en-gb', 1), ('"colour"@EN-GB', 1), ('"shout"@EN-gb', 1),
    ('"shout"@en-gb', 1), ('"colour"@fr', 0),
    ('"text"', 1), (f'"text"^^{XSD}string', 1), (f'"text"^^<{XSD}string>', 1),
    (f'"5"^^{XSD}integer', 2), (f'"5"^^<{XSD}integer>', 2), ('"5"', 0), (f'"05"^^{XSD}integer', 0),
    ('"with "quotes" inside"', 1), ('"with \\"quotes\\" inside"', 1),
    ('"back\\slash and \\n two characters"', 1), ('"back\\\\slash and \\\\n two characters"', 1),
    ('"line\nfeed\ttab\rreturn"', 1), ('"line\\nfeed\\ttab\\rreturn"', 1),
    ('"caf\\u00E9 \\u2014 \\U0001F600"@fr', 1), ('"caf\u00e9 \u2014 \U0001f600"@fr', 1), ('"\\uD800"', 0),
    ('"a & b + c # d % e ? f=g; h"', 1), ('"looks like "x"@en"', 1), ('"looks like "5"^^<http://a/dt>"', 1),
    ('"open', 0), ('"', 0), ('"x"@', 0), ('"x"^^', 0), ("?o", None), ("", None), ("mailto:a@b.example", 1),
    ("<mailto:a@b.example>", 1), ("_:b1", 1), (GENID + "b.2-x", 1), ("nonsense", 0), ("\0", 0),
])
def test_objects(site: Site, text: str, count: Optional[int]) -> None:
    """A literal is raw or escaped, its datatype bare or in brackets, its tag as a client folds it. Other terms."""
    answer = site.nquads(url(object=text))
    assert (answer.status, answer.total) == (200, (ODD + SHOUT).count("\n") if count is None else count)


@pytest.mark.parametrize("text, count", [
    ("http://odd.example/a+b", 1), ("http://odd.example/a?q=1&r=2#frag", 1), ("http://odd.example/J%C3%A4ger", 1),
    ("http://odd.example/J\u00e4ger", 1), ("<http://odd.example/s2>", 1), ("_:b.2-x", 1), (GENID + "b.2-x", 1),
    (GENID + "%C3%A9t%C3%A9", 1), (GENID + "\u00e9t\u00e9", 1), ("_:\u00e9t\u00e9", 1), ("javascript:alert(1)", 1),
    ("<<http://odd.example/s2>>", 1), ("<<u:a>>", 0), ("<<>>", 0), ("<>", 0), ("<?>", 0),
    ('"x"', 0), ("_:", 0), (GENID, 0), (BASE + ".well-known/genid/other/b1", 0),
])
def test_subjects(site: Site, text: str, count: int) -> None:
    """IRIs of all kinds and blank nodes; a literal is no subject, and its fragment is empty."""
    answer = site.nquads(url(subject=text))
    assert (answer.status, answer.total) == (200, count)


def test_spaces_and_names(site: Site) -> None:
    """A plus is a space; a name with a known prefix is its IRI; other parameters change nothing."""
    literal = '"a & b + c # d % e ? f=g; h"'
    assert site.nquads("/odd?object=" + quote(literal).replace("%20", "+")).total == 1
    assert site.nquads(url(predicate="rdf:type")).total == 1
    assert site.nquads("/odd?other=1&&predicate=&subject=%3Fs").total == (ODD + SHOUT).count("\n")


# ---- formats and negotiation

BROWSER = "text/html,application/xhtml+xml,application/xml;q=0.9,image/webp,*/*;q=0.8"
COMUNICA = ("application/n-quads,application/trig;q=0.95,application/ld+json;q=0.9,application/n-triples;q=0.8,"
            "text/turtle;q=0.6,text/html;q=0.2")


@pytest.mark.parametrize("accept, wanted", [
    ("", "text/turtle"), ("*/*", "text/turtle"), (BROWSER, "text/html"), (COMUNICA, "application/n-quads"),
    ("application/trig", "application/trig"), ("text/*;q=0.3, text/html;q=0.7", "text/html"),
    ("text/turtle;q=0, */*", "application/trig"), ("TEXT/TURTLE", "text/turtle"),
    ("text/turtle; q=0.5 , application/n-triples", "application/n-triples"), ("application/*", "application/trig"),
    ("text/turtle;version=1;q=0.4, text/html;q=0.3", "text/turtle"), ("text/x-nquads", "text/x-nquads"),
    ("application/x-turtle", "application/x-turtle"), ("application/xhtml+xml", "text/html"),
    ("text/turtle;q=x, text/html;q=0.1", "text/html"), ("image/png", None), ("text/turtle;q=0", None),
    ("text/turtle;q=x", None), ("application/json", None), ("text/plain", None), ("nonsense", None), (",;,", None),
])
def test_negotiation(site: Site, accept: str, wanted: Optional[str]) -> None:
    """The format is the one that a client accepts most (RFC 9110, 12.5.1), or the answer is 406."""
    answer = site.ask("/odd", Accept=accept)
    assert answer.headers["content-type"].split(";")[0] == (wanted or "text/plain")
    assert (answer.status, answer.headers["vary"]) == (200 if wanted else 406, "Accept, Accept-Encoding")


def test_named_formats(site: Site) -> None:
    """The parameter `format` names one, over the header."""
    for name, media in {"ttl": "text/turtle", "nq": "application/n-quads", "jsonld": "application/ld+json"}.items():
        answer = site.ask(url(format=name), Accept="text/html")
        assert answer.headers["content-type"].split(";")[0] == media
    assert site.ask(url(format="exe")).status == 400


def parsed(body: bytes, name: str, target: str) -> tuple[set[Any], set[Any]]:
    """The triples of a page that are data and those that are controls, by rdflib."""
    rdflib: Any = pytest.importorskip("rdflib")
    graph = rdflib.ConjunctiveGraph()
    graph.parse(data=body, format=name, publicID=target)
    quads = [(triple, str(getattr(context, "identifier", context))) for *triple, context in graph.quads()]
    # (rdflib 6.1.1 reads a backslash and an n of N-Triples as a backslash and a line feed)
    plain = [(tuple("back" if "back" in str(term) else term for term in triple), name) for triple, name in quads]
    inside = {triple for triple, name in plain if name.endswith("#metadata")}
    return {triple for triple, _ in plain} - inside, inside


@pytest.mark.parametrize("target", [
    "/odd", url(page=3), url(predicate=P), url(subject="http://none/"), url(predicate="http://odd.example/knows"),
], ids=["all", "page", "odd terms", "nothing", "blank nodes"])
def test_formats_agree(site: Site, target: str) -> None:
    """rdflib reads the same data and controls from all formats; where a format has graphs, controls have their own."""
    pages = {media: parsed(site.ask(target, Accept=media).body, name, BASE + target[1:])
             for media, name in FORMATS.items()}
    wanted, said = pages["application/n-quads"]
    assert len(said) > 25 and len(wanted) == len(data(site.nquads(target).text).split("\n")) - 1
    assert pages["application/trig"] == pages["application/ld+json"] == (wanted, said)
    assert pages["text/turtle"] == pages["application/n-triples"] == (wanted | said, set())


@pytest.mark.parametrize("kind", ["text/turtle", "application/trig", "application/n-quads", "application/n-triples"])
def test_a_page_of_lines_is_one_call(site: Site, kind: str) -> None:
    """A page of lines is the engine's text of it: nothing asks for IDs and strings."""
    target = url(predicate="http://odd.example/n", page=2)
    wanted = site.ask(target, Accept=kind)
    unwanted = mock.Mock(side_effect=AssertionError)
    with mock.patch.object(hdt.Graph, "page_ids", unwanted), mock.patch.object(hdt.Graph, "strings", unwanted):
        assert site.ask(target, Accept=kind).body == wanted.body


def test_strings_that_are_no_terms(tmp_path: Path) -> None:
    """Triples with strings that are no terms of RDF are left out; the rest is there, in all formats."""
    strings = [(b"u:a", b"u:p", b"u:b"), (b"u:a", b"u:q", b"rel"), (b"u:a", b"u:q", b'"x"@'), (b"u:a", b"u:q", b'"x'),
               (b"u:a b", b"u:p", b"u:a"), (b"u:b", b"u:p", b"u:<script>"), (b"u:b", b"u:p", b'"x"^^<u:t y>'),
               (b"_:", b"u:p", b"u:b"), (b"u:b", b"u:p", b'"y"')]
    file = tmp_path / "foreign.hdt"
    file.write_bytes(reference.graph(sorted(strings)).data)
    site = Site(fragments.Application({"datasets": {"odd": str(file)}}))
    answer = site.nquads("/odd")
    assert data(answer.text) == '<u:a> <u:p> <u:b> .\n<u:b> <u:p> "y" .\n' and answer.total == len(strings)
    for media, name in FORMATS.items():
        assert len(parsed(site.ask("/odd", Accept=media).body, name, BASE)[0]) >= 2
    page = site.ask("/odd", Accept="text/html").text
    assert "7 triples of this page" in page and "<script" not in page


# ---- controls


def test_controls(site: Site) -> None:
    """A page has the form, counts and links that clients need, for the URL as the client wrote it."""
    written = "/odd?x=%7e&predicate=http:%2F%2fodd.example%2fn&page=2&&y"
    page = BASE + written[1:]
    said = controls(site.nquads(written).text)
    about, whole = BASE + "odd#dataset", page.replace("page=2&&", "")
    following = BASE + next_of(site.nquads(written))[1:]
    assert re.fullmatch(re.escape(whole + "&page=3&from=") + "[0-9]+-[0-9a-f]{8}", following)
    for triple in (
        (page, HYDRA + "totalItems", f'"{MANY}"^^<{XSD}integer>'),
        (page, "http://rdfs.org/ns/void#triples", f'"{MANY}"^^<{XSD}integer>'),
        (page, HYDRA + "itemsPerPage", f'"100"^^<{XSD}integer>'),
        (page, "http://purl.org/dc/terms/source", about),
        (page, HYDRA + "first", whole + "&page=1"),
        (page, HYDRA + "previous", whole + "&page=1"),
        (page, HYDRA + "next", following),
        (page, HYDRA + "last", whole + "&page=3"),
        (about, "http://rdfs.org/ns/void#subset", whole),
        (whole, HYDRA + "view", page),
        (page + "#metadata", "http://xmlns.com/foaf/0.1/primaryTopic", about),
        (about, HYDRA + "search", BASE + "odd#pattern"),
        (BASE + "odd#pattern", HYDRA + "template", f'"{BASE}odd{{?subject,predicate,object}}"'),
        (BASE + "odd#pattern", HYDRA + "variableRepresentation", HYDRA + "ExplicitRepresentation"),
        (BASE + "odd#pattern-object", HYDRA + "variable", '"object"'),
        (BASE + "odd#pattern-object", HYDRA + "property", "http://www.w3.org/1999/02/22-rdf-syntax-ns#object"),
    ):
        assert triple in said


def test_controls_of_turtle(site: Site) -> None:
    """In Turtle the subject of each control is the page, the dataset or its form, or clients take it for one."""
    text = site.ask(url(predicate="http://odd.example/n"), Accept="text/turtle").text
    subjects = set(re.findall(r"^<([^>]*)>$", text, re.MULTILINE))
    page = BASE + url(predicate="http://odd.example/n")[1:]
    form = {BASE + "odd#pattern" + part for part in ("", "-subject", "-predicate", "-object")}
    assert subjects == {page, page + "#metadata", BASE + "odd#dataset"} | form


# ---- VoID, the list of datasets


def test_void(site: Site, odd: Path) -> None:
    """The description has the counts of the graph and of each predicate, in all formats."""
    counts = hdt.verify(odd)
    void = "http://rdfs.org/ns/void#"
    text = site.ask("/odd/void", Accept="application/n-triples").text
    for name, count in (("triples", counts.triples), ("distinctSubjects", counts.shared + counts.subjects),
                        ("properties", counts.predicates), ("distinctObjects", counts.shared + counts.objects)):
        assert f'<{BASE}odd#dataset> <{void}{name}> "{count}"^^<{XSD}integer> .\n' in text
    found = re.findall(r"<([^>]*#property-\d+)> <http://rdfs.org/ns/void#property> <([^>]*)> \.\n"
                       r'<\1> <http://rdfs.org/ns/void#triples> "(\d+)"', text)
    with hdt.open(odd) as graph:
        assert [(name, int(count)) for _, name, count in found] == sorted(
            ((name, graph.matching(p=name)) for name in graph.strings("predicate", range(1, counts.predicates + 1))),
            key=lambda each: (-each[1], each[0]))
    sets = {media: set().union(*parsed(site.ask("/odd/void", Accept=media).body, name, BASE))
            for media, name in FORMATS.items()}
    assert all(each == sets["text/turtle"] for each in sets.values())
    assert site.ask("/odd/void", Accept="text/html").text.count("<tr>") == counts.predicates + 1


def test_many_predicates_are_not_counted(odd: Path) -> None:
    """Past a limit, predicates are not counted one by one."""
    site = Site(fragments.Application({"datasets": {"odd": str(odd)}, "partitions": 3}))
    assert "propertyPartition" not in site.ask("/odd/void").text
    assert "more than 3 predicates" in site.ask("/odd/void", Accept="text/html").text
    assert "<datalist" not in site.ask("/odd", Accept="text/html").text


def test_list_of_datasets(odd: Path, tmp_path: Path) -> None:
    """The list has all datasets; one that can't be opened answers 503 alone."""
    (tmp_path / "bad.hdt").write_bytes(odd.read_bytes()[:5000])
    datasets = {"odd": str(odd), "bad": str(tmp_path / "bad.hdt"), "none": str(tmp_path / "none.hdt")}
    site = Site(fragments.Application({"datasets": datasets}))
    assert [site.ask("/" + name).status for name in datasets] == [200, 503, 503]
    assert site.ask("/bad").headers["retry-after"] == "60"
    assert site.ask("/bad/void").status == 503
    assert f"<{BASE}odd> " in site.ask("/", Accept="application/n-triples").text
    page = site.ask("/", Accept="text/html").text
    assert all(f'href="{BASE}{name}"' in page for name in datasets) and page.count("can&#x27;t be opened") <= 2


# ---- configurations


def test_configuration_files(odd: Path, tmp_path: Path) -> None:
    """TOML and JSON say the same; files of datasets are relative to the configuration."""
    (tmp_path / "odd.hdt").write_bytes(odd.read_bytes())
    (tmp_path / "c.json").write_text(json.dumps({
        "title": "A", "page_size": 10, "prefixes": {"o": "http://odd.example/"},
        "datasets": {"odd": {"file": "odd.hdt", "title": "Odd", "download": True}}}))
    (tmp_path / "c.toml").write_text(
        'title = "A"\npage_size = 10\n[prefixes]\no = "http://odd.example/"\n'
        '[datasets.odd]\nfile = "odd.hdt"\ntitle = "Odd"\ndownload = true\n')
    config = fragments.Config.read(tmp_path / "c.json")
    if sys.version_info >= (3, 11):
        assert fragments.Config.read(tmp_path / "c.toml") == config
    site = Site(fragments.Application(config))
    assert site.nquads(url(predicate="o:n", page=25)).total == MANY
    assert data(site.nquads("/odd").text).count("\n") == 10


@pytest.mark.parametrize("config, why", [
    ({"dataset": {}}, "no 'dataset'"), ({"page_size": "10"}, "page_size is a int"), ({"page_size": 0}, "page_size"),
    ({"page_size": True}, "page_size"), ({"datasets": {"a/b": "x"}}, "not a dataset name"),
    ({"datasets": {"": "x"}}, "not a dataset name"), ({"datasets": {"a": {}}}, "has no file"),
    ({"datasets": {"a": {"file": "x", "titel": "y"}}}, "no 'titel'"), ({"datasets": {"a": 3}}, "no table"),
    ({"base": "ftp://a/"}, "base"), ({"base": "http://a/?x"}, "base"), ({"dereference": {"x/": "a"}}, "no dataset"),
    ({"datasets": {"a": {"file": "x", "license": "CC0"}}}, "license"), ({"hosts": [1]}, "hosts"),
    ({"datasets": {"a": "x"}, "dereference": {"/": "a"}}, "no dataset"), ({"prefixes": {"a": 1}}, "prefixes"),
    ({"forwarded": True}, 'forwarded needs .* hosts = \\["data.example.org"\\]; or set base'),
    ({"hosts": [""]}, "hosts"),
    ({"hosts": ["http://a"]}, "hosts"), ({"forwarded": True, "hosts": []}, "forwarded"), ({"hosts": "a"}, "hosts"),
    ({"skolem": "a b"}, "skolem"), ({"page_size": 10_001}, "page_size"), ({"gzip": 1}, "gzip"),
])
def test_wrong_configurations(config: dict[str, Any], why: str) -> None:
    """A configuration that can't be is a ValueError that says why."""
    with pytest.raises(ValueError, match=why):
        fragments.Application(config)


def test_blank_nodes_with_labels(odd: Path) -> None:
    """Without a prefix for blank nodes they have their labels, and can be asked for by them."""
    site = Site(fragments.Application({"datasets": {"odd": str(odd)}, "skolem": ""}))
    knows = url(predicate="http://odd.example/knows")
    assert "<http://odd.example/s2> <http://odd.example/knows> _:b1 .\n" in site.nquads(knows).text
    assert site.nquads(url(subject="_:b1")).total == 2


def test_blank_nodes_elsewhere(odd: Path) -> None:
    """The prefix of blank nodes may be an IRI."""
    site = Site(fragments.Application({"datasets": {"odd": str(odd)}, "skolem": "http://a/node/"}))
    named = site.nquads(url(predicate="http://odd.example/name")).text
    assert "<http://a/node/odd/b.2-x> <http://odd.example/name>" in named
    assert site.nquads(url(subject="http://a/node/odd/b1")).total == 2


def test_dereferencing(site: Site) -> None:
    """An IRI of the data that leads here leads to its triples, in the spelling that the data has."""
    for path, iri in (("/resource/J%C3%A4ger", BASE + "resource/J\u00e4ger"),
                      ("/.well-known/genid/odd/b.2-x", GENID + "b.2-x")):
        answer = site.ask(path)
        assert answer.status == 303
        assert unquote(answer.headers["location"]) == f"{BASE}odd?subject={iri}"
        assert site.nquads("/" + answer.headers["location"][len(BASE):]).total == 1
    assert site.ask("/.well-known/genid/none/b1").status == 404
