"""The SPARQL server: the protocol, formats, limits, and that a query fetches nothing."""

from __future__ import annotations

import io
import json
import logging
import os
import re
import shutil
import signal
import socket
import subprocess
import sys
import threading
import time
from collections.abc import Iterator
from pathlib import Path
from typing import Any, NamedTuple
from urllib.parse import quote, urlencode
from xml.etree import ElementTree

import pytest

from support.built import SAMPLES
from support.python_package import ENVIRONMENT
from support.rdflib_package import hdt, store

import rdflib
from hdt import sparql
from hdt._web.request import Refusal
from hdt.sparql._worker import Stores
from hdt.sparql._workers import Ended, Gone, Late, Worker

assert store
pytestmark = pytest.mark.filterwarnings("ignore")

ODD = r'''<u:a> <u:p> "a\"b\\c\nd\te, \u00E9" .
<u:a> <u:p> "x"@en .
<u:a> <u:q> _:b .
_:b <u:p> "1"^^<http://www.w3.org/2001/XMLSchema#integer> .
'''
XSD = "http://www.w3.org/2001/XMLSchema"
ALL = "SELECT * { ?s ?p ?o } ORDER BY ?p ?o"
LARGE = 'SELECT ?x { BIND("a" AS ?x0) %s }' % "".join(
    f"BIND(CONCAT(?x{n}, ?x{n}) AS ?x{n + 1 if n < 17 else ''}) " for n in range(18))
SLOW = 'SELECT * { BIND(regex("aaaaaaaaaaaaaaaaaaaaaaaaaaaaaaaaaaaaaaaaaaaaa!", "^(a+)+$") AS ?x) }'


class Got(NamedTuple):
    """An answer."""

    status: int
    headers: dict[str, str]
    body: bytes

    @property
    def text(self) -> str:
        """The body as text."""
        return self.body.decode()


class Site:
    """An application, and its file."""

    def __init__(self, folder: Path, **options: Any) -> None:
        self.path = folder / "odd.hdt"
        (folder / "odd.nt").write_text(ODD)
        hdt.build(folder / "odd.nt", self.path)
        self.application = sparql.Application({"datasets": {"odd": str(self.path)}, "log": False, **options})

    def ask(self, method: str = "GET", query: str = "", body: bytes = b"", path: str = "/odd", **headers: str) -> Got:
        """The answer to a request."""
        environ = {"REQUEST_METHOD": method, "PATH_INFO": path, "QUERY_STRING": query, "wsgi.input": io.BytesIO(body),
                   "CONTENT_LENGTH": str(len(body)), **headers}
        found: list[Any] = []
        pieces = self.application(environ, lambda status, its: found.extend((status, its)))
        assert len({name for name, _ in found[1]}) == len(found[1])
        return Got(int(found[0][:3]), dict(found[1]), b"".join(pieces))

    def get(self, text: str, accept: str = "") -> Got:
        """The answer to a query."""
        return self.ask(query=urlencode({"query": text}), HTTP_ACCEPT=accept)


@pytest.fixture(scope="module")
def site(tmp_path_factory: pytest.TempPathFactory) -> Iterator[Site]:
    """A site."""
    it = Site(tmp_path_factory.mktemp("site"))
    yield it
    it.application.close()


# ---- the protocol

FORM, QUERY = "application/x-www-form-urlencoded", "application/sparql-query"


def test_ways_to_ask(site: Site) -> None:
    """A query comes by GET, by a form and by itself."""
    form, text = urlencode({"query": ALL}).encode(), ALL.encode()
    answers = [site.ask(query=form.decode()), site.ask("POST", body=form, CONTENT_TYPE=FORM),
               site.ask("POST", body=form, CONTENT_TYPE=FORM + "; charset=UTF-8"),
               site.ask("POST", body=text, CONTENT_TYPE=QUERY),
               site.ask("POST", body=text, CONTENT_TYPE="Application/SPARQL-Query;charset=utf-8")]
    assert [it.status for it in answers] == [200] * 5
    assert len({it.body for it in answers}) == 1
    assert len(json.loads(answers[0].body)["results"]["bindings"]) == 4
    head = site.ask("HEAD", query=form.decode())
    assert (head.status, head.body, head.headers["Content-Length"]) == (200, b"", str(len(answers[0].body)))
    options = site.ask("OPTIONS")
    assert options.status == 204 and "POST" in options.headers["Access-Control-Allow-Methods"]
    assert "Content-Length" not in options.headers
    no_text = site.ask("HEAD", query="query=SELECT")
    assert (no_text.status, no_text.body) == (400, b"")


def test_headers(site: Site) -> None:
    """Pages of every origin may read answers and errors, which no cache keeps or gives to another client."""
    for got in (site.get(ALL), site.get("no query"), site.ask("PUT")):
        assert got.headers["Access-Control-Allow-Origin"] == "*"
        assert {"X-SPARQL-MaxRows", "Retry-After"} <= set(got.headers["Access-Control-Expose-Headers"].split(", "))
        assert (got.headers["Vary"], got.headers["Cache-Control"]) == ("Accept", "no-store")
        assert got.headers["X-Content-Type-Options"] == "nosniff"
    assert {"GET", "HEAD", "POST"} < set(site.ask("PUT").headers["Allow"].split(", "))
    for media in ("application/n-triples", "application/ld+json"):
        assert site.get("DESCRIBE <u:a>", media).headers["Content-Type"] == media


def test_the_longest_query(site: Site) -> None:
    """A query may have 100,000 bytes, not characters, in each way to ask."""
    text = "ASK {} #" + "\u00e9" * 49_996
    for query, status in ((text, 200), (text + "x", 413)):
        form = urlencode({"query": query})
        assert site.ask(query=form).status == status
        assert site.ask("POST", body=form.encode(), CONTENT_TYPE=FORM).status == status
        assert site.ask("POST", body=query.encode(), CONTENT_TYPE=QUERY).status == status


WRONG: dict[str, tuple[int, dict[str, Any]]] = {
    "no query": (400, {"query": "x=y"}), "no posted query": (400, {"method": "POST", "CONTENT_TYPE": FORM}),
    "two queries": (400, {"query": "query=ASK%7B%7D&query=ASK%7B%7D"}),
    "half an escape": (400, {"query": "query=%4"}), "no UTF-8": (400, {"query": "query=%ff"}),
    "an update": (400, {"query": "update=CLEAR+ALL"}), "an update beside": (400, {"query": "query=ASK%7B%7D&update=x"}),
    "a graph": (400, {"query": "query=ASK%7B%7D&default-graph-uri=http://127.0.0.1:1/"}),
    "a named graph": (400, {"query": "query=ASK%7B%7D&named-graph-uri=http://127.0.0.1:1/"}),
    "a graph beside a posted query": (400, {"method": "POST", "body": b"ASK{}", "CONTENT_TYPE": QUERY,
                                            "query": "default-graph-uri=u:x"}),
    "a method": (405, {"method": "PUT"}), "a path": (404, {"path": "/other"}), "the top": (404, {"path": "/"}),
    "a type": (415, {"method": "POST", "body": b"x", "CONTENT_TYPE": "text/plain"}),
    "a posted update": (415, {"method": "POST", "body": b"CLEAR ALL", "CONTENT_TYPE": "application/sparql-update"}),
    "another charset": (415, {"method": "POST", "body": b"x", "CONTENT_TYPE": QUERY + ";charset=latin-1"}),
    "no UTF-8 posted": (400, {"method": "POST", "body": b"ASK {} #\xff", "CONTENT_TYPE": QUERY}),
    "no length": (411, {"method": "POST", "CONTENT_TYPE": QUERY, "CONTENT_LENGTH": ""}),
    "an odd length": (411, {"method": "POST", "CONTENT_TYPE": QUERY, "CONTENT_LENGTH": "-1"}),
    "a great length": (413, {"method": "POST", "CONTENT_TYPE": QUERY, "CONTENT_LENGTH": "9" * 30}),
    "a short body": (400, {"method": "POST", "body": b"ASK {}", "CONTENT_TYPE": QUERY, "CONTENT_LENGTH": "9"}),
    "a long query": (413, {"query": "query=" + "x" * 100_001}),
    "a very long query": (413, {"query": "query=" + "x" * 300_001}),
}


@pytest.mark.parametrize("name", WRONG)
def test_wrong_requests(site: Site, name: str) -> None:
    """A wrong request has its status and a reason, and needs no process."""
    status, request = WRONG[name]
    got = site.ask(**request)
    assert (got.status, got.headers["Content-Type"]) == (status, "text/plain;charset=utf-8")
    assert re.fullmatch(r"[\w ]+: [^\n]+\.\n", got.text)


@pytest.mark.parametrize("query, reason", [
    ("SELECT * { ?s ?p }", "no query"), ("SELECT * { ?s x:p ?o }", "prefix"), ("", "no query"),
    ("INSERT DATA { <u:a> <u:p> <u:b> }", "no query"), ("LOAD <http://127.0.0.1:1/>", "no query"),
    ("SELECT * { GRAPH ?g { ?s ?p ?o } }", "dataset"), ("SELECT * { ?s ?p ?o }" + "}" * 99, "no query"),
    ("SELECT * " + "{ " * 400 + "}" * 400, "")])
def test_queries_that_cannot_be_evaluated(site: Site, query: str, reason: str) -> None:
    """A query that can't be parsed, or evaluated, is answered 400 with the reason; and the next one is answered."""
    got = site.get(query)
    assert got.status == 400 and reason in got.text
    assert site.get("ASK {}").status == 200


def test_a_long_reason(site: Site) -> None:
    """The reason of a refusal is cut."""
    got = site.get(f"SELECT * {{ ?s {'x' * 5_000}:p ?o }}")
    assert got.status == 400 and "prefix" in got.text and len(got.body) < 1_100


def test_an_error_of_the_server(site: Site, monkeypatch: pytest.MonkeyPatch, caplog: pytest.LogCaptureFixture) -> None:
    """An error of the server is logged, and not told."""
    def fail(*_: Any) -> None:
        raise KeyError("a secret\nof two lines")

    monkeypatch.setattr(site.application.workers, "ask", fail)
    with caplog.at_level(logging.INFO, "hdt.sparql"):
        got = site.get("ASK {}")
    assert got.status == 500 and "secret" not in got.text
    assert "secret" in caplog.text and "\nof two" not in caplog.text


def test_the_log(tmp_path: Path, caplog: pytest.LogCaptureFixture) -> None:
    """A request is one line of the log, whatever it has, or none."""
    for is_on in (True, False):
        site = Site(tmp_path, log=is_on)
        with caplog.at_level(logging.INFO, "hdt.sparql"):
            site.ask("A\nB", path="/x\ny")
            site.ask("PUT")
        assert [it.getMessage().count("\n") for it in caplog.records] == ([0, 0] if is_on else [])
        assert not is_on or "PUT '/odd' 405 " in caplog.text
        caplog.clear()
        site.application.close()


# ---- the description of the service

SD, TERMS = "http://www.w3.org/ns/sparql-service-description#", "http://purl.org/dc/terms/"


@pytest.mark.parametrize("media, form", [
    ("", "turtle"), ("text/html,*/*;q=0.8", "turtle"), ("application/n-triples", "nt"),
    ("application/ld+json", "json-ld"), ("application/rdf+xml", "xml")])
def test_description(media: str, form: str, tmp_path: Path) -> None:
    """Without a query the service is described, with what the header of the file says."""
    site = Site(tmp_path)
    evil = '</script>"\\\n\u202e\x01' if form != "xml" else '</script>"\\\n\u202e'  # (XML has no U+0001)
    hdt.rewrite(site.path, site.path, header=hdt.metadata(
        site.path, title=evil, license="javascript:alert(1)", issued="2026-11-29"))
    got = site.ask(HTTP_ACCEPT=media, HTTP_HOST="a.example:8080", SCRIPT_NAME="/x y")
    assert got.status == 200 and got.headers["Cache-Control"] == "no-store"
    assert form != "turtle" or "@prefix sd: " in got.text
    found = rdflib.Graph().parse(data=got.text, format=form)
    service = found.value(None, rdflib.RDF.type, rdflib.URIRef(SD + "Service"))
    assert str(found.value(service, rdflib.URIRef(SD + "endpoint"))) == "http://a.example:8080/x%20y/odd"
    graph = found.value(None, rdflib.RDF.type, rdflib.URIRef(SD + "Graph"))
    title, license = (found.value(graph, rdflib.URIRef(TERMS + name)) for name in ("title", "license"))
    assert (title, license) == (rdflib.Literal(evil), rdflib.URIRef("javascript:alert(1)"))
    assert str(found.value(graph, rdflib.URIRef("http://rdfs.org/ns/void#triples"))) == "4"
    head = site.ask("HEAD", HTTP_ACCEPT=media, HTTP_HOST="a.example:8080", SCRIPT_NAME="/x y")
    assert (head.status, head.body) == (200, b"")
    for host in ("", 'a>."\n', "x" * 300):
        assert "endpoint" not in site.ask(HTTP_HOST=host, HTTP_ACCEPT="application/n-triples").text
    site.application.close()


def test_description_of_nothing(tmp_path: Path) -> None:
    """Of a header that says nothing there is no metadata; a client that takes no RDF gets 406."""
    site = Site(tmp_path)
    hdt.rewrite(site.path, site.path, header="# nothing")
    got = site.ask()
    assert (got.status, TERMS in got.text, "SPARQL11Query" in got.text) == (200, False, True)
    assert site.ask(HTTP_ACCEPT="image/png").status == 406
    site.application.close()


# ---- formats


def test_formats_of_solutions(site: Site) -> None:
    """Solutions are written as JSON, XML, CSV and TSV, with their terms."""
    found = json.loads(site.get(ALL).body)
    assert found["head"]["vars"] == ["s", "p", "o"]
    assert found["results"]["bindings"][0]["o"]["value"] == "1"
    assert {row["s"]["type"] for row in found["results"]["bindings"]} == {"uri", "bnode"}
    xml = site.get(ALL, "application/sparql-results+xml")
    assert len(list(ElementTree.fromstring(xml.body).iter("{http://www.w3.org/2005/sparql-results#}result"))) == 4
    assert xml.headers["Content-Type"] == "application/sparql-results+xml;charset=utf-8"
    table = site.get(ALL, "text/csv").text
    assert table.startswith('s,p,o\r\n_:b,u:p,1\r\n') and 'u:a,u:p,"a""b\\c\nd\te, \u00e9"\r\n' in table
    lines = site.get(ALL, "text/tab-separated-values").text.split("\n")
    assert lines[:2] == ["?s\t?p\t?o", '_:b\t<u:p>\t"1"^^<http://www.w3.org/2001/XMLSchema#integer>']
    assert '<u:a>\t<u:p>\t"a\\"b\\\\c\\nd\\te, \u00e9"' in lines or any("\\u00E9" in it for it in lines)
    assert all(line.count("\t") == 2 for line in lines[:-1])
    lacking = site.get("SELECT ?s ?x { ?s <u:q> ?o }", "text/tab-separated-values").text
    assert lacking == "?s\t?x\n<u:a>\t\n"
    assert site.get("SELECT ?s ?x { ?s <u:q> ?o }", "text/csv").text == "s,x\r\nu:a,\r\n"
    assert site.get(r'SELECT ("\uD800" AS ?x) {}', "text/csv").text == "x\r\n?\r\n"


def test_literals_of_a_query(site: Site) -> None:
    """A literal of a query has the text that is written; an expression is evaluated over IDs, as the standard says."""
    query = 'SELECT ("01"^^<%s#integer> AS ?x) (isNumeric("x"^^<%s#integer>) AS ?y) (1e0 AS ?z) {}' % (2 * (XSD,))
    assert site.get(query, "text/csv").text == "x,y,z\r\n01,false,1e0\r\n"


@pytest.mark.parametrize("accept, media", [
    ("", "application/sparql-results+json"), ("*/*", "application/sparql-results+json"),
    ("application/json", "application/json"), ("text/*", "text/csv"), ("text/html, text/csv;q=0.5", "text/csv"),
    ("application/xml;q=0.9, application/sparql-results+xml", "application/sparql-results+xml")])
def test_negotiation(site: Site, accept: str, media: str) -> None:
    """The format is that of the header Accept."""
    assert site.get(ALL, accept).headers["Content-Type"].split(";")[0] == media


GRAPHS = {"text/turtle": "turtle", "application/n-triples": "nt", "application/ld+json": "json-ld",
          "application/rdf+xml": "xml"}


@pytest.mark.parametrize("media", GRAPHS)
def test_formats_of_graphs(site: Site, media: str) -> None:
    """Graphs are written in each format, and read by rdflib as the same one."""
    for query, count in (("CONSTRUCT { ?s <http://x/p> ?o } { ?s <u:p> ?o }", 3), ("DESCRIBE <http://none/>", 0)):
        got = site.get(query, media)
        assert (got.status, got.headers["Content-Type"].split(";")[0]) == (200, media)
        assert len(rdflib.Graph().parse(data=got.text, format=GRAPHS[media])) == count
    assert len(rdflib.Graph().parse(data=site.get("DESCRIBE <u:a>").text, format="turtle")) == 4


def test_unacceptable_formats(site: Site) -> None:
    """What can't be written in a format that the client accepts is answered 406."""
    assert site.get(ALL, "image/png").status == 406
    assert site.get("CONSTRUCT WHERE { ?s ?p ?o }", "text/csv").status == 406
    assert site.get("ASK {}", "text/csv").status == 406
    assert site.get("ASK {}", "application/sparql-results+xml").status == 200
    got = site.get("CONSTRUCT { ?s <http://x/1> ?o } WHERE { ?s <u:p> ?o }", "application/rdf+xml")
    assert got.status == 406 and "can't be written" in got.text


# ---- limits


def test_rows_are_limited(tmp_path: Path) -> None:
    """An answer that is cut says so in a header."""
    site = Site(tmp_path, max_rows=3)
    try:
        got = site.get(ALL)
        assert (got.headers["X-SPARQL-MaxRows"], len(json.loads(got.body)["results"]["bindings"])) == ("3", 3)
        assert "X-SPARQL-MaxRows" not in site.get(ALL + " LIMIT 3").headers
        for media in ("text/csv", "text/tab-separated-values"):
            assert len(site.get("SELECT ?s { ?s ?p ?o }", media).text.splitlines()) == 4
        got = site.get("CONSTRUCT WHERE { ?s ?p ?o }", "application/n-triples")
        assert (got.headers["X-SPARQL-MaxRows"], got.text.count(" .\n")) == ("3", 3)
        got = site.get("CONSTRUCT WHERE { <u:a> ?p ?o }", "application/n-triples")
        assert "X-SPARQL-MaxRows" not in got.headers and got.text.count(" .\n") == 3
        many = " . ".join(f"?s{n} ?p{n} ?o{n}" for n in range(30))
        assert site.get(f"SELECT * {{ {many} }}").headers["X-SPARQL-MaxRows"] == "3"
    finally:
        site.application.close()


def test_time_is_limited(tmp_path: Path) -> None:
    """A query that takes too long is ended, even in a regular expression; meanwhile another one is sent away."""
    site = Site(tmp_path, timeout=4, processes=1)
    try:
        assert site.get("ASK {}").status == 200
        worker = site.application.workers._free.queue[-1]
        answers: list[Got] = []
        thread = threading.Thread(target=lambda: answers.append(site.get(SLOW)))
        began = time.monotonic()
        thread.start()
        time.sleep(1)
        busy = site.get("ASK {}")
        thread.join()
        assert (busy.status, busy.headers["Retry-After"]) == (503, "1")
        assert answers[0].status == 503 and "more than 4 seconds" in answers[0].text
        assert 3 < time.monotonic() - began < 30
        assert worker and worker._process.poll() is not None
        assert site.get("ASK {}").status == 200
    finally:
        site.application.close()


def test_an_answer_that_stays_away(tmp_path: Path, monkeypatch: pytest.MonkeyPatch) -> None:
    """A process that writes half an answer is late, or has ended."""
    for then, error in (("sleep 60", Late), ("exit", Ended)):
        script = tmp_path / "worker"
        script.write_text('#!/bin/sh\necho ready\nread line\necho taken\necho \'{"length": 9}\'\nprintf half\n' + then)
        script.chmod(0o755)
        monkeypatch.setattr(sys, "executable", str(script))
        worker, began = Worker(100), time.monotonic()
        try:
            with pytest.raises(error):
                worker.ask({}, 1)
            assert time.monotonic() - began < 30
        finally:
            worker.end()


@pytest.mark.parametrize("script, size, error", [
    ("read line; echo taken", 1, Ended), ("read line", 1, Gone), ("kill -9 $$", 1 << 20, Gone)])
def test_a_process_that_ends_without_an_answer(
    tmp_path: Path, monkeypatch: pytest.MonkeyPatch, script: str, size: int, error: type[Ended],
) -> None:
    """Another process may get a query unless this one said that it has it."""
    file = tmp_path / "worker"
    file.write_text(f"#!/bin/sh\necho ready\n{script}\n")
    file.chmod(0o755)
    monkeypatch.setattr(sys, "executable", str(file))
    worker = Worker(100)
    try:
        with pytest.raises(Ended) as raised:
            worker.ask({"query": "x" * size}, 60)
        assert raised.type is error
    finally:
        worker.end()


def test_memory_is_limited(tmp_path: Path) -> None:
    """A query that needs too much memory is ended, and the next one is answered."""
    site = Site(tmp_path, memory=600)
    doubled = "".join(f"BIND(CONCAT(?x{n}, ?x{n}) AS ?x{n + 1}) " for n in range(31))
    try:
        got = site.get(f'SELECT (STRLEN(?x31) AS ?n) {{ BIND("aa" AS ?x0) {doubled} }}')
        assert got.status == 503 and "memory" in got.text
        assert site.get("ASK {}").status == 200
    finally:
        site.application.close()


def test_a_process_that_ends(tmp_path: Path) -> None:
    """An idle process that was killed is replaced at the next query; a query whose process ends is answered 503."""
    site = Site(tmp_path, processes=1)
    free = site.application.workers._free.queue
    try:
        assert free[-1] is None and site.get("ASK {}").status == 200
        worker = free[-1]
        assert worker and worker._process.poll() is None
        assert len(json.loads(site.get(LARGE).body)["results"]["bindings"][0]["x"]["value"]) == 1 << 18
        assert worker is free[-1]
        for wait in (True, False):  # (without waiting the pipe may still take the query)
            os.kill(worker._process.pid, signal.SIGKILL)
            if wait:
                worker._process.wait()
            assert site.get("ASK {}").status == 200
            worker, before = free[-1], worker
            assert worker and worker is not before and before._process.poll() is not None
        threading.Timer(1, os.kill, (worker._process.pid, signal.SIGKILL)).start()
        assert site.get(SLOW).status == 503
        assert free[-1] is None and site.get("ASK {}").status == 200
        worker = free[-1]
    finally:
        site.application.close()
    assert worker and worker._process.poll() is not None


def test_a_file_that_is_replaced(tmp_path: Path) -> None:
    """A new file is taken up at the next query; one that can't be opened leaves the previous one in use."""
    site = Site(tmp_path)
    count = "SELECT (COUNT(*) AS ?n) { ?s ?p ?o }"
    try:
        assert site.get(count, "text/csv").text == "n\r\n4\r\n"
        shutil.copy(SAMPLES / "three.hdt", tmp_path / "new.hdt")
        os.replace(tmp_path / "new.hdt", site.path)
        assert site.get(count, "text/csv").text == "n\r\n3\r\n"
        (tmp_path / "bad.hdt").write_bytes(b"$HDT nonsense")
        os.replace(tmp_path / "bad.hdt", site.path)
        assert site.get(count, "text/csv").text == "n\r\n3\r\n"
        site.path.unlink()
        assert site.get(count, "text/csv").text == "n\r\n3\r\n"
        site.application.close()
    finally:
        site.application.close()
    other = sparql.Application({"datasets": {"odd": str(site.path)}, "log": False})
    site.application = other
    got = site.get(count)
    other.close()
    assert (got.status, got.headers["Retry-After"]) == (503, "60")


def test_a_file_stays_open(site: Site) -> None:
    """A file is opened once as long as it is the same."""
    stores = Stores()
    store = stores.store(str(site.path))
    assert stores.store(str(site.path)) is store
    store.close()


def test_a_damaged_file_is_tried_once(tmp_path: Path, capsys: pytest.CaptureFixture[str]) -> None:
    """A damaged file is not read again for each query; one that takes its place is."""
    stores, path = Stores(), tmp_path / "a.hdt"
    for text in (b"$HDT nonsense", b"$HDT other nonsense"):
        path.write_bytes(text)
        for _ in range(3):
            with pytest.raises(Refusal):
                stores.store(str(path))
        path.unlink()
    assert capsys.readouterr().err.count("can't be opened: ") == 2
    shutil.copy(SAMPLES / "three.hdt", path)
    store = stores.store(str(path))
    assert len(store) == 3
    shutil.copy(SAMPLES / "v1-head.hdt", tmp_path / "cut.hdt")
    os.replace(tmp_path / "cut.hdt", path)
    assert [stores.store(str(path)) for _ in range(3)] == [store] * 3
    assert capsys.readouterr().err.count("can't be opened: ") == 1
    store.close()


@pytest.mark.parametrize("query, what", [
    ("SELECT * FROM <u:x> { ?s ?p ?o }", "FROM"), ("ASK FROM NAMED <u:x> { ?s ?p ?o }", "FROM"),
    ("SELECT * { SERVICE <u:x> { ?s ?p ?o } }", "SERVICE"),
    ("SELECT * { { SELECT * { ?s ?p ?o MINUS { SERVICE SILENT <u:x> {} } } } }", "SERVICE")])
def test_what_is_not_answered(site: Site, query: str, what: str) -> None:
    """FROM and SERVICE are refused by name."""
    got = site.get(query)
    assert got.status == 400 and f"{what} is not answered" in got.text


def test_a_query_fetches_nothing(site: Site) -> None:
    """No query makes the server connect to an address that it names."""
    with socket.create_server(("127.0.0.1", 0)) as listening:
        listening.settimeout(1)
        address = f"<http://127.0.0.1:{listening.getsockname()[1]}/x>"
        for query in (f"SELECT * {{ SERVICE {address} {{ ?s ?p ?o }} }}",
                      f"SELECT * {{ ?s ?p ?o FILTER EXISTS {{ SERVICE SILENT {address} {{ ?s ?p ?o }} }} }}",
                      f"SELECT * {{ {{ SELECT * {{ OPTIONAL {{ SERVICE {address} {{ ?s ?p ?o }} }} }} }} }}",
                      f"SELECT * FROM {address} {{ ?s ?p ?o }}", f"DESCRIBE * FROM {address} {{ ?s ?p ?o }}",
                      f"SELECT * FROM NAMED {address} {{ GRAPH ?g {{ ?s ?p ?o }} }}",
                      f"SELECT * {{ GRAPH {address} {{ ?s ?p ?o }} }}", f"LOAD {address}",
                      f"BASE {address} PREFIX x: {address} ASK {{ <y> a x:z }}", f"DESCRIBE {address}"):
            assert site.get(query).status in (200, 400)
        for name in ("default-graph-uri", "named-graph-uri", "using-graph-uri"):
            site.ask(query=f"query={quote(ALL)}&{name}={quote(address[1:-1])}")
        with pytest.raises(socket.timeout):
            listening.accept()


# ---- as a command


def run(*words: str) -> tuple[int, str]:
    """The status and the standard error of the command."""
    done = subprocess.run([sys.executable, "-m", "hdt.sparql", *words], env=ENVIRONMENT, stderr=subprocess.PIPE,
                          text=True, timeout=120)
    return done.returncode, done.stderr


def test_wrong_commands(tmp_path: Path) -> None:
    """A wrong command ends with status 2 and one line that says what is wrong."""
    (tmp_path / "bad.hdt").write_bytes(b"nonsense")
    for words in (["x"], [f"x={tmp_path}/none.hdt"], [f"x={tmp_path}/bad.hdt"], ["a/b=" + str(SAMPLES / "three.hdt")],
                  ["--timeout", "0", "x=" + str(SAMPLES / "three.hdt")]):
        status, err = run(*words)
        assert status == 2 and re.fullmatch(r"hdt\.sparql: [^\n]+\n", err), err
    assert "x is not NAME=FILE" in run("x")[1]
    assert run()[0] == 2
    for name in ("a\n", "../a", "", ".a"):
        with pytest.raises(ValueError, match="not a dataset name"):
            sparql.Config({name: "x"})
    for limit in ("processes", "timeout", "memory", "max_rows", "query_limit"):
        for value in (0, 10**9 + 1):
            with pytest.raises(ValueError, match=limit):
                sparql.Config(**{limit: value})  # type: ignore[arg-type]


def test_as_a_command() -> None:
    """The command says its addresses; rdflib's client reads its answers."""
    command = [sys.executable, "-W", "ignore", "-m", "hdt.sparql", "--port", "0", f"three={SAMPLES / 'three.hdt'}"]
    with subprocess.Popen(command, env=ENVIRONMENT, stderr=subprocess.PIPE, text=True) as process:
        try:
            assert process.stderr
            address = process.stderr.readline().strip()
            assert re.fullmatch(r"http://127\.0\.0\.1:\d+/three", address)
            graph: Any = rdflib.Graph("SPARQLStore")
            graph.open(address)
            assert {str(o) for o in graph.objects(rdflib.URIRef("u:a"))} == {"u:b", "x"}
            assert len(list(graph.query("SELECT * { ?s <u:p>+ ?o }"))) == 4
        finally:
            process.terminate()
            process.wait(10)
