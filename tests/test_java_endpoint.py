"""The SPARQL endpoint of the Java package: the protocol, refusals, limits, new files.

They are run where the tests of the Java package are (test_java).
"""

from __future__ import annotations

import json
import re
import socket
import subprocess
import threading
import time
import urllib.error
import urllib.request
from collections.abc import Iterable, Iterator
from pathlib import Path
from typing import NamedTuple
from urllib.parse import urlencode

import pytest

from support.built import SAMPLES
from support.program import hdt, run
from test_java import package, pytestmark  # noqa: F401

JSON_ROWS, TURTLE = "application/sparql-results+json", "text/turtle"
ALL = "SELECT * { ?s ?p ?o }"
SLOW = "SELECT * { ?a ?b ?c . ?d ?e ?f . ?g ?h ?i FILTER(str(?c) = concat(str(?f), str(?i), 'x')) }"
ODD = ('<http://e.example/a> <http://e.example/p> "<script>alert(1)</script>"@en .\n'
       '<http://e.example/a> <http://e.example/p> "x\\ty\\n,\\"" .\n'
       "<http://e.example/a> <http://www.w3.org/1999/02/22-rdf-syntax-ns#type> <http://e.example/C> .\n"
       "_:b <http://e.example/q> <http://e.example/a> .\n")
MANY = "".join(f'<u:{n}> <u:p> "{n}" .\n' for n in range(3000))


class Response(NamedTuple):
    """An answer: its status, its headers by names in lower case, and its text."""

    status: int
    headers: dict[str, str]
    text: str


def lower(headers: Iterable[tuple[str, str]]) -> dict[str, str]:
    """Headers by names in lower case."""
    return {name.lower(): value for name, value in headers}


class Server:
    """A running server, and requests to it."""

    def __init__(self, package_folder: Path, folder: Path, *words: str) -> None:
        command = ["java", "-XX:+UseSerialGC", "-Xmx512m", f"-Djava.io.tmpdir={folder}", "-jar",
                   f"{package_folder}/tickmarl-hdt.jar", "serve", "--port", "0", *words]
        self.folder = folder
        self.errors = folder / "errors"
        with self.errors.open("w") as errors:
            self.process = subprocess.Popen(command, stdout=subprocess.PIPE, stderr=errors, text=True, cwd=folder)
        assert self.process.stdout
        self.address = self.process.stdout.readline().strip()
        assert re.fullmatch(r"http://127\.0\.0\.1:\d+/", self.address), self.errors.read_text()

    def ask(self, path: str, body: bytes | None = None, method: str | None = None, **headers: str) -> Response:
        """The answer to a request; `content_type` is the header Content-Type."""
        named = {name.replace("_", "-"): value for name, value in headers.items()}
        request = urllib.request.Request(self.address + path, body, named, method=method)
        try:
            with urllib.request.urlopen(request, timeout=120) as answer:
                return Response(answer.status, lower(answer.headers.items()), answer.read().decode())
        except urllib.error.HTTPError as error:
            with error:
                return Response(error.code, lower(error.headers.items()), error.read().decode())

    def query(self, text: str, accept: str = JSON_ROWS, name: str = "odd") -> Response:
        """The answer to a query."""
        return self.ask(f"{name}/sparql", text.encode(), content_type="application/sparql-query", accept=accept)

    def __enter__(self) -> Server:
        return self

    def __exit__(self, *_: object) -> None:
        """End it."""
        self.process.terminate()
        self.process.wait(60)
        if self.process.stdout:
            self.process.stdout.close()


def built(folder: Path, name: str, text: str) -> Path:
    """The file of a text."""
    (folder / f"{name}.nt").write_text(text)
    assert hdt("build", folder / f"{name}.nt", folder / f"{name}.hdt").status == 0
    return folder / f"{name}.hdt"


@pytest.fixture(scope="module")
def server(package: Path, tmp_path_factory: pytest.TempPathFactory) -> Iterator[Server]:  # noqa: F811
    """A server of three files, with a limit of rows."""
    folder = tmp_path_factory.mktemp("endpoint")
    with Server(package, folder, "--max-rows", "2000", f"odd={built(folder, 'odd', ODD)}",
                f"many={built(folder, 'many', MANY)}", f"three={SAMPLES / 'three.hdt'}") as it:
        yield it
    assert it.errors.read_text() == ""


@pytest.fixture(scope="module")
def busy(package: Path, tmp_path_factory: pytest.TempPathFactory) -> Iterator[Server]:  # noqa: F811
    """A server that ends queries after 3 s, and runs three at a time."""
    folder = tmp_path_factory.mktemp("busy")
    with Server(package, folder, "--timeout", "3", "--queries", "3", f"many={built(folder, 'many', MANY)}") as it:
        yield it
    assert it.errors.read_text() == ""


def bindings(answer: Response) -> list[dict[str, dict[str, str]]]:
    """The rows of an answer in JSON."""
    assert answer.status == 200, answer.text
    rows: list[dict[str, dict[str, str]]] = json.loads(answer.text)["results"]["bindings"]
    return rows


def test_ways_to_ask(server: Server) -> None:
    """A query comes in the address, in a form, or as the body: the answers are the same."""
    form = urlencode({"query": ALL})
    answers = [server.ask(f"odd/sparql?{form}"), server.query(ALL),
               server.ask("odd/sparql", form.encode(), content_type="application/x-www-form-urlencoded"),
               server.ask("odd/sparql", ALL.encode(), content_type="Application/SPARQL-Query; charset=UTF-8")]
    assert [len(bindings(answer)) for answer in answers] == [4, 4, 4, 4]
    assert len({answer.text for answer in answers}) == 1
    head = server.ask(f"odd/sparql?{form}", method="HEAD")
    assert (head.status, head.text, head.headers["content-length"]) == (200, "", str(len(answers[0].text.encode())))


@pytest.mark.parametrize("text, accept, kind, part", [
    (ALL, "", JSON_ROWS, '"bindings"'),
    (ALL, "*/*", JSON_ROWS, '"bindings"'),
    (ALL, "application/sparql-results+xml", "application/sparql-results+xml", "<results>"),
    (ALL, "text/csv", "text/csv; charset=utf-8", 's,p,o\r\n'),
    (ALL, "text/tab-separated-values", "text/tab-separated-values; charset=utf-8", "?s\t?p\t?o\n"),
    (ALL, "text/*", "text/csv; charset=utf-8", "s,p,o"),
    (ALL, "text/csv;q=0.4, application/sparql-results+xml;q=0.5", "application/sparql-results+xml", "<results>"),
    (ALL, "text/csv;q=0, */*", JSON_ROWS, '"bindings"'),
    ("ASK { ?s ?p ?o }", "", JSON_ROWS, "true"),
    ("ASK { ?s <u:none> ?o }", "application/sparql-results+xml", "application/sparql-results+xml", "false"),
    ("CONSTRUCT WHERE { ?s ?p ?o }", "", "text/turtle; charset=utf-8", '"@en'),
    ("CONSTRUCT WHERE { ?s ?p ?o }", "application/n-triples", "application/n-triples", "<http://e.example/q>"),
    ("CONSTRUCT WHERE { ?s ?p ?o }", "application/ld+json", "application/ld+json", '"@id"'),
    ("DESCRIBE <http://e.example/a>", "application/rdf+xml", "application/rdf+xml", "<rdf:RDF"),
])
def test_formats(server: Server, text: str, accept: str, kind: str, part: str) -> None:
    """The form of the answer is the one that the client accepts."""
    answer = server.query(text, accept)
    assert (answer.status, answer.headers["content-type"]) == (200, kind), answer.text
    assert part in answer.text
    assert (answer.headers["vary"], answer.headers["access-control-allow-origin"]) == ("Accept", "*")


@pytest.mark.parametrize("path, body, kind, status, message", [
    ("odd/sparql?query=SELECT", None, "", 400, "Encountered"),
    ("odd/sparql?query=SELECT%FF", None, "", 400, ""),
    ("odd/sparql", b"query=%zz", "application/x-www-form-urlencoded", 400, "a bad escape"),
    ("odd/sparql?query=ASK%7B%7D&query=ASK%7B%7D", None, "", 400, "more than one query"),
    ("odd/sparql?default-graph-uri=http://x&query=ASK%7B%7D", None, "", 403, "default-graph-uri"),
    ("odd/sparql?named-graph-uri=http://x", b"ASK {}", "application/sparql-query", 403, "named-graph-uri"),
    ("odd/sparql", b"update=CLEAR+ALL", "application/x-www-form-urlencoded", 403, "changes nothing"),
    ("odd/sparql", b"CLEAR ALL", "application/sparql-update", 415, "neither"),
    ("odd/sparql", b"CLEAR ALL", "application/sparql-query", 400, "Encountered"),
    ("odd/sparql", b"LOAD <http://x/>", "application/sparql-query", 400, "Encountered"),
    ("odd/sparql", b"\xff", "application/sparql-query", 400, "not UTF-8"),
    ("odd/sparql", b"", "application/x-www-form-urlencoded", 400, "no query"),
    ("odd/sparql", b" " * (2 ** 20 + 1), "application/sparql-query", 413, "more than 1048576 bytes"),
    ("odd/sparql", b"(" * 100_000, "application/sparql-query", 400, ""),
    ("odd/sparql", b"ASK " + b"{" * 60_000 + b"}" * 60_000, "application/sparql-query", 400, "nested too deep"),
    ("none/sparql", None, "", 404, "no file has the name none"),
    ("%3Cscript%3E", None, "", 404, "no file has the name ?script?"),
    ("odd/none", None, "", 404, "nothing"), ("odd/sparql/x", None, "", 404, "nothing"),
], ids=lambda it: str(it)[:30])
def test_refused(server: Server, path: str, body: bytes | None, kind: str, status: int, message: str) -> None:
    """A bad request gets the status and the reason."""
    answer = server.ask(path, body, content_type=kind)
    assert (answer.status, answer.headers["content-type"]) == (status, "text/plain; charset=utf-8")
    assert message in answer.text


def test_not_acceptable(server: Server) -> None:
    """What the client doesn't accept is not sent."""
    for text in (ALL, "ASK {}", "CONSTRUCT WHERE { ?s ?p ?o }"):
        answer = server.query(text, "image/png, text/html")
        assert (answer.status, answer.text[:25]) == (406, "the answer may be one of:")
    assert server.ask("odd/sparql", accept=JSON_ROWS).status == 400
    assert server.ask("odd/sparql", accept="image/png").status == 406
    answer = server.ask("odd/sparql", method="DELETE")
    assert (answer.status, answer.headers["allow"]) == (405, "GET, HEAD, POST, OPTIONS")


class Listener:
    """Counts the connections that come to an address."""

    def __init__(self) -> None:
        self.socket = socket.create_server(("127.0.0.1", 0))
        self.socket.settimeout(0.2)
        self.address = f"http://127.0.0.1:{self.socket.getsockname()[1]}/x"

    def has_come(self) -> bool:
        """Whether there was a connection."""
        try:
            self.socket.accept()[0].close()
            return True
        except TimeoutError:
            return False


def test_fetches_nothing(server: Server) -> None:
    """No query makes the server send a request, or load a class."""
    it = Listener()
    service = f"SERVICE <{it.address}> {{ ?s ?p ?o }}"
    refused = [f"SELECT * {{ {service} }}", f"SELECT * {{ SERVICE SILENT <{it.address}> {{ ?s ?p ?o }} }}",
               f"SELECT * {{ ?s ?p ?o FILTER NOT EXISTS {{ {service} }} }}",
               f"ASK {{ {{ SELECT * {{ {service} }} }} }}",
               f"CONSTRUCT {{ ?s ?p ?o }} {{ OPTIONAL {{ {service} }} }}", f"DESCRIBE ?s {{ {service} }}",
               f"SELECT (SUM(IF(EXISTS {{ {service} }}, 1, 0)) AS ?n) {{ ?s ?p ?o }}",
               f"SELECT * {{ ?s ?p ?o }} ORDER BY (EXISTS {{ {service} }})",
               f"SELECT * FROM <{it.address}> {{ ?s ?p ?o }}", f"SELECT * FROM NAMED <{it.address}> {{ ?s ?p ?o }}"]
    statuses = {text: server.query(text).status for text in refused}
    assert {status for text, status in statuses.items() if not re.search("SUM|ORDER", text)} == {403}
    assert server.query(f"SELECT * {{ GRAPH <{it.address}> {{ ?s ?p ?o }} }}").status == 200
    load = urlencode({"update": f"LOAD <{it.address}>"}).encode()
    assert server.ask("odd/sparql", load, content_type="application/x-www-form-urlencoded").status == 403
    assert server.query(f"LOAD <{it.address}>").status == 400
    assert not it.has_come()
    loading = server.query("SELECT * { ?s ?p ?o FILTER(<java:java.lang.Thread>(?o)) }")
    assert loading.status != 200 or bindings(loading) == []
    assert len(bindings(server.query("SELECT ?s { ?s <java:io.github.tickmarl.X> ?o }"))) == 0
    it.socket.close()


def test_service_if_allowed(package: Path, server: Server, tmp_path: Path) -> None:  # noqa: F811
    """With --allow-service a query joins two endpoints, and a failing one is a bad gateway."""
    file = built(tmp_path, "own", "<http://e.example/C> <u:n> <u:m> .")
    with Server(package, tmp_path, "--allow-service", f"own={file}") as own:
        text = f"SELECT * {{ ?c <u:n> ?m SERVICE <{server.address}odd/sparql> {{ ?a a ?c }} }}"
        rows = bindings(own.query(text, name="own"))
        assert [(row["a"]["value"], row["m"]["value"]) for row in rows] == [("http://e.example/a", "u:m")]
        assert own.query("SELECT * { SERVICE <http://127.0.0.1:9/> { ?s ?p ?o } }", name="own").status == 502


def test_time_limit(busy: Server) -> None:
    """A query that takes too long is ended, and the server goes on."""
    begin = time.monotonic()
    answer = busy.query(SLOW, name="many")
    assert (answer.status, answer.headers["retry-after"]) == (503, "2")
    assert "more than 3.0 s" in answer.text
    assert time.monotonic() - begin < 60
    assert busy.query("ASK {}", name="many").status == 200


@pytest.mark.parametrize("text", [
    "ASK { FILTER regex('%s', '^(a|a)*\\\\1?$') }", "ASK { FILTER(replace('%s', '(a|a)*\\\\1?b', '') = '') }",
    "ASK { ?s ?p ?o BIND(concat('^(a|a)*\\\\1?$', str(?p)) AS ?r) FILTER regex('%s', ?r) }",
    "SELECT (SUM(IF(regex('%s', concat('^(a|a)*\\\\1?$', str(?p))), 1, 0)) AS ?n) { ?s ?p ?o }",
    "SELECT * { ?s ?p ?o } ORDER BY regex('%s', concat('^(a|a)*\\\\1?$', str(?p)))",
    "ASK { ?s ?p ?o FILTER NOT EXISTS { ?a ?b ?c FILTER regex(concat(?c, '%s'), '^(.)(a|a)*\\\\1?$') } }",
])
def test_time_limit_of_patterns(busy: Server, text: str) -> None:
    """A regular expression that takes exponential time for a string is ended, too."""
    answer = busy.query(text % ("a" * 60 + "c"), name="many")
    assert (answer.status, answer.headers["retry-after"]) == (503, "2")


def test_patterns(server: Server) -> None:
    """Regular expressions are those of ARQ: flags, groups, tags, bad ones; the functions of XPath are not there."""
    values = [("regex('a.B', '^A\\\\.b', 'i')", "true"), ("regex('ab', 'b$')", "true"), ("regex('ab', 'B')", "false"),
              ("replace('abcb'@en, '(b)', '<$1>')", "a<b>c<b>"), ("replace('aB', 'b', 'x', 'i')", "ax"),
              ("regex('a', concat('(', ''))", None), ("regex(1, 'a')", None), ("replace('a', 'a', '$7')", None),
              ("regex('a', 'a', concat('w', ''))", None),
              ("<http://www.w3.org/2005/xpath-functions#matches>('a', 'a')", None)]
    terms = " ".join(f"({text} AS ?v{number})" for number, (text, _) in enumerate(values))
    (row,) = bindings(server.query(f"SELECT {terms} {{}}"))
    assert [row.get(f"v{number}", {}).get("value") for number in range(len(values))] == [it for _, it in values]
    assert row["v3"]["xml:lang"] == "en"


def test_number_of_queries(busy: Server) -> None:
    """More queries than may run are refused at once, and pages are still served."""

    def insist() -> None:
        while "as many queries are running" in busy.query(SLOW, name="many").text:
            time.sleep(0.05)

    threads = [threading.Thread(target=insist) for _ in range(3)]
    for thread in threads:
        thread.start()
    answer = busy.query("ASK {}", name="many")
    while answer.status == 200 and any(thread.is_alive() for thread in threads):
        time.sleep(0.1)
        answer = busy.query("ASK {}", name="many")
    assert (answer.status, answer.headers.get("retry-after")) == (503, "2")
    assert "as many queries are running as may: 3" in answer.text
    assert busy.ask("many").status == 200
    for thread in threads:
        thread.join()
    assert busy.query("ASK {}", name="many").status == 200


def test_row_limit(server: Server) -> None:
    """An answer with too many rows is cut, and says so; one with as many is not."""
    for text, name in ((ALL, "many"), ("CONSTRUCT WHERE { ?s ?p ?o }", "many")):
        answer = server.query(text, f"{JSON_ROWS}, application/n-triples", name)
        assert answer.headers["tickmarl-max-rows"] == "2000"
        count = len(bindings(answer)) if "SELECT" in text else answer.text.count("\n")
        assert count == 2000
    whole = server.query(ALL + " LIMIT 2000", name="many")
    assert ("tickmarl-max-rows" in whole.headers, len(bindings(whole))) == (False, 2000)


def test_large_answer(server: Server) -> None:
    """An answer beyond 1 MiB is complete, and leaves no file."""
    answer = server.query("SELECT * { ?a ?b ?c . ?d ?e ?f . ?g ?h ?i . ?j ?k ?l }", name="many")
    assert len(answer.text) > 2 ** 20 and int(answer.headers["content-length"]) == len(answer.text)
    assert len(bindings(answer)) == 2000
    assert list(server.folder.glob("tickmarl-*")) == []


def test_description(server: Server) -> None:
    """Without a query the service is described, with the counts and the header of the file."""
    answer = server.ask("three/sparql", accept="application/n-triples")
    sd, void = "<http://www.w3.org/ns/sparql-service-description#", "<http://rdfs.org/ns/void#"
    assert f"{sd}endpoint> <{server.address}three/sparql> ." in answer.text
    assert f"{sd}supportedLanguage> {sd}SPARQL11Query> ." in answer.text
    assert f'{void}triples> "3"^^' in answer.text and "<http://purl.org/HDT/hdt#Dataset>" in answer.text
    assert server.ask("three/sparql").headers["content-type"] == "text/turtle; charset=utf-8"
    other = server.ask("three/sparql", accept="application/n-triples", host='x"> <u:')
    assert f"<{server.address}three/sparql>" in other.text


def test_cors(server: Server) -> None:
    """Pages from elsewhere may ask."""
    answer = server.ask("odd/sparql", method="OPTIONS")
    assert answer.status == 204
    assert "POST" in answer.headers["access-control-allow-methods"]
    assert "Content-Type" in answer.headers["access-control-allow-headers"]


def test_new_file(package: Path, tmp_path: Path) -> None:  # noqa: F811
    """A file that takes the name by rename is served; a damaged one is not, and the old one stays."""
    with Server(package, tmp_path, f"own={built(tmp_path, 'own', '<u:a> <u:p> <u:b> .')}") as own:

        def subject() -> str:
            return bindings(own.query(ALL, name="own"))[0]["s"]["value"]

        assert subject() == "u:a"
        built(tmp_path, "new", "<u:c> <u:p> <u:d> .").rename(tmp_path / "own.hdt")
        end = time.monotonic() + 60
        while subject() != "u:c" and time.monotonic() < end:
            time.sleep(0.3)
        assert subject() == "u:c"
        (tmp_path / "bad.hdt").write_bytes(b"$HDT")
        (tmp_path / "bad.hdt").rename(tmp_path / "own.hdt")
        time.sleep(1.5)
        assert [subject(), subject()] == ["u:c", "u:c"]
        (tmp_path / "own.hdt").unlink()
        time.sleep(1.5)
        assert subject() == "u:c"
    assert own.errors.read_text().count("own stays as it was: ") == 1


@pytest.mark.parametrize("words, status, message", [
    ([], 2, "the command is 'serve'"), (["serve"], 2, "no NAME=FILE"), (["serve", "x"], 2, "not an option or NAME=FIL"),
    (["serve", "--port", "x", "a=b"], 2, "--port has a bad value: x"), (["serve", "--port"], 2, "--port needs a value"),
    (["serve", "a/b=c"], 2, "not a name of letters"), (["serve", "a=b", "a=c"], 2, "two files have the name a"),
    (["serve", "--timeout", "0", "a=b"], 2, "--timeout has a bad value"),
    (["serve", "a=none.hdt"], 3, "none.hdt: no such file"), (["serve", "a=bad.hdt"], 3, "not a valid HDT file"),
])
def test_bad_options(package: Path, tmp_path: Path, words: list[str], status: int, message: str) -> None:  # noqa: F811
    """The command says what is wrong in one line."""
    (tmp_path / "bad.hdt").write_bytes(b"x")
    done = run(["java", "-jar", package / "tickmarl-hdt.jar", *words], cwd=tmp_path)
    assert (done.status, done.out) == (status, b"")
    assert done.err.decode().startswith("tickmarl-hdt: ") and message in done.err.decode()


def test_help(package: Path) -> None:  # noqa: F811
    """The options are explained."""
    done = run(["java", "-jar", package / "tickmarl-hdt.jar", "serve", "--help"])
    assert (done.status, done.err) == (0, b"") and b"--max-rows N" in done.out


def test_pages_as_text(server: Server) -> None:
    """The pages have the names of the files, and examples of their classes and predicates; none has a script inside."""
    assert all(f'href="/{name}"' in server.ask("").text for name in ("odd", "many", "three"))
    page = server.ask("odd")
    assert "Of class C" in page.text and "With p" in page.text and "?s &lt;http://e.example/p&gt; ?o" in page.text
    assert "default-src 'none'" in page.headers["content-security-policy"]
    assert re.findall("<script[^>]*>", page.text) == ['<script src="/page.js" defer>']
    for name in ("page.js", "page.css"):
        assert server.ask(name).status == 200
