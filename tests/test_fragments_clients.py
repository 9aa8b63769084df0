"""The fragment server with clients that others wrote (Debian: librdf-ldf-perl, libatteanx-store-ldf-perl).

They get all triples of each pattern, and the answers of SPARQL queries. Each control and format that they need is
taken away, one by one, so that what a page must have is known.
"""

from __future__ import annotations

import re
import subprocess
import threading
from collections.abc import Iterable, Iterator
from itertools import product
from pathlib import Path
from typing import Any, Callable, NamedTuple, Optional
from urllib.parse import quote, unquote
from wsgiref.simple_server import WSGIServer, make_server

import pytest

from support.fragments import ODD, Handler, Server, build, fragments, hdt
from support.program import run
from test_python import line as ntriples
from test_python import matching

CLIENT = Path(__file__).parent / "support/fragments_client.pl"
CLIENTS = ("ldf", "trine", "attean")
MODULES = ("RDF::LDF", "RDF::Query", "AtteanX::Store::LDF")
ACCEPTED = "text/turtle", "application/turtle", "application/x-turtle", "text/x-nquads"

# The odd terms, with fewer numbers, in small pages.
FEW = "".join(line + "\n" for line in ODD.split("\n")[:-1]
              if "odd.example/n>" not in line or re.search(r'"[12]?\d"', line))
PAGE = 25


def _there() -> bool:
    try:
        return run(["perl", *(f"-M{name}" for name in MODULES), "-e", "1"]).status == 0
    except OSError:
        return False


pytestmark = pytest.mark.skipif(
    not _there(), reason="there are no clients (Debian: librdf-ldf-perl, librdf-query-perl, libatteanx-store-ldf-perl)")


class Said(NamedTuple):
    """What a client says: its lines, and the count where it has counts."""

    lines: list[str]
    counted: Optional[str]


def asked(requests: Iterable[tuple[str, ...]]) -> list[Said]:
    """What clients say to requests, in one process."""
    text = "".join("\t".join(words) + "\n" for words in requests)
    done = subprocess.run(["perl", CLIENT], input=text.encode(), capture_output=True, timeout=1800)
    answers: list[Said] = []
    lines: list[str] = []
    for line in done.stdout.decode().split("\n"):
        if line == "# end":
            count = next((each[8:] for each in lines if each.startswith("# count ")), None)
            answers.append(Said([each for each in lines if each[0] != "#"], count))
            lines = []
        elif line:
            lines.append(line)
    assert len(answers) == text.count("\n"), done.stderr.decode()[-2000:]
    return answers


# ---- a server of rows, each of which breaks something


def without(term: str) -> Callable[[str, str], str]:
    """Takes away the statements of a predicate."""
    return lambda text, url: re.sub(rf"\n    {term} [^\n]*?( ;| \.)(?=\n)", r"\n    rdf:type void:Dataset\1", text)


def relative(text: str, url: str) -> str:
    """Makes the template relative."""
    return re.sub(r'"http://[^/"]*(/[^"]*\{\?subject)', r'"\1', text)


def canonical(text: str, url: str) -> str:
    """Names the page otherwise than the client did."""
    return text.replace(f"<{url}", f"<{unquote(url)}&").replace(f"<{url.replace('&page', '&page')}", "<") \
        if "?" in url else text.replace(f"<{url}>", f"<{url}?>")


def on_fragment(text: str, url: str) -> str:
    """Counts the fragment and not the page."""
    whole = re.sub(r"[?&]page=\d+", "", url)
    count = re.search(r"hydra:totalItems (\d+)", text)
    moved = without("hydra:totalItems")(without("void:triples")(text, url), url)
    return moved + (f"<{whole}> hydra:totalItems {count[1]} ; void:triples {count[1]} .\n" if count else "")


BROKEN: dict[str, Callable[[str, str], str]] = {
    "page": lambda text, url: text,
    "relative": relative,
    "canonical": canonical,
    "no-source": without("dcterms:source"),
    "no-total": without("hydra:totalItems"),
    "no-triples": without("void:triples"),
    "next-page": lambda text, url: text.replace("hydra:next ", "hydra:nextPage "),
    "on-fragment": on_fragment,
}
ONLY = {"only-" + media.replace("/", "-"): media for media in (
    *ACCEPTED, "text/plain", "application/n-quads", "application/trig", "application/n-triples", "application/ld+json",
    "application/json", "text/html")}


class Rows:
    """An application whose first part of a path says what is taken away from its pages."""

    def __init__(self, datasets: dict[str, str]) -> None:
        self.application = fragments.Application({"datasets": datasets, "gzip": False, "page_size": PAGE})
        self.elsewhere = self.application

    def named(self, base: str) -> None:
        """Have a row with a base of its own."""
        files = {name: source.file for name, source in self.application.config.datasets.items()}
        self.elsewhere = fragments.Application({"datasets": files, "base": base, "page_size": PAGE})

    def __call__(self, environ: dict[str, Any], start: Callable[..., Any]) -> Iterable[bytes]:
        """Answer, with what the row breaks."""
        _, row, path = environ["PATH_INFO"].split("/", 2)
        environ.update(SCRIPT_NAME="/" + row, PATH_INFO="/" + path)
        if row == "named":
            return self.elsewhere(environ, start)
        if row in ONLY:
            if ONLY[row] not in environ.get("HTTP_ACCEPT", ""):
                environ["HTTP_ACCEPT"] = "none/none"
            else:
                environ["HTTP_ACCEPT"] = ONLY[row]
            return self.application(environ, start)
        kept: list[Any] = []
        body = b"".join(self.application(environ, lambda status, headers: kept.extend((status, headers)))).decode()
        query = environ["QUERY_STRING"]
        url = f"http://{environ['HTTP_HOST']}/{row}/{path}" + (f"?{query}" if query else "")
        start(kept[0], [(name, value) for name, value in kept[1] if name != "Content-Length"])
        return [BROKEN[row](body, url).encode()]


@pytest.fixture(scope="module")
def files(tmp_path_factory: pytest.TempPathFactory) -> dict[str, str]:
    """The datasets."""
    folder = tmp_path_factory.mktemp("odd")
    hydra = "http://www.w3.org/ns/hydra/core#"
    text = "".join(f"<u:{n}> <{hydra}{name}> <u:o> .\n" for n, name in enumerate((
        "search", "member", "template", "mapping", "variable", "property", "next")))
    return {"odd": str(build(folder, FEW)), "hydra": str(build(folder, text, "hydra"))}


@pytest.fixture(scope="module")
def server(files: dict[str, str]) -> Iterator[WSGIServer]:
    """The server of all rows."""
    rows = Rows(files)
    with make_server("127.0.0.1", 0, rows, server_class=Server, handler_class=Handler) as it:
        rows.named(f"http://localhost:{it.server_port}/named/")
        thread = threading.Thread(target=it.serve_forever)
        thread.start()
        yield it
        it.shutdown()
        thread.join()


def address(server: WSGIServer, row: str = "page", name: str = "odd", host: str = "127.0.0.1") -> str:
    """The URL of a dataset in a row."""
    return f"http://{host}:{server.server_port}/{row}/{name}"


# ---- what clients need

ASKED = (
    ("?P?", "<u:s> <http://odd.example/n> <u:o> ."),
    ("S??", "<http://odd.example/s1> <u:p> <u:o> ."),
    ("???", "<u:s> <u:p> <u:o> ."),
)
WANTED = [29, FEW.count("<http://odd.example/s1> "), FEW.count("\n")]


@pytest.fixture(scope="module")
def needs(server: WSGIServer) -> dict[str, dict[str, tuple[list[int], list[Optional[str]]]]]:
    """How many triples and which counts each client gets in each row."""
    urls = {row: address(server, row) for row in (*BROKEN, *ONLY)}
    urls["base-another-name"] = address(server, "named")
    urls["asked-by-another-name"] = address(server, host="localhost")
    words = [(client, url, *request) for url in urls.values() for client in CLIENTS for request in ASKED]
    said = iter(asked(words))
    table: dict[str, dict[str, tuple[list[int], list[Optional[str]]]]] = {}
    for row in urls:
        for client in CLIENTS:
            answers = [next(said) for _ in ASKED]
            counts = [each.counted for each in answers]
            table.setdefault(row, {})[client] = [len(each.lines) for each in answers], counts
    return table


COUNTS: list[Optional[str]] = [str(count) for count in WANTED]


@pytest.mark.parametrize("row", [
    "page", "base-another-name", "asked-by-another-name", *("only-" + media.replace("/", "-") for media in ACCEPTED)])
def test_whole_pages(needs: dict[str, Any], row: str) -> None:
    """Clients get all triples and their counts, with each format that they take, and by another name of the server."""
    assert needs[row] == {"ldf": (WANTED, [None] * 3), "trine": (WANTED, COUNTS), "attean": (WANTED, COUNTS)}


@pytest.mark.parametrize("row", [row for row, media in ONLY.items() if media not in ACCEPTED])
def test_formats_that_they_do_not_take(needs: dict[str, Any], row: str) -> None:
    """Clients that are offered another format alone get nothing."""
    assert needs[row]["ldf"][0] == needs[row]["attean"][0] == [0, 0, 0]


def test_template_that_is_relative(needs: dict[str, Any]) -> None:
    """The template is absolute, or nothing is found."""
    assert needs["relative"]["ldf"][0] == [0, 0, 0] and needs["relative"]["attean"] == ([0, 0, 0], ["undef"] * 3)


@pytest.mark.parametrize("row", ["canonical", "no-source", "on-fragment"])
def test_controls_that_become_data(needs: dict[str, Any], row: str) -> None:
    """Controls that are not on the page as the client wrote it, or a page without its source, come out as data."""
    assert needs[row]["ldf"][0] != WANTED and needs[row]["attean"][0] != WANTED


def test_counts(needs: dict[str, Any]) -> None:
    """One client reads one count and the other the other; without them they get the triples alone."""
    assert needs["no-total"]["trine"] == (WANTED, ["undef"] * 3) and needs["no-total"]["attean"] == (WANTED, COUNTS)
    assert needs["no-triples"]["attean"] == (WANTED, ["undef"] * 3) and needs["no-triples"]["trine"] == (WANTED, COUNTS)


def test_next(needs: dict[str, Any]) -> None:
    """Pages are followed by `hydra:next`, and by no other name."""
    assert needs["next-page"]["ldf"][0] == [min(PAGE, count) for count in WANTED]


@pytest.mark.parametrize("row", ["page", "only-text-x-nquads"])
def test_data_of_hydra(server: WSGIServer, row: str) -> None:
    """These clients take data with Hydra's predicates for controls; the counts are right."""
    said = asked((client, address(server, row, "hydra"), *ASKED[2]) for client in CLIENTS)
    assert [len(each.lines) for each in said] == [2, 2, 2] and [each.counted for each in said] == [None, "7", "7"]


# ---- all patterns


def unescaped(text: str) -> str:
    """A text without the escapes of characters by their numbers."""
    return re.sub(r"\\u([0-9A-Fa-f]{4})|\\U([0-9A-Fa-f]{8})", lambda match: chr(int(match[1] or match[2], 16)), text)


def plain(lines: Iterable[str], prefix: str) -> list[str]:
    """N-Triples in one spelling: without escapes, percent-encoding, tags and datatypes. (A client leaves these out.)"""
    found = []
    for line in lines:
        line = unescaped(line)
        line = re.sub(rf"<{re.escape(prefix)}([^>]*)>", lambda match: "_:" + unquote(match[1]), line)
        line = re.sub(r"<[^>]*>", lambda match: unquote(match[0]), line.replace("\t", "\\t"))
        found.append(re.sub(r'"(?:@[A-Za-z0-9-]+|\^\^<[^>]*>) \.$', '" .', line))
    return sorted(found)


def test_patterns(server: WSGIServer, files: dict[str, str]) -> None:
    """Each client gets what a plain filter finds, for the eight patterns of triples with odd terms."""
    prefix = address(server).replace("/odd", "/.well-known/genid/odd/")
    with hdt.open(files["odd"]) as graph:
        triples = list(graph)
    chosen = [triple for triple in triples if not triple[1].endswith("/n") and len(triple[2]) < 2000] + triples[-1:]

    def sent(term: str) -> str:
        return prefix + quote(term[2:]) if term.startswith("_:") else term

    words, wanted, seen = [], [], set()
    for triple in chosen:
        for kind in (kind for kind in product((False, True), repeat=3) if any(kind)):
            pattern = tuple(term if has else None for term, has in zip(triple, kind))
            if pattern in seen:
                continue
            seen.add(pattern)
            wanted.append((pattern, plain(map(str.rstrip, map(ntriples, matching(triples, pattern))), prefix)))
            words.append(("".join("SPO"[n] if has else "?" for n, has in enumerate(kind)),
                          ntriples((sent(triple[0]), triple[1], sent(triple[2]))).rstrip("\n").replace("\t", "\\t")))
    wrong = []
    for client, step in zip(CLIENTS, (2, 9, 5)):
        requests = ((client, address(server), *request) for request in words[::step])
        for (pattern, lines), said in zip(wanted[::step], asked(requests)):
            if plain(said.lines, prefix) != lines:
                wrong.append((client, pattern, len(lines), len(said.lines)))
    assert wrong == [], "\n".join(map(repr, wrong))


# ---- SPARQL

QUERIES = (
    "SELECT ?s ?name WHERE { ?s <http://odd.example/knows> ?b . ?b <http://odd.example/name> ?name }",
    "SELECT ?n WHERE { <http://odd.example/many> <http://odd.example/n> ?n . FILTER(?n > 20) }",
    'SELECT ?s ?o WHERE { ?s <http://odd.example/p> "plain" . ?s <http://odd.example/p> ?o . FILTER(LANG(?o) = "fr") }',
    "SELECT ?s ?c WHERE { ?s a ?c }",
    "SELECT ?a ?c WHERE { ?a <http://odd.example/knows> ?b . ?b <http://odd.example/knows> ?c }",
)


def test_sparql(server: WSGIServer) -> None:
    """RDF::Query over fragments has as many answers as rdflib over the file's text, and the same literals."""
    rdflib: Any = pytest.importorskip("rdflib")
    graph = rdflib.Graph().parse(data=re.sub(r"_:\S+t\S+ ", "_:third ", FEW), format="nt11")
    for query, said in zip(QUERIES, asked(("sparql", address(server), query) for query in QUERIES)):
        wanted = list(graph.query(query))
        assert len(said.lines) == len(wanted) > 0
        literals = sorted(str(term) for row in wanted for term in row if isinstance(term, rdflib.Literal))
        found = sorted(re.findall(r'"((?:[^"\\]|\\.)*)"(?:@|\^\^|\t|$)', "\n".join(said.lines), re.MULTILINE))
        assert [unescaped(each) for each in found] == literals
