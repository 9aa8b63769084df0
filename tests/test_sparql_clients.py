"""Both SPARQL endpoints with clients: curl, rdflib's store, Jena's commands, RDF::Query::Client; federated queries.

The endpoint and the clients of Java are run where the tests of the Java package are (test_java).
"""

from __future__ import annotations

import shutil
import subprocess
import sys
from collections.abc import Iterator, Mapping
from pathlib import Path

import pytest

from support.built import SAMPLES
from support.program import run
from support.python_package import ENVIRONMENT
from test_java import JARS, NEEDED, java, package  # noqa: F401
from test_java_endpoint import ALL, ODD, built, server  # noqa: F401

rdflib = pytest.importorskip("rdflib")


@pytest.fixture(scope="module")
def jena(request: pytest.FixtureRequest) -> Path:
    """The folder of the Java package."""
    if not shutil.which("javac") or not all((JARS / f"{name}.jar").exists() for name in NEEDED):
        pytest.skip(f"there is no javac, or {JARS} lacks one of {' '.join(NEEDED)}")
    folder: Path = request.getfixturevalue("package")
    return folder


def python_addresses(folder: Path) -> Iterator[dict[str, str]]:
    """Serve two files by the Python package, and give their endpoints."""
    command = [sys.executable, "-W", "ignore", "-m", "hdt.sparql", "--port", "0",
               f"odd={built(folder, 'odd', ODD)}", f"three={SAMPLES / 'three.hdt'}"]
    with subprocess.Popen(command, env=ENVIRONMENT, stderr=subprocess.PIPE, text=True) as process:
        try:
            assert process.stderr
            yield {name: process.stderr.readline().strip() for name in ("odd", "three")}
        finally:
            process.terminate()
            process.wait(10)


@pytest.fixture(scope="module", params=["python", "java"])
def endpoints(request: pytest.FixtureRequest, tmp_path_factory: pytest.TempPathFactory) -> Iterator[dict[str, str]]:
    """The endpoints of two files, which one server has."""
    if request.param == "python":
        yield from python_addresses(tmp_path_factory.mktemp("python"))
        return
    request.getfixturevalue("jena")
    address = request.getfixturevalue("server").address
    yield {name: f"{address}{name}/sparql" for name in ("odd", "three")}


@pytest.mark.skipif(not shutil.which("curl"), reason="there is no curl")
def test_curl(endpoints: Mapping[str, str]) -> None:
    """As docs/JAVA.md asks it."""
    accepted = ["-H", "Accept: text/csv", "--data-urlencode", f"query={ALL}"]
    done = run(["curl", "-s", *accepted, endpoints["three"]])
    assert done.out.decode().splitlines()[0] == "s,p,o" and done.out.count(b"\n") == 4
    assert run(["curl", "-s", "-G", *accepted, endpoints["three"]]) == done


def test_rdflib(endpoints: Mapping[str, str]) -> None:
    """The store of rdflib for endpoints asks it."""
    from rdflib.plugins.stores.sparqlstore import SPARQLStore

    graph = rdflib.Graph(SPARQLStore(endpoints["odd"]))
    subject, predicate = rdflib.URIRef("http://e.example/a"), rdflib.URIRef("http://e.example/p")
    assert {str(each) for each in graph.objects(subject, predicate)} == {"<script>alert(1)</script>", 'x\ty\n,"'}
    assert len(graph) == 4
    assert len(list(graph.query("SELECT * { ?s a ?c }"))) == 1
    assert len(list(graph.query("CONSTRUCT WHERE { ?s a ?c }"))) == 1
    assert graph.query("ASK {}").askAnswer


def test_federated(endpoints: Mapping[str, str], jena: Path, tmp_path: Path) -> None:
    """A client joins two of the endpoints in one query. (rdflib 6.1 asks the first one twice.)"""
    odd, three = (f"SERVICE <{endpoints[name]}>" for name in ("odd", "three"))
    (tmp_path / "empty.nt").write_text("")
    done = java(jena, tmp_path, "arq.sparql", "--data", "empty.nt", "--results", "csv",
                f"SELECT ?c ?b {{ {odd} {{ ?a a ?c }} {three} {{ ?x <u:p> ?b }} }} ORDER BY ?b", tests=False)
    assert (done.status, done.out.split()) == (0, [b"c,b", b"http://e.example/C,u:a", b"http://e.example/C,u:b"])


@pytest.mark.parametrize("text, form, wanted", [
    (ALL, "csv", "<script>alert(1)</script>"), ("ASK {}", "text", "Yes"), ("CONSTRUCT WHERE { ?s a ?c }", "nt", "C> ."),
])
def test_rsparql(endpoints: Mapping[str, str], jena: Path, tmp_path: Path, text: str, form: str, wanted: str) -> None:
    """Jena's own command asks it."""
    done = java(jena, tmp_path, "arq.rsparql", "--service", endpoints["odd"], "--results", form, text, tests=False)
    assert (done.status, done.err) == (0, b"") and wanted in done.out.decode()


PERL = r"""
my ($address, $text) = @ARGV;
my $client = RDF::Query::Client->new($text);
my $found = $client->execute($address) or die $client->error;
if ($found->is_boolean) { print $found->get_boolean ? "yes" : "no", "\n"; exit; }
while (my $row = $found->next) {
    print $found->is_graph ? $row->as_string : $row->{o}->as_ntriples, "\n";
}
"""


@pytest.mark.parametrize("text, wanted", [
    ("SELECT ?o { ?s <http://e.example/p> ?o }", ['"<script>alert(1)</script>"@en', r'"x\ty\n,\""']),
    ("ASK {}", ["yes"]),
    ("CONSTRUCT WHERE { ?s a <http://e.example/C> }", ["<http://e.example/a>", "<http://e.example/C>"]),
])
def test_perl(endpoints: Mapping[str, str], text: str, wanted: list[str]) -> None:
    """RDF::Query::Client asks it (Debian: librdf-query-client-perl)."""
    if not shutil.which("perl") or run(["perl", "-MRDF::Query::Client", "-e", "1"]).status != 0:
        pytest.skip("there is no RDF::Query::Client (Debian: librdf-query-client-perl)")
    done = run(["perl", "-MRDF::Query::Client", "-e", PERL, endpoints["odd"], text])
    assert done.status == 0, done.err
    assert all(each in done.out.decode() for each in wanted), done.out
