"""Real data: the Turtle files of a Debian package, built, searched and dumped, agree with rdflib's reading of them."""

from __future__ import annotations

import shutil
import subprocess
from pathlib import Path

import pytest

from support.built import PROGRAM
from support.rdflib_package import store

import rdflib
from rdflib.plugins.parsers.ntriples import NTGraphSink, W3CNTriplesParser

PACKAGE = "lv2-dev"


@pytest.fixture(scope="module")
def data(tmp_path_factory: pytest.TempPathFactory) -> tuple[Path, Path]:
    """The N-Triples and the HDT file of a package's Turtle files. Skips the test if it can't be downloaded."""
    if not all(map(shutil.which, ("serdi", "apt-get", "dpkg-deb"))):
        pytest.skip("serdi or apt-get is missing")
    folder = tmp_path_factory.mktemp("data")
    document, file, root = folder / "lv2.nt", folder / "lv2.hdt", folder / "root"
    if subprocess.run(["apt-get", "-qq", "download", PACKAGE], cwd=folder, stderr=subprocess.DEVNULL).returncode:
        pytest.skip(f"the package {PACKAGE} can't be downloaded")
    subprocess.run(["dpkg-deb", "-x", *folder.glob("*.deb"), root], check=True)
    with document.open("wb") as out:
        for number, path in enumerate(sorted(root.rglob("*.ttl"))):
            words = ["serdi", "-q", "-p", f"f{number}", "-i", "turtle", "-o", "ntriples", str(path)]
            subprocess.run([*words, f"file:///{path.relative_to(root)}"], check=True, stdout=out)
    subprocess.run([PROGRAM, "build", document, file, "--base", "http://example.org/lv2"], check=True)
    return document, file


class Labels(dict[str, str]):
    """A parser's blank nodes by their labels: each keeps its label."""

    def get(self, label: str, default: object = None) -> str:
        return label


def parsed(text: bytes) -> set[tuple[object, ...]]:
    """The triples of N-Triples, as rdflib reads them."""
    graph = rdflib.Graph()
    W3CNTriplesParser(NTGraphSink(graph), bnode_context=Labels()).parsestring(text)
    return set(graph)


def test_real_data_round_trips(data: tuple[Path, Path], monkeypatch: pytest.MonkeyPatch) -> None:
    """The file's graph is the one that rdflib reads from the same N-Triples, and from a dump."""
    document, file = data
    monkeypatch.setattr(rdflib, "NORMALIZE_LITERALS", False)  # (rdflib would change the case of hexadecimal literals)
    wanted = parsed(document.read_bytes())
    assert len(wanted) > 1_000
    graph = rdflib.Graph(store.HDTStore(str(file)))
    assert set(graph) == wanted
    graph.close()
    dump = subprocess.run([PROGRAM, "dump", file], check=True, stdout=subprocess.PIPE).stdout
    assert parsed(dump) == wanted
