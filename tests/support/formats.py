"""What tests of building from other syntaxes share: documents, converters that fail, and what is left of a build."""

from __future__ import annotations

import bz2
import gzip
import importlib.util
import lzma
import os
import shutil
import stat
import subprocess
import sys
from collections.abc import Callable, Mapping
from pathlib import Path
from typing import Any

import pytest

from support.program import Result, Word, run
from support.python_package import ENVIRONMENT, hdt

from hdt import _program

# One graph in each syntax, without blank nodes, whose relative IRIs have this base.
BASE = "http://a/base"
TURTLE = '@prefix u: <u:> .\n<x> u:p 5 , "chat"@fr , "a\\nb" .\nu:y a <#z> .\n'
XML = """<rdf:RDF xmlns:rdf="http://www.w3.org/1999/02/22-rdf-syntax-ns#" xmlns:u="u:">
<rdf:Description rdf:about="x"><u:p rdf:datatype="http://www.w3.org/2001/XMLSchema#integer">5</u:p>
<u:p xml:lang="fr">chat</u:p><u:p>a
b</u:p></rdf:Description><rdf:Description rdf:about="u:y"><rdf:type rdf:resource="#z"/></rdf:Description></rdf:RDF>
"""
JSON = """{"@graph": [{"@id": "x", "u:p": [{"@value": "5", "@type": "http://www.w3.org/2001/XMLSchema#integer"},
    {"@value": "chat", "@language": "fr"}, "a\\nb"]},
  {"@id": "u:y", "@type": "#z"}]}
"""
INTEGER = "<http://www.w3.org/2001/XMLSchema#integer>"
TYPE = "http://www.w3.org/1999/02/22-rdf-syntax-ns#type"
GRAPH = [
    ("http://a/x", "u:p", '"5"^^' + INTEGER), ("http://a/x", "u:p", '"a\nb"'), ("http://a/x", "u:p", '"chat"@fr'),
    ("u:y", TYPE, "http://a/base#z"),
]
LINES = "".join(" ".join(hdt.Term.parse(it).format_ntriples() for it in triple) + " .\n" for triple in GRAPH)
DOCUMENTS = {"nt": LINES, "ttl": TURTLE, "trig": TURTLE, "nq": LINES, "rdf": XML, "owl": XML, "xml": XML,
             "jsonld": JSON, "n3": TURTLE}
# The syntaxes that each converter reads, by their suffixes.
READS = {"serdi": ["ttl", "trig"], "rapper": ["ttl", "rdf"], "rdflib": ["ttl", "trig", "rdf", "jsonld", "n3"]}


def zstd(data: bytes) -> bytes:
    """Compress by the program zstd."""
    if shutil.which("zstd") is None:
        pytest.skip("there is no zstd (Debian: zstd)")
    return subprocess.run(["zstd", "-q", "-c"], input=data, stdout=subprocess.PIPE, check=True).stdout


COMPRESS: dict[str, Callable[[bytes], bytes]] = {"gz": gzip.compress, "bz2": bz2.compress, "xz": lzma.compress,
                                                 "zst": zstd}


def needs(converter: str) -> None:
    """Skip the test if a converter is not installed."""
    found = importlib.util.find_spec("rdflib") if converter == "rdflib" else shutil.which(converter)
    if found is None:
        pytest.skip(f"there is no {converter}")


def strings_of(path: Any) -> list[tuple[str, str, str]]:
    """The triples of a file, sorted."""
    with hdt.open(path) as graph:
        return sorted(graph)


def built(folder: Path, given: Any, **options: Any) -> list[tuple[str, str, str]]:
    """The triples of what is built, sorted."""
    out = folder / "built.hdt"
    counts = hdt.build(given, out, **options)
    assert hdt.verify(out, tight=True) == counts
    return strings_of(out)


def fails(folder: Path, given: Any, error: type[BaseException], **options: Any) -> str:
    """Check that a build raises an error, leaves the output as it was and nothing else behind, and give its text.

    No process is left either.
    """
    out = folder / "out/out.hdt"
    out.parent.mkdir(exist_ok=True)
    out.write_bytes(b"before")
    before = children()
    with pytest.raises(error) as raised:
        hdt.build(given, out, **options)
    assert (out.read_bytes(), os.listdir(out.parent)) == (b"before", ["out.hdt"])
    assert children() <= before
    return str(raised.value)


def children() -> set[str]:
    """The processes that this one has started and not waited for."""
    return {child for path in Path("/proc/self/task").glob("*/children") for child in path.read_text().split()}


def fake(folder: Path, monkeypatch: pytest.MonkeyPatch, script: str, name: str = "serdi") -> None:
    """Put a script of the shell in the place of a converter."""
    programs = folder / "programs"
    programs.mkdir(exist_ok=True)
    (programs / name).write_text(f"#!/bin/sh\n{script}\n")
    (programs / name).chmod(stat.S_IRWXU)
    monkeypatch.setenv("PATH", f"{programs}:{os.environ['PATH']}")


def stand_in(folder: Path, monkeypatch: pytest.MonkeyPatch, script: str) -> None:
    """Have a script run in the place of the program: `$scratch` is its scratch folder, `$out` its last argument."""
    path = folder / "stand-in"
    path.write_text('#!/bin/sh\nfor word; do case $word in --scratch=*) scratch=${word#*=} ;; esac; out=$word; done\n'
                    f"{script}\n")
    path.chmod(stat.S_IRWXU)
    monkeypatch.setattr(_program, "path", lambda: str(path))
    monkeypatch.chdir(folder)  # (what it writes into a file of a relative name is there)


def command(folder: Path, *words: Word, stdin: bytes = b"", env: Mapping[str, str] = {}) -> Result:
    """Run the command of the package in a folder."""
    environment = {**ENVIRONMENT, **env}
    return run([sys.executable, "-W", "error", "-m", "hdt", *words], stdin=stdin, cwd=folder, env=environment)
