"""Asking a fragment server: an application in this process, and servers of their own that run it.

`ODD` is a document with terms that break servers.
"""

from __future__ import annotations

import io
import json
import os
import re
import socket
import subprocess
import sys
import time
import urllib.error
import urllib.request
import warnings
from collections.abc import Iterator, Mapping
from contextlib import contextmanager
from pathlib import Path
from typing import Any, NamedTuple, Optional, Union
from unittest import mock
from urllib.parse import quote, unquote
from wsgiref.util import setup_testing_defaults
from wsgiref.validate import validator

from support.python_package import ENVIRONMENT, PACKAGE, hdt

with mock.patch.object(sys, "dont_write_bytecode", True), mock.patch.object(sys, "path", [str(PACKAGE), *sys.path]):
    import hdt.fragments as fragments
    from hdt._web.server import Handler, Server
    from hdt.fragments import _style as style
    from hdt.fragments import _terms as terms

__all__ = [
    "BASE", "ODD", "PATIENCE", "Answer", "Handler", "Served", "Server", "Site", "fragments", "hdt", "style",
    "terms", "url",
]

BASE = "http://localhost:8080/"
PATIENCE = 60.0  # seconds that a server may take to start, as on a machine with other work
GUNICORN = "/usr/bin/gunicorn"

_S, _P = "<http://odd.example/s1>", "<http://odd.example/p>"
_OBJECTS = r'''
"plain"
""
"with \"quotes\" inside"
"back\\slash and \\n two characters"
"line\nfeed\ttab\rreturn"
"caf\u00E9 \u2014 \U0001F600"@fr
"colour"@en-GB
"a & b + c # d % e ? f=g; h"
"looks like \"x\"@en"
"looks like \"5\"^^<http://a/dt>"
"<b>bold</b><script>alert(1)</script>"
"5"^^<http://www.w3.org/2001/XMLSchema#integer>
"2.50"^^<http://www.w3.org/2001/XMLSchema#decimal>
"true"^^<http://www.w3.org/2001/XMLSchema#boolean>
"text"^^<http://www.w3.org/2001/XMLSchema#string>
"?x"
"\u0001\u007F\u0085\u2028"
"{{braces}} %s {0} </style></textarea>"
'''
_LINES = r'''
<http://odd.example/J%C3%A4ger> <http://odd.example/p> "percent in the IRI" .
<http://odd.example/J\u00E4ger> <http://odd.example/p> "letter in the IRI" .
<http://odd.example/a+b> <http://odd.example/p> "plus in the IRI" .
<http://odd.example/a?q=1&r=2#frag> <http://odd.example/p> "query in the IRI" .
<http://odd.example/a'b(c)~*!,;$@> <http://odd.example/p> "marks in the IRI" .
<http://localhost:8080/resource/J\u00E4ger> <http://odd.example/p> "an IRI of this server" .
<urn:isbn:123> <http://odd.example/p> <mailto:a@b.example> .
<javascript:alert(1)> <http://odd.example/p> <javascript:alert(2)> .
<http://odd.example/s2> <http://odd.example/knows> _:b1 .
_:b1 <http://odd.example/name> "of a blank node" .
_:b1 <http://odd.example/knows> _:b.2-x .
_:b.2-x <http://odd.example/name> "of another" .
_:\u00E9t\u00E9 <http://odd.example/name> "of a third" .
<http://odd.example/s3> <http://www.w3.org/1999/02/22-rdf-syntax-ns#type> <http://odd.example/C> .
'''
MANY = 250  # triples of the predicate n
ODD = "".join(
    [f"{_S} {_P} {line} .\n" for line in _OBJECTS.strip().split("\n")]
    + [re.sub(r"_:(\\u00E9)t\\u00E9", "_:\u00e9t\u00e9", _LINES.lstrip("\n"))]
    + [f'<http://odd.example/long> {_P} "{"long " * 700}" .\n<http://odd.example/longer> {_P} "{"longer " * 4000}" .\n']
    + [f'<http://odd.example/many> <http://odd.example/n> "{n}"^^<http://www.w3.org/2001/XMLSchema#integer> .\n'
       for n in range(1, MANY + 1)]
)


def build(folder: Path, text: str, name: str = "odd") -> Path:
    """The HDT file of N-Triples."""
    document, path = folder / f"{name}.nt", folder / f"{name}.hdt"
    document.write_text(text, encoding="utf-8")
    hdt.build(document, path, base="http://odd.example/")
    return path


def url(name: str = "odd", **parameters: Union[str, int]) -> str:
    """The path of a fragment."""
    return f"/{name}" + "".join(
        f"{'&' if n else '?'}{key}={quote(str(value), safe='')}" for n, (key, value) in enumerate(parameters.items()))


class Answer(NamedTuple):
    """An answer: its status, headers by their names in lower case, and body."""

    status: int
    headers: dict[str, str]
    body: bytes

    @property
    def text(self) -> str:
        """The body as text."""
        return self.body.decode()

    @property
    def total(self) -> int:
        """How many triples match, as N-Quads say."""
        found = re.search(r'#totalItems> "(\d+)"', self.text)
        assert found, self.text[:500]
        return int(found[1])


class Site:
    """An application in this process. Each call of it is checked against the rules of WSGI."""

    def __init__(self, application: Any) -> None:
        self.application = application

    def ask(self, target: str, method: str = "GET", environ: Any = None, **headers: Any) -> Answer:
        """The answer to a request; `If_Match="x"` is a header."""
        path, _, query = target.partition("?")
        asked: dict[str, Any] = {
            "REQUEST_METHOD": method,
            "SCRIPT_NAME": "",
            "PATH_INFO": unquote(path, "latin-1"),
            "QUERY_STRING": query.encode().decode("latin-1"),
            "HTTP_HOST": "localhost:8080",
            "wsgi.input": io.BytesIO(),
            **{f"HTTP_{name.upper()}": value for name, value in headers.items()},
            **(environ or {}),
        }
        setup_testing_defaults(asked)
        started: list[Any] = []
        with warnings.catch_warnings():
            warnings.simplefilter("ignore")  # (it warns of methods that it does not know)
            checked: Any = validator(self.application)
            parts = checked(asked, lambda status, headers, info=None: started.extend((status, headers)))
            body = b"".join(parts)
            parts.close()
        status, given = started
        return Answer(int(status[:3]), {name.lower(): value for name, value in given}, body)

    def nquads(self, target: str, **headers: Any) -> Answer:
        """The answer in N-Quads."""
        return self.ask(target, Accept="application/n-quads", **headers)


def _answers(port: int) -> bool:
    """Whether a server takes a request on a port of 127.0.0.1 and answers it."""
    try:
        with socket.create_connection(("127.0.0.1", port), timeout=PATIENCE) as stream:
            stream.sendall(b"OPTIONS / HTTP/1.0\r\n\r\n")
            return stream.recv(1) != b""
    except OSError:
        return False


class Served:
    """A server of its own on a free port of 127.0.0.1, with a configuration."""

    def __init__(self, folder: Path, config: Mapping[str, Any], gunicorn: bool = False,
                 environ: Optional[Mapping[str, str]] = None) -> None:
        self.log = folder / "served.log"
        file = folder / "served.json"
        file.write_text(json.dumps(config))
        words = [sys.executable, "-m", "hdt.fragments", "--port", "0", "--config", str(file)]
        if gunicorn:
            words = [GUNICORN, "--preload", "-b", "127.0.0.1:0", "-w", "2", "--threads", "4",
                     "--limit-request-line", "8190", "--graceful-timeout", "2", "hdt.fragments:from_environment()"]
        with open(self.log, "wb") as log:
            self.process = subprocess.Popen(
                words, stdout=log, stderr=subprocess.STDOUT, cwd=folder,
                env={**os.environ, **ENVIRONMENT, "FRAGMENTS": str(file), **(environ or {})})
        self.url = self._url()

    def _url(self) -> str:
        """Its URL, once it serves."""
        until = time.monotonic() + PATIENCE
        while time.monotonic() < until:
            found = re.search(r"http://127\.0\.0\.1:(\d+)", self.log.read_text())
            if found and _answers(int(found[1])):
                return found[0]
            assert self.process.poll() is None, self.log.read_text()
            time.sleep(0.05)
        self.close()
        raise AssertionError("it does not serve: " + self.log.read_text())

    @classmethod
    def at(cls, address: str) -> Served:
        """A server that another program runs, once it serves."""
        it = cls.__new__(cls)
        it.url, until = address, time.monotonic() + PATIENCE
        while not _answers(int(address.rpartition(":")[2])) and time.monotonic() < until:
            time.sleep(0.05)
        return it

    def ask(self, target: str, **headers: str) -> Answer:
        """The answer to a GET, by a client that follows nothing."""
        request = urllib.request.Request(self.url + target, headers={
            name.replace("_", "-"): value for name, value in headers.items()})
        try:
            with urllib.request.build_opener(_Stay).open(request, timeout=PATIENCE) as answer:
                return Answer(answer.status, {k.lower(): v for k, v in answer.headers.items()}, answer.read())
        except urllib.error.HTTPError as error:
            with error:
                return Answer(error.code, {k.lower(): v for k, v in error.headers.items()}, error.read())

    def nquads(self, target: str) -> Answer:
        """The answer in N-Quads."""
        return self.ask(target, Accept="application/n-quads")

    def close(self) -> None:
        """End it."""
        self.process.terminate()
        try:
            self.process.wait(PATIENCE)
        finally:
            self.process.kill()
            self.process.wait()


class _Stay(urllib.request.HTTPRedirectHandler):
    """Follows no redirect."""

    def redirect_request(self, *_: Any) -> None:
        """Follow nothing."""


@contextmanager
def served(folder: Path, config: Mapping[str, Any], gunicorn: bool = False,
           environ: Optional[Mapping[str, str]] = None) -> Iterator[Served]:
    """A server, which is ended."""
    server = Served(folder, config, gunicorn, environ)
    try:
        yield server
    finally:
        server.close()
