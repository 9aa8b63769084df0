"""A request: its parameters and the URLs that its answer names."""

from __future__ import annotations

import re
from dataclasses import dataclass
from typing import Any, Optional
from urllib.parse import quote

from hdt._web.request import HOST, Refusal, bad, parameters
from hdt.fragments._config import Config
from hdt.fragments._once import once
from hdt.fragments._terms import ROLES

_PREFIX = re.compile(r"(?:/(?!\.{1,2}(?:/|\Z))[A-Za-z0-9._~-]+)*/?\Z")  # a path without the steps `.` and `..`
_NOT_IN_URL = re.compile(rb'[^\x21-\x7e]|[<>"{}|^`\\]')
_PAGE = re.compile(r"[1-9][0-9]{0,14}\Z")


def _url_text(raw: bytes) -> str:
    """A part of a URL, byte for byte; a byte that no IRI of Turtle may have is percent-encoded.

    Nothing is normalised, since a client reads the controls of the URL that it asked for.
    """
    return _NOT_IN_URL.sub(lambda match: b"%%%02X" % match[0][0], raw).decode("ascii")


@dataclass(frozen=True)
class Request:
    """A request: `base` is the URL of the application with a slash at its end, `path` the text behind it."""

    environ: dict[str, Any]
    base: str
    path: str
    query: bytes
    given: dict[str, str]
    without_page: bytes  # the query without its page and where that begins

    @once
    def place(self) -> str:
        """The URL without its query."""
        return self.base + quote(self.path)

    @once
    def url(self) -> str:
        """The URL as the client wrote it."""
        return self.place + ("?" + _url_text(self.query) if self.query else "")

    def with_page(self, page: Optional[int], begins: str = "") -> str:
        """The URL of a page, with `begins` (where it begins) unless that is empty; without `page`, of the fragment."""
        query = self.without_page + (b"&" if self.without_page and page else b"")
        query += b"page=%d" % page if page else b""
        query += b"&from=" + begins.encode() if begins else b""
        return self.place + ("?" + _url_text(query) if query else "")

    def header(self, name: str) -> str:
        """A header of the request; nothing where it has none."""
        value: str = self.environ.get("HTTP_" + name.upper().replace("-", "_"), "")
        return value

    def page(self) -> int:
        """The number of the page that is asked for."""
        number = self.given.get("page", "1")
        if not _PAGE.match(number):
            raise bad("The page must be a number from 1 on.")
        return int(number)


def _forwarded(environ: dict[str, Any], name: str, other: str) -> str:
    """What the nearest proxy says: each adds a value to the list of those before it, which may be the client's."""
    said: str = environ.get("HTTP_X_FORWARDED_" + name, other)
    return said.rpartition(",")[2].strip(" \t")


def _base_of(environ: dict[str, Any], config: Config) -> str:
    if config.base:
        return config.base.rstrip("/") + "/"
    host = environ.get("HTTP_HOST") or f"{environ['SERVER_NAME']}:{environ['SERVER_PORT']}"
    scheme, prefix = environ["wsgi.url_scheme"], environ.get("SCRIPT_NAME", "")
    if config.forwarded:
        host, scheme = _forwarded(environ, "HOST", host), _forwarded(environ, "PROTO", scheme)
        given = _forwarded(environ, "PREFIX", "")
        if scheme not in ("http", "https") or not _PREFIX.match(given):
            raise bad("A header of the proxy is wrong.")
        prefix = given.rstrip("/") or prefix
    if not HOST.match(host):
        raise bad("The Host header is no host.")
    served = {each.lower() for each in config.hosts}
    if served and not {host.lower(), host.rpartition(":")[0].lower()} & served:
        raise Refusal("421 Misdirected Request", "This host is not served here.")
    return f"{scheme}://{host}{quote(prefix.encode('latin-1'))}/"


def request_of(environ: dict[str, Any], config: Config) -> Request:
    """The request of a WSGI environment. Raises Refusal."""
    query = environ.get("QUERY_STRING", "").encode("latin-1")
    if len(query) > config.query_limit:
        raise Refusal("414 URI Too Long", f"The query has {len(query):,} bytes; {config.query_limit:,} are taken.")
    base = _base_of(environ, config)
    given: dict[str, str] = {}
    others = []
    for name, value, raw in parameters(query):
        if name in (*ROLES, "page", "from", "format"):
            if name in given:
                raise bad(f"The parameter {name} is given twice.")
            given[name] = value
        if name not in ("page", "from"):
            others.append(raw)
    path = environ.get("PATH_INFO", "").encode("latin-1").decode("utf-8", "replace")
    return Request(environ, base, path[1:] if path.startswith("/") else path, query, given, b"&".join(others))
