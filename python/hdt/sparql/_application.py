"""The WSGI application."""

from __future__ import annotations

import logging
import time
from collections.abc import Callable, Iterable, Mapping
from typing import Any, NamedTuple, Union
from urllib.parse import quote

from hdt._web.log import escaped, traced
from hdt._web.request import HOST, Headers, Refusal, bad, parameters
from hdt.sparql._config import Config
from hdt.sparql._workers import Busy, Ended, Late, Reply, Workers

METHODS = "GET, HEAD, POST, OPTIONS"
COMMON = [
    ("Access-Control-Allow-Origin", "*"), ("Access-Control-Expose-Headers", "X-SPARQL-MaxRows, Retry-After"),
    ("Vary", "Accept"), ("X-Content-Type-Options", "nosniff"), ("Referrer-Policy", "no-referrer"),
]
PREFLIGHT = [
    ("Allow", METHODS), ("Access-Control-Allow-Methods", METHODS),
    ("Access-Control-Allow-Headers", "Accept, Content-Type"), ("Access-Control-Max-Age", "86400"),
]
FORM, QUERY = "application/x-www-form-urlencoded", "application/sparql-query"
_UTF8_BY_ITSELF = {"application/n-triples", "application/ld+json"}

log = logging.getLogger("hdt.sparql")


class Answer(NamedTuple):
    """A status, headers and a body."""

    status: str
    headers: Headers
    body: bytes = b""


def _url(environ: dict[str, Any], name: str) -> str:
    """The URL of a dataset, by the host that the client names; empty if it names none."""
    host = environ.get("HTTP_HOST", "")
    place = quote(environ.get("SCRIPT_NAME", "").encode("latin-1")) + "/" + name
    return f"{environ.get('wsgi.url_scheme', 'http')}://{host}{place}" if HOST.match(host) else ""


class Application:
    """A WSGI application that answers SPARQL queries over HDT files.

    It takes a `Config`, or the same values as a mapping. Threads may share one, and need to: a query keeps its thread
    until it is answered. `close` ends the processes.
    """

    def __init__(self, config: Union[Config, Mapping[str, Any]]) -> None:
        self.config = config if isinstance(config, Config) else Config(**config)
        self.workers = Workers(self.config.processes, self.config.memory)

    def close(self) -> None:
        """End the processes that answer queries."""
        self.workers.close()

    def __call__(self, environ: dict[str, Any], start: Callable[..., Any]) -> Iterable[bytes]:
        """Answer a request."""
        began, method = time.perf_counter(), environ["REQUEST_METHOD"]
        answer = self._answered(environ, method)
        headers = [*COMMON, *answer.headers]
        if answer.status[:3] != "204":
            headers.append(("Content-Length", str(len(answer.body))))
        if self.config.log and log.isEnabledFor(logging.INFO):
            spent = (time.perf_counter() - began) * 1e3
            path = environ.get("PATH_INFO", "")
            log.info("%s %r %s %d %.1f ms", escaped(method), path, answer.status[:3], len(answer.body), spent)
        start(answer.status, headers)
        return [] if method == "HEAD" else [answer.body]

    def _answered(self, environ: dict[str, Any], method: str) -> Answer:
        try:
            if method == "OPTIONS":
                return Answer("204 No Content", PREFLIGHT)
            return self._answer(environ, method)
        except Refusal as error:
            refusal = error
        except Busy:
            refusal = Refusal("503 Service Unavailable", "Other queries are running.", ("Retry-After", "1"))
        except Late:
            refusal = Refusal("503 Service Unavailable", f"The query took more than {self.config.timeout} seconds.")
        except Ended:
            refusal = Refusal("503 Service Unavailable", "The process of the query ended: it may need too much memory.")
        except Exception as error:
            log.error("an error of the server\n%s", traced(error))
            refusal = Refusal("500 Internal Server Error", "This is an error of the server.")
        headers = [("Content-Type", "text/plain;charset=utf-8"), ("Cache-Control", "no-store"), *refusal.headers]
        return Answer(refusal.status, headers, f"{refusal.status[4:]}: {refusal.reason}\n".encode())

    def _answer(self, environ: dict[str, Any], method: str) -> Answer:
        name = environ.get("PATH_INFO", "").strip("/")
        if name not in self.config.datasets:
            names = ", ".join("/" + it for it in self.config.datasets)
            raise Refusal("404 Not Found", f"There is nothing here. Queries are answered at {names}.")
        request: dict[str, Any] = {"file": self.config.datasets[name], "accept": environ.get("HTTP_ACCEPT", "")}
        if method in ("GET", "HEAD") and not environ.get("QUERY_STRING"):
            request["endpoint"] = _url(environ, name)
        else:
            request.update(query=self._query(environ, method), most=self.config.max_rows)
        return self._made(self.workers.ask(request, self.config.timeout))

    def _made(self, reply: Reply) -> Answer:
        headers = [("Cache-Control", "no-store"), *reply.headers]
        media = reply.media or "text/plain"
        headers.append(("Content-Type", media if media in _UTF8_BY_ITSELF else media + ";charset=utf-8"))
        if reply.is_cut:
            headers.append(("X-SPARQL-MaxRows", str(self.config.max_rows)))
        return Answer(reply.status, headers, reply.body)

    def _query(self, environ: dict[str, Any], method: str) -> str:
        """The text of the query. Raises Refusal."""
        if method in ("GET", "HEAD"):
            return self._of_form(self._limited(environ.get("QUERY_STRING", "").encode("latin-1")))
        if method != "POST":
            raise Refusal("405 Method Not Allowed", "Queries come by GET or POST.", ("Allow", METHODS))
        media, _, rest = environ.get("CONTENT_TYPE", "").partition(";")
        media = media.strip().lower()
        if media not in (FORM, QUERY):
            raise Refusal("415 Unsupported Media Type", f"A query is posted as {FORM} or {QUERY}.")
        if "charset" in rest.lower() and "utf-8" not in rest.lower():
            raise Refusal("415 Unsupported Media Type", "A query is UTF-8.")
        body = self._body(environ)
        if media == FORM:
            return self._of_form(body)
        self._check(parameters(environ.get("QUERY_STRING", "").encode("latin-1")))
        if len(body) > self.config.query_limit:
            raise self._too_long()
        try:
            return body.decode()
        except UnicodeDecodeError:
            raise bad("The query is not UTF-8.") from None

    def _body(self, environ: dict[str, Any]) -> bytes:
        length = environ.get("CONTENT_LENGTH") or ""
        if not length.isascii() or not length.isdigit():
            raise Refusal("411 Length Required", "The length of the query is not given.")
        if len(length) > 12 or int(length) > 3 * self.config.query_limit:  # (a form has three bytes for some)
            raise self._too_long()
        body: bytes = environ["wsgi.input"].read(int(length))
        if len(body) < int(length):
            raise bad("The request ended early.")
        return self._limited(body)

    def _limited(self, text: bytes) -> bytes:
        if len(text) > 3 * self.config.query_limit:
            raise self._too_long()
        return text

    def _too_long(self) -> Refusal:
        return Refusal("413 Content Too Large", f"A query of {self.config.query_limit:,} bytes is taken at most.")

    def _of_form(self, form: bytes) -> str:
        given = parameters(form)
        self._check(given)
        queries = [value for name, value, _ in given if name == "query"]
        if len(queries) != 1:
            raise bad("There is one parameter `query`, with the text of the query.")
        if len(queries[0].encode("utf-8", "replace")) > self.config.query_limit:
            raise self._too_long()
        return queries[0]

    @staticmethod
    def _check(given: Iterable[tuple[str, str, bytes]]) -> None:
        """Refuse what would change or fetch something."""
        names = {name for name, _, _ in given}
        if "update" in names:
            raise bad("There is no update: the data doesn't change.")
        if names & {"default-graph-uri", "named-graph-uri"}:
            raise bad("The data is that of this address: it can't be chosen by a parameter.")
