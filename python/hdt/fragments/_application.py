"""The WSGI application."""

from __future__ import annotations

import functools
import hashlib
import logging
import time
import zlib
from collections.abc import Iterable, Mapping
from dataclasses import dataclass
from email.utils import formatdate, parsedate_to_datetime
from pathlib import Path
from typing import Any, Callable, NamedTuple, Optional, TypeVar, Union
from urllib.parse import quote

from hdt._web.identity import identity_of
from hdt._web.log import escaped, traced
from hdt._web.request import Headers, Refusal, bad
from hdt.fragments import _download as download
from hdt.fragments import _formats as formats
from hdt.fragments import _fragment as fragments
from hdt.fragments import _pages as pages
from hdt.fragments import _terms as terms
from hdt.fragments import _void as void
from hdt.fragments import _writers as writers
from hdt.fragments._config import Config, changed_at
from hdt.fragments._dataset import Dataset, Loaded
from hdt.fragments._formats import HTML, JSONLD
from hdt.fragments._request import Request, request_of
from hdt.fragments._terms import Triple

METHODS = "GET, HEAD, OPTIONS"
NOT_MODIFIED = [
    ("Access-Control-Allow-Origin", "*"),
    ("Vary", "Accept, Accept-Encoding"),
]
COMMON = [
    *NOT_MODIFIED,
    ("Access-Control-Expose-Headers", "ETag, Last-Modified, Content-Range, Accept-Ranges"),
    ("X-Content-Type-Options", "nosniff"),
    ("Referrer-Policy", "no-referrer"),
]
PREFLIGHT = [
    ("Allow", METHODS),
    ("Access-Control-Allow-Methods", METHODS),
    ("Access-Control-Allow-Headers", "Accept, Accept-Language, Content-Type, If-None-Match, If-Modified-Since, Range"),
    ("Access-Control-Max-Age", "86400"),
]
NO_STORE = ("Cache-Control", "no-store")
PLAIN = ("Content-Type", "text/plain;charset=utf-8")
VERSION = "4"  # of the pages: another one makes other ETags
_SMALLEST_PACKED = 1000  # bytes
_INSTALLED = max(map(changed_at, Path(__file__).parent.glob("*.py")), default=0.0)

T = TypeVar("T")

log = logging.getLogger("hdt.fragments")


@dataclass
class Answer:
    """A status, headers and a body."""

    status: str
    headers: Headers
    body: bytes = b""
    pieces: Optional[download.Pieces] = None
    length: int = 0  # of the pieces


class Fresh(NamedTuple):
    """The headers of an answer for a cache; whether the client has this one, by its tag; or any one that is there."""

    headers: Headers
    has_this: bool
    has_any: bool


class Application:
    """A WSGI application that serves Triple Pattern Fragments of HDT files.

    It takes a `Config`, or the same values as a mapping. The files are opened at once, so a server that forks its
    workers afterwards shares their memory. Threads may share one. `changed` is the time when the configuration was last
    another one; without it, that is now. Last-Modified is never before it.
    """

    def __init__(self, config: Union[Config, Mapping[str, Any]], changed: Optional[float] = None) -> None:
        self.config = config if isinstance(config, Config) else Config.of(config)
        self.config.check()
        counted = self.config.partitions
        self.datasets = {name: Dataset(name, source, counted) for name, source in self.config.datasets.items()}
        self._salt = f"{VERSION} {self.config}"
        self._changed = max(time.time() if changed is None else changed, _INSTALLED)

    def __call__(self, environ: dict[str, Any], start: Callable[..., Any]) -> Iterable[bytes]:
        """Answer a request."""
        began, method = time.perf_counter(), environ["REQUEST_METHOD"]
        answer = self._answered(environ, method)
        self._pack(answer, environ.get("HTTP_ACCEPT_ENCODING", ""))
        length = answer.length if answer.pieces else len(answer.body)
        headers = (NOT_MODIFIED if answer.status[:3] == "304" else COMMON) + answer.headers
        if answer.status[:3] not in ("304", "204"):
            headers.append(("Content-Length", str(length)))
        if self.config.log and log.isEnabledFor(logging.INFO):
            query = environ.get("QUERY_STRING", "")
            target = environ.get("PATH_INFO", "") + ("?" + query if query else "")
            spent = (time.perf_counter() - began) * 1e3
            log.info("%s %r %s %d %.1f ms", escaped(method), target, answer.status[:3], length, spent)
        start(answer.status, headers)
        if method == "HEAD":
            if answer.pieces:
                answer.pieces.close()
            return []
        return answer.pieces or [answer.body]

    def _answered(self, environ: dict[str, Any], method: str) -> Answer:
        base = self.config.base
        try:
            if method == "OPTIONS":
                return Answer("204 No Content", PREFLIGHT)
            if method not in ("GET", "HEAD"):
                raise Refusal("405 Method Not Allowed", "It can only be read.", ("Allow", METHODS))
            request = request_of(environ, self.config)
            base = request.base
            return self._answer(request)
        except Refusal as error:
            refusal = error
        except MemoryError:
            refusal = Refusal("503 Service Unavailable", "There is no memory for this now.")
        except Exception as error:
            log.error("an error of the server\n%s", traced(error))
            refusal = Refusal("500 Internal Server Error", "This is an error of the server.")
        return self._refused(refusal, environ.get("HTTP_ACCEPT", ""), base)

    def _pack(self, answer: Answer, accept: str) -> None:
        """Compress a body that isn't small, if the client takes gzip."""
        if self.config.gzip and len(answer.body) > _SMALLEST_PACKED and formats.takes_gzip(accept):
            packer = zlib.compressobj(4, zlib.DEFLATED, 31)
            answer.body = packer.compress(answer.body) + packer.flush()
            answer.headers = [
                *((name, _packed_tag(value) if name == "ETag" else value) for name, value in answer.headers),
                ("Content-Encoding", "gzip"),
            ]

    def _refused(self, refusal: Refusal, accept: str, base: str) -> Answer:
        """The answer that is no page. It repeats nothing of the request."""
        headers = [*refusal.headers, NO_STORE]
        if "html" in accept:
            headers += [("Content-Type", formats.content_type(HTML)), *pages.HEADERS]
            return Answer(refusal.status, headers, pages.error_page(refusal.status, refusal.reason, base))
        return Answer(refusal.status, [PLAIN, *headers], f"{refusal.status[4:]}: {refusal.reason}\n".encode())

    def _answer(self, request: Request) -> Answer:
        name, _, rest = request.path.partition("/")
        if rest == "data.hdt" and name in self.datasets and self.datasets[name].source.gives_file:
            return self._file(request, self.datasets[name])
        if elsewhere := self._elsewhere(request):
            return elsewhere
        media = self._media(request)
        if not request.path:
            return self._index(request, media)
        if name not in self.datasets or request.path not in (name, name + "/void"):
            raise Refusal("404 Not Found", "There is nothing here.")
        dataset, loaded = self._open(name)
        if rest:
            return self._description(request, dataset, loaded, media)
        return self._fragment(request, dataset, loaded, media)

    def _media(self, request: Request) -> str:
        """The media type of the answer."""
        if named := request.given.get("format"):
            if named not in formats.NAMES:
                raise bad(f"There is no such format. Available: {', '.join(formats.NAMES)}.")
            return formats.NAMES[named]
        media = formats.negotiated(request.header("Accept"))
        if media is None:
            raise Refusal("406 Not Acceptable", f"Available: {', '.join(formats.KINDS)}.")
        return media

    def _open(self, name: str) -> tuple[Dataset, Loaded]:
        """A dataset with its file."""
        dataset = self.datasets[name]
        loaded = dataset.loaded()
        if loaded is None:
            why = "The file of this dataset can't be opened now."
            raise Refusal("503 Service Unavailable", why, ("Retry-After", "60"))
        return dataset, loaded

    def _fresh(self, request: Request, loaded: Loaded, media: str) -> Fresh:
        """The headers for a cache, and whether the client has the answer already.

        The tag is of all that makes an answer. A client that knows none has a time only: the later one of the file and
        the configuration (or this package), either of which makes other pages, but never one that is yet to come.
        """
        state = f"{self._salt} {loaded.identity} {request.url} {media}"
        tag = f'"{hashlib.sha256(state.encode()).hexdigest()[:24]}"'
        modified = int(min(max(loaded.modified, self._changed), time.time()))
        known = _known_tag(request, tag)
        headers = [
            ("ETag", known or tag),
            ("Last-Modified", _date(modified)),
            ("Cache-Control", f"public, max-age={self.config.max_age}"),
        ]
        return Fresh(headers, known is not None, _has_any(request, modified))

    def _page(
        self, request: Request, loaded: Loaded, media: str, find: Callable[[], T], make: Callable[[T], bytes]
    ) -> Answer:
        """An answer for a cache: the body is made of what is found, unless the client has it. `find` may refuse.

        Nothing is searched if the client has the tag of this answer: so there is one.
        """
        headers, has_this, has_any = self._fresh(request, loaded, media)
        if has_this:
            return Answer("304 Not Modified", headers)
        found = find()
        if has_any:
            return Answer("304 Not Modified", headers)
        more = pages.HEADERS if formats.KINDS[media] == HTML else []
        return Answer("200 OK", [("Content-Type", formats.content_type(media)), *headers, *more], make(found))

    def _fragment(self, request: Request, dataset: Dataset, loaded: Loaded, media: str) -> Answer:
        kind = formats.KINDS[media]
        request.page()

        def find() -> fragments.Fragment:
            return fragments.fragment_of(request, dataset, loaded, self.config, kind in writers.LINES)

        def make(fragment: fragments.Fragment) -> bytes:
            if kind == HTML:
                return pages.fragment_page(fragment)
            form, statements = fragments.form(dataset, loaded, request.base), fragments.controls(fragment)
            graph = request.url + "#metadata"
            if kind == JSONLD:
                return writers.jsonld(fragment.data(), form, statements, graph).encode("utf-8", "replace")
            return writers.LINES[kind](fragment.lines(), form, statements, graph).encode("utf-8", "replace")

        return self._page(request, loaded, media, find, make)

    def _description(self, request: Request, dataset: Dataset, loaded: Loaded, media: str) -> Answer:
        def make(_: None) -> bytes:
            if formats.KINDS[media] == HTML:
                return pages.description_page(request, dataset, loaded, self.config)
            return _document(void.description(dataset, loaded, request.base), media)

        return self._page(request, loaded, media, lambda: None, make)

    def _index(self, request: Request, media: str) -> Answer:
        """The list of datasets; those that can't be opened are left out of its RDF."""
        found = [(dataset, dataset.loaded()) for dataset in self.datasets.values()]
        headers = [("Content-Type", formats.content_type(media)), ("Cache-Control", "public, max-age=60")]
        if formats.KINDS[media] == HTML:
            return Answer("200 OK", headers + pages.HEADERS, pages.index_page(request, found, self.config))
        opened = [(dataset, loaded) for dataset, loaded in found if loaded]
        return Answer("200 OK", headers, _document(void.catalogue(opened, request.base), media))

    def _elsewhere(self, request: Request) -> Optional[Answer]:
        """A redirect from an IRI of the data to the triples that have it as their subject."""
        for prefix, name in self.config.dereference.items():
            if request.path.startswith(prefix.lstrip("/")) and request.path not in self.datasets:
                return self._lead(request, name)
        below = self.config.skolem
        if below and not terms.has_scheme(below) and request.path.startswith(below):
            name = request.path[len(below):].partition("/")[0]
            if name in self.datasets:
                return self._lead(request, name)
        return None

    def _lead(self, request: Request, name: str) -> Answer:
        """A redirect to the fragment of an IRI, in the spelling that the data has."""
        reader, spellings = self._open(name)[1].reader, [request.place, request.base + request.path]
        iri = next((each for each in spellings if reader.has(0, each)), spellings[0])
        target = f"{request.base}{name}?subject={quote(iri, safe='')}"
        return Answer("303 See Other", [("Location", target), PLAIN], f"See {target}\n".encode())

    def _file(self, request: Request, dataset: Dataset) -> Answer:
        """The file itself, or a range of it."""
        loaded = self._open(dataset.name)[1]
        headers, has_this, has_any = self._fresh(request, loaded, "file")
        if has_this:
            return Answer("304 Not Modified", headers)
        file = download.opened(dataset.source.file)
        try:
            if identity_of(download.stat_of(file)) != loaded.identity:
                raise Refusal("503 Service Unavailable", "The file is being replaced.", ("Retry-After", "2"))
            if has_any:
                file.close()
                return Answer("304 Not Modified", headers)
            size = loaded.identity[2]
            whole = request.header("If-Range") not in ("", headers[0][1], headers[1][1])
            is_get = request.environ["REQUEST_METHOD"] == "GET"  # (no other method has ranges)
            part = download.range_of(request.header("Range"), size) if is_get and not whole else None
        except BaseException:
            file.close()
            raise
        first, end = part or (0, size)
        headers += [("Content-Type", "application/vnd.hdt"), ("Accept-Ranges", "bytes"),
                    ("Content-Disposition", f'attachment; filename="{dataset.name}.hdt"')]
        if part:
            headers.append(("Content-Range", f"bytes {first}-{end - 1}/{size}"))
        pieces = download.Pieces(file, first, end)
        return Answer("206 Partial Content" if part else "200 OK", headers, pieces=pieces, length=end - first)


@functools.lru_cache(64)
def _date(seconds: int) -> str:
    """A time as HTTP writes it."""
    return formatdate(seconds, usegmt=True)


def _document(statements: list[Triple], media: str) -> bytes:
    """Triples as a document of their own, without graphs."""
    kind = formats.KINDS[media]
    if kind == JSONLD:
        return writers.jsonld(statements, (), [], "").encode("utf-8", "replace")
    write = writers.ntriples if kind in (formats.NQUADS, formats.NTRIPLES) else writers.turtle
    return write("", (), statements, "").encode("utf-8", "replace")


def _known_tag(request: Request, tag: str) -> Optional[str]:
    """The tag of the answer, compressed or not, if the client has it by the tags of its request."""
    tags = [each.strip().replace("W/", "", 1) for each in request.header("If-None-Match").split(",")]
    return next((each for each in (tag, _packed_tag(tag)) if each in tags), None)


def _has_any(request: Request, modified: int) -> bool:
    """Whether the client has the answer, if there is one: it names no tag, but any, or a time."""
    if wanted := request.header("If-None-Match").strip():
        return wanted == "*"
    try:
        return modified <= parsedate_to_datetime(request.header("If-Modified-Since")).timestamp()
    except (TypeError, ValueError, OverflowError, IndexError):
        return False


def _packed_tag(tag: str) -> str:
    """The tag of the same answer, compressed."""
    return tag[:-1] + '-gz"'
