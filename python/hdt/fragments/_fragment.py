"""A fragment: the triples that match a pattern, a page of them, and its metadata and controls in RDF."""

from __future__ import annotations

import functools
import hashlib
import re
from collections.abc import Mapping
from dataclasses import dataclass
from typing import Optional

from hdt._calls import is_bracketed
from hdt._web.request import Refusal
from hdt.fragments import _terms as terms
from hdt.fragments._config import Config
from hdt.fragments._dataset import Dataset, Loaded
from hdt.fragments._once import once
from hdt.fragments._reader import Page, PageText, Reader
from hdt.fragments._request import Request
from hdt.fragments._terms import DCTERMS, FOAF, HYDRA, RDF, ROLES, VOID, Pattern, Triple


_POSITION = re.compile(r"[0-9]{1,15}")


@dataclass(frozen=True)
class Asked:
    """A term of a request: its dictionary string, None for any; and what is wrong with it, for people."""

    term: Optional[str]
    hint: str = ""


def skolem_prefix(request: Request, dataset: Dataset, config: Config) -> str:
    """What the IRIs of blank nodes of a dataset begin with; empty if blank nodes keep their labels."""
    if not config.skolem:
        return ""
    return (config.skolem if terms.has_scheme(config.skolem) else request.base + config.skolem) + dataset.name + "/"


def asked(text: str, role: int, reader: Reader, prefix: str, prefixes: Mapping[str, str]) -> Asked:
    """The term that a parameter means."""
    if not text or text.startswith("?"):
        return Asked(None)
    if text.strip("<>") in ("", "?"):  # (a search for what is in the brackets raises ValueError)
        return Asked("<", f"The {ROLES[role]} is not a term.")
    if text.startswith('"'):
        spellings = list(terms.literals(text))
        known = next((each for each in spellings if reader.has(role, each)), None)
        if known or spellings:
            return Asked(known or spellings[0])
        return Asked(text, "This literal has no end.")
    if text.startswith("<") and text.endswith(">"):
        text = text[1:-1]
    if (label := terms.blank_node(text, prefix)) is not None:
        return Asked(label)
    if text.startswith("_:") or reader.has(role, text):
        return Asked(text)
    text = text.strip("<>") if is_bracketed(text) else text  # (a search for brackets raises ValueError)
    name, colon, local = text.partition(":")
    if colon and name in prefixes:
        return Asked(prefixes[name] + local)
    if terms.has_scheme(text):
        return Asked(text)
    literal = " A text has quotes around it." if role == 2 else ""
    return Asked(text, f"The {ROLES[role]} is not a term: an IRI begins with a scheme, as http:.{literal}")


@dataclass(frozen=True)
class Fragment:
    """A page of a fragment, without its triples."""

    dataset: Dataset
    loaded: Loaded
    request: Request
    config: Config
    pattern: Pattern
    hints: list[str]
    count: int
    page: int
    is_text: bool  # whether only `lines` is asked for, and no triples

    @property
    def pages(self) -> int:
        """How many pages the fragment has."""
        return -(-self.count // self.config.page_size)

    @property
    def skip(self) -> int:
        """How many triples the pages before this one have."""
        return (self.page - 1) * self.config.page_size

    @property
    def url(self) -> str:
        """The URL of the dataset, which is that of all its triples."""
        return self.request.base + self.dataset.name

    @property
    def skolem(self) -> str:
        """What the IRIs of blank nodes begin with."""
        return skolem_prefix(self.request, self.dataset, self.config)

    def _begins(self, page: int, position: int) -> str:
        """Where a page begins, as a link says it: its position, and a digest of what that is true of."""
        about = repr((self.loaded.identity, self.pattern, self.config.page_size, page, position))
        return f"{position}-{hashlib.sha256(about.encode()).hexdigest()[:8]}"

    @property
    def _start(self) -> Optional[int]:
        """The position that the request gives for the page; None unless it is that of a link to this page."""
        given = self.request.given.get("from", "")
        position = given.partition("-")[0]
        is_right = _POSITION.fullmatch(position) and given == self._begins(self.page, int(position))
        return int(position) if is_right else None

    @once
    def found(self) -> Page:
        """The triples of the page, as strings of the dictionary."""
        return self.loaded.reader.page(self.pattern, self.skip, self.config.page_size, self._start)

    @once
    def text(self) -> Optional[PageText]:
        """The page as the engine writes it, or None if it can't, or if blank nodes have to be renamed."""
        found = self.loaded.reader.page_text(self.pattern, self.skip, self.config.page_size, self._start)
        return None if found is None or self.skolem and "_:" in found.lines else found

    @property
    def next(self) -> Optional[str]:
        """The URL of the next page, which names its position, or None if this is the last one."""
        if self.page >= self.pages:
            return None
        text = self.text if self.is_text else None
        following = text.following if text else self.found.following
        if following is None:
            return None
        return self.request.with_page(self.page + 1, self._begins(self.page + 1, following))

    def data(self) -> list[Triple]:
        """The triples of the page, with blank nodes as the server names them."""
        prefix = self.skolem
        return [(terms.named(s, prefix), p, terms.named(o, prefix)) for s, p, o in self.found.triples]

    def lines(self) -> str:
        """The triples of the page as N-Triples, with blank nodes as the server names them."""
        return self.text.lines if self.text else self.found.lines(self.skolem)


def fragment_of(request: Request, dataset: Dataset, loaded: Loaded, config: Config, is_text: bool) -> Fragment:
    """The fragment that a request asks for. Raises Refusal where it has no such page."""
    page, prefix, reader = request.page(), skolem_prefix(request, dataset, config), loaded.reader
    s, p, o = (
        asked(request.given.get(name, ""), role, reader, prefix, config.prefixes) for role, name in enumerate(ROLES)
    )
    pattern = s.term, p.term, o.term
    hints = [each.hint for each in (s, p, o) if each.hint]
    fragment = Fragment(dataset, loaded, request, config, pattern, hints, reader.count(pattern), page, is_text)
    if page > max(1, fragment.pages):
        raise Refusal("404 Not Found", f"There is no page {page:,}: {fragment.count:,} triples match, "
                      f"on {fragment.pages:,} page{'' if fragment.pages == 1 else 's'}.")
    return fragment


def form(dataset: Dataset, loaded: Loaded, base: str) -> tuple[Triple, ...]:
    """How the fragments of a dataset are asked for, with its title and its licences."""
    said = loaded.about.values
    return _form(base + dataset.name, said["title"][0], tuple(said.get("license", ())))


@functools.lru_cache(256)
def _form(url: str, title: str, licenses: tuple[str, ...]) -> tuple[Triple, ...]:
    about, pattern, template = url + "#dataset", url + "#pattern", f'"{url}{{?subject,predicate,object}}"'
    statements = [
        (about, RDF + "type", VOID + "Dataset"),
        (about, RDF + "type", HYDRA + "Collection"),
        (about, DCTERMS + "title", title),
        (about, VOID + "uriLookupEndpoint", template),
        (about, HYDRA + "search", pattern),
        (pattern, HYDRA + "template", template),
        (pattern, HYDRA + "variableRepresentation", HYDRA + "ExplicitRepresentation"),
    ]
    for role in ROLES:
        statements.append((pattern, HYDRA + "mapping", f"{pattern}-{role}"))
        statements.append((f"{pattern}-{role}", HYDRA + "variable", f'"{role}"'))
        statements.append((f"{pattern}-{role}", HYDRA + "property", RDF + role))
    statements += [(about, DCTERMS + "license", license) for license in licenses]
    return tuple(statements)


def controls(fragment: Fragment) -> list[Triple]:
    """Metadata and controls of a page, besides the form.

    Each has the page, the dataset or the form as its subject, or a predicate that clients take for a control: to a
    client that reads a format without graphs, all else is data.
    """
    request, about = fragment.request, fragment.url + "#dataset"
    page, whole, pages = request.url, request.with_page(None), fragment.pages
    statements = [(page + "#metadata", FOAF + "primaryTopic", about), (about, VOID + "subset", whole)]
    if page != whole:
        statements += [(about, VOID + "subset", page), (whole, VOID + "subset", page), (whole, HYDRA + "view", page)]
    statements += [
        (page, RDF + "type", HYDRA + "PartialCollectionView"),
        (page, DCTERMS + "title", f'"A fragment of {fragment.loaded.about.title}"'),
        (page, DCTERMS + "source", about),
        (page, HYDRA + "totalItems", terms.integer(fragment.count)),
        (page, VOID + "triples", terms.integer(fragment.count)),
        (page, HYDRA + "itemsPerPage", terms.integer(fragment.config.page_size)),
        (page, HYDRA + "first", request.with_page(1)),
    ]
    if fragment.page > 1:
        statements.append((page, HYDRA + "previous", request.with_page(fragment.page - 1)))
    if fragment.next:
        statements.append((page, HYDRA + "next", fragment.next))
    if pages:
        statements.append((page, HYDRA + "last", request.with_page(pages)))
    return statements
