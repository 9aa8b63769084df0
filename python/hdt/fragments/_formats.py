"""The formats, and the one that a client accepts."""

from __future__ import annotations

import re
from typing import Optional

from hdt._web.negotiation import chosen

TURTLE, TRIG, NQUADS, JSONLD = "text/turtle", "application/trig", "application/n-quads", "application/ld+json"
NTRIPLES, HTML = "application/n-triples", "text/html"

# Each media type with the format that it is; where a client accepts many equally, the first one is chosen.
KINDS = {
    TURTLE: TURTLE,
    TRIG: TRIG,
    NQUADS: NQUADS,
    JSONLD: JSONLD,
    NTRIPLES: NTRIPLES,
    HTML: HTML,
    "application/turtle": TURTLE,
    "application/x-turtle": TURTLE,
    "text/x-nquads": NQUADS,
    "application/xhtml+xml": HTML,
}
# The names of the parameter `format`.
NAMES = {"ttl": TURTLE, "trig": TRIG, "nt": NTRIPLES, "nq": NQUADS, "jsonld": JSONLD, "html": HTML}
LABELS = {"ttl": "Turtle", "trig": "TriG", "nt": "N-Triples", "nq": "N-Quads", "jsonld": "JSON-LD"}

_ONLY_BY_NAME = frozenset(media for media, kind in KINDS.items() if media != kind)


def content_type(media: str) -> str:
    """The Content-Type of a media type. Those that are UTF-8 by themselves have no parameter."""
    if KINDS.get(media) == HTML:
        return HTML + ";charset=utf-8"
    return media if media in (NQUADS, NTRIPLES, JSONLD) else media + ";charset=utf-8"


def negotiated(accept: str) -> Optional[str]:
    """The media type that an Accept header asks for, or None."""
    return chosen(accept, tuple(KINDS), _ONLY_BY_NAME)


def takes_gzip(accept: str) -> bool:
    """Whether an Accept-Encoding header takes gzip."""
    found = {}
    for item in accept.lower().split(","):
        name, _, rest = item.partition(";")
        quality = re.match(r"\s*q=([0-9.]*)\s*\Z", rest)
        found[name.strip()] = not (quality and re.match(r"0(?:\.0*)?\Z", quality[1]))
    return found.get("gzip", found.get("x-gzip", found.get("*", False)))
