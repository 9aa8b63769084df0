"""Parts of the pages for people.

All text that comes from data, from the request or from the configuration is escaped.
"""

from __future__ import annotations

import functools
import itertools
import re
from collections.abc import Collection, Mapping, Sequence
from dataclasses import dataclass
from typing import Optional

from hdt.fragments import _terms as terms
from hdt.fragments._style import STYLE
from hdt.fragments._terms import ROLES, Triple

_LONGEST_LINK = 3_000  # characters of a term in a URL; a longer line is refused by servers
_FOLDED = 300  # characters of a literal that is shown whole
_SHOWN = 20_000  # characters of a literal that are shown at all
_ESCAPES = {
    **{character: "\ufffd" for character in (*range(9), 11, 12, *range(14, 32), *range(127, 160))},
    **{ord(character): f"&#{ord(character)};" for character in "&<>\"'"},
}
_ESCAPED = re.compile("[" + re.escape("".join(map(chr, _ESCAPES))) + "]")


def text(value: str) -> str:
    """A text as HTML, in an element or an attribute with quotes. A control character is shown as a replacement."""
    return value.translate(_ESCAPES) if _ESCAPED.search(value) else value


def document(title: str, body: str, links: str = "") -> bytes:
    """A whole page."""
    return (
        '<!DOCTYPE html>\n<html lang="en"><head><meta charset="utf-8">'
        '<meta name="viewport" content="width=device-width, initial-scale=1">'
        f'<title>{text(title)}</title><link rel="icon" href="data:,">{links}<style>{STYLE}</style></head>\n'
        f"<body>{body}</body></html>\n"
    ).encode("utf-8", "replace")


def plural(count: int, one: str, many: str) -> str:
    """A count with its noun."""
    return f"<b>{count:,}</b> {one if count == 1 else many}"


@dataclass(frozen=True)
class View:
    """How terms are shown: the dataset's URL, prefix of blank nodes, names of namespaces, objects that are subjects."""

    url: str
    skolem: str
    spaces: Mapping[str, str]
    subjects: Collection[str]

    def short(self, iri: str) -> tuple[str, str]:
        """An IRI for people: its namespace, as a prefix where it has one, and its last part."""
        cut = max(iri.rfind("#"), iri.rfind("/", 0, len(iri) - 1)) + 1
        if cut == len(iri) or cut <= 8:
            return "", iri
        name = self.spaces.get(iri[:cut])
        return (f"{name}:" if name else "…" + iri[cut - 1]), iri[cut:]

    def name(self, term: str) -> str:
        """A term as a short text, which is not escaped."""
        if term.startswith('"'):
            value = terms.parts(term)[0]
            return value if len(value) <= 60 else value[:60] + "…"
        return term if term.startswith("_:") else "".join(self.short(term))

    def link(self, term: str, role: int) -> Optional[str]:
        """The URL of the triples with a term in a role, or None if it is too long."""
        if term.startswith("_:") and self.skolem:
            term = terms.skolem_iri(term, self.skolem)
        value = terms.quoted(term) if len(term) <= _LONGEST_LINK else ""
        return f"{self.url}?{ROLES[role]}={value}" if 0 < len(value) <= _LONGEST_LINK else None

    def _linked(self, shown: str, term: str, role: int, title: str = "") -> str:
        url = self.link(term, role)
        about = f' title="{text(title)}"' if title else ""
        return f'<a href="{text(url)}"{about}>{shown}</a>' if url else f"<span{about}>{shown}</span>"

    def literal(self, term: str) -> str:
        """A literal: its text, folded where it is long, with its language or datatype."""
        value, suffix = terms.parts(term)
        tagged = suffix.startswith("@")
        kind = ""
        if suffix:
            label = suffix[1:] if tagged else "".join(self.short(suffix[3:-1]))
            title = "language " + suffix[1:] if tagged else "datatype " + suffix[3:-1]
            kind = f'<span class="kind" title="{text(title)}">{text(label)}</span>'
        language = f' lang="{text(suffix[1:])}"' if tagged else ""
        if len(value) <= _FOLDED:
            shown = f'<span{language} dir="auto">{text(value)}</span>' if value else '<span class="soft">(empty)</span>'
            return self._linked(shown, term, 2) + kind
        more = f" The first {_SHOWN:,} of {len(value):,} characters." if len(value) > _SHOWN else ""
        search = f'<a class="more" href="{text(url)}">triples with it</a>' if (url := self.link(term, 2)) else ""
        return (
            f'<details><summary><span{language} dir="auto">{text(value[:160])}…</span> '
            f'<span class="soft">({len(value):,} characters)</span>{kind}</summary>'
            f'<div class="text"{language} dir="auto">{text(value[:_SHOWN])}</div>'
            f'<span class="soft">{more}</span>{search}</details>'
        )

    def term(self, term: str, role: int) -> str:
        """A term with its links."""
        if term.startswith('"'):
            return self.literal(term)
        to = 0 if role == 2 and term in self.subjects else role
        if term.startswith("_:"):
            shown = self._linked(text(term), term, to, "blank node")
        else:
            space, local = self.short(term)
            prefix = f'<span class="ns">{text(space)}</span>' if space else ""
            shown = self._linked(prefix + text(local), term, to, term)
        if to != role and (uses := self.link(term, 2)):
            about = "Triples with this object"
            shown += f'<a class="more" href="{text(uses)}" title="{about}" aria-label="{about}">←</a>'
        if role != 1 and re.match(r"https?://", term):
            shown += (f'<a class="more" href="{text(terms.iri_text(term))}" rel="noopener noreferrer nofollow" '
                      f'title="Open {text(term)}" aria-label="Open the IRI">↗</a>')
        return shown

    def table(self, triples: list[Triple], caption: str, roles: Sequence[int] = (0, 1, 2)) -> str:
        """Triples as a table of these roles, in which the rows of one subject are joined."""
        rows, shown = [], functools.lru_cache(None)(self.term)
        for subject, group in itertools.groupby(triples, lambda triple: triple[0]):
            found = list(group)
            span = f' rowspan="{len(found)}"' if len(found) > 1 else ""
            first = f'<th class="s" scope="rowgroup" role="rowheader"{span}>{shown(subject, 0)}</th>'
            for place, triple in enumerate(found):
                cells = first if 0 in roles and place == 0 else ""
                for role in roles:
                    if role:
                        cells += f'<td class="{ROLES[role][0]}" role="cell">{shown(triple[role], role)}</td>'
                rows.append(f'<tr role="row">{cells}</tr>')
        heads = "".join(f'<th class="{ROLES[role][0]}" scope="col" role="columnheader">{ROLES[role].capitalize()}</th>'
                        for role in roles)
        return (
            f'<table class="triples" role="table"><caption>{text(caption)}</caption>'
            f'<thead role="rowgroup"><tr role="row">{heads}</tr></thead>'
            f'<tbody role="rowgroup">{"".join(rows)}</tbody></table>'
        )

    def predicates(self, counted: list[tuple[str, int]], caption: str) -> str:
        """Predicates with their counts, as a table."""
        rows = "".join(
            f'<tr><th class="p" scope="row">{self.term(name, 1)}</th><td class="n">{count:,}</td></tr>'
            for name, count in counted
        )
        return (
            f'<table><caption>{text(caption)}</caption><thead><tr><th scope="col">Predicate</th>'
            f'<th class="n" scope="col">Triples</th></tr></thead><tbody>{rows}</tbody></table>'
        )
