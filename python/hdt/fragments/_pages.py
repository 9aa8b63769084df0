"""The pages for people: a fragment, the description of a dataset, the list of datasets, an error."""

from __future__ import annotations

from collections.abc import Collection
from typing import Optional

from hdt.fragments import _formats as formats
from hdt.fragments import _terms as terms
from hdt.fragments._about import About
from hdt.fragments._config import Config
from hdt.fragments._dataset import Dataset, Loaded
from hdt.fragments._fragment import Fragment, skolem_prefix
from hdt.fragments._html import View, document, plural, text
from hdt.fragments._request import Request
from hdt.fragments._style import HEADERS
from hdt.fragments._terms import ROLES

__all__ = ["HEADERS", "description_page", "error_page", "fragment_page", "index_page"]

_FIRST_PREDICATES = 12  # on the first page of a dataset
_SUGGESTED = 300  # predicates that the search box suggests, at most
_POINTING = 10  # triples that point to a subject, on its page

# What is said of a dataset besides its title and its description.
_LABELS = {
    "license": "License", "rights": "Rights", "publisher": "Publisher", "creator": "Creator", "source": "Source",
    "issued": "Issued", "created": "Created", "modified": "Modified",
}  # fmt: skip
_HINTS = ("any IRI", "any IRI", 'any IRI or "text"')


def _view(request: Request, dataset: Dataset, config: Config, subjects: Collection[str] = ()) -> View:
    spaces = {iri: name for name, iri in config.prefixes.items()}
    return View(request.base + dataset.name, skolem_prefix(request, dataset, config), spaces, subjects)


def _crumbs(request: Request, config: Config, *more: tuple[str, str]) -> str:
    links = [(request.base, config.title), *more]
    return '<nav class="crumbs" aria-label="Path">' + " ".join(
        f'<a href="{text(url)}">{text(title)}</a>' for url, title in links) + "</nav>"


def _facts(loaded: Loaded) -> str:
    size = loaded.reader.counts
    facts = [
        plural(size.triples, "triple", "triples"),
        plural(size.shared + size.subjects, "subject", "subjects"),
        plural(size.predicates, "predicate", "predicates"),
    ]
    if loaded.reader.objects is not None:
        facts.append(plural(loaded.reader.objects, "object", "objects"))
    return '<ul class="facts">' + "".join(f"<li>{fact}</li>" for fact in facts) + "</ul>"


def _lead(about: About) -> str:
    return f'<p class="lead" dir="auto">{text(about.description)}</p>' if about.description else ""


def _said(about: About) -> str:
    """Licence, publisher, dates and the like."""
    found = [(label, value) for name, label in _LABELS.items() for value in about.values.get(name, ())]
    items = "".join(f"<li>{label}: {_value(value)}</li>" for label, value in found)
    return f'<ul class="facts">{items}</ul>' if items else ""


def _value(term: str) -> str:
    """A literal as its text, an IRI of the web as a link, any other one as a text."""
    if term.startswith('"'):
        return f'<span dir="auto">{text(terms.parts(term)[0])}</span>'
    if term.startswith(("http://", "https://")):
        return f'<a href="{text(terms.iri_text(term))}" rel="noopener noreferrer nofollow">{text(term)}</a>'
    return f"<span>{text(term)}</span>"


def _in_field(value: str) -> str:
    """A parameter in a search box, which has no line breaks: a literal has them as escapes."""
    if value.startswith('"') and ("\n" in value or "\r" in value):
        literal, suffix = terms.parts(value)
        value = f'"{terms.escaped(literal)}"{suffix}'
    return text(value)


def _search(fragment: Fragment) -> str:
    """The form with three boxes."""
    given, boxes = fragment.request.given, ""
    known = fragment.loaded.reader.predicates[:_SUGGESTED]
    for role, hint in zip(ROLES, _HINTS):
        suggested = ' list="predicates"' if role == "predicate" and known else ""
        boxes += (
            f'<label class="{role[0]}">{role.capitalize()}<input name="{role}" '
            f'value="{_in_field(given.get(role, ""))}" placeholder="{text(hint)}" '
            f'autocomplete="off" autocapitalize="off" spellcheck="false"{suggested}></label>'
        )
    options = "".join(f'<option value="{text(name)}">' for name, _ in known)
    suggestions = f'<datalist id="predicates">{options}</datalist>' if known else ""
    clear = f' <a href="{text(fragment.url)}">Clear</a>' if any(given.get(role) for role in ROLES) else ""
    return (
        f'<form class="search box" role="search" action="{text(fragment.url)}">{boxes}'
        f"<div><button>Search</button>{clear}</div></form>{suggestions}"
    )


def _pager(fragment: Fragment, label: str) -> str:
    """Links to other pages, and a box for the number of one."""
    request, page, pages = fragment.request, fragment.page, fragment.pages
    if pages < 2:
        return ""

    def link(number: int, name: str, relation: str) -> str:
        if not 1 <= number <= pages or number == page:
            return f'<span aria-hidden="true">{name}</span>'
        url = fragment.next if relation == "next" else None
        return f'<a href="{text(url or request.with_page(number))}" rel="{relation}">{name}</a>'

    kept = "".join(f'<input type="hidden" name="{name}" value="{text(value)}">'
                   for name, value in request.given.items() if name not in ("page", "from") and value)
    jump = (f'<form action="{text(request.place)}">{kept}<label>Page <input name="page" value="{page}" '
            f'inputmode="numeric" autocomplete="off"></label> of {pages:,}</form>')
    return (
        f'<nav class="pages" aria-label="{label}">{link(1, "« First", "first")}{link(page - 1, "‹ Previous", "prev")}'
        f'{jump}{link(page + 1, "Next ›", "next")}{link(pages, "Last »", "last")}</nav>'
    )


def _overview(fragment: Fragment, view: View) -> str:
    """The most used predicates, on the first page of a dataset."""
    known = fragment.loaded.reader.predicates
    if fragment.pattern != (None, None, None) or fragment.page > 1 or not known:
        return ""
    links = " ".join(
        f'<li><span class="p">{view.term(name, 1)}</span> {count:,}</li>' for name, count in known[:_FIRST_PREDICATES])
    return (
        f'<section class="box" aria-label="Predicates"><h2>Predicates</h2><ul class="facts">{links}</ul>'
        f'<p class="soft"><a href="{text(fragment.url)}/void">All predicates with their counts</a></p></section>'
    )


def _pointing(fragment: Fragment, view: View) -> str:
    """The first triples that have the subject of the page as their object."""
    subject = fragment.pattern[0]
    if not _is_about_a_subject(fragment) or subject is None or subject.startswith('"'):
        return ""
    pattern, reader = (None, None, subject), fragment.loaded.reader
    count = reader.count(pattern)
    if not count:
        return ""
    found = reader.page(pattern, 0, _POINTING).triples
    link = view.link(subject, 2) or fragment.url
    caption = f"The first {len(found):,}" if count > len(found) else "All of them"
    return (
        f'<section aria-label="Triples that point to it"><div class="bar"><h2>{count:,} '
        f'{"triple points" if count == 1 else "triples point"} to it</h2>'
        + (f'<a href="{text(link)}">All {count:,}</a>' if count > len(found) else "")
        + f"</div>{view.table(found, caption, (0, 1))}</section>"
    )


def _is_about_a_subject(fragment: Fragment) -> bool:
    return bool(fragment.pattern[0]) and not fragment.pattern[1] and not fragment.pattern[2]


def _heading(fragment: Fragment, view: View) -> str:
    """The heading of a fragment: that of its subject, or of the dataset."""
    about, subject = fragment.loaded.about, fragment.pattern[0]
    if _is_about_a_subject(fragment) and subject and fragment.count:
        crumbs = _crumbs(fragment.request, fragment.config, (fragment.url, about.title))
        name = subject if subject.startswith("_:") else view.short(subject)[1]
        return f'<header>{crumbs}<h1>{text(name)}</h1><p class="iri">{text(subject)}</p><p></p></header>'
    return (
        f"<header>{_crumbs(fragment.request, fragment.config)}"
        f'<h1><a href="{text(fragment.url)}">{text(about.title)}</a></h1>'
        f"{_lead(about)}{_facts(fragment.loaded)}{_said(about)}</header>"
    )


def _triples(fragment: Fragment, view: View) -> str:
    """The triples of the page with their count and the links to other pages."""
    found, left_out = fragment.found.triples, fragment.found.left_out
    first, last = fragment.skip + 1, fragment.skip + len(found) + left_out
    caption = f"Triples {first:,} to {last:,} of {fragment.count:,}" if found else ""
    heading = f'{fragment.count:,} {"triple matches" if fragment.count == 1 else "triples match"}'
    if not found:
        rows = '<p class="box none">No triple of this dataset matches.</p>'
    else:
        rows = view.table(found, caption, (1, 2) if _is_about_a_subject(fragment) else (0, 1, 2))
    note = (f'<p class="box hint">{left_out:,} triples of this page have strings that are no terms of RDF. '
            "They are left out.</p>") if left_out else ""
    below = f'<div class="bar"><span></span>{_pager(fragment, "Pages, again")}</div>' if len(found) > 15 else ""
    return (
        f'<section id="triples" aria-label="Triples"><div class="bar"><h2>{heading}</h2>'
        f'{_pager(fragment, "Pages")}</div>{note}{rows}{below}</section>'
    )


def _footer(url: str) -> str:
    """The same page in other formats."""
    joined = url + ("&" if "?" in url else "?")
    links = ", ".join(f'<a href="{text(joined)}format={name}" rel="nofollow">{label}</a>'
                      for name, label in formats.LABELS.items())
    shell = url.replace("'", "%27")
    return (
        f"<footer><p>This page as {links}.</p>"
        f"<p><code>curl -H 'Accept: text/turtle' '{text(shell)}'</code></p></footer>"
    )


def _alternates(url: str) -> str:
    media = formats.TURTLE, formats.TRIG
    return "".join(f'<link rel="alternate" type="{name}" href="{text(url)}">' for name in media)


def fragment_page(fragment: Fragment) -> bytes:
    """A page of a fragment."""
    subjects = fragment.loaded.reader.subjects(fragment.found)
    view = _view(fragment.request, fragment.dataset, fragment.config, subjects)
    hints = "".join(f'<p class="box hint" role="alert">{text(hint)}</p>' for hint in fragment.hints)
    named = [f"{role} {view.name(term)}" for role, term in zip(ROLES, fragment.pattern) if term]
    url = fragment.request.with_page(fragment.page if fragment.page > 1 else None)
    return document(
        ", ".join(named + [fragment.loaded.about.title]) + (f", page {fragment.page:,}" if fragment.page > 1 else ""),
        f'<a class="skip" href="#triples">Skip to the triples</a>{_heading(fragment, view)}'
        f"<main>{_search(fragment)}{hints}{_overview(fragment, view)}{_triples(fragment, view)}"
        f"{_pointing(fragment, view)}</main>{_footer(url)}",
        _alternates(fragment.request.url),
    )


def description_page(request: Request, dataset: Dataset, loaded: Loaded, config: Config) -> bytes:
    """The description of a dataset: its counts and its predicates."""
    view, about = _view(request, dataset, config), loaded.about
    known = loaded.reader.predicates
    table = view.predicates(known, "The most used ones first") if known else (
        f'<p class="box none">There are more than {config.partitions:,} predicates, which are not counted here.</p>')
    file = f'<p><a href="{text(view.url)}/data.hdt">The HDT file</a></p>' if dataset.source.gives_file else ""
    return document(
        f"Description of {about.title}",
        f"<header>{_crumbs(request, config, (view.url, about.title))}<h1>{text(about.title)}</h1>"
        f"{_lead(about)}{_facts(loaded)}{_said(about)}</header><main>{file}"
        f'<section aria-label="Predicates"><h2>Predicates</h2>{table}</section></main>{_footer(request.place)}',
        _alternates(request.place),
    )


def index_page(request: Request, datasets: list[tuple[Dataset, Optional[Loaded]]], config: Config) -> bytes:
    """The list of datasets."""
    cards = "".join(
        f'<li class="box"><h2><a href="{text(request.base + dataset.name)}">{text(about.title)}</a></h2>'
        f'<p class="soft">{text(about.description)}</p>'
        + (_facts(loaded) if loaded else '<p class="soft">Its file can\'t be opened now.</p>') + "</li>"
        for dataset, loaded in datasets
        for about in [dataset.about(loaded)]
    )
    return document(
        config.title,
        f'<header><h1>{text(config.title)}</h1><p class="lead">Datasets of RDF that people and programs search by the '
        f'pattern of a triple.</p></header><main><ul class="cards">{cards}</ul></main>{_footer(request.base)}',
    )


def error_page(status: str, reason: str, base: str) -> bytes:
    """An error, which repeats nothing of the request."""
    return document(status[4:], f'<header><h1>{text(status[4:])}</h1></header><main><p>{text(reason)}</p>'
                    f'<p><a href="{text(base or "/")}">All datasets</a></p></main>')
