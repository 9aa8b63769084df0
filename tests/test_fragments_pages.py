"""The fragment server's pages for people: their parts, what is escaped, labels and contrast, and Chromium."""

from __future__ import annotations

import base64
import hashlib
import math
import random
import re
import shutil
import subprocess
import threading
from collections.abc import Iterable, Iterator
from html.parser import HTMLParser
from pathlib import Path
from typing import Any, Callable, NamedTuple, Optional
from urllib.parse import quote, unquote
from wsgiref.simple_server import make_server

import pytest

from reference import hdt as reference
from support.fragments import BASE, MANY, ODD, Handler, Server, Site, build, fragments, hdt, style, terms, url

EVIL = "\"'><script>alert(1)</script><img src=x onerror=alert(1)>"
ELEMENTS = set("""html head meta title link style body header nav main section footer h1 h2 p a b ul li form label input
    button datalist option div span table caption thead tbody tr th td details summary code""".split())
VOID_ELEMENTS = {"meta", "link", "input", "option", "br"}
S1, N, P = "http://odd.example/s1", "http://odd.example/n", "http://odd.example/p"
GENID = BASE + ".well-known/genid/odd/"


class Cell(NamedTuple):
    """A cell of the body of a table: its attributes, links and texts."""

    given: dict[str, str]
    links: list[str]
    texts: list[str]

    @property
    def term(self) -> str:
        """The dictionary string that it shows, by its first link; of a long literal, a quote and the text of it."""
        if any(re.fullmatch(r"\([0-9,]+ characters\)", text) for text in self.texts):
            return '"' + self.texts[0].rstrip("…")
        value = unquote(self.links[0].partition("=")[2])
        return "_:" + unquote(value[len(GENID):]) if value.startswith(GENID) else value


class Page(HTMLParser):
    """A page that is read strictly: elements nest, and all that can act is noted."""

    def __init__(self, text: str) -> None:
        super().__init__()
        self.open: list[str] = []
        self.elements: list[tuple[str, dict[str, str]]] = []
        self.text = ""
        self.tables: list[list[list[Cell]]] = []
        self.feed(text)
        self.close()
        assert self.open == [], self.open

    def handle_starttag(self, tag: str, attrs: list[tuple[str, Optional[str]]]) -> None:
        """An element begins."""
        assert len({name for name, _ in attrs}) == len(attrs)
        given = {name: value or "" for name, value in attrs}
        self.elements.append((tag, given))
        if tag not in VOID_ELEMENTS:
            self.open.append(tag)
        if tag == "table":
            self.tables.append([])
        if tag == "tr" and "tbody" in self.open:
            self.tables[-1].append([])
        if tag in ("td", "th") and "tbody" in self.open:
            self.tables[-1][-1].append(Cell(given, [], []))
        if tag == "a" and "tbody" in self.open:
            self.tables[-1][-1][-1].links.append(given["href"])

    def handle_endtag(self, tag: str) -> None:
        """An element ends."""
        assert self.open.pop() == tag

    def handle_data(self, data: str) -> None:
        """Text."""
        if "style" not in self.open:
            self.text += data
        if "tbody" in self.open:
            self.tables[-1][-1][-1].texts.append(data)

    def all(self, tag: str, **wanted: str) -> list[dict[str, str]]:
        """The attributes of all elements of a kind that have these."""
        return [given for name, given in self.elements
                if name == tag and all(given.get(key) == value for key, value in wanted.items())]


@pytest.fixture(scope="module")
def file(tmp_path_factory: pytest.TempPathFactory) -> Path:
    """The file of odd terms."""
    return build(tmp_path_factory.mktemp("odd"), ODD)


def config(file: Path) -> dict[str, Any]:
    """A configuration with text that would break pages."""
    about = {"file": str(file), "title": f"Odd {EVIL}", "description": EVIL, "license": "javascript:alert(1)",
             "download": True}
    return {"title": f"All {EVIL}", "datasets": {"odd": about, "none": "none.hdt"}}


@pytest.fixture(scope="module")
def site(file: Path) -> Site:
    """The application."""
    return Site(fragments.Application(config(file)))


def page(site: Site, target: str, status: int = 200) -> Page:
    """A page, which passes the checks of all pages."""
    answer = site.ask(target, Accept="text/html")
    assert answer.status == status
    policy = answer.headers["content-security-policy"]
    sheet = re.search("<style>(.*?)</style>", answer.text, re.DOTALL)
    assert sheet
    digest = base64.b64encode(hashlib.sha256(sheet[1].encode()).digest()).decode()
    assert policy == (f"default-src 'none'; style-src 'sha256-{digest}'; img-src data:; form-action 'self'; "
                      "base-uri 'none'; frame-ancestors 'none'")
    found = Page(answer.text)
    assert {tag for tag, _ in found.elements} <= ELEMENTS
    for tag, given in found.elements:
        assert not [name for name in given if name.startswith("on") or name in ("style", "src", "srcset")]
        if tag == "a":
            assert re.match(r"https?://|#|/\Z", given["href"]), given
            if not given["href"].startswith((BASE, "#", "/")):
                assert given["rel"] == "noopener noreferrer nofollow"
        if tag == "form":
            assert given["action"].startswith(BASE)
    return found


PAGES = {
    "all": "/odd", "the odd terms": url(predicate="http://odd.example/p"), "a subject": url(subject=S1),
    "blank nodes": url(predicate="http://odd.example/knows"), "a blank node": url(subject="_:b1"),
    "a page": url(page=2), "nothing": url(subject="http://none/"), "evil subject": url(subject=EVIL),
    "evil literal": url(object=f'"{EVIL}'),
    "evil parameter": "/odd?x=" + quote(EVIL), "a script's IRI": url(subject="javascript:alert(1)"), "the list": "/",
    "the description": "/odd/void", "a control character": url(object='"\x01\x7f\x85\u2028"'),
    "a long one": url(subject="http://odd.example/longer"), "lines": url(object='"line\nfeed\ttab\rreturn"'),
}


@pytest.mark.parametrize("name", PAGES)
def test_pages_are_safe(site: Site, name: str) -> None:
    """Elements nest; no script, no event, no source; links lead to the web alone; the policy has the style's hash."""
    assert page(site, PAGES[name]).all("h1")


@pytest.mark.parametrize("target, status", [("/none", 503), ("/" + quote(EVIL), 404), ("/odd?page=0", 400)])
def test_errors_are_safe(site: Site, target: str, status: int) -> None:
    """Errors are pages too, and repeat nothing."""
    assert "alert" not in page(site, target, status).text


@pytest.mark.parametrize("name", PAGES)
def test_pages_for_all_readers(site: Site, name: str) -> None:
    """A page has a language, one first heading, marked regions, and a name for each box, link and part that moves."""
    found = page(site, PAGES[name])
    assert [given["lang"] for given in found.all("html")] == ["en"]
    assert len(found.all("h1")) == len(found.all("main")) == 1
    assert found.all("meta", name="viewport") and found.all("title")
    for given in found.all("nav") + found.all("section"):
        assert given["aria-label"]
    text = site.ask(PAGES[name], Accept="text/html").text
    for box in re.findall(r"<input (?![^>]*hidden)[^>]*>", text):
        assert re.search(rf"<label[^>]*>[^<]+{re.escape(box)}", text)
    for given, inside in re.findall(r"<a ([^>]*)>(.*?)</a>", text):
        assert "aria-label" in given or re.sub("<[^>]*>", "", inside).strip()
    assert all("scope" in given for given in found.all("th"))
    assert len(found.all("caption")) == len(found.all("table"))


def test_drawn_strings(tmp_path: Path) -> None:
    """A file of another program may have any strings: its pages are safe too, and its N-Triples has terms alone."""
    draw = random.Random(3)
    pieces = ["<", ">", '"', "'", "&", "</a>", "<script>", "\\", "\n", "\r", "\x1b", "\u202e", "_:", "a", "http:", "//",
              "#", "@", "en", "^^", "<u:t>", "javascript:", "{", "}", "%", " ", "\u00e9", "\U0001f600", "]]>", "-->",
              "&lt;", "/"]

    def string() -> bytes:
        return "".join(draw.choice(pieces) for _ in range(draw.randint(1, 9))).encode()

    wild = [(string(), string(), string()) for _ in range(150)]
    ends = [b'"', b'"@en', b'"^^<u:t>']
    tame = [(b"u:&'" + draw.choice([b"a", b"%"]), b"u:p", b'"' + string() + draw.choice(ends)) for _ in range(150)]
    file = tmp_path / "drawn.hdt"
    file.write_bytes(reference.graph(sorted(set(wild + tame))).data)
    site = Site(fragments.Application({"datasets": {"odd": str(file)}, "page_size": 1000}))
    for target in ("/odd", "/odd/void"):
        assert page(site, target).all("h1")
    iri = r'<[A-Za-z][A-Za-z0-9+.-]*:[^\x00-\x20<>"{}|^`\\]*>'
    label = r"(?:_:[^ ]+|" + iri + ")"
    line = re.compile(rf'{label} {iri} (?:{label}|"(?:[^"\\\n\r]|\\[\\"nr])*"(?:@[a-z-]+|\^\^{iri})?) \.')
    lines = site.ask("/odd", Accept="application/n-triples").text.split("\n")[:-1]
    assert len(lines) > 50
    assert [each for each in lines if not line.fullmatch(each)] == []


def test_search(site: Site) -> None:
    """The boxes have what was asked for; a term with lines comes back as it is asked for again."""
    literal = '"line\nfeed\ttab\rreturn"'
    boxes = {given["name"]: given for given in page(site, url(object=literal, predicate="x")).all("input")}
    assert boxes["object"]["value"] == '"line\\nfeed\ttab\\rreturn"' and boxes["predicate"]["value"] == "x"
    assert site.nquads(url(object=boxes["object"]["value"])).total == 1
    assert len(page(site, "/odd").all("option")) == 5
    assert "The predicate is not a term" in page(site, url(predicate="x")).text
    assert "A text has quotes around it" in page(site, url(object="plain")).text


def test_links_lead_to_what_they_say(site: Site) -> None:
    """Each link of a page of terms leads to a page that is not empty."""
    for name in ("the odd terms", "blank nodes", "a subject", "all"):
        links = {given["href"] for given in page(site, PAGES[name]).all("a")}
        inside = [link for link in links if link.startswith(BASE + "odd?") and "format=" not in link]
        assert len(inside) > 5
        for link in inside:
            assert site.nquads("/" + link[len(BASE):]).total > 0, unquote(link)


def test_rows_of_one_subject(site: Site) -> None:
    """The rows of a subject are joined, and the page of a subject has no column for it."""
    rows = page(site, url(predicate="http://odd.example/p")).all("th", scope="rowgroup")
    spans = [int(given.get("rowspan", 1)) for given in rows]
    assert sum(spans) == ODD.count("<http://odd.example/p>") and max(spans) == ODD.count(f"<{S1}> ")
    heads = [given["class"] for given in page(site, url(subject=S1)).all("th", scope="col")]
    assert heads == ["p", "o"]


def shown(table: list[list[Cell]]) -> list[tuple[str, ...]]:
    """The terms of the rows of a table, in which the subject is in the first row of its own only."""
    found, subject, left = [], list[str](), 0
    for row in table:
        strings = [cell.term for cell in row]
        if row[0].given["class"] == "s":
            assert left == 0
            left, subject = int(row[0].given.get("rowspan", 1)), [strings.pop(0)]
        left -= 1
        found.append((*subject, *strings))
    return found


def short(triple: tuple[str, ...]) -> tuple[str, ...]:
    """Terms of which long literals are cut, as a page shows them."""
    return tuple(it[:161] if it.startswith('"') and len(terms.parts(it)[0]) > 300 else it for it in triple)


@pytest.mark.parametrize("given", [
    {}, {"predicate": P}, {"predicate": N}, {"subject": S1}, {"subject": "http://odd.example/many"},
    {"subject": "_:b1"}, {"object": '"plain"'}, {"predicate": "http://odd.example/knows"},
    {"predicate": P, "object": "mailto:a@b.example"}, {"subject": S1, "predicate": P},
    {"subject": "http://odd.example/longer"}, {"object": "_:b.2-x"},
], ids=lambda given: " ".join(given) or "all")
def test_rows_of_pages(site: Site, file: Path, given: dict[str, str]) -> None:
    """The tables of all pages of a fragment have its triples, each once, in their order, as the headings say."""
    pattern = [given.get(role) for role in ("subject", "predicate", "object")]
    with hdt.open(file) as graph:
        wanted = list(graph.find(*pattern))
        pointing = list(graph.find(o=given["subject"])) if given.keys() == {"subject"} else []
    wanted_rows = [short(triple[1:] if given.keys() == {"subject"} else triple) for triple in wanted]
    found: list[tuple[str, ...]] = []
    for number in range(1, -(-len(wanted) // 100) + 1):
        it = page(site, url(**given, page=number))
        rows = shown(it.tables[0])
        assert f"{len(wanted):,} triple" in it.text
        assert f"Triples {len(found) + 1:,} to {len(found) + len(rows):,} of {len(wanted):,}" in it.text
        assert [shown(table) for table in it.tables[1:]] == [[triple[:2] for triple in pointing]] * bool(pointing)
        found += rows
    assert [short(row) for row in found] == wanted_rows and len(wanted) > 0


@pytest.mark.parametrize("count", [0, 1, 2, 10, 11, 25])
def test_page_of_a_subject(tmp_path: Path, count: int) -> None:
    """It has the triples of the subject and the first of those that point to it, with a link to all."""
    lines = "".join(f"<u:s{n:02}> <u:p> <u:it> .\n" for n in range(count))
    site = Site(fragments.Application({"datasets": {"odd": str(build(tmp_path, lines + '<u:it> <u:p> "x" .\n'))}}))
    it = page(site, url(subject="u:it"))
    assert "1 triple matches" in it.text and shown(it.tables[0]) == [("u:p", '"x"')]
    assert [shown(table) for table in it.tables[1:]] == [
        [(f"u:s{n:02}", "u:p") for n in range(min(count, 10))]] * (count > 0)
    assert (f'{count} triple{" points" if count == 1 else "s point"} to it' in it.text) == (count > 0)
    assert ("The first 10" in it.text) == (f"All {count}" in it.text) == (count > 10)
    if count > 10:
        assert len(it.all("a", href=BASE + "odd?object=u:it")) > 0
        assert site.nquads("/odd?object=u:it").total == count


def test_rows_of_predicates(site: Site, file: Path) -> None:
    """The description, and the overview of a dataset, have each predicate with its count, the most used first."""
    with hdt.open(file) as graph:
        wanted = sorted(((name, count) for name, count in graph.predicates()), key=lambda it: (-it[1], it[0]))
    table = page(site, "/odd/void").tables[0]
    assert [(name.term, int("".join(count.texts).replace(",", ""))) for name, count in table] == wanted
    text = site.ask("/odd", Accept="text/html").text
    listed = re.findall(r'<li><span class="p"><a href="[^"]*predicate=([^"]*)"[^>]*>.*?</span> ([0-9,]+)</li>', text)
    assert [(unquote(name), int(count.replace(",", ""))) for name, count in listed] == wanted


def test_rows_of_datasets(site: Site, file: Path) -> None:
    """The list has each dataset with its link, text and counts; one that can't be opened says so."""
    counts = hdt.verify(file)
    text = site.ask("/", Accept="text/html").text
    cards = re.findall(r'<li class="box"><h2><a href="([^"]*)">(.*?)</a></h2><p class="soft">(.*?)</p>(.*?)</li>'
                       "(?=<li cl|</ul></main>)", text)
    assert [link for link, *_ in cards] == [BASE + "odd", BASE + "none"]
    assert re.findall(r"<b>([0-9,]+)</b> (\w+)", cards[0][3]) == [
        (f"{count:,}", name) for count, name in (
            (counts.triples, "triples"), (counts.shared + counts.subjects, "subjects"),
            (counts.predicates, "predicates"), (counts.shared + counts.objects, "objects"))]
    assert "can't be opened now" in cards[1][3] and "<b>" not in cards[1][3]


def test_literals(site: Site) -> None:
    """A tag is the language of its text; a datatype is short; a long literal is folded and a longer one is cut."""
    text = site.ask(url(predicate="http://odd.example/p"), Accept="text/html").text
    assert 'lang="fr" dir="auto">caf\u00e9' in text and 'title="language en-GB">en-GB</span>' in text
    assert 'title="datatype http://www.w3.org/2001/XMLSchema#decimal">xsd:decimal</span>' in text
    assert text.count("<details>") == 2 and "The first 20,000 of 28,000 characters." in text
    assert "(empty)" in text and "\x01" not in text and "<b>bold" not in text


def test_pager(site: Site) -> None:
    """Pages lead to each other, and keep what was asked for."""
    found = page(site, url(predicate="http://odd.example/n", page=2))
    links = {given["rel"]: given["href"] for given in found.all("a") if "rel" in given}
    asked = BASE + url(predicate="http://odd.example/n")[1:]
    pages = {"first": 1, "prev": 1, "next": 3, "last": 3}
    following, _, begins = links["next"].partition("&from=")
    assert begins and not found.all("input", name="from")
    assert {rel: {**links, "next": following}[rel] for rel in pages} == {
        rel: f"{asked}&page={number}" for rel, number in pages.items()}
    assert f"Triples 201 to {MANY} of {MANY}" in page(site, "/" + links["next"][len(BASE):]).text
    assert {given["value"] for given in found.all("input", type="hidden")} == {"http://odd.example/n"}
    assert f"Triples 101 to 200 of {MANY}" in found.text
    assert not [given for given in page(site, url(subject=S1)).all("nav") if given.get("class") == "pages"]


def test_predicates(site: Site) -> None:
    """The first page of a dataset and its description have the predicates with their counts."""
    for target in ("/odd", "/odd/void"):
        assert re.search(rf"n\s*{MANY}", page(site, target).text)
    assert "All predicates" not in page(site, url(page=2)).text


def luminance(colour: str) -> float:
    """The relative luminance of a colour, as WCAG defines it."""
    digits = colour[1:] if len(colour) == 7 else "".join(2 * digit for digit in colour[1:])
    parts = [int(digits[n:n + 2], 16) / 255 for n in (0, 2, 4)]
    red, green, blue = (part / 12.92 if part <= 0.03928 else math.pow((part + 0.055) / 1.055, 2.4) for part in parts)
    return 0.2126 * red + 0.7152 * green + 0.0722 * blue


@pytest.mark.parametrize("scheme", ["light", "dark"])
def test_contrast(scheme: str) -> None:
    """Text is readable on each ground, by a contrast of 4.5 at least."""
    light, dark = (dict(re.findall(r"--(\w+):(#[0-9a-f]+)", part)) for part in style.STYLE.split("@media", 2)[:2])
    colours = {**light, **dark} if scheme == "dark" else light
    pairs = [(ink, ground) for ink in ("ink", "soft", "link", "p", "o") for ground in ("paper", "back", "chip")]
    for ink, ground in [*pairs, ("button", "link")]:
        bright, dim = sorted((luminance(colours[ink]), luminance(colours[ground])), reverse=True)
        assert (bright + 0.05) / (dim + 0.05) >= 4.5, (ink, ground)


# ---- Chromium

CHROMIUM = shutil.which("chromium") or ""
needs_chromium = pytest.mark.skipif(not CHROMIUM, reason="there is no chromium (Debian: chromium)")
MEASURE = (b"<script>document.body.dataset.widths=[document.documentElement.scrollWidth,innerWidth,"
           b"document.getElementsByTagName('th').length]</script></body>")


class Measuring:
    """An application that notes its requests; below /measure its pages have a script that measures them."""

    def __init__(self, application: Any) -> None:
        self.application, self.asked = application, list[str]()

    def __call__(self, environ: dict[str, Any], start: Callable[..., Any]) -> Iterable[bytes]:
        """Answer."""
        self.asked.append(environ["PATH_INFO"])
        measured = environ["PATH_INFO"].startswith("/measure/")
        if measured:
            environ["PATH_INFO"] = environ["PATH_INFO"][len("/measure"):]
        kept: list[Any] = []
        environ["HTTP_ACCEPT_ENCODING"] = ""
        body = b"".join(self.application(environ, lambda status, headers: kept.extend((status, headers))))
        dropped = ("Content-Length", "Content-Security-Policy") if measured else ("Content-Length",)
        start(kept[0], [each for each in kept[1] if each[0] not in dropped])
        return [body.replace(b"</body>", MEASURE) if measured else body]


@pytest.fixture(scope="module")
def browsed(file: Path) -> Iterator[tuple[str, Measuring]]:
    """A server for a browser."""
    application = Measuring(fragments.Application(config(file)))
    with make_server("127.0.0.1", 0, application, server_class=Server, handler_class=Handler) as server:
        thread = threading.Thread(target=server.serve_forever)
        thread.start()
        yield f"http://127.0.0.1:{server.server_port}", application
        server.shutdown()
        thread.join()


def browse(folder: Path, address: str, width: int) -> tuple[str, str]:
    """The page as a browser has it, and what the browser says."""
    done = subprocess.run(
        [CHROMIUM, "--headless=new", "--no-sandbox", "--disable-gpu", "--no-first-run", f"--user-data-dir={folder}",
         "--enable-logging=stderr", "--host-resolver-rules=MAP * ~NOTFOUND, EXCLUDE 127.0.0.1",
         f"--window-size={width},900", "--dump-dom", address], capture_output=True, timeout=200)
    return done.stdout.decode(), done.stderr.decode()


@needs_chromium
@pytest.mark.parametrize("target, shown", [
    (url(predicate="http://odd.example/p"), "triples match"), (url(subject="_:b1"), "points to it"),
    ("/odd/void", "most used"), ("/", "Datasets of RDF"), ("/odd?page=0", "number from 1"),
], ids=["fragment", "subject", "description", "list", "error"])
def test_browser(browsed: tuple[str, Measuring], tmp_path: Path, target: str, shown: str) -> None:
    """A browser shows the page without an error, and asks for nothing else; the style is taken."""
    address, application = browsed
    application.asked.clear()
    dom, said = browse(tmp_path, address + target, 1280)
    assert shown in dom
    assert application.asked == [target.partition("?")[0]]
    assert "CONSOLE" not in re.sub(".*the server responded with a status of 400.*", "", said), said


@needs_chromium
@pytest.mark.parametrize("width", [1280, 800, 500])
def test_widths(browsed: tuple[str, Measuring], tmp_path: Path, width: int) -> None:
    """No page is wider than the window, whatever its terms."""
    dom, _ = browse(tmp_path, browsed[0] + "/measure" + url(predicate="http://odd.example/p"), width)
    found = re.search(r'data-widths="(\d+),(\d+),(\d+)"', dom)
    assert found and int(found[3]) > 5
    assert int(found[1]) <= int(found[2]) <= width


# ---- the header of a file

TERMS = "http://purl.org/dc/terms/"
HEADER = f"""<u:d> <{TERMS}title> "Places"@en .
<u:d> <{TERMS}description> "All & more" .
<u:d> <{TERMS}license> <https://a.example/l> .
<u:d> <{TERMS}publisher> "Us" .
<u:d> <{TERMS}issued> "2026-11-29"^^<http://www.w3.org/2001/XMLSchema#date> .
"""


def described(folder: Path, header: str, **about: Any) -> Site:
    """An application with a file that has a header."""
    hdt.build(["<u:a> <u:p> <u:b> ."], folder / "d.hdt", header=header)
    return Site(fragments.Application({"datasets": {"d": {"file": str(folder / "d.hdt"), **about}}}))


def test_header(tmp_path: Path) -> None:
    """What the header says is on the pages for people and in the description; the configuration comes first."""
    site = described(tmp_path, HEADER)
    shown = ["Places", "All & more", "License: https://a.example/l", "Publisher: Us", "Issued: 2026-11-29"]
    for target, wanted in (("/d", shown), ("/d/void", shown), ("/", shown[:2])):
        found = page(site, target)
        assert [it for it in wanted if it not in found.text] == []
    assert page(site, "/d").all("a", href="https://a.example/l")
    about = f"<{BASE}d#dataset>"
    lines = [line.replace("<u:d>", about) for line in HEADER.splitlines()]
    for target, wanted in (("/d/void", lines), ("/", lines), ("/d", [lines[0], lines[2]])):
        text = site.ask(target, Accept="application/n-triples").text
        assert [text.count(line + "\n") for line in wanted] == [1] * len(wanted)
    again = described(tmp_path, HEADER, title="Ours", license="u:l").ask("/d/void", Accept="application/n-triples").text
    for name, value in (("title", '"Ours"'), ("license", "<u:l>")):
        assert re.findall(rf"{about} <{TERMS}{name}> (.*) \.", again) == [value]
    assert lines[1] in again and "Places" not in again
    assert f'<{TERMS}title> "d" .' in described(tmp_path, "").ask("/d/void", Accept="application/n-triples").text


def test_header_that_is_replaced(tmp_path: Path, monkeypatch: pytest.MonkeyPatch) -> None:
    """A file that replaces another one is shown with its own header."""
    monkeypatch.setattr("hdt.fragments._dataset._SECONDS", -1)
    site = described(tmp_path, HEADER)
    assert "Places" in page(site, "/d").text
    hdt.rewrite(tmp_path / "d.hdt", tmp_path / "d.hdt", header=HEADER.replace("Places", "Other places"))
    assert "Other places" in page(site, "/d").text


@pytest.mark.parametrize("value", [
    EVIL, "</title></style><script>", "\x01\x7f\x85\u202e\n\r\t", "\\\\\"", "x" * 1_900, "", "\ud7ff\U0010ffff"])
def test_hostile_headers(value: str, tmp_path: Path) -> None:
    """Text of a header acts on no page, and each format of RDF has it as it is."""
    literal = hdt.Term("literal", value).format_ntriples()
    names = ("title", "description", "license", "publisher", "creator", "source", "issued", "rights")
    site = described(tmp_path, "".join(f"<u:d> <{TERMS}{name}> {literal} .\n" for name in names))
    for target in ("/d", "/d/void", "/", "/d?subject=u:a", "/d?page=1"):
        page(site, target)
    text = site.ask("/d/void", Accept="application/n-triples").text
    assert text.count(f'> "{terms.escaped(value)}" .\n') == len(names)
    for media in ("text/turtle", "application/ld+json", "application/trig", "application/n-quads"):
        assert site.ask("/d", Accept=media).status == 200


def test_hostile_iris_of_headers(tmp_path: Path) -> None:
    """Only IRIs of the web are links."""
    site = described(tmp_path, "".join(f"<u:d> <{TERMS}license> <{it}> .\n" for it in (
        "javascript:alert(1)", "data:text/html,x", "HTTPS://a", "https://a.example/'x'")))
    found = page(site, "/d/void")
    hrefs = [it["href"] for it in found.all("a") if not it["href"].startswith(BASE)]
    assert [it for it in hrefs if it.startswith("https://a.example/")] and "javascript:alert(1)" in found.text
    assert [it for it in hrefs if not it.startswith(("https://", "http://"))] == []


@pytest.mark.parametrize("body", [b"", b"\0\xff\xfe", b"<b><script>alert(1)</script>", b"<u:d> <u:p> .", b"#" * 2**21])
def test_headers_of_other_programs(body: bytes, tmp_path: Path) -> None:
    """A header that isn't N-Triples, or too long, is none."""
    site = described(tmp_path, "")
    data = (tmp_path / "d.hdt").read_bytes()
    end = reference.read_head(data)[1]
    (tmp_path / "d.hdt").write_bytes(reference.write_head(body, reference.Style()) + data[end:])
    site = Site(fragments.Application({"datasets": {"d": str(tmp_path / "d.hdt")}}))
    for target in ("/d", "/d/void", "/"):
        assert "alert" not in page(site, target).text
    assert f'<{TERMS}title> "d" .' in site.ask("/d/void", Accept="application/n-triples").text
