"""The fragment server's HTTP: caches, methods, refusals, hostile requests, proxies, downloads."""

from __future__ import annotations

import gzip
import importlib
import logging
import os
import random
import re
import time
from email.utils import formatdate
from pathlib import Path
from typing import Any, Optional
from unittest import mock

import pytest

from support.fragments import BASE, ODD, Site, build, fragments, url


@pytest.fixture(scope="module")
def odd(tmp_path_factory: pytest.TempPathFactory) -> Path:
    """The file of odd terms."""
    return build(tmp_path_factory.mktemp("odd"), ODD)


@pytest.fixture(scope="module")
def site(odd: Path) -> Site:
    """An application of the file, which may be downloaded."""
    return Site(fragments.Application({"datasets": {"odd": {"file": str(odd), "download": True}, "other": str(odd)}}))


# ---- caches

LATER = "Fri, 01 Jan 2100 00:00:00 GMT"


@pytest.mark.parametrize("header, value, status", [
    ("If_None_Match", "{tag}", 304), ("If_None_Match", "W/{tag}", 304), ("If_None_Match", '"x", {tag}', 304),
    ("If_None_Match", "*", 304), ("If_None_Match", '"other"', 200), ("If_Modified_Since", "{when}", 304),
    ("If_Modified_Since", "Mon, 01 Jan 2001 00:00:00 GMT", 200), ("If_Modified_Since", "nonsense", 200),
    ("If_Modified_Since", "Mon, 01 Jan 99999999999 00:00:00 GMT", 200), ("If_None_Match", " * ", 304),
    ("If_None_Match", '"x", *', 200), ("If_None_Match", ",", 200), ("If_Modified_Since", LATER, 304),
])
def test_not_modified(site: Site, header: str, value: str, status: int) -> None:
    """A client that has the answer gets 304, with the headers of a cache and no body."""
    first = site.ask("/odd", Accept="text/turtle")
    tag, when = first.headers["etag"], first.headers["last-modified"]
    answer = site.ask("/odd", Accept="text/turtle", **{header: value.format(tag=tag, when=when)})
    assert answer.status == status
    if status == 304:
        assert answer.body == b"" and "content-length" not in answer.headers
    for name in ("etag", "last-modified", "cache-control", "vary", "access-control-allow-origin"):
        assert answer.headers[name] == first.headers[name]


@pytest.mark.parametrize("conditions", [
    {"If_None_Match": "*"}, {"If_Modified_Since": LATER}, {"If_None_Match": "*", "If_Modified_Since": LATER},
    {"If_None_Match": '"x"', "If_Modified_Since": LATER}], ids=["any", "later", "both", "tag"])
def test_conditions_on_what_is_not_there(odd: Path, conditions: dict[str, str]) -> None:
    """A page that does not exist has not stayed the same: it is 404, as without conditions."""
    site = Site(fragments.Application({"datasets": {"odd": {"file": str(odd), "download": True}, "none": "none.hdt"}}))
    for method in ("GET", "HEAD"):
        for target, status in ((url(page=9), 404), (url(page=4, predicate="http://odd.example/n"), 404), ("/x", 404),
                               (url(page=2, subject="u:none"), 404), ("/none", 503), ("/none/void", 503),
                               ("/none/data.hdt", 404), ("/odd/x", 404), (url(page=0), 400), (url(format="x"), 400)):
            plain = site.ask(target, method)
            assert plain.status == status
            assert site.ask(target, method, **conditions) == plain
        known = 200 if "x" in conditions.get("If_None_Match", "") else 304
        for target in ("/odd", "/odd/void", url(subject="u:none"), url(page=3), "/odd/data.hdt"):
            assert site.ask(target, method, **conditions).status == known


def test_nothing_is_searched_for_a_known_tag(odd: Path, monkeypatch: pytest.MonkeyPatch) -> None:
    """Who has the tag of an answer gets 304 before anything is looked up; a tag of another page is none."""
    site = Site(fragments.Application({"datasets": {"odd": str(odd)}}))
    targets = [url(page=3), url(predicate="http://odd.example/n"), "/odd/void"]
    tags = [site.ask(target).headers["etag"] for target in targets]
    assert [site.ask(url(page=9), If_None_Match=tag).status for tag in tags] == [404] * 3
    monkeypatch.setattr(site.application.datasets["odd"].loaded().reader, "count", None)
    assert [site.ask(target, If_None_Match=tag).status for target, tag in zip(targets, tags)] == [304] * 3


def test_time_of_an_answer(odd: Path, tmp_path: Path, monkeypatch: pytest.MonkeyPatch) -> None:
    """Last-Modified is the later of the file and the configuration, whenever the server was started.

    A client that knows no tags gets a page again if either is another one, or this package.
    """
    config = {"datasets": {"odd": {"file": str(odd), "download": True}}}
    now, there = int(time.time()), odd.stat()
    application = importlib.import_module("hdt.fragments._application")
    monkeypatch.setattr(application, "_INSTALLED", 0.0)

    def modified(changed: Optional[float], target: str = "/odd") -> str:
        return Site(fragments.Application(config, changed)).ask(target).headers["last-modified"]

    of_file = formatdate(int(max(there.st_mtime, there.st_ctime)), usegmt=True)
    targets = "/odd", "/odd/void", "/odd/data.hdt"
    assert {modified(changed, target) for changed in (0.0, 1e9) for target in targets} == {of_file}
    monkeypatch.setattr(time, "time", lambda: now + 1_000.0)
    assert modified(1e9) == of_file and modified(now + 600.0) == formatdate(now + 600, usegmt=True)
    assert modified(None) == modified(now + 9_999.0) == formatdate(now + 1_000, usegmt=True)  # (never one to come)
    since = {"If_Modified_Since": modified(now + 600.0)}
    for changed, status in ((1e9, 304), (now + 600.0, 304), (now + 601.0, 200), (None, 200)):
        for target in targets:
            assert Site(fragments.Application(config, changed)).ask(target, **since).status == status
    monkeypatch.setattr(application, "_INSTALLED", now + 700.0)
    assert Site(fragments.Application(config, 1e9)).ask("/odd", **since).status == 200
    (tmp_path / "c.json").write_text("{}")
    (tmp_path / "link").symlink_to("c.json")
    os.utime(tmp_path / "c.json", (1e9, 1e9))
    os.utime(tmp_path / "link", (2e9, 2e9), follow_symlinks=False)
    assert application.changed_at(tmp_path / "link") == 2e9
    assert application.changed_at(tmp_path / "c.json") == (tmp_path / "c.json").stat().st_ctime >= now


def test_tags_differ(odd: Path, site: Site) -> None:
    """Each page, format, host, configuration and file has a tag of its own; an equal server has the same one."""
    targets = ("/odd", url(page=2), url(page=2, **{"from": "1"}), url(predicate="x:y"), "/odd/void", "/other")
    tags = [site.ask(target, Accept=media).headers["etag"]
            for target in targets for media in ("text/turtle", "application/trig", "text/html")]
    tags.append(site.ask("/odd", Host="other.example").headers["etag"])
    changes: list[dict[str, Any]] = [{"page_size": 50}, {"title": "other"}]
    for config in changes:
        tags.append(Site(fragments.Application({"datasets": {"odd": str(odd)}, **config})).ask("/odd").headers["etag"])
    assert len(set(tags)) == len(tags)
    same = Site(fragments.Application(site.application.config))
    assert same.ask("/odd").headers["etag"] == tags[0]


def test_gzip(site: Site) -> None:
    """A page is compressed where the client takes it, and has another tag then, which is known too."""
    plain = site.ask("/odd")
    packed = site.ask("/odd", Accept_Encoding="br, gzip;q=0.5")
    assert packed.headers["content-encoding"] == "gzip" and gzip.decompress(packed.body) == plain.body
    assert int(packed.headers["content-length"]) == len(packed.body) < len(plain.body) / 4
    assert packed.headers["etag"] != plain.headers["etag"]
    known = site.ask("/odd", Accept_Encoding="gzip", If_None_Match=packed.headers["etag"])
    assert (known.status, known.headers["etag"]) == (304, packed.headers["etag"])
    for accept in ("", "gzip;q=0", "br", "identity", "*;q=0", "gzip;q=0.0, *"):
        assert "content-encoding" not in site.ask("/odd", Accept_Encoding=accept).headers
    assert "content-encoding" not in site.ask("/none", Accept_Encoding="gzip").headers
    off = Site(fragments.Application({**vars(site.application.config), "gzip": False, "datasets": {
        name: source.file for name, source in site.application.config.datasets.items()}}))
    for target in ("/odd", "/odd/void", "/"):
        answer = off.ask(target, Accept_Encoding="gzip")
        assert "content-encoding" not in answer.headers and answer.body == off.ask(target).body


# ---- methods


def test_head(site: Site) -> None:
    """HEAD has the headers of GET and no body, for pages, errors and files."""
    for target in ("/odd", "/", "/odd/void", "/none", "/odd/data.hdt", url(page=9)):
        got, head = site.ask(target), site.ask(target, "HEAD")
        assert (head.status, head.headers, head.body) == (got.status, got.headers, b"")
    whole = site.ask("/odd/data.hdt", "HEAD", Range="bytes=0-9")
    assert whole.status == 200 and int(whole.headers["content-length"]) > 10


def test_options(site: Site) -> None:
    """A preflight is answered for every origin, also below paths that are not there."""
    for target in ("/odd", "/none"):
        answer = site.ask(target, "OPTIONS", Origin="http://a", Access_Control_Request_Headers="accept")
        assert answer.status == 204 and answer.body == b""
        assert answer.headers["access-control-allow-origin"] == "*"
        assert "Accept" in answer.headers["access-control-allow-headers"]


@pytest.mark.parametrize("method", ["POST", "PUT", "DELETE", "TRACE", "PATCH", "NONE"])
def test_other_methods(site: Site, method: str) -> None:
    """Nothing can be written."""
    answer = site.ask("/odd", method)
    assert (answer.status, answer.headers["allow"]) == (405, "GET, HEAD, OPTIONS")
    assert answer.headers["access-control-allow-origin"] == "*"


# ---- refusals


REFUSED = {
    "/nothing": 404, "/odd/": 404, "/odd/x": 404, "/../odd": 404, "/%2e%2e/etc/passwd": 404, "//odd": 404, "/ODD": 404,
    "/other/data.hdt": 404, "/%FF": 404, "/odd%00": 404, "/odd?subject=x:a&subject=x:b": 400, "/odd?subject=%zz": 400,
    "/odd?subject=%": 400, "/odd?subject=%FF": 400, "/odd?page=1&page=2": 400, "/odd?format=ttl&format=nt": 400,
    "/odd?object=%22" + "x" * 7100: 414, url(format="<script>"): 400, url(page="<script>"): 400,
}


@pytest.mark.parametrize("target", REFUSED)
def test_refusals(site: Site, target: str) -> None:
    """A refusal says why, in a few words, to programs and to people, and repeats nothing of the request."""
    for accept, media in (("text/turtle", "text/plain"), ("text/html", "text/html")):
        answer = site.ask(target, Accept=accept)
        assert (answer.status, answer.headers["content-type"].split(";")[0]) == (REFUSED[target], media)
        assert answer.headers["access-control-allow-origin"] == "*" and answer.headers["cache-control"] == "no-store"
        assert answer.headers["x-content-type-options"] == "nosniff"
        assert media == "text/html" or 10 < len(answer.body) < 200
        assert not re.search(r"xxx|passwd|script>|%zz|etc", answer.text)


HOSTS = ['a"b', "a b", "<x>", "a/b", "a@b", "a\tb", "a,b", "h:1:2", "h:x", "[::1", "a?b", "a#b", "x" * 300, "\xe4"]


@pytest.mark.parametrize("host", HOSTS)
def test_wrong_hosts(site: Site, host: str) -> None:
    """Where no base is set, the host is checked, as it comes into URLs."""
    assert site.ask("/odd", Host=host).status == 400


def test_hosts(odd: Path) -> None:
    """A server may have names, and answers no others."""
    site = Site(fragments.Application({"datasets": {"odd": str(odd)}, "hosts": ["a.example", "b.example:81"]}))
    statuses = {host: site.ask("/odd", Host=host).status for host in
                ("a.example", "A.example:80", "b.example:81", "b.example", "c.example", "a.example.evil")}
    assert statuses == {"a.example": 200, "A.example:80": 200, "b.example:81": 200, "b.example": 421, "c.example": 421,
                        "a.example.evil": 421}
    other = Site(fragments.Application({"datasets": {"odd": str(odd)}, "hosts": ["A.Example", "[::1]"]}))
    assert [other.ask("/odd", Host=host).status for host in ("a.example", "[::1]", "[::1]:8080", "[::2]:1")] == [
        200, 200, 200, 421]


WRONG_FORWARDED = [
    *(("Proto", it) for it in ("javascript", "", "HTTPS", "http:", "https\n", "file", "https,ftp")),
    *(("Host", it) for it in ("evil.example", "a b", "", "public.example/", "public.example\n", "x@public.example",
                              "public.example:x", "public.example,", "public.example:80:80")),
    *(("Prefix", it) for it in ("/<x>", "x", "//evil.example", "/a//b", "/..", "/../x", "/a/..", "/a/../b", "/.",
                                "/./a", "/a/.", "/a\nb", "/a\x00", "/%2e%2e", "/a?b", "/a#b", "/a b", "/\\evil",
                                "/\u00e9", "http://evil.example", "/a,//evil", "/a;b", "/a//")),
]


def test_base_and_proxies(odd: Path) -> None:
    """URLs begin with the base; else with what a trusted proxy says; else with the host and the application's path."""

    def template(config: dict[str, Any], environ: Any = None, **headers: Any) -> str:
        answer = Site(fragments.Application({"datasets": {"odd": str(odd)}, **config})).ask(
            "/odd", environ=environ, Accept="application/n-triples", **headers)
        found = re.search(r'#template> "([^"]*)\{', answer.text)
        return found[1] if found else str(answer.status)

    proxy = {"X_Forwarded_Proto": "https", "X_Forwarded_Host": "public.example", "X_Forwarded_Prefix": "/lod/"}
    behind = {"forwarded": True, "hosts": ["public.example", "localhost"]}
    assert template({}) == BASE + "odd"
    assert template({}, **proxy) == BASE + "odd"
    assert template(behind, **proxy) == "https://public.example/lod/odd"
    assert template(behind) == BASE + "odd"
    assert template({**behind, "base": "https://a.example/x"}, **proxy) == "https://a.example/x/odd"
    assert template({"base": "https://a.example/x"}, Host="evil<>") == "https://a.example/x/odd"
    assert template({}, {"SCRIPT_NAME": "/data"}) == BASE + "data/odd"
    assert template(behind, {"SCRIPT_NAME": "/data"}, **{**proxy, "X_Forwarded_Prefix": ""}) == (
        "https://public.example/data/odd")
    # the nearest proxy's values are the last ones, and those before may be the client's
    assert template(behind, X_Forwarded_Host="evil.example, public.example", X_Forwarded_Proto="javascript,https ",
                    X_Forwarded_Prefix="/evil, /lod") == "https://public.example/lod/odd"
    assert template(behind, X_Forwarded_Host="public.example, evil.example") == "421"
    for name, wrong in WRONG_FORWARDED:
        assert template(behind, **{**proxy, f"X_Forwarded_{name}": wrong}) in ("400", "421"), (name, wrong)
    for prefix in ("/a", "/a/", "/a.b/~c-d_e", "/..a", "/a..", "/...", "/"):
        assert template(behind, X_Forwarded_Prefix=prefix) == f"{BASE}{prefix.strip('/')}/odd".replace("0//", "0/")


# ---- hostile requests


def test_drawn_requests(site: Site) -> None:
    """Requests of drawn bytes are answered by a page or a refusal, whose Turtle has no term that is none."""
    draw = random.Random(7)
    pieces = [b"subject=", b"object=", b"page=", b"%22", b'"', b"<", b">", b"%3E", b"%00", b"\xff", b"%C3", b"&",
              b"http://odd.example/", b"@en", b"^^", b"\\", b"%5Cu", b"D800", b"{", b"}", b"|", b"?", b"#", b"_:",
              "\u00e4".encode(), b"+", b"%E2%80%AE", b";", b"'", b"=", b"1", b"%A4", b"%0A"]
    types = ["text/turtle", "application/trig", "text/html", "application/ld+json", "application/n-triples"]
    iri = re.compile(r'<[^\x00-\x20<>"{}|^`\\]*>')
    triple = re.compile(rf'{iri.pattern} {iri.pattern} (?:{iri.pattern}|"(?:[^"\\\n\r]|\\.)*"\S*) \.')
    for _ in range(400):
        query = b"".join(draw.choice(pieces) for _ in range(draw.randint(1, 12)))
        media = draw.choice(types)
        answer = site.ask("/odd", environ={"QUERY_STRING": query.decode("latin-1")}, Accept=media)
        assert answer.status in (200, 400, 404), (query, answer.text)
        if answer.status == 200 and media == "application/n-triples":
            for line in answer.text.split("\n")[:-1]:
                assert triple.fullmatch(line), query


@pytest.mark.parametrize("accept", [
    "a/b," * 2000, ",".join(["*/*;q=0.001"] * 600), "text/html;" + "q=1;" * 2000, "\xff\xfe"],
    ids=["ranges", "wildcards", "parameters", "bytes"])
def test_long_headers(site: Site, accept: str) -> None:
    """A long Accept header costs little."""
    began = time.process_time()
    assert site.ask("/odd", Accept=accept).status in (200, 406)
    assert time.process_time() - began < 0.5


def test_an_error_of_the_server(odd: Path, caplog: pytest.LogCaptureFixture, monkeypatch: pytest.MonkeyPatch) -> None:
    """An error that nobody foresaw is 500 without its text, which is in the log; no memory is 503."""
    site = Site(fragments.Application({"datasets": {"odd": str(odd)}}))
    reader = site.application.datasets["odd"].loaded().reader
    for error, status in ((RuntimeError("secret"), 500), (MemoryError(), 503)):
        def count(pattern: Any, error: BaseException = error) -> int:
            raise error
        monkeypatch.setattr(reader, "count", count)
        answer = site.ask("/odd")
        assert answer.status == status and "secret" not in answer.text
    assert "secret" in caplog.text


def test_one_line_a_request(site: Site, caplog: pytest.LogCaptureFixture) -> None:
    """Each request is a line of the log, whatever it has."""
    with caplog.at_level(logging.INFO, "hdt.fragments"):
        site.ask("/odd?x=\n\x1b[31m")
        site.ask("/none%0A")
        quiet = Site(fragments.Application({"log": False}))
        assert quiet.ask("/").status == 200
    assert len(caplog.messages) == 2 and not re.search(r"[\n\x1b]", "".join(caplog.messages))
    assert re.fullmatch(r"GET '/odd\?x=\\n\\x1b\[31m' 200 \d+ [\d.]+ ms", caplog.messages[0])


CONTROLS = "".join(map(chr, [*range(32), *range(127, 161), 173]))


class Untold(Exception):
    """An error that is shown as its text."""

    def __repr__(self) -> str:
        return f"Untold: {self}"


def test_log_of_anything(site: Site, caplog: pytest.LogCaptureFixture, monkeypatch: pytest.MonkeyPatch) -> None:
    """No part of a request comes to the log, and to a terminal, as it is, nor does the text of an error."""
    names = ["REQUEST_METHOD", "PATH_INFO", "QUERY_STRING", "HTTP_HOST", "HTTP_ACCEPT", "HTTP_ACCEPT_ENCODING",
             "HTTP_IF_NONE_MATCH", "HTTP_IF_MODIFIED_SINCE", "HTTP_RANGE", "HTTP_IF_RANGE", "HTTP_X_FORWARDED_HOST"]
    with caplog.at_level(logging.INFO, "hdt.fragments"):
        for name in names:
            environ = {"REQUEST_METHOD": "GET", "PATH_INFO": "/odd", "HTTP_HOST": "a", "wsgi.url_scheme": "http"}
            b"".join(site.application({**environ, name: "GET" + CONTROLS}, lambda *_: None))
        assert len(caplog.messages) == len(names) and all(map(str.isprintable, caplog.messages))
        assert caplog.messages[0].startswith("GET\\x00\\x01\\x02")
        caplog.clear()
        monkeypatch.setattr(site.application, "_answer", mock.Mock(side_effect=Untold(f"{CONTROLS}\u2028\u202e" * 100)))
        assert site.ask("/odd").status == 500
        assert "Untold" in caplog.messages[0] and "in _answered" in caplog.messages[0]
        assert all(line.isprintable() and len(line) < 4_000 for line in caplog.messages[0].split("\n"))
        assert not set(caplog.messages[0]) & set(CONTROLS) - {"\n"}


# ---- the file itself


@pytest.mark.parametrize("wanted, first, end", [
    ("bytes=0-9", 0, 10), ("bytes=5-", 5, None), ("bytes=-7", -7, None), ("bytes=0-99999999", 0, None),
    ("bytes=9-9", 9, 10), ("bytes=-99999999", 0, None), ("bytes=0-0", 0, 1),
])
def test_ranges(site: Site, odd: Path, wanted: str, first: int, end: Optional[int]) -> None:
    """A range of the file."""
    data = odd.read_bytes()
    answer = site.ask("/odd/data.hdt", Range=wanted)
    assert (answer.status, answer.body) == (206, data[first:end])
    start = first % len(data)
    assert answer.headers["content-range"] == f"bytes {start}-{start + len(answer.body) - 1}/{len(data)}"
    assert answer.headers["content-length"] == str(len(answer.body))


def test_download(site: Site, odd: Path) -> None:
    """The whole file where no range is asked for, or one that has changed, or many; 416 past its end."""
    data = odd.read_bytes()
    whole = site.ask("/odd/data.hdt")
    assert (whole.status, whole.body, whole.headers["content-type"]) == (200, data, "application/vnd.hdt")
    tag = whole.headers["etag"]
    for headers in ({"Range": "bytes=0-1,3-4"}, {"Range": "lines=0-1"}, {"Range": "bytes=4-2"}, {"Range": "bytes=-"},
                    {"Range": "bytes=0-9", "If_Range": '"other"'}):
        assert site.ask("/odd/data.hdt", **headers)[::2] == (200, data)
    for since in (tag, whole.headers["last-modified"]):
        part = site.ask("/odd/data.hdt", Range="bytes=0-9", If_Range=since)
        assert (part.status, part.body) == (206, data[:10])
    earlier = "Mon, 01 Jan 2001 00:00:00 GMT"
    assert site.ask("/odd/data.hdt", Range="bytes=0-9", If_Range=earlier)[::2] == (200, data)
    assert site.ask("/odd/data.hdt", If_None_Match=tag).status == 304
    past = site.ask("/odd/data.hdt", Range=f"bytes={len(data)}-")
    assert (past.status, past.headers["content-range"]) == (416, f"bytes */{len(data)}")
    assert site.ask("/odd/data.hdt", Range="bytes=-0").status == 416
    assert site.ask("/other/data.hdt").status == 404
