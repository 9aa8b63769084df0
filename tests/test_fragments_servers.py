"""The fragment server's files, which are replaced while they are served; servers of their own: wsgiref, gunicorn."""

from __future__ import annotations

import importlib
import os
import random
import re
import shutil
import signal
import socket
import subprocess
import sys
import threading
import time
from concurrent.futures import ThreadPoolExecutor
from email.utils import formatdate, parsedate_to_datetime
from pathlib import Path
from typing import Any, Optional
from unittest import mock

import pytest

from support.built import PROGRAM, SAMPLES, TOP
from support.fragments import GUNICORN, ODD, PATIENCE, Answer, Served, Site, build, fragments, served, url
from support.python_package import ENVIRONMENT

needs_gunicorn = pytest.mark.skipif(not os.path.exists(GUNICORN), reason="there is no gunicorn (Debian: gunicorn)")


@pytest.fixture(scope="module")
def odd(tmp_path_factory: pytest.TempPathFactory) -> Path:
    """The file of odd terms."""
    return build(tmp_path_factory.mktemp("odd"), ODD)


# ---- files that are replaced


def put(data: bytes, path: Path) -> None:
    """Replace a file by rename."""
    beside = path.with_suffix(".new")
    beside.write_bytes(data)
    beside.rename(path)


def later(monkeypatch: pytest.MonkeyPatch, seconds: float = 2.0) -> None:
    """Let time pass."""
    now = time.monotonic()
    monkeypatch.setattr(time, "monotonic", lambda: now + seconds)


def test_replaced(
    odd: Path, tmp_path: Path, monkeypatch: pytest.MonkeyPatch, caplog: pytest.LogCaptureFixture,
) -> None:
    """A replaced file is taken over; a damaged, cut or missing one leaves the one before, and is logged once."""
    file, good = tmp_path / "swap.hdt", odd.read_bytes()
    three = build(tmp_path, "<u:a> <u:p> <u:b> .\n", "three").read_bytes()
    put(good, file)
    site = Site(fragments.Application({"datasets": {"swap": {"file": str(file), "download": True}}}))
    first, seconds = site.nquads("/swap"), 2.0

    def after(data: Optional[bytes]) -> Answer:
        nonlocal seconds
        if data is None:
            file.unlink()
        else:
            put(data, file)
        before = site.nquads("/swap")
        later(monkeypatch, seconds)
        seconds += 2
        assert site.nquads("/swap").total == site.nquads("/swap").total
        assert before.status == 200
        return site.nquads("/swap")

    assert after(three).total == 1 and site.nquads("/swap").headers["etag"] != first.headers["etag"]
    for bad, why in ((good[:5000], "fault"), (b"", "Truncated"), (good[:-1] + b"x", "fault"), (None, "No such file")):
        caplog.clear()
        assert after(bad).total == 1
        assert len([line for line in caplog.messages if "the previous file stays in use" in line and why in line]) == 1
        assert site.ask("/swap/data.hdt").status == 503
    assert after(good).total == ODD.count("\n")
    assert site.ask("/swap/data.hdt").body == good


def test_replaced_by_an_old_file(odd: Path, tmp_path: Path, monkeypatch: pytest.MonkeyPatch) -> None:
    """A file that was made long ago is news to a client that has the one before."""
    file = tmp_path / "swap.hdt"
    put(odd.read_bytes(), file)
    site = Site(fragments.Application({"datasets": {"swap": str(file)}}))
    when = formatdate(time.time() + 1, usegmt=True)
    assert site.ask("/swap", If_Modified_Since=when).status == 304
    time.sleep(2.1)
    beside = build(tmp_path, "<u:a> <u:p> <u:b> .\n", "old")
    os.utime(beside, (10**9, 10**9))
    beside.rename(file)
    later(monkeypatch)
    assert site.ask("/swap", If_Modified_Since=when).status == 200


def test_replaced_unnoticeably(tmp_path: Path, monkeypatch: pytest.MonkeyPatch) -> None:
    """A file that is written over, with its size and time as before, is another one; so is one that a link leads to.

    Each is later than the one before, for clients that know no tags.
    """
    monkeypatch.setattr("hdt.fragments._dataset._SECONDS", -1)
    datas = [build(tmp_path, f"<u:{c}> <u:p> <u:b> .\n", c).read_bytes() for c in "acd"]
    file = tmp_path / "swap.hdt"
    (tmp_path / "link").symlink_to("swap.hdt")
    file.write_bytes(datas[0])
    site = Site(fragments.Application({"datasets": {"swap": {"file": str(tmp_path / "link"), "download": True}}}))
    there, seen, changed = file.stat(), list[Answer](), 0
    for data in datas:
        file.write_bytes(data)
        now = file.stat()
        while now.st_ctime_ns == changed or now.st_mtime_ns != there.st_mtime_ns:  # (the clock of files is slow)
            os.utime(file, ns=(there.st_atime_ns, there.st_mtime_ns))
            now = file.stat()
        changed = now.st_ctime_ns
        assert (now.st_ino, now.st_size, now.st_mtime_ns) == (there.st_ino, there.st_size, there.st_mtime_ns)
        answer = site.nquads("/swap")
        assert site.ask("/swap/data.hdt").body == data
        for before in seen:
            assert answer.headers["etag"] != before.headers["etag"]
            assert parsedate_to_datetime(answer.headers["last-modified"]) >= parsedate_to_datetime(
                before.headers["last-modified"])
            assert data_line(answer) != data_line(before)
        seen.append(answer)
    modified = site.application.datasets["swap"].loaded().modified
    (tmp_path / "other").symlink_to("a.hdt")
    (tmp_path / "other").rename(tmp_path / "link")
    assert data_line(site.nquads("/swap")) == data_line(seen[0])
    assert site.application.datasets["swap"].loaded().modified >= modified + 1


def data_line(answer: Answer) -> str:
    """The line of a triple of a file of one."""
    return next(line for line in answer.text.split("\n") if "<u:p>" in line)


def test_written_to_while_it_is_opened(
    odd: Path, tmp_path: Path, monkeypatch: pytest.MonkeyPatch, caplog: pytest.LogCaptureFixture,
) -> None:
    """What is served is one file, whole, under its own tag: one that is written to is opened again, a few times."""
    module = importlib.import_module("hdt.fragments._dataset")
    one = build(tmp_path, "<u:a> <u:p> <u:b> .\n", "one").read_bytes()
    file, opened = tmp_path / "swap.hdt", module._opened
    left: int = 0
    file.write_bytes(odd.read_bytes())

    def late(*given: Any) -> Any:
        nonlocal left
        found = opened(*given)
        if left:
            left -= 1
            file.write_bytes(one if file.read_bytes() != one else odd.read_bytes())
        return found

    monkeypatch.setattr(module, "_SECONDS", -1)
    monkeypatch.setattr(module, "_opened", late)
    for times, status in ((1, 200), (2, 200), (3, 503), (9, 503)):
        file.write_bytes(odd.read_bytes())
        left = times
        site = Site(fragments.Application({"datasets": {"swap": {"file": str(file), "download": True}}}))
        left, answer = 0, site.nquads("/swap") if status == 200 else None
        assert (answer is None) == ("it is being written to" in "".join(caplog.messages))
        again = site.nquads("/swap")
        assert again.total == (1 if file.read_bytes() == one else ODD.count("\n"))
        assert answer is None or (answer.body, answer.headers["etag"]) == (again.body, again.headers["etag"])
        assert site.ask("/swap/data.hdt").body == file.read_bytes()


def test_memory_that_is_lacking_once(odd: Path, monkeypatch: pytest.MonkeyPatch) -> None:
    """A file that could not be opened for want of memory, or of descriptors, is tried again; a wrong one is not."""
    module = importlib.import_module("hdt.fragments._dataset")
    whole = module.Reader
    monkeypatch.setattr(module, "_SECONDS", -1)
    for error, status in ((MemoryError(), 200), (OSError(24, "Too many open files"), 200), (ValueError("x"), 503)):
        monkeypatch.setattr(module, "Reader", mock.Mock(side_effect=error))
        site = Site(fragments.Application({"datasets": {"odd": str(odd)}}))
        assert [site.ask("/odd").status for _ in range(2)] == [503, 503]
        monkeypatch.setattr(module, "Reader", whole)
        assert site.ask("/odd").status == status


def test_checked_once_a_second(odd: Path, tmp_path: Path, monkeypatch: pytest.MonkeyPatch) -> None:
    """The file is not checked for each request."""
    later(monkeypatch, 0)  # (however slow this machine is)
    file = tmp_path / "swap.hdt"
    put(odd.read_bytes(), file)
    site, checks = Site(fragments.Application({"datasets": {"swap": str(file)}})), []
    stat = os.stat

    def counting(path: Any, **more: Any) -> os.stat_result:
        checks.append(path)
        return stat(path, **more)

    monkeypatch.setattr(os, "stat", counting)
    for _ in range(20):
        site.ask("/swap")
    assert checks.count(str(file)) == 0
    later(monkeypatch)
    for _ in range(20):
        site.ask("/swap")
    assert checks.count(str(file)) == 1


def test_mended(odd: Path, tmp_path: Path, monkeypatch: pytest.MonkeyPatch) -> None:
    """A dataset that could not be opened at first is there once its file is."""
    file = tmp_path / "swap.hdt"
    site = Site(fragments.Application({"datasets": {"swap": str(file)}}))
    assert site.ask("/swap").status == 503
    put(odd.read_bytes(), file)
    later(monkeypatch)
    assert site.ask("/swap").status == 200


# ---- servers of their own


def test_eight_clients_at_once(odd: Path) -> None:
    """Threads share an application: each gets the answers that one gets alone."""
    site = Site(fragments.Application({"datasets": {"odd": str(odd)}, "page_size": 9}))
    targets = [url(page=page) for page in range(1, 32)] + [url(predicate="http://odd.example/p", page=2), "/odd/void"]
    wanted = {target: Site(fragments.Application(site.application.config)).nquads(target).body for target in targets}
    wrong: list[str] = []

    def client(seed: int) -> None:
        draw = random.Random(seed)
        for _ in range(60):
            target = draw.choice(targets)
            answer: list[bytes] = []
            path, _, query = target.partition("?")
            environ = {"REQUEST_METHOD": "GET", "PATH_INFO": path, "QUERY_STRING": query, "wsgi.url_scheme": "http",
                       "HTTP_HOST": "localhost:8080", "HTTP_ACCEPT": "application/n-quads"}
            answer += site.application(environ, lambda *_: None)
            if b"".join(answer) != wanted[target]:
                wrong.append(target)

    threads = [threading.Thread(target=client, args=(seed,)) for seed in range(8)]
    for thread in threads:
        thread.start()
    for thread in threads:
        thread.join()
    assert wrong == []


@pytest.mark.parametrize("gunicorn", [False, pytest.param(True, marks=needs_gunicorn)], ids=["wsgiref", "gunicorn"])
def test_servers(odd: Path, tmp_path: Path, gunicorn: bool) -> None:
    """The same answers over a socket; a file that is replaced, damaged and cut while workers serve it."""
    file, good = tmp_path / "swap.hdt", odd.read_bytes()
    put(good, file)
    config = {"datasets": {"swap": {"file": "swap.hdt", "download": True}, "bad": "none.hdt"}}
    with served(tmp_path, config, gunicorn) as server:
        site = Site(fragments.Application(fragments.Config.of(config, tmp_path)))
        host = server.url[len("http://"):]
        for target in ("/swap", url("swap", page=3), url("swap", object='"plain"'), url("swap", page=9), "/bad",
                       "/swap/void", "/swap/data.hdt", "/swap?subject=%", "/swap?object=%22" + "x" * 6900):
            over, here = server.nquads(target), site.nquads(target, Host=host)
            assert (over.status, over.body) == (here.status, here.body)
            assert over.headers.get("etag") == here.headers.get("etag")
        assert server.ask("/swap", Accept_Encoding="gzip").headers["content-encoding"] == "gzip"

        def totals() -> set[int]:
            time.sleep(1.2)
            with ThreadPoolExecutor(16) as clients:  # (so many that each process of the server gets some)
                list(clients.map(server.nquads, ["/swap"] * 48))
            return {server.nquads("/swap").total for _ in range(8)}

        put(build(tmp_path, "<u:a> <u:p> <u:b> .\n", "three").read_bytes(), file)
        assert totals() == {1}
        put(good[:5000], file)
        assert totals() == {1}
        put(good, file)
        assert totals() == {ODD.count("\n")}
        with open(file, "r+b") as cut:  # (a file of this size is read into memory, so cutting it changes no answer)
            cut.truncate(3000)
        assert totals() == {ODD.count("\n")}
        log = server.log.read_text()
        assert "the previous file stays in use" in log and " GET '/swap?page=3' 200 " in log


@pytest.mark.parametrize("gunicorn", [False, pytest.param(True, marks=needs_gunicorn)], ids=["wsgiref", "gunicorn"])
def test_no_body_behind_head(odd: Path, tmp_path: Path, gunicorn: bool) -> None:
    """Nothing follows the headers that answer HEAD."""
    shutil.copy(odd, tmp_path / "odd.hdt")
    with served(tmp_path, {"datasets": {"odd": "odd.hdt"}}, gunicorn) as server:
        host, port = server.url[len("http://"):].split(":")
        with socket.create_connection((host, int(port)), timeout=PATIENCE) as stream:
            stream.sendall(b"HEAD /odd HTTP/1.1\r\nHost: a\r\nConnection: close\r\n\r\n")
            got = b""
            while piece := stream.recv(65536):
                got += piece
        assert re.match(rb"HTTP/1\.[01] 200 ", got) and got.endswith(b"\r\n\r\n")


RAW = [
    b"GET /odd HTTP/1.0\r\n", b"G\x1b[31mET /odd HTTP/1.0\r\n", b"G\x9b31mET /odd HTTP/1.0\r\n",
    b"GET /\x1b]0;title\x07 HTTP/1.0\r\n", b"GET /odd?\x1b[2J\x9b2J HTTP/1.0\r\n", b"\x1b[31m\r\n", b"\xe2\x80\xae\r\n",
    b"GET /odd \x1b[31m\r\n", b"GET /odd HTTP/\x1b[31m\r\n", b"\x1b[31m /odd\r\n", b"GET\x0b/odd\x0cHTTP/1.0\r\n",
    b"GET /odd HTTP/1.0\r\nHost: \x1b[31m\r\n", b"GET /odd HTTP/1.0\r\n\x1b[31m: x\r\n", b"GET " + b"\x1b" * 70_000,
    b"GET /odd HTTP/1.0\r\nAccept: \x9b\x1b\r\n", b"POST /odd HTTP/1.0\r\nContent-Length: \x1b[31m\r\n",
    b"GET /odd HTTP/1.0\r\nConnection: \x1b\r\nContent-Type: \x1b[31m\r\n", b"GET //\x1b[31m/odd HTTP/1.0\r\n",
]


@pytest.mark.parametrize("gunicorn", [False, pytest.param(True, marks=needs_gunicorn)], ids=["wsgiref", "gunicorn"])
def test_log_of_raw_requests(odd: Path, tmp_path: Path, gunicorn: bool) -> None:
    """Whatever bytes a client sends, a terminal that shows the log gets none of its control sequences."""
    shutil.copy(odd, tmp_path / "odd.hdt")
    with served(tmp_path, {"datasets": {"odd": "odd.hdt"}}, gunicorn) as server:
        host, port = server.url[len("http://"):].split(":")
        for raw in RAW:
            with socket.create_connection((host, int(port)), timeout=PATIENCE) as stream:
                try:
                    stream.sendall(raw + b"\r\n")
                    while stream.recv(65536):
                        pass
                except ConnectionError:
                    pass
        assert server.nquads("/odd").status == 200
        log = server.log.read_bytes().decode()
    assert [line for line in log.split("\n") if not line.isprintable()] == []
    assert log.count(" GET '/odd' 200 ") >= 3 and (gunicorn or "G\\x1b[31mET '/odd' 405 " in log)


NGINX = "/usr/sbin/nginx"
NGINX_CONFIGURATION = """
daemon off; pid {folder}/pid; error_log {folder}/error.log; worker_processes 1;
events {{}}
http {{
  access_log off; client_body_temp_path {folder}/b; proxy_temp_path {folder}/p; fastcgi_temp_path {folder}/f;
  uwsgi_temp_path {folder}/u; scgi_temp_path {folder}/s; large_client_header_buffers 4 16k;
  server {{
    listen 127.0.0.1:{port};
    location /lod/ {{
      proxy_pass {to}/;
      proxy_set_header X-Forwarded-Host $http_host; proxy_set_header X-Forwarded-Proto $scheme;
      proxy_set_header X-Forwarded-Prefix /lod;
    }}
  }}
}}
"""


@pytest.mark.skipif(not os.path.exists(NGINX), reason="there is no nginx (Debian: nginx-light)")
def test_behind_nginx(odd: Path, tmp_path: Path) -> None:
    """Behind a proxy, below a path, URLs are those that clients see, on each page; ranges and long queries pass."""
    shutil.copy(odd, tmp_path / "odd.hdt")
    config = {"datasets": {"odd": {"file": "odd.hdt", "download": True}}, "forwarded": True, "hosts": ["127.0.0.1"]}
    with socket.socket() as free:
        free.bind(("127.0.0.1", 0))
        port = free.getsockname()[1]
    with served(tmp_path, config) as server:
        file = tmp_path / "nginx.conf"
        file.write_text(NGINX_CONFIGURATION.format(folder=tmp_path, port=port, to=server.url))
        proxy = subprocess.Popen([NGINX, "-c", file, "-e", tmp_path / "error.log"], stderr=subprocess.DEVNULL)
        try:
            behind = Served.at(f"http://127.0.0.1:{port}")
            first = behind.nquads("/lod" + url(predicate="http://odd.example/n"))
            following = re.search(r"core#next> <([^>]*)>", first.text)
            assert following and following[1].startswith(f"http://127.0.0.1:{port}/lod/odd?")
            assert behind.nquads(following[1][len(behind.url):]).total == first.total
            assert behind.ask("/lod/odd/data.hdt", Range="bytes=5-9").body == odd.read_bytes()[5:10]
            assert behind.nquads("/lod/odd?object=%22" + "x" * 6900).total == 0
            evil = {f"X_Forwarded_{name}": "evil.example" for name in ("Host", "Proto", "Prefix")}
            assert "evil" not in behind.ask("/lod/odd", Accept="application/n-quads", **evil).text
            assert behind.ask("/lod/odd", Host="evil.example").status == 421
        finally:
            proxy.terminate()
            proxy.wait(PATIENCE)


def free_port() -> int:
    """A port of 127.0.0.1 that nothing listens on."""
    with socket.socket() as free:
        free.bind(("127.0.0.1", 0))
        port: int = free.getsockname()[1]
        return port


@pytest.mark.skipif(not shutil.which("curl"), reason="there is no curl (Debian: curl)")
def test_four_lines_of_readme(tmp_path: Path) -> None:
    """README's four lines, in a clone, on another port: Turtle, and a page for people."""
    found = re.search(r"\*\*On the web\*\*.*?```text\n(.*?)```", (TOP / "README.md").read_text(), re.DOTALL)
    assert found and found[1].count("\n") == 4
    (tmp_path / "hdt").symlink_to(PROGRAM)
    (tmp_path / "python").symlink_to(TOP / "python")
    lines = re.sub(r"\bcurl ", f"curl -s --retry {PATIENCE:.0f} --retry-delay 1 --retry-connrefused ", found[1])
    done = subprocess.run(
        ["bash", "-euo", "pipefail", "-c", "trap 'kill %1' EXIT\n" + lines.replace("8080", str(free_port()))],
        capture_output=True, text=True, timeout=3 * PATIENCE, cwd=tmp_path, env={**os.environ, **ENVIRONMENT})
    assert done.stdout.startswith("built 1 0 1 1 1 "), done.stderr
    assert '<http://a/tea> <http://a/colour> "green"@en .\n' in done.stdout and "hydra:totalItems 1 ;" in done.stdout
    assert "1</b> triple<" in done.stdout and done.stdout.endswith("</html>\n")


@pytest.mark.parametrize("server", ["trial", "gunicorn", "nginx"])
def test_servers_of_the_page(server: str, tmp_path: Path) -> None:
    """The commands and configurations of docs/PUBLISH.md serve the sample, on other ports and paths."""
    if server != "trial" and not (os.path.exists(GUNICORN) and sys.version_info >= (3, 11)):
        pytest.skip("there is no gunicorn (Debian: gunicorn), or no TOML")
    if server == "nginx" and not os.path.exists(NGINX):
        pytest.skip("there is no nginx (Debian: nginx-light)")
    section = (TOP / "docs/PUBLISH.md").read_text().partition("## Serve files on the web")[2]
    trial, config, gunicorn, location = re.findall(r"^```text\n(.*?)^```$", section, re.M | re.S)
    port, front = free_port(), free_port()
    url_of = f"http://127.0.0.1:{front if server == 'nginx' else port}"
    (tmp_path / "people.hdt").symlink_to(SAMPLES / "three.hdt")
    (tmp_path / "fragments.toml").write_text(
        config.replace("/srv/", f"{tmp_path}/").replace("https://data.example.org", url_of))
    before, after = NGINX_CONFIGURATION.format(folder=tmp_path, port=front, to="").split("    location /lod/")
    (tmp_path / "nginx.conf").write_text(before + location.replace("8000", str(port)) + after.partition("    }\n")[2])
    command = trial.replace("8080", str(port)) if server == "trial" else gunicorn.replace("8000", str(port))
    command = command.replace("python3", sys.executable).replace("/etc/", f"{tmp_path}/")
    words = [["bash", "-c", f"exec env {command}"], [NGINX, "-c", str(tmp_path / "nginx.conf")]]
    environ = {**os.environ, **ENVIRONMENT, "PATH": f"{os.path.dirname(GUNICORN)}:{os.environ['PATH']}"}
    running = [subprocess.Popen(it, cwd=tmp_path, env=environ, stderr=subprocess.DEVNULL)
               for it in words[:2 if server == "nginx" else 1]]
    try:
        Served.at(f"http://127.0.0.1:{port}")
        evil = {f"X_Forwarded_{name}": "/evil" for name in ("Host", "Proto", "Prefix")}
        answer = Served.at(url_of).ask("/people?page=1", Accept="application/n-quads", **evil)
        assert (answer.status, answer.total) == (200, 3) and f"<{url_of}/people" in answer.text
        assert "evil" not in answer.text
    finally:
        for process in reversed(running):
            is_gunicorn = process is running[0] and server != "trial"
            process.send_signal(signal.SIGQUIT if is_gunicorn else signal.SIGTERM)  # (which waits for nobody)
            process.wait(PATIENCE)


def test_command(odd: Path, tmp_path: Path) -> None:
    """`python -m hdt.fragments` says what is wrong with its words, and in one line what it can't open."""
    def all_said(*words: str) -> tuple[int, str]:
        command = [sys.executable, "-m", "hdt.fragments", *words]
        done = subprocess.run(command, capture_output=True, text=True, timeout=PATIENCE,
                              env={**os.environ, **ENVIRONMENT}, cwd=tmp_path)
        return done.returncode, done.stderr

    def said(*words: str) -> tuple[int, str]:
        status, text = all_said(*words)
        return status, text.strip().split("\n")[-1]

    (tmp_path / "cut.hdt").write_bytes(odd.read_bytes()[:-1])
    for file, why in (("nosuch.hdt", "No such file or directory"), (".", "No such file or directory"),
                      ("cut.hdt", "fault 1 Truncated at ")):
        status, text = all_said(f"odd={odd}", f"tea={file}")
        assert status == 2 and text.count("\n") == 1
        assert text.startswith(f"hdt.fragments: tea={file}: {why}")

    assert said() == (2, "hdt.fragments: error: there is no dataset")
    assert said("odd") == (2, "hdt.fragments: 'odd' is not NAME=FILE")
    assert said("a/b=x")[0] == 2 and said("--config", "none.json")[0] == 2
    (tmp_path / "wrong.conf").write_text('title = "TOML"\n')
    (tmp_path / "c.json").write_text('{"datasets": {"odd": "odd.hdt"}, "forwarded": true}')
    status, line = said("--config", "wrong.conf")
    assert status == 2
    assert line.startswith("hdt.fragments: wrong.conf: not JSON (the name of a TOML file ends with .toml): ")
    status, line = said("--config", "c.json")
    assert status == 2 and line.startswith("hdt.fragments: c.json: forwarded needs the hosts that are served")
    assert said("--port", "70000", f"odd={odd}")[0] == 2
    with socket.create_server(("127.0.0.1", 0)) as taken:
        port = taken.getsockname()[1]
        status, line = said("--port", str(port), f"odd={odd}")
    assert status == 2 and line.startswith(f"hdt.fragments: cannot listen on port {port}: ")
