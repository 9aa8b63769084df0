"""The SPARQL endpoint of the Java package with Chromium, and with many clients at once.

They are run where the tests of the Java package are (test_java). Other clients are in test_sparql_clients.
"""

from __future__ import annotations

import os
import re
import shutil
import subprocess
import sys
from pathlib import Path
from urllib.parse import urlencode

import pytest

from support.built import BUILT, TOP
from support.program import run
from test_java import package, pytestmark  # noqa: F401
from test_java_endpoint import ALL, Server, server  # noqa: F401


def test_soak(package: Path) -> None:  # noqa: F811
    """Eight clients get right answers while the file is replaced, in ten seconds and more."""
    done = run([sys.executable, TOP / "java/soak.py", "--jar", package / "tickmarl-hdt.jar", "--seconds", "10"],
               env={"HDT_BUILT": str(BUILT)}, seconds=600)
    found = re.search(r"(\d+) versions", done.out.decode())
    assert (done.status, done.err) == (0, b""), done
    assert found and int(found[1]) > 1 and "\n0 wrong answers\n" in done.out.decode(), done.out


def browse(folder: Path, address: str) -> tuple[str, str]:
    """The page as Chromium has it after its scripts, and what the browser says."""
    done = subprocess.run(
        ["chromium", "--headless=new", "--no-sandbox", "--disable-gpu", "--no-first-run", f"--user-data-dir={folder}",
         "--enable-logging=stderr", "--host-resolver-rules=MAP * ~NOTFOUND, EXCLUDE 127.0.0.1",
         "--virtual-time-budget=20000", "--dump-dom", address], capture_output=True, timeout=200, env=dict(os.environ))
    return done.stdout.decode(), done.stderr.decode()


@pytest.mark.skipif(not shutil.which("chromium"), reason="there is no chromium (Debian: chromium)")
@pytest.mark.parametrize("text, shown", [
    (ALL, "4 rows."), ("ASK {}", "Yes."), ("CONSTRUCT WHERE { ?s a ?c }", "&lt;http://e.example/C&gt;"),
    ("SELECT", "Encountered"),
])
def test_page(server: Server, tmp_path: Path, text: str, shown: str) -> None:  # noqa: F811
    """The page asks, and shows the answer; what the file has is not run as a script."""
    dom, said = browse(tmp_path, f"{server.address}odd?{urlencode({'query': text})}")
    assert shown in dom
    assert "<script>alert" not in dom
    if text == ALL:
        assert dom.count("<tr>") == 5 and "&lt;script&gt;alert(1)&lt;/script&gt; @en" in dom
    assert "CONSOLE" not in re.sub(".*the server responded with a status of 400.*", "", said), said
