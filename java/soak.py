"""Asks a running endpoint by many clients while its file is replaced by rename, and checks every answer.

    java/build && HDT_BUILT=dist/x86_64-linux-gnu python3 java/soak.py [--seconds 60] [--clients 8] [--every 2]

Each version of the file has its number in it, and other values in its triples: the rows of an answer must be those of
one version, which is one of those that had the name by then, and not older than the one that the client saw before.
Every fifth file is damaged, and must not be served. Prints what was asked, and the CPU time of the server for each
query, also of the second half, when Java has compiled what it runs often. Ends with status 1 if an answer was wrong.
"""

from __future__ import annotations

import argparse
import http.client
import json
import mmap
import multiprocessing
import os
import random
import subprocess
import sys
import tempfile
import time
from collections.abc import Callable
from concurrent.futures import ProcessPoolExecutor
from pathlib import Path
from typing import NamedTuple
from urllib.parse import quote

TOP = Path(__file__).resolve().parent.parent
NS = "http://e.example/"
NODES = 20_000
MOST = 10_000  # versions
CLIENTS = 64  # at most
JSON, TSV, NT = "application/sparql-results+json", "text/tab-separated-values", "application/n-triples"


def value(node: int, version: int) -> int:
    """The value of a node in a version."""
    return (node * 7919 + version * 104_729) % 1_000_003


def after(node: int, version: int) -> int:
    """The next node of a node in a version."""
    return (node * 31 + version) % NODES


def text(version: int) -> str:
    """The N-Triples of a version."""
    lines = [f'<{NS}this> <{NS}version> "{version}" .\n']
    for node in range(NODES):
        lines.append(f'<{NS}n{node}> <{NS}value> "{value(node, version)}" .\n')
        lines.append(f"<{NS}n{node}> <{NS}next> <{NS}n{after(node, version)}> .\n")
    return "".join(lines)


# The patterns of small queries about a node, and the ?x that they have in a version.
QUERIES: list[tuple[str, Callable[[int, int], str]]] = [
    ("e:n%d e:value ?x", lambda node, version: str(value(node, version))),
    ("e:n%d e:next/e:value ?x", lambda node, version: str(value(after(node, version), version))),
    ("e:n%d e:next ?b . ?b e:next ?c . ?c e:value ?x",
     lambda node, version: str(value(after(after(node, version), version), version))),
    ("e:n%d e:next ?x FILTER NOT EXISTS { ?x e:none ?y }", lambda node, version: f"{NS}n{after(node, version)}"),
    ("e:n%d e:next ?b OPTIONAL { ?b e:value ?x }", lambda node, version: str(value(after(node, version), version))),
]


class Client:
    """A client, with a connection that it keeps."""

    def __init__(self, port: int, seed: int) -> None:
        self.random = random.Random(seed)
        self.connection = http.client.HTTPConnection("127.0.0.1", port, timeout=60)

    def answer(self, query: str, accept: str) -> str:
        """The text of an answer; GET and POST by turns."""
        headers = {"Accept": accept}
        if self.random.random() < 0.5:
            self.connection.request("GET", f"/data/sparql?query={quote(query)}", headers=headers)
        else:
            headers["Content-Type"] = "application/sparql-query"
            self.connection.request("POST", "/data/sparql", query.encode(), headers)
        response = self.connection.getresponse()
        body = response.read().decode()
        return body if response.status == 200 else f"status {response.status}: {body}"

    def ask(self) -> tuple[int, str]:
        """Ask once. Returns the version, and what is wrong, or nothing."""
        node = self.random.randrange(NODES)
        pattern, wanted = self.random.choice(QUERIES)
        pattern = f"e:this e:version ?v . {pattern % node}"
        prefix = f"PREFIX e: <{NS}> "
        form = self.random.choice([JSON, JSON, TSV, NT])
        if form == NT:
            got = self.answer(f"{prefix}CONSTRUCT {{ e:x e:v ?v ; e:x ?x }} WHERE {{ {pattern} }}", form)
            found = sorted(line.split()[2].strip('"<>') for line in sorted(got.splitlines()))
        elif form == TSV:
            got = self.answer(f"{prefix}SELECT ?v ?x {{ {pattern} }}", form)
            found = [term.strip('"<>') for line in got.splitlines()[1:] for term in line.split("\t")]
        else:
            got = self.answer(f"{prefix}SELECT ?v ?x {{ {pattern} }}", form)
            rows = json.loads(got)["results"]["bindings"] if got.startswith("{") else []
            found = [row[name]["value"] for row in rows for name in ("v", "x")]
        for first, second in (found, found[::-1]) if len(found) == 2 else ():
            if first.isdigit() and int(first) < MOST and second == wanted(node, int(first)):
                return int(first), ""
        return -1, f"{pattern}: {got}"


# What the processes share: the nanosecond at which each version took the name, and how much each client has asked.
RENAMED, ASKED = (memoryview(mmap.mmap(-1, 8 * count)).cast("q") for count in (MOST + 1, CLIENTS))


class Told(NamedTuple):
    """What a client tells in the end."""

    wrong: list[str]
    versions: int
    lag: float


def client(port: int, number: int, end: float) -> Told:
    """Ask until the end."""
    it = Client(port, number)
    wrong, last, lag, seen = list[str](), 0, 0.0, set[int]()
    while (begin := time.monotonic()) < end:
        version, fault = it.ask()
        ASKED[number] += 1
        if not fault and (version < last or not RENAMED[version]):
            fault = f"version {version} after {last}"
        if fault:
            wrong.append(fault)
            continue
        last = version
        seen.add(version)
        later = RENAMED[version + 1]
        lag = max(lag, begin - later / 1e9 if later else 0)
    return Told(wrong, len(seen), lag)


class Spent(NamedTuple):
    """What was spent until now: the time by the clock, the CPU seconds of a process, and queries."""

    clock: float
    cpu: float
    queries: int


def spent(process: int) -> Spent:
    """What was spent, with the CPU seconds of this process."""
    fields = Path(f"/proc/{process}/stat").read_text().rsplit(")", 1)[1].split()
    return Spent(time.monotonic(), (int(fields[11]) + int(fields[12])) / os.sysconf("SC_CLK_TCK"), sum(ASKED))


class Files:
    """The versions of the file that is served."""

    def __init__(self, folder: Path) -> None:
        self.folder = folder
        self.count = 0
        self.damaged = 0

    def replace(self) -> None:
        """Let the next version take the name, or a damaged file, which has it until then."""
        version = self.count
        (self.folder / "new.nt").write_text(text(version))
        subprocess.run([f"{os.environ['HDT_BUILT']}/hdt", "build", self.folder / "new.nt", self.folder / "new.hdt"],
                       check=True, stdout=subprocess.DEVNULL)
        if (version + self.damaged) % 5 == 4:
            self.damaged += 1
            (self.folder / "bad.hdt").write_bytes((self.folder / "new.hdt").read_bytes()[:-7])
            (self.folder / "bad.hdt").rename(self.folder / "data.hdt")
            return
        RENAMED[version] = time.monotonic_ns()
        (self.folder / "new.hdt").rename(self.folder / "data.hdt")
        self.count += 1


def report(begin: Spent, middle: Spent, end: Spent) -> None:
    """Print the rates."""
    for name, first, last in (("all", begin, end), ("second half", middle, end)):
        clock, cpu, queries = last.clock - first.clock, last.cpu - first.cpu, last.queries - first.queries
        print(f"{name}: {queries} queries in {clock:.0f} s, {queries / clock:.0f} a second; CPU time of the server for "
              f"one: {1000 * cpu / queries:.2f} ms")


def run(jar: Path, seconds: float, count: int, every: float, folder: Path) -> bool:
    """Serve and ask. Prints what came out, and returns whether all answers were right."""
    files = Files(folder)
    files.replace()
    server = subprocess.Popen(["java", "-jar", jar, "serve", "--port", "0", "data=data.hdt"], stdout=subprocess.PIPE,
                              stderr=subprocess.PIPE, text=True, cwd=folder)
    assert server.stdout and server.stderr
    port = int(server.stdout.readline().strip("/\n").rsplit(":", 1)[1])
    try:
        begin = middle = spent(server.pid)
        end = begin.clock + seconds
        with ProcessPoolExecutor(count, multiprocessing.get_context("fork")) as pool:
            running = [pool.submit(client, port, number, end) for number in range(count)]
            last = begin.clock
            while (now := time.monotonic()) < end:
                if now > last + every:
                    files.replace()
                    last = now
                if middle is begin and now > end - seconds / 2:
                    middle = spent(server.pid)
                time.sleep(0.2)
            told = [it.result() for it in running]
        report(begin, middle, spent(server.pid))
    finally:
        server.terminate()
    said = server.stderr.read().splitlines()
    print(f"{files.count} versions, of which each client saw {min(it.versions for it in told)} or more, at most "
          f"{max(it.lag for it in told):.1f} s late; {files.damaged} damaged files")
    wrong = [fault for it in told for fault in it.wrong]
    print("\n".join([f"{len(wrong)} wrong answers", *wrong[:5]]))
    refused = [line for line in said if "data stays as it was" in line]
    if len(said) != len(refused) or len(refused) > files.damaged:
        print("the server said:", "\n".join(said))
        return False
    return not wrong


def main() -> int:
    """Run it."""
    parser = argparse.ArgumentParser(description=__doc__, formatter_class=argparse.RawDescriptionHelpFormatter)
    parser.add_argument("--jar", type=Path, default=TOP / "out/java/tickmarl-hdt.jar")
    parser.add_argument("--seconds", type=float, default=60)
    parser.add_argument("--clients", type=int, default=8)
    parser.add_argument("--every", type=float, default=2, help="seconds between two files")
    options = parser.parse_args()
    with tempfile.TemporaryDirectory() as folder:
        done = run(options.jar.resolve(), options.seconds, options.clients, options.every, Path(folder))
    return 0 if done else 1


if __name__ == "__main__":
    sys.exit(main())
