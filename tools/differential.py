"""Run two versions of the command `hdt` on the same generated requests and report each difference.

A request is a command line with its files and its standard input: documents and files, valid
and damaged, small and of some thousand triples, with terms of every kind. Compared are the exit status, standard
output, standard error, and what the files of the folder hold afterwards. It ends with a table of the requests by
command and exit status, and with status 1 if there was a difference.
"""

from __future__ import annotations

import os
import random
import re
import subprocess
import sys
import tempfile
from collections import Counter
from concurrent.futures import ProcessPoolExecutor
from functools import partial
from pathlib import Path
from typing import NamedTuple

from reference import checks, ntriples
from reference import hdt as reference
from tools.repository import command_line

SECONDS = 60
Strings = tuple[bytes, bytes, bytes]


class Request(NamedTuple):
    """A command line, standard input, and the files that are there."""

    words: list[str]
    stdin: bytes
    files: dict[str, bytes]


class Outcome(NamedTuple):
    """What a program did: exit status, standard output and error, and the files that are there then."""

    status: int
    out: bytes
    err: bytes
    files: dict[str, bytes]

    def __str__(self) -> str:
        return f"({self.status}, {self.out[:200]!r}, {self.err[:200]!r}, {sorted(self.files)})"


def iri(draw: random.Random) -> bytes:
    """Return an IRI; some are equal up to their last bytes, some have other characters than ASCII."""
    prefix = draw.choice([b"u:", *(f"http://{it}/".encode() for it in ("a.org", "a.org/resource/a-long-path", "é"))])
    return prefix + b"%d" % draw.randrange(draw.choice([3, 40, 3000]))


def literal(draw: random.Random) -> bytes:
    """Return a literal as a dictionary string."""
    texts = [b"", b"x", b'a"b\\c', b"line\nfeed\r\t", "€ 𝄞".encode(), b"%d" % draw.randrange(5000), b"y" * 300]
    suffixes = [b"", b"", b"@en", b"@de-AT-x", b"^^<u:t>", b"^^<http://example.org/type>"]
    return b'"' + draw.choice(texts) + b'"' + draw.choice(suffixes)


def triples(draw: random.Random) -> list[Strings]:
    """Return the triples of a graph: few or some thousand."""
    count = draw.choice([1, 2, 5, 20, 100, 100, 3000])
    blank = b"_:b%d" % draw.randrange(9)
    made = set()
    for _ in range(count):
        subject = draw.choice([iri(draw), iri(draw), blank])
        object = draw.choice([iri(draw), literal(draw), literal(draw), blank, subject])
        made.add((subject, b"u:p%d" % draw.randrange(draw.choice([1, 5, 30])), object))
    return sorted(made)


def damaged(draw: random.Random, data: bytes) -> bytes:
    """Return bytes with a few changed, cut or added."""
    for _ in range(draw.randrange(1, 4)):
        at, byte = draw.randrange(len(data) + 1), bytes([draw.randrange(256)])
        rests = [b"", byte + data[at + 1 :], byte + data[at:], data[at + draw.randrange(1, 9) :]]
        data = data[:at] + draw.choice(rests)
    return data


def document(draw: random.Random, graph: list[Strings]) -> bytes:
    """Return an N-Triples document of a graph, with repeats, comments and blank lines; some are damaged."""
    lines = [ntriples.put_strings(triple) for triple in graph]
    lines += draw.sample(lines, min(len(lines), draw.randrange(4)))
    lines += [draw.choice([b"# a comment\n", b"\n", b" \t\r\n", b"\r"]) for _ in range(draw.randrange(3))]
    draw.shuffle(lines)
    text = b"".join(lines)
    return damaged(draw, text) if draw.random() < 0.3 else text


def file(draw: random.Random, graph: list[Strings]) -> bytes:
    """Return an HDT file of a graph, canonical or as other programs may write it; some are damaged."""
    base = draw.choice([None, b"http://example.org/dataset"])
    size = draw.choice([1, 2, 16, 100])
    if draw.random() < 0.5:
        data = reference.graph(graph, base, size).data
    else:
        subjects, predicates, objects = ({triple[k] for triple in graph} for k in range(3))
        unused = predicates | {b"u:unused"}, objects | {b'"not a term'}
        data = reference.loose(graph, subjects, *unused, base, size, draw.choice([0, 40, 64])).data
    if draw.random() < 0.3:
        data = damaged(draw, data)
        if draw.random() < 0.7:
            data = checks.with_right_crcs(data, reference.read_file)
    return data


# Requests

# Command lines, each as likely as another one: `[a b]` is there once in four times, `(a|b)` is one of these, and a word
# of `drawn` is drawn.
REQUESTS = """answer a.hdt RAW [--numbers] [--count] [--most N] [--skip-non-terms] [--verbose]
build a.nt OUT [--block-size SIZE] [--base BASE]
build a.nt OUT [--block-size SIZE] [--base BASE]
count a.hdt ROLE [--raw] [--top N] [--verbose]
dump a.hdt [--skip-non-terms] [--verbose]
explain NUMBER
find a.hdt S P O RAW [--numbers] [--count] [--most N] [--skip-non-terms] [--verbose] [--quiet]
find a.hdt S P O RAW [--numbers] [--count] [--most N] [--skip-non-terms] [--verbose] [--quiet]
head a.hdt
info a.hdt [--json] [--verbose]
lint a.nt [--keep] [--most N] [--verbose]
merge a.hdt b.hdt OUT [--block-size SIZE] [--base BASE] [--blank-nodes WORD]
number a.hdt RAW (subject s|predicate p|object o)
rewrite a.hdt OUT [--block-size SIZE]
split (a.nt|a.nt|a.nt b.nt|a.nt missing.nt) (--of 1/3|--of 2/2|--of 0/2|parts --parts 3|--parts 2) [--blank-nodes WORD]
string a.hdt ROLE ID
strings a.hdt ROLE [--terms] [--verbose] [PREFIX]
verify a.hdt [--tight] [--terms] [--progress] [--no-progress] [--verbose]
(|--version|--help|find|find a.hdt ?|no|head no|count a.hdt x)""".split("\n")
ROLES = ["subject", "predicate", "object"]
# What is drawn of a few.
DRAWN = {
    "BASE": ["http://example.org/é", "relative", "u:x y"],
    "ID": ["0", "1", "2", "7", "100", str(10**19)],
    "N": ["0", "1", "3", "1000"],
    "NUMBER": [str(it) for it in range(90)],
    "OUT": ["out.hdt", "out.hdt", "old.hdt", "/dev/stdout", "missing/out.hdt"],
    "ROLE": ROLES,
    "SIZE": ["1", "3", "100", "65535", "0", "65536", "x"],
    "WORD": ["one", "apart", "x"],
}


def term(draw: random.Random, graph: list[Strings], role: int) -> bytes:
    """Return a string that may be one of the graph's in this role."""
    return draw.choice([draw.choice(graph)[role], draw.choice(graph)[role], iri(draw), literal(draw), b"", b"?"])


def spelled(string: bytes, raw: bool) -> str:
    """Return a string as an argument: itself, or as a term of N-Triples."""
    try:
        return os.fsdecode(string if raw else ntriples.put_term(ntriples.string_term(string)))
    except ntriples.NotATerm:
        return os.fsdecode(string)


def drawn(draw: random.Random, graph: list[Strings], word: str, raw: bool) -> str:
    """Return what stands for a word of REQUESTS; a subject, predicate or object in capitals is `?` in half of them."""
    if word in DRAWN:
        return draw.choice(DRAWN[word])
    if word == "PREFIX":
        return "--prefix=" + os.fsdecode(term(draw, graph, draw.randrange(3))[: draw.randrange(12)])
    if word.lower() not in ("s", "p", "o"):
        return word
    return "?" if word.isupper() and draw.random() < 0.5 else spelled(term(draw, graph, "spo".index(word.lower())), raw)


def words_of(draw: random.Random, graph: list[Strings], row: str, raw: bool) -> list[str]:
    """Return the words of a row of REQUESTS."""
    words: list[str] = []
    for it in re.findall(r"\[.*?\]|\(.*?\)|\S+", row):
        if it[0] == "(":
            words += words_of(draw, graph, draw.choice(it[1:-1].split("|")), raw)
        elif it[0] == "[":
            words += words_of(draw, graph, it[1:-1], raw) if draw.random() < 0.25 else []
        elif it != "RAW":
            words.append(drawn(draw, graph, it, raw))
        elif raw:
            words.append("--raw")
    return words


def requests_of(draw: random.Random, graph: list[Strings], raw: bool) -> bytes:
    """Return the standard input of `answer`."""
    patterns = [[drawn(draw, graph, it, raw).replace("\n", "\\n") for it in "SPO"] for _ in range(draw.randrange(6))]
    lines = [("\t" if raw else " ").join(it) + draw.choice(["", "" if raw else " ."]) for it in patterns]
    text = os.fsencode("\n".join([*lines, draw.choice(["", "# a comment", "x"])]))
    return damaged(draw, text) if draw.random() < 0.2 else text


def request(draw: random.Random) -> Request:
    """Return a request."""
    graph, other, raw = triples(draw), triples(draw), draw.random() < 0.4
    files = {"a.nt": document(draw, graph), "a.hdt": file(draw, graph), "old.hdt": b"old"}
    words = words_of(draw, graph, draw.choice(REQUESTS), raw)
    files |= {it: make(draw, other) for it, make in (("b.nt", document), ("b.hdt", file)) if it in words}
    stdin = requests_of(draw, graph, raw) if words[:1] == ["answer"] else b""
    return Request([word.replace("\0", "") for word in words], stdin, files)


def outcome(program: Path, asked: Request) -> Outcome:
    """Run a program on a request in a folder of its own."""
    with tempfile.TemporaryDirectory() as name:
        folder = Path(name)
        for path, data in asked.files.items():
            (folder / path).write_bytes(data)
        words = [str(program), *asked.words]
        done = subprocess.run(words, input=asked.stdin, capture_output=True, cwd=folder, timeout=SECONDS)
        found = {str(path.relative_to(folder)): path.read_bytes() for path in folder.rglob("*") if path.is_file()}
    return Outcome(done.returncode, done.stdout, done.stderr, found)


def compared(number: int, old: Path, new: Path, seed: int) -> tuple[str, str]:
    """Run both programs on request `number`: its command with its status, and the difference or nothing."""
    asked = request(random.Random(seed * 1_000_003 + number))
    before, after = outcome(old, asked), outcome(new, asked)
    kind = f"{asked.words[0] if asked.words else 'nothing'} {before.status}"
    fields = [name for name in Outcome._fields if getattr(before, name) != getattr(after, name)]
    told = f"request {number}: {asked.words} differs in {', '.join(fields)}: {before} and {after}"
    return kind, told if fields else ""


def main() -> int:
    """Compare the two programs; return the exit status."""
    parser = command_line("differential", __doc__)
    parser.add_argument("old", type=Path, metavar="OLD", help="the program whose answers are right")
    parser.add_argument("new", type=Path, metavar="NEW", help="the program that is compared with it")
    parser.add_argument("--requests", type=int, default=2000, metavar="N", help="how many requests (2000)")
    parser.add_argument("--seed", type=int, default=1, metavar="N", help="another seed gives other requests (1)")
    given = parser.parse_args()
    old, new = given.old.resolve(), given.new.resolve()
    work = partial(compared, old=old, new=new, seed=given.seed)
    with ProcessPoolExecutor(len(os.sched_getaffinity(0))) as pool:
        found = list(pool.map(work, range(given.requests), chunksize=16))
    kinds, differences = Counter(kind for kind, _ in found), [difference for _, difference in found if difference]
    rows = [f"{count:6} {kind}" for kind, count in sorted(kinds.items())]
    print(*rows, *differences[:50], f"{given.requests} requests, {len(differences)} differences", sep="\n")
    return int(bool(differences))


if __name__ == "__main__":
    sys.exit(main())
