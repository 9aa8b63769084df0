"""Graphs in parts: the module `hdt.parts`, inputs of it, and processes that end or stop in the middle of a task."""

from __future__ import annotations

import gzip
import importlib
import json
import os
import random
import signal
import socket
import sys
import tempfile
from collections.abc import Callable, Iterator, Sequence
from contextlib import contextmanager
from itertools import product
from pathlib import Path
from typing import Any, NamedTuple, Optional, Union
from unittest import mock

from support.python_package import PACKAGE, hdt

with mock.patch.object(sys, "dont_write_bytecode", True), mock.patch.object(sys, "path", [str(PACKAGE), *sys.path]):
    import hdt.parts as parts
    from hdt import _regular
    from hdt.parts import _build, _files, _folder, _inputs, _manifest, _split

__all__ = ["NUMBERS", "ROWS", "SPECIAL", "TEXTS", "Triple", "builds", "check_same", "files", "graph_of", "hdt",
           "inputs", "interrupt", "manifests", "named", "of_one", "parts", "patterns", "places", "put", "ranges",
           "regular", "small", "split", "splits", "spoiled", "text_of"]

Triple = tuple[str, str, str]

ranges, splits, builds, files, manifests, regular = _inputs, _split, _build, _files, _manifest, _regular
KINDS = list(product((False, True), repeat=3))
# Terms that are no part of any graph here.
ABSENT = [("u:none", None, None), (None, "u:none", None), (None, None, '"none"'), ("\ud800", None, None)]


@contextmanager
def small(range_size: int, block: int, first: int = 4, most: int = 16) -> Iterator[None]:
    """Ranges, blocks and messages of these sizes in this process, where nothing waits for the disk."""
    with mock.patch.multiple(_inputs, RANGE=range_size, BLOCK=block), mock.patch("os.fsync"), \
            mock.patch.multiple(_folder, _FIRST=first, MOST=most):
        yield


class Texts(NamedTuple):
    """A text that was split, with the lines of each part."""

    texts: list[bytes]
    lines: int
    has_blank_nodes: bool


def split(text: bytes, count: int, prefix: bytes = b"") -> Texts:
    """Split a text into a file, of which its parts are taken."""
    with tempfile.NamedTemporaryFile() as out:
        found = splits.split(text, count, out.file, prefix)
        out.flush()
        texts = [b"".join(splits.lines_of(out.name, number, count)) for number in range(count)]
    assert list(map(len, texts)) == found.sizes
    return Texts(texts, found.lines, found.has_blank_nodes)


def text_of(triples: Sequence[Triple]) -> str:
    """Triples of dictionary strings as N-Triples."""
    written = (" ".join(hdt.Term.parse(term).format_ntriples() for term in triple) for triple in triples)
    return "".join(f"{line} .\n" for line in written)


def graph_of(size: int, seed: int = 1) -> list[Triple]:
    """Triples with some hundred subjects, of which a third are objects, too."""
    rng = random.Random(seed)
    names = [f"http://a/{n}" for n in range(size // 4 + 1)] + ["_:b", "u:\u00e9", "u:\U0001f600"]
    values = names[::3] + [f'"{n}"' for n in range(20)] + ['"x"@en', '"\\ \n \\" \u20ac"', '"1"^^<u:t>']
    found = {(rng.choice(names), f"u:p{rng.randrange(7)}", rng.choice(values)) for _ in range(size)}
    return sorted(found)


def inputs(folder: Path, lines: Sequence[str], count: int, packed: Sequence[int] = ()) -> list[Path]:
    """Inputs that have lines in turn; those whose numbers are given are compressed."""
    found = []
    for number in range(count):
        data = "".join(line + "\n" for line in lines[number::count]).encode()
        found.append(folder / f"in{number}.nt{'.gz' if number in packed else ''}")
        found[-1].write_bytes(gzip.compress(data) if number in packed else data)
    return found


def of_one(folder: Path, text: bytes) -> hdt.Graph:
    """The graph of one file with the triples of a text."""
    document, built = folder / "one.nt", folder / "one.hdt"
    document.write_bytes(text)
    hdt.build(document, built)
    return hdt.open(built)


def named(manifest: parts.Manifest) -> list[tuple[str, str, int]]:
    """The files of a manifest with their SHA-256."""
    return [(part.file, part.sha256, part.triples) for part in manifest.parts]


def patterns(triples: Sequence[Triple], most: int = 4) -> list[Any]:
    """Patterns of all eight kinds with the terms of some triples, and patterns that match nothing."""
    picked = random.Random(1).sample(sorted(triples), min(most, len(triples)))
    found = {tuple(term if has else None for term, has in zip(triple, kind)) for triple in picked for kind in KINDS}
    return sorted(found, key=repr) + ABSENT + [(triples[0][0], None, "u:none")]


def check_same(one: hdt.Graph, graph: parts.Graph, asked: Sequence[Any]) -> None:
    """A graph in parts answers as one file does."""
    everything = sorted(one)
    assert (len(graph), graph.subjects) == (len(one), one.count("subject"))
    assert sorted(graph) == everything and list(graph.find(order="strings")) == everything
    assert list(graph.predicates()) == list(one.predicates())
    assert graph.header == one.header
    assert graph.matching_all(asked) == [one.matching(*pattern) for pattern in asked]
    for pattern in asked:
        expected, found = sorted(one.find(*pattern)), list(graph.find(*pattern))
        assert sorted(found) == expected, pattern
        assert graph.matching(*pattern) == len(expected)
        assert list(graph.find(*pattern, order="strings")) == expected
        text = graph.text(*pattern)
        assert sorted(text.splitlines()) == sorted(one.text(*pattern).splitlines())
        assert graph.text(*pattern, order="strings") == text_of(expected)
        assert text == text_of(found) == "".join(graph.text_pieces(*pattern))
        check_windows(graph, pattern, found)
    for triple in everything[:3]:
        assert triple in graph and (triple[0], triple[1], "u:none") not in graph


def check_windows(graph: parts.Graph, pattern: Any, found: Sequence[Triple]) -> None:
    """Parts of the matches by `start` and `limit`, and pages that follow each other, are those of all matches."""
    for start, limit in ((0, 1), (1, None), (2, 3), (len(found), 1), (len(found) // 2, 5)):
        end = None if limit is None else start + limit
        assert list(graph.find(*pattern, start=start, limit=limit)) == list(found[start:end])
        assert list(graph.find(*pattern, start=start, limit=limit, order="strings")) == sorted(found)[start:end]
    assert graph.page(*pattern, limit=0)[0] == []
    for limit in (1, 3, len(found) + 1):
        rows: list[Triple] = []
        at: Optional[int] = 0
        while at is not None:
            assert graph.position(*pattern, skip=len(rows)) == (at if rows else graph.page(*pattern, limit=0)[1])
            page, at = graph.page(*pattern, start=at, limit=limit)
            rows += page
            assert len(page) == limit or at is None
            if len(rows) > 4 * limit:
                break
        assert rows == list(found[:len(rows)]) and (at is not None or len(rows) == len(found))
    assert graph.position(*pattern, skip=len(found)) is None


# ---- manifests that are wrong

Place = tuple[Union[str, int], ...]

# Values, as JSON, that no number of a manifest can be, and that no text can be.
NUMBERS = ["null", "true", "false", "-1", "1.0", "0.5", "1e999", "-1e999", "NaN", "Infinity", "-Infinity",
           "-0.0", str(2**63), "9" * 19, "9" * 20, "9" * 21, "-" + "9" * 21, "9" * 5_000,
           '"1"', '""', "[]", "[1]", "{}",
           '{"a":1}', '"\\ud800"']
TEXTS = ["null", "true", "0", "1", "-1", "1.5", "1e999", "NaN", "9" * 5000, "[]", '["x"]', "{}", '"\\u0000"',
         '"a\\u0000b"']
ROWS = ["null", "true", "1", "1e999", '""', '"x"', "{}", '{"0":{}}', "[1]", "[null]", '["x"]', "[[]]", "[{}]"]


def places(values: Any, at: Place = ()) -> Iterator[Place]:
    """The places of all values of a manifest, with the lists and objects."""
    for key, value in values.items() if isinstance(values, dict) else enumerate(values):
        yield (*at, key)
        if isinstance(value, (dict, list)):
            yield from places(value, (*at, key))


def put(values: Any, place: Place, value: str) -> str:
    """The JSON of values with one of them replaced by a text."""
    copy = json.loads(json.dumps(values))
    there = copy
    for key in place[:-1]:
        there = there[key]
    there[place[-1]] = "@@"
    return json.dumps(copy).replace('"@@"', value)


def spoiled(draw: random.Random, good: str) -> str:
    """A manifest with a drawn fault, or a few. Rarely it is a good one yet."""
    text, kind = good, draw.randrange(10)
    if kind == 0:
        return draw.choice(["", "{", "[" * 50_000, '{"parts":[' * 20_000, "null", "[]", '"x"', "1e999", good + good])
    if kind == 1:
        return good[:draw.randrange(len(good))]
    if kind == 2:
        for _ in range(draw.randint(1, 3)):
            at = draw.randrange(len(text))
            other = draw.choice(list('"{}[],:0e\\\n\0 -.\u00e9\U0001f600'))
            text = text[:at] + other + text[at + draw.randrange(3):]
        return text
    for _ in range(draw.choice([1, 1, 1, 2, 4])):
        values = json.loads(text)
        place = draw.choice(list(places(values)))
        other = str(draw.randrange(-9, 2**draw.randrange(70)))
        text = put(values, place, draw.choice([*NUMBERS, *TEXTS, *ROWS, other]))
        if kind == 3:
            key = json.dumps(place[-1])
            return text.replace(f"{key}: ", f"{key}: 1, {key}: ") if isinstance(place[-1], str) else text
        try:
            json.loads(text)
        except ValueError:
            return text
    return text


# ---- what is no regular file


def fifo(path: Path) -> None:
    """A pipe without a writer."""
    os.mkfifo(path)


def listening(path: Path) -> None:
    """A socket."""
    with socket.socket(socket.AF_UNIX) as it:
        before = os.getcwd()
        os.chdir(path.parent)  # (the names of sockets are short)
        try:
            it.bind(path.name)
        finally:
            os.chdir(before)


def linked_to(target: str) -> Callable[[Path], None]:
    """A link."""
    return lambda path: path.symlink_to(target)


def linked_fifo(path: Path) -> None:
    """A link to a pipe."""
    os.mkfifo(path.with_suffix(".pipe"))
    path.symlink_to(path.with_suffix(".pipe"))


SPECIAL: dict[str, Callable[[Path], None]] = {
    "pipe": fifo, "link to a pipe": linked_fifo, "socket": listening, "folder": Path.mkdir,
    "zero": linked_to("/dev/zero"), "null": linked_to("/dev/null"), "full": linked_to("/dev/full"),
    "random": linked_to("/dev/urandom"), "terminal": linked_to("/dev/tty"), "link to nothing": linked_to("none"),
    "link to itself": lambda path: path.symlink_to(path.name), "root": linked_to("/"),
    "file that grows as it is read": linked_to("/proc/self/smaps"),
}


# ---- processes that end or stop


def interrupt(where: str, flag: str, how: int) -> None:
    """From now on this process, when it calls a function, ends or stops first, if the flag is there.

    `where` is the module and name of the function. The process takes the flag, so that it is the only one, and leaves
    its ID beside it; a flag whose name ends with `always` stays.
    """
    module, _, name = where.rpartition(".")
    there = importlib.import_module(module)
    before = getattr(there, name)

    def call(*parameters: Any, **more: Any) -> Any:
        if flag.endswith("always") and os.path.exists(flag) or taken(flag):
            Path(f"{flag}.pid").write_text(str(os.getpid()))
            os.kill(os.getpid(), how)
        return before(*parameters, **more)

    setattr(there, name, call)


def taken(flag: str) -> bool:
    """Whether a flag was there until now."""
    try:
        os.unlink(flag)
    except FileNotFoundError:
        return False
    return True


def go_on(flag: Path) -> None:
    """Let the process that stopped at a flag go on."""
    os.kill(int(Path(f"{flag}.pid").read_text()), signal.SIGCONT)
