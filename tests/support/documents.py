"""Graphs of dictionary strings: their documents, their canonical files, and what the program prints of them."""

from __future__ import annotations

import random
from collections.abc import Collection, Sequence
from functools import lru_cache
from pathlib import Path

from reference import hdt as reference
from reference import ntriples
from support.program import Result, Word, hdt

Strings = tuple[bytes, bytes, bytes]

DEFAULT_BASE = b"http://example.org/dataset"

THREE: list[Strings] = [(b"u:a", b"u:p", b"u:b"), (b"u:a", b"u:q", b'"x"'), (b"u:b", b"u:p", b"u:a")]

LONG_LINE = b'<http://example.org/subject> <http://example.org/predicate> "%s" .\n' % (b"x" * 900)


def each_kind() -> list[Strings]:
    """64 triples with every kind of term."""
    objects = [b'"x"', b'"x"@en', b'"x"^^<u:t>', b'"a\\"b"\n\r\t"@en-GB', b'""@""', b"_:b", b"u:a", '"\u20ac"'.encode()]
    subjects = [b"_:b", b"_:b.1", b"u:a", "u:\u00e9".encode()]
    return [(s, p, o) for s in subjects for p in (b"u:p", b"u:q") for o in objects]


def many_triples() -> list[Strings]:
    """20,000 triples, one of which has a literal of 100,000 bytes."""
    subject, predicate = b"http://example.org/subject/%d", b"http://example.org/predicate/%d"
    values = [(subject % s, predicate % p, b'"%d"@en' % (s % 700 + p * o))
              for s in range(2_000) for p in range(2) for o in range(1, 6)]
    links = [(subject % s, b"http://example.org/next", subject % (s * n % 2_000))
             for s in range(2_000) for n in range(7)]
    long = subject % 7, b"http://example.org/text", b'"' + b"long " * 20_000 + b'"'
    return [*sorted({*values, *links})[:19_999], long]


GRAPHS = {"three lines": THREE, "each kind of term": each_kind(), "many triples": many_triples()}


@lru_cache(maxsize=40_000)
def line(triple: Strings) -> bytes:
    """The line that is written for a triple."""
    return ntriples.put_strings(triple)


def document(triples: Sequence[Strings]) -> bytes:
    """The lines of triples in this order."""
    return b"".join(map(line, triples))


def same_lines(one: bytes, other: bytes) -> bool:
    """Whether two documents have the same lines in some order."""
    return sorted(one.splitlines()) == sorted(other.splitlines())


@lru_cache(maxsize=64)
def canonical(triples: frozenset[Strings], base: bytes, block_size: int) -> bytes:
    """The canonical file of these triples."""
    return reference.graph(triples, base, block_size).data


def canonical_file(triples: Collection[Strings], base: bytes = DEFAULT_BASE, block_size: int = 16) -> bytes:
    """The canonical file of these triples."""
    return canonical(frozenset(triples), base, block_size)


def counts(triples: Collection[Strings]) -> tuple[int, int, int, int, int]:
    """The counts of triples, and of the strings of the four sections."""
    parts = reference.split(*(([triple[role] for triple in triples]) for role in range(3)))
    shared, subjects, predicates, objects = map(len, parts)
    return len(set(triples)), shared, subjects, predicates, objects


def printed(word: str, triples: Collection[Strings], *more: int) -> Result:
    """The result of a command that prints these counts."""
    return Result(0, " ".join([word, *map(str, [*counts(triples), *more])]).encode() + b"\n", b"")


def difference(seen: bytes, wanted: bytes) -> str:
    """Where two files differ first; empty if they are equal."""
    if seen == wanted:
        return ""
    at = next((at for at, (a, b) in enumerate(zip(seen, wanted)) if a != b), min(len(seen), len(wanted)))
    return f"{len(seen)} and {len(wanted)} bytes differ at {at}: {seen[at:at + 20]!r} and {wanted[at:at + 20]!r}"


def brief(result: Result) -> Result:
    """A result with its output cut short."""
    return Result(result.status, result.out[:200], result.err[:200])


def check_build(folder: Path, text: bytes, triples: Collection[Strings], *options: Word, base: bytes = DEFAULT_BASE,
                block_size: int = 16) -> Path:
    """Build the file of a document with these options: it is the canonical file of these triples."""
    source, out = folder / "document.nt", folder / "built.hdt"
    source.write_bytes(text)
    wanted = canonical_file(triples, base, block_size)
    result = hdt("build", *options, source, out)
    assert brief(result) == printed("built", triples, len(wanted))
    assert difference(out.read_bytes(), wanted) == ""
    return out


def check_rewrite(folder: Path, data: bytes, wanted: bytes, triples: Collection[Strings], *options: Word) -> Path:
    """Rewrite a file with these options: it is the wanted file, which is tight."""
    source, out = folder / "loose.hdt", folder / "rewritten.hdt"
    source.write_bytes(data)
    result = hdt("rewrite", *options, source, out)
    assert brief(result) == printed("rewritten", triples, len(wanted))
    assert difference(out.read_bytes(), wanted) == ""
    assert hdt("verify", "--tight", out) == printed("ok", triples)
    return out


def shuffled(lines: Sequence[bytes], seed: int, again: int) -> bytes:
    """Lines in another order, some of them twice."""
    mixed = [*lines, *random.Random(seed).choices(lines, k=again)]
    random.Random(seed).shuffle(mixed)
    return b"".join(mixed)
