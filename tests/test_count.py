"""`hdt count`: the number of triples of each term of a role, against a count of the triples."""

from __future__ import annotations

from collections import Counter
from collections.abc import Sequence
from pathlib import Path

import pytest
from hypothesis import HealthCheck, given, settings
from hypothesis import strategies as st

from reference import checks, hdt as reference
from reference import ntriples
from support.program import READING_FAILED, Result, Word, brief, done, failed, fault, hdt
from support.search import THREE as THREE_TRIPLES
from support.search import UNUSED, Triple, escaped

# Two predicates with as many triples, an object that is the most frequent one but not the first, and strings to escape.
TIES: list[Triple] = [
    *((b"u:s%d" % n, b"u:often", b'"most"') for n in range(4)),
    (b"u:s1", b"u:b", b"u:s1"),
    (b"u:s2", b"u:b", b'"a\\\n\r"'),
    (b"u:s3", b"u:a", b"_:b"),
    (b"_:b", b"u:a", b'"x"@en'),
]
REL: list[Triple] = [(b"u:s", b"rel", b"u:o"), (b"u:s", b"u:p", b"u:o"), (b"u:t", b"u:p", b"u:o")]


def counted(
    strings: Sequence[bytes], ids: Sequence[tuple[int, int, int]], role: int, top: int | None, raw: bool
) -> Result:
    """The result of `count` for the strings of a role and the triples by IDs."""
    uses = Counter(triple[role] for triple in ids)
    numbers = list(range(1, len(strings) + 1))
    if top is not None:
        numbers = sorted(numbers, key=lambda number: (-uses[number], number))[:top]
    lines = []
    for number in numbers:
        string = strings[number - 1]
        try:
            shown = escaped(string) if raw else ntriples.put_term(ntriples.string_term(string))
        except ntriples.NotATerm:
            return failed(1, f"{reference.ROLES[role]} {number} is not a term")
        lines.append(b"%d\t%s\n" % (uses[number], shown))
    return done(b"".join(lines))


def cases_of(path: Path, data: bytes) -> list[tuple[list[Word], Result]]:
    """Command lines of each role with and without a limit and `--raw`, and their results."""
    file = reference.read_file(data)
    cases: list[tuple[list[Word], Result]] = []
    for role, name in enumerate(reference.ROLES):
        strings, ids = file.dictionary.strings(name), list(file.triples.ids)
        for raw in (False, True):
            words: list[Word] = ["count", path, name, *(["--raw"] if raw else [])]
            cases.append((words, counted(strings, ids, role, None, raw)))
            for top in (0, 1, 2, len(strings), len(strings) + 1, 2**64 - 1):
                cases.append(([*words, "--top", str(top)], counted(strings, ids, role, top, raw)))
    return cases


def check(path: Path, data: bytes) -> None:
    """Compare the results of all command lines for a file, which is written to the path."""
    path.write_bytes(data)
    cases = cases_of(path, data)
    seen = [(words, brief(hdt(*words))) for words, _ in cases]
    assert seen == [(words, brief(wanted)) for words, wanted in cases]


FILES = {
    "three triples": reference.graph(THREE_TRIPLES)[0],
    "ties": reference.graph(TIES)[0],
    "a string that is not a term": reference.graph(REL)[0],
    "unused strings": UNUSED,
}


@pytest.mark.parametrize("data", FILES.values(), ids=FILES)
def test_files(tmp_path: Path, data: bytes) -> None:
    """Every role of a few files."""
    check(tmp_path / "graph.hdt", data)


TERMS = st.sampled_from([b"u:a", b"u:b", b"u:c", b"u:\xc3\xa9", b"_:b"])
OBJECTS = TERMS | st.sampled_from([b'"x"', b'"x"@en', b'"\\\n\r"', b'"x"^^<u:t>', b"rel"])
TRIPLES = st.lists(
    st.tuples(TERMS, st.sampled_from([b"u:p", b"u:q", b"u:r", b"u:a"]), OBJECTS), min_size=1, max_size=12, unique=True
)


@settings(max_examples=40, deadline=None, suppress_health_check=[HealthCheck.function_scoped_fixture])
@given(TRIPLES, st.integers(1, 4))
def test_any_graph(tmp_path: Path, triples: list[Triple], block_size: int) -> None:
    """Any small graph."""
    check(tmp_path / "graph.hdt", reference.graph(triples, block_size=block_size)[0])


def test_ties(tmp_path: Path) -> None:
    """The lines of two roles, one by one: of strings with as many triples, the one with the smaller ID is first."""
    path = tmp_path / "graph.hdt"
    path.write_bytes(FILES["ties"])
    assert hdt("count", path, "predicate") == done(b"2\t<u:a>\n2\t<u:b>\n4\t<u:often>\n")
    assert hdt("count", path, "predicate", "--top=2") == done(b"4\t<u:often>\n2\t<u:a>\n")
    assert hdt("count", "--raw", "--top", "2", path, "predicate") == done(b"4\tu:often\n2\tu:a\n")
    assert hdt("count", path, "object", "--top", "1") == done(b'4\t"most"\n')


def test_not_a_term(tmp_path: Path) -> None:
    """A string that is not a term is an error if it is to be printed as one, and nothing is printed."""
    path = tmp_path / "graph.hdt"
    path.write_bytes(FILES["a string that is not a term"])
    assert hdt("count", path, "predicate") == failed(1, "predicate 1 is not a term")
    assert hdt("count", path, "predicate", "--top", "1") == done(b"2\t<u:p>\n")
    assert hdt("count", path, "predicate", "--top", "2") == failed(1, "predicate 1 is not a term")
    assert hdt("count", path, "predicate", "--raw") == done(b"1\trel\n2\tu:p\n")


# What follows the file in command lines that are not requests.
NOT_REQUESTS: list[list[Word]] = [
    [],
    ["subjects"],
    ["subject", "object"],
    ["subject", "--top"],
    ["subject", "--top", "-1"],
    ["subject", "--top", "x"],
    ["subject", "--top", str(2**64)],
    ["subject", "--numbers"],
]


def test_errors(tmp_path: Path) -> None:
    """A file that is cut off, a missing one, and words that are no request."""
    path, data = tmp_path / "graph.hdt", FILES["three triples"]
    assert hdt("count", path, "subject") == READING_FAILED
    path.write_bytes(data[:-1])
    wanted = checks.error_of(reference.read_file, data[:-1])
    assert wanted is not None
    assert hdt("count", path, "subject") == fault(*wanted)
    path.write_bytes(data)
    for words in NOT_REQUESTS:
        result = hdt("count", path, *words)
        assert (words, result.status, result.out) == (words, 2, b"")


def test_large_graph(tmp_path: Path) -> None:
    """100,000 triples: the most frequent objects, and all subjects."""
    path = tmp_path / "graph.hdt"
    triples = [(b"u:s%06d" % n, b"u:p", b'"%d"' % (n * n % 977)) for n in range(100_000)]
    data, ids, _ = reference.graph(triples)
    path.write_bytes(data)
    strings = [sorted({triple[role] for triple in triples}) for role in range(3)]
    assert brief(hdt("count", path, "object", "--top", "50")) == brief(counted(strings[2], ids, 2, 50, False))
    assert brief(hdt("count", path, "subject")) == brief(counted(strings[0], ids, 0, None, False))
    assert brief(hdt("count", path, "predicate", "--raw")) == done(b"100000\tu:p\n")
