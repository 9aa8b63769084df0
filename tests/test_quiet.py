"""`hdt find --quiet`: whether a pattern has a match, by the exit status alone."""

from __future__ import annotations

from pathlib import Path

import pytest
from hypothesis import HealthCheck, given, settings
from hypothesis import strategies as st

from reference import checks
from reference import hdt as reference
from support.built import SAMPLES
from support.program import READING_FAILED, Result, Word, closed, done, failed, fault, hdt, hdt_into
from support.search import THREE as THREE_TRIPLES
from support.search import THREE_PATTERNS, Pattern, Triple, matches, words_of

THREE = SAMPLES / "three.hdt"
NO_MATCH = Result(1, b"", b"")
REL: list[Triple] = [(b"u:s", b"rel", b"u:o"), (b"u:s", b"u:p", b"u:o")]

# Options that make no difference with --quiet.
IGNORED: list[list[Word]] = [
    [], ["--count"], ["--numbers"], ["--most", "0"], ["--most", "1"], ["--most", str(2**64 - 1)],
    ["--count", "--most", "0"],
]


def wanted(triples: list[Triple], pattern: Pattern) -> Result:
    """The result that a search with `--quiet` has to have."""
    return done() if any(matches(pattern, triple) for triple in triples) else NO_MATCH


def quiet(path: Path, pattern: Pattern, raw: bool) -> Result:
    """The result of a search with `--quiet`."""
    return hdt("find", path, *words_of(pattern, raw), *["--raw"][: int(raw)], "--quiet")


@pytest.mark.parametrize("raw", [False, True], ids=["terms", "raw"])
def test_every_pattern(raw: bool) -> None:
    """Patterns of the three triples, by terms and by dictionary strings: nothing is printed."""
    seen = [(pattern, quiet(THREE, pattern, raw)) for pattern in THREE_PATTERNS]
    assert seen == [(pattern, wanted(THREE_TRIPLES, pattern)) for pattern in THREE_PATTERNS]


@pytest.mark.parametrize("options", IGNORED, ids=lambda options: " ".join(map(str, options)) or "none")
def test_options_that_make_no_difference(options: list[Word]) -> None:
    """The status is that of the search whatever else is asked for."""
    assert hdt("find", "--quiet", THREE, "?", "<u:p>", "?", *options) == done()
    assert hdt("find", THREE, "<u:b>", "<u:q>", "?", *options, "--quiet") == NO_MATCH


def test_strings_that_are_not_terms(tmp_path: Path) -> None:
    """A triple that has no form in N-Triples matches, since it is not printed."""
    path = tmp_path / "rel.hdt"
    path.write_bytes(reference.graph(REL)[0])
    assert hdt("find", path, "?", "?", "?") == failed(1, "predicate 1 is not a term")
    assert hdt("find", path, "--quiet", "?", "?", "?") == done()
    assert hdt("find", path, "--quiet", "--raw", "?", "rel", "?") == done()


def test_errors(tmp_path: Path) -> None:
    """Errors have their line and their status, as without --quiet."""
    data = THREE.read_bytes()[:-1]
    error = checks.error_of(reference.read_file, data)
    assert error is not None
    (tmp_path / "cut.hdt").write_bytes(data)
    assert hdt("find", "--quiet", tmp_path / "cut.hdt", "?", "?", "?") == fault(*error)
    assert hdt("find", "--quiet", tmp_path / "missing.hdt", "?", "?", "?") == READING_FAILED
    assert hdt("find", "--quiet", THREE, "<u:a>", "u:p", "?") == failed(2, "P column 1: 1 Syntax")
    refused: list[list[Word]] = [
        ["--quiet", THREE, "?", "?"], ["--quiet=yes", THREE, "?", "?", "?"], ["-q", THREE, "?", "?", "?"],
    ]
    for words in refused:
        result = hdt("find", *words)
        assert (words, result.status, result.out) == (words, 2, b"")
    assert hdt("answer", "--quiet", THREE).status == 2


def test_a_closed_output() -> None:
    """Nothing is written, so an output that can't be written makes no difference."""
    assert hdt_into("/dev/full", "find", "--quiet", THREE, "?", "?", "?") == done()
    assert closed(1, "find", "--quiet", THREE, "?", "?", "?") == done()


STRINGS = st.sampled_from([b"u:a", b"u:b", b"u:c"])
PATTERNS = st.tuples(st.none() | STRINGS, st.none() | STRINGS, st.none() | STRINGS)


@settings(max_examples=60, deadline=None, suppress_health_check=[HealthCheck.function_scoped_fixture])
@given(st.lists(st.tuples(STRINGS, STRINGS, STRINGS), min_size=1, max_size=8, unique=True), PATTERNS, st.booleans())
def test_any_graph(tmp_path: Path, triples: list[Triple], pattern: Pattern, raw: bool) -> None:
    """Any small graph and any pattern."""
    path = tmp_path / "graph.hdt"
    path.write_bytes(reference.graph(triples)[0])
    assert quiet(path, pattern, raw) == wanted(triples, pattern)


def test_large_graph(tmp_path: Path) -> None:
    """100,000 triples: the first, the last, all and none."""
    path = tmp_path / "graph.hdt"
    triples: list[Triple] = [(b"u:s%06d" % n, b"u:p", b'"%d"' % (n % 977)) for n in range(100_000)]
    path.write_bytes(reference.graph(triples)[0])
    patterns: list[Pattern] = [
        (None, None, None), triples[0], triples[-1], (None, b"u:p", None), (None, None, b'"976"'),
        (b"u:s099999", None, b'"0"'), (b"u:s100000", None, None), (None, b"u:q", None),
    ]
    seen = [(pattern, quiet(path, pattern, False)) for pattern in patterns]
    assert seen == [(pattern, wanted(triples, pattern)) for pattern in patterns]
