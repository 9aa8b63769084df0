"""`hdt strings --prefix` and `--terms`: the strings of a role that begin with a prefix, against a filter of all."""

from __future__ import annotations

from collections.abc import Sequence
from pathlib import Path

import pytest
from hypothesis import HealthCheck, example, given, settings
from hypothesis import strategies as st

from reference import checks
from reference import hdt as reference
from reference import ntriples
from support.built import PROGRAM
from support.program import READING_FAILED, Result, Word, brief, done, failed, fault, hdt
from support.search import THREE as THREE_TRIPLES
from support.search import UNUSED, Triple, escaped
from support.timing import is_linear, measure, timed

# Shared strings and others of each role that begin with the same bytes, and strings to escape.
KINDS: list[Triple] = [
    (b"http://a/1", b"http://a/p", b"http://a/2"),
    (b"http://a/2", b"http://a/q", b"http://a/3"),
    (b"http://a/3", b"http://b/p", b'"http://a/"'),
    (b"http://b/1", b"http://b/p", b'"a\\\n\r\t"@en'),
    (b"_:b1", b"http://b/p", b'"x"^^<http://a/t>'),
    (b"_:b2", b"http://b/p", b"_:b1"),
    ("u:\u00e9".encode(), b"u:p", "u:\u00ea".encode()),
]
REL: list[Triple] = [(b"u:s", b"rel", b"u:o"), (b"u:s", b"u:p", b"u:o"), (b"u:t", b"u:p", b"rel")]
KINDS_DATA = reference.graph(KINDS)[0]


def listed(strings: Sequence[bytes], role: str, prefix: bytes, terms: bool) -> Result:
    """The result of `strings` for the strings of a role."""
    lines = []
    for number, string in enumerate(strings, 1):
        if not string.startswith(prefix):
            continue
        try:
            lines.append(ntriples.put_term(ntriples.string_term(string)) + b"\n" if terms
                         else b"%d\t%s\n" % (number, escaped(string)))
        except ntriples.NotATerm:
            return failed(1, f"{role} {number} is not a term")
    return done(b"".join(lines))


def prefixes_of(strings: Sequence[bytes]) -> list[bytes]:
    """Prefixes of some strings, which are UTF-8, and texts that are none."""
    texts = [string.decode() for string in strings]
    cut = {text[:length] for text in texts for length in (0, 1, 3, len(text) - 1, len(text))}
    nowhere = {text + "!" for text in texts} | {"!", "\U0010ffff"}
    return sorted(text.encode() for text in cut | nowhere)


def check(path: Path, data: bytes) -> None:
    """Compare the results of all command lines for a file, which is written to the path."""
    path.write_bytes(data)
    dictionary = reference.read_file(data).dictionary
    for role in reference.ROLES:
        strings = dictionary.strings(role)
        cases: list[tuple[list[Word], Result]] = [(["--terms"], listed(strings, role, b"", True))]
        for prefix in prefixes_of(strings):
            cases += [(["--prefix", prefix], listed(strings, role, prefix, False)),
                      (["--terms", b"--prefix=" + prefix], listed(strings, role, prefix, True))]
        seen = [(words, brief(hdt("strings", path, role, *words))) for words, _ in cases]
        assert seen == [(words, brief(wanted)) for words, wanted in cases]


FILES = {
    "three triples": reference.graph(THREE_TRIPLES)[0],
    "terms of all kinds": KINDS_DATA,
    "terms of all kinds, a string a block": reference.graph(KINDS, block_size=1)[0],
    "terms of all kinds, blocks of three": reference.graph(KINDS, block_size=3)[0],
    "strings that are not terms": reference.graph(REL)[0],
    "unused strings": UNUSED,
}


@pytest.mark.parametrize("data", FILES.values(), ids=FILES)
def test_files(tmp_path: Path, data: bytes) -> None:
    """Every role of a few files, with every prefix of some lengths."""
    check(tmp_path / "graph.hdt", data)


# The options of `strings`, the role, and what is printed.
LINES: dict[str, tuple[str, list[Word], bytes]] = {
    "shared strings come first": ("subject", ["--prefix", "http://a/"],
                                  b"2\thttp://a/2\n3\thttp://a/3\n5\thttp://a/1\n"),
    "terms, without IDs": ("subject", ["--prefix", "http://a/", "--terms"],
                           b"<http://a/2>\n<http://a/3>\n<http://a/1>\n"),
    "predicates": ("predicate", ["--prefix", "http://b"], b"3\thttp://b/p\n"),
    "a literal begins with its quotation mark": ("object", ["--prefix", '"http'], b'5\t"http://a/"\n'),
    "a literal with escapes": ("object", ["--prefix", '"a', "--terms"], b'"a\\\\\\n\\r\t"@en\n'),
    "blank nodes": ("subject", ["--prefix", "_:", "--terms"], b"_:b1\n_:b2\n"),
    "a character of two bytes": ("object", ["--prefix", "u:\u00ea"], "7\tu:\u00ea\n".encode()),
    "no string": ("object", ["--prefix", "http://c"], b""),
    "all terms": ("predicate", ["--terms"], b"<http://a/p>\n<http://a/q>\n<http://b/p>\n<u:p>\n"),
    "an empty prefix": ("predicate", ["--prefix", ""], b"1\thttp://a/p\n2\thttp://a/q\n3\thttp://b/p\n4\tu:p\n"),
}


@pytest.mark.parametrize("role, words, wanted", LINES.values(), ids=LINES)
def test_lines(tmp_path: Path, role: str, words: list[Word], wanted: bytes) -> None:
    """The lines of a few prefixes."""
    path = tmp_path / "graph.hdt"
    path.write_bytes(KINDS_DATA)
    assert hdt("strings", path, role, *words) == done(wanted)


def test_terms_are_ready_for_find(tmp_path: Path) -> None:
    """Each line of `--terms` is taken by `find`, in its role, and finds what the string finds with `--raw`."""
    path = tmp_path / "graph.hdt"
    path.write_bytes(KINDS_DATA)
    for at, role in enumerate(reference.ROLES):
        strings = reference.read_file(KINDS_DATA).dictionary.strings(role)
        terms = hdt("strings", path, role, "--terms").out.splitlines()
        assert len(terms) == len(strings)
        for term, string in zip(terms, strings):
            found, raw = ([*"???"][:at] + [word] + [*"???"][at + 1:] for word in (term, string))
            assert hdt("find", path, *found) == hdt("find", path, *raw, "--raw")
            assert hdt("find", path, *found, "--count").out != b"0\n"


def test_not_a_term(tmp_path: Path) -> None:
    """A string that is not a term is an error only if it is to be printed as one, and then nothing is printed."""
    path = tmp_path / "graph.hdt"
    path.write_bytes(FILES["strings that are not terms"])
    assert hdt("strings", path, "predicate", "--terms") == failed(1, "predicate 1 is not a term")
    assert hdt("strings", path, "predicate", "--terms", "--prefix", "u:") == done(b"<u:p>\n")
    assert hdt("strings", path, "predicate", "--prefix", "r") == done(b"1\trel\n")
    assert hdt("strings", path, "object", "--terms") == failed(1, "object 1 is not a term")


# What follows the file in command lines that are not requests.
NOT_REQUESTS: list[list[Word]] = [
    ["--terms"],
    ["subject", "--prefix"],
    ["subject", "--prefix", "a", "b"],
    ["subject", "--prefix", "a", "--prefix", "b"],
    ["subject", "--prefix", b"\xff"],
    ["subject", "--terms=yes"],
    ["subject", "--raw"],
]


def test_errors(tmp_path: Path) -> None:
    """A file that is cut off, a missing one, and words that are no request."""
    path, data = tmp_path / "graph.hdt", FILES["three triples"]
    assert hdt("strings", path, "subject", "--prefix", "u:") == READING_FAILED
    path.write_bytes(data[:-1])
    wanted = checks.error_of(reference.read_file, data[:-1])
    assert wanted is not None
    assert hdt("strings", path, "subject", "--terms") == fault(*wanted)
    path.write_bytes(data)
    for words in NOT_REQUESTS:
        result = hdt("strings", path, *words)
        assert (words, result.status, result.out) == (words, 2, b"")


TERMS = st.sampled_from([b"u:a", b"u:b", b"u:ab", b"u:abc", b"u:b\xc3\xa9", b"_:b", b"_:b1"])
OBJECTS = TERMS | st.sampled_from([b'"x"', b'"x"@en', b'"\\\n\r"', b'"x"^^<u:t>', b"rel"])
TRIPLES = st.lists(
    st.tuples(TERMS, st.sampled_from([b"u:p", b"u:pq", b"u:r", b"u:a"]), OBJECTS), min_size=1, max_size=12, unique=True
)


@settings(max_examples=25, deadline=None, suppress_health_check=[HealthCheck.function_scoped_fixture])
@given(TRIPLES, st.integers(1, 4))
@example([(b"u:a", b"u:p", b"u:a")], 1)
def test_any_graph(tmp_path: Path, triples: list[Triple], block_size: int) -> None:
    """Any small graph."""
    check(tmp_path / "graph.hdt", reference.graph(triples, block_size=block_size)[0])


@pytest.mark.parametrize("block_size", [16, 65_535])
def test_large_graph(tmp_path: Path, block_size: int) -> None:
    """100,000 strings: a few of them, half of them, and all."""
    path = tmp_path / "graph.hdt"
    data, _, _ = reference.graph([(b"u:s%06d" % n, b"u:p", b'"%d"' % n) for n in range(100_000)], block_size=block_size)
    path.write_bytes(data)
    strings = reference.read_file(data).dictionary.strings("object")
    for prefix in (b'"99999', b'"4', b'"', b"u"):
        for terms in (False, True):
            words: list[Word] = ["--prefix", prefix, *(["--terms"] if terms else [])]
            assert brief(hdt("strings", path, "object", *words)) == brief(listed(strings, "object", prefix, terms))


def test_linear_time(tmp_path: Path) -> None:
    """Strings in one block are listed in linear time: sixteen times as many take far less than 256 times as long."""
    options: list[list[Word]] = [[], ["--terms"]]
    lines: dict[int, tuple[bytes, bytes]] = {}
    for count in (4_000, 64_000):
        strings = [b'"%06d"' % n for n in range(count)]
        data = reference.graph([(b"u:s", b"u:p", string) for string in strings], block_size=65_535)[0]
        (tmp_path / f"{count}.hdt").write_bytes(data)
        lines[count] = (b"".join(b"%d\t%s\n" % row for row in enumerate(strings, 1)), b"\n".join(strings) + b"\n")

    def seconds(count: int) -> float:
        total = 0.0
        for more, wanted in zip(options, lines[count]):
            result, taken = timed([PROGRAM, "strings", tmp_path / f"{count}.hdt", "object", "--prefix", '"', *more])
            assert brief(result) == brief(done(wanted))
            total += taken
        return total

    measured = measure(lambda: seconds(4_000), lambda: seconds(64_000), 32, 0.02)
    assert is_linear(measured, 32, 0.02), measured
