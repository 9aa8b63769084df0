"""`hdt find` and `hdt dump`: the triples of a pattern, as N-Triples, as IDs and counted, against a filter of all."""

from __future__ import annotations

import os
from collections.abc import Sequence
from itertools import product
from pathlib import Path

import pytest
from hypothesis import HealthCheck, example, given, settings
from hypothesis import strategies as st

from reference import hdt as reference
from reference import ntriples
from support.built import SAMPLES
from support.probe import Probe
from support.program import READING_FAILED, WRITING_FAILED, Result, Word, brief, done, failed, fault, hdt, hdt_into
from support.search import THREE as THREE_TRIPLES
from support.search import THREE_PATTERNS, Graph, Pattern, Triple, chosen, not_a_term_past_16_bits, words_of

V1 = (SAMPLES / "v1.hdt").read_bytes()
THREE = SAMPLES / "three.hdt"
FIRST, SECOND, THIRD = (SAMPLES / "three.nt").read_bytes().splitlines(keepends=True)


def kinds_of_terms() -> list[Triple]:
    """Triples of all kinds of terms: blank nodes, IRIs, and literals that are plain, tagged, typed and escaped."""
    subjects = b"_:b", b"_:b.1", b"u:a", "u:\u00e9".encode()
    objects = (b'"x"', b'"x"@en', b'"x"^^<u:t>', b'"a\\"b"\n\r\t"@en-GB', b'"' + b'"@"' + b'"', b"_:b", b"u:a",
               "\"\u20ac\"".encode())
    return list(product(subjects, (b"u:p", b"u:q"), objects))


def many_triples() -> list[Triple]:
    """20,000 triples, one of which has a literal of 100,000 bytes."""
    subjects = [b"http://example.org/subject/%d" % s for s in range(2_000)]
    values = [(subjects[s], b"http://example.org/predicate/%d" % p, b'"%d"@en' % (s % 700 + p * o))
              for s in range(2_000) for p in range(2) for o in range(1, 6)]
    links = [(subjects[s], b"http://example.org/next", subjects[s * n % 2_000])
             for s in range(2_000) for n in range(7)]
    long = subjects[7], b"http://example.org/text", b'"' + b"long " * 20_000 + b'"'
    return [*sorted({*values, *links})[:19_999], long]


GRAPHS = {
    "three": THREE_TRIPLES,
    "kinds": kinds_of_terms(),
    "many": many_triples(),
}


def patterns_of(triples: Sequence[Triple]) -> list[Pattern]:
    """The eight patterns of a few triples, and strings that are nowhere or in another role."""
    chosen = {triples[0], triples[len(triples) // 3], triples[-1]}
    given = [tuple(string if mask >> role & 1 else None for role, string in enumerate(triple))
             for triple in sorted(chosen) for mask in range(8)]
    return [
        *dict.fromkeys((pattern[0], pattern[1], pattern[2]) for pattern in given),
        (b"u:nowhere", None, None),
        (None, b"u:nowhere", None),
        (None, None, b'"nowhere"'),
        (b'"a literal"@en', None, None),
        (None, b"_:blank", None),
        (triples[0][0], None, triples[-1][1]),
    ]


LONGEST: list[Pattern] = [(None, None, b'"' + b"long " * 20_000 + b'"')]

PATTERNS = {
    **{f"{name}, pattern {n}": (name, pattern)
       for name, triples in GRAPHS.items() for n, pattern in enumerate(patterns_of(triples))},
    **{f"three, product {n}": ("three", pattern) for n, pattern in enumerate(THREE_PATTERNS)},
    "many, the longest literal": ("many", LONGEST[0]),
}


@pytest.fixture(scope="module")
def graphs(tmp_path_factory: pytest.TempPathFactory) -> dict[str, tuple[Graph, Path]]:
    """The graphs and the paths of their files."""
    folder = tmp_path_factory.mktemp("graphs")
    made = {}
    for name, triples in GRAPHS.items():
        graph, path = Graph(triples), folder / f"{name}.hdt"
        path.write_bytes(graph.data)
        made[name] = graph, path
    return made


def asked(path: Path, graph: Graph, pattern: Pattern) -> list[tuple[list[Word], Result]]:
    """Command lines of a pattern, in all forms, whole and in part, and their results."""
    terms: list[Word] = ["--", path, *words_of(pattern, False)]
    strings: list[Word] = ["--", path, *words_of(pattern, True)]
    lines, ids, count = graph.results(pattern)
    cases: list[tuple[list[Word], Result]] = [
        (["find", *terms], lines),
        (["find", "--raw", *strings], lines),
        (["find", "--numbers", *terms], ids),
        (["find", "--raw", "--numbers", *strings], ids),
        (["find", "--count", *terms], count),
    ]
    found = int(count.out)
    for most in sorted({0, 1, 2, found // 2, found, found + 1, 2**64 - 1}):
        lines, ids, count = graph.results(pattern, most)
        cases += [
            (["find", "--most", str(most), *terms], lines),
            (["find", f"--most={most}", "--numbers", *terms], ids),
            (["find", "--raw", "--count", "--numbers", "--most", str(most), *strings], count),
        ]
    return cases


@pytest.mark.parametrize("name, pattern", PATTERNS.values(), ids=PATTERNS)
def test_find(graphs: dict[str, tuple[Graph, Path]], name: str, pattern: Pattern) -> None:
    """`find` by terms and strings, as N-Triples, as IDs and counted, whole and in part, is a filter of all triples."""
    graph, path = graphs[name]
    cases = asked(path, graph, pattern)
    seen = [(words, brief(hdt(*words))) for words, _ in cases]
    assert seen == [(words, brief(wanted)) for words, wanted in cases]


@pytest.mark.parametrize("name", GRAPHS)
def test_dump(graphs: dict[str, tuple[Graph, Path]], name: str) -> None:
    """`dump` prints all triples in the order of the file."""
    graph, path = graphs[name]
    assert brief(hdt("dump", path)) == brief(done(b"".join(map(ntriples.put_strings, graph.triples))))


def test_graphs() -> None:
    """The graphs above are what their names say: the sample's triples, and 20,000 of them."""
    assert reference.graph(GRAPHS["three"])[0][-239:] == THREE.read_bytes()[-239:]
    assert len(set(GRAPHS["many"])) == len(GRAPHS["many"]) == 20_000


# ---- results one by one


REL = reference.graph([(b"u:s", b"rel", b"u:o")])[0]
TWO = reference.graph([(b"u:s", b"u:p", b"u:o"), (b"u:s", b"u:q", b'"no end'), (b'"x"', b"u:p", b"u:o")])[0]
NO_REL = failed(1, "predicate 1 is not a term")
CUT_AT_291 = fault(1, "Truncated", 291)
CUT_AT_453 = fault(1, "Truncated", 453)

# The file, the words after it, and the result. `v1` and `three` are samples; `rel` and `two` have strings that are not
# terms; `short` and `less` are cut off; `none` is missing.
RESULTS: dict[str, tuple[str, list[str], str, list[str], Result]] = {
    "dump of the sample": ("dump", [], "v1", [], done((SAMPLES / "v1.nt").read_bytes())),
    "dump of three triples": ("dump", [], "three", [], done(FIRST + SECOND + THIRD)),
    "a predicate": ("find", [], "three", ["?", "<u:p>", "?"], done(FIRST + THIRD)),
    "IDs of an object": ("find", ["--numbers"], "three", ["?", "?", '"x"'], done(b"1 2 3\n")),
    "an object that is nowhere": ("find", [], "three", ["?", "?", "<u:z>"], done()),
    "a literal as subject": ("find", [], "three", ['"x"', "?", "?"], done()),
    "a blank node as predicate": ("find", [], "three", ["?", "_:b", "?"], done()),
    "? as a string": ("find", ["--raw"], "three", ["?", "?", "?"], done(FIRST + SECOND + THIRD)),
    "strings": ("find", ["--raw"], "three", ["u:a", "?", '"x"'], done(SECOND)),
    "a string that is not a term": ("dump", [], "rel", [], NO_REL),
    "that with a pattern": ("find", [], "rel", ["<u:s>", "?", "?"], NO_REL),
    "that as a string": ("find", ["--raw"], "rel", ["?", "rel", "?"], NO_REL),
    "its IDs": ("find", ["--numbers"], "rel", ["?", "?", "?"], done(b"1 1 1\n")),
    "that by two strings": ("find", ["--raw"], "rel", ["?", "rel", "u:o"], NO_REL),
    "its IDs by a term": ("find", ["--numbers"], "rel", ["<u:s>", "?", "?"], done(b"1 1 1\n")),
    "its IDs by two strings": ("find", ["--raw", "--numbers"], "rel", ["?", "rel", "u:o"], done(b"1 1 1\n")),
    "a count of strings that are not terms": ("find", ["--count"], "rel", ["<u:s>", "?", "?"], done(b"1\n")),
    "strings that are not terms after the last that is asked for": (
        "find", ["--most", "1"], "two", ["<u:s>", "?", "?"], done(b"<u:s> <u:p> <u:o> .\n")),
    "the first that is not a term among those asked for": (
        "find", ["--most", "2"], "two", ["<u:s>", "?", "?"], failed(1, "object 1 is not a term")),
    "no triples asked for": ("find", ["--most", "0"], "rel", ["?", "?", "?"], done()),
    "a count of no triples": ("find", ["--most", "0", "--count"], "rel", ["?", "?", "?"], done(b"0\n")),
    "a count of what is nowhere": ("find", ["--count"], "three", ["?", "?", "<u:z>"], done(b"0\n")),
    "a count in a file cut off": ("find", ["--count"], "short", ["<u:z>", "?", "?"], CUT_AT_291),
    "what is not found need not be a term": ("find", [], "rel", ["?", "?", "<u:s>"], done()),
    "its IDs by a string": ("find", ["--raw", "--numbers"], "rel", ["?", "rel", "?"], done(b"1 1 1\n")),
    "the first string that is not a term": ("dump", [], "two", [], failed(1, "subject 1 is not a term")),
    "the first one that is found": ("find", [], "two", ["<u:s>", "?", "?"], failed(1, "object 1 is not a term")),
    "none that is found": ("find", [], "two", ["<u:s>", "<u:p>", "?"], done(b"<u:s> <u:p> <u:o> .\n")),
    "S is not a term": ("find", [], "three", ["x", "y", "z"], failed(2, "S column 1: 1 Syntax")),
    "P is not a term": ("find", [], "three", ["?", "<y>", "z"], failed(2, "P column 1: 4 RelativeIri")),
    "O is not a term": ("find", [], "three", ["<u:a>", "?", '"z'], failed(2, "O column 3: 1 Syntax")),
    "S before a missing file": (
        "find", [], "none", [r"<u:\u0020>", "?", "?"], failed(2, "S column 4: 5 IriCharacter")),
    "a missing file": ("dump", [], "none", [], READING_FAILED),
    "dump of a file cut off": ("dump", [], "short", [], CUT_AT_291),
    "a file cut off": ("find", [], "short", ["<u:z>", "?", "?"], CUT_AT_291),
    "a file without its last byte": ("find", [], "less", ["?", "?", "<u:z>"], CUT_AT_453),
    "IDs in a file without its last byte": ("find", ["--numbers"], "less", ["?", "?", "<u:z>"], CUT_AT_453),
}


@pytest.fixture(scope="module")
def files(tmp_path_factory: pytest.TempPathFactory) -> dict[str, Path]:
    """The files of the results above."""
    folder = tmp_path_factory.mktemp("files")
    made = {"v1": SAMPLES / "v1.hdt", "three": THREE, "none": folder / "none"}
    data = {"rel": REL, "two": TWO, "short": V1[:300], "less": THREE.read_bytes()[:-1]}
    for name, content in data.items():
        made[name] = folder / f"{name}.hdt"
        made[name].write_bytes(content)
    return made


@pytest.mark.parametrize("command, options, file, words, wanted", RESULTS.values(), ids=RESULTS)
def test_results(files: dict[str, Path], command: str, options: list[str], file: str, words: list[str],
                 wanted: Result) -> None:
    """Results of `find` and `dump`, also of strings that are not terms, of damaged and of missing files."""
    assert hdt(command, *options, files[file], *words) == wanted


REFUSED_WORDS: dict[str, list[Word]] = {
    "two words of three": ["find", THREE, "?", "?"],
    "a fourth word": ["find", THREE, "?", "?", "?", "?"],
    "dump with an option": ["dump", "--numbers", THREE],
    "no value for --most": ["find", THREE, "?", "?", "?", "--most"],
    "a value below zero": ["find", THREE, "?", "?", "?", "--most=-1"],
    "a value of 65 bits": ["find", THREE, "?", "?", "?", "--most", str(2**64)],
    "--most twice": ["find", "--most", "1", "--most", "2", THREE, "?", "?", "?"],
}


@pytest.mark.parametrize("words", REFUSED_WORDS.values(), ids=REFUSED_WORDS)
def test_refused_words(words: list[Word]) -> None:
    """A wrong command line has status 2, and prints nothing on standard output."""
    status, out, err = hdt(*words)
    assert (status, out, err[:7]) == (2, b"", b"error: ")


def test_dump_into_a_full_disk() -> None:
    """A dump that cannot be written is a failed write."""
    assert hdt_into("/dev/full", "dump", THREE) == WRITING_FAILED


# ---- any graph, any pattern


IRIS = [b"u:a", b"u:b", b"u:p", b"http://example.org/x", "u:\u00e9".encode()]
NODES = [*IRIS, b"_:b", b"_:b.1"]
TERMS = [*NODES, b'"x"', b'""', b'"x"@en', b'"x"^^<u:t>', b'"a"b\\\n\r\t"@en-GB', b'"_:b"', b'"u:a"']
# Strings that are not terms, and one that is written with escapes.
ODD = [b"", b"rel", b'"open', b"<u:a>", b"_:", b"??", b"no\ttab\nor\\line", b"u:with space"]

triples_of_terms = st.tuples(st.sampled_from(NODES), st.sampled_from(IRIS), st.sampled_from(TERMS))
triples_of_strings = st.tuples(*[st.sampled_from(TERMS + ODD)] * 3)
# Of each role: any string, the string of a triple, or a string that may be nowhere.
choices = st.tuples(*[st.none() | st.integers(0, 24) | st.sampled_from(TERMS)] * 3)
mosts = st.none() | st.integers(0, 8) | st.sampled_from([255, 256, 2**16, 2**32, 2**64 - 1])


# Each example writes its file to the same path, and runs the program three times.
any_path = settings(suppress_health_check=[HealthCheck.function_scoped_fixture],
                    max_examples=settings.default.max_examples // 2)


def check_pattern(path: Path, triples: Sequence[Triple], choice: Sequence[int | bytes | None], most: int | None,
                  raw: bool) -> None:
    """Compare each form of `find` of a pattern with the filter of the graph's triples."""
    graph = Graph(triples)
    path.write_bytes(graph.data)
    pattern = chosen(graph.triples, choice)
    options = [*(["--raw"] if raw else []), *([] if most is None else ["--most", str(most)])]
    words: list[Word] = [*options, "--", path, *words_of(pattern, raw)]
    seen = hdt("find", *words), hdt("find", "--numbers", *words), hdt("find", "--count", *words)
    assert seen == graph.results(pattern, most)


@any_path
@given(st.lists(triples_of_terms, min_size=1, max_size=25), choices, mosts, st.booleans())
@example(THREE_TRIPLES, (None, b"u:p", None), 1, False)
def test_any_pattern(tmp_path: Path, triples: list[Triple], choice: tuple[int | bytes | None, ...], most: int | None,
                     raw: bool) -> None:
    """Each form of `find` of any pattern, by terms or by strings, is the filter of the graph's triples."""
    check_pattern(tmp_path / "any.hdt", triples, choice, most, raw)


@any_path
@given(st.lists(triples_of_strings, min_size=1, max_size=12), choices, mosts)
@example([(b"u:s", b"u:p", b"u:o"), (b"u:s", b"u:q", b'"no end')], (b"u:s", None, None), 2)
def test_any_strings(tmp_path: Path, triples: list[Triple], choice: tuple[int | bytes | None, ...],
                     most: int | None) -> None:
    """The same by strings where strings need not be terms: the first that is printed and not a term is reported."""
    check_pattern(tmp_path / "any.hdt", triples, choice, most, True)


# ---- any command line


parts = st.tuples(*[st.none() | st.sampled_from(TERMS)] * 3)
flags = st.lists(st.sampled_from(["--raw", "--numbers", "--count"]), unique=True)
most_words = st.none() | st.tuples(st.integers(0, 2**64 - 1), st.booleans())


@given(parts, flags, most_words, st.lists(st.integers(0, 4), min_size=4, max_size=4))
def test_any_command_line(probe: Probe, pattern: Pattern, given_flags: list[str], most: tuple[int, bool] | None,
                          positions: list[int]) -> None:
    """Options may be anywhere before, between and after the file and the terms, and mean the same."""
    raw = "--raw" in given_flags
    groups: list[list[Word]] = [[flag] for flag in given_flags]
    if most is not None:
        groups.append([f"--most={most[0]}"] if most[1] else ["--most", str(most[0])])
    words: list[list[Word]] = [[word] for word in ["a.hdt", *words_of(pattern, raw)]]
    for position, group in sorted(zip(positions, groups), reverse=True):
        words.insert(position, group)
    line = [os.fsencode(word) for group in words for word in group]
    form = 2 if "--count" in given_flags else int("--numbers" in given_flags)
    strings = ["none" if part is None else part.hex() for part in pattern]
    action = (["find", *strings, ["false", "true"][form]] if most is None and form < 2
              else ["search", *strings, str(form), "none" if most is None else str(most[0])])
    assert probe.ask("parse_words", b"hdt", b"find", *line) == ("ok", b"a.hdt".hex(), "none", *action)


# ---- IDs past 16 bits


def test_not_a_term_past_16_bits(tmp_path: Path) -> None:
    """The ID of a string that is no term is printed whole, by each command that meets it."""
    path = tmp_path / "large.hdt"
    path.write_bytes(not_a_term_past_16_bits())
    wanted = failed(1, "object 70001 is not a term")
    assert hdt("dump", path) == hdt("find", path, "?", "?", "?") == wanted
    assert hdt("find", "--raw", path, "?", "?", "rel") == wanted
    assert hdt("string", path, "object", "70001") == done(b"rel\n")
