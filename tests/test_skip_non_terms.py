"""`--skip-non-terms` of `find`, `dump` and `answer`, and `verify --terms`: what has no form in N-Triples."""

from __future__ import annotations

from contextlib import suppress
from pathlib import Path

import pytest
from hypothesis import HealthCheck, example, given, settings
from hypothesis import strategies as st

from reference import hdt as reference
from reference import ntriples
from support.program import WRITING_FAILED, Result, Word, done, fault, hdt, hdt_into
from support.python_package import hdt as package
from support.search import THREE, Pattern, Triple, chosen, is_term_of, matches, not_a_term_past_16_bits, spelled

# One triple has a line, one an object that is no term, one a literal as subject, one a predicate that is no IRI.
FOUR: list[Triple] = [(b"u:s", b"u:p", b"u:o"), (b"u:s", b"u:q", b'"no end'), (b'"x"', b"u:p", b"u:o"),
                      (b"u:t", b"rel", b'"x"')]
# `"x"` is a shared string: a term as an object, none as a subject. So is `rel`: in neither role is it a term.
SHARED: list[Triple] = [(b'"x"', b"u:p", b"u:o"), (b"rel", b"u:p", b'"x"'), (b"u:s", b"u:p", b"rel")]

any_path = settings(suppress_health_check=[HealthCheck.function_scoped_fixture])
strings = st.sampled_from([b"u:a", b"u:b", b"_:b", b'"x"', b'"no end', b"rel", b"", b"u:p", b'"y"@en', b"_:"])
triples_of_strings = st.tuples(strings, strings, strings)
choices = st.tuples(*[st.none() | st.integers(0, 50)] * 3)
mosts = st.none() | st.integers(0, 30)


def reported(lines: bytes, message: str, count: int) -> Result:
    """The result of a command that prints these lines, and how many triples or strings it counts."""
    return Result(1, lines, f"hdt: {message}: {count}\n".encode()) if count else done(lines)


def kept(found: list[Triple], most: int | None) -> tuple[list[Triple], int]:
    """The first triples whose strings are terms of their roles, and how many others are before the last of them."""
    lines: list[Triple] = []
    skipped = 0
    for triple in found:
        if most is not None and len(lines) == most:
            break
        if all(is_term_of(string, role) for role, string in enumerate(triple)):
            lines.append(triple)
        else:
            skipped += 1
    return lines, skipped


def raw_words(pattern: Pattern) -> list[Word]:
    """S, P and O of a pattern, as strings."""
    return ["?" if string is None else string for string in pattern]


def check_find(path: Path, triples: list[Triple], pattern: Pattern, most: int | None) -> None:
    """Compare `find --skip-non-terms`, with and without `--count` and `--numbers`, with a filter of all triples."""
    data, ids, ordered = reference.graph(triples)
    path.write_bytes(data)
    limit: list[Word] = [] if most is None else ["--most", str(most)]
    words: list[Word] = [path, *raw_words(pattern), "--raw", *limit, "--skip-non-terms"]
    places = [n for n, triple in enumerate(ordered) if matches(pattern, triple)]
    lines, skipped = kept([ordered[n] for n in places], most)
    numbers = b"".join(b"%d %d %d\n" % ids[n] for n in places[:most])
    assert hdt("find", *words) == reported(b"".join(map(ntriples.put_strings, lines)), "triples skipped", skipped)
    assert hdt("find", "--count", *words) == reported(b"%d\n" % len(lines), "triples skipped", skipped)
    assert hdt("find", "--numbers", *words) == done(numbers)
    assert hdt("find", "--quiet", *words) == Result(0 if places else 1, b"", b"")


def check_dump(path: Path, triples: list[Triple]) -> None:
    """Compare `dump --skip-non-terms` with a filter of all triples."""
    data, _, ordered = reference.graph(triples)
    path.write_bytes(data)
    lines, skipped = kept(ordered, None)
    wanted = reported(b"".join(map(ntriples.put_strings, lines)), "triples skipped", skipped)
    assert hdt("dump", "--skip-non-terms", path) == hdt("dump", path, "--skip-non-terms") == wanted


def raw_request(pattern: Pattern) -> bytes:
    """A request of strings for a pattern."""
    return b"\t".join(b"?" if string is None else string for string in pattern)


def check_answer(path: Path, triples: list[Triple], patterns: list[Pattern], most: int | None) -> None:
    """Compare `answer --skip-non-terms`, with and without `--count` and `--numbers`, with a filter of all triples."""
    data, _, ordered = reference.graph(triples)
    path.write_bytes(data)
    requests = [raw_request(pattern) for pattern in patterns]
    # (three empty strings are a blank line)
    found = [kept([triple for triple in ordered if matches(pattern, triple)], most)
             for pattern, line in zip(patterns, requests) if ntriples.parse_raw_request(line) is not None]
    lines = b"".join(b"".join(map(ntriples.put_strings, one)) + b"\n" for one, _ in found)
    counts = b"".join(b"%d\n\n" % len(one) for one, _ in found)
    skipped = sum(count for _, count in found)
    limit: list[Word] = [] if most is None else ["--most", str(most)]
    words: list[Word] = [path, "--raw", *limit]
    asked = b"".join(line + b"\n" for line in requests)
    assert hdt("answer", "--skip-non-terms", *words, stdin=asked) == reported(lines, "triples skipped", skipped)
    assert (hdt("answer", *words, "--count", "--skip-non-terms", stdin=asked)
            == reported(counts, "triples skipped", skipped))
    assert (hdt("answer", *words, "--numbers", "--skip-non-terms", stdin=asked)
            == hdt("answer", *words, "--numbers", stdin=asked))


def verdict(data: bytes) -> Result:
    """The result of `verify --terms`."""
    file = reference.read_file(data)
    lines = [b"%s\t%d\t%d\n" % (name.encode(), number, offset)
             for role, name in enumerate(reference.ROLES)
             for number, (string, offset) in enumerate(
                 zip(file.dictionary.strings(name), file.dictionary.offsets(name)), 1)
             if not is_term_of(string, role)]
    if not lines:
        return done(b"ok %d %d %d %d %d\n" % file.counts)
    return reported(b"".join(lines), "strings that are not terms", len(lines))


def check_verify(path: Path, data: bytes) -> None:
    """Compare `verify --terms`."""
    path.write_bytes(data)
    assert hdt("verify", "--terms", path) == verdict(data)


@pytest.mark.parametrize("triples", [THREE, FOUR, SHARED], ids=["three", "four", "shared"])
def test_graphs(tmp_path: Path, triples: list[Triple]) -> None:
    """All patterns of graphs with and without such strings, with limits."""
    check_dump(tmp_path / "g.hdt", triples)
    check_verify(tmp_path / "g.hdt", reference.graph(triples)[0])
    for most in (None, 0, 1, 2, 5):
        patterns: list[Pattern] = []
        for triple in triples:
            for mask in range(8):
                s, p, o = (string if mask >> role & 1 else None for role, string in enumerate(triple))
                check_find(tmp_path / "g.hdt", triples, (s, p, o), most)
                patterns.append((s, p, o))
        check_answer(tmp_path / "g.hdt", triples, patterns, most)


@any_path
@given(st.lists(triples_of_strings, min_size=1, max_size=20, unique=True), choices, mosts)
@example(FOUR, (None, None, None), 1)
def test_any_find(tmp_path: Path, triples: list[Triple], choice: tuple[int | None, ...], most: int | None) -> None:
    """Any pattern and limit."""
    check_find(tmp_path / "any.hdt", triples, chosen(triples, choice), most)


@any_path
@given(st.lists(triples_of_strings, min_size=1, max_size=20, unique=True), st.lists(choices, max_size=6), mosts)
@example(FOUR, [(None, None, None), (0, None, None), (2, None, None)], None)
def test_any_answers(tmp_path: Path, triples: list[Triple], asked: list[tuple[int | None, ...]],
                     most: int | None) -> None:
    """Any requests and limit: the number is that of all answers."""
    check_answer(tmp_path / "any.hdt", triples, [chosen(triples, choice) for choice in asked], most)


@any_path
@given(st.lists(triples_of_strings, min_size=1, max_size=20, unique=True), st.integers(1, 5))
def test_any_file(tmp_path: Path, triples: list[Triple], block_size: int) -> None:
    """Any file, with blocks of any size."""
    check_dump(tmp_path / "any.hdt", triples)
    check_verify(tmp_path / "any.hdt", reference.graph(triples, None, block_size)[0])


def test_terms(tmp_path: Path) -> None:
    """Terms are searched as without the flag."""
    path = tmp_path / "four.hdt"
    path.write_bytes(reference.graph(FOUR)[0])
    wanted = reported(b"<u:s> <u:p> <u:o> .\n", "triples skipped", 1)
    assert hdt("find", "--skip-non-terms", path, spelled(b"u:s"), "?", "?") == wanted
    assert hdt("find", "--skip-non-terms", path, "<u:none>", "?", "?") == done()


# Requests over the four triples, and the result with `--skip-non-terms` and without it.
FIRST = b"<u:s> <u:p> <u:o> .\n\n"
ERROR = b"# line 2 column 1: 1 Syntax\n\n"
REQUESTS: dict[str, tuple[bytes, Result, Result]] = {
    "none": (b"", done(), done()),
    "none skipped": (b"<u:s> <u:p> ?\n<u:none> ? ?\n", done(FIRST + b"\n"), done(FIRST + b"\n")),
    "one skipped": (b"<u:s> ? ?\n", reported(FIRST, "triples skipped", 1),
                    Result(1, b"# object 2 is not a term\n\n", b"")),
    "an invalid request, none skipped": (b"<u:s> <u:p> ?\nx\n", Result(1, FIRST + ERROR, b""),
                                         Result(1, FIRST + ERROR, b"")),
    "an invalid request between others": (b"<u:s> ? ?\nx\n\n? <u:q> ?\n? ? <u:o>\n",
                                          reported(FIRST + ERROR + b"\n" + FIRST, "triples skipped", 3),
                                          Result(1, b"# object 2 is not a term\n\n" + ERROR
                                                 + b"# object 2 is not a term\n\n# subject 1 is not a term\n\n", b"")),
}


@pytest.mark.parametrize("requests, wanted, unskipped", REQUESTS.values(), ids=REQUESTS)
def test_answers(tmp_path: Path, requests: bytes, wanted: Result, unskipped: Result) -> None:
    """The total of all answers is on standard error at the end, and no answer reports a string that is not a term."""
    path = tmp_path / "four.hdt"
    path.write_bytes(reference.graph(FOUR)[0])
    assert hdt("answer", path, "--skip-non-terms", stdin=requests) == wanted
    assert hdt("answer", path, stdin=requests) == unskipped


def test_answers_of_terms_alone(tmp_path: Path) -> None:
    """Over a graph that has only terms the flag changes nothing."""
    path = tmp_path / "three.hdt"
    path.write_bytes(reference.graph(THREE)[0])
    requests = b"? ? ?\n<u:a> ? ?\n? <u:q> ?\n"
    wanted = hdt("answer", path, stdin=requests)
    assert wanted.status == 0 and hdt("answer", path, "--skip-non-terms", stdin=requests) == wanted


def test_answers_before_an_error(tmp_path: Path) -> None:
    """If the answers cannot be written, that is the error, and no number is printed."""
    path = tmp_path / "four.hdt"
    path.write_bytes(reference.graph(FOUR)[0])
    assert hdt_into("/dev/full", "answer", path, "--skip-non-terms", stdin=b"? ? ?\n" * 1_000) == WRITING_FAILED


def test_answers_of_many(tmp_path: Path) -> None:
    """A thousand requests, of which each skips 100 triples: their sum is above 16 bits."""
    path = tmp_path / "hundreds.hdt"
    path.write_bytes(reference.graph([(b"u:s", b"u:p", b'"%03d"' % n if n % 2 else b"rel%03d" % n)
                                      for n in range(200)])[0])
    assert hdt("answer", path, "--skip-non-terms", "--count", stdin=b"<u:s> ? ?\n" * 1_000) == reported(
        b"100\n\n" * 1_000, "triples skipped", 100_000)


def test_errors_of_the_file(tmp_path: Path) -> None:
    """The first error of the file is reported, with the flags as without them."""
    path = tmp_path / "cut.hdt"
    data = reference.graph(FOUR)[0]
    path.write_bytes(data[:-1])
    wanted = hdt("verify", path)
    assert wanted.status == 1 and hdt("verify", "--terms", path) == wanted
    assert hdt("verify", "--terms", "--tight", path) == hdt("dump", "--skip-non-terms", path) == wanted
    assert hdt("answer", "--skip-non-terms", path, stdin=b"? ? ?\n") == wanted


def test_tight(tmp_path: Path) -> None:
    """With `--tight` a string that no triple uses comes first."""
    path = tmp_path / "loose.hdt"
    subjects, predicates, objects = ({triple[k] for triple in FOUR} for k in range(3))
    data = reference.loose(FOUR, subjects | {b"u:unused"}, predicates, objects)[0]
    path.write_bytes(data)
    file = reference.read_file(data)
    offset = file.dictionary.offsets("subject")[file.dictionary.strings("subject").index(b"u:unused")]
    assert hdt("verify", "--terms", path) == verdict(data)
    assert hdt("verify", "--terms", "--tight", path) == hdt("verify", "--tight", path) == fault(34, "Unused", offset)
    path.write_bytes(reference.graph(FOUR)[0])
    assert hdt("verify", "--terms", "--tight", path) == verdict(reference.graph(FOUR)[0])


def test_past_16_bits(tmp_path: Path) -> None:
    """A file of 70,001 objects, of which the last one is no term."""
    path = tmp_path / "large.hdt"
    data = not_a_term_past_16_bits()
    path.write_bytes(data)
    lines = b"".join(b'<u:s> <u:p> "%05d" .\n' % number for number in range(70_000))
    assert hdt("dump", "--skip-non-terms", path) == reported(lines, "triples skipped", 1)
    assert hdt("verify", "--terms", path) == verdict(data)


def test_many(tmp_path: Path) -> None:
    """120,000 triples, of which every third has a string that is no term."""
    path = tmp_path / "many.hdt"
    triples = [(b"u:s%06d" % n, b"u:p", b'"%06d"' % n if n % 3 else b"rel%06d" % n) for n in range(120_000)]
    data = reference.graph(triples)[0]
    path.write_bytes(data)
    lines = b"".join(b'<u:s%06d> <u:p> "%06d" .\n' % (n, n) for n in range(120_000) if n % 3)
    assert hdt("dump", "--skip-non-terms", path) == reported(lines, "triples skipped", 40_000)
    assert hdt("verify", "--terms", path) == verdict(data)
    assert (hdt("answer", "--skip-non-terms", path, stdin=b"? ? ?\n? <u:p> ?\n")
            == reported(2 * (lines + b"\n"), "triples skipped", 80_000))


@pytest.mark.parametrize("triples", [FOUR, SHARED])
def test_pages_of_one_triple_in_python(triples: list[Triple]) -> None:
    """By docs/PYTHON.md: pages of one triple, without those that raise, are what `dump --skip-non-terms` prints."""
    data, _, ordered = reference.graph(triples)
    text = ""
    with package.Graph(data) as graph:
        for n in range(len(graph)):
            with suppress(package.NotATerm):
                text += graph.page_text(start=n, limit=1)[0]
    assert text.encode() == b"".join(map(ntriples.put_strings, kept(ordered, None)[0]))
