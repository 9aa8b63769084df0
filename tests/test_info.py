"""`hdt info`: the sizes of a file's parts, against the reference; whether a file is tight and canonical."""

from __future__ import annotations

import json
from pathlib import Path
from typing import Union

import pytest
from hypothesis import HealthCheck, given, settings
from hypothesis import strategies as st

from reference import checks
from reference import hdt as reference
from support.built import SAMPLES
from support.program import READING_FAILED, Result, Word, brief, done, hdt
from support.search import THREE as THREE_TRIPLES
from support.search import UNUSED, Triple

Value = Union[int, float, bool]

SECTIONS = ["shared", "subjects", "predicates", "objects"]

# The first lines of what `info` prints for the file that `build` makes of three triples, whose counts README.md has.
THREE_LINES = b"""bytes\t491
header-bytes\t184
triples\t3
shared\t2
subjects\t0
predicates\t2
objects\t1
"""


def canonical_of(data: bytes, block_size: int) -> bytes:
    """The file that `rewrite` makes of a file."""
    file = reference.read_file(data)
    rest = reference.graph(file.denoted, None, block_size)[0][len(reference.write_head()):]
    return reference.write_head(file.head.body) + rest


def is_tight(data: bytes) -> bool:
    """Whether triples use all strings of a valid file."""
    return checks.error_of(lambda bytes: reference.read_file(bytes, tight=True), data) is None


def values_of(data: bytes) -> dict[str, Value]:
    """The values that `info` prints for a valid file, by name, in order."""
    file = reference.read_file(data)
    _, at = reference.read_head(data)
    _, at = reference.read_control(data, at, reference.DICTIONARY)
    values: dict[str, Value] = {
        "bytes": len(data), "header-bytes": len(file.head.body), "triples": len(file.triples.ids),
    }
    values.update(zip(SECTIONS, file.dictionary.section_lens))
    block_size = 0
    for name in SECTIONS:
        section, end = reference.read_section(data, at)
        values[f"{name}-bytes"] = end - at
        values[f"{name}-block-size"] = section.block_size
        total, count = sum(map(len, section.strings)), max(1, len(section))
        values[f"{name}-mean-length"] = 10 * total // count / 10
        values[f"{name}-offset-bits"] = section.starts.width
        if name == "predicates":
            block_size = section.block_size
        at = end
    triples = file.triples
    values.update({
        "bitmap-y-bits": 1, "bitmap-z-bits": 1,
        "array-y-bits": triples.numbers_y.width, "array-z-bits": triples.numbers_z.width,
        "tight": is_tight(data),
        "canonical": block_size <= 65_535 and canonical_of(data, block_size) == data,
    })
    return values


def lines_of(values: dict[str, Value]) -> bytes:
    """The lines of these values."""
    shown = {True: "yes", False: "no"}
    return "".join(
        f"{name}\t{shown[value] if isinstance(value, bool) else value}\n" for name, value in values.items()
    ).encode()


def printed(result: Result) -> bytes:
    """What a command that is done has printed."""
    assert (result.status, result.err) == (0, b"")
    return result.out


def check(path: Path, data: bytes) -> dict[str, Value]:
    """Compare the output of `info` for a file, which is written to the path, with and without `--json`."""
    path.write_bytes(data)
    values = values_of(data)
    assert hdt("info", path) == done(lines_of(values))
    out = printed(hdt("info", path, "--json"))
    assert out.endswith(b"}\n")
    assert list(json.loads(out).items()) == list(values.items())
    return values


FILES = {
    "three triples": reference.graph(THREE_TRIPLES)[0],
    "a base": reference.graph(THREE_TRIPLES, base=b"http://a/")[0],
    "blocks of one string": reference.graph(THREE_TRIPLES, block_size=1)[0],
    "unused strings": UNUSED,
    "loose": reference.loose(
        THREE_TRIPLES, [b"u:a", b"u:b"], [b"u:p", b"u:q"], [b'"x"', b"u:b", b"u:a"], width=40
    )[0],
}


@pytest.mark.parametrize("data", FILES.values(), ids=FILES)
def test_files(tmp_path: Path, data: bytes) -> None:
    """A few files, with other widths, block sizes, properties and padding."""
    check(tmp_path / "graph.hdt", data)


def test_samples(tmp_path: Path) -> None:
    """The samples that are whole files, as they are."""
    samples = sorted(SAMPLES.glob("*.hdt"))
    files = [it for it in samples if checks.error_of(reference.read_file, it.read_bytes()) is None]
    assert {"three.hdt", "v1.hdt"} <= {it.name for it in files}
    for sample in files:
        check(tmp_path / "graph.hdt", sample.read_bytes())


def test_three(tmp_path: Path) -> None:
    """The first lines of a file that `build` makes, and that it is canonical and tight."""
    path = tmp_path / "three.hdt"
    printed(hdt("build", SAMPLES / "three.nt", path))
    out = printed(hdt("info", path))
    assert out.startswith(THREE_LINES)
    assert out.endswith(b"tight\tyes\ncanonical\tyes\n")
    assert b"\nsubjects-mean-length\t0.0\n" in out
    assert json.loads(printed(hdt("info", path, "--json")))["canonical"] is True


def test_block_size(tmp_path: Path) -> None:
    """What `build` writes is canonical with any block size, and so is what `rewrite` writes."""
    path, other = tmp_path / "graph.hdt", tmp_path / "other.hdt"
    for block_size in (1, 2, 16, 65_535):
        printed(hdt("build", SAMPLES / "three.nt", path, "--block-size", str(block_size)))
        assert printed(hdt("info", path)).endswith(b"tight\tyes\ncanonical\tyes\n")
        path.write_bytes(UNUSED)
        printed(hdt("rewrite", path, other, "--block-size", str(block_size)))
        assert printed(hdt("info", other)).endswith(b"tight\tyes\ncanonical\tyes\n")


def test_not_canonical(tmp_path: Path) -> None:
    """Sections of two block sizes, a block size that `rewrite` does not take, and an unused string."""
    path = tmp_path / "graph.hdt"
    parts = reference.split(*([triple[role] for triple in THREE_TRIPLES] for role in range(3)))
    ids = reference.graph(THREE_TRIPLES)[1]
    for sizes in ([16, 16, 8, 16], [8, 16, 16, 16], [1 << 40] * 4, [65_536] * 4):
        sections = [reference.write_section(strings, size) for strings, size in zip(parts, sizes)]
        front = reference.write_head() + reference.write_control(reference.DICTIONARY, b"mapping=1;")
        values = check(path, front + b"".join(sections) + reference.write_triples(ids))
        assert (values["tight"], values["canonical"]) == (True, False)
    values = check(path, UNUSED)
    assert (values["tight"], values["canonical"]) == (False, False)


def test_unused_only(tmp_path: Path) -> None:
    """A file that is canonical but for one string that no triple uses."""
    data = reference.loose(THREE_TRIPLES, [b"u:a", b"u:b"], [b"u:p", b"u:q", b"u:z"], [b'"x"', b"u:a", b"u:b"])[0]
    values = check(tmp_path / "graph.hdt", data)
    assert (values["tight"], values["canonical"]) == (False, False)


TERMS = st.sampled_from([b"u:a", b"u:b", b"u:c", b"u:\xc3\xa9", b"_:b", b"rel"])
OBJECTS = TERMS | st.sampled_from([b'"x"', b'"x"@en', b'"\\\n\r"', b'"' + 70 * b"y" + b'"'])
TRIPLES = st.lists(
    st.tuples(TERMS, st.sampled_from([b"u:p", b"u:q", b"u:r", b"u:a"]), OBJECTS), min_size=1, max_size=12, unique=True
)


@settings(max_examples=40, deadline=None, suppress_health_check=[HealthCheck.function_scoped_fixture])
@given(TRIPLES, st.integers(1, 4), st.sampled_from([0, 8, 33, 64]), st.booleans(), st.sampled_from([None, b"u:base"]))
def test_any_graph(
    tmp_path: Path, triples: list[Triple], block_size: int, width: int, unused: bool, base: bytes | None
) -> None:
    """Any small graph, in any style, with and without an unused string."""
    roles = [{triple[role] for triple in triples} for role in range(3)]
    predicates = roles[1] | ({b"u:zz"} if unused else set())
    data = reference.loose(triples, roles[0], predicates, roles[2], base, block_size, width)[0]
    values = check(tmp_path / "graph.hdt", data)
    assert values["canonical"] is (width == 0 and not unused)
    assert values["tight"] is not unused


DAMAGED = FILES["a base"]


@pytest.mark.parametrize("at", range(0, len(DAMAGED), 7))
def test_damaged(tmp_path: Path, at: int) -> None:
    """A file with a changed byte, and one that is cut off: the verdict and status of `verify`, and nothing printed."""
    path = tmp_path / "graph.hdt"
    for data in (DAMAGED[:at] + bytes([DAMAGED[at] ^ 0x41]) + DAMAGED[at + 1:], DAMAGED[:at], DAMAGED + b"\0"):
        path.write_bytes(data)
        verdict = hdt("verify", path)
        for result in (hdt("info", path), hdt("info", path, "--json")):
            assert (result.status, result.err) == (verdict.status, verdict.err)
            assert bool(result.out) == (verdict.status == 0)


def test_errors(tmp_path: Path) -> None:
    """A missing file, and words that are no request."""
    path = tmp_path / "graph.hdt"
    assert hdt("info", path) == READING_FAILED
    path.write_bytes(FILES["three triples"])
    cases: list[list[Word]] = [[], [path, path], [path, "--tight"], [path, "--json=1"], [path, "--raw"]]
    for words in cases:
        result = hdt("info", *words)
        assert (words, result.status, result.out) == (words, 2, b"")


def test_large_file(tmp_path: Path) -> None:
    """100,000 triples and strings of 1 to 20,000 bytes."""
    path = tmp_path / "graph.hdt"
    triples = [(b"u:s%06d" % n, b"u:p", b'"%s"' % (b"x" * (n % 50))) for n in range(100_000)]
    triples.append((b"u:long", b"u:p", b'"' + 20_000 * b"z" + b'"'))
    data = reference.graph(triples, base=b"http://a/")[0]
    path.write_bytes(data)
    assert brief(hdt("info", path)) == brief(done(lines_of(values_of(data))))


@pytest.mark.parametrize("width", [0, 33])
def test_many_pairs(tmp_path: Path, width: int) -> None:
    """100,000 triples with several predicates of a subject and several objects of a pair; and in wider arrays."""
    subjects, predicates = [b"u:s%05d" % n for n in range(20_000)], [b"u:p0", b"u:p1", b"u:p2"]
    triples = [(subject, predicates[k % 3], b'"%d"' % (n * k % 997))
               for n, subject in enumerate(subjects) for k in range(1, 6)]
    triples += [(subject, b"u:p0", subject) for subject in subjects[::7]]
    objects = {triple[2] for triple in triples}
    data = reference.loose(triples, set(subjects), predicates, objects, b"http://a/", 16, width)[0]
    path = tmp_path / "graph.hdt"
    path.write_bytes(data)
    values = values_of(data)
    assert (values["tight"], values["canonical"]) == (True, width == 0)
    assert brief(hdt("info", path)) == brief(done(lines_of(values)))
