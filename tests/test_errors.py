"""docs/ERRORS.md: its examples give the errors that it says, and every list of errors in the repository is the same."""

from __future__ import annotations

import re
import sys
from collections.abc import Callable

import pytest

from reference import checks, damaged, hdt as model
from reference import ntriples
from support.built import BUILT, TOP
from support.c_library import HEADER, file_reasons, text_reasons
from support.probe import Probe
from support.program import Result, run
from tools import errors

Numbered = list[tuple[int, str]]

ENTRIES = errors.entries(errors.PAGE.read_text())
WIRE, TERMS, PROBE = "crates/hdt_wire", "crates/hdt_terms", "crates/hdt_probe"

# Commands of remedies, which have to succeed. `bad.hdt` is the damaged file of the error.
REMEDIES = {
    "NotHdt": "gzip -c samples/three.hdt | zcat | hdt verify -",
    "NotUtf8": r"""printf '<u:a> <u:p> "caf\351" .\n' > IN; iconv -f LATIN1 -t UTF-8 IN > OUT; hdt build OUT new.hdt""",
    "TrailingBytes": "head -c 457 bad.hdt > new.hdt; hdt verify new.hdt; cmp new.hdt samples/three.hdt",
    "Unused": "hdt rewrite bad.hdt new.hdt; hdt verify --tight new.hdt",
}


def of_kind(kind: str) -> Numbered:
    """The numbers and names of the page's errors of a kind, in its order."""
    return [(entry.number, entry.name) for entry in ENTRIES if entry.kind == kind]


def found(path: str, pattern: str) -> Numbered:
    """The numbers and names that a pattern finds in a file, by its groups `number` (else counted) and `name`."""
    matches = list(re.finditer(pattern, (TOP / path).read_text(), re.M))
    return [(int(it.groupdict().get("number") or n), it["name"]) for n, it in enumerate(matches, 1)]


def counted(names: list[str]) -> Numbered:
    """Names with their numbers, from 1."""
    return list(enumerate(names, 1))


def spoken(name: str) -> str:
    """A name in capitals, with a line between its words."""
    return re.sub(r"(?<=[a-z0-9])(?=[A-Z])", "_", name).upper()


# Each list of errors, by its kind and where it is.
LISTS: dict[tuple[str, str], Callable[[], Numbered]] = {
    ("file", "docs/FORMAT.md"): lambda: counted(file_reasons()),
    ("file", "reference"): lambda: [(it.value, it.name) for it in model.Reason],
    ("file", "enum"): lambda: found(f"{WIRE}/src/fault.rt", r"^    (?P<name>\w+) = (?P<number>\d+),$"),
    ("file", "name"): lambda: found(f"{WIRE}/src/fault.rt", r" Reason::(?P<name>\w+) => \"(?P=name)\","),
    ("file", "numbers in specs"): lambda: found(
        f"{WIRE}/specs/Fault.antt", r"^reason_number (?P<name>\w+) = (?P<number>\d+)$"),
    ("file", "names in specs"): lambda: found(
        f"{WIRE}/specs/Fault.antt", r"^reason_name (?P<name>\w+) = codes \"(?P=name)\"$"),
    ("file", "probe"): lambda: found(f"{PROBE}/src/reason.rt", r"^ +(?P<number>\d+) => Some\(Reason::(?P<name>\w+)\)"),
    ("text", "docs/NTRIPLES.md"): lambda: counted(text_reasons()),
    ("text", "reference"): lambda: [(it.value, it.name) for it in ntriples.Reason],
    ("text", "enum"): lambda: found(f"{TERMS}/src/fault.rt", r"^    (?P<name>\w+) = (?P<number>\d+),$"),
    ("text", "name"): lambda: found(f"{TERMS}/src/fault.rt", r" LineReason::(?P<name>\w+) => \"(?P=name)\","),
    ("text", "numbers in specs"): lambda: found(
        f"{TERMS}/specs/Reasons.antt", r"^line_reason_number (?P<name>\w+) = (?P<number>\d+)$"),
    ("text", "names in specs"): lambda: found(
        f"{TERMS}/specs/Reasons.antt", r"^line_reason_name (?P<name>\w+) = codes \"(?P=name)\"$"),
    ("text", "probe"): lambda: found(
        f"{PROBE}_terms/src/faults.rt", r"^ +(?P<number>\d+) => LineReason::(?P<name>\w+),$"),
}


def shell(command: str, data: bytes | None) -> Result:
    """Run a shell command as the examples are run; `bad.hdt` holds the data."""
    with errors.folder_with(data) as folder:
        return run(["bash", "-euc", command], cwd=folder, env={"PATH": errors.search_path()})


# ---- the page and the program


def test_examples() -> None:
    """Each example gives its error, with the exit status of it, and the page has the line that is printed."""
    done = run([sys.executable, "-m", "tools.errors", "--check"], cwd=TOP, env={"HDT_BUILT": str(BUILT)})
    assert (done.status, done.err.decode()) == (0, "")
    assert done.out.decode() == f"{len(ENTRIES)} passed, 0 failed\n"


def test_example_without_an_error(monkeypatch: pytest.MonkeyPatch) -> None:
    """An example that gives no error, or another one, is reported."""
    monkeypatch.setitem(damaged.FILES, "Truncated", damaged.THREE)
    monkeypatch.setitem(damaged.FILES, "Width", damaged.FILES["BitsKind"])
    tried = [*ENTRIES[:15], ENTRIES[34]._replace(example=" `true`\n"), ENTRIES[35]]
    reported = [entry.name for entry in tried if errors.tried(entry)[1]]
    assert reported == ["Truncated", "Width", "Syntax"]


@pytest.mark.parametrize("name", damaged.FILES)
def test_damaged_file(name: str) -> None:
    """The reference finds the same error, at the same byte offset, as the page says of the program."""
    entry = next(it for it in ENTRIES if (it.kind, it.name) == ("file", name))
    offset = re.search(r"; at (\d+)\n$", entry.example)
    error = checks.error_of(model.read_file, damaged.FILES[name], name == "Unused")
    assert offset and error == (entry.number, entry.name, int(offset[1]))


def test_files_are_printed() -> None:
    """`--file NAME` prints the damaged file of an example."""
    done = run([sys.executable, "-m", "tools.errors", "--file", "Width"], cwd=TOP)
    assert done == Result(0, damaged.FILES["Width"], b"")
    assert damaged.having() == damaged.THREE


@pytest.mark.parametrize("name", REMEDIES)
def test_remedy(name: str) -> None:
    """The commands of remedies succeed."""
    done = shell(REMEDIES[name], damaged.FILES[name])
    assert (done.status, done.err) == (0, b"")


# ---- the lists


def test_how_many_there_are() -> None:
    """34 errors of files and 9 of texts, from 1, in this order; each has an example, and each file an error."""
    assert [number for number, _ in of_kind("file")] == list(range(1, 35))
    assert [number for number, _ in of_kind("text")] == list(range(1, 10))
    assert [name for _, name in of_kind("file")] == list(damaged.FILES)
    assert len(of_kind("message")) == 10


@pytest.mark.parametrize("kind, where", LISTS)
def test_lists_agree(kind: str, where: str) -> None:
    """Each list of errors has the numbers and names of the page, in its order."""
    assert LISTS[kind, where]() == of_kind(kind)


@pytest.mark.parametrize("kind, prefix", [("file", "FILE"), ("text", "TEXT")])
def test_list_of_the_header(kind: str, prefix: str) -> None:
    """c/hdt.h has the names of the page."""
    names = [(number, f"HDT_{prefix}_{spoken(name)}") for number, name in of_kind(kind)]
    listed = [(int(number), name) for name, number in re.findall(rf"(HDT_{prefix}_\w+) = (\d+)", HEADER.read_text())]
    assert listed == names


def test_lists_of_the_engine(probe: Probe) -> None:
    """The engine's numbers and names of errors are those of the page."""
    files = probe.send(*(("demand", 0, number, number) for number, _ in of_kind("file")))
    assert files == [("fault", str(number), name, str(number)) for number, name in of_kind("file")]
    texts = probe.send(*(("line_reason", number) for number, _ in of_kind("text")))
    assert texts == [("ok", str(number), name) for number, name in of_kind("text")]


def test_rows_of_ntriples() -> None:
    """Each error of a text has a row in the tables of docs/NTRIPLES.md."""
    rows = re.findall(r"^\| (\d) `(\w+)`", (TOP / "docs/NTRIPLES.md").read_text(), re.M)
    assert sorted({(int(number), name) for number, name in rows}) == of_kind("text")


def test_messages_of_the_program() -> None:
    """The page has each message of the program that is always the same, and no other one."""
    source = (TOP / "crates/hdt_tool/src/error_lines.rt").read_text()
    messages = set(re.findall(r'"hdt: ([a-z ]+)"', source)) - {"no match"}  # (`find --quiet` prints none)
    assert messages == {name for _, name in of_kind("message") if re.fullmatch("[a-z ]+", name)}


# ---- the texts


@pytest.mark.parametrize("entry", ENTRIES, ids=lambda entry: f"{entry.kind}-{entry.name}")
def test_texts_are_short(entry: errors.Entry) -> None:
    """Meaning, cause and remedy are sentences without markup, which a terminal shows in four lines each."""
    for text in filter(None, entry.plain()):
        lines = text.splitlines()
        assert len(lines) <= errors.LINES and max(map(len, lines)) <= errors.COLUMNS
        assert text.endswith(".") and not set(text) & set("`[]*")


def test_shared_texts() -> None:
    """An error has its own cause and remedy, else those of its section; a message has none."""
    found = {(it.kind, it.name): it for it in ENTRIES}
    shared, own, part = (found["file", name] for name in ("Width", "Unused", "Truncated"))
    assert shared.cause.startswith("The file is damaged, or") and shared.remedy.startswith("Download the file again.")
    assert own.cause.startswith("Triples were removed") and own.remedy.startswith("`hdt rewrite FILE NEW`")
    assert part.cause.startswith("An interrupted download") and part.remedy == shared.remedy
    assert {(it.cause, it.remedy) for it in ENTRIES if it.kind == "message"} == {("", "")}


@pytest.mark.parametrize("text", [
    "## Other messages\n\n### no triples\n\nA.\n\n- Example: `d`:\n  `e`\n",
    "## Other messages\n\n### no triples (status 1)\n\nA.\n\n- Cause: B.\n- Example: `d`:\n  `e`\n",
    "## Other messages\n\n### no triples (status 1)\n\nA.\n",
    "## Errors of an N-Triples text\n\n### 1 Syntax\n\nA.\n\n- Cause: B.\n- Example: `d`:\n  `e`\n",
    "## Errors of an HDT file\n\nA.\n\n- Cause: B.\n\n### 1 Truncated\n\nC.\n\n- Example: d; at 1\n"])
def test_entries_of_another_form(text: str) -> None:
    """A heading or an error of another form is refused."""
    with pytest.raises(ValueError, match="another form|without one of its parts"):
        errors.entries(text)
