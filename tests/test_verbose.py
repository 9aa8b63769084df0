"""The lines that follow an error message: with `--verbose` or on a terminal, indented, and what they say."""

from __future__ import annotations

import os
import subprocess
from pathlib import Path
from typing import NamedTuple

import pytest

from reference import damaged, hdt as model
from support import terminal_errors
from support.built import BUILT, SAMPLES
from support.program import Result, Word, hdt
from tools import errors

HDT = BUILT / "hdt"
LINE = b"<u:a> <u:p> <u:b> .\n"
TURTLE = b"@prefix a: <http://a/> .\n"


def on_terminal(*words: Word, cwd: Path) -> list[str]:
    """Run the program with a terminal as standard error; return the lines that it prints there."""
    return terminal_errors.on_terminal(*words, cwd=cwd).text.decode().splitlines()


def verbose(*words: Word, cwd: Path, stdin: bytes = b"", columns: int = 80) -> list[str]:
    """Run the program with `--verbose`; return the lines that it prints on standard error.

    Without `--verbose` it prints the first and at most one of the others, and status and standard output are the same.
    """
    env = {"COLUMNS": str(columns)}
    plain = hdt(*words, cwd=cwd, stdin=stdin, env=env)
    more = hdt(words[0], "--verbose", *words[1:], cwd=cwd, stdin=stdin, env=env)
    lines, short = more.err.splitlines(keepends=True), plain.err.splitlines(keepends=True)
    assert (more.status, more.out, lines[:1]) == (plain.status, plain.out, short[:1])
    assert len(short) <= 2 and set(short[1:]) <= set(lines[1:])
    assert all(line.startswith(b"  ") and line.endswith(b"\n") for line in lines[1:])
    return more.err.decode().splitlines()


def explained(name: str, kind: str) -> list[str]:
    """The lines about an error that the program prints: its meaning, and where it is explained."""
    entry, = (it for it in errors.entries(errors.PAGE.read_text()) if (it.kind, it.name) == (kind, name))
    anchor = f"{entry.number}-{name.lower()}"
    return [f"  {line}" for line in entry.plain()[0].splitlines()] + [
        f"  hdt explain {name}, or docs/ERRORS.md#{anchor}"]


# ---- reading and writing


def test_missing_file(tmp_path: Path) -> None:
    """The path, and the system's reason."""
    wanted = ["hdt: reading failed", "  nope.hdt: No such file or directory"]
    assert verbose("verify", "nope.hdt", cwd=tmp_path) == wanted
    assert verbose("build", "nope.hdt", "out.hdt", cwd=tmp_path) == wanted


@pytest.mark.parametrize("path, reason", [
    ("nope.nt", "No such file or directory"), ("in.nt/x", "Not a directory"), ("x" * 300, "File name too long")])
@pytest.mark.parametrize("before", [0, 1, 2])
@pytest.mark.parametrize("output", [("--of", "0/1"), ("parts", "--parts", "2")], ids=["printed", "in a folder"])
def test_missing_input_of_split(output: tuple[str, ...], before: int, path: str, reason: str, tmp_path: Path) -> None:
    """The path and the reason of an input that is missing, first or after others."""
    (tmp_path / "in.nt").write_bytes(LINE)
    inputs = ["in.nt"] * before + [path, "in.nt"]
    wanted = [f"hdt: {path}: reading failed", f"  {path}: {reason}"]
    assert verbose("split", *inputs, *output, cwd=tmp_path) == wanted
    assert on_terminal("split", *inputs, *output, cwd=tmp_path) == wanted
    assert [it.name for it in tmp_path.iterdir()] == ["in.nt"]


def test_folder(tmp_path: Path) -> None:
    """A folder is opened, but cannot be read."""
    assert verbose("verify", ".", cwd=tmp_path) == ["hdt: reading failed", "  .: Is a directory"]


def test_full_disk(tmp_path: Path) -> None:
    """An output that cannot be written is named, with the system's reason."""
    (tmp_path / "in.nt").write_bytes(LINE)
    full_device = "  /dev/full: No space left on device"
    assert verbose("build", "in.nt", "/dev/full", cwd=tmp_path) == ["hdt: writing failed", full_device]
    with open("/dev/full", "wb") as full:
        ran = subprocess.run([HDT, "dump", "--verbose", SAMPLES / "v1.hdt"], stdout=full, stderr=subprocess.PIPE,
                             check=False)
    assert (ran.returncode, ran.stderr) == (3, b"hdt: writing failed\n  standard output: No space left on device\n")


@pytest.mark.parametrize("out, reason", [
    ("none/out.hdt", "No such file or directory"), ("file/out.hdt", "Not a directory"), ("folder", "Is a directory"),
    ("x" * 300, "File name too long")])
def test_out_that_cannot_be_made(out: str, reason: str, tmp_path: Path) -> None:
    """The path of OUT, and the system's reason."""
    (tmp_path / "in.nt").write_bytes(LINE)
    (tmp_path / "file").touch()
    (tmp_path / "folder").mkdir()
    assert verbose("build", "in.nt", out, cwd=tmp_path) == ["hdt: writing failed", f"  {out}: {reason}"]


def test_folder_that_may_not_be_written(public_folder: Path) -> None:
    """A new file cannot be made beside OUT."""
    (public_folder / "in.nt").write_bytes(LINE)
    public_folder.chmod(0o555)
    ran = subprocess.run([HDT, "build", "--verbose", "in.nt", "out.hdt"], cwd=public_folder, capture_output=True,
                         user=65_534, check=False)
    assert (ran.returncode, ran.stderr) == (3, b"hdt: writing failed\n  out.hdt: Permission denied\n")


def test_closed_streams(tmp_path: Path) -> None:
    """Standard streams that are closed, and a pipe that nobody reads."""
    def ended(line: str) -> bytes:
        return subprocess.run(["sh", "-c", line, HDT, SAMPLES / "v1.hdt"], cwd=tmp_path, capture_output=True,
                              check=False).stderr
    assert ended('"$0" verify --verbose - <&-') == b"hdt: reading failed\n  -: Bad file descriptor\n"
    assert ended('"$0" dump --verbose "$1" >&-') == b"hdt: writing failed\n  standard output: Bad file descriptor\n"
    piped = '{ sleep 0.2; "$0" dump --verbose "$1"; } | true'
    assert ended(piped) == b"hdt: writing failed\n  standard output: Broken pipe\n"


# What `split` cannot read or write: the script, and the line that follows the message.
SPLIT_REASONS = {
    "a folder as input": ('"$0" split --verbose . --of 0/1', ".: Is a directory"),
    "a folder as the second input": ('"$0" split --verbose in.nt . parts --parts 2', ".: Is a directory"),
    "no folder for FOLDER": ('"$0" split --verbose in.nt no/parts --parts 2', "no/parts: No such file or directory"),
    "a full disk": ('"$0" split --verbose in.nt --of 0/1 >/dev/full', "standard output: No space left on device"),
    "closed output": ('"$0" split --verbose in.nt --of 0/1 >&-', "standard output: Bad file descriptor"),
    "a limit": ('trap "" XFSZ; ulimit -f 0; "$0" split --verbose in.nt parts --parts 2', "parts: File too large"),
}


@pytest.mark.parametrize("script, line", SPLIT_REASONS.values(), ids=SPLIT_REASONS)
def test_reasons_of_split(script: str, line: str, tmp_path: Path) -> None:
    """The reason of the system, whatever fails."""
    (tmp_path / "in.nt").write_bytes(LINE)
    ran = subprocess.run(["sh", "-c", script, HDT], cwd=tmp_path, capture_output=True, timeout=60, check=False)
    assert (ran.returncode, ran.stderr.decode().splitlines()[1:]) == (3, [f"  {line}"])


# ---- errors of documents


@pytest.mark.parametrize("columns", [4, 30, 80, 120])
def test_line(columns: int, tmp_path: Path) -> None:
    """The line is cut to the terminal's width, with a mark below the wrong byte, and control characters are escaped."""
    line = b"<u:a> <u:p> \"" + b"x" * 200 + b"\x1b\\q\" ."
    (tmp_path / "in.nt").write_bytes(LINE + line)
    lines = verbose("build", "in.nt", "out.hdt", cwd=tmp_path, columns=columns)
    column = line.index(b"\\q") + 1
    assert lines[0] == f"hdt: line 2 column {column}: 3 BadEscape" and lines[1] == f"  in.nt:2:{column}"
    assert max(map(len, lines[2:4])) <= columns and lines[3].strip() == "^"
    assert lines[2][lines[3].index("^")] == "\\"
    assert columns < 30 or "\\033\\q" in lines[2]
    assert lines[4:] == explained("BadEscape", "text")


@pytest.mark.parametrize("end, shown", [(b"\n", True), (b"\r\n", True), (b"\r", False)])
def test_line_ends(end: bytes, shown: bool, tmp_path: Path) -> None:
    """The line is the one of that number; none is shown where lines end with carriage returns alone."""
    (tmp_path / "in.nt").write_bytes(end.join([b"# 1", b"", b"# 3", b"<u:a> <u:p> <b> .", b""]))
    lines = verbose("build", "in.nt", "out.hdt", cwd=tmp_path)
    assert lines[:2] == ["hdt: line 4 column 13: 4 RelativeIri", "  in.nt:4:13"]
    marked = ["  <u:a> <u:p> <b> .", " " * 14 + "^"] if shown else []
    assert lines[2:] == marked + explained("RelativeIri", "text")


@pytest.mark.parametrize("path", ["-", "/dev/stdin"])
def test_standard_input(path: str, tmp_path: Path) -> None:
    """Standard input is not read again: its last lines are kept. A file named - is not taken for it."""
    (tmp_path / "-").write_bytes(b"$HDT")
    lines = verbose("build", path, "out.hdt", cwd=tmp_path, stdin=LINE + b"<u:a>")
    assert lines[:2] == ["hdt: line 2 column 6: 1 Syntax", f"  {path}:2:6"]
    assert lines[2:] == ["  <u:a>", "       ^", *explained("Syntax", "text")]


@pytest.mark.parametrize("before", [0, 1, 3000, 3276, 3277, 3278, 40_000, 70_000])
@pytest.mark.parametrize("end", [b"\n", b"\r\n"])
def test_line_of_a_pipe(before: int, end: bytes, tmp_path: Path) -> None:
    """The line of a pipe is that of the document, wherever it is in the pieces that are read."""
    document = LINE.replace(b"\n", end) * before + b"<u:a> <u:p> <b> ." + end + LINE * 10_000
    (tmp_path / "in.nt").write_bytes(document)
    lines = verbose("build", "-", "out.hdt", cwd=tmp_path, stdin=document)
    assert lines[1:3] == [f"  -:{before + 1}:13", "  <u:a> <u:p> <b> ."]
    assert [lines[0], *lines[2:]] == [line for line in verbose("build", "in.nt", "out.hdt", cwd=tmp_path)
                                      if "in.nt:" not in line]


def test_long_line_of_a_pipe(tmp_path: Path) -> None:
    """A line longer than what is read at once."""
    document = LINE * 5000 + b'<u:a> <u:p> "' + b"x" * 300_000 + b"\\q\" .\n" + LINE
    lines = verbose("build", "-", "out.hdt", cwd=tmp_path, stdin=document)
    assert lines[1] == f"  -:5001:{300_000 + 14}"
    assert lines[2][lines[3].index("^"):].startswith('\\q" .')


def test_line_of_a_pipe_with_carriage_returns_alone(tmp_path: Path) -> None:
    """Where lines end with carriage returns alone, no line is shown."""
    document = LINE.replace(b"\n", b"\r") * 5000 + LINE * 5000 + b"x\n"
    lines = verbose("build", "-", "out.hdt", cwd=tmp_path, stdin=document)
    assert lines[1] == "  -:10001:1" and lines[2:] == explained("Syntax", "text")


def test_named_pipe(tmp_path: Path) -> None:
    """A pipe with a path is not opened again."""
    ran = subprocess.run(["bash", "-c", '"$0" build --verbose <(printf "# one\\nx\\n") out.hdt', HDT], cwd=tmp_path,
                         capture_output=True, check=False)
    assert ran.stderr.decode().splitlines()[2:4] == ["  x", "  ^"]


# Documents with an error past 2^16 and past 2^20: its line and column, and the document from the wrong byte on.
BAD = b"<u:a> <u:p> <b> ."
FAR: dict[str, tuple[int, int, bytes]] = {
    "line 70,001": (70_001, 13, BAD[12:]),
    "line 1,100,001": (1_100_001, 13, BAD[12:]),
    "column 70,014": (3, 70_014, b'\\q" .'),
    "column 1,100,014": (3, 1_100_014, b'\\q" .'),
}
# How a document is given: the script, and the path of it in the message; whether `split` names it before the line; and
# whether the line is shown.
GIVEN: dict[str, tuple[str, str, bool, bool]] = {
    "a file": ('"$0" build --verbose far.nt out.hdt', "far.nt", False, True),
    "a pipe": ('cat far.nt | "$0" build --verbose - out.hdt', "-", False, True),
    "a file as standard input": ('"$0" build --verbose /dev/stdin out.hdt <far.nt', "/dev/stdin", False, True),
    "a named pipe": ('timeout 60 dd if=far.nt of=pipe status=none & "$0" build --verbose pipe out.hdt', "pipe", False,
                     True),
    "an input of split": ('"$0" split --verbose far.nt parts --parts 2', "far.nt", True, True),
    "the second input of split": ('"$0" split --verbose near.nt far.nt parts --parts 2', "far.nt", True, True),
    "the second input of split, printed": ('"$0" split --verbose near.nt far.nt --of 0/1', "far.nt", True, True),
    "the third input of split": ('"$0" split --verbose near.nt - far.nt --of 1/2 <near.nt', "far.nt", True, True),
    # (`split` shows no line of standard input or of a pipe, as the man page says)
    "a pipe as an input of split": ('cat far.nt | "$0" split --verbose - near.nt --of 0/1', "-", True, False),
    "a file as standard input of split": ('"$0" split --verbose - --of 0/1 <far.nt', "-", True, False),
    "a pipe after an input of split": ('cat far.nt | "$0" split --verbose near.nt - --of 0/1', "-", True, False),
}


def far_document(line: int, column: int, rest: bytes) -> bytes:
    """A document whose error in this line and column begins with these bytes; the lines around it are others."""
    front = b"<u:a> <u:p> " if column == 13 else b'<u:a> <u:p> "' + b"x" * (column - 14)
    before = LINE if line < 100_000 else b"\n"
    return before * (line - 2) + b"# before\n" + front + rest + b"\n# after\n"


class Far(NamedTuple):
    """A folder with a document whose error is far from its start, one without an error, and a pipe; and that error."""

    folder: Path
    line: int
    column: int
    rest: bytes


@pytest.fixture(scope="module", params=FAR)
def far(request: pytest.FixtureRequest, tmp_path_factory: pytest.TempPathFactory) -> Far:
    """A document whose error is far from its start."""
    folder, error = tmp_path_factory.mktemp("far"), FAR[request.param]
    (folder / "far.nt").write_bytes(far_document(*error))
    (folder / "near.nt").write_bytes(b"# 1\n" + LINE * 70_010)
    os.mkfifo(folder / "pipe")
    return Far(folder, *error)


@pytest.mark.parametrize("how", GIVEN)
def test_far_error(how: str, far: Far) -> None:
    """An error far from the start of a document, however this is given: path, numbers, line and mark are right."""
    folder, line, column, rest = far
    script, path, named, is_shown = GIVEN[how]
    ran = subprocess.run(["sh", "-c", script, HDT], cwd=folder, stdout=subprocess.DEVNULL, stderr=subprocess.PIPE,
                         stdin=subprocess.DEVNULL, env={**os.environ, "COLUMNS": "80"}, timeout=60, check=False)
    number, name = (4, "RelativeIri") if column == 13 else (3, "BadEscape")
    front, place, *more = ran.stderr.decode().splitlines()
    assert (ran.returncode, place) == (1, f"  {path}:{line}:{column}")
    assert front == f"hdt: {path + ': ' if named else ''}line {line} column {column}: {number} {name}"
    if is_shown:
        shown, mark, *more = more
        assert mark.strip() == "^" and shown[mark.index("^"):] == rest.decode()
        assert column > 13 or shown == f"  {BAD.decode()}"
    assert more == explained(name, "text")


def test_hint_for_the_second_input(tmp_path: Path) -> None:
    """The hint is that of the input with the error."""
    (tmp_path / "in.nt").write_bytes(LINE)
    (tmp_path / "in.ttl").write_bytes(TURTLE)
    (tmp_path / "in.hdt").write_bytes((SAMPLES / "three.hdt").read_bytes())
    for name, hint in (("in.ttl", "Turtle"), ("in.hdt", "an HDT file")):
        assert hint in verbose("split", "in.nt", name, "--of", "0/1", cwd=tmp_path)[-1]


@pytest.mark.parametrize("front, hint", [
    (b"\x1f\x8b", "gzip"), (b"\x28\xb5\x2f\xfd", "zstd"), (b"BZh9", "bzip2"), (b"\xfd7zXZ\0", "xz"),
    (b"\xef\xbb\xbf", "byte order mark"), (TURTLE, "Turtle"), (b"PREFIX a:", "Turtle"), (b"<?xml version", "XML"),
    (b"<!DOCTYPE html>", "web page"), (b"{", "JSON"), (b"$HDT", "an HDT file")])
def test_hint_for_a_document(front: bytes, hint: str, tmp_path: Path) -> None:
    """The first bytes tell what a document is."""
    (tmp_path / "in.nt").write_bytes(front + b"\n")
    assert hint in verbose("build", "in.nt", "out.hdt", cwd=tmp_path)[-1]


def test_hint_for_a_line(tmp_path: Path) -> None:
    """So do those of its first invalid line."""
    (tmp_path / "in.nt").write_bytes(LINE + TURTLE)
    assert "Turtle" in verbose("build", "in.nt", "out.hdt", cwd=tmp_path)[-1]


def test_no_triples(tmp_path: Path) -> None:
    """The document without triples is named."""
    wanted = ["hdt: no triples", "  /dev/null", "  The input is empty, or has only blank lines and comments."]
    assert verbose("build", "/dev/null", "out.hdt", cwd=tmp_path) == wanted


# ---- errors of files


@pytest.mark.parametrize("name", [name for name in damaged.FILES if name != "Unused"])
def test_file(name: str, tmp_path: Path) -> None:
    """The path, the offset, and what the error means."""
    (tmp_path / "bad.hdt").write_bytes(damaged.FILES[name])
    first, place, *more = verbose("verify", "bad.hdt", cwd=tmp_path)
    assert place == f"  bad.hdt: byte {first.rpartition(' ')[2]}"
    wanted = explained(name, "file")
    assert more[:len(wanted)] == wanted
    assert len(more) == len(wanted) + (name == "NotHdt")


@pytest.mark.parametrize("front, hint", [
    (LINE, "N-Triples"), (b"\x1f\x8b", "gzip"), (b"<?xml", "XML"), (b"{", "JSON"), (b"_:a", "N-Triples")])
def test_hint_for_a_file(front: bytes, hint: str, tmp_path: Path) -> None:
    """The first bytes tell what a file is."""
    (tmp_path / "in.hdt").write_bytes(front * 100)
    lines = verbose("verify", "in.hdt", cwd=tmp_path)
    assert hint in lines[-1] and lines[2:-1] == explained("NotHdt", "file")


def test_look_ups(tmp_path: Path) -> None:
    """A look-up that finds nothing names the file."""
    file = SAMPLES / "three.hdt"
    assert verbose("number", file, "subject", "<u:none>", cwd=tmp_path) == ["hdt: no such term", f"  {file}"]
    assert verbose("string", file, "subject", "9", cwd=tmp_path) == ["hdt: no such number", f"  {file}"]


def test_not_a_term(tmp_path: Path) -> None:
    """How the string is printed that is no term, and which option does without it."""
    (tmp_path / "bad.hdt").write_bytes(damaged.NOT_A_TERM)
    lines = ["hdt: object 3 is not a term", "  bad.hdt", "  object 3: x",
             "  hdt string FILE object 3 prints the string"]
    skipping = [*lines, "  --skip-non-terms leaves out its triples"]
    assert verbose("dump", "bad.hdt", cwd=tmp_path) == skipping
    assert verbose("find", "bad.hdt", "?", "?", "?", cwd=tmp_path) == skipping
    assert verbose("count", "bad.hdt", "object", cwd=tmp_path) == [*lines, "  --raw prints strings, not terms"]
    assert verbose("strings", "bad.hdt", "object", "--terms", cwd=tmp_path) == lines


def tight_error(data: bytes, cwd: Path) -> list[str]:
    """What `verify --tight` prints of a string that is not used, but for the message and the path."""
    (cwd / "in.hdt").write_bytes(data)
    _, _, *lines = verbose("verify", "--tight", "in.hdt", cwd=cwd)
    assert lines[1:] == explained("Unused", "file")
    return lines[:1]


@pytest.mark.parametrize("role, place", [*((role, place) for role in ("predicate", "object")
                                           for place in (0, 1, 15, 16, 17, 40)), ("subject", 40)])
@pytest.mark.parametrize("block_size", [1, 16])
def test_unused(role: str, place: int, block_size: int, tmp_path: Path) -> None:
    """The string that no triple uses, with a role and an ID, is found by its offset."""
    strings = {name: [f"u:{name}{n:02}".encode() for n in range(41)] for name in ("subject", "predicate", "object")}
    unused, another = strings[role][place], strings[role][place - 1]
    used = [[another if it == unused else it for it in column] for column in strings.values()]
    triples = [(s, p, o) for s, p, o in zip(*used)]
    subjects, predicates, objects = strings.values()
    data = model.loose(triples, subjects, predicates, objects, block_size=block_size).data
    assert tight_error(data, tmp_path) == [f"  {role} {place + 1}: {unused.decode()}"]


# The ID of a string past 2^16.
FAR_ID = 70_001


def test_far_unused_string(tmp_path: Path) -> None:
    """The string that no triple uses is shown, whatever its ID is."""
    objects = [b"u:o%06d" % n for n in range(1, FAR_ID + 1)]
    triples = [(b"u:s", b"u:p", it) for it in objects[:-1]]
    data = model.loose(triples, [b"u:s"], [b"u:p"], objects).data
    assert tight_error(data, tmp_path) == [f"  object {FAR_ID}: u:o0{FAR_ID}"]


def test_far_string_of_no_term(tmp_path: Path) -> None:
    """So is the one that is not a term."""
    objects = [b"u:o%06d" % n for n in range(1, FAR_ID)] + [b"x"]
    (tmp_path / "bad.hdt").write_bytes(model.graph([(b"u:s", b"u:p", it) for it in objects]).data)
    lines = verbose("strings", "bad.hdt", "object", "--terms", "--prefix", "x", cwd=tmp_path)
    assert lines[:3] == [f"hdt: object {FAR_ID} is not a term", "  bad.hdt", f"  object {FAR_ID}: x"]


def test_shared_string_used_once(tmp_path: Path) -> None:
    """A shared string has its ID as subject."""
    data = model.loose([(b"u:b", b"u:p", b"u:c")], [b"u:b", b"u:c"], [b"u:p"], [b"u:b", b"u:c"]).data
    assert tight_error(data, tmp_path) == ["  subject 1: u:b"]


def test_long_unused_string(tmp_path: Path) -> None:
    """A string is cut to the width of the terminal, and bytes that are not ASCII are escaped."""
    text = '"' + "\u00e9\n" + "x" * 100 + '"'
    data = model.loose([(b"u:a", b"u:p", b"u:b")], [b"u:a"], [b"u:p"], [b"u:b", text.encode()]).data
    assert tight_error(data, tmp_path) == [f"  object 1: {shown(text)}"[:80]]


def shown(string: str) -> str:
    """A string as a message shows it: printable ASCII, and escapes for other bytes."""
    return "".join(chr(byte) if 32 <= byte <= 126 else f"\\{byte:03o}" for byte in string.encode())


# ---- hints


@pytest.mark.parametrize("prefix, hint", [
    ("<http://a", "an IRI has no < and > in a dictionary"), ("Kat", "a literal begins with a double quote"),
    ("5", "a literal begins with a double quote"), ("http://none", ""), ("_:none", ""), ('"none', "")])
def test_hint_for_a_prefix(prefix: str, hint: str, tmp_path: Path) -> None:
    """A prefix that finds nothing and looks like a term has a hint, on a terminal or with `--verbose`."""
    words: list[Word] = ["strings", SAMPLES / "three.hdt", "object", "--prefix", prefix]
    assert hdt(*words) == Result(0, b"", b"")
    lines = [line.strip() for line in on_terminal(*words, cwd=tmp_path)]
    assert lines == hdt(*words, "--verbose").err.decode().replace("  ", "").splitlines()
    assert [line.startswith(hint) for line in lines] == ([True] if hint else [])


def test_no_hint_for_a_prefix_that_finds_something(tmp_path: Path) -> None:
    """There is no hint where a string is printed, or no prefix is given."""
    file = SAMPLES / "three.hdt"
    assert on_terminal("strings", file, "object", "--prefix", "u", cwd=tmp_path) == []
    assert on_terminal("strings", file, "object", "--terms", cwd=tmp_path) == []


# ---- when


@pytest.mark.parametrize("words", [("verify", "nope.hdt"), ("build", "in.nt", "out.hdt"), ("answer", "nope.hdt"),
                                   ("number", SAMPLES / "v1.hdt", "subject", "<u:none>"),
                                   ("split", SAMPLES / "v1.nt", "in.nt", "--of", "0/1")])
def test_terminal(words: tuple[Word, ...], tmp_path: Path) -> None:
    """On a terminal the lines are those of `--verbose`."""
    (tmp_path / "in.nt").write_bytes(TURTLE)
    assert on_terminal(*words, cwd=tmp_path) == verbose(*words, cwd=tmp_path)


def test_success(tmp_path: Path) -> None:
    """Without an error there are no lines."""
    file = SAMPLES / "three.hdt"
    assert hdt("verify", "--verbose", file) == hdt("verify", file)
    assert on_terminal("verify", file, cwd=tmp_path) == []


@pytest.mark.parametrize("word", ["head", "verify", "dump", "answer"])
def test_each_command(word: str, tmp_path: Path) -> None:
    """Each command that reads a file has the option."""
    assert verbose(word, "nope.hdt", cwd=tmp_path)[1:] == ["  nope.hdt: No such file or directory"]


# ---- arguments


@pytest.mark.parametrize("term, hint", [
    ("http://a/", "an IRI is written between < and >"), ("u:a", "an IRI is written between < and >"),
    ("5", "a number is a literal"), ("+5", "a number is a literal"), ("chat", "a literal is written in double quotes"),
    ("", "a literal is written in double quotes"), ("<u:a", ""), ('"chat', "")])
@pytest.mark.parametrize("word, place", [("S", 0), ("P", 1), ("O", 2)])
def test_argument(term: str, hint: str, word: str, place: int, tmp_path: Path) -> None:
    """An argument that is no term is shown with a mark, and with a hint by what it looks like."""
    words = ["?", "?", "?"]
    words[place] = term
    lines = verbose("find", SAMPLES / "three.hdt", *words, cwd=tmp_path)
    column = int(lines[0].partition("column ")[2].partition(":")[0])
    shown = [f"  {term}", "  " + " " * (column - 1) + "^"] if term else []
    assert lines[0].startswith(f"hdt: {word} column ") and lines[1:1 + len(shown)] == shown
    more = lines[1 + len(shown):]
    wanted = explained("Syntax", "text")
    assert more[:len(wanted)] == wanted and len(more) == len(wanted) + (hint != "")
    assert more[-1].startswith(f"  {hint}")


def test_argument_on_a_terminal(tmp_path: Path) -> None:
    """On a terminal the lines about an argument are those of `--verbose`."""
    words = ("number", SAMPLES / "three.hdt", "subject", "u:a")
    assert on_terminal(*words, cwd=tmp_path) == verbose(*words, cwd=tmp_path)
    assert len(verbose(*words, cwd=tmp_path)) == 7


def test_other_usage_errors(tmp_path: Path) -> None:
    """Other errors of a command line have no more lines."""
    cases: list[list[Word]] = [["find", "--verbose"], ["verify", "--verbose", "a", "b"], ["explain", "36"], []]
    for words in cases:
        assert on_terminal(*words, cwd=tmp_path) == hdt(*words).err.decode().splitlines()
