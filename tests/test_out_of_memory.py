"""Each allocation refused in turn: of the program, with every command, and of the probes, with every library call.

A program that an allocation was refused reports that memory ran out. A library call answers `out of memory`, or what it
answers in ample memory where it does without the allocation; and the next calls answer as in ample memory.
"""

from __future__ import annotations

from collections.abc import Callable, Iterator, Sequence
from pathlib import Path

import pytest

from reference import hdt as reference
from support.built import PROGRAM, SAMPLES
from support.probe import Probe, line_of, spelled
from support.program import Result, Word, hdt, run
from support.refused_requests import DIALOGUE, GROUPS, Request
from support.refusing import Refusals, Refuser, wrong

OUT_OF_MEMORY = Result(4, b"", b"hdt: out of memory\n")
THREE = SAMPLES / "three.hdt"
LINES = SAMPLES / "three.nt"


@pytest.fixture(scope="module")
def refuser(tmp_path_factory: pytest.TempPathFactory) -> Refuser:
    """Runs programs with each allocation refused."""
    return Refuser(tmp_path_factory.mktemp("refuser"))


# ---- the program

# The rows of commands are: a command line, and how many refused allocations at most may change nothing.

# Commands of which some allocations aren't needed: clap looks for a similar word to suggest, and does without; the
# three sequences of triples each ignore that a reservation was refused, and allocate as they grow; a search with a
# subject walks where the directories have no memory; the words are borrowed once more for the lines that may follow the
# message of a term's error. `info` encodes the parts of the file again.
COMMANDS: dict[str, tuple[list[Word], int]] = {
    "head": (["head", SAMPLES / "v1.hdt"], 0),
    "head, cut": (["head", "cut.hdt"], 0),
    "head, missing": (["head", "missing.hdt"], 0),
    "no command": (["summon"], 62),
    "not UTF-8": (["head", b"\xff"], 0),
    "verify": (["verify", THREE], 0),
    "verify, cut": (["verify", "cut.hdt"], 0),
    "verify tight": (["verify", "--tight", THREE], 0),
    "verify tight, unused": (["verify", "--tight", "unused.hdt"], 0),
    "verify tight, cut": (["verify", "--tight", "cut.hdt"], 0),
    "verify tight terms": (["verify", "--tight", "--terms", THREE], 0),
    "verify tight terms, unused": (["verify", "--tight", "--terms", "unused.hdt"], 0),
    "strings": (["strings", THREE, "object"], 0),
    "strings prefix": (["strings", THREE, "object", "--prefix", "u:"], 0),
    "strings terms": (["strings", THREE, "object", "--terms", "--prefix", '"'], 0),
    "strings terms, not a term": (["strings", "rel.hdt", "predicate", "--terms"], 0),
    "string": (["string", THREE, "object", "3"], 0),
    "string, none": (["string", THREE, "object", "4"], 0),
    "number": (["number", THREE, "object", '"x"'], 0),
    "number, raw": (["number", "--raw", THREE, "predicate", "u:z"], 0),
    "number, not a term": (["number", THREE, "object", "x"], 2),
    "strings, no role": (["strings", SAMPLES / "v1.hdt", "thing"], 13),
    "find a predicate": (["find", THREE, "?", "<u:p>", "?"], 0),
    "find numbers": (["find", "--numbers", THREE, "?", "?", '"x"'], 0),
    "info": (["info", THREE], 3),
    "info as JSON": (["info", "--json", "unused.hdt"], 3),
    "info, cut": (["info", "cut.hdt"], 0),
    "find count": (["find", "--count", THREE, "?", "<u:p>", "?"], 0),
    "find most": (["find", "--most", "2", THREE, "?", "?", "?"], 0),
    "find most numbers": (["find", "--numbers", "--most", "1", THREE, "<u:a>", "?", "?"], 0),
    "find quiet": (["find", "--quiet", THREE, "?", "<u:p>", "?"], 0),
    "find quiet, none": (["find", "--quiet", THREE, "<u:b>", "<u:q>", "?"], 0),
    "find raw": (["find", "--raw", THREE, "u:a", "?", "?"], 2),
    "find, none": (["find", THREE, "?", "?", "<u:z>"], 0),
    "find, not a term": (["find", THREE, "?", "y", "z"], 2),
    "find, not an IRI": (["find", "rel.hdt", "?", "?", "?"], 0),
    "answer": (["answer", THREE], 0),
    "answer, cut": (["answer", "cut.hdt"], 0),
    "dump": (["dump", THREE], 0),
    "count": (["count", THREE, "object"], 0),
    "count top": (["count", THREE, "object", "--top", "2"], 0),
    "count raw": (["count", "--raw", THREE, "predicate"], 0),
    "count, cut": (["count", "cut.hdt", "subject"], 0),
    "dump, cut": (["dump", "cut.hdt"], 0),
    "build": (["build", LINES, "1.hdt"], 3),
    "build with options": (["build", "--base", "u:x", "--block-size", "1", SAMPLES / "v1.nt", "2.hdt"], 3),
    "build, bad options": (["build", "--base", "rel", SAMPLES / "v1.nt", "3.hdt"], 0),
    "build, bad line": (["build", "bad.nt", "4.hdt"], 0),
    "build, a folder": (["build", LINES, "."], 3),
    "rewrite": (["rewrite", THREE, "5.hdt"], 3),
    "rewrite with options": (["rewrite", "--block-size", "1", "unused.hdt", "6.hdt"], 3),
    "rewrite, bad options": (["rewrite", "--block-size", "0", "unused.hdt", "7.hdt"], 0),
    "rewrite, cut": (["rewrite", "cut.hdt", "8.hdt"], 0),
    "rewrite, a folder": (["rewrite", "unused.hdt", "."], 3),
    "lint, missing": (["lint", "missing.nt"], 0),
    "split, bad line": (["split", "bad.nt", "9.parts", "--parts", "2"], 0),
    "build to standard output": (["build", LINES, "/dev/stdout"], 3),
    "rewrite to standard output": (["rewrite", THREE, "/dev/stdout"], 3),
}
# Command lines that ask for help.
HELP: list[list[Word]] = [
    ["--help"], ["--version"], ["-V"], ["help"], ["head", "--help"], ["head", "-h"], ["help", "head"],
    ["find", "--help"], ["build", "--help"], ["verify", "--help"], ["rewrite", "--help"], ["help", "dump"],
    ["lint", "--help"],
    ["explain", "2"],
]
# Command lines that are refused, and words that aren't terms.
REFUSED: list[tuple[list[Word], int]] = [
    (["build", "a.nt"], 0),
    (["build", "--block-size", "4294967296", "a.nt", "b.hdt"], 0),
    (["strings", "a.hdt", "thing"], 13),
    (["string", "a.hdt", "object", "18446744073709551616"], 0),
    (["string", "a.hdt", "object", "x"], 0),
    (["strings", "a.hdt"], 0),
    (["head"], 0),
    (["verify", "--tight"], 0),
    (["head", "--tight", "a.hdt"], 15),
    (["rewrite", "a.hdt"], 0),
    (["split", "a.nt"], 0),
    (["split", "a.nt", "--of", "2/2"], 0),
    (["split", "a.nt", "--parts", "2"], 0),
    (["rewrite", "a.hdt", "b.hdt", "--base", "x"], 19),
    (["rewrite", "a.hdt", "b.hdt", "--block-size", "x"], 0),
    (["find", "a.hdt", "?", "?", "?", "--most", "x"], 0),
    (["find", "a.hdt", "x", "y"], 0),
    (["dump", "a.hdt", "x"], 0),
    (["lint"], 0),
    (["lint", "a.nt", "--most", "x"], 0),
    (["dump", "--numbers", "a.hdt"], 17),
    (["vierge", "a.hdt"], 62),
    (["head", "a.hdt", "b.hdt"], 0),
    ([], 0),
    (["number", "a.hdt", "subject", "rel"], 2),
    (["number", "a.hdt", "subject", "<rel>"], 2),
    (["number", "a.hdt", "object", '"x"@en-'], 2),
    (["number", "a.hdt", "object", '"xy"^^<rel>'], 2),
    (["find", "a.hdt", "x", "<y>", "z"], 2),
    (["find", "a.hdt", "?", "<y>", "z"], 2),
    (["find", "a.hdt", "<u:a>", "?", '"z'], 2),
    (["find", "a.hdt", "<u:a>", "<u:p>", "??"], 2),
    (["find", "a.hdt", "<u:a>", "x", "z"], 2),
    (["find", "a.hdt", "?", "?", "<u:aaaaaaaaaaaaaaaa\\u0020>"], 2),
]
# Command lines that check documents: the reports and the lines that were written before memory runs out stay.
LINTS: dict[str, list[Word]] = {
    "without an error": ["lint", LINES],
    "without an error, kept": ["lint", "--keep", LINES],
    "faulty lines": ["lint", "dirty.nt"],
    "faulty lines, kept": ["lint", "--keep", "dirty.nt"],
    "faulty lines, most": ["lint", "--keep", "--most", "2", "dirty.nt"],
}
# Command lines that print a part of documents: what is written before memory runs out stays. (With a folder, a copy of
# the program that ends would remove the unfinished folder of the others.)
SPLITS: dict[str, list[Word]] = {
    "one part": ["split", "--of", "0/1", LINES, LINES],
    "the second of three": ["split", "--of", "1/3", LINES, "dirty.nt", "--blank-nodes", "apart"],
}
# Command lines that read requests: what they print before memory runs out stays.
DIALOGUES: dict[str, list[Word]] = {
    "lines": ["answer", THREE],
    "numbers": ["answer", "--numbers", THREE],
    "count": ["answer", "--count", THREE],
    "raw": ["answer", "--raw", THREE],
    "most": ["answer", "--most", "1", THREE],
    "skip": ["answer", "--skip-non-terms", THREE],
    "skip and count": ["answer", "--skip-non-terms", "--count", THREE],
}


@pytest.fixture
def folder(tmp_path: Path) -> Path:
    """A folder with a file that is cut off, one of an IRI that is relative, one of an unused string, and bad lines."""
    (tmp_path / "cut.hdt").write_bytes((SAMPLES / "v1.hdt").read_bytes()[:100])
    (tmp_path / "rel.hdt").write_bytes(reference.graph([(b"u:s", b"rel", b"u:o")]).data)
    same = b"http://a/"
    (tmp_path / "unused.hdt").write_bytes(reference.loose([(same,) * 3], [same, b"u:x"], [same], [same]).data)
    (tmp_path / "bad.nt").write_bytes(b"<u:a> <u:p> <u:b> .\n<u:a>")
    long = b"<u:" + b"a" * 100_000 + b"> <u:p> <u:b> ."
    (tmp_path / "dirty.nt").write_bytes(b"<u:a> <u:p> <u:b> .\n<u:a>\r\n" + long + b"\n" + long + b"x\n<a>")
    return tmp_path


def refused(refuser: Refuser, words: Sequence[Word], folder: Path) -> Refusals:
    """What the program does with each allocation refused, after a check that it does the same without `refuser`."""
    command: list[Word] = [PROGRAM, *words]
    refusals = refuser.run(command, cwd=folder)
    assert refusals.ample == run(command, cwd=folder)
    assert len(refusals.refused) > 0
    return refusals


def check_refused(refuser: Refuser, words: Sequence[Word], unchanged: int, folder: Path) -> None:
    """Check that the program reports each refused allocation, but for some that change nothing."""
    refusals = refused(refuser, words, folder)
    assert wrong(refusals, lambda result: result == OUT_OF_MEMORY, unchanged) == []


@pytest.mark.parametrize("name", COMMANDS)
def test_commands(name: str, refuser: Refuser, folder: Path) -> None:
    """Each command reports each refused allocation."""
    words, unchanged = COMMANDS[name]
    check_refused(refuser, words, unchanged, folder)


@pytest.mark.parametrize("subject", ["u:a", "u:b"])
def test_search_without_directories(subject: str, refuser: Refuser) -> None:
    """A search with a subject walks where memory is refused for one of the two directories: its answer is whole."""
    refusals = refuser.run([PROGRAM, "find", "--raw", THREE, subject, "?", "?"])
    assert refusals.ample.status == 0
    assert [result for result, _ in refusals.refused].count(refusals.ample) == 2


@pytest.mark.parametrize("words", HELP, ids=lambda words: " ".join(map(str, words)))
def test_help(words: list[Word], refuser: Refuser, folder: Path) -> None:
    """So does a command line that asks for help."""
    check_refused(refuser, words, 0, folder)


@pytest.mark.parametrize("words, unchanged", REFUSED, ids=[" ".join(map(str, words)) for words, _ in REFUSED])
def test_refused_command_lines(words: list[Word], unchanged: int, refuser: Refuser, folder: Path) -> None:
    """So does a command line that is refused."""
    check_refused(refuser, words, unchanged, folder)


@pytest.mark.parametrize("name", LINTS)
def test_lint(name: str, refuser: Refuser, folder: Path) -> None:
    """A program that checks a document writes some first reports and lines, and then reports the refused allocation."""
    refusals = refused(refuser, LINTS[name], folder)
    ample = refusals.ample

    def is_reported(result: Result) -> bool:
        before, last = result.err[:-len(OUT_OF_MEMORY.err)], result.err[-len(OUT_OF_MEMORY.err):]
        return (result.status == 4 and last == OUT_OF_MEMORY.err and ample.err.startswith(before)
                and ample.out.startswith(result.out))

    assert wrong(refusals, is_reported) == []


@pytest.mark.parametrize("name", SPLITS)
def test_split(name: str, refuser: Refuser, folder: Path) -> None:
    """A program that prints a part writes some first lines, and then reports the refused allocation."""
    refusals = refused(refuser, SPLITS[name], folder)

    def is_reported(result: Result) -> bool:
        return result.status == 4 and result.err == OUT_OF_MEMORY.err and refusals.ample.out.startswith(result.out)

    assert wrong(refusals, is_reported) == []


@pytest.mark.parametrize("name", DIALOGUES)
def test_dialogues(name: str, refuser: Refuser) -> None:
    """A program that answers requests prints whole answers, and then reports the refused allocation."""
    refusals = refuser.run([PROGRAM, *DIALOGUES[name]], stdin=DIALOGUE)
    requests = DIALOGUE.splitlines(keepends=True)
    answers = [hdt(*DIALOGUES[name], stdin=b"".join(requests[:count])) for count in range(len(requests) + 1)]
    assert refusals.ample == answers[-1]
    expected = [OUT_OF_MEMORY._replace(out=answer.out) for answer in answers]
    assert wrong(refusals, lambda result: result in expected) == []
    assert {result.out for result, _ in refusals.refused} > {b"", answers[1].out}


# ---- the libraries

# A list of requests ends when it has more than so many bytes, or requests.
CHUNK_BYTES, CHUNK_REQUESTS = 20_000, 12
# Words that append to an output: the argument that is the output before. A call that fails leaves it as it was.
APPENDING = {
    "put_vbyte": 1, "put_decimal": 1, "put_control": 3, "put_numbers": 1, "put_bits": 1, "put_section": 1,
    "write_section": 1, "write_section_agreeing": 1, "section_string": 3,
    "dictionary_string_of": 4, "put_dictionary": 1, "put_written_dictionary": 1,
    "put_triples": 1, "parse_string": 2, "put_string": 2, "put_term": 2, "layout_string_of": 3, "page_text": 1,
}
# Words that append to an output and tell ends in it, that of the output before first: the argument that is that output.
WITH_ENDS = {"dictionary_strings_of": 3, "strings_of": 2}
# Words that answer values one by one until memory runs out.
WALKING = {
    "counted_read", "section_walk", "section_walk_kept", "section_cursor", "section_cursor_compared", "arena",
    "arena_of", "dictionary_strings", "dictionary_strings_kept", "strings", "layout_strings", "section_seek",
}
# Words that answer several values, each of which alone may be empty, or be missing.
EMPTY = {"section_strings"}
MISSING = {"line_triples", "line_calls"}
# Words that end with the name, the line and the column of an error.
ENDING = {"line_triples", "line_strings", "line_texts", "line_fronts"}
# Words whose last value is what a writer took.
WRITING = {"build", "rewrite", "write_graph", "answer_requests", "answer_file"}
# Words whose last two values are what a writer took, and what was made; and the argument that it was before.
RUNNING: dict[str, int | None] = {"run": None, "run_in": None, "run_made": 1}
# The answers where there is no memory to read a command line, and of words that read one or print an error.
NO_REQUEST = ["usage", "4", b"hdt: out of memory".hex()]
NO_TABLE = ["ok", "error", b"error: out of memory\n".hex()]
NO_USAGE = ["ok", "4", b"hdt: out of memory".hex()]


def is_out_of_memory(request: Request, answer: list[str], ample: list[str]) -> bool:
    """Whether an answer reports that memory ran out, and the values behind it are right as far as they go."""
    word = str(request[0])
    if answer[:3] == ["out", "of", "memory"]:
        return answer[3:] == [] or are_right(word, request, answer[3:], ample[1:])
    if word in ENDING:
        return answer[-3:-2] == ["OutOfMemory"] and answer[:-3] == ample[:len(answer) - 3]
    if word == "line_calls":
        return ends_with_fault(request, answer, ample)
    if word == "scratch_build":  # the writer is a vector: without memory for more, writing fails after so many bytes
        return answer[:-1] == ["written"] and ample[0] == "ok" and 2 * int(answer[1]) < len(ample[1])
    if word == "handed_back":
        return answer[:2] in (["ok", "triples"], ["ok", "indexed"]) and answer[2:] == ample[3:]
    if word in ("table", "usage_line"):
        return answer == (NO_TABLE if word == "table" else NO_USAGE)
    return answer == NO_REQUEST


def ends_with_fault(request: Request, answer: list[str], ample: list[str]) -> bool:
    """Whether calls of lines answer as in ample memory up to a call that was out of memory, and then that error."""
    if "fault" not in answer:
        return False
    at = answer.index("fault")
    asked = len(request) - 4
    calls = {"triple", "strings", "text", "end"}
    done = sum(value in calls for value in answer[:at])
    return (answer[:at] == ample[:at] and calls.isdisjoint(answer[at:])
            and answer[at:].count("fault") == answer[at:].count("OutOfMemory") == asked - done)


def are_right(word: str, request: Request, values: list[str], ample: list[str]) -> bool:
    """Whether the values of an answer that reports that memory ran out are right, by those in ample memory."""
    if word in APPENDING:
        return values == [spelled(request[APPENDING[word]])]
    if word in WITH_ENDS:
        before = spelled(request[WITH_ENDS[word]])
        return values == [before, str(len(bytes.fromhex(before)))]
    if word == "string_of":
        return values == [spelled(request[3]), ample[-1]]
    if word in RUNNING:
        argument = RUNNING[word]
        made = "" if argument is None else spelled(request[argument])
        return len(values) == 2 and ample[-2].startswith(values[0]) and values[1] == made
    if word in WRITING:
        return len(values) == 1 and ample[-1].startswith(values[0])
    if word in EMPTY:
        return len(values) == len(ample) and all(value in ("", right) for value, right in zip(values, ample))
    if word in MISSING:
        at = next((number for number, pair in enumerate(zip(values, ample)) if pair[0] != pair[1]), len(values))
        return values[at:] == ample[at + 1:]
    if word in WALKING and values == ample[:len(values)]:
        return True
    if word in ("page", "pages"):
        return values in pages_without_one(word, ample)
    if word == "page_texts":
        return values in page_texts_without_one(request, ample)
    if word in WITHOUT_ONE:
        skipped, model = WITHOUT_ONE[word]
        strings = [spelled(token) for token in request[skipped:]]
        return any(values == model(strings, number) for number in range(len(strings)))
    return False


def arena_without(strings: list[str], refused: int) -> list[str]:
    """The values of an arena, of which one string was refused: its length, and all strings."""
    kept = strings[:refused] + strings[refused + 1:]
    return [str(len(kept)), *kept]


def writer_without(strings: list[str], refused: int) -> list[str]:
    """The values of a section's writer, of which one string was refused: after each its length and its last string."""
    values, kept = [], [""]
    for number, string in enumerate(strings):
        if number != refused:
            kept.append(string)
        values += [str(len(kept) - 1), kept[-1]]
    return values


def pages_without_one(word: str, ample: list[str]) -> list[list[str]]:
    """The values of `page` or `pages` if one page ran out of memory: its vector is unchanged; `pages` ends there."""
    found, at = [], 0
    before = 1 if word == "page" else 0  # the number of matches, which needs no memory
    while at < len(ample):
        size = at + before + 1
        end = size + 1 + 3 * int(ample[size])
        counted = ample[:at + before]
        if word == "page":
            found += [ample[:at], [*counted, "1", "0", "0", "0", *ample[end:]]]
        else:
            found.append([*counted, "0"])
        at = end
    return found


def page_texts_without_one(request: Request, ample: list[str]) -> list[list[str]]:
    """The values of `page_texts` if one page ran out of memory: it ends with the text of the pages before this one."""
    before, most = bytes.fromhex(spelled(request[1])), int(str(request[2]))
    lines = bytes.fromhex(ample[-1])[len(before):].splitlines(keepends=True)
    return [[*ample[:count], (before + b"".join(lines[:most * count])).hex()] for count in range(len(ample) - 1)]


# Words that do without one string whose allocation was refused: where the strings begin, and the values without one.
WITHOUT_ONE: dict[str, tuple[int, Callable[[list[str], int], list[str]]]] = {
    "arena": (3, arena_without), "section_writer": (2, writer_without),
}


def lines_of(requests: Sequence[Request]) -> bytes:
    """Requests as lines."""
    return "".join(line_of(request) + "\n" for request in requests).encode()


def without_a_text(request: Request) -> list[Request]:
    """A request `append_graph_text` without one of its texts, for each of them, and without any."""
    texts, at = [], 2
    while at < len(request):
        end = at + (2 if request[at + 1] == "none" else 4)
        texts.append((at, end))
        at = end
    return [request[:2], *(request[:at] + request[end:] for at, end in texts)]


def answers_of(probe: Path, requests: Sequence[Request]) -> list[str]:
    """The answers to requests in ample memory."""
    result = run([probe], stdin=lines_of(requests))
    assert (result.status, result.err) == (0, b"")
    answers = result.out.decode().splitlines()
    assert [request for request, answer in zip(requests, answers) if answer.startswith("?")] == []
    return answers


class Calls:
    """Requests to a probe, the first of which gives the input, and their answers in ample memory."""

    def __init__(self, probe: Path, requests: list[Request]) -> None:
        self.probe, self.requests = probe, requests
        self.answers = answers_of(probe, requests)
        # The same without an input, as where the request `file` was refused.
        self.without = answers_of(probe, [("file", b""), *requests[1:]])
        # By the number of a request to append texts, the answers where one text was left out.
        self.texts = {number: answers_of(probe, [requests[0], *without_a_text(request)])[1:]
                      for number, request in enumerate(requests) if request[0] == "append_graph_text"}

    def is_right(self, result: Result) -> bool:
        """Whether the answers are those of ample memory, but for one request that was out of memory."""
        answers = result.out.decode().splitlines()
        if (result.status, result.err, len(answers)) != (0, b"", len(self.answers)):
            return False
        for number, (answer, ample) in enumerate(zip(answers, self.answers)):
            if answer != ample:
                following = (self.without if number == 0 else self.answers)[number + 1:]
                return self.is_out_of_memory(number, answer) and answers[number + 1:] == following
        return True

    def is_out_of_memory(self, number: int, answer: str) -> bool:
        """Whether a request's answer reports that memory ran out."""
        if number in self.texts and answer.replace("out of memory", "ok") in self.texts[number]:
            return True
        return is_out_of_memory(self.requests[number], answer.split(" "), self.answers[number].split(" "))


def chunks(requests: Sequence[Request]) -> Iterator[list[Request]]:
    """The requests in lists that are short, since a copy of the process answers what follows a refused allocation.

    Each list begins with the input of its requests.
    """
    given: Request = ("file", b"")
    chunk, size = [given], 0
    for request in requests:
        line = len(line_of(request))
        if request[0] == "file" or size > CHUNK_BYTES and len(chunk) > 2 or len(chunk) > CHUNK_REQUESTS:
            if len(chunk) > 1:
                yield chunk
            given = request if request[0] == "file" else given
            chunk, size = [given], len(line_of(given))
        if request[0] != "file":
            chunk.append(request)
            size += line
    yield chunk


def unread(ample: Result, printed: int) -> Result:
    """How a probe ends for which there was no memory to read a line, when it had printed so many bytes."""
    return Result(1, ample.out[:printed], b"Error: Kind(OutOfMemory)\n")


@pytest.mark.parametrize("group", GROUPS, ids=[group.__name__ for group in GROUPS])
def test_library_calls(group: Callable[[], Iterator[Request]], probe: Probe, refuser: Refuser) -> None:
    """Each allocation of a library call is reported or done without, and the next calls are not changed by it."""
    for requests in chunks(list(group())):
        path = probe.paths[probe.name_of(str(requests[-1][0]))]
        calls = Calls(path, requests)
        refusals = refuser.run([path], stdin=lines_of(requests))
        assert refusals.ample == Result(0, "".join(f"{answer}\n" for answer in calls.answers).encode(), b"")
        assert len(refusals.refused) > len(requests)
        failures = [(number, abridged(calls, result))
                    for number, (result, printed) in enumerate(refusals.refused, 1)
                    if result not in (refusals.ample, unread(refusals.ample, printed)) and not calls.is_right(result)]
        assert failures[:3] == []


def abridged(calls: Calls, result: Result) -> tuple[int, bytes, list[tuple[str, str, str]]]:
    """How a process ended, and the first requests that it answered otherwise than in ample memory."""
    answers = result.out.decode().splitlines()
    pairs = zip(calls.requests, answers, calls.answers)
    others = [(line_of(request)[:200], answer[:200], ample[:200])
              for request, answer, ample in pairs if answer != ample]
    return result.status, result.err, others[:4]


def test_each_word_is_requested(probe: Probe) -> None:
    """The requests use each word of each probe."""
    words = {word for name in probe.paths for word in probe.words(name)}
    used = {str(request[0]) for group in GROUPS for request in group()}
    assert words - used - {"help", "reads", "writes"} == set()
