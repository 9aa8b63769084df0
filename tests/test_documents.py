"""The documents: programs and commands run as they are written, links lead somewhere, words are spelled as in English.

The blocks of docs/JAVA.md are run by test_java, those in Rust of docs/RUST.md and docs/SERVERS.md by test_rust and
test_servers, and the servers of README and docs/PUBLISH.md by test_fragments_servers.
"""

from __future__ import annotations

import gzip
import re
import shutil
import sys
from pathlib import Path

import pytest

from support.built import PROGRAM, STATIC_LIBRARY, TOP
from support.c_library import CC, HEADER, WARNINGS, succeeds
from support.clone import copied
from support.code_blocks import Block, blocks, documents, man_page_examples
from support.program import Word, run
from support.python_package import ENVIRONMENT
from support.tools import tool
from tools import contracts, definitions

# The blocks that each document has, by language: a document with fewer fails, so that none is silently left untested.
BLOCKS = {
    "CONTRIBUTING.md": {"sh": 1},
    "README.md": {"c": 1, "python": 1, "sh": 3, "text": 1},
    "crates/example/README.md": {"rust": 5, "text": 3},
    "docs/AUDIT.md": {"python": 1, "sh": 2},
    "docs/C.md": {"c": 1, "sh": 1},
    "docs/GUIDE.md": {"sh": 6, "text": 4},
    "docs/JAVA.md": {"java": 1, "text": 2, "turtle": 1},
    "docs/MIGRATE.md": {"python": 2, "sh": 1},
    "docs/PUBLISH.md": {"sh": 2, "text": 8},
    "docs/PYTHON.md": {"python": 9},
    "docs/RUST.md": {"rs": 1, "toml": 1},
    "docs/SERVERS.md": {"python": 1, "rs": 1},
    "docs/SIZING.md": {"text": 1},
    "tests/PROBES.md": {"sh": 1},
}
# At least so many commands do the documents have in their text, besides these blocks.
COMMANDS = 54
# Words that are not in the dictionary of British English. Names with capitals or digits are not looked up.
WORDS = set("""
allocator cardinalities cardinality cgroup checksums cpp cron Dask datatype endian enum Fuseki gcc glibc gunicorn gzip
hdt inode Jena lossy mpi nginx ns nullable numpy ontologies parser prefetching prover py pytest rdflib seq serdi
setgid setuid setuptools syntaxes Tickmarl toolchain txt umask unescaped untrusted utils xored
""".split())
# At least so many examples in Rust do the comments of the sources have.
EXAMPLES = 36
# Shell commands that end with a status other than 0, by how they begin.
STATUSES = {"printf '<u:a> ? ?\\n? x ?\\n": 1}
# What commands print, as the comments after them say.
PRINTED = {
    "./hdt build samples/three.nt graph.hdt": "built 3 2 0 2 1 491",
    "./hdt verify graph.hdt": "ok 3 2 0 2 1",
    "./hdt find graph.hdt --count '?' '?' '\"x\"'": "1",
    "python3 -c 'from reference import hdt; print(*hdt.read_file(open(\"samples/three.hdt\", \"rb\").read()).counts)'":
        "3 2 0 2 1",
}
# A name that a reader gives to a program of a document, and a graph of the reader's.
PROGRAM_NAMES = {"c": "first.c", "python": "first.py"}
GRAPH = b'<http://example.org/a> <http://example.org/p> "x" .\n<http://example.org/b> <http://example.org/p> "y" .\n'


def named(*languages: str) -> list[tuple[str, int]]:
    """The documents that have blocks in these languages, and the number of each block, from 0."""
    return [(name, n) for name in documents() for n in range(len(blocks(name, *languages)))]


@pytest.fixture
def clone(tmp_path: Path) -> Path:
    """What a reader has: a clone with the program under test as ./hdt, a graph, and a home without files.

    `./test` does nothing there.
    """
    folder = copied(tmp_path)
    for name in ("hdt", "test"):
        (folder / name).unlink(missing_ok=True)
    (folder / "hdt").symlink_to(PROGRAM)
    (folder / "test").write_text("#!/bin/sh\necho 'these tests are running'\n")
    (folder / "test").chmod(0o755)
    (folder / "graph.nt.gz").write_bytes(gzip.compress(GRAPH))
    (tmp_path / "home").mkdir()
    return folder


def environment(folder: Path) -> dict[str, str]:
    """The environment of a reader who works in a folder."""
    return {**ENVIRONMENT, "HOME": str(folder.parent / "home"), "CC": CC, "MAKEFLAGS": "", "MAKELEVEL": ""}


def test_readme_is_short() -> None:
    """README has at most 9 KiB."""
    assert len((TOP / "README.md").read_bytes()) <= 9 * 1024


def test_documents_are_short() -> None:
    """The documents in docs/ have at most 130 KiB together."""
    assert sum(path.stat().st_size for path in (TOP / "docs").glob("*.md")) <= 130 * 1024


# ---- blocks


def test_all_documents_are_listed() -> None:
    """Each document that has blocks is in the list above, with each of its languages."""
    languages = {name: {block.language for block in blocks(name)} for name in documents()}
    assert {name: found for name, found in languages.items() if found} == {name: set(it) for name, it in BLOCKS.items()}


@pytest.mark.parametrize("document", BLOCKS)
def test_documents_have_their_blocks(document: str) -> None:
    """A document has at least the blocks of each language that it had."""
    languages = [block.language for block in blocks(document)]
    counts = {language: languages.count(language) for language in BLOCKS[document]}
    assert {language: min(counts[language], n) for language, n in BLOCKS[document].items()} == BLOCKS[document]


def test_blocks_of_each_kind_are_run() -> None:
    """There are programs and commands that the tests below run."""
    assert named("c") and named("python") and named("sh")


def commented(text: str, call: str, comment: str) -> str:
    """What a program prints, by the comments after the calls that print; ", and " separates lines."""
    found = re.findall(rf"{call}\(.*\);?\s+{comment}", text)
    return "".join(f"{line}\n" for lines in found for line in lines.split(", and "))


@pytest.mark.parametrize("document, number", named("c"))
def test_c_programs(document: str, number: int, clone: Path) -> None:
    """A program in C compiles without a warning, and prints what its comments say."""
    block = blocks(document, "c")[number]
    if "int main(" not in block.text:
        pytest.skip("this block is no program")
    (clone / "block.c").write_text(block.text)
    succeeds(CC, "-std=c99", *WARNINGS, f"-I{HEADER.parent}", "-o", "block", "block.c", STATIC_LIBRARY, cwd=clone)
    done = run(["./block", "samples/three.hdt"], cwd=clone, env=environment(clone))
    assert (done.status, done.out.decode()) == (0, commented(block.text, "(?:printf|fwrite)", r"/\* (.*) \*/"))
    for word, why in {"": "No such file or directory", "no.hdt": "No such file or directory",
                      "samples": "Is a directory"}.items():
        assert run(["./block", *word.split()], cwd=clone, env={"LC_ALL": "C"}) == (1, b"", f"FILE: {why}\n".encode())
    assert run(["./block", "README.md"], cwd=clone) == (1, b"", b"reason 4\n")


@pytest.mark.parametrize("document, number", named("python"))
def test_python_programs(document: str, number: int, clone: Path) -> None:
    """A program in Python prints what its comments say, and no warning (rdflib 6.1.1 itself warns)."""
    block = blocks(document, "python")[number]
    (clone / "block.py").write_text(block.text)
    warnings = ["-W", "ignore::DeprecationWarning"] if "rdflib" in block.text else []
    done = run([sys.executable, "-W", "error", *warnings, "block.py"], cwd=clone, env=environment(clone))
    wanted = commented(block.text, "print", "# (.*)")
    assert (done.status, done.out.decode(), done.err) == (0, wanted, b"")
    assert wanted != ""


def shell(text: str, folder: Path) -> tuple[int, str]:
    """The status and the output of shell commands in a folder. A failing test shows what they print as an error."""
    done = run(["bash", "-euo", "pipefail", "-c", text], cwd=folder, env=environment(folder), seconds=300)
    print(done.err.decode())
    return done.status, done.out.decode()


def wanted_status(text: str) -> int:
    """The status that a block of shell commands ends with."""
    return next((status for begin, status in STATUSES.items() if text.startswith(begin)), 0)


def check_block(block: Block, following: Block | None, folder: Path) -> None:
    """Run a block of shell commands. An output block that follows it, and `PRINTED`, say what is printed."""
    status, out = shell(block.text, folder)
    assert (status, block.text) == (wanted_status(block.text), block.text)
    if following and following.language == "text" and not block.after.strip():
        assert out == following.text
    for line in block.text.splitlines():
        command, _, comment = line.partition(" #")
        if comment and command.strip() in PRINTED:
            printed = PRINTED[command.strip()]
            assert printed in comment
            assert shell(command, folder) == (0, f"{printed}\n")


@pytest.mark.parametrize("document", sorted({name for name, _ in named("sh")}))
def test_shell_commands(document: str, clone: Path) -> None:
    """The commands of a document run one after another in one folder, with the `make install` of its text."""
    for language, name in PROGRAM_NAMES.items():
        programs = [block.text for block in blocks(document, language) if re.search("hdt.h|import hdt", block.text)]
        (clone / name).write_text("".join(programs[:1]))
    for block, following in zip(blocks(document), [*blocks(document)[1:], None]):
        if block.language == "sh":
            check_block(block, following, clone)
        for command in re.findall(r"`(make install [^`]*)`", block.after):
            assert shell(command, clone)[0] == 0


def test_printed_commands_are_documented() -> None:
    """Each command of `PRINTED` is in a document, with a comment."""
    lines = [line.partition(" #")[0].strip() for name in documents() for block in blocks(name, "sh")
             for line in block.text.splitlines() if " #" in line]
    assert [command for command in PRINTED if command not in lines] == []


def block_with(document: str, words: str) -> str:
    """The one block of output or configuration of a document that has these words."""
    found = [block.text for block in blocks(document, "text") if words in block.text]
    assert len(found) == 1
    return found[0]


@pytest.mark.skipif(not (shutil.which("serdi") and shutil.which("rapper")), reason="there is no serdi, or no rapper")
def test_converters_of_the_guide(clone: Path) -> None:
    """Turtle and RDF/XML, with relative IRIs, are converted and built by the commands of the guide."""
    (clone / "data.ttl").write_text("@prefix : <#> . <a> :p 5 , 'x'@en .\n")
    xml = '<rdf:RDF xmlns:rdf="http://www.w3.org/1999/02/22-rdf-syntax-ns#" xmlns:u="u:"><rdf:Description {}</rdf:RDF>'
    (clone / "data.rdf").write_text(xml.format('rdf:about="a"><u:p rdf:resource="b"/></rdf:Description>'))
    commands = block_with("docs/GUIDE.md", "serdi -i turtle").splitlines()
    count = "./hdt find data.hdt --count '<http://example.org/a>' '?' '?'"
    printed = [shell(f"{line} && {count}", clone) for line in commands]
    assert [(status, out.split()[1:6], out.split()[-1]) for status, out in printed] == [
        (0, ["2", "0", "1", "1", "2"], "2"), (0, ["1", "0", "1", "1", "1"], "1")]


def test_merging_of_the_guide(clone: Path) -> None:
    """By the commands of the guide a label is one node in both files, or, with new labels, one in each."""
    (clone / "graph.nt").write_text('_:b <u:p> "1" .\n')
    (clone / "samples/three.nt").write_text('_:b <u:p> "2" .\n')
    (merging,) = [block.text for block in blocks("docs/GUIDE.md", "sh") if "--blank-nodes apart" in block.text]
    text = f"./hdt build graph.nt graph.hdt; {merging} for it in both apart; do ./hdt dump $it.hdt | cut -c 1-6; done"
    status, out = shell(text, clone)
    assert (status, out.splitlines()[-4:]) == (0, ["_:b <u", "_:b <u", "_:f0_b", "_:f1_b"])


def test_labels_of_the_guide(clone: Path) -> None:
    """The filter of the guide finds the labels of one language, with or without a region, and no others."""
    label = "<http://www.w3.org/2000/01/rdf-schema#label>"
    tags = {"@de": True, "@DE": True, "@de-AT": True, "@den": False, "@en": False, "": False, "^^<u:de>": False}
    lines = [f'<u:{n}> {label} "x@de{n}"{tag} .' for n, tag in enumerate(tags)]
    (clone / "labels.nt").write_text("\n".join(lines))
    found = shell("./hdt build labels.nt labels.hdt >&2; " + block_with("docs/GUIDE.md", "labels.hdt"), clone)
    assert found == (0, "".join(f"{line}\n" for line, is_german in zip(lines, tags.values()) if is_german))


@pytest.mark.skipif(not Path("/usr/bin/time").exists(), reason="there is no time (Debian: time)")
def test_sample_of_sizing(clone: Path) -> None:
    """A sample is built, and its memory and time are printed."""
    status, out = shell(f"({block_with('docs/SIZING.md', 'sample.nt')}) 2>&1", clone)
    assert status == 0 and re.fullmatch(r"built 2 0 2 1 2 \d+\n\d+ kB, \d\.\d+ s\n", out), out


def test_examples_of_the_man_page(clone: Path) -> None:
    """The commands in the section EXAMPLES of man/hdt.1 run one after another."""
    text = man_page_examples()
    assert text.count("\n") >= 4
    (clone / "dirty.nt").write_bytes(GRAPH)
    (clone / "more.hdt").write_bytes((TOP / "samples/three.hdt").read_bytes())
    status, out = shell(f"PATH={clone}:$PATH\n{text}", clone)
    found = [it for it in out.splitlines()[2:] if not it.startswith("merged 5 ")]
    assert (status, found) == (0, ["ok 2 0 2 1 2", GRAPH.decode().splitlines()[0], "1", ""])


# ---- commands in the text


def commands_in_text() -> list[str]:
    """The commands of this project in the documents' text: spans of code that begin with its programs."""
    found = set()
    for name in documents():
        text = re.sub(r"^```.*?^```$", "", (TOP / name).read_text(), flags=re.M | re.S)
        spans = re.findall(r"`((?:\./)?hdt [^`]*|python3 -m tools\.[^`]*|make [^`]*)`", text)
        found |= {" ".join(span.split()) for span in spans}
    return sorted(it for it in found if not it.startswith("hdt: "))


@pytest.mark.parametrize("command", commands_in_text())
def test_commands_exist(command: str) -> None:
    """A command in the text exists, and so do its options."""
    program, *words = re.sub(r"(?:\||&&|;|>).*", "", command).split()
    if program == "make":
        assert re.search(rf"^{words[0]}:", (TOP / "Makefile").read_text(), re.M)
        return
    if re.search(r"\b(COMMAND|NAME)\b", command):  # (as in `hdt COMMAND --help`)
        return
    called: list[Word] = [sys.executable, *words[:2]] if program == "python3" else [PROGRAM, words[0]]
    done = run([*called, "--help"], cwd=TOP)
    assert done.status == 0
    options = [word for word in words if word.startswith("--") and word != "--help"]
    assert [option for option in options if not re.search(rf"{option}\b", done.out.decode())] == []


def test_how_many_commands() -> None:
    """The documents have at least as many commands in their text as they had."""
    assert len(commands_in_text()) >= COMMANDS


# ---- spelling


def plain_text(document: str) -> str:
    """The text of a document without code, comments of code, and targets of links."""
    text = re.sub(r"^```.*?^```$", "", (TOP / document).read_text(), flags=re.M | re.S)
    return re.sub(r"`[^`]*`|\]\([^)]*\)|https?://\S+|\b\w+\.(?:md|org)\b", " ", text)


def test_spelling() -> None:
    """The documents have none of the misspellings that codespell knows."""
    if shutil.which("codespell") is None:
        pytest.skip("there is no codespell (Debian: codespell)")
    done = run(["codespell", "-L", "crate", *documents()], cwd=TOP)
    assert done.out.decode() == ""


@pytest.mark.parametrize("document", [name for name in documents() if name != "tests/PROBES.md"])
def test_words(document: str) -> None:
    """Each word of a document, names aside, is one of British English, or a term that is listed above."""
    if shutil.which("aspell") is None:
        pytest.skip("there is no aspell (Debian: aspell, aspell-en)")
    done = run(["aspell", "--lang=en_GB", "--encoding=utf-8", "list"], stdin=plain_text(document).encode())
    unknown = {word[:-2] if word.endswith("'s") else word for word in done.out.decode().split()}
    assert done.status == 0
    assert {word for word in unknown if word.islower() or word[1:].islower()} - WORDS == set()


# ---- examples in comments


def examples() -> dict[str, list[str]]:
    """The lines of each Rust block in the documentation comments of the sources, by file and line."""
    found = {}
    for path in sorted(TOP.glob("crates/*/src/*.rt")):
        start, block = 0, list[str]()
        for number, line in enumerate(path.read_text().splitlines(), 1):
            comment = re.fullmatch(r" *//[/!] ?(.*)", line)
            text = comment[1] if comment else ""
            if start and text != "```":
                block.append(text)
            elif start:
                found[f"{path.relative_to(TOP)}:{start}"] = block
                start, block = 0, []
            elif text == "```rust":
                start = number
    return found


def is_compiled(block: list[str]) -> bool:
    """Whether the lines are in the program crates/example, but for white space and commas before a closing bracket."""

    def tokens(text: str) -> str:
        return re.sub(r",(?=[)\]}])", "", re.sub(r"\s+", "", text))

    wanted = tokens("\n".join(block))
    return any(wanted in tokens(path.read_text()) for path in TOP.glob("crates/example/src/*.rt"))


# The files with an example that is not in crates/example yet: their calls need a proof that a literal is UTF-8.
NOT_COMPILED = {"documents.rt", "merging.rt"}


def test_examples_in_comments() -> None:
    """Examples in the documentation comments of the sources are compiled and proved, as a part of crates/example."""
    found = examples()
    missing = [place for place, block in found.items() if not is_compiled(block)]
    assert [it for it in missing if Path(it.partition(":")[0]).name not in NOT_COMPILED] == []
    assert len(found) >= EXAMPLES


def test_rust_blocks() -> None:
    """The Rust blocks of the documents are parts of the program crates/example, word for word."""
    example = (TOP / "crates/example/src/main.rt").read_text()
    texts = [(TOP / name).read_text() for name in documents()]
    found = [it for text in texts for it in re.findall(r"^```rust\n(.*?)^```$", text, re.M | re.S)]
    assert [it for it in found if it not in example] == []
    assert len(found) >= 5


# ---- PROOFS, and links

# The links of docs/PROOFS.md to a function, with its clauses, and to a definition.
FUNCTION = re.compile(r"\[`([\w:]+)`\]\(\.\./(crates/\w+/src/\w+\.rt)\)((?:[:,] `\w+`)*)")
DEFINED = re.compile(r"\[`(\w+)`\]\(\.\./(crates/\w+/specs/\w+\.antt)\)")
# At least so many functions, clauses and definitions does it name.
NAMED = (24, 44, 19)
PROOFS = (TOP / "docs/PROOFS.md").read_text()


def clauses(function: str, path: str) -> list[str]:
    """The names of the clauses that say what an exported function of a file ensures; those without one are numbered."""
    _, crate, module = path.split("/", 2)
    texts = {it: (TOP / "crates" / crate / it).read_text() for it in ("src/lib.rt", module)}
    (found,) = (it for it in contracts.of_library(texts) if it.name == function)
    return [part.partition(" ")[2] for part in found.parts() if part.startswith("ensures ")]


@pytest.mark.parametrize("function, path, named_clauses", FUNCTION.findall(PROOFS))
def test_functions_of_the_proofs(function: str, path: str, named_clauses: str) -> None:
    """Each function that PROOFS names is exported from the file of its link, and has the clauses that are named."""
    found = clauses(function, path)
    wanted = re.findall(r"`(\w+)`", named_clauses)
    assert [name for name in wanted if name not in found] == []
    assert wanted or found == ["0"]


@pytest.mark.parametrize("name, path", DEFINED.findall(PROOFS))
def test_definitions_of_the_proofs(name: str, path: str) -> None:
    """Each definition that PROOFS names is in the file of its link."""
    assert name in definitions.blocks((TOP / path).read_text())


def test_proofs_name_all_parts() -> None:
    """PROOFS names at least the functions, clauses and definitions that it named, and links no other source files."""
    functions = FUNCTION.findall(PROOFS)
    found = len(functions), sum(it[2].count("`") // 2 for it in functions), len(DEFINED.findall(PROOFS))
    assert all(have >= least for have, least in zip(found, NAMED)), found
    assert len(re.findall(r"\]\([^)]*\.(?:rt|antt)\)", PROOFS)) == found[0] + found[2]


def test_lines_of_definitions() -> None:
    """PROOFS says how many lines `tools.definitions` counts."""
    status, out, _ = tool("definitions")
    total = out.decode().splitlines()[-1].split(" | ")
    assert (status, total[0]) == (0, "| together")
    assert f"counts the {total[2]} lines" in PROOFS


def test_files_of_the_audit() -> None:
    """Each file that AUDIT names is there, and the tests that it runs."""
    text = (TOP / "docs/AUDIT.md").read_text()
    named_files = set(re.findall(r"((?:crates|tests|dist)/[\w/]+\.\w+|dist/MANIFEST)", text))
    assert [name for name in sorted(named_files) if not (TOP / name).exists()] == []
    assert len(named_files) >= 7


def test_files_of_the_architecture() -> None:
    """Each file of a crate that ARCHITECTURE names is in a crate."""
    named_files = set(re.findall(r"`((?:src|specs)/\w+\.\w+)`", (TOP / "ARCHITECTURE.md").read_text()))
    assert [name for name in sorted(named_files) if not any(TOP.glob(f"crates/*/{name}"))] == []
    assert len(named_files) > 50


def anchors(document: str) -> set[str]:
    """The anchors of a document's headings."""
    text = re.sub(r"^```.*?^```$", "", (TOP / document).read_text(), flags=re.M | re.S)
    headings = re.findall(r"^#+ (.*)$", text, re.M)
    return {re.sub(r"[^\w\- ]", "", heading.lower()).replace(" ", "-") for heading in headings}


@pytest.mark.parametrize("document", documents())
def test_links(document: str) -> None:
    """Each link of a document to another file, or to a heading, leads there."""
    wrong = []
    for target in re.findall(r"\]\((?!https?:)([^)\s]+)\)", (TOP / document).read_text()):
        name, _, anchor = target.partition("#")
        path = (TOP / document).parent / name if name else TOP / document
        if not path.exists() or anchor and anchor not in anchors(str(path.resolve().relative_to(TOP))):
            wrong.append(target)
    assert wrong == []
