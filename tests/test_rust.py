"""The Rust crate: its own tests and lints, its declarations beside c/hdt.h, its build script, and a user's program."""

from __future__ import annotations

import re
import signal
from collections.abc import Callable, Mapping
from pathlib import Path

import pytest
from hypothesis import example, given
from hypothesis import strategies as st

from reference import hdt as reference
from reference import ntriples
from reference.hdt import Strings
from support import c_files
from support.built import SAMPLES, TOP
from support.c_library import HEADER, declared, file_reasons, succeeds, text_reasons
from support.probe import spelled
from support.program import Result, run
from support.python_package import hdt
from support.refusing import Refuser, line_out_of_memory, wrong
from support.rust_crate import (
    CRATE, DOCUMENT, cargo, cargo_environment, compiled, needs, needs_cargo, printed, programs, user,
)
from support.terms import LABEL_EDGES, strings, term_values

FFI, DECLARATIONS = CRATE / "src/ffi.rs", CRATE / "src/header.rs"
README, CALLS = TOP / "README.md", TOP / "tests/support/rust_calls.rs"
# Calls in place of which the crate has others: those with nine parameters, and that for `hdt_merge_with`.
REPLACED = {"hdt_find", "hdt_matching", "hdt_text", "hdt_merge"}
# At least so many tests does the crate have, with the examples of its comments.
CASES = 101

# ---- the declarations

TYPES = {"uint64_t": "u64", "uint32_t": "u32", "uint8_t": "u8", "size_t": "usize", "void": "u8"}


def without_comments(source: str) -> str:
    """The text of a source file in C or Rust without its comments, each blank or line end as one blank."""
    return " ".join(re.sub(r"/\*.*?\*/|//[^\n]*", "", source, flags=re.S).split())


def rust_type(c_type: str) -> str:
    """The type in Rust of a number, a type of the header, or a pointer."""
    name = c_type.removeprefix("const ").removesuffix(" *")
    pointer = "*const " if c_type.startswith("const ") else "*mut " if c_type.endswith(" *") else ""
    return pointer + TYPES.get(name, name)


def c_field(field: str) -> str:
    """A parameter or a field of C as it is in Rust."""
    found = re.fullmatch(r"(.*?) ?\b(\w+)(?:\)?\[(\d+)\])?", field)
    assert found, field
    c_type, name, length = found.groups()
    if c_type.endswith(" (*"):
        return f"{name}: *mut [{rust_type(c_type[:-3])}; {length}]"
    return f"{name}: [{rust_type(c_type)}; {length}]" if length else f"{name}: {rust_type(c_type)}"


def c_parameters(parameters: str) -> str:
    """The parameters of a call of C as they are in Rust."""
    return ", ".join(c_field(it) for it in parameters.split(", ") if it != "void")


def c_fields(fields: str) -> str:
    """The fields of a type of C, more than one of which may be declared at once, as they are in Rust."""
    found = []
    for first, *more in (it.strip().split(", ") for it in fields.split(";") if it.strip()):
        found += [first, *(f"{first.rsplit(' ', 1)[0]} {name}" for name in more)]
    return ", ".join(map(c_field, found))


def of_header() -> dict[str, str]:
    """What c/hdt.h declares as it is in Rust, by name: constants, the fields of types, and calls."""
    text = without_comments(HEADER.read_text())
    found = dict(re.findall(r"\b(HDT_\w+)(?: =)? (\d+)\b", text))
    for name, less in re.findall(r"#define (HDT_\w+) \(?UINT64_MAX( - \d+)?\)?", text):
        found[name] = f"u64::MAX{less}"
    for fields, name in re.findall(r"struct \{ ([^{}]*) \} (\w+);", text):
        found[name] = c_fields(fields)
    for result, name, parameters in re.findall(r"((?:const )?\w+ \*?)(hdt_\w+)\((.*?)\);", text):
        found[name] = f"({c_parameters(parameters)})"
        if result != "void ":
            found[name] += f" -> {rust_type(result.strip())}"
    return found


def of_crate() -> dict[str, str]:
    """What the crate declares, by name: constants, the fields of types, and calls."""
    text = without_comments(DECLARATIONS.read_text() + FFI.read_text()).replace("pub(crate) ", "")
    found = dict(re.findall(r"const (HDT_\w+): u(?:32|64|size) = (.*?);", text))
    for name, fields in re.findall(r"struct (hdt_\w+) \{ (.*?),? \}", text):
        found[name] = fields
    for name, call in re.findall(r"fn (hdt_\w+)(\(.*?\)(?: -> \w+)?);", text):
        found[name] = call
    return found


def test_declarations_are_those_of_the_header() -> None:
    """The crate declares what the header declares, as it is there, but for what it has in another call."""
    header = of_header()
    assert of_crate() == {name: it for name, it in header.items() if name not in REPLACED}
    assert header["HDT_CLOSED"] == "u64::MAX - 2" and header["HDT_FILE_TRAILING_BYTES"] == "33"
    assert header["hdt_verdict"] == "reason: u32, place: u64, counts: [u64; 5]"
    assert header["hdt_find"].endswith("o: *const u8, o_len: usize, skip: u64, out: *mut [u64; 3], room: usize) -> u64")
    assert declared() <= set(header)


@pytest.mark.parametrize("prefix, names", [("FILE", file_reasons()), ("TEXT", text_reasons())])
def test_reasons_have_the_documented_names(prefix: str, names: list[str]) -> None:
    """The crate has the reasons of the header, with the names that the documents have for their numbers."""
    numbers = {name: it for name, it in of_crate().items() if name.startswith(f"HDT_{prefix}_")}
    variants = re.findall(rf"^ +(\w+) = (HDT_{prefix}_\w+),$", (CRATE / "src/error.rs").read_text(), re.M)
    assert [(name, int(numbers[it])) for name, it in variants] == list(zip(names, range(1, len(numbers) + 1)))
    assert len(variants) == len(numbers) >= 9


def test_types_are_of_the_layout_of_c() -> None:
    """Each type of the header is `repr(C)`."""
    text = without_comments(DECLARATIONS.read_text())
    types = re.findall(r"(#\[repr\(C\)\] )?(?:#\[derive\(\w+\)\] )?(?:pub\(crate\) )?struct (hdt_\w+) \{", text)
    assert [name for layout, name in types if not layout] == []
    assert len(types) == len(re.findall(r"struct hdt_", text)) >= 9
    assert "struct hdt_" not in FFI.read_text()


def test_unsafe_code_is_in_one_module() -> None:
    """Each unsafe block and implementation is in `ffi`, behind a comment that says why it is safe."""
    sources = {path: path.read_text() for path in sorted(CRATE.rglob("*.rs")) if "target" not in path.parts}
    assert len(sources) >= 6
    for path, text in sources.items():
        lines = text.splitlines()
        places = [at for at, line in enumerate(lines) if re.search(r"\bunsafe (\{|impl|fn)", line.split("//")[0])]
        assert path == FFI or not places
        for at in places:
            said = re.compile("// SAFETY: |/// # Safety")
            assert any(map(said.search, lines[max(0, at - 3) : at])), (path.name, at + 1)
        if path.parent == FFI.parent and path.name not in ("ffi.rs", "lib.rs"):
            assert "#![forbid(unsafe_code)]" in lines


# ---- cargo


@pytest.fixture(scope="module")
def environment(tmp_path_factory: pytest.TempPathFactory) -> Mapping[str, str]:
    """What cargo is run with."""
    return cargo_environment(tmp_path_factory)


@needs_cargo
def test_cargo_test(environment: Mapping[str, str]) -> None:
    """The tests of the crate and the examples of its comments pass, and none is ignored."""
    done = cargo(environment, "test", "--offline", "--locked")
    assert done.status == 0, printed(done)
    results = re.findall(r"^test result: ok\. (\d+) passed; 0 failed; (\d+) ignored", done.out.decode(), re.M)
    assert sum(int(passed) for passed, _ in results) >= CASES
    assert sum(int(ignored) for _, ignored in results) == 0


@needs_cargo
@needs("cargo-clippy")
def test_cargo_clippy(environment: Mapping[str, str]) -> None:
    """Clippy has no warning."""
    done = cargo(environment, "clippy", "--offline", "--locked", "--all-targets", "--", "-D", "warnings")
    assert done.status == 0, printed(done)


@needs_cargo
@needs("cargo-fmt", "rustfmt")
def test_cargo_fmt(environment: Mapping[str, str]) -> None:
    """The sources are formatted."""
    done = cargo(environment, "fmt", "--check")
    assert done.status == 0, printed(done)


@needs_cargo
def test_cargo_example(environment: Mapping[str, str]) -> None:
    """The example measures each kind of work."""
    done = cargo(environment, "run", "-q", "--offline", "--example", "speed_threads", str(SAMPLES / "three.hdt"), "0.1")
    assert (done.status, done.err) == (0, b"")
    _, line, *rows = [line.strip("|").split(" | ") for line in done.out.decode().splitlines()]
    assert (len(line), len(rows), {len(row) for row in rows}) == (1, 15, {5})
    assert all(float(row[3]) > 0 for row in rows if row[2] == "1")


@needs_cargo
@needs("rustdoc")
def test_cargo_doc(environment: Mapping[str, str]) -> None:
    """The reference is made without a warning."""
    done = cargo({**environment, "RUSTDOCFLAGS": "-D warnings"}, "doc", "--offline", "--locked", "--no-deps")
    assert done.status == 0, printed(done)


# ---- a user's program


# The programs of documents, by document and number.
PROGRAMS = {f"{document.name} {number}": program
            for document in (DOCUMENT, README) for number, program in enumerate(programs(document))}


@needs_cargo
@pytest.mark.parametrize("program", PROGRAMS.values(), ids=PROGRAMS)
def test_program_of_a_document(program: str, environment: Mapping[str, str], tmp_path: Path) -> None:
    """The program compiles in an empty folder without a warning, and prints what its comments say."""
    folder = user(tmp_path / "user", program)
    (folder / "samples").symlink_to(SAMPLES)
    own = {**environment, "CARGO_TARGET_DIR": str(folder / "target"), "RUSTFLAGS": "-D warnings"}
    done = cargo(own, "run", "-q", "--offline", cwd=folder)
    comments = re.findall(r"(?:println!|write_all)\(.*; // (.*)", program)
    assert (done.status, done.err.decode()) == (0, "")
    assert done.out.decode().splitlines() == [line for comment in comments for line in comment.split(", and ")]
    assert len(comments) >= 1


@pytest.fixture(scope="module")
def calls(tmp_path_factory: pytest.TempPathFactory) -> Path:
    """The program tests/support/rust_calls.rs."""
    return compiled(tmp_path_factory, CALLS.read_text())


def wanted_lines(path: Path) -> list[str]:
    """What the program prints of a file, by the Python package."""
    try:
        graph = hdt.open(path)
    except hdt.Fault as error:
        return [f"fault {error.reason} {error.name} at {error.place}"]
    with graph:
        lines = ["ok " + " ".join(map(str, graph.counts))]
        try:
            hdt.verify(path, tight=True)
        except hdt.Fault as error:
            lines.append(f"fault {error.reason} {error.name} at {error.place}")
        lines += ["".join(f"{spelled(string.encode())}." for string in triple) for triple in graph]
        lines.append(f"predicates {[count for _, count in graph.predicates()]}")
        try:
            return [*lines, f"text {graph.text().encode().hex()}"]
        except hdt.NotATerm as error:
            return [*lines, f"no term {error.role} {error.number}"]


NO_TERMS: dict[str, Strings] = {
    "subject": (b"a", b"u:p", b"u:o"),
    "predicate": (b"u:s", b"p", b"u:o"),
    "object": (b"u:s", b"u:p", b'"o'),
}
FILES: dict[str, Callable[[], dict[str, bytes]]] = {
    "samples": c_files.samples,
    "unused strings": c_files.loose_files,
    "small files": c_files.small_files,
    "graphs": c_files.graphs,
    "a string that is no term": lambda: {role: reference.graph([triple]).data for role, triple in NO_TERMS.items()},
}


@needs_cargo
@pytest.mark.parametrize("group", FILES)
def test_files(group: str, calls: Path, tmp_path: Path) -> None:
    """Files, valid and invalid, have the counts, triples, text and errors that the Python package has of them."""
    files = FILES[group]()
    paths = [tmp_path / name for name in files]
    for path, data in zip(paths, files.values()):
        path.write_bytes(data)
    done = run([calls, "file", *paths])
    assert (done.status, done.err) == (0, b"")
    assert done.out.decode().splitlines() == [line for path in paths for line in wanted_lines(path)]


def wanted_term(string: bytes) -> str:
    """What the program prints of a string, by the reference."""
    try:
        term = ntriples.string_term(string)
    except ntriples.NotATerm:
        return "no term"
    return " ".join(map(spelled, [*term_values(term), ntriples.put_term(term)]))


def is_utf8(string: bytes) -> bool:
    """Whether a string can be given to the crate."""
    return string.decode(errors="replace").encode() == string


@needs_cargo
@given(st.lists(strings().filter(is_utf8), max_size=30))
@example([f"_:{before}{character}".encode() for character in LABEL_EDGES for before in ("", "a")])
@example([f"u:{character}".encode() for character in map(chr, range(1, 0x100))])
@example([f'"x"^^<u:{character}>'.encode() for character in map(chr, range(1, 0x100))])
def test_terms(calls: Path, examples: list[bytes]) -> None:
    """Strings have the terms that the reference reads, and these are written as it writes them."""
    done = run([calls, "terms"], stdin=b"".join(string.hex().encode() + b"\n" for string in examples))
    assert (done.status, done.err) == (0, b"")
    assert done.out.decode().splitlines() == [wanted_term(string) for string in examples]


@needs_cargo
def test_out_of_memory(calls: Path, tmp_path: Path) -> None:
    """Where the library has too little memory for a text and for strings, calls say so, and the graph stays open."""
    long = "u:" + "a" * 8_000
    lines = (f"<{long}{n:04}> <u:p> <{long}{n:04}o> .\n" for n in range(5_000))
    (tmp_path / "graph.nt").write_text("".join(lines))
    hdt.build(tmp_path / "graph.nt", tmp_path / "graph.hdt")
    done = run(["sh", "-c", 'ulimit -v 32768 && exec "$@"', "sh", calls, "memory", tmp_path / "graph.hdt"])
    assert done == (0, b"out of memory, out of memory, 8006\n", b"")


# The calls that return an error if the library has no memory. A search aborts then, as a `Vec` does.
FALLIBLE = {*("build", "verify", "verify_tight", "rewrite", "split", "open", "from_bytes", "clone"),
            *("string", "strings", "page", "text", "page_text")}


@needs_cargo
def test_each_allocation_refused(calls: Path, tmp_path: Path) -> None:
    """With each allocation refused a call returns the error or aborts, and none returns anything wrong."""
    document = tmp_path / "document.nt"
    lines = (f'<u:s{n % 3}> <u:p{n % 2}> "{n}" .\n<u:s{n % 3}> <u:p1> <u:s{n}> .\n' for n in range(10))
    document.write_text("".join(lines))
    refusals = Refuser(tmp_path).run([calls, "refused", document])
    ample = refusals.ample
    # (before the first line it has not called anything)
    refusals = refusals._replace(refused=[it for it in refusals.refused if it.printed])

    def name(result: Result) -> str:
        return line_out_of_memory(result, ample, "Err(OutOfMemory)")

    def is_reported(result: Result) -> bool:
        aborted = result.status == -signal.SIGABRT and result.err.startswith(b"memory allocation of ")
        return name(result) != "" or (aborted and ample.out.startswith(result.out))

    # (`build` and `rewrite` allocate their sequences as they grow if a reservation is refused; and the first call on a
    # graph does without another handle, for each of two graphs.)
    assert wrong(refusals, is_reported, 6 + 2) == []
    assert {name(result) for result, _ in refusals.refused} - {""} == FALLIBLE


@needs_cargo
def test_out_of_memory_for_a_term(calls: Path) -> None:
    """Where the library has too little memory for a term, the process aborts, as for a `String`."""
    done = run(["sh", "-c", 'ulimit -v 32768 && exec "$@"', "sh", calls, "abort"])
    assert (done.status, done.out) == (-signal.SIGABRT, b"")
    assert done.err.startswith(b"memory allocation of 20000000 bytes failed")


# ---- the build script


@pytest.fixture(scope="module")
def build_script(tmp_path_factory: pytest.TempPathFactory) -> Path:
    """The build script, compiled."""
    program = tmp_path_factory.mktemp("script") / "build"
    succeeds("rustc", "--edition", "2021", "-D", "warnings", "-o", program, CRATE / "build.rs")
    return program


def target(name: str, manifest: Path = CRATE) -> dict[str, str]:
    """What cargo tells a build script of a target."""
    of_target = dict(zip(("ARCH", "OS", "ENV"), name.split("-")))
    return {"CARGO_MANIFEST_DIR": str(manifest), **{f"CARGO_CFG_TARGET_{name}": it for name, it in of_target.items()}}


def script(build_script: Path, environment: Mapping[str, str]) -> Result:
    """Run the build script, without the library that the tests name."""
    return run(["env", "-u", "HDT_LIB_DIR", *(f"{name}={it}" for name, it in environment.items()), build_script])


@needs("rustc")
def test_build_script_links_what_is_shipped(build_script: Path, tmp_path: Path) -> None:
    """It links the library in dist/ of the target, or that of the folder that is named."""
    folder = tmp_path / "dist/x86_64-linux-gnu"
    folder.mkdir(parents=True)
    (tmp_path / "rust").mkdir()
    (folder / "libhdt.a").touch()
    done = script(build_script, target("x86_64-linux-gnu", tmp_path / "rust"))
    assert done.status == 0
    assert f"cargo:rustc-link-search=native={tmp_path}/rust/../dist/x86_64-linux-gnu\n" in done.out.decode()
    done = script(build_script, {**target("aarch64-linux-gnu"), "HDT_LIB_DIR": str(folder)})
    assert f"cargo:rustc-link-search=native={folder}\ncargo:rustc-link-lib=static=hdt\n" in done.out.decode()
    assert (done.status, done.err) == (0, b"")


@needs("rustc")
@pytest.mark.parametrize("name", ["aarch64-linux-gnu", "x86_64-windows-msvc", "x86_64-linux-musl"])
def test_build_script_refuses_other_targets(name: str, build_script: Path) -> None:
    """For a target without a library it says so, and how to name one."""
    done = script(build_script, target(name))
    assert done.status == 1
    assert f"error: tickmarl-hdt has no library for the target {name}," in done.err.decode()
    assert "set HDT_LIB_DIR" in done.err.decode()


@needs("rustc")
@pytest.mark.parametrize("named", [True, False])
def test_build_script_needs_the_library(named: bool, build_script: Path, tmp_path: Path) -> None:
    """Where the library is missing it says in which folder."""
    environment = target("x86_64-linux-gnu", tmp_path)
    done = script(build_script, {**environment, **({"HDT_LIB_DIR": str(tmp_path)} if named else {})})
    assert done.status == 1
    folder = tmp_path if named else f"{tmp_path}/../dist/x86_64-linux-gnu"
    assert done.err.decode().startswith(f"error: there is no libhdt.a in {folder}; set HDT_LIB_DIR")
