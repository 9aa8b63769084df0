"""The C library: its header, its symbols, and c/test.c over many files and over libraries with one wrong call."""

from __future__ import annotations

import ctypes
import re
import shutil
from pathlib import Path
from typing import NamedTuple

import pytest

from support import c_files
from support.built import SAMPLES, SHARED_LIBRARY, STATIC_LIBRARY
from support.c_library import (CC, CXX, HEADER, TEST, WARNINGS, compile_test, declared, failures_of, file_reasons,
                               passed_cases, succeeds, symbols, text_reasons)
from support.program import Result, run

SECONDS = 300
# What the library may ask of others: memory, and what a compiler calls.
NEEDED = {
    *("malloc", "realloc", "free", "memcpy", "memmove", "memset", "memcmp", "bcmp", "strlen"),
    *("__udivti3", "__umodti3", "_GLOBAL_OFFSET_TABLE_"),
}
needs_readelf = pytest.mark.skipif(not shutil.which("readelf"), reason="there is no readelf")
needs_objcopy = pytest.mark.skipif(not shutil.which("objcopy"), reason="there is no objcopy")


# ---- the header


@pytest.mark.parametrize("standard", ["c99", "c11", "c17"])
def test_header_is_c(standard: str) -> None:
    """The header compiles without a warning as C of each standard."""
    succeeds(CC, f"-std={standard}", *WARNINGS, "-Wstrict-prototypes", "-fsyntax-only", "-x", "c", HEADER)


@pytest.mark.parametrize("standard", ["c++11", "c++17"])
def test_header_is_cpp(standard: str) -> None:
    """The header compiles without a warning as C++ of each standard."""
    succeeds(CXX, f"-std={standard}", *WARNINGS, "-fsyntax-only", "-x", "c++", HEADER)


def test_cpp_links_each_call(tmp_path: Path) -> None:
    """A C++ program that takes the address of each call links and runs: the names are those of C."""
    calls = tmp_path / "calls.cpp"
    addresses = ", ".join(f"(void *){name}" for name in sorted(declared()))
    calls.write_text(f'#include "{HEADER}"\nvoid *calls[] = {{{addresses}}};\n'
                     "static_assert(sizeof(hdt_graph) == 16 && sizeof(hdt_thread_graph) == 128, \"the sizes\");\n"
                     "int main() {\n"
                     "    hdt_thread_graph own = HDT_THREAD_GRAPH_INIT;\n"
                     "    return calls[0] == nullptr || own.graph.state != 0;\n}\n")
    succeeds(CXX, "-std=c++11", *WARNINGS, "-o", tmp_path / "calls", calls, STATIC_LIBRARY)
    succeeds(tmp_path / "calls")


# ---- the libraries' symbols


def test_header_declares_calls() -> None:
    """The header declares at least the calls that the library began with."""
    assert declared() >= set(WRONG)


def test_shared_library_exports_the_calls() -> None:
    """The shared library exports the declared calls and nothing else."""
    assert symbols(SHARED_LIBRARY, "-D", "--defined-only") == declared()


def test_static_library_exports_the_calls() -> None:
    """The static library defines the declared calls and no other global symbol."""
    assert symbols(STATIC_LIBRARY, "-g", "--defined-only") == declared()


def test_static_library_needs_memory_only() -> None:
    """The static library calls nothing but what allocates, copies and compares memory."""
    assert symbols(STATIC_LIBRARY, "-u") - NEEDED == set()


@needs_readelf
def test_shared_library_needs_libc_only() -> None:
    """The shared library is loaded with the C library and no other."""
    assert re.findall(r"NEEDED.*\[(.*)\]", succeeds("readelf", "-dW", SHARED_LIBRARY)) == ["libc.so.6"]


@needs_readelf
def test_soname() -> None:
    """The shared library has a versioned SONAME."""
    assert re.findall(r"SONAME.*\[(.*)\]", succeeds("readelf", "-dW", SHARED_LIBRARY)) == ["libhdt.so.1"]


@needs_readelf
def test_shared_library_is_hardened() -> None:
    """The shared library has no text relocations and no executable stack."""
    assert "TEXTREL" not in succeeds("readelf", "-dW", SHARED_LIBRARY)
    assert not re.search(r"GNU_STACK.* RWE ", succeeds("readelf", "-lW", SHARED_LIBRARY))


# ---- names


@pytest.mark.parametrize(("call", "names"), [("hdt_reason_name", file_reasons()),
                                             ("hdt_text_reason_name", text_reasons())])
def test_names_are_those_of_the_documents(call: str, names: list[str]) -> None:
    """Each reason has the name that the documents give it, and no other number has one."""
    name_of = ctypes.CDLL(str(SHARED_LIBRARY))[call]
    name_of.restype = ctypes.c_uint64
    for number in range(300):
        room = (ctypes.c_uint8 * 32)()
        length = name_of(ctypes.c_uint32(number), room, ctypes.c_size_t(len(room)))
        if 1 <= number <= len(names):
            assert bytes(room).rstrip(b"\0").decode() == names[number - 1] and length == len(names[number - 1])
        else:
            assert length == 2**64 - 1 and bytes(room) == bytes(32)


# ---- c/test.c over files


@pytest.fixture(scope="module")
def sanitized(tmp_path_factory: pytest.TempPathFactory) -> Path:
    """c/test.c with the address sanitizer and that of undefined behaviour."""
    options = ("-O1", "-fsanitize=address,undefined", "-fno-sanitize-recover=undefined")
    return compile_test(tmp_path_factory.mktemp("sanitized") / "test", TEST, *options)


@pytest.fixture(scope="module")
def plain(tmp_path_factory: pytest.TempPathFactory) -> Path:
    """c/test.c without a sanitizer."""
    return compile_test(tmp_path_factory.mktemp("plain") / "test", TEST, "-O1")


FILES = {
    "samples": c_files.samples,
    "unused strings": c_files.loose_files,
    "small files": c_files.small_files,
    "graphs": c_files.graphs,
}


@pytest.mark.parametrize("group", FILES)
def test_every_call_on_files(group: str, sanitized: Path, tmp_path: Path) -> None:
    """Every call on each file, with each allocation refused in turn, over all its prefixes and over changed bytes."""
    files = FILES[group]()
    paths = [tmp_path / f"{name}.hdt" for name in files]
    for path, data in zip(paths, files.values()):
        path.write_bytes(data)
    done = run([sanitized, "--small", *paths], seconds=SECONDS)
    assert failures_of(done) == []
    assert passed_cases(done) == len(files) + 3  # and the texts, terms and names that it has itself


def test_large_input(sanitized: Path) -> None:
    """2^20 handles; texts of 70,000 subjects, of 66,000 predicates, with terms of 100,000 bytes, through every call."""
    done = run([sanitized], seconds=SECONDS)
    assert failures_of(done) == []
    assert passed_cases(done) == 7


@pytest.mark.parametrize("name", c_files.damageable())
def test_damaged_files_with_right_crcs(name: str, plain: Path, tmp_path: Path) -> None:
    """verify, open and rewrite agree on files with a changed byte and right CRCs; valid ones go through every call."""
    files = c_files.damaged(c_files.damageable()[name])
    path = tmp_path / "damaged"
    path.write_bytes(b"".join(len(data).to_bytes(4, "little") + data for data in files))
    done = run([plain, "--each", path], seconds=SECONDS)
    assert failures_of(done) == []
    assert passed_cases(done) == len(files) > 1000


# ---- c/test.c over libraries with one wrong call


class Wrong(NamedTuple):
    """A wrong call: its result type, its parameters, and its body, in which RIGHT is the right call."""

    result: str
    parameters: str
    body: str


PATTERN = ("uint32_t hs, const uint8_t *s, size_t sn, uint32_t hp, const uint8_t *p, size_t pn, "
           "uint32_t ho, const uint8_t *o, size_t on")
GIVEN = "hs, s, sn, hp, p, pn, ho, o, on"
WRONG = {
    "hdt_verify": Wrong("void", "const uint8_t *b, size_t n, hdt_verdict *v",
                        "RIGHT(b, n, v); if (v->reason == 33) v->reason = 0;"),
    "hdt_open": Wrong("void", "const uint8_t *b, size_t n, hdt_graph *g, hdt_verdict *v",
                      "RIGHT(b, n, g, v); if (v->reason == 11) v->place++;"),
    "hdt_close": Wrong("void", "hdt_graph *g", "g->state = 0; g->at = NULL;"),
    "hdt_share": Wrong("uint32_t", "hdt_graph *g, hdt_graph *o",
                       "uint32_t r = RIGHT(g, o); if (r == HDT_DONE) { hdt_close(o); *o = *g; } return r;"),
    "hdt_len": Wrong("uint64_t", "hdt_graph *g", "return g->state ? RIGHT(g) : 0;"),
    "hdt_count": Wrong("uint64_t", "hdt_graph *g, uint32_t r", "return RIGHT(g, r > 2 ? 2 : r);"),
    "hdt_number": Wrong("uint64_t", "hdt_graph *g, uint32_t r, const uint8_t *s, size_t n",
                        "uint64_t k = RIGHT(g, r, s, n); return k == HDT_ABSENT ? 0 : k;"),
    "hdt_string": Wrong("uint64_t", "hdt_graph *g, uint32_t r, uint64_t k, uint8_t *out, size_t room",
                        "uint64_t n = RIGHT(g, r, k, out, room); if (n < room) out[n] = 0; return n;"),
    "hdt_strings": Wrong("uint64_t", "hdt_graph *g, uint32_t r, const uint64_t *k, size_t n, hdt_bytes *out, "
                                     "uint64_t *ends, size_t room",
                         "uint64_t len = RIGHT(g, r, k, n, out, ends, room); "
                         "if (n > 1 && room > 1 && len < HDT_CLOSED) ends[0] = ends[1]; return len;"),
    "hdt_header": Wrong("uint64_t", "hdt_graph *g, uint8_t *out, size_t room",
                        "uint64_t n = RIGHT(g, out, room); return n < HDT_CLOSED && n > room ? room : n;"),
    "hdt_find": Wrong("uint64_t", f"hdt_graph *g, {PATTERN}, uint64_t skip, uint64_t (*out)[3], size_t room",
                      f"return RIGHT(g, {GIVEN.replace('hs', 'hs == 1')}, skip, out, room);"),
    "hdt_matching": Wrong("uint64_t", f"hdt_graph *g, {PATTERN}",
                          f"uint64_t n = RIGHT(g, {GIVEN}); return n == 2 ? 1 : n;"),
    "hdt_text": Wrong("void", f"hdt_graph *g, {PATTERN}, hdt_bytes *out, hdt_text_result *t",
                      f"RIGHT(g, {GIVEN}, out, t); if (out->len) out->len--;"),
    "hdt_build": Wrong("void", "const uint8_t *x, size_t n, const uint8_t *b, size_t bn, uint32_t k, hdt_bytes *out, "
                               "hdt_report *r",
                       "RIGHT(x, n, b, bn, k, out, r); if (r->column > 20) r->column = 20;"),
    "hdt_split": Wrong("void", "const uint8_t *x, size_t n, uint32_t parts, const uint8_t *p, size_t pn, "
                               "hdt_bytes *out, uint64_t *ends, size_t room, hdt_split_report *r",
                       "RIGHT(x, n, parts, p, pn, out, ends, room, r); if (room > 1) ends[1] = out->len;"),
    "hdt_merge": Wrong("void", "hdt_graph *g, size_t n, const uint8_t *b, size_t bn, uint32_t k, hdt_bytes *out, "
                               "hdt_report *r",
                       "RIGHT(g, n > 1 && g[n - 1].state == 1 ? n - 1 : n, b, bn, k, out, r);"),
    "hdt_merge_with": Wrong("void", "hdt_graph *g, size_t n, uint32_t w, const uint8_t *b, size_t bn, uint32_t k, "
                                    "hdt_bytes *out, hdt_report *r",
                            "RIGHT(g, n, w ? 1 : 0, b, bn, k, out, r);"),
    "hdt_rewrite": Wrong("void", "const uint8_t *b, size_t n, uint32_t k, hdt_bytes *out, hdt_verdict *v",
                         "if (k > 65535) k = 65535; RIGHT(b, n, k, out, v);"),
    "hdt_with_header": Wrong("void", "const uint8_t *b, size_t n, const uint8_t *h, size_t hn, hdt_bytes *out, "
                                     "hdt_verdict *v, hdt_report *r",
                             "RIGHT(b, n, h, hn, out, v, r); if (r->line) r->line++;"),
    "hdt_free": Wrong("void", "hdt_bytes *b", "memset(b, 0, sizeof *b);"),
    "hdt_verify_tight": Wrong("void", "const uint8_t *b, size_t n, hdt_verdict *v", "hdt_verify(b, n / 2, v);"),
    "hdt_pattern_find": Wrong("uint64_t", "hdt_graph *g, const hdt_pattern *q, uint64_t skip, uint64_t (*out)[3], "
                                          "size_t room",
                              "hdt_pattern r = *q; if (r.o.kind == HDT_ID && r.o.id == 0) r.o.kind = HDT_ANY; "
                              "return RIGHT(g, &r, skip, out, room);"),
    "hdt_pattern_matching": Wrong("uint64_t", "hdt_graph *g, const hdt_pattern *q",
                                  "hdt_pattern r = *q; if (r.p.kind > HDT_STRING) r.p.kind = HDT_ANY; "
                                  "return RIGHT(g, &r);"),
    "hdt_pattern_text": Wrong("void", "hdt_graph *g, const hdt_pattern *q, hdt_bytes *out, hdt_text_result *t",
                              "hdt_pattern r = *q; r.o.kind = HDT_ANY; RIGHT(g, &r, out, t);"),
    "hdt_page": Wrong("uint64_t", "hdt_graph *g, const hdt_pattern *q, uint64_t from, uint64_t (*out)[3], size_t room, "
                                  "uint64_t *next",
                      "uint64_t n = RIGHT(g, q, from, out, room, next); "
                      "if (*next != HDT_ABSENT && room > 1) ++*next; return n;"),
    "hdt_page_text": Wrong("void", "hdt_graph *g, const hdt_pattern *q, uint64_t from, uint64_t most, hdt_bytes *out, "
                                   "uint64_t *next, hdt_text_result *t",
                           "RIGHT(g, q, from, most, out, next, t); if (from && *next == HDT_ABSENT) *next = from;"),
    "hdt_predicates": Wrong("uint64_t", "hdt_graph *g, uint64_t *counts, size_t room",
                            "uint64_t n = RIGHT(g, counts, room); return n < HDT_CLOSED && n > room ? room : n;"),
    "hdt_prefix": Wrong("uint64_t", "hdt_graph *g, uint32_t r, const uint8_t *s, size_t n, hdt_ranges *ranges",
                        "return RIGHT(g, r, s, n ? n - 1 : 0, ranges);"),
    "hdt_term": Wrong("uint32_t", "const uint8_t *s, size_t n, hdt_term_parts *parts",
                      "uint32_t r = RIGHT(s, n, parts); if (parts->kind == HDT_TAGGED) parts->kind = HDT_TYPED; "
                      "return r;"),
    "hdt_term_string": Wrong("uint64_t", "uint32_t kind, const uint8_t *s, size_t n, const uint8_t *t, size_t tn, "
                                         "uint8_t *out, size_t room",
                             "uint64_t len = RIGHT(kind, s, n, t, tn, out, room); "
                             "return len == HDT_ABSENT && kind == HDT_TYPED ? n : len;"),
    "hdt_version": Wrong("uint32_t", "void", "return RIGHT() + 1;"),
    "hdt_reason_name": Wrong("uint64_t", "uint32_t r, uint8_t *out, size_t room",
                             "return RIGHT(r > 34 ? 34 : r, out, room);"),
    "hdt_text_reason_name": Wrong("uint64_t", "uint32_t r, uint8_t *out, size_t room",
                                  "return RIGHT(r == 9 ? 8 : r, out, room);"),
}


@pytest.fixture(scope="module")
def object_file(tmp_path_factory: pytest.TempPathFactory) -> Path:
    """c/test.c as an object file, to be linked with several libraries."""
    compiled = tmp_path_factory.mktemp("object") / "test.o"
    succeeds(CC, "-std=gnu99", *WARNINGS, "-O1", f"-I{HEADER.parent}", "-c", "-o", compiled, TEST)
    return compiled


# Wrong bodies of hdt_share besides.
OPENS = "uint32_t r = RIGHT(g, o); if (r != HDT_DONE) return r; hdt_close(o); hdt_report built; hdt_verdict opened; "
WRONG_SHARES = {
    "leaves the other handle closed": "uint32_t r = RIGHT(g, o); if (r == HDT_DONE) hdt_close(o); return r;",
    "closes the first handle": "uint32_t r = RIGHT(g, o); if (r == HDT_DONE) hdt_close(g); return r;",
    "shares another graph": OPENS + (
        "static hdt_bytes file; static const uint8_t text[] = \"<u:x> <u:y> <u:z> .\"; "
        "if (!file.state) hdt_build(text, sizeof text - 1, text + 1, 3, 16, &file, &built); "
        "hdt_open(file.at, file.len, o, &opened); return opened.reason;"),
    "copies the graph": OPENS + (
        "hdt_bytes text = HDT_BYTES_INIT, file = HDT_BYTES_INIT; hdt_text_result outcome; "
        "hdt_pattern any = HDT_PATTERN_INIT; hdt_pattern_text(g, &any, &text, &outcome); "
        "hdt_build(text.at, text.len, (const uint8_t *)\"u:b\", 3, 16, &file, &built); "
        "hdt_open(file.at, file.len, o, &opened); return opened.reason;"),
    "opens an open handle again": "if (o->state == 1) hdt_close(o); return RIGHT(g, o);",
    "forgets that memory ran out": "uint32_t r = RIGHT(g, o); return r == HDT_OUT_OF_MEMORY ? HDT_DONE : r;",
    "asks for the closed graph first": "if (g->state != 1) return HDT_IS_CLOSED; return RIGHT(g, o);",
    "closes the first handle without memory":
        "uint32_t r = RIGHT(g, o); if (r == HDT_OUT_OF_MEMORY) hdt_close(g); return r;",
}


# Wrong bodies of hdt_merge besides.
MERGE = "RIGHT(g, n, b, bn, k, out, r);"
WRONG_MERGES = {
    "merges only the first graph": "RIGHT(g, n > 1 && g[1].state == 1 ? 1 : n, b, bn, k, out, r);",
    "takes a closed handle for none": "while (n > 1 && g[n - 1].state != 1) n--; " + MERGE,
    "closes the handles": MERGE + " for (size_t i = 0; i < n; i++) hdt_close(&g[i]);",
    "closes them if the options are bad":
        MERGE + " if (r->reason == HDT_BAD_OPTIONS) for (size_t i = 0; i < n; i++) hdt_close(&g[i]);",
    "has another block size": "RIGHT(g, n, b, bn, k == 16 ? 15 : k, out, r);",
    "has another base": "RIGHT(g, n, (const uint8_t *)\"u:b\", 3, k, out, r);",
    "takes any block size": "RIGHT(g, n, b, bn, k == 0 || k > 65535 ? 16 : k, out, r);",
    "keeps what out had on an error":
        "hdt_bytes made = HDT_BYTES_INIT; RIGHT(g, n, b, bn, k, &made, r); "
        "if (r->reason == HDT_DONE) { hdt_free(out); *out = made; }",
    "forgets that memory ran out": MERGE + " if (r->reason == HDT_OUT_OF_MEMORY) r->reason = HDT_DONE;",
    "counts the triples twice": MERGE + " if (n > 1) r->counts[0] *= 2;",
    "reports no handles as closed": MERGE + " if (n == 0) r->reason = HDT_IS_CLOSED;",
    "asks for the options first":
        "if (k) { RIGHT(g, n, b, bn, k, out, r); return; } "
        "hdt_free(out); memset(r, 0, sizeof *r); r->reason = HDT_BAD_OPTIONS;",
}

# Wrong bodies of hdt_merge_with besides.
MERGE_WITH = "RIGHT(g, n, w, b, bn, k, out, r);"
SWAP = "if (n > 1) { hdt_graph first = g[0]; g[0] = g[1]; g[1] = first; } "
WRONG_MERGES_WITH = {
    "keeps no nodes apart": "RIGHT(g, n, w == 1 ? 0 : w, b, bn, k, out, r);",
    "keeps all nodes apart": "RIGHT(g, n, w == 0 ? 1 : w, b, bn, k, out, r);",
    "takes a large word modulo 256": "RIGHT(g, n, w % 256, b, bn, k, out, r);",
    "numbers the graphs from the second": SWAP + MERGE_WITH + " " + SWAP,
    "merges ten graphs": "RIGHT(g, n > 10 ? 10 : n, w, b, bn, k, out, r);",
    "gives one graph no prefix": "RIGHT(g, n, n == 1 && w == 1 ? 0 : w, b, bn, k, out, r);",
    "takes a closed handle for none": "while (w == 1 && n > 1 && g[0].state != 1) { g++; n--; } " + MERGE_WITH,
    "asks for the word last":
        "if (w < 2) { RIGHT(g, n, w, b, bn, k, out, r); return; } RIGHT(g, n, 0, b, bn, k, out, r); "
        "if (r->reason == HDT_DONE) { hdt_free(out); memset(r, 0, sizeof *r); r->reason = HDT_BAD_OPTIONS; }",
    "closes the handles": MERGE_WITH + " for (size_t i = 0; i < n; i++) hdt_close(&g[i]);",
    "has another block size": "RIGHT(g, n, w, b, bn, k == 16 ? 15 : k, out, r);",
    "keeps what out had on an error":
        "hdt_bytes made = HDT_BYTES_INIT; RIGHT(g, n, w, b, bn, k, &made, r); "
        "if (r->reason == HDT_DONE) { hdt_free(out); *out = made; }",
    "forgets that memory ran out": MERGE_WITH + " if (r->reason == HDT_OUT_OF_MEMORY) r->reason = HDT_DONE;",
    "counts the triples once": MERGE_WITH + " if (w == 1 && n > 1) r->counts[0] = hdt_len(&g[0]);",
}


def wrong_library(folder: Path, name: str, wrong: Wrong) -> Path:
    """A static library whose call of this name is wrong."""
    result, parameters, body = wrong
    right, source, archive = f"right_{name}", folder / "wrong.c", folder / "wrong.a"
    source.write_text(f'#include "{HEADER}"\n#include <string.h>\n{result} {right}({parameters});\n'
                      f"{result} {name}({parameters}) {{ {body.replace('RIGHT', right)} }}\n")
    succeeds("objcopy", f"--redefine-sym={name}={right}", STATIC_LIBRARY, folder / "renamed.a")
    succeeds(CC, "-O1", "-r", "-nostdlib", "-o", folder / "wrong.o", "-x", "c", source, "-x", "none",
             "-Wl,--whole-archive", folder / "renamed.a")
    succeeds("ar", "rcD", archive, folder / "wrong.o")
    return archive


def small_run(program: Path) -> Result:
    """How c/test.c ends over two samples and nothing large."""
    return run([program, "--small", SAMPLES / "v1.hdt", SAMPLES / "three.hdt"], seconds=SECONDS)


def refused(done: Result) -> None:
    """Check that c/test.c has failed, or was ended by a signal."""
    assert done.status < 0 or (done.status != 0 and b"FAILED" in done.out), done


def test_right_library_is_accepted(object_file: Path, tmp_path: Path) -> None:
    """What refuses the wrong libraries accepts the right one."""
    assert failures_of(small_run(compile_test(tmp_path / "test", object_file))) == []


def test_each_call_has_a_wrong_one() -> None:
    """The table has each call that the header declares."""
    assert set(WRONG) == declared()


@needs_objcopy
@pytest.mark.parametrize("name", WRONG)
def test_wrong_library_is_refused(name: str, object_file: Path, tmp_path: Path) -> None:
    """c/test.c fails over a library with one wrong call, or is ended by a signal for a read past an end."""
    archive = wrong_library(tmp_path, name, WRONG[name])
    refused(small_run(compile_test(tmp_path / "test", object_file, archive=archive)))


@needs_objcopy
@pytest.mark.parametrize("name", WRONG_SHARES)
def test_wrong_share_is_refused(name: str, object_file: Path, tmp_path: Path) -> None:
    """c/test.c fails over a library whose hdt_share is wrong in another way."""
    wrong = WRONG["hdt_share"]._replace(body=WRONG_SHARES[name])
    archive = wrong_library(tmp_path, "hdt_share", wrong)
    refused(small_run(compile_test(tmp_path / "test", object_file, archive=archive)))


@needs_objcopy
@pytest.mark.parametrize(("call", "name"), [
    *(("hdt_merge", it) for it in WRONG_MERGES), *(("hdt_merge_with", it) for it in WRONG_MERGES_WITH),
])
def test_wrong_merge_is_refused(call: str, name: str, object_file: Path, tmp_path: Path) -> None:
    """c/test.c fails over a library whose hdt_merge or hdt_merge_with is wrong in another way."""
    bodies = WRONG_MERGES if call == "hdt_merge" else WRONG_MERGES_WITH
    archive = wrong_library(tmp_path, call, WRONG[call]._replace(body=bodies[name]))
    refused(small_run(compile_test(tmp_path / "test", object_file, archive=archive)))
