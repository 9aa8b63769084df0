"""`hdt.build` of other syntaxes, compressed files, several inputs, folders and open files: equal graphs, errors."""

from __future__ import annotations

import gzip
import io
import os
import pickle
import shutil
import sys
import tempfile
import threading
import tracemalloc
from collections.abc import Iterator
from pathlib import Path
from typing import Any, Optional, cast

import pytest

from support.built import SAMPLES
from support.formats import (BASE, COMPRESS, DOCUMENTS, GRAPH, INTEGER, LINES, READS, TURTLE, XML, built, fails, fake,
                             needs, strings_of)
from support.python_package import hdt

FIRST = {"ttl": "serdi", "trig": "serdi", "rdf": "rapper", "owl": "rapper", "xml": "rapper", "jsonld": "rdflib",
         "n3": "rdflib"}


@pytest.mark.parametrize("suffix", DOCUMENTS)
def test_each_suffix(suffix: str, tmp_path: Path) -> None:
    """Each suffix says its syntax, in either case; relative IRIs are resolved by the base, which the header names."""
    needs(FIRST.get(suffix, "sh"))
    for name in (f"data.{suffix}", f"DATA.{suffix.upper()}"):
        path = tmp_path / name
        path.write_text(DOCUMENTS[suffix])
        assert built(tmp_path, path, base=BASE) == GRAPH
        with hdt.open(tmp_path / "built.hdt") as graph:
            assert f"<{BASE}>".encode() in graph.header


@pytest.mark.parametrize("converter, suffix", [(name, suffix) for name, found in READS.items() for suffix in found])
def test_each_converter(converter: str, suffix: str, tmp_path: Path) -> None:
    """Each converter gives the same graph."""
    needs(converter)
    path = tmp_path / f"data.{suffix}"
    path.write_text(DOCUMENTS[suffix])
    assert built(tmp_path, path, base=BASE, converter=converter) == GRAPH


@pytest.mark.parametrize("compression", COMPRESS)
@pytest.mark.parametrize("suffix", ["nt", "ttl"])
def test_each_compression(compression: str, suffix: str, tmp_path: Path) -> None:
    """Each compression is read, also in several streams one after another."""
    needs(FIRST.get(suffix, "sh"))
    data = DOCUMENTS[suffix].encode()
    pieces = [data[:20], data[20:]]
    path = tmp_path / f"data.{suffix}.{compression}"
    for whole in (COMPRESS[compression](data), b"".join(map(COMPRESS[compression], pieces))):
        path.write_bytes(whole)
        assert built(tmp_path, path, base=BASE) == GRAPH
    path.rename(tmp_path / "data")
    with open(tmp_path / "data", "rb") as file:
        assert built(tmp_path, file, base=BASE, syntax=suffix) == GRAPH


def test_zstandard_by_the_module(tmp_path: Path, monkeypatch: pytest.MonkeyPatch) -> None:
    """Without the program zstd its module is used."""
    pytest.importorskip("zstandard")
    path = tmp_path / "data.nt.zst"
    data = LINES.encode() * 1_000
    path.write_bytes(COMPRESS["zst"](data) + COMPRESS["zst"](b"<u:a> <u:p> <u:b> .\n"))
    large = COMPRESS["zst"](b'<u:a> <u:p> "' + b"x" * 40_000_000)
    monkeypatch.setenv("PATH", "")
    assert built(tmp_path, path) == sorted([*GRAPH, ("u:a", "u:p", "u:b")])
    bomb = tmp_path / "bomb.nt.zst"
    bomb.write_bytes(large)
    tracemalloc.start()
    fails(tmp_path, bomb, hdt.LineFault, longest_line=1_000_000)
    assert tracemalloc.get_traced_memory()[1] < 16_000_000
    tracemalloc.stop()
    for damaged in (path.read_bytes()[:-3], path.read_bytes() + b"x", b"\x28\xb5\x2f\xfd", b""):
        path.write_bytes(damaged)
        assert "data.nt.zst: not a whole Zstandard file" in fails(tmp_path, path, OSError)


def test_large_compressed_files(tmp_path: Path) -> None:
    """A file that is read and decompressed in many pieces."""
    lines = "".join(f'<u:{number}> <u:p> "{number * number}" .\n' for number in range(60_000))
    for compression, compress in COMPRESS.items():
        path = tmp_path / f"data.nt.{compression}"
        path.write_bytes(compress(lines.encode()))
        assert hdt.build(path, tmp_path / "built.hdt").triples == 60_000


def test_syntax_is_told(tmp_path: Path) -> None:
    """The option says the syntax of a file with another name; a name that says nothing is that of N-Triples."""
    needs("serdi")
    path = tmp_path / "data.txt"
    path.write_text(TURTLE)
    for syntax in ("turtle", "ttl"):
        assert built(tmp_path, path, base=BASE, syntax=syntax) == GRAPH
    path.write_text(LINES)
    assert built(tmp_path, path) == GRAPH
    assert "no such syntax: 'html'" in fails(tmp_path, path, ValueError, syntax="html")


def test_base_by_the_name(tmp_path: Path, monkeypatch: pytest.MonkeyPatch) -> None:
    """Without a base relative IRIs are resolved by the name of the file, without the suffix of its compression."""
    needs("serdi")
    monkeypatch.chdir(tmp_path)
    Path("a é.ttl.gz").write_bytes(gzip.compress(b"<> <u:p> <x#y> ."))
    folder = tmp_path.as_uri()
    assert built(tmp_path, "a é.ttl.gz") == [(f"{folder}/a%20%C3%A9.ttl", "u:p", f"{folder}/x#y")]


@pytest.mark.parametrize("converter", ["serdi", "rapper", "rdflib"])
def test_no_base(converter: str, tmp_path: Path) -> None:
    """A file without a name needs a base for a relative IRI, and for nothing else."""
    needs(converter)
    absolute = io.BytesIO(b"<u:a> <u:p> <u:b> .")
    assert built(tmp_path, absolute, syntax="turtle", converter=converter) == [("u:a", "u:p", "u:b")]
    for text in (b"<x>", b"<>", b"<//x>", b"</x/../y>", b"<u:a> <u:p> <..>", b"<#x>", b"<?x>"):
        file = io.BytesIO(text + b" <u:p> <u:b> .")
        if text.startswith(b"<u:a>"):
            file = io.BytesIO(text + b" .")
        told = fails(tmp_path, file, hdt.ConversionFault, syntax="turtle", converter=converter)
        assert told == f"{converter}: it has a relative IRI and no name: give the base"


def test_files_that_are_open(tmp_path: Path) -> None:
    """A binary file says its syntax by its name; GzipFile, which has the name of the compressed file, gives text."""
    needs("serdi")
    path = tmp_path / "data.ttl.gz"
    path.write_bytes(gzip.compress(TURTLE.encode()))
    with open(path, "rb") as file:
        assert built(tmp_path, file, base=BASE) == GRAPH
    with gzip.open(path) as file:
        assert built(tmp_path, file, base=BASE) == GRAPH
    with gzip.open(path, "rt") as text:
        assert "binary mode" in fails(tmp_path, text, TypeError)
    assert built(tmp_path, io.BytesIO(LINES.encode())) == GRAPH


class Slow(io.RawIOBase):
    """A file that gives a few bytes at a time, or nothing as yet."""

    def __init__(self, data: bytes, nothing: bool = False, size: int = 1) -> None:
        self._data, self._nothing, self._size = io.BytesIO(data), nothing, size

    def read(self, _: int = -1) -> Optional[bytes]:
        return self._data.read(self._size) or (None if self._nothing else b"")


def test_files_that_give_little(tmp_path: Path) -> None:
    """A file may give a byte at a time, also of a compressed one, but not nothing."""
    assert built(tmp_path, Slow(LINES.encode())) == GRAPH
    for compress in COMPRESS.values():
        assert built(tmp_path, Slow(compress(LINES.encode()))) == GRAPH
    assert "gave nothing" in fails(tmp_path, Slow(LINES.encode(), nothing=True), TypeError)


@pytest.mark.parametrize("size", [1, 2, 3, 5, 8, 1_000])
def test_lines_in_pieces(size: int, tmp_path: Path) -> None:
    """Lines end with LF, CR or both, also in different pieces, and are counted as in one; so are bytes of long ones."""
    line = "<u:a> <u:p> <u:b> ."
    text = f"{line}\r\n{line}\r{line}\n\r\n\r\r{line}\n# {'x' * 40}\r\n{line}\r\n"
    assert len(built(tmp_path, Slow(text.encode(), size=size))) == 1
    for end, told in (("bad", "line 10 column 1: 1 Syntax"), ("<u:a>\r\nbad", "line 10 column 6: 1 Syntax")):
        assert fails(tmp_path, Slow((text + end).encode(), size=size), hdt.LineFault) == told
    for longest, told in ((41, "line 8 column 42: 9 TooLong"), (18, "line 1 column 19: 9 TooLong")):
        assert fails(tmp_path, Slow(text.encode(), size=size), hdt.LineFault, longest_line=longest) == told
    assert len(built(tmp_path, Slow(text.encode(), size=size), longest_line=42)) == 1
    assert len(built(tmp_path, Slow(f"{line}\r{line}\r{line}".encode(), size=size), longest_line=len(line))) == 1
    faulty = Slow(f"{line}\nbad\n{'x' * 99}\n".encode(), size=size)
    assert fails(tmp_path, faulty, hdt.LineFault, longest_line=42) == "line 2 column 1: 1 Syntax"


# ---- several inputs


def test_several_inputs(tmp_path: Path) -> None:
    """Inputs of several kinds are one graph."""
    needs("serdi")
    needs("rapper")
    (tmp_path / "a.ttl").write_text("<u:a> <u:p> <u:b> .")
    (tmp_path / "b.nt.gz").write_bytes(gzip.compress(b"<u:a> <u:p> <u:b> ."))
    (tmp_path / "c.rdf").write_text(XML)
    inputs: list[Any] = [tmp_path / "a.ttl", str(tmp_path / "b.nt.gz"), os.fsencode(tmp_path / "c.rdf"),
                         io.BytesIO(b'<u:a> <u:p> "c" .\n'), [("u:a", "u:p", '"d"')], ['<u:a> <u:p> "e" .']]
    wanted = sorted([*GRAPH, ("u:a", "u:p", "u:b"), *(("u:a", "u:p", f'"{it}"') for it in "cde")])
    assert built(tmp_path, inputs, base=BASE) == wanted
    assert built(tmp_path, (it for it in [tmp_path / "a.ttl"])) == [("u:a", "u:p", "u:b")]


def test_a_folder(tmp_path: Path) -> None:
    """The files below a folder whose names say a syntax are built in the order of their paths."""
    needs("serdi")
    folder = tmp_path / "data"
    (folder / "sub.d").mkdir(parents=True)
    (folder / "b.nt").write_text("_:b <u:p> _:b .")
    (folder / "sub.d/a.ttl.gz").write_bytes(gzip.compress(b"<u:a> <u:p> _:b ."))
    for name in ("README.md", ".hidden.nt", "graph.hdt", "nt"):
        (folder / name).write_text("no RDF")
    wanted = [("_:f0_b", "u:p", "_:f0_b"), ("u:a", "u:p", "_:f1_b")]
    assert built(tmp_path, folder) == built(tmp_path, [str(folder)]) == wanted
    shutil.rmtree(folder)
    folder.mkdir()
    assert f"{folder}: no file in this folder has a name that ends with .nt" in fails(tmp_path, folder, ValueError)
    for name in "fcahbgde":
        (folder / f"{name}.nt").write_text(f'_:x <u:p> "{name}" .')
    assert built(tmp_path, folder) == [(f"_:f{n}_x", "u:p", f'"{name}"') for n, name in enumerate("abcdefgh")]
    pipe = folder / "pipe.nt"
    os.mkfifo(pipe)
    writing = threading.Thread(target=pipe.write_text, args=["<u:a> <u:p> <u:b> ."], daemon=True)
    writing.start()  # (for whoever opens the pipe)
    assert fails(tmp_path, folder, ValueError) == f"{pipe} is no regular file"
    with open(os.open(pipe, os.O_RDONLY | os.O_NONBLOCK)):
        writing.join()


def test_blank_nodes(tmp_path: Path) -> None:
    """Labels of different inputs are different nodes, with the prefixes of `hdt split`, or the same if that is said."""
    one, other = tmp_path / "one.nt", tmp_path / "other.nq"
    one.write_text("_:b <u:p> _:f1_b .\n")
    other.write_text("_:b <u:p> _:f0_b .\n")
    apart = [("_:f0_b", "u:p", "_:f0_f1_b"), ("_:f1_b", "u:p", "_:f1_f0_b")]
    assert built(tmp_path, [one, other]) == built(tmp_path, [one, other], blank_nodes="apart") == apart
    same = [("_:b", "u:p", "_:f0_b"), ("_:b", "u:p", "_:f1_b")]
    assert built(tmp_path, [one, other], blank_nodes="one") == same
    for several in (None, "one", "apart"):
        assert built(tmp_path, [one], blank_nodes=several) == same[1:]
    assert "blank_nodes is" in fails(tmp_path, [one, other], ValueError, blank_nodes="two")


@pytest.mark.parametrize("converter", ["serdi", "rapper", "rdflib"])
def test_labels_of_converters(converter: str, tmp_path: Path) -> None:
    """A converter's labels are not those of another input; alike builds are byte for byte the same."""
    needs(converter)
    names = [tmp_path / "a.ttl", tmp_path / "b.ttl"]
    for path in names:
        path.write_text("[] <u:p> [], _:x .")
    assert len(built(tmp_path, names, converter=converter)) == 4
    first = (tmp_path / "built.hdt").read_bytes()
    assert len(built(tmp_path, names, converter=converter)) == 4
    assert (tmp_path / "built.hdt").read_bytes() == first
    assert 'blank_nodes="one" takes N-Triples' in fails(tmp_path, names, ValueError, converter=converter,
                                                        blank_nodes="one")
    if converter == "serdi":
        for path in names:
            path.write_text("[] <u:p> <u:a> .\n" + "<u:a> <u:p> <u:b> .\n" * 30_000)
        fails(tmp_path, names, ValueError, converter=converter, blank_nodes="one")
    names[1].write_text("[] <u:p> [], _:x .")
    names[0].write_text("<u:a> <u:p> <u:b> .")
    assert len(built(tmp_path, names, converter=converter, blank_nodes="one")) == 3


def test_labels_of_rapper(tmp_path: Path) -> None:
    """rapper gives nodes without a label those of other nodes: where that may be, it isn't used."""
    needs("rapper")
    path = tmp_path / "a.ttl"
    for ahead in (0, *range(1_048_568, 1_048_575)):  # (bytes are read in pieces of 1,048,576)
        text = "#" * ahead + "\n_:genid1 <u:p> [] ."
        path.write_text(text)
        told = fails(tmp_path, path, hdt.ConversionFault, converter="rapper")
        assert told == f'{path}: rapper: it has labels as rapper makes them, as genid1: use converter="rdflib"'
    path.write_text("_:gen1 <u:p> [] .")
    assert len(built(tmp_path, path, converter="rapper")) == 1
    path.write_text('<u:a> <u:p> "genid1" .')
    assert len(built(tmp_path, path, converter="rapper")) == 1


def test_rdflib_for_rapper(tmp_path: Path, monkeypatch: pytest.MonkeyPatch) -> None:
    """Where rapper wasn't chosen, and the input can be read again, rdflib converts it, as if rapper hadn't."""
    needs("rapper")
    needs("rdflib")
    one, path, told = tmp_path / "one.nt", tmp_path / "a.rdf", list[int]()
    one.write_text("<u:a> <u:p> _:genid1 .")
    path.write_text(XML.replace(' rdf:about="x"', ' rdf:nodeID="genid1"').replace(' rdf:about="u:y"', ""))
    given = [one, path, one]
    found = built(tmp_path, given, progress=lambda read, _: told.append(read), largest_text=700)
    assert len(found) == 6 and len({it[0] for it in found}) == 3
    assert told[-1] == sum(it.stat().st_size for it in given)
    assert len(built(tmp_path, [one, path], largest_text=660)) == 5
    with open(path, "rb") as file:
        assert "rapper makes" in fails(tmp_path, file, hdt.ConversionFault)
    with pytest.raises(hdt.ConversionFault) as raised:
        hdt.build(path, tmp_path / "out", converter="rapper")
    assert type(raised.value) is hdt.ConversionFault
    monkeypatch.setattr(sys, "executable", "")
    assert "rapper makes" in fails(tmp_path, path, hdt.ConversionFault)


@pytest.mark.parametrize("label", ["b1", "B1", "genid1", "n1", "N1", "x", "b", "f0_b1"])
@pytest.mark.parametrize("converter", ["serdi", "rapper", "rdflib"])
def test_no_labels_collide(converter: str, label: str, tmp_path: Path) -> None:
    """A node with a label and one without stay two, or the converter refuses them."""
    needs(converter)
    path = tmp_path / "a.ttl"
    path.write_text(f"<u:a> <u:p> _:{label}, [], _:{label}, [] .")
    try:
        assert len(built(tmp_path, path, converter=converter)) == 3
    except hdt.ConversionFault:
        assert (converter, label) == ("rapper", "genid1")


# ---- named graphs

QUADS = '<u:a> <u:p> "x" .\n<u:a> <u:p> "\\"y <u:g> ."@en <u:g>.\n_:a <u:p> _:b _:g . # <u:c>\n<u:a><u:p>_:b<u:g>.\r\n'
IN_GRAPHS = [("_:a", "u:p", "_:b"), ("u:a", "u:p", "_:b"), ("u:a", "u:p", '"\\"y <u:g> ."@en'.replace("\\", "")),
             ("u:a", "u:p", '"x"')]


def test_quads(tmp_path: Path) -> None:
    """N-Quads of named graphs are an error that says how many there are, or merged."""
    path = tmp_path / "data.nq"
    path.write_bytes(QUADS.encode())
    told = f'{path}: it has 2 named graphs: graphs="merge" builds the union of all graphs'
    assert fails(tmp_path, path, ValueError) == told
    assert built(tmp_path, path, graphs="merge") == sorted(IN_GRAPHS)
    path.write_text("_:a_:g <u:p> _:b_:g .\n_:a<u:p>_:b_:g<u:g>.")  # (a label may have colons)
    assert built(tmp_path, path, graphs="merge") == [("_:a", "u:p", "_:b_:g"), ("_:a_:g", "u:p", "_:b_:g")]
    path.write_text('<u:a> <u:p> "x" <u:g> .\n' * 3)
    assert "1 named graph:" in fails(tmp_path, path, ValueError)
    assert "graphs is" in fails(tmp_path, path, ValueError, graphs="all")


@pytest.mark.parametrize("converter", ["serdi", "rdflib"])
def test_graphs_of_trig(converter: str, tmp_path: Path) -> None:
    """The same of TriG, whose default graph is none of them."""
    needs(converter)
    path = tmp_path / "data.trig"
    path.write_text('<u:a> <u:p> "x" . <u:g> { <u:a> <u:p> "y" } GRAPH <u:h> { <u:a> <u:p> "z" }')
    assert "2 named graphs" in fails(tmp_path, path, ValueError, converter=converter)
    wanted = [("u:a", "u:p", f'"{it}"') for it in "xyz"]
    assert built(tmp_path, path, converter=converter, graphs="merge") == wanted
    path.write_text('{ <u:a> <u:p> "x" }')
    assert built(tmp_path, path, converter=converter) == wanted[:1]


@pytest.mark.parametrize("line, column", [
    ("<u:a> <u:p> <u:o> <g> .", 19), ("<u:a> <u:p> <u:o> <u:g .", 19), ('<u:a> <u:p> <u:o> "g" .', 19),
    ("<u:a> <u:p> <u:o> <u:g> <u:h> .", 19), ("<u:a> <u:p> <u:o> <u:g>", 19), ("<u:a> <u:p> <u:o> _:g. .", 19),
    ("<u:a> <u:p> <u:o> <u:\\u00> .", 19), ("<u:a> <u:p> <u:o> <u:\xff> .", 22), ("<a> <u:p> <u:o> <u:g> .", 1),
    ("<u:a> <u:p> <u:o> <u:g> . x", 19)])
def test_faulty_quads(line: str, column: int, tmp_path: Path) -> None:
    """A faulty line of N-Quads is reported with its number and the column that the library finds."""
    path = tmp_path / "data.nq"
    path.write_bytes(b"<u:a> <u:p> <u:o> <u:g> .\r\n# a comment\n" + line.encode("latin-1"))
    with pytest.raises(hdt.LineFault) as raised:
        hdt.build(path, tmp_path / "built.hdt", graphs="merge")
    assert (raised.value.path, raised.value.line, raised.value.column) == (str(path), 3, column)


# ---- errors

TURTLE_ERROR = "@prefix u: <u:> .\nu:a u:p u:b .\nu:a u:p u:b u:c .\n"


@pytest.mark.parametrize("converter, suffix, text, line", [
    ("serdi", "ttl", TURTLE_ERROR, 3), ("rapper", "ttl", TURTLE_ERROR, 3), ("rdflib", "ttl", TURTLE_ERROR, 3),
    ("serdi", "trig", TURTLE_ERROR, 3), ("rdflib", "trig", TURTLE_ERROR, 3), ("rdflib", "n3", TURTLE_ERROR, 3),
    ("rdflib", "rdf", XML[:250], 4), ("rdflib", "jsonld", '{"@id":\n', 2)])
def test_errors_of_converters(converter: str, suffix: str, text: str, line: int, tmp_path: Path) -> None:
    """A fault has the path, the line and what the converter says; it can be pickled."""
    needs(converter)
    path = tmp_path / f"data.{suffix}"
    path.write_text(text)
    told = fails(tmp_path, path, hdt.ConversionFault, converter=converter)
    with pytest.raises(hdt.ConversionFault) as raised:
        hdt.build(path, tmp_path / "out", converter=converter)
    fault = raised.value
    assert (fault.path, fault.line, fault.converter) == (str(path), line, converter)
    assert told == f"{path}: line {line}: {converter}: {fault.message}" and len(fault.message) > 5
    again = pickle.loads(pickle.dumps(fault))
    assert (str(again), vars(again)) == (str(fault), vars(fault))


def test_error_of_cut_xml(tmp_path: Path) -> None:
    """rapper doesn't always say the line."""
    needs("rapper")
    path = tmp_path / "data.rdf"
    path.write_text(XML[:250])
    assert fails(tmp_path, path, hdt.ConversionFault).startswith(f"{path}: rapper: XML parser error")


@pytest.mark.parametrize("converter", ["serdi", "rapper", "rdflib"])
def test_turtle_that_is_no_utf8(converter: str, tmp_path: Path) -> None:
    """Bytes that aren't UTF-8 are refused by all converters: rapper alone would leave them out."""
    needs(converter)
    path = tmp_path / "data.ttl"
    for wrong in (b"\xff", b"\xe2\x82", b"\xed\xa0\x80"):
        path.write_bytes("<u:a> <u:p> \"é\" .\n".encode() * 3 + b'<u:b> <u:p> "' + wrong + b'" .\n')
        told = fails(tmp_path, path, hdt.ConversionFault, converter=converter)
        assert converter == "rdflib" or "line 4" in told or "\\uD800" in told
    path.write_bytes(b"#" * (2**20 - 1) + "é\n<u:a> <u:p> <u:b> .".encode())
    assert built(tmp_path, path, converter=converter) == [("u:a", "u:p", "u:b")]
    path.write_bytes(b"<u:a> <u:p> <u:b> . # \xc3")
    if converter == "rapper":
        assert "line 1" in fails(tmp_path, path, hdt.ConversionFault, converter="rapper")


@pytest.mark.parametrize("zero", ["\0", "\\u0000", "\\U00000000"])
def test_turtle_with_the_character_zero(zero: str, tmp_path: Path) -> None:
    """U+0000, which no HDT file has, is refused, also between two pieces: rapper would leave out what follows it."""
    needs("rapper")
    path = tmp_path / "data.ttl"
    for before in (0, *range(2**20 - 45, 2**20 - 25)):
        path.write_text("#" * before + f'\n<u:a> <u:p> "abc{zero}def" .\n')
        told = fails(tmp_path, path, hdt.ConversionFault, converter="rapper")
        assert told == f"{path}: line 2: rapper: it has U+0000"
    for converter in ("serdi", "rdflib"):
        needs(converter)
        fails(tmp_path, path, hdt.ConversionFault, converter=converter)


def test_warnings_of_rapper(tmp_path: Path) -> None:
    """What rapper only warns of is built."""
    needs("rapper")
    path = tmp_path / "data.rdf"
    path.write_text(XML.replace("rdf:Description", "rdf:description"))
    assert len(built(tmp_path, path)) == 6


def test_error_of_a_converted_line(tmp_path: Path) -> None:
    """What a converter lets pass, and the library refuses, is shown."""
    needs("rdflib")
    path = tmp_path / "data.ttl"
    path.write_text("<u:a> <u:p> <u:b> .\n<u:a b> <u:p> <u:b> .")
    told = fails(tmp_path, path, hdt.ConversionFault, converter="rdflib")
    assert told == f"{path}: rdflib: 5 IriCharacter in its N-Triples: <u:a\\u0020b> <u:p> <u:b> ."
    path.write_text('<u:a\\u0020b> <u:p> "\x9b31m\u202ey" .')  # (what a terminal obeys is left out)
    told = fails(tmp_path, path, hdt.ConversionFault, converter="rdflib")
    assert told.endswith(': <u:a\\u0020b> <u:p> " 31m y" .')


def test_lines_of_several_inputs(tmp_path: Path) -> None:
    """A fault names the input, and the line in it, also in a later block."""
    one, other = tmp_path / "one.nt", tmp_path / "other.nt.gz"
    one.write_text("# a comment\n<u:a> <u:p> <u:b> .\n")
    other.write_bytes(gzip.compress(b"<u:a> <u:p> <u:b> .\n" * 100_000 + b"<u:a> <u:p>\n"))
    assert fails(tmp_path, [one, other], hdt.LineFault) == f"{other}: line 100001 column 12: 1 Syntax"


def test_no_triples(tmp_path: Path) -> None:
    """Inputs without a triple make no file."""
    needs("serdi")
    for name in ("a.nt", "a.ttl"):
        (tmp_path / name).write_text("# a comment")
        assert fails(tmp_path, tmp_path / name, hdt.NoTriples) == f"{tmp_path / name}: no triples"
    assert fails(tmp_path, [tmp_path / "a.nt", tmp_path / "a.ttl"], hdt.NoTriples) == "no triples"
    assert fails(tmp_path, [], hdt.NoTriples) == "no triples"


def test_options(tmp_path: Path) -> None:
    """Wrong options are errors before anything is read."""
    text = io.BytesIO(LINES.encode())
    wrong: list[tuple[dict[str, Any], str]] = [
        ({"base": "relative"}, "base is not"), ({"block_size": 0}, "block size"),
        ({"longest_line": -1}, "longest line"), ({"converter": "any23"}, "no such converter"),
        ({"largest_text": -1}, "largest text")]
    for options, told in wrong:
        assert told in fails(tmp_path, text, ValueError, **options)
    assert text.tell() == 0
    (tmp_path / "a.rdf").write_text(XML)
    assert fails(tmp_path, tmp_path / "a.rdf", ValueError, converter="serdi").endswith("serdi does not read RDF/XML")


def test_no_input(tmp_path: Path) -> None:
    """What is no input is a TypeError, a missing one FileNotFoundError with its name."""
    for wrong in list[Any]((5, None, [5], [[5]], [["a.nt"]], "<u:a> <u:p> <u:b> .", object())):
        told = fails(tmp_path, wrong, TypeError)
        assert told.startswith("an input ")
    for missing in list[Any]((tmp_path / "none.ttl", [tmp_path / "none.nt"])):
        assert "none." in fails(tmp_path, missing, FileNotFoundError)


def test_output_is_an_input(tmp_path: Path) -> None:
    """An output that is one of the inputs is refused."""
    path = tmp_path / "a.ttl"
    path.write_text(TURTLE)
    for given in list[Any]((path, [SAMPLES / "three.nt", path], tmp_path)):
        with pytest.raises(ValueError, match="one file"):
            hdt.build(given, path)
    assert path.read_text() == TURTLE


def test_output_folder(tmp_path: Path) -> None:
    """An error about the folder of the output names the output; a device may be the output."""
    text = [("u:a", "u:p", "u:b")]
    with pytest.raises(FileNotFoundError) as raised:
        hdt.build(text, tmp_path / "none/out.hdt")
    assert raised.value.filename == str(tmp_path / "none/out.hdt")
    assert hdt.build(text, "/dev/null").triples == 1


@pytest.mark.parametrize("syntax, packages", [
    ("turtle", ["Debian: serdi", "Debian: raptor2-utils", "tickmarl-hdt[rdflib]"]), ("n3", ["python3-rdflib"]),
    ("rdfxml", ["raptor2-utils", "python3-rdflib"])])
def test_no_converter(syntax: str, packages: list[str], tmp_path: Path, monkeypatch: pytest.MonkeyPatch) -> None:
    """Without a converter the error names the packages that have one."""
    monkeypatch.setenv("PATH", "")
    monkeypatch.setattr(sys, "executable", "")
    told = fails(tmp_path, io.BytesIO(b""), hdt.NoConverter, syntax=syntax)
    assert [it for it in packages if it not in told] == [] and told.startswith("the input: reading ")
    monkeypatch.setitem(cast(Any, sys.modules), "zstandard", None)
    (tmp_path / "a.nt.zst").write_bytes(b"\x28\xb5\x2f\xfd")
    told = fails(tmp_path, tmp_path / "a.nt.zst", hdt.NoConverter)
    assert "Debian: zstd" in told and "zstandard (PyPI)" in told


def test_second_converter(tmp_path: Path, monkeypatch: pytest.MonkeyPatch) -> None:
    """Without serdi and rapper rdflib converts."""
    needs("rdflib")
    path = tmp_path / "a.ttl"
    path.write_text("<u:a> <u:p> 01 .")
    assert built(tmp_path, path)[0][2].startswith('"01"') == bool(shutil.which("serdi") or shutil.which("rapper"))
    monkeypatch.setenv("PATH", "")
    assert built(tmp_path, path)[0][2].startswith('"1"')


@pytest.mark.parametrize("converter", ["serdi", "rapper", "rdflib"])
def test_literals_stay(converter: str, tmp_path: Path) -> None:
    """A literal keeps its text, also if that isn't the one of its value, or if it has none."""
    needs(converter)
    literals = [f'"{it}"^^{INTEGER}' for it in ("01", "+1", " 1", "x")]
    path = tmp_path / "a.ttl"
    path.write_text(f"<u:a> <u:p> {', '.join(literals)} .")
    assert built(tmp_path, path, converter=converter) == sorted(("u:a", "u:p", it) for it in literals)


@pytest.mark.parametrize("text", [
    "{ <u:a> <u:p> <u:b> } <u:p> <u:c> .", "{ <u:a> <u:p> <u:b> } => { <u:a> <u:p> <u:c> } .", "<u:a> <u:p> ?x .",
    "@forAll <u:x> . <u:x> <u:p> <u:b> ."])
def test_what_is_no_triple_of_notation3(text: str, tmp_path: Path) -> None:
    """Formulas, rules and variables of Notation3 are no triples."""
    needs("rdflib")
    path = tmp_path / "a.n3"
    path.write_text("<u:a> <u:p> <u:b> .\n" + text)
    told = fails(tmp_path, path, hdt.ConversionFault)
    assert told.endswith("no RDF triple has a " + ("formula" if "{" in text else "Variable"))


# ---- progress


def test_progress(tmp_path: Path) -> None:
    """A function is told the bytes that were read, compressed ones too, and of how many."""
    path, told = tmp_path / "a.nt.gz", list[tuple[int, Optional[int]]]()
    path.write_bytes(gzip.compress(b"".join(b'<u:%d> <u:p> "%d" .\n' % (n, n * n) for n in range(200_000)), 1))
    size = path.stat().st_size
    hdt.build([path, SAMPLES / "three.nt"], tmp_path / "out.hdt", progress=lambda read, of: told.append((read, of)))
    whole = size + (SAMPLES / "three.nt").stat().st_size
    assert told[-1] == (whole, whole) and told == sorted(told) and len(told) > 1
    assert {it[1] for it in told} == {whole}
    told.clear()
    with open(path, "rb") as file:
        hdt.build([file], tmp_path / "out.hdt", progress=lambda read, of: told.append((read, of)))
    assert told[-1] == (size, None)


def test_progress_that_raises(tmp_path: Path) -> None:
    """What the function raises ends the build."""
    def raises(read: int, _: Optional[int]) -> None:
        raise KeyError(read)

    fails(tmp_path, SAMPLES / "three.nt", KeyError, progress=raises)


def test_progress_in_lines(tmp_path: Path, monkeypatch: pytest.MonkeyPatch, capfd: pytest.CaptureFixture[str]) -> None:
    """Without tqdm progress goes to standard error in lines; with it, as a bar."""
    monkeypatch.setitem(cast(Any, sys.modules), "tqdm", None)
    hdt.build(SAMPLES / "three.nt", tmp_path / "out.hdt", progress=True)
    assert capfd.readouterr() == ("", "hdt: read 58 of 58 bytes\n")
    monkeypatch.undo()
    pytest.importorskip("tqdm")
    hdt.build(SAMPLES / "three.nt", tmp_path / "out.hdt", progress=True)
    out, err = capfd.readouterr()
    assert out == "" and "58.0/58.0" in err


def test_progress_of_nothing(tmp_path: Path) -> None:
    """Triples have no bytes."""
    told = list[tuple[int, Optional[int]]]()
    hdt.build([("u:a", "u:p", "u:b")], tmp_path / "out.hdt", progress=lambda read, of: told.append((read, of)))
    assert told == [(0, None)]


def test_a_path_of_n_triples_goes_as_it_is(tmp_path: Path, monkeypatch: pytest.MonkeyPatch) -> None:
    """One N-Triples file needs no scratch file, no converter and no process."""
    def none(*_: Any, **__: Any) -> Iterator[None]:
        raise AssertionError

    monkeypatch.setattr(tempfile, "TemporaryFile", none)
    hdt.build(SAMPLES / "three.nt", tmp_path / "out.hdt", base="http://a/")
    assert (tmp_path / "out.hdt").read_bytes() == (SAMPLES / "three.hdt").read_bytes()
    assert strings_of(tmp_path / "out.hdt") == strings_of(SAMPLES / "three.hdt")
    fake(tmp_path, monkeypatch, "exit 1")
    with pytest.raises(AssertionError):
        hdt.build([SAMPLES / "three.nt"], tmp_path / "out.hdt")
