"""Building a file of whatever there is: N-Triples as it is, all else by way of an N-Triples text in a scratch file.

The scratch file has no name, so nothing is left of it, however the process ends.
"""

from __future__ import annotations

import io
import operator
import os
import tempfile
from collections.abc import Generator, Iterable, Iterator, Mapping
from contextlib import closing
from typing import IO, Any, NamedTuple, Optional, Union, cast

from ._blocks import Block, blocks_of, checked
from ._calls import Counts, Path
from ._compressed import suffix_of
from ._convert import RDFLIB, Conversion, Unsuited, check_converter, converter_of, is_installed
from ._faults import LineFault, NoTriples
from ._files import are_one, built, data_of, longest_of, replace, target_of
from ._library import Made
from ._low_memory import LowMemory
from ._mapped import Mapped
from ._metadata import Header
from ._program import dumped
from ._progress import Meter, Progress
from ._quads import Graphs
from ._sources import Input, Source, sources_of
from ._syntaxes import HDT, NQUADS, NTRIPLES, syntax_named, syntax_of
from ._triples import is_statement

_BASE = "http://example.org/dataset"


class _Options(NamedTuple):
    """What `build` was told about its inputs."""

    base: Optional[str]
    longest_line: Optional[int]
    largest_text: Optional[int]
    blank_nodes: Optional[str]
    graphs: Optional[str]
    converter: Optional[str]


def build(
    nt_path: Union[Input, Iterable[Input]],
    out_path: Path,
    base: Optional[str] = None,
    block_size: int = 16,
    longest_line: Optional[int] = None,
    *,
    syntax: Optional[str] = None,
    blank_nodes: Optional[str] = None,
    graphs: Optional[str] = None,
    converter: Optional[str] = None,
    largest_text: Optional[int] = None,
    progress: Progress = False,
    metadata: Optional[Mapping[str, Any]] = None,
    header: Union[str, bytes, None] = None,
    memory: Union[int, str, None] = None,
    scratch: Optional[Path] = None,
) -> Counts:
    """Build an HDT file from RDF, and return its counts. The output is replaced atomically, only if all went well.

    `nt_path` is a path; a folder, for the files below it that have one of the suffixes below; an open binary file;
    triples, as those of `Graph.find` or of an rdflib graph: tuples of dictionary strings, `Term`s, terms of rdflib or,
    if the predicate is in brackets, terms of N-Triples, or lines of N-Triples; or an iterable of such.

    `syntax`, else the suffix of a name, says the syntax: `"ntriples"` (.nt, and any other name), `"turtle"` (.ttl),
    `"trig"`, `"nquads"` (.nq), `"rdfxml"` (.rdf, .owl, .xml), `"jsonld"`, `"n3"`, and, but not in a folder, `"hdt"`.
    After it may be .gz, .bz2, .xz or .zst. serdi converts Turtle and TriG, rapper RDF/XML, if they are installed; else,
    and for others, rdflib does. `converter` is the one to use. What a document refers to is not fetched.

    `base`, an absolute IRI without brackets, names the file in its header (None: http://example.org/dataset), and
    resolves relative IRIs, as the file: IRI of the input does without it. A block has `block_size` strings, 1 to 65535.
    A blank node label in several inputs is several nodes (`blank_nodes="apart"`: labels get the prefix `f0_`, `f1_` and
    so on) or, by `"one"`, for N-Triples, N-Quads and HDT, one. A single input's labels stay, unless it is converted.
    Named graphs are an error, unless `graphs="merge"` takes the union of all graphs.

    Limit untrusted documents: a line of more than `longest_line` bytes, without its end, is an error (`TooLong`, in the
    column after them), as is N-Triples of more than `largest_text` bytes; at most 1 MiB after these is looked at.
    `progress` is True, for a bar (by tqdm, if installed) on standard error, or a function of the bytes read so far and
    of their number, or None; the build comes after it. `metadata` has arguments of `hdt.metadata` by their names, as
    `{"title": "Examples"}`; `header` is a whole header, as of `rewrite`. With `memory`, bytes or as `"64M"` (4M or
    more), the program `hdt` builds the same file in about so much, without `metadata` or `header`: more slowly, with
    scratch files beside the output or in the folder `scratch`.

    Errors: `LineFault` for N-Triples and N-Quads, with path and line, and for a header, `Fault` and `NotATerm` for HDT,
    `ConversionFault` for other syntaxes, `NoTriples`, ValueError for options, named graphs, or an input that is the
    output, `NoConverter`, TypeError, MemoryError, OSError, also for damaged archives, and what iterables, files and
    `progress` raise. The time is that of sorting, and of the converter. One N-Triples file is in memory, or mapped,
    with what is built. Others are read in pieces (HDT and by rdflib whole), and written to a scratch file as N-Triples.

    >>> hdt.build("graph.nt", "graph.hdt", base="http://example.org/graph")
    Counts(triples=3, shared=2, subjects=0, predicates=2, objects=1)
    >>> hdt.build([("u:a", "u:p", '"x"')], "other.hdt").triples
    1
    """
    syntax = syntax_named(syntax)
    if blank_nodes not in (None, "one", "apart"):
        raise ValueError('blank_nodes is "one", "apart" or None')
    if graphs not in (None, "merge"):
        raise ValueError('graphs is "merge" or None')
    check_converter(converter)
    if largest_text is not None and operator.index(largest_text) < 0:
        raise ValueError("the largest text is negative")
    if memory is not None and not (header is None and metadata is None):
        raise ValueError("a build with memory takes no header: rewrite replaces it, with the file in memory")
    made_header, low = Header(header, metadata), LowMemory.of(memory, scratch)
    output = _Output(out_path, _BASE if base is None else base, block_size, made_header, low)
    check_header(output.base, block_size, output.header)
    if largest_text is None and not progress and is_plain(nt_path, syntax):
        return _of_ntriples(cast(Path, nt_path), output, longest_line)
    longest_of(longest_line, "")
    options = _Options(base, longest_line, largest_text, blank_nodes, graphs, converter)
    sources = sources_of(nt_path, syntax)
    for it in sources:
        _check_output(it.path, out_path)
    return _of_sources(sources, output, options, progress)


class _Output(NamedTuple):
    """What is to be made: the path, the name in the header, the strings of a block, the header, and in what memory."""

    path: Path
    base: str
    block_size: int
    header: Header
    low: Optional[LowMemory]

    def take(self, made: Made) -> None:
        """Replace the file at the path by one that was built, with its header."""
        with Made() as other:
            replace(self.path, self.header.put(made, other).view())

    def options(self, longest_line: Optional[int]) -> list[str]:
        """The same as options of the program."""
        lines = [] if longest_line is None else [f"--longest-line={min(operator.index(longest_line), 2**64 - 1)}"]
        return [f"--base={self.base}", f"--block-size={operator.index(self.block_size)}", *lines]

    def scratch(self) -> IO[bytes]:
        """A file without a name, in the folder of the output, or in that for scratch files."""
        target, is_replaced = target_of(self.path)
        told = None if self.low is None else self.low.scratch
        try:
            return tempfile.TemporaryFile(dir=told or (os.path.dirname(target) if is_replaced else None))
        except OSError as error:
            raise OSError(error.errno, error.strerror, told or os.fsdecode(self.path)) from None


def check_header(base: str, block_size: int = 16, header: Optional[Header] = None) -> None:
    """Raises ValueError for a base or a block size that the library refuses, LineFault for a header, before work."""
    with Made() as made, Made() as other:
        built(b"<x:> <x:> <x:> .\n", made, base, block_size)
        if header is not None:
            header.put(made, other)


def is_plain(given: Any, syntax: Optional[str]) -> bool:
    """Whether it is the path of one N-Triples file, which goes to the library as it is."""
    if not isinstance(given, (str, bytes, os.PathLike)) or is_statement(given):
        return False
    name = os.fsdecode(given)
    return (syntax or syntax_of(name) or NTRIPLES) == NTRIPLES and not suffix_of(name) and not os.path.isdir(name)


def _check_output(path: Optional[str], out_path: Path) -> None:
    if path is not None and are_one(path, out_path):
        raise ValueError("the input and the output are one file")


def _of_ntriples(path: Path, output: _Output, longest_line: Optional[int]) -> Counts:
    """Build the file of one N-Triples file."""
    _check_output(os.fsdecode(path), output.path)
    lines = longest_of(longest_line, path)
    if output.low is not None:
        with io.open(path, "rb") as text:
            return output.low.build(text, output.path, output.options(longest_line), path)
    with Made() as made:
        counts = built(data_of(path, lines=lines)[0], made, output.base, output.block_size, path)
        output.take(made)
    return counts


def _of_sources(sources: list[Source], output: _Output, options: _Options, progress: Progress) -> Counts:
    """Build the file of any inputs."""
    sizes = [it.size for it in sources]
    meter = Meter(progress, None if None in sizes else sum(map(int, filter(None, sizes))))
    with closing(meter), output.scratch() as text:
        size = _Writer(text, output.path, options, meter).write(sources)
        meter.end()
        if not size:
            raise NoTriples(path=sources[0].name if len(sources) == 1 else None)
        if output.low is not None:
            text.seek(0)
            return output.low.build(text, output.path, output.options(None))
        with Made() as made:
            with Mapped(text.fileno()) as lines:
                counts = built(lines, made, output.base, output.block_size)
            output.take(made)
    return counts


class _Writer:
    """Writes the N-Triples of inputs to a scratch file."""

    def __init__(self, text: IO[bytes], out_path: Path, options: _Options, meter: Meter) -> None:
        self._text, self._out, self._options, self._meter = text, os.fsdecode(out_path), options, meter
        self._size = 0

    def write(self, sources: list[Source]) -> int:
        """Write all inputs, and return the bytes."""
        having: list[tuple[Source, bool]] = []  # the inputs that have blank nodes, and whether they were converted
        is_apart = len(sources) > 1 and self._options.blank_nodes != "one"
        for number, source in enumerate(sources):
            conversion = self._conversion(source)
            prefix = b"f%d_" % number if is_apart else b""
            if self._write_suited(source, conversion, prefix):
                having.append((source, conversion is not None))
        converted = [it.title() for it, is_converted in having if is_converted]
        if len(having) > 1 and converted and not is_apart:
            raise ValueError(
                f"{converted[0]}: a converter makes labels of its blank nodes, which may be those of another input: "
                'blank_nodes="one" takes N-Triples, N-Quads and HDT only'
            )
        return self._size

    def _conversion(self, source: Source) -> Optional[Conversion]:
        """How an input is converted, or None if it needs no converter."""
        if source.syntax in (NTRIPLES, NQUADS, HDT):
            return None
        converter = converter_of(source.syntax, self._options.converter, source.title())
        base = self._options.base or source.base()
        return Conversion(source.name, source.title(), source.syntax, base, converter)

    def _write_suited(self, source: Source, conversion: Optional[Conversion], prefix: bytes) -> bool:
        """Write one input, and return whether it has blank nodes; by rdflib if rapper is unsuited and wasn't chosen."""
        size, read = self._size, self._meter.read()
        try:
            return self._write(source, conversion, prefix)
        except Unsuited as error:
            if conversion is None or source.size is None or self._options.converter or not is_installed("rdflib"):
                raise error.shown() from None
        self._text.seek(size)
        self._text.truncate()
        self._size = size
        self._meter.go_back(read)
        return self._write(source, conversion._replace(converter=RDFLIB), prefix)

    def _write(self, source: Source, conversion: Optional[Conversion], prefix: bytes) -> bool:
        """Write one input, and return whether it has blank nodes."""
        lines, has_blank_nodes, longest, graphs = 0, False, self._options.longest_line, Graphs()
        with closing(source.pieces(self._meter, graphs)) as pieces:
            try:
                with closing(_blocks(source, conversion, pieces, graphs, longest)) as blocks:
                    for block in blocks:
                        found = _checked(block, prefix, conversion)
                        lines += found.lines
                        has_blank_nodes = has_blank_nodes or found.has_blank_nodes
                        self._put(found.text, source)
            except LineFault as fault:
                if conversion is not None:
                    raise conversion.fault(f"{fault.name}: a line of N-Triples has over {longest:,} bytes") from None
                raise LineFault(fault.reason, lines + fault.line, fault.column, source.name) from None
        if self._options.graphs is None:
            graphs.refuse(source.title())
        return has_blank_nodes

    def _put(self, text: bytes, source: Source) -> None:
        self._size += len(text)
        most = self._options.largest_text
        if most is not None and self._size > most:
            raise ValueError(f"{source.title()}: the inputs are larger, as N-Triples, than {most:,} bytes")
        try:
            self._text.write(text)
            self._text.flush()
        except OSError as error:
            raise OSError(error.errno, error.strerror, self._out) from None


def _blocks(
    source: Source, conversion: Optional[Conversion], pieces: Iterator[bytes], graphs: Graphs, longest: Optional[int]
) -> Generator[Block, None, None]:
    """The N-Triples of an input, in blocks of whole lines."""
    if conversion is not None:
        yield from conversion.blocks(pieces, graphs, longest)
    elif source.syntax == HDT:
        with closing(dumped(pieces, source.name)) as lines:
            yield from blocks_of(lines, longest)
    elif source.syntax == NQUADS:
        yield from graphs.triples(blocks_of(pieces, longest))
    else:
        yield from blocks_of(pieces, longest)


def _checked(block: Block, prefix: bytes, conversion: Optional[Conversion]) -> Any:
    """Check a block of an input, or of what a converter made of it."""
    try:
        return checked(block, prefix)
    except LineFault as fault:
        if conversion is None:
            raise
        raise conversion.refused(fault, block) from None
