"""The command: `python3 -m hdt COMMAND ..`, and `tickmarl-hdt COMMAND ..` after an installation.

It is the program `hdt`, whose `help` has all commands and options, but for `build`: that takes what `hdt.build` takes.
"""

from __future__ import annotations

import argparse
import os
import shutil
import signal
import subprocess
import sys
import tempfile
from collections.abc import Sequence
from typing import Any, NoReturn, Optional

from . import ConversionFault, Counts, LineFault, NoConverter, NoTriples, _program, build
from ._build import check_header, is_plain
from ._convert import CONVERTERS
from ._files import are_one
from ._low_memory import size_of
from ._metadata import Header
from ._syntaxes import SUFFIXES, TITLES

# The options of `build` that the program doesn't have; those of the header, with what they take.
_MORE = ("syntax", "blank_nodes", "graphs", "converter", "largest_text")
_METADATA = {
    "title": "TEXT", "description": "TEXT", "license": "IRI", "publisher": "IRI", "creator": "IRI", "source": "IRI",
    "issued": "DATE", "created": "DATE", "modified": "DATE",
}  # fmt: skip
_DESCRIPTION = f"""\
Build an HDT file from RDF: files, folders, or - for standard input. Names end with {' '.join(SUFFIXES)},
and then perhaps .gz .bz2 .xz .zst; any other name is N-Triples. Turtle and TriG are converted by serdi, RDF/XML by
rapper, if they are installed, all else by rdflib; HDT files by the program, but those in folders are passed over.
OUT is replaced only if all inputs could be read to their end.

With --title and the options after it, each of which may be given again, the header describes the graph by properties of
Dublin Core and numbers of VoID. IRI may be a text, too. DATE is as 2026-11-29.

On success, print `built` and six counts: the triples, the strings of the sections shared, subjects, predicates and
objects, and the bytes of the file. If OUT is -, the file goes to standard output, and the counts to standard error.
The status is 1 if an input is faulty, 2 for a usage error, 3 for an I/O error, 4 if memory runs out.
"""


def _number(word: str) -> int:
    number = int(word)
    if number < 0:
        raise argparse.ArgumentTypeError("it is negative")
    return number


def _block_size(word: str) -> int:
    number = int(word)
    if not 1 <= number <= 65_535:
        raise argparse.ArgumentTypeError("it isn't 1 to 65535")
    return number


def _memory(word: str) -> int:
    try:
        return size_of(word)
    except ValueError as error:
        raise argparse.ArgumentTypeError(str(error)) from None


def _parser() -> argparse.ArgumentParser:
    parser = argparse.ArgumentParser(
        "hdt build", description=_DESCRIPTION, formatter_class=argparse.RawDescriptionHelpFormatter, allow_abbrev=False
    )
    add = parser.add_argument
    add("inputs", metavar="IN", nargs="+", help="file or folder to read, or - for standard input")
    add("out", metavar="OUT", help="HDT file to write, or - for standard output")
    add("--base", metavar="IRI", help="names the graph in the header; relative IRIs are resolved by it")
    add("--block-size", metavar="N", type=_block_size, default=16, help="strings per dictionary block, 1 to 65535")
    add("--longest-line", metavar="N", type=_number, help="reject lines of more than N bytes")
    add("--largest-text", metavar="N", type=_number, help="reject inputs of more than N bytes as N-Triples")
    add("--syntax", choices=TITLES, help="the syntax of all inputs")
    add("--blank-nodes", choices=["apart", "one"], help="whether a label is one node in all inputs")
    add("--graphs", choices=["merge"], help="build the union of named graphs, which are an error else")
    add("--converter", choices=CONVERTERS, help="convert by this program")
    add("--memory", metavar="SIZE", type=_memory, help="build in about SIZE of memory, as 64M, with scratch files")
    add("--scratch", metavar="FOLDER", help="make the scratch files of --memory in FOLDER, not beside OUT")
    for name, what in _METADATA.items():
        words = ["--license", "--licence"] if name == "license" else [f"--{name}"]
        add(*words, action="append", metavar=what, help=f"dcterms:{name} in the header")
    add("--header", metavar="FILE", help="N-Triples for the header, as they are")
    add("--progress", action="store_true", help="report the bytes read on standard error, also if it is no terminal")
    add("--no-progress", action="store_true", help="show no progress on a terminal")
    add("--verbose", action="store_true", help="explain an error of N-Triples")
    return parser


def main(words: Optional[Sequence[str]] = None) -> int:
    """Run a command, and return its status. The words are those of the process, if none are given."""
    given = list(sys.argv[1:] if words is None else words)
    if given[:1] != ["build"]:
        return _as_program(given)
    options = _parser().parse_args(given[1:])
    more = (*_MORE, *_METADATA, "header")
    if len(options.inputs) == 1 and not any(getattr(options, name) is not None for name in more):
        if options.inputs[0] == "-" or is_plain(options.inputs[0], None):
            return _as_program(given)
    return _status_of(options)


def program() -> int:
    """The program itself: the script `hdt`."""
    return _as_program(sys.argv[1:])


def _as_program(words: list[str]) -> int:
    """Go on as the program; the status is 3 if that can't be."""
    try:
        _program.run(words)
    except OSError as error:
        return _say(error, 3)


def _say(error: object, status: int) -> int:
    print(f"hdt: {error}", file=sys.stderr)
    return status


def _usage(why: str) -> NoReturn:
    _parser().error(why)


def _check(options: Any) -> None:
    """End with a usage error for options that can't be."""
    if any(name != "-" and are_one(name, options.out) for name in (*options.inputs, options.header or "-")):
        _usage("OUT is one of the inputs")
    if [*options.inputs, options.header].count("-") > 1:
        _usage("standard input can be read once")
    if options.header is not None and _metadata_of(options):
        _usage("--header is the whole header")
    if options.memory is not None and (options.header is not None or _metadata_of(options)):
        _usage("--memory has no room for a header: hdt rewrite --header replaces it")
    if options.scratch is not None and options.memory is None:
        _usage("--scratch is for --memory")
    try:
        check_header("x:" if options.base is None else options.base, header=Header(None, _metadata_of(options)))
    except ValueError as error:
        _usage(str(error))


def _metadata_of(options: Any) -> dict[str, list[str]]:
    """The arguments of `hdt.metadata`."""
    return {name: getattr(options, name) for name in _METADATA if getattr(options, name) is not None}


def _header_of(options: Any) -> Optional[bytes]:
    """The text of --header. Raises LineFault with its path, OSError."""
    if options.header is None:
        return None
    with open(0 if options.header == "-" else options.header, "rb", closefd=options.header != "-") as file:
        text = file.read()
    try:
        check_header("x:", header=Header(text, None))
    except LineFault as fault:
        raise LineFault(fault.reason, fault.line, fault.column, options.header) from None
    return text


def _ended(number: int, _: object) -> NoReturn:
    sys.exit(128 + number)


def _status_of(options: Any) -> int:
    """Build, and return the status. A signal that ends the process ends its children, and leaves no unfinished file."""
    _check(options)
    for number in (signal.SIGHUP, signal.SIGTERM):
        if signal.getsignal(number) == signal.SIG_DFL:
            signal.signal(number, _ended)
    try:
        _build(options)
        return 0
    except (LineFault, ConversionFault, NoTriples) as error:
        status = _say(error, 1)
        if options.verbose and isinstance(error, LineFault):
            sys.stderr.flush()
            subprocess.run([_program.path(), "explain", error.name], stdout=sys.stderr, check=False)
        return status
    except (NoConverter, OSError) as error:
        return _say(error, 3)
    except ValueError as error:
        return _say(error, 1)
    except MemoryError:
        return _say("out of memory", 4)
    except KeyboardInterrupt:
        return 130


def _build(options: Any) -> None:
    """Build, and print the counts. Raises what `hdt.build` raises."""
    inputs = [sys.stdin.buffer if name == "-" else name for name in options.inputs]
    shows = options.progress or sys.stderr.isatty() and not options.no_progress
    names = ("base", "block_size", "longest_line", "memory", "scratch", *_MORE)
    words = {name: getattr(options, name) for name in names}
    words.update(header=_header_of(options), metadata=_metadata_of(options) or None)
    if options.out != "-":
        counts = build(inputs, options.out, progress=shows, **words)
        _print(counts, os.path.getsize(options.out), sys.stdout)
        return
    with tempfile.TemporaryDirectory(dir=options.scratch) as folder:
        made = os.path.join(folder, "out.hdt")
        counts = build(inputs, made, progress=shows, **words)
        with open(made, "rb") as file:
            shutil.copyfileobj(file, sys.stdout.buffer)
        sys.stdout.buffer.flush()
        _print(counts, os.path.getsize(made), sys.stderr)


def _print(counts: Counts, size: int, file: Any) -> None:
    print("built", *counts, size, file=file, flush=True)


if __name__ == "__main__":
    sys.exit(main())
