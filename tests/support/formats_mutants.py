"""Wrong bodies of what builds from other syntaxes, which its tests must see: run by `support.package_mutants`."""

from __future__ import annotations

import sys

from support.package_mutants import judge

FORMATS, HOSTILE, TRIPLES = "tests/test_formats.py", "tests/test_formats_hostile.py", "tests/test_formats_triples.py"
COMMAND, COMPAT, INSTALL = "tests/test_formats_command.py", "tests/test_compat.py", "tests/test_install.py"
HEADER, MEMORY = "tests/test_header_python.py", "tests/test_python_build_memory.py"
MERGE = "tests/test_python_merge_memory.py"
ORDERS = {
    "_triples": [TRIPLES, FORMATS], "_process": [HOSTILE, FORMATS], "_compressed": [HOSTILE, FORMATS],
    "__main__": [COMMAND], "_program": [MERGE, COMMAND], "compat": [COMPAT],
    "_blocks": [FORMATS, HOSTILE, "tests/test_parts.py", "tests/test_parts_hostile.py"],
    "_mapped": ["tests/test_parts.py", FORMATS], "_build": [HEADER, FORMATS, HOSTILE, TRIPLES, MERGE],
    "_metadata": [HEADER], "_about": [HEADER], "_low_memory": [MERGE, MEMORY], "_files": [MEMORY], "_merging": [MERGE],
    "_sources": [FORMATS, HOSTILE, TRIPLES, MERGE],
}  # fmt: skip

WRONG = {
    "_blocks": [
        ("a block ends between CR and LF", 'piece.rfind(b"\\r", 0, -1)) + 1', 'piece.rfind(b"\\r")) + 1'),
        ("a line goes on after a carriage return", 'if rest.endswith(b"\\r") and not', "if False and not"),
        ("a line that is too long is read to its end",
         'if longest is not None and len(rest) - rest.endswith(b"\\r") > longest:', "if False:"),
        ("a long line in a block is none", "        if not is_too_long:\n", "        if True:\n"),
        ("lines before one that is too long aren't looked at", "            yield block[:at]\n", "            pass\n"),
        ("labels have no prefix", "prefix, len(prefix), made", 'b"", 0, made'),
        ("blank nodes aren't seen", "bool(report.has_blank_nodes)", "False"),
    ],
    "_low_memory": [
        ("less memory is enough", "_LEAST = 4 * 1024 * 1024", "_LEAST = 1024 * 1024"),
        ("any memory is enough", "if not _LEAST <= size < 2**64:", "if not size < 2**64:"),
        ("units are of 1000", '"M": 2**20', '"M": 10**6'),
        ("a number is looked for in a text", "_SIZE.fullmatch(memory)", "_SIZE.match(memory)"),
        ("scratch means nothing alone", "            if scratch is not None:\n", "            if False:\n"),
        ("scratch is beside the output", "scratch = folder if self.scratch is None", "scratch = folder if True"),
        ("a device has a folder beside it",
         "os.path.dirname(target) if is_replaced", "os.path.dirname(target) if True"),
        ("any end is a success", "            if status:\n", "            if False:\n"),
        ("a limit of files ends the program", "restore_signals=False", "restore_signals=True"),
        ("an interrupt leaves the program", "            child.kill()", "            pass"),
        ("an interrupt doesn't wait for the program", "            child.wait()\n", ""),
        ("faults have no path", "LineFault(reason, line, column, name)", "LineFault(reason, line, column)"),
        ("line and column are changed over", "line, column, reason = map", "column, line, reason = map"),
        ("the output isn't named in errors", " or os.fsdecode(out_path)", ""),
        ("a file that can't be read isn't named", 'names.get(more.strip().partition(": ")[0]) or ', ""),
        ("a faulty file isn't named", "(names[word], rest) if word in names else (", "("),
        ("a file that is read on is another one", "if of == last[1] and read >= last[0] else", "if False else"),
        ("a file is another one by its size alone", " and read >= last[0] else read", " else read"),
        ("the rest isn't told", "            meter.count_rest()\n", ""),
        ("links lead to where they are", "os.symlink(os.path.abspath(str(name)),", "os.symlink(str(name),"),
        ("scratch is where the program runs", "os.path.abspath(os.fsdecode(scratch))", "os.fsdecode(scratch)"),
        ("errors have no number", "_NUMBERS.get(why, errno.EIO)", "errno.EIO"),
        ("memory that runs out is another error", "    if status == 4:\n", "    if False:\n"),
        ("the size is a default", "--memory={self.size}", "--memory={2**32}"),
    ],
    "_files": [
        ("the folder stays", "        shutil.rmtree(made, ignore_errors=True)\n", "        pass\n"),
        ("others may enter the folder", "os.mkdir(made, 0o700)", "os.mkdir(made, 0o755)"),
        ("the folder is named in errors",
         "error.strerror, os.fsdecode(path)) from None\n    try:", "error.strerror)\n    try:"),
        ("permissions are those of a new file", "        _take_over(file.fileno(), target)\n", ""),
    ],
    "_mapped": [
        ("pages of a text stay in memory", "            self._data.madvise(mmap.MADV_DONTNEED)", "            pass"),
    ],
    "_build": [
        ("one input has a prefix", "len(sources) > 1 and self._options", "self._options"),
        ("labels are one node", 'self._options.blank_nodes != "one"', "False"),
        ("labels of converters are one node", "if len(having) > 1 and converted and not is_apart:", "if False:"),
        ("one input with blank nodes is too many", "if len(having) > 1 and converted", "if converted"),
        ("named graphs are merged", "            graphs.refuse(source.title())\n", "            pass\n"),
        ("an input may be the output", "    if path is not None and are_one(path, out_path):", "    if False:"),
        ("a fault's line is that of its block", "lines + fault.line", "fault.line"),
        ("the text has no limit", "if most is not None and self._size > most:", "if False:"),
        ("the limit is that of a block", "self._size += len(text)", "self._size = len(text)"),
        ("a text of the limit is too large", "self._size > most", "self._size >= most"),
        ("the base isn't looked at first", "    check_header(output.base, block_size, output.header)\n", ""),
        ("what rapper wrote stays", "        self._text.truncate()\n        self._size = size\n", ""),
        ("bytes that are read again count twice", "        self._meter.go_back(read)\n", ""),
        ("a file that is open is read again",
         "source.size is None or self._options.converter", "self._options.converter"),
        ("another converter than the chosen one",
         "source.size is None or self._options.converter", "source.size is None"),
        ("the scratch file is named in errors",
         "error.strerror, told or os.fsdecode(self.path)) from None", "error.strerror)"),
        ("a compressed file goes to the library", " and not suffix_of(name)", ""),
        ("blank nodes of the last block alone", "has_blank_nodes or found.has_blank_nodes", "found.has_blank_nodes"),
        ("no triples are a file", "        if not size:\n", "        if False:\n"),
        ("the header is that of the library", "self.header.put(made, other).view()", "made.view()"),
        ("the header isn't looked at first",
         "        if header is not None:\n            header.put(made, other)\n", ""),
    ],
    "_metadata": [
        ("a header and metadata are one", "if text is not None and keywords is not None:", "if False:"),
        ("an unknown property is passed over", 'set(given) - {*_PROPERTIES, "properties"}', "set()"),
        ("values are iterated again", "None if keywords is None else _lines(keywords)",
         "None if keywords is None else keywords"),
    ],
    "_about": [
        ("a header has no bound", "    if len(header) > _LARGEST:\n        return {}\n", ""),
        ("one of several datasets", "return found[0] if len(found) == 1 else None", "return found[0]"),
        ("values have no bound", "key=_rank)[:_MOST]", "key=_rank)"),
        ("blank nodes are values", ' and not o.startswith("_:")', ""),
        ("the first language is the title's", "key=_rank)[:_MOST]", "key=str)[:_MOST]"),
    ],
    "_compressed": [
        ("what follows an archive is ignored",
         "                left, stream, has_begun = stream.unused_data, new(), False\n",
         '                left, stream, has_begun = b"", new(), False\n'),
        ("a cut archive is whole",
         "    if has_begun:\n        raise EOFError", "    if False:\n        raise EOFError"),
        ("an empty archive is whole",
         "    if not first:\n        raise EOFError", "    if False:\n        raise EOFError"),
        ("zeros aren't padding", "left := left.lstrip(padding) if padding else left", "left := left"),
        ("a piece is decompressed whole", "stream.decompress(left, PIECE)", "stream.decompress(left, -1)"),
        ("xz may ask for any memory", "lzma.LZMADecompressor(lzma.FORMAT_XZ, _MEMORY)", "lzma.LZMADecompressor()"),
        ("zstd is not checked", "raise _Damaged(error.first_line() or str(error)) from error", "return"),
        ("a frame of zstd is decompressed whole",
         "piece[at : at + 256] for piece in _not_empty(pieces) for at in range(0, len(piece), 256)",
         "piece for piece in _not_empty(pieces)"),
    ],
    "_process": [
        ("a status is ignored", "    if status:\n", "    if False:\n"),
        ("a signal is a status", "    if status < 0:\n", "    if False:\n"),
        ("an error that is only said is none", "if message is not None and message.search(said):", "if False:"),
        ("input that wasn't read is ignored", "    if not exchange.has_read_all:\n", "    if False:\n"),
        ("the end of what is said is lost",
         "self.said[:_MOST] + b\"\\n\" + self.said[-_MOST + 1 :]", "self.said[:_MOST]"),
        ("a program isn't killed", "            process.kill()  #", "            pass  #"),
        ("it writes whether the program reads or not", "        os.set_blocking(given, False)\n", ""),
    ],
    "_convert": [
        ("half a line is a line", '        if not last.endswith(b"\\n"):\n', "        if False:\n"),
        ("relative IRIs get a base", 'b"<%s:" % scheme.encode() in block', "False"),
        ("bytes that are no UTF-8 are left to rapper", 'if error.reason != "unexpected end of data":', "if False:"),
        ("a cut character is left to rapper", '        if left:\n            raise self.fault("not UTF-8"',
         '        if False:\n            raise self.fault("not UTF-8"'),
        ("U+0000 between pieces is left to rapper", "_ZERO.search(end + piece)", "_ZERO.search(piece)"),
        ("labels between pieces are left to rapper", ' or b"genid" in end + piece[:4]', ""),
        ("labels are left to rapper", "        if self._is_read and self._is_written:\n", "        if False:\n"),
        ("rapper's warnings are errors", '"-q", "-w", *refused', '"-q", *refused'),
        ("a message has colours", "each if each.isprintable() else \" \"", "each"),
        ("the base is that of the header alone", "base = self.base or f", "base = f"),
    ],
    "_quads": [
        ("a graph may be no UTF-8", "                return line[0]\n", "                pass\n"),
        ("a graph may be relative", "<[A-Za-z][A-Za-z0-9+.-]*:(?:", "<(?:"),
        ("graphs have no bound",
         "if len(self._names) < _MOST:\n                self", "if True:\n                self"),
        ("a literal ends at any quote", '"(?:[^"\\\\\\r\\n]|\\\\.)*"', '"[^"\\r\\n]*"'),
        ("a label may end anywhere", "_:[^\\s<\"]+ (?=[\\s<])\n                     |",
         "_:[^\\s<\"]+\n                     |"),
    ],
    "_sources": [
        ("a folder has hidden files", ' and not each.startswith(".")', ""),
        ("a folder has HDT files", "not in (None, HDT) and", "is not None and"),
        ("a folder has pipes", "if source.size is None:  #", "if False:  #"),
        ("a folder's files are in any order", "    found = sorted(\n", "    found = list(\n"),
        ("the name of GzipFile says what it gives",
         "suffix, pieces = suffix_by(first), _with", 'suffix, pieces = ".gz", _with'),
        ("two bytes say a compression", "while 0 < len(first) < 8 and", "while 0 < len(first) < 2 and"),
        ("a base has the suffix of compression",
         "os.path.abspath(without_compression(self.name))", "os.path.abspath(self.name)"),
    ],
    "_triples": [
        ("an IRI may make other triples", "return Term.parse(string).format_ntriples()",
         "return string if string[:1] in '\"_' else f'<{string}>'"),
        ("N-Triples aren't checked", "return Term.parse_ntriples(text).format_ntriples()", "return text"),
        ("quads are triples", "        _note(it[3], graphs)\n", "        pass\n"),
        ("the default graph has a name", " and str(name) != _DEFAULT_GRAPH", ""),
        ("the last triples are lost", '    yield "".join(lines).encode()\n\n\ndef _line', "    return\n\n\ndef _line"),
    ],
    "_progress": [
        ("the end isn't told",
         "        if self._tell is not None:\n            self._tell(self._read",
         "        if False:\n            self._tell(self._read"),
        ("a piece is told before it is used",
         "            yield piece\n            self._read", "            self._read"),
    ],
    "_rdflib_lines": [
        ("the network is open", "    sys.addaudithook(refuse)\n", ""),
        ("literals are normalized", "    rdflib.NORMALIZE_LITERALS = False\n", ""),
        ("labels are rdflib's", "b{_labels.setdefault(str(it), len(_labels))}", "{it!s}"),
        ("the default graph has a name", "not in (None, _DEFAULT)", "is not None"),
        ("formulas are triples", "        if quoted:\n", "        if False:\n"),
    ],
    "__main__": [
        ("all is the program's", "if options.inputs[0] == \"-\" or is_plain", "if True or is_plain"),
        ("standard input may be read twice", 'if [*options.inputs, options.header].count("-") > 1:', "if False:"),
        ("a faulty input is a usage error", "status = _say(error, 1)", "status = _say(error, 2)"),
        ("a title of one document is lost", 'more = (*_MORE, *_METADATA, "header")', "more = _MORE"),
        ("OUT may be the header", '(*options.inputs, options.header or "-")', "options.inputs"),
    ],
    "_merging": [
        ("memory means nothing", "    if low is not None:\n", "    if False:\n"),
        ("a label is one node in all files", "{blank_nodes or 'one'}", "one"),
    ],
    "_program": [
        ("a script is the program", "return file.read(len(_MAGIC)) == _MAGIC", "return True"),
        ("a fault of an HDT file has no name", "int(fault[2]), name)", "int(fault[2]))"),
        ("a string that is no term has no name", "int(string[2]), name)", "int(string[2]))"),
        ("any failure of a dump is one of memory", "MemoryError() if error.status == 4 else ", "MemoryError() or "),
    ],
    "compat": [
        ("0 is an ID", "s, p, o = (it or None for it in asked)\n        found = self._graph.find_ids",
         "s, p, o = asked\n        found = self._graph.find_ids"),
        ("a length forgets the limit", "min(size, limit) if limit else size", "size"),
        ("a length may be negative", "max(cardinality - offset, 0)", "cardinality - offset"),
        ("a match that was looked at is lost",
         "        self._ahead.clear()\n", "        self._ahead.clear()\n        next(self._found, None)\n"),
    ],
}


def tests_of(module: str) -> list[str]:
    """The tests of a module, those first that are likely to see a wrong body."""
    return ORDERS.get(module, [FORMATS, HOSTILE, TRIPLES])


if __name__ == "__main__":
    sys.exit(judge("python/hdt", WRONG, tests_of))
