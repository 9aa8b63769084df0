"""Requests to the probes that reach every library call, each group in a function with the inputs that it needs.

They are made to be run with each allocation refused. What is large has a group of its own.
"""

from __future__ import annotations

from collections.abc import Callable, Iterator, Sequence

from reference import hdt as reference
from support.built import SAMPLES
from support.probe import Argument

Request = tuple[Argument, ...]
ANY = ("-", "-", "-")
READER, WRITER = (7, "-"), (5, "-")
BEFORE = b"before"
LARGE = b"x" * 100_000
DIALOGUE = b'<u:a> ? ?\n? <u:p> ?\n? ? "x"\nno request\n? ? <u:z>\n? ? ?\n'
STRINGS = sorted({b"http://a/%d" % (n * n % 977) for n in range(40)} | {b"", "\u00e9".encode() * 40})
TERMS_OF_EACH_KIND = (b"<http://a/>", b"_:b.1", b'"x\\n\\u00e9"', b'"x"@en-GB', b'"x"^^<u:t>')
STRINGS_OF_EACH_KIND = (b"http://a/", b"_:b.1", b'"x\n"', b'"x"@en-GB', b'"x"^^<u:t>')
DOCUMENT = (b"# comment\n<u:a> <u:p> <u:b> .\n<u:a> <u:q> \"x\\u00e9\"@en .\r\n\n_:b <u:p> \"y\"^^<u:t> . # end\n"
            b'<u:b> <u:p> "\\t' + b"z" * 200 + b'" .')


def numbered(count: int) -> bytes:
    """A document of so many triples, in which strings are shared and repeated."""
    return b"".join(b"<http://a/%d> <http://a/p%d> <http://a/%d> .\n" % (n // 3, n % 5, n * 7 % count)
                    for n in range(count))


def of_document(document: bytes, block_size: int = 16) -> bytes:
    """The file of a document of N-Triples, whose terms are IRIs."""
    strings = [tuple(term.strip(b"<>") for term in line.split()[:3]) for line in document.splitlines()]
    return reference.graph([(s, p, o) for s, p, o in strings], b"http://a/", block_size).data


def wire() -> Iterator[Request]:
    """Numbers, control blocks, properties, readers and writers."""
    yield "file", reference.write_control(4, b"order=1;")
    yield "read_vbyte", 5
    yield "put_vbyte", b"", 0
    yield "put_vbyte", BEFORE, 2 ** 64 - 1
    yield "vbyte_len", 300
    yield "check8",
    yield "check16",
    yield "check32",
    yield "read_control", 4, 0
    yield "read_control", 3, 0
    yield "put_control", 4, b"order=1;", b""
    yield "put_control", 1, b"a=b;" * 10, BEFORE
    yield "put_control", 1, b"a\0b", BEFORE
    yield "property", b"a=b;c=d", b"c"
    yield "property", b"a=b;c=d", b"e"
    yield "put_decimal", b"", 0
    yield "put_decimal", BEFORE, 2 ** 64 - 1
    yield "bytes_at", 0, 4
    yield "bytes_at", 0, 400
    yield "text_at", 5
    yield "zero_in",
    yield "demand", 0, 5, 1
    yield "demand", 1, 5, 1
    yield "fault_text", 2 ** 64 - 1, 34
    yield "failed_text",
    yield "sizes",
    yield "cut_on_error", 1, 2, b"abcd"
    yield "counted_read", 3, "-", 2, 5, 0, 100
    yield "counted_read", 3, 10, 2, 5, 20, 20
    yield "counted_write", 3, 2, b"abcd", b"ef", b"gh"
    yield "counted_write_all", 3, "-", b"abcdefgh"
    yield "counted_write_all", 3, 2, b"abcdefgh"


def large_wire() -> Iterator[Request]:
    """The same with large texts."""
    properties = b"a=b;" * 25_000 + b"order=1;"
    yield "file", reference.write_control(4, properties)
    yield "read_control", 4, 0
    yield "property", properties, b"order"
    yield "put_control", 4, properties, LARGE
    yield "put_vbyte", LARGE, 2 ** 64 - 1
    yield "put_decimal", LARGE, 2 ** 64 - 1
    yield "counted_write_all", 1_000, "-", LARGE


def numbers() -> Iterator[Request]:
    """Sequences of numbers, and the rows that are read of them."""
    entries = [5, 0, 2 ** 40, 7, 1]
    yield "file", reference.write_numbers(entries)
    yield "numbers", 0, 10
    yield "numbers", 1, 10
    yield "number", 0, 2
    yield "entries", 0, 0, 2, 4
    yield "put_numbers", b""
    yield "put_numbers", BEFORE, *entries
    yield "put_numbers", BEFORE, 2 ** 64 - 1, *range(100)
    yield "width_of", *entries
    yield "byte_at", 0
    yield "code8_at", 0, 3
    yield "packed_at", 1, 16


def bits() -> Iterator[Request]:
    """Bitmaps, and directories that find their marks."""
    marks = [int(n % 3 == 0 or n % 7 == 0) for n in range(1_500)]
    yield "file", reference.write_bits(marks)
    yield "bits", 0, 10
    yield "bits", 1, 10
    yield "bit", 0, 9
    yield "put_bits", b"", 1
    yield "put_bits", BEFORE, *marks
    yield "rank", 0, 0, 511, 512, 1_500
    yield "select", 0, 1, 2, 500
    yield "held", 0


def large_bits() -> Iterator[Request]:
    """A bitmap of 200,000 bits, and 20,000 numbers and bits that are written."""
    yield "file", reference.write_bits([int(n % 3 == 0) for n in range(200_000)])
    yield "rank", 0, 0, 100_000, 200_000
    yield "select", 0, 1, 60_000
    yield "held", 0
    yield "put_bits", BEFORE, *(n % 2 for n in range(20_000))
    yield "put_numbers", BEFORE, *range(20_000)
    yield "width_of", *range(20_000)


def section() -> Iterator[Request]:
    """Sections: look-ups, walks and cursors, and the ways to write one."""
    yield "file", reference.write_section(STRINGS, 4)
    yield "section_read", 0
    yield "section_read", 1
    yield "section_string", 0, 7, b""
    yield "section_string", 0, len(STRINGS), BEFORE
    yield "section_strings", 0, 1, 2, 9, len(STRINGS)
    yield "section_seek", 0, 1, 2, 9, len(STRINGS), 3
    yield "section_place_of", 0, *STRINGS[::5], b"http://a/x"
    yield "section_prefix_range", 0, b"", b"http://a/", STRINGS[5]
    yield "section_head", 0, 1
    yield "section_block", 0, 7
    yield "section_walk", 0
    yield "section_walk_kept", 0
    yield "section_cursor", 0, STRINGS[9]
    yield "section_cursor_compared", 0, 3, STRINGS[9]
    yield "are_strings", *STRINGS[1:]
    yield "are_strings", b"b", b"a"
    for word in ("put_section", "write_section", "write_section_agreeing"):
        yield word, b"", 4, b"one"
        yield word, BEFORE, 4, *STRINGS
        yield word, BEFORE, 65_535, *STRINGS
    yield "section_writer", 4, *STRINGS
    yield "common_prefix", b"http://a/1", b"http://a/2"
    yield "compared_from", b"http://a/1", b"http://a/2", 3


def errors_of_sections() -> Iterator[Request]:
    """Sections and dictionaries with errors behind strings that are right: order, prefix, encoding, equal strings."""
    strings = STRINGS[:9]
    packed, starts = reference.fold(strings, 4)
    # The last string of a block keeps no byte, and is too low; is not UTF-8; or keeps more than the string before has.
    for last in (b"\x80a\0", b"\x80\xffx\0", b"\xffx\0"):
        data = packed + last
        yield "file", reference.write_packed(10, data, [*starts[:-1], len(data)], 4)
        yield "section_read", 0
        yield "section_walk", 0
    yield "file", reference.write_dictionary(strings, [b"u:a", *strings[3:5]], [b"u:p"], [], reference.Style())
    yield "dictionary", 0
    yield "file", reference.write_dictionary([], strings, [b"u:p"], strings[4:5], reference.Style())
    yield "dictionary", 0


def section_of_long_strings() -> Iterator[Request]:
    """Strings of 100,000 bytes with a common prefix."""
    strings = [LARGE, LARGE + b"a", LARGE + b"b" * 1_000, b"y"]
    yield "file", reference.write_section(strings, 3)
    yield "section_string", 0, 2, b""
    yield "section_strings", 0, 1, 3
    yield "section_seek", 0, 1, 3, 2
    yield "section_place_of", 0, strings[2]
    yield "section_walk", 0
    yield "section_walk_kept", 0
    yield "section_cursor", 0, strings[1]
    yield "section_cursor_compared", 0, 90_000, strings[1]
    yield "common_prefix", strings[1], strings[2]
    yield "compared_from", strings[1], strings[2], 50_000
    for word in ("put_section", "write_section", "write_section_agreeing"):
        yield word, BEFORE, 3, *strings


def section_of_many_strings() -> Iterator[Request]:
    """A section of 20,000 strings in one block, and one of 300 that is written."""
    strings = [b"http://example.org/object/%05d" % n for n in range(20_000)]
    yield "file", reference.write_section(strings, 20_000)
    yield "section_read", 0
    yield "section_strings", 0, 1, 2, 20_000
    yield "section_seek", 0, 1, 2, 20_000
    yield "section_place_of", 0, strings[0], strings[-1], strings[10_000] + b"x"
    for word in ("put_section", "write_section_agreeing"):
        yield word, BEFORE, 16, *strings[:300]


ROLES = sorted({b"u:%d" % n for n in range(12)}), [b"u:p", b"u:q"], sorted({b"u:%d" % n for n in range(6, 20)})


def dictionary() -> Iterator[Request]:
    """Dictionaries: look-ups, walks, splitting strings by role, and the ways to write one."""
    parts = reference.split(*ROLES)
    counts = tuple(map(len, ROLES))
    together = [string for role in ROLES for string in role]
    yield "file", reference.write_dictionary(*parts, reference.Style(block_size=3))
    yield "dictionary", 0
    yield "dictionary", 1
    for role in range(3):
        yield "dictionary_number_of", 0, role, ROLES[role][0], ROLES[role][-1], b"u:none"
        yield "dictionary_ids_with_prefix", 0, role, b"", b"u:", ROLES[role][-1]
        yield "dictionary_string_of", 0, role, len(ROLES[role]), b""
        yield "dictionary_string_of", 0, role, 2, BEFORE
        yield "dictionary_string_of", 0, role, 1_000, BEFORE
        yield "dictionary_strings_of", 0, role, BEFORE, *range(1, len(ROLES[role]) + 1), 2
        yield "dictionary_strings_of", 0, role, b"", 1, 1_000
        yield "dictionary_block", 0, role, 1
        yield "dictionary_strings", 0, role
        yield "dictionary_strings_kept", 0, role
    yield "dictionary_string_start", 0, 3, 1
    yield "split", *counts, *together
    for word in ("put_dictionary", "put_written_dictionary"):
        yield word, b"", 16, 1, 1, 1, b"u:s", b"u:p", b"u:o"
        yield word, BEFORE, 3, *counts, *together
    yield "arena", 0, 0, *together
    yield "arena", 40, 400, *together
    yield "arena_of", *together


def large_dictionary() -> Iterator[Request]:
    """A dictionary of 20,000 objects, with a string of 100,000 bytes in each section."""
    objects = [b"http://example.org/object/%05d" % n for n in range(20_000)]
    data = reference.write_dictionary([b"h" + LARGE], [b"i" + LARGE], [b"p" + LARGE], [*objects, b"o" + LARGE],
                                      reference.Style())
    yield "file", data
    yield "dictionary", 0
    yield "dictionary", len(data) - 3
    yield "dictionary_number_of", 0, 2, objects[0], objects[-1], b"h" + LARGE, b"o" + LARGE
    yield "dictionary_string_of", 0, 2, 20_002, b""
    yield "dictionary_string_of", 0, 0, 1, LARGE
    yield "dictionary_strings_of", 0, 2, LARGE, 2, 20_002, 1
    yield "dictionary_strings", 0, 0
    yield "split", 1, 1, 2, LARGE, b"p", LARGE, LARGE + b"y"
    for word in ("put_dictionary", "put_written_dictionary"):
        yield word, BEFORE, 16, 1, 1, 2, LARGE, b"p", LARGE, LARGE + b"y"
    yield "arena", 0, 0, LARGE, b"", LARGE


IDS = [(s, p, o) for s in range(1, 8) for p in range(1, 4) for o in range(1, 12, s)]


def triples() -> Iterator[Request]:
    """Triples: the types that find them, with and without directories and lists, and writing them."""
    flat = [number for triple in IDS for number in triple]
    patterns: list[Argument] = [*ANY, 3, "-", "-", "-", 2, "-", "-", "-", 5, 3, 2, "-", 3, "-", 1, "-", 2, 1,
                                3, 2, 1, 9, 9, 9]
    counts = (0, 7, 3, 11)
    yield "file", reference.write_triples(IDS)
    yield "triples", *counts
    yield "triples", 1, 7, 3, 11
    yield "triples", 0, 6, 3, 11
    yield "triple", *counts, 0, 17, len(IDS) - 1
    for word in ("find", "indexed_find", "listed_find", "matching", "indexed_matching", "listed_matching"):
        yield word, *counts, *patterns
    for word in ("matching_up_to", "listed_matching_up_to"):
        yield word, *counts, 3, *patterns
    for at in range(0, len(patterns), 3):
        yield "handed_back", *counts, *patterns[at:at + 3]
    yield "uses", *counts, 0, 1, 1, 3, 2, 11
    yield "indexed_held", *counts
    yield "listed_held", *counts
    yield "empty_matches",
    yield "are_writable", *flat
    yield "put_triples", b"", 1, 1, 1
    yield "put_triples", BEFORE, *flat
    yield "takes", "-", 2, "-", 1, 2, 3


def large_triples() -> Iterator[Request]:
    """5,000 triples."""
    ids = [(n // 10 + 1, n % 10 // 5 + 1, n % 5 + n // 10 % 90 + 1) for n in range(5_000)]
    counts = (0, 500, 2, 100)
    yield "file", reference.write_triples(ids)
    yield "triples", *counts
    for word in ("matching", "indexed_matching", "listed_matching", "indexed_find", "listed_find"):
        yield word, *counts, "-", "-", 50, 250, "-", "-"
    for word in ("matching_up_to", "listed_matching_up_to"):
        yield word, *counts, 30, "-", "-", 50, "-", 1, "-", "-", 2, 50
    yield "handed_back", *counts, "-", "-", 50
    yield "uses", *counts, 2, 50
    yield "listed_held", *counts
    yield "put_triples", BEFORE, *(number for triple in ids for number in triple)


def terms() -> Iterator[Request]:
    """Terms and dictionary strings, from one to the other."""
    for term in (*TERMS_OF_EACH_KIND, b"x", b"<rel>", b'"x"@', b'"x', b'"\xff"'):
        yield "parse_term", term
        yield "parse_string", term, b""
        yield "parse_string", term, BEFORE
        yield "term_string", term
    for string in (*STRINGS_OF_EACH_KIND, b"rel", b'"x', b"_:"):
        yield "string_term", string
        yield "put_term", string, b""
        yield "put_term", string, BEFORE
        yield "put_string", string, b""
        yield "put_string", string, BEFORE
    for term in TERMS_OF_EACH_KIND:
        yield "same_term", term, TERMS_OF_EACH_KIND[2]
    yield "is_iri", b"http://a/"
    yield "line_reason", 4
    yield "term_fault_text", 2 ** 64 - 1, 4
    yield "line_fault_text", 2, 13, 4
    yield "string_fault_text", "not_a_term"
    yield "string_fault_text", "out_of_memory"


def large_terms() -> Iterator[Request]:
    """Terms of 100,000 bytes, with and without characters that are escaped."""
    for term in (b"<u:" + LARGE + b">", b'"' + LARGE + b'"', b'"' + b"\\n" * 50_000 + b'"@en', b"_:" + LARGE,
                 b'"\\u00e9' + LARGE + b'"^^<u:' + LARGE + b">"):
        yield "parse_term", term
        yield "parse_string", term, BEFORE
        yield "term_string", term
        yield "same_term", term, term
    for string in (b"u:" + LARGE, b'"' + b"\n" * 50_000 + b'"@en', b"_:" + LARGE):
        yield "string_term", string
        yield "put_term", string, BEFORE
        yield "put_string", string, BEFORE
    yield "parse_term", b'"' + LARGE
    yield "request", b"<u:" + LARGE + b"> ? ?"
    yield "raw_request", b"u:" + LARGE + b"\t?\t?"


LIMIT, LARGE_CUT = 1 << 20, 90_000


def lines() -> Iterator[Request]:
    """Lines of documents and of requests: in any pieces, cut off, and by readers that fail."""
    yield "file", DOCUMENT
    for word in ("line_triples", "line_strings", "line_texts"):
        yield word, LIMIT, 1 << 20, "-"
        yield word, LIMIT, 3, "-"
        yield word, 60, 7, "-"
        yield word, LIMIT, 7, 50
    yield "line_fronts", LIMIT, 7, "-", 30
    for request in (b"<u:a> ? ?", b'? ? "x"@en # all', b"? <u:p> _:b", b"? ? rel", b"? ?", b"", b"# none"):
        yield "request", request
    for request in (b"u:a\t?\t?", b"\t\t", b"? ? ?", b"u:a"):
        yield "raw_request", request
    for fails in ("0", "20:interrupted", "45:zero"):
        yield "line_triples", LIMIT, 7, fails
        yield "line_strings", LIMIT, 7, fails
    yield "line_calls", LIMIT, 7, "-", 0, 1, 2, 2, 1, 1, 0
    yield "file", b"<u:a> <u:p> <u:b> .\n<u:a> <u:p> <b> .\n"
    for word in ("line_triples", "line_strings"):
        yield word, LIMIT, 7, "-"


def large_lines() -> Iterator[Request]:
    """A document whose last literal has 100,000 bytes."""
    yield "file", numbered(100) + b'<u:a> <u:p> "' + LARGE + b'" .\n'
    yield "line_strings", LIMIT, 4_096, "-"
    yield "line_texts", LIMIT, 1_000, "-"
    yield "line_fronts", LIMIT, 1_000, "-", 90_000
    yield "line_strings", 1_000, 4_096, "-"


def whole_document() -> Iterator[Request]:
    """A document of 40 triples as terms, each of which is an allocation; and one cut off in a literal."""
    document = numbered(40)
    yield "file", document
    yield "line_triples", LIMIT, 4_096, "-"
    yield "file", document[-300:] + b'<u:a> <u:p> "' + LARGE + b'" .\n'
    yield "line_triples", LIMIT, 4_096, LARGE_CUT
    yield "line_triples", LIMIT, 4_096, "-"


OF_THREE = (SAMPLES / "three.hdt").read_bytes()


def opening() -> Iterator[Request]:
    """A file as a graph and as a layout: opening it, and look-ups in its dictionary."""
    yield "file", OF_THREE
    yield from [(word,) for word in ("head", "read_dictionary", "open", "open_tight", "graph", "layout", "verify",
                                     "verify_tight")]
    for word in ("number_of", "layout_number_of"):
        yield word, 2, b"u:a", b'"x"', b"u:z"
    for word in ("ids_with_prefix", "layout_ids_with_prefix"):
        yield word, 2, b"", b"u:"
    for word in ("string_of", "layout_string_of"):
        yield word, 2, 3, b""
        yield word, 0, 1, BEFORE
        yield word, 1, 9, BEFORE
    yield "uses_of", 0, 1, 2, 1, 3
    for word in ("strings", "layout_strings"):
        yield from [(word, role) for role in range(3)]


def searching() -> Iterator[Request]:
    """Searches of the same file by IDs and by strings, and their texts."""
    yield "file", OF_THREE
    for word in ("search", "layout_search", "graph_layout_search"):
        yield word, *ANY, 1, "-", "-", "-", 1, "-", "-", "-", 1, 1, 1, "-", 1, "-", 2, "-", 1, 2, 1, 1, 2
    for word in ("search_count", "layout_search_count", "graph_layout_search_count"):
        yield word, 1, *ANY, 1, "-", "-", "-", 1, "-", "-", "-", 1, "-", 1, 2
    yield "page", 1, 1, *ANY, 1, "-", "-", "-", 1, "-", "-", "-", 1, 1, 1, "-", 1, "-", 2, "-", 1, 2, 1, 1, 2
    yield "pages", 1, *ANY
    yield "search_after", 1, *ANY, 1, "-", "-", "-", 1, "-"
    for word in ("pattern", "layout_pattern", "graph_layout_pattern", "find_strings"):
        yield word, b"u:a", "-", "-"
        yield word, "-", b"u:p", b"u:z"
        yield word, *ANY
    yield "graph_text", "none"
    yield "graph_text", *ANY
    yield "graph_text", 1, "-", "-"
    yield "layout_text", "-", *ANY
    yield "layout_text", 2, *ANY
    yield "layout_text", 2, 1, "-", "-"
    yield "layout_text", "-", "none"
    yield "append_graph_text", BEFORE, 1, *ANY, "-", "-", 1, "-", 2, "none"
    yield "page_text", BEFORE, 1, 1, *ANY
    yield "page_texts", BEFORE, 2, *ANY
    yield "write_graph", *WRITER, "none"
    yield "write_graph", *WRITER, 1, "-", "-"
    for count in range(0, 9):
        yield "write_graph", 9, count, *ANY
    yield "write_graph", 9, "4:interrupted", *ANY
    yield "write_graph", 9, "@13:zero", *ANY
    yield "open_fault_text", "fault", 5, 1
    yield "open_fault_text", "out_of_memory"
    yield "dump_fault_text", "not_a_term", 1, 7
    yield "dump_fault_text", "write", 5
    yield "dump_fault_text", "out_of_memory"


def errors_of_files() -> Iterator[Request]:
    """Files with errors: cut off, with an unused string, and with a string that is not a term."""
    for data in (OF_THREE[:-1], OF_THREE[:300], OF_THREE + b"x",
                 reference.loose([(b"u:a",) * 3], [b"u:a", b"u:x"], [b"u:a"], [b"u:a"]).data):
        yield "file", data
        yield from [(word,) for word in ("open", "open_tight", "layout", "verify", "verify_tight")]
        yield "rewrite_bytes", 16, b"http://a/"
    for length in range(0, len(OF_THREE), 41):
        yield "file", OF_THREE[:length]
        yield "open",
        yield "verify_tight",
    yield "file", reference.graph([(b"u:a", b"rel", b"u:b"), (b"u:a", b"u:p", b'"x')]).data
    yield "graph_text", "none"
    yield "graph_text", *ANY
    yield "layout_text", "-", *ANY
    yield "append_graph_text", BEFORE, 1, *ANY, "-", *ANY
    yield "page_text", BEFORE, 0, 2, *ANY
    yield "write_graph", *WRITER, *ANY


def large_graph() -> Iterator[Request]:
    """A file of 3,000 triples."""
    yield "file", of_document(numbered(3_000))
    yield from [(word,) for word in ("open", "open_tight", "verify", "verify_tight", "layout")]
    yield "search", 1, "-", "-", "-", "-", 1
    yield "page", 7, 1_000, *ANY
    yield "find_strings", "-", "-", b"http://a/7"
    yield "append_graph_text", BEFORE, 1_000, *ANY
    yield "page_text", BEFORE, 7, 1_000, *ANY
    yield "page_texts", BEFORE, 1_000, *ANY
    yield "write_graph", 1_000, "-", "-", 1, "-"


def long_strings() -> Iterator[Request]:
    """A file whose strings have a common prefix of 20,000 bytes."""
    yield "file", reference.long_prefixes(3, 20_000, 5)[0]
    yield from [(word,) for word in ("open", "open_tight", "verify", "verify_tight", "layout")]
    yield "strings", 0
    yield "string_of", 0, 3, BEFORE
    yield "strings_of", 0, BEFORE, 1, 3, 2
    yield "graph_text", *ANY
    yield "layout_text", "-", *ANY
    yield "write_graph", 1_000, "-", *ANY
    yield "rewrite_bytes", 2, b"http://a/"
    yield "rewrite", 65_535, b"http://a/", 1_000, "-"


# Strings of 32 bytes that begin so have the same hash.
COLLIDING = b"u:one-hash166742jByz7XnI/"


def building() -> Iterator[Request]:
    """Files that are built: of documents in pieces, with errors and failing readers, for writers that fail."""
    yield "file", DOCUMENT
    yield "build_bytes", 16, b"http://a/", 1 << 20, "-"
    yield "build_bytes", 1, b"u:b", *READER
    yield "build_bytes", 0, b"u:b", *READER
    yield "build_bytes", 16, b"rel", *READER
    yield "build_bytes", 16, b"u:b", 7, 50
    yield "build", 16, b"http://a/", *READER, *WRITER
    yield "build", 2, b"http://a/", *READER, 20, 4
    for fails in ("0", "20:interrupted", "45:zero", "50"):
        yield "build", 16, b"http://a/", 7, fails, *WRITER
    for fails in ("0", "1", "2:interrupted", "3:zero", "@170"):
        yield "build", 16, b"http://a/", *READER, 50, fails
    for memory in (0, 300, 1 << 20):
        yield "scratch_build", memory, 16, b"http://a/", *READER
    yield "scratch_build", 0, 0, b"u:b", *READER
    yield "scratch_build", 0, 16, b"u:b", 7, 50
    yield "build_fault_text", "line", 2, 13, 4
    yield "build_fault_text", "no_triples"
    yield "build_fault_text", "bad_options"
    yield "build_fault_text", "write", 5
    yield "build_fault_text", "out_of_memory"
    yield "fold_hash", b"", b"u:a", LARGE
    line = b"<%ss%%d> <%sp> <%ss%%d> .\n" % (COLLIDING, COLLIDING, COLLIDING)
    yield "file", b"".join(line % (n, n * 7 % 30) for n in range(30))
    yield "build_bytes", 16, b"http://a/", *READER
    yield "file", b"<u:a> <u:p> <u:b> .\n<u:a>"
    yield "build_bytes", 16, b"http://a/", *READER
    yield "build", 16, b"http://a/", *READER, *WRITER
    yield "scratch_build", 0, 16, b"http://a/", *READER
    yield "file", b"# nothing"
    yield "build_bytes", 16, b"http://a/", *READER
    yield "scratch_build", 0, 16, b"http://a/", *READER


def large_building() -> Iterator[Request]:
    """A document of 1,000 triples, each twice, with a literal of 100,000 bytes."""
    yield "file", numbered(1_000) * 2 + b'<u:a> <u:p> "' + LARGE + b'" .\n'
    yield "build_bytes", 16, b"http://a/", 4_096, "-"
    yield "build", 65_535, b"http://a/", 4_096, "-", 1_000, "-"
    yield "build_bytes", 16, b"u:" + LARGE, 4_096, "-"
    yield "scratch_build", 300_000, 16, b"http://a/", 4_096, "-"


def rewriting() -> Iterator[Request]:
    """Files that are rewritten, without the strings that no triple uses too."""
    unused = reference.loose([(b"u:a", b"u:p", b"u:b")], [b"u:a", b"u:x"], [b"u:p", b"u:q"], [b"u:b", b"u:c", b"u:x"])
    for data in (OF_THREE, unused.data):
        yield "file", data
        yield "rewrite_bytes", 16, b"http://a/"
        yield "rewrite_bytes", 1, b""
        yield "rewrite_bytes", 0, b""
        for block_size in (16, 1, 0):
            yield "is_canonical", block_size
        yield "rewrite", 16, b"http://a/", *WRITER
        for fails in ("0", "1", "2:interrupted", "3:zero", "@170"):
            yield "rewrite", 1, b"http://a/", 50, fails
    yield "rewrite_fault_text", "bad_options"
    yield "rewrite_fault_text", "write", 5
    yield "rewrite_fault_text", "out_of_memory"


def large_rewriting() -> Iterator[Request]:
    """A file of 3,000 triples, and one of many strings in one block of which the most are unused."""
    yield "file", of_document(numbered(3_000))
    yield "is_canonical", 16
    yield "rewrite_bytes", 7, b"http://a/"
    yield "rewrite", 65_535, b"http://a/", 1_000, "-"
    yield "file", reference.loose_prefixes(1_000, 300)[0]
    yield "rewrite_bytes", 16, b"http://a/"


# The last ones are read by a word of their own too.
COMMAND_LINES = (
    ("head", "f"), ("verify", "f"), ("verify", "--tight", "f"), ("info", "f"), ("strings", "f", "object"),
    ("string", "f", "object", "3"), ("string", "f", "object", "4"), ("number", "f", "object", '"x"'),
    ("find", "f", "?", "<u:p>", "?"), ("find", "--numbers", "f", "?", "?", "?"),
    ("find", "--count", "f", "?", "?", "?"), ("answer", "--numbers", "f"), ("dump", "f"),
    ("number", "f", "object", "rel"), ("find", "f", "x"), ("find", "--raw", "--most", "1", "f", "u:a", "?", "?"),
    ("--help",), ("build", "--base", "u:x", "f", "g"), ("rewrite", "--block-size", "1", "f", "g"),
)


def words_of(line: Sequence[str]) -> list[bytes]:
    """A command line with the program's name."""
    return [b"hdt", *(word.encode() for word in line)]


def command_lines() -> Iterator[Request]:
    """Command lines, and the commands that they ask for."""
    yield "file", OF_THREE
    for line in COMMAND_LINES[-6:]:
        yield "parse_words", *words_of(line)
    for line in COMMAND_LINES:
        yield "run", *READER, *WRITER, *words_of(line)
    yield "parse_all_words", *words_of(["build", "--progress", "f", "g"])
    yield "parse_all_words", *words_of(["dump", "--no-progress", "f"])
    yield "table", b"subject", b"predicate", b"object", *words_of(["dump", "f"])
    yield "table", b"subject", b"predicate", b"object", *words_of(["summon"])
    yield "run", *READER, 5, 2, *words_of(["dump", "f"])
    yield "run", 7, 50, *WRITER, *words_of(["dump", "f"])
    yield "run", 1, "9:interrupted", 1, "9:interrupted", *words_of(["dump", "f"])
    yield "run", 7, "-", 5, "@30:zero", *words_of(["strings", "f", "object"])
    yield "run_in", 100, *READER, *WRITER, *words_of(["dump", "f"])
    yield "run_made", BEFORE, *READER, *WRITER, *words_of(["rewrite", "f", "g"])
    yield "run_made", BEFORE, *READER, 5, 2, *words_of(["rewrite", "f", "g"])


LONGEST = 1 << 20


def dialogues() -> Iterator[Request]:
    """Requests that are answered, and the lines of errors."""
    yield "file", OF_THREE
    for form in range(6):
        yield "answer_requests", form, "-", 0, LONGEST, *READER, *WRITER, DIALOGUE
        yield "answer_requests", form, 1, 1, LONGEST, *READER, *WRITER, b"u:a\t?\t?\n?\t?\tu:z\n"
    for fails in ("0", "2", "9", "3:interrupted", "@40:zero"):
        yield "answer_requests", 0, "-", 0, LONGEST, *READER, 5, fails, DIALOGUE
    for fails in ("0", "20", "30", "20:interrupted", "20:zero"):
        yield "answer_requests", 0, "-", 0, LONGEST, 7, fails, *WRITER, DIALOGUE
    yield "answer_requests", 0, "-", 0, 5, *READER, *WRITER, DIALOGUE
    yield "answer_file", 0, "-", 0, LONGEST, 100, *READER, *READER, *WRITER, DIALOGUE
    yield "fault_line", "file", 34, 2 ** 64 - 1
    yield "fault_line", "input", 4, 2, 13
    for fault in ("no_triples", "no_such_term", "no_such_number", "bad_options", "read", "memory"):
        yield "fault_line", fault
    yield "fault_line", "not_a_term", 1, 2 ** 64 - 1
    yield "fault_line", "write", 5
    yield "usage_line", "usage", b"text"
    yield "usage_line", "help", b"text"
    for word in range(4):
        yield "usage_line", "word", word, 1, 2 ** 64 - 1
    yield "usage_line", "memory"


def large_command() -> Iterator[Request]:
    """The commands on a file of 1,000 triples, and on a document with a literal of 100,000 bytes."""
    yield "file", of_document(numbered(1_000))
    for line in (("verify", "f"), ("strings", "f", "object"), ("dump", "f"), ("rewrite", "f", "g")):
        yield "run", 4_096, "-", 1_000, "-", *words_of(line)
    yield "answer_requests", 0, "-", 0, LONGEST, 4_096, "-", 1_000, "-", b"<http://a/1> ? ?\n" * 100
    yield "file", b'<u:a> <u:p> "' + LARGE + b'" .\n'
    yield "run_made", BEFORE, 4_096, "-", 1_000, "-", *words_of(["build", "f", "g"])


GROUPS: tuple[Callable[[], Iterator[Request]], ...] = (
    wire, large_wire, numbers, bits, large_bits,
    section, errors_of_sections, section_of_long_strings, section_of_many_strings,
    dictionary, large_dictionary, triples, large_triples,
    terms, large_terms, lines, large_lines, whole_document,
    opening, searching, errors_of_files, large_graph, long_strings,
    building, large_building, rewriting, large_rewriting,
    command_lines, dialogues, large_command,
)
