/* hdt.h: a proved engine for RDF HDT files that are in memory.
 *
 * Link with libhdt, with the flags that `pkg-config --cflags --libs hdt` prints after `make install`, and with an rpath if the
 * system doesn't search that folder (docs/C.md). The library allocates with malloc, realloc and free of your program. No call
 * prints, aborts, exits, waits or starts a thread, and the library has no global state.
 *
 * Ownership.
 * - The bytes that you pass are yours. A call reads them while it runs; only hdt_open keeps their address: keep them in
 *   place and unchanged until hdt_close has returned for each handle of the graph (hdt_share makes more of them). If
 *   the bytes are those of a mapped file that is truncated, the next access ends the process (SIGBUS). So replace a
 *   file in use by rename, or read it into memory.
 * - An hdt_graph, which is a handle of a graph, and an hdt_bytes are your storage. Initialize each with HDT_GRAPH_INIT
 *   or HDT_BYTES_INIT, or with zero bytes. Don't copy them or write their fields. What they point to belongs to the
 *   library until hdt_close or hdt_free. A built file may be opened where it is; then close every handle of its graph
 *   before you free or reuse the hdt_bytes.
 * - The arrays that results are written to (out, room) are yours. A call changes nothing in them but what its result says.
 *
 * Threads.
 * - A handle serves one call at a time, as does an hdt_bytes. To search a graph with several threads at once, open it
 *   once, give each thread a handle of its own with hdt_share, and keep the handles apart (hdt_thread_graph). No lock
 *   is needed then.
 * - A handle or an hdt_bytes may go from thread to thread: by the start of a thread, by its join, under a lock, or by
 *   an atomic variable in sequentially consistent order. Any thread may close it.
 * - Bytes and patterns are only read: calls may share them at the same time.
 *
 * What you must ensure, since nothing checks it: no pointer is null, even for zero bytes or in a part of a pattern that is not a
 * string (use any address: data() of an empty C++ vector may be null, and so may `at` of an empty hdt_bytes); arrays have the room that
 * you state, and the alignment of their type; parameters don't overlap, except for two that are only read, so the input is not in
 * `out`; no call is made in a signal handler, or in the forked child of a process with threads.
 *
 * What is checked: the bytes of files, texts and strings, whatever they are; graphs that are not open (HDT_CLOSED, HDT_IS_CLOSED)
 * or, where a call opens one, already open (HDT_IS_OPEN); roles above 2 and IDs that no string has (HDT_ABSENT); block sizes, base IRIs and numbers
 * of parts (HDT_BAD_OPTIONS); running out of memory, which leaves a graph as it was. A part of a pattern with an unknown kind, or with an ID
 * that no string has, matches nothing.
 */
#ifndef HDT_H
#define HDT_H
#include <stddef.h>
#include <stdint.h>
#ifdef __cplusplus
extern "C" {
#endif

/* The version of this header, 1.4. A greater minor version has more calls; existing calls don't change as long as the
 * library is libhdt.so.1. */
#define HDT_VERSION_MAJOR 1
#define HDT_VERSION_MINOR 4

/* Reasons: 0 for success; 1 to 34 for the first error of a file (docs/FORMAT.md); 1 to 9 for the first error of a text
 * (docs/NTRIPLES.md); and these: */
enum {
    HDT_DONE = 0,
    HDT_NOT_A_TERM = 250,   /* calls that make a text: a string of the graph is not a term of N-Triples in its role;
                             * hdt_term: no term has the string */
    HDT_NO_TRIPLES = 251,   /* hdt_build: the text has no triples, so no file is built; hdt_merge, hdt_merge_with: there
                             * are no graphs */
    HDT_BAD_OPTIONS = 252,  /* hdt_build, hdt_merge, hdt_merge_with, hdt_rewrite: the block size isn't 1 to 65535, or the
                             * base is not an absolute IRI; hdt_merge_with: blank_nodes is neither of its values;
                             * hdt_split: the number of parts isn't 1 to 65536 */
    HDT_IS_CLOSED = 253,    /* hdt_merge, hdt_merge_with, hdt_share, hdt_text, hdt_pattern_text, hdt_page_text: a graph
                             * isn't open */
    HDT_IS_OPEN = 254,      /* hdt_open, hdt_share: the handle that is to be opened is open already, and is unchanged */
    HDT_OUT_OF_MEMORY = 255 /* out of memory: the input may be valid or not; the call may be made again */
};

/* Results of calls that return a uint64_t, if it is not a count, an ID or a length. Those are always smaller, so `>= HDT_CLOSED`
 * finds all three. */
#define HDT_ABSENT UINT64_MAX          /* no such role, ID or string */
#define HDT_NO_MEMORY (UINT64_MAX - 1) /* out of memory */
#define HDT_CLOSED (UINT64_MAX - 2)    /* the graph isn't open */

/* The reasons of a file, by their names in docs/FORMAT.md, */
enum {
    HDT_FILE_TRUNCATED = 1, HDT_FILE_OVERLONG_NUMBER = 2, HDT_FILE_NUMBER_TOO_LARGE = 3, HDT_FILE_NOT_HDT = 4,
    HDT_FILE_WRONG_KIND = 5, HDT_FILE_CHECK16 = 6, HDT_FILE_WRONG_FORMAT = 7, HDT_FILE_HEADER_LENGTH = 8,
    HDT_FILE_TRIPLE_ORDER = 9, HDT_FILE_CHECK8 = 10, HDT_FILE_CHECK32 = 11, HDT_FILE_SEQUENCE_KIND = 12,
    HDT_FILE_WIDTH = 13, HDT_FILE_BITS_KIND = 14, HDT_FILE_SECTION_KIND = 15, HDT_FILE_BLOCK_SIZE = 16,
    HDT_FILE_BLOCK_COUNT = 17, HDT_FILE_BLOCK_PLACE = 18, HDT_FILE_PREFIX_TOO_LONG = 19, HDT_FILE_PACKED_LENGTH = 20,
    HDT_FILE_NOT_UTF8 = 21, HDT_FILE_STRINGS_NOT_ASCENDING = 22, HDT_FILE_SECTIONS_OVERLAP = 23,
    HDT_FILE_NO_TRIPLES = 24, HDT_FILE_LENGTHS_DIFFER = 25, HDT_FILE_LAST_MARK = 26, HDT_FILE_MARK_COUNT = 27,
    HDT_FILE_SUBJECT_RANGE = 28, HDT_FILE_PREDICATE_RANGE = 29, HDT_FILE_OBJECT_RANGE = 30,
    HDT_FILE_PREDICATES_NOT_ASCENDING = 31, HDT_FILE_OBJECTS_NOT_ASCENDING = 32, HDT_FILE_TRAILING_BYTES = 33,
    HDT_FILE_UNUSED = 34 /* only of hdt_verify_tight */
};

/* and those of a text, by their names in docs/NTRIPLES.md. hdt_build and hdt_split report neither HDT_TEXT_READ nor
 * HDT_TEXT_OUT_OF_MEMORY. */
enum {
    HDT_TEXT_SYNTAX = 1, HDT_TEXT_NOT_UTF8 = 2, HDT_TEXT_BAD_ESCAPE = 3, HDT_TEXT_RELATIVE_IRI = 4,
    HDT_TEXT_IRI_CHARACTER = 5, HDT_TEXT_ZERO_CHARACTER = 6, HDT_TEXT_READ = 7, HDT_TEXT_OUT_OF_MEMORY = 8,
    HDT_TEXT_TOO_LONG = 9
};

enum { HDT_SUBJECT = 0, HDT_PREDICATE = 1, HDT_OBJECT = 2 };

/* hdt_merge_with: a blank node label in two graphs is one node, or one node in each. */
enum { HDT_BLANK_NODES_ONE = 0, HDT_BLANK_NODES_APART = 1 };

/* The result of checking a file. */
typedef struct {
    uint32_t reason;    /* HDT_DONE if the file is valid, else the first error or a general reason */
    uint64_t place;     /* the byte offset of the file's error; 0 with any other reason */
    uint64_t counts[5]; /* triples; strings that are shared, subjects only, predicates, objects only; 0 without HDT_DONE */
} hdt_verdict;

/* The result of building a file. */
typedef struct {
    uint32_t reason;    /* HDT_DONE if it was built, else the first error of the text or a general reason */
    uint64_t line;      /* the line of the text's error, from 1; 0 with any other reason */
    uint64_t column;    /* its column, in bytes of the line, from 1; 0 if the error has none */
    uint64_t counts[5]; /* as in a verdict: of the file that was built */
} hdt_report;

/* The result of splitting a text. */
typedef struct {
    uint32_t reason;          /* HDT_DONE if it was split, else the first error of the text or a general reason */
    uint32_t has_blank_nodes; /* 1 if the subject or the object of a triple is a blank node, else 0; 0 without HDT_DONE */
    uint64_t line;            /* as in a report */
    uint64_t column;          /* as in a report */
    uint64_t lines;           /* the number of lines of the text, with those without a triple; 0 without HDT_DONE */
    uint64_t triples;         /* the number of lines with a triple; 0 without HDT_DONE */
} hdt_split_report;

/* The result of making a text of a graph. */
typedef struct {
    uint32_t reason; /* HDT_DONE, HDT_NOT_A_TERM, HDT_IS_CLOSED, HDT_OUT_OF_MEMORY */
    uint32_t role;   /* HDT_NOT_A_TERM: the role of the string, else 0 */
    uint64_t number; /* HDT_NOT_A_TERM: its ID in that role, else 0 */
} hdt_text_result;
typedef hdt_text_result hdt_telling; /* its name in earlier copies of this header */

/* A handle of a graph: state is 1 if it is open, else 0. */
typedef struct {
    uint64_t state;
    void *at;
} hdt_graph;
#define HDT_GRAPH_INIT {0, NULL}

/* A handle for one of several threads: pass `&handle.graph` to the calls. Each call writes its handle, so threads whose
 * handles lie in one cache line of 64 bytes slow each other down, cheap calls several times. Handles of this type never
 * do, wherever they are: in an array, in allocated memory or in another struct. */
typedef union {
    hdt_graph graph;
    uint8_t apart[128]; /* room that isn't used */
} hdt_thread_graph;
#define HDT_THREAD_GRAPH_INIT {HDT_GRAPH_INIT}

/* What a part of a pattern gives. */
enum { HDT_ANY = 0, HDT_ID = 1, HDT_STRING = 2 };

/* The subject, the predicate or the object of a pattern: any, one ID, or one string. */
typedef struct {
    uint32_t kind;         /* HDT_ANY, HDT_ID or HDT_STRING. With any other number the pattern matches nothing. */
    uint64_t id;           /* HDT_ID: the ID in the role, from 1. With one that the role doesn't have, the pattern matches
                            * nothing. With another kind it isn't read. */
    const uint8_t *string; /* HDT_STRING: the dictionary string, as of hdt_number. With another kind it isn't read, but */
    size_t len;            /* may not be null, and has `len` bytes: HDT_PATTERN_INIT makes it so. */
} hdt_part;

/* A triple pattern. Set the parts that you want after `hdt_pattern pattern = HDT_PATTERN_INIT;`, which gives any in
 * each role. */
typedef struct {
    hdt_part s, p, o; /* subject, predicate, object */
} hdt_pattern;
#define HDT_PART_INIT {HDT_ANY, 0, (const uint8_t *)"", 0}
#define HDT_PATTERN_INIT {HDT_PART_INIT, HDT_PART_INIT, HDT_PART_INIT}

/* The kinds of terms. */
enum {
    HDT_NO_TERM = 0,
    HDT_IRI = 1,     /* an IRI */
    HDT_BLANK = 2,   /* a blank node */
    HDT_LITERAL = 3, /* a literal without a suffix, whose datatype is xsd:string */
    HDT_TAGGED = 4,  /* a literal with a language tag */
    HDT_TYPED = 5    /* a literal with a datatype */
};

/* A term, as parts of its dictionary string. Offsets and lengths are in bytes, offsets from 0. */
typedef struct {
    uint32_t kind;       /* HDT_IRI to HDT_TYPED; HDT_NO_TERM if there is no term */
    uint64_t at;         /* where the IRI, the label (after `_:`) or the text (after the quote) begins; else 0 */
    uint64_t len;        /* its length; else 0 */
    uint64_t suffix_at;  /* HDT_TAGGED, HDT_TYPED: where the language tag or the IRI of the datatype begins; else 0 */
    uint64_t suffix_len; /* its length; else 0 */
} hdt_term_parts;

/* Two ranges of IDs, each from its first number to before its second one. Each may be empty. */
typedef struct {
    uint64_t first[2];  /* IDs of strings that are both subjects and objects; of predicates */
    uint64_t second[2]; /* IDs of the other subjects or objects, which are greater; empty for predicates */
} hdt_ranges;

/* Bytes that the library made: `len` bytes from `at`, without a zero byte after them; if len is 0, `at` may be any address. State is 1
 * if hdt_free has something to free, which may be an empty text; if it is 0, len is 0, too. A call that makes bytes first frees
 * those that `out` had, even if it fails. */
typedef struct {
    const uint8_t *at;
    uint64_t len;
    uint64_t state;
    void *kept;
} hdt_bytes;
#define HDT_BYTES_INIT {NULL, 0, 0, NULL}

/* Checks a whole file: its counts, or its first error. HDT_OUT_OF_MEMORY. Linear time. */
void hdt_verify(const uint8_t *bytes, size_t len, hdt_verdict *verdict);

/* Verifies a file as hdt_verify does, but a string of the dictionary that no triple uses in the role of its section is
 * an error too: a subject, predicate or object of no triple, or a shared string that is not both a subject and an
 * object. A file with no other error has HDT_FILE_UNUSED at the byte offset of the first such string.
 * HDT_OUT_OF_MEMORY. Time is linear in the bytes, memory in the triples and strings; all of it is freed. */
void hdt_verify_tight(const uint8_t *bytes, size_t len, hdt_verdict *verdict);

/* Checks a file as hdt_verify does and opens it. The graph is open only with HDT_DONE; with any other reason it is unchanged.
 * HDT_IS_OPEN. Time and memory are linear in the file: the call builds indexes. */
void hdt_open(const uint8_t *bytes, size_t len, hdt_graph *graph, hdt_verdict *verdict);

/* Closes a handle. With its last handle a graph is freed, and the bytes of the file are no longer read. Does nothing if
 * the handle isn't open. */
void hdt_close(hdt_graph *graph);

/* Opens `other`, a closed handle, as one more handle of the graph that `graph` has. Every call answers the same with
 * either, and different threads may use them at the same time. Handles are closed in any order, in any thread: the
 * graph is freed with the last one, and until then the bytes of the file stay in place and unchanged. Returns HDT_DONE;
 * or HDT_IS_OPEN (`other` is open already), HDT_IS_CLOSED (`graph` isn't open) or HDT_OUT_OF_MEMORY; then both are
 * unchanged. Constant time; a handle takes one allocation of 32 bytes and copies nothing of the graph. */
uint32_t hdt_share(hdt_graph *graph, hdt_graph *other);

/* The number of triples. HDT_CLOSED. Constant time. */
uint64_t hdt_len(hdt_graph *graph);

/* The number of strings that a role has; their IDs are 1 to this. HDT_ABSENT (no such role), HDT_CLOSED. Constant time. */
uint64_t hdt_count(hdt_graph *graph, uint32_t role);

/* The ID of a string in a role, from 1. The string is a dictionary string: an IRI without brackets, a blank node with `_:`, or a
 * literal with its quotes and without escapes, followed by nothing, `@` and a tag, or `^^<`, a datatype and `>` (docs/NTRIPLES.md,
 * "Dictionary strings"). HDT_ABSENT (no such role or string), HDT_CLOSED. A binary search, and a scan of one block. */
uint64_t hdt_number(hdt_graph *graph, uint32_t role, const uint8_t *string, size_t len);

/* The string with an ID in a role. Writes its first `room` bytes to out (0 if you want the length alone), without a zero byte after
 * them, and returns its length. HDT_ABSENT (no such role or ID), HDT_NO_MEMORY, HDT_CLOSED; then out is unchanged. Each call decodes
 * a block up to the string; hdt_strings is for many. */
uint64_t hdt_string(hdt_graph *graph, uint32_t role, uint64_t number, uint8_t *out, size_t room);

/* The strings with these IDs in a role, in their order. `out` has them one after another, without zero bytes between them, and the
 * result is their total length. Writes to ends where each one ends, in bytes from the start of out: those of the first `room`
 * strings (`count` for all). HDT_ABSENT (no such role, or an ID is not 1 to hdt_count), HDT_NO_MEMORY, HDT_CLOSED; then out has
 * nothing and ends is unchanged. IDs that ascend, also with repeats, take at most time in proportion to the strings up to the last
 * one, since each block is decoded once. In any other order each ID may decode its block, so sort them. */
uint64_t hdt_strings(hdt_graph *graph, uint32_t role, const uint64_t *numbers, size_t count, hdt_bytes *out, uint64_t *ends,
                     size_t room);

/* The IDs of the strings of a role that begin with a prefix, which may be any bytes. An empty prefix gives all IDs. Writes them as
 * two ranges, and returns how many IDs they have. HDT_ABSENT (no such role), HDT_CLOSED; then ranges is unchanged. Takes at
 * most twice the time of hdt_number. */
uint64_t hdt_prefix(hdt_graph *graph, uint32_t role, const uint8_t *prefix, size_t len, hdt_ranges *ranges);

/* The header of the file: N-Triples as a rule, but nothing checks it. Writes its first `room` bytes to out, as hdt_string does, and
 * returns its length. HDT_CLOSED. */
uint64_t hdt_header(hdt_graph *graph, uint8_t *out, size_t room);

/* The triples that have each given string in its role. If has_s is 0, any subject matches, and s isn't read (but may not be null);
 * so for p and o. Writes the matches after the first `skip` ones to out, at most `room`, in the order of the file (by subject,
 * predicate, object), each as its three IDs. Returns how many: fewer than `room` if there are no more. If nothing is given, or s, or
 * s and p, or only o, the first match to write is found without the skipped ones. Otherwise each call scans those, so pages of one
 * size take quadratic time: use hdt_page. HDT_CLOSED, never a number of triples. */
uint64_t hdt_find(hdt_graph *graph, uint32_t has_s, const uint8_t *s, size_t s_len, uint32_t has_p, const uint8_t *p, size_t p_len,
                  uint32_t has_o, const uint8_t *o, size_t o_len, uint64_t skip, uint64_t (*out)[3], size_t room);

/* The number of triples that match. HDT_CLOSED. Takes at most the time to find them. */
uint64_t hdt_matching(hdt_graph *graph, uint32_t has_s, const uint8_t *s, size_t s_len, uint32_t has_p, const uint8_t *p,
                      size_t p_len, uint32_t has_o, const uint8_t *o, size_t o_len);

/* The triples that match as N-Triples, a line each, in the order of the file. With HDT_DONE out has the text, which is empty if
 * nothing matches; else it has nothing. HDT_NOT_A_TERM, with the role and ID of the first such string of the first such triple;
 * HDT_IS_CLOSED, HDT_OUT_OF_MEMORY. Time is at most linear in the text and the file together. */
void hdt_text(hdt_graph *graph, uint32_t has_s, const uint8_t *s, size_t s_len, uint32_t has_p, const uint8_t *p, size_t p_len,
              uint32_t has_o, const uint8_t *o, size_t o_len, hdt_bytes *out, hdt_text_result *outcome);

/* hdt_find, hdt_matching and hdt_text for a pattern whose parts are strings, IDs or any. An ID needs no look-up, so a join uses the
 * IDs that another call has written to its `out`. A string that its role doesn't have matches nothing. The errors are those of
 * hdt_find, hdt_matching and hdt_text. */
uint64_t hdt_pattern_find(hdt_graph *graph, const hdt_pattern *pattern, uint64_t skip, uint64_t (*out)[3], size_t room);
uint64_t hdt_pattern_matching(hdt_graph *graph, const hdt_pattern *pattern);
void hdt_pattern_text(hdt_graph *graph, const hdt_pattern *pattern, hdt_bytes *out, hdt_text_result *outcome);

/* A page of the matches of a pattern, in the order of the file. `from` and `next` are indexes of triples of the file,
 * counted from 0, not of matches. Writes the first matches from triple `from` on to out, as many as fit, and returns their
 * number. `next` is the index of the next match, from which the next page goes on, or HDT_ABSENT if there is none; 0 and
 * 1,000 as `from` and `room`, then each `next` as `from`, give all matches once, in pages of 1,000. With `room` 0 `next`
 * is the first match from `from` on, so a loop needs a room of at least 1. From the number of triples on there is none.
 * Each page is found by binary search, so pages of one size take time in proportion to the matches. HDT_NO_MEMORY,
 * HDT_CLOSED; then out is unchanged, and `next` is HDT_ABSENT. Memory of the size of the page, which is freed. */
uint64_t hdt_page(hdt_graph *graph, const hdt_pattern *pattern, uint64_t from, uint64_t (*out)[3], size_t room,
                  uint64_t *next);

/* The N-Triples text of a page: a line for each of the first `most` matches of a pattern from triple `from` on, as of
 * hdt_text. `from` and `next` are as of hdt_page; with `most` 0 there is no line, and `next` is the first match. A page with a string
 * that is no term in its role has no text: HDT_NOT_A_TERM, with the role and number of the first such string of the first
 * such match, as of hdt_text. HDT_OUT_OF_MEMORY, HDT_IS_CLOSED. With any reason but HDT_DONE out has nothing, and `next` is
 * HDT_ABSENT. The page is found as by hdt_page; then time is in proportion to the page, its text and the blocks of its
 * strings, or to all strings if that is less. Memory of the size of the page and its text, and for a page that decodes
 * all strings one byte for each; all but the text is freed. */
void hdt_page_text(hdt_graph *graph, const hdt_pattern *pattern, uint64_t from, uint64_t most, hdt_bytes *out,
                   uint64_t *next, hdt_text_result *outcome);

/* The number of triples of each predicate: counts[0] is that of the predicate with ID 1, and so on. Writes the counts
 * of the first `room` predicates at most, and returns how many predicates there are, as hdt_count does. HDT_CLOSED;
 * then counts is unchanged. Each count costs what hdt_pattern_matching does for that predicate; all of them together
 * take time in proportion to the pairs of a subject and a predicate, times the logarithm of their number. */
uint64_t hdt_predicates(hdt_graph *graph, uint64_t *counts, size_t room);

/* Builds the canonical file of the graph of an N-Triples text. `block_size` is the number of strings in a block, 1 to 65535 (16 is
 * usual); the base is the absolute IRI that names the file in its header. With HDT_DONE out has the file, else nothing.
 * HDT_BAD_OPTIONS, before the text is read; the first error of the text, by line and column; HDT_NO_TRIPLES, HDT_OUT_OF_MEMORY.
 * Linear time, except for sorting. */
void hdt_build(const uint8_t *text, size_t len, const uint8_t *base, size_t base_len, uint32_t block_size, hdt_bytes *out,
               hdt_report *report);

/* Splits an N-Triples text by subject, so that all triples of a subject are in one part: the part of a triple is the CRC-32 (that of
 * gzip) of its subject's dictionary string, modulo `parts`, which is 1 to 65536. With HDT_DONE out has the texts of the parts, from
 * part 0, one after another; else it has nothing. The text of a part is the lines with its triples, as they are and with their ends,
 * in their order; a last line without an end gets a line feed. Lines without a triple are left out. If the prefix has bytes, they are
 * put before each label of a blank node (after `_:`), before its part is computed; nothing checks that they may be in a label. Writes
 * to ends where each part ends, in bytes from the start of out: those of the first `room` parts (`parts` for all); with any reason
 * but HDT_DONE ends is unchanged. A text without triples is split into empty parts. HDT_BAD_OPTIONS; the first error of the text, by
 * line and column, as hdt_build reports it; HDT_OUT_OF_MEMORY. Linear time; memory of some three times the size of the result, and 100
 * bytes for each part, all of which is freed but out. */
void hdt_split(const uint8_t *text, size_t len, uint32_t parts, const uint8_t *prefix, size_t prefix_len, hdt_bytes *out,
               uint64_t *ends, size_t room, hdt_split_report *report);

/* Rewrites a file as the canonical file of the same triples, with the same header and without unused strings. `block_size` is the
 * number of strings in a block, 1 to 65535. With HDT_DONE out has the new file, and the verdict its counts; else out has nothing, and
 * the verdict is that of hdt_verify or, for a valid file, HDT_BAD_OPTIONS or HDT_OUT_OF_MEMORY. Linear time, except for sorting the
 * triples if the order of the IDs changes. */
void hdt_rewrite(const uint8_t *bytes, size_t len, uint32_t block_size, hdt_bytes *out, hdt_verdict *verdict);

/* Replaces the header of a file by N-Triples about the graph, as they are: a title, a licence. All other bytes stay, but the header's
 * length and the CRC over it: nothing is encoded again. The header may be empty. With HDT_DONE in both the verdict and the report, out
 * has the new file, and both have its counts; else out has nothing. The verdict has the reason and the place of hdt_verify. If it is
 * HDT_DONE, the report has the first error of the header, by line and column, as hdt_build reports it. HDT_OUT_OF_MEMORY is in both. Linear time; memory
 * of the new file, and that of hdt_build for the triples of the header, which is freed. */
void hdt_with_header(const uint8_t *bytes, size_t len, const uint8_t *header, size_t header_len, hdt_bytes *out,
                     hdt_verdict *verdict, hdt_report *report);

/* Merges the graphs of an array of `count` open handles: makes the canonical file of all their triples, each once. The
 * order of the handles makes no difference, and a blank node label in two files is one node, as in one document.
 * Strings that no triple uses are left out. The options are those of hdt_build, and the file has none of the old
 * headers. To merge a graph whose handle is elsewhere, or is another thread's, open a handle of the array by hdt_share.
 * With HDT_DONE out has the file, and the report its counts; else out has nothing. HDT_IS_CLOSED if a handle isn't open,
 * before anything is merged; HDT_NO_TRIPLES only if `count` is 0; HDT_BAD_OPTIONS, which is found last;
 * HDT_OUT_OF_MEMORY. The graphs stay as they are. Time is linear in the graphs, with their strings decoded, except for
 * sorting; the strings of a hostile file of n bytes can have up to n * n / 4. Memory is linear in the graphs: the strings
 * of each, front-coded, with 24 bytes each, and once more the distinct ones; 5 to 9 bytes for each triple of each graph,
 * and as much for sorting, with 24 MB; 8 bytes for each string of one graph at a time; and the file. All of it is freed
 * but out. */
void hdt_merge(hdt_graph *graphs, size_t count, const uint8_t *base, size_t base_len, uint32_t block_size, hdt_bytes *out,
               hdt_report *report);

/* Merges graphs as hdt_merge does, and says by `blank_nodes` what their blank nodes are. With HDT_BLANK_NODES_ONE it is
 * hdt_merge. With HDT_BLANK_NODES_APART no blank node of one graph is a blank node of another: in the new file the labels
 * of graphs[0] begin with `f0_`, those of graphs[1] with `f1_`, and so on. So the order of the handles makes a difference,
 * as do two handles of one graph. These are the bytes that `hdt merge --blank-nodes apart` writes. Each string that begins
 * with `_:` gets the prefix, in any role, and no other string. With any other value HDT_BAD_OPTIONS is found first. Other
 * errors, time and memory are those of hdt_merge. */
void hdt_merge_with(hdt_graph *graphs, size_t count, uint32_t blank_nodes, const uint8_t *base, size_t base_len,
                    uint32_t block_size, hdt_bytes *out, hdt_report *report);

/* The term with a dictionary string, as hdt_string and hdt_strings give it: its kind, and which bytes of the string are
 * its text and its language tag or datatype. Nothing in them is escaped. To write it as N-Triples, escape `\`, `"`, LF and CR
 * in a literal, and in an IRI the characters that N-Triples excludes, as \u and 4 digits (docs/NTRIPLES.md, "Writing"); hdt_page_text
 * does it for triples. No call parses a term of N-Triples. Returns HDT_DONE; or HDT_NOT_A_TERM if no term
 * has this string, as a relative IRI, or HDT_OUT_OF_MEMORY; then all of `parts` is 0. An IRI may have characters that
 * N-Triples excludes. Linear time; memory of that size, which is freed. */
uint32_t hdt_term(const uint8_t *string, size_t len, hdt_term_parts *parts);

/* The dictionary string of a term: the inverse of hdt_term. The text is the IRI, the label without `_:`, or the text of
 * a literal; the suffix is the language tag without `@` or the IRI of the datatype without `<` and `>`, and is not read
 * with another kind (but may not be null). For the datatype xsd:string use HDT_LITERAL: files that are built never have
 * it with HDT_TYPED. Writes the first bytes of the string to out as hdt_string does, and returns
 * its length. HDT_ABSENT if there is no such term: the kind is none of HDT_IRI to HDT_TYPED, or a text is not of that
 * kind, as a relative IRI or a tag with a space; HDT_NO_MEMORY; then out is unchanged. Linear time; memory of that
 * size, which is freed. */
uint64_t hdt_term_string(uint32_t kind, const uint8_t *text, size_t len, const uint8_t *suffix, size_t suffix_len,
                         uint8_t *out, size_t room);

/* The version of the library: its major number times 65536, plus its minor number. */
uint32_t hdt_version(void);

/* The name of a reason of a file (HDT_FILE_..) as in docs/FORMAT.md, or of a text (HDT_TEXT_..) as in docs/NTRIPLES.md,
 * in ASCII. Writes its first bytes to out as hdt_string does, with no zero byte after them, and returns its length,
 * which is below HDT_NAME_ROOM. HDT_ABSENT if no reason has this number, as 0 and the general ones, 250 to 255; then out is unchanged. So
 * this is a C string, which is empty if there is no name:
 *
 *     uint8_t name[HDT_NAME_ROOM] = {0};
 *     hdt_reason_name(verdict.reason, name, sizeof name - 1);
 */
#define HDT_NAME_ROOM 32
uint64_t hdt_reason_name(uint32_t reason, uint8_t *out, size_t room);
uint64_t hdt_text_reason_name(uint32_t reason, uint8_t *out, size_t room);

/* Frees bytes and sets the fields to zero. Does nothing if there are none. */
void hdt_free(hdt_bytes *bytes);

#ifdef __cplusplus
}
#endif
#endif
