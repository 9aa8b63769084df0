/* test [--small|--each] FILE..: tests the C library over these files, HDT files or none, and over what it builds itself, or
 * with --small nothing large; with --each over files that each hold many. The last line is 'N passed, M failed'; the status
 * is 1 where one failed. tests/test_c.py builds it, with malloc, realloc and free wrapped.
 *
 * Bytes that the library reads, and room that it writes, end where a page begins that nobody may touch: a look past the end
 * is a crash.
 */
#define _GNU_SOURCE
#include "hdt.h"
#include "test_memory.h"
#include <pthread.h>
#include <stdio.h>
#include <stdlib.h>
#include <string.h>

static long checks, failed_checks, passed, failed; /* the last two count cases: a file, or what is built of a document */
static const char *current = "";

static int check(int holds, const char *what, int line) {
    checks++;
    if (!holds && failed_checks++ < 50) {
        printf("FAILED %s: line %d: %s\n", current, line, what);
    }
    return holds;
}
#define CHECK(holds) check((holds) ? 1 : 0, #holds, __LINE__)

/* Ends a case: it has passed if all its checks hold. */
static void end_case(void) {
    static long before;
    passed += failed_checks == before;
    failed += failed_checks != before;
    before = failed_checks;
}

/* ---- patterns */

static const hdt_pattern any = HDT_PATTERN_INIT;

/* The flag of a part for the calls with nine parameters: any number but 0. */
static uint32_t has(const hdt_part *part) { return part->kind == HDT_STRING ? 1u << part->len % 32 : 0; }
#define GIVEN(q) has(&(q)->s), (q)->s.string, (q)->s.len, has(&(q)->p), (q)->p.string, (q)->p.len, has(&(q)->o), (q)->o.string, (q)->o.len

static hdt_part *part_of(hdt_pattern *pattern, uint64_t role) { return role == 0 ? &pattern->s : role == 1 ? &pattern->p : &pattern->o; }

/* A part that gives a string. */
static hdt_part given_string(const uint8_t *string, size_t len) {
    hdt_part part = {HDT_STRING, 7, NULL, 0};
    part.string = string;
    part.len = len;
    return part;
}

static uint64_t find(hdt_graph *graph, const hdt_pattern *given, uint64_t skip, uint64_t (*out)[3], size_t room) {
    return hdt_find(graph, GIVEN(given), skip, out, room);
}

static uint64_t lines_of(const hdt_bytes *text) {
    uint64_t i, lines = 0;
    for (i = 0; i < text->len; i++) {
        lines += text->at[i] == '\n';
    }
    return lines;
}

static const uint8_t base[] = "http://a/";

static int same_verdict(const hdt_verdict *a, const hdt_verdict *b) {
    return a->reason == b->reason && a->place == b->place && memcmp(a->counts, b->counts, sizeof a->counts) == 0;
}

static int has_nothing(const hdt_bytes *bytes) { return bytes->len == 0 && bytes->state == 0; }

static int is_zeroed(const hdt_graph *graph) { return graph->state == 0 && graph->at == NULL; }

/* ---- terms */

static int no_parts(const hdt_term_parts *parts) { return parts->kind == HDT_NO_TERM && parts->at == 0 && parts->len == 0 && parts->suffix_at == 0 && parts->suffix_len == 0; }

/* The parts of a string, and back: with room for all, for all but one byte, and for none. */
static uint32_t term_of(const uint8_t *string, size_t len, hdt_term_parts *parts) {
    uint32_t kind, reason = hdt_term(string, len, parts);
    uint8_t none = 0xAA;
    const uint8_t *text = string + parts->at, *suffix = string + parts->suffix_at;
    guarded room = guard(len + 1);
    if (reason != HDT_DONE) {
        CHECK(reason == HDT_NOT_A_TERM && no_parts(parts));
        let_go(&room);
        return reason;
    }
    CHECK(parts->kind >= HDT_IRI && parts->kind <= HDT_TYPED && parts->at + parts->len <= len && parts->suffix_at + parts->suffix_len <= len);
    CHECK((parts->kind >= HDT_TAGGED) == (parts->suffix_at > 0));
    memset(room.at, 0xAA, room.len);
    CHECK(hdt_term_string(parts->kind, text, parts->len, suffix, parts->suffix_len, room.at, len + 1) == len);
    CHECK(memcmp(room.at, string, len) == 0 && room.at[len] == 0xAA);
    memset(room.at, 0xAA, room.len);
    CHECK(hdt_term_string(parts->kind, text, parts->len, suffix, parts->suffix_len, room.at, len - 1) == len);
    CHECK(memcmp(room.at, string, len - 1) == 0 && room.at[len - 1] == 0xAA);
    CHECK(hdt_term_string(parts->kind, text, parts->len, suffix, parts->suffix_len, &none, 0) == len && none == 0xAA);
    for (kind = 6; kind != 0; kind *= 2) {
        CHECK(hdt_term_string(kind, text, parts->len, suffix, parts->suffix_len, &none, 1) == HDT_ABSENT && none == 0xAA);
    }
    CHECK(hdt_term_string(HDT_NO_TERM, text, parts->len, suffix, parts->suffix_len, &none, 1) == HDT_ABSENT && none == 0xAA);
    let_go(&room);
    return reason;
}

/* Strings and their terms. */
static void terms(void) {
    static const struct {
        const char *string;
        uint32_t kind;
        const char *text, *suffix;
    } cases[] = {
        {"http://a/b", HDT_IRI, "http://a/b", ""},
        {"u:a b", HDT_IRI, "u:a b", ""}, /* no IRI of N-Triples, but a dictionary may have it */
        {"_:b0", HDT_BLANK, "b0", ""},
        {"\"\"", HDT_LITERAL, "", ""},
        {"\"a\"b\"", HDT_LITERAL, "a\"b", ""},
        {"\"\"@en-GB", HDT_TAGGED, "", "en-GB"},
        {"\"a\\n\xC3\xA9\"@fr", HDT_TAGGED, "a\\n\xC3\xA9", "fr"},
        {"\"1\"^^<http://www.w3.org/2001/XMLSchema#integer>", HDT_TYPED, "1", "http://www.w3.org/2001/XMLSchema#integer"},
        {"\"a\"^^<u:t>", HDT_TYPED, "a", "u:t"},
    };
    static const char *none[] = {"", "a", "a/b", "_:", "_:.", "\"", "\"a", "\"a\"@", "\"a\"@1", "\"a\"^", "\"a\"^^<t>", "\"a\"^^<u:t", "u:\xFF", "\"\xC3\""};
    static const struct {
        uint32_t kind;
        const char *text, *suffix;
    } bad[] = {
        {HDT_IRI, "a", ""},      {HDT_IRI, "\"a\"", ""},    {HDT_IRI, "_:a", ""},     {HDT_IRI, "", ""},        {HDT_BLANK, "", ""},
        {HDT_BLANK, "a b", ""},  {HDT_LITERAL, "\xFF", ""}, {HDT_TAGGED, "a", ""},     {HDT_TAGGED, "a", "e n"}, {HDT_TAGGED, "a\"@en", "1"},
        {HDT_TYPED, "a", "rel"}, {HDT_TYPED, "a", "u: "},   {HDT_TYPED, "\xFF", "u:t"}, {0, "u:a", ""},           {6, "u:a", "u:t"},
    };
    size_t i;
    long before = live;
    current = "terms";
    for (i = 0; i < sizeof cases / sizeof *cases; i++) {
        hdt_term_parts parts;
        guarded string = guarded_copy(cases[i].string, strlen(cases[i].string));
        memset(&parts, 0xAA, sizeof parts);
        if (CHECK(term_of(string.at, string.len, &parts) == HDT_DONE) && CHECK(parts.kind == cases[i].kind)) {
            CHECK(parts.len == strlen(cases[i].text) && memcmp(string.at + parts.at, cases[i].text, parts.len) == 0);
            CHECK(parts.suffix_len == strlen(cases[i].suffix) && memcmp(string.at + parts.suffix_at, cases[i].suffix, parts.suffix_len) == 0);
        }
        let_go(&string);
    }
    for (i = 0; i < sizeof none / sizeof *none; i++) {
        hdt_term_parts parts;
        guarded string = guarded_copy(none[i], strlen(none[i]));
        memset(&parts, 0xAA, sizeof parts);
        CHECK(term_of(string.at, string.len, &parts) == HDT_NOT_A_TERM);
        let_go(&string);
    }
    for (i = 0; i < sizeof bad / sizeof *bad; i++) {
        guarded text_of = guarded_copy(bad[i].text, strlen(bad[i].text)), suffix = guarded_copy(bad[i].suffix, strlen(bad[i].suffix));
        uint8_t room = 0xAA;
        CHECK(hdt_term_string(bad[i].kind, text_of.at, text_of.len, suffix.at, suffix.len, &room, 1) == HDT_ABSENT && room == 0xAA);
        let_go(&text_of);
        let_go(&suffix);
    }
    CHECK(live == before);
    end_case();
}

/* ---- names */

static void name_of(uint64_t (*call)(uint32_t, uint8_t *, size_t), uint32_t reason, const char *wanted) {
    guarded room = guard(HDT_NAME_ROOM);
    uint64_t len = strlen(wanted);
    memset(room.at, 0xAA, room.len);
    CHECK(call(reason, room.at, 0) == (len ? len : HDT_ABSENT) && room.at[0] == 0xAA);
    CHECK(call(reason, room.at, 2) == (len ? len : HDT_ABSENT) && memcmp(room.at, wanted, len < 2 ? len : 2) == 0 && room.at[2] == 0xAA);
    CHECK(call(reason, room.at, room.len) == (len ? len : HDT_ABSENT) && memcmp(room.at, wanted, len) == 0 && room.at[len] == 0xAA);
    let_go(&room);
}

static void names(void) {
    uint32_t i, k;
    current = "names";
    CHECK(hdt_version() == HDT_VERSION_MAJOR * 65536 + HDT_VERSION_MINOR);
    CHECK(sizeof(hdt_graph) == 16 && sizeof(hdt_thread_graph) == 128); /* compiled programs have the first */
    name_of(hdt_reason_name, HDT_FILE_TRUNCATED, "Truncated");
    name_of(hdt_reason_name, HDT_FILE_CHECK16, "Check16");
    name_of(hdt_reason_name, HDT_FILE_PREDICATES_NOT_ASCENDING, "PredicatesNotAscending");
    name_of(hdt_reason_name, HDT_FILE_UNUSED, "Unused");
    name_of(hdt_text_reason_name, HDT_TEXT_SYNTAX, "Syntax");
    name_of(hdt_text_reason_name, HDT_TEXT_TOO_LONG, "TooLong");
    for (i = 0; i < 300; i++) { /* a reason has a name, and no two the same one */
        uint8_t name[HDT_NAME_ROOM], other[HDT_NAME_ROOM];
        uint64_t len = hdt_reason_name(i, name, sizeof name), text_len = hdt_text_reason_name(i, other, sizeof other);
        CHECK(i >= 1 && i <= 34 ? len > 0 && len < HDT_NAME_ROOM : len == HDT_ABSENT);
        CHECK(i >= 1 && i <= 9 ? text_len > 0 && text_len < HDT_NAME_ROOM : text_len == HDT_ABSENT);
        for (k = 1; k < i && i <= 34; k++) {
            CHECK(hdt_reason_name(k, other, sizeof other) != len || memcmp(name, other, len) != 0);
        }
    }
    name_of(hdt_reason_name, UINT32_MAX, "");
    name_of(hdt_text_reason_name, UINT32_MAX, "");
    name_of(hdt_text_reason_name, HDT_OUT_OF_MEMORY, "");
    end_case();
}

/* ---- one graph, every call */

/* String n of a role, with room for all, for all but one byte, and for none; and its number. */
static void look_up(hdt_graph *graph, uint32_t role, uint64_t number) {
    uint8_t none = 0xAA;
    uint64_t i, len = hdt_string(graph, role, number, &none, 0);
    hdt_term_parts parts;
    guarded room, longer;
    if (!CHECK(len < HDT_CLOSED) || !CHECK(none == 0xAA)) {
        return;
    }
    room = guard(len);
    CHECK(hdt_string(graph, role, number, room.at, len) == len);
    CHECK(hdt_number(graph, role, room.at, len) == number);
    term_of(room.at, len, &parts);
    if (len > 0) {
        guarded less = guard(len);
        memset(less.at, 0xAA, len);
        CHECK(hdt_string(graph, role, number, less.at, len - 1) == len);
        CHECK(memcmp(less.at, room.at, len - 1) == 0 && less.at[len - 1] == 0xAA);
        let_go(&less);
    }
    longer = guard(len + 2);
    memset(longer.at, 0xAA, len + 2);
    CHECK(hdt_string(graph, role, number, longer.at, len + 2) == len);
    CHECK(memcmp(longer.at, room.at, len) == 0 && longer.at[len] == 0xAA && longer.at[len + 1] == 0xAA);
    longer.at[len] = 0xFF; /* no string has this byte */
    CHECK(hdt_number(graph, role, longer.at, len + 1) == HDT_ABSENT);
    for (i = 0; i < 3; i++) { /* a string has one number in a role, and where roles share it that is one too */
        uint64_t other = hdt_number(graph, (uint32_t)i, room.at, len);
        CHECK(i == 1 || role == 1 || other == number || other == HDT_ABSENT);
    }
    let_go(&room);
    let_go(&longer);
}

/* The strings of many numbers, which ascend or descend, against hdt_string; and numbers that no string has. */
static void strings_of(hdt_graph *graph, uint32_t role, uint64_t count) {
    const uint64_t bad[] = {0, count + 1, UINT64_MAX};
    uint64_t most = count < 300 ? count : 300, i, turn, start;
    uint64_t *numbers = malloc((most + 1) * sizeof *numbers), *ends = malloc((most + 2) * sizeof *ends);
    hdt_bytes out = HDT_BYTES_INIT;
    long before = live;
    for (turn = 0; turn < 2; turn++) {
        for (i = 0; i < most; i++) {
            numbers[i] = (turn ? most - 1 - i : i) * count / most + 1;
        }
        numbers[most] = numbers[most - 1]; /* one of them twice */
        ends[most + 1] = 7;
        CHECK(hdt_strings(graph, role, numbers, most + 1, &out, ends, most + 1) == ends[most]);
        CHECK(out.len == ends[most] && out.state == 1 && ends[most + 1] == 7);
        for (i = 0, start = 0; i <= most; start = ends[i++]) {
            guarded room;
            if (!CHECK(start <= ends[i] && ends[i] <= out.len)) {
                break;
            }
            room = guard(ends[i] - start);
            CHECK(hdt_string(graph, role, numbers[i], room.at, room.len) == room.len && memcmp(room.at, out.at + start, room.len) == 0);
            let_go(&room);
        }
    }
    ends[0] = ends[1] = 7;
    CHECK(hdt_strings(graph, role, numbers, most + 1, &out, ends, 1) == out.len && ends[1] == 7);
    CHECK(hdt_strings(graph, role, numbers, most + 1, &out, ends + 1, 0) == out.len && ends[1] == 7);
    ends[0] = 7;
    for (i = 0; i < 3; i++) {
        numbers[most / 2] = bad[i];
        CHECK(hdt_strings(graph, role, numbers, most + 1, &out, ends, most + 1) == HDT_ABSENT && has_nothing(&out) && ends[0] == 7);
        CHECK(hdt_strings(graph, role, numbers, 0, &out, ends, most + 1) == 0 && out.len == 0 && ends[0] == 7);
    }
    hdt_free(&out);
    CHECK(live == before);
    free(numbers);
    free(ends);
}

/* The number of triples of each predicate, with room for all, for all but one, and for none. */
static void predicates(hdt_graph *graph, uint64_t count) {
    guarded room = guard(8 * (count + 1));
    uint64_t *counts = (uint64_t *)(void *)room.at, i, sum = 0, step = count / 100 + 1;
    hdt_pattern given = any;
    given.p.kind = HDT_ID;
    memset(room.at, 0xAA, room.len);
    CHECK(hdt_predicates(graph, counts, 0) == count && counts[0] == 0xAAAAAAAAAAAAAAAAu);
    CHECK(hdt_predicates(graph, counts + 1, count) == count && counts[0] == 0xAAAAAAAAAAAAAAAAu);
    memset(room.at, 0xAA, room.len);
    CHECK(hdt_predicates(graph, counts, count + 1) == count && counts[count] == 0xAAAAAAAAAAAAAAAAu);
    for (i = 0; i < count; i++) {
        sum += counts[i];
    }
    CHECK(sum == hdt_len(graph));
    for (i = 0; i < count; i += step) {
        given.p.id = i + 1;
        CHECK(counts[i] == hdt_pattern_matching(graph, &given));
    }
    if (count > 0) {
        memset(room.at, 0xAA, room.len);
        CHECK(hdt_predicates(graph, counts, count - 1) == count && counts[count - 1] == 0xAAAAAAAAAAAAAAAAu);
    }
    let_go(&room);
}

/* The IDs whose strings begin with the first bytes of a string, against all strings of the role. */
static void prefixes(hdt_graph *graph, uint32_t role, uint64_t count, uint64_t number) {
    uint8_t string[64], other[64];
    uint64_t i, len = hdt_string(graph, role, number, string, sizeof string), size;
    len = len < sizeof string ? len : sizeof string;
    for (size = 0; size <= len; size += size < 4 || size == len ? 1 : len - size) {
        hdt_ranges ranges = {{7, 7}, {7, 7}};
        guarded prefix = guarded_copy(string, size);
        uint64_t found = hdt_prefix(graph, role, prefix.at, size, &ranges), wanted = 0, wrong = 0;
        for (i = 1; i <= count; i++) {
            uint64_t own = hdt_string(graph, role, i, other, sizeof other);
            int begins = own >= size && memcmp(other, string, size) == 0;
            wanted += begins ? 1 : 0;
            wrong += begins != ((ranges.first[0] <= i && i < ranges.first[1]) || (ranges.second[0] <= i && i < ranges.second[1]));
        }
        CHECK(found == wanted && wrong == 0 && ranges.first[1] <= ranges.second[0] && ranges.second[1] <= count + 1);
        let_go(&prefix);
    }
}

static void look_ups(hdt_graph *graph, const hdt_verdict *verdict) {
    uint8_t out[2] = {0xAA, 0xAA};
    uint64_t most = 150, wanted[3], role, number, one = 1, end = 7;
    hdt_bytes made = HDT_BYTES_INIT;
    wanted[0] = verdict->counts[1] + verdict->counts[2];
    wanted[1] = verdict->counts[3];
    wanted[2] = verdict->counts[1] + verdict->counts[4];
    CHECK(hdt_len(graph) == verdict->counts[0]);
    for (role = 0; role < 3; role++) {
        uint64_t step = wanted[role] / most + 1;
        CHECK(hdt_count(graph, (uint32_t)role) == wanted[role]);
        for (number = 1; number <= wanted[role]; number += step) {
            look_up(graph, (uint32_t)role, number);
        }
        if (wanted[role] > 0) {
            look_up(graph, (uint32_t)role, wanted[role]);
            strings_of(graph, (uint32_t)role, wanted[role]);
            if (wanted[role] < 3000) {
                prefixes(graph, (uint32_t)role, wanted[role], wanted[role] / 2 + 1);
            }
        }
        CHECK(hdt_string(graph, (uint32_t)role, 0, out, 2) == HDT_ABSENT);
        CHECK(hdt_string(graph, (uint32_t)role, wanted[role] + 1, out, 2) == HDT_ABSENT);
        CHECK(hdt_string(graph, (uint32_t)role, UINT64_MAX, out, 2) == HDT_ABSENT);
    }
    predicates(graph, wanted[1]);
    for (role = 3; role < 9; role++) {
        uint32_t none = role < 5 ? (uint32_t)role : UINT32_MAX << (role - 5);
        hdt_ranges ranges = {{7, 7}, {7, 7}};
        CHECK(hdt_prefix(graph, none, out, 1, &ranges) == HDT_ABSENT && ranges.first[0] == 7 && ranges.second[1] == 7);
        CHECK(hdt_count(graph, none) == HDT_ABSENT);
        CHECK(hdt_number(graph, none, out, 1) == HDT_ABSENT);
        CHECK(hdt_string(graph, none, 1, out, 2) == HDT_ABSENT);
        CHECK(hdt_strings(graph, none, &one, 1, &made, &end, 1) == HDT_ABSENT && hdt_strings(graph, none, &one, 0, &made, &end, 1) == HDT_ABSENT);
        CHECK(has_nothing(&made) && end == 7);
    }
    CHECK(out[0] == 0xAA && out[1] == 0xAA);
}

static void header(hdt_graph *graph, const guarded *file) {
    uint8_t none = 0xAA;
    uint64_t len = hdt_header(graph, &none, 0);
    guarded room = guard(len), less = guard(len), more = guard(len + 2);
    CHECK(none == 0xAA);
    memset(more.at, 0xAA, len + 2);
    CHECK(hdt_header(graph, more.at, len + 2) == len && more.at[len] == 0xAA);
    CHECK(hdt_header(graph, room.at, len) == len);
    CHECK(memcmp(more.at, room.at, len) == 0 && (len == 0 || memmem(file->at, file->len, room.at, len) != NULL));
    if (len > 0) {
        memset(less.at, 0xAA, len);
        CHECK(hdt_header(graph, less.at, len - 1) == len);
        CHECK(memcmp(less.at, room.at, len - 1) == 0 && less.at[len - 1] == 0xAA);
    }
    let_go(&room);
    let_go(&less);
    let_go(&more);
}

static int matches(const uint64_t *triple, const uint64_t *numbers, unsigned kinds) {
    return (!(kinds & 1) || triple[0] == numbers[0]) && (!(kinds & 2) || triple[1] == numbers[1]) && (!(kinds & 4) || triple[2] == numbers[2]);
}

/* All pages of a few sizes, one after another, against what hdt_find has put of the same pattern. */
static void pages(hdt_graph *graph, const hdt_pattern *pattern, uint64_t (*wanted)[3], uint64_t count) {
    const uint64_t sizes[] = {1, count / 3 + 1, count, count + 1};
    uint64_t i, next = 7;
    for (i = 0; i < 4; i++) {
        guarded room = guard(24 * (sizes[i] + 1));
        uint64_t(*out)[3] = (uint64_t(*)[3])(void *)room.at;
        uint64_t from = 0, put = 0;
        do {
            uint64_t found;
            memset(room.at, 0xAA, room.len);
            found = hdt_page(graph, pattern, from, out, sizes[i], &next);
            if (!CHECK(found <= sizes[i] && found <= count - put && out[found][0] == 0xAAAAAAAAAAAAAAAAu)) {
                break;
            }
            CHECK(memcmp(out, wanted + put, 24 * found) == 0);
            put += found;
            CHECK(next == HDT_ABSENT ? put == count : put < count && next >= from + found);
            from = next;
        } while (from != HDT_ABSENT && put < 200);
        let_go(&room);
    }
    CHECK(hdt_page(graph, pattern, hdt_len(graph), wanted, 0, &next) == 0 && next == HDT_ABSENT);
    CHECK(hdt_page(graph, pattern, UINT64_MAX, wanted, 0, &next) == 0 && next == HDT_ABSENT);
}

/* The texts of all pages of a size, one after another, against the text of all. */
static void page_texts(hdt_graph *graph, const hdt_pattern *pattern, uint64_t count) {
    hdt_bytes all = HDT_BYTES_INIT, page = HDT_BYTES_INIT;
    hdt_text_result outcome;
    uint64_t from = 0, put = 0, next = 7, most = count / 3 + 1, turns = 0;
    hdt_pattern_text(graph, pattern, &all, &outcome);
    if (outcome.reason == HDT_DONE) {
        do {
            hdt_page_text(graph, pattern, from, most, &page, &next, &outcome);
            if (!CHECK(outcome.reason == HDT_DONE && page.len <= all.len - put && page.state == 1)) {
                break;
            }
            CHECK(page.len == 0 || memcmp(page.at, all.at + put, page.len) == 0);
            CHECK(outcome.role == 0 && outcome.number == 0);
            put += page.len;
            from = next;
        } while (from != HDT_ABSENT && ++turns < 4);
        CHECK(put == all.len && from == HDT_ABSENT);
    } else { /* the page of all matches has the same string that is no term; one of none has an empty text */
        hdt_text_result other;
        hdt_page_text(graph, pattern, 0, count, &page, &next, &other);
        CHECK(memcmp(&outcome, &other, sizeof other) == 0 && has_nothing(&page) && next == HDT_ABSENT);
        hdt_page_text(graph, pattern, 0, 0, &page, &next, &other);
        CHECK(other.reason == HDT_DONE && page.len == 0 && next < hdt_len(graph));
    }
    hdt_page_text(graph, pattern, UINT64_MAX, UINT64_MAX, &page, &next, &outcome);
    CHECK(outcome.reason == HDT_DONE && page.len == 0 && next == HDT_ABSENT);
    hdt_free(&all);
    hdt_free(&page);
}

/* The calls that take a pattern, against what hdt_find has put of the same one: the parts as strings, and as IDs. */
static void by_pattern(hdt_graph *graph, const hdt_pattern *given, const uint64_t *numbers, uint64_t (*wanted)[3], uint64_t count) {
    static const uint32_t bad_kinds[] = {3, 4, 256, UINT32_MAX};
    const uint64_t bad_ids[] = {0, UINT64_MAX};
    uint64_t role, i, skip;
    unsigned mixed;
    guarded found = guard(24 * (count + 1)), room = guard(sizeof(hdt_pattern));
    hdt_pattern *asked = (hdt_pattern *)(void *)room.at;
    uint64_t(*out)[3] = (uint64_t(*)[3])(void *)found.at;
    for (mixed = 0; mixed < 8; mixed += 7) {
        *asked = *given;
        for (role = 0; role < 3; role++) {
            hdt_part *part = part_of(asked, role);
            if (part->kind == HDT_STRING && mixed >> role & 1) {
                hdt_part id = {HDT_ID, numbers[role], (const uint8_t *)"", 0};
                *part = id;
            }
        }
        CHECK(hdt_pattern_matching(graph, asked) == count);
        memset(found.at, 0xAA, found.len);
        CHECK(hdt_pattern_find(graph, asked, 0, out, count) == count && out[count][0] == 0xAAAAAAAAAAAAAAAAu);
        CHECK(memcmp(out, wanted, 24 * count) == 0);
        CHECK(hdt_pattern_find(graph, asked, 0, out, count + 1) == count && hdt_pattern_find(graph, asked, 0, out, 0) == 0);
        skip = count - count / 3;
        CHECK(hdt_pattern_find(graph, asked, skip, out, count + 1) == count / 3 && memcmp(out, wanted + skip, 24 * (count / 3)) == 0);
        CHECK(hdt_pattern_find(graph, asked, UINT64_MAX, out, 1) == 0);
        if (mixed == 7) {
            pages(graph, asked, wanted, count);
            page_texts(graph, asked, count);
        }
    }
    for (role = 0; role < 3; role++) {
        *asked = *given;
        for (i = 0; i < 4; i++) { /* kinds that there aren't match nothing, whatever else the part has */
            hdt_part part = {bad_kinds[i], numbers[role], (const uint8_t *)"", 0};
            *part_of(asked, role) = part;
            CHECK(hdt_pattern_matching(graph, asked) == 0 && hdt_pattern_find(graph, asked, 0, out, 1) == 0);
            pages(graph, asked, out, 0);
            page_texts(graph, asked, 0);
        }
        for (i = 0; i < 3; i++) { /* so do IDs */
            hdt_part part = {HDT_ID, i < 2 ? bad_ids[i] : hdt_count(graph, (uint32_t)role) + 1, (const uint8_t *)"", 0};
            *part_of(asked, role) = part;
            CHECK(hdt_pattern_matching(graph, asked) == 0 && hdt_pattern_find(graph, asked, 0, out, 1) == 0);
            pages(graph, asked, out, 0);
        }
    }
    let_go(&found);
    let_go(&room);
}

/* What find, matching and text answer of a pattern, against a plain filter of all triples. */
static void search(hdt_graph *graph, const hdt_pattern *given, uint64_t (*all)[3], uint64_t count, const uint64_t *numbers, unsigned kinds) {
    uint64_t i, wanted = 0, skip, alike = 1;
    guarded found;
    uint64_t(*out)[3];
    for (i = 0; i < count; i++) {
        wanted += matches(all[i], numbers, kinds);
    }
    CHECK(hdt_matching(graph, GIVEN(given)) == wanted);
    found = guard(24 * (wanted + 1));
    out = (uint64_t(*)[3])(void *)found.at;
    memset(found.at, 0xAA, found.len);
    CHECK(find(graph, given, 0, out, wanted) == wanted); /* room for all and no more: the last one is as it was */
    CHECK(out[wanted][0] == 0xAAAAAAAAAAAAAAAAu);
    for (i = 0, skip = 0; i < count; i++) {
        if (matches(all[i], numbers, kinds) && skip < wanted) {
            alike &= memcmp(out[skip++], all[i], sizeof *out) == 0;
        }
    }
    CHECK(alike);
    by_pattern(graph, given, numbers, out, wanted);
    CHECK(find(graph, given, 0, out, wanted + 1) == wanted);
    CHECK(find(graph, given, wanted, out, 1) == 0);
    CHECK(find(graph, given, UINT64_MAX, out, 1) == 0);
    CHECK(find(graph, given, 0, out, 0) == 0);
    for (skip = 1; skip < wanted; skip = 2 * skip + 1) {
        uint64_t piece[2][3], k = 0;
        memset(piece, 0xAA, sizeof piece);
        CHECK(find(graph, given, skip, piece, 1) == 1);
        for (i = 0; i < count && k <= skip; i++) {
            k += matches(all[i], numbers, kinds);
        }
        CHECK(memcmp(piece[0], all[i - 1], sizeof *piece) == 0 && piece[1][0] == 0xAAAAAAAAAAAAAAAAu);
    }
    let_go(&found);
}

static void text(hdt_graph *graph, const hdt_pattern *given) {
    hdt_bytes out = HDT_BYTES_INIT, same = HDT_BYTES_INIT;
    hdt_text_result outcome, told;
    long before = live;
    hdt_text(graph, GIVEN(given), &out, &outcome);
    hdt_pattern_text(graph, given, &same, &told);
    CHECK(told.reason == outcome.reason && told.role == outcome.role && told.number == outcome.number);
    CHECK(same.len == out.len && same.state == out.state && (out.len == 0 || memcmp(same.at, out.at, out.len) == 0));
    hdt_free(&same);
    if (outcome.reason == HDT_DONE) {
        CHECK(outcome.role == 0 && outcome.number == 0);
        CHECK(lines_of(&out) == hdt_matching(graph, GIVEN(given)));
        CHECK(out.len == 0 || out.at[out.len - 1] == '\n');
    } else {
        CHECK(outcome.reason == HDT_NOT_A_TERM && outcome.role < 3);
        CHECK(outcome.number >= 1 && outcome.number <= hdt_count(graph, outcome.role));
        CHECK(has_nothing(&out));
    }
    hdt_free(&out);
    CHECK(has_nothing(&out) && live == before);
}

/* Sampled triples, and of each the eight patterns that it matches. */
static void searches(hdt_graph *graph) {
    uint64_t count = hdt_len(graph), i, role, step = count / 12 + 1;
    uint64_t(*all)[3] = malloc((count + 1) * sizeof *all);
    unsigned kinds;
    hdt_pattern given = any;
    CHECK(find(graph, &any, 0, all, count + 1) == count);
    for (i = 1; i < count; i++) {
        uint64_t *a = all[i - 1], *b = all[i];
        if (!(a[0] < b[0] || (a[0] == b[0] && (a[1] < b[1] || (a[1] == b[1] && a[2] < b[2]))))) {
            CHECK(!"the triples ascend");
        }
    }
    for (i = 0; i < count; i += step) {
        guarded strings[3];
        for (role = 0; role < 3; role++) {
            strings[role] = guard(hdt_string(graph, (uint32_t)role, all[i][role], (uint8_t *)all, 0));
            hdt_string(graph, (uint32_t)role, all[i][role], strings[role].at, strings[role].len);
        }
        for (kinds = 0; kinds < 8; kinds++) {
            for (role = 0; role < 3; role++) {
                *part_of(&given, role) = kinds >> role & 1 ? given_string(strings[role].at, strings[role].len) : any.s;
            }
            search(graph, &given, all, count, all[i], kinds);
            if (kinds != 0 || i == 0) {
                text(graph, &given);
            }
            if (kinds & 1) { /* a subject that isn't there */
                given.s = given_string((const uint8_t *)"\xFF", 1);
                CHECK(find(graph, &given, 0, all + count, 1) == 0 && hdt_matching(graph, GIVEN(&given)) == 0);
                CHECK(hdt_pattern_find(graph, &given, 0, all + count, 1) == 0 && hdt_pattern_matching(graph, &given) == 0);
                text(graph, &given);
            }
        }
        for (role = 0; role < 3; role++) {
            let_go(&strings[role]);
        }
    }
    free(all);
}

/* Whether two graphs have one header, and one text or string that is no term. */
static int alike(hdt_graph *a, hdt_graph *b) {
    hdt_bytes texts[2] = {HDT_BYTES_INIT, HDT_BYTES_INIT};
    hdt_text_result told[2];
    uint64_t len = hdt_header(a, (uint8_t *)texts, 0);
    uint8_t *headers = malloc(2 * len + 1);
    int same = hdt_header(b, headers, len) == len && hdt_header(a, headers + len, len) == len && memcmp(headers, headers + len, len) == 0;
    hdt_text(a, GIVEN(&any), &texts[0], &told[0]);
    hdt_text(b, GIVEN(&any), &texts[1], &told[1]);
    same = same && told[0].reason == told[1].reason && told[0].role == told[1].role;
    same = same && texts[0].len == texts[1].len && (texts[0].len == 0 || memcmp(texts[0].at, texts[1].at, texts[0].len) == 0);
    hdt_free(&texts[0]);
    hdt_free(&texts[1]);
    free(headers);
    return same;
}

static const char title[] = "<u:a> <u:title> \"x\" .\n";

static void put_header(const uint8_t *bytes, size_t len, const char *header, hdt_bytes *out, hdt_verdict *verdict, hdt_report *report) {
    hdt_with_header(bytes, len, (const uint8_t *)header, strlen(header), out, verdict, report);
}

/* A file with a new header is a file of the same triples; with its old header again it is the same file. */
static void describe(hdt_graph *graph, const guarded *file, const hdt_verdict *verdict) {
    hdt_bytes out = HDT_BYTES_INIT, again = HDT_BYTES_INIT;
    hdt_graph made = HDT_GRAPH_INIT;
    hdt_verdict told, other;
    hdt_report report;
    uint8_t header[sizeof title];
    long before = live;
    size_t len = hdt_header(graph, header, 0);
    uint8_t *old = malloc(len + 1);
    put_header(file->at, file->len, title, &out, &told, &report);
    CHECK(same_verdict(&told, verdict) && report.reason == HDT_DONE && report.line == 0 && report.column == 0);
    CHECK(memcmp(report.counts, told.counts, sizeof told.counts) == 0 && out.state == 1);
    hdt_open(out.at, out.len, &made, &other);
    CHECK(same_verdict(&told, &other) && hdt_matching(graph, GIVEN(&any)) == hdt_matching(&made, GIVEN(&any)));
    CHECK(hdt_header(&made, header, sizeof header) == sizeof title - 1 && memcmp(header, title, sizeof title - 1) == 0);
    hdt_close(&made);
    hdt_header(graph, old, len);
    hdt_with_header(out.at, out.len, old, len, &again, &told, &report);
    if (report.reason == HDT_DONE) { /* nothing checks the headers of other tools */
        CHECK(again.len == file->len && memcmp(again.at, file->at, file->len) == 0);
    }
    put_header(file->at, file->len, "<u:a> <u:title>\n<u:b> .\n", &out, &told, &report);
    CHECK(told.reason == HDT_DONE && told.counts[0] == 0 && has_nothing(&out));
    CHECK(report.reason == HDT_TEXT_SYNTAX && report.line == 1 && report.column > 10 && report.counts[0] == 0);
    put_header(file->at, file->len - 1, "no", &out, &told, &report);
    CHECK(told.reason != HDT_DONE && report.reason == HDT_DONE && report.counts[0] == 0 && has_nothing(&out));
    hdt_free(&again);
    free(old);
    CHECK(live == before);
}

/* A file rewritten in blocks of several sizes is a file of the same triples; so is one that is built of the graph's text. */
static void remake(hdt_graph *graph, const guarded *file, const hdt_verdict *verdict) {
    static const uint32_t sizes[] = {1, 2, 16, 65535}, bad[] = {0, 65536, UINT32_MAX};
    hdt_bytes out = HDT_BYTES_INIT, again = HDT_BYTES_INIT;
    hdt_graph made = HDT_GRAPH_INIT;
    hdt_verdict told, other;
    hdt_report report;
    hdt_text_result outcome;
    size_t i;
    long before = live;
    for (i = 0; i < 4; i++) {
        hdt_rewrite(file->at, file->len, sizes[i], &out, &told);
        CHECK(told.reason == HDT_DONE && told.place == 0 && told.counts[0] == verdict->counts[0] && out.state == 1);
        hdt_verify(out.at, out.len, &other);
        CHECK(same_verdict(&told, &other));
        hdt_verify_tight(out.at, out.len, &other); /* no string is left that isn't used */
        CHECK(same_verdict(&told, &other));
        hdt_open(out.at, out.len, &made, &other);
        CHECK(same_verdict(&told, &other) && alike(graph, &made));
        hdt_close(&made);
        hdt_rewrite(out.at, out.len, sizes[i], &again, &other);
        CHECK(same_verdict(&told, &other) && again.len == out.len && memcmp(again.at, out.at, out.len) == 0);
    }
    for (i = 0; i < 3; i++) { /* what out had is freed */
        hdt_rewrite(file->at, file->len, bad[i], &out, &told);
        CHECK(told.reason == HDT_BAD_OPTIONS && told.place == 0 && told.counts[0] == 0 && has_nothing(&out));
    }
    hdt_text(graph, GIVEN(&any), &again, &outcome);
    if (outcome.reason == HDT_DONE) {
        hdt_build(again.at, again.len, base, sizeof base - 1, 16, &out, &report);
        CHECK(report.reason == HDT_DONE && report.line == 0 && report.column == 0 && report.counts[0] == verdict->counts[0]);
        hdt_verify(out.at, out.len, &other);
        CHECK(other.reason == HDT_DONE && memcmp(other.counts, report.counts, sizeof other.counts) == 0);
        for (i = 0; i < 3; i++) {
            hdt_build(again.at, again.len, base, sizeof base - 1, bad[i], &out, &report);
            CHECK(report.reason == HDT_BAD_OPTIONS && has_nothing(&out));
        }
        hdt_build(again.at, again.len, (const uint8_t *)"rel", 3, 16, &out, &report);
        CHECK(report.reason == HDT_BAD_OPTIONS && has_nothing(&out));
    }
    hdt_free(&again);
    CHECK(live == before);
}

/* hdt_merge with the base and block size of the other calls. */
static void merge(hdt_graph *graphs, size_t count, hdt_bytes *out, hdt_report *report) {
    hdt_merge(graphs, count, base, sizeof base - 1, 16, out, report);
}

/* The same with hdt_merge_with. */
static void merge_with(hdt_graph *graphs, size_t count, uint32_t blank_nodes, hdt_bytes *out, hdt_report *report) {
    hdt_merge_with(graphs, count, blank_nodes, base, sizeof base - 1, 16, out, report);
}

static int same_report(const hdt_report *a, const hdt_report *b) {
    return a->reason == b->reason && a->line == b->line && a->column == b->column && memcmp(a->counts, b->counts, sizeof a->counts) == 0;
}

/* Adds N-Triples of the library to a text, with `f`, the number and `_` before each label: `_:` outside of brackets and quotes. */
static void add_apart(guarded *out, const uint8_t *lines, size_t len, unsigned number) {
    uint8_t end = 0; /* of what the place is in */
    size_t i;
    for (i = 0; i < len; i++) {
        uint8_t it = lines[i];
        out->at[out->len++] = it;
        if (end == '"' && it == '\\') {
            out->at[out->len++] = lines[++i];
        } else if (end) {
            end = it == end ? 0 : end;
        } else if (it == '<' || it == '"') {
            end = it == '<' ? '>' : '"';
        } else if (it == ':') {
            out->len += (size_t)sprintf((char *)out->at + out->len, "f%u_", number);
        }
    }
}

/* Whether the file of this text, and of nothing else, has been made. */
static int is_built_of(const hdt_bytes *made, const hdt_report *told, const uint8_t *lines, size_t len) {
    hdt_bytes wanted = HDT_BYTES_INIT;
    hdt_report report;
    int same;
    hdt_build(lines, len, base, sizeof base - 1, 16, &wanted, &report);
    same = report.reason == told->reason && told->line == 0 && told->column == 0 && memcmp(report.counts, told->counts, sizeof report.counts) == 0;
    same = same && made->state == 1 && made->len == wanted.len && memcmp(made->at, wanted.at, wanted.len) == 0;
    hdt_free(&wanted);
    return same;
}

/* What is refused of a merge: no handles, a closed one at each place, and options. The handles and their graphs stay. */
static void refused_merges(hdt_graph *two, hdt_bytes *out) {
    static const uint32_t bad[] = {0, 65536, UINT32_MAX};
    static const hdt_report none = {0, 0, 0, {0}};
    hdt_report told;
    size_t i;
    CHECK(hdt_len(&two[0]) < HDT_CLOSED);
    merge(two, 0, out, &told); /* frees what out had */
    CHECK(told.reason == HDT_NO_TRIPLES && told.line == 0 && memcmp(told.counts, none.counts, sizeof told.counts) == 0 && has_nothing(out));
    for (i = 0; i < 3; i++) {
        merge(two, 2, out, &told);
        CHECK(told.reason == HDT_DONE && out->state == 1);
        hdt_merge(two, 2, base, sizeof base - 1, bad[i], out, &told);
        CHECK(told.reason == HDT_BAD_OPTIONS && told.counts[0] == 0 && has_nothing(out));
    }
    hdt_merge(two, 2, (const uint8_t *)"rel", 3, 16, out, &told);
    CHECK(told.reason == HDT_BAD_OPTIONS && told.counts[0] == 0 && has_nothing(out));
    for (i = 0; i < 2; i++) {
        hdt_graph one_closed[2] = {HDT_GRAPH_INIT, HDT_GRAPH_INIT};
        CHECK(hdt_share(&two[0], &one_closed[i]) == HDT_DONE);
        merge(two, 2, out, &told);
        merge(one_closed, 2, out, &told);
        CHECK(told.reason == HDT_IS_CLOSED && told.counts[0] == 0 && has_nothing(out));
        hdt_merge(one_closed, 2, base, sizeof base - 1, 0, out, &told); /* it comes before the options */
        CHECK(told.reason == HDT_IS_CLOSED && is_zeroed(&one_closed[1 - i]) && hdt_len(&one_closed[i]) == hdt_len(&two[0]));
        hdt_close(&one_closed[i]);
    }
}

/* What is refused of a merge that says what blank nodes are: what hdt_merge refuses, and a word that isn't one, before all else. */
static void refused_words(hdt_graph *two, hdt_bytes *out) {
    static const uint32_t bad[] = {2, 3, 256, UINT32_MAX};
    hdt_graph one_closed[2] = {HDT_GRAPH_INIT, HDT_GRAPH_INIT};
    hdt_report told;
    uint32_t word;
    size_t i;
    CHECK(hdt_share(&two[1], &one_closed[1]) == HDT_DONE);
    for (i = 0; i < 4; i++) {
        merge_with(two, 2, HDT_BLANK_NODES_APART, out, &told);
        CHECK(told.reason == HDT_DONE && out->state == 1);
        merge_with(i % 2 ? two : one_closed, i < 2 ? 0 : 2, bad[i], out, &told); /* frees what out had */
        CHECK(told.reason == HDT_BAD_OPTIONS && told.line == 0 && told.column == 0 && told.counts[0] == 0 && has_nothing(out));
    }
    for (word = 0; word < 2; word++) {
        merge_with(two, 0, word, out, &told);
        CHECK(told.reason == HDT_NO_TRIPLES && told.counts[0] == 0 && has_nothing(out));
        merge_with(two, 2, word, out, &told);
        hdt_merge_with(one_closed, 2, word, base, sizeof base - 1, 0, out, &told); /* the options come last */
        CHECK(told.reason == HDT_IS_CLOSED && told.counts[0] == 0 && has_nothing(out));
        merge_with(two, 2, word, out, &told);
        hdt_merge_with(two, 2, word, base, sizeof base - 1, 65536, out, &told);
        CHECK(told.reason == HDT_BAD_OPTIONS && told.counts[0] == 0 && has_nothing(out));
        hdt_merge_with(two, 2, word, (const uint8_t *)"rel", 3, 16, out, &told);
        CHECK(told.reason == HDT_BAD_OPTIONS && has_nothing(out));
    }
    CHECK(is_zeroed(&one_closed[0]) && hdt_len(&one_closed[1]) == hdt_len(&two[1]) && hdt_len(&two[0]) < HDT_CLOSED);
    hdt_close(&one_closed[1]);
}

/* The merge of all handles, with a label as one node and with the nodes apart, is built of their texts, if they have one. */
static void merges_with(hdt_graph *graphs, size_t count) {
    hdt_graph was[12];
    hdt_bytes out = HDT_BYTES_INIT, one = HDT_BYTES_INIT, text = HDT_BYTES_INIT;
    hdt_text_result outcome = {HDT_DONE, 0, 0};
    hdt_report told, also;
    hdt_verdict seen_of;
    guarded renamed;
    size_t i, room = 0;
    long before = live;
    memcpy(was, graphs, count * sizeof *graphs);
    merge(graphs, count, &one, &told);
    merge_with(graphs, count, HDT_BLANK_NODES_ONE, &out, &also);
    CHECK(told.reason == HDT_DONE && same_report(&told, &also) && out.len == one.len && memcmp(out.at, one.at, one.len) == 0);
    merge_with(graphs, count, HDT_BLANK_NODES_APART, &out, &also);
    CHECK(also.reason == HDT_DONE && also.line == 0 && also.column == 0 && also.counts[0] >= told.counts[0] && memcmp(was, graphs, count * sizeof *graphs) == 0);
    hdt_verify_tight(out.at, out.len, &seen_of);
    CHECK(seen_of.reason == HDT_DONE && memcmp(seen_of.counts, also.counts, sizeof also.counts) == 0);
    for (i = 0; i < count && outcome.reason == HDT_DONE; i++) {
        hdt_text(&graphs[i], GIVEN(&any), &text, &outcome);
        room += 3 * text.len;
    }
    if (outcome.reason == HDT_DONE) {
        renamed = guard(room);
        renamed.len = 0;
        for (i = 0; i < count; i++) {
            hdt_text(&graphs[i], GIVEN(&any), &text, &outcome);
            add_apart(&renamed, text.at, text.len, (unsigned)i);
        }
        CHECK(is_built_of(&out, &also, renamed.at, renamed.len));
        let_go(&renamed);
    }
    hdt_free(&out);
    hdt_free(&one);
    hdt_free(&text);
    CHECK(live == before);
}

/* Another file, which has a blank node, alone; then twelve handles, so that numbers have two digits: of it and the graph in turn. */
static void merge_twelve(hdt_graph *graph, const hdt_bytes *other) {
    hdt_graph twelve[12];
    hdt_verdict opened;
    size_t i;
    memset(twelve, 0, sizeof twelve);
    hdt_open(other->at, other->len, &twelve[0], &opened);
    CHECK(opened.reason == HDT_DONE);
    merges_with(twelve, 1);
    for (i = 1; i < 12; i++) {
        CHECK(hdt_share(i % 2 ? graph : &twelve[0], &twelve[i]) == HDT_DONE);
    }
    merges_with(twelve, 12);
    for (i = 0; i < 12; i++) {
        hdt_close(&twelve[i]);
    }
}

/* The graph merged with itself, and with another one, in both orders, is built of its text and that of the other. */
static void merges(hdt_graph *graph, const hdt_verdict *verdict) {
    static const char line[] = "<u:merged> <u:p> _:merged .\n";
    hdt_graph two[2] = {HDT_GRAPH_INIT, HDT_GRAPH_INIT}, was[2];
    hdt_bytes out = HDT_BYTES_INIT, text = HDT_BYTES_INIT, other = HDT_BYTES_INIT;
    hdt_report told;
    hdt_verdict seen_of;
    hdt_text_result outcome;
    uint8_t *both;
    size_t order;
    long before = live;
    hdt_text(graph, GIVEN(&any), &text, &outcome);
    both = malloc(text.len + sizeof line);
    memcpy(both, text.at ? (const char *)text.at : line, text.len);
    memcpy(both + text.len, line, sizeof line - 1);
    hdt_build((const uint8_t *)line, sizeof line - 1, base, sizeof base - 1, 2, &other, &told);
    merge(graph, 1, &out, &told);
    CHECK(told.reason == HDT_DONE && (outcome.reason != HDT_DONE || is_built_of(&out, &told, both, text.len)));
    hdt_verify_tight(out.at, out.len, &seen_of);
    CHECK(seen_of.reason == HDT_DONE && seen_of.counts[0] == verdict->counts[0] && memcmp(seen_of.counts, told.counts, sizeof told.counts) == 0);
    for (order = 0; order < 3; order++) { /* the other one is last, first, or the same graph */
        hdt_graph *its = &two[order == 1], *others = &two[order != 1];
        CHECK(hdt_share(graph, its) == HDT_DONE);
        if (order == 2) {
            CHECK(hdt_share(graph, others) == HDT_DONE);
        } else {
            hdt_open(other.at, other.len, others, &seen_of);
        }
        memcpy(was, two, sizeof was);
        merge(two, 2, &out, &told);
        CHECK(told.reason == HDT_DONE && told.counts[0] == verdict->counts[0] + (order < 2) && memcmp(was, two, sizeof was) == 0);
        CHECK(outcome.reason != HDT_DONE || is_built_of(&out, &told, both, text.len + (order < 2 ? sizeof line - 1 : 0)));
        CHECK(hdt_len(its) == verdict->counts[0] && alike(graph, its));
        refused_merges(two, &out);
        merges_with(two, 2);
        refused_words(two, &out);
        hdt_close(&two[0]);
        hdt_close(&two[1]);
    }
    merges_with(graph, 1);
    merge_twelve(graph, &other);
    free(both);
    hdt_free(&out);
    hdt_free(&text);
    hdt_free(&other);
    CHECK(live == before);
}

/* Every call on a closed graph. */
static void closed(hdt_graph *graph) {
    uint64_t out[1][3] = {{7, 7, 7}}, number = 1, end = 7;
    uint8_t room = 0xAA;
    hdt_text_result outcome;
    hdt_report report;
    hdt_bytes made = HDT_BYTES_INIT;
    hdt_ranges ranges = {{7, 7}, {7, 7}};
    hdt_graph other = HDT_GRAPH_INIT;
    long before = live;
    CHECK(hdt_share(graph, &other) == HDT_IS_CLOSED && is_zeroed(&other) && live == before);
    CHECK(hdt_prefix(graph, 0, &room, 1, &ranges) == HDT_CLOSED && ranges.first[0] == 7 && ranges.second[1] == 7);
    CHECK(graph->state == 0);
    CHECK(hdt_len(graph) == HDT_CLOSED && hdt_count(graph, 0) == HDT_CLOSED && hdt_count(graph, 3) == HDT_CLOSED);
    CHECK(hdt_number(graph, 0, &room, 1) == HDT_CLOSED && hdt_number(graph, 3, &room, 1) == HDT_CLOSED);
    CHECK(hdt_string(graph, 0, 1, &room, 1) == HDT_CLOSED && hdt_string(graph, 3, 0, &room, 1) == HDT_CLOSED);
    CHECK(hdt_header(graph, &room, 1) == HDT_CLOSED && room == 0xAA);
    hdt_build((const uint8_t *)"<u:s> <u:p> <u:o> .", 19, base, sizeof base - 1, 16, &made, &report);
    CHECK(hdt_strings(graph, 0, &number, 1, &made, &end, 1) == HDT_CLOSED && has_nothing(&made) && end == 7 && live == before);
    CHECK(find(graph, &any, 0, out, 1) == HDT_CLOSED && out[0][0] == 7 && hdt_matching(graph, GIVEN(&any)) == HDT_CLOSED);
    hdt_build((const uint8_t *)"<u:s> <u:p> <u:o> .", 19, base, sizeof base - 1, 16, &made, &report);
    CHECK(report.reason == HDT_DONE && live > before);
    hdt_text(graph, GIVEN(&any), &made, &outcome); /* frees what was made */
    CHECK(outcome.reason == HDT_IS_CLOSED && outcome.role == 0 && outcome.number == 0 && has_nothing(&made) && live == before);
    CHECK(hdt_pattern_find(graph, &any, 0, out, 1) == HDT_CLOSED && out[0][0] == 7 && hdt_pattern_matching(graph, &any) == HDT_CLOSED);
    CHECK(hdt_predicates(graph, &end, 1) == HDT_CLOSED && end == 7);
    CHECK(hdt_page(graph, &any, 0, out, 1, &number) == HDT_CLOSED && out[0][0] == 7 && number == HDT_ABSENT);
    hdt_build((const uint8_t *)"<u:s> <u:p> <u:o> .", 19, base, sizeof base - 1, 16, &made, &report);
    hdt_pattern_text(graph, &any, &made, &outcome);
    CHECK(outcome.reason == HDT_IS_CLOSED && outcome.role == 0 && outcome.number == 0 && has_nothing(&made) && live == before);
    hdt_build((const uint8_t *)"<u:s> <u:p> <u:o> .", 19, base, sizeof base - 1, 16, &made, &report);
    number = 7;
    hdt_page_text(graph, &any, 0, 1, &made, &number, &outcome);
    CHECK(outcome.reason == HDT_IS_CLOSED && outcome.role == 0 && outcome.number == 0 && has_nothing(&made) && number == HDT_ABSENT && live == before);
    hdt_build((const uint8_t *)"<u:s> <u:p> <u:o> .", 19, base, sizeof base - 1, 16, &made, &report);
    merge(graph, 1, &made, &report);
    CHECK(report.reason == HDT_IS_CLOSED && report.counts[0] == 0 && has_nothing(&made) && live == before);
    hdt_build((const uint8_t *)"<u:s> <u:p> <u:o> .", 19, base, sizeof base - 1, 16, &made, &report);
    merge_with(graph, 1, HDT_BLANK_NODES_APART, &made, &report);
    CHECK(report.reason == HDT_IS_CLOSED && report.counts[0] == 0 && has_nothing(&made) && live == before);
    hdt_close(graph);
    CHECK(graph->state == 0);
}

/* Opening an open graph leaves it as it is, whatever the bytes are. */
static void opened_again(hdt_graph *graph, const guarded *file, const hdt_verdict *verdict) {
    hdt_graph before = *graph;
    hdt_verdict told;
    size_t len;
    for (len = 0; len <= file->len; len += file->len > 10 ? file->len / 5 : 1) {
        hdt_open(file->at, len, graph, &told);
        CHECK(told.reason == HDT_IS_OPEN && told.place == 0 && told.counts[0] == 0);
        CHECK(memcmp(&before, graph, sizeof before) == 0 && hdt_len(graph) == verdict->counts[0]);
    }
}

/* ---- handles that share a graph */

/* Which handle of four each other one is made of: all of the first, each of the one before, and a tree. */
static const size_t made_of[3][4] = {{0, 0, 0, 0}, {0, 0, 1, 2}, {0, 0, 1, 1}};

/* Closes four handles in one of the 24 orders. After each, those that are left have the graph of `same`, and one allocation
 * less is held; with the last one everything is freed. */
static void close_in_order(hdt_graph *handles, size_t order, hdt_graph *same, long held, long before) {
    size_t left_over[4] = {0, 1, 2, 3}, count, i;
    for (count = 4; count > 0; order /= count, count--) {
        size_t at = order % count;
        hdt_graph *graph = &handles[left_over[at]];
        hdt_close(graph);
        CHECK(is_zeroed(graph) && hdt_len(graph) == HDT_CLOSED);
        memmove(left_over + at, left_over + at + 1, (count - 1 - at) * sizeof *left_over);
        for (i = 0; i + 1 < count; i++) {
            CHECK(alike(&handles[left_over[i]], same));
        }
        CHECK(live == (count > 1 ? held - (long)(5 - count) : before));
        hdt_close(graph);
    }
}

/* Four handles of one graph, made and closed in so many of the 24 orders; `same` is another graph of the file. */
static void any_order(const guarded *file, hdt_graph *same, size_t orders) {
    size_t order, way, i;
    for (order = 0; order < orders; order++) {
        for (way = 0; way < 3; way++) {
            hdt_graph handles[4] = {HDT_GRAPH_INIT, HDT_GRAPH_INIT, HDT_GRAPH_INIT, HDT_GRAPH_INIT};
            hdt_verdict verdict;
            long before = live, opened;
            hdt_open(file->at, file->len, &handles[0], &verdict);
            opened = live;
            for (i = 1; i < 4; i++) {
                hdt_graph from = handles[made_of[way][i]];
                CHECK(hdt_share(&handles[made_of[way][i]], &handles[i]) == HDT_DONE && handles[i].state == 1);
                CHECK(memcmp(&from, &handles[made_of[way][i]], sizeof from) == 0 && live == opened + (long)i);
            }
            close_in_order(handles, order, same, live, before);
        }
    }
}

/* A handle that is open already is refused, whatever the first one is; and a graph goes from handle to handle. */
static void shares(hdt_graph *graph, const guarded *file, size_t orders) {
    hdt_graph other = HDT_GRAPH_INIT, third = HDT_GRAPH_INIT, was;
    hdt_verdict verdict;
    long before = live;
    int i;
    any_order(file, graph, orders);
    hdt_open(file->at, file->len, &other, &verdict);
    was = other;
    CHECK(hdt_share(&third, &other) == HDT_IS_OPEN && is_zeroed(&third) && memcmp(&was, &other, sizeof was) == 0);
    CHECK(hdt_share(graph, &other) == HDT_IS_OPEN && memcmp(&was, &other, sizeof was) == 0 && alike(graph, &other));
    for (i = 0; i < 100; i++) {
        CHECK(hdt_share(&other, &third) == HDT_DONE);
        hdt_close(&other);
        CHECK(hdt_share(&third, &other) == HDT_DONE);
        hdt_close(&third);
    }
    CHECK(alike(graph, &other));
    hdt_close(&other);
    CHECK(live == before);
}

/* ---- each growth refused */

typedef struct {
    const guarded *file;
    hdt_graph *graph; /* open */
    hdt_pattern given;
    hdt_verdict ample;
    hdt_bytes document, built, rewritten, merged, apart; /* with ample memory */
} job;

enum { TOLD = 0, AMPLE = 1, WRONG = 2 };

static int as_made(const hdt_bytes *made, const hdt_bytes *ample) { return made->len == ample->len && memcmp(made->at, ample->at, made->len) == 0 ? AMPLE : WRONG; }

static int call_verify(const job *it) {
    hdt_verdict told;
    hdt_verify(it->file->at, it->file->len, &told);
    return told.reason == HDT_OUT_OF_MEMORY ? (told.place || told.counts[0] ? WRONG : TOLD) : same_verdict(&told, &it->ample) ? AMPLE : WRONG;
}

static int call_verify_tight(const job *it) {
    hdt_verdict told;
    hdt_verify_tight(it->file->at, it->file->len, &told);
    return told.reason == HDT_OUT_OF_MEMORY ? (told.place || told.counts[0] ? WRONG : TOLD) : told.reason == HDT_FILE_UNUSED || same_verdict(&told, &it->ample) ? AMPLE : WRONG;
}

static int call_open(const job *it) {
    hdt_graph graph = HDT_GRAPH_INIT;
    hdt_verdict told;
    uint64_t state;
    hdt_open(it->file->at, it->file->len, &graph, &told);
    state = graph.state;
    hdt_close(&graph);
    if (told.reason == HDT_OUT_OF_MEMORY) {
        return state == 0 && told.place == 0 && told.counts[0] == 0 ? TOLD : WRONG;
    }
    return state == (told.reason == HDT_DONE) && same_verdict(&told, &it->ample) ? AMPLE : WRONG;
}

static int call_share(const job *it) {
    hdt_graph other = HDT_GRAPH_INIT, was = *it->graph;
    uint32_t reason = hdt_share(it->graph, &other);
    int same = memcmp(&was, it->graph, sizeof was) == 0, right = same && hdt_len(&other) == it->ample.counts[0];
    if (reason == HDT_OUT_OF_MEMORY) {
        return same && is_zeroed(&other) ? TOLD : WRONG;
    }
    hdt_close(&other);
    return reason == HDT_DONE && right ? AMPLE : WRONG;
}

static int call_string(const job *it) {
    uint8_t room[8] = {0xAA};
    uint64_t len = hdt_string(it->graph, HDT_PREDICATE, 1, room, sizeof room);
    return len == HDT_NO_MEMORY ? (room[0] == 0xAA ? TOLD : WRONG) : len < HDT_CLOSED ? AMPLE : WRONG;
}

static int call_strings(const job *it) {
    const uint64_t number = 1;
    hdt_bytes made = HDT_BYTES_INIT;
    uint64_t end = 7, len = hdt_strings(it->graph, HDT_PREDICATE, &number, 1, &made, &end, 1);
    int answer = len == HDT_NO_MEMORY ? (has_nothing(&made) && end == 7 ? TOLD : WRONG) : len == made.len && end == len ? AMPLE : WRONG;
    hdt_free(&made);
    return answer;
}

static int call_number(const job *it) { return hdt_number(it->graph, HDT_PREDICATE, it->given.p.string, it->given.p.len) == 1 ? AMPLE : WRONG; }

static int call_header(const job *it) {
    uint8_t room[8];
    return hdt_header(it->graph, room, sizeof room) < HDT_CLOSED ? AMPLE : WRONG;
}

static int call_find(const job *it) {
    uint64_t out[4][3];
    return find(it->graph, &it->given, 0, out, 4) >= 1 && hdt_matching(it->graph, GIVEN(&it->given)) >= 1 ? AMPLE : WRONG;
}

static int call_pattern_find(const job *it) {
    uint64_t out[4][3], count;
    return hdt_pattern_find(it->graph, &it->given, 0, out, 4) >= 1 && hdt_pattern_matching(it->graph, &it->given) >= 1 && hdt_predicates(it->graph, &count, 1) >= 1 ? AMPLE : WRONG;
}

static int call_text(const job *it) {
    hdt_bytes made = HDT_BYTES_INIT;
    hdt_text_result told;
    int answer;
    hdt_text(it->graph, GIVEN(&any), &made, &told);
    answer = told.reason == HDT_OUT_OF_MEMORY ? (has_nothing(&made) ? TOLD : WRONG) : told.reason == HDT_DONE ? as_made(&made, &it->document) : told.reason == HDT_NOT_A_TERM ? AMPLE : WRONG;
    hdt_free(&made);
    return answer;
}

static int call_page(const job *it) {
    uint64_t out[4][3], next = 7, found;
    out[0][0] = 7;
    found = hdt_page(it->graph, &it->given, 0, out, 4, &next);
    return found == HDT_NO_MEMORY ? (out[0][0] == 7 && next == HDT_ABSENT ? TOLD : WRONG) : found >= 1 && found <= 4 ? AMPLE : WRONG;
}

static int call_pattern_text(const job *it) {
    hdt_bytes made = HDT_BYTES_INIT;
    hdt_text_result told;
    int answer;
    hdt_pattern_text(it->graph, &any, &made, &told);
    answer = told.reason == HDT_OUT_OF_MEMORY ? (has_nothing(&made) ? TOLD : WRONG) : told.reason == HDT_DONE ? as_made(&made, &it->document) : told.reason == HDT_NOT_A_TERM ? AMPLE : WRONG;
    hdt_free(&made);
    return answer;
}

static int call_page_text(const job *it) {
    hdt_bytes made = HDT_BYTES_INIT;
    hdt_text_result told;
    uint64_t next = 7;
    int answer;
    hdt_page_text(it->graph, &any, 0, UINT64_MAX, &made, &next, &told);
    answer = next != HDT_ABSENT ? WRONG : told.reason == HDT_OUT_OF_MEMORY ? (has_nothing(&made) ? TOLD : WRONG) : told.reason == HDT_DONE ? as_made(&made, &it->document) : told.reason == HDT_NOT_A_TERM ? AMPLE : WRONG;
    hdt_free(&made);
    return answer;
}

static int call_term(const job *it) {
    static const uint8_t string[] = "\"a\"^^<http://a/t>";
    hdt_term_parts parts;
    uint32_t reason = hdt_term(string, sizeof string - 1, &parts);
    (void)it;
    return reason == HDT_OUT_OF_MEMORY ? (no_parts(&parts) ? TOLD : WRONG) : reason == HDT_DONE && parts.kind == HDT_TYPED ? AMPLE : WRONG;
}

static int call_term_string(const job *it) {
    uint8_t room[64] = {0};
    uint64_t len = hdt_term_string(HDT_TYPED, (const uint8_t *)"a", 1, (const uint8_t *)"http://a/t", 10, room, sizeof room);
    (void)it;
    return len == HDT_NO_MEMORY ? (room[0] == 0 ? TOLD : WRONG) : len == 17 && memcmp(room, "\"a\"^^<http://a/t>", 18) == 0 ? AMPLE : WRONG;
}

static int call_build(const job *it) {
    hdt_bytes made = HDT_BYTES_INIT;
    hdt_report told;
    int answer;
    hdt_build(it->document.at, it->document.len, base, sizeof base - 1, 16, &made, &told);
    answer = told.reason == HDT_OUT_OF_MEMORY ? (has_nothing(&made) ? TOLD : WRONG) : told.reason == HDT_DONE ? as_made(&made, &it->built) : WRONG;
    hdt_free(&made);
    return answer;
}

static int call_split(const job *it) {
    hdt_bytes made = HDT_BYTES_INIT;
    hdt_split_report told;
    uint64_t ends[3] = {7, 7, 7};
    int answer;
    hdt_split(it->document.at, it->document.len, 3, (const uint8_t *)"", 0, &made, ends, 3, &told);
    answer = told.reason == HDT_OUT_OF_MEMORY ? (has_nothing(&made) && ends[0] == 7 && told.line == 0 ? TOLD : WRONG) : WRONG;
    if (told.reason == HDT_DONE) { /* the document has a line for each triple */
        answer = made.len == it->document.len && ends[2] == made.len && told.triples == it->ample.counts[0] ? AMPLE : WRONG;
    }
    hdt_free(&made);
    return answer;
}

static int call_rewrite(const job *it) {
    hdt_bytes made = HDT_BYTES_INIT;
    hdt_verdict told;
    int answer;
    hdt_rewrite(it->file->at, it->file->len, 16, &made, &told);
    answer = told.reason == HDT_OUT_OF_MEMORY ? (has_nothing(&made) ? TOLD : WRONG) : told.reason == HDT_DONE ? as_made(&made, &it->rewritten) : WRONG;
    hdt_free(&made);
    return answer;
}

static int call_with_header(const job *it) {
    hdt_bytes made = HDT_BYTES_INIT;
    hdt_verdict told;
    hdt_report report;
    int answer;
    put_header(it->file->at, it->file->len, title, &made, &told, &report);
    answer = told.reason == HDT_OUT_OF_MEMORY ? (report.reason == HDT_OUT_OF_MEMORY && has_nothing(&made) ? TOLD : WRONG) : WRONG;
    if (told.reason == HDT_DONE && report.reason == HDT_DONE) {
        answer = same_verdict(&told, &it->ample) && made.len > sizeof title ? AMPLE : WRONG;
    }
    hdt_free(&made);
    return answer;
}

static int two_merged(const job *it, uint32_t blank_nodes, const hdt_bytes *ample) {
    hdt_graph two[2] = {HDT_GRAPH_INIT, HDT_GRAPH_INIT}, was[2];
    hdt_bytes made = HDT_BYTES_INIT;
    hdt_report told = {HDT_OUT_OF_MEMORY, 0, 0, {0}};
    int answer = TOLD;
    if (hdt_share(it->graph, &two[0]) == HDT_DONE && hdt_share(it->graph, &two[1]) == HDT_DONE) {
        memcpy(was, two, sizeof was);
        if (blank_nodes == HDT_BLANK_NODES_ONE) {
            merge(two, 2, &made, &told);
        } else {
            merge_with(two, 2, blank_nodes, &made, &told);
        }
        answer = told.reason == HDT_OUT_OF_MEMORY ? (has_nothing(&made) && told.counts[0] == 0 ? TOLD : WRONG) : told.reason == HDT_DONE ? as_made(&made, ample) : WRONG;
        answer = memcmp(was, two, sizeof was) == 0 && hdt_len(&two[1]) == it->ample.counts[0] ? answer : WRONG;
    }
    hdt_close(&two[0]);
    hdt_close(&two[1]);
    hdt_free(&made);
    return answer;
}

static int call_merge(const job *it) { return two_merged(it, HDT_BLANK_NODES_ONE, &it->merged); }

static int call_merge_apart(const job *it) { return two_merged(it, HDT_BLANK_NODES_APART, &it->apart); }

static long refusals_told; /* of memory that was refused */

static void refuse_each(const char *what, int (*call)(const job *), const job *it) {
    const char *name = current;
    char named[300];
    long k, before = live;
    int answer = WRONG;
    snprintf(named, sizeof named, "%s, %s", name, what);
    current = named;
    for (k = 0; k < 4000; k++) {
        long refusals = refused;
        once = k % 2;
        left = k / 2;
        answer = call(it);
        left = -1;
        if (!CHECK(answer == AMPLE || answer == TOLD) || !CHECK(live == before) || refused == refusals) {
            break; /* wrong, or nothing was refused any more */
        }
        refusals_told += answer == TOLD;
    }
    CHECK(answer == AMPLE);
    current = name;
}

static void refuse(const guarded *file, const hdt_verdict *verdict) {
    hdt_graph graph = HDT_GRAPH_INIT;
    hdt_verdict told;
    hdt_report report;
    hdt_text_result outcome;
    uint8_t string[4096];
    job it = {file, &graph, any, *verdict, HDT_BYTES_INIT, HDT_BYTES_INIT, HDT_BYTES_INIT, HDT_BYTES_INIT, HDT_BYTES_INIT};
    hdt_graph two[2] = {HDT_GRAPH_INIT, HDT_GRAPH_INIT};
    refuse_each("verify", call_verify, &it);
    refuse_each("verify tight", call_verify_tight, &it);
    refuse_each("term", call_term, &it);
    refuse_each("term string", call_term_string, &it);
    refuse_each("open", call_open, &it);
    if (verdict->reason != HDT_DONE) {
        return;
    }
    hdt_open(file->at, file->len, &graph, &told);
    it.given.p = given_string(string, hdt_string(&graph, HDT_PREDICATE, 1, string, sizeof string));
    if (it.given.p.len <= sizeof string) {
        refuse_each("number", call_number, &it);
        refuse_each("find", call_find, &it);
        refuse_each("pattern find", call_pattern_find, &it);
        refuse_each("page", call_page, &it);
    }
    refuse_each("share", call_share, &it);
    refuse_each("string", call_string, &it);
    refuse_each("strings", call_strings, &it);
    refuse_each("header", call_header, &it);
    hdt_text(&graph, GIVEN(&any), &it.document, &outcome);
    refuse_each("text", call_text, &it);
    refuse_each("pattern text", call_pattern_text, &it);
    refuse_each("page text", call_page_text, &it);
    if (outcome.reason == HDT_DONE) {
        hdt_build(it.document.at, it.document.len, base, sizeof base - 1, 16, &it.built, &report);
        refuse_each("build", call_build, &it);
        refuse_each("split", call_split, &it);
    }
    hdt_rewrite(file->at, file->len, 16, &it.rewritten, &told);
    refuse_each("rewrite", call_rewrite, &it);
    refuse_each("with header", call_with_header, &it);
    merge(&graph, 1, &it.merged, &report);
    refuse_each("merge", call_merge, &it);
    CHECK(hdt_share(&graph, &two[0]) == HDT_DONE && hdt_share(&graph, &two[1]) == HDT_DONE);
    merge_with(two, 2, HDT_BLANK_NODES_APART, &it.apart, &report);
    refuse_each("merge apart", call_merge_apart, &it);
    hdt_close(&two[0]);
    hdt_close(&two[1]);
    hdt_free(&it.apart);
    hdt_free(&it.document);
    hdt_free(&it.built);
    hdt_free(&it.rewritten);
    hdt_free(&it.merged);
    CHECK(hdt_len(&graph) == verdict->counts[0]);
    hdt_close(&graph);
}

/* ---- files whose strings are all used */

/* hdt_verify_tight says what hdt_verify does, or that a string of a valid file isn't used. */
static void tight(const guarded *file, const hdt_verdict *verdict) {
    hdt_verdict told;
    long before = live;
    hdt_verify_tight(file->at, file->len, &told);
    if (verdict->reason == HDT_DONE && told.reason != HDT_DONE) {
        CHECK(told.reason == HDT_FILE_UNUSED && told.place > 0 && told.place < file->len && told.counts[0] == 0);
    } else {
        CHECK(same_verdict(verdict, &told));
    }
    CHECK(live == before);
}

/* ---- damaged files: verify, open and rewrite agree on them */

static long seen[256]; /* of each reason, how many files had it */

/* Whether a valid file is the one before but for the body of its header: then the calls on its graph take the same path. */
static int is_as_before(hdt_graph *graph, const guarded *file) {
    static uint8_t before[1 << 16], body[1 << 16];
    static size_t before_len;
    uint64_t len = hdt_header(graph, body, sizeof body);
    const uint8_t *found = len <= sizeof body ? memmem(file->at, file->len, body, len) : NULL;
    size_t front = found ? (size_t)(found - file->at) : 0, rest = file->len - front - (found ? len : 0);
    int same = found && before_len == front + rest && memcmp(before, file->at, front) == 0 && memcmp(before + front, file->at + front + len, rest) == 0;
    before_len = found && front + rest <= sizeof before ? front + rest : 0;
    if (before_len > 0) {
        memcpy(before, file->at, front);
        memcpy(before + front, file->at + front + len, rest);
    }
    return same;
}

static void agree(const uint8_t *bytes, size_t len) {
    guarded file = guarded_copy(bytes, len);
    hdt_graph graph = HDT_GRAPH_INIT;
    hdt_bytes out = HDT_BYTES_INIT;
    hdt_verdict verdict, told;
    seal(&file);
    hdt_verify(file.at, len, &verdict);
    hdt_open(file.at, len, &graph, &told);
    CHECK(same_verdict(&verdict, &told) && graph.state == (told.reason == HDT_DONE));
    tight(&file, &verdict);
    seen[told.reason & 255]++;
    if (told.reason != HDT_DONE) {
        CHECK(told.reason >= 1 && told.reason <= 33 && told.place <= len);
        hdt_rewrite(file.at, len, 16, &out, &told);
        CHECK(same_verdict(&verdict, &told) && has_nothing(&out));
    } else if (is_as_before(&graph, &file)) {
        header(&graph, &file);
    } else {
        look_ups(&graph, &verdict);
        searches(&graph);
    }
    hdt_close(&graph);
    let_go(&file);
}

/* Many files in one: before each its length, in four bytes, the low one first. */
static void each_of(const guarded *files) {
    size_t at = 0;
    while (at < files->len) {
        const uint8_t *head = files->at + at;
        size_t len = head[0] | head[1] << 8 | head[2] << 16 | (size_t)head[3] << 24;
        agree(head + 4, len);
        end_case();
        at += 4 + len;
    }
}

static void damage(const guarded *file) {
    uint8_t *changed = malloc(file->len + 1);
    size_t i, k;
    for (i = 0; i < file->len; i++) {
        agree(file->at, i);
    }
    memcpy(changed, file->at, file->len);
    for (i = 0; i < file->len; i++) {
        static const uint8_t flips[] = {1, 0x80, 0xFF};
        for (k = 0; k < 3; k++) {
            changed[i] = file->at[i] ^ flips[k];
            agree(changed, file->len);
        }
        changed[i] = file->at[i];
    }
    changed[file->len] = 0;
    agree(changed, file->len + 1);
    free(changed);
}

/* ---- threads: a graph each, one behind a lock, and a handle each of one graph */

static const guarded *common;
static hdt_graph shared = HDT_GRAPH_INIT;
static hdt_thread_graph own[4]; /* zeroed */
static pthread_mutex_t lock = PTHREAD_MUTEX_INITIALIZER;

static long asked(hdt_graph *graph, int locked, uint64_t seed) {
    uint8_t string[2048];
    uint64_t i, out[4][3];
    long wrong = 0;
    hdt_pattern given = any;
    for (i = 0; i < 2000; i++) {
        uint64_t count, number, len, other, found;
        if (locked) {
            pthread_mutex_lock(&lock);
        }
        count = hdt_count(graph, HDT_SUBJECT);
        number = (i * 7919 + seed) % count + 1;
        len = hdt_string(graph, HDT_SUBJECT, number, string, sizeof string);
        given.s = given_string(string, len <= sizeof string ? len : 0);
        other = len <= sizeof string ? hdt_number(graph, HDT_SUBJECT, string, len) : number;
        found = find(graph, &given, 0, out, 4);
        if (locked) {
            pthread_mutex_unlock(&lock);
        }
        wrong += other != number || found > 4 || (found > 0 && out[0][0] != number);
    }
    return wrong;
}

static void *alone(void *seed) {
    hdt_graph graph = HDT_GRAPH_INIT;
    hdt_verdict verdict;
    long wrong;
    hdt_open(common->at, common->len, &graph, &verdict);
    wrong = verdict.reason != HDT_DONE ? 1 : asked(&graph, 0, (uint64_t)(size_t)seed);
    hdt_close(&graph);
    return (void *)wrong;
}

static void *together(void *seed) { return (void *)asked(&shared, 1, (uint64_t)(size_t)seed); }

/* With a handle that this thread's own one is shared into, while the other threads search theirs and close them. */
static void *with_own_handle(void *seed) {
    hdt_graph *graph = &own[(size_t)seed - 1].graph;
    hdt_thread_graph more = HDT_THREAD_GRAPH_INIT;
    long wrong = asked(graph, 0, (uint64_t)(size_t)seed);
    wrong += hdt_share(graph, &more.graph) != HDT_DONE;
    hdt_close(graph);
    wrong += asked(&more.graph, 0, (uint64_t)(size_t)seed) + (more.graph.state != 1);
    hdt_close(&more.graph);
    return (void *)wrong;
}

static void threads(const guarded *file) {
    static void *(*const kinds[])(void *) = {alone, together, with_own_handle};
    pthread_t thread[4];
    hdt_verdict verdict;
    void *wrong;
    size_t i, kind;
    long before = live;
    common = file;
    hdt_open(file->at, file->len, &shared, &verdict);
    for (kind = 0; kind < 3; kind++) {
        for (i = 0; i < 4; i++) {
            CHECK(kind < 2 || hdt_share(&shared, &own[i].graph) == HDT_DONE);
            CHECK(pthread_create(&thread[i], NULL, kinds[kind], (void *)(i + 1)) == 0);
        }
        if (kind == 2) {
            hdt_close(&shared); /* while the others are in use */
        }
        for (i = 0; i < 4; i++) {
            pthread_join(thread[i], &wrong);
            CHECK(wrong == NULL && is_zeroed(&own[i].graph));
        }
    }
    CHECK(live <= before + 4); /* (what the C library keeps of threads) */
}

/* ---- large input */

typedef struct {
    char *at;
    size_t len, room;
} document;

static void add(document *it, const char *format, unsigned long number, const char *end) {
    size_t needed = strlen(end) + 100;
    if (it->room - it->len < needed) {
        it->room = 2 * it->room + needed;
        it->at = realloc(it->at, it->room);
    }
    it->len += (size_t)snprintf(it->at + it->len, it->room - it->len, format, number, end);
}

/* Builds the document's file, and puts it and its graph through all calls. The document is in the order of a graph's text. */
static void all_of(const document *it, const uint8_t *name, size_t name_len, uint64_t triples) {
    guarded written = guarded_copy(it->at, it->len), file;
    hdt_bytes made = HDT_BYTES_INIT;
    hdt_graph graph = HDT_GRAPH_INIT;
    hdt_text_result outcome;
    hdt_verdict verdict;
    hdt_report report;
    hdt_split_report split;
    uint64_t ends[3];
    long before = live;
    seal(&written);
    hdt_build(written.at, written.len, name, name_len, 16, &made, &report);
    if (!CHECK(report.reason == HDT_DONE && report.counts[0] == triples)) {
        return;
    }
    file = guarded_copy(made.at, made.len);
    seal(&file);
    hdt_split(written.at, written.len, 3, base, 0, &made, ends, 3, &split);
    CHECK(split.reason == HDT_DONE && split.triples == triples && split.lines == triples && made.len == written.len && ends[2] == made.len);
    CHECK(ends[0] <= ends[1] && ends[1] <= ends[2]);
    hdt_free(&made);
    CHECK(live == before);
    hdt_verify(file.at, file.len, &verdict);
    CHECK(verdict.reason == HDT_DONE && memcmp(verdict.counts, report.counts, sizeof verdict.counts) == 0);
    hdt_open(file.at, file.len, &graph, &verdict);
    if (CHECK(verdict.reason == HDT_DONE)) {
        look_ups(&graph, &verdict);
        header(&graph, &file);
        searches(&graph);
        hdt_text(&graph, GIVEN(&any), &made, &outcome);
        CHECK(outcome.reason == HDT_DONE && made.len == it->len && memcmp(made.at, it->at, it->len) == 0);
        hdt_free(&made);
        remake(&graph, &file, &verdict);
        describe(&graph, &file, &verdict);
    }
    hdt_close(&graph);
    CHECK(live == before);
    let_go(&file);
    let_go(&written);
    end_case();
}

enum { LONG = 100000, HANDLES = (1 << 20) + 100 };

/* More than 2^20 handles of one graph, each made of the one before and closed in that order. */
static void many_handles(void) {
    hdt_graph *handles = calloc(HANDLES, sizeof *handles);
    hdt_bytes made = HDT_BYTES_INIT;
    hdt_verdict verdict;
    hdt_report report;
    long before = live, opened, wrong = 0;
    size_t i;
    current = "handles";
    hdt_build((const uint8_t *)"<u:s> <u:p> <u:o> .", 19, base, sizeof base - 1, 16, &made, &report);
    hdt_open(made.at, made.len, &handles[0], &verdict);
    CHECK(verdict.reason == HDT_DONE);
    opened = live;
    for (i = 1; i < HANDLES; i++) {
        wrong += hdt_share(&handles[i - 1], &handles[i]) != HDT_DONE;
    }
    CHECK(wrong == 0 && live == opened + HANDLES - 1);
    for (i = 0; i < HANDLES; i++) {
        wrong += hdt_len(&handles[i]) != 1;
        hdt_close(&handles[i]);
        wrong += !is_zeroed(&handles[i]);
    }
    hdt_free(&made);
    CHECK(wrong == 0 && live == before);
    free(handles);
    end_case();
}

static void large(void) {
    document it = {NULL, 0, 0};
    char *longest = malloc(LONG + 32);
    unsigned long i;
    size_t len;
    current = "70,000 subjects";
    for (i = 0; i < 70000; i++) {
        add(&it, "<http://a/s%07lu> <http://a/p> \"%s\" .\n", i, i % 2 ? "x" : "y");
    }
    all_of(&it, base, sizeof base - 1, 70000);
    current = "66,000 predicates";
    it.len = 0;
    for (i = 0; i < 66000; i++) {
        add(&it, "<http://a/s> <http://a/p%07lu> <http://a/%s> .\n", i, "s");
    }
    all_of(&it, base, sizeof base - 1, 66000);
    current = "strings of 100,000 bytes";
    memset(longest, 'x', LONG);
    longest[LONG] = 0;
    it.len = 0;
    for (i = 1; i < 4; i++) {
        add(&it, "<http://a/s%lu%s", i, longest);
        add(&it, "> <http://a/p%lu%s", 1, longest);
        add(&it, "> \"%lu%s\" .\n", i, longest);
        add(&it, "<http://a/s%lu%s", i, longest);
        add(&it, "> <http://a/p%lu%s", 2, longest);
        add(&it, "> <http://b/%lu%s> .\n", i, longest);
    }
    len = (size_t)sprintf(longest, "http://a/");
    memset(longest + len, 'y', LONG);
    all_of(&it, (const uint8_t *)longest, len + LONG, 6);
    free(it.at);
    free(longest);
}

/* What hdt_split says of a text that it splits. */
static int splits(const hdt_split_report *report, uint64_t lines, uint64_t triples, uint32_t has_blank_nodes) {
    return report->reason == HDT_DONE && report->line == 0 && report->column == 0 && report->lines == lines && report->triples == triples &&
           report->has_blank_nodes == has_blank_nodes;
}

/* Splitting into five parts: the CRC-32 of u:s is 41DE8D56, so its part is 4; that of _:b is 1EB46E92, so its part is 1; and that of
 * _:xb is DF8C5324, so its part is 2. */
static void split_texts(void) {
    static const char given[] = "<u:s> <u:p> _:b .\r\n# none\n_:b<u:p><u:o>. # last\n\n<\\u0075:s> <u:p> \"1\" .";
    static const char plain[] = "_:b<u:p><u:o>. # last\n<u:s> <u:p> _:b .\r\n<\\u0075:s> <u:p> \"1\" .\n";
    static const char prefixed[] = "_:xb<u:p><u:o>. # last\n<u:s> <u:p> _:xb .\r\n<\\u0075:s> <u:p> \"1\" .\n";
    static const uint32_t bad[] = {0, 65537, UINT32_MAX};
    guarded text = guarded_copy(given, sizeof given - 1), prefix = guarded_copy("x", 1);
    hdt_bytes out = HDT_BYTES_INIT;
    hdt_split_report report;
    uint64_t ends[6] = {7, 7, 7, 7, 7, 7};
    size_t i;
    long before = live;
    hdt_split(text.at, text.len, 5, prefix.at, 0, &out, ends, 6, &report);
    CHECK(splits(&report, 5, 3, 1) && out.len == sizeof plain - 1 && memcmp(out.at, plain, out.len) == 0);
    CHECK(ends[0] == 0 && ends[1] == 22 && ends[2] == 22 && ends[3] == 22 && ends[4] == out.len && ends[5] == 7);
    ends[3] = 7;
    hdt_split(text.at, text.len, 5, prefix.at, 1, &out, ends, 3, &report);
    CHECK(splits(&report, 5, 3, 1) && out.len == sizeof prefixed - 1 && memcmp(out.at, prefixed, out.len) == 0);
    CHECK(ends[0] == 0 && ends[1] == 0 && ends[2] == 23 && ends[3] == 7);
    hdt_split(text.at, 19, 65536, prefix.at, 0, &out, ends, 0, &report);
    CHECK(splits(&report, 1, 1, 1) && out.len == 19 && memcmp(out.at, given, 19) == 0 && ends[0] == 0);
    for (i = 0; i < 3; i++) { /* what out had is freed */
        hdt_split(text.at, text.len, 1, prefix.at, 0, &out, ends, 0, &report);
        CHECK(splits(&report, 5, 3, 1) && out.state == 1 && live > before);
        hdt_split(text.at, text.len, bad[i], prefix.at, 0, &out, ends, 6, &report);
        CHECK(report.reason == HDT_BAD_OPTIONS && report.line == 0 && report.column == 0 && report.lines == 0 && report.triples == 0);
        CHECK(report.has_blank_nodes == 0 && has_nothing(&out) && ends[5] == 7 && live == before);
    }
    let_go(&text);
    let_go(&prefix);
}

/* Texts and what is said of them. */
static void texts(void) {
    static const struct {
        const char *text;
        uint32_t reason;
        uint64_t line, column;
    } cases[] = {
        {"", HDT_NO_TRIPLES, 0, 0},
        {"# nothing\n\n", HDT_NO_TRIPLES, 0, 0},
        {"<u:s> <u:p> <u:o> . x", 1, 1, 21},
        {"<u:s> <u:p>", 1, 1, 12},
        {"# \xFF", 2, 1, 3},
        {"<u:s> <u:p> \"\\x\" .", 3, 1, 14},
        {"<u:s> <u:p> <u:o> .\n<u:s> <u:p> <o> .\n", 4, 2, 13},
        {"<u:s> <u:p> <u:\\u0020> .", 5, 1, 16},
        {"\n\n<u:s> <u:p> \"\\u0000\" .", 6, 3, 14},
    };
    hdt_bytes out = HDT_BYTES_INIT;
    hdt_report report;
    hdt_split_report split;
    uint64_t ends[2] = {7, 7};
    size_t i;
    long before = live;
    current = "texts";
    split_texts();
    for (i = 0; i < sizeof cases / sizeof *cases; i++) {
        guarded text = guarded_copy(cases[i].text, strlen(cases[i].text));
        hdt_build((const uint8_t *)"<u:s> <u:p> <u:o> .", 19, base, sizeof base - 1, 16, &out, &report);
        CHECK(report.reason == HDT_DONE && out.state == 1 && out.len > 0);
        hdt_build(text.at, text.len, base, sizeof base - 1, 16, &out, &report);
        CHECK(report.reason == cases[i].reason && report.line == cases[i].line && report.column == cases[i].column);
        CHECK(report.counts[0] == 0 && has_nothing(&out) && live == before);
        hdt_split(text.at, text.len, 2, base, 0, &out, ends, 2, &split);
        if (cases[i].reason == HDT_NO_TRIPLES) {
            CHECK(splits(&split, i ? 2 : 0, 0, 0) && out.len == 0 && ends[0] == 0 && ends[1] == 0);
            ends[0] = ends[1] = 7;
            hdt_free(&out);
        } else {
            CHECK(split.reason == cases[i].reason && split.line == cases[i].line && split.column == cases[i].column);
            CHECK(split.lines == 0 && split.triples == 0 && has_nothing(&out) && ends[0] == 7 && ends[1] == 7 && live == before);
        }
        let_go(&text);
    }
    hdt_free(&out);
    CHECK(has_nothing(&out));
    end_case();
}

/* ---- */

static int read_file(const char *path, guarded *file) {
    FILE *from = fopen(path, "rb");
    int done;
    if (!from || fseek(from, 0, SEEK_END) != 0) {
        return 0;
    }
    *file = guard((size_t)ftell(from));
    rewind(from);
    done = fread(file->at, 1, file->len, from) == file->len;
    fclose(from);
    seal(file);
    return done;
}

static void test(const guarded *file) {
    hdt_graph graph = HDT_GRAPH_INIT;
    hdt_verdict verdict, told;
    long before = live;
    closed(&graph);
    hdt_verify(file->at, file->len, &verdict);
    hdt_open(file->at, file->len, &graph, &told);
    CHECK(same_verdict(&verdict, &told) && graph.state == (told.reason == HDT_DONE));
    tight(file, &verdict);
    if (told.reason == HDT_DONE) {
        look_ups(&graph, &verdict);
        header(&graph, file);
        searches(&graph);
        opened_again(&graph, file, &verdict);
        shares(&graph, file, file->len < 1000 ? 24 : 1);
        remake(&graph, file, &verdict);
        describe(&graph, file, &verdict);
        merges(&graph, &verdict);
        threads(file);
    }
    hdt_close(&graph);
    closed(&graph);
    CHECK(live <= before + 4);
    if (file->len < 20000) {
        refuse(file, &verdict);
    }
    if (file->len < 1000) {
        damage(file);
    }
}

int main(int argc, char **argv) {
    int small = argc > 1 && strcmp(argv[1], "--small") == 0, each = argc > 1 && strcmp(argv[1], "--each") == 0, i;
    long reasons = 0;
    for (i = 1 + small + each; i < argc; i++) {
        guarded file;
        current = argv[i];
        if (CHECK(read_file(argv[i], &file))) {
            (each ? each_of : test)(&file);
            let_go(&file);
        }
        if (!each) {
            end_case();
        }
    }
    if (!each) {
        texts();
        terms();
        names();
    }
    if (!each && !small) {
        many_handles();
        large();
    }
    for (i = 1; i < 256; i++) {
        reasons += seen[i] > 0;
    }
    printf("%ld checks, %ld growths refused, %ld of them told; of damaged files %ld are files, the others have %ld reasons\n", checks, refused, refusals_told, seen[0], reasons);
    printf("%ld passed, %ld failed\n", passed, failed);
    return failed_checks ? 1 : 0;
}
