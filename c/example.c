/* example FILE [SUBJECT [PREDICATE [OBJECT]]]: counts what is in an HDT file, and prints the triples that match, as N-Triples.
 * The words are dictionary strings, as http://a/b or "x"@en with its quotes; ? is any.
 *
 *     cc -o example example.c $(pkg-config --cflags --libs hdt) -Wl,-rpath,"$(pkg-config --variable=libdir hdt)"
 */
#include "hdt.h"
#include <stdio.h>
#include <stdlib.h>
#include <string.h>

/* All bytes of a file or a pipe, or NULL if it cannot be read. There is always room for one byte more, so that an empty file has an
 * address. */
static uint8_t *read_file(const char *path, size_t *len) {
    FILE *file = fopen(path, "rb");
    size_t room = 1 << 16, got;
    uint8_t *bytes = malloc(room), *more;
    *len = 0;
    while (file && bytes && (got = fread(bytes + *len, 1, room - *len, file)) > 0) {
        *len += got;
        if (*len == room) {
            more = room > SIZE_MAX / 2 ? NULL : realloc(bytes, room * 2);
            if (!more) {
                free(bytes);
            }
            bytes = more;
            room *= 2;
        }
    }
    if (!file || ferror(file)) {
        free(bytes);
        bytes = NULL;
    }
    if (file) {
        fclose(file);
    }
    return bytes;
}

/* Prints the triples that have each string that isn't "?". */
static int print_matches(hdt_graph *graph, const char *subject, const char *predicate, const char *object) {
    int has_s = strcmp(subject, "?") != 0, has_p = strcmp(predicate, "?") != 0, has_o = strcmp(object, "?") != 0;
    const uint8_t *s = (const uint8_t *)subject, *p = (const uint8_t *)predicate, *o = (const uint8_t *)object;
    hdt_bytes text = HDT_BYTES_INIT;
    hdt_text_result outcome;
    hdt_text(graph, has_s, s, strlen(subject), has_p, p, strlen(predicate), has_o, o, strlen(object), &text, &outcome);
    if (outcome.reason == HDT_DONE) {
        fwrite(text.at, 1, text.len, stdout);
    } else {
        fprintf(stderr, "reason %u: role %u, number %llu\n", outcome.reason, outcome.role, (unsigned long long)outcome.number);
    }
    hdt_free(&text);
    return outcome.reason == HDT_DONE ? 0 : 1;
}

int main(int argc, char **argv) {
    size_t len = 0;
    uint8_t *bytes, name[HDT_NAME_ROOM] = {0};
    hdt_graph graph = HDT_GRAPH_INIT;
    hdt_verdict verdict;
    int status;
    if (argc < 2) {
        fprintf(stderr, "usage: example FILE [SUBJECT [PREDICATE [OBJECT]]]\n");
        return 2;
    }
    bytes = read_file(argv[1], &len);
    if (!bytes) {
        fprintf(stderr, "%s cannot be read\n", argv[1]);
        return 3;
    }
    hdt_open(bytes, len, &graph, &verdict);
    if (verdict.reason != HDT_DONE) {
        hdt_reason_name(verdict.reason, name, sizeof name - 1);
        fprintf(stderr, "reason %u %s at byte %llu\n", verdict.reason, (char *)name, (unsigned long long)verdict.place);
        free(bytes);
        return 1;
    }
    printf("%llu triples, %llu subjects, %llu predicates, %llu objects\n", (unsigned long long)hdt_len(&graph),
           (unsigned long long)hdt_count(&graph, HDT_SUBJECT), (unsigned long long)hdt_count(&graph, HDT_PREDICATE),
           (unsigned long long)hdt_count(&graph, HDT_OBJECT));
    status = print_matches(&graph, argc > 2 ? argv[2] : "?", argc > 3 ? argv[3] : "?", argc > 4 ? argv[4] : "?");
    hdt_close(&graph); /* only now may the bytes go */
    free(bytes);
    return status;
}
