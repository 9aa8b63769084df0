/* speed FILE: the CPU time of the calls on an HDT file, as rows of a table in Markdown. Nothing of it is proved.
 *
 *     cc -O2 -o speed speed.c $(pkg-config --cflags --libs hdt)
 */
#define _POSIX_C_SOURCE 199309L
#include "hdt.h"
#include <stdio.h>
#include <stdlib.h>
#include <time.h>

enum { LOOKS = 100000, ROOM = 1 << 20 };
static uint8_t strings[LOOKS][256];
static uint64_t lens[LOOKS], numbers[LOOKS], found[4096][3];

static double now(void) {
    struct timespec time;
    clock_gettime(CLOCK_PROCESS_CPUTIME_ID, &time);
    return (double)time.tv_sec * 1e6 + (double)time.tv_nsec / 1e3;
}

/* A row: microseconds since `begin` for each of so many. */
static void row(const char *what, double begin, uint64_t count) {
    double each = (now() - begin) / (double)(count ? count : 1);
    printf("| %s | %llu | %.3f |\n", what, (unsigned long long)count, each);
}

enum { RUNS = 7 };

/* All matches of a pattern by one call, and by pages of each size: the least of several runs. */
static void page_rows(hdt_graph *graph, const char *what, const hdt_pattern *pattern, uint64_t (*out)[3]) {
    static const size_t sizes[] = {0, 100, 1000, 10000, 100000}; /* 0: one call of hdt_pattern_find */
    uint64_t count = hdt_pattern_matching(graph, pattern), put, next;
    double begin, took, least, once = 0;
    size_t i, run;
    if (count == 0 || count > ROOM) {
        return;
    }
    for (i = 0; i < sizeof sizes / sizeof *sizes; i++) {
        for (run = 0, least = 0; run < RUNS; run++) {
            begin = now();
            if (sizes[i] == 0) {
                put = hdt_pattern_find(graph, pattern, 0, out, count);
            } else {
                for (put = 0, next = 0; next < HDT_CLOSED;) {
                    uint64_t found = hdt_page(graph, pattern, next, out + put, put + sizes[i] < ROOM ? sizes[i] : ROOM - put, &next);
                    if (found > count) {
                        return;
                    }
                    put += found;
                }
            }
            took = (now() - begin) / (double)put;
            least = run == 0 || took < least ? took : least;
        }
        once = i == 0 ? least : once;
        printf(i == 0 ? "| %s by one call | %llu | %.4f |\n" : "| %s by pages | %llu | %.4f (%.2f times, pages of %u) |\n", what,
               (unsigned long long)put, least, least / once, (unsigned)sizes[i]);
    }
}

int main(int argc, char **argv) {
    FILE *file = argc == 2 ? fopen(argv[1], "rb") : NULL;
    hdt_graph graph = HDT_GRAPH_INIT;
    hdt_bytes text = HDT_BYTES_INIT, made = HDT_BYTES_INIT;
    hdt_text_result outcome;
    hdt_report report;
    hdt_verdict verdict;
    hdt_pattern all = HDT_PATTERN_INIT, of_predicate = HDT_PATTERN_INIT, of_object = HDT_PATTERN_INIT;
    uint64_t(*triples)[3] = calloc(ROOM, sizeof *triples);
    uint64_t i, count, sum = 0;
    const uint8_t *any = (const uint8_t *)"";
    uint8_t *bytes;
    size_t len;
    double begin;
    if (!file || !triples || fseek(file, 0, SEEK_END) != 0) {
        fprintf(stderr, "usage: speed FILE\n");
        return 2;
    }
    len = (size_t)ftell(file);
    rewind(file);
    bytes = malloc(len + 1);
    if (!bytes || fread(bytes, 1, len, file) != len) {
        return 2;
    }
    printf("| call | how many | microseconds each |\n|---|---|---|\n");
    begin = now();
    hdt_verify(bytes, len, &verdict);
    row("verify", begin, 1);
    begin = now();
    hdt_open(bytes, len, &graph, &verdict);
    row("open", begin, 1);
    if (verdict.reason != HDT_DONE) {
        return 1;
    }
    count = hdt_count(&graph, HDT_SUBJECT);
    for (i = 0; i < LOOKS; i++) {
        numbers[i] = i * 7919 % count + 1;
    }
    begin = now();
    for (i = 0; i < LOOKS; i++) {
        lens[i] = hdt_string(&graph, HDT_SUBJECT, numbers[i], strings[i], sizeof strings[i]);
    }
    row("string", begin, LOOKS);
    begin = now();
    for (i = 0; i < LOOKS; i++) {
        sum += lens[i] <= sizeof strings[i] && hdt_number(&graph, HDT_SUBJECT, strings[i], lens[i]) != numbers[i];
    }
    row("number", begin, LOOKS);
    begin = now();
    for (i = 0; i < LOOKS; i++) {
        count += hdt_find(&graph, 1, strings[i], lens[i], 0, any, 0, 0, any, 0, 0, found, 4096);
    }
    row("find of a subject", begin, LOOKS);
    begin = now();
    for (i = 0; i < LOOKS; i++) {
        count += hdt_matching(&graph, 1, strings[i], lens[i], 0, any, 0, 0, any, 0);
    }
    row("matching of a subject", begin, LOOKS);
    of_predicate.p.kind = of_object.o.kind = HDT_ID;
    of_predicate.p.id = of_object.o.id = 1;
    page_rows(&graph, "all triples", &all, triples);
    page_rows(&graph, "triples of predicate 1", &of_predicate, triples);
    page_rows(&graph, "triples of object 1", &of_object, triples);
    begin = now();
    hdt_text(&graph, 0, any, 0, 0, any, 0, 0, any, 0, &text, &outcome);
    row("text of all, a triple", begin, hdt_len(&graph));
    begin = now();
    hdt_build(text.at, text.len, (const uint8_t *)"http://a/", 9, 16, &made, &report);
    row("build of that text, a triple", begin, hdt_len(&graph));
    begin = now();
    hdt_rewrite(bytes, len, 16, &made, &verdict);
    row("rewrite, a triple", begin, hdt_len(&graph));
    hdt_free(&text);
    hdt_free(&made);
    hdt_close(&graph);
    free(bytes);
    free(triples);
    return sum != 0;
}
