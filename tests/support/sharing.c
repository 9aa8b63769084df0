// sharing THREADS SECONDS MOST SEED FILE..: threads that share, search, hand over and close handles of the files'
// graphs at random, for so many seconds, or until each has done MOST things (0: no limit). Each answer is compared with
// that of a graph that one thread opened and asked alone. It prints 'N things, N graphs, N wrong, N blocks left', and
// its status is 0 if nothing is wrong or left. It is linked with malloc, realloc and free wrapped.
#define _GNU_SOURCE
#include "hdt.h"
#include <pthread.h>
#include <stdatomic.h>
#include <stdio.h>
#include <stdlib.h>
#include <time.h>

enum { MOST_FILES = 4, MOST_THREADS = 64, QUERIES = 256, OWN = 4, BOXES = 4 };

// A file, what it is asked, and the answers as numbers.
typedef struct {
    uint8_t *bytes;
    size_t len;
    uint64_t seeds[QUERIES], answers[QUERIES];
} source;

// A handle, and the file of its graph.
typedef struct {
    hdt_thread_graph handle;
    int file;
} place;

// Where a thread leaves a handle for any other thread.
typedef struct {
    pthread_mutex_t lock;
    place left_here;
} box;

static source sources[MOST_FILES];
static box boxes[BOXES];
static int files;
static double seconds;
static long most;
static atomic_long things, wrong, opened, live;
static struct timespec began;

// ---- blocks of memory

void *__real_malloc(size_t size);
void *__real_realloc(void *old, size_t size);
void __real_free(void *old);

void *__wrap_malloc(size_t size) {
    void *made = __real_malloc(size);
    live += made != NULL;
    return made;
}

void *__wrap_realloc(void *old, size_t size) {
    void *made = __real_realloc(old, size);
    live += made != NULL && old == NULL;
    return made;
}

void __wrap_free(void *old) {
    live -= old != NULL;
    __real_free(old);
}

// ---- queries

static uint64_t drawn(uint64_t *state) {
    *state ^= *state << 13;
    *state ^= *state >> 7;
    *state ^= *state << 17;
    return *state;
}

static uint64_t mix(uint64_t sum, const void *bytes, size_t len) {
    const uint8_t *at = bytes;
    size_t i;
    for (i = 0; i < len; i++) {
        sum = (sum ^ at[i]) * 0x100000001B3u;
    }
    return sum;
}

static uint64_t mix_number(uint64_t sum, uint64_t number) { return mix(sum, &number, sizeof number); }

// A pattern of IDs of a triple that is there, or of none.
static hdt_pattern pattern_of(hdt_graph *graph, uint64_t seed) {
    static const hdt_pattern any = HDT_PATTERN_INIT;
    hdt_pattern pattern = any;
    hdt_part *parts[3] = {&pattern.s, &pattern.p, &pattern.o};
    uint64_t triple[1][3] = {{1, 1, 1}}, next, role;
    hdt_page(graph, &any, seed % (hdt_len(graph) + 1), triple, 1, &next);
    for (role = 0; role < 3; role++) {
        if (seed >> (20 + role) & 1) {
            parts[role]->kind = HDT_ID;
            parts[role]->id = triple[0][role];
        }
    }
    return pattern;
}

static uint64_t page_answer(hdt_graph *graph, uint64_t seed) {
    hdt_pattern pattern = pattern_of(graph, seed);
    uint64_t out[16][3], next = 0, found = hdt_page(graph, &pattern, 0, out, 1 + seed % 16, &next);
    uint64_t sum = mix(mix_number(found, next), out, found < 17 ? found * sizeof *out : 0);
    return mix_number(sum, hdt_pattern_matching(graph, &pattern));
}

static uint64_t text_answer(hdt_graph *graph, uint64_t seed) {
    hdt_pattern pattern = pattern_of(graph, seed);
    hdt_bytes text = HDT_BYTES_INIT;
    hdt_text_result outcome;
    uint64_t next, sum;
    hdt_page_text(graph, &pattern, 0, 1 + seed % 16, &text, &next, &outcome);
    sum = mix(mix_number(outcome.reason, next), text.at, text.len);
    hdt_free(&text);
    return sum;
}

static uint64_t strings_answer(hdt_graph *graph, uint64_t seed) {
    uint64_t count = hdt_count(graph, HDT_OBJECT), numbers[8], ends[8], i, sum;
    hdt_bytes out = HDT_BYTES_INIT;
    for (i = 0; i < 8; i++) {
        numbers[i] = (seed >> i * 4) % count + 1;
    }
    sum = hdt_strings(graph, HDT_OBJECT, numbers, 8, &out, ends, 8);
    sum = mix(mix(sum, ends, sizeof ends), out.at, out.len);
    hdt_free(&out);
    return sum;
}

// A string of a role, its ID in each role, and the IDs of those that begin as it does.
static uint64_t string_answer(hdt_graph *graph, uint64_t seed) {
    uint8_t string[512];
    hdt_ranges ranges = {{0, 0}, {0, 0}};
    uint32_t role = seed % 3;
    uint64_t len = hdt_string(graph, role, (seed >> 8) % hdt_count(graph, role) + 1, string, sizeof string), sum = len;
    size_t kept = len < sizeof string ? len : sizeof string;
    sum = mix(sum, string, kept);
    for (role = 0; role < 3; role++) {
        sum = mix_number(sum, hdt_number(graph, role, string, kept));
        sum = mix_number(sum, hdt_prefix(graph, role, string, kept / 2, &ranges));
    }
    return mix(sum, &ranges, sizeof ranges);
}

static uint64_t count_answer(hdt_graph *graph) {
    uint64_t counts[64] = {0};
    uint64_t sum = mix_number(hdt_len(graph), hdt_predicates(graph, counts, 64));
    return mix(sum, counts, sizeof counts);
}

static uint64_t header_answer(hdt_graph *graph) {
    uint8_t body[4096];
    uint64_t len = hdt_header(graph, body, sizeof body);
    return mix(len, body, len < sizeof body ? len : sizeof body);
}

static uint64_t answer(hdt_graph *graph, uint64_t seed) {
    switch (seed >> 40 & 7) {
    case 0: return text_answer(graph, seed);
    case 1: return strings_answer(graph, seed);
    case 2: return string_answer(graph, seed);
    case 3: return seed >> 44 & 7 ? hdt_len(graph) : count_answer(graph);
    case 4: return header_answer(graph);
    default: return page_answer(graph, seed);
    }
}

// ---- what a thread does

static int is_open(const place *it) { return it->handle.graph.state == 1; }

static void open_at(place *to, int file) {
    hdt_verdict verdict;
    hdt_open(sources[file].bytes, sources[file].len, &to->handle.graph, &verdict);
    wrong += verdict.reason != HDT_DONE || !is_open(to);
    to->file = file;
    opened++;
}

static void share_to(place *from, place *to) {
    uint32_t reason = hdt_share(&from->handle.graph, &to->handle.graph);
    wrong += reason != HDT_DONE || !is_open(from) || !is_open(to);
    to->file = from->file;
}

static void close_at(place *it) {
    hdt_close(&it->handle.graph);
    wrong += it->handle.graph.state != 0 || it->handle.graph.at != NULL || hdt_len(&it->handle.graph) != HDT_CLOSED;
}

static void search_at(place *it, uint64_t seed) {
    const source *from = &sources[it->file];
    uint64_t k = seed % QUERIES;
    wrong += answer(&it->handle.graph, from->seeds[k]) != from->answers[k];
}

// Leaves a handle in a box that is empty, or takes what is in a full one.
static void exchange(place *mine, box *with) {
    pthread_mutex_lock(&with->lock);
    if (is_open(mine) && !is_open(&with->left_here)) {
        share_to(mine, &with->left_here);
        close_at(mine);
    } else if (!is_open(mine) && is_open(&with->left_here)) {
        share_to(&with->left_here, mine);
        close_at(&with->left_here);
    }
    pthread_mutex_unlock(&with->lock);
}

// One thing: mostly a search; of a handle that is closed, most often a share of another one.
static void do_one(place *own, uint64_t seed) {
    place *it = &own[seed % OWN], *other = &own[(seed >> 8) % OWN];
    unsigned what = seed >> 16 & 15;
    if (what == 0) {
        exchange(it, &boxes[(seed >> 24) % BOXES]);
    } else if (!is_open(it) && is_open(other)) {
        share_to(other, it);
    } else if (!is_open(it)) {
        open_at(it, (int)((seed >> 24) % (uint64_t)files));
    } else if (what < 4) {
        close_at(it);
    } else if (it != other && is_open(other) && what == 4) {
        wrong += hdt_share(&it->handle.graph, &other->handle.graph) != HDT_IS_OPEN;
    } else {
        search_at(it, seed >> 24);
    }
}

static double elapsed(void) {
    struct timespec now;
    clock_gettime(CLOCK_MONOTONIC, &now);
    return (double)(now.tv_sec - began.tv_sec) + 1e-9 * (double)(now.tv_nsec - began.tv_nsec);
}

static void *work(void *given) {
    static const place closed = {HDT_THREAD_GRAPH_INIT, 0};
    uint64_t seed = (uint64_t)(size_t)given;
    place own[OWN];
    long done;
    int i;
    for (i = 0; i < OWN; i++) {
        own[i] = closed;
    }
    for (done = 0; (most == 0 || done < most) && (done % 64 != 0 || elapsed() < seconds); done++) {
        do_one(own, drawn(&seed));
    }
    for (i = 0; i < OWN; i++) {
        close_at(&own[i]);
    }
    things += done;
    return NULL;
}

// ---- main

// Reads a file and asks its graph, opened alone.
static int prepare(source *it, const char *path) {
    FILE *file = fopen(path, "rb");
    hdt_graph graph = HDT_GRAPH_INIT;
    hdt_verdict verdict;
    uint64_t state = 88172645463325252u;
    int i;
    if (!file || fseek(file, 0, SEEK_END) != 0) {
        return 0;
    }
    it->len = (size_t)ftell(file);
    it->bytes = malloc(it->len + 1);
    rewind(file);
    it->len = fread(it->bytes, 1, it->len, file);
    fclose(file);
    hdt_open(it->bytes, it->len, &graph, &verdict);
    for (i = 0; i < QUERIES && verdict.reason == HDT_DONE; i++) {
        it->seeds[i] = drawn(&state);
        it->answers[i] = answer(&graph, it->seeds[i]);
    }
    hdt_close(&graph);
    return verdict.reason == HDT_DONE;
}

int main(int argc, char **argv) {
    pthread_t threads[MOST_THREADS];
    int count = argc > 5 ? atoi(argv[1]) : 0, i;
    long before = live;
    if (count < 1 || count > MOST_THREADS || argc - 5 > MOST_FILES) {
        return 2;
    }
    seconds = atof(argv[2]);
    most = atol(argv[3]);
    for (files = 0; files < argc - 5; files++) {
        if (!prepare(&sources[files], argv[5 + files])) {
            return 2;
        }
    }
    for (i = 0; i < BOXES; i++) {
        pthread_mutex_init(&boxes[i].lock, NULL);
    }
    clock_gettime(CLOCK_MONOTONIC, &began);
    for (i = 0; i < count; i++) {
        size_t seed = ((size_t)atol(argv[4]) + (size_t)i + 1) * 0x9E3779B97F4A7C15u;
        wrong += pthread_create(&threads[i], NULL, work, (void *)seed) != 0;
    }
    for (i = 0; i < count; i++) {
        pthread_join(threads[i], NULL);
    }
    for (i = 0; i < BOXES; i++) {
        close_at(&boxes[i].left_here);
    }
    for (i = 0; i < files; i++) {
        free(sources[i].bytes);
    }
    printf("%ld things, %ld graphs, %ld wrong, %ld blocks left\n", things, opened, wrong, live - before);
    return wrong != 0 || live != before;
}
