/* speed_threads FILE [SECONDS]: how fast 1, 2 and 4 threads search an open HDT file at the same time, as rows of a table
 * in Markdown; and what a handle takes. Nothing of it is proved.
 *
 *     cc -O2 -o speed_threads speed_threads.c $(pkg-config --cflags --libs hdt) -pthread
 *
 * A rate is that of the moments in which all the threads ran, so other programs on the machine matter little: each
 * thread notes the time after each batch of work, and one that takes four times as long as is usual was interrupted. If
 * they never ran all at once, the row has `-`. With a lock the threads wait for each other, and the rate is that of the
 * whole time.
 */
#define _GNU_SOURCE
#include "hdt.h"
#include <malloc.h>
#include <pthread.h>
#include <stdatomic.h>
#include <stdio.h>
#include <stdlib.h>
#include <string.h>
#include <time.h>

enum { MOST = 4, BATCHES = 1 << 19, SUBJECTS = 64, LINES = 1000, HANDLES = 64, SHARES = 100000 };
enum { OWN, SIDE_BY_SIDE, LOCKED, OPENED };
static const char *const ways[] = {"a handle each", "the same, side by side", "one handle, a lock", "a graph each"};

typedef struct worker worker;
typedef uint64_t work(worker *it);

/* A thread, its handle, what it does again and again, and the time after each batch, in nanoseconds. */
struct worker {
    hdt_thread_graph own;
    hdt_graph *graph;
    work *batch;
    int locks;
    uint64_t seed, next, done, count, *times;
    pthread_t id;
};
static worker workers[MOST];
static hdt_graph packed[MOST];
static pthread_mutex_t lock = PTHREAD_MUTEX_INITIALIZER;
static atomic_int go, stop;
static uint8_t *bytes;
static size_t len;

static uint64_t now(void) {
    struct timespec time;
    clock_gettime(CLOCK_MONOTONIC, &time);
    return (uint64_t)time.tv_sec * 1000000000u + (uint64_t)time.tv_nsec;
}

static uint64_t used(void) {
    struct timespec time;
    clock_gettime(CLOCK_THREAD_CPUTIME_ID, &time);
    return (uint64_t)time.tv_sec * 1000000000u + (uint64_t)time.tv_nsec;
}

/* ---- work: returns how much was done */

static void enter(const worker *it) {
    if (it->locks) {
        pthread_mutex_lock(&lock);
    }
}

static void leave(const worker *it) {
    if (it->locks) {
        pthread_mutex_unlock(&lock);
    }
}

/* Pages of subjects that are drawn. */
static uint64_t pages(worker *it) {
    hdt_pattern pattern = HDT_PATTERN_INIT;
    uint64_t out[16][3], next, i;
    pattern.s.kind = HDT_ID;
    for (i = 0; i < SUBJECTS; i++) {
        it->seed = it->seed * 6364136223846793005u + 1442695040888963407u;
        enter(it);
        pattern.s.id = (it->seed >> 33) % hdt_count(it->graph, HDT_SUBJECT) + 1;
        hdt_page(it->graph, &pattern, 0, out, 16, &next);
        leave(it);
    }
    return SUBJECTS;
}

/* The next lines of the text of all triples. */
static uint64_t text(worker *it) {
    hdt_pattern pattern = HDT_PATTERN_INIT;
    hdt_bytes out = HDT_BYTES_INIT;
    hdt_text_result outcome;
    uint64_t from = it->next, len_of_all;
    enter(it);
    len_of_all = hdt_len(it->graph);
    hdt_page_text(it->graph, &pattern, from, LINES, &out, &it->next, &outcome);
    leave(it);
    hdt_free(&out);
    if (it->next == HDT_ABSENT) {
        it->next = 0;
        return len_of_all - from;
    }
    return it->next - from;
}

/* The cheapest call. */
static uint64_t lengths(worker *it) {
    uint64_t i, sum = 0;
    for (i = 0; i < 64 * SUBJECTS; i++) {
        enter(it);
        sum += hdt_len(it->graph);
        leave(it);
    }
    return sum ? 64 * SUBJECTS : 0;
}

static void *run(void *given) {
    worker *it = given;
    while (!atomic_load(&go)) {
    }
    it->times[it->count++] = now();
    while (!atomic_load_explicit(&stop, memory_order_relaxed) && it->count < BATCHES) {
        it->done += it->batch(it);
        it->times[it->count++] = now();
    }
    return NULL;
}

/* ---- rates */

typedef struct {
    uint64_t at;
    int by;
    double rate;
} event;

static int by_time(const void *a, const void *b) {
    const event *x = a, *y = b;
    return (x->at > y->at) - (x->at < y->at);
}

static int by_size(const void *a, const void *b) {
    const uint64_t *x = a, *y = b;
    return (*x > *y) - (*x < *y);
}

/* The usual time of a batch: the median. */
static uint64_t usual(const worker *it) {
    uint64_t count = it->count - 1, i, median, *spans = malloc((count + 1) * sizeof *spans);
    for (i = 0; i < count; i++) {
        spans[i] = it->times[i + 1] - it->times[i];
    }
    qsort(spans, count, sizeof *spans, by_size);
    median = count ? spans[count / 2] : 0;
    free(spans);
    return median;
}

/* What was done a second while all threads ran. */
static double rate_of_all(int threads) {
    size_t count = 0, k;
    double rate = 0, span = 0, made = 0;
    int running = 0, i;
    event *events;
    for (i = 0; i < threads; i++) {
        count += 2 * workers[i].count;
    }
    events = malloc((count + 1) * sizeof *events);
    for (i = 0, count = 0; i < threads; i++) {
        const worker *it = &workers[i];
        uint64_t longest = 4 * usual(it);
        for (k = 1; k < it->count; k++) {
            uint64_t a = it->times[k - 1], b = it->times[k];
            double own = (double)it->done / (double)(it->count - 1) / (double)(b - a + (b == a));
            if (b > a && b - a < longest) {
                events[count++] = (event){a, 1, own};
                events[count++] = (event){b, -1, -own};
            }
        }
    }
    qsort(events, count, sizeof *events, by_time);
    for (k = 0; k + 1 < count; k++) {
        running += events[k].by;
        rate += events[k].rate;
        if (running == threads) {
            span += (double)(events[k + 1].at - events[k].at);
            made += rate * (double)(events[k + 1].at - events[k].at);
        }
    }
    free(events);
    return span > 0 ? 1e9 * made / span : 0;
}

/* Gives each thread its handle. */
static int prepare(hdt_graph *graph, int way, int threads) {
    hdt_verdict verdict;
    uint32_t reason = HDT_DONE;
    int i;
    for (i = 0; i < threads; i++) {
        worker *it = &workers[i];
        it->graph = way == LOCKED ? graph : way == SIDE_BY_SIDE ? &packed[i] : &it->own.graph;
        it->locks = way == LOCKED;
        it->done = it->count = 0;
        it->seed = (uint64_t)i + 1;
        it->next = hdt_len(graph) / (uint64_t)threads * (uint64_t)i;
        if (way == OPENED) {
            hdt_open(bytes, len, it->graph, &verdict);
            reason = reason ? reason : verdict.reason;
        } else if (way != LOCKED) {
            reason = reason ? reason : hdt_share(graph, it->graph);
        }
    }
    return reason == HDT_DONE;
}

/* A row: the rate, and how many times that of one thread it is. Returns the rate. */
static double row(hdt_graph *graph, const char *what, work *batch, int way, int threads, double seconds, double one) {
    struct timespec pause = {(time_t)seconds, (long)((seconds - (double)(time_t)seconds) * 1e9)};
    double rate, done = 0, took;
    uint64_t begin;
    int i;
    if (!prepare(graph, way, threads)) {
        return 0;
    }
    atomic_store(&go, 0);
    atomic_store(&stop, 0);
    for (i = 0; i < threads; i++) {
        workers[i].batch = batch;
        if (pthread_create(&workers[i].id, NULL, run, &workers[i]) != 0) {
            exit(2);
        }
    }
    begin = now();
    atomic_store(&go, 1);
    nanosleep(&pause, NULL);
    atomic_store(&stop, 1);
    for (i = 0; i < threads; i++) {
        pthread_join(workers[i].id, NULL);
        done += (double)workers[i].done;
        hdt_close(&workers[i].own.graph);
        hdt_close(&packed[i]);
    }
    took = (double)(now() - begin);
    rate = way == LOCKED ? 1e9 * done / took : rate_of_all(threads);
    if (rate > 0) {
        printf("| %s | %s | %d | %.0f | %.2f |\n", what, ways[way], threads, rate, one > 0 ? rate / one : 1.0);
    } else { /* they never ran all at once: give it more seconds */
        printf("| %s | %s | %d | - | - |\n", what, ways[way], threads);
    }
    fflush(stdout);
    return rate;
}

static void rows(hdt_graph *graph, const char *what, work *batch, double seconds) {
    double one = row(graph, what, batch, OWN, 1, seconds, 0);
    int way;
    row(graph, what, batch, OWN, 2, seconds, one);
    for (way = OWN; way <= OPENED; way++) {
        row(graph, what, batch, way, MOST, seconds, one);
    }
}

/* ---- a handle */

static void handles(hdt_graph *graph) {
    hdt_graph *made = calloc(SHARES, sizeof *made);
    struct mallinfo2 before = mallinfo2(), after;
    uint64_t begin, shared, closed;
    int i;
    if (!made) {
        exit(2);
    }
    before = mallinfo2();
    for (i = 0; i < HANDLES; i++) {
        hdt_share(graph, &made[i]);
    }
    after = mallinfo2();
    begin = used();
    for (; i < SHARES; i++) {
        hdt_share(graph, &made[i]);
    }
    shared = used();
    for (i = 0; i < SHARES; i++) {
        hdt_close(&made[i]);
    }
    closed = used();
    printf("\n%d more handles take %lu bytes and their own %lu; hdt_share %.0f ns, hdt_close %.0f ns\n", HANDLES,
           (unsigned long)(after.uordblks - before.uordblks), (unsigned long)(HANDLES * sizeof(hdt_thread_graph)),
           (double)(shared - begin) / (SHARES - HANDLES), (double)(closed - shared) / SHARES);
    free(made);
}

static int read_file(const char *path) {
    FILE *file = fopen(path, "rb");
    if (!file || fseek(file, 0, SEEK_END) != 0) {
        return 0;
    }
    len = (size_t)ftell(file);
    bytes = malloc(len + 1);
    rewind(file);
    if (!bytes || fread(bytes, 1, len, file) != len) {
        return 0;
    }
    fclose(file);
    return 1;
}

int main(int argc, char **argv) {
    hdt_graph graph = HDT_GRAPH_INIT;
    hdt_verdict verdict;
    double seconds = argc > 2 ? atof(argv[2]) : 2;
    int i;
    if (argc < 2 || !read_file(argv[1])) {
        fprintf(stderr, "usage: speed_threads FILE [SECONDS]\n");
        return 2;
    }
    hdt_open(bytes, len, &graph, &verdict);
    if (verdict.reason != HDT_DONE) {
        return 1;
    }
    for (i = 0; i < MOST; i++) {
        workers[i].times = malloc((BATCHES + 1) * sizeof *workers[i].times);
        if (!workers[i].times) {
            return 2;
        }
    }
    printf("| work | threads have | threads | a second | of one |\n|---|---|---|---|---|\n");
    rows(&graph, "pages of a subject", pages, seconds);
    rows(&graph, "text of all, lines", text, seconds);
    rows(&graph, "`hdt_len`", lengths, seconds);
    handles(&graph);
    for (i = 0; i < MOST; i++) {
        free(workers[i].times);
    }
    hdt_close(&graph);
    free(bytes);
    return 0;
}
