/* server FILE: four threads share an open HDT file, and take requests from a queue. (FILE of at most 1 MiB.)
 *
 *     cc -o server server.c $(pkg-config --cflags --libs hdt) -pthread
 */
#include "hdt.h"
#include <inttypes.h>
#include <pthread.h>
#include <stdio.h>
#include <string.h>

enum { THREADS = 4, REQUESTS = 3 };
static const char *const requests[REQUESTS] = {"u:a", "u:b", "u:c"}; /* subjects */
static uint64_t answers[REQUESTS];
static size_t next_request;
static pthread_mutex_t lock = PTHREAD_MUTEX_INITIALIZER; /* of next_request */

static size_t take_request(void) {
    pthread_mutex_lock(&lock);
    size_t i = next_request < REQUESTS ? next_request++ : REQUESTS;
    pthread_mutex_unlock(&lock);
    return i;
}

static void *serve(void *handle) {
    hdt_graph *graph = handle; /* of this thread alone */
    for (size_t i = take_request(); i < REQUESTS; i = take_request()) {
        hdt_pattern pattern = HDT_PATTERN_INIT;
        pattern.s.kind = HDT_STRING;
        pattern.s.string = (const uint8_t *)requests[i];
        pattern.s.len = strlen(requests[i]);
        answers[i] = hdt_pattern_matching(graph, &pattern);
    }
    hdt_close(graph); /* the last thread frees the graph */
    return NULL;
}

int main(int argc, char **argv) {
    static uint8_t bytes[1 << 20]; /* stay until the last handle is closed */
    static hdt_thread_graph handles[THREADS]; /* zeroed, so they are closed */
    FILE *file = fopen(argc > 1 ? argv[1] : "", "rb");
    size_t len = file ? fread(bytes, 1, sizeof bytes, file) : 0;
    if (!file || ferror(file)) return perror("FILE"), 1;
    fclose(file);
    hdt_graph graph = HDT_GRAPH_INIT;
    hdt_verdict verdict;
    pthread_t threads[THREADS];
    hdt_open(bytes, len, &graph, &verdict);
    if (verdict.reason != HDT_DONE) return fprintf(stderr, "reason %d\n", (int)verdict.reason), 1;
    for (int i = 0; i < THREADS; i++) {
        if (hdt_share(&graph, &handles[i].graph) != HDT_DONE) return 1; /* out of memory */
        if (pthread_create(&threads[i], NULL, serve, &handles[i].graph) != 0) return 1;
    }
    hdt_close(&graph); /* the threads have handles of their own */
    for (int i = 0; i < THREADS; i++) pthread_join(threads[i], NULL);
    for (int i = 0; i < REQUESTS; i++)
        printf("%s %" PRIu64 "\n", requests[i], answers[i]); /* u:a 2, and u:b 1, and u:c 0 */
}
