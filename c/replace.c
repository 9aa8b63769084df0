/* replace FILE: threads answer requests while an open HDT file is replaced by a new one. The bytes of the old file stay
 * until its last request has ended. (FILE of at most 1 MiB.)
 *
 *     cc -o replace replace.c $(pkg-config --cflags --libs hdt) -pthread
 */
#include "hdt.h"
#include <inttypes.h>
#include <pthread.h>
#include <stdio.h>
#include <stdlib.h>

enum { ROOM = 1 << 20 };
typedef struct {
    hdt_graph graph;
    int users; /* requests, and one more while it is current */
    uint8_t bytes[ROOM];
} served;
static served *current;
static pthread_mutex_t lock = PTHREAD_MUTEX_INITIALIZER; /* of `current`, and of handles and users */

static served *load(const char *path) {
    served *it = calloc(1, sizeof *it); /* zeroed, so the handle is closed */
    FILE *file = fopen(path, "rb");
    size_t len = it && file ? fread(it->bytes, 1, ROOM, file) : 0;
    if (!it || !file || ferror(file)) return perror("FILE"), exit(1), NULL;
    fclose(file);
    hdt_verdict verdict;
    hdt_open(it->bytes, len, &it->graph, &verdict);
    if (verdict.reason != HDT_DONE) return fprintf(stderr, "reason %d\n", (int)verdict.reason), exit(1), NULL;
    it->users = 1;
    return it;
}

static void drop(served *it) {
    pthread_mutex_lock(&lock);
    int left = --it->users;
    pthread_mutex_unlock(&lock);
    if (left == 0) hdt_close(&it->graph), free(it);
}

static void *request(void *answer) {
    hdt_graph graph = HDT_GRAPH_INIT;
    pthread_mutex_lock(&lock);
    served *it = current;
    int is_shared = hdt_share(&it->graph, &graph) == HDT_DONE; /* else out of memory */
    it->users += is_shared;
    pthread_mutex_unlock(&lock);
    if (!is_shared) return NULL;
    *(uint64_t *)answer = hdt_len(&graph);
    hdt_close(&graph);
    drop(it);
    return NULL;
}

int main(int argc, char **argv) {
    pthread_t threads[4];
    uint64_t answers[4] = {0};
    current = load(argc > 1 ? argv[1] : "");
    for (int i = 0; i < 4; i++)
        if (pthread_create(&threads[i], NULL, request, &answers[i]) != 0) return 1;
    served *new = load(argv[1]), *old = current; /* a new file has this name by now */
    pthread_mutex_lock(&lock);
    current = new;
    pthread_mutex_unlock(&lock);
    drop(old);
    for (int i = 0; i < 4; i++) pthread_join(threads[i], NULL);
    printf("%" PRIu64 " %" PRIu64 "\n", answers[0], answers[3]); /* 3 3 */
    drop(new);
}
