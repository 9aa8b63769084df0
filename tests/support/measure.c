// A library to preload: it measures what a program asks the C library's allocator for. When the program ends, the file
// MEASURE_LOG gets three 64-bit integers in the machine's byte order: how many allocations succeeded (malloc, calloc,
// realloc and the aligned ones), the most bytes that were held at one time, and the bytes of the largest allocation.
#define _GNU_SOURCE
#include <dlfcn.h>
#include <fcntl.h>
#include <malloc.h>
#include <stdint.h>
#include <stdlib.h>
#include <unistd.h>

static int64_t count, held, most, largest;

// Counts an allocation of so many bytes.
static void *gained(void *memory, size_t size) {
    if (memory) {
        count++;
        held += (int64_t)malloc_usable_size(memory);
        most = held > most ? held : most;
        largest = (int64_t)size > largest ? (int64_t)size : largest;
    }
    return memory;
}

__attribute__((destructor)) static void end(void) {
    const char *name = getenv("MEASURE_LOG");
    int log_file = name ? open(name, O_WRONLY | O_CREAT | O_TRUNC | O_CLOEXEC, 0600) : -1;
    int64_t record[3] = {count, most, largest};
    if (log_file < 0 || write(log_file, record, sizeof record) != sizeof record) {
        _exit(125);
    }
}

// Declares `next`, the function of this name in the C library.
#define NEXT(name)                                                                                                     \
    static __typeof__(&name) next;                                                                                     \
    if (!next) {                                                                                                       \
        *(void **)&next = dlsym(RTLD_NEXT, #name);                                                                     \
    }

void *malloc(size_t size) {
    NEXT(malloc);
    return gained(next(size), size);
}

void *calloc(size_t many, size_t size) {
    NEXT(calloc);
    return gained(next(many, size), many * size);
}

void *realloc(void *old, size_t size) {
    NEXT(realloc);
    int64_t before = (int64_t)malloc_usable_size(old);
    void *memory = next(old, size);
    held -= memory ? before : 0;
    return gained(memory, size);
}

void *aligned_alloc(size_t alignment, size_t size) {
    NEXT(aligned_alloc);
    return gained(next(alignment, size), size);
}

int posix_memalign(void **memory, size_t alignment, size_t size) {
    NEXT(posix_memalign);
    int failed = next(memory, alignment, size);
    if (!failed) {
        gained(*memory, size);
    }
    return failed;
}

void free(void *memory) {
    NEXT(free);
    held -= (int64_t)malloc_usable_size(memory);
    next(memory);
}
