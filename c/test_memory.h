/* For c/test.c: malloc, realloc and free, wrapped, and memory before a page that nobody may touch. */
#ifndef TEST_MEMORY_H
#define TEST_MEMORY_H
#include <stdint.h>
#include <stdio.h>
#include <stdlib.h>
#include <string.h>
#include <sys/mman.h>
#include <unistd.h>

/* ---- memory: how much is taken, and a growth that is refused */

static long left = -1; /* growths until one is refused; below 0: none is */
static int once;       /* that one alone; else all behind it too */
static long refused, live;
void *__real_malloc(size_t size);
void *__real_realloc(void *old, size_t size);
void __real_free(void *old);

static int refuses(void) {
    if (left < 0) {
        return 0;
    }
    if (left == 0) {
        refused++;
        left -= once;
        return 1;
    }
    left--;
    return 0;
}

void *__wrap_malloc(size_t size) {
    void *made = refuses() ? NULL : __real_malloc(size);
    __atomic_add_fetch(&live, made != NULL, __ATOMIC_SEQ_CST);
    return made;
}

void *__wrap_realloc(void *old, size_t size) {
    void *made = refuses() ? NULL : __real_realloc(old, size);
    __atomic_add_fetch(&live, made != NULL && old == NULL, __ATOMIC_SEQ_CST);
    return made;
}

void __wrap_free(void *old) {
    __atomic_sub_fetch(&live, old != NULL, __ATOMIC_SEQ_CST);
    __real_free(old);
}

/* ---- bytes and room before a page that nobody may touch */

typedef struct {
    uint8_t *at;
    size_t len;
    uint8_t *pages;
    size_t mapped;
    int sealed;
} guarded;

/* Mappings of room for less than a page, to be used again: mapping would take most of the time. Sealed bytes are not kept,
 * so a look at a file after it is let go is a crash. */
enum { MOST_KEPT = 16 };
static uint8_t *kept[MOST_KEPT];
static size_t kept_count;

static uint8_t *map_guarded(size_t mapped, size_t page) {
    uint8_t *pages = mmap(NULL, mapped, PROT_READ | PROT_WRITE, MAP_PRIVATE | MAP_ANONYMOUS, -1, 0);
    if (pages == MAP_FAILED || mprotect(pages + mapped - page, page, PROT_NONE) != 0) {
        perror("mmap");
        exit(2);
    }
    return pages;
}

static guarded guard(size_t len) {
    guarded made;
    size_t page = (size_t)sysconf(_SC_PAGESIZE);
    made.len = len;
    made.mapped = (len / page + 2) * page;
    made.sealed = 0;
    made.pages = made.mapped == 2 * page && kept_count > 0 ? kept[--kept_count] : map_guarded(made.mapped, page);
    made.at = made.pages + made.mapped - page - len;
    memset(made.at, 0, len);
    return made;
}

static guarded guarded_copy(const void *bytes, size_t len) {
    guarded made = guard(len);
    memcpy(made.at, bytes, len);
    return made;
}

static void seal(guarded *bytes) {
    mprotect(bytes->pages, bytes->mapped - (size_t)sysconf(_SC_PAGESIZE), PROT_READ);
    bytes->sealed = 1;
}

static void let_go(const guarded *bytes) {
    if (!bytes->sealed && bytes->mapped == 2 * (size_t)sysconf(_SC_PAGESIZE) && kept_count < MOST_KEPT) {
        kept[kept_count++] = bytes->pages;
    } else {
        munmap(bytes->pages, bytes->mapped);
    }
}

#endif
