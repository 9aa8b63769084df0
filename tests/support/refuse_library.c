// A library to preload into a program that loads libhdt.so: `refuse_at(n)` has the n-th allocation of libhdt.so from then
// on refused, and no other one; 0 is none. It returns whether the one that was chosen before was reached.
#define _GNU_SOURCE
#include <dlfcn.h>
#include <stdlib.h>
#include <string.h>

extern void *__libc_malloc(size_t);
extern void *__libc_realloc(void *, size_t);
int refuse_at(long number);

static volatile long left;
static volatile int reached;

int refuse_at(long number) {
    int before = reached;
    reached = 0;
    left = number;
    return before;
}

static int is_refused(const void *caller) {
    Dl_info info;
    if (!left || !dladdr(caller, &info) || !info.dli_fname || !strstr(info.dli_fname, "libhdt.so") || --left) {
        return 0;
    }
    reached = 1;
    return 1;
}

void *malloc(size_t size) { return is_refused(__builtin_return_address(0)) ? NULL : __libc_malloc(size); }

void *realloc(void *at, size_t size) {
    return is_refused(__builtin_return_address(0)) ? NULL : __libc_realloc(at, size);
}
