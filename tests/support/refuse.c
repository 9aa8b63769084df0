// A library to preload: at each allocation (malloc, calloc, realloc and the aligned ones) of a program it forks. In the
// child this one allocation is refused, and the child runs to its end; the parent keeps what the child printed and goes
// on as if nothing had happened. So one run shows what the program does with each of its allocations refused.
//
// The program's standard output and error have to be files, and its standard input a file or a device: a child that
// reads on moves the offset of a shared file, which the parent puts back. The file REFUSE_LOG gets one record for each
// allocation, in order: the byte '=' where the record is that of the allocation before, else 'N', five 32-bit integers
// in the machine's byte order and two texts. The integers: the child's exit status (or minus its signal), how many bytes
// of output and of error the program had written before the allocation, and the lengths of the texts: what the child
// wrote after it on standard output and on standard error.
#define _GNU_SOURCE
#include <dlfcn.h>
#include <errno.h>
#include <fcntl.h>
#include <stdint.h>
#include <stdlib.h>
#include <string.h>
#include <sys/mman.h>
#include <sys/wait.h>
#include <unistd.h>

enum { FILES = 16, TEXT = 1 << 24 };

static int log_file = -1, out_file, err_file;
static int working, in_child;
static int32_t last_record[5];
static char *text, *last_text;

static void give_up(void) { _exit(125); }

// Opens the log and the two files that take a child's output, at the first allocation.
static void begin(void) {
    const char *name = getenv("REFUSE_LOG");
    if (!name) {
        in_child = 1; // nothing to do
        return;
    }
    log_file = open(name, O_CREAT | O_WRONLY | O_APPEND | O_CLOEXEC, 0600);
    out_file = memfd_create("out", MFD_CLOEXEC);
    err_file = memfd_create("err", MFD_CLOEXEC);
    text = mmap(NULL, 2 * (size_t)TEXT, PROT_READ | PROT_WRITE, MAP_PRIVATE | MAP_ANONYMOUS, -1, 0);
    if (log_file < 0 || out_file < 0 || err_file < 0 || text == MAP_FAILED) {
        give_up();
    }
    last_text = text + TEXT;
    last_record[0] = INT32_MIN;
}

// The offset of a file, 0 where it has none.
static int32_t offset_of(int file) {
    off_t offset = lseek(file, 0, SEEK_CUR);
    return offset < 0 ? 0 : (int32_t)offset;
}

// Writes the record of a child into the log, and empties the files that took its output.
static void keep(int status) {
    int32_t code = WIFSIGNALED(status) ? -WTERMSIG(status) : WEXITSTATUS(status);
    int32_t record[5] = {code, offset_of(1), offset_of(2), offset_of(out_file), offset_of(err_file)};
    size_t length = (size_t)record[3] + (size_t)record[4];
    if (length > TEXT || pread(out_file, text, record[3], 0) != record[3] ||
        pread(err_file, text + record[3], record[4], 0) != record[4]) {
        give_up();
    }
    int same = memcmp(record, last_record, sizeof record) == 0 && memcmp(text, last_text, length) == 0;
    if (same ? write(log_file, "=", 1) != 1
             : write(log_file, "N", 1) != 1 || write(log_file, record, sizeof record) != sizeof record ||
                   write(log_file, text, length) != (ssize_t)length) {
        give_up();
    }
    memcpy(last_record, record, sizeof record);
    memcpy(last_text, text, length);
    if (ftruncate(out_file, 0) || ftruncate(err_file, 0)) {
        give_up();
    }
    lseek(out_file, 0, SEEK_SET);
    lseek(err_file, 0, SEEK_SET);
}

// Whether a child shares the offset of this file with its parent, which has to put it back.
static int shared(int file) {
    return file != 1 && file != 2 && file != log_file && file != out_file && file != err_file;
}

// Whether this allocation is refused: once in each child, never in the parent.
static int refused(void) {
    if (working || in_child) {
        return 0;
    }
    working = 1;
    if (log_file < 0) {
        begin();
    }
    off_t offsets[FILES];
    for (int file = 0; file < FILES; file++) {
        offsets[file] = shared(file) ? lseek(file, 0, SEEK_CUR) : -1;
    }
    pid_t child = in_child ? 0 : fork();
    if (child < 0) {
        give_up();
    }
    if (child == 0) {
        int refuses = !in_child;
        in_child = 1;
        working = 0;
        if (refuses) {
            dup2(out_file, 1);
            dup2(err_file, 2);
            errno = ENOMEM;
        }
        return refuses;
    }
    int status;
    if (waitpid(child, &status, 0) != child) {
        give_up();
    }
    for (int file = 0; file < FILES; file++) {
        if (offsets[file] >= 0) {
            lseek(file, offsets[file], SEEK_SET);
        }
    }
    keep(status);
    working = 0;
    return 0;
}

// Declares `next`, the function of this name in the C library.
#define NEXT(name)                                                                                                     \
    static __typeof__(&name) next;                                                                                     \
    if (!next) {                                                                                                       \
        *(void **)&next = dlsym(RTLD_NEXT, #name);                                                                     \
    }

void *malloc(size_t size) {
    NEXT(malloc);
    return refused() ? NULL : next(size);
}

void *calloc(size_t count, size_t size) {
    NEXT(calloc);
    return refused() ? NULL : next(count, size);
}

void *realloc(void *old, size_t size) {
    NEXT(realloc);
    return refused() ? NULL : next(old, size);
}

void *aligned_alloc(size_t alignment, size_t size) {
    NEXT(aligned_alloc);
    return refused() ? NULL : next(alignment, size);
}

int posix_memalign(void **memory, size_t alignment, size_t size) {
    NEXT(posix_memalign);
    return refused() ? ENOMEM : next(memory, alignment, size);
}
