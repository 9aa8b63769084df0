// A library to preload: it logs the system calls by which a program puts a file or a folder in its place, and makes one
// of them fail, or has something happen meanwhile.
//
// The file CALLS_LOG gets a line for each call, in order: `chdir`, `random`, `mkdir MODE`, `create MODE` (a file that
// was not there), `append MODE` (a file that may be there), `write` (to such files; `write to N` if its descriptor is
// that of a standard stream), `fsync` (such a file; `fsync folder`; else `fsync of another file`), `group GROUP` (if it is
// another one), `mode MODE`, `rename`, `unlink`; numbers are octal.
//
// The other variables are numbers that may be missing. CALLS_FAIL: the call of this number, from 1, does nothing and
// fails with EIO; if it is negative, the program is killed instead. CALLS_TAKEN: so many names of `mkdir` and `create`
// are taken (EEXIST; the log has `taken`), and all if it is negative. CALLS_REFUSE: the allocation of this number, from
// 1, is refused, and the log has `refused`. CALLS_MEANWHILE is a command of the shell that runs at the first `fsync`.
#define _GNU_SOURCE
#include <dlfcn.h>
#include <errno.h>
#include <fcntl.h>
#include <signal.h>
#include <stdarg.h>
#include <stdio.h>
#include <stdlib.h>
#include <string.h>
#include <sys/stat.h>
#include <sys/syscall.h>
#include <unistd.h>

enum { FILES = 1024 };

static int log_file = -1, calls, failing, taken, allocations, refusing;
static const char *meanwhile;
static char made[FILES];

static int number(const char *name) {
    const char *text = getenv(name);
    return text ? atoi(text) : 0;
}

__attribute__((constructor)) static void begin(void) {
    failing = number("CALLS_FAIL");
    taken = number("CALLS_TAKEN");
    refusing = number("CALLS_REFUSE");
    meanwhile = getenv("CALLS_MEANWHILE");
    int file = (int)syscall(SYS_openat, AT_FDCWD, getenv("CALLS_LOG"), O_CREAT | O_WRONLY | O_APPEND, 0600);
    log_file = fcntl(file, F_DUPFD_CLOEXEC, 200);
    if (log_file < 0) {
        _exit(125);
    }
    close(file);
}

static void note(const char *what, int mode) {
    char line[64];
    int length = mode < 0 ? snprintf(line, sizeof line, "%s\n", what)
                          : snprintf(line, sizeof line, "%s %o\n", what, (unsigned)mode);
    if (syscall(SYS_write, log_file, line, (size_t)length) != length) {
        _exit(125);
    }
}

// Notes a call, and tells whether it fails.
static int fails(const char *what, int mode) {
    note(what, mode);
    calls++;
    if (calls == -failing) {
        raise(SIGKILL);
    }
    errno = EIO;
    return calls == failing;
}

// Whether a new name is taken.
static int is_taken(void) {
    if (taken == 0) {
        return 0;
    }
    if (taken > 0) {
        taken--;
    }
    note("taken", -1);
    errno = EEXIST;
    return 1;
}

// Declares `next`, the function of this name in the C library.
#define NEXT(name)                                                                                                     \
    static __typeof__(&name) next;                                                                                     \
    if (!next) {                                                                                                       \
        *(void **)&next = dlsym(RTLD_NEXT, #name);                                                                     \
    }

int open(const char *path, int flags, ...) {
    NEXT(open);
    va_list rest;
    va_start(rest, flags);
    int mode = flags & O_CREAT ? va_arg(rest, int) : 0;
    va_end(rest);
    int creates = (flags & O_EXCL) != 0, appends = (flags & O_CREAT) && (flags & O_APPEND);
    if (creates && is_taken()) {
        return -1;
    }
    if ((creates || appends) && fails(creates ? "create" : "append", mode)) {
        return -1;
    }
    int file = next(path, flags, mode);
    if (file >= 0 && file < FILES) {
        made[file] = (char)(creates || appends);
    }
    return file;
}

int open64(const char *path, int flags, ...) __attribute__((alias("open")));

// Whether what is written to a descriptor goes to a file that was made.
static int is_made(int file) { return file >= 0 && file < FILES && made[file]; }

int fcntl(int file, int what, ...) {
    NEXT(fcntl);
    va_list rest;
    va_start(rest, what);
    void *more = va_arg(rest, void *);
    va_end(rest);
    int answer = next(file, what, more);
    if (what == F_DUPFD_CLOEXEC && answer >= 0 && answer < FILES) {
        made[answer] = (char)is_made(file);
    }
    return answer;
}

int close(int file) {
    NEXT(close);
    if (is_made(file)) {
        made[file] = 0;
    }
    return next(file);
}

ssize_t write(int file, const void *bytes, size_t count) {
    NEXT(write);
    if (is_made(file) && (file > 2 ? fails("write", -1) : fails("write to", file))) {
        return -1;
    }
    return next(file, bytes, count);
}

int fsync(int file) {
    NEXT(fsync);
    struct stat there;
    int is_folder = fstat(file, &there) == 0 && S_ISDIR(there.st_mode);
    if (fails(is_folder ? "fsync folder" : is_made(file) ? "fsync" : "fsync of another file", -1)) {
        return -1;
    }
    if (meanwhile && (unsetenv("LD_PRELOAD") || system(meanwhile) != 0)) {
        _exit(125);
    }
    meanwhile = NULL;
    return next(file);
}

int fchmod(int file, mode_t mode) {
    NEXT(fchmod);
    return fails("mode", mode & 07777) ? -1 : next(file, mode);
}

int fchown(int file, uid_t user, gid_t group) {
    NEXT(fchown);
    struct stat there;
    if (group != (gid_t)-1 && fstat(file, &there) == 0 && there.st_gid != group && fails("group", (int)group)) {
        return -1;
    }
    return next(file, user, group);
}

int rename(const char *from, const char *to) {
    NEXT(rename);
    return fails("rename", -1) ? -1 : next(from, to);
}

int unlink(const char *path) {
    NEXT(unlink);
    return fails("unlink", -1) ? -1 : next(path);
}

int chdir(const char *path) {
    NEXT(chdir);
    return fails("chdir", -1) ? -1 : next(path);
}

int mkdir(const char *path, mode_t mode) {
    NEXT(mkdir);
    return is_taken() || fails("mkdir", (int)mode) ? -1 : next(path, mode);
}

int getentropy(void *bytes, size_t count) {
    NEXT(getentropy);
    return fails("random", -1) ? -1 : next(bytes, count);
}

// Whether this allocation is refused.
static int is_refused(void) {
    if (log_file < 0 || ++allocations != refusing) {
        return 0;
    }
    note("refused", -1);
    errno = ENOMEM;
    return 1;
}

void *malloc(size_t size) {
    NEXT(malloc);
    return is_refused() ? NULL : next(size);
}

void *realloc(void *old, size_t size) {
    NEXT(realloc);
    return is_refused() ? NULL : next(old, size);
}
