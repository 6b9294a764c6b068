/* FAULT_KIND is `memory` or `files`, FAULT_AT the number of the call of that kind that fails, counted from 1 and from the start of
   `main`. The file FAULT_MARK is made when it fails, and names the call and the path. */
#define _GNU_SOURCE
#include <errno.h>
#include <fcntl.h>
#include <stdarg.h>
#include <stdio.h>
#include <stdlib.h>
#include <string.h>
#include <sys/stat.h>
#include <sys/syscall.h>
#include <sys/uio.h>
#include <unistd.h>

extern void *__libc_malloc(size_t), *__libc_calloc(size_t, size_t), *__libc_realloc(void *, size_t), *__libc_memalign(size_t, size_t);

static const char *mark;
static char kind;
static long left;

__attribute__((constructor)) static void begin(void) {
    const char *at = getenv("FAULT_AT"), *of = getenv("FAULT_KIND");
    mark = getenv("FAULT_MARK");
    if (at && of && mark) {
        left = atol(at);
        kind = of[0];
    }
}

/* Whether this call is the one that fails. */
static int fails(char of, const char *call, const char *path) {
    if (of != kind || left <= 0 || --left > 0) return 0;
    int file = syscall(SYS_openat, AT_FDCWD, mark, O_CREAT | O_WRONLY | O_TRUNC, 0600);
    syscall(SYS_write, file, call, strlen(call));
    syscall(SYS_write, file, " ", 1);
    syscall(SYS_write, file, path, strlen(path));
    syscall(SYS_write, file, "\n", 1);
    syscall(SYS_close, file);
    errno = of == 'm' ? ENOMEM : EIO;
    return 1;
}

static int memory_fails(const char *call) { return fails('m', call, ""); }
void *malloc(size_t size) { return memory_fails("malloc") ? NULL : __libc_malloc(size); }
void *calloc(size_t count, size_t size) { return memory_fails("calloc") ? NULL : __libc_calloc(count, size); }
void *realloc(void *old, size_t size) { return memory_fails("realloc") ? NULL : __libc_realloc(old, size); }
void *memalign(size_t align, size_t size) { return memory_fails("memalign") ? NULL : __libc_memalign(align, size); }
void *aligned_alloc(size_t align, size_t size) { return memory_fails("aligned_alloc") ? NULL : __libc_memalign(align, size); }
void *reallocarray(void *old, size_t count, size_t size) {
    size_t bytes;
    if (__builtin_mul_overflow(count, size, &bytes)) {
        errno = ENOMEM;
        return NULL;
    }
    return memory_fails("reallocarray") ? NULL : __libc_realloc(old, bytes);
}
int posix_memalign(void **out, size_t align, size_t size) {
    if (memory_fails("posix_memalign")) return ENOMEM;
    void *made = __libc_memalign(align, size);
    if (!made) return ENOMEM;
    *out = made;
    return 0;
}

static int path_fails(const char *call, const char *path) { return fails('f', call, path); }

/* Of a call on a descriptor the path is what /proc says, or `-1-` for standard output. */
static int file_fails(const char *call, int file) {
    char link[40], path[4096];
    snprintf(link, sizeof link, "/proc/self/fd/%d", file);
    long len = syscall(SYS_readlinkat, AT_FDCWD, link, path, sizeof path - 1);
    path[len < 0 ? 0 : len] = 0;
    return path_fails(call, file == 1 ? "-1-" : path);
}

int openat(int dir, const char *path, int flags, ...) {
    va_list more;
    va_start(more, flags);
    mode_t mode = flags & (O_CREAT | O_TMPFILE) ? va_arg(more, mode_t) : 0;
    va_end(more);
    return path_fails("openat", path) ? -1 : syscall(SYS_openat, dir, path, flags, mode);
}
int open(const char *path, int flags, ...) {
    va_list more;
    va_start(more, flags);
    mode_t mode = flags & (O_CREAT | O_TMPFILE) ? va_arg(more, mode_t) : 0;
    va_end(more);
    return openat(AT_FDCWD, path, flags, mode);
}
int open64(const char *path, int flags, ...) __attribute__((alias("open")));
int openat64(int dir, const char *path, int flags, ...) __attribute__((alias("openat")));
ssize_t read(int file, void *to, size_t len) { return file_fails("read", file) ? -1 : syscall(SYS_read, file, to, len); }
ssize_t readv(int file, const struct iovec *to, int count) { return file_fails("readv", file) ? -1 : syscall(SYS_readv, file, to, count); }
ssize_t write(int file, const void *from, size_t len) { return file_fails("write", file) ? -1 : syscall(SYS_write, file, from, len); }
ssize_t writev(int file, const struct iovec *from, int count) { return file_fails("writev", file) ? -1 : syscall(SYS_writev, file, from, count); }
ssize_t __write(int file, const void *from, size_t len) __attribute__((alias("write")));
int fsync(int file) { return file_fails("fsync", file) ? -1 : syscall(SYS_fsync, file); }
int fdatasync(int file) { return file_fails("fdatasync", file) ? -1 : syscall(SYS_fdatasync, file); }
ssize_t getdents64(int file, void *to, size_t len) { return file_fails("getdents64", file) ? -1 : syscall(SYS_getdents64, file, to, len); }
int renameat2(int dir, const char *from, int to_dir, const char *to, unsigned flags) {
    return path_fails("rename", from) ? -1 : syscall(SYS_renameat2, dir, from, to_dir, to, flags);
}
int renameat(int dir, const char *from, int to_dir, const char *to) { return renameat2(dir, from, to_dir, to, 0); }
int rename(const char *from, const char *to) { return renameat2(AT_FDCWD, from, AT_FDCWD, to, 0); }
int mkdirat(int dir, const char *path, mode_t mode) { return path_fails("mkdir", path) ? -1 : syscall(SYS_mkdirat, dir, path, mode); }
int mkdir(const char *path, mode_t mode) { return mkdirat(AT_FDCWD, path, mode); }
int unlinkat(int dir, const char *path, int flags) { return path_fails("unlink", path) ? -1 : syscall(SYS_unlinkat, dir, path, flags); }
int unlink(const char *path) { return unlinkat(AT_FDCWD, path, 0); }
int statx(int dir, const char *restrict path, int flags, unsigned mask, struct statx *restrict to) {
    if (path[0] ? path_fails("statx", path) : file_fails("statx", dir)) return -1;
    return syscall(SYS_statx, dir, path, flags, mask, to);
}
