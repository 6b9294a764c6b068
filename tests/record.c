/* Records what a program makes of the files below a folder: a library to be preloaded.

   RECORD_ROOT is the folder, an absolute path without links, and RECORD_FILE the file to which a line is added for each call that
   went well: `mkdir PATH`, `create INODE PATH`, `write INODE PLACE LENGTH` with the bytes after the line, `cut INODE LENGTH`,
   `rename FROM TO`, `remove PATH`, `sync INODE` of a file, `syncdir PATH` of a folder, and `told` where bytes go to standard output.
   Words are parted by tabs; a second name of a file is `link FROM TO`. With RECORD_END the program ends with status 9 right after so
   many of these calls, as one that is killed.

   With RECORD_STOP it stops itself after so many of them and of the looks there, until it is sent a CONT. A look is a name that is
   asked, a folder that is read, and a file that is opened and was there: with RECORD_LOOKS each has a line `look PATH` too. With
   RECORD_LATER the program ends, once it went on behind that stop, with status 9 right after so many renames, links and removals. */
#define _GNU_SOURCE
#include <errno.h>
#include <fcntl.h>
#include <signal.h>
#include <stdarg.h>
#include <stdio.h>
#include <stdlib.h>
#include <string.h>
#include <sys/stat.h>
#include <sys/syscall.h>
#include <sys/uio.h>
#include <unistd.h>

static const char *root;
static size_t root_length;
static int record = -1;
static long left = -1;
static long until = -1;
static long later = -1;
static int is_behind, has_looks;

__attribute__((constructor)) static void begin(void) {
    const char *file = getenv("RECORD_FILE");
    root = getenv("RECORD_ROOT");
    if (!file || !root) return;
    root_length = strlen(root);
    if (getenv("RECORD_END")) left = atol(getenv("RECORD_END"));
    if (getenv("RECORD_STOP")) until = atol(getenv("RECORD_STOP"));
    if (getenv("RECORD_LATER")) later = atol(getenv("RECORD_LATER"));
    has_looks = getenv("RECORD_LOOKS") != NULL;
    record = syscall(SYS_openat, AT_FDCWD, file, O_CREAT | O_WRONLY | O_APPEND | O_CLOEXEC, 0600);
}

static void put(const void *bytes, size_t length) {
    if (syscall(SYS_write, record, bytes, length) != (long)length) abort();
}

/* A call is made: the program goes on, or stops here. */
static void passed(void) {
    if (until > 0 && --until == 0) {
        kill(getpid(), SIGSTOP);
        is_behind = 1;
    }
}

/* A call is recorded: the program goes on, or ends here. */
static void done(void) {
    if (left > 0 && --left == 0) syscall(SYS_exit_group, 9);
    passed();
}

static void tell(const char *form, ...) {
    char line[9000];
    va_list more;
    va_start(more, form);
    int length = vsnprintf(line, sizeof line, form, more);
    va_end(more);
    if (length < 0 || length >= (int)sizeof line) abort();
    put(line, length);
    int is_moving = strncmp(line, "rename", 6) == 0 || strncmp(line, "link", 4) == 0 || strncmp(line, "remove", 6) == 0;
    if (is_behind && is_moving && later > 0 && --later == 0) syscall(SYS_exit_group, 9);
    if (strncmp(line, "write", 5) != 0) done();
}

/* A look was made. */
static void looked(const char *path) {
    int error = errno;
    if (has_looks) {
        put("look\t", 5);
        put(path, strlen(path));
        put("\n", 1);
    }
    passed();
    errno = error;
}

/* Whether a path is below the folder, or the folder itself. A relative one is made absolute. */
static int is_below(int dir, const char *path, char *whole) {
    if (record < 0) return 0;
    if (path[0] == '/') {
        snprintf(whole, 4096, "%s", path);
    } else {
        if (dir != AT_FDCWD) abort();
        if (!getcwd(whole, 2048)) abort();
        strncat(whole, "/", 2);
        strncat(whole, path, 2000);
    }
    return strncmp(whole, root, root_length) == 0 && (whole[root_length] == '/' || whole[root_length] == 0);
}

/* The same of what is open. */
static int is_open_below(int file, char *whole) {
    char link[40], path[4096];
    if (record < 0 || file == record) return 0;
    snprintf(link, sizeof link, "/proc/self/fd/%d", file);
    long length = syscall(SYS_readlinkat, AT_FDCWD, link, path, sizeof path - 1);
    if (length < 0) return 0;
    path[length] = 0;
    return is_below(AT_FDCWD, path, whole);
}

static struct stat stat_of(int file) {
    struct stat found;
    if (syscall(SYS_fstat, file, &found) != 0) abort();
    return found;
}

int openat(int dir, const char *path, int flags, ...) {
    char whole[4096];
    va_list more;
    va_start(more, flags);
    mode_t mode = flags & (O_CREAT | O_TMPFILE) ? va_arg(more, mode_t) : 0;
    va_end(more);
    int below = is_below(dir, path, whole);
    int is_new = below && (flags & O_CREAT) && syscall(SYS_faccessat, dir, path, F_OK) != 0;
    int file = syscall(SYS_openat, dir, path, flags, mode);
    if (file >= 0 && is_new) tell("create\t%lu\t%s\n", (unsigned long)stat_of(file).st_ino, whole);
    if (file >= 0 && below && !is_new && (flags & O_TRUNC)) tell("cut\t%lu\t0\n", (unsigned long)stat_of(file).st_ino);
    else if (below && !is_new) looked(whole);
    return file;
}
int open(const char *path, int flags, ...) {
    va_list more;
    va_start(more, flags);
    mode_t mode = flags & (O_CREAT | O_TMPFILE) ? va_arg(more, mode_t) : 0;
    va_end(more);
    return openat(AT_FDCWD, path, flags, mode);
}
int open64(const char *path, int flags, ...) __attribute__((alias("open")));
int openat64(int dir, const char *path, int flags, ...) __attribute__((alias("openat")));

ssize_t write(int file, const void *from, size_t length) {
    char whole[4096];
    int below = is_open_below(file, whole);
    off_t place = 0;
    if (below) {
        int flags = syscall(SYS_fcntl, file, F_GETFL);
        place = flags & O_APPEND ? stat_of(file).st_size : syscall(SYS_lseek, file, 0, SEEK_CUR);
    }
    ssize_t written = syscall(SYS_write, file, from, length);
    if (written >= 0 && below) {
        tell("write\t%lu\t%ld\t%ld\n", (unsigned long)stat_of(file).st_ino, (long)place, (long)written);
        put(from, written);
        done();
    }
    if (written > 0 && file == 1 && record >= 0) tell("told\n");
    return written;
}
ssize_t __write(int file, const void *from, size_t length) __attribute__((alias("write")));

int ftruncate(int file, off_t length) {
    char whole[4096];
    int outcome = syscall(SYS_ftruncate, file, length);
    if (outcome == 0 && is_open_below(file, whole)) tell("cut\t%lu\t%ld\n", (unsigned long)stat_of(file).st_ino, (long)length);
    return outcome;
}
int ftruncate64(int file, off_t length) __attribute__((alias("ftruncate")));

static int synced(int file, long call) {
    char whole[4096];
    int outcome = syscall(call, file);
    if (outcome != 0 || !is_open_below(file, whole)) return outcome;
    struct stat found = stat_of(file);
    if (S_ISDIR(found.st_mode)) {
        tell("syncdir\t%s\n", whole);
    } else {
        tell("sync\t%lu\n", (unsigned long)found.st_ino);
    }
    return outcome;
}
int fsync(int file) { return synced(file, SYS_fsync); }
int fdatasync(int file) { return synced(file, SYS_fdatasync); }

int renameat2(int dir, const char *from, int to_dir, const char *to, unsigned flags) {
    char whole[4096], other[4096];
    int outcome = syscall(SYS_renameat2, dir, from, to_dir, to, flags);
    if (outcome == 0 && is_below(dir, from, whole) && is_below(to_dir, to, other)) tell("rename\t%s\t%s\n", whole, other);
    return outcome;
}
int renameat(int dir, const char *from, int to_dir, const char *to) { return renameat2(dir, from, to_dir, to, 0); }
int rename(const char *from, const char *to) { return renameat2(AT_FDCWD, from, AT_FDCWD, to, 0); }

int mkdirat(int dir, const char *path, mode_t mode) {
    char whole[4096];
    int outcome = syscall(SYS_mkdirat, dir, path, mode);
    if (outcome == 0 && is_below(dir, path, whole)) tell("mkdir\t%s\n", whole);
    return outcome;
}
int mkdir(const char *path, mode_t mode) { return mkdirat(AT_FDCWD, path, mode); }

int unlinkat(int dir, const char *path, int flags) {
    char whole[4096];
    int outcome = syscall(SYS_unlinkat, dir, path, flags);
    if (outcome == 0 && is_below(dir, path, whole)) tell("remove\t%s\n", whole);
    return outcome;
}
int unlink(const char *path) { return unlinkat(AT_FDCWD, path, 0); }

int linkat(int dir, const char *from, int to_dir, const char *to, int flags) {
    char whole[4096], other[4096];
    int outcome = syscall(SYS_linkat, dir, from, to_dir, to, flags);
    if (outcome == 0 && is_below(dir, from, whole) && is_below(to_dir, to, other)) tell("link\t%s\t%s\n", whole, other);
    return outcome;
}
int link(const char *from, const char *to) { return linkat(AT_FDCWD, from, AT_FDCWD, to, 0); }

int statx(int dir, const char *restrict path, int flags, unsigned mask, struct statx *restrict to) {
    char whole[4096];
    int outcome = syscall(SYS_statx, dir, path, flags, mask, to);
    if (path[0] && is_below(dir, path, whole)) looked(whole);
    return outcome;
}

ssize_t getdents64(int file, void *to, size_t length) {
    char whole[4096];
    ssize_t got = syscall(SYS_getdents64, file, to, length);
    if (is_open_below(file, whole)) looked(whole);
    return got;
}
