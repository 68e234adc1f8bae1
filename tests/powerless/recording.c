/* Records what a program does with files, in order, in the file that RECORD names: each new file, write, cut, sync,
   rename and unlink, and each write to standard output. An entry is a line `KIND PLACE COUNT NAME`, then COUNT bytes
   and an LF; the bytes of a rename are the new name. A copy from file to file is refused, so that it is done by reads
   and writes. Preload it. */
#define _GNU_SOURCE
#include <errno.h>
#include <fcntl.h>
#include <stdarg.h>
#include <stdio.h>
#include <stdlib.h>
#include <string.h>
#include <sys/sendfile.h>
#include <sys/stat.h>
#include <sys/syscall.h>
#include <sys/uio.h>
#include <unistd.h>

#define LONGEST 4096

static void put(const char *kind, const char *file, long place, const void *bytes, size_t count) {
    char head[LONGEST + 100];
    int kept = errno, to = syscall(SYS_openat, AT_FDCWD, getenv("RECORD"), O_WRONLY | O_APPEND | O_CREAT, 0600);
    int size = snprintf(head, sizeof head, "%s %ld %zu %s\n", kind, place, count, file);
    struct iovec parts[] = {{head, size}, {(void *)bytes, count}, {"\n", 1}};
    if (syscall(SYS_writev, to, parts, 3) != (ssize_t)(size + count + 1)) abort();
    syscall(SYS_close, to);
    errno = kept;
}

static void name_of(int fd, char *file) {
    char link[64];
    snprintf(link, sizeof link, "/proc/self/fd/%d", fd);
    ssize_t length = readlink(link, file, LONGEST - 1);
    if (length < 0) abort();
    file[length] = 0;
}

static void record(const char *kind, int fd, long place, const void *bytes, size_t count) {
    char file[LONGEST];
    int kept = errno;
    if (!getenv("RECORD")) return;
    name_of(fd, file);
    put(kind, file, place, bytes, count);
    errno = kept;
}

static int is_regular(int fd) {
    struct stat found;
    return fd != STDERR_FILENO && !fstat(fd, &found) && S_ISREG(found.st_mode);
}

ssize_t write(int fd, const void *bytes, size_t count) {
    ssize_t taken = syscall(SYS_write, fd, bytes, count);
    if (taken > 0 && fd == STDOUT_FILENO) record("out", fd, 0, bytes, taken);
    else if (taken > 0 && is_regular(fd)) record("write", fd, lseek(fd, 0, SEEK_CUR) - taken, bytes, taken);
    return taken;
}

// the first part alone: a write may take less than it is given
ssize_t writev(int fd, const struct iovec *parts, int count) {
    int at = 0;
    while (at + 1 < count && !parts[at].iov_len) at++;
    return count > 0 ? write(fd, parts[at].iov_base, parts[at].iov_len) : 0;
}

ssize_t pwrite(int fd, const void *bytes, size_t count, off_t place) {
    ssize_t taken = syscall(SYS_pwrite64, fd, bytes, count, place);
    // the system appends to a file that is open for that, whatever the place
    if (taken > 0 && fcntl(fd, F_GETFL) & O_APPEND) place = lseek(fd, 0, SEEK_END) - taken;
    if (taken > 0) record("write", fd, place, bytes, taken);
    return taken;
}

int ftruncate(int fd, off_t length) {
    int done = syscall(SYS_ftruncate, fd, length);
    if (!done) record("cut", fd, length, "", 0);
    return done;
}

int fdatasync(int fd) {
    int done = syscall(SYS_fdatasync, fd);
    if (!done) record("sync", fd, 0, "", 0);
    return done;
}

int fsync(int fd) {
    int done = syscall(SYS_fsync, fd);
    if (!done) record("sync", fd, 0, "", 0);
    return done;
}

static int opened(int folder, const char *path, int flags, mode_t mode) {
    struct stat found;
    int is_new = fstatat(folder, path, &found, AT_SYMLINK_NOFOLLOW);
    int fd = syscall(SYS_openat, folder, path, flags, mode);
    if (fd >= 0 && flags & O_CREAT && is_new && is_regular(fd)) record("create", fd, 0, "", 0);
    if (fd >= 0 && flags & O_TRUNC && !is_new && is_regular(fd)) record("cut", fd, 0, "", 0);
    return fd;
}

static mode_t mode_of(int flags, va_list rest) { return flags & O_CREAT ? va_arg(rest, mode_t) : 0; }

int open(const char *path, int flags, ...) {
    va_list rest;
    va_start(rest, flags);
    mode_t mode = mode_of(flags, rest);
    va_end(rest);
    return opened(AT_FDCWD, path, flags, mode);
}

int openat(int folder, const char *path, int flags, ...) {
    va_list rest;
    va_start(rest, flags);
    mode_t mode = mode_of(flags, rest);
    va_end(rest);
    return opened(folder, path, flags, mode);
}

/* The full name that a path means: the one of its folder, and then its last word. */
static void full_name(int folder, const char *path, char *file) {
    const char *slash = strrchr(path, '/'), *word = slash ? slash + 1 : path;
    char before[LONGEST];
    snprintf(before, sizeof before, "%.*s", slash ? (int)(word - path) : 1, slash ? path : ".");
    int at = syscall(SYS_openat, folder, before, O_PATH | O_DIRECTORY | O_CLOEXEC, 0);
    if (at < 0) {
        *file = 0;
        return;
    }
    name_of(at, file);
    size_t length = strlen(file);
    snprintf(file + length, LONGEST - length, "/%s", word);
    syscall(SYS_close, at);
}

static int renamed(int folder, const char *from, int other, const char *to, unsigned flags) {
    char file[LONGEST], name[LONGEST];
    full_name(folder, from, file);
    full_name(other, to, name);
    int done = syscall(SYS_renameat2, folder, from, other, to, flags);
    if (!done && getenv("RECORD")) put("rename", file, 0, name, strlen(name));
    return done;
}

int rename(const char *from, const char *to) { return renamed(AT_FDCWD, from, AT_FDCWD, to, 0); }
int renameat(int folder, const char *from, int other, const char *to) { return renamed(folder, from, other, to, 0); }

int unlinkat(int folder, const char *path, int flags) {
    char file[LONGEST];
    full_name(folder, path, file);
    int done = syscall(SYS_unlinkat, folder, path, flags);
    if (!done && !flags && getenv("RECORD")) put("unlink", file, 0, "", 0);
    return done;
}

int unlink(const char *path) { return unlinkat(AT_FDCWD, path, 0); }

static int absent(void) {
    errno = ENOSYS;
    return -1;
}

ssize_t copy_file_range(int from, off_t *at, int to, off_t *other, size_t count, unsigned flags) { return absent(); }
ssize_t sendfile(int to, int from, off_t *at, size_t count) { return absent(); }
ssize_t splice(int from, off_t *at, int to, off_t *other, size_t count, unsigned flags) { return absent(); }
int renameat2(int folder, const char *from, int other, const char *to, unsigned flags) { return absent(); }
int link(const char *from, const char *to) { return absent(); }
int linkat(int folder, const char *from, int other, const char *to, int flags) { return absent(); }

// the names that files of any length have: here all do
int open64(const char *, int, ...) __attribute__((alias("open")));
int openat64(int, const char *, int, ...) __attribute__((alias("openat")));
ssize_t pwrite64(int, const void *, size_t, off_t) __attribute__((alias("pwrite")));
int ftruncate64(int, off_t) __attribute__((alias("ftruncate")));
ssize_t sendfile64(int, int, off_t *, size_t) __attribute__((alias("sendfile")));
