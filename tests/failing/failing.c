/* Makes calls of a program fail, or kills it at one, and notes each call. Preload it. LOG is the full name of a log.
   The files are this log, its copy (LOG.damaged), the new log that is to take its place (LOG.new), the old log whose
   place was taken, their folder, and the streams in, out and err. FAIL has plans, each in these words:

       KIND FILE NUMBER ERROR

   The call of this kind on this file that has this number, from 1, fails with this error. The error 0 is a write that
   takes half of its bytes; -1 kills the program before the call, and -2 after it. A later plan counts from where the
   one before it was done. With a `+` in place of the last space all later calls fail, too. The file NOTES gets a line
   for each call: its kind, its file, what it returned or the error below zero, how long the log, the copy and the new
   log are then (-1: there is none), and whether it was planned to fail. A call before which the program is killed is
   noted with the error EINTR. A sync that doesn't fail does nothing. */
#define _GNU_SOURCE
#include <errno.h>
#include <fcntl.h>
#include <signal.h>
#include <stdarg.h>
#include <stdio.h>
#include <stdlib.h>
#include <string.h>
#include <sys/file.h>
#include <sys/sendfile.h>
#include <sys/stat.h>
#include <sys/syscall.h>
#include <sys/uio.h>
#include <unistd.h>

#define PLAN "%7s %7s %d%c%d%n"
#define NO_CALL -1L
#define BEFORE -1
#define AFTER -2
#define NO_PLAN -3

static const char *plans, *name;
static struct {
    char kind[8], file[8], last;
    int number, error;
} plan;

static void next_plan(void) {
    int length = 0;
    sscanf(plans, PLAN, plan.kind, plan.file, &plan.number, &plan.last, &plan.error, &length);
    if (!length) plan.number = 0;
    plans += length;
}

__attribute__((constructor)) static void begin(void) {
    plans = getenv("FAIL");
    name = getenv("LOG");
    next_plan();
}

/* The error that is planned for this call, if one is. */
static int failure(const char *kind, const char *file) {
    int error = plan.error;
    if (!file || !plan.number || strcmp(kind, plan.kind) || strcmp(file, plan.file)) return NO_PLAN;
    if (plan.number > 1) {
        plan.number--;
        return NO_PLAN;
    }
    if (plan.last != '+') next_plan();
    return error;
}

static long length_of(const char *ending) {
    char path[4096];
    struct stat found;
    snprintf(path, sizeof path, "%s%s", name, ending);
    return stat(path, &found) ? -1 : (long)found.st_size;
}

static void note(const char *kind, const char *file, long result, int planned) {
    char line[128];
    int notes = syscall(SYS_openat, AT_FDCWD, getenv("NOTES"), O_WRONLY | O_APPEND | O_CREAT, 0600);
    long log = length_of(""), copy = length_of(".damaged"), new = length_of(".new");
    int count = snprintf(line, sizeof line, "%s %s %ld %ld %ld %ld %d\n", kind, file, result, log, copy, new, planned);
    syscall(SYS_write, notes, line, count);
    syscall(SYS_close, notes);
}

static const char *file_at(const char *path) {
    static const char *const endings[][2] = {{"", "log"}, {".damaged", "copy"}, {".new", "new"}, {" (deleted)", "old"}};
    size_t length = strlen(name), folder = strrchr(name, '/') - name;
    if (strlen(path) == folder && !strncmp(path, name, folder)) return "folder";
    if (strncmp(path, name, length)) return 0;
    for (size_t at = 0; at < sizeof endings / sizeof *endings; at++)
        if (!strcmp(path + length, endings[at][0])) return endings[at][1];
    return 0;
}

/* The file that a link of the system leads to, and then this path. */
static const char *file_behind(const char *link, const char *path) {
    char full[8192];
    ssize_t length = readlink(link, full, 4096);
    if (length < 0) return 0;
    snprintf(full + length, sizeof full - length, "%s%s", *path ? "/" : "", path);
    return file_at(full);
}

static const char *file_in(int folder, const char *path) {
    char link[64] = "/proc/self/cwd";
    if (*path == '/') return file_at(path);
    if (folder != AT_FDCWD) snprintf(link, sizeof link, "/proc/self/fd/%d", folder);
    return file_behind(link, path);
}

static const char *file_of(int fd) {
    static const char *streams[] = {"in", "out", "err"};
    char link[64];
    if (fd >= 0 && fd <= STDERR_FILENO) return streams[fd];
    snprintf(link, sizeof link, "/proc/self/fd/%d", fd);
    return file_behind(link, "");
}

/* Does a call unless it has an error, and notes it if its file is one of those above. */
static long done(int error, const char *kind, const char *file, long call, long a, long b, long c, long d) {
    int fails = error > 0 || error == BEFORE;
    long result = fails ? -1 : call == NO_CALL ? 0 : syscall(call, a, b, c, d);
    int kept = error > 0 ? error : error == BEFORE ? EINTR : errno;
    if (file) note(kind, file, result < 0 ? -kept : result, error != NO_PLAN);
    if (error == BEFORE || error == AFTER) kill(getpid(), SIGKILL);
    errno = kept;
    return result;
}

static long on(int fd, const char *kind, long call, long b, long c, long d) {
    const char *file = file_of(fd);
    return done(failure(kind, file), kind, file, call, fd, b, c, d);
}

static long put(int fd, const void *bytes, size_t count, long call, off_t at) {
    const char *file = file_of(fd);
    int error = failure("write", file);
    return done(error, "write", file, call, fd, (long)bytes, error ? count : count / 2, at);
}

static int opened(int folder, const char *path, int flags, va_list rest) {
    const char *kind = flags & O_CREAT ? "create" : "open", *file = file_in(folder, path);
    mode_t mode = flags & O_CREAT ? va_arg(rest, mode_t) : 0;
    return done(failure(kind, file), kind, file, SYS_openat, folder, (long)path, flags, mode);
}

#define OPENING(head, folder)                         \
    head {                                            \
        va_list rest;                                 \
        va_start(rest, flags);                        \
        int fd = opened(folder, path, flags, rest);   \
        va_end(rest);                                 \
        return fd;                                    \
    }

OPENING(int open(const char *path, int flags, ...), AT_FDCWD)
OPENING(int open64(const char *path, int flags, ...), AT_FDCWD)
OPENING(int openat(int folder, const char *path, int flags, ...), folder)
OPENING(int openat64(int folder, const char *path, int flags, ...), folder)

int renameat(int folder, const char *from, int other, const char *to) {
    const char *file = file_in(folder, from);
    return done(failure("rename", file), "rename", file, SYS_renameat, folder, (long)from, other, (long)to);
}

int unlinkat(int folder, const char *path, int flags) {
    const char *file = file_in(folder, path);
    return done(failure("unlink", file), "unlink", file, SYS_unlinkat, folder, (long)path, flags, 0);
}

ssize_t read(int fd, void *to, size_t count) { return on(fd, "read", SYS_read, (long)to, count, 0); }
ssize_t pread(int fd, void *to, size_t count, off_t at) { return on(fd, "read", SYS_pread64, (long)to, count, at); }
ssize_t pread64(int fd, void *to, size_t count, off_t at) { return pread(fd, to, count, at); }
ssize_t write(int fd, const void *bytes, size_t count) { return put(fd, bytes, count, SYS_write, 0); }
ssize_t pwrite(int fd, const void *bytes, size_t count, off_t at) { return put(fd, bytes, count, SYS_pwrite64, at); }
ssize_t pwrite64(int fd, const void *bytes, size_t count, off_t at) { return pwrite(fd, bytes, count, at); }
int fsync(int fd) { return on(fd, "sync", NO_CALL, 0, 0, 0); }
int fdatasync(int fd) { return on(fd, "sync", NO_CALL, 0, 0, 0); }
int ftruncate(int fd, off_t length) { return on(fd, "cut", SYS_ftruncate, length, 0, 0); }
int ftruncate64(int fd, off_t length) { return ftruncate(fd, length); }
int rename(const char *from, const char *to) { return renameat(AT_FDCWD, from, AT_FDCWD, to); }
int unlink(const char *path) { return unlinkat(AT_FDCWD, path, 0); }
int flock(int fd, int how) { return on(fd, "lock", SYS_flock, how, 0, 0); }

/* Takes the first piece that isn't empty, as it may. */
ssize_t writev(int fd, const struct iovec *pieces, int count) {
    while (count > 1 && !pieces->iov_len) pieces++, count--;
    return write(fd, pieces->iov_base, pieces->iov_len);
}

/* Copies within the kernel aren't offered: a program reads and writes instead. */
static ssize_t absent(void) {
    errno = ENOSYS;
    return -1;
}

ssize_t copy_file_range(int from, off_t *at, int to, off_t *there, size_t count, unsigned flags) { return absent(); }
ssize_t sendfile(int to, int from, off_t *at, size_t count) { return absent(); }
ssize_t sendfile64(int to, int from, off_t *at, size_t count) { return absent(); }
