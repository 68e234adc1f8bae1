/* Notes each write and sync of a program in the file that NOTES names: a line `out BYTES` for standard output,
   `log BYTES` for a file, and `sync`. Preload it. */
#define _GNU_SOURCE
#include <errno.h>
#include <fcntl.h>
#include <stdio.h>
#include <stdlib.h>
#include <sys/syscall.h>
#include <unistd.h>

static void note(const char *what, long count) {
    const char *name = getenv("NOTES");
    int kept = errno, notes = name ? open(name, O_WRONLY | O_APPEND | O_CREAT | O_CLOEXEC, 0600) : -1;
    char line[64];
    if (notes >= 0) {
        syscall(SYS_write, notes, line, snprintf(line, sizeof line, count < 0 ? "%s\n" : "%s %ld\n", what, count));
        close(notes);
    }
    errno = kept;
}

ssize_t write(int fd, const void *bytes, size_t count) {
    ssize_t taken = syscall(SYS_write, fd, bytes, count);
    if (fd != STDERR_FILENO) {
        note(fd == STDOUT_FILENO ? "out" : "log", taken);
    }
    return taken;
}

int fdatasync(int fd) {
    note("sync", -1);
    return syscall(SYS_fdatasync, fd);
}

int fsync(int fd) {
    note("sync", -1);
    return syscall(SYS_fsync, fd);
}
