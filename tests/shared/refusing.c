// A malloc, a pthread_create and an open for tests. Refused are the request for memory whose number is FAIL_AT, counted
// from 1, each one of more bytes than FAIL_ABOVE, the start of the thread whose number is FAIL_START, and each opening of
// a file if FAIL_OPEN is set. At the end the file FAIL_REPORT has three counts: refusals of memory and threads, spared
// refusals, and threads that weren't joined. A refusal is spared if the same thread at once requests again, no more.
#define _GNU_SOURCE
#include <dlfcn.h>
#include <errno.h>
#include <fcntl.h>
#include <pthread.h>
#include <stdarg.h>
#include <stdatomic.h>
#include <stddef.h>
#include <stdio.h>
#include <stdlib.h>
#include <sys/syscall.h>
#include <unistd.h>

extern void *__libc_malloc(size_t);
extern void *__libc_calloc(size_t, size_t);
extern void *__libc_realloc(void *, size_t);

typedef int create_of(pthread_t *, const pthread_attr_t *, void *(*)(void *), void *);
typedef int join_of(pthread_t, void **);

static atomic_ulong requests, starts, refused, spared, running;
static unsigned long fail_at, fail_above, fail_start;
static __thread size_t last_refused;
static create_of *create;
static join_of *join;

static unsigned long number_in(const char *name) {
    const char *text = getenv(name);
    return text ? strtoul(text, 0, 10) : 0;
}

__attribute__((constructor)) static void begin(void) {
    create = (create_of *)dlsym(RTLD_NEXT, "pthread_create");
    join = (join_of *)dlsym(RTLD_NEXT, "pthread_join");
    fail_above = number_in("FAIL_ABOVE");
    fail_start = number_in("FAIL_START");
    atomic_store(&requests, 0);
    fail_at = number_in("FAIL_AT");
}

__attribute__((destructor)) static void end(void) {
    const char *report = getenv("FAIL_REPORT");
    int file = report ? open(report, O_CREAT | O_WRONLY | O_TRUNC, 0600) : -1;
    if (file < 0) return;
    dprintf(file, "%lu %lu %lu\n", refused, spared, running);
    close(file);
}

// a program with threads ends by _exit, which calls no destructor
void _exit(int status) {
    end();
    for (;;) syscall(SYS_exit_group, status);
}

static int is_refused(size_t bytes) {
    if (last_refused && bytes <= last_refused) atomic_fetch_add(&spared, 1);
    last_refused = 0;
    int is_its_turn = fail_at && atomic_fetch_add(&requests, 1) + 1 == fail_at;
    if (!is_its_turn && !(fail_above && bytes > fail_above)) return 0;
    atomic_fetch_add(&refused, 1);
    last_refused = bytes;
    errno = ENOMEM;
    return 1;
}

void *malloc(size_t n) { return is_refused(n) ? 0 : __libc_malloc(n); }
void *calloc(size_t n, size_t m) { return is_refused(m && n > (size_t)-1 / m ? (size_t)-1 : n * m) ? 0 : __libc_calloc(n, m); }
void *realloc(void *p, size_t n) { return is_refused(n) ? 0 : __libc_realloc(p, n); }

int open(const char *path, int flags, ...) {
    if (getenv("FAIL_OPEN")) {
        errno = ENOMEM;
        return -1;
    }
    va_list rest;
    va_start(rest, flags);
    mode_t mode = flags & O_CREAT ? va_arg(rest, mode_t) : 0;
    va_end(rest);
    return syscall(SYS_openat, AT_FDCWD, path, flags, mode);
}

int pthread_create(pthread_t *thread, const pthread_attr_t *attributes, void *(*body)(void *), void *given) {
    if (atomic_fetch_add(&starts, 1) + 1 == fail_start) {
        atomic_fetch_add(&refused, 1);
        return EAGAIN;
    }
    int fault = create(thread, attributes, body, given);
    if (!fault) atomic_fetch_add(&running, 1);
    return fault;
}

int pthread_join(pthread_t thread, void **answer) {
    int fault = join(thread, answer);
    if (!fault) atomic_fetch_sub(&running, 1);
    return fault;
}
