/* Each request for memory refused in turn: over a conversation, and over the restart from its log. The call with a
 * refused one returns REDODB_MEMORY, reports no length, and leaves the database as it was: the same call again answers as it does
 * with ample memory, and all answers and log lines from then on are the same. Prints a line for each expectation that
 * fails, and how many held.
 *
 * It is linked with -Wl,--wrap for malloc, calloc, realloc and free. */
#include <redodb.h>
#include <stdio.h>
#include <stdlib.h>
#include <string.h>

void *__real_malloc(size_t size);
void *__real_calloc(size_t count, size_t size);
void *__real_realloc(void *at, size_t size);
void __real_free(void *at);

static int held, failed;

static void expect(int is_so, const char *what, int line) {
    if (is_so) {
        held++;
    } else {
        failed++;
        printf("refusals.c:%d: %s\n", line, what);
    }
}

#define EXPECT(condition) expect((condition), #condition, __LINE__)

/* The request of this number, counted from 1, is refused, and none if it is 0. */
static size_t requests, refused_at, refused;
/* How many bytes the one that was refused wanted, and whether the next one wanted no more. */
static size_t lacking;
static int is_asked_again;
/* How many refusals were done without, and how many pieces of memory aren't freed yet. */
static size_t done_without, blocks;

/* Whether a request for this many bytes is refused. */
static int refuses(size_t size) {
    requests++;
    is_asked_again = is_asked_again || (lacking != 0 && size <= lacking);
    lacking = 0;
    if (requests != refused_at) return 0;
    refused++;
    lacking = size;
    return 1;
}

static void *counted(void *at) {
    blocks += at != NULL;
    return at;
}

void *__wrap_malloc(size_t size) { return refuses(size) ? NULL : counted(__real_malloc(size)); }

void *__wrap_calloc(size_t count, size_t size) {
    return refuses(count * size) ? NULL : counted(__real_calloc(count, size));
}

void *__wrap_realloc(void *at, size_t size) {
    if (refuses(size)) return NULL;
    void *to = __real_realloc(at, size);
    return at == NULL ? counted(to) : to;
}

void __wrap_free(void *at) {
    blocks -= at != NULL;
    __real_free(at);
}

enum { NAMES = 70, MOST = 1 << 16 };

/* What is said after the first NAMES lines, which are `1 file source-N N`. */
static const char *const LINES[] = {
    "1 lock b", "1 start b", "1 ifchange b source-1 source-2 new", "1 ifcreate b other", "1 always b", "1 stamp b 6162",
    "2 lock a", "2 start a", "2 ifchange a b source-3", "1 done b 1", "3 lock c", "1 lock c", "1 build c", "2 done a 2",
    "2 why a", "3 deps b", "2 users b", "1 state b", "3 names", "1 ood", "2 targets", "3 sources", "1 end", "2 lock b",
    "2 start b", "2 end", "3 gone source-1", "2 why a", "3 ood", "3 lock c", "3 start c", "3 end",
};

/* What is asked after a restart: first a faulty line, so that memory for telling of a fault is refused, too. */
static const char *const ASKED[] = {
    "1 build c", "1 ood", "2 targets", "3 sources", "1 why a", "2 deps b", "3 users b",
    "3 state c", "2 names", "1 lock b",
};

enum { AFTER = sizeof LINES / sizeof *LINES, TOLD = NAMES + AFTER, ASKS = sizeof ASKED / sizeof *ASKED };

static const char *line_of(size_t number) {
    static char line[64];
    if (number >= NAMES) return LINES[number - NAMES];
    snprintf(line, sizeof line, "1 file source-%zu %zu", number, number);
    return line;
}

/* All that was answered, and of that what a log takes, after its header. */
struct told {
    char said[MOST], log[MOST];
    size_t said_size, log_size;
};

static void begin(struct told *told) {
    static const char header[] = "redodb-log 1\n";
    memcpy(told->log, header, sizeof header - 1);
    told->log_size = sizeof header - 1;
    told->said_size = 0;
}

static int same(const struct told *one, const struct told *other) {
    return one->said_size == other->said_size && memcmp(one->said, other->said, one->said_size) == 0
           && one->log_size == other->log_size && memcmp(one->log, other->log, one->log_size) == 0;
}

/* Before a call: how many requests were refused so far. */
static size_t refused_before(void) {
    lacking = 0;
    is_asked_again = 0;
    return refused;
}

/* Whether the call lacked memory, and is to be done again. It can do without only if it asked for no more memory. */
static int is_to_be_repeated(int status, size_t before) {
    EXPECT(refused <= before + 1 && (status != REDODB_MEMORY || refused > before));
    if (status != REDODB_MEMORY && refused > before) {
        EXPECT(is_asked_again);
        done_without++;
    }
    return status == REDODB_MEMORY;
}

/* Answers a line, twice if memory is refused. */
static void answer(redodb *database, const char *line, struct told *told) {
    char *room = told->said + told->said_size;
    size_t size = 7, logged = 7, most = MOST - told->said_size, before = refused_before();
    int status = redodb_answer(database, line, strlen(line), room, most, &size, &logged);
    if (is_to_be_repeated(status, before)) {
        EXPECT(size == 0 && logged == 0);
        status = redodb_answer(database, line, strlen(line), room, most, &size, &logged);
    }
    EXPECT(status == REDODB_OK || status == REDODB_FAULT);
    EXPECT(size > 0 && size <= most && logged <= size);
    memcpy(told->log + told->log_size, room, logged);
    told->said_size += size;
    told->log_size += logged;
}

/* The conversation. */
static void talk(struct told *told) {
    redodb *database = NULL;
    begin(told);
    size_t before = refused_before();
    int status = redodb_open(&database);
    if (is_to_be_repeated(status, before)) {
        EXPECT(database == NULL && blocks == 0);
        status = redodb_open(&database);
    }
    EXPECT(status == REDODB_OK && database != NULL);
    for (size_t number = 0; number < TOLD; number++) answer(database, line_of(number), told);
    EXPECT(redodb_close(&database) == REDODB_OK && blocks == 0);
}

/* The restart from the log of a conversation, and what is asked then. */
static void restart(const struct told *from, struct told *told) {
    redodb *database = NULL;
    redodb_restored restored;
    size_t lines = 0;
    begin(told);
    size_t before = refused_before();
    int status = redodb_restore(&database, from->log, from->log_size, &restored);
    if (is_to_be_repeated(status, before)) {
        EXPECT(database == NULL && blocks == 0);
        status = redodb_restore(&database, from->log, from->log_size, &restored);
    }
    EXPECT(status == REDODB_OK && database != NULL);
    for (size_t at = 0; at < from->log_size; at++) lines += from->log[at] == '\n';
    EXPECT(restored.lines == lines - 1 && restored.bytes == from->log_size && restored.line == 0);
    for (size_t number = 0; number < ASKS; number++) answer(database, ASKED[number], told);
    EXPECT(redodb_close(&database) == REDODB_OK && blocks == 0);
}

static struct told talked, restarted, got, got_again;

/* Does both with this request refused, counted from the start of the first. */
static void do_both(size_t number, struct told *told, struct told *again) {
    refused_at = number;
    requests = 0;
    talk(told);
    restart(told, again);
}

int main(void) {
    do_both(0, &talked, &restarted);
    size_t most = requests;
    for (size_t number = 1; number <= most; number++) {
        do_both(number, &got, &got_again);
        EXPECT(refused == number && same(&got, &talked) && same(&got_again, &restarted));
    }
    EXPECT(most >= 300);
    printf("%zu requests refused, %zu done without, %d held, %d failed\n", refused, done_without, held, failed);
    return failed > 0;
}
