/* The C side of libredodb: it tests for null pointers and impossible lengths, which Rattle can't, and calls
 * redodb_c. */
#include "redodb.h"

#include <stdint.h>
#include <stdlib.h>
#include <string.h>

#define EXPORTED __attribute__((visibility("default")))

/* `Handle` of crates/redodb_c: where the memory of a database begins. */
typedef struct handle {
    unsigned char *at;
} handle;

/* `AnswerSizes` of crates/redodb_c. */
typedef struct told {
    size_t size;
    size_t logged;
} told;

struct redodb {
    handle handle;
};

/* The calls of crates/redodb_c. A slice is a pointer, which is never null, and a length. If a database is open at the
 * handle, redodb_c_open and redodb_c_restore end it if they return REDODB_OK, and else leave it; here none ever is. */
size_t redodb_c_room(void);
void redodb_c_place(unsigned char *at);
uint32_t redodb_c_open(handle *handle);
uint32_t redodb_c_restore(handle *handle, const unsigned char *log, size_t size, redodb_restored *restored);
uint32_t redodb_c_answer(handle *handle, const unsigned char *line, size_t length, unsigned char *room, size_t most,
                       told *told);
void redodb_c_close(handle *handle);

/* Memory for a database, in which none is open yet; or null. */
static redodb *make(void) {
    redodb *database = malloc(sizeof *database);
    if (database == NULL) return NULL;
    database->handle.at = malloc(redodb_c_room());
    if (database->handle.at == NULL) {
        free(database);
        return NULL;
    }
    redodb_c_place(database->handle.at);
    return database;
}

static void unmake(redodb *database) {
    free(database->handle.at);
    free(database);
}

EXPORTED int redodb_open(redodb **database) {
    if (database == NULL) return REDODB_MISUSE;
    *database = NULL;
    redodb *made = make();
    if (made == NULL) return REDODB_MEMORY;
    int status = (int)redodb_c_open(&made->handle);
    if (status != REDODB_OK) {
        unmake(made);
        return status;
    }
    *database = made;
    return REDODB_OK;
}

EXPORTED int redodb_restore(redodb **database, const void *log, size_t size, redodb_restored *restored) {
    redodb_restored told = {0, 0, 0};
    if (restored != NULL) *restored = told;
    if (database == NULL) return REDODB_MISUSE;
    *database = NULL;
    if (size > PTRDIFF_MAX || (log == NULL && size > 0)) return REDODB_MISUSE;
    redodb *made = make();
    if (made == NULL) return REDODB_MEMORY;
    unsigned char nothing = 0;
    int status = (int)redodb_c_restore(&made->handle, log == NULL ? &nothing : log, size, &told);
    if (restored != NULL) *restored = told;
    if (status != REDODB_OK) {
        unmake(made);
        return status;
    }
    *database = made;
    return REDODB_OK;
}

/* Whether two places have a byte in common. */
static int overlap(const void *one, size_t size, const void *other, size_t length) {
    uintptr_t first = (uintptr_t)one, second = (uintptr_t)other;
    return size > 0 && length > 0 && (first < second ? second - first < size : first - second < length);
}

/* Whether the fault is that memory ran out: the answer is `SESSION fault memory`. Then the status reports it. */
static int lacks_memory(const char *answer, size_t size) {
    static const char end[] = " fault memory\n";
    size_t length = sizeof end - 1;
    return size > length && memcmp(answer + size - length, end, length) == 0;
}

EXPORTED int redodb_answer(redodb *database, const char *line, size_t length, char *room, size_t most, size_t *size,
                           size_t *logged) {
    told told = {0, 0};
    unsigned char no_line = 0, no_room = 0;
    int status = REDODB_MISUSE;
    if (database != NULL && (line != NULL || length == 0) && (room != NULL || most == 0) && length <= PTRDIFF_MAX
        && most <= PTRDIFF_MAX && !overlap(line, length, room, most))
        status = (int)redodb_c_answer(&database->handle, line == NULL ? &no_line : (const unsigned char *)line, length,
                                    room == NULL ? &no_room : (unsigned char *)room, most, &told);
    if (status == REDODB_FAULT && lacks_memory(room, told.size)) {
        status = REDODB_MEMORY;
        told.size = 0;
    }
    if (size != NULL) *size = told.size;
    if (logged != NULL) *logged = told.logged;
    return status;
}

EXPORTED int redodb_close(redodb **database) {
    if (database == NULL) return REDODB_MISUSE;
    if (*database == NULL) return REDODB_OK;
    redodb_c_close(&(*database)->handle);
    unmake(*database);
    *database = NULL;
    return REDODB_OK;
}

EXPORTED const char *redodb_status_text(int status) {
    switch (status) {
    case REDODB_OK: return "done";
    case REDODB_FAULT: return "the line has a fault";
    case REDODB_TOO_SMALL: return "the answer is longer than the room";
    case REDODB_MEMORY: return "out of memory";
    case REDODB_DIFFERS: return "the bytes are no log";
    case REDODB_WORN: return "the log has too many lines";
    case REDODB_MISUSE: return "a null pointer, a length that is too large, or a line in the room for its answer";
    default: return "unknown status";
    }
}

EXPORTED const char *redodb_version(void) { return "0.3.0"; }

EXPORTED unsigned redodb_abi(void) { return REDODB_ABI; }
