/* libredodb: the build-dependency database of redo in the caller's own process.
 *
 * A database answers lines, as the program redodb-live does: docs/RULES.md, "Conversations", defines lines and answers.
 * Nothing is kept on a disk: a caller that wants to go on later writes the log's bytes (`logged`, below) and gives them
 * to redodb_restore.
 *
 * There is no global state: two databases in one process know nothing of each other. A database is used by one thread
 * at a time; which thread that is may change, if the caller orders the calls by a lock or by a thread's start and end.
 * It is not used in a signal handler, nor in the child of a fork of a process with threads. No call waits, prints, or
 * ends the process: whatever goes wrong is a number that it returns.
 *
 * Memory comes from malloc, realloc and free. Sizes and lengths are in bytes. */
#ifndef REDODB_H
#define REDODB_H

#include <stddef.h>

#ifdef __cplusplus
extern "C" {
#endif

/* The number of this interface. It changes when the library no longer serves callers that were compiled with this
 * header; redodb_abi returns the library's. */
#define REDODB_ABI 1

/* A database knows at most this many names: a line with one more is answered by its fault. */
#define REDODB_MOST_NAMES 16777216

/* Sessions are numbered from 1 to this number. */
#define REDODB_MOST_SESSIONS 65535

/* What a call returns. All but the first two leave the database as it was. */
enum redodb_status {
    /* It was done. */
    REDODB_OK = 0,
    /* The line was answered by its fault, `SESSION fault WORD`, and changed nothing. If the word would be `memory`, the
     * call returns REDODB_MEMORY. */
    REDODB_FAULT = 1,
    /* The answer is longer than the buffer, and so the line was not done. */
    REDODB_TOO_SMALL = 2,
    /* Memory ran out. The same call can be made again. */
    REDODB_MEMORY = 3,
    /* The bytes are no log. */
    REDODB_DIFFERS = 4,
    /* The log has more lines than a database answers: with two for each name, 4,294,967,165. */
    REDODB_WORN = 5,
    /* A pointer is null, a length is above PTRDIFF_MAX, or the line overlaps the buffer for its answer. */
    REDODB_MISUSE = 6
};

/* A database. It is made by redodb_open or redodb_restore, and ended by redodb_close. */
typedef struct redodb redodb;

/* What of a log was restored. */
typedef struct redodb_restored {
    /* If it succeeded: how many lines were done again. If the bytes differ: how many lines come before the first one
     * that is not the database's answer. The header is not counted, nor are the lines of a dump. */
    size_t lines;
    /* How many bytes these lines have, with all before them. The bytes after them were torn, or differ. */
    size_t bytes;
    /* If the bytes differ: the number of the line that does, or is no line of a dump, counted from 1; the header is
     * line 1. Else 0. */
    size_t line;
} redodb_restored;

/* Makes an empty database, and puts it at *database. It ignores the old value: a database that is open there stays
 * open, and can be used and closed by a copy of the pointer alone. Returns REDODB_OK; or REDODB_MEMORY, and then
 * *database is null; or REDODB_MISUSE if `database` is null. */
int redodb_open(redodb **database);

/* Makes a database in the state after the log in the `size` bytes at `log`, and puts it at *database, as redodb_open
 * does. The bytes are the line `redodb-log 1` and then what was logged, or a log that redodb-live has compacted; a last
 * line without its LF was torn, and is left out. No bytes make an empty database; then `log` may be null. What was
 * restored is put at *restored, which may be null. Sessions hold what they held: a caller whose sessions have ended
 * ends them. Returns REDODB_OK; or REDODB_DIFFERS, REDODB_WORN or REDODB_MEMORY, and then *database is null; or
 * REDODB_MISUSE if `database` is null, or `log` is and `size` isn't 0. */
int redodb_restore(redodb **database, const void *log, size_t size, redodb_restored *restored);

/* Answers one line, `SESSION COMMAND`, `SESSION end` or a question, which is the `length` bytes at `line`, without an
 * LF. The answer, of one line or, at the end of a session, of several, each with its LF, is put at `room`, a buffer of
 * `most` bytes; no NUL is added. *size is how many bytes it has. *logged is how many of these, from the first on, are
 * to be written to a log before the answer is acted on: all, or all but the last line, or none. `size` and `logged` may
 * be null.
 *
 * If the answer has more than `most` bytes, the call returns REDODB_TOO_SMALL, does nothing and puts nothing at `room`;
 * *size is how many bytes the answer needs. So the same call with a larger buffer does what the first did not. `room`
 * may be null if `most` is 0, and `line` if `length` is 0.
 *
 * Returns REDODB_OK, REDODB_FAULT, REDODB_TOO_SMALL, REDODB_MEMORY or REDODB_MISUSE; the last two set *size and *logged
 * to 0. After REDODB_MEMORY what is at `room` is no answer. The line and the buffer must not overlap, and no other
 * thread may use either meanwhile. */
int redodb_answer(redodb *database, const char *line, size_t length, char *room, size_t most, size_t *size,
                  size_t *logged);

/* Ends the database at *database, frees its memory, and puts null there, so that a later call returns REDODB_MISUSE
 * instead of using what is freed. The caller must not use a copy of the pointer any more: no call can detect that. If
 * `database` is null, or *database is, it does nothing. Returns REDODB_OK, or REDODB_MISUSE if `database` is null. */
int redodb_close(redodb **database);

/* Returns the words for a status, in English, as "the answer is longer than the room". For any other number they are
 * "unknown status". The text is static. */
const char *redodb_status_text(int status);

/* Returns the library's version, as "0.3.0". The text is static. */
const char *redodb_version(void);

/* Returns the number of the interface that the library was built with, which has to be REDODB_ABI. */
unsigned redodb_abi(void);

#ifdef __cplusplus
}
#endif

#endif
