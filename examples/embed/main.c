/* The records of a tiny tree in this process: a build of util.o is reported, util.h changes, and then a question asks why util.o
 * is out of date.
 *
 *     cc examples/embed/main.c -Iinclude library/out/libredodb.a -o main && ./main
 */
#include <redodb.h>
#include <stdio.h>
#include <stdlib.h>
#include <string.h>

static const char *const lines[] = {
    "1 file util.h 1", "1 lock util.o",    "1 start util.o", "1 ifchange util.o util.h",
    "1 done util.o 2", "1 unlock util.o",  "1 file util.h 3", "2 why util.o",
    "2 ood",           "1 lock util.o",    "1 end",
};

/* A buffer for an answer, which grows if it has to. */
typedef struct room {
    char *at;
    size_t most;
} room;

/* Answers a line, with a large enough buffer, and prints the answer. */
static int answer(redodb *database, const char *line, room *room) {
    size_t size;
    int status = redodb_answer(database, line, strlen(line), room->at, room->most, &size, NULL);
    if (status == REDODB_TOO_SMALL) {
        char *larger = realloc(room->at, size);
        if (larger == NULL) return REDODB_MEMORY;
        room->at = larger;
        room->most = size;
        status = redodb_answer(database, line, strlen(line), room->at, room->most, &size, NULL);
    }
    fwrite(room->at, 1, size, stdout);
    return status;
}

int main(void) {
    redodb *database;
    int status = redodb_open(&database);
    room room = {NULL, 0};
    for (size_t i = 0; status == REDODB_OK && i < sizeof lines / sizeof *lines; i++)
        status = answer(database, lines[i], &room);
    if (status != REDODB_OK) fprintf(stderr, "redodb: %s\n", redodb_status_text(status));
    free(room.at);
    redodb_close(&database);
    return status == REDODB_OK ? 0 : 1;
}
