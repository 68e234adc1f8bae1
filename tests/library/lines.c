/* Answers the lines of standard input, as redodb-live does, but for its greeting. */
#include <redodb.h>
#include <stdio.h>
#include <stdlib.h>

int main(void) {
    redodb *database;
    char *line = NULL, *room = NULL;
    size_t size = 0, most = 0, wanted;
    ssize_t length;
    if (redodb_open(&database) != REDODB_OK) return 2;
    while ((length = getline(&line, &size, stdin)) > 0) {
        if (line[length - 1] == '\n') length--;
        int status;
        while ((status = redodb_answer(database, line, (size_t)length, room, most, &wanted, NULL)) == REDODB_TOO_SMALL) {
            room = realloc(room, wanted);
            most = wanted;
            if (room == NULL) return 2;
        }
        if (status > REDODB_FAULT) return 2;
        fwrite(room, 1, wanted, stdout);
    }
    free(line);
    free(room);
    redodb_close(&database);
    return 0;
}
