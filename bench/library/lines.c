/* Answers the lines of a file by libredodb, and prints how many seconds all but the last of them took, and how many these.
 *
 * Usage: lines FILE LAST [SAID]      LAST is how many are the last; SAID is where the answers to them are written */
#include <redodb.h>
#include <stdio.h>
#include <stdlib.h>
#include <string.h>

#include "reading.h"

int main(int count, char **words) {
    check(count == 3 || count == 4, "usage: lines FILE LAST [SAID]");
    struct text text = text_of(words[1]);
    size_t last = strtoul(words[2], NULL, 10);
    FILE *said = count == 4 ? fopen(words[3], "wb") : NULL;
    redodb *database;
    char *room = malloc(1 << 20);
    size_t size;
    check(room != NULL && redodb_open(&database) == REDODB_OK, "memory");
    double begun = seconds(), halfway = begun;
    for (size_t i = 0; i < text.count; i++) {
        if (i == text.count - last) halfway = seconds();
        struct line line = text.lines[i];
        check(redodb_answer(database, line.at, line.length, room, 1 << 20, &size, NULL) == REDODB_OK, line.at);
        if (said != NULL && i >= text.count - last) fwrite(room, 1, size, said);
    }
    double ended = seconds();
    printf("%f %f\n", halfway - begun, ended - halfway);
    redodb_close(&database);
    return said != NULL && fclose(said) != 0;
}
