/* Records the lines of a file as rows of SQLite, in memory and by prepared statements, and answers the last of them, which
 * ask why, by a recursive query. Prints how many seconds all but the last took, and how many these. Of the rules it keeps
 * what the lines of this benchmark need: a lock that is free, rows, marks and stamps.
 *
 * Usage: rows FILE LAST */
#include <sqlite3.h>

#include "reading.h"

static const char *const SCHEMA =
    "CREATE TABLE cell (id INTEGER PRIMARY KEY, name TEXT UNIQUE, state TEXT, file TEXT, done TEXT, builds INTEGER,"
    " holder INTEGER, grants INTEGER, mark TEXT);"
    "CREATE TABLE change (target INTEGER, name INTEGER, mark TEXT, PRIMARY KEY (target, name)) WITHOUT ROWID;"
    "CREATE INDEX change_on ON change (name, target);";

enum { NAMED, FILED, LOCKED, UNLOCKED, STARTED, CLEARED, NEEDED, DONE, ASKED, STATEMENTS };

static const char *const STATEMENT[STATEMENTS] = {
    "INSERT INTO cell VALUES (NULL, ?1, 'idle', NULL, NULL, 0, NULL, 0, 'absent') ON CONFLICT DO NOTHING",
    "UPDATE cell SET file = ?2, mark = CASE state WHEN 'idle' THEN 'file ' || ?2 ELSE mark END WHERE name = ?1",
    "UPDATE cell SET holder = ?2, grants = grants + 1 WHERE name = ?1 AND holder IS NULL",
    "UPDATE cell SET holder = NULL WHERE name = ?1 AND holder = ?2",
    "UPDATE cell SET state = 'building', builds = builds + 1, mark = 'builds ' || (builds + 1) WHERE name = ?1"
    " AND holder = ?2",
    "DELETE FROM change WHERE target = (SELECT id FROM cell WHERE name = ?1)",
    "INSERT OR REPLACE INTO change SELECT target.id, needed.id, needed.mark FROM cell AS target, cell AS needed"
    " WHERE target.name = ?1 AND needed.name = ?2",
    "UPDATE cell SET state = 'built', file = ?2, done = ?2 WHERE name = ?1 AND state = 'building'",
    "WITH RECURSIVE chain (target, name, path, own) AS ("
    " SELECT id, name, name, CASE WHEN state IN ('building', 'failed') THEN state"
    "  WHEN file IS NOT done THEN 'edited' END FROM cell WHERE name = ?1 AND state <> 'idle'"
    " UNION ALL"
    " SELECT cell.id, cell.name, chain.path || ' ' || cell.name,"
    "  CASE WHEN cell.state IN ('building', 'failed') THEN cell.state WHEN cell.file IS NOT cell.done THEN 'edited' END"
    " FROM chain CROSS JOIN change ON change.target = chain.target"
    " CROSS JOIN cell ON cell.id = change.name AND cell.state <> 'idle')"
    "SELECT coalesce(own || ' ' || name,"
    " (SELECT 'changed ' || cell.name FROM change CROSS JOIN cell ON cell.id = change.name"
    "  WHERE change.target = chain.target AND change.mark <> cell.mark LIMIT 1)) AS reason, path"
    " FROM chain WHERE reason IS NOT NULL LIMIT 1",
};

static sqlite3_stmt *prepared[STATEMENTS];

/* Does a statement with a text and, if there is one, another. */
static void does(int which, const char *first, const char *second) {
    sqlite3_stmt *statement = prepared[which];
    sqlite3_bind_text(statement, 1, first, -1, SQLITE_STATIC);
    if (second != NULL) sqlite3_bind_text(statement, 2, second, -1, SQLITE_STATIC);
    int result = sqlite3_step(statement);
    check(result == SQLITE_DONE || result == SQLITE_ROW, "step");
    sqlite3_reset(statement);
}

/* What a line says is done, by its words. */
static void record(char *line) {
    char *rest = line, *session = strtok_r(rest, " ", &rest), *command = strtok_r(rest, " ", &rest);
    char *name = strtok_r(rest, " ", &rest);
    if (strcmp(command, "file") == 0) {
        does(NAMED, name, NULL);
        does(FILED, name, strtok_r(rest, " ", &rest));
    } else if (strcmp(command, "lock") == 0) {
        does(NAMED, name, NULL);
        does(LOCKED, name, session);
    } else if (strcmp(command, "unlock") == 0) {
        does(UNLOCKED, name, session);
    } else if (strcmp(command, "start") == 0) {
        does(STARTED, name, session);
        does(CLEARED, name, NULL);
    } else if (strcmp(command, "ifchange") == 0) {
        for (char *needed; (needed = strtok_r(rest, " ", &rest)) != NULL;) does(NEEDED, name, needed);
    } else if (strcmp(command, "done") == 0) {
        does(DONE, name, strtok_r(rest, " ", &rest));
    } else {
        check(strcmp(command, "why") == 0, command);
        does(ASKED, name, NULL);
    }
}

int main(int count, char **words) {
    check(count == 3, "usage: rows FILE LAST");
    struct text text = text_of(words[1]);
    size_t last = strtoul(words[2], NULL, 10);
    sqlite3 *database;
    check(sqlite3_open(":memory:", &database) == SQLITE_OK, "open");
    check(sqlite3_exec(database, SCHEMA, NULL, NULL, NULL) == SQLITE_OK, "schema");
    for (int i = 0; i < STATEMENTS; i++)
        check(sqlite3_prepare_v2(database, STATEMENT[i], -1, &prepared[i], NULL) == SQLITE_OK, sqlite3_errmsg(database));
    double begun = seconds(), halfway = begun;
    sqlite3_exec(database, "BEGIN", NULL, NULL, NULL);
    for (size_t i = 0; i < text.count; i++) {
        if (i == text.count - last) {
            sqlite3_exec(database, "COMMIT", NULL, NULL, NULL);
            halfway = seconds();
        }
        record(text.lines[i].at);
    }
    printf("%f %f\n", halfway - begun, seconds() - halfway);
    return 0;
}
