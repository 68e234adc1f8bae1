// `why` by a recursive query of SQLite, to measure against: the rows of a database are read from a
// file of INSERT statements into memory, and lines `SESSION why NAME` are answered as redodb-live
// answers them.
// Usage: queries FILE
#include <sqlite3.h>
#include <stdio.h>
#include <stdlib.h>
#include <string.h>
#include <unistd.h>

static const char *const SCHEMA =
    "CREATE TABLE cell (id INTEGER PRIMARY KEY, name TEXT UNIQUE, state TEXT, file TEXT, done TEXT,"
    " always INTEGER, mark TEXT);"
    "CREATE TABLE change (target INTEGER, name INTEGER, mark TEXT, PRIMARY KEY (target, name))"
    " WITHOUT ROWID;"
    "CREATE TABLE created (target INTEGER, name INTEGER, PRIMARY KEY (target, name)) WITHOUT ROWID;"
    "CREATE INDEX change_on ON change (name, target);"
    "CREATE INDEX created_on ON created (name, target);";

// Targets are searched level by level, since what is found first is looked at first, and no further
// than to the first with a reason. In a tree no target is met twice, so none has to be remembered.
// There is no ANALYZE: with its counts SQLite makes a filter of all cells at each question, and takes
// far longer.
static const char *const QUERY =
    "WITH RECURSIVE chain (target, name, path, own) AS ("
    " SELECT id, name, name, CASE WHEN state IN ('building', 'failed') THEN state"
    "  WHEN file IS NOT done THEN 'edited' WHEN always THEN 'always' END"
    " FROM cell WHERE name = ?1 AND state <> 'idle'"
    " UNION ALL"
    " SELECT cell.id, cell.name, chain.path || ' ' || cell.name,"
    "  CASE WHEN cell.state IN ('building', 'failed') THEN cell.state"
    "  WHEN cell.file IS NOT cell.done THEN 'edited' WHEN cell.always THEN 'always' END"
    " FROM chain CROSS JOIN change ON change.target = chain.target"
    " CROSS JOIN cell ON cell.id = change.name AND cell.state <> 'idle')"
    "SELECT coalesce(own || ' ' || name,"
    " (SELECT 'appeared ' || cell.name FROM created CROSS JOIN cell ON cell.id = created.name"
    "  WHERE created.target = chain.target AND cell.file IS NOT NULL LIMIT 1),"
    " (SELECT 'changed ' || cell.name FROM change CROSS JOIN cell ON cell.id = change.name"
    "  WHERE change.target = chain.target AND change.mark <> cell.mark LIMIT 1)) AS reason, path"
    " FROM chain WHERE reason IS NOT NULL LIMIT 1";

static void check(int is_right, const char *what) {
    if (!is_right) {
        fprintf(stderr, "queries: %s\n", what);
        exit(2);
    }
}

static char *text_of(const char *name) {
    FILE *file = fopen(name, "rb");
    check(file && !fseek(file, 0, SEEK_END), name);
    long length = ftell(file);
    char *text = malloc(length + 1);
    rewind(file);
    check(text && fread(text, 1, length, file) == (size_t)length, name);
    text[length] = 0;
    fclose(file);
    return text;
}

static void answer(sqlite3_stmt *query, const char *line, size_t length) {
    const char *name = memchr(line, ' ', length);
    check(name && !strncmp(name, " why ", 5), "not a question");
    name += 5;
    sqlite3_bind_text(query, 1, name, line + length - name, SQLITE_STATIC);
    int step = sqlite3_step(query);
    check(step == SQLITE_ROW || step == SQLITE_DONE, "no answer");
    printf("%.*s => ", (int)length, line);
    if (step == SQLITE_ROW) {
        printf("%s %s\n", sqlite3_column_text(query, 0), sqlite3_column_text(query, 1));
    } else {
        printf("clean\n");
    }
    sqlite3_reset(query);
}

// What came together is answered together, and before more is waited for.
static void talk(sqlite3_stmt *query) {
    static char read_so_far[1 << 16];
    size_t length = 0;
    ssize_t more;
    do {
        fflush(stdout);
        more = read(0, read_so_far + length, sizeof read_so_far - length);
        check(more >= 0, "read");
        length += more;
        char *line = read_so_far, *end;
        while ((end = memchr(line, '\n', read_so_far + length - line))) {
            answer(query, line, end - line);
            line = end + 1;
        }
        length = read_so_far + length - line;
        memmove(read_so_far, line, length);
    } while (more > 0);
}

int main(int count, char **words) {
    sqlite3 *database;
    sqlite3_stmt *query;
    check(count == 2, "usage: queries FILE");
    check(!sqlite3_open(":memory:", &database), "open");
    check(!sqlite3_exec(database, SCHEMA, 0, 0, 0), "schema");
    check(!sqlite3_exec(database, text_of(words[1]), 0, 0, 0), "rows");
    check(!sqlite3_prepare_v2(database, QUERY, -1, &query, 0), sqlite3_errmsg(database));
    static char said[1 << 20];
    setvbuf(stdout, said, _IOFBF, sizeof said);
    printf("sqlite %s\n", sqlite3_libversion());
    talk(query);
    return 0;
}
