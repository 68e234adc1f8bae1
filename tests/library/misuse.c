/* What a caller does wrong is a status, never a crash, and changes nothing. Prints a line for each expectation that fails,
 * and how many held. */
#include <redodb.h>
#include <stdint.h>
#include <stdio.h>
#include <stdlib.h>
#include <string.h>

static int held, failed;

static void expect(int is_so, const char *what, int line) {
    if (is_so) {
        held++;
    } else {
        failed++;
        printf("misuse.c:%d: %s\n", line, what);
    }
}

#define EXPECT(condition) expect((condition), #condition, __LINE__)

static const size_t HUGE_SIZE = (size_t)1 << 63;

/* The status of a line that is answered into a buffer of 256 bytes, and which answer it is. */
static int told(redodb *database, const char *line, const char *want) {
    char room[256];
    size_t size;
    int status = redodb_answer(database, line, strlen(line), room, sizeof room, &size, NULL);
    EXPECT(size == strlen(want) && memcmp(room, want, size) == 0);
    return status;
}

static void null_pointers(redodb *database) {
    char room[64];
    size_t size = 7, logged = 7;
    EXPECT(redodb_open(NULL) == REDODB_MISUSE);
    EXPECT(redodb_restore(NULL, "", 0, NULL) == REDODB_MISUSE);
    EXPECT(redodb_close(NULL) == REDODB_MISUSE);
    EXPECT(redodb_answer(NULL, "1 ood", 5, room, sizeof room, &size, &logged) == REDODB_MISUSE);
    EXPECT(size == 0 && logged == 0);
    EXPECT(redodb_answer(database, NULL, 5, room, sizeof room, &size, &logged) == REDODB_MISUSE);
    EXPECT(redodb_answer(database, "1 ood", 5, NULL, 1, &size, &logged) == REDODB_MISUSE);
    EXPECT(redodb_answer(database, "1 ood", 5, room, sizeof room, NULL, NULL) == REDODB_OK);
    EXPECT(redodb_answer(database, NULL, 0, room, sizeof room, &size, NULL) == REDODB_FAULT);
    EXPECT(size == strlen("0 fault bad-session\n"));
}

static void lengths(redodb *database) {
    char room[64];
    size_t size = 7, logged = 7;
    EXPECT(redodb_answer(database, "1 ood", HUGE_SIZE, room, sizeof room, &size, &logged) == REDODB_MISUSE);
    EXPECT(redodb_answer(database, "1 ood", SIZE_MAX, room, sizeof room, &size, &logged) == REDODB_MISUSE);
    EXPECT(redodb_answer(database, "1 ood", 5, room, HUGE_SIZE, &size, &logged) == REDODB_MISUSE);
    EXPECT(redodb_answer(database, "1 ood", 5, room, SIZE_MAX, &size, &logged) == REDODB_MISUSE);
    EXPECT(size == 0 && logged == 0);
    EXPECT(redodb_answer(database, "", 0, room, sizeof room, &size, &logged) == REDODB_FAULT);
    EXPECT(redodb_answer(database, "1 ", 2, room, sizeof room, &size, &logged) == REDODB_FAULT);
    EXPECT(redodb_answer(database, "1 ood\n", 6, room, sizeof room, &size, &logged) == REDODB_FAULT);
}

/* An answer that doesn't fit is not done, and its length is reported, whatever it is an answer to. */
static void small_rooms(redodb *database) {
    static const char *const lines[] = {"1 lock a", "1 start a", "1 ifchange a b c", "2 why a", "3 bad", "1 end"};
    static const char *const wants[] = {"1 lock a => granted 1\n", "1 start a => ok\n",
                                        "1 ifchange a b c => stale b c\n", "2 why a => building a a\n",
                                        "3 fault unknown-command\n", "1 failed a => ok\n1 unlock a => ok\n1 end => ok\n"};
    for (size_t i = 0; i < sizeof lines / sizeof *lines; i++) {
        size_t wanted = strlen(wants[i]), size, logged;
        for (size_t most = 0; most < wanted; most++) {
            char *room = malloc(most);
            if (room == NULL && most > 0) abort();
            EXPECT(redodb_answer(database, lines[i], strlen(lines[i]), room, most, &size, &logged)
                   == REDODB_TOO_SMALL);
            EXPECT(size == wanted && logged == 0);
            free(room);
        }
        told(database, lines[i], wants[i]);
    }
}

static void overlaps(redodb *database) {
    char room[64] = "1 ood";
    size_t size;
    EXPECT(redodb_answer(database, room, 5, room, sizeof room, &size, NULL) == REDODB_MISUSE);
    EXPECT(redodb_answer(database, room, 5, room + 4, sizeof room - 4, &size, NULL) == REDODB_MISUSE);
    EXPECT(redodb_answer(database, room + 20, 5, room, 21, &size, NULL) == REDODB_MISUSE);
    memcpy(room, "1 ood", 5);
    EXPECT(redodb_answer(database, room, 5, room + 5, sizeof room - 5, &size, NULL) == REDODB_OK);
}

static void closed(void) {
    redodb *database = NULL;
    EXPECT(redodb_close(&database) == REDODB_OK);
    EXPECT(redodb_open(&database) == REDODB_OK && database != NULL);
    EXPECT(redodb_close(&database) == REDODB_OK && database == NULL);
    EXPECT(redodb_answer(database, "1 ood", 5, NULL, 0, NULL, NULL) == REDODB_MISUSE);
    EXPECT(redodb_close(&database) == REDODB_OK);
}

static void two(void) {
    redodb *one, *other;
    EXPECT(redodb_open(&one) == REDODB_OK && redodb_open(&other) == REDODB_OK);
    EXPECT(told(one, "1 lock a", "1 lock a => granted 1\n") == REDODB_OK);
    EXPECT(told(other, "2 lock a", "2 lock a => granted 1\n") == REDODB_OK);
    EXPECT(redodb_close(&one) == REDODB_OK);
    EXPECT(told(other, "1 lock a", "1 lock a => busy 1\n") == REDODB_OK);
    EXPECT(redodb_close(&other) == REDODB_OK);
}

/* What is put where a database is open leaves that one as it is. */
static void reopened(void) {
    redodb *database = NULL, *first;
    EXPECT(redodb_open(&database) == REDODB_OK);
    first = database;
    EXPECT(told(first, "1 lock a", "1 lock a => granted 1\n") == REDODB_OK);
    EXPECT(redodb_open(&database) == REDODB_OK && database != first);
    EXPECT(told(database, "2 lock a", "2 lock a => granted 1\n") == REDODB_OK);
    EXPECT(redodb_close(&database) == REDODB_OK);
    EXPECT(redodb_restore(&database, "no log", 6, NULL) == REDODB_DIFFERS && database == NULL);
    EXPECT(told(first, "2 lock a", "2 lock a => busy 1\n") == REDODB_OK);
    EXPECT(redodb_close(&first) == REDODB_OK);
}

static void restoring(void) {
    static const char log[] = "redodb-log 1\n1 file a 10 => ok\n1 lock b => granted 1\n1 unlo";
    static const char bad[] = "redodb-log 1\n1 file a 10 => ok\n1 lock b => granted 2\n";
    redodb *database = NULL;
    redodb_restored restored;
    EXPECT(redodb_restore(&database, log, sizeof log - 1, &restored) == REDODB_OK);
    EXPECT(restored.lines == 2 && restored.bytes == sizeof log - 1 - 6 && restored.line == 0);
    EXPECT(told(database, "2 lock b", "2 lock b => busy 1\n") == REDODB_OK);
    EXPECT(redodb_close(&database) == REDODB_OK);
    EXPECT(redodb_restore(&database, bad, sizeof bad - 1, &restored) == REDODB_DIFFERS && database == NULL);
    EXPECT(restored.lines == 1 && restored.bytes == 31 && restored.line == 3);
    EXPECT(redodb_restore(&database, "history 1\n", 10, NULL) == REDODB_DIFFERS && database == NULL);
    EXPECT(redodb_restore(&database, log, HUGE_SIZE, &restored) == REDODB_MISUSE && database == NULL);
    EXPECT(redodb_restore(&database, NULL, 1, NULL) == REDODB_MISUSE && database == NULL);
    EXPECT(redodb_restore(&database, NULL, 0, &restored) == REDODB_OK && restored.bytes == 0);
    EXPECT(redodb_close(&database) == REDODB_OK);
}

/* One session has built a target, another holds a lock: the database goes on from there. */
static void going_on(void) {
    static const char log[] = "redodb-log 1\n1 file a.c 10 => ok\n1 lock a.o => granted 1\n1 start a.o => ok\n"
                              "2 lock b => granted 1\n1 ifchange a.o z.h a.c => stale z.h\n1 done a.o 20 => ok\n";
    redodb *database = NULL;
    redodb_restored restored;
    EXPECT(redodb_restore(&database, log, sizeof log - 1, &restored) == REDODB_OK);
    EXPECT(restored.lines == 6 && restored.bytes == 153);
    EXPECT(told(database, "3 targets", "3 targets => targets a.o\n") == REDODB_OK);
    EXPECT(told(database, "3 lock b", "3 lock b => busy 1\n") == REDODB_OK);
    EXPECT(told(database, "2 unlock b", "2 unlock b => ok\n") == REDODB_OK);
    EXPECT(told(database, "3 lock b", "3 lock b => granted 2\n") == REDODB_OK);
    EXPECT(redodb_close(&database) == REDODB_OK);
}

int main(void) {
    redodb *database;
    EXPECT(redodb_abi() == REDODB_ABI);
    EXPECT(redodb_open(&database) == REDODB_OK);
    null_pointers(database);
    lengths(database);
    small_rooms(database);
    overlaps(database);
    EXPECT(told(database, "1 ood", "1 ood => ood\n") == REDODB_OK);
    EXPECT(redodb_close(&database) == REDODB_OK);
    closed();
    two();
    reopened();
    restoring();
    going_on();
    for (int status = -1; status <= REDODB_MISUSE + 1; status++) EXPECT(redodb_status_text(status)[0] != '\0');
    printf("%d held, %d failed\n", held, failed);
    return failed > 0;
}
