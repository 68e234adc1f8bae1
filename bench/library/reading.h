/* What the programs of this benchmark share: the lines of a file, and a clock. */
#include <stdio.h>
#include <stdlib.h>
#include <string.h>
#include <time.h>

struct line {
    char *at;
    size_t length;
};

struct text {
    struct line *lines;
    size_t count;
};

static void check(int is_right, const char *what) {
    if (!is_right) {
        fprintf(stderr, "%s\n", what);
        exit(2);
    }
}

/* Of the processor, that this process has taken. */
static double seconds(void) {
    struct timespec now;
    clock_gettime(CLOCK_PROCESS_CPUTIME_ID, &now);
    return (double)now.tv_sec + (double)now.tv_nsec / 1e9;
}

/* The lines of a file, each with a NUL in place of its LF. */
static struct text text_of(const char *name) {
    FILE *file = fopen(name, "rb");
    check(file != NULL && fseek(file, 0, SEEK_END) == 0, name);
    size_t length = (size_t)ftell(file), room = 1024;
    char *bytes = malloc(length + 1);
    struct text text = {malloc(room * sizeof *text.lines), 0};
    check(bytes != NULL && text.lines != NULL, "memory");
    rewind(file);
    check(fread(bytes, 1, length, file) == length, name);
    fclose(file);
    for (char *at = bytes, *end; at < bytes + length; at = end + 1) {
        end = memchr(at, '\n', (size_t)(bytes + length - at));
        check(end != NULL, "no LF at the end");
        *end = 0;
        if (text.count == room) {
            text.lines = realloc(text.lines, (room *= 2) * sizeof *text.lines);
            check(text.lines != NULL, "memory");
        }
        text.lines[text.count++] = (struct line){at, (size_t)(end - at)};
    }
    return text;
}
