/* What the tests of the C calls share: counts, memory of just the length, and the fields of tables. */
#include "figpliers.h"
#include <stdio.h>
#include <stdlib.h>
#include <string.h>

typedef struct bytes {
    uint8_t *at;
    size_t length;
} bytes;

static int passed, failed;

static void check(int holds, const char *what, int row) {
    if (holds) {
        passed++;
    } else {
        failed++;
        printf("C: row %d: %s\n", row, what);
    }
}

/* Memory of just so many bytes; NULL for none. */
static uint8_t *memory(size_t length) {
    uint8_t *at = length ? malloc(length) : NULL;
    if (length && !at) abort();
    if (at) memset(at, 0xA5, length);
    return at;
}

static unsigned digit(char c) { return c <= '9' ? c - '0' : c - 'a' + 10; }

/* What a field of the rows stands for, in memory of its length. */
static bytes unescaped(const char *field) {
    size_t n = 0;
    char *text = malloc(strlen(field) + 1);
    for (; *field; field++) {
        if (*field != '\\') {
            text[n++] = *field;
        } else if (*++field == 'x') {
            text[n++] = (char)(digit(field[1]) * 16 + digit(field[2]));
            field += 2;
        } else {
            text[n++] = *field == 'n' ? '\n' : *field == 't' ? '\t' : *field == 'r' ? '\r' : '\\';
        }
    }
    bytes made = {memory(n), n};
    if (n) memcpy(made.at, text, n);
    free(text);
    return made;
}

/* The next line of a table that has no `#` in front, cut into its fields, of which one that is missing is empty; 0 at the end. `number` is
 * that of the line. */
static int next_row(FILE *file, char *line, int size, char **fields, int count, int *number) {
    while (fgets(line, size, file)) {
        char *rest = line;
        ++*number;
        if (*line == '#') continue;
        line[strcspn(line, "\n")] = 0;
        for (int i = 0; i < count; i++) {
            fields[i] = rest ? rest : line + strlen(line);
            rest = rest ? strchr(rest, '\t') : NULL;
            if (rest) *rest++ = 0;
        }
        return 1;
    }
    return 0;
}

static FILE *opened(const char *path) {
    FILE *file = fopen(path, "r");
    if (file) return file;
    perror(path);
    exit(2);
}
