/* What the demo's programs begin with: a task's file, read into a table. */
#ifndef READING_H
#define READING_H

#include <stdio.h>
#include <stdlib.h>

#include "splitter.h"

static inline void *lend(size_t bytes) {
    void *lent = calloc(bytes > 0 ? bytes : 1, 1);
    if (lent == NULL) {
        fprintf(stderr, "out of memory\n");
        exit(EXIT_FAILURE);
    }
    return lent;
}

/* The bytes of a file, with a 0 behind them. */
static inline char *contents(const char *path, size_t *length) {
    size_t room = 1 << 16;
    char *bytes = lend(room);
    FILE *stream = fopen(path, "rb");
    if (stream == NULL) {
        perror(path);
        exit(EXIT_FAILURE);
    }
    *length = 0;
    for (size_t got; (got = fread(bytes + *length, 1, room - 1 - *length, stream)) > 0;) {
        *length += got;
        if (*length == room - 1 && (bytes = realloc(bytes, room *= 2)) == NULL)
            exit(EXIT_FAILURE);
    }
    fclose(stream);
    bytes[*length] = 0;
    return bytes;
}

/* A refusal is printed as the call's name, `refused=`, number, colon, place; then the exit status is 1. */
static inline void accept(const char *call, uint32_t number, uint64_t place) {
    if (number != 0) {
        printf("%s refused=%u:%llu\n", call, (unsigned)number, (unsigned long long)place);
        exit(EXIT_FAILURE);
    }
}

/* The table of the task in a file, and the length of its text. */
static inline uint16_t *table_of(const char *path, size_t *length) {
    uint64_t place;
    char *text = contents(path, length);
    uint16_t *table = lend(SPLITTER_TABLE_WORDS * sizeof *table);
    accept("splitter_read",
           splitter_read((const uint8_t *)text, *length, table, SPLITTER_TABLE_WORDS, &place), place);
    free(text);
    return table;
}

#endif
