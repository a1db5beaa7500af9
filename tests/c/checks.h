/* What the programs share: counted checks, lent buffers, and tasks as words. */
#ifndef CHECKS_H
#define CHECKS_H

#include <stdint.h>
#include <stdio.h>
#include <stdlib.h>
#include <string.h>

#include "splitter.h"

/* What a number lent to be written holds before the call. */
#define UNWRITTEN 0xdeadbeefu
/* What a word or byte lent to be written holds before the call. */
#define FOUND 7

static unsigned checks, failures;

static inline void check(int holds, const char *claim, int line) {
    checks++;
    if (!holds) {
        failures++;
        printf("line %d: not so: %s\n", line, claim);
    }
}

#define CHECK(holds, claim) check((holds), (claim), __LINE__)

static inline void check_number(uint64_t found, uint64_t expected, const char *claim, int line) {
    check(found == expected, claim, line);
    if (found != expected)
        printf("    %llu instead of %llu\n", (unsigned long long)found, (unsigned long long)expected);
}

#define CHECK_NUMBER(found, expected, claim) check_number((found), (expected), (claim), __LINE__)

static inline void check_bytes(const void *found, const void *expected, size_t bytes, const char *claim, int line) {
    size_t at = 0;
    while (at < bytes && ((const uint8_t *)found)[at] == ((const uint8_t *)expected)[at])
        at++;
    check(at == bytes, claim, line);
    if (at < bytes)
        printf("    byte %zu of %zu differs\n", at, bytes);
}

#define CHECK_WORDS(found, expected, words, claim) \
    check_bytes((found), (expected), (words) * sizeof(uint16_t), (claim), __LINE__)
#define CHECK_BYTES(found, expected, bytes, claim) check_bytes((found), (expected), (bytes), (claim), __LINE__)

/* Says how many checks there were; the exit status. */
static inline int end(const char *name) {
    printf("%s: %u checks\n", name, checks);
    if (failures > 0)
        printf("%s: %u failed\n", name, failures);
    return failures == 0 && checks > 0 ? EXIT_SUCCESS : EXIT_FAILURE;
}

/* Memory of just this length, so that a tool sees a step outside it. */
static inline void *lend(size_t bytes) {
    void *lent = malloc(bytes > 0 ? bytes : 1);
    if (lent == NULL)
        exit(EXIT_FAILURE);
    return lent;
}

/* A copy of words in memory of just their length. */
static inline uint16_t *copy(const uint16_t *words, size_t length) {
    return memcpy(lend(length * sizeof *words), words, length * sizeof *words);
}

/* Words that hold what is found there. */
static inline uint16_t *found_words(size_t length) {
    uint16_t *words = lend(length * sizeof *words);
    for (size_t at = 0; at < length; at++)
        words[at] = FOUND;
    return words;
}

/* A schema's atom, an initial atom (role 3) or a goal atom (role 4), as a table has it. */
struct atom {
    uint16_t words[8];
};

/* The counts that begin a table. */
enum { HEAD = 7 };

struct task {
    uint16_t counts[HEAD];
    uint16_t arities[8];
    uint16_t parameters[8];
    uint16_t pairs[2][3];
    struct atom atoms[32];
};

/* The table of a task. */
static inline uint16_t *table_of(const struct task *task) {
    uint16_t *table = lend(SPLITTER_TABLE_WORDS * sizeof *table), *end = table;
    size_t atoms = (size_t)task->counts[3] + task->counts[4] + task->counts[5];
    memset(table, 0, SPLITTER_TABLE_WORDS * sizeof *table);
    memcpy(end, task->counts, sizeof task->counts);
    end += HEAD;
    memcpy(end, task->arities, task->counts[1] * sizeof *end);
    end += task->counts[1];
    memcpy(end, task->parameters, task->counts[2] * sizeof *end);
    end += task->counts[2];
    memcpy(end, task->pairs, task->counts[6] * sizeof *task->pairs);
    end += 3 * task->counts[6];
    memcpy(end, task->atoms, atoms * sizeof *task->atoms);
    return table;
}

/* M, "a logger's move x, y, z". */
static const struct task move = {
    {3, 2, 1, 7, 3, 1, 0},
    {2, 1},
    {3},
    {{0}},
    {
        {{0, 0, 0, 0, 0, 1}}, {{0, 0, 1, 0, 0}}, {{0, 0, 1, 1, 2}}, {{0, 1, 0, 1, 0, 2}},
        {{0, 1, 1, 2, 1}}, {{0, 2, 0, 0, 0, 1}}, {{0, 2, 1, 1, 2}},
        {{0, 3, 0, 0, 0, 1}}, {{0, 3, 1, 0, 0}}, {{0, 3, 1, 0, 2}}, {{0, 4, 0, 0, 0, 2}},
    },
};

/* Its split, by E1. */
static const struct task move_split = {
    {3, 7, 3, 22, 4, 2, 0},
    {2, 1, 0, 0, 0, 1, 1},
    {2, 2, 1},
    {{0}},
    {
        {{0, 0, 0, 0, 0, 1}}, {{0, 0, 1, 0, 0}}, {{0, 0, 2}}, {{0, 1, 3}}, {{0, 1, 5, 0, 0}},
        {{0, 1, 6, 0, 1}}, {{0, 2, 0, 0, 0, 1}}, {{0, 2, 2}},
        {{1, 0, 1, 0, 1}}, {{1, 0, 3}}, {{1, 0, 5, 0, 0}}, {{1, 1, 0, 0, 0, 1}}, {{1, 1, 4}},
        {{1, 2, 1, 0, 1}}, {{1, 2, 3}}, {{1, 2, 5, 0, 0}},
        {{2, 0, 4}}, {{2, 0, 6, 0, 0}}, {{2, 1, 1, 0, 0}}, {{2, 1, 2}}, {{2, 2, 4}}, {{2, 2, 6, 0, 0}},
        {{0, 3, 0, 0, 0, 1}}, {{0, 3, 1, 0, 0}}, {{0, 3, 1, 0, 2}}, {{0, 3, 2}},
        {{0, 4, 0, 0, 0, 2}}, {{0, 4, 2}},
    },
};

/* A swap: two linked piers, which must differ, exchange their boats. */
static const struct task swap = {
    {4, 2, 1, 7, 3, 2, 1},
    {2, 2},
    {4},
    {{0, 0, 1}},
    {
        {{0, 0, 0, 0, 0, 2}}, {{0, 0, 0, 1, 1, 3}}, {{0, 0, 1, 0, 0, 1}}, {{0, 1, 0, 0, 0, 3}},
        {{0, 1, 0, 1, 1, 2}}, {{0, 2, 0, 0, 0, 2}}, {{0, 2, 0, 1, 1, 3}},
        {{0, 3, 0, 0, 0, 2}}, {{0, 3, 0, 0, 1, 3}}, {{0, 3, 1, 0, 0, 1}},
        {{0, 4, 0, 0, 0, 3}}, {{0, 4, 0, 0, 1, 2}},
    },
};

/* Its split: the first part has both piers and carries the pair. */
static const struct task swap_split = {
    {4, 8, 2, 22, 4, 3, 1},
    {2, 2, 0, 0, 1, 1, 1, 1},
    {4, 3},
    {{0, 0, 1}},
    {
        {{0, 0, 0, 0, 0, 2}}, {{0, 0, 1, 0, 0, 1}}, {{0, 0, 2}}, {{0, 1, 0, 0, 0, 3}}, {{0, 1, 3}},
        {{0, 1, 5, 0, 1}}, {{0, 1, 6, 0, 2}}, {{0, 1, 7, 0, 3}}, {{0, 2, 0, 0, 0, 2}}, {{0, 2, 2}},
        {{1, 0, 0, 0, 0, 2}}, {{1, 0, 3}}, {{1, 0, 5, 0, 0}}, {{1, 0, 6, 0, 1}}, {{1, 0, 7, 0, 2}},
        {{1, 1, 0, 0, 0, 1}}, {{1, 1, 2}},
        {{1, 2, 0, 0, 0, 2}}, {{1, 2, 3}}, {{1, 2, 5, 0, 0}}, {{1, 2, 6, 0, 1}}, {{1, 2, 7, 0, 2}},
        {{0, 3, 0, 0, 0, 2}}, {{0, 3, 0, 0, 1, 3}}, {{0, 3, 1, 0, 0, 1}}, {{0, 3, 2}},
        {{0, 4, 0, 0, 0, 3}}, {{0, 4, 0, 0, 1, 2}}, {{0, 4, 2}},
    },
};

/* M with a pair of y and z, which no part has both of. */
static inline uint16_t *apart_table(void) {
    struct task task = move;
    task.counts[6] = 1;
    memcpy(task.pairs[0], (uint16_t[]){0, 1, 2}, sizeof task.pairs[0]);
    return table_of(&task);
}

/* E2: M with its add 1:1 in part 0, so that no order complies. */
static inline uint16_t *circular_table(void) {
    struct task task = move;
    task.atoms[4].words[3] = 0;
    return table_of(&task);
}

/* M's words with one of them changed, which makes it no table. */
static inline uint16_t *damaged_table(void) {
    uint16_t *table = table_of(&move);
    table[SPLITTER_TABLE_WORDS - 1] = 1;
    return table;
}

/* Gives a table 400 predicates, so that its split would have more: the words behind the arities move up. */
static inline uint16_t *crowd(uint16_t *table) {
    size_t behind = table[2] + 3 * table[6] + 8 * (table[3] + table[4] + table[5]);
    uint16_t *arities_end = table + HEAD + table[1];
    memmove(table + HEAD + 400, arities_end, behind * sizeof *table);
    memset(arities_end, 0, (400 - table[1]) * sizeof *table);
    table[1] = 400;
    return table;
}

/* A file of the folder that the programs are run in, the tests'. */
static inline uint8_t *file(const char *path, size_t *length) {
    FILE *stream = fopen(path, "rb");
    uint8_t *bytes = lend(1 << 16);
    if (stream == NULL) {
        printf("no file %s\n", path);
        exit(EXIT_FAILURE);
    }
    *length = fread(bytes, 1, 1 << 16, stream);
    fclose(stream);
    return bytes;
}

#define MOVE_FILE "checks/src/move.txt"
#define MOVE_SPLIT_FILE "checks/src/move_split.txt"
#define MOVE_PDDL_FILE "checks/src/move_pddl.txt"
#define SWAP_FILE "checks/src/swap.txt"
#define SWAP_SPLIT_FILE "checks/src/swap_split.txt"
#define SWAP_PDDL_FILE "checks/src/swap_pddl.txt"

#endif
