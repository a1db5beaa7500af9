/* Splitting: E1 and E2, a swap, each refusal, and the words of both tables afterwards. */
#include "checks.h"

/* Splits into words that hold FOUND; requires the answer, and this split or, without one, the words as found. */
static void expect(const uint16_t *table, size_t words, size_t lent, uint32_t number, uint64_t schema,
                   const uint16_t *split, const char *claim, int line) {
    uint64_t place = UNWRITTEN;
    uint16_t *read = copy(table, words);
    uint16_t *out = found_words(lent), *left = found_words(lent);
    if (split != NULL)
        memcpy(left, split, SPLITTER_TABLE_WORDS * sizeof *left);
    check_number(splitter_split(read, words, out, lent, &place), number, claim, line);
    check_number(place, schema, claim, line);
    check_bytes(out, left, lent * sizeof *out, claim, line);
    check_bytes(read, table, words * sizeof *table, claim, line);
    free(read);
    free(out);
    free(left);
}

#define EXPECT(table, words, lent, number, schema, split, claim) \
    expect((table), (words), (lent), (number), (schema), (split), (claim), __LINE__)

enum { WORDS = SPLITTER_TABLE_WORDS };

/* A task of so many predicates of arity 0, and nothing else. */
static uint16_t *bare(uint16_t predicates) {
    static const struct task least = {{1, 1}, {0}, {0}, {{0}}, {{{0}}}};
    uint16_t *table = table_of(&least);
    table[1] = predicates;
    return table;
}

/* The split of a bare task only gains procnone, which holds at first and is a goal. */
static uint16_t *bare_split(uint16_t predicates) {
    uint16_t *table = bare(predicates + 1);
    uint16_t *atoms = table + HEAD + predicates + 1;
    table[4] = table[5] = 1;
    atoms[1] = 3;
    atoms[8 + 1] = 4;
    atoms[2] = atoms[8 + 2] = predicates;
    return table;
}

static void at_the_limit(void) {
    uint16_t *inside = bare(399), *outside = bare(400), *split = bare_split(399);
    EXPECT(inside, WORDS, WORDS, 0, 0, split, "a split of 400 predicates");
    EXPECT(outside, WORDS, WORDS, 10, 0, NULL, "a split of 401 predicates");
    free(inside);
    free(outside);
    free(split);
}

/* Of three schemas the second and the third have no order: the lower one is told. */
static void circular(void) {
    uint16_t *table = circular_table();
    EXPECT(table, WORDS, WORDS, 9, 0, NULL, "E2");
    free(table);

    static const struct task task = {
        {1, 2, 3, 9, 0, 0, 0},
        {0, 0},
        {0, 0, 0},
        {{0}},
        {
            {{0, 0, 0, 0}},
            {{1, 0, 0, 0}}, {{1, 0, 1, 1}}, {{1, 1, 0, 1}}, {{1, 1, 1, 0}},
            {{2, 0, 0, 0}}, {{2, 0, 1, 1}}, {{2, 1, 0, 1}}, {{2, 1, 1, 0}},
        },
    };
    table = table_of(&task);
    EXPECT(table, WORDS, WORDS, 9, 1, NULL, "the lowest schema without an order");
    free(table);
}

/* With its pair the swap has no arc between its parts, without it arcs both ways. */
static void swaps(void) {
    struct task without = swap;
    without.counts[6] = 0;
    uint16_t *table = table_of(&swap), *split = table_of(&swap_split), *circular = table_of(&without);
    EXPECT(table, WORDS, WORDS, 0, 0, split, "a swap");
    EXPECT(circular, WORDS, WORDS, 9, 0, NULL, "a swap without its pair");
    free(table);
    free(split);
    free(circular);
}

/* Of three schemas the second and the third have a pair that no part has both parameters of. */
static void apart(void) {
    static const struct task task = {
        {1, 1, 3, 5, 0, 0, 2},
        {1},
        {1, 2, 2},
        {{1, 0, 1}, {2, 0, 1}},
        {{{0, 0, 0}}, {{1, 0, 0, 0, 0}}, {{1, 0, 0, 1, 1}}, {{2, 0, 0, 0, 0}}, {{2, 0, 0, 1, 1}}},
    };
    uint16_t *table = table_of(&task);
    EXPECT(table, WORDS, WORDS, 20, 1, NULL, "the lowest schema with a pair in no part");
    table[HEAD + 1 + 3] = 0;
    EXPECT(table, WORDS, WORDS, 2, 0, NULL, "a pair of a parameter that there is not");
    free(table);
}

int main(void) {
    uint16_t *table = table_of(&move), *split = table_of(&move_split), *damaged = damaged_table();
    EXPECT(table, WORDS, WORDS, 0, 0, split, "E1");
    EXPECT(table, WORDS, WORDS + 3, 0, 0, split, "E1 into more words");
    EXPECT(table, WORDS, WORDS - 1, 1, 0, NULL, "a short table to write");
    EXPECT(table, WORDS - 1, WORDS, 1, 0, NULL, "a short table to read");
    EXPECT(damaged, WORDS, WORDS - 1, 1, 0, NULL, "1 comes before 2");
    EXPECT(damaged, WORDS, WORDS, 2, 0, NULL, "no table");
    circular();
    swaps();
    apart();
    at_the_limit();
    free(table);
    free(split);
    free(damaged);
    return end("split");
}
