/* Unfolding and folding alike: from a table and a list of steps to a list lent. */
#ifndef LISTS_H
#define LISTS_H

#include "checks.h"

/* M's step 0:0,1,2 and its unfolding by E5. */
static const uint16_t step[13] = {0, 0, 1, 2};
static const uint16_t block[39] = {0, 0, 1, [13] = 1, 0, 2, [26] = 2, 1};

struct list {
    const uint16_t *table;
    size_t table_len;
    const uint16_t *steps;
    size_t steps_len;
    size_t lent;
};

/* The number of an answer, its place and its two counts; unfolding has one. */
struct answer {
    uint32_t number;
    uint64_t place, split_steps, steps;
};

typedef struct answer entry(const struct list *list, uint16_t *out);

/* Lends words that hold FOUND; requires the answer, and at their front so many of these. */
static inline void expect(entry call, struct list list, struct answer answer, const uint16_t *result, size_t words,
                          const char *claim, int line) {
    struct list lent = list;
    uint16_t *table = copy(list.table, list.table_len), *steps = copy(list.steps, list.steps_len);
    uint16_t *out = found_words(list.lent), *left = found_words(list.lent);
    memcpy(left, result, words * sizeof *left);
    lent.table = table;
    lent.steps = steps;
    struct answer found = call(&lent, out);
    check_number(found.number, answer.number, claim, line);
    check_number(found.place, answer.place, claim, line);
    check_number(found.split_steps, answer.split_steps, claim, line);
    check_number(found.steps, answer.steps, claim, line);
    check_bytes(out, left, list.lent * sizeof *out, claim, line);
    check_bytes(table, list.table, list.table_len * sizeof *table, claim, line);
    check_bytes(steps, list.steps, list.steps_len * sizeof *steps, claim, line);
    free(table);
    free(steps);
    free(out);
    free(left);
}

/* A list and so many words lent, with M's table or another. */
#define LIST(table, steps, steps_len, lent) ((struct list){(table), SPLITTER_TABLE_WORDS, (steps), (steps_len), (lent)})

/* An answer that leaves all as found. */
static inline void expect_refused(entry call, struct list list, uint32_t number, uint64_t place, const char *claim,
                                  int line) {
    expect(call, list, (struct answer){number, place, 0, 0}, list.steps, 0, claim, line);
}

/* "Both first refuse as splitting would", whatever the list. */
static inline void refuse_as_splitting(entry call, const uint16_t *table, const uint16_t *bad_steps) {
    struct list list = LIST(table, bad_steps, 13, 0);
    list.table_len--;
    expect_refused(call, list, 1, 0, "a short table", __LINE__);
    uint16_t *damaged = damaged_table(), *circular = circular_table(), *apart = apart_table();
    uint16_t *crowded = crowd(table_of(&move));
    expect_refused(call, LIST(damaged, bad_steps, 13, 0), 2, 0, "no table", __LINE__);
    expect_refused(call, LIST(circular, bad_steps, 13, 0), 9, 0, "E2", __LINE__);
    expect_refused(call, LIST(apart, bad_steps, 13, 0), 20, 0, "a pair in no part", __LINE__);
    expect_refused(call, LIST(crowded, bad_steps, 13, 0), 10, 0, "a split of more than 400 predicates", __LINE__);
    free(damaged);
    free(circular);
    free(apart);
    free(crowded);
}

#endif
