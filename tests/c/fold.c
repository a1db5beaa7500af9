/* Folding: E5 back, E6 and E7, pairs that must differ, each refusal, and the words lent afterwards. */
#include "lists.h"

static struct answer fold(const struct list *list, uint16_t *out) {
    struct answer answer = {UNWRITTEN, UNWRITTEN, UNWRITTEN, UNWRITTEN};
    answer.number = splitter_fold(list->table, list->table_len, list->steps, list->steps_len, out, list->lent,
                                  &answer.place, &answer.split_steps, &answer.steps);
    return answer;
}

#define FOLDS(list, split_steps, steps, result, claim) \
    expect(fold, (list), (struct answer){0, 0, (split_steps), (steps)}, (result), 13 * (steps), (claim), __LINE__)
#define REFUSED(list, number, place, claim) expect_refused(fold, (list), (number), (place), (claim), __LINE__)

static void folds(const uint16_t *table) {
    FOLDS(LIST(table, block, 39, 13), 3, 1, step, "E5 back into just enough");
    FOLDS(LIST(table, block, 39, 27), 3, 1, step, "E5 back into more");
    FOLDS(LIST(table, block, 0, 4), 0, 0, step, "no step");
    static const uint16_t blocks[78] = {
        0, 2, 1, [13] = 1, 2, 0, [26] = 2, 1, [39] = 0, 1, 1, [52] = 1, 1, 1, [65] = 2, 1,
    };
    static const uint16_t steps[26] = {0, 2, 1, 0, [13] = 0, 1, 1, 1};
    FOLDS(LIST(table, blocks, 78, 26), 6, 2, steps, "two blocks");
    REFUSED(LIST(table, block, 39, 12), 13, 0, "one word too few");
}

static void fits_no_block(const uint16_t *table) {
    static const uint16_t e6[39] = {0, 0, 1, [13] = 1, 0, 2, [26] = 2, 2};
    REFUSED(LIST(table, e6, 39, 13), 14, 2, "E6");
    REFUSED(LIST(table, e6, 26, 13), 14, 2, "E7");
    REFUSED(LIST(table, e6, 39, 0), 14, 2, "14 comes before 13");
    static const uint16_t again[26] = {0, 0, 1, [13] = 0, 0, 1};
    REFUSED(LIST(table, again, 26, 26), 14, 1, "another block begun");
    static const uint16_t later[13] = {1, 0, 2};
    REFUSED(LIST(table, later, 13, 26), 14, 0, "a later part first");
    static const uint16_t other[39] = {0, 0, 1, [13] = 1, 1, 2, [26] = 2, 1};
    REFUSED(LIST(table, other, 39, 26), 14, 1, "another logger");
}

static void refuses_steps(const uint16_t *table) {
    static const uint16_t bad[][39] = {
        {3}, {0, 0, 3}, {0, 0, 1, 1}, {2, 1, [13] = 1, 0, 2, 1}, {2, 1, [13] = 2, 1, [26] = 3},
    };
    static const uint64_t places[] = {0, 0, 0, 1, 2};
    for (size_t at = 0; at < 5; at++)
        REFUSED(LIST(table, bad[at], 39, 0), 12, places[at], "a step of no split task, before 14");
    REFUSED(LIST(table, block, 38, 13), 12, 2, "an incomplete step");
    refuse_as_splitting(fold, table, bad[0]);
}

static void folds_swaps(void) {
    uint16_t *table = table_of(&swap);
    static const uint16_t swapping[13] = {0, 0, 1, 2, 3}, of_swap[26] = {0, 0, 1, 2, 3, [13] = 1, 1, 2, 3};
    FOLDS(LIST(table, of_swap, 26, 13), 2, 1, swapping, "a swap");
    static const uint16_t equal[26] = {1, 1, 1, 1, [13] = 0, 2, 2, 0, 1};
    REFUSED(LIST(table, equal, 26, 13), 12, 1, "equal piers where the part carries the pair, before 14");
    free(table);
}

/* Parts 0 and 1 have a parameter each, part 2 has both and carries the pair. */
static void unfinished_with_equal_objects(void) {
    static const struct task task = {
        {2, 2, 1, 4, 0, 0, 1},
        {1, 1},
        {2},
        {{0, 0, 1}},
        {{{0, 0, 0, 0, 0}}, {{0, 0, 1, 1, 1}}, {{0, 2, 0, 2, 0}}, {{0, 2, 1, 2, 1}}},
    };
    uint16_t *table = table_of(&task);
    static const uint16_t differing[13] = {0, 0, 1}, whole[39] = {0, 0, [13] = 1, 1, [26] = 2, 0, 1};
    FOLDS(LIST(table, whole, 39, 13), 3, 1, differing, "a block");
    static const uint16_t equal[39] = {0, 1, [13] = 1, 1, [26] = 2, 1, 1};
    REFUSED(LIST(table, equal, 26, 13), 14, 2, "a beginning that doesn't carry the pair");
    REFUSED(LIST(table, equal, 39, 13), 12, 2, "the part that carries it");
    free(table);
}

int main(void) {
    uint16_t *table = table_of(&move);
    folds(table);
    fits_no_block(table);
    refuses_steps(table);
    folds_swaps();
    unfinished_with_equal_objects();
    free(table);
    return end("fold");
}
