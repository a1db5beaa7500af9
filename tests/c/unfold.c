/* Unfolding: E5, a swap, each refusal, and the words lent afterwards. */
#include "lists.h"

static struct answer unfold(const struct list *list, uint16_t *out) {
    uint64_t place = UNWRITTEN, split_steps = UNWRITTEN;
    uint32_t number = splitter_unfold(list->table, list->table_len, list->steps, list->steps_len, out, list->lent,
                                      &place, &split_steps);
    return (struct answer){number, place, split_steps, 0};
}

#define UNFOLDS(list, steps, result, claim) \
    expect(unfold, (list), (struct answer){0, 0, (steps), 0}, (result), 13 * (steps), (claim), __LINE__)
#define REFUSED(list, number, place, claim) expect_refused(unfold, (list), (number), (place), (claim), __LINE__)

static void unfolds(const uint16_t *table) {
    UNFOLDS(LIST(table, step, 13, 39), 3, block, "E5 into just enough");
    UNFOLDS(LIST(table, step, 13, 53), 3, block, "E5 into more");
    UNFOLDS(LIST(table, step, 0, 5), 0, block, "no step");
    static const uint16_t two[26] = {0, 2, 2, 0, [13] = 0, 0, 1, 2};
    static const uint16_t blocks[78] = {
        0, 2, 2, [13] = 1, 2, 0, [26] = 2, 2, [39] = 0, 0, 1, [52] = 1, 0, 2, [65] = 2, 1,
    };
    UNFOLDS(LIST(table, two, 26, 78), 6, blocks, "two steps");
    REFUSED(LIST(table, two, 26, 77), 13, 0, "one word too few");
    REFUSED(LIST(table, step, 13, 0), 13, 0, "no word");
}

static void refuses_steps(const uint16_t *table) {
    static const uint16_t bad[][26] = {
        {1, 0, 1, 2}, {0, 0, 1, 3}, {0, 0, 1, 2, 1}, {0, 0, 1, 2, [13] = 0, 0, 1, 3},
    };
    static const uint64_t places[] = {0, 0, 0, 1};
    for (size_t at = 0; at < 4; at++)
        REFUSED(LIST(table, bad[at], 26, 0), 12, places[at], "a step of another task");
    REFUSED(LIST(table, bad[3], 25, 78), 12, 1, "an incomplete step");
    refuse_as_splitting(unfold, table, bad[0]);
}

static void unfolds_swaps(void) {
    uint16_t *table = table_of(&swap);
    static const uint16_t swapping[26] = {0, 0, 1, 2, 3, [13] = 0, 1, 1, 2, 3};
    static const uint16_t of_swap[26] = {0, 0, 1, 2, 3, [13] = 1, 1, 2, 3};
    UNFOLDS(LIST(table, swapping, 13, 26), 2, of_swap, "a swap");
    REFUSED(LIST(table, swapping, 26, 0), 12, 1, "equal piers, before 13");
    free(table);
}

int main(void) {
    uint16_t *table = table_of(&move);
    unfolds(table);
    refuses_steps(table);
    unfolds_swaps();
    free(table);
    return end("unfold");
}
