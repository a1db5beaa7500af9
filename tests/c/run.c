/* Running: E8, E9, a swap and each refusal, with every word of the state afterwards. */
#include "checks.h"

/* M's initial state: three records, then a word behind them that no record fills. */
#define ROOM 5
#define WORDS (ROOM * SPLITTER_RECORD_WORDS + 1)
static const uint16_t initial[WORDS] = {
    0, 0, 1, 0, 0, 1, 0, 0, 0, 0, 1, 2, 0, 0, 0, 7, 7, 7, 7, 7, 7, 7, 7, 7, 7, 7,
};

struct run {
    const uint16_t *table;
    size_t table_len;
    const uint16_t *steps;
    size_t steps_len;
    const uint16_t *state;
    size_t state_len;
    uint64_t records;
};

struct answer {
    uint32_t number;
    uint64_t place, left, goal;
};

/* Runs on copies, so that what is only read is seen to stay; requires the answer and the words left. */
static void expect(struct run run, struct answer answer, const uint16_t *left, const char *claim, int line) {
    uint64_t place = UNWRITTEN, records = UNWRITTEN, goal = UNWRITTEN;
    uint16_t *table = copy(run.table, run.table_len);
    uint16_t *steps = copy(run.steps, run.steps_len);
    uint16_t *state = copy(run.state, run.state_len);
    uint32_t number = splitter_run(table, run.table_len, steps, run.steps_len, state, run.state_len, run.records,
                                   &place, &records, &goal);
    check_number(number, answer.number, claim, line);
    check_number(place, answer.place, claim, line);
    check_number(records, answer.left, claim, line);
    check_number(goal, answer.goal, claim, line);
    check_bytes(state, left, run.state_len * sizeof *state, claim, line);
    check_bytes(table, run.table, run.table_len * sizeof *table, claim, line);
    check_bytes(steps, run.steps, run.steps_len * sizeof *steps, claim, line);
    free(table);
    free(steps);
    free(state);
}

#define EXPECT(run, left, claim, ...) expect((run), (struct answer){__VA_ARGS__}, (left), (claim), __LINE__)

/* A list of M from its initial state. */
static struct run of_move(const uint16_t *table, const uint16_t *steps, size_t steps_len) {
    return (struct run){table, SPLITTER_TABLE_WORDS, steps, steps_len, initial, WORDS, 3};
}

static void runs(const uint16_t *table) {
    static const uint16_t e8[13] = {0, 0, 1, 2};
    static const uint16_t moved[WORDS] = {0, 0, 2, 0, 0, 1, 0, 0, 0, 0, 1, 1};
    EXPECT(of_move(table, e8, 13), moved, "E8", 0, 0, 3, 1);

    static const uint16_t back[26] = {0, 0, 1, 2, [13] = 0, 0, 2, 1};
    static const uint16_t start[WORDS] = {0, 0, 1, 0, 0, 1, 0, 0, 0, 0, 1, 2};
    EXPECT(of_move(table, back, 26), start, "there and back", 0, 0, 3, 0);
    EXPECT(of_move(table, back, 0), start, "an empty list runs", 0, 0, 3, 0);

    struct run nothing = of_move(table, e8, 0);
    nothing.state_len = nothing.records = 0;
    EXPECT(nothing, initial, "no words of a state", 0, 0, 0, 0);
}

static void stops(const uint16_t *table, const uint16_t *split) {
    static const uint16_t start[WORDS] = {0, 0, 1, 0, 0, 1, 0, 0, 0, 0, 1, 2};
    static const uint16_t e9[13] = {0, 0, 1, 1};
    EXPECT(of_move(table, e9, 13), start, "E9", 16, 0, 3, 0);

    static const uint16_t second[26] = {0, 0, 1, 2, [13] = 0, 0, 1, 2};
    static const uint16_t moved[WORDS] = {0, 0, 2, 0, 0, 1, 0, 0, 0, 0, 1, 1};
    EXPECT(of_move(table, second, 26), moved, "the second step cannot run", 16, 1, 3, 0);

    /* E9 unfolded: the first part runs, the second misses 1:1. */
    static const uint16_t unfolded[39] = {0, 0, 1, [13] = 1, 0, 1, [26] = 2, 1};
    static const uint16_t free_state[30] = {0, 0, 1, 0, 0, 1, 0, 0, 0, 0, 1, 2, 0, 0, 0, 2, 0, 0, 0, 0, 7, 7, 7, 7, 7, 7, 7, 7, 7, 7};
    static const uint16_t begun[30] = {1, 0, 0, 0, 0, 1, 2, 0, 0, 0, 3, 0, 0, 0, 0, 5, 0, 0, 0, 0, 6, 1};
    struct run run = {split, SPLITTER_TABLE_WORDS, unfolded, 39, free_state, 30, 4};
    EXPECT(run, begun, "E9 unfolded", 16, 1, 5, 0);
}

/* One schema that adds 0:x. */
static void outgrows(void) {
    static const struct task notes = {{2, 1, 1, 1, 0, 0, 0}, {1}, {1}, {{0}}, {{{0, 1, 0, 0, 0}}}};
    static const uint16_t steps[26] = {0, 0, [13] = 0, 1};
    static const uint16_t empty[9] = {7, 7, 7, 7, 7, 7, 7, 7, 7};
    static const uint16_t one[9] = {0}, two[10] = {0, 0, 0, 0, 0, 0, 1};
    uint16_t *table = table_of(&notes);
    struct run run = {table, SPLITTER_TABLE_WORDS, steps, 26, empty, 9, 0};
    EXPECT(run, one, "room for one record", 17, 1, 1, 0);
    run.state_len = 4;
    EXPECT(run, one, "room for none", 17, 0, 0, 0);
    run = (struct run){table, SPLITTER_TABLE_WORDS, steps, 26, two, 10, 1};
    EXPECT(run, two, "room for two, and no goal atom", 0, 0, 2, 1);
    free(table);
}

static void bad_tables(const uint16_t *table) {
    static const uint16_t e8[13] = {0, 0, 1, 2}, bad[13] = {9};
    uint16_t *damaged = damaged_table();
    EXPECT(of_move(damaged, bad, 13), initial, "no table, and a bad step", 2, 0, 0, 0);
    struct run run = of_move(damaged, e8, 13);
    run.table_len--;
    EXPECT(run, initial, "a short table, and a damaged one", 1, 0, 0, 0);
    free(damaged);

    static const uint16_t moved[WORDS] = {0, 0, 2, 0, 0, 1, 0, 0, 0, 0, 1, 1};
    uint16_t *longer = found_words(SPLITTER_TABLE_WORDS + 2);
    memcpy(longer, table, SPLITTER_TABLE_WORDS * sizeof *table);
    run = of_move(longer, e8, 13);
    run.table_len += 2;
    EXPECT(run, moved, "words behind the table", 0, 0, 3, 1);
    free(longer);
}

static void bad_steps(const uint16_t *table) {
    static const uint16_t lists[][26] = {
        {1, 0, 1, 2}, {0, 0, 1, 3}, {0, 0, 1, 2, 1}, {0, 0, 1, 2, [12] = 1},
        {0, 0, 1, 2, [13] = 1, 0, 1, 2}, {0, 0, 1, 1, [13] = 0, 3, 1, 2},
    };
    static const uint64_t places[] = {0, 0, 0, 0, 1, 1};
    for (size_t at = 0; at < 6; at++)
        EXPECT(of_move(table, lists[at], 26), initial, "a step of another task", 12, places[at], 0, 0);
    static const uint16_t cut[26] = {0, 0, 1, 2, [13] = 0, 0, 2, 1};
    EXPECT(of_move(table, cut, 12), initial, "an incomplete step", 12, 0, 0, 0);
    EXPECT(of_move(table, cut, 14), initial, "an incomplete second step", 12, 1, 0, 0);
    struct run run = of_move(table, lists[0], 13);
    run.records = 9;
    EXPECT(run, initial, "12 comes before 15", 12, 0, 0, 0);
}

static void swaps(void) {
    static const uint16_t steps[26] = {0, 0, 1, 2, 3, [13] = 0, 1, 1, 3, 3};
    static const uint16_t before[WORDS] = {
        0, 0, 2, 0, 0, 0, 1, 3, 0, 0, 1, 0, 1, 0, 0, 7, 7, 7, 7, 7, 7, 7, 7, 7, 7, 7,
    };
    static const uint16_t after[WORDS] = {0, 0, 3, 0, 0, 0, 1, 2, 0, 0, 1, 0, 1};
    uint16_t *table = table_of(&swap);
    struct run run = {table, SPLITTER_TABLE_WORDS, steps, 13, before, WORDS, 3};
    EXPECT(run, after, "a swap", 0, 0, 3, 1);
    run.steps_len = 26;
    EXPECT(run, before, "equal piers, before any step runs", 12, 1, 0, 0);
    free(table);
}

static void bad_states(const uint16_t *table) {
    static const uint16_t e9[13] = {0, 0, 1, 1};
    static const uint16_t states[][10] = {
        {1, 0, 0, 0, 0, 0, 0, 1}, {1, 0, 0, 0, 0, 1, 0}, {2}, {1, 3}, {1, 0, 1}, {0, 0, 3}, {0, 0, 0, 0, 1},
    };
    for (size_t at = 0; at < 7; at++) {
        struct run run = {table, SPLITTER_TABLE_WORDS, e9, 13, states[at], 10, 2};
        EXPECT(run, states[at], "no state of the task", 15, 0, 0, 0);
    }
    struct run run = of_move(table, e9, 13);
    run.records = ROOM + 1;
    EXPECT(run, initial, "more records than lent", 15, 0, 0, 0);
    run.records = UINT64_MAX;
    EXPECT(run, initial, "as many records as can be", 15, 0, 0, 0);
    run.records = UINT64_MAX / SPLITTER_RECORD_WORDS + 1;
    EXPECT(run, initial, "more words than can be", 15, 0, 0, 0);
}

int main(void) {
    uint16_t *table = table_of(&move), *split = table_of(&move_split);
    runs(table);
    stops(table, split);
    outgrows();
    bad_tables(table);
    bad_steps(table);
    swaps();
    bad_states(table);
    free(table);
    free(split);
    return end("run");
}
