/* A planner as it would use the library: it reads a task, splits it, looks for a list of split steps that reaches the
 * goal, folds that list, and runs both. */
#include "checks.h"

enum { MOST_STEPS = 4, ROOM = 32, WORDS = ROOM * SPLITTER_RECORD_WORDS };

struct state {
    uint64_t records, goal;
    uint16_t words[WORDS];
};

/* A task whose goal is one step away, and its split by hand. */
struct problem {
    const char *task_file, *split_file;
    size_t parts;
    uint16_t step[SPLITTER_STEP_WORDS];
};

/* The records of a table's initial atoms, which are 8 words each behind the pairs and the schemas' atoms. */
static struct state initial_state(const uint16_t *table) {
    struct state state = {table[4], 0, {0}};
    const uint16_t *atoms = table + HEAD + table[1] + table[2] + 3 * table[6] + 8 * table[3];
    for (size_t at = 0; at < state.records; at++) {
        uint16_t *record = state.words + SPLITTER_RECORD_WORDS * at;
        record[0] = atoms[8 * at + 2];
        memcpy(record + 1, atoms + 8 * at + 4, 4 * sizeof *record);
    }
    return state;
}

/* The state that a list leads to; 0 if it does. */
static uint32_t run(const uint16_t *table, const uint16_t *steps, size_t count, struct state *state) {
    uint64_t place;
    return splitter_run(table, SPLITTER_TABLE_WORDS, steps, SPLITTER_STEP_WORDS * count, state->words, WORDS,
                        state->records, &place, &state->records, &state->goal);
}

/* The next step of a task in a fixed order: the last object counts first. 0 behind the last step. */
static int next_step(const uint16_t *table, uint16_t *step) {
    const uint16_t *parameters = table + HEAD + table[1];
    for (unsigned at = parameters[step[0]]; at > 0; at--) {
        if (++step[at] < table[0])
            return 1;
        step[at] = 0;
    }
    return ++step[0] < table[2];
}

/* Looks in depth for steps behind `count` others that reach the goal; how many there are then, or 0. */
static size_t search(const uint16_t *table, const struct state *from, uint16_t *steps, size_t count) {
    uint16_t *step = steps + SPLITTER_STEP_WORDS * count;
    if (from->goal || count == MOST_STEPS)
        return from->goal ? count : 0;
    memset(step, 0, SPLITTER_STEP_WORDS * sizeof *step);
    do {
        struct state state = *from;
        if (run(table, step, 1, &state) == 0) {
            size_t found = search(table, &state, steps, count + 1);
            if (found > 0)
                return found;
        }
    } while (next_step(table, step));
    return 0;
}

/* The end of the split's run is that of the original's, and procnone behind it. */
static void compare(const struct state *original, const struct state *split, uint16_t procnone) {
    struct state expected = *original;
    expected.words[SPLITTER_RECORD_WORDS * expected.records++] = procnone;
    CHECK_NUMBER(split->records, expected.records, "one record more");
    CHECK_WORDS(split->words, expected.words, WORDS, "the same records, then procnone");
    CHECK_NUMBER(split->goal, original->goal, "the goal is met in both or in none");
}

/* Folds a list found in the split, unfolds it again, and runs both lists. */
static void give_back(const struct problem *problem, const uint16_t *table, const uint16_t *split,
                      const uint16_t *found) {
    uint64_t place, split_steps, steps;
    size_t count = problem->parts, words = SPLITTER_STEP_WORDS * count;
    uint16_t *folded = found_words(words), *unfolded = found_words(words);
    uint32_t number = splitter_fold(table, SPLITTER_TABLE_WORDS, found, words, folded, words, &place, &split_steps,
                                    &steps);
    CHECK_NUMBER(number, 0, "the list found folds");
    CHECK_NUMBER(split_steps, count, "its length");
    CHECK_NUMBER(steps, 1, "it is one step");
    CHECK_WORDS(folded, problem->step, SPLITTER_STEP_WORDS, "the step that reaches the goal");

    number = splitter_unfold(table, SPLITTER_TABLE_WORDS, folded, SPLITTER_STEP_WORDS * steps, unfolded, words, &place,
                             &split_steps);
    CHECK_NUMBER(number, 0, "the step unfolds");
    CHECK_WORDS(unfolded, found, words, "to the list found");

    struct state first = initial_state(table), second = initial_state(split);
    CHECK_NUMBER(run(table, folded, steps, &first), 0, "the step runs");
    CHECK_NUMBER(run(split, found, count, &second), 0, "the list found runs");
    CHECK_NUMBER(first.goal, 1, "the goal is met");
    compare(&first, &second, table[1]);
    free(folded);
    free(unfolded);
}

/* The split as a text is what the program prints. */
static void compare_texts(const uint16_t *split, const char *split_file) {
    uint64_t place, bytes;
    size_t expected;
    uint8_t *printed = file(split_file, &expected), *written = lend(1 << 16);
    CHECK_NUMBER(splitter_write(split, SPLITTER_TABLE_WORDS, written, 1 << 16, &place, &bytes), 0, "a text");
    CHECK_NUMBER(bytes, expected, "the length of the split's text");
    CHECK_BYTES(written, printed, expected, "the split's text");
    free(printed);
    free(written);
}

static void solve(const struct problem *problem) {
    uint64_t place;
    size_t bytes;
    uint8_t *text = file(problem->task_file, &bytes);
    uint16_t *table = found_words(SPLITTER_TABLE_WORDS), *split = found_words(SPLITTER_TABLE_WORDS);
    uint16_t steps[SPLITTER_STEP_WORDS * MOST_STEPS];
    CHECK_NUMBER(splitter_read(text, bytes, table, SPLITTER_TABLE_WORDS, &place), 0, "the task is read");
    CHECK_NUMBER(splitter_split(table, SPLITTER_TABLE_WORDS, split, SPLITTER_TABLE_WORDS, &place), 0, "and split");
    compare_texts(split, problem->split_file);
    struct state start = initial_state(split);
    size_t count = search(split, &start, steps, 0);
    CHECK_NUMBER(count, problem->parts, "the goal is one step's parts away");
    if (count == problem->parts)
        give_back(problem, table, split, steps);
    free(text);
    free(table);
    free(split);
}

/* M, whose step is that of E8, and the swap. */
int main(void) {
    static const struct problem problems[] = {
        {MOVE_FILE, MOVE_SPLIT_FILE, 3, {0, 0, 1, 2}},
        {SWAP_FILE, SWAP_SPLIT_FILE, 2, {0, 0, 1, 2, 3}},
    };
    solve(&problems[0]);
    solve(&problems[1]);
    return end("planner");
}
