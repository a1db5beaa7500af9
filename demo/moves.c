/* Folds a plan found in the split of a task, and runs its moves in the task itself.
 *
 *     moves TASK PLAN
 *
 * TASK is the task's text, PLAN the split steps as `step=` lines (schema, colon, objects). Prints the moves as `step=`
 * lines, the atoms of the state that they leave as `state=` lines, and `goal=1` if the goal is met there, else
 * `goal=0`. A refusal is printed as reading.h says. */
#include <string.h>

#include "reading.h"

/* How many counts a table begins with; and no step adds more atoms than a schema has. */
enum { HEAD = 7, MOST_ADDED = 64 };

/* The steps of a plan as words, 13 for each `step=` line. */
static uint16_t *steps_of(const char *plan, size_t length, size_t *count) {
    uint16_t *steps = lend((length / strlen("step=") + 1) * SPLITTER_STEP_WORDS * sizeof *steps);
    *count = 0;
    for (const char *line = plan; (line = strstr(line, "step=")) != NULL;) {
        uint16_t *step = steps + SPLITTER_STEP_WORDS * (*count)++;
        char *end;
        step[0] = (uint16_t)strtoul(line + strlen("step="), &end, 10);
        for (int at = 1; at < SPLITTER_STEP_WORDS && (*end == ':' || *end == ',') && end[1] != '\n'; at++)
            step[at] = (uint16_t)strtoul(end + 1, &end, 10);
        line = end;
    }
    return steps;
}

/* The initial atoms as records. Before them stand the counts, the arities, the parameter counts, the pairs, 3 words
 * each, and the schemas' atoms, 8 words each. */
static void initial_state(const uint16_t *table, uint16_t *state) {
    const uint16_t *atom = table + HEAD + table[1] + table[2] + 3 * table[6] + 8 * table[3];
    for (size_t at = 0; at < table[4]; at++, atom += 8, state += SPLITTER_RECORD_WORDS) {
        state[0] = atom[2];
        memcpy(state + 1, atom + 4, 4 * sizeof *state);
    }
}

/* A line with a key, a number, and the numbers behind it. */
static void print(const char *key, const uint16_t *words, size_t numbers) {
    printf("%s=%u:", key, words[0]);
    for (size_t at = 0; at < numbers; at++)
        printf(at == 0 ? "%u" : ",%u", words[1 + at]);
    printf("\n");
}

int main(int count, char **arguments) {
    if (count != 3) {
        fprintf(stderr, "usage: moves TASK PLAN\n");
        return EXIT_FAILURE;
    }
    size_t bytes, plan_bytes, found;
    uint64_t place, split_steps, moves, left, goal;
    uint16_t *table = table_of(arguments[1], &bytes);
    char *plan = contents(arguments[2], &plan_bytes);

    uint16_t *split_list = steps_of(plan, plan_bytes, &found);
    size_t words = SPLITTER_STEP_WORDS * found;
    uint16_t *steps = lend(words * sizeof *steps);
    accept("splitter_fold",
           splitter_fold(table, SPLITTER_TABLE_WORDS, split_list, words, steps, words, &place, &split_steps, &moves),
           place);

    size_t room = (table[4] + MOST_ADDED * moves) * SPLITTER_RECORD_WORDS;
    uint16_t *state = lend(room * sizeof *state);
    initial_state(table, state);
    accept("splitter_run",
           splitter_run(table, SPLITTER_TABLE_WORDS, steps, SPLITTER_STEP_WORDS * moves, state, room, table[4], &place,
                        &left, &goal),
           place);

    const uint16_t *arities = table + HEAD, *parameters = arities + table[1];
    for (const uint16_t *step = steps; step < steps + SPLITTER_STEP_WORDS * moves; step += SPLITTER_STEP_WORDS)
        print("step", step, parameters[step[0]]);
    for (const uint16_t *atom = state; atom < state + SPLITTER_RECORD_WORDS * left; atom += SPLITTER_RECORD_WORDS)
        print("state", atom, arities[atom[0]]);
    printf("goal=%llu\n", (unsigned long long)goal);
    free(plan);
    free(table);
    free(split_list);
    free(steps);
    free(state);
    return EXIT_SUCCESS;
}
