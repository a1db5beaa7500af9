/* Asks what the split of a task will need, before there is a split.
 *
 *     sizes TASK
 *
 * TASK is the task's text. Prints `task=` with the task's own predicates, schemas, schema atoms and text bytes, then
 * `split=` with those of its split, then `instances=` with the ground instances before and after. A refusal is printed
 * as reading.h says. */
#include "reading.h"

int main(int count, char **arguments) {
    if (count != 2) {
        fprintf(stderr, "usage: sizes TASK\n");
        return EXIT_FAILURE;
    }
    size_t length;
    uint64_t place, predicates, schemas, atoms, bytes, before, after;
    uint16_t *table = table_of(arguments[1], &length);
    printf("task=%u,%u,%u,%zu\n", table[1], table[2], table[3], length);
    accept("splitter_sizes",
           splitter_sizes(table, SPLITTER_TABLE_WORDS, &place, &predicates, &schemas, &atoms, &bytes, &before, &after),
           place);
    printf("split=%llu,%llu,%llu,%llu\n", (unsigned long long)predicates, (unsigned long long)schemas,
           (unsigned long long)atoms, (unsigned long long)bytes);
    printf("instances=%llu,%llu\n", (unsigned long long)before, (unsigned long long)after);
    free(table);
    return EXIT_SUCCESS;
}
