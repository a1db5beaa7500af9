/* The splitter for a C host. Every function is proved, in Rattle, to do what documents 01 and 02 say, for every input.
 *
 * Each returns 0 for a result, else the number of its refusal (1 to 24). Every number lent by pointer is written:
 * `place` is the refusal's line (from 1), schema or step (from 0), and 0 with a result or where there is no place;
 * values that have no meaning are 0. These numbers are distinct variables, and none lies in a slice that is lent. A
 * slice is lent as a pointer and the number of its elements: bytes or words of 16 bits, each two bytes, the low one
 * first; for the scratch of proposing, words of 64 bits. None may overlap another that is written. A pointer is never
 * NULL, also where its length is 0. docs/assumptions.md has all that a caller owes.
 *
 * A table is 14,007 words; words lent behind them are neither judged nor touched. It begins with seven counts: objects,
 * predicates, schemas, schema atoms, initial atoms, goal atoms, pairs of parameters that must differ (at most 200).
 * Then come the predicates' arities, the schemas' parameter counts, the pairs in file order, three words each (schema,
 * lower, higher parameter), and the atoms in file order, eight words each; then zeros. */
#ifndef SPLITTER_H
#define SPLITTER_H

#include <stddef.h>
#include <stdint.h>

#ifdef __cplusplus
extern "C" {
#endif

/* The words of a table, of a step and of a state's record; and those of 64 bits of the scratch that proposing takes. */
#define SPLITTER_TABLE_WORDS 14007
#define SPLITTER_STEP_WORDS 13
#define SPLITTER_RECORD_WORDS 5
#define SPLITTER_SCRATCH_WORDS 128

/* Reads a text into a table. The whole text is read: it ends where its bytes do.
 *
 * Refusals: 1 a short table, which is left as found. Those of a line have the line's number as place and leave the
 * table's 14,007 words 0: 3 not a line that the fixed order allows here, text missing (the line lacking) or left
 * over, 4 a count or an arity outside its limits, 21 the 201st differ line, 5 a predicate that there is not, a wrong
 * number of arguments or one too high, 19 (at a differ line) a parameter too high, a pair without its lower parameter
 * first, or one not behind the schema's pair before it, 6 an atom repeated or not ascending, 7 (at a part line) a
 * schema without atoms or a parameter in none, 8 (at a part line) a wrong number of parts, a part of 16 or more, or a
 * gap. A line is judged by these in the order in which they stand here. Words behind the table's are never touched. */
uint32_t splitter_read(const uint8_t *text, size_t text_len, uint16_t *table, size_t table_len, uint64_t *place);

/* Runs a list of steps of the table's task, 13 words each, in a state of `records` ascending 5-word records, which
 * lie at the front of the words lent; there is room for state_len / 5 records. A step runs if all its preconditions
 * hold; then its deletes go out, then its adds come in.
 *
 * `left` is the number of records afterwards, `goal` 1 if all goal atoms hold then. Refusals: 1 a short table, 2
 * no table, 12 no step of the task, as where its objects are equal at a pair that must differ, or an incomplete one
 * (place: its number), 15 the records are not ascending ones of the task, or more than lent, 16 a precondition of a
 * step is missing (place: its number), 17 the next state would outgrow the room (place: the step's number). 16 and 17
 * leave the state before that step, with `left` its records and `goal` 0. With a result, 16 and 17 the words behind the
 * records are 0, to the end of the words lent; else nothing is changed. */
uint32_t splitter_run(const uint16_t *table, size_t table_len, const uint16_t *steps, size_t steps_len,
                      uint16_t *state, size_t state_len, uint64_t records,
                      uint64_t *place, uint64_t *left, uint64_t *goal);

/* Writes the text of the table's task over the front of the bytes lent; `bytes` is how many it has. 44,432 bytes are
 * enough for every task.
 *
 * Refusals: 1 a short table, 2 no table, 11 the text is longer than the bytes lent. None has a place, and each
 * leaves the bytes as found, with `bytes` 0. Bytes behind a text are left as found too. */
uint32_t splitter_write(const uint16_t *table, size_t table_len, uint8_t *text, size_t text_len,
                        uint64_t *place, uint64_t *bytes);

/* Writes the table's task as planners that read PDDL take it, over the front of the bytes lent: the domain and byte 10,
 * then the problem and byte 10; `bytes` is how many they have. Objects are o0, o1 and on, predicates p0 and on, actions
 * a0 and on, parameters ?x0 and on, in the table's order; the partition is not written. A pair that must differ is a
 * precondition (not (= ..)) behind the atoms, and with any pair the domain states its requirements. 92,158 bytes are
 * enough for every task.
 *
 * Refusals: 1 a short table, 2 no table, 18 the text is longer than the bytes lent. None has a place, and each
 * leaves the bytes as found, with `bytes` 0. Bytes behind a text are left as found too. */
uint32_t splitter_write_pddl(const uint16_t *table, size_t table_len, uint8_t *text, size_t text_len,
                             uint64_t *place, uint64_t *bytes);

/* Proposes a partition for each schema of the table's task, and writes the task with these parts as a table: 14,007
 * words, those of the table but for the parts of its schema atoms. The parts that it has do not matter. Each schema
 * starts with every atom in a part of its own, numbered in file order. While there are two parts that have at most
 * `width` parameters together and can be merged so that some order still complies with the arcs, the first two, by
 * lower and then higher number, become one; it takes the lower number and higher ones close up. So a part has at most
 * `width` parameters, or is a single atom. Splitting what is proposed never answers 9; 20 and 10 it may.
 *
 * The scratch is 128 words of 64 bits, whatever they hold; after a result or 23 they are 0. Words behind them are never
 * touched.
 *
 * Refusals: 1 either table is short, 2 the one to be read is no table, 22 the width is above 12 or the scratch is
 * short, 23 a schema ends with more than 16 parts (place: the first such schema); in this order. Each leaves the
 * proposed table as found, and all but 23 the scratch too. Words behind the proposed table's are never touched. */
uint32_t splitter_propose(const uint16_t *table, size_t table_len, uint64_t width, uint16_t *proposed,
                          size_t proposed_len, uint64_t *scratch, size_t scratch_len, uint64_t *place);

/* Splits the table's task along its parts and writes the split as a table: 14,007 words, zeros behind its last atom. A
 * part that has both parameters of a pair that must differ carries it.
 *
 * Refusals: 1 either table is short, 2 the one to be read is no table, 9 no order of parts complies with the arcs
 * of a schema (place: the lowest such schema), 20 no part has both parameters of a pair (place: the lowest such
 * schema), 10 the split would pass a limit of a table; in this order. Each leaves the split as found. Words behind the
 * split's are never touched. */
uint32_t splitter_split(const uint16_t *table, size_t table_len, uint16_t *split, size_t split_len, uint64_t *place);

/* Tells what the split of the table's task will need; nothing of it is written. `predicates`, `schemas`, `atoms` (those
 * of its schemas) and `bytes` (of its text, differ lines included) are the split's, so splitter_write takes just that
 * many bytes for it. `before` and `after` are the ground instances of the task and of its split: for each schema the
 * number of objects to the power of its parameter count, in all; a pair that must differ takes none away.
 *
 * Refusals: 1 a short table, 2, 9, 20 and 10 as in splitting, 24 the instances before or after are 2 to the power 63 or
 * more; in this order. 9 and 20 have a place, their schema. Each leaves all six values 0. */
uint32_t splitter_sizes(const uint16_t *table, size_t table_len, uint64_t *place, uint64_t *predicates,
                        uint64_t *schemas, uint64_t *atoms, uint64_t *bytes, uint64_t *before, uint64_t *after);

/* Unfolds a list of steps of the table's task, 13 words each, into steps of its split: each step's block, which is its
 * parts in order with its objects, one after another over the front of the words lent. The table is that of the task,
 * not of its split.
 *
 * `split_steps` is how many split steps are written, 13 words each. Refusals: 1, 2, 9, 20 and 10 as in splitting, 12
 * no step of the task, as where its objects are equal at a pair that must differ, or an incomplete one (place: its
 * number), 13 the unfolding is longer than the words lent. Each leaves the words as found, with `split_steps` 0. Words
 * behind an unfolding are left as found too. */
uint32_t splitter_unfold(const uint16_t *table, size_t table_len, const uint16_t *steps, size_t steps_len,
                         uint16_t *out, size_t out_len, uint64_t *place, uint64_t *split_steps);

/* Folds a list of steps of the split of the table's task, 13 words each: takes it apart into whole blocks, and writes
 * the step of each, 13 words each, over the front of the words lent. It looks at schemas and objects, not at states.
 * The table is that of the task, not of its split.
 *
 * `split_steps` is how many split steps were lent, `steps` how many steps are written. Refusals: 1, 2, 9, 20 and 10 as
 * in splitting, 12 no step of the split, as where its objects are equal at a pair that its part carries, or an
 * incomplete one (place: its number), 14 the first step that fits no block, or the step count where the last block is
 * unfinished (place: that number), 13 the steps are longer than the words lent; 14 comes before 13. An unfinished block
 * may have equal objects at a pair that none of its parts so far carries. Each leaves the words as found, with both
 * counts 0. Words behind the steps are left as found too. */
uint32_t splitter_fold(const uint16_t *table, size_t table_len, const uint16_t *split, size_t split_len, uint16_t *out,
                       size_t out_len, uint64_t *place, uint64_t *split_steps, uint64_t *steps);

#ifdef __cplusplus
}
#endif

#endif
