/* Feeds one call of the C interface, and holds its answer and every lent word against the reference.
 *
 * An input is a header of 10 bytes, a text of a task, then words, low byte first: changes to its table, steps, and
 * records of a state. tests/fuzz/seeds writes such inputs. */
#define _GNU_SOURCE
#include "lent.h"
#include "splitter.h"
#include "traps.h"

enum { TABLE = SPLITTER_TABLE_WORDS, BEHIND = 4, HEADER = 10, MOST_WORDS = 1 << 16, MOST_SCRATCH = 1 << 10 };

/* Writing a task as text, and as PDDL. */
typedef uint32_t writer(const uint16_t *, size_t, uint8_t *, size_t, uint64_t *, uint64_t *);

uint32_t reference_read(const uint8_t *, size_t, uint16_t *, size_t, uint64_t *);
writer reference_write, reference_write_pddl;
uint32_t reference_split(const uint16_t *, size_t, uint16_t *, size_t, uint64_t *);
uint32_t reference_run(const uint16_t *, size_t, const uint16_t *, size_t, uint16_t *, size_t, uint64_t, uint64_t *,
                       uint64_t *, uint64_t *);
uint32_t reference_unfold(const uint16_t *, size_t, const uint16_t *, size_t, uint16_t *, size_t, uint64_t *,
                          uint64_t *);
uint32_t reference_fold(const uint16_t *, size_t, const uint16_t *, size_t, uint16_t *, size_t, uint64_t *, uint64_t *,
                        uint64_t *);
uint32_t reference_propose(const uint16_t *, size_t, uint64_t, uint16_t *, size_t, uint64_t *, size_t, uint64_t *);
uint32_t reference_sizes(const uint16_t *, size_t, uint64_t *, uint64_t *, uint64_t *, uint64_t *, uint64_t *,
                         uint64_t *, uint64_t *);

enum call { READ, WRITE, WRITE_PDDL, SPLIT, RUN, UNFOLD, FOLD, PROPOSE, SIZES, CALLS };

struct input {
    enum call call;
    int at_front;         /* where buffers lie in their pages */
    int changed;          /* the table is changed before the call */
    size_t read_table;    /* words of the table lent for reading */
    size_t written_table; /* words of the table lent for writing */
    int initial;          /* running: from the initial atoms, with so much more room as `state` says */
    int unfolded;         /* folding: the list is the unfolding of the steps, with a word changed */
    uint16_t lent, steps, state, records;
    const uint8_t *rest;
    size_t left;
};

/* An answer: its number, then the numbers lent to be written, which hold this before; no bytes between them. */
struct answer {
    uint64_t number;
    uint64_t values[7];
};
static const struct answer unanswered = {77, {88, 99, 111, 122, 133, 144, 155}};

/* Buffers of the proved code in fenced pages, those of the reference beside them. */
static struct lent given_text, given_table, given_list, written, scratch;
static uint16_t task[TABLE + BEHIND], list[MOST_WORDS], beside[MOST_WORDS], records[MOST_WORDS];
static uint64_t scratch_beside[MOST_SCRATCH];

static uint16_t word(struct input *in) {
    if (in->left < 2) {
        in->left = 0;
        return 0;
    }
    uint16_t taken = (uint16_t)(in->rest[0] | in->rest[1] << 8);
    in->rest += 2;
    in->left -= 2;
    return taken;
}

static int taken(struct input *in, const uint8_t *data, size_t size) {
    static const size_t tables[4] = {TABLE, TABLE - 1, TABLE + BEHIND, 0};
    if (size < HEADER)
        return 0;
    uint8_t layout = data[1];
    *in = (struct input){.rest = data + 2, .left = HEADER - 2};
    in->call = data[0] % CALLS;
    in->at_front = layout & 1;
    in->changed = layout >> 1 & 1;
    in->read_table = tables[layout >> 2 & 3];
    in->written_table = tables[layout >> 4 & 3];
    in->initial = layout >> 6 & 1;
    in->unfolded = layout >> 7 & 1;
    in->lent = word(in);
    in->steps = word(in);
    in->state = word(in);
    in->records = word(in);
    in->rest = data + HEADER;
    in->left = size - HEADER;
    return 1;
}

/* The text ends behind its end line, or where the input does. */
static size_t text_length(const struct input *in) {
    static const char end[] = "\nend=1\n";
    const uint8_t *at = memmem(in->rest, in->left, end, sizeof end - 1);
    return at == NULL ? in->left : (size_t)(at - in->rest) + sizeof end - 1;
}

static void same(const struct answer *proved, const struct answer *reference, size_t bytes) {
    if (memcmp(proved, reference, sizeof *proved) != 0)
        fail("both answer the same");
    if (memcmp(written.bytes, beside, bytes) != 0)
        fail("both leave the same words");
    guards_stand(&written);
}

/* What is written, and the same words for the reference. */
static void lend_to_write(const void *given, size_t bytes, int at_front) {
    lend(&written, given, bytes, at_front);
    memcpy(beside, written.bytes, bytes);
}

static uint64_t read_text(const struct input *in, const uint8_t *text, size_t length, size_t words) {
    struct answer proved = unanswered, reference = unanswered;
    lend(&given_text, text, length, in->at_front);
    lend_to_write(NULL, 2 * words, in->at_front);
    only_read(&given_text, 1);
    proved.number = splitter_read(given_text.bytes, length, (uint16_t *)written.bytes, words, proved.values);
    only_read(&given_text, 0);
    reference.number = reference_read(text, length, beside, words, reference.values);
    same(&proved, &reference, 2 * words);
    return proved.number;
}

/* One word can't tell as many bytes as a PDDL text may have, and writing has no records: two words tell them. */
static void write_text(const struct input *in, writer *proved_writer, writer *reference_writer) {
    struct answer proved = unanswered, reference = unanswered;
    size_t bytes = (size_t)in->lent + in->records;
    lend_to_write(NULL, bytes, in->at_front);
    only_read(&given_table, 1);
    proved.number = proved_writer((uint16_t *)given_table.bytes, in->read_table, written.bytes, bytes, proved.values,
                                  proved.values + 1);
    only_read(&given_table, 0);
    reference.number = reference_writer(task, in->read_table, (uint8_t *)beside, bytes, reference.values,
                                        reference.values + 1);
    same(&proved, &reference, bytes);
}

static void split_table(const struct input *in) {
    struct answer proved = unanswered, reference = unanswered;
    lend_to_write(NULL, 2 * in->written_table, in->at_front);
    only_read(&given_table, 1);
    proved.number = splitter_split((uint16_t *)given_table.bytes, in->read_table, (uint16_t *)written.bytes,
                                   in->written_table, proved.values);
    only_read(&given_table, 0);
    reference.number = reference_split(task, in->read_table, beside, in->written_table, reference.values);
    same(&proved, &reference, 2 * in->written_table);
}

static void run_steps(const struct input *in, size_t words, uint64_t count) {
    struct answer proved = unanswered, reference = unanswered;
    lend_to_write(records, 2 * words, in->at_front);
    only_read(&given_table, 1);
    only_read(&given_list, 1);
    proved.number = splitter_run((uint16_t *)given_table.bytes, in->read_table, (uint16_t *)given_list.bytes,
                                 given_list.length / 2, (uint16_t *)written.bytes, words, count, proved.values,
                                 proved.values + 1, proved.values + 2);
    only_read(&given_list, 0);
    only_read(&given_table, 0);
    reference.number = reference_run(task, in->read_table, list, given_list.length / 2, beside, words, count,
                                     reference.values, reference.values + 1, reference.values + 2);
    same(&proved, &reference, 2 * words);
}

static void unfold_steps(const struct input *in) {
    struct answer proved = unanswered, reference = unanswered;
    lend_to_write(NULL, 2 * in->lent, in->at_front);
    only_read(&given_table, 1);
    only_read(&given_list, 1);
    proved.number = splitter_unfold((uint16_t *)given_table.bytes, in->read_table, (uint16_t *)given_list.bytes,
                                    given_list.length / 2, (uint16_t *)written.bytes, in->lent, proved.values,
                                    proved.values + 1);
    only_read(&given_list, 0);
    only_read(&given_table, 0);
    reference.number = reference_unfold(task, in->read_table, list, given_list.length / 2, beside, in->lent,
                                        reference.values, reference.values + 1);
    same(&proved, &reference, 2 * in->lent);
}

static void fold_steps(const struct input *in) {
    struct answer proved = unanswered, reference = unanswered;
    lend_to_write(NULL, 2 * in->lent, in->at_front);
    only_read(&given_table, 1);
    only_read(&given_list, 1);
    proved.number = splitter_fold((uint16_t *)given_table.bytes, in->read_table, (uint16_t *)given_list.bytes,
                                  given_list.length / 2, (uint16_t *)written.bytes, in->lent, proved.values,
                                  proved.values + 1, proved.values + 2);
    only_read(&given_list, 0);
    only_read(&given_table, 0);
    reference.number = reference_fold(task, in->read_table, list, given_list.length / 2, beside, in->lent,
                                      reference.values, reference.values + 1, reference.values + 2);
    same(&proved, &reference, 2 * in->lent);
}

/* As many words of scratch as `lent` says, or a rest of it. One word tells every width up to 13; another makes it far
 * too wide. */
static void propose_parts(const struct input *in) {
    struct answer proved = unanswered, reference = unanswered;
    uint64_t width = (uint64_t)in->state << 48 | in->records;
    size_t words = in->lent % (MOST_SCRATCH + 1), bytes = words * sizeof *scratch_beside;
    lend_to_write(NULL, 2 * in->written_table, in->at_front);
    lend(&scratch, NULL, bytes, in->at_front);
    memcpy(scratch_beside, scratch.bytes, bytes);
    only_read(&given_table, 1);
    proved.number = splitter_propose((uint16_t *)given_table.bytes, in->read_table, width, (uint16_t *)written.bytes,
                                     in->written_table, (uint64_t *)scratch.bytes, words, proved.values);
    only_read(&given_table, 0);
    reference.number = reference_propose(task, in->read_table, width, beside, in->written_table, scratch_beside, words,
                                         reference.values);
    same(&proved, &reference, 2 * in->written_table);
    if (memcmp(scratch.bytes, scratch_beside, bytes) != 0)
        fail("both leave the same scratch");
    guards_stand(&scratch);
}

/* No words are lent to be written. */
static void tell_sizes(const struct input *in) {
    struct answer proved = unanswered, reference = unanswered;
    uint64_t *told = proved.values, *beside_it = reference.values;
    only_read(&given_table, 1);
    proved.number = splitter_sizes((uint16_t *)given_table.bytes, in->read_table, told, told + 1, told + 2, told + 3,
                                   told + 4, told + 5, told + 6);
    only_read(&given_table, 0);
    reference.number = reference_sizes(task, in->read_table, beside_it, beside_it + 1, beside_it + 2, beside_it + 3,
                                       beside_it + 4, beside_it + 5, beside_it + 6);
    same(&proved, &reference, 0);
}

/* The table of the text, with so many words behind it; then the changes to it. */
static void make_table(struct input *in) {
    memcpy(task, written.bytes, 2 * TABLE);
    memset(task + TABLE, FOUND, 2 * BEHIND);
    for (unsigned changes = in->changed ? word(in) % 8 : 0; changes > 0; changes--) {
        size_t at = word(in) % TABLE;
        task[at] = word(in);
    }
    lend(&given_table, task, 2 * in->read_table, in->at_front);
}

/* The list of steps; for folding, if asked and they are steps, their unfolding with a word changed. */
static void make_list(struct input *in) {
    size_t words = in->steps < in->left / 2 ? in->steps : in->left / 2;
    for (size_t at = 0; at < words; at++)
        list[at] = word(in);
    uint64_t place, split_steps;
    if (in->call == FOLD && in->unfolded
        && reference_unfold(task, TABLE, list, words, beside, MOST_WORDS, &place, &split_steps) == 0) {
        words = SPLITTER_STEP_WORDS * split_steps;
        memcpy(list, beside, 2 * words);
        if (words > 0 && in->state != 0)
            list[in->records % words] ^= in->state;
    }
    lend(&given_list, list, 2 * words, in->at_front);
}

/* The records of the initial atoms, or those that the input has. */
static void run_from(struct input *in) {
    size_t words = in->state < in->left / 2 ? in->state : in->left / 2;
    uint64_t count = in->records;
    if (in->initial) {
        const uint16_t *atom = task + 7 + task[1] + task[2] + 3 * task[6] + 8 * task[3];
        count = task[4] <= 500 && atom + 8 * task[4] <= task + TABLE ? task[4] : 0;
        words = SPLITTER_RECORD_WORDS * count + in->state % 512;
        memset(records, FOUND, 2 * words);
        for (size_t at = 0; at < count; at++, atom += 8) {
            records[SPLITTER_RECORD_WORDS * at] = atom[2];
            memcpy(records + SPLITTER_RECORD_WORDS * at + 1, atom + 4, 8);
        }
    } else {
        for (size_t at = 0; at < words; at++)
            records[at] = word(in);
    }
    run_steps(in, words, count);
}

int LLVMFuzzerInitialize(int *count, char ***arguments) {
    (void)count, (void)arguments;
    given_text = pages_to_lend();
    given_table = pages_to_lend();
    given_list = pages_to_lend();
    written = pages_to_lend();
    scratch = pages_to_lend();
#ifndef REPLAY
    set_traps();
#endif
    return 0;
}

int LLVMFuzzerTestOneInput(const uint8_t *data, size_t size) {
    struct input in;
    if (!taken(&in, data, size))
        return 0;
    size_t length = text_length(&in);
    const uint8_t *text = in.rest;
    if (in.call == READ) {
        read_text(&in, text, length, in.written_table);
        return 0;
    }
    if (read_text(&in, text, length, TABLE) != 0)
        return 0;
    in.rest += length;
    in.left -= length;
    make_table(&in);
    make_list(&in);
    switch (in.call) {
    case WRITE:
        write_text(&in, splitter_write, reference_write);
        break;
    case WRITE_PDDL:
        write_text(&in, splitter_write_pddl, reference_write_pddl);
        break;
    case SPLIT:
        split_table(&in);
        break;
    case RUN:
        run_from(&in);
        break;
    case UNFOLD:
        unfold_steps(&in);
        break;
    case PROPOSE:
        propose_parts(&in);
        break;
    case SIZES:
        tell_sizes(&in);
        break;
    default:
        fold_steps(&in);
    }
    guards_stand(&given_table);
    guards_stand(&given_list);
    guards_stand(&given_text);
    return 0;
}
