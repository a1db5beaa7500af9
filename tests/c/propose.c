/* Proposing: M and a swap at several widths, a schema of 64 atoms, scratches of many lengths, each refusal, and the
 * words of both tables and of the scratch afterwards. */
#include "checks.h"

enum { WORDS = SPLITTER_TABLE_WORDS, SCRATCH = 128, MOST_ATOMS = 32 };

/* Words of 64 bits as they are found: low bits set and high ones, in turn. */
static uint64_t *found_scratch(size_t length) {
    uint64_t *words = lend(length * sizeof *words);
    for (size_t at = 0; at < length; at++)
        words[at] = (uint64_t)FOUND << (at % 2 == 0 ? 0 : 61);
    return words;
}

/* What is lent: a table, a width, and so many words for the second table and for the scratch. */
struct lent {
    const uint16_t *table;
    size_t words;
    uint64_t width;
    size_t proposed, scratch;
};

/* Proposes; requires the answer, this second table or, without one, its words as found, and 128 words of the scratch
 * all 0 after a result or 23. */
static void expect(struct lent lent, uint32_t number, uint64_t schema, const uint16_t *proposal, const char *claim,
                   int line) {
    uint64_t place = UNWRITTEN;
    uint16_t *read = copy(lent.table, lent.words);
    uint16_t *proposed = found_words(lent.proposed), *left = found_words(lent.proposed);
    uint64_t *scratch = found_scratch(lent.scratch), *cleared = found_scratch(lent.scratch);
    if (proposal != NULL)
        memcpy(left, proposal, WORDS * sizeof *left);
    if (number == 0 || number == 23)
        memset(cleared, 0, SCRATCH * sizeof *cleared);
    uint32_t answer = splitter_propose(read, lent.words, lent.width, proposed, lent.proposed, scratch, lent.scratch,
                                       &place);
    check_number(answer, number, claim, line);
    check_number(place, schema, claim, line);
    check_bytes(proposed, left, lent.proposed * sizeof *left, claim, line);
    check_bytes(scratch, cleared, lent.scratch * sizeof *cleared, claim, line);
    check_bytes(read, lent.table, lent.words * sizeof *read, claim, line);
    free(read);
    free(proposed);
    free(left);
    free(scratch);
    free(cleared);
}

#define EXPECT(number, schema, proposal, claim, ...) \
    expect((struct lent){__VA_ARGS__}, (number), (schema), (proposal), (claim), __LINE__)

/* The table of a task whose schema atoms are in these parts. */
static uint16_t *parted(const struct task *task, const uint16_t *parts) {
    struct task other = *task;
    for (size_t atom = 0; atom < other.counts[3]; atom++)
        other.atoms[atom].words[3] = parts[atom];
    return table_of(&other);
}

/* A width and the parts that it leads to. */
struct proposal {
    uint64_t width;
    uint16_t parts[MOST_ATOMS];
};

/* The proposals for a task, whatever its own parts are; with words to spare too. */
static void proposes(const struct task *task, const struct proposal *proposals, size_t count, const char *claim) {
    static const uint16_t together[MOST_ATOMS];
    uint16_t *own = table_of(task), *other = parted(task, together);
    for (size_t each = 0; each < count; each++) {
        uint64_t width = proposals[each].width;
        uint16_t *proposal = parted(task, proposals[each].parts);
        EXPECT(0, 0, proposal, claim, own, WORDS, width, WORDS, SCRATCH);
        EXPECT(0, 0, proposal, claim, own, WORDS, width, WORDS + 3, SCRATCH + 5);
        EXPECT(0, 0, proposal, claim, other, WORDS, width, WORDS, SCRATCH);
        free(proposal);
    }
    free(own);
    free(other);
}

/* M's own partition is that of width 2. The swap's deletes go with its tests, and both piers' only where the pair takes
 * the arcs between them away. */
static void by_hand(void) {
    static const struct proposal of_move[] = {
        {0, {0, 1, 2, 3, 4, 5, 6}}, {1, {0, 1, 2, 3, 4, 5, 2}}, {2, {0, 0, 1, 1, 2, 0, 1}}, {3, {0}}, {12, {0}},
    };
    static const struct proposal of_swap[] = {
        {1, {0, 1, 2, 3, 4, 5, 6}}, {2, {0, 1, 2, 3, 4, 0, 1}}, {3, {0, 1, 0, 2, 0, 0, 1}}, {4, {0}},
    };
    static const struct proposal of_swap_without_pair[] = {{2, {0, 1, 2, 3, 4, 0, 5}}};
    struct task without_pair = swap;
    without_pair.counts[6] = 0;
    proposes(&move, of_move, sizeof of_move / sizeof *of_move, "M");
    proposes(&swap, of_swap, sizeof of_swap / sizeof *of_swap, "a swap");
    proposes(&without_pair, of_swap_without_pair, 1, "a swap without its pair");
}

/* From a partition without an order to a split. */
static void is_split(void) {
    uint64_t place = UNWRITTEN;
    uint16_t *table = circular_table(), *expected = table_of(&move_split);
    uint16_t *proposed = found_words(WORDS), *split = found_words(WORDS);
    uint64_t *scratch = found_scratch(SCRATCH);
    CHECK_NUMBER(splitter_split(table, WORDS, split, WORDS, &place), 9, "E2");
    CHECK_NUMBER(splitter_propose(table, WORDS, 2, proposed, WORDS, scratch, SCRATCH, &place), 0, "parts for E2");
    CHECK_NUMBER(splitter_split(proposed, WORDS, split, WORDS, &place), 0, "the proposal has an order");
    CHECK_WORDS(split, expected, WORDS, "E1");
    free(table);
    free(expected);
    free(proposed);
    free(split);
    free(scratch);
}

/* A schema of one atom, then one of so many, each with two parameters that no other has both of. */
static uint16_t *apart(uint16_t atoms) {
    struct task task = {{1, 1, 2, (uint16_t)(1 + atoms)}, {2}, {2, 7}, {{0}}, {{{0, 0, 0, 0, 0, 1}}}};
    size_t at = 1;
    for (uint16_t lower = 0; lower < 7; lower++)
        for (uint16_t higher = lower + 1; higher < 7 && at <= atoms; higher++, at++)
            memcpy(task.atoms[at].words, (uint16_t[]){1, 0, 0, 0, lower, higher}, 6 * sizeof lower);
    return table_of(&task);
}

static void too_many_parts(void) {
    uint16_t *sixteen = apart(16), *seventeen = apart(17), *proposal = apart(16);
    uint16_t *atoms = proposal + HEAD + 1 + 2;
    for (uint16_t atom = 0; atom < 16; atom++)
        atoms[8 * (1 + atom) + 3] = atom;
    EXPECT(0, 0, proposal, "16 parts", sixteen, WORDS, 2, WORDS, SCRATCH);
    EXPECT(23, 1, NULL, "17 parts", seventeen, WORDS, 2, WORDS, SCRATCH);
    EXPECT(23, 1, NULL, "17 parts, with words to spare", seventeen, WORDS, 1, WORDS + 1, SCRATCH + 1);
    EXPECT(22, 0, NULL, "22 comes before 23", seventeen, WORDS, 2, WORDS, SCRATCH - 1);
    free(sixteen);
    free(seventeen);
    free(proposal);
}

/* A schema of 64 atoms in these parts: a test and an add of 0:0, adds of other predicates of parameter 0, and last a
 * delete of 0:1. */
static uint16_t *crowded(const uint16_t *parts) {
    static const uint16_t counts[HEAD] = {1, 62, 1, 64};
    uint16_t *table = lend(WORDS * sizeof *table), *end = table + HEAD;
    memset(table, 0, WORDS * sizeof *table);
    memcpy(table, counts, sizeof counts);
    for (uint16_t predicate = 0; predicate < 62; predicate++)
        *end++ = 1;
    *end++ = 2;
    for (uint16_t atom = 0; atom < 64; atom++, end += 8) {
        int first = atom == 0, last = atom == 63;
        uint16_t predicate = first || last ? 0 : (uint16_t)(atom - 1);
        memcpy(end, (uint16_t[]){0, first ? 0 : last ? 2 : 1, predicate, parts[atom], (uint16_t)last}, 5 * sizeof *end);
    }
    return table;
}

/* At width 1 the other adds go to the test. The first add never can: the delete would have to stand between, as part
 * 63 at first. */
static void many_parts(void) {
    static const uint16_t together[64], expected[64] = {[1] = 1, [63] = 2};
    uint16_t *table = crowded(together), *proposal = crowded(expected);
    EXPECT(0, 0, proposal, "64 atoms", table, WORDS, 1, WORDS, SCRATCH);
    EXPECT(0, 0, table, "64 atoms in one part", table, WORDS, 2, WORDS, SCRATCH);
    EXPECT(23, 0, NULL, "64 atoms, each alone", table, WORDS, 0, WORDS, SCRATCH);
    free(table);
    free(proposal);
}

/* Scratches that are too short, and longer ones than needed. */
static void scratches(void) {
    static const size_t too_short[] = {0, 1, 16, 32, 63, 64, 127}, longer[] = {129, 192, 512, 1024, 4096};
    uint16_t *table = table_of(&move), *seventeen = apart(17);
    CHECK_NUMBER(SPLITTER_SCRATCH_WORDS, SCRATCH, "the header's length");
    for (size_t each = 0; each < sizeof too_short / sizeof *too_short; each++) {
        EXPECT(22, 0, NULL, "a short scratch", table, WORDS, 2, WORDS, too_short[each]);
        EXPECT(22, 0, NULL, "a short scratch for 17 parts", seventeen, WORDS, 2, WORDS, too_short[each]);
    }
    for (size_t each = 0; each < sizeof longer / sizeof *longer; each++) {
        EXPECT(0, 0, table, "a long scratch", table, WORDS, 2, WORDS, longer[each]);
        EXPECT(23, 1, NULL, "a long scratch for 17 parts", seventeen, WORDS, 2, WORDS, longer[each]);
    }
    free(table);
    free(seventeen);
}

/* The scratch lies between words that stay as found, in each of their bytes. */
static void between_words(void) {
    enum { AROUND = 8 };
    static uint64_t words[AROUND + SCRATCH + AROUND], left[AROUND + SCRATCH + AROUND];
    uint64_t place = UNWRITTEN, *scratch = words + AROUND;
    uint16_t *table = table_of(&move), *proposed = found_words(WORDS);
    memset(words, 0xa5, sizeof words);
    memset(left, 0xa5, sizeof left);
    CHECK_NUMBER(splitter_propose(table, WORDS, 13, proposed, WORDS, scratch, SCRATCH, &place), 22, "width 13");
    CHECK_BYTES(words, left, sizeof words, "all as found");
    memset(left + AROUND, 0, SCRATCH * sizeof *left);
    CHECK_NUMBER(splitter_propose(table, WORDS, 2, proposed, WORDS, scratch, SCRATCH, &place), 0, "parts for M");
    CHECK_BYTES(words, left, sizeof words, "128 words 0, those around them as found");
    free(table);
    free(proposed);
}

static void refuses(void) {
    uint16_t *table = table_of(&move), *damaged = damaged_table();
    EXPECT(1, 0, NULL, "a short table to write", table, WORDS, 2, WORDS - 1, SCRATCH);
    EXPECT(1, 0, NULL, "a short table to read", table, WORDS - 1, 2, WORDS, SCRATCH);
    EXPECT(1, 0, NULL, "1 comes before 2", damaged, WORDS, 13, WORDS - 1, 0);
    EXPECT(2, 0, NULL, "no table", damaged, WORDS, 2, WORDS, SCRATCH);
    EXPECT(2, 0, NULL, "2 comes before 22", damaged, WORDS, 13, WORDS, SCRATCH - 1);
    EXPECT(22, 0, NULL, "width 13", table, WORDS, 13, WORDS, SCRATCH);
    EXPECT(22, 0, NULL, "a width of more than 32 bits", table, WORDS, (1ull << 32) + 2, WORDS, SCRATCH);
    EXPECT(22, 0, NULL, "the widest", table, WORDS, UINT64_MAX, WORDS, SCRATCH + 9);
    free(table);
    free(damaged);
}

int main(void) {
    by_hand();
    is_split();
    too_many_parts();
    many_parts();
    scratches();
    between_words();
    refuses();
    return end("propose");
}
