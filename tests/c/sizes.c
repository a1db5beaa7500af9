/* What a split will need: M, a swap and a schema of nine parameters by hand, both sides of 2 to the power 63, each
 * refusal, and the words of the table afterwards. */
#include "checks.h"

enum { WORDS = SPLITTER_TABLE_WORDS, SIZES = 6, TEXT = 1 << 16 };

/* Predicates, schemas, schema atoms, text bytes, instances before and after. */
struct sizes {
    uint64_t told[SIZES];
};

/* Asks for the sizes; requires the answer, and these sizes or, without them, zeros. */
static void expect(const uint16_t *table, size_t words, uint32_t number, uint64_t schema, struct sizes sizes,
                   const char *claim, int line) {
    uint64_t place = UNWRITTEN, told[SIZES];
    uint16_t *read = copy(table, words);
    for (size_t at = 0; at < SIZES; at++)
        told[at] = UNWRITTEN + at;
    uint32_t answer = splitter_sizes(read, words, &place, told, told + 1, told + 2, told + 3, told + 4, told + 5);
    check_number(answer, number, claim, line);
    check_number(place, schema, claim, line);
    for (size_t at = 0; at < SIZES; at++)
        check_number(told[at], sizes.told[at], claim, line);
    check_bytes(read, table, words * sizeof *table, claim, line);
    free(read);
}

static const struct sizes none;

#define TOLD(table, claim, ...) expect((table), WORDS, 0, 0, (struct sizes){{__VA_ARGS__}}, (claim), __LINE__)
#define REFUSED(table, words, number, schema, claim) \
    expect((table), (words), (number), (schema), none, (claim), __LINE__)

/* A schema of nine parameters that tests them by three atoms, which are in these parts. */
static uint16_t *of_nine(uint16_t objects, uint16_t second, uint16_t third) {
    const struct task task = {
        {objects, 1, 1, 3, 0, 0, 0},
        {4},
        {9},
        {{0}},
        {{{0, 0, 0, 0, 0, 1, 2, 3}}, {{0, 0, 0, second, 4, 5, 6, 7}}, {{0, 0, 0, third, 8, 8, 8, 8}}},
    };
    return table_of(&task);
}

/* 127 to the power 9 is less than 2 to the power 63, which is 128 to the power 9. In three parts of four, four and one
 * parameter there are few instances after the split. */
static void at_the_bound(void) {
    uint16_t *whole = of_nine(127, 0, 0), *parted = of_nine(127, 1, 2);
    uint64_t power = 8594754748609397887, fourth = 260144641;
    TOLD(whole, "127 to the power 9", 2, 1, 4, 122, power, power);
    TOLD(parted, "127 to the power 9 before", 4, 3, 12, 226, power, 2 * fourth + 127);
    free(whole);
    free(parted);

    uint16_t *too_many = of_nine(128, 0, 0), *before = of_nine(128, 1, 2), *far_too_many = of_nine(1000, 0, 0);
    REFUSED(too_many, WORDS, 24, 0, "128 to the power 9");
    REFUSED(before, WORDS, 24, 0, "128 to the power 9 before");
    REFUSED(far_too_many, WORDS, 24, 0, "1,000 to the power 9");
    REFUSED(crowd(too_many), WORDS, 10, 0, "10 comes before 24");
    free(too_many);
    free(before);
    free(far_too_many);
}

/* So many schemas of ten parameters over 64 objects; eight have 2 to the power 63 instances together. */
static uint16_t *of_ten(uint16_t schemas) {
    struct task task = {{64, 1, schemas, (uint16_t)(3 * schemas)}, {4}, {0}, {{0}}, {{{0}}}};
    for (uint16_t schema = 0; schema < schemas; schema++) {
        const struct atom atoms[3] = {
            {{schema, 0, 0, 0, 0, 1, 2, 3}}, {{schema, 0, 0, 0, 4, 5, 6, 7}}, {{schema, 0, 0, 0, 8, 9, 9, 9}},
        };
        task.parameters[schema] = 10;
        memcpy(task.atoms + 3 * schema, atoms, sizeof atoms);
    }
    return table_of(&task);
}

/* A total may pass the bound as a sum, or in the split alone: here two parts have all nine parameters. */
static void in_all(void) {
    static const struct task twice = {
        {127, 2, 1, 6, 0, 0, 0},
        {4, 4},
        {9},
        {{0}},
        {
            {{0, 0, 0, 0, 0, 1, 2, 3}}, {{0, 0, 0, 0, 4, 5, 6, 7}}, {{0, 0, 0, 0, 8, 8, 8, 8}},
            {{0, 0, 1, 1, 0, 1, 2, 3}}, {{0, 0, 1, 1, 4, 5, 6, 7}}, {{0, 0, 1, 1, 8, 8, 8, 8}},
        },
    };
    uint16_t *seven = of_ten(7), *eight = of_ten(8), *after = table_of(&twice);
    TOLD(seven, "seven times 64 to the power 10", 2, 7, 28, 554, 7 * (1ull << 60), 7 * (1ull << 60));
    REFUSED(eight, WORDS, 24, 0, "eight times 64 to the power 10");
    REFUSED(after, WORDS, 24, 0, "127 to the power 9, twice after");
    free(seven);
    free(eight);
    free(after);
}

/* 24 comes last: twelve parameters of 1,000 objects, in a circle of two parts and with a pair that no part has. */
static void before_the_bound(void) {
    static const struct task circle = {
        {1000, 2, 1, 4, 0, 0, 0},
        {4, 4},
        {12},
        {{0}},
        {
            {{0, 0, 0, 0, 0, 1, 2, 3}}, {{0, 0, 1, 1, 4, 5, 6, 7}},
            {{0, 1, 0, 1, 8, 9, 10, 11}}, {{0, 1, 1, 0, 8, 9, 10, 11}},
        },
    };
    static const struct task pair = {
        {1000, 1, 1, 3, 0, 0, 1},
        {4},
        {12},
        {{0, 3, 4}},
        {{{0, 0, 0, 0, 0, 1, 2, 3}}, {{0, 0, 0, 1, 4, 5, 6, 7}}, {{0, 0, 0, 1, 8, 9, 10, 11}}},
    };
    uint16_t *circular = table_of(&circle), *apart = table_of(&pair);
    REFUSED(circular, WORDS, 9, 0, "9 comes before 24");
    REFUSED(apart, WORDS, 20, 0, "20 comes before 24");
    apart[WORDS - 1] = 1;
    REFUSED(apart, WORDS, 2, 0, "2 comes before 24");
    free(circular);
    free(apart);
}

/* What is told of a task is what its split and the text of that have. */
static void are_those_of_the_split(const struct task *task, const char *claim) {
    uint64_t place, told[SIZES], bytes = UNWRITTEN;
    uint16_t *table = table_of(task), *split = found_words(WORDS);
    uint8_t *text = lend(TEXT);
    uint32_t answer = splitter_sizes(table, WORDS, &place, told, told + 1, told + 2, told + 3, told + 4, told + 5);
    CHECK_NUMBER(answer, 0, claim);
    CHECK_NUMBER(splitter_split(table, WORDS, split, WORDS, &place), 0, claim);
    CHECK_NUMBER(splitter_write(split, WORDS, text, TEXT, &place, &bytes), 0, claim);
    for (size_t at = 0; at < 3; at++)
        CHECK_NUMBER(told[at], split[1 + at], claim);
    CHECK_NUMBER(told[3], bytes, claim);
    free(table);
    free(split);
    free(text);
}

static void refuses(void) {
    uint16_t *table = table_of(&move), *damaged = damaged_table(), *circular = circular_table();
    uint16_t *apart = apart_table();
    REFUSED(table, WORDS - 1, 1, 0, "a short table");
    REFUSED(table, 0, 1, 0, "no words");
    REFUSED(damaged, WORDS - 1, 1, 0, "1 comes before 2");
    REFUSED(damaged, WORDS, 2, 0, "no table");
    REFUSED(circular, WORDS, 9, 0, "E2");
    REFUSED(crowd(circular), WORDS, 9, 0, "9 comes before 10");
    REFUSED(apart, WORDS, 20, 0, "a pair in no part");
    REFUSED(crowd(apart), WORDS, 20, 0, "20 comes before 10");
    REFUSED(crowd(table), WORDS, 10, 0, "a split of more than 400 predicates");
    free(table);
    free(damaged);
    free(circular);
    free(apart);
}

int main(void) {
    uint16_t *table = table_of(&move), *piers = table_of(&swap), *longer = found_words(WORDS + 3);
    TOLD(table, "M", 7, 3, 22, 358, 27, 21);
    TOLD(piers, "a swap", 8, 2, 22, 383, 256, 320);
    memcpy(longer, table, WORDS * sizeof *table);
    expect(longer, WORDS + 3, 0, 0, (struct sizes){{7, 3, 22, 358, 27, 21}}, "M in more words", __LINE__);
    are_those_of_the_split(&move, "M beside its split");
    are_those_of_the_split(&swap, "a swap beside its split");
    at_the_bound();
    in_all();
    before_the_bound();
    refuses();
    free(table);
    free(piers);
    free(longer);
    return end("sizes");
}
