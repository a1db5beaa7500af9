/* Reading and writing, as text and as PDDL: M and the swap both ways, every refusal, and what is left in each
 * buffer. */
#include "checks.h"

/* Reads a text into words that hold FOUND; requires the answer, and gives the words. */
static uint16_t *expect_read(const void *text, size_t bytes, size_t words, uint32_t number, uint64_t line_read,
                             const char *claim, int line) {
    uint64_t place = UNWRITTEN;
    uint16_t *table = found_words(words);
    uint8_t *lent = memcpy(lend(bytes), text, bytes);
    check_number(splitter_read(lent, bytes, table, words, &place), number, claim, line);
    check_number(place, line_read, claim, line);
    check_bytes(lent, text, bytes, claim, line);
    free(lent);
    return table;
}

/* The same, where the table must be all 0. */
static void expect_refused(const char *text, uint32_t number, uint64_t line_read, int line) {
    uint16_t *table = expect_read(text, strlen(text), SPLITTER_TABLE_WORDS + 1, number, line_read, text, line);
    uint16_t *zeros = found_words(SPLITTER_TABLE_WORDS + 1);
    memset(zeros, 0, SPLITTER_TABLE_WORDS * sizeof *zeros);
    check_bytes(table, zeros, (SPLITTER_TABLE_WORDS + 1) * sizeof *zeros, text, line);
    free(table);
    free(zeros);
}

#define REFUSED(text, number, line_read) expect_refused((text), (number), (line_read), __LINE__)

/* A text of so many lines, whose table is given. */
static void reads(const uint8_t *text, size_t bytes, uint64_t lines, const uint16_t *table) {
    uint16_t *read = expect_read(text, bytes, SPLITTER_TABLE_WORDS, 0, 0, "a task", __LINE__);
    CHECK_WORDS(read, table, SPLITTER_TABLE_WORDS, "the task's table");
    free(read);

    read = expect_read(text, bytes, SPLITTER_TABLE_WORDS + 2, 0, 0, "a task into more words", __LINE__);
    CHECK_WORDS(read, table, SPLITTER_TABLE_WORDS, "the task's table");
    CHECK(read[SPLITTER_TABLE_WORDS] == FOUND && read[SPLITTER_TABLE_WORDS + 1] == FOUND, "words behind the table");
    free(read);

    read = expect_read(text, bytes, SPLITTER_TABLE_WORDS - 1, 1, 0, "a short table", __LINE__);
    uint16_t *found = found_words(SPLITTER_TABLE_WORDS - 1);
    CHECK_WORDS(read, found, SPLITTER_TABLE_WORDS - 1, "a short table is left as found");
    free(read);
    free(found);

    read = expect_read(text, bytes - 1, SPLITTER_TABLE_WORDS, 3, lines, "a task without its last byte", __LINE__);
    CHECK(read[0] == 0, "a refused table is 0");
    free(read);
}

static void refuses_texts(void) {
    REFUSED("", 3, 1);
    REFUSED("task=2\n", 3, 1);
    REFUSED("task=1\nobjects=01\n", 3, 2);
    REFUSED("task=1\r\n", 3, 1);
    REFUSED("task=1\nobjects=1\narity=0\nend=1\nend=1\n", 3, 5);
    REFUSED("task=1\nobjects=0\n", 4, 2);
    REFUSED("task=1\nobjects=1001\n", 4, 2);
    REFUSED("task=1\nobjects=1\narity=5\n", 4, 3);
    REFUSED("task=1\nobjects=1\narity=0\nschema=13\n", 4, 4);
    REFUSED("task=1\nobjects=1\narity=0\ninit=1:\n", 5, 4);
    REFUSED("task=1\nobjects=1\narity=1\ninit=0:\n", 5, 4);
    REFUSED("task=1\nobjects=1\narity=1\ninit=0:1\n", 5, 4);
    REFUSED("task=1\nobjects=2\narity=1\ninit=0:1\ninit=0:0\n", 6, 5);
    REFUSED("task=1\nobjects=1\narity=0\nschema=0\npre=0:\npre=0:\n", 6, 6);
    REFUSED("task=1\nobjects=1\narity=0\nschema=0\npart=\n", 7, 5);
    REFUSED("task=1\nobjects=1\narity=0\nschema=1\npre=0:\npart=9\n", 7, 6);
    REFUSED("task=1\nobjects=1\narity=0\nschema=0\npre=0:\npart=\n", 8, 6);
    REFUSED("task=1\nobjects=1\narity=0\nschema=0\npre=0:\npart=1\n", 8, 6);
    REFUSED("task=1\nobjects=1\narity=0\nschema=0\npre=0:\npart=16\n", 8, 6);
    REFUSED("task=1\nobjects=1\narity=0\ndiffer=0,1\n", 3, 4);
    REFUSED("task=1\nobjects=1\narity=0\nschema=2\ndiffer=2\n", 3, 5);
    REFUSED("task=1\nobjects=1\narity=0\nschema=2\ndiffer=0,1,2\n", 3, 5);
    REFUSED("task=1\nobjects=1\narity=0\nschema=2\npre=0:\ndiffer=0,1\n", 3, 6);
    REFUSED("task=1\nobjects=1\narity=0\nschema=2\ndiffer=0,2\n", 19, 5);
    REFUSED("task=1\nobjects=1\narity=0\nschema=2\ndiffer=1,0\n", 19, 5);
    REFUSED("task=1\nobjects=1\narity=0\nschema=2\ndiffer=1,1\n", 19, 5);
    REFUSED("task=1\nobjects=1\narity=0\nschema=2\ndiffer=0,1\ndiffer=0,1\n", 19, 6);
}

/* Three schemas with all 66 pairs of 12 parameters, then a fourth: the 201st line is its third, at line 220, and is
 * refused by 21 though its pair doesn't ascend. */
static void refuses_too_many_pairs(void) {
    char *text = lend(1 << 14), *end = text + sprintf(text, "task=1\nobjects=1\narity=4\n");
    for (int schema = 0; schema < 3; schema++) {
        end += sprintf(end, "schema=12\n");
        for (int lower = 0; lower < 12; lower++)
            for (int higher = lower + 1; higher < 12; higher++)
                end += sprintf(end, "differ=%d,%d\n", lower, higher);
        end += sprintf(end, "pre=0:0,1,2,3\npre=0:4,5,6,7\npre=0:8,9,10,11\npart=0,0,0\n");
    }
    end += sprintf(end, "schema=12\ndiffer=0,1\ndiffer=0,2\n");
    REFUSED(text, 3, 220);
    sprintf(end, "differ=0,2\n");
    REFUSED(text, 21, 220);
    free(text);
}

/* An arity line that ends behind byte 65,536: the programs cut there, the reader reads on to its end. */
static void reads_long_texts(void) {
    static const char beginning[] = "task=1\nobjects=1\narity=0";
    enum { NUMBERS = 33000, BYTES = sizeof beginning - 1 + 2 * NUMBERS + 1 };
    char *text = lend(BYTES), *end = text + sizeof beginning - 1;
    memcpy(text, beginning, sizeof beginning - 1);
    for (size_t at = 0; at < NUMBERS; at++, end += 2)
        memcpy(end, ",0", 2);
    *end = '\n';
    free(expect_read(text, BYTES, SPLITTER_TABLE_WORDS, 4, 3, "33,001 arities", __LINE__));
    free(text);
}

/* A function that writes a table's task. */
struct writer {
    uint32_t (*write)(const uint16_t *, size_t, uint8_t *, size_t, uint64_t *, uint64_t *);
    uint32_t too_long;
};

static const struct writer as_text = {splitter_write, 11}, as_pddl = {splitter_write_pddl, 18};

/* Writes into bytes that hold FOUND; requires the answer, and this text at their front. */
static void expect_written(const struct writer *writer, const uint16_t *table, size_t words, size_t lent,
                           uint32_t number, const uint8_t *text, size_t bytes, const char *claim, int line) {
    uint64_t place = UNWRITTEN, written = UNWRITTEN;
    uint16_t *read = copy(table, words);
    uint8_t *out = memset(lend(lent), FOUND, lent), *left = memset(lend(lent), FOUND, lent);
    memcpy(left, text, bytes);
    check_number(writer->write(read, words, out, lent, &place, &written), number, claim, line);
    check_number(place, 0, claim, line);
    check_number(written, bytes, claim, line);
    check_bytes(out, left, lent, claim, line);
    check_bytes(read, table, words * sizeof *table, claim, line);
    free(read);
    free(out);
    free(left);
}

#define WRITTEN(writer, table, words, lent, number, text, bytes, claim) \
    expect_written((writer), (table), (words), (lent), (number), (text), (bytes), (claim), __LINE__)

static void writes(const struct writer *writer, const uint8_t *text, size_t bytes, const uint16_t *table) {
    const size_t words = SPLITTER_TABLE_WORDS;
    WRITTEN(writer, table, words, bytes, 0, text, bytes, "a task into just enough");
    WRITTEN(writer, table, words, bytes + 9, 0, text, bytes, "a task into more");
    WRITTEN(writer, table, words, bytes - 1, writer->too_long, text, 0, "a task into one byte too few");
    WRITTEN(writer, table, words, 0, writer->too_long, text, 0, "a task into nothing");
    WRITTEN(writer, table, words - 1, bytes, 1, text, 0, "a short table");
    uint16_t *damaged = damaged_table();
    WRITTEN(writer, damaged, words, bytes, 2, text, 0, "no table");
    WRITTEN(writer, damaged, words, 0, 2, text, 0, "no table, into nothing");
    free(damaged);
}

/* Parts are not written, so no order needs to comply. */
static void writes_circular_move_as_pddl(void) {
    size_t bytes;
    uint8_t *pddl = file(MOVE_PDDL_FILE, &bytes);
    uint16_t *circular = circular_table();
    WRITTEN(&as_pddl, circular, SPLITTER_TABLE_WORDS, bytes, 0, pddl, bytes, "M with other parts");
    free(pddl);
    free(circular);
}

/* A task of so many lines, with its table, its text and its PDDL. */
static void both_ways(const struct task *task, uint64_t lines, const char *text_file, const char *pddl_file) {
    size_t bytes, pddl_bytes;
    uint8_t *text = file(text_file, &bytes), *pddl = file(pddl_file, &pddl_bytes);
    uint16_t *table = table_of(task);
    reads(text, bytes, lines, table);
    writes(&as_text, text, bytes, table);
    writes(&as_pddl, pddl, pddl_bytes, table);
    free(text);
    free(pddl);
    free(table);
}

int main(void) {
    both_ways(&move, 17, MOVE_FILE, MOVE_PDDL_FILE);
    both_ways(&swap, 19, SWAP_FILE, SWAP_PDDL_FILE);
    refuses_texts();
    refuses_too_many_pairs();
    reads_long_texts();
    writes_circular_move_as_pddl();
    return end("read_write");
}
