/* Feeds the programs `split`, `unfold`, `pddl` and `propose` as processes, and compares what they print with what the
 * reference prints.
 *
 * An input's first byte chooses the program. `split` and `pddl` have the rest on their standard input; for `unfold` the
 * rest is the task, up to its end line, and then the plan; for `propose` it is a line of arguments, each ended by a
 * byte 0, and then its standard input. The folder of the programs is the variable PROGRAMS, and they run in the folder
 * FOLDER. */
#define _GNU_SOURCE
#include <errno.h>
#include <fcntl.h>
#include <spawn.h>
#include <stdint.h>
#include <stdio.h>
#include <stdlib.h>
#include <string.h>
#include <sys/wait.h>
#include <unistd.h>

enum { MOST_PRINTED = 1 << 20, MOST_ARGUMENTS = 4 };

enum program { SPLIT, UNFOLD, PDDL, PROPOSE, COUNT };
static const char *const names[COUNT] = {"split", "unfold", "pddl", "propose"};

uint32_t reference_prints(uint32_t program, const uint8_t *task, size_t task_len, const uint8_t *other,
                          size_t other_len, const uint8_t *printed, size_t printed_len);

static char programs[COUNT][4096];
static uint8_t printed[MOST_PRINTED];

static void fail(const char *what) {
    fprintf(stderr, "not so: %s\n", what);
    abort();
}

static void save(const char *name, const uint8_t *bytes, size_t length) {
    int file = open(name, O_CREAT | O_TRUNC | O_WRONLY, 0600);
    if (file < 0 || write(file, bytes, length) != (ssize_t)length)
        fail("a file can be written");
    close(file);
}

/* Runs a program with arguments, of which it is the first itself, and the file `input` as its standard input; how many
 * bytes it printed. */
static size_t run(char **arguments) {
    char *program = arguments[0], *environment[] = {NULL};
    posix_spawn_file_actions_t actions;
    int ends[2], status;
    size_t length = 0;
    pid_t child;
    if (pipe2(ends, O_CLOEXEC) != 0)
        fail("there is a pipe");
    posix_spawn_file_actions_init(&actions);
    posix_spawn_file_actions_addopen(&actions, 0, "input", O_RDONLY, 0);
    posix_spawn_file_actions_adddup2(&actions, ends[1], 1);
    posix_spawn_file_actions_adddup2(&actions, ends[1], 2);
    if (posix_spawn(&child, program, &actions, NULL, arguments, environment) != 0)
        fail("the program starts");
    posix_spawn_file_actions_destroy(&actions);
    close(ends[1]);
    /* the fuzzer's own clock interrupts both calls */
    for (ssize_t got; (got = read(ends[0], printed + length, sizeof printed - length)) != 0;) {
        if (got < 0 && errno != EINTR)
            fail("what the program prints can be read");
        length += got > 0 ? (size_t)got : 0;
    }
    close(ends[0]);
    while (waitpid(child, &status, 0) != child)
        if (errno != EINTR)
            fail("the program ends");
    if (!WIFEXITED(status) || WEXITSTATUS(status) != 0)
        fail("the program ends with status 0");
    return length;
}

int LLVMFuzzerInitialize(int *count, char ***arguments) {
    const char *folder = getenv("PROGRAMS"), *own = getenv("FOLDER");
    (void)count, (void)arguments;
    if (folder == NULL || own == NULL || chdir(own) != 0)
        fail("PROGRAMS and FOLDER are folders");
    for (size_t each = 0; each < COUNT; each++)
        snprintf(programs[each], sizeof *programs, "%s/%s", folder, names[each]);
    save("input", NULL, 0);
    return 0;
}

/* Where the first line of some bytes ends, byte 10 included; their end where none does. */
static const uint8_t *behind_line(const uint8_t *bytes, size_t length) {
    const uint8_t *end = memchr(bytes, '\n', length);
    return end == NULL ? bytes + length : end + 1;
}

/* Puts the arguments that lie in some bytes behind a program; how many of the bytes they have. */
static size_t find_arguments(const uint8_t *bytes, size_t length, char **arguments) {
    size_t taken = 0;
    for (size_t each = 1; each <= MOST_ARGUMENTS; each++) {
        const uint8_t *end = memchr(bytes + taken, 0, length - taken);
        if (end == NULL)
            break;
        arguments[each] = (char *)bytes + taken;
        taken = (size_t)(end - bytes) + 1;
    }
    return taken;
}

int LLVMFuzzerTestOneInput(const uint8_t *data, size_t size) {
    static const char end[] = "\nend=1\n";
    if (size == 0)
        return 0;
    enum program program = data[0] % COUNT;
    char *arguments[MOST_ARGUMENTS + 2] = {programs[program]};
    const uint8_t *task = data + 1, *other = NULL;
    size_t length = size - 1, other_length = 0;
    if (program == UNFOLD) {
        const uint8_t *at = memmem(task, length, end, sizeof end - 1);
        other = at == NULL ? task + length : at + sizeof end - 1;
        other_length = (size_t)(task + length - other);
        length -= other_length;
        save("task", task, length);
        save("plan", other, other_length);
    } else {
        if (program == PROPOSE) {
            other = task;
            task = behind_line(other, length);
            length -= (size_t)(task - other);
            other_length = find_arguments(other, (size_t)(task - other), arguments);
        }
        save("input", task, length);
    }
    size_t told = run(arguments);
    if (reference_prints(program, task, length, other, other_length, printed, told) != 1)
        fail("the program prints what the reference prints");
    return 0;
}
