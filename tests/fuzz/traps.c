#define _GNU_SOURCE
#include "traps.h"

#include <signal.h>
#include <stdint.h>
#include <stdio.h>
#include <stdlib.h>
#include <sys/mman.h>
#include <ucontext.h>
#include <unistd.h>

enum { TRAP = 0xcc, MOST_BYTES = 1 << 17 };

/* The section that tests/fuzz/run gathers the proved code in. */
extern uint8_t __start_proved[], __stop_proved[];

/* Where its instructions begin, as objdump lists them. */
static const uint32_t instructions[] = {
#include "instructions.h"
};

enum { COUNT = sizeof instructions / sizeof *instructions };

static uint8_t original[MOST_BYTES];
/* libFuzzer reads the counters of this section after each input. */
static uint8_t reached[MOST_BYTES] __attribute__((section("__libfuzzer_extra_counters")));
static unsigned reached_count;

static void on_trap(int number, siginfo_t *info, void *context) {
    greg_t *pc = &((ucontext_t *)context)->uc_mcontext.gregs[REG_RIP];
    uint8_t *at = (uint8_t *)*pc - 1;
    (void)number, (void)info;
    if (at < __start_proved || at >= __stop_proved || *at != TRAP)
        abort();
    *at = original[at - __start_proved];
    reached[at - __start_proved] = 1;
    reached_count++;
    *pc = (greg_t)at;
}

static void say_reached(void) {
    fprintf(stderr, "proved code: %u of %u instructions reached\n", reached_count, (unsigned)COUNT);
}

void set_traps(void) {
    struct sigaction action = {.sa_sigaction = on_trap, .sa_flags = SA_SIGINFO | SA_ONSTACK};
    uintptr_t page = (uintptr_t)sysconf(_SC_PAGESIZE), from = (uintptr_t)__start_proved & ~(page - 1);
    size_t bytes = (size_t)(__stop_proved - __start_proved);
    if (bytes > MOST_BYTES || sigaction(SIGTRAP, &action, NULL) != 0
        || mprotect((void *)from, (uintptr_t)__stop_proved - from, PROT_READ | PROT_WRITE | PROT_EXEC) != 0)
        abort();
    for (size_t at = 0; at < COUNT; at++) {
        original[instructions[at]] = __start_proved[instructions[at]];
        __start_proved[instructions[at]] = TRAP;
    }
    atexit(say_reached);
}
