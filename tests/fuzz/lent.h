/* Buffers to lend, each in pages of its own between two that may not be touched. The buffer ends where its pages end,
 * or begins where they begin, so that a step past that side is a fault; words on the other side are looked at
 * afterwards. What is lent for reading may not be written meanwhile. */
#ifndef LENT_H
#define LENT_H

#include <stddef.h>
#include <stdint.h>
#include <stdio.h>
#include <stdlib.h>
#include <string.h>
#include <sys/mman.h>

enum { LENT_BYTES = 1 << 18, PAGE = 4096, GUARDED = 256, GUARD = 0xa5, FOUND = 0x5a };

struct lent {
    uint8_t *pages;
    uint8_t *bytes;
    size_t length;
};

/* Ends the run: the fuzzer keeps the input. */
static inline void fail(const char *what) {
    fprintf(stderr, "not so: %s\n", what);
    abort();
}

#ifdef REPLAY
/* Under valgrind a buffer is a block of its own, so that valgrind sees both its sides. */
static inline struct lent pages_to_lend(void) {
    return (struct lent){NULL, NULL, 0};
}

static inline void lend(struct lent *lent, const void *given, size_t length, int at_front) {
    (void)at_front;
    free(lent->bytes);
    lent->length = length;
    if ((lent->bytes = malloc(length > 0 ? length : 1)) == NULL)
        abort();
    if (given != NULL)
        memcpy(lent->bytes, given, length);
    else
        memset(lent->bytes, FOUND, length);
}

static inline void guards_stand(const struct lent *lent) {
    (void)lent;
}

static inline void only_read(const struct lent *lent, int only) {
    (void)lent, (void)only;
}
#else
static inline struct lent pages_to_lend(void) {
    uint8_t *whole = mmap(NULL, LENT_BYTES + 2 * PAGE, PROT_NONE, MAP_PRIVATE | MAP_ANONYMOUS, -1, 0);
    if (whole == MAP_FAILED || mprotect(whole + PAGE, LENT_BYTES, PROT_READ | PROT_WRITE) != 0)
        abort();
    return (struct lent){whole + PAGE, NULL, 0};
}

/* So many bytes at the front or the end of the pages, holding those given, or FOUND where there are none. */
static inline void lend(struct lent *lent, const void *given, size_t length, int at_front) {
    if (length > LENT_BYTES - GUARDED)
        abort();
    lent->length = length;
    lent->bytes = at_front ? lent->pages : lent->pages + LENT_BYTES - length;
    memset(at_front ? lent->bytes + length : lent->bytes - GUARDED, GUARD, GUARDED);
    if (given != NULL)
        memcpy(lent->bytes, given, length);
    else
        memset(lent->bytes, FOUND, length);
}

static inline void guards_stand(const struct lent *lent) {
    const uint8_t *guards = lent->bytes == lent->pages ? lent->bytes + lent->length : lent->bytes - GUARDED;
    for (size_t at = 0; at < GUARDED; at++)
        if (guards[at] != GUARD)
            fail("a word outside what was lent is as it was");
}

/* A buffer lent for reading cannot be written from here on, until it can. */
static inline void only_read(const struct lent *lent, int only) {
    if (mprotect(lent->pages, LENT_BYTES, only ? PROT_READ : PROT_READ | PROT_WRITE) != 0)
        abort();
}
#endif

#endif
