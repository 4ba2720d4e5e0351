/* Buffers to lend, with marked bytes before and behind them that must stay as they are. */
#ifndef GUARD_H
#define GUARD_H

#include <stddef.h>
#include <stdint.h>
#include <stdio.h>
#include <stdlib.h>
#include <string.h>

enum { GUARD = 128 };

typedef struct {
    uint8_t *whole;
    size_t length;
} guarded;

static inline uint8_t guard_mark(size_t i) {
    return (uint8_t)(i * 37 + 11);
}

/* Bytes of the buffer, behind its first guard. */
static inline uint8_t *lent(guarded g) {
    return g.whole + GUARD;
}

static inline guarded guard_new(size_t length) {
    guarded g = {malloc(length + 2 * GUARD), length};
    if (!g.whole) {
        abort();
    }
    for (size_t i = 0; i < GUARD; i++) {
        g.whole[i] = guard_mark(i);
        g.whole[GUARD + length + i] = guard_mark(i);
    }
    memset(lent(g), 0, length);
    return g;
}

static inline guarded guard_copy(const void *bytes, size_t length) {
    guarded g = guard_new(length);
    if (length > 0) {
        memcpy(lent(g), bytes, length);
    }
    return g;
}

static inline int guard_stands(guarded g) {
    for (size_t i = 0; i < GUARD; i++) {
        if (g.whole[i] != guard_mark(i) || g.whole[GUARD + g.length + i] != guard_mark(i)) {
            return 0;
        }
    }
    return 1;
}

/* Checks the guards and gives the memory back. */
static inline void guard_end(guarded g) {
    if (!guard_stands(g)) {
        fprintf(stderr, "a call wrote outside what it was lent\n");
        abort();
    }
    free(g.whole);
}

/* The same for a buffer that was lent to be read. */
static inline void guard_unchanged(guarded g, const void *bytes) {
    if (g.length > 0 && memcmp(lent(g), bytes, g.length) != 0) {
        fprintf(stderr, "a call wrote to what it was lent to read\n");
        abort();
    }
    guard_end(g);
}

#endif
