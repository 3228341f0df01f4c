/* What the C tests share: counted checks, and buffers between guard bytes. */
#ifndef CHECKS_H
#define CHECKS_H

#include <stdint.h>
#include <stdio.h>
#include <string.h>

#define LINE SUDOKU_LINE_BYTES
#define GUARD 32
#define FILLING 0xA6
#define UNSET 0xDEADBEEFDEADBEEFu

static int checks, failures;

#define CHECK(fact)                                                        \
    do {                                                                   \
        checks++;                                                          \
        if (!(fact)) {                                                     \
            failures++;                                                    \
            printf("%s:%d: failed: %s\n", __FILE__, __LINE__, #fact);      \
        }                                                                  \
    } while (0)

/* Buffers between guard bytes. */
#define GUARDED(name, length) \
    static uint8_t name##_all[GUARD + (length) + GUARD]; \
    static uint8_t *const name = name##_all + GUARD

#define FILL(name) memset(name##_all, FILLING, sizeof name##_all)
#define INTACT(name) \
    (all_are(name##_all, GUARD) && all_are(name##_all + sizeof name##_all - GUARD, GUARD))
#define UNTOUCHED(name) all_are(name##_all, sizeof name##_all)

static inline int all_equal(const uint8_t *bytes, size_t count, uint8_t value)
{
    for (size_t i = 0; i < count; i++)
        if (bytes[i] != value)
            return 0;
    return 1;
}

static inline int all_are(const uint8_t *bytes, size_t count)
{
    return all_equal(bytes, count, FILLING);
}

#endif
