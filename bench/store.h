/* The words of a store as a C structure, a reply's making and the first table: what the kinds by hand share. */
#ifndef STORE_H
#define STORE_H

#include "../include/rahuvyte.h"

#include <stdbool.h>
#include <string.h>

enum {
    WORDS = RAHUVYTE_WORDS,
    TABLE = RAHUVYTE_TABLE,
    READERS_MAX = RAHUVYTE_READERS_MAX,
    PUBLISHERS_MAX = RAHUVYTE_PUBLISHERS_MAX,
    SLOTS_MAX = RAHUVYTE_SLOTS_MAX,
    DEFERRED_MAX = RAHUVYTE_DEFERRED_MAX
};

#define NOT_READING RAHUVYTE_NOT_READING

struct reader {
    uint64_t place, first, second, published, picked;
};

struct publisher {
    uint64_t place, held, mark, next, looks, waits;
};

/* Of a participant of a rest store: its checkpoint's step, and how many of its slots are deferred. */
struct participant {
    uint64_t step, count;
};

struct deferred {
    uint64_t slot, mark;
};

/* The words of a store; every field is one word, so that it lies over them without a gap. */
struct store {
    uint64_t kind, readers, publishers, slots, current, version, releases, indicators[2];
    struct reader reader[READERS_MAX];
    struct publisher publisher[PUBLISHERS_MAX];
    struct participant participant[PUBLISHERS_MAX];
    struct deferred deferred[PUBLISHERS_MAX][DEFERRED_MAX];
};

_Static_assert(sizeof(struct store) == WORDS * sizeof(uint64_t), "one word a number");

static struct rahuvyte_reply refused(uint64_t n)
{
    return (struct rahuvyte_reply){ n, 0, 0 };
}

static struct rahuvyte_reply accepted(uint64_t code, uint64_t first, uint64_t second)
{
    return (struct rahuvyte_reply){ code, first, second };
}

/* How far a pitch is above the lowest one, modulo 2^32: a lower one is far above. */
static inline uint32_t above_low(rahuvyte_pitch v)
{
    return (uint32_t)v - (uint32_t)RAHUVYTE_PITCH_LOW;
}

static inline bool out_of_range(uint32_t above)
{
    return above > RAHUVYTE_PITCH_HIGH - RAHUVYTE_PITCH_LOW;
}

static inline bool steep(uint32_t above, uint32_t next)
{
    return next - above + RAHUVYTE_STEP_MAX > 2 * RAHUVYTE_STEP_MAX;
}

/* Why this cannot be a first table, or 0. One pass, four entries a turn; from a steep pair on only entries out of range are looked for, which are tested before pairs. */
static inline uint64_t table_refusal(const rahuvyte_pitch *table, size_t table_len)
{
    if (table_len != TABLE)
        return 40;
    const rahuvyte_pitch *x = table, *end = table + TABLE;
    for (uint32_t last = above_low(*x); x != end; x += 4) {
        const uint32_t a = above_low(x[0]), b = above_low(x[1]), c = above_low(x[2]), d = above_low(x[3]);
        if (out_of_range(a) || out_of_range(b) || out_of_range(c) || out_of_range(d))
            return 41;
        if (steep(last, a) || steep(a, b) || steep(b, c) || steep(c, d))
            break;
        last = d;
    }
    if (x == end)
        return 0;
    for (; x != end; x++)
        if (out_of_range(above_low(*x)))
            return 41;
    return 42;
}

#endif
