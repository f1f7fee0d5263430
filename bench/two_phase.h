/* The old store, Two-Phase with one publisher, by hand in C, written to be fast: the damage test leaves at the first fault, reads only the records in use,
   and a record's further words only at the places that need them. Nothing here is proved.
   baseline.c includes it. */
#define NAMED(call) old_##call
#define KIND RAHUVYTE_KIND_OLD
/* version and mark run modulo 2^64 */
#define BAD_VERSION(version) false
#define IS_LAST(version) false

static inline bool NAMED(damaged)(const struct store *s, size_t words_len, size_t entries_len)
{
    if (words_len != WORDS || s->kind != KIND)
        return true;
    const uint64_t readers = s->readers, publishers = s->publishers, slots = s->slots;
    if (readers - 1 >= READERS_MAX || publishers - 1 >= PUBLISHERS_MAX || slots - 2 > SLOTS_MAX - 2)
        return true;
    if (entries_len != slots * TABLE || s->current >= slots)
        return true;
    uint64_t count[2] = {0, 0};
    for (const struct reader *x = s->reader, *end = x + readers; x != end; x++) {
        const uint64_t place = x->place;
        if (place == 5) {
            if (x->picked >= slots)
                return true;
        } else if (place < 2)
            continue;
        else if (place != 4)
            return true;
        count[x->first & 1]++;
    }
    if (s->indicators[0] != count[0] || s->indicators[1] != count[1])
        return true;
    for (const struct publisher *y = s->publisher, *end = y + publishers; y != end; y++) {
        const uint64_t place = y->place;
        if (place == 0)
            continue;
        if (y->held >= slots)
            return true;
        if (place < 35)
            continue;
        if (place > 38 || y->waits > y->looks)
            return true;
    }
    return false;
}

#include "section_calls.h"

static struct rahuvyte_reply NAMED(enter)(uint64_t *words, size_t words_len, const rahuvyte_pitch *entries, size_t entries_len, uint16_t r)
{
    struct store *s = (struct store *)words;
    (void)entries;
    if (NAMED(damaged)(s, words_len, entries_len))
        return refused(1);
    if (r >= s->readers)
        return refused(10);
    struct reader *x = &s->reader[r];
    switch (x->place) {
    case 0:
        x->first = s->version;
        x->place = 1;
        return accepted(101, 1, 0);
    case 1:
        s->indicators[x->first & 1]++;
        x->place = 4;
        return accepted(101, 4, 0);
    case 4:
        x->picked = s->current;
        x->place = 5;
        return accepted(101, 5, 0);
    default:
        return refused(20);
    }
}

static struct rahuvyte_reply NAMED(leave)(uint64_t *words, size_t words_len, const rahuvyte_pitch *entries, size_t entries_len, uint16_t r)
{
    struct store *s = (struct store *)words;
    (void)entries;
    if (NAMED(damaged)(s, words_len, entries_len))
        return refused(1);
    if (r >= s->readers)
        return refused(10);
    struct reader *x = &s->reader[r];
    if (x->place < 4)
        return refused(20);
    x->place = 0;
    s->indicators[x->first & 1]--;
    return accepted(103, 0, 0);
}

static struct rahuvyte_reply NAMED(claim)(uint64_t *words, size_t words_len, const rahuvyte_pitch *entries, size_t entries_len, uint16_t p, uint16_t x)
{
    struct store *s = (struct store *)words;
    (void)entries;
    if (NAMED(damaged)(s, words_len, entries_len))
        return refused(1);
    if (p >= s->publishers)
        return refused(11);
    if (x >= s->slots)
        return refused(12);
    if (s->publisher[p].place != 0)
        return refused(21);
    for (uint16_t q = 0; q < s->publishers; q++)
        if (s->publisher[q].place != 0)
            return refused(31);
    if (s->current == x)
        return refused(30);
    s->publisher[p].place = 1;
    s->publisher[p].held = x;
    return accepted(104, x, 0);
}

static struct rahuvyte_reply NAMED(raise)(uint64_t *words, size_t words_len, const rahuvyte_pitch *entries, size_t entries_len, uint16_t p)
{
    struct store *s = (struct store *)words;
    (void)entries;
    if (NAMED(damaged)(s, words_len, entries_len))
        return refused(1);
    if (p >= s->publishers)
        return refused(11);
    struct publisher *y = &s->publisher[p];
    if (y->place != 36)
        return refused(21);
    y->place = 37;
    if (s->version != y->mark - 1)
        return accepted(109, 0, 0);
    s->version = y->mark;
    return accepted(108, 0, 0);
}

static struct rahuvyte_reply NAMED(walk)(uint64_t *words, size_t words_len, const rahuvyte_pitch *entries, size_t entries_len, uint16_t p, uint16_t b)
{
    struct store *s = (struct store *)words;
    (void)entries;
    if (NAMED(damaged)(s, words_len, entries_len))
        return refused(1);
    if (p >= s->publishers)
        return refused(11);
    struct publisher *y = &s->publisher[p];
    const uint64_t place = y->place;
    if (place != 35 && place != 37)
        return refused(21);
    if (y->looks > UINT64_MAX - b)
        return refused(33);
    if (b == 0)
        return accepted(111, 0, 0);
    const uint64_t i = (y->mark ^ (place == 37)) & 1;
    y->looks++;
    if (s->indicators[i] != 0) {
        y->waits++;
        return accepted(110, i, 0);
    }
    if (place == 35) {
        y->place = 36;
        return accepted(112, 0, 0);
    }
    y->place = 38;
    return accepted(113, y->looks, y->waits);
}

#undef NAMED
#undef KIND
#undef BAD_VERSION
#undef IS_LAST
