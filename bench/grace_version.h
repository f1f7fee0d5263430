/* The new store, GraceVersion, by hand in C, written to be fast: the damage test leaves at the first fault, reads only the records in use,
   and a record's further words only at the places that need them. Nothing here is proved.
   baseline.c includes it. */
#define NAMED(call) new_##call
#define KIND RAHUVYTE_KIND_NEW
#define LAST RAHUVYTE_LAST_NEW
#define BAD_VERSION(version) (version > LAST)
#define IS_LAST(version) (version == LAST)

static inline bool NAMED(damaged)(const struct store *s, size_t words_len, size_t entries_len)
{
    if (words_len != WORDS || s->kind != KIND)
        return true;
    const uint64_t readers = s->readers, publishers = s->publishers, slots = s->slots;
    if (readers - 1 >= READERS_MAX || publishers - 1 >= PUBLISHERS_MAX || slots - 2 > SLOTS_MAX - 2)
        return true;
    if (entries_len != slots * TABLE || s->current >= slots || BAD_VERSION(s->version))
        return true;
    for (const struct reader *x = s->reader, *end = x + readers; x != end; x++) {
        const uint64_t place = x->place;
        if (place == 5) {
            if (x->picked >= slots)
                return true;
        } else if (place > 5) {
            return true;
        } else if (place & 2) { /* 2 or 3 */
            if (x->published != x->first)
                return true;
        }
    }
    for (const struct publisher *y = s->publisher, *end = y + publishers; y != end; y++) {
        const uint64_t place = y->place;
        if (place == 0)
            continue;
        if (y->held >= slots)
            return true;
        if (place < 35)
            continue;
        if (place == 37) {
            if (y->next >= readers)
                return true;
        } else if (place != 38) {
            if (place != 35 || y->next >= readers)
                return true;
        }
        if (y->mark - 1 >= LAST || y->waits > y->looks)
            return true;
    }
    return false;
}

#include "section_calls.h"

static struct rahuvyte_reply NAMED(enter)(uint64_t *words, size_t words_len, const rahuvyte_pitch *entries, size_t entries_len, uint16_t r)
{
    struct store *s = (struct store *)words;
    (void)entries;
    if (NAMED(damaged)(s, words_len, entries_len))
        return refused(1);
    if (r >= s->readers)
        return refused(10);
    struct reader *x = &s->reader[r];
    switch (x->place) {
    case 0:
        x->first = s->version;
        break;
    case 1:
        x->published = x->first;
        break;
    case 2:
        x->second = s->version;
        break;
    case 3:
        x->published = x->second;
        break;
    case 4:
        x->picked = s->current;
        break;
    default:
        return refused(20);
    }
    return accepted(101, ++x->place, 0);
}

static struct rahuvyte_reply NAMED(leave)(uint64_t *words, size_t words_len, const rahuvyte_pitch *entries, size_t entries_len, uint16_t r)
{
    struct store *s = (struct store *)words;
    (void)entries;
    if (NAMED(damaged)(s, words_len, entries_len))
        return refused(1);
    if (r >= s->readers)
        return refused(10);
    struct reader *x = &s->reader[r];
    if (x->place < 4)
        return refused(20);
    x->place = 0;
    x->published = NOT_READING;
    return accepted(103, 0, 0);
}

static struct rahuvyte_reply NAMED(claim)(uint64_t *words, size_t words_len, const rahuvyte_pitch *entries, size_t entries_len, uint16_t p, uint16_t x)
{
    struct store *s = (struct store *)words;
    (void)entries;
    if (NAMED(damaged)(s, words_len, entries_len))
        return refused(1);
    if (p >= s->publishers)
        return refused(11);
    if (x >= s->slots)
        return refused(12);
    if (s->publisher[p].place != 0)
        return refused(21);
    if (s->current == x)
        return refused(30);
    for (const struct publisher *y = s->publisher, *end = y + s->publishers; y != end; y++)
        if (y->held == x && y->place != 0)
            return refused(30);
    s->publisher[p].place = 1;
    s->publisher[p].held = x;
    return accepted(104, x, 0);
}

static struct rahuvyte_reply NAMED(raise)(uint64_t *words, size_t words_len, const rahuvyte_pitch *entries, size_t entries_len, uint16_t p)
{
    struct store *s = (struct store *)words;
    (void)entries;
    if (NAMED(damaged)(s, words_len, entries_len))
        return refused(1);
    if (p >= s->publishers)
        return refused(11);
    struct publisher *y = &s->publisher[p];
    if (y->place != 35)
        return refused(21);
    y->place = 37;
    if (s->version != y->mark - 1)
        return accepted(109, 0, 0);
    s->version = y->mark;
    return accepted(108, 0, 0);
}

static struct rahuvyte_reply NAMED(walk)(uint64_t *words, size_t words_len, const rahuvyte_pitch *entries, size_t entries_len, uint16_t p, uint16_t b)
{
    struct store *s = (struct store *)words;
    (void)entries;
    if (NAMED(damaged)(s, words_len, entries_len))
        return refused(1);
    if (p >= s->publishers)
        return refused(11);
    struct publisher *y = &s->publisher[p];
    if (y->place != 37)
        return refused(21);
    if (y->looks > UINT64_MAX - b)
        return refused(33);
    const uint64_t mark = y->mark, readers = s->readers, start = y->next, left = readers - start;
    const uint64_t stop = left <= b ? readers : start + b;
    for (uint64_t next = start; next != stop; next++) {
        if (s->reader[next].published < mark) {
            y->next = next;
            y->looks += next - start + 1;
            y->waits++;
            return accepted(110, next, 0);
        }
    }
    y->next = stop;
    y->looks += stop - start;
    if (stop != readers)
        return accepted(111, 0, 0);
    y->place = 38;
    return accepted(113, y->looks, y->waits);
}

#undef NAMED
#undef KIND
#undef LAST
#undef BAD_VERSION
#undef IS_LAST
