/* The rest store, quiescent-state-based reclamation, by hand in C, written to be fast: the damage test leaves at the first fault, reads only the records in use,
   and a record's further words only at the places that need them. Nothing here is proved.
   baseline.c includes it. */
#define NAMED(call) rest_##call
#define KIND RAHUVYTE_KIND_REST

static inline bool NAMED(damaged)(const struct store *s, size_t words_len, size_t entries_len)
{
    if (words_len != WORDS || s->kind != KIND)
        return true;
    const uint64_t participants = s->readers, slots = s->slots;
    if (participants - 1 >= PUBLISHERS_MAX || s->publishers != participants || slots - 2 > SLOTS_MAX - 2)
        return true;
    if (entries_len != slots * TABLE || s->current >= slots)
        return true;
    /* One pass over the participants takes fewer instructions than one over each region. */
    const struct publisher *y = s->publisher;
    const struct participant *z = s->participant;
    const struct deferred *queue = s->deferred[0];
    for (const struct reader *x = s->reader, *stop = x + participants; x != stop; x++, y++, z++, queue += DEFERRED_MAX) {
        const uint64_t place = y->place, count = z->count;
        if (place != 0) {
            if (y->held >= slots)
                return true;
            if (place > 34 && (place != 35 || y->mark == 0 || y->waits > y->looks || count == DEFERRED_MAX))
                return true;
        }
        if (x->place != 0 && (x->place != 5 || x->picked >= slots))
            return true;
        if (z->step > participants + 1)
            return true;
        if (count == 0)
            continue;
        if (count > DEFERRED_MAX)
            return true;
        for (uint64_t i = count; i != 0; i--)
            if (queue[i - 1].slot >= slots)
                return true;
    }
    return false;
}

#define BAD_PUBLISHERS(readers, publishers) (publishers != readers || publishers > PUBLISHERS_MAX)
#define BAD_VERSION(version) false
#define PUBLISHED(version) version

#include "shared_calls.h"

#undef BAD_PUBLISHERS
#undef BAD_VERSION
#undef PUBLISHED

static struct rahuvyte_reply NAMED(pick)(uint64_t *words, size_t words_len, const rahuvyte_pitch *entries, size_t entries_len, uint16_t r)
{
    struct store *s = (struct store *)words;
    (void)entries;
    if (NAMED(damaged)(s, words_len, entries_len))
        return refused(1);
    if (r >= s->readers)
        return refused(10);
    if (s->participant[r].step != 0 || s->publisher[r].place == 35)
        return refused(20);
    struct reader *x = &s->reader[r];
    x->place = 5;
    x->picked = s->current;
    return accepted(115, x->picked, 0);
}

/* The deferred slots whose mark is above the least observed epoch stay, in their order. */
static inline uint64_t NAMED(staying)(struct deferred *queue, uint64_t count, uint64_t least)
{
    struct deferred *stay = queue;
    for (const struct deferred *d = queue, *end = queue + count; d != end; d++)
        if (d->mark > least)
            *stay++ = *d;
    return (uint64_t)(stay - queue);
}

static struct rahuvyte_reply NAMED(checkpoint)(uint64_t *words, size_t words_len, const rahuvyte_pitch *entries, size_t entries_len, uint16_t r)
{
    struct store *s = (struct store *)words;
    (void)entries;
    if (NAMED(damaged)(s, words_len, entries_len))
        return refused(1);
    if (r >= s->readers)
        return refused(10);
    if (s->publisher[r].place == 35)
        return refused(20);
    struct reader *x = &s->reader[r];
    struct participant *z = &s->participant[r];
    const uint64_t step = ++z->step;
    if (step > 2) {
        const uint64_t observed = s->reader[step - 3].published;
        if (step == 3 || observed < x->second)
            x->second = observed;
        if (step == s->readers + 2) {
            z->step = 0;
            if (z->count != 0)
                z->count = NAMED(staying)(s->deferred[r], z->count, x->second);
        }
    } else if (step == 2) {
        x->published = x->first;
    } else {
        x->place = 0;
        x->first = s->version;
    }
    return accepted(101, step, 0);
}

static struct rahuvyte_reply NAMED(claim)(uint64_t *words, size_t words_len, const rahuvyte_pitch *entries, size_t entries_len, uint16_t p, uint16_t x)
{
    struct store *s = (struct store *)words;
    (void)entries;
    if (NAMED(damaged)(s, words_len, entries_len))
        return refused(1);
    if (p >= s->publishers)
        return refused(11);
    if (x >= s->slots)
        return refused(12);
    if (s->publisher[p].place != 0)
        return refused(21);
    if (s->current == x)
        return refused(30);
    const struct participant *z = s->participant;
    const struct deferred *queue = s->deferred[0];
    for (const struct publisher *y = s->publisher, *end = y + s->publishers; y != end; y++, z++, queue += DEFERRED_MAX) {
        if (y->held == x && y->place != 0)
            return refused(30);
        for (uint64_t i = z->count; i != 0; i--)
            if (queue[i - 1].slot == x)
                return refused(30);
    }
    s->publisher[p].place = 1;
    s->publisher[p].held = x;
    return accepted(104, x, 0);
}

static struct rahuvyte_reply NAMED(defer)(uint64_t *words, size_t words_len, const rahuvyte_pitch *entries, size_t entries_len, uint16_t p)
{
    struct store *s = (struct store *)words;
    (void)entries;
    if (NAMED(damaged)(s, words_len, entries_len))
        return refused(1);
    if (p >= s->publishers)
        return refused(11);
    struct reader *x = &s->reader[p];
    struct publisher *y = &s->publisher[p];
    struct participant *z = &s->participant[p];
    const uint64_t place = y->place;
    if (z->step != 0)
        return refused(21);
    if (place == 34) {
        if (s->version == RAHUVYTE_LAST_REST)
            return refused(43);
        if (z->count == DEFERRED_MAX)
            return refused(44);
        x->place = 0;
        y->mark = ++s->version;
        y->place = 35;
        return accepted(101, 35, 0);
    }
    if (place != 35)
        return refused(21);
    x->published = y->mark;
    s->deferred[p][z->count++] = (struct deferred){ y->held, y->mark };
    y->place = 0;
    return accepted(101, 0, 0);
}

#undef NAMED
#undef KIND
