/* SYNC and RELEASE, which the kinds with sections share, and what making asks of them: included by each after its NAMED, its KIND, its BAD_VERSION, its IS_LAST and its damage test. */
#define BAD_PUBLISHERS(readers, publishers) (publishers < 1 || publishers > PUBLISHERS_MAX)
#define PUBLISHED(version) NOT_READING

#include "shared_calls.h"

#undef BAD_PUBLISHERS
#undef PUBLISHED

static struct rahuvyte_reply NAMED(sync)(uint64_t *words, size_t words_len, const rahuvyte_pitch *entries, size_t entries_len, uint16_t p)
{
    struct store *s = (struct store *)words;
    (void)entries;
    if (NAMED(damaged)(s, words_len, entries_len))
        return refused(1);
    if (p >= s->publishers)
        return refused(11);
    struct publisher *y = &s->publisher[p];
    if (y->place != 34)
        return refused(21);
    if (IS_LAST(s->version))
        return refused(32);
    y->place = 35;
    y->mark = s->version + 1;
    y->next = y->looks = y->waits = 0;
    return accepted(107, y->mark, 0);
}

static struct rahuvyte_reply NAMED(release)(uint64_t *words, size_t words_len, const rahuvyte_pitch *entries, size_t entries_len, uint16_t p)
{
    struct store *s = (struct store *)words;
    (void)entries;
    if (NAMED(damaged)(s, words_len, entries_len))
        return refused(1);
    if (p >= s->publishers)
        return refused(11);
    struct publisher *y = &s->publisher[p];
    if (y->place != 38)
        return refused(21);
    y->place = 0;
    return accepted(114, y->held, ++s->releases);
}
