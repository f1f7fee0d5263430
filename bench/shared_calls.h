/* Making, LOOK, WRITE and SWAP, which the kinds by hand share: included by each after its NAMED, its KIND, what making asks of it (BAD_PUBLISHERS, BAD_VERSION,
   PUBLISHED) and its damage test. */
static struct rahuvyte_reply NAMED(make)(uint64_t *words, size_t words_len, rahuvyte_pitch *entries, size_t entries_len, const rahuvyte_pitch *table, size_t table_len, uint16_t readers, uint16_t publishers, uint16_t slots, uint64_t version)
{
    struct store *s = (struct store *)words;
    if (words_len != WORDS)
        return refused(1);
    if (readers < 1 || readers > READERS_MAX)
        return refused(2);
    if (BAD_PUBLISHERS(readers, publishers))
        return refused(3);
    if (slots < 2 || slots > SLOTS_MAX)
        return refused(4);
    if (entries_len != (size_t)slots * TABLE)
        return refused(5);
    if (BAD_VERSION(version))
        return refused(6);
    const uint64_t refusal = table_refusal(table, table_len);
    if (refusal != 0)
        return refused(refusal);
    memset(s, 0, sizeof *s);
    s->kind = KIND;
    s->readers = readers;
    s->publishers = publishers;
    s->slots = slots;
    s->version = version;
    for (int r = 0; r < READERS_MAX; r++)
        s->reader[r].published = PUBLISHED(version);
    for (rahuvyte_pitch *slot = entries, *end = entries + entries_len; slot != end; slot += TABLE)
        memcpy(slot, table, TABLE * sizeof *table);
    return accepted(100, 0, 0);
}

static struct rahuvyte_reply NAMED(look)(const uint64_t *words, size_t words_len, const rahuvyte_pitch *entries, size_t entries_len, uint16_t r, uint16_t k)
{
    const struct store *s = (const struct store *)words;
    if (NAMED(damaged)(s, words_len, entries_len))
        return refused(1);
    if (r >= s->readers)
        return refused(10);
    if (k >= TABLE)
        return refused(13);
    const struct reader *x = &s->reader[r];
    if (x->place != 5)
        return refused(20);
    return accepted(102, (uint64_t)entries[x->picked * TABLE + k], 0);
}

static struct rahuvyte_reply NAMED(write)(uint64_t *words, size_t words_len, rahuvyte_pitch *entries, size_t entries_len, uint16_t p, rahuvyte_pitch v)
{
    struct store *s = (struct store *)words;
    if (NAMED(damaged)(s, words_len, entries_len))
        return refused(1);
    if (p >= s->publishers)
        return refused(11);
    if (v < RAHUVYTE_PITCH_LOW || v > RAHUVYTE_PITCH_HIGH)
        return refused(14);
    struct publisher *y = &s->publisher[p];
    const uint64_t place = y->place;
    if (place - 1 >= TABLE)
        return refused(21);
    entries[y->held * TABLE + place - 1] = v;
    y->place = place + 1;
    return accepted(105, place, 0);
}

static struct rahuvyte_reply NAMED(swap)(uint64_t *words, size_t words_len, const rahuvyte_pitch *entries, size_t entries_len, uint16_t p)
{
    struct store *s = (struct store *)words;
    (void)entries;
    if (NAMED(damaged)(s, words_len, entries_len))
        return refused(1);
    if (p >= s->publishers)
        return refused(11);
    struct publisher *y = &s->publisher[p];
    if (y->place != 33)
        return refused(21);
    const uint64_t former = s->current;
    s->current = y->held;
    y->held = former;
    y->place = 34;
    return accepted(106, former, 0);
}
