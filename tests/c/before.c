/* Stores and callers of the releases before. Up to 0.3.0 their stores have 425 words; before 0.3.0 their pitches had 16 bits, and their kinds other numbers.
   A store of 425 words gets 1 from each call, whoever calls. So does a caller compiled with a header of then, which lends 425 words, at making too.
   Lent with the words of today, a store and a making from before 0.3.0 still get 1, for the number of their kind. Nothing is changed, and no byte touched beyond what
   is lent. 0.1.0 packed the same words as 0.2.0.
   With the length of today, and from before 0.3.0 also the kind's number of today, the same is not 1, but accepted or tested further: so it is these that 1 is given for.
   Stores of 0.4.0 and 0.4.1 have the words of today. They go on where they stood, and an old one at the last version of then goes on too. */
#define _DEFAULT_SOURCE

#include "before.h"
#include "calls.h"

enum { READERS = 2, PUBLISHERS = 2, SLOTS = 3, ENTRIES = SLOTS * RAHUVYTE_TABLE };

/* A release whose objects make stores and calls as today's do. */
struct release {
    const char *name;
    const uint16_t *kinds; /* the new and the old one */
    const size_t *words;
    size_t pitch_bytes;
    make_before *make;
    call_before *call;
};

static const struct release releases[] = {
    { "before, 0.3.0", kinds_0_3_0, &words_0_3_0, sizeof(int32_t), make_0_3_0, call_0_3_0 },
    { "before, 0.2.0", kinds_0_2_0, &words_0_2_0, sizeof(int16_t), make_0_2_0, call_0_2_0 },
};

static unsigned tried;
/* What a failure is reported under: the release whose stores and callers are tried. */
static const char *test;

/* ---- Stores as the releases before packed them: docs/LAYOUT.md, the words up to 424 ---- */

struct changed {
    size_t word;
    uint64_t number;
};

/* In the middle of a publication. Reader 0 looks in slot 0; publisher 0 has swapped slot 1 in, synchronised with mark 1, raised the version, and waits for the reader. */
static const struct changed new_publishing[] = {
    { 4, 1 }, { 5, 1 },                                        /* the current slot, the version */
    { 9, 5 }, { 12, 0 },                                       /* reader 0: its place, the version published */
    { 329, 37 }, { 331, 1 }, { 333, 1 }, { 334, 1 },           /* publisher 0: its place, mark, looks, waits */
    { 335, 8 }, { 336, 2 },                                    /* publisher 1 has written 7 pitches into slot 2 */
};
static const struct changed old_publishing[] = {
    { 4, 1 }, { 5, 1 }, { 7, 1 },                              /* the current slot, the version, indicator 0 */
    { 9, 5 },                                                  /* reader 0: its place */
    { 329, 37 }, { 331, 1 }, { 333, 2 }, { 334, 1 },           /* publisher 0: its place, mark, looks, waits */
};

#define CHANGE(words, changes) change_words(words, changes, sizeof(changes) / sizeof((changes)[0]))

static void change_words(uint64_t *words, const struct changed *changes, size_t count)
{
    for (size_t i = 0; i < count; i++)
        words[changes[i].word] = changes[i].number;
}

/* Kind i, made with first version 0, or publishing. Words beyond those of then are left. */
static void pack(const struct release *x, uint64_t *words, int i, int publishing)
{
    memset(words, 0, *x->words * sizeof *words);
    words[0] = x->kinds[i];
    words[1] = READERS;
    words[2] = PUBLISHERS;
    words[3] = SLOTS;
    for (size_t r = 0; r < RAHUVYTE_READERS_MAX; r++)
        words[9 + 5 * r + 3] = UINT64_MAX;
    if (publishing && i == 0)
        CHANGE(words, new_publishing);
    if (publishing && i == 1)
        CHANGE(words, old_publishing);
}

/* ---- What is lent ---- */

/* Arrays as a caller from before lends them, and what they held. */
struct lent_before {
    uint64_t *store;
    size_t store_len, pitch_bytes;
    void *entries, *table;
};

static struct {
    uint64_t store[RAHUVYTE_WORDS];
    unsigned char entries[ENTRIES * sizeof(rahuvyte_pitch)], table[RAHUVYTE_TABLE * sizeof(rahuvyte_pitch)];
} held;

/* Of 16 bits: two pitches, read as one of 32 bits, are a good pitch too. A making that took them so would go on over the end. Of 32 bits: a good first table. */
static void *lend_pitches(size_t len, size_t pitch_bytes, enum edge edge)
{
    void *pitches = lend_bytes(len * pitch_bytes, edge);
    for (size_t i = 0; i < len; i++)
        if (pitch_bytes == sizeof(int16_t))
            ((int16_t *)pitches)[i] = i % 2 == 0 ? 1400 : 0;
        else
            ((int32_t *)pitches)[i] = FIRST_PITCH((int)(i % RAHUVYTE_TABLE));
    return pitches;
}

static struct lent_before lend_before(size_t store_len, size_t pitch_bytes, enum edge edge)
{
    const struct lent_before l = { (uint64_t *)lend_bytes(store_len * sizeof(uint64_t), edge), store_len, pitch_bytes,
                                   lend_pitches(ENTRIES, pitch_bytes, edge), lend_pitches(RAHUVYTE_TABLE, pitch_bytes, edge) };
    return l;
}

static void hold(struct lent_before l)
{
    memcpy(held.store, l.store, l.store_len * sizeof(uint64_t));
    memcpy(held.entries, l.entries, ENTRIES * l.pitch_bytes);
    memcpy(held.table, l.table, RAHUVYTE_TABLE * l.pitch_bytes);
}

static int as_held(struct lent_before l)
{
    return memcmp(held.store, l.store, l.store_len * sizeof(uint64_t)) == 0 && memcmp(held.entries, l.entries, ENTRIES * l.pitch_bytes) == 0
        && memcmp(held.table, l.table, RAHUVYTE_TABLE * l.pitch_bytes) == 0;
}

static struct rahuvyte_reply reply_of(const uint64_t numbers[3])
{
    const struct rahuvyte_reply reply = { numbers[0], numbers[1], numbers[2] };
    return reply;
}

static void expect(const char *call, struct rahuvyte_reply reply, uint64_t code, uint64_t first)
{
    if (!same_reply(reply, code, first, 0))
        report_failure(test, call, reply, code, "");
}

/* 1, and all that was lent is as it was. */
static void expect_damaged(const char *call, const uint64_t numbers[3], struct lent_before l)
{
    expect(call, reply_of(numbers), RAHUVYTE_DAMAGED, 0);
    if (!as_held(l))
        report_failure(test, call, reply_of(numbers), RAHUVYTE_DAMAGED, ", and nothing changed");
    tried++;
}

/* ---- A store from before ---- */

/* Every call of today gets 1, and nothing is changed. */
static void expect_calls_damaged(struct lent l)
{
    static struct copies copies;
    copy_lent(&copies, l);
    for (int w = ENTER; w < ALL_CALLS; w++) {
        const struct rahuvyte_reply reply = make_call(l, (enum word)w, 0, 1);
        expect(names[w], reply, RAHUVYTE_DAMAGED, 0);
        if (!unchanged(&copies, l))
            report_failure(test, names[w], reply, RAHUVYTE_DAMAGED, ", and nothing changed");
        tried++;
    }
}

/* Called by objects of today, with entries of 32 bits: in the words of then, and in front of the others of today, which are 0. */
static void call_from_today(const struct release *x, int i, int publishing)
{
    const struct lent short_store = lend_arrays(*x->words, ENTRIES), l = lend_arrays(RAHUVYTE_WORDS, ENTRIES);
    pack(x, short_store.store, i, publishing);
    expect_calls_damaged(short_store);
    short_store.store[0] = kinds[i];
    expect_calls_damaged(short_store);
    expect("make over it", rahuvyte_make(LENT_TO_MAKING(short_store), kinds[i], READERS, PUBLISHERS, SLOTS, 0), RAHUVYTE_DAMAGED, 0);
    pack(x, l.store, i, publishing);
    if (x->kinds[i] != kinds[i])
        expect_calls_damaged(l);
    l.store[0] = kinds[i];
    expect("enter, with the length and the kind of today,", rahuvyte_enter(LENT(l), 1), RAHUVYTE_AT, RAHUVYTE_PLACE_LOADED);
    pack(x, l.store, i, publishing);
    expect("make over it", rahuvyte_make(LENT_TO_MAKING(l), kinds[i], READERS, PUBLISHERS, SLOTS, 0), RAHUVYTE_MADE, 0);
}

static void call_ten(const struct release *x, struct lent_before l)
{
    uint64_t reply[3];
    hold(l);
    for (int w = ENTER; w < TEN_CALLS; w++) {
        x->call(reply, l.store, l.store_len, l.entries, ENTRIES, (enum word)w, 0, 1);
        expect_damaged(names[w], reply, l);
    }
}

/* Called by objects from then, with the entries of then: with as many words as they know, and with as many as an object of today hands to them. */
static void call_from_before(const struct release *x, int i, int publishing, enum edge edge)
{
    uint64_t reply[3];
    const struct lent_before short_store = lend_before(*x->words, x->pitch_bytes, edge), l = lend_before(RAHUVYTE_WORDS, x->pitch_bytes, edge);
    pack(x, short_store.store, i, publishing);
    call_ten(x, short_store);
    pack(x, l.store, i, publishing);
    if (x->kinds[i] != kinds[i])
        call_ten(x, l);
    l.store[0] = kinds[i];
    x->call(reply, l.store, l.store_len, l.entries, ENTRIES, ENTER, 1, 0);
    expect("enter from before, with the length and the kind of today,", reply_of(reply), RAHUVYTE_AT, RAHUVYTE_PLACE_LOADED);
}

/* ---- A making from before ---- */

/* With as many words as it knows, with the words of today, and with these and today's kind. Then it is given room for pitches of 32 bits, which it fills. */
static void make_from_before(const struct release *x, int i, enum edge edge)
{
    uint64_t reply[3];
    const struct lent_before short_store = lend_before(*x->words, x->pitch_bytes, edge), l = lend_before(RAHUVYTE_WORDS, x->pitch_bytes, edge);
    const struct lent room = lend_arrays(RAHUVYTE_WORDS, ENTRIES);
    hold(short_store);
    x->make(reply, short_store.store, short_store.store_len, short_store.entries, ENTRIES, short_store.table, RAHUVYTE_TABLE, x->kinds[i], READERS, PUBLISHERS, SLOTS, 0);
    expect_damaged("make from before", reply, short_store);
    if (x->kinds[i] != kinds[i]) {
        hold(l);
        x->make(reply, l.store, l.store_len, l.entries, ENTRIES, l.table, RAHUVYTE_TABLE, x->kinds[i], READERS, PUBLISHERS, SLOTS, 0);
        expect_damaged("make from before, with the length of today,", reply, l);
    }
    x->make(reply, LENT(room), room.table, room.table_len, kinds[i], READERS, PUBLISHERS, SLOTS, 0);
    expect("make from before, with the length and the kind of today,", reply_of(reply), RAHUVYTE_MADE, 0);
    if (!has_first_table(room))
        report_failure(test, "make", reply_of(reply), RAHUVYTE_MADE, ", and the first table in every slot");
}

/* Compiled with the header of 0.1.0: its publishers, each number that it may have, arrive as the kind,
   and its kind as the address of a table of as many entries as it has readers. */
static void make_from_0_1_0(size_t store_len, int i, enum edge edge)
{
    static const uint16_t readers[] = { 1, 2, RAHUVYTE_TABLE, RAHUVYTE_READERS_MAX };
    uint64_t reply[3];
    const struct lent_before l = lend_before(store_len, sizeof(int16_t), edge);
    hold(l);
    for (size_t r = 0; r < sizeof readers / sizeof readers[0]; r++)
        for (uint16_t publishers = 1; publishers <= RAHUVYTE_PUBLISHERS_MAX; publishers++) {
            make_0_1_0(reply, l.store, l.store_len, l.entries, ENTRIES, kinds_0_1_0[i], readers[r], publishers, SLOTS, 1);
            expect_damaged("make, compiled with the header of 0.1.0,", reply, l);
        }
    /* Publishers of today's kind number, which 0.1.0 refused: no slots are no readers now. */
    for (int k = 0; k < KINDS && store_len == RAHUVYTE_WORDS; k++) {
        make_0_1_0(reply, l.store, l.store_len, l.entries, ENTRIES, kinds_0_1_0[i], 1, kinds[k], 0, 0);
        expect("make, compiled with the header of 0.1.0 and with today's kind as its publishers,", reply_of(reply), RAHUVYTE_BAD_READERS, 0);
    }
}

static void try_release(const struct release *x)
{
    test = x->name;
    for (int i = 0; i < 2; i++) {
        for (int publishing = 0; publishing < 2; publishing++) {
            call_from_today(x, i, publishing);
            call_from_before(x, i, publishing, AT_BEGIN);
            call_from_before(x, i, publishing, AT_END);
        }
        make_from_before(x, i, AT_BEGIN);
        make_from_before(x, i, AT_END);
    }
}

/* ---- Old stores of 0.4.0 and 0.4.1 ---- */

/* The last version of the old kind then. Publisher 0 has swapped slot 1 in; its SYNC was refused. */
static const struct changed old_at_last[] = {
    { 4, 1 }, { 5, UINT64_MAX / 2 },                           /* the current slot, the version */
    { 329, 34 },                                               /* publisher 0: its place */
};

static void expect_walk(struct lent l, uint64_t code, uint64_t first, uint64_t second)
{
    const struct rahuvyte_reply reply = make_call(l, WALK, 0, 1);
    if (!same_reply(reply, code, first, second))
        report_failure(test, "walk of a store of 0.4.1", reply, code, "");
}

static void go_on_from_0_4_1(void)
{
    const struct lent l = lend_arrays(RAHUVYTE_WORDS, ENTRIES);
    rahuvyte_make(LENT_TO_MAKING(l), RAHUVYTE_KIND_OLD, READERS, PUBLISHERS, SLOTS, 0);
    CHANGE(l.store, old_publishing);
    expect_walk(l, RAHUVYTE_WAITING, 0, 0);
    expect("leave of a store of 0.4.1", make_call(l, LEAVE, 0, 0), RAHUVYTE_LEFT, 0);
    expect_walk(l, RAHUVYTE_RETURNED, 4, 2);
    rahuvyte_make(LENT_TO_MAKING(l), RAHUVYTE_KIND_OLD, READERS, PUBLISHERS, SLOTS, 0);
    CHANGE(l.store, old_at_last);
    expect("sync of a store of 0.4.1 at its last version", make_call(l, SYNC, 0, 0), RAHUVYTE_SYNCED, UINT64_MAX / 2 + 1);
    expect_walk(l, RAHUVYTE_QUIET, 0, 0);
    expect("raise of a store of 0.4.1 at its last version", make_call(l, RAISE, 0, 0), RAHUVYTE_RAISED, 0);
    expect_walk(l, RAHUVYTE_RETURNED, 2, 0);
}

int main(void)
{
    for (size_t i = 0; i < sizeof releases / sizeof releases[0]; i++)
        try_release(&releases[i]);
    test = "before, 0.1.0";
    for (int i = 0; i < 2; i++) {
        make_from_0_1_0(words_0_1_0, i, AT_BEGIN);
        make_from_0_1_0(words_0_1_0, i, AT_END);
        make_from_0_1_0(RAHUVYTE_WORDS, i, AT_BEGIN);
        make_from_0_1_0(RAHUVYTE_WORDS, i, AT_END);
    }
    test = "before, 0.4.1";
    go_on_from_0_4_1();
    printf("before: %u calls and makings with stores or callers of 0.3.0, 0.2.0 and 0.1.0 get 1, nothing changed; old stores of 0.4.1 go on\n", tried);
    return 0;
}
