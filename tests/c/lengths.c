/* Wrong lengths and unknown kinds: 1 before all else (at making 5 for the entries, 40 for the first table). First tables with a bad entry or a bad step: 41, 42.
   Nothing changed, and no byte touched beyond what is lent. */
#define _DEFAULT_SOURCE

#include "calls.h"

/* The words of a store before 0.4.0. */
enum { WORDS_BEFORE = 425 };

static struct copies before;
static unsigned tried, made;

static void expect_refused(const char *call, struct rahuvyte_reply reply, uint64_t code, struct lent l)
{
    if (!same_reply(reply, code, 0, 0))
        report_failure("lengths", call, reply, code, "");
    if (!unchanged(&before, l))
        report_failure("lengths", call, reply, code, ", and nothing changed");
    tried++;
}

/* All calls, with arguments that would be good and with bad ones, give 1. */
static void expect_calls_damaged(struct lent l)
{
    copy_lent(&before, l);
    for (int w = ENTER; w < ALL_CALLS; w++) {
        expect_refused(names[w], make_call(l, (enum word)w, 0, 1), RAHUVYTE_DAMAGED, l);
        expect_refused(names[w], make_call(l, (enum word)w, UINT16_MAX, INT32_MAX), RAHUVYTE_DAMAGED, l);
    }
}

/* Makings with these lengths and this kind give code; and, if it is 1, also with every size wrong. */
static void expect_making_refused(struct lent l, uint16_t kind, uint64_t code)
{
    copy_lent(&before, l);
    expect_refused("make", rahuvyte_make(LENT_TO_MAKING(l), kind, 2, 2, 3, 0), code, l);
    if (code == RAHUVYTE_DAMAGED)
        expect_refused("make", rahuvyte_make(LENT_TO_MAKING(l), kind, 0, 0, 0, UINT64_MAX), code, l);
}

/* The making is accepted: every slot has the first table, which is as it was. */
static void expect_made(struct lent l, uint16_t kind)
{
    copy_lent(&before, l);
    const struct rahuvyte_reply reply = rahuvyte_make(LENT_TO_MAKING(l), kind, 2, 2, 3, 0);
    if (!same_reply(reply, RAHUVYTE_MADE, 0, 0))
        report_failure("lengths", "make", reply, RAHUVYTE_MADE, "");
    if (!has_first_table(l) || !unchanged_table(&before, l))
        report_failure("lengths", "make", reply, RAHUVYTE_MADE, ", the first table in every slot and unchanged");
    made++;
}

/* A good store in its first words, of a kind with 2 readers, 2 publishers and 3 slots; lent with another length. */
static struct lent make_lent_store(uint16_t kind, size_t store_len, size_t entries_len)
{
    struct lent good = lend_arrays(RAHUVYTE_WORDS, RAHUVYTE_ENTRIES(3)), l = lend_arrays(store_len, entries_len);
    if (rahuvyte_make(LENT_TO_MAKING(good), kind, 2, 2, 3, 0).code != RAHUVYTE_MADE)
        abort();
    if (store_len > 0)
        memcpy(l.store, good.store, (store_len < RAHUVYTE_WORDS ? store_len : RAHUVYTE_WORDS) * sizeof(uint64_t));
    return l;
}

static void try_store_lengths(uint16_t kind)
{
    static const size_t lengths[] = { 0, 1, 4, 9, WORDS_BEFORE, RAHUVYTE_WORDS - 1, RAHUVYTE_WORDS + 1, 2 * RAHUVYTE_WORDS };
    for (size_t i = 0; i < sizeof lengths / sizeof lengths[0]; i++) {
        const struct lent l = make_lent_store(kind, lengths[i], RAHUVYTE_ENTRIES(3));
        expect_calls_damaged(l);
        expect_making_refused(l, kind, RAHUVYTE_DAMAGED);
    }
    const struct lent nothing = make_lent_store(kind, 0, 0);
    expect_calls_damaged(nothing);
    expect_making_refused(nothing, kind, RAHUVYTE_DAMAGED);
}

static void try_entries_lengths(uint16_t kind)
{
    static const size_t lengths[] = { 0, 1, 48, 64, 95, 97, 128, 192, 1024 };
    for (size_t i = 0; i < sizeof lengths / sizeof lengths[0]; i++) {
        const struct lent l = make_lent_store(kind, RAHUVYTE_WORDS, lengths[i]);
        expect_calls_damaged(l);
        expect_making_refused(l, kind, RAHUVYTE_BAD_ENTRIES);
    }
}

/* A store whose word 0 has a number that is no kind, and a making with that number. */
static void try_unknown_kind(uint16_t kind, uint64_t unknown)
{
    const struct lent l = make_lent_store(kind, RAHUVYTE_WORDS, RAHUVYTE_ENTRIES(3));
    l.store[0] = unknown;
    expect_calls_damaged(l);
    if (unknown <= UINT16_MAX)
        expect_making_refused(l, (uint16_t)unknown, RAHUVYTE_DAMAGED);
}

/* Those of the format before (1, 2) and of one to come, numbers beside a kind, and some whose low bits are one. */
static void try_unknown_kinds(uint16_t kind)
{
    static const uint64_t unknown[] = { 0, 1, 2, 3, 16, 20, 21, 33, 34, 35, 255, UINT16_MAX, UINT64_MAX };
    for (size_t i = 0; i < sizeof unknown / sizeof unknown[0]; i++)
        try_unknown_kind(kind, unknown[i]);
    for (int i = 0; i < KINDS; i++) {
        try_unknown_kind(kind, UINT64_C(0x100) + kinds[i]);
        try_unknown_kind(kind, UINT64_C(0x10000) + kinds[i]);
        try_unknown_kind(kind, UINT64_C(0x100000000) + kinds[i]);
    }
}

/* A number of a fresh store that damages it; a second one that lets it count, if it needs one. */
struct damage {
    size_t word;
    uint64_t number;
    size_t with;
    uint64_t with_number;
};

/* In the head, in the first record and in the second: damaged in every kind. */
static const struct damage damages[] = {
    { 1, UINT64_MAX, 0, 0 }, { 2, UINT64_MAX, 0, 0 }, { 3, UINT64_MAX, 0, 0 },   { 4, UINT64_MAX, 0, 0 },
    { 9, UINT64_MAX, 0, 0 }, { 14, UINT64_MAX, 0, 0 }, { 329, UINT64_MAX, 0, 0 }, { 335, UINT64_MAX, 0, 0 },
};

/* Of the rest kind, in the records of both participants: places, steps, counts and deferred slots just out of range. */
static const struct damage rest_damages[] = {
    { 1, 3, 0, 0 },      { 2, 1, 0, 0 },                                 /* readers and publishers that differ */
    { 9, 4, 0, 0 },      { 14, 1, 0, 0 },      { 13, 3, 9, 5 },          /* a reader's place; its pick */
    { 329, 36, 331, 1 }, { 335, 38, 337, 1 },  { 336, 3, 335, 1 },       /* a publisher's place; what it holds */
    { 337, 0, 335, 35 }, { 331, 0, 329, 35 },                            /* a mark of 0 while deferring */
    { 425, 4, 0, 0 },    { 427, UINT64_MAX, 0, 0 },                      /* a step above participants + 1 */
    { 426, 9, 0, 0 },    { 428, UINT64_MAX, 0, 0 },                      /* more than eight deferred */
    { 457, 3, 426, 1 },  { 473, UINT64_MAX, 428, 1 }, { 487, 3, 428, 8 }, /* a deferred slot: the first, and the eighth */
};

static void try_damages(uint16_t kind, const struct damage *x, size_t count)
{
    for (size_t i = 0; i < count; i++) {
        const struct lent l = make_lent_store(kind, RAHUVYTE_WORDS, RAHUVYTE_ENTRIES(3));
        if (x[i].with != 0)
            l.store[x[i].with] = x[i].with_number;
        l.store[x[i].word] = x[i].number;
        expect_calls_damaged(l);
    }
}

static void try_damaged_words(uint16_t kind)
{
    try_damages(kind, damages, sizeof damages / sizeof damages[0]);
    if (kind == RAHUVYTE_KIND_REST)
        try_damages(kind, rest_damages, sizeof rest_damages / sizeof rest_damages[0]);
}

/* Eight deferred while deferring a ninth, and waits above looks there: damaged, since the mark is good. With seven, and with as many looks, they are not. */
static void try_deferring(void)
{
    const struct lent l = make_lent_store(RAHUVYTE_KIND_REST, RAHUVYTE_WORDS, RAHUVYTE_ENTRIES(3));
    l.store[335] = RAHUVYTE_PLACE_DEFERRING;
    l.store[337] = 1;
    l.store[428] = RAHUVYTE_DEFERRED_MAX;
    expect_calls_damaged(l);
    l.store[428] = RAHUVYTE_DEFERRED_MAX - 1;
    l.store[340] = 1;
    expect_calls_damaged(l);
    l.store[339] = 1;
    const struct rahuvyte_reply reply = rahuvyte_defer(LENT(l), 1);
    if (!same_reply(reply, RAHUVYTE_AT, RAHUVYTE_PLACE_IDLE, 0) || l.store[428] != RAHUVYTE_DEFERRED_MAX)
        report_failure("lengths", "defer with seven deferred", reply, RAHUVYTE_AT, ", and eight deferred");
}

/* A first table of so many entries, at an edge of memory. */
static struct lent lend_first(struct lent l, size_t len, enum edge edge)
{
    l.table = lend_table(len, edge);
    l.table_len = len;
    return l;
}

static void try_table_lengths(uint16_t kind)
{
    static const size_t lengths[] = { 0, 1, 31, 33, 64 };
    const struct lent l = make_lent_store(kind, RAHUVYTE_WORDS, RAHUVYTE_ENTRIES(3));
    for (size_t i = 0; i < sizeof lengths / sizeof lengths[0]; i++) {
        expect_making_refused(lend_first(l, lengths[i], AT_BEGIN), kind, RAHUVYTE_BAD_TABLE_LENGTH);
        expect_making_refused(lend_first(l, lengths[i], AT_END), kind, RAHUVYTE_BAD_TABLE_LENGTH);
    }
    /* No entries, at an address that cannot be read. */
    struct lent unreadable = lend_first(l, RAHUVYTE_TABLE, AT_END);
    unreadable.table += RAHUVYTE_TABLE;
    unreadable.table_len = 0;
    expect_making_refused(unreadable, kind, RAHUVYTE_BAD_TABLE_LENGTH);
    expect_made(lend_first(l, RAHUVYTE_TABLE, AT_BEGIN), kind);
    expect_made(lend_first(l, RAHUVYTE_TABLE, AT_END), kind);
}

/* The first table is one pitch up to entry k, and another behind it. */
static void put_step(struct lent l, int k, int v, int behind)
{
    for (int i = 0; i < RAHUVYTE_TABLE; i++)
        l.table[i] = (rahuvyte_pitch)(i <= k ? v : behind);
}

/* One entry out of range, in a table that is flat but for it, and in one whose other neighbours are too far apart. */
static void try_table_pitches(uint16_t kind)
{
    static const int out[] = { RAHUVYTE_PITCH_LOW - 1, RAHUVYTE_PITCH_HIGH + 1, INT32_MIN, INT32_MAX };
    const struct lent l = make_lent_store(kind, RAHUVYTE_WORDS, RAHUVYTE_ENTRIES(3));
    for (int k = 0; k < RAHUVYTE_TABLE; k++)
        for (size_t i = 0; i < sizeof out / sizeof out[0]; i++) {
            const int end = out[i] < 0 ? RAHUVYTE_PITCH_LOW : RAHUVYTE_PITCH_HIGH;
            put_step(l, k, end, end);
            expect_made(l, kind);
            l.table[k] = (rahuvyte_pitch)out[i];
            expect_making_refused(l, kind, RAHUVYTE_BAD_TABLE_PITCH);
            for (int j = 0; j < RAHUVYTE_TABLE; j += 2)
                l.table[j] = RAHUVYTE_PITCH_LOW + RAHUVYTE_PITCH_HIGH - end;
            l.table[k] = (rahuvyte_pitch)out[i];
            expect_making_refused(l, kind, RAHUVYTE_BAD_TABLE_PITCH);
        }
}

/* One step, up and down, between each two neighbours: as far as may be, and one more. The last entry and the first are no neighbours. */
static void try_table_steps(uint16_t kind)
{
    const struct lent l = make_lent_store(kind, RAHUVYTE_WORDS, RAHUVYTE_ENTRIES(3));
    const int far = RAHUVYTE_PITCH_HIGH - RAHUVYTE_PITCH_LOW, low = RAHUVYTE_PITCH_LOW, step = RAHUVYTE_STEP_MAX;
    for (int k = 0; k + 1 < RAHUVYTE_TABLE; k++) {
        put_step(l, k, low, low + step);
        expect_made(l, kind);
        put_step(l, k, low + step, low);
        expect_made(l, kind);
        put_step(l, k, low, low + step + 1);
        expect_making_refused(l, kind, RAHUVYTE_BAD_TABLE_STEP);
        put_step(l, k, low + step + 1, low);
        expect_making_refused(l, kind, RAHUVYTE_BAD_TABLE_STEP);
        put_step(l, k, low, low + far);
        expect_making_refused(l, kind, RAHUVYTE_BAD_TABLE_STEP);
        put_step(l, k, low + far, low);
        expect_making_refused(l, kind, RAHUVYTE_BAD_TABLE_STEP);
    }
}

int main(void)
{
    for (int i = 0; i < KINDS; i++) {
        try_store_lengths(kinds[i]);
        try_entries_lengths(kinds[i]);
        try_unknown_kinds(kinds[i]);
        try_damaged_words(kinds[i]);
        try_table_lengths(kinds[i]);
        try_table_pitches(kinds[i]);
        try_table_steps(kinds[i]);
    }
    try_deferring();
    printf("lengths: %u calls refused, nothing changed; %u first tables made\n", tried, made);
    return 0;
}
