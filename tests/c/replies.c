/* Every reply and every refusal of each call, by lists of calls with their replies, on each kind. A call that the kind lacks gets 1.
   A refused call changes nothing. Numbers that a kind does not use may be any, and stay. The arrays end where memory ends. */
#define _DEFAULT_SOURCE

#include "calls.h"

/* A call and its reply. */
struct line {
    enum word word;
    uint16_t first;
    int second;
    uint64_t code, value, other;
};

enum { MAKE = ALL_CALLS, CODES = RAHUVYTE_PICKED + 1 };

/* Which codes each call has replied on the kind that is tried, making behind the others; and which any call has on any kind. */
static int seen[ALL_CALLS + 1][CODES], ever[CODES];
static unsigned played;
static struct copies before;

static void expect(int word, const char *call, struct lent l, struct rahuvyte_reply reply, uint64_t code, uint64_t value, uint64_t other)
{
    if (!same_reply(reply, code, value, other))
        report_failure("replies", call, reply, code, "");
    if (!rahuvyte_accepted(reply) && !unchanged(&before, l))
        report_failure("replies", call, reply, code, ", and nothing changed");
    seen[word][code] = ever[code] = 1;
    played++;
}

static void play(struct lent l, struct line x)
{
    copy_lent(&before, l);
    expect(x.word, names[x.word], l, make_call(l, x.word, x.first, x.second), x.code, x.value, x.other);
}

static void play_all(struct lent l, const struct line *lines, size_t count)
{
    for (size_t i = 0; i < count; i++)
        play(l, lines[i]);
}

#define PLAY(l, lines) play_all(l, lines, sizeof(lines) / sizeof((lines)[0]))

static void make(struct lent l, uint16_t kind, uint16_t readers, uint16_t publishers, uint16_t slots, uint64_t version, uint64_t code)
{
    copy_lent(&before, l);
    const struct rahuvyte_reply reply = rahuvyte_make(LENT_TO_MAKING(l), kind, readers, publishers, slots, version);
    expect(MAKE, "make", l, reply, code, 0, 0);
    if (code == RAHUVYTE_MADE && !(has_first_table(l) && unchanged_table(&before, l)))
        report_failure("replies", "make", reply, code, ", the first table in every slot and unchanged");
}

/* Entry k of the tables that are written, by their step. */
#define WRITTEN_PITCH(k, step) (RAHUVYTE_PITCH_LOW + (k) * (step))

/* CLAIM, 32 WRITEs, SWAP. */
static void swap_in(struct lent l, uint16_t p, uint16_t slot, int step, uint64_t former)
{
    const struct line claim = { CLAIM, p, slot, RAHUVYTE_CLAIMED, slot, 0 }, swap = { SWAP, p, 0, RAHUVYTE_SWAPPED, former, 0 };
    play(l, claim);
    for (int k = 0; k < RAHUVYTE_TABLE; k++) {
        const struct line write = { WRITE, p, WRITTEN_PITCH(k, step), RAHUVYTE_WRITTEN, (uint64_t)k + 1, 0 };
        play(l, write);
    }
    play(l, swap);
}

/* Versions above the greatest, if the kind has any: refused before the first table is looked at. */
static void try_version(struct lent l, uint16_t kind, uint64_t greatest)
{
    if (greatest != UINT64_MAX)
        make(l, kind, 1, 1, 3, greatest + 1, RAHUVYTE_BAD_VERSION);
}

/* First tables: each refusal alone, and the order of two at once. */
static void try_tables(struct lent l, uint16_t kind, uint64_t greatest)
{
    struct lent none = l, fewer = l;
    none.table = NULL;
    none.table_len = 0;
    fewer.table = lend_table(RAHUVYTE_TABLE, AT_END);
    fewer.table_len = RAHUVYTE_TABLE - 1;
    fewer.table[1] = RAHUVYTE_PITCH_HIGH + 1;
    try_version(none, kind, greatest);
    make(none, kind, 1, 1, 3, greatest, RAHUVYTE_BAD_TABLE_LENGTH);
    make(fewer, kind, 1, 1, 3, 0, RAHUVYTE_BAD_TABLE_LENGTH);
    l.table = lend_table(RAHUVYTE_TABLE, AT_END);
    l.table[1] = (rahuvyte_pitch)(l.table[0] - RAHUVYTE_STEP_MAX - 1);
    try_version(l, kind, greatest);
    make(l, kind, 1, 1, 3, 0, RAHUVYTE_BAD_TABLE_STEP);
    l.table[31] = RAHUVYTE_PITCH_LOW - 1;
    make(l, kind, 1, 1, 3, 0, RAHUVYTE_BAD_TABLE_PITCH);
    make(l, kind, 1, 1, 2, 0, RAHUVYTE_BAD_ENTRIES);
}

/* A rest store with as many readers as publishers, tested after the readers' own range and before the slots. */
static void try_participants(struct lent l, struct lent most)
{
    make(l, RAHUVYTE_KIND_REST, 65, 65, 1, 0, RAHUVYTE_BAD_READERS);
    make(l, RAHUVYTE_KIND_REST, 0, 1, 1, 0, RAHUVYTE_BAD_READERS);
    make(l, RAHUVYTE_KIND_REST, 17, 17, 1, 0, RAHUVYTE_BAD_PUBLISHERS);
    make(l, RAHUVYTE_KIND_REST, 64, 16, 1, 0, RAHUVYTE_BAD_PUBLISHERS);
    make(l, RAHUVYTE_KIND_REST, 3, 2, 1, 0, RAHUVYTE_BAD_PUBLISHERS);
    make(l, RAHUVYTE_KIND_REST, 2, 3, 1, 0, RAHUVYTE_BAD_PUBLISHERS);
    make(l, RAHUVYTE_KIND_REST, 16, 16, 1, 0, RAHUVYTE_BAD_SLOTS);
    make(most, RAHUVYTE_KIND_REST, 16, 16, 32, UINT64_MAX, RAHUVYTE_MADE);
}

/* Making: each refusal alone, the order of two at once, the ends of each range. */
static void try_makings(uint16_t kind, uint64_t greatest)
{
    const struct lent l = lend_arrays(RAHUVYTE_WORDS, RAHUVYTE_ENTRIES(3)), least = lend_arrays(RAHUVYTE_WORDS, RAHUVYTE_ENTRIES(2)),
                      most = lend_arrays(RAHUVYTE_WORDS, RAHUVYTE_ENTRIES(32)), more = lend_arrays(RAHUVYTE_WORDS, RAHUVYTE_ENTRIES(32) + 1);
    make(l, 3, 0, 0, 0, 0, RAHUVYTE_DAMAGED);
    make(l, kind, 0, 0, 3, 0, RAHUVYTE_BAD_READERS);
    make(l, kind, 65, 1, 3, 0, RAHUVYTE_BAD_READERS);
    make(l, kind, 1, 0, 1, 0, RAHUVYTE_BAD_PUBLISHERS);
    make(l, kind, 1, 17, 3, 0, RAHUVYTE_BAD_PUBLISHERS);
    make(l, kind, 1, 1, 1, 0, RAHUVYTE_BAD_SLOTS);
    make(l, kind, 1, 1, 33, 0, RAHUVYTE_BAD_SLOTS);
    make(l, kind, 1, 1, 2, UINT64_MAX, RAHUVYTE_BAD_ENTRIES);
    make(more, kind, 1, 1, 32, 0, RAHUVYTE_BAD_ENTRIES);
    try_version(l, kind, greatest);
    try_tables(l, kind, greatest);
    make(least, kind, 1, 1, 2, greatest, RAHUVYTE_MADE);
    if (kind == RAHUVYTE_KIND_REST)
        try_participants(l, most);
    else
        make(most, kind, 64, 16, 32, 0, RAHUVYTE_MADE);
}

/* Calls of every kind: names and second arguments, before turns, on a fresh store with 2 readers, 2 publishers, 3 slots. */
static const struct line names_refused[] = {
    { LOOK, 2, 32, RAHUVYTE_NO_SUCH_READER, 0, 0 },
    { LOOK, 1, 32, RAHUVYTE_NO_SUCH_ENTRY, 0, 0 },       { LOOK, 1, 31, RAHUVYTE_READER_TURN, 0, 0 },
    { CLAIM, 2, 3, RAHUVYTE_NO_SUCH_PUBLISHER, 0, 0 },   { CLAIM, 1, 3, RAHUVYTE_NO_SUCH_SLOT, 0, 0 },
    { CLAIM, 1, 0, RAHUVYTE_SLOT_IN_USE, 0, 0 },         { WRITE, 2, RAHUVYTE_PITCH_HIGH + 1, RAHUVYTE_NO_SUCH_PUBLISHER, 0, 0 },
    { WRITE, 1, RAHUVYTE_PITCH_HIGH + 1, RAHUVYTE_BAD_PITCH, 0, 0 }, { WRITE, 1, RAHUVYTE_PITCH_LOW - 1, RAHUVYTE_BAD_PITCH, 0, 0 },
    { WRITE, 1, INT32_MAX, RAHUVYTE_BAD_PITCH, 0, 0 },   { WRITE, 1, INT32_MIN, RAHUVYTE_BAD_PITCH, 0, 0 },
    { WRITE, 1, RAHUVYTE_PITCH_HIGH, RAHUVYTE_PUBLISHER_TURN, 0, 0 }, { WRITE, 1, RAHUVYTE_PITCH_LOW, RAHUVYTE_PUBLISHER_TURN, 0, 0 },
    { SWAP, 2, 0, RAHUVYTE_NO_SUCH_PUBLISHER, 0, 0 },    { SWAP, 1, 0, RAHUVYTE_PUBLISHER_TURN, 0, 0 },
};

/* The same of the calls that only kinds with sections have, and of those that they lack. */
static const struct line section_names_refused[] = {
    { ENTER, 2, 0, RAHUVYTE_NO_SUCH_READER, 0, 0 },
    { LEAVE, 2, 0, RAHUVYTE_NO_SUCH_READER, 0, 0 },      { LEAVE, 1, 0, RAHUVYTE_READER_TURN, 0, 0 },
    { SYNC, 2, 0, RAHUVYTE_NO_SUCH_PUBLISHER, 0, 0 },
    { SYNC, 1, 0, RAHUVYTE_PUBLISHER_TURN, 0, 0 },       { RAISE, 2, 0, RAHUVYTE_NO_SUCH_PUBLISHER, 0, 0 },
    { RAISE, 1, 0, RAHUVYTE_PUBLISHER_TURN, 0, 0 },      { WALK, 2, 1, RAHUVYTE_NO_SUCH_PUBLISHER, 0, 0 },
    { WALK, 1, 1, RAHUVYTE_PUBLISHER_TURN, 0, 0 },       { RELEASE, 2, 0, RAHUVYTE_NO_SUCH_PUBLISHER, 0, 0 },
    { RELEASE, 1, 0, RAHUVYTE_PUBLISHER_TURN, 0, 0 },
    { PICK, 0, 0, RAHUVYTE_DAMAGED, 0, 0 },              { PICK, 2, 0, RAHUVYTE_DAMAGED, 0, 0 },
    { CHECKPOINT, 0, 0, RAHUVYTE_DAMAGED, 0, 0 },        { CHECKPOINT, 2, 0, RAHUVYTE_DAMAGED, 0, 0 },
    { DEFER, 0, 0, RAHUVYTE_DAMAGED, 0, 0 },             { DEFER, 2, 0, RAHUVYTE_DAMAGED, 0, 0 },
};

/* And of the rest kind. */
static const struct line rest_names_refused[] = {
    { PICK, 2, 0, RAHUVYTE_NO_SUCH_READER, 0, 0 },       { CHECKPOINT, 2, 0, RAHUVYTE_NO_SUCH_READER, 0, 0 },
    { DEFER, 2, 0, RAHUVYTE_NO_SUCH_PUBLISHER, 0, 0 },   { DEFER, 1, 0, RAHUVYTE_PUBLISHER_TURN, 0, 0 },
    { ENTER, 0, 0, RAHUVYTE_DAMAGED, 0, 0 },             { ENTER, 2, 0, RAHUVYTE_DAMAGED, 0, 0 },
    { LEAVE, 0, 0, RAHUVYTE_DAMAGED, 0, 0 },             { LEAVE, 2, 0, RAHUVYTE_DAMAGED, 0, 0 },
    { SYNC, 0, 0, RAHUVYTE_DAMAGED, 0, 0 },              { SYNC, 2, 0, RAHUVYTE_DAMAGED, 0, 0 },
    { RAISE, 0, 0, RAHUVYTE_DAMAGED, 0, 0 },             { RAISE, 2, 0, RAHUVYTE_DAMAGED, 0, 0 },
    { WALK, 0, 1, RAHUVYTE_DAMAGED, 0, 0 },              { WALK, 2, 0, RAHUVYTE_DAMAGED, 0, 0 },
    { RELEASE, 0, 0, RAHUVYTE_DAMAGED, 0, 0 },           { RELEASE, 2, 0, RAHUVYTE_DAMAGED, 0, 0 },
};

/* ---- Numbers that a kind does not use ---- */

/* docs/LAYOUT.md: of a store with 2 readers and 2 publishers, whether the kind neither tests nor writes the word. */
static int unused(uint16_t kind, size_t word)
{
    const int rest = kind == RAHUVYTE_KIND_REST;
    if (word < 9) /* the head: releases, indicators */
        return (word == 6 && rest) || (word > 6 && kind != RAHUVYTE_KIND_OLD);
    if (word < 329)
        return word >= 9 + 2 * 5;
    if (word < 425) /* of the first two publishers next, in the rest kind */
        return word >= 329 + 2 * 6 || (rest && (word - 329) % 6 == 3);
    if (word < 457) /* steps and counts */
        return !rest || word >= 425 + 2 * 2;
    return !rest || word >= 457 + 2 * 16;
}

static uint64_t any_number(size_t word)
{
    return UINT64_C(0x9e3779b97f4a7c15) * (word + 1);
}

static void fill_unused(struct lent l, uint16_t kind)
{
    for (size_t word = 0; word < l.store_len; word++)
        if (unused(kind, word))
            l.store[word] = any_number(word);
}

static void expect_unused(struct lent l, uint16_t kind)
{
    for (size_t word = 0; word < l.store_len; word++)
        if (unused(kind, word) && l.store[word] != any_number(word)) {
            fprintf(stderr, "replies: a call on a store of kind %u has written word %u, which the kind does not use\n", kind, (unsigned)word);
            exit(1);
        }
}

/* A fresh store with 2 readers, 2 publishers, 3 slots, made over other numbers; and any numbers where the kind uses none. */
static struct lent make_for_lists(uint16_t kind)
{
    const struct lent l = lend_arrays(RAHUVYTE_WORDS, RAHUVYTE_ENTRIES(3));
    memset(l.store, 0xa5, RAHUVYTE_WORDS * sizeof(uint64_t));
    make(l, kind, 2, 2, 3, 0, RAHUVYTE_MADE);
    for (size_t word = 425; word < RAHUVYTE_WORDS; word++)
        if (l.store[word] != 0) {
            fprintf(stderr, "replies: word %u of a fresh store is not 0\n", (unsigned)word);
            exit(1);
        }
    fill_unused(l, kind);
    return l;
}

/* ---- Lists ---- */

/* The new store: reader 0 goes in on the first table; two publishers share one raise and wait for it. */
static const struct line new_enters[] = {
    { ENTER, 0, 0, RAHUVYTE_AT, RAHUVYTE_PLACE_LOADED, 0 }, { ENTER, 0, 0, RAHUVYTE_AT, RAHUVYTE_PLACE_PUBLISHED, 0 },
    { ENTER, 0, 0, RAHUVYTE_AT, RAHUVYTE_PLACE_LOADED_AGAIN, 0 }, { LEAVE, 0, 0, RAHUVYTE_READER_TURN, 0, 0 },
    { ENTER, 0, 0, RAHUVYTE_AT, RAHUVYTE_PLACE_OPEN, 0 }, { LOOK, 0, 0, RAHUVYTE_READER_TURN, 0, 0 },
    { ENTER, 0, 0, RAHUVYTE_AT, RAHUVYTE_PLACE_PICKED, 0 }, { ENTER, 0, 0, RAHUVYTE_READER_TURN, 0, 0 },
    { LOOK, 0, 31, RAHUVYTE_PITCH, FIRST_PITCH(31), 0 },
};
static const struct line new_waits[] = {
    { SYNC, 0, 0, RAHUVYTE_SYNCED, 1, 0 },       { SYNC, 1, 0, RAHUVYTE_SYNCED, 1, 0 },    { WALK, 0, 9, RAHUVYTE_PUBLISHER_TURN, 0, 0 },
    { RAISE, 1, 0, RAHUVYTE_RAISED, 0, 0 },      { RAISE, 0, 0, RAHUVYTE_SHARED, 0, 0 },   { WALK, 0, 0, RAHUVYTE_SPENT, 0, 0 },
    { WALK, 0, 9, RAHUVYTE_WAITING, 0, 0 },      { RELEASE, 0, 0, RAHUVYTE_PUBLISHER_TURN, 0, 0 }, { CLAIM, 0, 0, RAHUVYTE_PUBLISHER_TURN, 0, 0 },
    { LOOK, 0, 0, RAHUVYTE_PITCH, FIRST_PITCH(0), 0 },     { LEAVE, 0, 0, RAHUVYTE_LEFT, 0, 0 },     { WALK, 0, 1, RAHUVYTE_SPENT, 0, 0 },
    { WALK, 0, 9, RAHUVYTE_RETURNED, 3, 1 },     { WALK, 1, 65535, RAHUVYTE_RETURNED, 2, 0 }, { RELEASE, 1, 0, RAHUVYTE_FREED, 1, 1 },
    { RELEASE, 0, 0, RAHUVYTE_FREED, 0, 2 },
};
static const struct line new_looks[] = {
    { ENTER, 1, 0, RAHUVYTE_AT, RAHUVYTE_PLACE_LOADED, 0 }, { ENTER, 1, 0, RAHUVYTE_AT, RAHUVYTE_PLACE_PUBLISHED, 0 },
    { ENTER, 1, 0, RAHUVYTE_AT, RAHUVYTE_PLACE_LOADED_AGAIN, 0 }, { ENTER, 1, 0, RAHUVYTE_AT, RAHUVYTE_PLACE_OPEN, 0 },
    { ENTER, 1, 0, RAHUVYTE_AT, RAHUVYTE_PLACE_PICKED, 0 }, { LOOK, 1, 0, RAHUVYTE_PITCH, UINT64_MAX - 4999, 0 },
    { LOOK, 1, 31, RAHUVYTE_PITCH, WRITTEN_PITCH(31, 3001), 0 }, { LEAVE, 1, 0, RAHUVYTE_LEFT, 0, 0 },
};

static void play_new_lists(void)
{
    const struct lent l = make_for_lists(RAHUVYTE_KIND_NEW);
    PLAY(l, names_refused);
    PLAY(l, section_names_refused);
    PLAY(l, new_enters);
    swap_in(l, 0, 1, 1001, 0);
    swap_in(l, 1, 2, 3001, 1);
    PLAY(l, new_waits);
    PLAY(l, new_looks);
    expect_unused(l, RAHUVYTE_KIND_NEW);
}

/* The old store: reader 0 goes in on the first table; the other publisher is refused until the end. */
static const struct line old_enters[] = {
    { ENTER, 0, 0, RAHUVYTE_AT, RAHUVYTE_PLACE_LOADED, 0 }, { LEAVE, 0, 0, RAHUVYTE_READER_TURN, 0, 0 },
    { ENTER, 0, 0, RAHUVYTE_AT, RAHUVYTE_PLACE_OPEN, 0 }, { ENTER, 0, 0, RAHUVYTE_AT, RAHUVYTE_PLACE_PICKED, 0 },
    { ENTER, 0, 0, RAHUVYTE_READER_TURN, 0, 0 }, { LOOK, 0, 31, RAHUVYTE_PITCH, FIRST_PITCH(31), 0 },
};
static const struct line old_waits[] = {
    { CLAIM, 1, 0, RAHUVYTE_BUSY, 0, 0 },    { CLAIM, 1, 1, RAHUVYTE_BUSY, 0, 0 },    { CLAIM, 0, 2, RAHUVYTE_PUBLISHER_TURN, 0, 0 },
    { SYNC, 0, 0, RAHUVYTE_SYNCED, 1, 0 },
    { RAISE, 0, 0, RAHUVYTE_PUBLISHER_TURN, 0, 0 }, { WALK, 0, 0, RAHUVYTE_SPENT, 0, 0 }, { WALK, 0, 9, RAHUVYTE_QUIET, 0, 0 },
    { WALK, 0, 9, RAHUVYTE_PUBLISHER_TURN, 0, 0 }, { RAISE, 0, 0, RAHUVYTE_RAISED, 0, 0 }, { WALK, 0, 9, RAHUVYTE_WAITING, 0, 0 },
    { LOOK, 0, 0, RAHUVYTE_PITCH, FIRST_PITCH(0), 0 }, { CLAIM, 1, 2, RAHUVYTE_BUSY, 0, 0 },    { LEAVE, 0, 0, RAHUVYTE_LEFT, 0, 0 },
    { WALK, 0, 9, RAHUVYTE_RETURNED, 3, 1 }, { RELEASE, 0, 0, RAHUVYTE_FREED, 0, 1 }, { CLAIM, 1, 1, RAHUVYTE_SLOT_IN_USE, 0, 0 },
};
static const struct line old_looks[] = {
    { ENTER, 1, 0, RAHUVYTE_AT, RAHUVYTE_PLACE_LOADED, 0 }, { ENTER, 1, 0, RAHUVYTE_AT, RAHUVYTE_PLACE_OPEN, 0 },
    { ENTER, 1, 0, RAHUVYTE_AT, RAHUVYTE_PLACE_PICKED, 0 }, { LOOK, 1, 0, RAHUVYTE_PITCH, UINT64_MAX - 4999, 0 },
    { LOOK, 1, 31, RAHUVYTE_PITCH, WRITTEN_PITCH(31, 1001), 0 }, { LEAVE, 1, 0, RAHUVYTE_LEFT, 0, 0 },
};

static void play_old_lists(void)
{
    const struct lent l = make_for_lists(RAHUVYTE_KIND_OLD);
    PLAY(l, names_refused);
    PLAY(l, section_names_refused);
    PLAY(l, old_enters);
    swap_in(l, 0, 1, 1001, 0);
    PLAY(l, old_waits);
    PLAY(l, old_looks);
    expect_unused(l, RAHUVYTE_KIND_OLD);
}

/* The rest store: both participants pick the first table; participant 0 publishes, and its former slot is freed once participant 1 has been at rest. */
static const struct line rest_picks[] = {
    { PICK, 0, 0, RAHUVYTE_PICKED, 0, 0 },                  { LOOK, 0, 31, RAHUVYTE_PITCH, FIRST_PITCH(31), 0 },
    { PICK, 1, 0, RAHUVYTE_PICKED, 0, 0 },                  { PICK, 0, 0, RAHUVYTE_PICKED, 0, 0 },
};
static const struct line rest_defers[] = {
    { LOOK, 0, 0, RAHUVYTE_PITCH, FIRST_PITCH(0), 0 },      { CLAIM, 0, 2, RAHUVYTE_PUBLISHER_TURN, 0, 0 },
    { DEFER, 1, 0, RAHUVYTE_PUBLISHER_TURN, 0, 0 },         { CLAIM, 1, 0, RAHUVYTE_SLOT_IN_USE, 0, 0 },
    { DEFER, 0, 0, RAHUVYTE_AT, RAHUVYTE_PLACE_DEFERRING, 0 }, { LOOK, 0, 0, RAHUVYTE_READER_TURN, 0, 0 },
    { PICK, 0, 0, RAHUVYTE_READER_TURN, 0, 0 },             { CHECKPOINT, 0, 0, RAHUVYTE_READER_TURN, 0, 0 },
    { CLAIM, 0, 2, RAHUVYTE_PUBLISHER_TURN, 0, 0 },         { WRITE, 0, 0, RAHUVYTE_PUBLISHER_TURN, 0, 0 },
    { SWAP, 0, 0, RAHUVYTE_PUBLISHER_TURN, 0, 0 },          { CLAIM, 1, 0, RAHUVYTE_SLOT_IN_USE, 0, 0 },
    { DEFER, 0, 0, RAHUVYTE_AT, RAHUVYTE_PLACE_IDLE, 0 },   { DEFER, 0, 0, RAHUVYTE_PUBLISHER_TURN, 0, 0 },
    { CLAIM, 0, 0, RAHUVYTE_SLOT_IN_USE, 0, 0 },            { CLAIM, 1, 0, RAHUVYTE_SLOT_IN_USE, 0, 0 },
    { LOOK, 1, 31, RAHUVYTE_PITCH, FIRST_PITCH(31), 0 },    { PICK, 0, 0, RAHUVYTE_PICKED, 1, 0 },
    { LOOK, 0, 0, RAHUVYTE_PITCH, UINT64_MAX - 4999, 0 },   { LOOK, 0, 31, RAHUVYTE_PITCH, WRITTEN_PITCH(31, 1001), 0 },
};
/* Participant 0's first checkpoint finds 1 not at rest; its second frees slot 0. */
static const struct line rest_checkpoints[] = {
    { CHECKPOINT, 0, 0, RAHUVYTE_AT, 1, 0 },                { PICK, 0, 0, RAHUVYTE_READER_TURN, 0, 0 },
    { LOOK, 0, 0, RAHUVYTE_READER_TURN, 0, 0 },             { DEFER, 0, 0, RAHUVYTE_PUBLISHER_TURN, 0, 0 },
    { CHECKPOINT, 0, 0, RAHUVYTE_AT, 2, 0 },                { CHECKPOINT, 0, 0, RAHUVYTE_AT, 3, 0 },
    { PICK, 0, 0, RAHUVYTE_READER_TURN, 0, 0 },             { CHECKPOINT, 0, 0, RAHUVYTE_AT, RAHUVYTE_CHECKPOINT_STEPS(2), 0 },
    { CLAIM, 1, 0, RAHUVYTE_SLOT_IN_USE, 0, 0 },            { LOOK, 1, 0, RAHUVYTE_PITCH, FIRST_PITCH(0), 0 },
    { CHECKPOINT, 1, 0, RAHUVYTE_AT, 1, 0 },                { LOOK, 1, 0, RAHUVYTE_READER_TURN, 0, 0 },
    { CHECKPOINT, 1, 0, RAHUVYTE_AT, 2, 0 },                { CLAIM, 1, 0, RAHUVYTE_SLOT_IN_USE, 0, 0 },
    { CHECKPOINT, 0, 0, RAHUVYTE_AT, 1, 0 },                { CHECKPOINT, 0, 0, RAHUVYTE_AT, 2, 0 },
    { CHECKPOINT, 0, 0, RAHUVYTE_AT, 3, 0 },                { CLAIM, 1, 0, RAHUVYTE_SLOT_IN_USE, 0, 0 },
    { CHECKPOINT, 0, 0, RAHUVYTE_AT, 4, 0 },                { CLAIM, 1, 1, RAHUVYTE_SLOT_IN_USE, 0, 0 },
};
/* Participant 1 publishes inside its checkpoint, and has to end that before it defers. */
static const struct line rest_inside[] = {
    { DEFER, 1, 0, RAHUVYTE_PUBLISHER_TURN, 0, 0 },         { CHECKPOINT, 1, 0, RAHUVYTE_AT, 3, 0 },
    { DEFER, 1, 0, RAHUVYTE_PUBLISHER_TURN, 0, 0 },         { CHECKPOINT, 1, 0, RAHUVYTE_AT, 4, 0 },
    { PICK, 1, 0, RAHUVYTE_PICKED, 0, 0 },                  { LOOK, 1, 31, RAHUVYTE_PITCH, WRITTEN_PITCH(31, 3001), 0 },
    { DEFER, 1, 0, RAHUVYTE_AT, RAHUVYTE_PLACE_DEFERRING, 0 }, { DEFER, 1, 0, RAHUVYTE_AT, RAHUVYTE_PLACE_IDLE, 0 },
};

/* What is observed is the epoch that was loaded, though another DEFER has raised it between: slot 0 stays deferred, and so it does if it was read too early. */
static const struct line rest_loads[] = { { PICK, 0, 0, RAHUVYTE_PICKED, 0, 0 }, { CHECKPOINT, 0, 0, RAHUVYTE_AT, 1, 0 } };
static const struct line rest_raises[] = {
    { DEFER, 1, 0, RAHUVYTE_AT, RAHUVYTE_PLACE_DEFERRING, 0 }, { DEFER, 1, 0, RAHUVYTE_AT, RAHUVYTE_PLACE_IDLE, 0 },
    { CHECKPOINT, 0, 0, RAHUVYTE_AT, 2, 0 }, { CHECKPOINT, 1, 0, RAHUVYTE_AT, 1, 0 }, { CHECKPOINT, 1, 0, RAHUVYTE_AT, 2, 0 },
    { CHECKPOINT, 1, 0, RAHUVYTE_AT, 3, 0 }, { CHECKPOINT, 0, 0, RAHUVYTE_AT, 3, 0 }, { CHECKPOINT, 0, 0, RAHUVYTE_AT, 4, 0 },
    { CHECKPOINT, 0, 0, RAHUVYTE_AT, 1, 0 }, { CHECKPOINT, 0, 0, RAHUVYTE_AT, 2, 0 }, { CHECKPOINT, 1, 0, RAHUVYTE_AT, 4, 0 },
    { CLAIM, 1, 0, RAHUVYTE_SLOT_IN_USE, 0, 0 }, { CHECKPOINT, 1, 0, RAHUVYTE_AT, 1, 0 }, { CHECKPOINT, 1, 0, RAHUVYTE_AT, 2, 0 },
    { CHECKPOINT, 1, 0, RAHUVYTE_AT, 3, 0 }, { CHECKPOINT, 1, 0, RAHUVYTE_AT, 4, 0 }, { CLAIM, 1, 0, RAHUVYTE_CLAIMED, 0, 0 },
};

static void play_between(void)
{
    const struct lent l = make_for_lists(RAHUVYTE_KIND_REST);
    PLAY(l, rest_loads);
    swap_in(l, 1, 1, 1001, 0);
    PLAY(l, rest_raises);
}

static void play_rest_lists(void)
{
    const struct lent l = make_for_lists(RAHUVYTE_KIND_REST);
    PLAY(l, names_refused);
    PLAY(l, rest_names_refused);
    PLAY(l, rest_picks);
    swap_in(l, 0, 1, 1001, 0);
    PLAY(l, rest_defers);
    PLAY(l, rest_checkpoints);
    swap_in(l, 1, 0, 3001, 1);
    PLAY(l, rest_inside);
    expect_unused(l, RAHUVYTE_KIND_REST);
}

/* ---- Last numbers ---- */

/* Participant p publishes into the slot, and defers the former one. */
static void publish_and_defer(struct lent l, uint16_t p, uint16_t slot, uint64_t former)
{
    static const uint64_t places[2] = { RAHUVYTE_PLACE_DEFERRING, RAHUVYTE_PLACE_IDLE };
    swap_in(l, p, slot, 1001, former);
    for (int i = 0; i < 2; i++) {
        const struct line defer = { DEFER, p, 0, RAHUVYTE_AT, places[i], 0 };
        play(l, defer);
    }
}

/* Participant 0 of two has deferred slots 0 to 7, holds slot 8 and may not defer it. */
static struct lent defer_eight(uint64_t first_version)
{
    static const struct line ninth[] = {
        { PICK, 0, 0, RAHUVYTE_PICKED, 9, 0 }, { DEFER, 0, 0, RAHUVYTE_TOO_MANY_DEFERRED, 0, 0 }, { LOOK, 0, 0, RAHUVYTE_PITCH, UINT64_MAX - 4999, 0 },
    };
    const struct lent l = lend_arrays(RAHUVYTE_WORDS, RAHUVYTE_ENTRIES(12));
    make(l, RAHUVYTE_KIND_REST, 2, 2, 12, first_version, RAHUVYTE_MADE);
    for (uint16_t i = 0; i < RAHUVYTE_DEFERRED_MAX; i++)
        publish_and_defer(l, 0, (uint16_t)(i + 1), i);
    swap_in(l, 0, 9, 1001, 8);
    PLAY(l, ninth);
    return l;
}

/* A whole checkpoint of one of two participants. */
static void make_checkpoint(struct lent l, uint16_t r)
{
    for (uint64_t step = 1; step <= RAHUVYTE_CHECKPOINT_STEPS(2); step++) {
        const struct line checkpoint = { CHECKPOINT, r, 0, RAHUVYTE_AT, step, 0 };
        play(l, checkpoint);
    }
}

/* 44 until all have been at rest; then the ninth is deferred. The turn is tested before. */
static void reach_eight_deferred(void)
{
    static const struct line inside[] = { { CHECKPOINT, 0, 0, RAHUVYTE_AT, 1, 0 }, { DEFER, 0, 0, RAHUVYTE_PUBLISHER_TURN, 0, 0 } };
    static const struct line rest_of_it[] = {
        { CHECKPOINT, 0, 0, RAHUVYTE_AT, 2, 0 }, { CHECKPOINT, 0, 0, RAHUVYTE_AT, 3, 0 }, { CHECKPOINT, 0, 0, RAHUVYTE_AT, 4, 0 },
        { DEFER, 0, 0, RAHUVYTE_TOO_MANY_DEFERRED, 0, 0 },
    };
    static const struct line freed[] = {
        { CLAIM, 1, 8, RAHUVYTE_SLOT_IN_USE, 0, 0 }, { DEFER, 0, 0, RAHUVYTE_AT, RAHUVYTE_PLACE_DEFERRING, 0 },
        { DEFER, 0, 0, RAHUVYTE_AT, RAHUVYTE_PLACE_IDLE, 0 }, { CLAIM, 1, 8, RAHUVYTE_SLOT_IN_USE, 0, 0 }, { CLAIM, 0, 0, RAHUVYTE_CLAIMED, 0, 0 },
        { CLAIM, 1, 7, RAHUVYTE_CLAIMED, 7, 0 },
    };
    const struct lent l = defer_eight(0);
    PLAY(l, inside);
    PLAY(l, rest_of_it);
    make_checkpoint(l, 1);
    make_checkpoint(l, 0);
    PLAY(l, freed);
}

/* 43 at the last epoch, and before 44; one epoch before it 44 alone. The turn is tested before both. */
static void reach_last_epoch(void)
{
    static const struct line at_last[] = {
        { PICK, 0, 0, RAHUVYTE_PICKED, 1, 0 }, { DEFER, 0, 0, RAHUVYTE_EPOCH_IS_LAST, 0, 0 }, { LOOK, 0, 0, RAHUVYTE_PITCH, UINT64_MAX - 4999, 0 },
        { CHECKPOINT, 0, 0, RAHUVYTE_AT, 1, 0 }, { DEFER, 0, 0, RAHUVYTE_PUBLISHER_TURN, 0, 0 },
    };
    static const struct line eight_at_last[] = {
        { DEFER, 0, 0, RAHUVYTE_EPOCH_IS_LAST, 0, 0 }, { CHECKPOINT, 0, 0, RAHUVYTE_AT, 1, 0 }, { DEFER, 0, 0, RAHUVYTE_PUBLISHER_TURN, 0, 0 },
        { CHECKPOINT, 0, 0, RAHUVYTE_AT, 2, 0 }, { CHECKPOINT, 0, 0, RAHUVYTE_AT, 3, 0 }, { CHECKPOINT, 0, 0, RAHUVYTE_AT, 4, 0 },
        { CLAIM, 1, 0, RAHUVYTE_CLAIMED, 0, 0 }, { DEFER, 0, 0, RAHUVYTE_EPOCH_IS_LAST, 0, 0 },
    };
    const struct lent last = lend_arrays(RAHUVYTE_WORDS, RAHUVYTE_ENTRIES(3));
    make(last, RAHUVYTE_KIND_REST, 1, 1, 3, RAHUVYTE_LAST_REST, RAHUVYTE_MADE);
    swap_in(last, 0, 1, 1001, 0);
    PLAY(last, at_last);
    const struct lent l = defer_eight(RAHUVYTE_LAST_REST - 1 - RAHUVYTE_DEFERRED_MAX);
    publish_and_defer(l, 1, 10, 9);
    PLAY(l, eight_at_last);
}

/* SYNC of a new store at the last version and one before it. */
static void reach_last_version(void)
{
    static const struct line at_last[] = { { SYNC, 0, 0, RAHUVYTE_VERSION_IS_LAST, 0, 0 } };
    static const struct line before_last[] = { { SYNC, 0, 0, RAHUVYTE_SYNCED, RAHUVYTE_LAST_NEW, 0 } };
    const struct lent l = lend_arrays(RAHUVYTE_WORDS, RAHUVYTE_ENTRIES(2));
    make(l, RAHUVYTE_KIND_NEW, 1, 1, 2, RAHUVYTE_LAST_NEW, RAHUVYTE_MADE);
    swap_in(l, 0, 1, 0, 0);
    PLAY(l, at_last);
    make(l, RAHUVYTE_KIND_NEW, 1, 1, 2, RAHUVYTE_LAST_NEW - 1, RAHUVYTE_MADE);
    swap_in(l, 0, 1, 0, 0);
    PLAY(l, before_last);
}

/* The version of an old store runs past 2^64 - 1 under a reader: the mark is 0, and the walk waits at indicator 1. The next publication has mark 1 and waits at indicator 0. */
static void run_past_the_end(void)
{
    static const struct line enters[] = {
        { ENTER, 0, 0, RAHUVYTE_AT, RAHUVYTE_PLACE_LOADED, 0 }, { ENTER, 0, 0, RAHUVYTE_AT, RAHUVYTE_PLACE_OPEN, 0 },
        { ENTER, 0, 0, RAHUVYTE_AT, RAHUVYTE_PLACE_PICKED, 0 },
    };
    static const struct line past_the_end[] = {
        { SYNC, 0, 0, RAHUVYTE_SYNCED, 0, 0 },  { WALK, 0, 9, RAHUVYTE_QUIET, 0, 0 }, { RAISE, 0, 0, RAHUVYTE_RAISED, 0, 0 },
        { WALK, 0, 9, RAHUVYTE_WAITING, 1, 0 }, { LEAVE, 0, 0, RAHUVYTE_LEFT, 0, 0 }, { WALK, 0, 9, RAHUVYTE_RETURNED, 3, 1 },
        { RELEASE, 0, 0, RAHUVYTE_FREED, 0, 1 },
    };
    static const struct line looks[] = { { LOOK, 0, 0, RAHUVYTE_PITCH, UINT64_MAX - 4999, 0 }, { LOOK, 0, 31, RAHUVYTE_PITCH, WRITTEN_PITCH(31, 1001), 0 } };
    static const struct line next[] = {
        { SYNC, 0, 0, RAHUVYTE_SYNCED, 1, 0 },  { WALK, 0, 9, RAHUVYTE_QUIET, 0, 0 }, { RAISE, 0, 0, RAHUVYTE_RAISED, 0, 0 },
        { WALK, 0, 9, RAHUVYTE_WAITING, 0, 0 }, { LEAVE, 0, 0, RAHUVYTE_LEFT, 0, 0 }, { WALK, 0, 9, RAHUVYTE_RETURNED, 3, 1 },
        { RELEASE, 0, 0, RAHUVYTE_FREED, 1, 2 },
    };
    const struct lent l = lend_arrays(RAHUVYTE_WORDS, RAHUVYTE_ENTRIES(2));
    make(l, RAHUVYTE_KIND_OLD, 1, 1, 2, UINT64_MAX, RAHUVYTE_MADE);
    PLAY(l, enters);
    swap_in(l, 0, 1, 1001, 0);
    PLAY(l, past_the_end);
    PLAY(l, enters);
    PLAY(l, looks);
    swap_in(l, 0, 0, 0, 1);
    PLAY(l, next);
}

/* WALK with looks at their end (word 329 + 4, docs/LAYOUT.md). */
static void reach_last_looks(uint16_t kind)
{
    static const struct line synced[] = { { SYNC, 0, 0, RAHUVYTE_SYNCED, 1, 0 } };
    static const struct line new_raise[] = { { RAISE, 0, 0, RAHUVYTE_RAISED, 0, 0 } };
    static const struct line too_many[] = { { WALK, 0, 2, RAHUVYTE_TOO_MANY_LOOKS, 0, 0 } };
    const struct lent l = lend_arrays(RAHUVYTE_WORDS, RAHUVYTE_ENTRIES(2));
    make(l, kind, 1, 1, 2, 0, RAHUVYTE_MADE);
    swap_in(l, 0, 1, 0, 0);
    PLAY(l, synced);
    if (kind == RAHUVYTE_KIND_NEW)
        PLAY(l, new_raise);
    l.store[333] = UINT64_MAX - 1;
    PLAY(l, too_many);
    const struct line most = { WALK, 0, 1, kind == RAHUVYTE_KIND_NEW ? RAHUVYTE_RETURNED : RAHUVYTE_QUIET,
                               kind == RAHUVYTE_KIND_NEW ? UINT64_MAX : 0, 0 };
    play(l, most);
}

/* Every call on a store that is damaged. */
static void call_damaged(uint16_t kind)
{
    const struct lent l = lend_arrays(RAHUVYTE_WORDS, RAHUVYTE_ENTRIES(3));
    make(l, kind, 2, 2, 3, 0, RAHUVYTE_MADE);
    l.store[4] = 3; /* the current slot */
    for (int w = ENTER; w < ALL_CALLS; w++) {
        const struct line damaged = { (enum word)w, 0, 1, RAHUVYTE_DAMAGED, 0, 0 };
        play(l, damaged);
    }
}

/* ---- What was seen ---- */

/* docs/C-INTERFACE.md, 'Calls': the codes of each call, in the order of enum word and then of making; 0 ends a list. */
static const uint16_t section_codes[ALL_CALLS + 1][12] = {
    { 101, 1, 10, 20 }, { 102, 1, 10, 13, 20 }, { 103, 1, 10, 20 }, { 104, 1, 11, 12, 21, 30 }, { 105, 1, 11, 14, 21 }, { 106, 1, 11, 21 },
    { 107, 1, 11, 21 }, { 108, 1, 11, 21 }, { 110, 111, 113, 1, 11, 21, 33 }, { 114, 1, 11, 21 }, { 1 }, { 1 }, { 1 },
    { 100, 1, 2, 3, 4, 5, 40, 41, 42 },
};
static const uint16_t rest_codes[ALL_CALLS + 1][12] = {
    { 1 }, { 102, 1, 10, 13, 20 }, { 1 }, { 104, 1, 11, 12, 21, 30 }, { 105, 1, 11, 14, 21 }, { 106, 1, 11, 21 },
    { 1 }, { 1 }, { 1 }, { 1 }, { 115, 1, 10, 20 }, { 101, 1, 10, 20 }, { 101, 1, 11, 21, 43, 44 },
    { 100, 1, 2, 3, 4, 5, 40, 41, 42 },
};

/* Whether the call of the kind has the code. The new kind alone has 6, 32 and 109, the old one alone 31 and 112. */
static int is_due(uint16_t kind, int word, uint64_t code)
{
    if ((code == RAHUVYTE_SHARED && word == RAISE) || (code == RAHUVYTE_VERSION_IS_LAST && word == SYNC) || (code == RAHUVYTE_BAD_VERSION && word == MAKE))
        return kind == RAHUVYTE_KIND_NEW;
    if ((code == RAHUVYTE_BUSY && word == CLAIM) || (code == RAHUVYTE_QUIET && word == WALK))
        return kind == RAHUVYTE_KIND_OLD;
    const uint16_t *codes = kind == RAHUVYTE_KIND_REST ? rest_codes[word] : section_codes[word];
    for (int i = 0; codes[i] != 0; i++)
        if (codes[i] == code)
            return 1;
    return 0;
}

/* Each call has replied each code that it has on this kind, and no other. */
static void check_all_seen(uint16_t kind)
{
    for (int word = 0; word <= ALL_CALLS; word++)
        for (uint64_t code = 0; code < CODES; code++)
            if (seen[word][code] != is_due(kind, word, code)) {
                fprintf(stderr, "replies: kind %u: %s has %sreplied %llu\n", kind, word == MAKE ? "make" : names[word], seen[word][code] ? "" : "never ",
                        (unsigned long long)code);
                exit(1);
            }
    memset(seen, 0, sizeof seen);
}

/* Every code that has a meaning was replied, and every code replied has one. */
static void check_meanings(void)
{
    const char *const none = rahuvyte_meaning(0);
    for (uint64_t code = 0; code < 2 * CODES; code++) {
        const int replied = code < CODES && ever[code];
        if (replied != (strcmp(rahuvyte_meaning(code), none) != 0)) {
            fprintf(stderr, "replies: %llu (%s) %s\n", (unsigned long long)code, rahuvyte_meaning(code), replied ? "was replied" : "was never replied");
            exit(1);
        }
    }
}

int main(void)
{
    try_makings(RAHUVYTE_KIND_NEW, RAHUVYTE_LAST_NEW);
    play_new_lists();
    reach_last_version();
    reach_last_looks(RAHUVYTE_KIND_NEW);
    call_damaged(RAHUVYTE_KIND_NEW);
    check_all_seen(RAHUVYTE_KIND_NEW);
    try_makings(RAHUVYTE_KIND_OLD, UINT64_MAX);
    play_old_lists();
    run_past_the_end();
    reach_last_looks(RAHUVYTE_KIND_OLD);
    call_damaged(RAHUVYTE_KIND_OLD);
    check_all_seen(RAHUVYTE_KIND_OLD);
    try_makings(RAHUVYTE_KIND_REST, RAHUVYTE_LAST_REST);
    play_rest_lists();
    play_between();
    reach_eight_deferred();
    reach_last_epoch();
    call_damaged(RAHUVYTE_KIND_REST);
    check_all_seen(RAHUVYTE_KIND_REST);
    check_meanings();
    printf("replies: %u calls, every reply and every refusal of each call of each kind\n", played);
    return 0;
}
