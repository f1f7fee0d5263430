/* Plays one list of calls, drawn from a seed and mostly in turn, through the archive's entry points and through the baseline's by hand, side by side,
   and compares every reply, the words and the entries. run counts the instructions of each call under callgrind.
   Makings whose first table is refused, refused calls of the rest store and calls that a kind lacks are a list of their own, which is compared and not counted.
   The fourth steps of ENTER of the new store are another list, compared and counted: fourth_step.h. */
#include "baseline.h"

#include <stdbool.h>
#include <stdio.h>
#include <stdlib.h>
#include <string.h>

enum { WORDS = RAHUVYTE_WORDS, TABLE = RAHUVYTE_TABLE, ENTRIES_MAX = RAHUVYTE_SLOTS_MAX * RAHUVYTE_TABLE };

/* docs/LAYOUT.md: where the place of the first reader and of the first publisher stands, and the words of a record. */
enum { FIRST_READER = 9, READER_WORDS = 5, FIRST_PUBLISHER = 329, PUBLISHER_WORDS = 6 };

static uint64_t words[2][WORDS];
static rahuvyte_pitch entries[2][ENTRIES_MAX];
static size_t entries_len;
/* The first table, with room for one entry too many. */
static rahuvyte_pitch table[TABLE + 1];
static uint64_t state;

static uint64_t below(uint64_t n)
{
    state ^= state << 13;
    state ^= state >> 7;
    state ^= state << 17;
    return state % n;
}

static rahuvyte_pitch pitch(void)
{
    return (rahuvyte_pitch)below(RAHUVYTE_PITCH_HIGH - RAHUVYTE_PITCH_LOW + 1) + RAHUVYTE_PITCH_LOW;
}

/* Any number of 32 bits, of each number of bits as often. */
static rahuvyte_pitch any_number(void)
{
    const uint64_t half = UINT64_C(1) << below(32);
    return (rahuvyte_pitch)((int64_t)below(2 * half) - (int64_t)half);
}

static void compare(const char *call, struct rahuvyte_reply ours, struct rahuvyte_reply theirs)
{
    if (memcmp(&ours, &theirs, sizeof ours) != 0 || memcmp(words[0], words[1], sizeof words[0]) != 0 || memcmp(entries[0], entries[1], sizeof entries[0]) != 0) {
        fprintf(stderr, "driver: %s differs: %llu %llu %llu and %llu %llu %llu\n", call, (unsigned long long)ours.code, (unsigned long long)ours.first,
                (unsigned long long)ours.second, (unsigned long long)theirs.code, (unsigned long long)theirs.first, (unsigned long long)theirs.second);
        exit(1);
    }
}

#define BOTH(call, ...) compare(#call, rahuvyte_##call(words[0], WORDS, entries[0], entries_len, __VA_ARGS__), c_##call(words[1], WORDS, entries[1], entries_len, __VA_ARGS__))

/* A call that run counts apart, by the name of the caller. */
#define COUNTED(name, call) \
    __attribute__((noipa)) static void name(uint16_t who) \
    { \
        BOTH(call, who); \
    }

/* A good first table, whose neighbours differ by anything that is allowed. */
static void draw_table(void)
{
    rahuvyte_pitch v = pitch();
    for (int k = 0; k < TABLE; k++) {
        const rahuvyte_pitch next = v + (rahuvyte_pitch)below(2 * RAHUVYTE_STEP_MAX + 1) - RAHUVYTE_STEP_MAX;
        if (next >= RAHUVYTE_PITCH_LOW && next <= RAHUVYTE_PITCH_HIGH)
            v = next;
        table[k] = v;
    }
}

/* A reader goes on: it enters, looks a few times, and leaves. */
static void reader_goes_on(uint16_t r)
{
    const uint16_t k = (uint16_t)below(TABLE);
    switch (words[1][FIRST_READER + READER_WORDS * r]) {
    case RAHUVYTE_PLACE_PICKED:
        if (below(4) != 0)
            BOTH(look, r, k);
        else
            BOTH(leave, r);
        break;
    default:
        BOTH(enter, r);
    }
}

/* A publisher goes on: it claims a slot at random, writes, swaps, synchronises, raises, walks by small slices and releases. The old store walks before the raise too. */
static void publisher_goes_on(uint16_t p, uint16_t slots)
{
    const uint16_t slot = (uint16_t)below(slots), b = (uint16_t)below(9);
    const rahuvyte_pitch v = pitch();
    switch (words[1][FIRST_PUBLISHER + PUBLISHER_WORDS * p]) {
    case RAHUVYTE_PLACE_IDLE:
        BOTH(claim, p, slot);
        break;
    case RAHUVYTE_PLACE_WRITTEN:
        BOTH(swap, p);
        break;
    case RAHUVYTE_PLACE_SWAPPED:
        BOTH(sync, p);
        break;
    case RAHUVYTE_PLACE_SYNCHRONISING:
        if (words[1][0] == RAHUVYTE_KIND_OLD)
            BOTH(walk, p, b);
        else
            BOTH(raise, p);
        break;
    case RAHUVYTE_PLACE_QUIET:
        BOTH(raise, p);
        break;
    case RAHUVYTE_PLACE_RAISED:
        BOTH(walk, p, b);
        break;
    case RAHUVYTE_PLACE_RETURNED:
        BOTH(release, p);
        break;
    default:
        BOTH(write, p, v);
    }
}

#include "rest_turns.h"

#include "fourth_step.h"

/* Every call on a store of each kind: those that the kind lacks get 1. */
static void compare_lacked(uint16_t kind)
{
    entries_len = 3 * TABLE;
    draw_table();
    BOTH(make, table, TABLE, kind, 2, 2, 3, 0);
    BOTH(enter, 1);
    BOTH(pick, 1);
    BOTH(look, 1, 0);
    BOTH(leave, 1);
    BOTH(checkpoint, 1);
    BOTH(claim, 1, 1);
    BOTH(write, 1, 0);
    BOTH(swap, 1);
    BOTH(sync, 1);
    BOTH(raise, 1);
    BOTH(walk, 1, 1);
    BOTH(release, 1);
    BOTH(defer, 1);
}

/* A first table with one step, behind entry k. */
static void draw_step(int k, rahuvyte_pitch step)
{
    for (int i = 0; i < TABLE; i++)
        table[i] = i <= k ? RAHUVYTE_STEP_MAX + 1 : RAHUVYTE_STEP_MAX + 1 + step;
}

#define BOTH_MAKE(kind, table_len) BOTH(make, table, table_len, kind, 1, 1, 2, 0)

/* Every length up to one too many; an entry that is just out of range or any number, at each index; a step that is just too far or just not, at each pair. */
static void compare_refused(uint16_t kind)
{
    static const rahuvyte_pitch out[] = { RAHUVYTE_PITCH_LOW - 1, RAHUVYTE_PITCH_HIGH + 1, INT32_MIN, INT32_MAX };
    static const rahuvyte_pitch steps[] = { RAHUVYTE_STEP_MAX, RAHUVYTE_STEP_MAX + 1, -RAHUVYTE_STEP_MAX, -RAHUVYTE_STEP_MAX - 1 };
    entries_len = 2 * TABLE;
    for (size_t len = 0; len <= TABLE + 1; len++)
        BOTH_MAKE(kind, len);
    for (int k = 0; k < TABLE; k++)
        for (int i = 0; i < 4; i++) {
            draw_table();
            table[k] = out[i];
            BOTH_MAKE(kind, TABLE);
            draw_step(k, steps[i]);
            BOTH_MAKE(kind, TABLE);
            table[below(TABLE)] = any_number();
            BOTH_MAKE(kind, TABLE);
        }
}

/* One call, of a task drawn at random and in its turn. */
static void play_call(uint16_t kind, uint16_t readers, uint16_t publishers, uint16_t slots)
{
    const bool reads = below(2) == 0;
    if (kind == RAHUVYTE_KIND_REST && reads)
        loop_goes_on((uint16_t)below(readers));
    else if (kind == RAHUVYTE_KIND_REST)
        publication_goes_on((uint16_t)below(publishers), slots);
    else if (reads)
        reader_goes_on((uint16_t)below(readers));
    else
        publisher_goes_on((uint16_t)below(publishers), slots);
}

static uint16_t kind_named(const char *name)
{
    if (strcmp(name, "old") == 0)
        return RAHUVYTE_KIND_OLD;
    return strcmp(name, "rest") == 0 ? RAHUVYTE_KIND_REST : RAHUVYTE_KIND_NEW;
}

/* driver new|old|rest READERS PUBLISHERS SLOTS CALLS SEED; driver new|old|rest for what is refused; driver fourth READERS PUBLISHERS SLOTS for the fourth step of ENTER */
int main(int argc, char **argv)
{
    state = 1;
    if (argc == 5 && strcmp(argv[1], "fourth") == 0) {
        play_fourth_steps((uint16_t)atoi(argv[2]), (uint16_t)atoi(argv[3]), (uint16_t)atoi(argv[4]));
        return 0;
    }
    if (argc != 7 && argc != 2) {
        fprintf(stderr, "driver new|old|rest [READERS PUBLISHERS SLOTS CALLS SEED]\ndriver fourth READERS PUBLISHERS SLOTS\n");
        return 2;
    }
    const uint16_t kind = kind_named(argv[1]);
    if (argc == 2) {
        compare_refused(kind);
        compare_lacked(kind);
        if (kind == RAHUVYTE_KIND_REST)
            compare_refused_calls();
        return 0;
    }
    const uint16_t readers = (uint16_t)atoi(argv[2]), publishers = (uint16_t)atoi(argv[3]), slots = (uint16_t)atoi(argv[4]);
    const long calls = atol(argv[5]);
    entries_len = (size_t)slots * TABLE;
    /* The version of an old store runs past 2^64 - 1 in the list. */
    const uint64_t first = kind == RAHUVYTE_KIND_OLD ? UINT64_MAX : 19;
    for (uint64_t i = 20; i > 0; i--) {
        draw_table();
        BOTH(make, table, TABLE, kind, readers, publishers, slots, first - (i - 1));
    }
    state = strtoull(argv[6], NULL, 10) * 2 + 1;
    for (long i = 0; i < calls; i++)
        play_call(kind, readers, publishers, slots);
    if (kind == RAHUVYTE_KIND_REST)
        free_eight(readers, slots);
    return 0;
}
