/* Writes a run sheet drawn from a seed: a store, then readers that enter, look and leave and publishers that go through their publications, or the participants of a
   rest store, which pick, look, make checkpoints and publish; most calls in their turn, a few refused and a few lines unread.
   A store by hand plays along and tells whose turn it is. */
#include "baseline.h"

#include <stdio.h>
#include <stdlib.h>
#include <string.h>

/* docs/LAYOUT.md: where the place of the first reader and of the first publisher stands, and the words of a record; the step of the first participant's checkpoint,
   and the words to the next one's. */
enum { FIRST_READER = 9, READER_WORDS = 5, FIRST_PUBLISHER = 329, PUBLISHER_WORDS = 6, FIRST_STEP = 425, STEP_WORDS = 2 };

static uint64_t words[RAHUVYTE_WORDS];
static rahuvyte_pitch entries[RAHUVYTE_ENTRIES(RAHUVYTE_SLOTS_MAX)];
static size_t entries_len;
/* Its first table, all 0: nothing that is written depends on a pitch looked up. */
static const rahuvyte_pitch table[RAHUVYTE_TABLE];
static uint16_t readers, publishers, slots;
static uint64_t state;

#define ONE(call, a) (printf("(" #call " %d)\n", a), (void)c_##call(words, RAHUVYTE_WORDS, entries, entries_len, a))
#define TWO(call, a, b) (printf("(" #call " %d %d)\n", a, b), (void)c_##call(words, RAHUVYTE_WORDS, entries, entries_len, a, b))

static uint64_t drawn(uint64_t n)
{
    state ^= state << 13;
    state ^= state >> 7;
    state ^= state << 17;
    return state % n;
}

static uint16_t below(uint16_t n)
{
    return (uint16_t)drawn(n);
}

static rahuvyte_pitch pitch(void)
{
    return (rahuvyte_pitch)drawn(RAHUVYTE_PITCH_HIGH - RAHUVYTE_PITCH_LOW + 1) + RAHUVYTE_PITCH_LOW;
}

/* A reader goes on: it enters, looks a few times, and leaves. */
static void reader_goes_on(uint16_t r)
{
    const uint16_t k = below(RAHUVYTE_TABLE);
    if (words[FIRST_READER + READER_WORDS * r] != RAHUVYTE_PLACE_PICKED)
        ONE(enter, r);
    else if (below(4) != 0)
        TWO(look, r, k);
    else
        ONE(leave, r);
}

/* A publisher that waits asks only now and then; between, a reader in an open section goes on, if there is one. */
static void publisher_asks(uint16_t p)
{
    const uint16_t b = below(RAHUVYTE_READERS_MAX + 1);
    uint16_t r = below(readers);
    if (below(8) == 0) {
        TWO(walk, p, b);
        return;
    }
    for (uint16_t i = 1; i < readers && words[FIRST_READER + READER_WORDS * r] < RAHUVYTE_PLACE_OPEN; i++)
        r = (uint16_t)((r + 1) % readers);
    reader_goes_on(r);
}

/* A publisher goes on: it claims a slot at random, writes, swaps, synchronises, raises, walks and releases. The old store walks before the raise too. */
static void publisher_goes_on(uint16_t p)
{
    const uint16_t slot = below(slots);
    const rahuvyte_pitch v = pitch();
    switch (words[FIRST_PUBLISHER + PUBLISHER_WORDS * p]) {
    case RAHUVYTE_PLACE_IDLE: TWO(claim, p, slot); break;
    case RAHUVYTE_PLACE_WRITTEN: ONE(swap, p); break;
    case RAHUVYTE_PLACE_SWAPPED: ONE(sync, p); break;
    case RAHUVYTE_PLACE_SYNCHRONISING:
        if (words[0] == RAHUVYTE_KIND_OLD)
            publisher_asks(p);
        else
            ONE(raise, p);
        break;
    case RAHUVYTE_PLACE_QUIET: ONE(raise, p); break;
    case RAHUVYTE_PLACE_RAISED: publisher_asks(p); break;
    case RAHUVYTE_PLACE_RETURNED: ONE(release, p); break;
    default: TWO(write, p, v);
    }
}

/* In the old store the publisher whose turn it is goes on until its release; in the new one any does. */
static uint16_t publisher_in_turn(void)
{
    static uint16_t p;
    if (words[0] == RAHUVYTE_KIND_NEW || words[FIRST_PUBLISHER + PUBLISHER_WORDS * p] == RAHUVYTE_PLACE_IDLE)
        p = below(publishers);
    return p;
}

/* A participant of a rest store goes on with its loop: it picks, looks a few times, and makes a whole checkpoint. Between the two DEFERs of a table it makes the second. */
static void loop_goes_on(uint16_t r)
{
    const uint16_t k = below(RAHUVYTE_TABLE);
    if (words[FIRST_PUBLISHER + PUBLISHER_WORDS * r] == RAHUVYTE_PLACE_DEFERRING)
        ONE(defer, r);
    else if (words[FIRST_STEP + STEP_WORDS * r] != 0)
        ONE(checkpoint, r);
    else if (words[FIRST_READER + READER_WORDS * r] != RAHUVYTE_PLACE_PICKED)
        ONE(pick, r);
    else if (below(4) != 0)
        TWO(look, r, k);
    else
        ONE(checkpoint, r);
}

/* It goes on with its publication: it claims a slot at random, writes, swaps and defers; a checkpoint that it is in is made first. */
static void publication_goes_on(uint16_t p)
{
    const uint16_t slot = below(slots);
    const rahuvyte_pitch v = pitch();
    switch (words[FIRST_PUBLISHER + PUBLISHER_WORDS * p]) {
    case RAHUVYTE_PLACE_IDLE: TWO(claim, p, slot); break;
    case RAHUVYTE_PLACE_WRITTEN: ONE(swap, p); break;
    case RAHUVYTE_PLACE_SWAPPED:
        if (words[FIRST_STEP + STEP_WORDS * p] != 0)
            ONE(checkpoint, p);
        else
            ONE(defer, p);
        break;
    case RAHUVYTE_PLACE_DEFERRING: ONE(defer, p); break;
    default: TWO(write, p, v);
    }
}

/* A call out of turn, mostly, or one that the kind lacks. */
static void stray(void)
{
    const uint16_t name = below(80), second = below(40);
    const rahuvyte_pitch v = pitch() * 3;
    switch (below(14)) {
    case 0: ONE(enter, name); break;
    case 1: TWO(look, name, second); break;
    case 2: ONE(leave, name); break;
    case 3: TWO(claim, name, second); break;
    case 4: TWO(write, name, v); break;
    case 5: ONE(swap, name); break;
    case 6: ONE(sync, name); break;
    case 7: ONE(raise, name); break;
    case 8: TWO(walk, name, second); break;
    case 9: ONE(release, name); break;
    case 10: ONE(pick, name); break;
    case 11: ONE(checkpoint, name); break;
    case 12: ONE(defer, name); break;
    default: puts("(store new 65 16 32 0)");
    }
}

static void unread(void)
{
    static const char *const lines[] = {
        "", "(enter 3", "(enter  3)", "(enter 03)", "(enter 65536)", "enter 3", "(Enter 3)", "(look 3)", "(look 3 4 5)", "(leave -1)", "(leave 3) ",
        "(claim 1, 2)", "(write 1 -0)", "(write 1 90.000)", "(write 1 2147483648)", "(walk 2 100000)", "(swap)", "(publish 1)", "(store pair 3 3 4 0)",
        "; blade 1 at 12 m/s", "; ---------------------------------------------------------------------------------------------------- second visit",
    };
    puts(lines[below(sizeof lines / sizeof lines[0])]);
}

static void line(void)
{
    const uint16_t draw = below(64);
    if (draw == 0)
        unread();
    else if (draw == 1)
        stray();
    else if (words[0] == RAHUVYTE_KIND_REST && draw % 2 == 0)
        loop_goes_on(below(readers));
    else if (words[0] == RAHUVYTE_KIND_REST)
        publication_goes_on(below(publishers));
    else if (draw % 2 == 0)
        reader_goes_on(below(readers));
    else
        publisher_goes_on(publisher_in_turn());
}

static uint16_t kind_named(const char *name)
{
    if (strcmp(name, "old") == 0)
        return RAHUVYTE_KIND_OLD;
    return strcmp(name, "rest") == 0 ? RAHUVYTE_KIND_REST : RAHUVYTE_KIND_NEW;
}

/* sheet_lines new|old|rest READERS PUBLISHERS SLOTS LINES SEED */
int main(int argc, char **argv)
{
    if (argc != 7) {
        fprintf(stderr, "sheet_lines new|old|rest READERS PUBLISHERS SLOTS LINES SEED\n");
        return 2;
    }
    const uint16_t kind = kind_named(argv[1]);
    const long lines = atol(argv[5]);
    readers = (uint16_t)atoi(argv[2]);
    publishers = (uint16_t)atoi(argv[3]);
    slots = (uint16_t)atoi(argv[4]);
    state = strtoull(argv[6], NULL, 10) * 2 + 1;
    entries_len = RAHUVYTE_ENTRIES(slots);
    /* The version of an old store runs past 2^64 - 1 on the sheet. */
    const uint64_t first = kind == RAHUVYTE_KIND_OLD ? UINT64_MAX : 0;
    if (c_make(words, RAHUVYTE_WORDS, entries, entries_len, table, RAHUVYTE_TABLE, kind, readers, publishers, slots, first).code != RAHUVYTE_MADE) {
        fprintf(stderr, "sheet_lines: there is no such store\n");
        return 2;
    }
    printf("(store %s %d %d %d %llu)\n", kind == RAHUVYTE_KIND_NEW ? "new" : argv[1], readers, publishers, slots, (unsigned long long)first);
    for (long i = 1; i < lines; i++)
        line();
    return fclose(stdout) == EOF;
}
