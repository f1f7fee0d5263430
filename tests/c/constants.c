/* The header's constants are the library's own: each is compared with what the archive says by rahuvyte_number.
   The order of the numbers is that of the table below. Past its end the archive says 0, which is none of them.
   Places have no such number: a reader and a publisher go through all of theirs, and the words that have them are compared.
   So are the words of a rest store that other kinds do not use: a checkpoint's step, how many slots are deferred, and with which marks. */
#include "rahuvyte.h"

#include <stdio.h>
#include <string.h>

#ifdef RAHUVYTE_LAST_OLD
#error "an old store has no last version: its versions run modulo 2^64"
#endif

/* For this test alone, and so not in the header. */
uint64_t rahuvyte_number(uint16_t which);

struct constant {
    const char *name;
    uint64_t value;
};

#define NUMBER(name) { #name, (uint64_t)(RAHUVYTE_##name) }

static const struct constant constants[] = {
    /* 0 */ NUMBER(WORDS),
    /* 1 */ NUMBER(KIND_NEW),
    /* 2 */ NUMBER(KIND_OLD),
    /* 3 */ NUMBER(READERS_MAX),
    /* 4 */ NUMBER(PUBLISHERS_MAX),
    /* 5 */ NUMBER(SLOTS_MIN),
    /* 6 */ NUMBER(SLOTS_MAX),
    /* 7 */ NUMBER(TABLE),
    /* 8 */ NUMBER(PITCH_LOW), /* 2^64 - 5000, as in a reply */
    /* 9 */ NUMBER(PITCH_HIGH),
    /* 10 */ NUMBER(FEATHERED),
    /* 11 */ NUMBER(NOT_READING),
    /* 12 */ NUMBER(LAST_NEW),
    /* 13 */ NUMBER(STEP_MAX),
    /* 14 */ { "sizeof(rahuvyte_pitch)", sizeof(rahuvyte_pitch) },
    /* 15 */ NUMBER(KIND_REST),
    /* 16 */ NUMBER(LAST_REST),
    /* 17 */ NUMBER(DEFERRED_MAX),
    /* 18 */ NUMBER(DAMAGED),
    /* 19 */ NUMBER(BAD_READERS),
    /* 20 */ NUMBER(BAD_PUBLISHERS),
    /* 21 */ NUMBER(BAD_SLOTS),
    /* 22 */ NUMBER(BAD_ENTRIES),
    /* 23 */ NUMBER(BAD_VERSION),
    /* 24 */ NUMBER(NO_SUCH_READER),
    /* 25 */ NUMBER(NO_SUCH_PUBLISHER),
    /* 26 */ NUMBER(NO_SUCH_SLOT),
    /* 27 */ NUMBER(NO_SUCH_ENTRY),
    /* 28 */ NUMBER(BAD_PITCH),
    /* 29 */ NUMBER(READER_TURN),
    /* 30 */ NUMBER(PUBLISHER_TURN),
    /* 31 */ NUMBER(SLOT_IN_USE),
    /* 32 */ NUMBER(BUSY),
    /* 33 */ NUMBER(VERSION_IS_LAST),
    /* 34 */ NUMBER(TOO_MANY_LOOKS),
    /* 35 */ NUMBER(BAD_TABLE_LENGTH),
    /* 36 */ NUMBER(BAD_TABLE_PITCH),
    /* 37 */ NUMBER(BAD_TABLE_STEP),
    /* 38 */ NUMBER(EPOCH_IS_LAST),
    /* 39 */ NUMBER(TOO_MANY_DEFERRED),
    /* 40 */ NUMBER(MADE),
    /* 41 */ NUMBER(AT),
    /* 42 */ NUMBER(PITCH),
    /* 43 */ NUMBER(LEFT),
    /* 44 */ NUMBER(CLAIMED),
    /* 45 */ NUMBER(WRITTEN),
    /* 46 */ NUMBER(SWAPPED),
    /* 47 */ NUMBER(SYNCED),
    /* 48 */ NUMBER(RAISED),
    /* 49 */ NUMBER(SHARED),
    /* 50 */ NUMBER(WAITING),
    /* 51 */ NUMBER(SPENT),
    /* 52 */ NUMBER(QUIET),
    /* 53 */ NUMBER(RETURNED),
    /* 54 */ NUMBER(FREED),
    /* 55 */ NUMBER(PICKED),
};

enum { COUNT = sizeof constants / sizeof constants[0] };

/* Whether the library's number is value; says so if not. */
static int agrees(uint16_t which, const char *name, uint64_t value)
{
    const uint64_t number = rahuvyte_number(which);
    if (number == value)
        return 1;
    fprintf(stderr, "constants: %s (%u) is %llu in the header, %llu in the library\n", name, which, (unsigned long long)value, (unsigned long long)number);
    return 0;
}

static uint64_t store[RAHUVYTE_WORDS];
static rahuvyte_pitch entries[RAHUVYTE_ENTRIES(2)];
/* A first table, all 0. */
static const rahuvyte_pitch table[RAHUVYTE_TABLE];

#define LENT store, RAHUVYTE_WORDS, entries, RAHUVYTE_ENTRIES(2)

/* docs/LAYOUT.md: the words of the places of reader 0 and publisher 0; of a rest store the observed epochs of reader 0 and reader 63, and of participant 0 the step,
   the count and the first pair. */
enum { READER_PLACE = 9, PUBLISHER_PLACE = 329, OBSERVED = 12, LAST_OBSERVED = 327, STEP = 425, COUNT_DEFERRED = 426, FIRST_PAIR = 457 };

/* Whether a word has the header's place, after a call that was accepted; says so if not. */
static int arrives(struct rahuvyte_reply reply, int word, const char *name, uint64_t place)
{
    if (rahuvyte_accepted(reply) && store[word] == place)
        return 1;
    fprintf(stderr, "constants: %s is %llu in the header; the library replies %llu and is at %llu\n", name, (unsigned long long)place,
            (unsigned long long)reply.code, (unsigned long long)store[word]);
    return 0;
}

#define READER(call, place) arrives(call, READER_PLACE, #place, RAHUVYTE_##place)
#define PUBLISHER(call, place) arrives(call, PUBLISHER_PLACE, #place, RAHUVYTE_##place)

static int check_reader_places(uint16_t kind)
{
    int good = READER(rahuvyte_make(LENT, table, RAHUVYTE_TABLE, kind, 1, 1, 2, 0), PLACE_OUT);
    good &= READER(rahuvyte_enter(LENT, 0), PLACE_LOADED);
    if (kind == RAHUVYTE_KIND_NEW) {
        good &= READER(rahuvyte_enter(LENT, 0), PLACE_PUBLISHED);
        good &= READER(rahuvyte_enter(LENT, 0), PLACE_LOADED_AGAIN);
    }
    good &= READER(rahuvyte_enter(LENT, 0), PLACE_OPEN);
    good &= READER(rahuvyte_enter(LENT, 0), PLACE_PICKED);
    return good & READER(rahuvyte_leave(LENT, 0), PLACE_OUT);
}

static int check_publisher_places(uint16_t kind)
{
    int good = PUBLISHER(rahuvyte_make(LENT, table, RAHUVYTE_TABLE, kind, 1, 1, 2, 0), PLACE_IDLE);
    good &= PUBLISHER(rahuvyte_claim(LENT, 0, 1), PLACE_CLAIMED);
    for (int written = 1; written < RAHUVYTE_TABLE; written++)
        good &= PUBLISHER(rahuvyte_write(LENT, 0, 0), PLACE_CLAIMED + written);
    good &= PUBLISHER(rahuvyte_write(LENT, 0, 0), PLACE_WRITTEN);
    good &= PUBLISHER(rahuvyte_swap(LENT, 0), PLACE_SWAPPED);
    good &= PUBLISHER(rahuvyte_sync(LENT, 0), PLACE_SYNCHRONISING);
    if (kind == RAHUVYTE_KIND_OLD)
        good &= PUBLISHER(rahuvyte_walk(LENT, 0, 1), PLACE_QUIET);
    good &= PUBLISHER(rahuvyte_raise(LENT, 0), PLACE_RAISED);
    good &= PUBLISHER(rahuvyte_walk(LENT, 0, 1), PLACE_RETURNED);
    return good & PUBLISHER(rahuvyte_release(LENT, 0), PLACE_IDLE);
}

static int check_places(uint16_t kind)
{
    return check_reader_places(kind) & check_publisher_places(kind);
}

/* ---- The rest store ---- */

#define MAKE_REST(version) rahuvyte_make(LENT, table, RAHUVYTE_TABLE, RAHUVYTE_KIND_REST, 1, 1, 2, version)
#define HAS(call, word, number) arrives(call, word, #word, number)

/* A table of participant 0 in the slot, swapped in. */
static int swap_in(uint16_t slot)
{
    int good = PUBLISHER(rahuvyte_claim(LENT, 0, slot), PLACE_CLAIMED);
    for (int written = 1; written < RAHUVYTE_TABLE; written++)
        good &= PUBLISHER(rahuvyte_write(LENT, 0, 0), PLACE_CLAIMED + written);
    good &= PUBLISHER(rahuvyte_write(LENT, 0, 0), PLACE_WRITTEN);
    return good & PUBLISHER(rahuvyte_swap(LENT, 0), PLACE_SWAPPED);
}

static int check_rest_places(void)
{
    int good = READER(MAKE_REST(0), PLACE_OUT);
    good &= READER(rahuvyte_pick(LENT, 0), PLACE_PICKED);
    good &= READER(rahuvyte_checkpoint(LENT, 0), PLACE_OUT);
    good &= PUBLISHER(MAKE_REST(0), PLACE_IDLE) & swap_in(1);
    good &= READER(rahuvyte_pick(LENT, 0), PLACE_PICKED);
    const struct rahuvyte_reply marked = rahuvyte_defer(LENT, 0);
    good &= PUBLISHER(marked, PLACE_DEFERRING) & READER(marked, PLACE_OUT);
    return good & PUBLISHER(rahuvyte_defer(LENT, 0), PLACE_IDLE);
}

/* A checkpoint's step, from the first to the last, and the deferred slot with its mark: slot 0 with the epoch 8, raised from 7. */
static int check_rest_words(void)
{
    int good = HAS(MAKE_REST(7), OBSERVED, 7) & HAS(MAKE_REST(7), LAST_OBSERVED, 7) & HAS(MAKE_REST(7), STEP, 0) & swap_in(1);
    good &= HAS(rahuvyte_defer(LENT, 0), COUNT_DEFERRED, 0);
    good &= HAS(rahuvyte_defer(LENT, 0), COUNT_DEFERRED, 1) & HAS(rahuvyte_pick(LENT, 0), OBSERVED, 8);
    good &= HAS(rahuvyte_pick(LENT, 0), FIRST_PAIR, 0) & HAS(rahuvyte_pick(LENT, 0), FIRST_PAIR + 1, 8);
    good &= HAS(rahuvyte_checkpoint(LENT, 0), STEP, 1);
    good &= HAS(rahuvyte_checkpoint(LENT, 0), STEP, 2);
    const struct rahuvyte_reply last = rahuvyte_checkpoint(LENT, 0);
    good &= HAS(last, STEP, 0) & HAS(last, COUNT_DEFERRED, 0) & (last.first == RAHUVYTE_CHECKPOINT_STEPS(1));
    good &= swap_in(0) & HAS(rahuvyte_defer(LENT, 0), COUNT_DEFERRED, 0) & HAS(rahuvyte_defer(LENT, 0), FIRST_PAIR, 1);
    return good & HAS(rahuvyte_pick(LENT, 0), FIRST_PAIR + 1, 9);
}

/* Whether the header's version is one, as a text and as three numbers. */
static int one_version(void)
{
    char text[32];
    sprintf(text, "%d.%d.%d", RAHUVYTE_VERSION_MAJOR, RAHUVYTE_VERSION_MINOR, RAHUVYTE_VERSION_PATCH);
    if (strcmp(text, RAHUVYTE_VERSION) == 0)
        return 1;
    fprintf(stderr, "constants: the header says version %s and %s\n", text, RAHUVYTE_VERSION);
    return 0;
}

int main(void)
{
    int good = one_version();
    for (uint16_t i = 0; i < COUNT; i++)
        good &= agrees(i, constants[i].name, constants[i].value);
    good &= agrees(COUNT, "past the end", 0);
    good &= agrees(UINT16_MAX, "far past the end", 0);
    good &= check_places(RAHUVYTE_KIND_NEW) & check_places(RAHUVYTE_KIND_OLD);
    good &= check_rest_places() & check_rest_words();
    if (!good)
        return 1;
    printf("constants: %d agree, and the places of each kind\n", COUNT);
    return 0;
}
