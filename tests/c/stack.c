/* How much stack a call takes. Every call is made on a stack of its own that was painted before; afterwards the deepest byte
   that lost its paint is looked for. Counted are the bytes below the caller's frame: arguments on the stack, the return address,
   the call's frames and those of what it calls. Each kind at its largest sizes, (64, 16, 32), of the rest kind (16, 16, 32), accepted and refused.
   Prints the bytes of each call; fails if one takes more than LIMIT. x86-64 only, as the archive is. */
#define _XOPEN_SOURCE 700

#include "rahuvyte.h"

#include <stdio.h>
#include <stdlib.h>
#include <string.h>
#include <ucontext.h>

enum { LIMIT = 256, STACK = 65536 };
enum { READERS = RAHUVYTE_READERS_MAX, PUBLISHERS = RAHUVYTE_PUBLISHERS_MAX, SLOTS = RAHUVYTE_SLOTS_MAX, PARTICIPANTS = PUBLISHERS };

/* docs/LAYOUT.md: the place of the last publisher; of the last participant of a rest store the count of deferred slots, and the slot of its eighth pair. */
enum { LAST_PLACE = 329 + 6 * (PUBLISHERS - 1), LAST_COUNT = 426 + 2 * (PUBLISHERS - 1), LAST_SLOT = 457 + 16 * PUBLISHERS - 2 };

enum word { MAKE, ENTER, LOOK, LEAVE, CLAIM, WRITE, SWAP, SYNC, RAISE, WALK, RELEASE, PICK, CHECKPOINT, DEFER, WORDS_OF_CALLS };

static const char *const names[WORDS_OF_CALLS] = { "make", "enter", "look",    "leave", "claim",      "write", "swap",
                                                   "sync", "raise", "walk", "release", "pick", "checkpoint", "defer" };

static uint64_t store[RAHUVYTE_WORDS];
static rahuvyte_pitch entries[SLOTS * RAHUVYTE_TABLE];
/* The first table, all 0 but for a bad entry or step. */
static rahuvyte_pitch table[RAHUVYTE_TABLE];
static uint16_t kind;

/* The call to make, its reply, and the stack pointer just before it. */
static enum word word;
static uint16_t first;
static int second;
static struct rahuvyte_reply reply;
static unsigned char *pointer;

static unsigned char painted[STACK];
static ucontext_t here, there;

/* Bytes, per call: accepted and refused. */
static size_t most[WORDS_OF_CALLS][2];

#define CALLED(...) \
    do { \
        __asm__ volatile("movq %%rsp, %0" : "=m"(pointer) : : "memory"); \
        reply = __VA_ARGS__; \
    } while (0)
#define LENT store, RAHUVYTE_WORDS, entries, RAHUVYTE_ENTRIES(SLOTS)

static void call(void)
{
    switch (word) {
    case MAKE: CALLED(rahuvyte_make(LENT, table, RAHUVYTE_TABLE, kind, first, PUBLISHERS, SLOTS, 0)); break;
    case ENTER: CALLED(rahuvyte_enter(LENT, first)); break;
    case LOOK: CALLED(rahuvyte_look(LENT, first, (uint16_t)second)); break;
    case LEAVE: CALLED(rahuvyte_leave(LENT, first)); break;
    case CLAIM: CALLED(rahuvyte_claim(LENT, first, (uint16_t)second)); break;
    case WRITE: CALLED(rahuvyte_write(LENT, first, (rahuvyte_pitch)second)); break;
    case SWAP: CALLED(rahuvyte_swap(LENT, first)); break;
    case SYNC: CALLED(rahuvyte_sync(LENT, first)); break;
    case RAISE: CALLED(rahuvyte_raise(LENT, first)); break;
    case WALK: CALLED(rahuvyte_walk(LENT, first, (uint16_t)second)); break;
    case RELEASE: CALLED(rahuvyte_release(LENT, first)); break;
    case PICK: CALLED(rahuvyte_pick(LENT, first)); break;
    case CHECKPOINT: CALLED(rahuvyte_checkpoint(LENT, first)); break;
    case DEFER: CALLED(rahuvyte_defer(LENT, first)); break;
    case WORDS_OF_CALLS: abort();
    }
}

/* Makes the call on the painted stack; the bytes that it took. */
static size_t measure_stack(unsigned char paint)
{
    memset(painted, paint, sizeof painted);
    if (getcontext(&there) != 0)
        abort();
    there.uc_stack.ss_sp = painted;
    there.uc_stack.ss_size = sizeof painted;
    there.uc_link = &here;
    makecontext(&there, call, 0);
    if (swapcontext(&here, &there) != 0)
        abort();
    const unsigned char *deepest = painted;
    while (deepest < pointer && *deepest == paint)
        deepest++;
    return (size_t)(pointer - deepest);
}

/* Makes a call twice from the same store, under two paints (a byte may be stored that is just the paint), and notes the more of the two. */
static void expect(uint64_t code, enum word w, uint16_t a, int b)
{
    static uint64_t store_before[RAHUVYTE_WORDS];
    static rahuvyte_pitch entries_before[SLOTS * RAHUVYTE_TABLE];
    memcpy(store_before, store, sizeof store);
    memcpy(entries_before, entries, sizeof entries);
    word = w, first = a, second = b;
    size_t bytes = measure_stack(0xa5);
    memcpy(store, store_before, sizeof store);
    memcpy(entries, entries_before, sizeof entries);
    const size_t again = measure_stack(0x5a);
    if (again > bytes)
        bytes = again;
    /* The return address alone is 8 bytes: less means that nothing was measured. */
    if (bytes < 8) {
        fprintf(stderr, "stack: no stack was seen under %s\n", names[w]);
        exit(1);
    }
    if (reply.code != code) {
        fprintf(stderr, "stack: %s %u %d replies %llu, not %llu\n", names[w], a, b, (unsigned long long)reply.code, (unsigned long long)code);
        exit(1);
    }
    size_t *deepest = &most[w][rahuvyte_accepted(reply) ? 0 : 1];
    if (bytes > *deepest)
        *deepest = bytes;
}

/* All readers go in and look; some calls out of turn. */
static void enter_readers(void)
{
    for (uint16_t r = 0; r < READERS; r++) {
        expect(RAHUVYTE_READER_TURN, LEAVE, r, 0);
        expect(RAHUVYTE_READER_TURN, LOOK, r, 0);
        do
            expect(RAHUVYTE_AT, ENTER, r, 0);
        while (reply.first != RAHUVYTE_PLACE_PICKED);
        expect(RAHUVYTE_READER_TURN, ENTER, r, 0);
        expect(RAHUVYTE_PITCH, LOOK, r, 31);
    }
    expect(RAHUVYTE_NO_SUCH_READER, ENTER, READERS, 0);
    expect(RAHUVYTE_NO_SUCH_ENTRY, LOOK, 0, 32);
}

static void leave_readers(void)
{
    for (uint16_t r = 0; r < READERS; r++)
        expect(RAHUVYTE_LEFT, LEAVE, r, 0);
}

/* A publisher writes a table and swaps it in. */
static void swap_in(uint16_t p, uint16_t slot)
{
    expect(RAHUVYTE_SLOT_IN_USE, CLAIM, p, (int)store[4]);
    expect(RAHUVYTE_CLAIMED, CLAIM, p, slot);
    expect(RAHUVYTE_PUBLISHER_TURN, CLAIM, p, slot);
    expect(RAHUVYTE_BAD_PITCH, WRITE, p, RAHUVYTE_PITCH_HIGH + 1);
    expect(RAHUVYTE_BAD_PITCH, WRITE, p, RAHUVYTE_PITCH_LOW - 1);
    for (int k = 0; k < RAHUVYTE_TABLE; k++)
        expect(RAHUVYTE_WRITTEN, WRITE, p, RAHUVYTE_PITCH_LOW + 3001 * k);
    expect(RAHUVYTE_PUBLISHER_TURN, WRITE, p, 0);
    expect(RAHUVYTE_SWAPPED, SWAP, p, 0);
    expect(RAHUVYTE_PUBLISHER_TURN, SWAP, p, 0);
}

static void sync_after_swap(uint16_t p)
{
    expect(RAHUVYTE_SYNCED, SYNC, p, 0);
    expect(RAHUVYTE_PUBLISHER_TURN, SYNC, p, 0);
}

/* The new store: every publisher at once, all readers in. */
static void publish_new(void)
{
    for (uint16_t p = 0; p < PUBLISHERS; p++) {
        swap_in(p, (uint16_t)(p + 1));
        sync_after_swap(p);
    }
    for (uint16_t p = 0; p < PUBLISHERS; p++)
        expect(p == 0 ? RAHUVYTE_RAISED : RAHUVYTE_SHARED, RAISE, p, 0);
    expect(RAHUVYTE_PUBLISHER_TURN, RAISE, 0, 0);
    for (uint16_t p = 0; p < PUBLISHERS; p++) {
        expect(RAHUVYTE_SPENT, WALK, p, 0);
        expect(RAHUVYTE_WAITING, WALK, p, UINT16_MAX);
        expect(RAHUVYTE_PUBLISHER_TURN, RELEASE, p, 0);
    }
    leave_readers();
    for (uint16_t p = 0; p < PUBLISHERS; p++) {
        expect(RAHUVYTE_SPENT, WALK, p, READERS - 1);
        expect(RAHUVYTE_RETURNED, WALK, p, UINT16_MAX);
        expect(RAHUVYTE_PUBLISHER_TURN, WALK, p, 1);
        expect(RAHUVYTE_FREED, RELEASE, p, 0);
    }
}

/* The old store: the highest publisher, all readers in. */
static void publish_old(void)
{
    const uint16_t p = PUBLISHERS - 1;
    swap_in(p, SLOTS - 1);
    sync_after_swap(p);
    expect(RAHUVYTE_BUSY, CLAIM, 0, 1);
    expect(RAHUVYTE_PUBLISHER_TURN, RAISE, p, 0);
    expect(RAHUVYTE_SPENT, WALK, p, 0);
    expect(RAHUVYTE_QUIET, WALK, p, UINT16_MAX);
    expect(RAHUVYTE_RAISED, RAISE, p, 0);
    expect(RAHUVYTE_WAITING, WALK, p, UINT16_MAX);
    expect(RAHUVYTE_PUBLISHER_TURN, RELEASE, p, 0);
    leave_readers();
    expect(RAHUVYTE_RETURNED, WALK, p, UINT16_MAX);
    expect(RAHUVYTE_PUBLISHER_TURN, WALK, p, 1);
    expect(RAHUVYTE_FREED, RELEASE, p, 0);
}

/* All participants pick and look. */
static void pick_tables(void)
{
    for (uint16_t r = 0; r < PARTICIPANTS; r++) {
        expect(RAHUVYTE_READER_TURN, LOOK, r, 0);
        expect(RAHUVYTE_PICKED, PICK, r, 0);
        expect(RAHUVYTE_PITCH, LOOK, r, 31);
    }
    expect(RAHUVYTE_NO_SUCH_READER, PICK, PARTICIPANTS, 0);
    expect(RAHUVYTE_NO_SUCH_ENTRY, LOOK, 0, 32);
}

/* A whole checkpoint. */
static void make_checkpoint(uint16_t r)
{
    do {
        expect(RAHUVYTE_AT, CHECKPOINT, r, 0);
        if (reply.first != RAHUVYTE_CHECKPOINT_STEPS(PARTICIPANTS))
            expect(RAHUVYTE_READER_TURN, PICK, r, 0);
    } while (reply.code != RAHUVYTE_AT || reply.first != RAHUVYTE_CHECKPOINT_STEPS(PARTICIPANTS));
}

/* A table is swapped in, and its former slot deferred. */
static void publish_rest(uint16_t p, uint16_t slot)
{
    swap_in(p, slot);
    expect(RAHUVYTE_AT, DEFER, p, 0);
    expect(RAHUVYTE_READER_TURN, PICK, p, 0);
    expect(RAHUVYTE_READER_TURN, CHECKPOINT, p, 0);
    expect(RAHUVYTE_AT, DEFER, p, 0);
    expect(RAHUVYTE_PUBLISHER_TURN, DEFER, p, 0);
}

/* How many slots the last participant has deferred. */
static void expect_deferred(uint64_t count)
{
    if (store[LAST_COUNT] == count)
        return;
    fprintf(stderr, "stack: the last participant has deferred %llu slots, not %llu\n", (unsigned long long)store[LAST_COUNT], (unsigned long long)count);
    exit(1);
}

/* The rest store, all with a pick. The last participant defers eight slots, of which it frees four, then none, and when every other one has published the rest. */
static void publish_all_rest(void)
{
    const uint16_t last = PARTICIPANTS - 1;
    for (uint16_t i = 0; i < RAHUVYTE_DEFERRED_MAX; i++) {
        if (i == RAHUVYTE_DEFERRED_MAX / 2)
            for (uint16_t p = 0; p < last; p++)
                make_checkpoint(p);
        publish_rest(last, (uint16_t)(i + 1));
    }
    swap_in(last, RAHUVYTE_DEFERRED_MAX + 1);
    expect(RAHUVYTE_TOO_MANY_DEFERRED, DEFER, last, 0);
    make_checkpoint(last);
    expect_deferred(RAHUVYTE_DEFERRED_MAX / 2);
    make_checkpoint(last);
    expect_deferred(RAHUVYTE_DEFERRED_MAX / 2);
    for (uint16_t p = 0; p < last; p++)
        publish_rest(p, (uint16_t)(RAHUVYTE_DEFERRED_MAX + 2 + p));
    expect(RAHUVYTE_SLOT_IN_USE, CLAIM, 0, RAHUVYTE_DEFERRED_MAX - 1);
    make_checkpoint(last);
    expect_deferred(0);
    store[5] = RAHUVYTE_LAST_REST;
    expect(RAHUVYTE_EPOCH_IS_LAST, DEFER, last, 0);
}

/* A store whose last publisher, or last deferred slot, is out of range: the damage test at its longest. */
static void damage_last(void)
{
    if (kind != RAHUVYTE_KIND_REST) {
        store[LAST_PLACE] = RAHUVYTE_PLACE_RETURNED + 1;
        return;
    }
    store[LAST_COUNT] = RAHUVYTE_DEFERRED_MAX;
    store[LAST_SLOT] = SLOTS;
}

/* Every call on it, also those that the kind lacks. */
static void call_damaged(void)
{
    damage_last();
    for (int w = ENTER; w < WORDS_OF_CALLS; w++)
        expect(RAHUVYTE_DAMAGED, (enum word)w, 0, 1);
}

/* First tables whose last entry is bad: the tests at their longest. */
static void refuse_tables(uint16_t readers)
{
    rahuvyte_pitch *last = &table[RAHUVYTE_TABLE - 1];
    *last = RAHUVYTE_PITCH_HIGH + 1;
    expect(RAHUVYTE_BAD_TABLE_PITCH, MAKE, readers, 0);
    *last = RAHUVYTE_STEP_MAX + 1;
    expect(RAHUVYTE_BAD_TABLE_STEP, MAKE, readers, 0);
    *last = 0;
}

static void measure_kind(uint16_t k, uint16_t readers)
{
    kind = k;
    expect(RAHUVYTE_BAD_READERS, MAKE, READERS + 1, 0);
    refuse_tables(readers);
    expect(RAHUVYTE_MADE, MAKE, readers, 0);
    if (kind == RAHUVYTE_KIND_REST) {
        pick_tables();
        publish_all_rest();
    } else {
        enter_readers();
        if (kind == RAHUVYTE_KIND_NEW)
            publish_new();
        else
            publish_old();
    }
    call_damaged();
}

int main(void)
{
    measure_kind(RAHUVYTE_KIND_NEW, READERS);
    measure_kind(RAHUVYTE_KIND_OLD, READERS);
    measure_kind(RAHUVYTE_KIND_REST, PARTICIPANTS);
    size_t deepest = 0;
    printf("%-10s %9s %8s   bytes of stack\n", "call", "accepted", "refused");
    for (int w = MAKE; w < WORDS_OF_CALLS; w++) {
        printf("%-10s %9zu %8zu\n", names[w], most[w][0], most[w][1]);
        for (int i = 0; i < 2; i++)
            if (most[w][i] > deepest)
                deepest = most[w][i];
    }
    printf("stack: at most %zu bytes, limit %d\n", deepest, LIMIT);
    return deepest > LIMIT;
}
