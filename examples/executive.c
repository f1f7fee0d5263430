/* An executive on one core: three blade loops look pitches up while door, supervisor and ice detector publish tables.

   The tasks get their turns in a shuffled order, drawn from a seed. A task is a small state machine that makes one call a turn.
   Each blade holds every pitch against a plain shelf of the executive's own: the table last swapped in before the blade's pick.
   The program ends with an error if one pitch differs or a call is refused that should not be.

   executive [SEED] */
#include "rahuvyte.h"

#include <stdio.h>
#include <stdlib.h>
#include <string.h>

enum { BLADES = 3, PUBLISHERS = 3, TASKS = BLADES + PUBLISHERS, SLOTS = PUBLISHERS + 1 };
enum { ROUNDS = 3, TURNS = 64 /* of each task in a round */, LOOKS_MAX = 8 /* of a section */, WALK_LOOKS = 2 /* of one call */ };

static const char *const blade_names[BLADES] = { "blade 0", "blade 1", "blade 2" };
static const char *const publisher_names[PUBLISHERS] = { "door", "supervisor", "ice detector" };

/* What a publisher calls next. */
enum step { CLAIM, WRITE, SWAP, SYNC, RAISE, WALK, RELEASE };

struct blade {
    int picked;       /* whether it is in a section, with a table picked */
    unsigned looks;   /* left in this section */
};

struct publisher {
    enum step step;
    uint16_t slot;    /* claimed, or the one to try */
    int noted;        /* whether the trace has it already that it is put off, or waits */
    int start, slope; /* of the table that it writes */
    int written;      /* pitches of it */
};

/* The plain shelf: it sees the calls and their replies and nothing of the store. */
struct shelf {
    int table[RAHUVYTE_TABLE];             /* the table last swapped in */
    int note[BLADES][RAHUVYTE_TABLE];      /* what each blade picked */
    int draft[PUBLISHERS][RAHUVYTE_TABLE]; /* what each publisher has written */
};

struct counts {
    unsigned looks, swaps, waits, freed;
};

struct cabinet {
    uint64_t store[RAHUVYTE_WORDS];
    rahuvyte_pitch entries[SLOTS * RAHUVYTE_TABLE];
    uint16_t kind;
    struct blade blades[BLADES];
    struct publisher publishers[PUBLISHERS];
    struct shelf shelf;
    struct counts all;
    unsigned turns;
    uint64_t random;
};

/* What every call is lent; making is lent the first table too. */
#define LENT(c) (c)->store, RAHUVYTE_WORDS, (c)->entries, RAHUVYTE_ENTRIES(SLOTS)

static void stop(const char *who, const char *what, struct rahuvyte_reply reply)
{
    fprintf(stderr, "executive: %s: %s: %s (%llu %llu %llu)\n", who, what, rahuvyte_meaning(reply.code), (unsigned long long)reply.code,
            (unsigned long long)reply.first, (unsigned long long)reply.second);
    exit(1);
}

/* A number below n, drawn from the cabinet's seed. */
static unsigned below(struct cabinet *c, unsigned n)
{
    c->random ^= c->random << 13;
    c->random ^= c->random >> 7;
    c->random ^= c->random << 17;
    return (unsigned)((c->random >> 32) % n);
}

/* A line of the trace: the turn, the publisher, and what it has just done. */
#define TOLD(c, p, ...) \
    do { \
        printf("%5u  %-12s ", (c)->turns, publisher_names[p]); \
        printf(__VA_ARGS__); \
        printf("\n"); \
    } while (0)

/* ---- A blade loop ---- */

static void blade_enters(struct cabinet *c, uint16_t r)
{
    const struct rahuvyte_reply reply = rahuvyte_enter(LENT(c), r);
    if (reply.code != RAHUVYTE_AT)
        stop(blade_names[r], "enter", reply);
    if (reply.first != RAHUVYTE_PLACE_PICKED)
        return;
    memcpy(c->shelf.note[r], c->shelf.table, sizeof c->shelf.table);
    c->blades[r].picked = 1;
    c->blades[r].looks = 1 + below(c, LOOKS_MAX);
}

static void blade_looks(struct cabinet *c, uint16_t r)
{
    const uint16_t k = (uint16_t)below(c, RAHUVYTE_TABLE);
    const struct rahuvyte_reply reply = rahuvyte_look(LENT(c), r, k);
    if (reply.code != RAHUVYTE_PITCH || rahuvyte_pitch_of(reply) != c->shelf.note[r][k])
        stop(blade_names[r], "look differs from the shelf", reply);
    c->blades[r].looks--;
    c->all.looks++;
}

static void blade_leaves(struct cabinet *c, uint16_t r)
{
    const struct rahuvyte_reply reply = rahuvyte_leave(LENT(c), r);
    if (reply.code != RAHUVYTE_LEFT)
        stop(blade_names[r], "leave", reply);
    c->blades[r].picked = 0;
}

static void blade_turn(struct cabinet *c, uint16_t r)
{
    if (!c->blades[r].picked)
        blade_enters(c, r);
    else if (c->blades[r].looks > 0)
        blade_looks(c, r);
    else
        blade_leaves(c, r);
}

/* ---- A publisher ---- */

/* Any slot will do: one that is in use is refused, and the next is tried a turn later.
   On the old store a claim while another publishes is refused too, and tried again later. */
static void publisher_claims(struct cabinet *c, uint16_t p)
{
    struct publisher *y = &c->publishers[p];
    const struct rahuvyte_reply reply = rahuvyte_claim(LENT(c), p, y->slot);
    switch (reply.code) {
    case RAHUVYTE_CLAIMED:
        TOLD(c, p, "claims slot %u", (unsigned)reply.first);
        y->start = (int)below(c, 2000) + RAHUVYTE_PITCH_LOW;
        y->slope = 2000 + (int)below(c, 1000);
        y->written = 0;
        y->step = WRITE;
        y->noted = 0;
        break;
    case RAHUVYTE_SLOT_IN_USE:
        y->slot = (uint16_t)((y->slot + 1) % SLOTS);
        break;
    case RAHUVYTE_BUSY:
        if (!y->noted)
            TOLD(c, p, "is refused, since another publishes; tries again later");
        y->noted = 1;
        break;
    default:
        stop(publisher_names[p], "claim", reply);
    }
}

static void publisher_writes(struct cabinet *c, uint16_t p)
{
    struct publisher *y = &c->publishers[p];
    const int k = y->written, v = y->start + y->slope * k;
    const struct rahuvyte_reply reply = rahuvyte_write(LENT(c), p, (rahuvyte_pitch)v);
    if (reply.code != RAHUVYTE_WRITTEN || reply.first != (uint64_t)k + 1)
        stop(publisher_names[p], "write", reply);
    c->shelf.draft[p][k] = v;
    y->written = k + 1;
    if (y->written == RAHUVYTE_TABLE)
        y->step = SWAP;
}

static void publisher_swaps(struct cabinet *c, uint16_t p)
{
    const struct rahuvyte_reply reply = rahuvyte_swap(LENT(c), p);
    if (reply.code != RAHUVYTE_SWAPPED)
        stop(publisher_names[p], "swap", reply);
    memcpy(c->shelf.table, c->shelf.draft[p], sizeof c->shelf.table);
    TOLD(c, p, "swaps its table in; holds slot %u now", (unsigned)reply.first);
    c->publishers[p].step = SYNC;
    c->all.swaps++;
}

static void publisher_syncs(struct cabinet *c, uint16_t p)
{
    const struct rahuvyte_reply reply = rahuvyte_sync(LENT(c), p);
    if (reply.code != RAHUVYTE_SYNCED)
        stop(publisher_names[p], "sync", reply);
    TOLD(c, p, "synchronises with mark %u", (unsigned)reply.first);
    c->publishers[p].step = c->kind == RAHUVYTE_KIND_NEW ? RAISE : WALK;
}

static void publisher_raises(struct cabinet *c, uint16_t p)
{
    const struct rahuvyte_reply reply = rahuvyte_raise(LENT(c), p);
    if (reply.code != RAHUVYTE_RAISED && reply.code != RAHUVYTE_SHARED)
        stop(publisher_names[p], "raise", reply);
    TOLD(c, p, reply.code == RAHUVYTE_RAISED ? "raises the version" : "finds the version raised, and shares the wait");
    c->publishers[p].step = WALK;
}

static void publisher_walks(struct cabinet *c, uint16_t p)
{
    struct publisher *y = &c->publishers[p];
    const struct rahuvyte_reply reply = rahuvyte_walk(LENT(c), p, WALK_LOOKS);
    switch (reply.code) {
    case RAHUVYTE_WAITING:
        if (!y->noted)
            TOLD(c, p, c->kind == RAHUVYTE_KIND_NEW ? "waits for blade %u" : "waits at indicator %u", (unsigned)reply.first);
        y->noted = 1;
        c->all.waits++;
        break;
    case RAHUVYTE_SPENT:
        break;
    case RAHUVYTE_QUIET:
        TOLD(c, p, "finds its indicator quiet");
        y->step = RAISE;
        y->noted = 0;
        break;
    case RAHUVYTE_RETURNED:
        TOLD(c, p, "returns; looks %u, waits %u", (unsigned)reply.first, (unsigned)reply.second);
        y->step = RELEASE;
        y->noted = 0;
        break;
    default:
        stop(publisher_names[p], "walk", reply);
    }
}

static void publisher_releases(struct cabinet *c, uint16_t p)
{
    const struct rahuvyte_reply reply = rahuvyte_release(LENT(c), p);
    if (reply.code != RAHUVYTE_FREED)
        stop(publisher_names[p], "release", reply);
    TOLD(c, p, "frees slot %u; publications so far: %u", (unsigned)reply.first, (unsigned)reply.second);
    c->publishers[p].slot = (uint16_t)reply.first;
    c->publishers[p].step = CLAIM;
    c->all.freed++;
}

static void publisher_turn(struct cabinet *c, uint16_t p)
{
    switch (c->publishers[p].step) {
    case CLAIM: publisher_claims(c, p); break;
    case WRITE: publisher_writes(c, p); break;
    case SWAP: publisher_swaps(c, p); break;
    case SYNC: publisher_syncs(c, p); break;
    case RAISE: publisher_raises(c, p); break;
    case WALK: publisher_walks(c, p); break;
    case RELEASE: publisher_releases(c, p); break;
    }
}

/* ---- The executive ---- */

/* The table that the store starts with: here feathered blades. A site has its blade maker's pitches here. */
static void fill_first_table(rahuvyte_pitch first_table[RAHUVYTE_TABLE])
{
    for (int k = 0; k < RAHUVYTE_TABLE; k++)
        first_table[k] = RAHUVYTE_FEATHERED;
}

/* A fresh store, every task at its beginning, the first table on the shelf. Making reads the first table and keeps nothing of it. */
static void make_cabinet(struct cabinet *c, uint16_t kind, uint64_t seed)
{
    rahuvyte_pitch first_table[RAHUVYTE_TABLE];
    fill_first_table(first_table);
    memset(c, 0, sizeof *c);
    c->kind = kind;
    c->random = 2 * seed + 1;
    for (int k = 0; k < RAHUVYTE_TABLE; k++)
        c->shelf.table[k] = first_table[k];
    const struct rahuvyte_reply reply = rahuvyte_make(LENT(c), first_table, RAHUVYTE_TABLE, kind, BLADES, PUBLISHERS, SLOTS, 0);
    if (reply.code != RAHUVYTE_MADE)
        stop("executive", "make", reply);
}

/* TURNS turns of each task, in a shuffled order. */
static void shuffle_turns(struct cabinet *c, uint16_t order[TASKS * TURNS])
{
    for (unsigned i = 0; i < TASKS * TURNS; i++)
        order[i] = (uint16_t)(i % TASKS);
    for (unsigned i = TASKS * TURNS - 1; i > 0; i--) {
        const unsigned j = below(c, i + 1);
        const uint16_t task = order[i];
        order[i] = order[j];
        order[j] = task;
    }
}

static void run_round(struct cabinet *c, int round)
{
    const struct counts before = c->all;
    uint16_t order[TASKS * TURNS];
    shuffle_turns(c, order);
    for (int i = 0; i < TASKS * TURNS; i++) {
        c->turns++;
        if (order[i] < BLADES)
            blade_turn(c, order[i]);
        else
            publisher_turn(c, (uint16_t)(order[i] - BLADES));
    }
    printf("round %d: turns %d; looks %u, all as on the shelf; tables swapped in %u; waits %u; slots freed %u\n", round, TASKS * TURNS,
           c->all.looks - before.looks, c->all.swaps - before.swaps, c->all.waits - before.waits, c->all.freed - before.freed);
}

static void run_kind(uint16_t kind, const char *name, uint64_t seed)
{
    static struct cabinet c;
    printf("%s store\n", name);
    make_cabinet(&c, kind, seed);
    for (int round = 1; round <= ROUNDS; round++)
        run_round(&c, round);
    if (c.all.looks == 0 || c.all.freed < PUBLISHERS) {
        fprintf(stderr, "executive: too little happened\n");
        exit(1);
    }
    printf("%s store: looks %u, all as on the shelf; publications ended %u\n", name, c.all.looks, c.all.freed);
}

int main(int argc, char **argv)
{
    const uint64_t seed = argc > 1 ? strtoull(argv[1], NULL, 10) : 2;
    run_kind(RAHUVYTE_KIND_NEW, "new", seed);
    printf("\n");
    run_kind(RAHUVYTE_KIND_OLD, "old", seed);
    return 0;
}
