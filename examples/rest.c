/* Loops with a rest point, on one core: two blade loops look pitches up while the door publishes tables, on a rest store.

   Each of the three is a participant, reader and publisher under one number. It makes a whole checkpoint in each turn of its loop, where it uses no table.
   For a while blade 1 stays away from its rest point. Meanwhile nothing is freed, and the door, which has published twice, finds no slot.
   Each holds every pitch against a plain shelf of the program's own: the table last swapped in before its pick.
   The program ends with an error if one pitch differs or a call is refused that should not be.

   Without a seed each makes one call a round, in their order, and the program tells what they do. With a seed order and loops are drawn from it.

   rest [SEED] */
#include "rahuvyte.h"

#include <stdio.h>
#include <stdlib.h>
#include <string.h>

enum { BLADE_0, BLADE_1, DOOR, PARTICIPANTS };
enum { SLOTS = 3, ROUNDS = 162, LAST_ENTRY = RAHUVYTE_TABLE - 1 };

/* Looks in one turn of a blade's loop; one turn of blade 1 is long, its third. */
enum { LOOKS_0 = 4, LOOKS_1 = 14, LOOKS_LONG = 74, LONG_TURN = 3, LOOKS_DRAWN = 40 };

static const char *const names[PARTICIPANTS] = { "blade 0", "blade 1", "door" };

/* What a participant calls next. */
enum step { PICK, LOOK, CHECKPOINT, CLAIM, WRITE, SWAP, DEFER };

struct participant {
    enum step step;
    unsigned turns, looks;  /* of its loop: turns begun, and looks left in this one */
    int slot;               /* that it picked last; -1 before */
    uint16_t to_claim;      /* the door: the slot to try next */
    unsigned tried;         /* .. and how many were in use since its last checkpoint */
    int table, written;     /* .. and which table it writes, and pitches of it */
    unsigned former;        /* .. and the slot that it holds since its swap */
};

/* The plain shelf: it sees the calls and their replies and nothing of the store. */
struct shelf {
    int table[RAHUVYTE_TABLE];              /* the table last swapped in */
    int note[PARTICIPANTS][RAHUVYTE_TABLE]; /* what each participant picked */
    int draft[RAHUVYTE_TABLE];              /* what the door has written */
};

struct cabinet {
    uint64_t store[RAHUVYTE_WORDS];
    rahuvyte_pitch entries[SLOTS * RAHUVYTE_TABLE];
    struct participant participants[PARTICIPANTS];
    struct shelf shelf;
    unsigned round, looks, swaps, checkpoints, in_use;
    int drawn;       /* whether order and loops are drawn from a seed; then nothing is told */
    uint64_t random;
};

/* What every call is lent; making is lent the first table too. */
#define LENT(c) (c)->store, RAHUVYTE_WORDS, (c)->entries, RAHUVYTE_ENTRIES(SLOTS)

static void stop(const char *who, const char *what, struct rahuvyte_reply reply)
{
    fprintf(stderr, "rest: %s: %s: %s (%llu %llu %llu)\n", who, what, rahuvyte_meaning(reply.code), (unsigned long long)reply.code,
            (unsigned long long)reply.first, (unsigned long long)reply.second);
    exit(1);
}

/* A number below n, drawn from the cabinet's seed. */
static unsigned below(struct cabinet *c, unsigned n)
{
    c->random ^= c->random << 13;
    c->random ^= c->random >> 7;
    c->random ^= c->random << 17;
    return (unsigned)((c->random >> 32) % n);
}

/* A line of the trace: the round, the participant, and what it has just done. */
#define TELL(c, p, ...) \
    do { \
        if ((c)->drawn) \
            break; \
        printf("%5u  %-8s ", (c)->round, names[p]); \
        printf(__VA_ARGS__); \
        printf("\n"); \
    } while (0)

/* ---- The loop of a participant ---- */

/* How often a participant looks up a pitch in the turn of its loop that begins. */
static unsigned looks_of_turn(struct cabinet *c, uint16_t p)
{
    if (p == DOOR)
        return 1;
    if (c->drawn)
        return 1 + below(c, LOOKS_DRAWN);
    if (p == BLADE_0)
        return LOOKS_0;
    return c->participants[p].turns == LONG_TURN ? LOOKS_LONG : LOOKS_1;
}

static void picks(struct cabinet *c, uint16_t p)
{
    struct participant *x = &c->participants[p];
    const struct rahuvyte_reply reply = rahuvyte_pick(LENT(c), p);
    if (reply.code != RAHUVYTE_PICKED)
        stop(names[p], "pick", reply);
    memcpy(c->shelf.note[p], c->shelf.table, sizeof c->shelf.table);
    if (p != DOOR && x->slot != (int)reply.first)
        TELL(c, p, "picks slot %u", (unsigned)reply.first);
    x->slot = (int)reply.first;
    x->turns++;
    x->looks = looks_of_turn(c, p);
    x->step = LOOK;
}

static void looks(struct cabinet *c, uint16_t p)
{
    struct participant *x = &c->participants[p];
    const uint16_t k = p == DOOR ? LAST_ENTRY : (uint16_t)(c->round % RAHUVYTE_TABLE);
    const struct rahuvyte_reply reply = rahuvyte_look(LENT(c), p, k);
    if (reply.code != RAHUVYTE_PITCH || rahuvyte_pitch_of(reply) != c->shelf.note[p][k])
        stop(names[p], "look differs from the shelf", reply);
    if (p == DOOR)
        TELL(c, p, "looks up entry %u of its table: %d", (unsigned)k, (int)rahuvyte_pitch_of(reply));
    c->looks++;
    if (--x->looks == 0)
        x->step = p == DOOR ? DEFER : CHECKPOINT;
}

/* The rest point: all steps of a checkpoint, one call a turn. Here the library frees what this participant has deferred and nobody can look in any more. */
static void makes_checkpoint(struct cabinet *c, uint16_t p)
{
    const struct rahuvyte_reply reply = rahuvyte_checkpoint(LENT(c), p);
    if (reply.code != RAHUVYTE_AT)
        stop(names[p], "checkpoint", reply);
    if (reply.first != RAHUVYTE_CHECKPOINT_STEPS(PARTICIPANTS))
        return;
    if (p == DOOR)
        TELL(c, p, "ends its checkpoint");
    c->checkpoints++;
    c->participants[p].tried = 0;
    c->participants[p].step = p == DOOR ? CLAIM : PICK;
}

/* ---- A publication of the door ---- */

/* Any slot will do: one that is in use is refused, and the next is tried. If all are in use, the door goes to its rest point, and tries again behind it. */
static void claims(struct cabinet *c, uint16_t p)
{
    struct participant *x = &c->participants[p];
    const struct rahuvyte_reply reply = rahuvyte_claim(LENT(c), p, x->to_claim);
    x->to_claim = (uint16_t)((x->to_claim + 1) % SLOTS);
    if (reply.code == RAHUVYTE_CLAIMED) {
        TELL(c, p, "claims slot %u", (unsigned)reply.first);
        x->table++;
        x->written = 0;
        x->step = WRITE;
        return;
    }
    if (reply.code != RAHUVYTE_SLOT_IN_USE)
        stop(names[p], "claim", reply);
    c->in_use++;
    if (++x->tried == SLOTS) {
        TELL(c, p, "finds no free slot");
        x->step = CHECKPOINT;
    }
}

static void writes(struct cabinet *c, uint16_t p)
{
    struct participant *x = &c->participants[p];
    const int k = x->written, v = 1000 * k + 100 * (x->table % 10);
    const struct rahuvyte_reply reply = rahuvyte_write(LENT(c), p, (rahuvyte_pitch)v);
    if (reply.code != RAHUVYTE_WRITTEN || reply.first != (uint64_t)k + 1)
        stop(names[p], "write", reply);
    c->shelf.draft[k] = v;
    x->written = k + 1;
    if (x->written == RAHUVYTE_TABLE)
        x->step = SWAP;
}

static void swaps(struct cabinet *c, uint16_t p)
{
    const struct rahuvyte_reply reply = rahuvyte_swap(LENT(c), p);
    if (reply.code != RAHUVYTE_SWAPPED)
        stop(names[p], "swap", reply);
    memcpy(c->shelf.table, c->shelf.draft, sizeof c->shelf.table);
    TELL(c, p, "swaps its table in; holds slot %u now", (unsigned)reply.first);
    c->participants[p].former = (unsigned)reply.first;
    c->participants[p].step = PICK;
    c->swaps++;
}

/* Two calls. Between them the door makes no other. With so few slots there are never eight deferred: TOO_MANY_DEFERRED does not come up. */
static void defers(struct cabinet *c, uint16_t p)
{
    const struct rahuvyte_reply reply = rahuvyte_defer(LENT(c), p);
    if (reply.code != RAHUVYTE_AT)
        stop(names[p], "defer", reply);
    if (reply.first == RAHUVYTE_PLACE_DEFERRING) {
        TELL(c, p, "drops its pick and raises the epoch");
        return;
    }
    TELL(c, p, "has deferred slot %u", c->participants[p].former);
    c->participants[p].step = CHECKPOINT;
}

static void take_turn(struct cabinet *c, uint16_t p)
{
    switch (c->participants[p].step) {
    case PICK: picks(c, p); break;
    case LOOK: looks(c, p); break;
    case CHECKPOINT: makes_checkpoint(c, p); break;
    case CLAIM: claims(c, p); break;
    case WRITE: writes(c, p); break;
    case SWAP: swaps(c, p); break;
    case DEFER: defers(c, p); break;
    }
}

/* ---- The executive ---- */

/* A fresh store of feathered blades, every participant at its beginning, the first table on the shelf. */
static void make_cabinet(struct cabinet *c)
{
    rahuvyte_pitch first_table[RAHUVYTE_TABLE];
    for (int k = 0; k < RAHUVYTE_TABLE; k++)
        c->shelf.table[k] = first_table[k] = RAHUVYTE_FEATHERED;
    for (int p = 0; p < PARTICIPANTS; p++) {
        c->participants[p].step = p == DOOR ? CLAIM : PICK;
        c->participants[p].slot = -1;
    }
    const struct rahuvyte_reply reply =
        rahuvyte_make(LENT(c), first_table, RAHUVYTE_TABLE, RAHUVYTE_KIND_REST, PARTICIPANTS, PARTICIPANTS, SLOTS, 0);
    if (reply.code != RAHUVYTE_MADE)
        stop("rest", "make", reply);
}

static void run_rounds(struct cabinet *c)
{
    for (c->round = 1; c->round <= ROUNDS; c->round++)
        for (uint16_t p = 0; p < PARTICIPANTS; p++)
            take_turn(c, c->drawn ? (uint16_t)below(c, PARTICIPANTS) : p);
}

int main(int argc, char **argv)
{
    static struct cabinet c;
    c.drawn = argc > 1;
    c.random = c.drawn ? 2 * strtoull(argv[1], NULL, 10) + 1 : 0;
    make_cabinet(&c);
    run_rounds(&c);
    if (c.looks == 0 || c.swaps == 0 || c.checkpoints < PARTICIPANTS) {
        fprintf(stderr, "rest: too little happened\n");
        return 1;
    }
    printf("rounds %d; looks %u, all as on the shelf; tables swapped in %u; checkpoints %u; slots found in use %u\n", ROUNDS, c.looks, c.swaps,
           c.checkpoints, c.in_use);
    return 0;
}
