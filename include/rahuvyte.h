/* Rahuvyte: a store for the pitch tables of a wind turbine.

   A table has 32 pitches. PUBLISHERS (tower door, supervisor, ice detector) write a new table and swap it in;
   READERS (the blade loops) look pitches up. A reader never waits, and never sees parts of two tables.

   A PITCH IS IN THOUSANDTHS OF A DEGREE, in 32 bits. Before 0.3.0 it was in hundredths, in 16 bits: MULTIPLY EVERY TABLE AND EVERY CARD BY TEN.
   No call can notice a factor that was forgotten: 9000 was 90 degrees, and is a good pitch of 9 degrees now.

   You lend the store two arrays and keep them for as long as you use it:
     uint64_t store[RAHUVYTE_WORDS]                          its numbers; no need to look inside
     rahuvyte_pitch entries[RAHUVYTE_ENTRIES(slots)]         its tables, one for each slot
   Making is lent a third array for its own time, the first table: 32 pitches with which every slot starts.
   The library keeps nothing of its own: no allocation, no global data. Stores in different arrays know nothing of each other.

   A store has one of three kinds, fixed when it is made. The calls of a kind:

   New and old store
     a reader, again and again:   ENTER until the reply is AT with RAHUVYTE_PLACE_PICKED .. LOOK, as often as it likes .. LEAVE
     a publisher, new store:      CLAIM a slot .. WRITE 32 pitches .. SWAP .. SYNC .. RAISE .. WALK until RETURNED .. RELEASE
     a publisher, old store:      CLAIM a slot .. WRITE 32 pitches .. SWAP .. SYNC .. WALK until QUIET .. RAISE .. WALK until RETURNED .. RELEASE
   Rest store
     each participant, each turn: PICK .. LOOK, as often as it likes .. CHECKPOINT until the reply is AT with RAHUVYTE_CHECKPOINT_STEPS(participants)
     .. and to publish:           CLAIM a slot .. WRITE 32 pitches .. SWAP .. DEFER .. DEFER
   Each of these is one short call. Between any two calls the executive may run any other task.

   Which kind to choose:
     NEW    unless you have a reason for another. Readers enter and leave; publishers publish side by side and share the wait for readers.
     OLD    to match a cabinet that has it. One publisher at a time; any other is refused as busy.
     REST   for loops with a natural rest point each turn, where they use no table. They never enter and never leave: PICK is one call, and nobody waits for anybody.
            A participant is reader and publisher under one number; there are as many of one as of the other. To retire a table is to DEFER its slot, and the
            slot is freed by a later CHECKPOINT of the same participant, once every participant has been at rest since. NOTHING IS FREED UNLESS EVERY PARTICIPANT
            KEEPS MAKING CHECKPOINTS: one that stops keeps all slots that are deferred after its last one, and publishers find no slot any more. A loop that may
            stop for long, or has no rest point, belongs into a new store. In the field's terms this is quiescent-state-based reclamation, QSBR.

   A call that cannot be done now, or makes no sense, is REFUSED: the reply says why by a number below 100,
   and store and entries stay as they were. You need not check anything before a call.

   One core: calls run one after another. They must not overlap on one store (no second thread, no call from an
   interrupt that came in the middle of another call). Every pointer must be good for the length given with it,
   no two of the lent arrays may overlap, and a null pointer is allowed only with length 0.

   Recompile whatever includes this header: an object compiled with an older one still links. A store has 713 words; before 0.4.0 it had 425.
   An object that lends the RAHUVYTE_WORDS of then lends too few: its makings and its calls get 1, and nothing is changed. A store of 425 words gets 1, whoever lends it.
   Not noticed:
     - an array of words that such an object defines, or that is sized in bytes, if a recompiled object lends it as 713 words: making writes beyond its end;
     - from before 0.3.0 also such an array of entries, or such a first table: entries take slots x 128 bytes, then slots x 64, and a first table 128, then 64;
     - a LOOK or WRITE from before 0.3.0 that lends a length which a recompiled object handed to it: its pitches are cut to 16 bits, and in hundredths.
       A making gets 1 even so: its kind, or from 0.1.0 its publishers (1 to 16) in that place, is none of today's.

   In the project's folder docs/C-INTERFACE.md has examples, tables and questions, and docs/LAYOUT.md the words of a store one by one.

   C99 or later, and C++11 or later. The archive is for x86-64 Linux. */
#ifndef RAHUVYTE_H
#define RAHUVYTE_H

#include <stddef.h>
#include <stdint.h>

#define RAHUVYTE_VERSION_MAJOR 0
#define RAHUVYTE_VERSION_MINOR 5
#define RAHUVYTE_VERSION_PATCH 0
#define RAHUVYTE_VERSION "0.5.0"

#ifdef __cplusplus
extern "C" {
#endif

/* ---- Numbers ---- */

/* A pitch, in thousandths of a degree: 90000 is 90 degrees. */
typedef int32_t rahuvyte_pitch;

#define RAHUVYTE_PITCH_LOW (-5000)
#define RAHUVYTE_PITCH_HIGH 95000
/* The pitch of a feathered blade. No store starts with it by itself: a first table may have it. */
#define RAHUVYTE_FEATHERED 90000
/* Two neighbours of a first table may differ by so much. */
#define RAHUVYTE_STEP_MAX 15000

/* Words of a store, of any kind and any size. */
#define RAHUVYTE_WORDS 713
/* Pitches of one table, and of all tables of a store. */
#define RAHUVYTE_TABLE 32
#define RAHUVYTE_ENTRIES(slots) ((size_t)(slots) * RAHUVYTE_TABLE)

/* The sizes that a store can be made with: 1 reader and 1 publisher at least. A rest store has as many readers as publishers, its participants: 1 to 16. */
#define RAHUVYTE_READERS_MAX 64
#define RAHUVYTE_PUBLISHERS_MAX 16
#define RAHUVYTE_SLOTS_MIN 2
#define RAHUVYTE_SLOTS_MAX 32

/* The kinds of store. New: publishers publish side by side. Old: one at a time, any other is refused as busy. Rest: readers never enter, and have a rest point each turn.
   A kind's number carries the format of words and entries: 16 x format + 1 new, + 2 old, + 3 rest. This is format 1; 0.1.0 and 0.2.0 had format 0. */
#define RAHUVYTE_KIND_NEW 17
#define RAHUVYTE_KIND_OLD 18
#define RAHUVYTE_KIND_REST 19

/* The last version of a new and of a rest store: the greatest first version at making, and the one at which SYNC, or in a rest store the first DEFER of a table, is refused.
   A rest store's version is its epoch. An old store has no last version: its versions run modulo 2^64, so 0 follows UINT64_MAX. (RAHUVYTE_LAST_OLD is gone since 0.5.0.) */
#define RAHUVYTE_LAST_NEW (UINT64_MAX - 1)
#define RAHUVYTE_LAST_REST UINT64_MAX

/* Rest store: so many slots of one participant may be deferred, and so many CHECKPOINTs make a whole one. */
#define RAHUVYTE_DEFERRED_MAX 8
#define RAHUVYTE_CHECKPOINT_STEPS(participants) ((uint64_t)(participants) + 2)

/* What each reader of a fresh new or old store has published, and in a new store each reader that is out: a number among the store's words. */
#define RAHUVYTE_NOT_READING UINT64_MAX

/* ---- Places ---- */

/* Where a reader stands. ENTER's reply AT has it, from 1 on. In a rest store a reader is at PLACE_OUT or at PLACE_PICKED. */
enum {
    RAHUVYTE_PLACE_OUT = 0,          /* in no section, and not on the way into one; rest store: it has no table picked */
    RAHUVYTE_PLACE_LOADED = 1,       /* on the way in: it has loaded the version */
    RAHUVYTE_PLACE_PUBLISHED = 2,    /* new store only: it has published the version that it loaded */
    RAHUVYTE_PLACE_LOADED_AGAIN = 3, /* new store only: it has loaded the version again */
    RAHUVYTE_PLACE_OPEN = 4,         /* its section is open; no table is picked yet */
    RAHUVYTE_PLACE_PICKED = 5        /* a table is picked, in new and old stores in its open section: LOOK is allowed */
};

/* Where a publisher stands. DEFER's reply AT has it; otherwise no reply does, and it is one of the store's words, for whoever looks there. */
enum {
    RAHUVYTE_PLACE_IDLE = 0,           /* it holds no slot; rest store: it may have deferred some */
    RAHUVYTE_PLACE_CLAIMED = 1,        /* 1 to 32: it holds the slot that it claimed, and has written place - 1 pitches */
    RAHUVYTE_PLACE_WRITTEN = 33,       /* it has written all 32 pitches */
    RAHUVYTE_PLACE_SWAPPED = 34,       /* its table is swapped in; from here to 38 it holds the slot that was current before */
    RAHUVYTE_PLACE_SYNCHRONISING = 35, /* new and old store: it has a mark */
    RAHUVYTE_PLACE_DEFERRING = 35,     /* rest store, its last place: it has a mark, the raised epoch; one more DEFER queues the slot with it */
    RAHUVYTE_PLACE_QUIET = 36,         /* old store only: a WALK has replied QUIET */
    RAHUVYTE_PLACE_RAISED = 37,        /* new and old store: the version has reached its mark */
    RAHUVYTE_PLACE_RETURNED = 38       /* new and old store: every section that was open at its SYNC has been left */
};

/* ---- Replies ---- */

/* Every call's reply. code says which; first and second are its values, 0 where it has none. */
struct rahuvyte_reply {
    uint64_t code;
    uint64_t first;
    uint64_t second;
};

/* The codes of accepted calls, from 100. In brackets: first, second. */
enum {
    RAHUVYTE_MADE = 100,
    RAHUVYTE_AT = 101,       /* (ENTER: place of the reader; CHECKPOINT: its step; DEFER: place of the publisher) */
    RAHUVYTE_PITCH = 102,    /* (pitch) a negative pitch v is 2^64 + v: take it by rahuvyte_pitch_of */
    RAHUVYTE_LEFT = 103,
    RAHUVYTE_CLAIMED = 104,  /* (slot) */
    RAHUVYTE_WRITTEN = 105,  /* (pitches written so far) */
    RAHUVYTE_SWAPPED = 106,  /* (the slot that was current until now) */
    RAHUVYTE_SYNCED = 107,   /* (mark: the version plus 1, in an old store modulo 2^64) */
    RAHUVYTE_RAISED = 108,
    RAHUVYTE_SHARED = 109,
    RAHUVYTE_WAITING = 110,  /* (new: the reader waited for; old: the indicator, 0 or 1) */
    RAHUVYTE_SPENT = 111,
    RAHUVYTE_QUIET = 112,
    RAHUVYTE_RETURNED = 113, /* (looks, waits) */
    RAHUVYTE_FREED = 114,    /* (slot, releases so far) */
    RAHUVYTE_PICKED = 115    /* (slot) */
};

/* The numbers of refusals, below 100. A refused call has changed nothing. */
enum {
    RAHUVYTE_DAMAGED = 1,            /* not a store: store_len is not 713, or unknown kind; but for making also a call that the kind lacks, a wrong entries_len or a number out of its range */
    RAHUVYTE_BAD_READERS = 2,        /* making: readers not 1 to 64 */
    RAHUVYTE_BAD_PUBLISHERS = 3,     /* making: publishers not 1 to 16; rest store: or not as many as readers */
    RAHUVYTE_BAD_SLOTS = 4,          /* making: slots not 2 to 32 */
    RAHUVYTE_BAD_ENTRIES = 5,        /* making: entries not slots x 32 */
    RAHUVYTE_BAD_VERSION = 6,        /* making, new store: first version above the last */
    RAHUVYTE_NO_SUCH_READER = 10,
    RAHUVYTE_NO_SUCH_PUBLISHER = 11,
    RAHUVYTE_NO_SUCH_SLOT = 12,
    RAHUVYTE_NO_SUCH_ENTRY = 13,     /* entry above 31 */
    RAHUVYTE_BAD_PITCH = 14,         /* pitch not -5000 to 95000 */
    RAHUVYTE_READER_TURN = 20,       /* the reader is at a place where this call is not allowed */
    RAHUVYTE_PUBLISHER_TURN = 21,    /* the publisher is at a place where this call is not allowed */
    RAHUVYTE_SLOT_IN_USE = 30,       /* CLAIM: the slot is current, or a publisher holds it; rest store: or has deferred it */
    RAHUVYTE_BUSY = 31,              /* CLAIM, old store: another publisher is publishing */
    RAHUVYTE_VERSION_IS_LAST = 32,   /* SYNC, new store: no version is left */
    RAHUVYTE_TOO_MANY_LOOKS = 33,    /* WALK: looks + b would pass 2^64 - 1 */
    RAHUVYTE_BAD_TABLE_LENGTH = 40,  /* making: the first table has not 32 entries */
    RAHUVYTE_BAD_TABLE_PITCH = 41,   /* making: an entry of the first table is not -5000 to 95000 */
    RAHUVYTE_BAD_TABLE_STEP = 42,    /* making: two neighbours of the first table differ by more than 15000 */
    RAHUVYTE_EPOCH_IS_LAST = 43,     /* DEFER after SWAP: no epoch is left */
    RAHUVYTE_TOO_MANY_DEFERRED = 44  /* DEFER after SWAP: eight slots of this participant are deferred already */
};

/* 1 if the call was accepted, 0 if it was refused. */
static inline int rahuvyte_accepted(struct rahuvyte_reply reply)
{
    return reply.code >= RAHUVYTE_MADE;
}

/* The pitch of a reply RAHUVYTE_PITCH, its sign restored. Means nothing for other replies. */
static inline rahuvyte_pitch rahuvyte_pitch_of(struct rahuvyte_reply reply)
{
    const uint32_t low = (uint32_t)(reply.first & UINT32_MAX);
    return low <= INT32_MAX ? (rahuvyte_pitch)low : -(rahuvyte_pitch)(UINT32_MAX - low) - 1;
}

/* A code in words, accepted or refused. Never null; a fixed text that nobody has to free. */
static inline const char *rahuvyte_meaning(uint64_t code)
{
    switch (code) {
    case RAHUVYTE_DAMAGED: return "damaged store, wrong length, unknown kind or a call that the kind lacks";
    case RAHUVYTE_BAD_READERS: return "readers out of range";
    case RAHUVYTE_BAD_PUBLISHERS: return "publishers out of range, or not as many as readers";
    case RAHUVYTE_BAD_SLOTS: return "slots out of range";
    case RAHUVYTE_BAD_ENTRIES: return "wrong number of entries";
    case RAHUVYTE_BAD_VERSION: return "first version above the last";
    case RAHUVYTE_NO_SUCH_READER: return "no such reader";
    case RAHUVYTE_NO_SUCH_PUBLISHER: return "no such publisher";
    case RAHUVYTE_NO_SUCH_SLOT: return "no such slot";
    case RAHUVYTE_NO_SUCH_ENTRY: return "no such entry";
    case RAHUVYTE_BAD_PITCH: return "pitch out of range";
    case RAHUVYTE_READER_TURN: return "not this reader's turn";
    case RAHUVYTE_PUBLISHER_TURN: return "not this publisher's turn";
    case RAHUVYTE_SLOT_IN_USE: return "slot in use";
    case RAHUVYTE_BUSY: return "another publisher is busy";
    case RAHUVYTE_VERSION_IS_LAST: return "version is the last";
    case RAHUVYTE_TOO_MANY_LOOKS: return "too many looks";
    case RAHUVYTE_BAD_TABLE_LENGTH: return "wrong number of entries in the first table";
    case RAHUVYTE_BAD_TABLE_PITCH: return "entry of the first table out of range";
    case RAHUVYTE_BAD_TABLE_STEP: return "neighbours in the first table too far apart";
    case RAHUVYTE_EPOCH_IS_LAST: return "epoch is the last";
    case RAHUVYTE_TOO_MANY_DEFERRED: return "too many slots deferred";
    case RAHUVYTE_MADE: return "made";
    case RAHUVYTE_AT: return "at a place or step";
    case RAHUVYTE_PITCH: return "pitch";
    case RAHUVYTE_LEFT: return "left";
    case RAHUVYTE_CLAIMED: return "slot claimed";
    case RAHUVYTE_WRITTEN: return "pitch written";
    case RAHUVYTE_SWAPPED: return "table swapped in";
    case RAHUVYTE_SYNCED: return "synchronising";
    case RAHUVYTE_RAISED: return "version raised";
    case RAHUVYTE_SHARED: return "version raised by another";
    case RAHUVYTE_WAITING: return "waiting for a reader";
    case RAHUVYTE_SPENT: return "looks spent";
    case RAHUVYTE_QUIET: return "indicator quiet";
    case RAHUVYTE_RETURNED: return "all waited for have left";
    case RAHUVYTE_FREED: return "slot freed";
    case RAHUVYTE_PICKED: return "table picked";
    default: return "no code of this library";
    }
}

/* ---- Making ---- */

/* Makes a fresh store in the lent arrays, whatever they held: every slot has the first table, slot 0 is current, everyone is out.
   table is the first table, such as the blade maker's card: table_len is RAHUVYTE_TABLE, each pitch -5000 to 95000, and neighbours, entries k
   and k + 1, differ by at most RAHUVYTE_STEP_MAX. It is read during this call alone and not kept; afterwards you may change it or let it go.
   It must not overlap store or entries: lending entries itself as the table is the likely mistake.
   kind is RAHUVYTE_KIND_NEW, RAHUVYTE_KIND_OLD or RAHUVYTE_KIND_REST; version is the first version, 0 unless you have a reason.
   New store: for publishers that publish side by side take slots >= publishers + 1, so that there is always one to claim.
   Rest store: readers and publishers are the same number, that of the participants. Deferred slots are in use too: take one slot for the current table, one for each
   participant that publishes, and one for each table that is published while the slowest loop makes two turns, or three where a checkpoint is spread over a turn.
   Reply: MADE. Refused, tested in this order: DAMAGED (store_len is not RAHUVYTE_WORDS, or no such kind), BAD_READERS,
   BAD_PUBLISHERS (rest store: also if they are not as many as readers), BAD_SLOTS, BAD_ENTRIES (entries_len is not slots x 32), BAD_VERSION (new store
   alone), BAD_TABLE_LENGTH (table_len is not 32; so a null table with length 0), BAD_TABLE_PITCH (of all entries, before any neighbours are compared), BAD_TABLE_STEP.
   A refused making leaves store, entries and table as lent.
   It does not ask whether a store was there before: tables and sections of that one are gone. */
struct rahuvyte_reply rahuvyte_make(uint64_t *store, size_t store_len, rahuvyte_pitch *entries, size_t entries_len,
                                    const rahuvyte_pitch *table, size_t table_len,
                                    uint16_t kind, uint16_t readers, uint16_t publishers, uint16_t slots, uint64_t version);

/* All calls below take the store and entries as the call before left them, with the lengths that the store was made with.
   Each is refused with DAMAGED before anything else is tested if these are not a store: a store_len other than RAHUVYTE_WORDS,
   an unknown kind, an entries_len other than slots x 32, or numbers out of their range. So is a call that the store's kind lacks:
   new and old stores lack PICK, CHECKPOINT and DEFER; a rest store lacks ENTER, LEAVE, SYNC, RAISE, WALK and RELEASE. */

/* ---- Calls of a reader; r is its number, from 0 ---- */

/* ENTER (new and old store): one step on the way into a section. Repeat it until the reply is AT with RAHUVYTE_PLACE_PICKED.
   Reply: AT with the place: 1, 2, 3, 4, 5 in the new store, 1, 4, 5 in the old. The step to PLACE_PICKED (5) picks the table that is
   current at that moment; the section keeps it until LEAVE, whatever publishers do. Never waits for a publisher.
   Refused: DAMAGED, NO_SUCH_READER, READER_TURN (already at PLACE_PICKED). */
struct rahuvyte_reply rahuvyte_enter(uint64_t *store, size_t store_len, const rahuvyte_pitch *entries, size_t entries_len, uint16_t r);

/* LOOK (every kind): entry k, 0 to 31, of the table that reader r picked. Changes nothing; allowed any number of times at PLACE_PICKED.
   Reply: PITCH with the pitch; rahuvyte_pitch_of(reply) has it with its sign.
   Refused: DAMAGED, NO_SUCH_READER, NO_SUCH_ENTRY, READER_TURN (not at PLACE_PICKED). */
struct rahuvyte_reply rahuvyte_look(const uint64_t *store, size_t store_len, const rahuvyte_pitch *entries, size_t entries_len, uint16_t r,
                                    uint16_t k);

/* LEAVE (new and old store): ends the section. Leave soon: publishers wait, by asking again, for the sections that were open when they synchronised.
   Reply: LEFT. Refused: DAMAGED, NO_SUCH_READER, READER_TURN (not at PLACE_OPEN or PLACE_PICKED; on the way in, ENTER first). */
struct rahuvyte_reply rahuvyte_leave(uint64_t *store, size_t store_len, const rahuvyte_pitch *entries, size_t entries_len, uint16_t r);

/* PICK (rest store): picks the table that is current at this moment, in one call, in place of the one picked before. Participant r keeps it until its next PICK,
   CHECKPOINT or DEFER, whatever publishers do. Never waits for a publisher.
   Reply: PICKED with the slot. Refused: DAMAGED, NO_SUCH_READER, READER_TURN (inside a checkpoint, or between the two DEFERs of a table). */
struct rahuvyte_reply rahuvyte_pick(uint64_t *store, size_t store_len, const rahuvyte_pitch *entries, size_t entries_len, uint16_t r);

/* CHECKPOINT (rest store): one step of participant r's rest point, where it uses no table. Repeat it until the reply is AT with
   RAHUVYTE_CHECKPOINT_STEPS(participants). Every participant makes checkpoints again and again, also one that never publishes.
   The first step drops the pick and loads the epoch, the second lets all see that r has observed it, and each further one reads what one participant has observed.
   The last also frees those slots that r has deferred with a mark that is at most the least it has read: every participant has observed it. The others stay for its
   next checkpoint: one participant that has not observed a mark keeps its slot, even if nobody has picked it. No reply names the slots.
   Between the steps others may run, and r itself may CLAIM, WRITE and SWAP. Do not stop in the middle: until the last step PICK and DEFER are refused.
   Reply: AT with the step, from 1. Refused: DAMAGED, NO_SUCH_READER, READER_TURN (between the two DEFERs of a table). */
struct rahuvyte_reply rahuvyte_checkpoint(uint64_t *store, size_t store_len, const rahuvyte_pitch *entries, size_t entries_len, uint16_t r);

/* ---- Calls of a publisher; p is its number, from 0 ---- */

/* CLAIM (every kind): takes a free slot to write a table into. A slot is free if it is not current and no publisher holds it; a deferred slot counts as held.
   You need not know which is free: on SLOT_IN_USE try another. Rest store: if all are in use, go on making checkpoints and try again.
   Reply: CLAIMED with the slot. Refused: DAMAGED, NO_SUCH_PUBLISHER, NO_SUCH_SLOT, PUBLISHER_TURN (publishing already, or in a rest store not deferred yet),
   BUSY (old store only: another publisher is between its CLAIM and its RELEASE; try again later), SLOT_IN_USE. */
struct rahuvyte_reply rahuvyte_claim(uint64_t *store, size_t store_len, const rahuvyte_pitch *entries, size_t entries_len, uint16_t p,
                                     uint16_t slot);

/* WRITE (every kind): the next pitch of the new table, entry 0 first; 32 of them make it whole. No reader sees it before SWAP.
   Reply: WRITTEN with how many are written. Refused: DAMAGED, NO_SUCH_PUBLISHER, BAD_PITCH,
   PUBLISHER_TURN (nothing claimed, or all 32 written). A refused pitch is not written: write another in its place. */
struct rahuvyte_reply rahuvyte_write(uint64_t *store, size_t store_len, rahuvyte_pitch *entries, size_t entries_len, uint16_t p,
                                     rahuvyte_pitch v);

/* SWAP (every kind): the table just written becomes current; readers pick it from now on. The publisher now holds the slot that was current,
   in which readers may still be looking.
   Reply: SWAPPED with that slot. Refused: DAMAGED, NO_SUCH_PUBLISHER, PUBLISHER_TURN (not all 32 written). */
struct rahuvyte_reply rahuvyte_swap(uint64_t *store, size_t store_len, const rahuvyte_pitch *entries, size_t entries_len, uint16_t p);

/* SYNC (new and old store): begins the wait for the sections that are open now. It does not wait itself: no call does.
   Reply: SYNCED with the mark; in an old store 0 is a mark like any other, that of version UINT64_MAX. Refused: DAMAGED, NO_SUCH_PUBLISHER,
   PUBLISHER_TURN (not just swapped), VERSION_IS_LAST (new store alone: no publication can end any more; make another store. From version 0 that is never reached in practice). */
struct rahuvyte_reply rahuvyte_sync(uint64_t *store, size_t store_len, const rahuvyte_pitch *entries, size_t entries_len, uint16_t p);

/* RAISE (new and old store): moves the version up to the mark. New store: next after SYNC. Old store: next after a WALK replied QUIET.
   Reply: RAISED, or in a new store SHARED if another publisher has raised it already, which is as good.
   Refused: DAMAGED, NO_SUCH_PUBLISHER, PUBLISHER_TURN. */
struct rahuvyte_reply rahuvyte_raise(uint64_t *store, size_t store_len, const rahuvyte_pitch *entries, size_t entries_len, uint16_t p);

/* WALK (new and old store): looks whether the readers that were in at SYNC have left (it may wait for some that came later), by at most b looks (the old
   store: at most one). b bounds the time of this one call. Allowed after RAISE, in the old store also after SYNC.
   Reply: WAITING with the reader (old: the indicator) that is not past yet: call again later; SPENT: all b looks passed and readers are left
   (old: b was 0), call again with b above 0; QUIET (old store, before RAISE): go on with RAISE; RETURNED with looks and waits: every section that was
   open at SYNC has been left, go on with RELEASE.
   Refused: DAMAGED, NO_SUCH_PUBLISHER, PUBLISHER_TURN, TOO_MANY_LOOKS (not reached in practice). */
struct rahuvyte_reply rahuvyte_walk(uint64_t *store, size_t store_len, const rahuvyte_pitch *entries, size_t entries_len, uint16_t p,
                                    uint16_t b);

/* RELEASE (new and old store): ends the publication; the former slot is free again.
   Reply: FREED with the slot and the number of releases of the store so far (modulo 2^64).
   Refused: DAMAGED, NO_SUCH_PUBLISHER, PUBLISHER_TURN (its WALK has not returned). */
struct rahuvyte_reply rahuvyte_release(uint64_t *store, size_t store_len, const rahuvyte_pitch *entries, size_t entries_len, uint16_t p);

/* DEFER (rest store): retires the former table after SWAP, in two calls. The first drops p's own pick and raises the epoch by one; the second queues the slot, to be
   freed by a CHECKPOINT of p. Then the publication has ended, and p may CLAIM again. Make the second soon: between the two PICK and CHECKPOINT are refused.
   Reply: AT with PLACE_DEFERRING, then AT with PLACE_IDLE. Refused: DAMAGED, NO_SUCH_PUBLISHER, PUBLISHER_TURN (not swapped, or inside a checkpoint: end that
   first); only the first of the two also EPOCH_IS_LAST (no table can be retired any more; make a new store. From version 0 that is never reached in practice) and
   TOO_MANY_DEFERRED (RAHUVYTE_DEFERRED_MAX slots of p are deferred: make a whole checkpoint, and let the others make theirs, before you try again). */
struct rahuvyte_reply rahuvyte_defer(uint64_t *store, size_t store_len, const rahuvyte_pitch *entries, size_t entries_len, uint16_t p);

#ifdef __cplusplus
}
#endif

#endif
