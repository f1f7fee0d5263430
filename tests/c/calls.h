/* What the C tests share: lent arrays that begin or end where memory does, the kinds, the calls by number, and a first table. */
#ifndef CALLS_H
#define CALLS_H

#include "rahuvyte.h"
#include "words.h"

#include <stdio.h>
#include <stdlib.h>
#include <string.h>
#include <sys/mman.h>
#include <unistd.h>

static const char *const names[ALL_CALLS] = { "enter", "look",  "leave", "claim",   "write", "swap",       "sync",
                                              "raise", "walk",  "release", "pick",  "checkpoint", "defer" };

enum { KINDS = 3 };

static const uint16_t kinds[KINDS] = { RAHUVYTE_KIND_NEW, RAHUVYTE_KIND_OLD, RAHUVYTE_KIND_REST };

/* The arrays lent to a call, with their lengths. The first table is lent to making alone. */
struct lent {
    uint64_t *store;
    size_t store_len;
    rahuvyte_pitch *entries;
    size_t entries_len;
    rahuvyte_pitch *table;
    size_t table_len;
};

#define LENT(l) (l).store, (l).store_len, (l).entries, (l).entries_len
#define LENT_TO_MAKING(l) LENT(l), (l).table, (l).table_len

/* Where lent bytes touch memory that cannot be touched. */
enum edge { AT_BEGIN, AT_END };

/* size bytes between two pages that cannot be touched, right behind the first or right before the second: one byte too far there ends the program. Null for none. */
static inline void *lend_bytes(size_t size, enum edge edge)
{
    if (size == 0)
        return NULL;
    const size_t page = (size_t)sysconf(_SC_PAGESIZE), room = (size + page - 1) / page * page;
    unsigned char *start = (unsigned char *)mmap(NULL, room + 2 * page, PROT_READ | PROT_WRITE, MAP_PRIVATE | MAP_ANONYMOUS, -1, 0);
    if (start == MAP_FAILED || mprotect(start, page, PROT_NONE) != 0 || mprotect(start + page + room, page, PROT_NONE) != 0)
        abort();
    return edge == AT_BEGIN ? start + page : start + page + room - size;
}

/* Entry k of a good first table. All entries differ, also in their low 16 bits, and the last and the first by far more than neighbours may. */
#define FIRST_PITCH(k) (85003 - 2903 * (k))

/* So many entries of that table, also beyond the 32nd; in range up to the 32nd. */
static inline rahuvyte_pitch *lend_table(size_t len, enum edge edge)
{
    rahuvyte_pitch *table = (rahuvyte_pitch *)lend_bytes(len * sizeof(rahuvyte_pitch), edge);
    for (size_t k = 0; k < len; k++)
        table[k] = (rahuvyte_pitch)FIRST_PITCH((int)k);
    return table;
}

/* Arrays of these lengths, and a good first table. */
static inline struct lent lend_arrays(size_t store_len, size_t entries_len)
{
    const struct lent l = { (uint64_t *)lend_bytes(store_len * sizeof(uint64_t), AT_END), store_len,
                            (rahuvyte_pitch *)lend_bytes(entries_len * sizeof(rahuvyte_pitch), AT_END), entries_len,
                            lend_table(RAHUVYTE_TABLE, AT_END), RAHUVYTE_TABLE };
    return l;
}

/* Whether every slot has the first table. */
static inline int has_first_table(struct lent l)
{
    for (size_t i = 0; i < l.entries_len; i++)
        if (l.entries[i] != l.table[i % RAHUVYTE_TABLE])
            return 0;
    return 1;
}

/* One of the calls; second is the entry, slot, pitch or b, if it has one. */
static inline struct rahuvyte_reply make_call(struct lent l, enum word word, uint16_t first, int second)
{
    switch (word) {
    case ENTER: return rahuvyte_enter(LENT(l), first);
    case LOOK: return rahuvyte_look(LENT(l), first, (uint16_t)second);
    case LEAVE: return rahuvyte_leave(LENT(l), first);
    case CLAIM: return rahuvyte_claim(LENT(l), first, (uint16_t)second);
    case WRITE: return rahuvyte_write(LENT(l), first, (rahuvyte_pitch)second);
    case SWAP: return rahuvyte_swap(LENT(l), first);
    case SYNC: return rahuvyte_sync(LENT(l), first);
    case RAISE: return rahuvyte_raise(LENT(l), first);
    case WALK: return rahuvyte_walk(LENT(l), first, (uint16_t)second);
    case RELEASE: return rahuvyte_release(LENT(l), first);
    case PICK: return rahuvyte_pick(LENT(l), first);
    case CHECKPOINT: return rahuvyte_checkpoint(LENT(l), first);
    case DEFER: return rahuvyte_defer(LENT(l), first);
    case ALL_CALLS: break;
    }
    abort();
}

static inline int same_reply(struct rahuvyte_reply reply, uint64_t code, uint64_t first, uint64_t second)
{
    return reply.code == code && reply.first == first && reply.second == second;
}

static inline void report_failure(const char *test, const char *call, struct rahuvyte_reply reply, uint64_t code, const char *what)
{
    fprintf(stderr, "%s: %s replies %llu %llu %llu; expected %llu%s\n", test, call, (unsigned long long)reply.code, (unsigned long long)reply.first,
            (unsigned long long)reply.second, (unsigned long long)code, what);
    exit(1);
}

/* Copies of lent arrays, to see whether a call changed them. */
struct copies {
    uint64_t store[2 * RAHUVYTE_WORDS];
    rahuvyte_pitch entries[RAHUVYTE_SLOTS_MAX * RAHUVYTE_TABLE + 1];
    rahuvyte_pitch table[2 * RAHUVYTE_TABLE];
};

static inline void copy_lent(struct copies *to, struct lent l)
{
    if (l.store_len > 0)
        memcpy(to->store, l.store, l.store_len * sizeof(uint64_t));
    if (l.entries_len > 0)
        memcpy(to->entries, l.entries, l.entries_len * sizeof(rahuvyte_pitch));
    if (l.table_len > 0)
        memcpy(to->table, l.table, l.table_len * sizeof(rahuvyte_pitch));
}

static inline int unchanged_table(const struct copies *before, struct lent l)
{
    return l.table_len == 0 || memcmp(before->table, l.table, l.table_len * sizeof(rahuvyte_pitch)) == 0;
}

static inline int unchanged(const struct copies *before, struct lent l)
{
    return (l.store_len == 0 || memcmp(before->store, l.store, l.store_len * sizeof(uint64_t)) == 0)
        && (l.entries_len == 0 || memcmp(before->entries, l.entries, l.entries_len * sizeof(rahuvyte_pitch)) == 0) && unchanged_table(before, l);
}

#endif
