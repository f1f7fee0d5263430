/* The entry points of the stores by hand: each call by the kind word, all in one translation unit, so that the compiler may put the kinds' calls into them. */
#include "baseline.h"
#include "store.h"

#include "grace_version.h"
#include "quiescent_state.h"
#include "two_phase.h"

#define OF_KIND(kind, call, ...) return kind##_##call(words, words_len, entries, entries_len, __VA_ARGS__)

/* The call of the kind that the words have; 1 for another length, for another kind and for a kind that lacks the call.
   Tests one after another, the new kind's first: a switch takes 8 instructions more for the new kind, and 1 or 2 less for the others. */
#define BY_KIND(call, ...) \
    do { \
        if (words_len != WORDS) \
            return refused(1); \
        if (words[0] == RAHUVYTE_KIND_NEW) \
            OF_KIND(new, call, __VA_ARGS__); \
        if (words[0] == RAHUVYTE_KIND_OLD) \
            OF_KIND(old, call, __VA_ARGS__); \
        if (words[0] == RAHUVYTE_KIND_REST) \
            OF_KIND(rest, call, __VA_ARGS__); \
        return refused(1); \
    } while (0)

/* The same of a call of the kinds with sections. */
#define WITH_SECTIONS(call, ...) \
    do { \
        if (words_len != WORDS) \
            return refused(1); \
        if (words[0] == RAHUVYTE_KIND_NEW) \
            OF_KIND(new, call, __VA_ARGS__); \
        if (words[0] == RAHUVYTE_KIND_OLD) \
            OF_KIND(old, call, __VA_ARGS__); \
        return refused(1); \
    } while (0)

/* The same of a call of the rest kind, whose damage test has the length and the kind. */
#define AT_REST(call, ...) OF_KIND(rest, call, __VA_ARGS__)

/* The first table does not overlap the entries, so the compiler may read it once for all slots. */
struct rahuvyte_reply c_make(uint64_t *words, size_t words_len, rahuvyte_pitch *restrict entries, size_t entries_len, const rahuvyte_pitch *restrict table, size_t table_len, uint16_t kind, uint16_t readers, uint16_t publishers, uint16_t slots, uint64_t version)
{
    if (words_len != WORDS)
        return refused(1);
    if (kind == RAHUVYTE_KIND_NEW)
        return new_make(words, words_len, entries, entries_len, table, table_len, readers, publishers, slots, version);
    if (kind == RAHUVYTE_KIND_OLD)
        return old_make(words, words_len, entries, entries_len, table, table_len, readers, publishers, slots, version);
    if (kind == RAHUVYTE_KIND_REST)
        return rest_make(words, words_len, entries, entries_len, table, table_len, readers, publishers, slots, version);
    return refused(1);
}

struct rahuvyte_reply c_enter(uint64_t *words, size_t words_len, const rahuvyte_pitch *entries, size_t entries_len, uint16_t r)
{
    WITH_SECTIONS(enter, r);
}

struct rahuvyte_reply c_look(const uint64_t *words, size_t words_len, const rahuvyte_pitch *entries, size_t entries_len, uint16_t r, uint16_t k)
{
    BY_KIND(look, r, k);
}

struct rahuvyte_reply c_leave(uint64_t *words, size_t words_len, const rahuvyte_pitch *entries, size_t entries_len, uint16_t r)
{
    WITH_SECTIONS(leave, r);
}

struct rahuvyte_reply c_claim(uint64_t *words, size_t words_len, const rahuvyte_pitch *entries, size_t entries_len, uint16_t p, uint16_t x)
{
    BY_KIND(claim, p, x);
}

struct rahuvyte_reply c_write(uint64_t *words, size_t words_len, rahuvyte_pitch *entries, size_t entries_len, uint16_t p, rahuvyte_pitch v)
{
    BY_KIND(write, p, v);
}

struct rahuvyte_reply c_swap(uint64_t *words, size_t words_len, const rahuvyte_pitch *entries, size_t entries_len, uint16_t p)
{
    BY_KIND(swap, p);
}

struct rahuvyte_reply c_sync(uint64_t *words, size_t words_len, const rahuvyte_pitch *entries, size_t entries_len, uint16_t p)
{
    WITH_SECTIONS(sync, p);
}

struct rahuvyte_reply c_raise(uint64_t *words, size_t words_len, const rahuvyte_pitch *entries, size_t entries_len, uint16_t p)
{
    WITH_SECTIONS(raise, p);
}

struct rahuvyte_reply c_walk(uint64_t *words, size_t words_len, const rahuvyte_pitch *entries, size_t entries_len, uint16_t p, uint16_t b)
{
    WITH_SECTIONS(walk, p, b);
}

struct rahuvyte_reply c_release(uint64_t *words, size_t words_len, const rahuvyte_pitch *entries, size_t entries_len, uint16_t p)
{
    WITH_SECTIONS(release, p);
}

struct rahuvyte_reply c_pick(uint64_t *words, size_t words_len, const rahuvyte_pitch *entries, size_t entries_len, uint16_t r)
{
    AT_REST(pick, r);
}

struct rahuvyte_reply c_checkpoint(uint64_t *words, size_t words_len, const rahuvyte_pitch *entries, size_t entries_len, uint16_t r)
{
    AT_REST(checkpoint, r);
}

struct rahuvyte_reply c_defer(uint64_t *words, size_t words_len, const rahuvyte_pitch *entries, size_t entries_len, uint16_t p)
{
    AT_REST(defer, p);
}
