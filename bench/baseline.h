/* The stores by hand in C, with entry points of the same form as the proved ones: c_enter for rahuvyte_enter, and so on.
   Same words, same entries, same refusals, same replies. */
#ifndef BASELINE_H
#define BASELINE_H

#include "../include/rahuvyte.h"

struct rahuvyte_reply c_make(uint64_t *words, size_t words_len, rahuvyte_pitch *entries, size_t entries_len, const rahuvyte_pitch *table, size_t table_len, uint16_t kind, uint16_t readers, uint16_t publishers, uint16_t slots, uint64_t version);
struct rahuvyte_reply c_enter(uint64_t *words, size_t words_len, const rahuvyte_pitch *entries, size_t entries_len, uint16_t r);
struct rahuvyte_reply c_look(const uint64_t *words, size_t words_len, const rahuvyte_pitch *entries, size_t entries_len, uint16_t r, uint16_t k);
struct rahuvyte_reply c_leave(uint64_t *words, size_t words_len, const rahuvyte_pitch *entries, size_t entries_len, uint16_t r);
struct rahuvyte_reply c_claim(uint64_t *words, size_t words_len, const rahuvyte_pitch *entries, size_t entries_len, uint16_t p, uint16_t x);
struct rahuvyte_reply c_write(uint64_t *words, size_t words_len, rahuvyte_pitch *entries, size_t entries_len, uint16_t p, rahuvyte_pitch v);
struct rahuvyte_reply c_swap(uint64_t *words, size_t words_len, const rahuvyte_pitch *entries, size_t entries_len, uint16_t p);
struct rahuvyte_reply c_sync(uint64_t *words, size_t words_len, const rahuvyte_pitch *entries, size_t entries_len, uint16_t p);
struct rahuvyte_reply c_raise(uint64_t *words, size_t words_len, const rahuvyte_pitch *entries, size_t entries_len, uint16_t p);
struct rahuvyte_reply c_walk(uint64_t *words, size_t words_len, const rahuvyte_pitch *entries, size_t entries_len, uint16_t p, uint16_t b);
struct rahuvyte_reply c_release(uint64_t *words, size_t words_len, const rahuvyte_pitch *entries, size_t entries_len, uint16_t p);
struct rahuvyte_reply c_pick(uint64_t *words, size_t words_len, const rahuvyte_pitch *entries, size_t entries_len, uint16_t r);
struct rahuvyte_reply c_checkpoint(uint64_t *words, size_t words_len, const rahuvyte_pitch *entries, size_t entries_len, uint16_t r);
struct rahuvyte_reply c_defer(uint64_t *words, size_t words_len, const rahuvyte_pitch *entries, size_t entries_len, uint16_t p);

#endif
