/* What before.c has from objects that were compiled with the headers of releases before: their kinds, the words of a store, making and the ten calls.
   The three numbers of a reply are put into reply. Entries and table are arrays of int16_t to the objects of 0.1.0 and 0.2.0, of int32_t to those of 0.3.0. */
#ifndef BEFORE_H
#define BEFORE_H

#include "words.h"

#include <stddef.h>
#include <stdint.h>

/* The numbers of the new and of the old kind. */
extern const uint16_t kinds_0_3_0[2], kinds_0_2_0[2], kinds_0_1_0[2];

/* How many words a caller lends by the name RAHUVYTE_WORDS. */
extern const size_t words_0_3_0, words_0_2_0, words_0_1_0;

typedef void make_before(uint64_t reply[3], uint64_t *store, size_t store_len, void *entries, size_t entries_len, const void *table, size_t table_len,
                         uint16_t kind, uint16_t readers, uint16_t publishers, uint16_t slots, uint64_t version);

/* One of the ten calls; second is the entry, slot, pitch or b, if it has one. */
typedef void call_before(uint64_t reply[3], uint64_t *store, size_t store_len, void *entries, size_t entries_len, enum word word, uint16_t first, int second);

make_before make_0_3_0, make_0_2_0;
call_before call_0_3_0, call_0_2_0;

/* It had no first table. */
void make_0_1_0(uint64_t reply[3], uint64_t *store, size_t store_len, void *entries, size_t entries_len,
                uint16_t kind, uint16_t readers, uint16_t publishers, uint16_t slots, uint64_t version);

#endif
