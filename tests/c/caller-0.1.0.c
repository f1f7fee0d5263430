/* A making as an object compiled with the header of 0.1.0 has it. */
#include "before.h"
#include "header-0.1.0.h"

const uint16_t kinds_0_1_0[2] = { RAHUVYTE_KIND_NEW, RAHUVYTE_KIND_OLD };
const size_t words_0_1_0 = RAHUVYTE_WORDS;

void make_0_1_0(uint64_t reply[3], uint64_t *store, size_t store_len, void *entries, size_t entries_len,
                uint16_t kind, uint16_t readers, uint16_t publishers, uint16_t slots, uint64_t version)
{
    const struct rahuvyte_reply made = rahuvyte_make(store, store_len, entries, entries_len, kind, readers, publishers, slots, version);
    reply[0] = made.code;
    reply[1] = made.first;
    reply[2] = made.second;
}
