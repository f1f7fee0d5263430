/* Making and the ten calls as an object compiled with the header of a release before has them: included after that header and before.h, with OF_RELEASE(name) the name
   with that release's number behind it. */
#include <stdlib.h>

const uint16_t OF_RELEASE(kinds)[2] = { RAHUVYTE_KIND_NEW, RAHUVYTE_KIND_OLD };
const size_t OF_RELEASE(words) = RAHUVYTE_WORDS;

static void put(uint64_t numbers[3], struct rahuvyte_reply reply)
{
    numbers[0] = reply.code;
    numbers[1] = reply.first;
    numbers[2] = reply.second;
}

void OF_RELEASE(make)(uint64_t reply[3], uint64_t *store, size_t store_len, void *entries, size_t entries_len, const void *table, size_t table_len,
                      uint16_t kind, uint16_t readers, uint16_t publishers, uint16_t slots, uint64_t version)
{
    put(reply, rahuvyte_make(store, store_len, entries, entries_len, table, table_len, kind, readers, publishers, slots, version));
}

#define LENT store, store_len, entries, entries_len

void OF_RELEASE(call)(uint64_t reply[3], uint64_t *store, size_t store_len, void *entries, size_t entries_len, enum word word, uint16_t first, int second)
{
    switch (word) {
    case ENTER: put(reply, rahuvyte_enter(LENT, first)); break;
    case LOOK: put(reply, rahuvyte_look(LENT, first, (uint16_t)second)); break;
    case LEAVE: put(reply, rahuvyte_leave(LENT, first)); break;
    case CLAIM: put(reply, rahuvyte_claim(LENT, first, (uint16_t)second)); break;
    case WRITE: put(reply, rahuvyte_write(LENT, first, (rahuvyte_pitch)second)); break;
    case SWAP: put(reply, rahuvyte_swap(LENT, first)); break;
    case SYNC: put(reply, rahuvyte_sync(LENT, first)); break;
    case RAISE: put(reply, rahuvyte_raise(LENT, first)); break;
    case WALK: put(reply, rahuvyte_walk(LENT, first, (uint16_t)second)); break;
    case RELEASE: put(reply, rahuvyte_release(LENT, first)); break;
    case PICK:
    case CHECKPOINT:
    case DEFER:
    case ALL_CALLS: abort(); /* none of these releases has them */
    }
}
