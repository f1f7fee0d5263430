/* Of the header of 0.1.0, word for word: the pitch, the words of a store, the numbers of the kinds, the reply, and making, which had no first table. */
#ifndef HEADER_0_1_0_H
#define HEADER_0_1_0_H

#include <stddef.h>
#include <stdint.h>

/* A pitch, in hundredths of a degree: 9000 is 90 degrees. */
typedef int16_t rahuvyte_pitch;

/* Words of a store, of either kind and any size. */
#define RAHUVYTE_WORDS 425

/* The kinds of store. New: publishers publish side by side. Old: one at a time, any other is refused as busy. */
#define RAHUVYTE_KIND_NEW 1
#define RAHUVYTE_KIND_OLD 2

/* Every call's reply. code says which; first and second are its values, 0 where it has none. */
struct rahuvyte_reply {
    uint64_t code;
    uint64_t first;
    uint64_t second;
};

struct rahuvyte_reply rahuvyte_make(uint64_t *store, size_t store_len, rahuvyte_pitch *entries, size_t entries_len,
                                    uint16_t kind, uint16_t readers, uint16_t publishers, uint16_t slots, uint64_t version);

#endif
