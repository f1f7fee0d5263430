/* rahuvyte_pitch_of over numbers of 32 bits, as a reply has them: for pitches.c in C and for cxx.cc in C++. */
#ifndef PITCHES_H
#define PITCHES_H

#include "rahuvyte.h"

#include <stdio.h>

/* Whether v comes back from the reply that has it: v itself, or 2^64 + v for a negative one. */
static int restored(int64_t v)
{
    const struct rahuvyte_reply reply = { RAHUVYTE_PITCH, (uint64_t)v, 0 };
    const int64_t pitch = rahuvyte_pitch_of(reply);
    if (pitch == v)
        return 1;
    fprintf(stderr, "rahuvyte_pitch_of gives %lld for %lld\n", (long long)pitch, (long long)v);
    return 0;
}

/* Three numbers at each end: of the range, of the signs, and of 8, 16, 17 and 32 bits. */
static int restored_at_ends(void)
{
    static const int64_t ends[] = {
        RAHUVYTE_PITCH_LOW, RAHUVYTE_PITCH_HIGH, 0, INT8_MIN, INT8_MAX, UINT8_MAX, INT16_MIN, INT16_MAX, -UINT16_MAX, UINT16_MAX, -131072, 131072,
        (int64_t)INT32_MIN + 1, INT32_MAX - 1,
    };
    for (size_t i = 0; i < sizeof ends / sizeof ends[0]; i++)
        for (int64_t v = ends[i] - 1; v <= ends[i] + 1; v++)
            if (!restored(v))
                return 0;
    return 1;
}

/* From low to high, each stride. */
static int restored_between(int64_t low, int64_t high, int64_t stride)
{
    for (int64_t v = low; v <= high; v += stride)
        if (!restored(v))
            return 0;
    return 1;
}

/* At the ends, every pitch of the range, and a million numbers spread over 32 bits. */
static int all_restored(void)
{
    return restored_at_ends() && restored_between(RAHUVYTE_PITCH_LOW, RAHUVYTE_PITCH_HIGH, 1) && restored_between(INT32_MIN, INT32_MAX, 4093);
}

#endif
