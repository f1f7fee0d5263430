/* The sign of a reply's pitch is restored, for every number of 32 bits that is tried; cxx.cc does the same in C++. */
#include "pitches.h"

int main(void)
{
    if (!all_restored())
        return 1;
    printf("pitches: restored, at the ends of the range and of 32 bits and between\n");
    return 0;
}
