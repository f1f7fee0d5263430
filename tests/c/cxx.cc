// The header from C++: it compiles, links with the archive, and pitches at the ends of the range are looked up by it.
#include "pitches.h"

#include <cstdio>
#include <vector>

// The reply by which a reader has picked a table.
static bool has_picked(rahuvyte_reply reply)
{
    return reply.code == RAHUVYTE_PICKED || (reply.code == RAHUVYTE_AT && reply.first == RAHUVYTE_PLACE_PICKED);
}

static bool look_up(uint16_t kind, rahuvyte_pitch pitch)
{
    std::vector<uint64_t> store(RAHUVYTE_WORDS);
    std::vector<rahuvyte_pitch> entries(RAHUVYTE_ENTRIES(2));
    const std::vector<rahuvyte_pitch> table(RAHUVYTE_TABLE, pitch);
    rahuvyte_reply reply =
        rahuvyte_make(store.data(), store.size(), entries.data(), entries.size(), table.data(), table.size(), kind, 1, 1, 2, 0);
    if (reply.code != RAHUVYTE_MADE)
        return false;
    do
        reply = kind == RAHUVYTE_KIND_REST ? rahuvyte_pick(store.data(), store.size(), entries.data(), entries.size(), 0)
                                           : rahuvyte_enter(store.data(), store.size(), entries.data(), entries.size(), 0);
    while (rahuvyte_accepted(reply) && !has_picked(reply));
    reply = rahuvyte_look(store.data(), store.size(), entries.data(), entries.size(), 0, 31);
    return rahuvyte_accepted(reply) && rahuvyte_pitch_of(reply) == pitch;
}

static bool look_up_ends(uint16_t kind)
{
    return look_up(kind, RAHUVYTE_PITCH_LOW) && look_up(kind, RAHUVYTE_FEATHERED) && look_up(kind, RAHUVYTE_PITCH_HIGH);
}

// A whole checkpoint, and a table that nobody has published cannot be deferred.
static bool rests()
{
    std::vector<uint64_t> store(RAHUVYTE_WORDS);
    std::vector<rahuvyte_pitch> entries(RAHUVYTE_ENTRIES(2));
    const std::vector<rahuvyte_pitch> table(RAHUVYTE_TABLE, RAHUVYTE_FEATHERED);
    rahuvyte_reply reply = rahuvyte_make(store.data(), store.size(), entries.data(), entries.size(), table.data(), table.size(), RAHUVYTE_KIND_REST, 2, 2, 2,
                                         RAHUVYTE_LAST_REST);
    uint64_t steps = 0;
    do {
        reply = rahuvyte_checkpoint(store.data(), store.size(), entries.data(), entries.size(), 1);
        steps++;
    } while (reply.code == RAHUVYTE_AT && reply.first == steps && steps < RAHUVYTE_CHECKPOINT_STEPS(2));
    return reply.first == RAHUVYTE_CHECKPOINT_STEPS(2)
        && rahuvyte_defer(store.data(), store.size(), entries.data(), entries.size(), 1).code == RAHUVYTE_PUBLISHER_TURN;
}

int main()
{
    if (!look_up_ends(RAHUVYTE_KIND_NEW) || !look_up_ends(RAHUVYTE_KIND_OLD) || !look_up_ends(RAHUVYTE_KIND_REST) || !rests() || !all_restored()) {
        std::fprintf(stderr, "cxx: not as from C\n");
        return 1;
    }
    std::printf("cxx: header %s, linked from C++\n", RAHUVYTE_VERSION);
    return 0;
}
