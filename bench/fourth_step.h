/* The fourth step of entering, ENTER from 3 to 4 of the new store, for driver.c: included after rest_turns.h, which has reader_of.
   It is made on two stores that differ in one word alone, the version that the reader has loaded second. The damage test does not look at that word. */

/* docs/LAYOUT.md: in a reader's record the version loaded second, and the published one. */
enum { SECOND = 2, PUBLISHED = 3 };

COUNTED(fourth_step_equal, enter)
COUNTED(fourth_step_differing, enter)

/* Reader r is at 3, and publisher 0 at 37. The RAISE came before r loaded the version again, or just after it. */
static void enter_three_times(uint16_t readers, uint16_t publishers, uint16_t slots, uint64_t version, uint16_t r, bool raised_between)
{
    BOTH(make, table, TABLE, RAHUVYTE_KIND_NEW, readers, publishers, slots, version);
    BOTH(claim, 0, 1);
    for (int k = 0; k < TABLE; k++)
        BOTH(write, 0, table[k]);
    BOTH(swap, 0);
    BOTH(sync, 0);
    BOTH(enter, r);
    BOTH(enter, r);
    if (raised_between) {
        BOTH(raise, 0);
        BOTH(enter, r);
    } else {
        BOTH(enter, r);
        BOTH(raise, 0);
    }
}

/* The store with the two loaded versions equal and the one with differing ones have every other word the same. */
static void compare_stores(const uint64_t *equal, const uint64_t *differing, uint16_t r, uint64_t version)
{
    const size_t at = FIRST_READER + READER_WORDS * r + SECOND;
    for (size_t i = 0; i < WORDS; i++) {
        if (i == at ? equal[i] != version || differing[i] != version + 1 : equal[i] != differing[i]) {
            fprintf(stderr, "driver: the stores before a fourth step differ at word %zu\n", i);
            exit(1);
        }
    }
}

/* Reader r is at 4 now, with this version published. */
static void expect_open(uint16_t r, uint64_t version)
{
    const uint64_t *x = reader_of(0, r);
    if (x[0] != RAHUVYTE_PLACE_OPEN || x[PUBLISHED] != version) {
        fprintf(stderr, "driver: reader %u has not made its fourth step\n", r);
        exit(1);
    }
}

/* Each reader, at versions up to one before the last, on both stores. */
static void play_fourth_steps(uint16_t readers, uint16_t publishers, uint16_t slots)
{
    static const uint64_t versions[] = { 0, 1, UINT64_C(0xffffffff), UINT64_C(0x7fffffffffffffff), RAHUVYTE_LAST_NEW - 1 };
    uint64_t equal[WORDS];
    entries_len = (size_t)slots * TABLE;
    draw_table();
    for (size_t i = 0; i < sizeof versions / sizeof versions[0]; i++)
        for (uint16_t r = 0; r < readers; r++) {
            enter_three_times(readers, publishers, slots, versions[i], r, false);
            memcpy(equal, words[0], sizeof equal);
            fourth_step_equal(r);
            expect_open(r, versions[i]);
            enter_three_times(readers, publishers, slots, versions[i], r, true);
            compare_stores(equal, words[0], r, versions[i]);
            fourth_step_differing(r);
            expect_open(r, versions[i] + 1);
        }
}
