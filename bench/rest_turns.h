/* The turns of a rest store's participants, for driver.c: included after its words, its BOTH and its COUNTED. */

/* docs/LAYOUT.md: where the epoch stands, the steps and counts of checkpoints and the pairs of deferred slots, and in a reader's record its least and its observed epoch. */
enum { EPOCH = 5, FIRST_STEP = 425, FIRST_PAIR = 457, DEFERRED_MAX = RAHUVYTE_DEFERRED_MAX, LEAST = 2, OBSERVED = 3 };

static uint64_t *reader_of(int side, uint64_t r)
{
    return &words[side][FIRST_READER + READER_WORDS * r];
}

static uint64_t *publisher_of(int side, uint64_t p)
{
    return &words[side][FIRST_PUBLISHER + PUBLISHER_WORDS * p];
}

/* The step of a participant's checkpoint; behind it, how many of its slots are deferred. */
static uint64_t *step_of(int side, uint64_t p)
{
    return &words[side][FIRST_STEP + 2 * p];
}

/* The slot of a participant's first pair; behind it, its mark. */
static uint64_t *pairs_of(int side, uint64_t p)
{
    return &words[side][FIRST_PAIR + 2 * DEFERRED_MAX * p];
}

COUNTED(checkpoint_loads, checkpoint)
COUNTED(checkpoint_observes, checkpoint)
COUNTED(checkpoint_reads_first, checkpoint)
COUNTED(checkpoint_reads_next, checkpoint)
COUNTED(checkpoint_frees_none, checkpoint)
COUNTED(checkpoint_frees_some, checkpoint)
COUNTED(checkpoint_frees_all, checkpoint)
COUNTED(checkpoint_frees_eight, checkpoint)
COUNTED(defer_marks, defer)
COUNTED(defer_queues, defer)

/* The last step: nothing is deferred, or some of it stays, or none. */
static void checkpoint_ends(uint16_t r)
{
    const uint64_t count = step_of(1, r)[1], last = words[1][1] - 1, read = reader_of(1, last)[OBSERVED], before = reader_of(1, r)[LEAST];
    const uint64_t least = last == 0 || read < before ? read : before;
    uint64_t stay = 0;
    for (uint64_t i = 0; i < count; i++)
        stay += pairs_of(1, r)[2 * i + 1] > least;
    if (count == 0)
        checkpoint_frees_none(r);
    else if (stay != 0)
        checkpoint_frees_some(r);
    else if (count == DEFERRED_MAX)
        checkpoint_frees_eight(r);
    else
        checkpoint_frees_all(r);
}

static void checkpoint_goes_on(uint16_t r)
{
    const uint64_t step = *step_of(1, r) + 1;
    if (step == RAHUVYTE_CHECKPOINT_STEPS(words[1][1]))
        checkpoint_ends(r);
    else if (step == 1)
        checkpoint_loads(r);
    else if (step == 2)
        checkpoint_observes(r);
    else if (step == 3)
        checkpoint_reads_first(r);
    else
        checkpoint_reads_next(r);
}

/* A participant goes on with its loop: it picks, looks a few times, and makes a whole checkpoint. Between the two DEFERs of a table it makes the second. */
static void loop_goes_on(uint16_t r)
{
    const uint16_t k = (uint16_t)below(TABLE);
    if (*publisher_of(1, r) == RAHUVYTE_PLACE_DEFERRING)
        defer_queues(r);
    else if (*step_of(1, r) != 0)
        checkpoint_goes_on(r);
    else if (*reader_of(1, r) != RAHUVYTE_PLACE_PICKED)
        BOTH(pick, r);
    else if (below(4) != 0)
        BOTH(look, r, k);
    else
        checkpoint_goes_on(r);
}

/* It goes on with its publication: it claims a slot at random, writes, swaps and defers; a checkpoint that it is in is made first. */
static void publication_goes_on(uint16_t p, uint16_t slots)
{
    const uint16_t slot = (uint16_t)below(slots);
    const rahuvyte_pitch v = pitch();
    switch (*publisher_of(1, p)) {
    case RAHUVYTE_PLACE_IDLE:
        BOTH(claim, p, slot);
        break;
    case RAHUVYTE_PLACE_WRITTEN:
        BOTH(swap, p);
        break;
    case RAHUVYTE_PLACE_SWAPPED:
        if (*step_of(1, p) != 0)
            checkpoint_goes_on(p);
        else
            defer_marks(p);
        break;
    case RAHUVYTE_PLACE_DEFERRING:
        defer_queues(p);
        break;
    default:
        BOTH(write, p, v);
    }
}

/* Puts p before the last step of its checkpoint, with eight slots deferred, of which so many stay. No list leads there in a small store, which has not so many slots:
   here a slot may stand twice. */
static void put_eight(uint16_t p, uint16_t slots, uint64_t stay)
{
    const uint64_t epoch = words[1][EPOCH], last = words[1][1] - 1, begin = below(DEFERRED_MAX);
    uint64_t slot[DEFERRED_MAX];
    for (int i = 0; i < DEFERRED_MAX; i++)
        slot[i] = below(slots);
    for (int side = 0; side < 2; side++) {
        *publisher_of(side, p) = RAHUVYTE_PLACE_IDLE;
        step_of(side, p)[0] = last + 2;
        step_of(side, p)[1] = DEFERRED_MAX;
        reader_of(side, p)[LEAST] = reader_of(side, last)[OBSERVED] = epoch;
        for (uint64_t i = 0; i < DEFERRED_MAX; i++) {
            pairs_of(side, p)[2 * i] = slot[i];
            pairs_of(side, p)[2 * i + 1] = epoch + ((begin + i) % DEFERRED_MAX < stay);
        }
    }
}

/* The last step of each participant with eight deferred: all are freed, or so many stay. */
static void free_eight(uint16_t participants, uint16_t slots)
{
    for (uint64_t stay = 0; stay < DEFERRED_MAX; stay++)
        for (uint16_t p = 0; p < participants; p++) {
            put_eight(p, slots, stay);
            checkpoint_ends(p);
        }
}

/* The second of two participants at a place, a step, with so many deferred, with or without a pick: its calls, with names of none too. */
static void call_from(uint64_t epoch, uint64_t place, uint64_t step, uint64_t count, bool picked)
{
    const uint16_t slot = (uint16_t)below(4), other = (uint16_t)below(3);
    const rahuvyte_pitch v = pitch();
    BOTH(make, table, TABLE, RAHUVYTE_KIND_REST, 2, 2, 3, epoch);
    for (int side = 0; side < 2; side++) {
        publisher_of(side, 1)[0] = place;
        publisher_of(side, 1)[2] = 1; /* its mark */
        step_of(side, 1)[0] = step;
        step_of(side, 1)[1] = count;
        *reader_of(side, 1) = picked ? RAHUVYTE_PLACE_PICKED : RAHUVYTE_PLACE_OUT;
    }
    BOTH(pick, other);
    BOTH(pick, 1);
    BOTH(look, 1, 31);
    BOTH(claim, 1, slot);
    BOTH(write, 1, v);
    BOTH(swap, 1);
    BOTH(defer, other);
    BOTH(defer, 1);
    BOTH(checkpoint, other);
    BOTH(checkpoint, 1);
}

/* Every turn, allowed or not, and the ends of epoch, step and count: 1, 10, 11, 12, 20, 21, 30, 43 and 44 among the replies. */
static void compare_refused_calls(void)
{
    static const uint64_t epochs[] = { 0, UINT64_MAX - 1, UINT64_MAX }, places[] = { 0, 1, 32, 33, 34, 35, 36 }, counts[] = { 0, 7, 8, 9 };
    entries_len = 3 * TABLE;
    draw_table();
    for (int e = 0; e < 3; e++)
        for (int at = 0; at < 7; at++)
            for (uint64_t step = 0; step < 5; step++)
                for (int c = 0; c < 4; c++) {
                    call_from(epochs[e], places[at], step, counts[c], false);
                    call_from(epochs[e], places[at], step, counts[c], true);
                }
}
