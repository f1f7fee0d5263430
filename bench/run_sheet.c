/* The run sheet by hand in C: reads the first table from the file card, then the lines of standard input with fgets, plays them on a store by hand
   and prints one line each with printf. run-sheet measures the proved program beside it. */
#include "baseline.h"

#include <errno.h>
#include <inttypes.h>
#include <stdbool.h>
#include <stdio.h>
#include <string.h>

/* A line of 80 bytes, its newline and the NUL that fgets puts behind it. */
enum { LINE_BYTES = 80, LINE_SIZE = LINE_BYTES + 2 };

/* So much of the card is read: a longer one has no 32 pitches. */
enum { CARD_READ = 4096 };

/* Calls with one argument stand before LOOK. */
enum call { ENTER, LEAVE, SWAP, SYNC, RAISE, RELEASE, PICK, CHECKPOINT, DEFER, LOOK, CLAIM, WALK, WRITE };

#define BIT(call) (1u << (call))

/* The calls of the kinds with sections alone, and those of the rest kind alone. */
enum {
    OF_SECTIONS = BIT(ENTER) | BIT(LEAVE) | BIT(SYNC) | BIT(RAISE) | BIT(WALK) | BIT(RELEASE),
    OF_REST = BIT(PICK) | BIT(CHECKPOINT) | BIT(DEFER)
};

/* The calls that the made store's kind lacks: none before a store is made. */
static unsigned lacked;
static uint64_t words[RAHUVYTE_WORDS];
/* Room for any number of slots that can be written on a sheet: making refuses what is too many. */
static rahuvyte_pitch entries[RAHUVYTE_ENTRIES(UINT16_MAX)];
static size_t entries_len;
static rahuvyte_pitch table[RAHUVYTE_TABLE];
static size_t table_len;

#define STORE words, RAHUVYTE_WORDS, entries, entries_len

/* A decimal of at most max, without leading zeros: behind a first 0 the caller meets the next digit where it wants a space or a bracket. */
static inline bool decimal(const char **at, uint32_t max, uint32_t *n)
{
    const char *p = *at;
    uint64_t value = (uint64_t)(*p++ - '0'), digit;
    if (value > 9)
        return false;
    if (value != 0) {
        for (; (digit = (uint64_t)(*p - '0')) <= 9; p++) {
            value = value * 10 + digit;
            if (value > max)
                return false;
        }
    }
    *at = p;
    *n = (uint32_t)value;
    return true;
}

/* The same of 64 bits. */
static bool version_of(const char **at, uint64_t *n)
{
    const char *p = *at;
    uint64_t value = (uint64_t)(*p++ - '0'), digit;
    if (value > 9)
        return false;
    if (value != 0) {
        for (; (digit = (uint64_t)(*p - '0')) <= 9; p++)
            if (__builtin_mul_overflow(value, 10, &value) || __builtin_add_overflow(value, digit, &value))
                return false;
    }
    *at = p;
    *n = value;
    return true;
}

/* A pitch of 32 bits; -0 is none. */
static inline bool pitch_of(const char **at, rahuvyte_pitch *v)
{
    const bool negative = **at == '-';
    uint32_t n;
    *at += negative;
    if (!decimal(at, negative ? UINT32_C(0x80000000) : INT32_MAX, &n) || (negative && n == 0))
        return false;
    *v = (rahuvyte_pitch)(negative ? -(int64_t)n : n);
    return true;
}

/* Reads one pitch a line into the table; how many lines there are, or 0 if one is no pitch: *bad is then its number. The text ends with a NUL. */
static size_t read_lines(const char *text, size_t size, size_t *bad)
{
    const char *at = text, *const end = text + size;
    size_t lines = 0;
    rahuvyte_pitch v;
    while (at != end) {
        lines++;
        if (!pitch_of(&at, &v) || (at != end && *at++ != '\n')) {
            *bad = lines;
            return 0;
        }
        if (lines <= RAHUVYTE_TABLE)
            table[lines - 1] = v;
    }
    return lines;
}

/* Says on standard error why there is no first table. */
#define SAY(...) \
    do { \
        fprintf(stderr, "run_sheet: card" __VA_ARGS__); \
        fputs("\nrun_sheet: without a first table each store line is refused with 40, or with a number that is tested before it\n", stderr); \
    } while (0)

/* Reads the first table from the open card, if it has one. */
static void read_card(FILE *card)
{
    static char text[CARD_READ + 1];
    size_t bad = 0;
    const size_t size = fread(text, 1, CARD_READ, card), lines = read_lines(text, size, &bad);
    if (ferror(card))
        SAY(" cannot be read: %s", strerror(errno));
    else if (size == CARD_READ)
        SAY(" is too long: a first table is 32 lines");
    else if (bad != 0)
        SAY(": line %zu is no pitch", bad);
    else if (lines > RAHUVYTE_TABLE)
        SAY(" has more than 32 lines, and a first table is 32");
    else if (lines < RAHUVYTE_TABLE)
        SAY(" has %zu lines, and a first table is 32", lines);
    else
        table_len = RAHUVYTE_TABLE;
}

static void load_card(void)
{
    FILE *card = fopen("card", "r");
    if (card == NULL) {
        SAY(", looked for in the folder where run_sheet was started: %s", strerror(errno));
        return;
    }
    read_card(card);
    fclose(card);
}

/* Whether the line ends here with its bracket. The last line may lack its newline: then the NUL of fgets comes next, and behind it the newlines that were
   there before the line. A NUL byte of the line itself has at most one newline behind it. */
static inline bool closed(const char *p)
{
    return p[0] == ')' && (p[1] == '\n' || (p[1] == '\0' && p[2] == '\n' && p[3] == '\n'));
}

#define IS(word, is) \
    if (memcmp(line, "(" word " ", sizeof word + 1) == 0) { \
        *call = is; \
        *at = line + sizeof word + 1; \
        return true; \
    }

/* The call that the line names, and where its arguments begin. */
static inline bool named(const char *line, enum call *call, const char **at)
{
    switch (line[1]) {
    case 'c':
        IS("claim", CLAIM)
        IS("checkpoint", CHECKPOINT)
        return false;
    case 'd':
        IS("defer", DEFER)
        return false;
    case 'e':
        IS("enter", ENTER)
        return false;
    case 'l':
        IS("look", LOOK)
        IS("leave", LEAVE)
        return false;
    case 'p':
        IS("pick", PICK)
        return false;
    case 'r':
        IS("release", RELEASE)
        IS("raise", RAISE)
        return false;
    case 's':
        IS("swap", SWAP)
        IS("sync", SYNC)
        return false;
    case 'w':
        IS("write", WRITE)
        IS("walk", WALK)
        return false;
    default:
        return false;
    }
}

#undef IS

static struct rahuvyte_reply called(enum call call, uint16_t name, uint16_t second, rahuvyte_pitch pitch)
{
    switch (call) {
    case ENTER: return c_enter(STORE, name);
    case LEAVE: return c_leave(STORE, name);
    case SWAP: return c_swap(STORE, name);
    case SYNC: return c_sync(STORE, name);
    case RAISE: return c_raise(STORE, name);
    case RELEASE: return c_release(STORE, name);
    case PICK: return c_pick(STORE, name);
    case CHECKPOINT: return c_checkpoint(STORE, name);
    case DEFER: return c_defer(STORE, name);
    case LOOK: return c_look(STORE, name, second);
    case CLAIM: return c_claim(STORE, name, second);
    case WALK: return c_walk(STORE, name, second);
    case WRITE: return c_write(STORE, name, pitch);
    }
    __builtin_unreachable();
}

/* The kind that a line's arguments begin with, and where the sizes do; 0 if it is none. */
static uint16_t kind_of(const char **at)
{
    const char *const word = *at;
    if (memcmp(word, "rest ", 5) == 0) {
        *at += 5;
        return RAHUVYTE_KIND_REST;
    }
    *at += 4;
    if (memcmp(word, "new ", 4) == 0)
        return RAHUVYTE_KIND_NEW;
    return memcmp(word, "old ", 4) == 0 ? RAHUVYTE_KIND_OLD : 0;
}

/* Makes a store by a line's arguments; a refused one leaves the store before. */
static bool made(const char *at, struct rahuvyte_reply *reply)
{
    const uint16_t kind = kind_of(&at);
    uint32_t sizes[3];
    uint64_t version;
    if (kind == 0)
        return false;
    for (int i = 0; i < 3; i++)
        if (!decimal(&at, UINT16_MAX, &sizes[i]) || *at++ != ' ')
            return false;
    if (!version_of(&at, &version) || !closed(at))
        return false;
    const size_t lent = RAHUVYTE_ENTRIES(sizes[2]);
    *reply = c_make(words, RAHUVYTE_WORDS, entries, lent, table, table_len, kind, (uint16_t)sizes[0], (uint16_t)sizes[1], (uint16_t)sizes[2], version);
    if (reply->code == RAHUVYTE_MADE) {
        entries_len = lent;
        lacked = kind == RAHUVYTE_KIND_REST ? OF_SECTIONS : OF_REST;
    }
    return true;
}

/* Plays a line; false if it is unread. */
static bool played(const char *line, struct rahuvyte_reply *reply)
{
    const char *at;
    enum call call;
    uint32_t name, second = 0;
    rahuvyte_pitch pitch = 0;
    if (!named(line, &call, &at))
        return memcmp(line, "(store ", 7) == 0 && made(line + 7, reply);
    if (!decimal(&at, UINT16_MAX, &name))
        return false;
    if (call >= LOOK) {
        if (*at++ != ' ')
            return false;
        if (call == WRITE ? !pitch_of(&at, &pitch) : !decimal(&at, UINT16_MAX, &second))
            return false;
    }
    if (!closed(at) || (lacked & BIT(call)) != 0)
        return false;
    *reply = called(call, (uint16_t)name, (uint16_t)second, pitch);
    return true;
}

#define N "(%" PRIu64 " "
#define VALUE " %" PRIu64

static void print(uint64_t n, const struct rahuvyte_reply *reply)
{
    const uint64_t first = reply->first, second = reply->second;
    switch (reply->code) {
    case RAHUVYTE_MADE: printf(N "made)\n", n); break;
    case RAHUVYTE_AT: printf(N "at" VALUE ")\n", n, first); break;
    case RAHUVYTE_PITCH: printf(N "pitch %" PRId32 ")\n", n, rahuvyte_pitch_of(*reply)); break;
    case RAHUVYTE_LEFT: printf(N "left)\n", n); break;
    case RAHUVYTE_CLAIMED: printf(N "claimed" VALUE ")\n", n, first); break;
    case RAHUVYTE_WRITTEN: printf(N "written" VALUE ")\n", n, first); break;
    case RAHUVYTE_SWAPPED: printf(N "swapped" VALUE ")\n", n, first); break;
    case RAHUVYTE_SYNCED: printf(N "synced" VALUE ")\n", n, first); break;
    case RAHUVYTE_RAISED: printf(N "raised)\n", n); break;
    case RAHUVYTE_SHARED: printf(N "shared)\n", n); break;
    case RAHUVYTE_WAITING: printf(N "waiting" VALUE ")\n", n, first); break;
    case RAHUVYTE_SPENT: printf(N "spent)\n", n); break;
    case RAHUVYTE_QUIET: printf(N "quiet)\n", n); break;
    case RAHUVYTE_RETURNED: printf(N "returned" VALUE VALUE ")\n", n, first, second); break;
    case RAHUVYTE_FREED: printf(N "freed" VALUE VALUE ")\n", n, first, second); break;
    case RAHUVYTE_PICKED: printf(N "picked" VALUE ")\n", n, first); break;
    default: printf(N "refused" VALUE ")\n", n, reply->code);
    }
}

/* Reads the next line. Of one over 80 bytes the rest is skipped: what is left of it has no newline and is unread. */
static bool next_line(char *line)
{
    int c;
    memset(line, '\n', LINE_SIZE);
    if (fgets(line, LINE_SIZE, stdin) == NULL)
        return false;
    if (line[LINE_SIZE - 1] == '\0' && line[LINE_SIZE - 2] != '\n')
        do
            c = getc(stdin);
        while (c != '\n' && c != EOF);
    return true;
}

int main(void)
{
    char line[LINE_SIZE];
    struct rahuvyte_reply reply;
    load_card();
    for (uint64_t n = 1; next_line(line); n++) {
        if (played(line, &reply))
            print(n, &reply);
        else
            printf(N "unread)\n", n);
    }
    return ferror(stdin) || fclose(stdout) == EOF;
}
