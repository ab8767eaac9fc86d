/* The recorder's calls through the C boundary, with a desk beside it: document 01's example (L = 3, S = 2, page 2) in both its
 * variants, close by close, as the side file is listed, the base has it and desks of each tick read it; then the counts, raw
 * pages, the end of a recording, and every number of refusal. After every refusal it is looked at that nothing changed, and
 * after every call that the bytes behind the slices did not. */
#include "expect.h"
#include "ungletice.h"
#include <stdio.h>
#include <string.h>

enum {
    P = 512,
    S = 2,
    L = 3,
    E = 6,
    PAGES = 4,
    MORE = 8, /* bytes behind each slice, lent too */
    REST = 0xa5,
    HELD = UNGLETICE_HELD_LENGTH(S, L),
    SIDE = UNGLETICE_SIDE_LENGTH(P, S, L),
    LEDGER = UNGLETICE_LEDGER_LENGTH(S, L),
    FIRST_IMAGE = 512
};

static const ungletice_settings settings = {P, S, L, E};
static const ungletice_state zero;

/* A recording: everything that lies between two calls. */
struct recording {
    ungletice_state state;
    uint8_t ledger[LEDGER + MORE], base[E * P + MORE], side[SIDE + MORE], buffer[S * P + MORE], kinds[E + MORE];
};

static struct recording now, before;
static uint8_t into[P], held[16][HELD], marks[E];

static void expect_text(const char *what, const char *got, const char *wanted)
{
    if (strcmp(got, wanted) == 0) {
        passed++;
        return;
    }
    failed++;
    printf("%s: '%s', not '%s'\n", what, got, wanted);
}

static int all(const uint8_t *bytes, size_t length, uint8_t value)
{
    for (size_t i = 0; i < length; i++)
        if (bytes[i] != value)
            return 0;
    return 1;
}

static void put32(uint8_t *at, uint32_t v)
{
    for (int i = 0; i < 4; i++)
        at[i] = (uint8_t)(v >> 8 * i);
}

/* What sidelist prints for the side file: closed tick, e and n, then page, place and last change of each entry. */
static const char *listing(void)
{
    static char text[1000];
    uint8_t taken[HELD];
    uint32_t refused = ungletice_take(now.side, sizeof now.side, taken, sizeof taken);
    ungletice_told told = ungletice_header_of(taken, sizeof taken);
    ungletice_index_entry entry;
    int at = 0;

    if (refused) {
        snprintf(text, sizeof text, "refused %u\n", refused);
        return text;
    }
    at = snprintf(text, sizeof text, "tick %u end %u entries %u\n", told.tick, told.end, told.entries);
    for (uint32_t i = 0; (entry = ungletice_entry_of(taken, sizeof taken, i)).found; i++)
        at += snprintf(text + at, sizeof text - (size_t)at, "%u %u %u\n", entry.page, entry.place, entry.changed);
    return text;
}

/* The answer of a call, taken over as a caller does: the state on 0 alone. A refusal answers the state `given`, and leaves
 * everything as it was before. */
static uint32_t done(ungletice_answer answer, ungletice_state given)
{
    if (!all(now.ledger + LEDGER, MORE, REST) || !all(now.base + E * P, MORE, REST) || !all(now.side + SIDE, MORE, REST)
        || !all(now.buffer + S * P, MORE, REST) || !all(now.kinds + E, MORE, REST))
        expect("bytes behind a slice changed", 1, 0);
    if (answer.number == 0) {
        now.state = answer.state;
        return 0;
    }
    expect("a refusal hands the state back", (size_t)memcmp(&answer.state, &given, sizeof given), 0);
    expect("a refusal changes nothing", (size_t)memcmp(&now, &before, sizeof now), 0);
    return answer.number;
}

#define LENT now.ledger, sizeof now.ledger, now.base, sizeof now.base, now.side, sizeof now.side, now.buffer, \
             sizeof now.buffer, now.kinds, sizeof now.kinds

static uint32_t opening(ungletice_settings with, uint32_t end, uint32_t tick)
{
    memcpy(&before, &now, sizeof now);
    return done(ungletice_recorder_open(with, end, tick, LENT), zero);
}

static uint32_t reading(uint32_t page, uint32_t offset, size_t length)
{
    uint32_t number;
    memcpy(&before, &now, sizeof now);
    memset(into, 0xee, sizeof into);
    number = done(ungletice_recorder_read(now.state, LENT, page, offset, into, length), now.state);
    if (number)
        expect("a refused read copies nothing", all(into, sizeof into, 0xee), 1);
    return number;
}

/* Writes one value over the first bytes of a page. */
static uint32_t writing(uint32_t page, uint32_t offset, size_t length, uint8_t value)
{
    uint8_t bytes[P + 1];
    memset(bytes, value, sizeof bytes);
    memcpy(&before, &now, sizeof now);
    return done(ungletice_recorder_write(now.state, LENT, page, offset, bytes, length), now.state);
}

static uint32_t growing(uint32_t kind)
{
    memcpy(&before, &now, sizeof now);
    return done(ungletice_recorder_grow(now.state, LENT, kind), now.state);
}

static uint32_t closing(void)
{
    memcpy(&before, &now, sizeof now);
    return done(ungletice_recorder_close(now.state, LENT), now.state);
}

/* Four metadata pages, page p with 10 + p in every byte, and a tick that is closed. */
static void fresh(uint32_t tick)
{
    memset(&now, REST, sizeof now);
    for (size_t page = 0; page < PAGES; page++)
        memset(now.base + page * P, (int)(10 + page), P);
    memset(now.kinds, UNGLETICE_METADATA, PAGES);
    expect("open", opening(settings, PAGES, tick), 0);
}

/* The byte at the beginning of page 2, for the desk that took at a tick; 256 and the number where it is refused. */
static uint32_t seen(uint32_t taken)
{
    const uint8_t *h = held[taken];
    uint32_t refused = ungletice_read(now.side, SIDE, now.base, E * P, h, HELD, 2, 0, P);
    size_t at = ungletice_read_offset(now.side, SIDE, now.base, E * P, h, HELD, 2, 0, P);
    int in_side = ungletice_read_source(now.side, SIDE, now.base, E * P, h, HELD, 2, 0, P) != 0;
    return refused ? 256 + refused : (in_side ? now.side : now.base)[at];
}

static void lengths(void)
{
    static const ungletice_settings largest = {4096, 16, 8, 65535};
    static const ungletice_settings outside[] = {
        {0, 2, 3, 6},    {256, 2, 3, 6}, {513, 2, 3, 6}, {8192, 2, 3, 6}, {512, 0, 3, 6},
        {512, 17, 3, 6}, {512, 2, 2, 6}, {512, 2, 9, 6}, {512, 2, 3, 0},  {512, 2, 3, 65536}};

    memset(&now, REST, sizeof now);
    expect("ledger", ungletice_ledger_length(settings), 272);
    expect("ledger's macro", LEDGER, 272);
    expect("base", ungletice_base_length(settings), E * P);
    expect("side file", ungletice_side_length(settings), 7680);
    expect("side file's macro", SIDE, 7680);
    expect("page buffer", ungletice_buffer_length(settings), S * P);
    expect("held buffer", ungletice_held_length(settings), HELD);
    expect("longest ledger", ungletice_ledger_length(largest), UNGLETICE_LONGEST_LEDGER);
    expect("longest held buffer", ungletice_held_length(largest), UNGLETICE_LONGEST_HELD);
    expect("longest side file", ungletice_side_length(largest), UNGLETICE_SIDE_LENGTH(4096, 16, 8));
    expect("longest base", ungletice_base_length(largest), (size_t)4096 * 65535);
    for (size_t i = 0; i < sizeof outside / sizeof *outside; i++) {
        expect("ledger of bad settings", ungletice_ledger_length(outside[i]), 0);
        expect("base of bad settings", ungletice_base_length(outside[i]), 0);
        expect("side file of bad settings", ungletice_side_length(outside[i]), 0);
        expect("page buffer of bad settings", ungletice_buffer_length(outside[i]), 0);
        expect("held buffer of bad settings", ungletice_held_length(outside[i]), 0);
        expect("open with bad settings", opening(outside[i], 0, 0), 1);
    }
}

static void expect_counts(const char *what, ungletice_counts c, uint32_t a, uint32_t h, uint32_t m, uint32_t e, uint32_t b)
{
    expect(what, c.accesses == a && c.hits == h && c.misses == m && c.evictions == e && c.bypasses == b, 1);
}

static void opened(void)
{
    ungletice_settings told;

    fresh(77);
    told = ungletice_settings_of(now.state);
    expect("settings told", (size_t)memcmp(&told, &settings, sizeof told), 0);
    expect("closed tick", ungletice_closed_tick(now.state), 77);
    expect("end", ungletice_end(now.state), PAGES);
    expect("entries", ungletice_entries(now.state), 0);
    expect_counts("metadata counts of an open", ungletice_metadata_counts(now.state), 0, 0, 0, 0, 0);
    expect_counts("raw counts of an open", ungletice_raw_counts(now.state), 0, 0, 0, 0, 0);
    expect_text("listing of an open", listing(), "tick 77 end 4 entries 0\n");
    expect("images are left", all(now.side + FIRST_IMAGE, SIDE - FIRST_IMAGE, REST), 1);
    expect("the ledger is cleared", all(now.ledger, LEDGER, 0), 1);
}

/* Page 2 is written in tick 1, and again in tick 2 where `twice`. Ticks 1 to 8 are closed, with a desk that takes at each. */
static void example(int twice)
{
    static const char *const once_listed[] = {
        "tick 1 end 4 entries 1\n2 0 1\n", "tick 2 end 4 entries 1\n2 0 1\n", "tick 3 end 4 entries 1\n2 0 1\n",
        "tick 4 end 4 entries 1\n2 0 1\n", "tick 5 end 4 entries 0\n",        "tick 6 end 4 entries 0\n",
        "tick 7 end 4 entries 0\n",        "tick 8 end 4 entries 1\n3 0 8\n"};
    static const char *const twice_listed[] = {
        "tick 1 end 4 entries 1\n2 0 1\n", "tick 2 end 4 entries 1\n2 1 2\n",        "tick 3 end 4 entries 1\n2 1 2\n",
        "tick 4 end 4 entries 1\n2 1 2\n", "tick 5 end 4 entries 2\n2 1 2\n3 0 5\n", "tick 6 end 4 entries 1\n3 0 5\n",
        "tick 7 end 4 entries 1\n3 0 5\n", "tick 8 end 4 entries 1\n3 0 5\n"};
    uint32_t again = twice ? 5 : 8; /* place 0 is reusable from this close */
    uint32_t hits = 0, misses = 0;

    fresh(0);
    expect("take at tick 0", ungletice_take(now.side, SIDE, held[0], HELD), 0);
    for (uint32_t tick = 1; tick <= 8; tick++) {
        if (tick == 1 || (twice && tick == 2)) {
            expect("write to page 2", writing(2, 0, P, (uint8_t)(70 + tick)), 0);
            *(tick == 1 ? &misses : &hits) += 1;
        }
        if (tick == again) {
            expect("write to page 3", writing(3, 0, 1, 99), 0);
            misses++;
        }
        expect("close", closing(), 0);
        expect_counts("a close counts nothing", ungletice_metadata_counts(now.state), hits + misses, hits, misses, 0, 0);
        expect("closed tick", ungletice_closed_tick(now.state), tick);
        expect_text("listing", listing(), (twice ? twice_listed : once_listed)[tick - 1]);
        expect("entries told", ungletice_entries(now.state), ungletice_header_of(now.side, SIDE).entries);
        expect("page 2 in the base", now.base[2 * P], tick < 4 ? 12 : twice ? 72 : 71);
        expect("take", ungletice_take(now.side, SIDE, held[tick], HELD), 0);
        for (uint32_t taken = 0; taken <= tick; taken++)
            expect("page 2 at the desk", seen(taken),
                   tick - taken > L ? 256 + 13 : taken == 0 ? 12 : twice && taken > 1 ? 72 : 71);
    }
    expect("page 3 waits", now.base[3 * P], twice ? 99 : 13);
    expect("the other pages", all(now.base, P, 10) && all(now.base + P, P, 11), 1);
    expect("refresh from tick 5", ungletice_refresh(now.side, SIDE, held[5], HELD, marks, PAGES), 0);
    expect("its marks", (size_t)memcmp(marks, twice ? "\0\0\0\0" : "\0\0\0\1", PAGES), 0);
    expect("its bytes", (size_t)memcmp(held[5], held[8], HELD), 0);
    expect("refresh from tick 4", ungletice_refresh(now.side, SIDE, held[4], HELD, marks, PAGES), 13);
}

/* Place 0 is not given one close earlier than the example says. */
static void rested(void)
{
    fresh(0);
    expect("write", writing(2, 0, 1, 71), 0);
    for (int tick = 1; tick < 7; tick++)
        expect("close", closing(), 0);
    expect("write before close 7", writing(3, 0, 1, 99), 0);
    expect("close 7", closing(), 0);
    expect_text("place 1 at close 7", listing(), "tick 7 end 4 entries 1\n3 1 7\n");
}

static void counted(void)
{
    fresh(0);
    expect("read 0", reading(0, 5, 3), 0);
    expect("its bytes", all(into, 3, 10) && all(into + 3, P - 3, 0xee), 1);
    expect("read 1", reading(1, 0, P), 0);
    expect("read 0 again", reading(0, 0, 1), 0);
    expect("read 2", reading(2, 0, 1), 0);
    expect_counts("4 accesses, 1 hit, 3 misses, 1 eviction", ungletice_metadata_counts(now.state), 4, 1, 3, 1, 0);
    expect("read 0, still there", reading(0, 0, 1), 0);
    expect_counts("page 1 was the one evicted", ungletice_metadata_counts(now.state), 5, 2, 3, 1, 0);
    expect("write 0", writing(0, 0, 1, 1), 0);
    expect("write 2", writing(2, 0, 1, 1), 0);
    expect("write without a slot", writing(1, 0, 1, 1), 7);
    expect("metadata page without a slot", growing(UNGLETICE_METADATA), 7);
    expect("read without a slot", reading(1, 0, P), 0);
    expect("is served from the base", all(into, P, 11), 1);
    expect_counts("and is a bypass", ungletice_metadata_counts(now.state), 7, 4, 3, 1, 1);
    expect_counts("nothing of it is raw", ungletice_raw_counts(now.state), 0, 0, 0, 0, 0);
}

static void raw_pages(void)
{
    fresh(0);
    expect("grow a raw page", growing(UNGLETICE_RAW), 0);
    expect("end", ungletice_end(now.state), PAGES + 1);
    expect("its kind", now.kinds[PAGES], UNGLETICE_RAW);
    expect("zero at once", all(now.base + PAGES * P, P, 0), 1);
    expect("raw write", writing(PAGES, 100, 2, 55), 0);
    expect("in the base at once", all(now.base + PAGES * P + 100, 2, 55), 1);
    expect("raw read", reading(PAGES, 99, 4), 0);
    expect("its bytes", (size_t)memcmp(into, "\0\67\67\0", 4), 0);
    expect_counts("two raw bypasses", ungletice_raw_counts(now.state), 0, 0, 0, 0, 2);
    expect("grow a metadata page", growing(UNGLETICE_METADATA), 0);
    expect("not in the base", all(now.base + (PAGES + 1) * P, P, REST), 1);
    expect("read of it", reading(PAGES + 1, 0, P), 0);
    expect("is zero", all(into, P, 0), 1);
    expect("close", closing(), 0);
    expect_text("raw pages have no entry", listing(), "tick 1 end 6 entries 1\n5 0 1\n");
    expect("all six pages are there", growing(UNGLETICE_RAW), 8);
    expect("write 0", writing(0, 0, 1, 1), 0);
    expect("full slots as well", growing(UNGLETICE_METADATA), 8);
}

/* After the close of the last change and L more the base is whole, and with one more the index is empty. */
static void ended(void)
{
    fresh(0);
    for (uint8_t tick = 1; tick <= 6; tick++) {
        expect("write 0", writing(0, 0, P, tick), 0);
        expect("write 1", writing(1, 0, P, (uint8_t)(100 + tick)), 0);
        expect("close", closing(), 0);
    }
    for (int more = 0; more < L; more++)
        expect("close", closing(), 0);
    expect("page 0 is whole", all(now.base, P, 6), 1);
    expect("page 1 is whole", all(now.base + P, P, 106), 1);
    expect("entries left", ungletice_entries(now.state), 2);
    expect("close", closing(), 0);
    expect("none left", ungletice_entries(now.state), 0);
    expect_text("listing", listing(), "tick 10 end 4 entries 0\n");
}

/* Each slice one byte short, at each call: 3 for the ledger, which is state (at open 2), and 2 for the others. */
static void too_short(void)
{
    for (int which = 0; which < 5; which++) {
        size_t l = LEDGER - (which == 0), b = E * P - (which == 1), s = SIDE - (which == 2), p = S * P - (which == 3),
               k = E - (which == 4);
        uint32_t wanted = which == 0 ? 3 : 2;
        ungletice_state state;

        fresh(0);
        state = now.state;
        memcpy(&before, &now, sizeof now);
#define SHORT now.ledger, l, now.base, b, now.side, s, now.buffer, p, now.kinds, k
        expect("short, open", done(ungletice_recorder_open(settings, PAGES, 0, SHORT), zero), 2);
        expect("short, read", done(ungletice_recorder_read(state, SHORT, 0, 0, into, 1), state), wanted);
        expect("short, write", done(ungletice_recorder_write(state, SHORT, 0, 0, into, 1), state), wanted);
        expect("short, grow", done(ungletice_recorder_grow(state, SHORT, UNGLETICE_RAW), state), wanted);
        expect("short, close", done(ungletice_recorder_close(state, SHORT), state), wanted);
    }
}

/* A state or ledger that was tampered with: every call refuses it by 3. */
static void broken(const char *what)
{
    expect(what, reading(0, 0, 1), 3);
    expect(what, writing(0, 0, 1, 1), 3);
    expect(what, growing(UNGLETICE_RAW), 3);
    expect(what, closing(), 3);
}

static void tampered(void)
{
    struct recording good;

    fresh(0);
    expect("write", writing(2, 0, 1, 1), 0);
    expect("close", closing(), 0);
    memcpy(&good, &now, sizeof now);
    now.state.settings.slots = 17;
    broken("settings");
    memcpy(&now, &good, sizeof now);
    now.state.end = E + 1;
    broken("end above E");
    memcpy(&now, &good, sizeof now);
    now.state.closed = 0;
    broken("an entry of the future");
    memcpy(&now, &good, sizeof now);
    now.state.entries = 9;
    broken("more entries than the index has room for");
    memcpy(&now, &good, sizeof now);
    now.state.slots.used = 2;
    broken("order of use");
    memcpy(&now, &good, sizeof now);
    now.state.slots.changed[1] = 1;
    broken("an empty slot that is changed");
    memcpy(&now, &good, sizeof now);
    put32(now.ledger + 4, 14);
    broken("place not below M");
    memcpy(&now, &good, sizeof now);
    put32(now.ledger + 20 * 8, 1);
    broken("a place held and retired");
    memcpy(&now, &good, sizeof now);
    now.kinds[2] = UNGLETICE_RAW;
    broken("a raw page in a slot");
    now.state = zero;
    broken("a state of zeros");
}

static void refused(void)
{
    fresh(0);
    expect("e above E", opening(settings, E + 1, 0), 1);
    now.kinds[3] = 2;
    expect("a kind below e", opening(settings, PAGES, 0), 5);
    expect("a kind not below e", opening(settings, 3, 0), 0);

    fresh(0);
    expect("page 4, read", reading(4, 0, 1), 4);
    expect("page 4, write", writing(4, 0, 1, 1), 4);
    expect("kind 2, grow", growing(2), 5);
    now.kinds[1] = 2;
    expect("kind 2, read", reading(1, 0, 1), 5);
    expect("kind 2, write", writing(1, 0, 1, 1), 5);
    expect("empty span, read", reading(0, 0, 0), 6);
    expect("empty span, write", writing(0, 0, 0, 1), 6);
    expect("span past the end, read", reading(0, 1, P), 6);
    expect("span past the end, write", writing(0, 1, P, 1), 6);
    expect("offset that would wrap", reading(0, 4294967295u, 1), 6);
    expect("the whole page", writing(0, 0, P, 1), 0);

    fresh(4294967294u);
    expect("close of the largest tick", closing(), 0);
    expect("close after it", closing(), 9);

    fresh(5);
    expect("write", writing(2, 0, 1, 1), 0);
    for (size_t place = 0; place < 14; place++) {
        put32(now.ledger + 20 * 8 + 8 * place, 1);
        put32(now.ledger + 20 * 8 + 8 * place + 4, 5);
    }
    expect("close without a place to give", closing(), 10);
}

int main(void)
{
    lengths();
    opened();
    example(0);
    example(1);
    rested();
    counted();
    raw_pages();
    ended();
    too_short();
    tampered();
    refused();
    printf("%d passed, %d failed\n", passed, failed);
    return failed != 0;
}
