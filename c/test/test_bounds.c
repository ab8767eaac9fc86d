/* Nothing outside what was lent: every exported function with each of its slices placed right behind and right before
 * unmapped memory, at exact lengths, one byte short and empty. Slices that a call does not write, and all slices of a call
 * that must refuse, cannot be written while it runs. Then forged states and damaged bytes at random, with the same care.
 * A touch of other memory is a fault, which is caught and counted as a failure. */
#define _DEFAULT_SOURCE
#include "ungletice.h"
#include <setjmp.h>
#include <signal.h>
#include <stdio.h>
#include <stdlib.h>
#include <string.h>
#include <sys/mman.h>
#include <unistd.h>

enum { LEDGER, BASE, SIDE, BUFFER, KINDS, SPAN, HELD, MARKS, SLICES };
enum { ANY = 99, ROUNDS = 4000 };

#define BIT(s) (1u << (s))

/* A slice: what it holds between calls, and the room with unmapped neighbours in which it is lent. */
struct slice {
    uint8_t *kept, *left, *room, *at;
    size_t length, room_length;
};

static const char *const names[SLICES] = {"ledger", "base", "side", "buffer", "kinds", "span", "held", "marks"};
static struct slice slices[SLICES];
static ungletice_settings settings;
static ungletice_state state;
static ungletice_answer answer;
static uint32_t tick, end, page, offset, length, kind;
static size_t found; /* what a call found, the same at both ends */
static int amiss;    /* its answers do not fit each other */
static int passed, failed, wrong;
static sigjmp_buf fault;

static void expect(const char *what, const char *more, size_t got, size_t wanted)
{
    if (got == wanted)
        return;
    wrong = 1;
    printf("P=%u S=%u L=%u E=%u: %s, %s: %zu, not %zu\n", settings.size, settings.slots, settings.lag, settings.capacity, what,
           more, got, wanted);
}

/* What was expected since the last count is one test. */
static void count(void)
{
    if (wrong)
        failed++;
    else
        passed++;
    wrong = 0;
}

static void faulted(int number)
{
    siglongjmp(fault, number);
}

static void *checked(void *memory)
{
    if (memory == NULL || memory == MAP_FAILED) {
        printf("no memory\n0 passed, 1 failed\n");
        exit(1);
    }
    return memory;
}

/* A room of whole pages for a slice of at most so many bytes, with an unmapped page at either end. */
static void make_room(int s, size_t most)
{
    size_t unit = (size_t)sysconf(_SC_PAGESIZE);
    size_t room = (most + unit) / unit * unit;
    uint8_t *map = checked(mmap(NULL, room + 2 * unit, PROT_NONE, MAP_PRIVATE | MAP_ANONYMOUS, -1, 0));

    slices[s].room = map + unit;
    slices[s].room_length = room;
    slices[s].length = most;
    slices[s].kept = checked(calloc(1, most + 1));
    slices[s].left = checked(calloc(1, most + 1));
}

static void drop_room(int s)
{
    size_t unit = (size_t)sysconf(_SC_PAGESIZE);
    munmap(slices[s].room - unit, slices[s].room_length + 2 * unit);
    free(slices[s].kept);
    free(slices[s].left);
}

/* Puts a slice at the front or at the back of its room. An empty one is lent as the end of its room, or as NULL. */
static void lend(int s, int back, int writable)
{
    struct slice *x = &slices[s];

    mprotect(x->room, x->room_length, PROT_READ | PROT_WRITE);
    x->at = back ? x->room + x->room_length - x->length : x->room;
    memcpy(x->at, x->kept, x->length);
    if (!writable)
        mprotect(x->room, x->room_length, PROT_READ);
    if (x->length == 0)
        x->at = back ? x->room + x->room_length : NULL;
}

#define LENT(s) slices[s].at, slices[s].length
#define FILES LENT(LEDGER), LENT(BASE), LENT(SIDE), LENT(BUFFER), LENT(KINDS)

static uint32_t open_(void)
{
    answer = ungletice_recorder_open(settings, end, tick, FILES);
    return answer.number;
}

static uint32_t read_(void)
{
    answer = ungletice_recorder_read(state, FILES, page, offset, LENT(SPAN));
    return answer.number;
}

static uint32_t write_(void)
{
    answer = ungletice_recorder_write(state, FILES, page, offset, LENT(SPAN));
    return answer.number;
}

static uint32_t grow_(void)
{
    answer = ungletice_recorder_grow(state, FILES, kind);
    return answer.number;
}

static uint32_t close_(void)
{
    answer = ungletice_recorder_close(state, FILES);
    return answer.number;
}

static uint32_t take_(void)
{
    return ungletice_take(LENT(SIDE), LENT(HELD));
}

static uint32_t refresh_(void)
{
    return ungletice_refresh(LENT(SIDE), LENT(HELD), LENT(MARKS));
}

/* A desk read in one call and by its companions, which must agree; where it is accepted, the part lies in its slice. */
static uint32_t desk_(void)
{
    ungletice_part part = ungletice_read_part(LENT(SIDE), LENT(BASE), LENT(HELD), page, offset, length);
    uint32_t number = ungletice_read(LENT(SIDE), LENT(BASE), LENT(HELD), page, offset, length);
    uint32_t source = ungletice_read_source(LENT(SIDE), LENT(BASE), LENT(HELD), page, offset, length);
    size_t at = ungletice_read_offset(LENT(SIDE), LENT(BASE), LENT(HELD), page, offset, length);
    size_t room = slices[source ? SIDE : BASE].length;

    found = at;
    amiss = source > 1 || (number ? source || at : length > room || at > room - length) || part.number != number
            || part.source != source || part.offset != at;
    return number;
}

static int is_none(ungletice_index_entry entry)
{
    return !(entry.found || entry.page || entry.place || entry.changed || entry.sum);
}

/* What a header and its index tell: entries up to the last, none from then on; zeros where it is refused. */
static uint32_t tell(int s)
{
    ungletice_told told = ungletice_header_of(LENT(s));
    ungletice_settings with = told.settings;

    found = told.tick;
    amiss = !is_none(ungletice_entry_of(LENT(s), told.entries)) || !is_none(ungletice_entry_of(LENT(s), 4294967295u));
    if (told.number)
        amiss |= told.tick || told.end || told.entries || with.size || with.slots || with.lag || with.capacity;
    for (uint32_t i = 0; i < told.entries; i++)
        amiss |= ungletice_entry_of(LENT(s), i).found != 1;
    return told.number;
}

static uint32_t tell_side_(void)
{
    return tell(SIDE);
}

static uint32_t tell_held_(void)
{
    return tell(HELD);
}

static uint32_t lookup3_(void)
{
    found = ungletice_lookup3(LENT(SPAN), tick);
    return 0;
}

struct call {
    const char *name;
    uint32_t (*make)(void);
    unsigned lent, writes; /* a bit for each slice */
};

#define RECORDED (BIT(LEDGER) | BIT(BASE) | BIT(SIDE) | BIT(BUFFER) | BIT(KINDS))

static const struct call opening = {"open", open_, RECORDED, BIT(LEDGER) | BIT(SIDE)};
static const struct call reading = {"read", read_, RECORDED | BIT(SPAN), BIT(BUFFER) | BIT(SPAN)};
static const struct call writing = {"write", write_, RECORDED | BIT(SPAN), BIT(BASE) | BIT(BUFFER)};
static const struct call growing = {"grow", grow_, RECORDED, BIT(BASE) | BIT(BUFFER) | BIT(KINDS)};
static const struct call closing = {"close", close_, RECORDED, BIT(LEDGER) | BIT(BASE) | BIT(SIDE)};
static const struct call taking = {"take", take_, BIT(SIDE) | BIT(HELD), BIT(HELD)};
static const struct call refreshing = {"refresh", refresh_, BIT(SIDE) | BIT(HELD) | BIT(MARKS), BIT(HELD) | BIT(MARKS)};
static const struct call finding = {"desk read", desk_, BIT(SIDE) | BIT(BASE) | BIT(HELD), 0};
static const struct call telling_side = {"header of the side file", tell_side_, BIT(SIDE), 0};
static const struct call telling_held = {"header of the held buffer", tell_held_, BIT(HELD), 0};
static const struct call summing = {"lookup3", lookup3_, BIT(SPAN), 0};

static int recorder_call(const struct call *c)
{
    return (c->lent & BIT(LEDGER)) != 0;
}

/* The call with its slices at one end of their rooms; its number, or ANY after a fault. */
static uint32_t made(const struct call *c, int back, int writable)
{
    for (int s = 0; s < SLICES; s++)
        if (c->lent & BIT(s))
            lend(s, back, writable && (c->writes & BIT(s)));
    answer.state = state;
    found = 0;
    amiss = 0;
    if (sigsetjmp(fault, 1)) {
        expect(c->name, back ? "a touch of what it may not (back)" : "a touch of what it may not (front)", 1, 0);
        return ANY;
    }
    return c->make();
}

/* Whether the lent bytes are those that were kept before the call. */
static int untouched(const struct call *c)
{
    for (int s = 0; s < SLICES; s++)
        if ((c->lent & BIT(s)) && slices[s].length && memcmp(slices[s].at, slices[s].kept, slices[s].length))
            return 0;
    return 1;
}

static int same_state(const struct call *c)
{
    static const ungletice_state zero;
    return !recorder_call(c) || memcmp(&answer.state, c->make == open_ ? &zero : &state, sizeof state) == 0;
}

/* A call that must be refused: no lent slice can be written, and the state comes back. */
static void refuses(const struct call *c, const char *what, uint32_t wanted)
{
    for (int back = 0; back < 2; back++) {
        uint32_t number = made(c, back, 0);
        if (number == ANY)
            continue;
        expect(c->name, what, number, wanted);
        expect(c->name, "state and bytes after a refusal", same_state(c) && untouched(c), 1);
        expect(c->name, "what the companions answer", (size_t)amiss, 0);
    }
    count();
}

/* A call that must be accepted, and leaves the same at both ends. What it leaves is kept. */
static void accepts(const struct call *c, const char *what)
{
    ungletice_answer first;
    size_t first_found = 0;

    for (int back = 0; back < 2; back++) {
        uint32_t number = made(c, back, 1);
        if (number == ANY)
            break;
        expect(c->name, what, number, 0);
        expect(c->name, "what the companions answer", (size_t)amiss, 0);
        for (int s = 0; s < SLICES; s++) {
            if (!(c->writes & BIT(s)) || !slices[s].length)
                continue;
            if (back)
                expect(c->name, names[s], (size_t)memcmp(slices[s].left, slices[s].at, slices[s].length), 0);
            memcpy(slices[s].left, slices[s].at, slices[s].length);
        }
        if (back) {
            expect(c->name, "the answer at both ends", (size_t)memcmp(&first, &answer, sizeof answer), 0);
            expect(c->name, "what it found at both ends", found, first_found);
        }
        first = answer;
        first_found = found;
    }
    count();
    for (int s = 0; s < SLICES; s++)
        if (c->writes & BIT(s))
            memcpy(slices[s].kept, slices[s].left, slices[s].length);
    if (recorder_call(c))
        state = answer.state;
}

/* The call with one slice at another length. */
static void short_of(const struct call *c, int s, size_t given, uint32_t wanted)
{
    char what[40];
    size_t whole = slices[s].length;

    snprintf(what, sizeof what, "%s of %zu", names[s], given);
    slices[s].length = given;
    refuses(c, what, wanted);
    slices[s].length = whole;
}

/* A recorder call with each slice one byte short and empty. The ledger counts as state: too short, it is 3, at open 2. */
static void short_slices(const struct call *c)
{
    for (int s = LEDGER; s <= KINDS; s++) {
        uint32_t wanted = s == LEDGER && c->make != open_ ? 3 : 2;
        short_of(c, s, slices[s].length - 1, wanted);
        short_of(c, s, 0, wanted);
    }
}

static void make_rooms(void)
{
    make_room(LEDGER, ungletice_ledger_length(settings));
    make_room(BASE, ungletice_base_length(settings));
    make_room(SIDE, ungletice_side_length(settings));
    make_room(BUFFER, ungletice_buffer_length(settings));
    make_room(KINDS, settings.capacity);
    make_room(SPAN, settings.size + 1);
    make_room(HELD, ungletice_held_length(settings));
    make_room(MARKS, settings.capacity);
    for (int s = 0; s < SLICES; s++)
        for (size_t i = 0; i < slices[s].length; i++)
            slices[s].kept[i] = s == KINDS ? (uint8_t)(i % 4 == 3) : (uint8_t)(31 * i + 7 * (i >> 8) + 77 * (size_t)s);
}

static void lengths(void)
{
    expect("lengths", "ledger", slices[LEDGER].length, UNGLETICE_LEDGER_LENGTH(settings.slots, settings.lag));
    expect("lengths", "base", slices[BASE].length, (size_t)settings.size * settings.capacity);
    expect("lengths", "side", slices[SIDE].length, UNGLETICE_SIDE_LENGTH(settings.size, settings.slots, settings.lag));
    expect("lengths", "buffer", slices[BUFFER].length, (size_t)settings.size * settings.slots);
    expect("lengths", "held", slices[HELD].length, UNGLETICE_HELD_LENGTH(settings.slots, settings.lag));
    count();
}

static void opens(void)
{
    ungletice_settings right = settings;

    end = settings.capacity > 1 ? settings.capacity - 1 : 1;
    tick = 7;
    short_slices(&opening);
    settings.lag = 9;
    refuses(&opening, "L of 9", 1);
    settings = right;
    slices[KINDS].kept[end - 1] = 2;
    refuses(&opening, "kind 2 in the last page", 5);
    slices[KINDS].kept[end - 1] = 0;
    accepts(&opening, "exact lengths");
}

static void span(uint32_t of, uint32_t at, size_t n)
{
    page = of;
    offset = at;
    length = (uint32_t)n;
    slices[SPAN].length = n;
}

static int in_slot(uint32_t p)
{
    for (int i = 0; i < 16; i++)
        if (state.slots.pages[i] == p)
            return 1;
    return 0;
}

/* Read or write: exact lengths at both ends of the first and the last page, and every refusal that a sound state meets. */
static void spans(const struct call *c)
{
    uint32_t last = state.end - 1;

    slices[KINDS].kept[last] ^= 4;
    span(last, 0, 1);
    refuses(c, "a kind that is none", in_slot(last) ? 3 : 5);
    slices[KINDS].kept[last] ^= 4;
    span(0, 0, settings.size);
    accepts(c, "a whole page");
    span(0, settings.size - 1, 1);
    accepts(c, "the last byte of page 0");
    short_slices(c);
    span(last, 0, settings.size);
    if (slices[KINDS].kept[last] == 1 || settings.slots > 1 || last == 0)
        accepts(c, "the last page whole");
    span(state.end, 0, 1);
    refuses(c, "page e", 4);
    span(4294967295u, 0, 1);
    refuses(c, "the largest page", 4);
    span(0, 0, settings.size + 1);
    refuses(c, "a byte more than a page", 6);
    span(0, settings.size, 1);
    refuses(c, "a byte behind the page", 6);
    span(0, 4294967295u, 1);
    refuses(c, "an offset that would wrap", 6);
    span(0, 0, 0);
    refuses(c, "nothing", 6);
}

static void grows(void)
{
    kind = 2;
    refuses(&growing, "kind 2", 5);
    kind = 1;
    short_slices(&growing);
    if (state.end < settings.capacity)
        accepts(&growing, "a raw page, the last that fits");
    refuses(&growing, "no room", 8);
}

static void closes(void)
{
    short_slices(&closing);
    accepts(&closing, "exact lengths");
}

/* Every page that can be is changed in the open tick. */
static void change_pages(void)
{
    for (uint32_t p = 0; p < state.end; p++) {
        span(p, p % settings.size, 1);
        if (made(&writing, 1, 1) == 0) {
            memcpy(slices[BASE].kept, slices[BASE].at, slices[BASE].length);
            memcpy(slices[BUFFER].kept, slices[BUFFER].at, slices[BUFFER].length);
            state = answer.state;
        }
    }
}

static void takes(void)
{
    short_of(&taking, SIDE, 0, 11);
    short_of(&taking, SIDE, 35, 11);
    short_of(&taking, SIDE, 36, 12);
    short_of(&taking, SIDE, slices[HELD].length, 12);
    short_of(&taking, SIDE, slices[SIDE].length - 1, 12);
    short_of(&taking, HELD, slices[HELD].length - 1, 2);
    short_of(&taking, HELD, 0, 2);
    accepts(&taking, "exact lengths");
}

static void refreshes(void)
{
    slices[MARKS].length = state.end;
    short_of(&refreshing, HELD, 0, 3);
    short_of(&refreshing, HELD, 35, 3);
    short_of(&refreshing, HELD, 36, 3);
    short_of(&refreshing, HELD, slices[HELD].length - 1, 3);
    short_of(&refreshing, SIDE, 0, 11);
    short_of(&refreshing, SIDE, slices[SIDE].length - 1, 12);
    short_of(&refreshing, MARKS, state.end - 1, 2);
    short_of(&refreshing, MARKS, 0, 2);
    accepts(&refreshing, "exact lengths");
}

/* The desk lends a base of as many pages as it holds, no more. */
static void finds(void)
{
    size_t whole = slices[BASE].length;

    slices[BASE].length = (size_t)settings.size * state.end;
    for (uint32_t p = 0; p < state.end; p += 1 + state.end / 16) {
        span(p, 0, settings.size);
        accepts(&finding, "a whole page");
        span(p, settings.size - 1, 1);
        accepts(&finding, "a page's last byte");
    }
    span(0, 0, 1);
    short_of(&finding, HELD, 0, 3);
    short_of(&finding, HELD, 35, 3);
    short_of(&finding, HELD, slices[HELD].length - 1, 3);
    short_of(&finding, SIDE, 0, 11);
    short_of(&finding, SIDE, 36, 12);
    short_of(&finding, SIDE, slices[SIDE].length - 1, 12);
    short_of(&finding, BASE, slices[BASE].length - 1, 2);
    short_of(&finding, BASE, 0, 2);
    span(state.end, 0, 1);
    refuses(&finding, "page e", 4);
    span(0, 1, settings.size);
    refuses(&finding, "a span past the end", 6);
    span(0, 4294967295u, 4294967295u);
    slices[SPAN].length = 0;
    refuses(&finding, "a span that would wrap", 6);
    slices[BASE].length = whole;
}

/* Header and index at exact lengths, and shorter: of a side file no more is asked. */
static void tells_of(const struct call *c, int s)
{
    size_t whole = slices[s].length, front = slices[HELD].length;

    accepts(c, "all of it");
    slices[s].length = front;
    accepts(c, "header and index");
    short_of(c, s, 0, 11);
    short_of(c, s, 35, 11);
    short_of(c, s, 36, 12);
    short_of(c, s, front - 1, 12);
    slices[s].length = whole;
}

static void tells(void)
{
    tells_of(&telling_side, SIDE);
    tells_of(&telling_held, HELD);
}

static void accessors(void)
{
    ungletice_settings got = ungletice_settings_of(state);
    ungletice_counts meta = ungletice_metadata_counts(state), raw = ungletice_raw_counts(state);

    expect("accessors", "settings", (size_t)memcmp(&got, &settings, sizeof got), 0);
    expect("accessors", "metadata counts", (size_t)memcmp(&meta, &state.meta, sizeof meta), 0);
    expect("accessors", "raw counts", (size_t)memcmp(&raw, &state.raw, sizeof raw), 0);
    expect("accessors", "closed tick", ungletice_closed_tick(state), state.closed);
    expect("accessors", "end", ungletice_end(state), state.end);
    expect("accessors", "entries", ungletice_entries(state), state.entries);
    count();
}

/* Every short length: whatever the number of last bytes, none is read past the slice's end. */
static void sums(void)
{
    for (size_t n = 0; n <= settings.size; n += n < 300 ? 1 : 61) {
        slices[SPAN].length = n;
        accepts(&summing, "a slice of any length");
    }
}

/* Forged and damaged: whatever the call is given, it touches nothing else, and what it refuses it leaves as it was. */

static uint32_t drawn(void)
{
    static uint64_t x = 88172645463325252u;
    x ^= x << 13;
    x ^= x >> 7;
    x ^= x << 17;
    return (uint32_t)(x >> 16);
}

static uint32_t any_number(void)
{
    static const uint32_t ends[] = {0, 1, 2, 15, 16, 17, 143, 144, 145, 271, 272, 65535, 65536, 4294967294u, 4294967295u};
    switch (drawn() % 3) {
    case 0: return ends[drawn() % (sizeof ends / sizeof ends[0])];
    case 1: return drawn() % 64;
    default: return drawn();
    }
}

static void damage(int s)
{
    if (slices[s].length)
        slices[s].kept[drawn() % (drawn() % 2 ? slices[s].length : 1 + slices[s].length / 8)] = (uint8_t)any_number();
}

static void damage_state(void)
{
    uint32_t words[sizeof state / 4];
    memcpy(words, &state, sizeof state);
    words[drawn() % (sizeof words / 4)] = any_number();
    memcpy(&state, words, sizeof state);
}

static void any_call(const struct call *c)
{
    uint32_t number;

    span(drawn() % 4 ? drawn() % (state.end % 65536 + 1) : any_number(), drawn() % 4 ? drawn() % settings.size : any_number(),
         drawn() % (settings.size + 2));
    kind = drawn() % 3;
    number = made(c, (int)(drawn() % 2), 1);
    if (number == ANY)
        return;
    expect(c->name, "what a refused call leaves", number == 0 || (same_state(c) && untouched(c)), 1);
    expect(c->name, "what the companions answer", (size_t)amiss, 0);
}

static void forges(void)
{
    static const struct call *const calls[] = {&opening, &reading,    &writing, &growing, &closing,      &reading,
                                               &taking,  &refreshing, &finding, &finding, &telling_side, &telling_held};
    struct slice sound[SLICES];
    ungletice_state right = state;
    ungletice_settings given = settings;

    for (int s = 0; s < SLICES; s++) {
        sound[s] = slices[s];
        memcpy(slices[s].left, slices[s].kept, slices[s].length);
    }
    for (int round = 0; round < ROUNDS; round++) {
        for (uint32_t n = drawn() % 3; n > 0; n--)
            damage_state();
        for (uint32_t n = drawn() % 4; n > 0; n--)
            damage((int)(drawn() % SLICES));
        if (drawn() % 4 == 0) {
            int s = (int)(drawn() % SLICES);
            slices[s].length = drawn() % (slices[s].length + 1);
        }
        any_call(calls[drawn() % (sizeof calls / sizeof calls[0])]);
        for (int s = 0; s < SLICES; s++) {
            slices[s].length = sound[s].length;
            memcpy(slices[s].kept, slices[s].left, slices[s].length);
        }
        state = right;
        settings = given;
    }
    count();
}

static void all_calls(ungletice_settings given)
{
    settings = given;
    memset(&state, 0, sizeof state);
    make_rooms();
    lengths();
    opens();
    spans(&reading);
    spans(&writing);
    closes();
    change_pages();
    takes();
    closes();
    finds();
    refreshes();
    finds();
    tells();
    grows();
    for (uint32_t i = 0; i < settings.lag; i++) {
        change_pages();
        accepts(&closing, "once more");
    }
    tells();
    accessors();
    sums();
    slices[SPAN].length = settings.size;
    forges();
    for (int s = 0; s < SLICES; s++)
        drop_room(s);
}

int main(void)
{
    static const ungletice_settings tried[] = {
        {512, 1, 3, 1}, {512, 2, 3, 4}, {1024, 3, 4, 7}, {2048, 5, 6, 90}, {4096, 16, 8, 40}};
    struct sigaction action = {.sa_handler = faulted};

    sigaction(SIGSEGV, &action, NULL);
    sigaction(SIGBUS, &action, NULL);
    for (size_t i = 0; i < sizeof tried / sizeof tried[0]; i++)
        all_calls(tried[i]);
    printf("%d passed, %d failed\n", passed, failed);
    return failed != 0;
}
