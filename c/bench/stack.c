/* The deepest stack of each exported function. A call runs on a stack of its own that is filled with a pattern; what it used
 * is what differs afterwards. Two figures: the whole, from the caller's frame down, and what of it lies above the call's own
 * stack: the arguments and the answer that a caller lays out. That share is measured by a call in the shape of close that does
 * nothing: a state each way and ten words, some 500 bytes. Each figure is the most that was met over accepted and refused
 * calls, most of them with P = 4096, S = 16, L = 8 and the 144 entries that an index can have. The bound is on the whole: 2 KiB,
 * which is what the deck board has, and 1,700 bytes for a close, so that there is room for more. A call above its bound says
 * so, and makes the exit status 1.
 *
 *     cc -O2 -Ic c/bench/stack.c ARCHIVE -o stack && ./stack          ARCHIVE: tools/build cabi */
#define _DEFAULT_SOURCE
#include "ungletice.h"
#include <stdio.h>
#include <stdlib.h>
#include <string.h>
#include <ucontext.h>

enum { P = 4096, S = 16, L = 8, E = 161, END = 150, ENTRIES = (L + 1) * S, CLOSED = 20, RAW = END - 1 };
enum { ROOM = 64 * 1024, MOST = 2048, MOST_OF_CLOSE = 1700, PATTERN = 0xa5 };
enum { SIDE = UNGLETICE_SIDE_LENGTH(P, S, L), LEDGER = UNGLETICE_LEDGER_LENGTH(S, L), HELD = UNGLETICE_HELD_LENGTH(S, L) };

static _Alignas(64) uint8_t stack[ROOM];
static ucontext_t outside, inside;
static void (*subject)(void);
static size_t depth;

static uint8_t ledger[LEDGER], base[E * P], side[SIDE], buffer[S * P], kinds[E], held[HELD], marks[E], span[P];
static ungletice_settings settings = {P, S, L, E};
static ungletice_state state;
static uint32_t end, page, offset, kind, number;
static size_t length, deepest, worst, share;
static int above;

/* The first byte, from the far end, that is not the pattern any more, in whole words; seen from inside, before anything else
 * runs there. */
static void enter(void)
{
    uint8_t *here = __builtin_frame_address(0);
    size_t low = 0;

    subject();
    while (stack[low] == PATTERN)
        low++;
    depth = ((size_t)(here - (stack + low)) + 7) / 8 * 8;
}

static void measure(void (*call)(void))
{
    subject = call;
    memset(stack, PATTERN, sizeof stack);
    getcontext(&inside);
    inside.uc_stack.ss_sp = stack;
    inside.uc_stack.ss_size = sizeof stack;
    inside.uc_link = &outside;
    makecontext(&inside, enter, 0);
    swapcontext(&outside, &inside);
    if (depth > deepest)
        deepest = depth;
}

/* Measures a call that must answer this number: else the situation is not the one that was meant. */
static void meet(const char *name, void (*call)(void), uint32_t expected)
{
    measure(call);
    if (number == expected)
        return;
    printf("%s answers %u, not %u\n", name, (unsigned)number, (unsigned)expected);
    exit(2);
}

#define FILES ledger, LEDGER, base, sizeof base, side, SIDE, buffer, sizeof buffer, kinds, sizeof kinds
#define SUBJECT(name) __attribute__((noinline)) static void name(void)

SUBJECT(opens)
{
    ungletice_answer a = ungletice_recorder_open(settings, end, CLOSED, FILES);
    number = a.number;
}

SUBJECT(reads)
{
    ungletice_answer a = ungletice_recorder_read(state, FILES, page, offset, span, length);
    number = a.number;
}

SUBJECT(writes)
{
    ungletice_answer a = ungletice_recorder_write(state, FILES, page, offset, span, length);
    number = a.number;
}

SUBJECT(grows)
{
    ungletice_answer a = ungletice_recorder_grow(state, FILES, kind);
    number = a.number;
}

SUBJECT(closes)
{
    ungletice_answer a = ungletice_recorder_close(state, FILES);
    number = a.number;
}

/* In the shape of close, with nothing done. */
__attribute__((noinline)) static ungletice_answer nothing(ungletice_state s, uint8_t *a, size_t al, uint8_t *b, size_t bl,
                                                          uint8_t *c, size_t cl, const uint8_t *d, size_t dl, const uint8_t *e,
                                                          size_t el)
{
    ungletice_answer none = {0};
    __asm__ volatile("" : : "m"(s), "r"(a), "r"(b), "r"(c), "r"(d), "r"(e), "r"(al + bl + cl + dl + el));
    return none;
}

SUBJECT(lays_out)
{
    ungletice_answer a = nothing(state, FILES);
    number = a.number;
}

SUBJECT(takes)
{
    number = ungletice_take(side, SIDE, held, HELD);
}

SUBJECT(refreshes)
{
    number = ungletice_refresh(side, SIDE, held, HELD, marks, sizeof marks);
}

SUBJECT(finds)
{
    number = ungletice_read(side, SIDE, base, sizeof base, held, HELD, page, offset, (uint32_t)length);
}

SUBJECT(finds_source)
{
    number = ungletice_read_source(side, SIDE, base, sizeof base, held, HELD, page, offset, (uint32_t)length);
}

SUBJECT(finds_offset)
{
    number = (uint32_t)ungletice_read_offset(side, SIDE, base, sizeof base, held, HELD, page, offset, (uint32_t)length);
}

SUBJECT(finds_part)
{
    number = ungletice_read_part(side, SIDE, base, sizeof base, held, HELD, page, offset, (uint32_t)length).number;
}

SUBJECT(tells_header)
{
    number = ungletice_header_of(held, HELD).number;
}

SUBJECT(tells_entry)
{
    number = !ungletice_entry_of(held, HELD, ENTRIES - 1).found;
}

SUBJECT(sums)
{
    number = ungletice_lookup3(span, length, 0);
}

SUBJECT(asks_lengths)
{
    number = (uint32_t)(ungletice_ledger_length(settings) + ungletice_base_length(settings) + ungletice_side_length(settings)
                        + ungletice_buffer_length(settings) + ungletice_held_length(settings));
}

SUBJECT(asks_state)
{
    ungletice_settings s = ungletice_settings_of(state);
    ungletice_counts meta = ungletice_metadata_counts(state), raw = ungletice_raw_counts(state);
    number = ungletice_closed_tick(state) + ungletice_end(state) + ungletice_entries(state) + s.size + meta.hits + raw.hits;
}

static void put32(uint8_t *at, uint32_t v)
{
    for (int i = 0; i < 4; i++)
        at[i] = (uint8_t)(v >> (8 * i));
}

/* A state with every entry there can be, and a page in each slot. Entry i is of page i, in place i; none is owed. The pages in
 * the slots are those from `first` on, all changed or none. The oldest last change is `oldest`. */
static void forge(uint32_t first, uint8_t changed, uint32_t entered, uint32_t oldest)
{
    memset(ledger, 0, sizeof ledger);
    memset(&state, 0, sizeof state);
    state.settings = settings;
    state.end = END;
    state.closed = CLOSED;
    state.entries = ENTRIES;
    state.slots.used = S;
    for (uint32_t i = 0; i < S; i++) {
        state.slots.pages[i] = state.slots.order[i] = first + i;
        state.slots.changed[i] = changed;
    }
    for (uint32_t i = 0; i < ENTRIES; i++) {
        uint8_t *row = ledger + 20 * i;
        uint32_t last = CLOSED - i / S;
        put32(row, i);
        put32(row + 4, i);
        put32(row + 8, last < oldest ? oldest : last);
        put32(row + 16, i >= first && i < first + S ? entered : 1);
    }
}

static void asks(uint32_t of, size_t n)
{
    page = of;
    offset = 0;
    length = n;
}

static void row_within(const char *name, size_t bound)
{
    int is_above = deepest > bound;

    printf("%-28s %6zu %6zu %6zu%s\n", name, deepest, share, bound, is_above ? "  above" : "");
    above |= is_above;
    worst = deepest > worst ? deepest : worst;
    deepest = 0;
}

static void row(const char *name)
{
    row_within(name, MOST);
}

/* Every entry clean, then the slots' pages owed. */
static void spans(void (*call)(void), const char *name, uint32_t without_slot)
{
    forge(0, 0, 1, 12);
    asks(15, 64), meet(name, call, 0);
    asks(100, P), meet(name, call, 0);
    asks(RAW, P), meet(name, call, 0);
    asks(END, 1), meet(name, call, 4);
    asks(0, 0), meet(name, call, 6);
    forge(0, 0, CLOSED, CLOSED);
    asks(100, P), meet(name, call, without_slot);
    put32(ledger + 20 * (ENTRIES - 1) + 4, 0);
    asks(0, 1), meet(name, call, 3);
}

static void recorder(void)
{
    end = E, meet("open", opens, 0);
    end = E + 1, meet("open", opens, 1);
    row("ungletice_recorder_open");
    measure(lays_out);
    share = deepest, deepest = 0;
    spans(reads, "read", 0);
    row("ungletice_recorder_read");
    spans(writes, "write", 7);
    row("ungletice_recorder_write");
    forge(0, 0, 1, 12);
    kind = 0, meet("grow", grows, 0);
    kind = 1, meet("grow", grows, 0);
    kind = 2, meet("grow", grows, 5);
    row("ungletice_recorder_grow");
    forge(128, 1, 1, 12), meet("close", closes, 0);
    forge(END - S - 1, 1, 1, 13), meet("close", closes, 10);
    forge(END - S - 1, 1, 1, 12), meet("close", closes, 0);
    forge(0, 1, CLOSED, CLOSED), meet("close", closes, 0);
    row_within("ungletice_recorder_close", MOST_OF_CLOSE);
    share = 0;
}

/* Over the side file that the last close left: an entry of each page below 144, those below 16 with an image. */
static void desk(void)
{
    static void (*const reading[])(void) = {finds, finds_source, finds_offset, finds_part};

    meet("take", takes, 0);
    row("ungletice_take");
    meet("refresh", refreshes, 0);
    row("ungletice_refresh");
    asks(15, P), meet("desk read", finds, 0);
    asks(143, P), meet("desk read", finds, 14);
    asks(145, P), meet("desk read", finds, 0);
    for (int i = 0; i < 4; i++)
        asks(15, P), measure(reading[i]);
    row("ungletice_read, companions");
    meet("header", tells_header, 0);
    meet("entry", tells_entry, 0);
    row("header_of, entry_of");
}

static void small(void)
{
    for (length = 0; length <= P; length++)
        measure(sums);
    row("ungletice_lookup3");
    measure(asks_lengths);
    row("the five lengths");
    measure(asks_state);
    row("the six accessors");
}

/* The archive calls three functions of the C library. The first call of each through the dynamic linker looks it up, on a deep
 * stack that is none of the archive's: it is made here. */
static void look_up(void)
{
    volatile size_t n = 1;

    memset(span, 0, n);
    memcpy(span, marks, n);
    memmove(span + 1, span, n);
}

int main(void)
{
    look_up();
    kinds[RAW] = 1;
    printf("stack of a call, bytes        whole caller  bound\n");
    recorder();
    desk();
    small();
    printf("%-28s %6zu of %d\n", "deepest of all", worst, MOST);
    return above;
}
