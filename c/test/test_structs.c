/* The two structs of the header, ungletice_recording and ungletice_view: what their functions answer, that a refused call keeps
 * the state and every byte, a refused open too, and that each number of refusal is met through them. Then what is told of a
 * header and an index: on good, short and damaged side files and held buffers. The file is C11 and C++17, and is built as
 * both. */
#include "expect.h"
#include "ungletice.h"
#include <stdio.h>
#include <string.h>

#define P 512
#define S 2
#define L 3
#define E 6
#define PAGES 4
#define HELD UNGLETICE_HELD_LENGTH(S, L)
#define SIDE UNGLETICE_SIDE_LENGTH(P, S, L)
#define LEDGER UNGLETICE_LEDGER_LENGTH(S, L)
#define FIRST_IMAGE 512

static const ungletice_settings settings = {P, S, L, E};

struct bytes {
    uint8_t ledger[LEDGER], base[E * P], side[SIDE], buffer[S * P], kinds[E], held[HELD], marks[E];
};

static struct bytes now, before;
static ungletice_recording recording;
static ungletice_view view;
static int met[15];

static void put32(uint8_t *at, uint32_t v)
{
    for (int i = 0; i < 4; i++)
        at[i] = (uint8_t)(v >> 8 * i);
}

static void lend(void)
{
    recording.ledger.bytes = now.ledger, recording.ledger.length = sizeof now.ledger;
    recording.base.bytes = now.base, recording.base.length = sizeof now.base;
    recording.side.bytes = now.side, recording.side.length = sizeof now.side;
    recording.buffer.bytes = now.buffer, recording.buffer.length = sizeof now.buffer;
    recording.kinds.bytes = now.kinds, recording.kinds.length = sizeof now.kinds;
    view.side.bytes = now.side, view.side.length = sizeof now.side;
    view.base.bytes = now.base, view.base.length = sizeof now.base;
    view.held.bytes = now.held, view.held.length = sizeof now.held;
}

/* A call: what it must answer, and whether it keeps all that there is if it refuses. */
static ungletice_recording kept;

static void note(void)
{
    kept = recording;
    before = now;
}

static void answers(const char *what, uint32_t got, uint32_t wanted)
{
    expect(what, got, wanted);
    if (got < 15)
        met[got]++;
    if (got == 0)
        return;
    expect("a refusal keeps the recording", (size_t)memcmp(&kept, &recording, sizeof kept), 0);
    expect("a refusal changes no byte", (size_t)memcmp(&before, &now, sizeof now), 0);
}

static void opens(const char *what, ungletice_settings with, uint32_t end, uint32_t tick, uint32_t wanted)
{
    note();
    answers(what, ungletice_recording_open(&recording, with, end, tick), wanted);
}

static void reads(const char *what, uint32_t page, uint32_t offset, size_t length, uint32_t wanted)
{
    uint8_t into[P + 1];
    note();
    memset(into, 0xee, sizeof into);
    answers(what, ungletice_recording_read(&recording, page, offset, into, length), wanted);
    expect("what lies behind is not written", into[length], 0xee);
    if (wanted)
        expect("a refused read copies nothing", into[0], 0xee);
}

static void writes(const char *what, uint32_t page, uint32_t offset, size_t length, char value, uint32_t wanted)
{
    char text[P + 1];
    note();
    memset(text, value, sizeof text);
    answers(what, ungletice_recording_write(&recording, page, offset, text, length), wanted);
}

static void grows(const char *what, uint32_t kind, uint32_t wanted)
{
    note();
    answers(what, ungletice_recording_grow(&recording, kind), wanted);
}

static void closes(const char *what, uint32_t wanted)
{
    note();
    answers(what, ungletice_recording_close(&recording), wanted);
}

static void takes(const char *what, uint32_t wanted)
{
    note();
    answers(what, ungletice_view_take(&view), wanted);
}

static void refreshes(const char *what, size_t marks, uint32_t wanted)
{
    note();
    answers(what, ungletice_view_refresh(&view, now.marks, marks), wanted);
}

/* A desk read; its bytes are where the exported calls say, and NULL on a refusal. */
static const uint8_t *sees(const char *what, uint32_t page, uint32_t offset, uint32_t length, uint32_t wanted)
{
    const uint8_t *bytes = now.marks;
    ungletice_part part = ungletice_read_part(view.side.bytes, view.side.length, view.base.bytes, view.base.length,
                                              view.held.bytes, view.held.length, page, offset, length);
    note();
    answers(what, ungletice_view_read(&view, page, offset, length, &bytes), wanted);
    answers(what, ungletice_view_read(&view, page, offset, length, NULL), wanted);
    answers(what, part.number, wanted);
    expect("source", part.source, ungletice_read_source(view.side.bytes, view.side.length, view.base.bytes, view.base.length,
                                                        view.held.bytes, view.held.length, page, offset, length));
    expect("offset", part.offset, ungletice_read_offset(view.side.bytes, view.side.length, view.base.bytes, view.base.length,
                                                        view.held.bytes, view.held.length, page, offset, length));
    expect("the pointer", bytes == (wanted ? NULL : (part.source ? now.side : now.base) + part.offset), 1);
    return bytes;
}

/* Four metadata pages, page p with 10 + p in every byte. */
static void fresh(uint32_t tick)
{
    memset(&now, 0xa5, sizeof now);
    memset(now.kinds, UNGLETICE_METADATA, sizeof now.kinds);
    for (size_t page = 0; page < PAGES; page++)
        memset(now.base + page * P, (int)(10 + page), P);
    lend();
    opens("open", settings, PAGES, tick, 0);
}

static void layouts(void)
{
    expect("settings", sizeof(ungletice_settings), 16);
    expect("counts", sizeof(ungletice_counts), 20);
    expect("slots", sizeof(ungletice_slots), 148);
    expect("state", sizeof(ungletice_state), 216);
    expect("answer", sizeof(ungletice_answer), 220);
    expect("part", sizeof(ungletice_part), 8 + sizeof(size_t));
    expect("told", sizeof(ungletice_told), 32);
    expect("index entry", sizeof(ungletice_index_entry), 20);
}

static void recorder(void)
{
    ungletice_settings other = settings;

    fresh(5);
    expect("closed tick", ungletice_closed_tick(recording.state), 5);
    writes("write", 2, 0, P, 'a', 0);
    expect("the new state is kept", recording.state.meta.misses, 1);
    reads("read", 2, 100, 3, 0);
    expect("and the next", recording.state.meta.hits, 1);
    closes("close", 0);
    expect("closed tick", ungletice_closed_tick(recording.state), 6);

    /* A running recording outlives a refused open. */
    other.lag = 9;
    opens("open, L of 9", other, PAGES, 0, 1);
    opens("open, e above E", settings, E + 1, 0, 1);
    recording.base.length--;
    opens("open, base short", settings, PAGES, 0, 2);
    reads("read, base short", 0, 0, 1, 2);
    recording.base.length++;
    recording.ledger.length--;
    opens("open, ledger short", settings, PAGES, 0, 2);
    reads("read, ledger short", 0, 0, 1, 3);
    writes("write, ledger short", 0, 0, 1, 'b', 3);
    grows("grow, ledger short", UNGLETICE_RAW, 3);
    closes("close, ledger short", 3);
    recording.ledger.length++;
    now.kinds[3] = 2;
    opens("open, kind 2", settings, PAGES, 0, 5);
    reads("read, kind 2", 3, 0, 1, 5);
    now.kinds[3] = UNGLETICE_METADATA;
    expect("it still stands", ungletice_closed_tick(recording.state), 6);

    reads("read, page 4", PAGES, 0, 1, 4);
    writes("write, page 4", PAGES, 0, 1, 'b', 4);
    grows("grow, kind 2", 2, 5);
    reads("read, nothing", 0, 0, 0, 6);
    writes("write past the end", 0, 1, P, 'b', 6);
    writes("write 0", 0, 0, 1, 'b', 0);
    writes("write 1, no slot", 1, 0, 1, 'b', 7);
    grows("grow, no slot", UNGLETICE_METADATA, 7);
    grows("grow, raw", UNGLETICE_RAW, 0);
    grows("grow, raw", UNGLETICE_RAW, 0);
    expect("e", ungletice_end(recording.state), E);
    grows("grow, no room", UNGLETICE_RAW, 8);
    expect("a raw page is in the base at once", now.base[(E - 1) * P], 0);

    fresh(4294967295u);
    closes("close after the largest tick", 9);
    fresh(5);
    writes("write", 2, 0, 1, 'c', 0);
    for (size_t place = 0; place < 14; place++) {
        put32(now.ledger + 160 + 8 * place, 1);
        put32(now.ledger + 164 + 8 * place, 5);
    }
    closes("close without a place to give", 10);
}

static void desk(void)
{
    const uint8_t *bytes;

    fresh(0);
    sees("read before a take", 2, 0, 1, 3);
    expect("nothing is held", ungletice_view_held(&view).number, 11);
    writes("write", 2, 0, P, 'a', 0);
    closes("close", 0);
    view.held.length--;
    takes("take, held short", 2);
    view.held.length++;
    view.side.length--;
    takes("take, side short", 12);
    view.side.length++;
    takes("take", 0);
    expect("held tick", ungletice_view_held(&view).tick, 1);
    bytes = sees("read of page 2", 2, 7, 5, 0);
    expect("its byte", bytes ? *bytes : 0, 'a');
    expect("in the side file", (size_t)(bytes - now.side), FIRST_IMAGE + 7);
    bytes = sees("read of page 1", 1, 0, P, 0);
    expect("in the base", (size_t)(bytes - now.base), P);
    sees("page 4", PAGES, 0, 1, 4);
    sees("nothing", 0, 0, 0, 6);
    sees("an offset that would wrap", 0, 4294967295u, 1, 6);
    view.base.length = PAGES * P - 1;
    sees("base short", 2, 0, 1, 2);
    view.base.length = sizeof now.base;
    now.side[FIRST_IMAGE] ^= 1;
    sees("damaged image", 2, 0, 1, 14);
    now.side[FIRST_IMAGE] ^= 1;
    now.held[0] ^= 1;
    refreshes("held damaged", E, 3);
    now.held[0] ^= 1;
    now.side[0] ^= 1;
    refreshes("another mark", E, 11);
    expect("told of it", ungletice_view_now(&view).number, 11);
    now.side[0] ^= 1;

    writes("write", 3, 0, 1, 'b', 0);
    closes("close", 0);
    expect("the view is behind", ungletice_view_now(&view).tick - ungletice_view_held(&view).tick, 1);
    refreshes("marks short", PAGES - 1, 2);
    refreshes("refresh", PAGES, 0);
    expect("marks", (size_t)memcmp(now.marks, "\0\0\0\1", PAGES), 0);
    expect("held tick", ungletice_view_held(&view).tick, 2);
    for (int more = 0; more < L; more++)
        closes("close", 0);
    bytes = sees("at the maximum lag", 3, 0, 1, 0);
    expect("its byte", bytes ? *bytes : 0, 'b');
    closes("close", 0);
    sees("beyond it", 3, 0, 1, 13);
    refreshes("beyond it", E, 13);
    takes("take again", 0);
    expect("held tick", ungletice_view_held(&view).tick, 6);
}

/* Header and entries of a slice: as they were written, or a refusal and zeros. */
static int all_zero(ungletice_told told)
{
    ungletice_told zero;
    memset(&zero, 0, sizeof zero);
    zero.number = told.number;
    return memcmp(&zero, &told, sizeof told) == 0;
}

static int no_entry(const uint8_t *front, size_t length, uint32_t i)
{
    ungletice_index_entry zero, entry = ungletice_entry_of(front, length, i);
    memset(&zero, 0, sizeof zero);
    return memcmp(&zero, &entry, sizeof entry) == 0;
}

static void refused(const char *what, const uint8_t *front, size_t length, uint32_t wanted)
{
    ungletice_told told = ungletice_header_of(front, length);
    expect(what, told.number, wanted);
    expect("zeros on a refusal", all_zero(told), 1);
    expect("and no entry", no_entry(front, length, 0), 1);
}

static void tells(const uint8_t *front, size_t length)
{
    ungletice_told told = ungletice_header_of(front, length);
    ungletice_index_entry first = ungletice_entry_of(front, length, 0), second = ungletice_entry_of(front, length, 1);

    expect("a good header", told.number, 0);
    expect("its tick", told.tick, 9);
    expect("its end", told.end, PAGES);
    expect("its entries", told.entries, 2);
    expect("its settings", told.settings.size == P && told.settings.slots == S && told.settings.lag == L, 1);
    expect("its capacity", told.settings.capacity, 65535);
    expect("entry 0", first.found == 1 && first.page == 1 && first.place == 0 && first.changed == 8, 1);
    expect("its sum", first.sum, ungletice_lookup3(now.side + FIRST_IMAGE, P, 0));
    expect("entry 1", second.found == 1 && second.page == 3 && second.place == 1 && second.changed == 9, 1);
    expect("its sum", second.sum, ungletice_lookup3(now.side + FIRST_IMAGE + P, P, 0));
    expect("entry 2", no_entry(front, length, 2), 1);
    expect("entry 4294967295", no_entry(front, length, 4294967295u), 1);
}

/* The header with one byte changed, its checksum made right again where asked. */
static void damaged(const char *what, size_t at, uint8_t value, int sealed, uint32_t wanted)
{
    uint8_t front[HELD];
    memcpy(front, now.side, sizeof front);
    front[at] = value;
    if (sealed)
        put32(front + 32, ungletice_lookup3(front, 32, 0));
    refused(what, front, sizeof front, wanted);
}

static void headers(void)
{
    fresh(7);
    writes("write", 1, 0, P, 'a', 0);
    closes("close", 0);
    writes("write", 3, 0, P, 'b', 0);
    closes("close", 0);
    takes("take", 0);
    tells(now.side, sizeof now.side);
    tells(now.held, sizeof now.held);
    tells(now.side, HELD);
    expect("what is held", ungletice_view_held(&view).tick == 9 && ungletice_view_held(&view).entries == 2, 1);
    expect("what the side file says", ungletice_view_now(&view).tick == 9 && ungletice_view_now(&view).end == PAGES, 1);
    expect("the view's entries", ungletice_view_entry(&view, 1).page == 3 && ungletice_view_entry(&view, 2).found == 0, 1);
    for (size_t length = 0; length < HELD; length++)
        refused("a short one", now.side, length, length < 36 ? 11 : 12);
    refused("nothing", NULL, 0, 11);
    damaged("mark", 0, 'X', 1, 11);
    damaged("byte 3", 3, 1, 1, 11);
    damaged("version", 4, 2, 1, 11);
    damaged("its checksum", 32, (uint8_t)(now.side[32] ^ 1), 0, 12);
    damaged("a byte under it", 13, 1, 0, 12);
    damaged("L of 2", 6, 2, 1, 12);
    damaged("P of 513", 8, 1, 1, 12);
    damaged("S of 0", 24, 0, 1, 12);
    damaged("a larger S than there is room for", 24, 3, 1, 12);
    damaged("bytes 26 and 27", 26, 1, 1, 12);
    damaged("e above 65535", 18, 1, 1, 12);
    damaged("n above X", 20, 9, 1, 12);
}

int main(void)
{
    layouts();
    recorder();
    desk();
    headers();
    for (int number = 0; number < 15; number++)
        expect("a number that was never met", met[number] > 0, 1);
    printf("%d passed, %d failed\n", passed, failed);
    return failed != 0;
}
