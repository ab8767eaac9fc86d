/* ungletice.h: the proved layer under the recorder and the desk, for C and C++.
 *
 * A recorder changes an HDF5 file and lets desks read it meanwhile. It writes two files: the base (the HDF5 file itself, in
 * pages of P bytes) and the side file, which has an index of the metadata pages that changed lately and an image of each. Time
 * goes in ticks: the metadata that changed in a tick shows in the side file when the recorder closes the tick, and in the base
 * up to L closes later, L being the maximum lag. A desk reads both files and sees each metadata page as it was at the tick that
 * it holds. Raw data goes straight to the base.
 *
 * A recorder keeps an ungletice_recording, a desk an ungletice_view: each names the memory that its owner lends to the calls.
 * Nothing is allocated, no file is opened, and nothing is kept between two calls but in that memory; files are slices too,
 * mapped or read by the caller.
 *
 * Every call takes anything it is given and answers 0, or the number of the first test that fails (enum ungletice_refusal);
 * below, the numbers of a call stand in the order of its tests. A refused call changes nothing. A longer slice than needed is
 * fine, and what lies behind is neither read nor written. What callers must not do, because no library can refuse it:
 *   - hand over NULL with a length other than 0 ({NULL, 0} is an empty slice),
 *   - hand over slices that overlap where the call writes one of them,
 *   - run two calls at once where one writes what the other is lent, as a desk and a recorder on the same files: take a lock
 *     around each call.
 *
 *
 * The life of a recording
 *
 *     ungletice_settings settings = {.size = 512, .slots = 2, .lag = 3, .capacity = 100};
 *     ungletice_recording trial = {.ledger = {ledger, sizeof ledger}, .base = {base, base_length}, .side = {side, side_length},
 *                                  .buffer = {buffer, sizeof buffer}, .kinds = {kinds, sizeof kinds}};
 *     uint32_t refused = ungletice_recording_open(&trial, settings, 0, 0);
 *     if (refused == 0)
 *         refused = ungletice_recording_grow(&trial, UNGLETICE_METADATA);
 *     if (refused == 0)
 *         refused = ungletice_recording_write(&trial, 0, 0, "pull 100 kN", 11);
 *     if (refused == 0)
 *         refused = ungletice_recording_close(&trial);
 *     if (refused)
 *         fprintf(stderr, "refused %u: %s\n", (unsigned)refused, ungletice_refusal_text(refused));
 *
 * (C++ before C++20 has no such initialisers: there the fields are assigned, trial.ledger = {ledger, sizeof ledger}.)
 *
 * There is no call that ends a recording. To get the last change into the base, close its tick and then up to L more: the base
 * is then whole without the side file. With one close more the index is empty (ungletice_entries answers 0). A recording that
 * ends earlier, or whose state, ledger or page buffer is lost, has not written to the base what it still owed.
 *
 *
 * The life of a view
 *
 *     ungletice_view view = {.side = {side, side_length}, .base = {base, base_length}, .held = {held, sizeof held}};
 *     const uint8_t *bytes;
 *     uint32_t refused = ungletice_view_take(&view);
 *     if (refused == 0)
 *         refused = ungletice_view_read(&view, page, 0, 512, &bytes);
 *
 * A take fills the held buffer. Reads see pages as they were at the held tick, for as long as the side file's closed tick is at
 * most the held one plus the maximum lag. A refresh moves on to the side file's tick and says which pages changed since. After
 * a refusal by 13 only a new take helps.
 *
 *
 * Beneath the two structs lie the exported functions, over plain numbers, pointers and lengths, for other languages and for
 * callers who keep their slices elsewhere; they stand further down. */
#ifndef UNGLETICE_H
#define UNGLETICE_H

#include <stddef.h>
#include <stdint.h>

#ifdef __cplusplus
extern "C" {
#endif

#define UNGLETICE_VERSION_MAJOR 0
#define UNGLETICE_VERSION_MINOR 1
#define UNGLETICE_SIDE_FILE_VERSION 1

/* Lengths in bytes, for P the page size, S the slots and L the maximum lag of the recording: of a desk's held buffer, the side
 * file and the recorder's ledger. (The page buffer has S * P, the base E * P, the kind table E.) The longest serve every
 * recording. ungletice_held_length and its neighbours answer the same from settings. */
#define UNGLETICE_HELD_LENGTH(S, L) (36 + 16 * ((size_t)(L) + 1) * (S))
#define UNGLETICE_SIDE_LENGTH(P, S, L) \
    ((UNGLETICE_HELD_LENGTH(S, L) + (size_t)(P) - 1) / (P) * (P) + (2 * (size_t)(L) + 1) * (S) * (P))
#define UNGLETICE_LEDGER_LENGTH(S, L) (20 * ((size_t)(L) + 1) * (S) + 8 * (2 * (size_t)(L) + 1) * (S))
#define UNGLETICE_LONGEST_HELD 2340
#define UNGLETICE_LONGEST_LEDGER 5056

/* The kinds of a page: the bytes of the kind table, and what grow is asked for. */
#define UNGLETICE_METADATA 0
#define UNGLETICE_RAW 1

/* Numbers of refusal. ungletice_refusal_text has a line for each. */
enum ungletice_refusal {
    UNGLETICE_ACCEPTED = 0,
    UNGLETICE_REFUSED_SETTINGS = 1,  /* open: a setting is outside its limits, or e is above E */
    UNGLETICE_REFUSED_SHORT = 2,     /* a slice is too short. Recorder: any at open, later any but the ledger, which counts as
                                        state (3). Desk: held (take), marks (refresh), base (read) */
    UNGLETICE_REFUSED_STATE = 3,     /* recorder, after open: state, ledger and kind table do not fit together or are damaged,
                                        or the ledger is too short. Desk: the held buffer is damaged or too short, take again */
    UNGLETICE_REFUSED_PAGE = 4,      /* the page is not below e (desk: the held e) */
    UNGLETICE_REFUSED_KIND = 5,      /* a kind is neither 0 nor 1: of a page below e (open), of the page (recorder read and
                                        write), the one named (grow) */
    UNGLETICE_REFUSED_SPAN = 6,      /* the span is empty or leaves its page */
    UNGLETICE_REFUSED_NO_SLOT = 7,   /* write or grow needs a slot, and none is empty or clean: close */
    UNGLETICE_REFUSED_NO_PAGE = 8,   /* grow: the base has E pages already */
    UNGLETICE_REFUSED_LAST_TICK = 9, /* close: the largest tick is closed already */
    UNGLETICE_REFUSED_NO_PLACE = 10, /* close: too few image places are free, or the index would have too many entries */
    UNGLETICE_REFUSED_FOREIGN = 11,  /* not a side file of this version: shorter than a header, or another mark or version */
    UNGLETICE_REFUSED_DAMAGED = 12,  /* the side file is damaged or too short, or has other settings than those held */
    UNGLETICE_REFUSED_LAG = 13,      /* the side file is older than what is held, or newer by more than the maximum lag: take
                                        again */
    UNGLETICE_REFUSED_IMAGE = 14     /* the image of the page is damaged */
};

/* What a recording is opened with. */
typedef struct ungletice_settings {
    uint32_t size;     /* P, bytes of a page: 512, 1024, 2048 or 4096 */
    uint32_t slots;    /* S, pages that the page buffer has room for: 1 to 16 */
    uint32_t lag;      /* L, the maximum lag in ticks: 3 to 8 */
    uint32_t capacity; /* E, pages that the base can have: 1 to 65,535 */
} ungletice_settings;

/* Counted once for metadata and once for raw data, since the open; in the order in which H5Fget_page_buffering_stats hands
 * them out (its arrays have metadata at 0 and raw data at 1). Each stops at 4,294,967,295. A metadata read or write is an
 * access and a hit or a miss; a metadata read that found no slot, and every raw read or write, is a bypass and nothing else;
 * grow counts at most an eviction. Refused calls count nothing. */
typedef struct ungletice_counts {
    uint32_t accesses, hits, misses, evictions, bypasses;
} ungletice_counts;

/* The page buffer's slots: slot i has its bytes at i * P of the page buffer. Slots from S on are empty. */
typedef struct ungletice_slots {
    uint32_t pages[16];  /* the page in each slot, 4,294,967,295 in an empty one */
    uint8_t changed[16]; /* not 0 where the page changed in the open tick */
    uint32_t order[16];  /* the pages in the slots, the one used longest ago first */
    uint32_t used;       /* how many of them count: as many as there are pages in slots */
} ungletice_slots;

/* The recorder's state, by value. Programs copy it and ask the accessors below; they need not know the fields, and change none.
 *
 * The rest of the state lies in the ledger, as bytes (numbers of 32 bits, little-endian): (L + 1) * S rows of 20 for the
 * entries, each page, image place, tick of last change, checksum of the image, tick at which the page entered; then
 * (2 * L + 1) * S rows of 8 for the image places, each whether it is retired (0 or not) and the tick of that. Only open and
 * close write it. State and ledger are one: keep them, and go back to an earlier one, only together. */
typedef struct ungletice_state {
    ungletice_settings settings;
    uint32_t end;     /* e, pages in the file now */
    uint32_t closed;  /* the closed tick; the open one is one more */
    uint32_t entries; /* rows of the ledger that are entries of the index */
    ungletice_slots slots;
    ungletice_counts meta, raw;
} ungletice_state;

/* 0 and the state from now on, or a number of refusal and the state as it was handed over (of open: all zero). So test the
 * number before you replace the state; the functions over an ungletice_recording do. */
typedef struct ungletice_answer {
    uint32_t number;
    ungletice_state state;
} ungletice_answer;

/* What a desk read answers: 0, in which slice the bytes lie and at which byte of it they begin; or a number of refusal and
 * zeros. */
typedef struct ungletice_part {
    uint32_t number;
    uint32_t source; /* 0 the base, 1 the side file */
    size_t offset;
} ungletice_part;

/* What a header tells: 0 and the rest, or 11 or 12 and zeros. A side file does not have E: the capacity is 65,535. */
typedef struct ungletice_told {
    uint32_t number;
    uint32_t tick;    /* the closed tick */
    uint32_t end;     /* e, pages in the file at that tick */
    uint32_t entries; /* entries of the index */
    ungletice_settings settings;
} ungletice_told;

/* An entry of the index; all zero where there is none. */
typedef struct ungletice_index_entry {
    uint32_t found;   /* 1, or 0 where there is none */
    uint32_t page;
    uint32_t place;   /* the image place in the side file */
    uint32_t changed; /* the tick of the last change */
    uint32_t sum;     /* the checksum of the image */
} ungletice_index_entry;

/* A slice: bytes, and how many. */
typedef struct ungletice_slice {
    uint8_t *bytes;
    size_t length;
} ungletice_slice;

/* A slice that is only read. */
typedef struct ungletice_const_slice {
    const uint8_t *bytes;
    size_t length;
} ungletice_const_slice;


/* Lengths */

/* The lengths of the recorder's slices and of a desk's held buffer, 0 for settings outside their limits. The kind table has
 * `capacity` bytes. */
size_t ungletice_ledger_length(ungletice_settings settings);
size_t ungletice_base_length(ungletice_settings settings);
size_t ungletice_side_length(ungletice_settings settings);
size_t ungletice_buffer_length(ungletice_settings settings);
size_t ungletice_held_length(ungletice_settings settings);


/* The recorder */

/* A recording: its state, and the five slices that it lends to each call. Fill the slices in and open it. From then on state,
 * ledger, page buffer, kind table and the two files are the calls' own: each call goes on from what the last one left, and
 * nobody else writes them. State, ledger and kind table are judged at every call and refused by 3 where they break their rules;
 * the bytes of the page buffer are taken as they are. A copy of the struct names the same memory: it is no second recording.
 *
 * The functions below answer 0, and have put the new state into the struct; or a number of refusal, and have changed nothing:
 * the state is the one from before, after a refused open too. */
typedef struct ungletice_recording {
    ungletice_state state;
    ungletice_slice ledger; /* ungletice_ledger_length; open fills it */
    ungletice_slice base;   /* the HDF5 file, with room for E pages: ungletice_base_length */
    ungletice_slice side;   /* the side file: ungletice_side_length */
    ungletice_slice buffer; /* the page buffer: ungletice_buffer_length */
    ungletice_slice kinds;  /* the kind of each page: E bytes */
} ungletice_recording;

/* Starts a recording on a base with `end` pages, whose kinds are in the kind table, and with `tick` closed. Ledger, and header
 * and empty index of the side file, are written; base and page buffer are only asked for their lengths. Where desks may still
 * hold a tick of an earlier recording, let `tick` lie above its last one by more than L: they are then told to take again (13).
 * 0, 1, 2 or 5. */
static inline uint32_t ungletice_recording_open(ungletice_recording *recording, ungletice_settings settings, uint32_t end,
                                                uint32_t tick);

/* Copies `length` bytes at an offset of a page, as the page is in the open tick. A metadata page takes a slot if one is empty
 * or clean, else the base serves it. 0, 3, 2, 4, 5 or 6. */
static inline uint32_t ungletice_recording_read(ungletice_recording *recording, uint32_t page, uint32_t offset, void *into,
                                                size_t length);

/* Lays `length` bytes over a page at an offset. Raw data is in the base at once; a metadata page takes a slot and is changed in
 * the open tick, by equal bytes too. A 7 says that every slot has a page that the base may not get yet: close, and write again.
 * 0, 3, 2, 4, 5, 6 or 7. */
static inline uint32_t ungletice_recording_write(ungletice_recording *recording, uint32_t page, uint32_t offset,
                                                 const void *bytes, size_t length);

/* Adds page e, all zero, of the kind named, and puts the kind into the table. A raw page is zero in the base at once; a
 * metadata page takes a slot and is changed in the open tick. 0, 3, 2, 5, 8 or 7. */
static inline uint32_t ungletice_recording_grow(ungletice_recording *recording, uint32_t kind);

/* Ends the open tick: the changed pages get images and entries in the side file, pages that are due go to the base, index and
 * header are written, in this order, and the next tick is open. 0, 3, 2, 9 or 10. */
static inline uint32_t ungletice_recording_close(ungletice_recording *recording);

/* What a state says (ungletice_closed_tick(recording.state)): the closed tick, e, the entries of the index, the settings of the
 * open, the counts. */
uint32_t ungletice_closed_tick(ungletice_state state);
uint32_t ungletice_end(ungletice_state state);
uint32_t ungletice_entries(ungletice_state state);
ungletice_settings ungletice_settings_of(ungletice_state state);
ungletice_counts ungletice_metadata_counts(ungletice_state state);
ungletice_counts ungletice_raw_counts(ungletice_state state);


/* The desk */

/* A view: the two files as the desk has them, and the held buffer, which has header and index of the side file as they were
 * when they were taken. Fill the slices in and take. Nobody else writes the held buffer; one that was damaged is refused by 3.
 * The files may be mapped anew between two calls. A copy of the struct names the same held buffer. */
typedef struct ungletice_view {
    ungletice_const_slice side; /* the side file */
    ungletice_const_slice base; /* the HDF5 file: to read, P bytes for each page below the held e */
    ungletice_slice held;       /* ungletice_held_length; UNGLETICE_LONGEST_HELD bytes serve every recording */
} ungletice_view;

/* Takes header and index of the side file into the held buffer. 0, 11, 12 or 2. */
static inline uint32_t ungletice_view_take(ungletice_view *view);

/* The same for a view that holds an earlier tick of the recording, and one mark byte for each page below the new e: 1 if the
 * page changed after the tick that was held, else 0. 0, 3, 11, 12, 13 or 2. */
static inline uint32_t ungletice_view_refresh(ungletice_view *view, uint8_t *marks, size_t marks_length);

/* Points *bytes at `length` bytes at an offset of a page, as they were at the held tick. Nothing is copied: they lie in the
 * base or in the side file, and are the desk's until it lets the recorder go on (its lock). On a refusal *bytes is NULL, so
 * that nothing older is taken for what was asked. `bytes` may be NULL where only the number is wanted.
 * 0, 3, 11, 12, 13, 2, 4, 6 or 14. */
static inline uint32_t ungletice_view_read(const ungletice_view *view, uint32_t page, uint32_t offset, uint32_t length,
                                           const uint8_t **bytes);

/* What the held buffer says, and what the side file says now: tick, e, entries and settings. The view is behind by the
 * difference of the two ticks. Only the header is judged, and that the index has room: 0, 11 or 12. */
static inline ungletice_told ungletice_view_held(const ungletice_view *view);
static inline ungletice_told ungletice_view_now(const ungletice_view *view);

/* Entry i of the held index, from 0 on; its `found` is 0 behind the last. */
static inline ungletice_index_entry ungletice_view_entry(const ungletice_view *view, uint32_t i);


/* Beneath the two structs: each slice as pointer and length */

/* Header and entry i of a side file or a held buffer in any condition. Only the header is judged, and that there is room for
 * the index that it asks for: 0, 11 or 12. The entries are as they stand there; take and refresh judge them. */
ungletice_told ungletice_header_of(const uint8_t *front, size_t front_length);
ungletice_index_entry ungletice_entry_of(const uint8_t *front, size_t front_length, uint32_t i);

/* The recorder's calls: state and slices one by one, a slice that the call does not write as const. */
ungletice_answer ungletice_recorder_open(ungletice_settings settings, uint32_t end, uint32_t tick, uint8_t *ledger,
                                         size_t ledger_length, const uint8_t *base, size_t base_length, uint8_t *side,
                                         size_t side_length, const uint8_t *buffer, size_t buffer_length, const uint8_t *kinds,
                                         size_t kinds_length);
ungletice_answer ungletice_recorder_read(ungletice_state state, const uint8_t *ledger, size_t ledger_length,
                                         const uint8_t *base, size_t base_length, const uint8_t *side, size_t side_length,
                                         uint8_t *buffer, size_t buffer_length, const uint8_t *kinds, size_t kinds_length,
                                         uint32_t page, uint32_t offset, uint8_t *into, size_t into_length);
ungletice_answer ungletice_recorder_write(ungletice_state state, const uint8_t *ledger, size_t ledger_length, uint8_t *base,
                                          size_t base_length, const uint8_t *side, size_t side_length, uint8_t *buffer,
                                          size_t buffer_length, const uint8_t *kinds, size_t kinds_length, uint32_t page,
                                          uint32_t offset, const uint8_t *bytes, size_t bytes_length);
ungletice_answer ungletice_recorder_grow(ungletice_state state, const uint8_t *ledger, size_t ledger_length, uint8_t *base,
                                         size_t base_length, const uint8_t *side, size_t side_length, uint8_t *buffer,
                                         size_t buffer_length, uint8_t *kinds, size_t kinds_length, uint32_t kind);
ungletice_answer ungletice_recorder_close(ungletice_state state, uint8_t *ledger, size_t ledger_length, uint8_t *base,
                                          size_t base_length, uint8_t *side, size_t side_length, const uint8_t *buffer,
                                          size_t buffer_length, const uint8_t *kinds, size_t kinds_length);

/* The desk's calls. A read in one call; then the same one by one: number, source and offset. */
uint32_t ungletice_take(const uint8_t *side, size_t side_length, uint8_t *held, size_t held_length);
uint32_t ungletice_refresh(const uint8_t *side, size_t side_length, uint8_t *held, size_t held_length, uint8_t *marks,
                           size_t marks_length);
ungletice_part ungletice_read_part(const uint8_t *side, size_t side_length, const uint8_t *base, size_t base_length,
                                   const uint8_t *held, size_t held_length, uint32_t page, uint32_t offset, uint32_t length);
uint32_t ungletice_read(const uint8_t *side, size_t side_length, const uint8_t *base, size_t base_length, const uint8_t *held,
                        size_t held_length, uint32_t page, uint32_t offset, uint32_t length);
uint32_t ungletice_read_source(const uint8_t *side, size_t side_length, const uint8_t *base, size_t base_length,
                               const uint8_t *held, size_t held_length, uint32_t page, uint32_t offset, uint32_t length);
size_t ungletice_read_offset(const uint8_t *side, size_t side_length, const uint8_t *base, size_t base_length,
                             const uint8_t *held, size_t held_length, uint32_t page, uint32_t offset, uint32_t length);

/* Bob Jenkins' lookup3, hashlittle: the checksum of the side file's header, index and images, which start at 0.
 * The empty slice gives 0xdeadbeef plus the start value, modulo 2^32. */
uint32_t ungletice_lookup3(const uint8_t *bytes, size_t bytes_length, uint32_t start);

/* What a number of refusal means, and what to do about it. */
static inline const char *ungletice_refusal_text(uint32_t number)
{
    switch (number) {
    case UNGLETICE_ACCEPTED:
        return "accepted";
    case UNGLETICE_REFUSED_SETTINGS:
        return "a setting is outside its limits, or e is above E: open with other settings";
    case UNGLETICE_REFUSED_SHORT:
        return "a lent buffer is too short: lend one of the length that the settings ask for";
    case UNGLETICE_REFUSED_STATE:
        return "state, ledger and kinds do not fit, or the ledger or the held buffer is damaged or too short: "
               "hand over what the last call left, or take again";
    case UNGLETICE_REFUSED_PAGE:
        return "the page is not in the file: ask for a page below e";
    case UNGLETICE_REFUSED_KIND:
        return "the kind of a page is neither metadata nor raw: mend the kind table or the kind named";
    case UNGLETICE_REFUSED_SPAN:
        return "the span is empty or leaves its page: read or write inside one page";
    case UNGLETICE_REFUSED_NO_SLOT:
        return "no slot is empty or clean: close the tick, or open with more slots";
    case UNGLETICE_REFUSED_NO_PAGE:
        return "the file has E pages already: open with a larger E";
    case UNGLETICE_REFUSED_LAST_TICK:
        return "the largest tick is closed: open anew";
    case UNGLETICE_REFUSED_NO_PLACE:
        return "too few image places or index entries: close more often with fewer changes";
    case UNGLETICE_REFUSED_FOREIGN:
        return "not a side file of this version: check the file, and which program wrote it";
    case UNGLETICE_REFUSED_DAMAGED:
        return "the side file is damaged, too short, or has other settings than those held: take again, or mend the file";
    case UNGLETICE_REFUSED_LAG:
        return "the held tick is out of reach of the side file's: take again";
    case UNGLETICE_REFUSED_IMAGE:
        return "the image of the page is damaged: refresh once the page has changed, or mend the side file";
    default:
        return "no number of refusal";
    }
}


/* How a struct is handed to the calls beneath it */

#define UNGLETICE_LENT(slice) (slice).bytes, (slice).length
#define UNGLETICE_LENT_BY(recording) \
    UNGLETICE_LENT((recording)->ledger), UNGLETICE_LENT((recording)->base), UNGLETICE_LENT((recording)->side), \
        UNGLETICE_LENT((recording)->buffer), UNGLETICE_LENT((recording)->kinds)

/* The number of an answer; its state goes into the recording if it was accepted. By pointer, so that the stack has the answer
 * once. */
static inline uint32_t ungletice_recording_keep(ungletice_recording *recording, const ungletice_answer *answer)
{
    if (answer->number == 0)
        recording->state = answer->state;
    return answer->number;
}

static inline uint32_t ungletice_recording_open(ungletice_recording *recording, ungletice_settings settings, uint32_t end,
                                                uint32_t tick)
{
    ungletice_answer answer = ungletice_recorder_open(settings, end, tick, UNGLETICE_LENT_BY(recording));
    return ungletice_recording_keep(recording, &answer);
}

static inline uint32_t ungletice_recording_read(ungletice_recording *recording, uint32_t page, uint32_t offset, void *into,
                                                size_t length)
{
    ungletice_answer answer = ungletice_recorder_read(recording->state, UNGLETICE_LENT_BY(recording), page, offset,
                                                      (uint8_t *)into, length);
    return ungletice_recording_keep(recording, &answer);
}

static inline uint32_t ungletice_recording_write(ungletice_recording *recording, uint32_t page, uint32_t offset,
                                                 const void *bytes, size_t length)
{
    ungletice_answer answer = ungletice_recorder_write(recording->state, UNGLETICE_LENT_BY(recording), page, offset,
                                                       (const uint8_t *)bytes, length);
    return ungletice_recording_keep(recording, &answer);
}

static inline uint32_t ungletice_recording_grow(ungletice_recording *recording, uint32_t kind)
{
    ungletice_answer answer = ungletice_recorder_grow(recording->state, UNGLETICE_LENT_BY(recording), kind);
    return ungletice_recording_keep(recording, &answer);
}

static inline uint32_t ungletice_recording_close(ungletice_recording *recording)
{
    ungletice_answer answer = ungletice_recorder_close(recording->state, UNGLETICE_LENT_BY(recording));
    return ungletice_recording_keep(recording, &answer);
}

static inline uint32_t ungletice_view_take(ungletice_view *view)
{
    return ungletice_take(UNGLETICE_LENT(view->side), UNGLETICE_LENT(view->held));
}

static inline uint32_t ungletice_view_refresh(ungletice_view *view, uint8_t *marks, size_t marks_length)
{
    return ungletice_refresh(UNGLETICE_LENT(view->side), UNGLETICE_LENT(view->held), marks, marks_length);
}

static inline uint32_t ungletice_view_read(const ungletice_view *view, uint32_t page, uint32_t offset, uint32_t length,
                                           const uint8_t **bytes)
{
    ungletice_part part = ungletice_read_part(UNGLETICE_LENT(view->side), UNGLETICE_LENT(view->base),
                                              UNGLETICE_LENT(view->held), page, offset, length);
    if (bytes)
        *bytes = part.number ? NULL : (part.source ? view->side.bytes : view->base.bytes) + part.offset;
    return part.number;
}

static inline ungletice_told ungletice_view_held(const ungletice_view *view)
{
    return ungletice_header_of(UNGLETICE_LENT(view->held));
}

static inline ungletice_told ungletice_view_now(const ungletice_view *view)
{
    return ungletice_header_of(UNGLETICE_LENT(view->side));
}

static inline ungletice_index_entry ungletice_view_entry(const ungletice_view *view, uint32_t i)
{
    return ungletice_entry_of(UNGLETICE_LENT(view->held), i);
}

#undef UNGLETICE_LENT
#undef UNGLETICE_LENT_BY

#ifdef __cplusplus
}
#endif

#endif
