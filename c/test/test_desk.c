/* The desk's calls through the C boundary: a side file made by hand, read at its tick and at later ones, damaged in each way
 * that has its own number, and refreshed. That a refused call changes nothing is looked at after every refusal. */
#include "expect.h"
#include "ungletice.h"
#include <stdio.h>
#include <string.h>

enum { P = 512, S = 2, L = 3, PAGES = 4, FIRST_IMAGE = 512, HELD = UNGLETICE_HELD_LENGTH(S, L), SIDE = UNGLETICE_SIDE_LENGTH(P, S, L) };

static uint8_t side[SIDE + 8], base[PAGES * P], held[HELD + 8], marks[PAGES + 1];

static void put16(uint8_t *at, unsigned v)
{
    at[0] = (uint8_t)v;
    at[1] = (uint8_t)(v >> 8);
}

static void put32(uint8_t *at, uint32_t v)
{
    put16(at, v & 0xffff);
    put16(at + 2, v >> 16);
}

static void seal(void)
{
    uint32_t n = side[20];
    put32(side + 28, ungletice_lookup3(side + 36, 16 * n, 0));
    put32(side + 32, ungletice_lookup3(side, 32, 0));
}

/* A side file with one entry, of page 2 in a place, at the close of a tick; its image is the tick in every byte. */
static void make(uint32_t tick, uint32_t place)
{
    uint8_t *image = side + FIRST_IMAGE + place * P;
    memset(side, 0, 36 + 16 * 8);
    memcpy(side, "TWL", 3);
    put16(side + 4, UNGLETICE_SIDE_FILE_VERSION);
    put16(side + 6, L);
    put32(side + 8, P);
    put32(side + 12, tick);
    put32(side + 16, PAGES);
    put32(side + 20, 1);
    put16(side + 24, S);
    memset(image, (int)tick, P);
    put32(side + 36, 2);
    put32(side + 40, place);
    put32(side + 44, tick);
    put32(side + 48, ungletice_lookup3(image, P, 0));
    seal();
}

static uint32_t reading(uint32_t page, uint32_t offset, uint32_t length)
{
    return ungletice_read(side, SIDE, base, sizeof base, held, HELD, page, offset, length);
}

static const uint8_t *bytes(uint32_t page, uint32_t offset, uint32_t length)
{
    uint32_t source = ungletice_read_source(side, SIDE, base, sizeof base, held, HELD, page, offset, length);
    size_t at = ungletice_read_offset(side, SIDE, base, sizeof base, held, HELD, page, offset, length);
    return (source ? side : base) + at;
}

/* A damaged byte of the side file, and the number that take gives for it; the header's checksum is right again where asked. */
static void damaged(const char *what, size_t at, uint8_t value, int sealed, uint32_t wanted)
{
    uint8_t before[HELD + 8];
    make(1, 0);
    side[at] = value;
    if (sealed)
        seal();
    memcpy(before, held, sizeof before);
    expect(what, ungletice_take(side, SIDE, held, HELD), wanted);
    expect(what, (size_t)memcmp(before, held, sizeof before), 0);
}

int main(void)
{
    const char *none = ungletice_refusal_text(15);

    for (size_t i = 0; i < sizeof base; i++)
        base[i] = (uint8_t)(i / P + 100);

    make(1, 0);
    expect("take, one byte short", ungletice_take(side, SIDE, held, HELD - 1), 2);
    expect("take, side file one byte short", ungletice_take(side, SIDE - 1, held, HELD), 12);
    expect("take of nothing", ungletice_take(NULL, 0, held, HELD), 11);
    expect("read before a take", reading(2, 0, 1), 3);
    expect("take", ungletice_take(side, SIDE, held, HELD), 0);
    expect("held bytes", (size_t)memcmp(side, held, HELD), 0);

    expect("read of page 2", reading(2, 5, 7), 0);
    expect("its source", (size_t)(bytes(2, 5, 7) - side), FIRST_IMAGE + 5);
    expect("its byte", *bytes(2, 5, 7), 1);
    expect("read of page 1", reading(1, 0, P), 0);
    expect("its place", (size_t)(bytes(1, 0, P) - base), P);
    expect("page 4", reading(4, 0, 1), 4);
    expect("empty span", reading(2, 0, 0), 6);
    expect("span past the end", reading(2, 1, P), 6);
    expect("offset that would wrap", reading(2, 4294967295u, 1), 6);
    expect("companions on a refusal", (size_t)(bytes(4, 0, 1) - base), 0);
    expect("base one byte short", ungletice_read(side, SIDE, base, sizeof base - 1, held, HELD, 2, 0, 1), 2);
    expect("held one byte short", ungletice_read(side, SIDE, base, sizeof base, held, HELD - 1, 2, 0, 1), 3);
    side[FIRST_IMAGE + 9] ^= 1;
    expect("damaged image", reading(2, 0, 1), 14);
    expect("page without an entry beside it", reading(1, 0, 1), 0);

    make(4, 1);
    memset(side + FIRST_IMAGE, 1, P);
    expect("read at the maximum lag", reading(2, 0, 1), 0);
    expect("the held tick's byte", *bytes(2, 0, 1), 1);
    expect("refresh with a mark too few", ungletice_refresh(side, SIDE, held, HELD, marks, PAGES - 1), 2);
    memset(marks, 7, sizeof marks);
    expect("refresh", ungletice_refresh(side, SIDE, held, HELD, marks, sizeof marks), 0);
    expect("marks", (size_t)memcmp(marks, "\0\0\1\0\7", 5), 0);
    expect("the new byte", *bytes(2, 0, 1), 4);
    make(8, 0);
    expect("beyond the lag", reading(2, 0, 1), 13);
    expect("refresh beyond the lag", ungletice_refresh(side, SIDE, held, HELD, marks, sizeof marks), 13);
    make(3, 0);
    expect("an older side file", reading(2, 0, 1), 13);

    damaged("mark", 0, 'X', 1, 11);
    damaged("byte 3", 3, 1, 1, 11);
    damaged("version", 4, 2, 1, 11);
    damaged("header checksum", 13, 1, 0, 12);
    damaged("page size", 9, 3, 1, 12);
    damaged("bytes 26 and 27", 26, 1, 1, 12);
    damaged("end", 18, 1, 1, 12);
    damaged("entry count", 20, 9, 1, 12);
    damaged("page not below e", 36, 4, 1, 12);
    damaged("place not below M", 40, 14, 1, 12);
    damaged("change after the tick", 44, 2, 1, 12);
    damaged("spare entry", 60, 1, 1, 12);
    damaged("index checksum", 48, 1, 0, 12);

    for (volatile uint32_t number = 0; number <= 14; number++)
        expect("a text for each number", strcmp(ungletice_refusal_text(number), none) != 0, 1);

    printf("%d passed, %d failed\n", passed, failed);
    return failed != 0;
}
