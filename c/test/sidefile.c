/* Writes a side file to standard output, for the test of `sidelist`: document 01's example after close 1 (L = 3, S = 2,
 * P = 512, e = 4), but for what the arguments change. Written from document 01; the checksum is c/bench/hashlittle.c.
 *
 *   lag=L size=P slots=S tick=T end=E   what the header says
 *   entry=PAGE:PLACE:CHANGED            an entry; the first one takes the place of the example's own
 *   full                                X entries: the highest pages below e, the highest places, changed at T
 *   none                                no entry
 *   count=N sum=N                       n, and the index's checksum, where they are not the right ones
 *   byte=AT:VALUE                       a byte, set before the checksums are computed: they are right
 *   late=AT:VALUE                       a byte, set after them
 *   more=N less=N only=N                N bytes longer, N bytes shorter, N bytes in all
 */
#include <stdint.h>
#include <stdio.h>
#include <stdlib.h>
#include <string.h>

uint32_t hashlittle(const uint8_t *k, size_t length, uint32_t initval);

enum { HEADER = 36, ROW = 16, MOST_ENTRIES = 4096, MOST_BYTES = 64 };

struct entry { uint32_t page, place, changed; };
struct byte { size_t at; uint8_t value; };

static uint32_t lag = 3, size = 512, slots = 2, tick = 1, end = 4;
static struct entry entries[MOST_ENTRIES] = {{2, 0, 1}};
static uint32_t listed = 1, counted, summed;
static int named, has_count, has_sum;
static struct byte early[MOST_BYTES], late[MOST_BYTES];
static int earlies, lates;
static long more, only = -1;

static void put16(uint8_t *at, uint32_t v)
{
    at[0] = (uint8_t)v;
    at[1] = (uint8_t)(v >> 8);
}

static void put32(uint8_t *at, uint32_t v)
{
    put16(at, v);
    put16(at + 2, v >> 16);
}

static void fail(const char *why)
{
    fprintf(stderr, "sidefile: %s\n", why);
    exit(2);
}

static void add(uint32_t page, uint32_t place, uint32_t changed)
{
    if (!named) {
        named = 1;
        listed = 0;
    }
    if (listed == MOST_ENTRIES)
        fail("too many entries");
    entries[listed++] = (struct entry){page, place, changed};
}

static struct byte byte_of(const char *text)
{
    unsigned long at;
    unsigned value;
    if (sscanf(text, "%lu:%u", &at, &value) != 2)
        fail(text);
    return (struct byte){at, (uint8_t)value};
}

static int number(const char *arg, const char *name, uint32_t *v)
{
    size_t n = strlen(name);
    if (strncmp(arg, name, n) != 0 || arg[n] != '=')
        return 0;
    *v = (uint32_t)strtoul(arg + n + 1, NULL, 10);
    return 1;
}

static void argument(const char *arg)
{
    uint32_t v, page, place, changed;
    if (number(arg, "lag", &lag) || number(arg, "size", &size) || number(arg, "slots", &slots)
        || number(arg, "tick", &tick) || number(arg, "end", &end))
        return;
    if (sscanf(arg, "entry=%u:%u:%u", &page, &place, &changed) == 3)
        add(page, place, changed);
    else if (strcmp(arg, "none") == 0) {
        listed = 0;
        named = 1;
    }
    else if (strcmp(arg, "full") == 0)
        for (v = 0; v < (lag + 1) * slots; v++)
            add(end - (lag + 1) * slots + v, (2 * lag + 1) * slots - 1 - v, tick);
    else if (number(arg, "count", &counted))
        has_count = 1;
    else if (number(arg, "sum", &summed))
        has_sum = 1;
    else if (strncmp(arg, "byte=", 5) == 0 && earlies < MOST_BYTES)
        early[earlies++] = byte_of(arg + 5);
    else if (strncmp(arg, "late=", 5) == 0 && lates < MOST_BYTES)
        late[lates++] = byte_of(arg + 5);
    else if (number(arg, "more", &v))
        more = (long)v;
    else if (number(arg, "less", &v))
        more = -(long)v;
    else if (number(arg, "only", &v))
        only = (long)v;
    else
        fail(arg);
}

/* The image of a page: any bytes will do, as long as they are not all alike. */
static void image(uint8_t *at, uint32_t page)
{
    uint32_t i;
    for (i = 0; i < size; i++)
        at[i] = (uint8_t)(7 * i + page);
}

static void set(uint8_t *file, size_t room, struct byte *bytes, int n)
{
    int i;
    for (i = 0; i < n; i++) {
        if (bytes[i].at >= room)
            fail("no such byte");
        file[bytes[i].at] = bytes[i].value;
    }
}

int main(int argc, char **argv)
{
    size_t first, length, room, wanted, n, i;
    uint8_t *file;
    int a;

    for (a = 1; a < argc; a++)
        argument(argv[a]);

    n = has_count ? counted : listed;
    first = size == 0 ? 0 : (HEADER + ROW * (size_t)(lag + 1) * slots + size - 1) / size * size;
    length = first + (size_t)(2 * lag + 1) * slots * size;
    wanted = only >= 0 ? (size_t)only : (size_t)((long)length + more);
    room = (wanted > length ? wanted : length) + HEADER + ROW * (n > listed ? n : listed);
    file = calloc(room, 1);
    if (file == NULL)
        fail("no memory");

    for (i = 0; i < listed; i++) {
        uint8_t *row = file + HEADER + ROW * i, *at = file + first + (size_t)entries[i].place * size;
        put32(row, entries[i].page);
        put32(row + 4, entries[i].place);
        put32(row + 8, entries[i].changed);
        if (at + size <= file + length) {
            image(at, entries[i].page);
            put32(row + 12, hashlittle(at, size, 0));
        }
    }
    memcpy(file, "TWL", 3);
    put16(file + 4, 1);
    put16(file + 6, lag);
    put32(file + 8, size);
    put32(file + 12, tick);
    put32(file + 16, end);
    put32(file + 20, (uint32_t)n);
    put16(file + 24, slots);
    set(file, room, early, earlies);
    put32(file + 28, has_sum ? summed : hashlittle(file + HEADER, ROW * n, 0));
    put32(file + 32, hashlittle(file, 32, 0));
    set(file, room, late, lates);

    return fwrite(file, 1, wanted, stdout) == wanted && fflush(stdout) == 0 ? 0 : 1;
}
