/* desk.c: the desk of the demo. It reads a recording while it goes on, and shows the load table as it was at the tick that the
 * desk holds.
 *
 *   desk SEQUENCE BASEFILE SIDEFILE SNAPSHOT [HOLD]
 *
 * From the sequence it takes only how long the trial is and where in the file the load table lies, which a real viewer gets from
 * HDF5; all bytes come from the two files through the library. It refreshes every other tick. At tick HOLD it stops to refresh
 * until it is the maximum lag behind, then puts the file at its tick together page by page, writes it to SNAPSHOT, and goes on.
 * SNAPSHOT.tick gets a line with two numbers: the tick of the snapshot, and the tick that was closed by then. */
#define _DEFAULT_SOURCE
#include "desk.h"
#include <stdio.h>
#include <stdlib.h>
#include <string.h>
#include <time.h>
#include <unistd.h>

enum { LOOK = 5, PATIENCE = 10000 }; /* milliseconds between two looks, and until the desk gives up */

static void fail(const char *what, const char *advice)
{
    fprintf(stderr, "desk: %s: %s\n", what, advice);
    exit(1);
}

static void sure(const char *call, uint32_t refused)
{
    if (refused == 0)
        return;
    fprintf(stderr, "desk: %s refused %u: %s\n", call, refused, ungletice_refusal_text(refused));
    exit(1);
}

static uint8_t *sure_memory(size_t length)
{
    uint8_t *bytes = malloc(length + 1);
    if (!bytes)
        fail("no memory", "end another program");
    return bytes;
}

static void wait_milliseconds(long n)
{
    struct timespec span = {n / 1000, n % 1000 * 1000000};
    nanosleep(&span, NULL);
}

uint32_t desk_lag(const struct desk *desk)
{
    return desk->closed - desk->held.tick;
}

uint32_t desk_last_tick(const struct desk *desk)
{
    return sequence_last(&desk->sequence) + desk->sequence.settings.lag;
}

int desk_holds(const struct desk *desk)
{
    return !desk->has_taken && desk->held.tick >= desk->hold;
}

/* The recording */

static int map(struct lent *lent, const char *path)
{
    if (lent->file < 0 && lent_open(lent, path))
        return -1;
    return lent_map(lent);
}

/* Waits until the first take is accepted; the base is there by then. */
static void begin(struct desk *desk, const char *base, const char *side)
{
    struct view *view = &desk->view;
    view->base.file = view->side.file = -1;
    for (long waited = 0; waited < PATIENCE; waited += LOOK) {
        if (map(&view->side, side) == 0 && view_take(view) == 0 && map(&view->base, base) == 0) {
            desk->held = view_held(view);
            desk->closed = desk->before = desk->held.tick;
            return;
        }
        wait_milliseconds(LOOK);
    }
    fail("there is no recording", "start the recorder on the same files");
}

/* Moves on to the closed tick. A desk that came too late takes again, and no page is marked. */
static void move_on(struct desk *desk)
{
    uint32_t refused = view_refresh(&desk->view);
    if (refused == UNGLETICE_REFUSED_LAG) {
        memset(desk->view.marks, 0, sizeof desk->view.marks);
        refused = view_take(&desk->view);
    }
    sure("refresh", refused);
    desk->before = desk->held.tick;
    desk->held = view_held(&desk->view);
    desk->closed = desk->held.tick;
}

static void show(struct desk *desk)
{
    uint32_t refused = load_table_read(&desk->load, &desk->sequence.table, &desk->view);
    if (refused == UNGLETICE_REFUSED_LAG) /* too late: the next look moves on */
        return;
    sure("read", refused);
    picture(desk);
    if (!load_table_is_whole(&desk->load))
        fail("the load table has rows of two calibrations", "the desk's tick is torn");
}

/* The snapshot */

static void write_file(const char *path, const uint8_t *bytes, size_t length)
{
    FILE *out = fopen(path, "wb");
    if (!out || fwrite(bytes, 1, length, out) != length || fclose(out))
        fail(path, "cannot be written");
}

static void write_ticks(const struct desk *desk, const char *path)
{
    char name[4096], line[64];
    int length = snprintf(line, sizeof line, "%u %u\n", desk->held.tick, desk->closed);
    snprintf(name, sizeof name, "%s.tick", path);
    write_file(name, (const uint8_t *)line, (size_t)length);
}

/* Between two pages the recorder goes on; each page is of the held tick nevertheless. */
static uint32_t snapshot(struct desk *desk, const char *path)
{
    size_t length = (size_t)desk->held.end * desk->held.settings.size;
    uint8_t *file = sure_memory(length);
    uint32_t refused = view_bytes(&desk->view, 0, file, length);
    if (refused == 0) {
        write_file(path, file, length);
        write_ticks(desk, path);
        desk->has_taken = 1;
    }
    free(file);
    return refused;
}

/* A snapshot is due at the maximum lag, or in the end with the lag that there is. The desk moves on after it, before the lag is
 * too large; where it was too large for the snapshot already, another is tried from a newer tick. */
static void try_snapshot(struct desk *desk, const char *path)
{
    uint32_t refused;
    if (desk_lag(desk) < desk->held.settings.lag && desk->closed < desk_last_tick(desk))
        return;
    refused = snapshot(desk, path);
    if (refused != UNGLETICE_REFUSED_LAG)
        sure("snapshot", refused);
    move_on(desk);
    show(desk);
}

/* The life of the desk */

static int is_due(const struct desk *desk)
{
    return desk_lag(desk) >= 2 || (desk->closed == desk->hold && desk_lag(desk) > 0) || desk->closed == desk_last_tick(desk);
}

/* One look at the side file. Answers whether it has moved. */
static int look(struct desk *desk, const char *path)
{
    ungletice_told now = view_now(&desk->view);
    sure("look", now.number);
    if (now.tick == desk->closed)
        return 0;
    desk->closed = now.tick;
    if (desk_holds(desk)) {
        show(desk);
        try_snapshot(desk, path);
    } else {
        if (is_due(desk))
            move_on(desk);
        show(desk);
    }
    return 1;
}

static void follow(struct desk *desk, const char *path)
{
    long still = 0;
    show(desk);
    while (desk->closed < desk_last_tick(desk)) {
        still = look(desk, path) ? 0 : still + LOOK;
        if (still > PATIENCE)
            fail("the recorder closes no tick any more", "see what it says");
        wait_milliseconds(LOOK);
    }
    if (!desk->has_taken)
        sure("snapshot", snapshot(desk, path));
}

int main(int count, char **words)
{
    static struct desk desk;
    const struct table *table = &desk.sequence.table;
    if (count < 5) {
        fprintf(stderr, "usage: desk SEQUENCE BASEFILE SIDEFILE SNAPSHOT [HOLD]\n");
        return 2;
    }
    sequence_load(&desk.sequence, words[1]);
    if (table->length != ROW)
        fail(words[1], "has no load table with rows of 32 bytes");
    desk.load.bytes = sure_memory((size_t)table->chunks * table->rows * ROW);
    desk.hold = count > 5 ? (uint32_t)strtoul(words[5], NULL, 10) : sequence_last(&desk.sequence) / 2;
    desk.terminal = isatty(STDOUT_FILENO);
    begin(&desk, words[2], words[3]);
    follow(&desk, words[4]);
    return 0;
}
