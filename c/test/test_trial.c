/* The demo's trial as a test: the stored sequence of pages (c/demo/trial.pages, of a real HDF5 file) is recorded by the library
 * and read by desks that hold each tick, at each lag from 0 to L, between all of the recorder's calls. Metadata pages are those
 * of the held tick byte for byte; raw pages are those of the base; marks are the pages that changed; a desk beyond the lag is
 * refused; the base gets each page when it is due, not earlier and not later; and after L more closes the base alone is the last
 * file. For each maximum lag that there is, from the first tick on and up to the largest. Each tick of each run counts as one
 * test. */
#include "recording.h"
#include "view.h"
#include <stdio.h>
#include <stdlib.h>
#include <string.h>

enum { LONGEST_LAG = 8 };

struct owing { /* of a page: what the index has of it, in steps */
    int entered;
    uint32_t since, changed;
};

struct run {
    const struct sequence *sequence;
    struct recording recording;
    uint32_t start;                              /* B */
    uint32_t done;                               /* steps closed; the closed tick is start + done */
    uint8_t *now;                                /* the file as the recorder has it, page by page */
    uint8_t *then[MOST_STEPS + LONGEST_LAG + 2]; /* the file at each close */
    struct view *desks;                          /* a desk that took at each close */
    uint8_t *due;                                /* the base, page by page as it is due */
    struct owing *owing;
};

static int passed, failed;
static int wrong; /* in this tick */

static int expect(const char *what, const struct run *run, uint32_t got, uint32_t wanted)
{
    if (got == wanted)
        return 1;
    wrong++;
    printf("lag %u, %u ticks closed: %s: %u, not %u\n", run->recording.settings.lag, run->done, what, got, wanted);
    return 0;
}

static void count_tick(void)
{
    if (wrong)
        failed++;
    else
        passed++;
    wrong = 0;
}

static void *zeros(size_t count, size_t length)
{
    void *bytes = calloc(count, length);
    if (!bytes) {
        fprintf(stderr, "test_trial: no memory\n");
        exit(2);
    }
    return bytes;
}

static uint32_t steps_in_all(const struct run *run)
{
    return run->sequence->count + run->recording.settings.lag + 1;
}

/* The desks. */

/* The bytes a desk has to get of a page: those at its tick of metadata, those of now of a raw page. */
static const uint8_t *wanted(const struct run *run, uint32_t held, uint32_t page)
{
    const uint8_t *file = run->sequence->kinds[page] == UNGLETICE_RAW ? run->now : run->then[held];
    return file + (size_t)page * run->recording.settings.size;
}

/* How many pages of the file at a desk's tick it gets wrong, or not at all. */
static uint32_t wrong_pages(struct run *run, uint32_t held)
{
    uint32_t size = run->recording.settings.size;
    uint32_t count = 0;
    uint8_t bytes[4096];
    for (uint32_t page = 0; page < sequence_end(run->sequence, held); page++)
        if (view_read(&run->desks[held], page, 0, bytes, size) || memcmp(bytes, wanted(run, held, page), size))
            count++;
    return count;
}

/* Every desk within the lag reads its file whole; the one before is refused; none has a page more. */
static void read_all(struct run *run, const char *when)
{
    uint32_t lag = run->recording.settings.lag;
    uint32_t first = run->done > lag ? run->done - lag : 0;
    uint8_t byte;
    for (uint32_t held = first; held <= run->done; held++) {
        expect(when, run, wrong_pages(run, held), 0);
        expect("a page more", run, view_read(&run->desks[held], sequence_end(run->sequence, held), 0, &byte, 1), 4);
    }
    if (first > 0)
        expect("beyond the lag", run, view_read(&run->desks[first - 1], 0, 0, &byte, 1), 13);
}

/* Whether a step grew or wrote a metadata page. */
static int changes(const struct run *run, uint32_t step, uint32_t page)
{
    if (step >= run->sequence->count || run->sequence->kinds[page] == UNGLETICE_RAW)
        return 0;
    if (page < sequence_end(run->sequence, step) && page >= sequence_end(run->sequence, step - 1))
        return 1;
    for (uint32_t i = 0; i < run->sequence->steps[step].count; i++)
        if (run->sequence->steps[step].changes[i].page == page)
            return 1;
    return 0;
}

static uint32_t wrong_marks(const struct run *run, const struct view *desk, uint32_t held)
{
    uint32_t count = 0;
    for (uint32_t page = 0; page < sequence_end(run->sequence, run->done); page++) {
        int changed = 0;
        for (uint32_t step = held + 1; step <= run->done; step++)
            changed = changed || changes(run, step, page);
        count += desk->marks[page] != changed;
    }
    return count;
}

/* A copy of each desk within the lag refreshes: the pages that changed are marked, and it holds what a take gets. */
static void refresh_all(struct run *run)
{
    static struct view copy;
    size_t length = ungletice_held_length(run->recording.settings);
    uint32_t lag = run->recording.settings.lag;
    uint32_t first = run->done > lag ? run->done - lag : 0;
    for (uint32_t held = first; held <= run->done; held++) {
        copy = run->desks[held];
        if (!expect("refresh", run, view_refresh(&copy), 0))
            continue;
        expect("marks", run, wrong_marks(run, &copy, held), 0);
        expect("held bytes after it", run, memcmp(copy.held, run->desks[run->done].held, length) != 0, 0);
    }
}

/* The base. */

/* Close of a step, for one page: it enters or stays, is written to the base L closes after it entered and at each change from
 * then on, and leaves once it is unchanged for L + 1 ticks. */
static void close_page(struct run *run, uint32_t page)
{
    struct owing *owing = &run->owing[page];
    size_t size = run->recording.settings.size, at = page * size;
    uint32_t lag = run->recording.settings.lag;
    int changed = changes(run, run->done, page);
    if (changed && !owing->entered)
        *owing = (struct owing){1, run->done, run->done};
    if (changed)
        owing->changed = run->done;
    if (owing->entered && owing->changed + lag + 1 == run->done)
        owing->entered = 0;
    if (owing->entered && (owing->since + lag == run->done || (owing->since + lag < run->done && changed)))
        memcpy(run->due + at, run->now + at, size);
}

static void compare_base(struct run *run)
{
    size_t size = run->recording.settings.size;
    uint32_t other = 0, entries = 0;
    for (uint32_t page = 0; page < sequence_end(run->sequence, run->done); page++) {
        int raw = run->sequence->kinds[page] == UNGLETICE_RAW;
        close_page(run, page);
        other += memcmp(run->recording.base.bytes + page * size, (raw ? run->now : run->due) + page * size, size) != 0;
        entries += run->owing[page].entered;
    }
    expect("pages of the base", run, other, 0);
    expect("entries", run, ungletice_entries(run->recording.inner.state), entries);
}

/* The recorder. */

static void note_close(struct run *run)
{
    size_t length = run->recording.base.length;
    struct view *desk = &run->desks[run->done];
    run->then[run->done] = zeros(1, length);
    memcpy(run->then[run->done], run->now, length);
    desk->base = run->recording.base;
    desk->side = run->recording.side;
    expect("take", run, view_take(desk), 0);
    expect("its tick", run, view_held(desk).tick, run->start + run->done);
    expect("its end", run, view_held(desk).end, sequence_end(run->sequence, run->done));
}

static void open_run(struct run *run)
{
    uint32_t end = sequence_end(run->sequence, 0);
    sequence_apply(run->sequence, 0, run->now);
    memcpy(run->due, run->now, run->recording.base.length);
    memcpy(run->recording.base.bytes, run->now, run->recording.base.length);
    memcpy(run->recording.inner.kinds.bytes, run->sequence->kinds, end);
    expect("open", run, recording_open(&run->recording, end, run->start), 0);
    note_close(run);
    read_all(run, "pages after the open");
    count_tick();
}

static void play_change(struct run *run, const struct change *change)
{
    size_t at = (size_t)change->page * run->recording.settings.size + change->offset;
    expect("write", run, recording_write(&run->recording, change), 0);
    memcpy(run->now + at, change->bytes, change->length);
    read_all(run, "pages after a write");
}

static void play_step(struct run *run, uint32_t step)
{
    for (uint32_t page = sequence_end(run->sequence, step - 1); page < sequence_end(run->sequence, step); page++) {
        expect("grow", run, recording_grow(&run->recording, run->sequence->kinds[page]), 0);
        read_all(run, "pages after a grow");
    }
    if (step >= run->sequence->count)
        return;
    for (uint32_t i = 0; i < run->sequence->steps[step].count; i++)
        play_change(run, &run->sequence->steps[step].changes[i]);
}

static void close_step(struct run *run)
{
    expect("close", run, recording_close(&run->recording), 0);
    run->done++;
    compare_base(run);
    note_close(run);
    read_all(run, "pages after a close");
    refresh_all(run);
    count_tick();
}

/* L closes after the last step the base is the last file, and with one more the index is empty. */
static void end_run(struct run *run)
{
    size_t file = (size_t)sequence_end(run->sequence, run->done) * run->recording.settings.size;
    uint32_t last = run->start + steps_in_all(run) - 1;
    while (run->done + 2 < steps_in_all(run))
        close_step(run);
    expect("the base alone", run, memcmp(run->recording.base.bytes, run->now, file) != 0, 0);
    close_step(run);
    expect("entries in the end", run, ungletice_entries(run->recording.inner.state), 0);
    expect("the last tick", run, ungletice_closed_tick(run->recording.inner.state), last);
    if (last == 0xffffffff)
        expect("a close after the largest tick", run, recording_close(&run->recording), 9);
    count_tick();
}

static void release(struct run *run)
{
    for (uint32_t i = 0; i <= run->done; i++)
        free(run->then[i]);
    free(run->now);
    free(run->due);
    free(run->owing);
    free(run->desks);
    free(run->recording.base.bytes);
    free(run->recording.side.bytes);
    recording_release(&run->recording);
}

/* The whole trial with a maximum lag, from the first tick or up to the largest. */
static void play(const struct sequence *sequence, uint32_t lag, int largest)
{
    static struct run run;
    ungletice_settings settings = sequence->settings;
    settings.lag = lag;
    memset(&run, 0, sizeof run);
    run.sequence = sequence;
    recording_prepare(&run.recording, settings);
    run.recording.base = (struct lent){-1, zeros(1, ungletice_base_length(settings)), ungletice_base_length(settings)};
    run.recording.side = (struct lent){-1, zeros(1, ungletice_side_length(settings)), ungletice_side_length(settings)};
    run.now = zeros(1, ungletice_base_length(settings));
    run.due = zeros(1, ungletice_base_length(settings));
    run.owing = zeros(settings.capacity, sizeof *run.owing);
    run.desks = zeros(steps_in_all(&run), sizeof *run.desks);
    run.start = largest ? 0xffffffff - steps_in_all(&run) + 1 : 0;
    open_run(&run);
    for (uint32_t step = 1; step < sequence->count; step++) {
        play_step(&run, step);
        close_step(&run);
    }
    end_run(&run);
    release(&run);
}

int main(int count, char **words)
{
    static struct sequence sequence;
    sequence_load(&sequence, count > 1 ? words[1] : "c/demo/trial.pages");
    for (uint32_t lag = 3; lag <= LONGEST_LAG; lag++) {
        play(&sequence, lag, 0);
        play(&sequence, lag, 1);
    }
    printf("%d passed, %d failed\n", passed, failed);
    return failed != 0;
}
