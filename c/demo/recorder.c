/* recorder.c: the recorder of the demo. It plays a trial (sequence.h) tick by tick on two real files, the base and the side file,
 * both mapped into memory, with a delay for each tick as if the trial went on meanwhile.
 *
 *   recorder SEQUENCE BASEFILE SIDEFILE [SECONDS]
 *
 * In the end it closes L more ticks, so that the base has all that the side file showed, and cuts the base to the pages of the
 * file: as long as it records, the base has room for E pages. */
#define _DEFAULT_SOURCE
#include "recording.h"
#include <stdio.h>
#include <stdlib.h>
#include <string.h>
#include <time.h>
#include <unistd.h>

static void sleep_for(double seconds)
{
    struct timespec span = {(time_t)seconds, (long)((seconds - (double)(time_t)seconds) * 1e9)};
    nanosleep(&span, NULL);
}

static void sure(const char *call, uint32_t refused)
{
    if (refused == 0)
        return;
    fprintf(stderr, "recorder: %s refused %u: %s\n", call, refused, ungletice_refusal_text(refused));
    exit(1);
}

static void create(struct lent *lent, const char *path, size_t length)
{
    if (lent_create(lent, path, length) == 0)
        return;
    fprintf(stderr, "recorder: ");
    perror(path);
    exit(2);
}

/* The base is there, with the file of step 0, before the side file tells desks that there is a recording. */
static void start(struct recording *recording, const struct sequence *sequence, char **paths)
{
    uint32_t end = sequence_end(sequence, 0);
    recording_prepare(recording, sequence->settings);
    create(&recording->base, paths[0], ungletice_base_length(sequence->settings));
    sequence_apply(sequence, 0, recording->base.bytes);
    memcpy(recording->inner.kinds.bytes, sequence->kinds, end);
    create(&recording->side, paths[1], ungletice_side_length(sequence->settings));
    sure("open", recording_open(recording, end, 0));
}

static void play(struct recording *recording, const struct sequence *sequence, uint32_t tick)
{
    for (uint32_t page = sequence_end(sequence, tick - 1); page < sequence_end(sequence, tick); page++)
        sure("grow", recording_grow(recording, sequence->kinds[page]));
    for (uint32_t i = 0; tick < sequence->count && i < sequence->steps[tick].count; i++)
        sure("write", recording_write(recording, &sequence->steps[tick].changes[i]));
    sure("close", recording_close(recording));
}

static void print_counts(const char *kind, ungletice_counts counts)
{
    printf("%-9s %8u %8u %8u %9u %8u\n", kind, counts.accesses, counts.hits, counts.misses, counts.evictions, counts.bypasses);
}

static void report(const struct recording *recording)
{
    printf("pages     accesses     hits   misses evictions bypasses\n");
    print_counts("metadata", ungletice_metadata_counts(recording->inner.state));
    print_counts("raw", ungletice_raw_counts(recording->inner.state));
}

int main(int count, char **words)
{
    static struct sequence sequence;
    struct recording recording;
    double delay = count > 4 ? atof(words[4]) : 0.4;
    uint32_t last;
    if (count < 4) {
        fprintf(stderr, "usage: recorder SEQUENCE BASEFILE SIDEFILE [SECONDS]\n");
        return 2;
    }
    sequence_load(&sequence, words[1]);
    start(&recording, &sequence, words + 2);
    last = sequence_last(&sequence) + sequence.settings.lag;
    for (uint32_t tick = 1; tick <= last; tick++) {
        sleep_for(delay);
        play(&recording, &sequence, tick);
    }
    if (ftruncate(recording.base.file, (off_t)ungletice_end(recording.inner.state) * sequence.settings.size)) {
        perror(words[2]);
        return 2;
    }
    report(&recording);
    return 0;
}
