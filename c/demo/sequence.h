/* sequence.h: a trial as a sequence of pages, for the demo and its test.
 *
 * The trial maker writes an HDF5 file step by step with the stock library, one step to a tick, and notes what each step changed
 * in the file, page by page. A recorder plays that: step 0 is the file that it opens, step N what it does in tick N.
 *
 * The file is text. Lines that are empty or begin with # say nothing; the others, in this order:
 *
 *   settings P S L E        of the recording
 *   table AT LENGTH ROWS    the load table: AT is the byte of the file where its number of rows stands (64 bits, little-endian),
 *                           LENGTH the bytes of a row, ROWS the rows of a chunk
 *   chunk AT                the byte of the file where a chunk of the load table begins; one line for each, in order
 *   tick N                  a step begins: 0, 1, 2 and so on
 *   grow KIND               the file grows by a page, zero until written: KIND 0 is metadata, 1 raw
 *   write PAGE OFFSET HEX   bytes that differ from those of the step before
 */
#ifndef SEQUENCE_H
#define SEQUENCE_H

#include "ungletice.h"

enum { MOST_STEPS = 512, MOST_CHUNKS = 512 };

struct change { /* a write */
    uint32_t page, offset, length;
    uint8_t *bytes;
};

struct step {
    uint32_t end; /* pages in the file after it */
    uint32_t count;
    struct change *changes;
};

struct table {
    uint32_t at, length, rows; /* as in the line `table` */
    uint32_t chunks;
    uint32_t chunk[MOST_CHUNKS];
};

struct sequence {
    ungletice_settings settings;
    struct table table;
    uint8_t *kinds; /* of each page that the file has in the end; E bytes */
    uint32_t count; /* steps; the last tick is one less */
    struct step steps[MOST_STEPS];
};

/* Loads a sequence, or says what is wrong on standard error and ends the program. */
void sequence_load(struct sequence *sequence, const char *path);

/* Does to `file`, E pages, what a step did. Steps 0 to N on a file of zeros give the file at tick N. */
void sequence_apply(const struct sequence *sequence, uint32_t tick, uint8_t *file);

uint32_t sequence_last(const struct sequence *sequence);
uint32_t sequence_end(const struct sequence *sequence, uint32_t tick); /* pages at a tick; after the last, those of the last */

#endif
