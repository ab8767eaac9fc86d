/* recording.h: a recorder that plays a trial: the library's recording with its memory, its two files, and each call under the
 * lock. */
#ifndef RECORDING_H
#define RECORDING_H

#include "lent.h"
#include "sequence.h"

struct recording {
    ungletice_settings settings;
    ungletice_recording inner; /* the library's; its memory is the recorder's, its files are these */
    struct lent base, side;
};

/* Settings, and memory for what is not a file; ends the program where there is none. */
void recording_prepare(struct recording *recording, ungletice_settings settings);
void recording_release(struct recording *recording);

/* Each answers 0 or a number of refusal. Open lends the files as they are mapped by then. */
uint32_t recording_open(struct recording *recording, uint32_t end, uint32_t tick);
uint32_t recording_grow(struct recording *recording, uint32_t kind);
uint32_t recording_write(struct recording *recording, const struct change *change);
uint32_t recording_close(struct recording *recording);

#endif
