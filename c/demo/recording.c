/* recording.c: the recorder's calls, each under the lock (recording.h). */
#include "recording.h"
#include <stdio.h>
#include <stdlib.h>

static ungletice_slice memory(size_t length)
{
    ungletice_slice slice = {calloc(1, length ? length : 1), length};
    if (!slice.bytes) {
        fprintf(stderr, "no memory for %zu bytes\n", length);
        exit(2);
    }
    return slice;
}

void recording_prepare(struct recording *recording, ungletice_settings settings)
{
    recording->settings = settings;
    recording->inner.ledger = memory(ungletice_ledger_length(settings));
    recording->inner.buffer = memory(ungletice_buffer_length(settings));
    recording->inner.kinds = memory(settings.capacity);
}

void recording_release(struct recording *recording)
{
    free(recording->inner.ledger.bytes);
    free(recording->inner.buffer.bytes);
    free(recording->inner.kinds.bytes);
}

static uint32_t unlocked(struct recording *recording, uint32_t number)
{
    lent_unlock(&recording->side);
    return number;
}

uint32_t recording_open(struct recording *recording, uint32_t end, uint32_t tick)
{
    recording->inner.base = (ungletice_slice){recording->base.bytes, recording->base.length};
    recording->inner.side = (ungletice_slice){recording->side.bytes, recording->side.length};
    lent_sure_lock(&recording->side, ALONE);
    return unlocked(recording, ungletice_recording_open(&recording->inner, recording->settings, end, tick));
}

uint32_t recording_grow(struct recording *recording, uint32_t kind)
{
    lent_sure_lock(&recording->side, ALONE);
    return unlocked(recording, ungletice_recording_grow(&recording->inner, kind));
}

uint32_t recording_write(struct recording *recording, const struct change *change)
{
    lent_sure_lock(&recording->side, ALONE);
    return unlocked(recording, ungletice_recording_write(&recording->inner, change->page, change->offset, change->bytes,
                                                         change->length));
}

uint32_t recording_close(struct recording *recording)
{
    lent_sure_lock(&recording->side, ALONE);
    return unlocked(recording, ungletice_recording_close(&recording->inner));
}
