/* view.h: a desk's view of a recording: the two files, and the held buffer with the tick that the desk reads from. Each of the
 * library's calls is made once, under the lock, and what a read points at is copied before the lock is dropped. */
#ifndef VIEW_H
#define VIEW_H

#include "lent.h"

struct view {
    struct lent base, side;
    uint8_t held[UNGLETICE_LONGEST_HELD];
    uint8_t marks[65535];
};

/* Each answers 0 or a number of refusal. */
uint32_t view_take(struct view *view);
uint32_t view_refresh(struct view *view);
uint32_t view_read(struct view *view, uint32_t page, uint32_t offset, uint8_t *into, uint32_t length);

/* Bytes of the file at the held tick from a byte on, from as many pages as they lie in. Between two pages the recorder may go
 * on: all come from the held tick nevertheless, or there is a refusal. */
uint32_t view_bytes(struct view *view, uint64_t at, uint8_t *into, size_t length);

ungletice_told view_held(const struct view *view); /* what the desk holds */
ungletice_told view_now(const struct view *view);  /* what the side file says now */

#endif
