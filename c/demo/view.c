/* view.c: the desk's calls, each under the lock (view.h). */
#include "view.h"
#include <string.h>

/* The library's view, named anew for each call: files may be mapped anew meanwhile, and a struct view may be copied. */
static ungletice_view lent(struct view *view)
{
    return (ungletice_view){lent_slice(&view->side), lent_slice(&view->base), {view->held, sizeof view->held}};
}

uint32_t view_take(struct view *view)
{
    ungletice_view all = lent(view);
    uint32_t refused;
    lent_sure_lock(&view->side, SHARED);
    refused = ungletice_view_take(&all);
    lent_unlock(&view->side);
    return refused;
}

uint32_t view_refresh(struct view *view)
{
    ungletice_view all = lent(view);
    uint32_t refused;
    lent_sure_lock(&view->side, SHARED);
    refused = ungletice_view_refresh(&all, view->marks, sizeof view->marks);
    lent_unlock(&view->side);
    return refused;
}

uint32_t view_read(struct view *view, uint32_t page, uint32_t offset, uint8_t *into, uint32_t length)
{
    ungletice_view all = lent(view);
    const uint8_t *bytes;
    uint32_t refused;
    lent_sure_lock(&view->side, SHARED);
    refused = ungletice_view_read(&all, page, offset, length, &bytes);
    if (refused == 0)
        memcpy(into, bytes, length);
    lent_unlock(&view->side);
    return refused;
}

ungletice_told view_held(const struct view *view)
{
    return ungletice_header_of(view->held, sizeof view->held);
}

ungletice_told view_now(const struct view *view)
{
    ungletice_told now;
    lent_sure_lock(&view->side, SHARED);
    now = ungletice_header_of(view->side.bytes, view->side.length);
    lent_unlock(&view->side);
    return now;
}

uint32_t view_bytes(struct view *view, uint64_t at, uint8_t *into, size_t length)
{
    uint32_t size = view_held(view).settings.size;
    uint32_t refused = size ? 0 : UNGLETICE_REFUSED_STATE;
    while (length > 0 && refused == 0) {
        uint32_t offset = (uint32_t)(at % size);
        uint32_t part = length < size - offset ? (uint32_t)length : size - offset;
        refused = view_read(view, (uint32_t)(at / size), offset, into, part);
        at += part;
        into += part;
        length -= part;
    }
    return refused;
}
