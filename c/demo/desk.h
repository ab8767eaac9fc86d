/* desk.h: what the desk of the demo has at hand, and the picture of it. desk.c is its life, picture.c draws. */
#ifndef DESK_H
#define DESK_H

#include "load_table.h"
#include "sequence.h"
#include "view.h"

struct desk {
    struct sequence sequence;
    struct view view;
    ungletice_told held;    /* what the view holds */
    uint32_t closed;        /* the tick of the side file, when last looked */
    uint32_t before;        /* the tick held before the last refresh */
    uint32_t hold;          /* the tick to hold for the snapshot */
    int has_taken;          /* the snapshot */
    struct load_table load; /* the load table at the held tick */
    int terminal, lines;    /* whether there is one, and how many lines of it are drawn on */
};

/* How many ticks the desk is behind; the last tick of the trial with the closes after it; whether the desk stays where it is
 * until it has its snapshot. */
uint32_t desk_lag(const struct desk *desk);
uint32_t desk_last_tick(const struct desk *desk);
int desk_holds(const struct desk *desk);

/* On a terminal the picture is drawn anew in its place; elsewhere it is a line. */
void picture(struct desk *desk);

#endif
