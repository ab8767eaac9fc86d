/* load_table.h: the demo's load table as a desk reads it, all of it at one tick. A row has 32 bytes: its number, the calibration
 * it was computed with, time, pull and angle. */
#ifndef LOAD_TABLE_H
#define LOAD_TABLE_H

#include "sequence.h"
#include "view.h"

enum { ROW = 32 }; /* bytes of a row */

struct row {
    uint32_t number, calibration;
    double time, pull, angle;
};

struct load_table {
    uint8_t *bytes; /* room for all chunks */
    uint64_t rows;
};

/* Reads the table as it was at the view's tick: 0 or a number of refusal. Where it cannot be a load table, the program ends. */
uint32_t load_table_read(struct load_table *load, const struct table *table, struct view *view);

struct row load_table_row(const struct load_table *load, uint64_t i);
double load_table_peak(const struct load_table *load);

/* Whether every row is in its place and of the same calibration as the first: rows of two ticks would not be. */
int load_table_is_whole(const struct load_table *load);

#endif
