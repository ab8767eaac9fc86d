/* load_table.c: the load table from the pages of a view (load_table.h). Its numbers are little-endian. */
#include "load_table.h"
#include <stdio.h>
#include <stdlib.h>
#include <string.h>

static uint64_t number(const uint8_t *at, int bytes)
{
    uint64_t value = 0;
    for (int i = bytes; i > 0; i--)
        value = value << 8 | at[i - 1];
    return value;
}

static double real(const uint8_t *at)
{
    uint64_t bits = number(at, 8);
    double value;
    memcpy(&value, &bits, sizeof value);
    return value;
}

/* First how many rows it has, then the rows, chunk by chunk. */
uint32_t load_table_read(struct load_table *load, const struct table *table, struct view *view)
{
    uint8_t count[8];
    uint32_t refused = view_bytes(view, table->at, count, sizeof count);
    if (refused)
        return refused;
    load->rows = number(count, 8);
    if (load->rows > (uint64_t)table->chunks * table->rows) {
        fprintf(stderr, "desk: the load table has more rows than chunks for them: make the sequence anew\n");
        exit(1);
    }
    for (uint64_t row = 0; row < load->rows && refused == 0; row += table->rows) {
        uint64_t some = load->rows - row < table->rows ? load->rows - row : table->rows;
        refused = view_bytes(view, table->chunk[row / table->rows], load->bytes + row * ROW, some * ROW);
    }
    return refused;
}

struct row load_table_row(const struct load_table *load, uint64_t i)
{
    const uint8_t *at = load->bytes + i * ROW;
    return (struct row){(uint32_t)number(at, 4), (uint32_t)number(at + 4, 4), real(at + 8), real(at + 16), real(at + 24)};
}

int load_table_is_whole(const struct load_table *load)
{
    for (uint64_t i = 0; i < load->rows; i++)
        if (load_table_row(load, i).number != i
            || load_table_row(load, i).calibration != load_table_row(load, 0).calibration)
            return 0;
    return 1;
}

double load_table_peak(const struct load_table *load)
{
    double most = 0;
    for (uint64_t i = 0; i < load->rows; i++)
        if (load_table_row(load, i).pull > most)
            most = load_table_row(load, i).pull;
    return most;
}
