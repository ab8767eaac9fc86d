/* picture.c: what the desk of the demo shows (desk.h): how far the recorder is, what the desk holds, which pages changed, and
 * the last rows of the load table. */
#include "desk.h"
#include <stdio.h>

enum { SHOWN = 4, BAR = 30 }; /* rows; columns */

static void end_line(struct desk *desk)
{
    printf("%s\n", desk->terminal ? "\033[K" : "");
    desk->lines++;
}

static void draw_progress(struct desk *desk)
{
    uint32_t trial = sequence_last(&desk->sequence);
    uint32_t done = BAR * desk->closed / desk_last_tick(desk);
    printf("recorder   [");
    for (uint32_t i = 0; i < BAR; i++)
        putchar(i < done ? '#' : '.');
    if (desk->closed <= trial)
        printf("] tick %u of %u closed", desk->closed, trial);
    else
        printf("] trial over, %u of %u more closes", desk->closed - trial, desk->held.settings.lag);
    end_line(desk);
}

static const char *doing(const struct desk *desk)
{
    if (desk_holds(desk))
        return desk_lag(desk) == desk->held.settings.lag ? ", takes a snapshot now" : ", holds it for a snapshot";
    return "";
}

static void draw_tick(struct desk *desk)
{
    printf("desk       at tick %u, %u behind of at most %u%s", desk->held.tick, desk_lag(desk), desk->held.settings.lag,
           doing(desk));
    end_line(desk);
}

static void draw_marks(struct desk *desk)
{
    int none = 1;
    printf("changed    since tick %u:", desk->before);
    for (uint32_t page = 0; page < desk->held.end; page++) {
        if (!desk->view.marks[page])
            continue;
        printf("%s %u", none ? " pages" : "", page);
        none = 0;
    }
    printf("%s", none ? " no page" : "");
    end_line(desk);
}

static void draw_table(struct desk *desk)
{
    uint32_t chunk = desk->sequence.table.rows;
    const struct load_table *load = &desk->load;
    printf("load table %llu rows on %llu pages, ", (unsigned long long)load->rows,
           (unsigned long long)((load->rows + chunk - 1) / chunk));
    if (load->rows == 0)
        printf("empty as yet");
    else
        printf("%s of calibration %u, peak %.2f t", load_table_is_whole(load) ? "all" : "TORN: not all",
               load_table_row(load, 0).calibration, load_table_peak(load));
    end_line(desk);
}

static void draw_rows(struct desk *desk)
{
    uint64_t rows = desk->load.rows, first = rows > SHOWN ? rows - SHOWN : 0;
    printf("              row   time s   pull t   line deg");
    end_line(desk);
    for (uint64_t i = first; i < first + SHOWN; i++) {
        if (i < rows) {
            struct row row = load_table_row(&desk->load, i);
            printf("            %5u  %7.0f  %7.2f    %7.2f", row.number, row.time, row.pull, row.angle);
        }
        end_line(desk);
    }
}

static void draw(struct desk *desk)
{
    if (desk->lines)
        printf("\033[%dA", desk->lines);
    desk->lines = 0;
    draw_progress(desk);
    draw_tick(desk);
    draw_marks(desk);
    draw_table(desk);
    draw_rows(desk);
}

static void print_line(const struct desk *desk)
{
    printf("closed %2u, desk at %2u, %u behind%s: %llu rows, %s, peak %.2f t\n", desk->closed, desk->held.tick, desk_lag(desk),
           doing(desk), (unsigned long long)desk->load.rows, load_table_is_whole(&desk->load) ? "whole" : "TORN",
           load_table_peak(&desk->load));
}

void picture(struct desk *desk)
{
    if (desk->terminal)
        draw(desk);
    else
        print_line(desk);
    fflush(stdout);
}
