/* deskwatch.c: follows a live side file as a desk does, and says what it sees: for operators who want to know whether a recording
 * goes on, how far a reader would be behind, which pages change, and what is refused and why.
 *
 *   deskwatch [--once] [--interval SECONDS] SIDEFILE [BASEFILE]
 *
 * The files are opened anew at each look, so that a recording which replaces them is followed too. All calls of one look run
 * under one shared lock on the side file. Nothing is written to either file. */
#define _DEFAULT_SOURCE
#include "lent.h"
#include "ungletice.h"
#include <errno.h>
#include <getopt.h>
#include <signal.h>
#include <stdio.h>
#include <stdlib.h>
#include <string.h>
#include <sys/select.h>

enum { ACCEPTED = 0, REFUSED = 1, FAILED = 2 }; /* the exit status */

struct watch {
    const char *side_path, *base_path;
    struct lent side, base;
    ungletice_view view;
    int holds;       /* the held buffer is filled */
    uint32_t number; /* the refusal that was said last, 0 once a look was accepted */
    int missing;     /* the errno that was said last, 0 once the files were there */
    uint8_t held[UNGLETICE_LONGEST_HELD];
    uint8_t marks[65535];
};

static volatile sig_atomic_t ended;

static void end(int signal)
{
    (void)signal;
    ended = 1;
}

/* A refusal is said once, and again when it was another meanwhile. */
static int refuse(struct watch *watch, uint32_t number)
{
    if (number != watch->number)
        printf("refused %u: %s\n", number, ungletice_refusal_text(number));
    watch->number = number;
    return REFUSED;
}

static void print_counts(const struct watch *watch, uint32_t lag)
{
    ungletice_told held = ungletice_view_held(&watch->view);
    printf("tick %u  lag %u of %u  end %u  entries %u", held.tick, lag, held.settings.lag, held.end, held.entries);
}

static void print_marks(const struct watch *watch)
{
    uint32_t pages = ungletice_view_held(&watch->view).end, count = 0;
    for (uint32_t page = 0; page < pages; page++)
        count += watch->marks[page];
    printf("  marked %u%s", count, count ? ":" : "");
    for (uint32_t page = 0; page < pages; page++)
        if (watch->marks[page])
            printf(" %u", page);
}

/* Reads a whole page, where there is a base: its image may be damaged, or the base too short. */
static int read_page(const struct watch *watch, uint32_t page)
{
    uint32_t size = ungletice_view_held(&watch->view).settings.size;
    uint32_t refused = ungletice_view_read(&watch->view, page, 0, size, NULL);
    if (refused)
        printf("page %u refused %u: %s\n", page, refused, ungletice_refusal_text(refused));
    return refused ? REFUSED : ACCEPTED;
}

static int read_entries(const struct watch *watch)
{
    int status = ACCEPTED;
    uint32_t entries = watch->base_path ? ungletice_view_held(&watch->view).entries : 0;
    for (uint32_t i = 0; i < entries; i++)
        if (read_page(watch, ungletice_view_entry(&watch->view, i).page))
            status = REFUSED;
    return status;
}

static int read_marked(const struct watch *watch)
{
    int status = ACCEPTED;
    uint32_t pages = watch->base_path ? ungletice_view_held(&watch->view).end : 0;
    for (uint32_t page = 0; page < pages; page++)
        if (watch->marks[page] && read_page(watch, page))
            status = REFUSED;
    return status;
}

static int take(struct watch *watch)
{
    uint32_t refused = ungletice_view_take(&watch->view);
    watch->holds = refused == 0;
    if (refused)
        return refuse(watch, refused);
    watch->number = 0;
    print_counts(watch, 0);
    printf("  taken\n");
    return read_entries(watch);
}

/* After a refusal the held tick is of no use any more: a take begins anew, at once, and says so if that is refused too. */
static int refresh(struct watch *watch)
{
    uint32_t before = ungletice_view_held(&watch->view).tick, now;
    uint32_t refused = ungletice_view_refresh(&watch->view, watch->marks, sizeof watch->marks);
    if (refused) {
        refuse(watch, refused);
        return take(watch);
    }
    watch->number = 0;
    now = ungletice_view_held(&watch->view).tick;
    if (now == before)
        return ACCEPTED;
    print_counts(watch, now - before);
    print_marks(watch);
    putchar('\n');
    return read_marked(watch);
}

/* A file that cannot be had is said once, and waited for. */
static int lack(struct watch *watch, const char *path)
{
    if (errno != watch->missing)
        fprintf(stderr, "deskwatch: %s: %s\n", path, strerror(errno));
    watch->missing = errno;
    return FAILED;
}

static int look_at(struct watch *watch)
{
    if (lent_open(&watch->side, watch->side_path) || lent_lock(&watch->side, SHARED) || lent_map(&watch->side))
        return lack(watch, watch->side_path);
    if (watch->base_path && (lent_open(&watch->base, watch->base_path) || lent_map(&watch->base)))
        return lack(watch, watch->base_path);
    watch->missing = 0;
    watch->view.side = lent_slice(&watch->side);
    watch->view.base = lent_slice(&watch->base);
    return watch->holds ? refresh(watch) : take(watch);
}

static int look(struct watch *watch)
{
    int status;
    watch->side = watch->base = (struct lent){-1, NULL, 0};
    status = look_at(watch);
    lent_release(&watch->base);
    lent_release(&watch->side);
    fflush(stdout);
    return status;
}

static int usage(FILE *out)
{
    fprintf(out, "usage: deskwatch [--once] [--interval SECONDS] SIDEFILE [BASEFILE]\n"
                 "Follows a live side file: a line for each tick, and each refusal with what to do about it.\n"
                 "  --once               look once and end: status 0 if accepted, 1 if refused\n"
                 "  --interval SECONDS   between two looks, 0.01 to 3600 (0.5)\n"
                 "  BASEFILE             read the pages of the index too: damaged images are refused by 14\n");
    return out == stdout ? ACCEPTED : FAILED;
}

static int interval(const char *text, struct timespec *span)
{
    char *rest;
    double seconds = strtod(text, &rest);
    if (rest == text || *rest || !(seconds >= 0.01 && seconds <= 3600)) {
        fprintf(stderr, "deskwatch: --interval takes seconds from 0.01 to 3600, not '%s'\n", text);
        return -1;
    }
    span->tv_sec = (time_t)seconds;
    span->tv_nsec = (long)((seconds - (double)span->tv_sec) * 1e9);
    return 0;
}

/* SIGINT and SIGTERM come only while deskwatch waits, so that no look is cut short and no wait begins after them. */
static void catch_ends(sigset_t *waiting)
{
    struct sigaction action;
    sigset_t ends;
    memset(&action, 0, sizeof action);
    action.sa_handler = end;
    sigaction(SIGINT, &action, NULL);
    sigaction(SIGTERM, &action, NULL);
    sigemptyset(&ends);
    sigaddset(&ends, SIGINT);
    sigaddset(&ends, SIGTERM);
    sigprocmask(SIG_BLOCK, &ends, waiting);
}

static int follow(struct watch *watch, const struct timespec *span)
{
    int status = ACCEPTED;
    sigset_t waiting;
    catch_ends(&waiting);
    while (!ended && !ferror(stdout)) {
        status = look(watch);
        pselect(0, NULL, NULL, NULL, span, &waiting);
    }
    return status;
}

int main(int count, char **words)
{
    static const struct option options[] = {{"once", no_argument, NULL, 'o'},
                                            {"interval", required_argument, NULL, 'i'},
                                            {"help", no_argument, NULL, 'h'},
                                            {"version", no_argument, NULL, 'v'},
                                            {NULL, 0, NULL, 0}};
    static struct watch watch;
    struct timespec span = {0, 500000000};
    int once = 0, option;
    while ((option = getopt_long(count, words, "", options, NULL)) != -1) {
        if (option == 'o')
            once = 1;
        else if (option == 'h')
            return usage(stdout);
        else if (option == 'v')
            return printf("deskwatch %d.%d\n", UNGLETICE_VERSION_MAJOR, UNGLETICE_VERSION_MINOR) < 0;
        else if (option != 'i')
            return usage(stderr);
        else if (interval(optarg, &span))
            return FAILED;
    }
    if (count - optind < 1 || count - optind > 2)
        return usage(stderr);
    watch.side_path = words[optind];
    watch.base_path = words[optind + 1]; /* NULL where there is none */
    watch.view.held = (ungletice_slice){watch.held, sizeof watch.held};
    return once ? look(&watch) : follow(&watch, &span);
}
