/* sequence.c: loads a trial's sequence of pages (sequence.h says what the file looks like). The file may be edited by hand, so
 * each line is judged: what a program gets from here lies inside its pages and its file. */
#define _DEFAULT_SOURCE
#include "sequence.h"
#include <stdio.h>
#include <stdlib.h>
#include <string.h>

struct source {
    const char *path;
    unsigned long line;
    uint32_t end; /* pages so far */
};

static void fail(const struct source *source, const char *why)
{
    fprintf(stderr, "%s:%lu: %s: make the sequence anew with `make trial`\n", source->path, source->line, why);
    exit(2);
}

static void *grown(const struct source *source, void *before, size_t length)
{
    void *after = realloc(before, length);
    if (!after)
        fail(source, "no memory");
    return after;
}

static uint32_t number(const struct source *source, char **at)
{
    char *rest = *at;
    unsigned long value = strtoul(*at, &rest, 10);
    if (rest == *at || value > 0xffffffff)
        fail(source, "a number is missing or too large");
    *at = rest;
    return (uint32_t)value;
}

static unsigned digit(const struct source *source, char c)
{
    const char *digits = "0123456789abcdef";
    const char *found = c ? strchr(digits, c) : NULL;
    if (!found)
        fail(source, "bytes are pairs of the digits 0 to 9 and a to f");
    return (unsigned)(found - digits);
}

static void bytes(const struct source *source, struct change *change, char *hex)
{
    while (*hex == ' ')
        hex++;
    change->length = (uint32_t)(strcspn(hex, " \r\n") / 2);
    change->bytes = grown(source, NULL, change->length + 1);
    for (uint32_t i = 0; i < change->length; i++)
        change->bytes[i] = (uint8_t)(digit(source, hex[2 * i]) << 4 | digit(source, hex[2 * i + 1]));
    if (strspn(hex + 2 * change->length, " \r\n") != strlen(hex + 2 * change->length))
        digit(source, 0);
}

static void settings(const struct source *source, struct sequence *sequence, char *at)
{
    ungletice_settings *settings = &sequence->settings;
    settings->size = number(source, &at);
    settings->slots = number(source, &at);
    settings->lag = number(source, &at);
    settings->capacity = number(source, &at);
    if (ungletice_base_length(*settings) == 0)
        fail(source, "the settings are outside their limits");
    sequence->kinds = grown(source, sequence->kinds, settings->capacity);
    memset(sequence->kinds, 0, settings->capacity);
}

static void table(const struct source *source, struct table *table, char *at)
{
    table->at = number(source, &at);
    table->length = number(source, &at);
    table->rows = number(source, &at);
    if (table->length == 0 || table->rows == 0)
        fail(source, "a row has bytes and a chunk has rows");
}

static void chunk(const struct source *source, struct table *table, char *at)
{
    if (table->chunks == MOST_CHUNKS)
        fail(source, "too many chunks");
    table->chunk[table->chunks++] = number(source, &at);
}

static struct step *last(const struct source *source, struct sequence *sequence)
{
    if (sequence->count == 0)
        fail(source, "there is no tick yet");
    return &sequence->steps[sequence->count - 1];
}

static void tick(const struct source *source, struct sequence *sequence, char *at)
{
    if (sequence->settings.size == 0)
        fail(source, "the settings come before the first tick");
    if (number(source, &at) != sequence->count)
        fail(source, "ticks go up one by one from 0");
    if (sequence->count == MOST_STEPS)
        fail(source, "too many ticks");
    sequence->steps[sequence->count++] = (struct step){source->end, 0, NULL};
}

static void grow(struct source *source, struct sequence *sequence, char *at)
{
    uint32_t kind = number(source, &at);
    if (kind > 1)
        fail(source, "a kind is 0 or 1");
    last(source, sequence);
    if (source->end == sequence->settings.capacity)
        fail(source, "the file has E pages already");
    sequence->kinds[source->end++] = (uint8_t)kind;
    last(source, sequence)->end = source->end;
}

static void write_line(const struct source *source, struct sequence *sequence, char *at)
{
    struct step *step = last(source, sequence);
    struct change change;
    change.page = number(source, &at);
    change.offset = number(source, &at);
    bytes(source, &change, at);
    if (change.page >= source->end)
        fail(source, "the page is not in the file");
    if (change.length == 0 || change.offset >= sequence->settings.size || change.length > sequence->settings.size - change.offset)
        fail(source, "the bytes leave their page");
    step->changes = grown(source, step->changes, (step->count + 1) * sizeof change);
    step->changes[step->count++] = change;
}

/* The rest of the line, if it begins with the word and a space. */
static char *after(char *line, const char *word)
{
    size_t length = strlen(word);
    return strncmp(line, word, length) == 0 && line[length] == ' ' ? line + length + 1 : NULL;
}

static void take_line(struct source *source, struct sequence *sequence, char *line)
{
    char *at;
    if (line[strspn(line, " \r\n")] == '\0' || line[0] == '#')
        return;
    if ((at = after(line, "write")))
        write_line(source, sequence, at);
    else if ((at = after(line, "grow")))
        grow(source, sequence, at);
    else if ((at = after(line, "tick")))
        tick(source, sequence, at);
    else if ((at = after(line, "chunk")))
        chunk(source, &sequence->table, at);
    else if ((at = after(line, "table")))
        table(source, &sequence->table, at);
    else if ((at = after(line, "settings")))
        settings(source, sequence, at);
    else
        fail(source, "no line of a sequence");
}

void sequence_load(struct sequence *sequence, const char *path)
{
    struct source source = {path, 0, 0};
    char *line = NULL;
    size_t room = 0;
    FILE *file = fopen(path, "r");
    if (!file) {
        perror(path);
        exit(2);
    }
    memset(sequence, 0, sizeof *sequence);
    while (getline(&line, &room, file) >= 0) {
        source.line++;
        take_line(&source, sequence, line);
    }
    free(line);
    fclose(file);
    last(&source, sequence);
}

void sequence_apply(const struct sequence *sequence, uint32_t tick, uint8_t *file)
{
    if (tick >= sequence->count)
        return;
    for (uint32_t i = 0; i < sequence->steps[tick].count; i++) {
        const struct change *change = &sequence->steps[tick].changes[i];
        memcpy(file + (size_t)change->page * sequence->settings.size + change->offset, change->bytes, change->length);
    }
}

uint32_t sequence_last(const struct sequence *sequence)
{
    return sequence->count - 1;
}

uint32_t sequence_end(const struct sequence *sequence, uint32_t tick)
{
    return sequence->steps[tick < sequence->count ? tick : sequence_last(sequence)].end;
}
