/* image.c: what a file has to be at a tick of a trial (sequence.h), for the demo's checks.
 *
 *   image SEQUENCE TICK         writes the file at that tick to standard output
 *   image SEQUENCE TICK FILE    compares a file with it page by page and says what it found; the exit status is 1 if FILE has
 *                               another length or a metadata page differs. Raw pages may be earlier or later than the tick:
 *                               nothing is promised of them, and they are only counted. */
#include "sequence.h"
#include <stdio.h>
#include <stdlib.h>
#include <string.h>

static uint8_t *room(const struct sequence *sequence)
{
    uint8_t *bytes = calloc(sequence->settings.capacity + 1, sequence->settings.size);
    if (!bytes) {
        fprintf(stderr, "image: no memory\n");
        exit(2);
    }
    return bytes;
}

static size_t load(const char *path, uint8_t *bytes, size_t most)
{
    FILE *file = fopen(path, "rb");
    size_t length;
    if (!file) {
        perror(path);
        exit(2);
    }
    length = fread(bytes, 1, most, file);
    fclose(file);
    return length;
}

static int compare(const struct sequence *sequence, const uint8_t *wanted, const uint8_t *got, uint32_t end)
{
    uint32_t pages[2] = {0, 0}, other[2] = {0, 0};
    size_t size = sequence->settings.size;
    for (uint32_t page = 0; page < end; page++) {
        pages[sequence->kinds[page]]++;
        other[sequence->kinds[page]] += memcmp(wanted + page * size, got + page * size, size) != 0;
    }
    printf("%u of %u metadata pages equal, %u of %u raw pages\n", pages[0] - other[0], pages[0], pages[1] - other[1], pages[1]);
    return other[0] != 0;
}

int main(int count, char **words)
{
    static struct sequence sequence;
    uint32_t tick, end;
    uint8_t *wanted, *got;
    size_t length;
    if (count != 3 && count != 4) {
        fprintf(stderr, "usage: image SEQUENCE TICK [FILE]\n");
        return 2;
    }
    sequence_load(&sequence, words[1]);
    tick = (uint32_t)strtoul(words[2], NULL, 10);
    end = sequence_end(&sequence, tick);
    length = (size_t)end * sequence.settings.size;
    wanted = room(&sequence);
    for (uint32_t step = 0; step <= tick && step < sequence.count; step++)
        sequence_apply(&sequence, step, wanted);
    if (count == 3)
        return fwrite(wanted, 1, length, stdout) != length;
    got = room(&sequence);
    if (load(words[3], got, length + 1) != length) {
        printf("not %u pages long\n", end);
        return 1;
    }
    return compare(&sequence, wanted, got, end);
}
