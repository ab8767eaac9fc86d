/* trial_maker.c: makes the trial of the demo with the stock HDF5 library, step by step, and notes what each step changed.
 *
 *   trial_maker DIRECTORY     writes DIRECTORY/tick-N.h5, the file at each tick N, and DIRECTORY/trial.pages (sequence.h)
 *
 * The trial: a tug pulls on a bollard for 32 minutes. /samples has the pull each second. /load_table has a row for each five
 * seconds: the mean pull by the calibration in force, and the angle of the line. When the load cell is calibrated anew, all rows
 * of the load table change at once: a reader that mixes pages of two ticks sees two calibrations in one table.
 *
 * The file has paged allocation, so that HDF5 never puts metadata and raw data into one page. A page is raw where it has a chunk
 * of /samples and metadata otherwise. The load table's chunks are metadata to the recorder, although they are raw data to HDF5:
 * the figures that are settled have to be those of the desk's tick, and raw pages have no history.
 *
 * The file is closed after each step, so that each is a whole HDF5 file that any reader opens. Nothing depends on a clock but the
 * time of making, which HDF5 itself puts into the superblock's extension. */
#include <hdf5.h>
#include <stdint.h>
#include <stdio.h>
#include <stdlib.h>
#include <string.h>

enum { SIZE = 2048, SLOTS = 16, LAG = 4, CAPACITY = 64 };
enum { TICKS = 24, ROWS = 16, SECONDS = 5, SAMPLES = ROWS * SECONDS }; /* ROWS and SAMPLES of a tick, SECONDS of a row */
enum { ALL_ROWS = TICKS * ROWS, ALL_SAMPLES = TICKS * SAMPLES };
enum { ROW = 32, CHUNK_ROWS = SIZE / ROW, CHUNK_SAMPLES = SIZE / 4 }; /* a chunk is a page */
enum { NEAR = 16 };                                                   /* changes that are nearer are one write */

struct row {
    uint32_t row, calibration;
    double time_s, pull_t, line_deg;
};

struct image { /* the file after a step */
    uint8_t *bytes;
    uint32_t pages;
};

static float samples[ALL_SAMPLES];
static struct row rows[ALL_ROWS];
static struct image images[TICKS + 1];
static uint8_t kinds[CAPACITY];

static void fail(const char *what)
{
    fprintf(stderr, "trial_maker: %s\n", what);
    exit(2);
}

static hid_t sure(hid_t id)
{
    if (id < 0)
        fail("the HDF5 library refused a call: see above");
    return id;
}

/* The trial itself, in hundredths of a tonne. */

/* Up to 60 tonnes in ten minutes, held for 17, and down again. */
static int steady(int second)
{
    if (second < 600)
        return second * 10;
    return second < 1620 ? 6000 : 6000 - (second - 1620) * 20;
}

/* Waves and gusts: a number from -149 to 149 that depends on the second alone. */
static int unsteady(int second)
{
    uint32_t mixed = (uint32_t)second * 2654435761u;
    return (int)((mixed >> 16) % 150) - (int)((mixed >> 8) % 150);
}

static void sail(void)
{
    for (int i = 0; i < ALL_SAMPLES; i++) {
        int pull = steady(i) + unsteady(i);
        samples[i] = (float)(pull < 0 ? 0 : pull) / 100;
    }
}

static uint32_t calibration_at(int tick)
{
    return tick < 9 ? 1 : tick < 17 ? 2 : 3;
}

static double factor(uint32_t calibration)
{
    static const double factors[] = {1, 1, 1.0125, 0.9875};
    return factors[calibration];
}

static struct row settled(int i, uint32_t calibration)
{
    double sum = 0;
    int hundredths;
    for (int k = 0; k < SECONDS; k++)
        sum += samples[i * SECONDS + k];
    hundredths = (int)(sum / SECONDS * factor(calibration) * 100 + 0.5);
    return (struct row){(uint32_t)i, calibration, i * SECONDS, hundredths / 100.0, unsteady(7 * i) / 50.0};
}

/* The HDF5 file. */

static hid_t row_type(hid_t number, hid_t real)
{
    hid_t type = sure(H5Tcreate(H5T_COMPOUND, sizeof(struct row)));
    H5Tinsert(type, "row", HOFFSET(struct row, row), number);
    H5Tinsert(type, "calibration", HOFFSET(struct row, calibration), number);
    H5Tinsert(type, "time_s", HOFFSET(struct row, time_s), real);
    H5Tinsert(type, "pull_t", HOFFSET(struct row, pull_t), real);
    H5Tinsert(type, "line_deg", HOFFSET(struct row, line_deg), real);
    return type;
}

/* An empty dataset that can grow, in chunks of one page. */
static void add_dataset(hid_t file, const char *name, hid_t type, hsize_t chunk)
{
    hsize_t none = 0, most = H5S_UNLIMITED;
    hid_t space = sure(H5Screate_simple(1, &none, &most));
    hid_t how = sure(H5Pcreate(H5P_DATASET_CREATE));
    H5Pset_chunk(how, 1, &chunk);
    H5Pset_obj_track_times(how, 0);
    H5Dclose(sure(H5Dcreate2(file, name, type, space, H5P_DEFAULT, how, H5P_DEFAULT)));
    H5Pclose(how);
    H5Sclose(space);
}

static void make_file(const char *path, hid_t access)
{
    hid_t type = row_type(H5T_STD_U32LE, H5T_IEEE_F64LE);
    hid_t how = sure(H5Pcreate(H5P_FILE_CREATE));
    hid_t file;
    H5Pset_file_space_strategy(how, H5F_FSPACE_STRATEGY_PAGE, 0, 1);
    H5Pset_file_space_page_size(how, SIZE);
    H5Pset_obj_track_times(how, 0);
    file = sure(H5Fcreate(path, H5F_ACC_TRUNC, how, access));
    add_dataset(file, "load_table", type, CHUNK_ROWS);
    add_dataset(file, "samples", H5T_IEEE_F32LE, CHUNK_SAMPLES);
    H5Fclose(file);
    H5Pclose(how);
    H5Tclose(type);
}

/* Makes a dataset `end` elements long and writes those from `first` on. */
static void put(hid_t file, const char *name, hid_t type, hsize_t first, hsize_t end, const void *bytes)
{
    hid_t set = sure(H5Dopen2(file, name, H5P_DEFAULT));
    hsize_t count = end - first;
    hid_t memory = sure(H5Screate_simple(1, &count, NULL));
    hid_t space;
    sure(H5Dset_extent(set, &end));
    space = sure(H5Dget_space(set));
    sure(H5Sselect_hyperslab(space, H5S_SELECT_SET, &first, NULL, &count, NULL));
    sure(H5Dwrite(set, type, memory, space, H5P_DEFAULT, bytes));
    H5Sclose(space);
    H5Sclose(memory);
    H5Dclose(set);
}

static void step_file(const char *path, hid_t access, int tick)
{
    hid_t type = row_type(H5T_NATIVE_UINT32, H5T_NATIVE_DOUBLE);
    hid_t file = sure(H5Fopen(path, H5F_ACC_RDWR, access));
    uint32_t calibration = calibration_at(tick);
    int anew = tick == 1 || calibration != calibration_at(tick - 1);
    int first = anew ? 0 : (tick - 1) * ROWS;
    for (int i = first; i < tick * ROWS; i++)
        rows[i] = settled(i, calibration);
    put(file, "load_table", type, (hsize_t)first, (hsize_t)(tick * ROWS), rows + first);
    put(file, "samples", H5T_NATIVE_FLOAT, (hsize_t)((tick - 1) * SAMPLES), (hsize_t)(tick * SAMPLES),
        samples + (tick - 1) * SAMPLES);
    H5Fclose(file);
    H5Tclose(type);
}

/* What the steps left. */

static struct image load(const char *path)
{
    struct image image = {calloc(CAPACITY, SIZE), 0};
    FILE *file = fopen(path, "rb");
    size_t length;
    if (!file || !image.bytes)
        fail("cannot read the file back");
    length = fread(image.bytes, 1, (size_t)CAPACITY * SIZE, file);
    if (length % SIZE != 0 || !feof(file))
        fail("the file is not one of whole pages, or has more than E");
    fclose(file);
    image.pages = (uint32_t)(length / SIZE);
    return image;
}

static void keep(const char *directory, int tick)
{
    char path[4096];
    FILE *file;
    snprintf(path, sizeof path, "%s/tick-%d.h5", directory, tick);
    file = fopen(path, "wb");
    if (!file || fwrite(images[tick].bytes, SIZE, images[tick].pages, file) != images[tick].pages || fclose(file))
        fail("cannot write the file of a tick");
}

/* Chunk k of a dataset, its byte in the file. */
static haddr_t chunk_at(hid_t set, hsize_t first)
{
    haddr_t at = HADDR_UNDEF;
    hsize_t length = 0;
    unsigned filters = 0;
    sure(H5Dget_chunk_info_by_coord(set, &first, &filters, &at, &length));
    if (at == HADDR_UNDEF || length != SIZE || at % SIZE != 0)
        fail("a chunk is not one page");
    return at;
}

static void note_kinds(hid_t file)
{
    hid_t set = sure(H5Dopen2(file, "samples", H5P_DEFAULT));
    for (hsize_t first = 0; first < ALL_SAMPLES; first += CHUNK_SAMPLES)
        kinds[chunk_at(set, first) / SIZE] = 1;
    H5Dclose(set);
}

static void note_chunks(hid_t file, FILE *out)
{
    hid_t set = sure(H5Dopen2(file, "load_table", H5P_DEFAULT));
    for (hsize_t first = 0; first < ALL_ROWS; first += CHUNK_ROWS)
        fprintf(out, "chunk %llu\n", (unsigned long long)chunk_at(set, first));
    H5Dclose(set);
}

/* Whether the number of rows at a tick, and that there is no most, stand at a byte of the file: HDF5's dataspace message. */
static int says_rows(int tick, uint32_t at)
{
    uint8_t wanted[16];
    memset(wanted + 8, 0xff, 8);
    for (int i = 0; i < 8; i++)
        wanted[i] = (uint8_t)((uint64_t)(tick * ROWS) >> (8 * i));
    return memcmp(images[tick].bytes + at, wanted, sizeof wanted) == 0;
}

static uint32_t rows_at(void)
{
    for (uint32_t at = 0; at + 16 <= images[0].pages * SIZE; at++) {
        int tick = 0;
        while (tick <= TICKS && says_rows(tick, at))
            tick++;
        if (tick > TICKS)
            return at;
    }
    fail("the number of rows is not where it was");
    return 0;
}

/* The end of a run of differing bytes that begins at `from`: shorter gaps than NEAR belong to it. */
static uint32_t run_end(const uint8_t *before, const uint8_t *after, uint32_t from)
{
    uint32_t end = from;
    for (uint32_t i = from; i < SIZE && i < end + NEAR; i++)
        if (before[i] != after[i])
            end = i + 1;
    return end;
}

static void note_page(FILE *out, uint32_t page, const uint8_t *before, const uint8_t *after)
{
    for (uint32_t at = 0; at < SIZE; at++) {
        uint32_t end = at;
        if (before[at] == after[at])
            continue;
        end = run_end(before, after, at);
        fprintf(out, "write %u %u ", page, at);
        for (; at < end; at++)
            fprintf(out, "%02x", after[at]);
        fputc('\n', out);
    }
}

static void note_step(FILE *out, int tick)
{
    static const uint8_t zero[CAPACITY * SIZE];
    const uint8_t *before = tick ? images[tick - 1].bytes : zero;
    uint32_t pages = tick ? images[tick - 1].pages : 0;
    if (images[tick].pages < pages)
        fail("the file became shorter");
    fprintf(out, "tick %d\n", tick);
    for (uint32_t page = pages; page < images[tick].pages; page++)
        fprintf(out, "grow %u\n", kinds[page]);
    for (uint32_t page = 0; page < images[tick].pages; page++)
        note_page(out, page, before + page * SIZE, images[tick].bytes + page * SIZE);
}

static void note_all(const char *path, hid_t file)
{
    FILE *out = fopen(path, "w");
    if (!out)
        fail("cannot write trial.pages");
    fprintf(out, "# A pull trial, as the pages that each tick changed in an HDF5 file with paged allocation.\n");
    fprintf(out, "# Made by trial_maker; c/demo/sequence.h says what the lines mean.\n");
    fprintf(out, "settings %d %d %d %d\n", SIZE, SLOTS, LAG, CAPACITY);
    fprintf(out, "table %u %d %d\n", rows_at(), ROW, CHUNK_ROWS);
    note_chunks(file, out);
    for (int tick = 0; tick <= TICKS; tick++)
        note_step(out, tick);
    if (fclose(out))
        fail("cannot write trial.pages");
}

int main(int count, char **words)
{
    char path[4096], pages[4096];
    hid_t access, file;
    if (count != 2) {
        fprintf(stderr, "usage: trial_maker DIRECTORY\n");
        return 2;
    }
    snprintf(path, sizeof path, "%s/making.h5", words[1]);
    snprintf(pages, sizeof pages, "%s/trial.pages", words[1]);
    access = sure(H5Pcreate(H5P_FILE_ACCESS));
    H5Pset_libver_bounds(access, H5F_LIBVER_V110, H5F_LIBVER_V110);
    sail();
    make_file(path, access);
    images[0] = load(path);
    keep(words[1], 0);
    for (int tick = 1; tick <= TICKS; tick++) {
        step_file(path, access, tick);
        images[tick] = load(path);
        keep(words[1], tick);
    }
    file = sure(H5Fopen(path, H5F_ACC_RDONLY, access));
    note_kinds(file);
    note_all(pages, file);
    H5Fclose(file);
    remove(path);
    printf("%d ticks, %u pages, %d rows in the load table\n", TICKS, images[TICKS].pages, ALL_ROWS);
    return 0;
}
