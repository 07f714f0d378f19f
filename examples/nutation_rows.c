/*
 * How a daemon uses nutation rows from a file, as tools/rows writes it: it reads the file, hands the bytes to
 * the library, and says in words why they are refused, or gives the offsets at an instant and how many rows were
 * probed for it, beside those of the built-in rows. A year's new table is a new file, and the daemon stays as it
 * is. It is an example and not part of the proved product.
 *
 *     cc -O2 -Iinclude examples/nutation_rows.c target/staticlib/libenfysgar.a -o nutation_rows
 *     ./nutation_rows FILE DAY MICROS
 *
 * Status 0: both were answered; 1: the file could not be read, or a refusal; 2: wrong usage.
 */
#include <enfysgar.h>

#include <errno.h>
#include <inttypes.h>
#include <stdio.h>
#include <stdlib.h>
#include <string.h>

/* A byte more than the longest table: a file that fills it is too long, which the library then says. */
#define ROOM (ENFYS_ROWS_BYTES(ENFYS_ROWS_MOST) + 1)

static const char *text(uint32_t refusal)
{
    switch (refusal) {
    case ENFYS_DAY:
        return "day number outside 15020..88433";
    case ENFYS_MICROS:
        return "microseconds of the day not below 86400000000";
    case ENFYS_ROWS_LENGTH:
        return "the file is cut or too long: it has not the length that it says, or not that of 2 to 200 rows";
    case ENFYS_ROWS_VERSION:
        return "the version of the file is not 1";
    case ENFYS_ROWS_DAY:
        return "the day of a row is outside 15020..88433, or not after that of the row before";
    case ENFYS_ROWS_SIZE:
        return "an amplitude of a row is outside -1000..1000 microarcseconds, or its uncertainty outside 0.01..1000";
    default:
        return "unknown to this program";
    }
}

/* Reads at most ROOM bytes of a file; -1, and says so, where it cannot be read. */
static long read_rows(const char *name, uint8_t bytes[ROOM])
{
    FILE *file = fopen(name, "rb");
    size_t length;
    int failed;

    if (file == NULL) {
        fprintf(stderr, "nutation_rows: %s: %s\n", name, strerror(errno));
        return -1;
    }
    length = fread(bytes, 1, ROOM, file);
    failed = ferror(file) ? errno : 0;
    fclose(file);
    if (failed) {
        fprintf(stderr, "nutation_rows: %s: %s\n", name, strerror(failed));
        return -1;
    }
    return (long)length;
}

/* A decimal number with nothing before or behind it, for micros without a sign. 0 where the text is anything else. */
static int parse_day(const char *text, int64_t *day)
{
    char *end;

    errno = 0;
    *day = strtoll(text, &end, 10);
    return errno == 0 && end != text && *end == '\0' && strchr("-0123456789", text[0]) != NULL;
}

static int parse_micros(const char *text, uint64_t *micros)
{
    char *end;

    errno = 0;
    *micros = strtoull(text, &end, 10);
    return errno == 0 && end != text && *end == '\0' && strchr("0123456789", text[0]) != NULL;
}

static void show(const char *edition, int64_t x, int64_t y, uint64_t uncertainty, uint64_t probes)
{
    printf("%-14s X %" PRId64 " nas, Y %" PRId64 " nas, uncertainty %" PRIu64 " nas, %" PRIu64 " rows probed\n",
           edition, x, y, uncertainty, probes);
}

static int refused(const char *edition, uint32_t refusal)
{
    if (refusal != ENFYS_OK)
        printf("%-14s refused %" PRIu32 ": %s\n", edition, refusal, text(refusal));
    return refusal != ENFYS_OK;
}

int main(int argc, char **argv)
{
    uint8_t rows[ROOM];
    int64_t day, x, y;
    uint64_t micros, uncertainty;
    long length;
    int failed = 0;

    if (argc != 4 || !parse_day(argv[2], &day) || !parse_micros(argv[3], &micros)) {
        fprintf(stderr, "usage: nutation_rows FILE DAY MICROS\n");
        return 2;
    }
    length = read_rows(argv[1], rows);
    if (length < 0)
        return 1;
    /* The rows are tested at every call: a daemon that has them in memory can hand them over as they are. */
    if (refused("these rows", enfys_nutation_rows(rows, (size_t)length, day, micros, &x, &y, &uncertainty)))
        failed = 1;
    else
        show("these rows", x, y, uncertainty, enfys_nutation_rows_probes(rows, (size_t)length, day, micros));
    if (refused("built-in rows", enfys_nutation(day, micros, &x, &y, &uncertainty)))
        failed = 1;
    else
        show("built-in rows", x, y, uncertainty, enfys_nutation_probes(day, micros));
    return failed || fflush(stdout) != 0;
}
