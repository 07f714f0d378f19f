/*
 * compare_records: prints what differs between two files of records, such as run_day writes, as a table. The library
 * compares; this program, which reads the files and prints, is an example and not part of the proved product.
 *
 *     cc -O2 -Iinclude examples/compare_records.c target/staticlib/libenfysgar.a -o compare_records
 *     ./compare_records FILE FILE
 *
 * One of the files may be `-`, standard input. A file that the library refuses is named on standard error, with the
 * refusal and, but for 27, the record that is to blame.
 *
 * Status 0: no difference; 1: there are differences; 2: wrong usage, a file that could not be read or is refused, or
 * output that could not be written.
 */
#include <enfysgar.h>

#include <errno.h>
#include <inttypes.h>
#include <stdio.h>
#include <string.h>

#define TROUBLE 2

static struct file {
    const char *name;
    uint8_t bytes[ENFYS_COMPARE_MOST + 1]; /* a byte more than is accepted, so that a longer file is refused */
    size_t length;
} first, second;

/* Says what is wrong with a file; the status of that. */
static int trouble(const char *name, const char *what)
{
    fprintf(stderr, "compare_records: %s: %s\n", name, what);
    return TROUBLE;
}

static int read_file(struct file *file, const char *name)
{
    FILE *stream = strcmp(name, "-") == 0 ? stdin : fopen(name, "rb");
    int status = 0;

    file->name = stream == stdin ? "standard input" : name;
    if (stream == NULL)
        return trouble(name, strerror(errno));
    file->length = fread(file->bytes, 1, sizeof file->bytes, stream);
    if (ferror(stream))
        status = trouble(file->name, strerror(errno));
    if (stream != stdin)
        fclose(stream);
    return status;
}

static const char *meaning(uint32_t refusal)
{
    switch (refusal) {
    case ENFYS_DAY:
        return "a day outside 1900-01-01..2100-12-31";
    case ENFYS_MICROS:
        return "microseconds that are no time of day";
    case ENFYS_WORDS_DISAGREE:
        return "clock words of different days";
    case ENFYS_RECORD_LENGTH:
        return "a length field that is not 30";
    case ENFYS_RECORD_VERSION:
        return "a version that is not 1";
    case ENFYS_RECORD_ZERO:
        return "byte 3 of a record is not 0";
    case ENFYS_RECORD_SUM:
        return "a damaged record: its words do not add up to 0";
    case ENFYS_FILE_LENGTH:
        return "not a file of at most 2184 whole records of 30 bytes";
    case ENFYS_FILE_ORDER:
        return "a record that is not later than the one before it";
    default:
        return "unknown to this program";
    }
}

/* The refusal of a file, or of its front: compared with itself it can only be refused for what it is. */
static uint32_t refusal_of(const struct file *file, size_t length)
{
    return enfys_compare_refusal(file->bytes, length, file->bytes, length, 0);
}

/* Says why a file is refused. The shortest front with that refusal ends with the record that is to blame. */
static int check(const struct file *file)
{
    const uint32_t refusal = refusal_of(file, file->length);
    size_t end = 0;

    if (refusal == ENFYS_OK)
        return 0;
    fprintf(stderr, "compare_records: %s: refused %" PRIu32 ": %s", file->name, refusal, meaning(refusal));
    if (refusal != ENFYS_FILE_LENGTH) {
        while (refusal_of(file, end) != refusal)
            end += ENFYS_RECORD_BYTES;
        fprintf(stderr, " (record %zu, at byte %zu)", end / ENFYS_RECORD_BYTES, end - ENFYS_RECORD_BYTES);
    }
    fprintf(stderr, "\n");
    return TROUBLE;
}

static uint64_t number(const uint8_t *at, int size)
{
    uint64_t n = 0;

    for (int i = 0; i < size; i++)
        n = n << 8 | at[i];
    return n;
}

/* Prints an entry of the list; its side. */
static unsigned show(const uint8_t *entry)
{
    static const char *const side[] = {"", "first only", "second only", "both"};
    static const int width[] = {11, 14, 17};
    uint64_t micros = number(entry + 5, 8), seconds = micros / 1000000, year = 0, month = 0, day_of_month = 0;

    enfys_date_of_day((int64_t)number(entry + 1, 4), &year, &month, &day_of_month);
    printf("%04" PRIu64 "-%02" PRIu64 "-%02" PRIu64 " %02" PRIu64 ":%02" PRIu64 ":%02" PRIu64 ".%06" PRIu64 " %-11s",
           year, month, day_of_month, seconds / 3600, seconds / 60 % 60, seconds % 60, micros % 1000000,
           side[entry[0] & 3]);
    for (int i = 0; i < 3; i++)
        if (entry[0] == 3)
            printf(" %*" PRId64, width[i], (int64_t)number(entry + 13 + 8 * i, 8));
        else /* there is nothing to subtract */
            printf(" %*s", width[i], "-");
    printf("\n");
    return entry[0] & 3;
}

/* Prints what differs. */
static int compare(void)
{
    static uint8_t list[ENFYS_COMPARE_LIST_BYTES];
    const uint64_t entries = enfys_compare_entries(first.bytes, first.length, second.bytes, second.length, sizeof list);
    uint64_t of_side[4] = {0, 0, 0, 0};

    /* Neither file is refused, and this list is never too short. */
    if (enfys_compare(first.bytes, first.length, second.bytes, second.length, list, sizeof list) != ENFYS_OK)
        return trouble(second.name, "not compared");
    if (entries == 0) {
        printf("no difference\n");
        return 0;
    }
    printf("%-26s %-11s %11s %14s %17s\n", "date and time (TT)", "in file", "UT1, ns", "day length, ps",
           "rate, 1e-20 rad/s");
    for (uint64_t i = 0; i < entries; i++)
        of_side[show(list + ENFYS_COMPARE_ENTRY_BYTES * i)]++;
    printf("%" PRIu64 " instant%s: %" PRIu64 " in the first file only, %" PRIu64 " in the second only, %" PRIu64
           " in both; differences are second minus first\n",
           entries, entries == 1 ? "" : "s", of_side[1], of_side[2], of_side[3]);
    return 1;
}

int main(int argc, char **argv)
{
    int status;

    if (argc != 3 || (strcmp(argv[1], "-") == 0 && strcmp(argv[2], "-") == 0)) {
        fprintf(stderr, "usage: compare_records FILE FILE (one of them may be -, standard input)\n");
        return TROUBLE;
    }
    status = read_file(&first, argv[1]);
    status |= read_file(&second, argv[2]);
    if (status == 0) { /* of both files, so that all that is wrong is said */
        status = check(&first);
        status |= check(&second);
    }
    if (status == 0)
        status = compare();
    if ((fflush(stdout) != 0 || ferror(stdout)) && status != TROUBLE)
        status = trouble("standard output", strerror(errno));
    return status;
}
