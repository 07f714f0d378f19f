/*
 * show_records: reads records from standard input, as run_day writes them, and prints them as a
 * table. It is an example of reading records and not part of the proved product.
 */
#include <enfysgar.h>

#include <inttypes.h>
#include <stdio.h>

/* Prints one record, unless reading it is refused. */
static uint32_t show(const uint8_t *record)
{
    int64_t day;
    uint64_t micros, year, month, day_of_month;
    int32_t ut1, lod, rate;
    uint32_t refusal = enfys_record_read(record, ENFYS_RECORD_BYTES, &day, &micros, &ut1, &lod, &rate);

    if (refusal == ENFYS_OK)
        refusal = enfys_date_of_day(day, &year, &month, &day_of_month);
    if (refusal != ENFYS_OK)
        return refusal;

    uint64_t seconds = micros / 1000000;

    printf("%04" PRIu64 "-%02" PRIu64 "-%02" PRIu64 " %02" PRIu64 ":%02" PRIu64 ":%02" PRIu64 ".%06" PRIu64
           " %12" PRId32 " %14" PRId32 " %18" PRId32 "\n",
           year, month, day_of_month, seconds / 3600, seconds / 60 % 60, seconds % 60, micros % 1000000, ut1, lod,
           rate);
    return ENFYS_OK;
}

int main(void)
{
    uint8_t bytes[ENFYS_RUN_RECORDS * ENFYS_RECORD_BYTES + 1];
    size_t length = fread(bytes, 1, sizeof bytes, stdin), at;

    if (length > 0 && (bytes[0] == 'r' || bytes[0] == 'b')) { /* "refused N" or "bad line" */
        fwrite(bytes, 1, length, stdout);
        return 1;
    }
    printf("%-26s %12s %14s %18s\n", "date and time (TT)", "UT1, ns", "day length, ps", "rate, 1e-20 rad/s");
    for (at = 0; at + ENFYS_RECORD_BYTES <= length; at += ENFYS_RECORD_BYTES) {
        uint32_t refusal = show(bytes + at);

        if (refusal != ENFYS_OK) {
            fprintf(stderr, "show_records: no record at byte %zu (refusal %" PRIu32 ")\n", at, refusal);
            return 1;
        }
    }
    if (at != length || length == 0) {
        fprintf(stderr, "show_records: the input is not a run of at most %d records\n", ENFYS_RUN_RECORDS);
        return 1;
    }
    printf("%zu records. This table is not part of the proved product.\n", at / ENFYS_RECORD_BYTES);
    return 0;
}
