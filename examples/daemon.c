/*
 * How a daemon uses the library: it reads the two clock words of the unit, notices a torn read,
 * and gives corrections and offsets for that instant, and the phase for its UTC; and the same for UTC
 * times as an operator types them. Where the library has no UTC the unit goes on without a phase. Then come
 * the angles of the ocean tides for one date, what differs between two files of records, and at the end what
 * each refusal means. The clock and the operator here are made up; nothing of this file is part of the proved
 * product.
 *
 *     cc -O2 -Iinclude examples/daemon.c target/staticlib/libenfysgar.a -o daemon
 *     ./daemon ['2016-12-31 23:59:60.5' ..]
 */
#include <enfysgar.h>

#include <inttypes.h>
#include <stdio.h>
#include <string.h>

static const char *const meaning[] = {
    "answered",
    "year outside 1900..2100, for angles 1974..2100",
    "month outside 1..12",
    "no such day in that month",
    "no such hour",
    "no such minute",
    "no such second; 60 is for the leap seconds of UTC",
    "no such microsecond of a second",
    "day number outside 15020..88433",
    "microseconds of the day not below 86400000000",
    "clock words of different days: read them again",
    "Doodson multiplier outside -12..12",
    "buffer too short",
    "length field of the record not 30",
    "version of the record not 1",
    "byte 3 of the record not 0",
    "words of the record do not add up to 0: it is damaged",
    "number of records outside 1..96",
    "step outside 1..86400000000 microseconds",
    "UTC before 1972-01-01",
    "UTC beyond the leap-second table: update the library",
    "nutation rows: wrong length, or not 2 to 200 rows",
    "version of the nutation rows not 1",
    "day of a nutation row out of its limits or not rising",
    "uncertainty or amplitude of a row out of its limits",
    "more than 65536 bytes to rescue records from",
    "no such day of the year, or not a number",
    "record file: not of at most 2184 whole records",
    "record file: a record not later than the one before",
};

static const char *text(uint32_t refusal)
{
    return refusal < sizeof meaning / sizeof *meaning ? meaning[refusal] : "unknown to this program";
}

/* 1 where a call refused, and says why. */
static int refused(uint32_t refusal)
{
    if (refusal != ENFYS_OK)
        printf("  refused %" PRIu32 ": %s\n", refusal, text(refusal));
    return refusal != ENFYS_OK;
}

/*
 * The unit's clock, as the daemon sees it: two words of TT that are read one after the other. In this
 * example midnight passes during the first read, and the third is of a day when the list of leap seconds
 * has expired.
 */
struct words {
    int64_t day;
    uint64_t time;
};

static struct words read_clock(int read)
{
    /* 2007-12-31, four microseconds before midnight, and one microsecond after it; 2026-11-16, noon. */
    struct words before = {0, 0}, after = {0, 0}, late = {0, 0};

    enfys_split(54465, 86399999996, &before.day, &before.time);
    enfys_split(54466, 1, &after.day, &after.time);
    enfys_split(61360, 43200000000, &late.day, &late.time);
    return read == 1 ? (struct words){before.day, after.time} : read == 2 ? after : late;
}

static void show_bytes(const uint8_t *bytes, size_t length)
{
    for (size_t i = 0; i < length; i++)
        printf("%02X%s", bytes[i], i + 1 < length ? " " : "\n");
}

static int show_instant(int64_t day, uint64_t micros)
{
    uint64_t year, month, day_of_month, seconds = micros / 1000000;

    if (refused(enfys_date_of_day(day, &year, &month, &day_of_month)))
        return 1;
    printf("  TT %04" PRIu64 "-%02" PRIu64 "-%02" PRIu64 " %02" PRIu64 ":%02" PRIu64 ":%02" PRIu64 ".%06" PRIu64
           " (day %" PRId64 ", microsecond %" PRIu64 ")\n",
           year, month, day_of_month, seconds / 3600, seconds / 60 % 60, seconds % 60, micros % 1000000, day, micros);
    return 0;
}

/* A UTC reading f, and the phase of M2 then. */
static int show_utc_and_phase(const uint64_t f[7])
{
    double frequency, phase;

    printf("  UTC %04" PRIu64 "-%02" PRIu64 "-%02" PRIu64 " %02" PRIu64 ":%02" PRIu64 ":%02" PRIu64 ".%06" PRIu64 "\n",
           f[0], f[1], f[2], f[3], f[4], f[5], f[6]);
    if (refused(enfys_tide(f[0], f[1], f[2], f[3], f[4], f[5], f[6], 2, 0, 0, 0, 0, 0, &frequency, &phase)))
        return 1;
    printf("  M2 phase %.9f degrees, frequency %.12f cycles per day\n", phase, frequency);
    return 0;
}

/* Writes a record of an instant and its corrections, reads it back, and reads it with a bit changed. */
static int record_and_read(int64_t day, uint64_t micros, int32_t ut1, int32_t lod, int32_t rate)
{
    uint8_t record[ENFYS_RECORD_BYTES], run[ENFYS_RECORD_BYTES];
    int64_t d; /* what is read */
    uint64_t m;
    int32_t u, l, r;
    uint32_t refusal;

    if (refused(enfys_record_write(day, micros, ut1, lod, rate, record, sizeof record)) ||
        refused(enfys_run_write(day, micros, 1, 1, run, sizeof run)))
        return 1;
    if (memcmp(record, run, sizeof record) != 0) /* a run of one record is the same */
        return 1;
    printf("  record ");
    show_bytes(record, sizeof record);
    if (refused(enfys_record_read(record, sizeof record, &d, &m, &u, &l, &r)))
        return 1;
    printf("  read back:\n  ");
    if (show_instant(d, m) != 0)
        return 1;
    record[20] ^= 0x10;
    refusal = enfys_record_read(record, sizeof record, &d, &m, &u, &l, &r);
    printf("  with one bit changed: refused %" PRIu32 ", %s\n", refusal, text(refusal));
    return 0;
}

/* What the daemon gives for any instant. Each of these calls could refuse it, and all would say the same. */
static int serve(int64_t day, uint64_t micros)
{
    int32_t ut1, lod, rate;
    int64_t x, y;
    uint64_t uncertainty;

    if (refused(enfys_zonal(day, micros, &ut1, &lod, &rate)) ||
        refused(enfys_nutation(day, micros, &x, &y, &uncertainty)))
        return 1;
    printf("  zonal tides: UT1 %" PRId32 " ns, length of day %" PRId32 " ps, rate %" PRId32 "e-20 rad/s\n", ut1, lod,
           rate);
    printf("  nutation: X %" PRId64 " nas, Y %" PRId64 " nas, uncertainty %" PRIu64 " nas\n", x, y, uncertainty);
    return record_and_read(day, micros, ut1, lod, rate);
}

/*
 * What the unit gives for its clock: everything for the instant, and the phase for its UTC. There may be no UTC,
 * before 1972 and from the expiry of the list of leap seconds on; the rest does not need it.
 */
static int serve_clock(int64_t day, uint64_t micros)
{
    uint64_t f[7];

    if (show_instant(day, micros) != 0)
        return 1;
    if (refused(enfys_tt_to_utc(day, micros, &f[0], &f[1], &f[2], &f[3], &f[4], &f[5], &f[6])))
        printf("  no UTC, and no phase\n");
    else if (show_utc_and_phase(f) != 0)
        return 1;
    return serve(day, micros);
}

static int is_digit(char c)
{
    return c >= '0' && c <= '9';
}

/*
 * Takes a typed UTC time apart: "2016-12-31 23:59:60", and behind it nothing, or a point and one to six digits.
 * 0 where the text is anything else. Whether there is such a time is for the library to say.
 */
static int parse(const char *text, uint64_t field[7])
{
    static const char form[] = "0000-11-22 33:44:55"; /* a digit stands for a digit of that field */
    uint64_t unit = 100000;

    memset(field, 0, 7 * sizeof *field);
    for (const char *f = form; *f != '\0'; f++, text++) {
        if (is_digit(*f) ? !is_digit(*text) : *text != *f)
            return 0;
        if (is_digit(*f))
            field[*f - '0'] = 10 * field[*f - '0'] + (uint64_t)(*text - '0');
    }
    if (*text == '\0')
        return 1;
    if (*text++ != '.')
        return 0;
    for (; is_digit(*text) && unit > 0; text++, unit /= 10)
        field[6] += unit * (uint64_t)(*text - '0');
    return *text == '\0' && unit < 100000;
}

/* What an operator gets for a UTC time: the phase for the reading as it was typed, the rest for its instant. */
static int serve_typed(const char *text)
{
    uint64_t f[7], micros;
    int64_t day;

    printf("typed \"%s\"\n", text);
    if (!parse(text, f)) {
        printf("  bad line\n");
        return 0;
    }
    if (refused(enfys_utc_to_tt(f[0], f[1], f[2], f[3], f[4], f[5], f[6], &day, &micros)))
        return 0;
    if (show_instant(day, micros) != 0 || show_utc_and_phase(f) != 0)
        return 1;
    return serve(day, micros);
}

/*
 * Schwiderski's angles at a date and a time of day. The days of the year are counted by day numbers; the first begins
 * with 1.0.
 */
static int show_angles(uint64_t year, uint64_t month, uint64_t day_of_month, uint64_t hour, uint64_t minute)
{
    static const char *const name[ENFYS_ANGLES] = {"M2", "S2", "N2", "K2", "K1", "O1", "P1", "Q1", "Mf", "Mm", "Ssa"};
    const int64_t days = enfys_date_to_day(year, month, day_of_month) - enfys_date_to_day(year, 1, 1);
    const double day = 1.0 + (double)days + (double)(60 * hour + minute) / 1440.0;
    double angle[ENFYS_ANGLES];

    printf("angles at day %.3f of %" PRIu64 ", in radians\n", day, year);
    if (refused(enfys_date_refusal(year, month, day_of_month)) || refused(enfys_schwiderski(year, day, angle)))
        return 1;
    for (int i = 0; i < ENFYS_ANGLES; i++)
        printf("  %-3s %.12f%s", name[i], angle[i], i % 4 == 3 || i + 1 == ENFYS_ANGLES ? "\n" : "");
    return 0;
}

static uint64_t number(const uint8_t *at, int size)
{
    uint64_t n = 0;

    for (int i = 0; i < size; i++)
        n = n << 8 | at[i];
    return n;
}

/* What differs between a run and another that lacks its last record and has two numbers changed in the one before. */
static int show_comparison(void)
{
    static const char *const side[] = {"", "first file only", "second file only", "both files"};
    uint8_t first[3 * ENFYS_RECORD_BYTES], second[2 * ENFYS_RECORD_BYTES], list[2 * ENFYS_COMPARE_ENTRY_BYTES];
    uint8_t *changed = second + ENFYS_RECORD_BYTES;
    int64_t day;
    uint64_t micros, entries;
    int32_t ut1, lod, rate;

    if (refused(enfys_run_write(54465, 0, 3, 900000000, first, sizeof first)) ||
        refused(enfys_run_write(54465, 0, 2, 900000000, second, sizeof second)) ||
        refused(enfys_record_read(changed, ENFYS_RECORD_BYTES, &day, &micros, &ut1, &lod, &rate)) ||
        refused(enfys_record_write(day, micros, ut1 + 2, lod, rate - 1, changed, ENFYS_RECORD_BYTES)) ||
        refused(enfys_compare(first, sizeof first, second, sizeof second, list, sizeof list)))
        return 1;
    entries = enfys_compare_entries(first, sizeof first, second, sizeof second, sizeof list);
    printf("two files of records differ at %" PRIu64 " instants\n", entries);
    for (const uint8_t *at = list; at < list + ENFYS_COMPARE_ENTRY_BYTES * entries; at += ENFYS_COMPARE_ENTRY_BYTES) {
        if (show_instant((int64_t)number(at + 1, 4), number(at + 5, 8)) != 0)
            return 1;
        printf("  %s: UT1 %" PRId64 " ns, length of day %" PRId64 " ps, rate %" PRId64 "e-20 rad/s\n", side[at[0] & 3],
               (int64_t)number(at + 13, 8), (int64_t)number(at + 21, 8), (int64_t)number(at + 29, 8));
    }
    return 0;
}

static void show(uint32_t refusal, const char *call)
{
    printf("  %2" PRIu32 "  %-54s %s\n", refusal, text(refusal), call);
}

/* A call for each refusal of nutation rows. */
static void show_refusals_of_rows(void)
{
    /* The days 50000 and 50001, XC and XS 1 and 2 hundredths of a microarcsecond, uncertainty 3. */
    static const uint8_t good[ENFYS_ROWS_BYTES(2)] = {
        0x00, 0x23, 0x01, 0x00, 0x00, 0xC3, 0x50, 0x00, 0x00, 0x00, 0x01, 0x00, 0x00, 0x00, 0x02, 0x00, 0x00, 0x00,
        0x03, 0x00, 0x00, 0xC3, 0x51, 0x00, 0x00, 0x00, 0x01, 0x00, 0x00, 0x00, 0x02, 0x00, 0x00, 0x00, 0x03,
    };
    uint8_t rows[4][sizeof good];

    for (int i = 0; i < 4; i++)
        memcpy(rows[i], good, sizeof good);
    rows[0][1] = 36;
    rows[1][2] = 2;
    rows[2][22] = 0x50;
    rows[3][34] = 0;
    show(enfys_nutation_rows_refusal(rows[0], sizeof good, 50000, 0), "rows that say they have 36 bytes");
    show(enfys_nutation_rows_refusal(rows[1], sizeof good, 50000, 0), "rows of version 2");
    show(enfys_nutation_rows_refusal(rows[2], sizeof good, 50000, 0), "two rows of one day");
    show(enfys_nutation_rows_refusal(rows[3], sizeof good, 50000, 0), "a row with uncertainty 0");
}

/* A call for each refusal. */
static void show_refusals(void)
{
    static const uint8_t image[ENFYS_RESCUE_MOST + 1];
    uint8_t record[ENFYS_RECORD_BYTES], run[ENFYS_RUN_RECORDS * ENFYS_RECORD_BYTES], damaged[4][ENFYS_RECORD_BYTES];
    uint8_t twice[2 * ENFYS_RECORD_BYTES];

    enfys_record_write(54465, 0, 1, -1, 0, record, sizeof record);
    memcpy(twice, record, sizeof record);
    memcpy(twice + sizeof record, record, sizeof record);
    for (int i = 0; i < 4; i++)
        memcpy(damaged[i], record, sizeof record);
    damaged[0][1] = 31;
    damaged[1][2] = 2;
    damaged[2][3] = 1;
    damaged[3][29] ^= 1;
    show(enfys_date_refusal(2000, 2, 29), "the date 2000-02-29");
    show(enfys_date_refusal(2101, 1, 1), "the date 2101-01-01");
    show(enfys_schwiderski_refusal(1973, 1.0), "angles in 1973");
    show(enfys_date_refusal(2000, 13, 1), "the date 2000-13-01");
    show(enfys_date_refusal(2100, 2, 29), "the date 2100-02-29");
    show(enfys_instant_refusal(2000, 1, 1, 24, 0, 0, 0), "24:00:00");
    show(enfys_instant_refusal(2000, 1, 1, 23, 60, 0, 0), "23:60:00");
    show(enfys_instant_refusal(2000, 1, 1, 23, 59, 60, 0), "23:59:60 in TT");
    show(enfys_instant_refusal(2000, 1, 1, 23, 59, 59, 1000000), "23:59:59 and 1000000 microseconds");
    show(enfys_zonal_refusal(88434, 0), "corrections for day 88434");
    show(enfys_zonal_refusal(88433, ENFYS_DAY_MICROS), "corrections at the 86400000000th microsecond");
    show(enfys_join_refusal(54465, 2 * UINT64_C(137438953472)), "a day word and the next day's time word");
    show(enfys_tide_refusal(2009, 6, 25, 0, 0, 0, 0, 2, 0, 0, 0, 0, 13), "a phase with the multiplier 13");
    show(enfys_record_refusal(record, 29), "reading 29 bytes");
    show(enfys_record_refusal(damaged[0], sizeof record), "a record that says it has 31 bytes");
    show(enfys_record_refusal(damaged[1], sizeof record), "a record of version 2");
    show(enfys_record_refusal(damaged[2], sizeof record), "a record whose byte 3 is 1");
    show(enfys_record_refusal(damaged[3], sizeof record), "a record with a wrong sum");
    show(enfys_run_write(54465, 0, 97, 900000000, run, sizeof run), "a run of 97 records");
    show(enfys_run_write(54465, 0, 96, 0, run, sizeof run), "a run with a step of 0");
    show(enfys_utc_to_tt_refusal(1971, 12, 31, 23, 59, 59, 0), "UTC 1971-12-31 23:59:59");
    show(enfys_tt_to_utc_refusal(ENFYS_UTC_EXPIRY_DAY + 1, 0), "UTC of day 60855");
    show_refusals_of_rows();
    show(enfys_rescue_refusal(image, sizeof image, ENFYS_RESCUE_RECORDS_BYTES, ENFYS_RESCUE_RANGES_BYTES),
         "rescuing from 65537 bytes");
    show(enfys_schwiderski_refusal(2100, 366.0), "angles on day 366 of 2100");
    show(enfys_compare_refusal(record, sizeof record, record, 29, 0), "comparing with a file of 29 bytes");
    show(enfys_compare_refusal(record, sizeof record, twice, sizeof twice, 0), "with a file of an instant twice");
}

int main(int argc, char **argv)
{
    static const char *const typed[] = {
        "2009-06-25 00:00:00", "2016-12-31 23:59:60.5", "2016-06-30 23:59:60",         "1971-12-31 23:59:59.999999",
        "2025-06-28 00:00:00", "2009-06-25 0:00",       "2009-06-25 00:00:00.1234567",
    };

    for (int read = 1; read <= 3; read++) {
        struct words words = read_clock(read);
        int64_t day;
        uint64_t micros;
        uint32_t refusal = enfys_join(words.day, words.time, &day, &micros);

        printf("clock words %" PRId64 " and %" PRIu64 "\n", words.day, words.time);
        if (refused(refusal)) {
            if (refusal == ENFYS_WORDS_DISAGREE)
                continue;
            return 1;
        }
        if (serve_clock(day, micros) != 0)
            return 1;
    }
    for (size_t i = 0; i < sizeof typed / sizeof *typed; i++)
        if (serve_typed(typed[i]) != 0)
            return 1;
    for (int i = 1; i < argc; i++)
        if (serve_typed(argv[i]) != 0)
            return 1;
    if (show_angles(2008, 11, 6, 12, 0) != 0 || show_comparison() != 0)
        return 1;
    printf("what each refusal means, and a call that gives it\n");
    show_refusals();
    return 0;
}
