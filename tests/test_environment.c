/*
 * The floating-point environment: no call but those of services (d) and (j) depends on it, and of these no
 * refusal. Every other number is asked for as the program starts, and again with another rounding direction
 * and subnormal numbers flushed to zero. With mistake 61 the same is expected of the frequency and the phase
 * of service (d), with mistake 62 of its whole answer, with 63 and 64 of the angles of service (j) and of its
 * whole answer, which shows that the environment was changed.
 */
#include "../include/enfysgar.h"
#include "check.h"
#include "model.h"

#include <fenv.h>
#include <string.h>
#include <xmmintrin.h>

#define NUMBERS 141
#define FLUSH_TO_ZERO 0x8040u /* of results and of operands */

static const int directions[] = {FE_UPWARD, FE_DOWNWARD, FE_TOWARDZERO};

/* Three nutation rows: the days 20000, 50000 and 80000. */
static const uint8_t rows[ENFYS_ROWS_BYTES(3)] = {
    0x00, 0x33, 0x01, 0x00, 0x00, 0x4e, 0x20, 0x00, 0x00, 0x12, 0x34, 0xff, 0xff, 0xfe, 0x01, 0x00, 0x00,
    0x07, 0xd0, 0x00, 0x00, 0xc3, 0x50, 0xff, 0xfe, 0x79, 0x60, 0x00, 0x01, 0x2f, 0xd1, 0x00, 0x00, 0x00,
    0x03, 0x00, 0x01, 0x38, 0x80, 0x00, 0x01, 0x86, 0x9f, 0x00, 0x00, 0x00, 0x01, 0x00, 0x01, 0x86, 0xa0,
};

/* The numbers of an instant by the calls that give a whole answer; a record is read from `bytes`. */
static int whole_answers(int64_t day, uint64_t micros, const uint8_t bytes[ENFYS_RECORD_BYTES], uint64_t *number)
{
    int64_t i[10] = {0};
    uint64_t u[17] = {0};
    int32_t s[6] = {0};
    double tide[2] = {0.0, 0.0};
    int n = 0;

    number[n++] = enfys_date_of_day(day, &u[0], &u[1], &u[2]);
    number[n++] = enfys_day_of_date(u[0], u[1], u[2], &i[0]);
    number[n++] = enfys_instant(u[0], u[1], u[2], 23, 59, 59, micros % 1000000, &i[1], &u[3]);
    number[n++] = enfys_split(day, micros, &i[2], &u[4]);
    number[n++] = enfys_join(i[2], u[4], &i[3], &u[5]);
    number[n++] = enfys_tide(u[0], u[1], u[2], 23, 59, 59, micros % 1000000, 2, -1, 3, 0, 1, -2, &tide[0], &tide[1]);
    number[n++] = enfys_zonal(day, micros, &s[0], &s[1], &s[2]);
    number[n++] = enfys_nutation(day, micros, &i[4], &i[5], &u[6]);
    number[n++] = enfys_record_read(bytes, ENFYS_RECORD_BYTES, &i[6], &u[7], &s[3], &s[4], &s[5]);
    number[n++] = enfys_utc_to_tt(u[0], u[1], u[2], 23, 59, 59, micros % 1000000, &i[7], &u[8]);
    number[n++] = enfys_tt_to_utc(day, micros, &u[9], &u[10], &u[11], &u[12], &u[13], &u[14], &u[15]);
    number[n++] = enfys_nutation_rows(rows, sizeof rows, day, micros, &i[8], &i[9], &u[16]);
    for (int k = 0; k < 10; k++)
        number[n++] = (uint64_t)i[k];
    for (int k = 0; k < 17; k++)
        number[n++] = u[k];
    for (int k = 0; k < 6; k++)
        number[n++] = (uint64_t)s[k];
    for (int k = 0; k < 2; k++)
        number[n++] = MISTAKE(62, 0, bits_of(tide[k]));
    return n;
}

/* The numbers of an instant in UTC, and those of a UTC time of its date: instant, frequency and phase. */
static int utc(int64_t day, uint64_t micros, uint64_t year, uint64_t month, uint64_t date, uint64_t *number)
{
    double tide[2];
    int n = 0;

    number[n++] = (uint64_t)enfys_utc_to_tt_day(year, month, date, 23, 59, 59, micros % 1000000);
    number[n++] = enfys_utc_to_tt_micros(year, month, date, 23, 59, 59, micros % 1000000);
    number[n++] = enfys_utc_to_tt_refusal(year, month, date, 23, 59, 59, micros % 1000000);
    number[n++] = enfys_tt_to_utc_year(day, micros);
    number[n++] = enfys_tt_to_utc_month(day, micros);
    number[n++] = enfys_tt_to_utc_day_of_month(day, micros);
    number[n++] = enfys_tt_to_utc_hour(day, micros);
    number[n++] = enfys_tt_to_utc_minute(day, micros);
    number[n++] = enfys_tt_to_utc_second(day, micros);
    number[n++] = enfys_tt_to_utc_microsecond(day, micros);
    number[n++] = enfys_tt_to_utc_refusal(day, micros);
    number[n++] = enfys_tide_refusal(year, month, date, 23, 59, 59, micros % 1000000, 2, -1, 3, 0, 1, -2);
    tide[0] = enfys_tide_frequency(year, month, date, 23, 59, 59, micros % 1000000, 2, -1, 3, 0, 1, -2);
    tide[1] = enfys_tide_phase(year, month, date, 23, 59, 59, micros % 1000000, 2, -1, 3, 0, 1, -2);
    for (int k = 0; k < 2; k++)
        number[n++] = MISTAKE(61, 0, bits_of(tide[k]));
    return n;
}

/*
 * The angles of a day of the year, each by itself and by the call that gives all; and the refusal of one whose bits are
 * those of micros, so that it is subnormal or anything. The first is from 0.5 to 512, made of whole numbers.
 */
static int angles(uint64_t year, uint64_t micros, uint64_t *number)
{
    const double day = of_bits(0x3fe0000000000000 + micros * 0x9e3779b97f4a7c15 % (UINT64_C(10) << 52));
    double angle[2 * ENFYS_ANGLES] = {0.0};
    int n = 0;

    number[n++] = enfys_schwiderski_refusal(year, of_bits(micros));
    number[n++] = enfys_schwiderski_refusal(year, day);
    number[n++] = enfys_schwiderski(year, day, angle);
    angle[11] = enfys_schwiderski_m2(year, day);
    angle[12] = enfys_schwiderski_s2(year, day);
    angle[13] = enfys_schwiderski_n2(year, day);
    angle[14] = enfys_schwiderski_k2(year, day);
    angle[15] = enfys_schwiderski_k1(year, day);
    angle[16] = enfys_schwiderski_o1(year, day);
    angle[17] = enfys_schwiderski_p1(year, day);
    angle[18] = enfys_schwiderski_q1(year, day);
    angle[19] = enfys_schwiderski_mf(year, day);
    angle[20] = enfys_schwiderski_mm(year, day);
    angle[21] = enfys_schwiderski_ssa(year, day);
    for (int i = 0; i < ENFYS_ANGLES; i++) {
        number[n++] = MISTAKE(64, 0, bits_of(angle[i]));
        number[n++] = MISTAKE(63, 0, bits_of(angle[ENFYS_ANGLES + i]));
    }
    return n;
}

/* What is rescued from a run's bytes without the first: a record that is cut and a whole one. Bytes are one sum. */
static int rescued(const uint8_t *run, size_t length, uint64_t *number)
{
    uint8_t kept[2 * ENFYS_RECORD_BYTES] = {0}, ranges[2 * ENFYS_RESCUE_RANGE_BYTES] = {0};
    uint64_t sum = 0;
    int n = 0;

    number[n++] = enfys_rescue(run + 1, length - 1, kept, sizeof kept, ranges, sizeof ranges);
    for (size_t i = 0; i < sizeof kept; i++)
        sum = sum * 257 + kept[i];
    for (size_t i = 0; i < sizeof ranges; i++)
        sum = sum * 257 + ranges[i];
    number[n++] = sum;
    number[n++] = enfys_rescue_kept(run + 1, length - 1, sizeof kept, sizeof ranges);
    number[n++] = enfys_rescue_ranges(run + 1, length - 1, sizeof kept, sizeof ranges);
    number[n++] = enfys_rescue_passed(run + 1, length - 1, sizeof kept, sizeof ranges);
    number[n++] = enfys_rescue_refusal(run + 1, length - 1, sizeof kept, sizeof ranges);
    return n;
}

/*
 * What differs between a run's first record and a file of two: a record of the same instant with other numbers, and the
 * run's second. The list is one sum.
 */
static int compared(const uint8_t *run, const uint8_t *first, uint64_t *number)
{
    uint8_t file[2 * ENFYS_RECORD_BYTES], list[2 * ENFYS_COMPARE_ENTRY_BYTES] = {0};
    int n = 0;

    memcpy(file, first, ENFYS_RECORD_BYTES);
    memcpy(file + ENFYS_RECORD_BYTES, run + ENFYS_RECORD_BYTES, ENFYS_RECORD_BYTES);
    number[n++] = enfys_compare(run, ENFYS_RECORD_BYTES, file, sizeof file, list, sizeof list);
    number[n] = 0;
    for (size_t i = 0; i < sizeof list; i++)
        number[n] = number[n] * 257 + list[i];
    n++;
    number[n++] = enfys_compare_entries(run, ENFYS_RECORD_BYTES, file, sizeof file, sizeof list);
    number[n++] = enfys_compare_refusal(run, ENFYS_RECORD_BYTES, file, sizeof file, sizeof list);
    return n;
}

/* The numbers of an instant, and how many there are. A run's records are taken as one sum. */
static int answers(int64_t day, uint64_t micros, uint64_t number[NUMBERS])
{
    uint8_t run[2 * ENFYS_RECORD_BYTES] = {0}, first[ENFYS_RECORD_BYTES];
    uint64_t year = enfys_day_to_year(day), month = enfys_day_to_month(day), date = enfys_day_to_day_of_month(day);
    uint64_t time = enfys_split_time_word(day, micros), sum = 0;
    int n = 0;

    number[n++] = year * 10000 + month * 100 + date;
    number[n++] = enfys_day_refusal(day);
    number[n++] = (uint64_t)enfys_date_to_day(year, month, date);
    number[n++] = enfys_date_refusal(year, month, date);
    number[n++] = (uint64_t)enfys_instant_day(year, month, date, 23, 59, 59, micros % 1000000);
    number[n++] = enfys_instant_micros(year, month, date, 23, 59, 59, micros % 1000000);
    number[n++] = enfys_instant_refusal(year, month, date, 23, 59, 59, micros % 1000000);
    number[n++] = (uint64_t)enfys_split_day_word(day, micros);
    number[n++] = time;
    number[n++] = enfys_split_refusal(day, micros);
    number[n++] = (uint64_t)enfys_join_day(day, time);
    number[n++] = enfys_join_micros(day, time);
    number[n++] = enfys_join_refusal(day, time);
    number[n++] = (uint64_t)enfys_zonal_ut1(day, micros);
    number[n++] = (uint64_t)enfys_zonal_lod(day, micros);
    number[n++] = (uint64_t)enfys_zonal_rate(day, micros);
    number[n++] = enfys_zonal_refusal(day, micros);
    number[n++] = (uint64_t)enfys_nutation_x(day, micros);
    number[n++] = (uint64_t)enfys_nutation_y(day, micros);
    number[n++] = enfys_nutation_uncertainty(day, micros);
    number[n++] = enfys_nutation_refusal(day, micros);
    number[n++] = enfys_nutation_probes(day, micros);
    number[n++] = (uint64_t)enfys_nutation_rows_x(rows, sizeof rows, day, micros);
    number[n++] = (uint64_t)enfys_nutation_rows_y(rows, sizeof rows, day, micros);
    number[n++] = enfys_nutation_rows_uncertainty(rows, sizeof rows, day, micros);
    number[n++] = enfys_nutation_rows_refusal(rows, sizeof rows, day, micros);
    number[n++] = enfys_nutation_rows_probes(rows, sizeof rows, day, micros);
    number[n++] = enfys_run_write(day, micros, 2, 900000000, run, sizeof run);
    for (size_t i = 0; i < sizeof run; i++)
        sum = sum * 257 + run[i];
    number[n++] = sum;
    memcpy(first, run, sizeof first);
    number[n++] = enfys_record_write(day, micros, 1, -1, 0, run, sizeof run);
    number[n++] = (uint64_t)enfys_record_day(run, sizeof run);
    number[n++] = enfys_record_micros(run, sizeof run);
    number[n++] = (uint64_t)enfys_record_ut1(run, sizeof run) ^ (uint64_t)enfys_record_lod(run, sizeof run) << 20;
    number[n++] = (uint64_t)enfys_record_rate(run, sizeof run);
    number[n++] = enfys_record_refusal(run, sizeof run);
    n += rescued(run, sizeof run, number + n);
    n += compared(run, first, number + n);
    n += utc(day, micros, year, month, date, number + n);
    n += angles(year, micros, number + n);
    return n + whole_answers(day, micros, run, number + n);
}

static void compare(int64_t day, uint64_t micros)
{
    uint64_t first[NUMBERS], again[NUMBERS];
    int n = answers(day, micros, first);

    for (int d = 0; d < 3; d++) {
        unsigned before = _mm_getcsr();

        fesetround(directions[d]);
        _mm_setcsr(_mm_getcsr() | FLUSH_TO_ZERO);
        answers(day, micros, again);
        _mm_setcsr(before);
        fesetround(FE_TONEAREST);
        for (int i = 0; i < n; i++)
            SAME_U(again[i], first[i], "number %d, direction %d, day %" PRId64 ", micros %" PRIu64, i, d, day, micros);
    }
}

int main(int argc, char **argv)
{
    begin("environment", argc, argv);
    SAME_U(enfys_nutation_rows_refusal(rows, sizeof rows, 50000, 0), 0, "the three rows");
    for (int i = 0; i < 20000; i++)
        compare(some_day(), some_micros());
    return end(NULL);
}
