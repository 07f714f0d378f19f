/* What the benchmark times: the inputs, and the work that is done with each. */
#ifndef WORK_H
#define WORK_H

#include "../include/enfysgar.h"
#include "../tests/model.h"
#include "plain.h"
#include "plain_angles.h"
#include "plain_rows.h"
#include "work_compare.h"
#include "work_rescue.h"

#ifdef WITH_ERFA
#include <erfa.h>
#endif

#define INPUTS 4096
#define STEP 900000000
#define ROW_DAYS 4096

static struct instant at[INPUTS], utc_at[INPUTS]; /* the second has those of the readings */
/* Between the dates of the first and the last built-in row: in any order, and one after the other. */
static struct instant inside[INPUTS], onward[INPUTS];
static uint64_t reading[INPUTS][7];
static int64_t multiplier[INPUTS][6];
static struct {
    uint64_t year;
    double day;
} of_year[INPUTS]; /* days of a year */
static uint8_t record[INPUTS][30];
static uint8_t run[96 * 30];
static uint8_t rows_30[3 + 16 * 30], rows_200[3 + 16 * 200]; /* the built-in rows, and others through the whole range */

/* What is timed: one call, or one group of calls, for input i. It returns a number that depends on the answers. */
typedef double work(int i);

/* The thirteen numbers of input i that a phase is asked for with. */
#define TIDE_OF(i)                                                                                           \
    reading[i][0], reading[i][1], reading[i][2], reading[i][3], reading[i][4], reading[i][5], reading[i][6], \
        multiplier[i][0], multiplier[i][1], multiplier[i][2], multiplier[i][3], multiplier[i][4], multiplier[i][5]

static double constituent(int i)
{
    double frequency = 0.0, phase = 0.0;

    enfys_tide(TIDE_OF(i), &frequency, &phase);
    return frequency + phase;
}

static double constituent_plain(int i)
{
    double frequency = 0.0, phase = 0.0;

    tide_plain(TIDE_OF(i), &frequency, &phase);
    return frequency + phase;
}

static double phase(int i)
{
    return enfys_tide_phase(TIDE_OF(i));
}

static double phase_plain(int i)
{
    return tide_plain_phase(TIDE_OF(i));
}

/* What gives all angles: the library's call or plain C's. */
typedef uint32_t angles_call(uint64_t year, double day, double *angles);

__attribute__((always_inline)) static inline double angles_of(angles_call *call, int i)
{
    double angle[ENFYS_ANGLES] = {0.0};
    uint32_t refusal = call(of_year[i].year, of_year[i].day, angle);

    return refusal + angle[0] + angle[ENFYS_ANGLES - 1];
}

static double angles(int i)
{
    return angles_of(enfys_schwiderski, i);
}

static double angles_in_plain(int i)
{
    return angles_of(angles_plain, i);
}

static double corrections(int i)
{
    int32_t ut1 = 0, lod = 0, rate = 0;

    enfys_zonal(at[i].day, at[i].micros, &ut1, &lod, &rate);
    return (double)ut1 + lod + rate;
}

static double ut1(int i)
{
    return enfys_zonal_ut1(at[i].day, at[i].micros);
}

static double corrections_plain(int i)
{
    double number[3];

    model_zonal(at[i], number);
    return number[0] + number[1] + number[2];
}

static double offsets_at(struct instant when)
{
    int64_t x = 0, y = 0;
    uint64_t uncertainty = 0;

    enfys_nutation(when.day, when.micros, &x, &y, &uncertainty);
    return (double)x + (double)y;
}

static double offsets_plain_at(struct instant when)
{
    double offset[2];

    model_nutation(when, offset);
    return offset[0] + offset[1];
}

static double offsets(int i)
{
    return offsets_at(at[i]);
}

static double offsets_plain(int i)
{
    return offsets_plain_at(at[i]);
}

static double offsets_inside(int i)
{
    return offsets_at(inside[i]);
}

static double offsets_inside_plain(int i)
{
    return offsets_plain_at(inside[i]);
}

static double offsets_onward(int i)
{
    return offsets_at(onward[i]);
}

static double offsets_onward_plain(int i)
{
    return offsets_plain_at(onward[i]);
}

/* What gives the offsets with rows from bytes: the library's call or plain C's. */
typedef uint32_t rows_call(const uint8_t *rows, size_t length, int64_t day, uint64_t micros, int64_t *x, int64_t *y,
                           uint64_t *uncertainty);

__attribute__((always_inline)) static inline double offsets_of(rows_call *call, const uint8_t *rows, size_t length,
                                                               int i)
{
    int64_t x = 0, y = 0;
    uint64_t uncertainty = 0;
    uint32_t refusal = call(rows, length, at[i].day, at[i].micros, &x, &y, &uncertainty);

    return refusal + (double)x + (double)y;
}

static double offsets_30(int i)
{
    return offsets_of(enfys_nutation_rows, rows_30, sizeof rows_30, i);
}

static double offsets_30_plain(int i)
{
    return offsets_of(nutation_plain_rows, rows_30, sizeof rows_30, i);
}

static double offsets_200(int i)
{
    return offsets_of(enfys_nutation_rows, rows_200, sizeof rows_200, i);
}

static double offsets_200_plain(int i)
{
    return offsets_of(nutation_plain_rows, rows_200, sizeof rows_200, i);
}

static double probes(int i)
{
    return (double)enfys_nutation_probes(inside[i].day, inside[i].micros);
}

__attribute__((noinline)) static double probes_plain(int i)
{
    if (instant_plain_refusal(inside[i].day, inside[i].micros) != 0)
        return 0;
    return (double)probes_plain_of(rows_30, sizeof rows_30, inside[i].day, inside[i].micros);
}

static double probes_200(int i)
{
    return (double)enfys_nutation_rows_probes(rows_200, sizeof rows_200, at[i].day, at[i].micros);
}

static double probes_200_plain(int i)
{
    return (double)probes_plain_rows(rows_200, sizeof rows_200, at[i].day, at[i].micros);
}

static double date(int i)
{
    uint64_t year = 0, month = 0, day = 0;

    enfys_date_of_day(at[i].day, &year, &month, &day);
    return (double)(year + month + day);
}

static double year(int i)
{
    return (double)enfys_day_to_year(at[i].day);
}

#ifdef WITH_ERFA
static uint32_t erfa_date_of_day(int64_t day, uint64_t *year, uint64_t *month, uint64_t *day_of_month)
{
    int y = 0, m = 0, d = 0, status;
    double fraction = 0.0;

    status = eraJd2cal(2400000.5, (double)day, &y, &m, &d, &fraction);
    *year = (uint64_t)y, *month = (uint64_t)m, *day_of_month = (uint64_t)d;
    return (uint32_t)status;
}

static double date_erfa(int i)
{
    uint64_t year = 0, month = 0, day = 0;

    erfa_date_of_day(at[i].day, &year, &month, &day);
    return (double)(year + month + day);
}
#endif

/* What gives the date of a day: the library's call, plain C's or ERFA's. */
typedef uint32_t date_call(int64_t day, uint64_t *year, uint64_t *month, uint64_t *day_of_month);

/* Days in a row, all of them accepted, each by a call. The refusal is added up too, so that it is needed. */
__attribute__((always_inline)) static inline double days_in_a_row(date_call *call, int i)
{
    const int64_t first = FIRST_DAY + at[i].day % (LAST_DAY - FIRST_DAY - ROW_DAYS);
    uint64_t year = 0, month = 0, day_of_month = 0, sum = 0;

    for (int64_t day = first; day < first + ROW_DAYS; day++) {
        sum += call(day, &year, &month, &day_of_month);
        sum += year + month + day_of_month;
    }
    return (double)sum;
}

static double dates(int i)
{
    return days_in_a_row(enfys_date_of_day, i);
}

static double dates_plain(int i)
{
    return days_in_a_row(date_plain_of_day, i);
}

#ifdef WITH_ERFA
static double dates_erfa(int i)
{
    return days_in_a_row(erfa_date_of_day, i);
}
#endif

static double written(int i)
{
    return enfys_record_write(at[i].day, at[i].micros, i, -i, 7 * i, record[i], 30);
}

static double written_plain(int i)
{
    struct record r = {at[i], {i, -i, 7 * i}};

    return model_write(&r, record[i], 30);
}

static double read_back(int i)
{
    int64_t day = 0;
    uint64_t micros = 0;
    int32_t ut1 = 0, lod = 0, rate = 0;
    uint32_t refusal = enfys_record_read(record[i], 30, &day, &micros, &ut1, &lod, &rate);

    return refusal + (double)day + (double)micros + ut1 + lod + rate;
}

static double read_back_plain(int i)
{
    struct record r;
    uint32_t refusal = model_read(record[i], 30, &r);

    return refusal + (double)r.at.day + (double)r.at.micros + r.number[0] + r.number[1] + r.number[2];
}

static double run_96(int i)
{
    return enfys_run_write(at[i].day, at[i].micros, 96, STEP, run, sizeof run);
}

static double run_96_plain(int i)
{
    double refusals = 0.0, number[3];

    for (uint64_t k = 0; k < 96; k++) {
        struct record r = {model_run_instant(at[i], k, STEP), {0, 0, 0}};

        model_zonal(r.at, number);
        for (int n = 0; n < 3; n++)
            r.number[n] = (int32_t)number[n];
        refusals += model_write(&r, run + 30 * k, 30);
    }
    return refusals;
}

static double date_plain(int i)
{
    struct date x = date_plain_of(at[i].day);

    return (double)(x.year + x.month + x.day);
}

static double utc_to_tt(int i)
{
    const uint64_t *f = reading[i];
    int64_t day = 0;
    uint64_t micros = 0;
    uint32_t refusal = enfys_utc_to_tt(f[0], f[1], f[2], f[3], f[4], f[5], f[6], &day, &micros);

    return refusal + (double)day + (double)micros;
}

static double utc_to_tt_plain(int i)
{
    struct instant tt = {0, 0};
    uint32_t refusal = utc_plain_to_tt(reading[i], &tt);

    return refusal + (double)tt.day + (double)tt.micros;
}

static double tt_to_utc(int i)
{
    uint64_t f[7] = {0};
    uint32_t refusal = enfys_tt_to_utc(utc_at[i].day, utc_at[i].micros, f, f + 1, f + 2, f + 3, f + 4, f + 5, f + 6);

    return refusal + (double)(f[0] + f[1] + f[2] + f[3] + f[4] + f[5] + f[6]);
}

static double tt_to_utc_plain(int i)
{
    uint64_t f[7] = {0};
    uint32_t refusal = tt_plain_to_utc(utc_at[i], f);

    return refusal + (double)(f[0] + f[1] + f[2] + f[3] + f[4] + f[5] + f[6]);
}

#ifdef WITH_ERFA
static double utc_to_tt_erfa(int i)
{
    const uint64_t *f = reading[i];
    double x = 0.0, y = 0.0;

    eraDtf2d("UTC", (int)f[0], (int)f[1], (int)f[2], (int)f[3], (int)f[4], (double)f[5] + 1e-6 * (double)f[6], &x, &y);
    eraUtctai(x, y, &x, &y);
    eraTaitt(x, y, &x, &y);
    return x + y;
}

static double tt_to_utc_erfa(int i)
{
    double x = 2400000.5 + (double)utc_at[i].day, y = (double)utc_at[i].micros / 86400e6;
    int year = 0, month = 0, day = 0, f[4] = {0};

    eraTttai(x, y, &x, &y);
    eraTaiutc(x, y, &x, &y);
    eraD2dtf("UTC", 6, x, y, &year, &month, &day, f);
    return (double)(year + month + day + f[0] + f[1] + f[2] + f[3]);
}
#endif

#endif
