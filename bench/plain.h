/*
 * Dates and UTC in plain C that is written for speed, and phases by it, for the benchmark to time the library
 * beside.
 */
#ifndef PLAIN_H
#define PLAIN_H

#include "../tests/model.h"

/*
 * The year, month and day of a day number by whole-number arithmetic on years that start in March. 32 bits are enough
 * for every accepted day.
 */
static struct date date_plain_of(int64_t day)
{
    uint32_t z = (uint32_t)(day + 678881);
    uint32_t era = z / 146097, of_era = z % 146097;
    uint32_t year_of_era = (of_era - of_era / 1460 + of_era / 36524 - of_era / 146096) / 365;
    uint32_t of_year = of_era - (365 * year_of_era + year_of_era / 4 - year_of_era / 100);
    uint32_t month_from_march = (5 * of_year + 2) / 153;
    uint32_t month = month_from_march < 10 ? month_from_march + 3 : month_from_march - 9;

    return (struct date){era * 400 + year_of_era + (month <= 2), month, of_year - (153 * month_from_march + 2) / 5 + 1};
}

/* The same in one call of its own, with the parameters and the refusal that the library's has. */
__attribute__((noinline, flatten)) static uint32_t date_plain_of_day(int64_t day, uint64_t *year, uint64_t *month,
                                                                     uint64_t *day_of_month)
{
    struct date x;

    if (day < FIRST_DAY || day > LAST_DAY)
        return 8;
    x = date_plain_of(day);
    *year = x.year, *month = x.month, *day_of_month = x.day;
    return 0;
}

/* The day number of a date, in the same way. */
static int64_t day_plain_of(uint64_t year, uint64_t month, uint64_t day)
{
    uint64_t y = year - (month <= 2), era = y / 400, of_era = y % 400;
    uint64_t of_year = (153 * (month > 2 ? month - 3 : month + 9) + 2) / 5 + day - 1;

    return (int64_t)(era * 146097 + of_era * 365 + of_era / 4 - of_era / 100 + of_year) - 678881;
}

/* The steps of TAI - UTC, 10 s at the first and 1 s more at each: the day, and the second of TAI. */
#define STEPS 28
#define EXPIRY 60854
#define EACH_STEP(X)                                                                                                \
    X(41317, 10), X(41499, 11), X(41683, 12), X(42048, 13), X(42413, 14), X(42778, 15), X(43144, 16), X(43509, 17), \
        X(43874, 18), X(44239, 19), X(44786, 20), X(45151, 21), X(45516, 22), X(46247, 23), X(47161, 24),           \
        X(47892, 25), X(48257, 26), X(48804, 27), X(49169, 28), X(49534, 29), X(50083, 30), X(50630, 31),           \
        X(51179, 32), X(53736, 33), X(54832, 34), X(56109, 35), X(57204, 36), X(57754, 37)
#define STEP_DAY(day, seconds) day
#define STEP_TAI(day, seconds) INT64_C(86400) * day + seconds
static const int64_t step_day[STEPS] = {EACH_STEP(STEP_DAY)}, step_tai[STEPS] = {EACH_STEP(STEP_TAI)};

/* How many of the steps are at x or before it; the newest are looked at first. */
static int64_t steps_to(const int64_t step[STEPS], int64_t x)
{
    int64_t count = STEPS;

    while (count > 0 && step[count - 1] > x)
        count--;
    return count;
}

static uint32_t utc_plain_to_tt(const uint64_t f[7], struct instant *tt)
{
    static const uint8_t length[12] = {31, 28, 31, 30, 31, 30, 31, 31, 30, 31, 30, 31};
    int64_t day, steps;
    uint64_t micros;

    if (f[0] < 1900 || f[0] > 2100)
        return 1;
    if (f[1] < 1 || f[1] > 12)
        return 2;
    if (f[2] < 1 || f[2] > length[f[1] - 1] + (uint64_t)(f[1] == 2 && f[0] % 4 == 0 && (f[0] % 100 || f[0] % 400 == 0)))
        return 3;
    if (f[3] > 23)
        return 4;
    if (f[4] > 59)
        return 5;
    day = day_plain_of(f[0], f[1], f[2]);
    steps = steps_to(step_day, day);
    if (f[5] > 59 &&
        (f[5] > 60 || f[3] < 23 || f[4] < 59 || steps == 0 || steps == STEPS || step_day[steps] != day + 1))
        return 6;
    if (f[6] > 999999)
        return 7;
    if (steps == 0)
        return 19;
    if (day >= EXPIRY)
        return 20;
    micros = (3600 * f[3] + 60 * f[4] + f[5] + 9 + (uint64_t)steps) * 1000000 + f[6] + 32184000;
    *tt = (struct instant){day + (micros >= DAY_MICROS), micros - (micros >= DAY_MICROS ? DAY_MICROS : 0)};
    return 0;
}

static uint32_t tt_plain_to_utc(struct instant tt, uint64_t f[7])
{
    int64_t tai, second, steps;
    struct date x;
    int leap;

    if (tt.day < FIRST_DAY || tt.day > LAST_DAY)
        return 8;
    if (tt.micros >= DAY_MICROS)
        return 9;
    tai = tt.day * (int64_t)DAY_MICROS + (int64_t)tt.micros - 32184000;
    second = tai / 1000000;
    steps = steps_to(step_tai, second);
    second -= 9 + steps;
    if (steps == 0)
        return 19;
    if (second >= INT64_C(86400) * EXPIRY)
        return 20;
    leap = steps < STEPS && second == 86400 * step_day[steps];
    second -= leap;
    x = date_plain_of(second / 86400);
    f[0] = x.year, f[1] = x.month, f[2] = x.day;
    f[3] = (uint64_t)(second % 86400 / 3600), f[4] = (uint64_t)(second % 3600 / 60);
    f[5] = (uint64_t)(second % 60 + leap), f[6] = (uint64_t)(tai % 1000000);
    return 0;
}

/* The microseconds since 0 h UTC of an accepted reading. */
static uint64_t utc_plain_micros(const uint64_t f[7])
{
    return (3600 * f[3] + 60 * f[4] + f[5]) * 1000000 + f[6];
}

/*
 * Frequency and phase for a reading: accepted and turned to TT as above, the expressions as in the model. Each is a
 * call of its own, with the parameters that the library's has.
 */
#define TIDE_PARAMETERS                                                                           \
    uint64_t year, uint64_t month, uint64_t day, uint64_t hour, uint64_t minute, uint64_t second, \
        uint64_t microsecond, int64_t k1, int64_t k2, int64_t k3, int64_t k4, int64_t k5, int64_t k6
#define TIDE_ARRAYS                                                              \
    const uint64_t f[7] = {year, month, day, hour, minute, second, microsecond}; \
    const int64_t k[6] = {k1, k2, k3, k4, k5, k6}

__attribute__((noinline)) static uint32_t tide_plain(TIDE_PARAMETERS, double *frequency, double *phase)
{
    TIDE_ARRAYS;
    struct instant tt;
    uint32_t refusal = utc_plain_to_tt(f, &tt);

    if (refusal == 0)
        refusal = model_multipliers(k);
    if (refusal == 0) {
        *frequency = model_frequency(tt, k);
        *phase = model_phase(tt, utc_plain_micros(f), k);
    }
    return refusal;
}

__attribute__((noinline)) static double tide_plain_phase(TIDE_PARAMETERS)
{
    TIDE_ARRAYS;
    struct instant tt;

    return utc_plain_to_tt(f, &tt) || model_multipliers(k) ? 0.0 : model_phase(tt, utc_plain_micros(f), k);
}

#endif
