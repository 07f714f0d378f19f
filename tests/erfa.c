/*
 * Dates and UTC beside ERFA, which works in binary64: dates and readings have to be the same, instants the same
 * within a nanosecond. Where ERFA warns of a second 60, ours has to refuse it. `tests/erfa` runs this.
 */
#include "../include/enfysgar.h"
#include "check.h"
#include "model.h"

#include <erfa.h>
#include <math.h>
#include <stdio.h>

#define MJD 2400000.5
#define AT "day %" PRId64 ", micros %" PRIu64, at.day, at.micros
#define NANOSECOND 0.001 /* in microseconds */

static uint64_t dates, readings, instants, ends;
static double farthest; /* of an instant, in microseconds */

static void date(int64_t day)
{
    uint64_t year = 0, month = 0, day_of_month = 0;
    int64_t back = 0;
    int y, m, d;
    double fraction, mjd0, mjd;

    SAME_I(eraJd2cal(MJD, (double)day, &y, &m, &d, &fraction), 0, "day %" PRId64, day);
    SAME_U(enfys_date_of_day(day, &year, &month, &day_of_month), 0, "day %" PRId64, day);
    SAME_U(year, (uint64_t)y, "day %" PRId64, day);
    SAME_U(month, (uint64_t)m, "day %" PRId64, day);
    SAME_U(day_of_month, (uint64_t)d, "day %" PRId64, day);
    SAME_I(eraCal2jd(y, m, d, &mjd0, &mjd), 0, "day %" PRId64, day);
    SAME_U(enfys_day_of_date(year, month, day_of_month, &back), 0, "day %" PRId64, day);
    SAME_I(back, (int64_t)mjd, "day %" PRId64, day);
    dates++;
}

/* ERFA's status for a reading, and its quasi-JD of UTC: 0 h, and the part of the day, which may have 86401 s. */
static int quasi_jd(const uint64_t f[7], double utc[2])
{
    return eraDtf2d("UTC", (int)f[0], (int)f[1], (int)f[2], (int)f[3], (int)f[4], (double)f[5] + (double)f[6] / 1e6,
                    &utc[0], &utc[1]);
}

/*
 * A reading that both answer. ERFA keeps 0 h of the UTC day as the first part of every sum, so the second is below
 * 1.001 and good to some 1e-16 of a day, 10 picoseconds.
 */
static void reading(const uint64_t f[7])
{
    double utc[2], tai[2], tt[2], difference;
    struct instant at = {0, 0};

    SAME_I(quasi_jd(f, utc), 0, FIELDS);
    SAME_I(eraUtctai(utc[0], utc[1], &tai[0], &tai[1]), 0, FIELDS);
    SAME_I(eraTaitt(tai[0], tai[1], &tt[0], &tt[1]), 0, FIELDS);
    SAME_U(enfys_utc_to_tt(SEVEN, &at.day, &at.micros), 0, FIELDS);
    difference = (tt[0] - MJD - (double)at.day) * (double)DAY_MICROS + (tt[1] * (double)DAY_MICROS - (double)at.micros);
    WITHIN(NANOSECOND, difference, 0.0, FIELDS);
    farthest = fmax(farthest, fabs(difference));
    readings++;
}

/* An instant that both answer; ERFA's reading is rounded to the microsecond. */
static void instant(struct instant at)
{
    double utc[2], tai[2];
    int y, m, d, time[4];
    uint64_t f[7] = {0};

    SAME_I(eraTttai(MJD + (double)at.day, (double)at.micros / (double)DAY_MICROS, &tai[0], &tai[1]), 0, AT);
    SAME_I(eraTaiutc(tai[0], tai[1], &utc[0], &utc[1]), 0, AT);
    SAME_I(eraD2dtf("UTC", 6, utc[0], utc[1], &y, &m, &d, time), 0, AT);
    SAME_U(enfys_tt_to_utc(at.day, at.micros, f, f + 1, f + 2, f + 3, f + 4, f + 5, f + 6), 0, AT);
    SAME_U(f[0], (uint64_t)y, AT);
    SAME_U(f[1], (uint64_t)m, AT);
    SAME_U(f[2], (uint64_t)d, AT);
    for (int i = 0; i < 4; i++)
        SAME_U(f[3 + i], (uint64_t)time[i], AT);
    instants++;
}

/* A reading, and its instant back. */
static void both(const uint64_t f[7])
{
    reading(f);
    instant((struct instant){enfys_utc_to_tt_day(SEVEN), enfys_utc_to_tt_micros(SEVEN)});
}

/* Second 60 at the end of a day: ours refuses it by 6 where ERFA warns (2). 1 where it does not warn. */
static int day_end(uint64_t f[7])
{
    double utc[2];
    int warned;

    f[3] = 23, f[4] = 59, f[5] = 60;
    warned = quasi_jd(f, utc) == 2;
    SAME_U(enfys_utc_to_tt_refusal(SEVEN), warned ? ENFYS_SECOND : ENFYS_OK, FIELDS);
    ends++;
    return !warned;
}

/* Each second around a leap second, and microseconds at the ends of the seconds. */
static void around(uint64_t f[7], int64_t day)
{
    static const uint64_t micro[] = {0, 1, 499999, 500000, 999998, 999999};

    for (int i = 0; i < 6; i++) {
        f[3] = 23, f[6] = micro[i];
        for (f[4] = 57; f[4] < 60; f[4]++)
            for (f[5] = 0; f[5] < 60 + (f[4] == 59); f[5]++)
                both(f);
        for (uint64_t second = 0; second < 200; second++)
            instant((struct instant){day + 1, second * 1000000 + micro[i]});
    }
}

int main(int argc, char **argv)
{
    uint64_t leaps = 0;
    char note[160];

    begin("erfa", argc, argv);
    for (int64_t day = FIRST_DAY; day <= LAST_DAY; day++)
        date(day);
    for (int64_t day = ENFYS_UTC_FIRST_DAY; day < ENFYS_UTC_EXPIRY_DAY; day++) {
        uint64_t f[7] = {enfys_day_to_year(day), enfys_day_to_month(day), enfys_day_to_day_of_month(day), 0, 0, 0, 0};

        both(f);
        f[3] = 23, f[4] = 59, f[5] = 59, f[6] = 999999;
        both(f);
        for (int i = 0; i < 20; i++) {
            f[3] = below(24), f[4] = below(60), f[5] = below(60), f[6] = below(1000000);
            both(f);
        }
        f[6] = 0;
        if (day_end(f)) {
            leaps++;
            around(f, day);
        }
    }
    snprintf(note, sizeof note,
             "%" PRIu64 " dates, %" PRIu64 " readings, %" PRIu64 " instants, %" PRIu64 " ends of days", dates, readings,
             instants, ends);
    end(note);
    printf("erfa: %" PRIu64 " leap seconds in both; instants differ by at most %.6f microseconds\n", leaps, farthest);
    return 0;
}
