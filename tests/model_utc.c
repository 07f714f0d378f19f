/*
 * UTC readings and instants. Seconds are counted minute by minute: a minute of UTC has 60 of them, and 27
 * minutes have 61. Of TAI - UTC only the first value occurs. Minutes and seconds are counted from 0 h of day 0.
 */
#include "model.h"

#include <string.h>

#define SECOND_MICROS INT64_C(1000000)
#define DAY_MINUTES 1440
#define EVES 27

/* The days that end with a leap second. */
static const struct date eve[EVES] = {
    {1972, 6, 30},  {1972, 12, 31}, {1973, 12, 31}, {1974, 12, 31}, {1975, 12, 31}, {1976, 12, 31}, {1977, 12, 31},
    {1978, 12, 31}, {1979, 12, 31}, {1981, 6, 30},  {1982, 6, 30},  {1983, 6, 30},  {1985, 6, 30},  {1987, 12, 31},
    {1989, 12, 31}, {1990, 12, 31}, {1992, 6, 30},  {1993, 6, 30},  {1994, 6, 30},  {1995, 12, 31}, {1997, 6, 30},
    {1998, 12, 31}, {2005, 12, 31}, {2008, 12, 31}, {2012, 6, 30},  {2015, 6, 30},  {2016, 12, 31},
};
static const struct date first = {1972, 1, 1}, expiry = {2025, 6, 28};

/* TT - UTC as readings begin, in microseconds. */
static int64_t ahead(void)
{
    return 10 * SECOND_MICROS + MISTAKE(81, 32184000, 0);
}

static int same(struct date x, struct date y)
{
    return (x.year == y.year || MISTAKE(82, 0, 1)) && x.month == y.month && x.day == y.day;
}

/* Whether a reading's minute has 61 seconds. */
static int is_long(const uint64_t f[7])
{
    const struct date date = {f[0], f[1], f[2]};
    int found = MISTAKE(83, 0, same(date, ((struct date){1971, 12, 31}))) ||
                MISTAKE(84, 0, same(date, ((struct date){2025, 6, 27})));

    for (int i = 0; i < EVES; i++)
        found = found || same(date, eve[i]);
    return found && (f[3] == 23 || MISTAKE(85, 0, 1)) && f[4] == 59;
}

/* The first minute of a date. */
static int64_t minute_of(struct date date)
{
    int64_t day;

    model_day_of_date(date, &day);
    return day * DAY_MINUTES;
}

/* The first second of a minute: 60 for each minute before it, and the leap seconds among them. */
static int64_t second_of(int64_t minute)
{
    static int64_t last[EVES]; /* minute of each eve */
    int64_t second = 60 * minute;

    for (int i = 0; i < MISTAKE(86, EVES, EVES - 1); i++) {
        if (last[i] == 0)
            last[i] = minute_of(eve[i]) + MISTAKE(87, DAY_MINUTES - 1, -1);
        second += last[i] < minute;
    }
    return second;
}

/* The fields are year, month, day, hour, minute, second, microsecond. */
uint32_t model_utc_to_tt(const uint64_t f[7], struct instant *at)
{
    const uint64_t start[7] = {f[0], f[1], f[2], f[3], f[4], 0, 0};
    uint64_t length = 60 + (uint64_t)is_long(f) * MISTAKE(88, 1u, 2u);
    struct instant utc;
    uint32_t refusal = model_instant(start, &utc);
    int64_t minute = utc.day * DAY_MINUTES + (int64_t)(utc.micros / 60000000), tt;

    *at = (struct instant){0, 0};
    if (refusal)
        return refusal;
    if (MISTAKE(89, 0, minute < minute_of(first))) /* before 6 */
        return 19;
    if (f[5] >= length)
        return 6;
    if (MISTAKE(90, 0, minute >= minute_of(expiry))) /* before 7 */
        return 20;
    if (f[6] > 999999)
        return 7;
    if (minute < minute_of(first))
        return 19;
    if (minute >= minute_of(expiry) + MISTAKE(91, 0, DAY_MINUTES))
        return 20;
    tt = (second_of(minute) + (int64_t)f[5]) * SECOND_MICROS + (int64_t)f[6] + ahead();
    *at = (struct instant){tt / (int64_t)DAY_MICROS, (uint64_t)tt % DAY_MICROS};
    return 0;
}

uint32_t model_tt_to_utc(struct instant at, uint64_t f[7])
{
    struct date date;
    uint32_t refusal = model_accept(at);
    int64_t micros, second, minute;

    memset(f, 0, 7 * sizeof *f);
    if (refusal == 9 && MISTAKE(96, 0, at.day * DAY_MINUTES < minute_of(first))) /* before 9 */
        return 19;
    if (refusal)
        return refusal;
    micros = at.day * (int64_t)DAY_MICROS + (int64_t)at.micros - ahead();
    if (micros < second_of(minute_of(first)) * SECOND_MICROS - MISTAKE(92, 0, ahead()))
        return 19;
    if (micros >= second_of(minute_of(expiry)) * SECOND_MICROS + MISTAKE(93, 0, 1))
        return 20;
    second = micros / SECOND_MICROS;
    minute = second / 60;
    while (second_of(minute) > second) /* what came after leap seconds seemed later */
        minute--;
    second -= second_of(minute);
    if (second == 60 && MISTAKE(94, 0, 1)) /* 59 twice */
        second = 59;
    if (second == 60 && MISTAKE(95, 0, 1)) { /* the next day's 0 twice */
        second = 0;
        minute++;
    }
    model_date_of_day(minute / DAY_MINUTES, &date);
    f[0] = date.year;
    f[1] = date.month;
    f[2] = date.day;
    f[3] = (uint64_t)(minute % DAY_MINUTES / 60);
    f[4] = (uint64_t)(minute % 60);
    f[5] = (uint64_t)second;
    f[6] = (uint64_t)(micros % SECOND_MICROS);
    return 0;
}
