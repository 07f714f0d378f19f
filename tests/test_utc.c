/* Service (h): UTC readings to instants, and back. */
#include "../include/enfysgar.h"
#include "check.h"
#include "model.h"

#include <string.h>

#define AT "day %" PRId64 ", micros %" PRIu64, at.day, at.micros
#define OUTS(i) OUT(uint64_t, i)

/* The instant some microseconds later or earlier. */
static struct instant later(struct instant at, int64_t micros)
{
    int64_t sum = at.day * (int64_t)DAY_MICROS + (int64_t)at.micros + micros;

    return (struct instant){sum / (int64_t)DAY_MICROS, (uint64_t)sum % DAY_MICROS};
}

/* The reading of an instant, which the library has to give; and the instant of a reading. */
static void reading(struct instant at, uint64_t f[7])
{
    SAME_U(enfys_tt_to_utc(at.day, at.micros, f, f + 1, f + 2, f + 3, f + 4, f + 5, f + 6), 0, AT);
}

static struct instant instant(const uint64_t f[7])
{
    struct instant at = {0, 0};

    SAME_U(enfys_utc_to_tt(SEVEN, &at.day, &at.micros), 0, FIELDS);
    return at;
}

/* From a reading to an instant, as the model has it, and back to the same reading. */
static void to_tt(const uint64_t f[7])
{
    struct instant want;
    uint32_t refusal = model_utc_to_tt(f, &want);
    const struct number numbers[] = {NUMBER(want.day), NUMBER(want.micros)};
    uint64_t back[7];

    SAME_U(enfys_utc_to_tt_refusal(SEVEN), refusal, FIELDS);
    SAME_I(enfys_utc_to_tt_day(SEVEN), want.day, FIELDS);
    SAME_U(enfys_utc_to_tt_micros(SEVEN), want.micros, FIELDS);
    WHOLE(enfys_utc_to_tt(SEVEN, OUT(int64_t, 0), OUT(uint64_t, 1)), refusal, numbers, FIELDS);
    if (refusal)
        return;
    reading(want, back);
    SAME_U(memcmp(back, f, sizeof back) == 0, 1, FIELDS);
}

/* From an instant to a reading, as the model has it, and back to the same instant. */
static void to_utc(struct instant at)
{
    uint64_t want[7];
    uint32_t refusal = model_tt_to_utc(at, want);
    const struct number numbers[] = {NUMBER(want[0]), NUMBER(want[1]), NUMBER(want[2]), NUMBER(want[3]),
                                     NUMBER(want[4]), NUMBER(want[5]), NUMBER(want[6])};

    SAME_U(enfys_tt_to_utc_refusal(at.day, at.micros), refusal, AT);
    SAME_U(enfys_tt_to_utc_year(at.day, at.micros), want[0], AT);
    SAME_U(enfys_tt_to_utc_month(at.day, at.micros), want[1], AT);
    SAME_U(enfys_tt_to_utc_day_of_month(at.day, at.micros), want[2], AT);
    SAME_U(enfys_tt_to_utc_hour(at.day, at.micros), want[3], AT);
    SAME_U(enfys_tt_to_utc_minute(at.day, at.micros), want[4], AT);
    SAME_U(enfys_tt_to_utc_second(at.day, at.micros), want[5], AT);
    SAME_U(enfys_tt_to_utc_microsecond(at.day, at.micros), want[6], AT);
    WHOLE(enfys_tt_to_utc(at.day, at.micros, OUTS(0), OUTS(1), OUTS(2), OUTS(3), OUTS(4), OUTS(5), OUTS(6)), refusal,
          numbers, AT);
    if (refusal)
        return;
    SAME_I(instant(want).day, at.day, AT);
    SAME_U(instant(want).micros, at.micros, AT);
}

/* The reading one second on, as one counts by hand; the library says whether there is a second 60. */
static void next_second(uint64_t f[7])
{
    f[5]++;
    if (enfys_utc_to_tt_refusal(SEVEN) != ENFYS_SECOND)
        return;
    f[5] = 0;
    if (++f[4] < 60)
        return;
    f[4] = 0;
    if (++f[3] < 24)
        return;
    f[3] = 0;
    f[2]++;
    if (enfys_date_refusal(f[0], f[1], f[2]) == 0)
        return;
    f[2] = 1;
    f[0] += f[1] == 12;
    f[1] = f[1] % 12 + 1;
}

/* Instants a second apart have readings a second apart, for some seconds. */
static void walk(struct instant at, int seconds)
{
    uint64_t f[7], g[7];

    reading(at, f);
    for (int i = 0; i < seconds; i++) {
        at = later(at, 1000000);
        next_second(f);
        reading(at, g);
        SAME_U(memcmp(f, g, sizeof g) == 0, 1, FIELDS);
    }
}

static void reference(void)
{
    static const struct {
        uint64_t f[7];
        struct instant at;
        uint32_t refusal;
    } row[] = {
        {{2009, 6, 25, 0, 0, 0, 0}, {55007, 66184000}, 0},
        {{1972, 1, 1, 0, 0, 0, 0}, {41317, 42184000}, 0},
        {{1972, 6, 30, 23, 59, 60, 0}, {41499, 42184000}, 0},
        {{1972, 7, 1, 0, 0, 0, 0}, {41499, 43184000}, 0},
        {{2016, 12, 31, 23, 59, 59, 999999}, {57754, 68183999}, 0},
        {{2016, 12, 31, 23, 59, 60, 500000}, {57754, 68684000}, 0},
        {{2017, 1, 1, 0, 0, 0, 0}, {57754, 69184000}, 0},
        {{2025, 6, 27, 23, 59, 59, 999999}, {60854, 69183999}, 0},
        {{1971, 12, 31, 23, 59, 59, 999999}, {0, 0}, 19},
        {{1900, 1, 1, 0, 0, 0, 0}, {0, 0}, 19},
        {{2025, 6, 28, 0, 0, 0, 0}, {0, 0}, 20},
        {{2100, 12, 31, 23, 59, 59, 0}, {0, 0}, 20},
        {{1971, 12, 31, 23, 59, 60, 0}, {0, 0}, 6},
        {{2025, 6, 27, 23, 59, 60, 0}, {0, 0}, 6},
        {{2016, 6, 30, 23, 59, 60, 0}, {0, 0}, 6},
        {{2016, 12, 31, 22, 59, 60, 0}, {0, 0}, 6},
        {{2016, 12, 31, 23, 59, 61, 0}, {0, 0}, 6},
        {{2016, 12, 31, 23, 59, 60, 1000000}, {0, 0}, 7},
        {{1971, 12, 31, 0, 0, 0, 1000000}, {0, 0}, 7},
        {{2101, 1, 1, 0, 0, 0, 0}, {0, 0}, 1},
    };
    static const struct instant first = {41317, 42184000}, end = {60854, 69184000};

    for (size_t i = 0; i < sizeof row / sizeof *row; i++) {
        const uint64_t *f = row[i].f;

        SAME_U(enfys_utc_to_tt_refusal(SEVEN), row[i].refusal, FIELDS);
        SAME_I(enfys_utc_to_tt_day(SEVEN), row[i].at.day, FIELDS);
        SAME_U(enfys_utc_to_tt_micros(SEVEN), row[i].at.micros, FIELDS);
        to_tt(f);
    }
    SAME_U(enfys_tt_to_utc_refusal(first.day, first.micros - 1), 19, "a microsecond before 1972");
    SAME_U(enfys_tt_to_utc_refusal(end.day, end.micros), 20, "0 h UTC of the expiry day");
    to_utc((struct instant){first.day - 1, DAY_MICROS}); /* 9 comes before 19 and 20 */
    to_utc((struct instant){end.day + 1, DAY_MICROS});
    for (int64_t micros = -2000; micros <= 2000; micros++) {
        to_utc(later(first, micros));
        to_utc(later(end, micros));
    }
    walk(first, 10000);
    walk(later(end, -INT64_C(10001000000)), 10000);
}

/* Seconds of the last three days of each June and December, and instants around the 0 h UTC after them. */
static void half_years(void)
{
    static const uint64_t minute[][2] = {{23, 59}, {23, 58}, {22, 59}, {0, 0}},
                          micro[] = {0, 1, 500000, 999999, 1000000};
    static const int64_t nearby[] = {0, 183999, 184000, 184001, 684000};

    for (uint64_t half = 2 * 1971; half < 2 * 2027; half++) {
        uint64_t f[7] = {half / 2, half % 2 ? 12 : 6}, last = half % 2 ? 31 : 30;
        struct instant midnight = {enfys_date_to_day(f[0], f[1], last) + 1, 0};

        for (f[2] = last; f[2] > last - 3; f[2]--)
            for (int m = 0; m < 4; m++)
                for (f[3] = minute[m][0], f[4] = minute[m][1], f[5] = m ? 55 : 0; f[5] < 63; f[5]++)
                    for (int i = 0; i < 5; i++) {
                        f[6] = micro[i];
                        to_tt(f);
                    }
        for (int64_t s = -70; s < 140; s++)
            for (int i = 0; i < 5; i++)
                to_utc(later(midnight, 1000000 * s + nearby[i]));
        if (half >= 2 * 1972 && half < 2 * 2025)
            walk(later(midnight, -180000000 + (int64_t)below(1000000)), 400);
    }
}

/* Each day from 1971 to 2026. */
static void every_day(void)
{
    for (int64_t day = 40952; day <= 61405; day++) {
        uint64_t f[7] = {enfys_day_to_year(day), enfys_day_to_month(day), enfys_day_to_day_of_month(day), 0, 0, 0, 0};
        struct instant at = {day, 0};

        to_tt(f);
        to_utc(at);
        at.micros = DAY_MICROS - 1;
        to_utc(at);
        f[3] = below(24), f[4] = below(60), f[5] = below(60), f[6] = below(1000000);
        at.micros = below(DAY_MICROS);
        to_tt(f);
        to_utc(at);
        f[3] = 23, f[4] = 59, f[5] = 59, f[6] = 999999;
        to_tt(f);
        f[5] = 60;
        to_tt(f);
    }
}

/*
 * Readings from some years before the range to some years after it, half of them at the end of a June or December,
 * with fields that are a little or far too large.
 */
static void random_inputs(void)
{
    static const uint64_t low[7] = {1965, 1, 1, 0, 0, 0, 0}, high[7] = {2030, 12, 31, 23, 59, 59, 999999};

    for (int i = 0; i < 200000; i++) {
        uint64_t f[7];

        for (int k = 0; k < 7; k++)
            f[k] = (uint64_t)between((int64_t)low[k], (int64_t)high[k]);
        if (one_in(2))
            f[1] = 6 * (1 + below(2)), f[2] = 30 + (f[1] == 12), f[3] = 23, f[4] = 59, f[5] = 60;
        for (int k = 0; k < 7; k++)
            if (one_in(10))
                f[k] = one_in(2) ? edge() : high[k] + below(3);
        to_tt(f);
        to_utc((struct instant){one_in(3) ? some_day() : between(41217, 60954), some_micros()});
    }
}

int main(int argc, char **argv)
{
    begin("utc", argc, argv);
    reference();
    half_years();
    every_day();
    random_inputs();
    return end(NULL);
}
