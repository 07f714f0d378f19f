/* Service (d): frequency and phase of a tidal constituent at a UTC reading, bit for bit. */
#include "../include/enfysgar.h"
#include "check.h"
#include "model.h"

#include <string.h>

#define ALL SEVEN, k[0], k[1], k[2], k[3], k[4], k[5]
#define INPUTS FIELDS_TEXT ", multipliers %" PRId64 " %" PRId64 " %" PRId64 " %" PRId64 " %" PRId64 " %" PRId64, ALL
#define COUNT(x) (sizeof(x) / sizeof *(x))
#define HIGH INT64_C(4294967296)

static void tide(const uint64_t f[7], const int64_t k[6])
{
    double frequency, phase;
    uint32_t refusal = model_tide(f, k, &frequency, &phase);
    const struct number numbers[] = {NUMBER(frequency), NUMBER(phase)};

    SAME_U(enfys_tide_refusal(ALL), refusal, INPUTS);
    SAME_BITS(enfys_tide_frequency(ALL), frequency, INPUTS);
    SAME_BITS(enfys_tide_phase(ALL), phase, INPUTS);
    WHOLE(enfys_tide(ALL, OUT(double, 0), OUT(double, 1)), refusal, numbers, INPUTS);
    if (!(phase >= 0.0 && phase < 360.0))
        differs("enfys_tide_phase", text_double(phase), "at least 0 and below 360", INPUTS);
}

static void some_multipliers(int64_t k[6])
{
    int64_t size = one_in(2) ? 12 : 2;

    for (int i = 0; i < 6; i++)
        k[i] = one_in(4) ? 0 : between(-size, size);
}

/* M2, the multiplier of the hour angle at either end, and some others. */
static void some_tides(const uint64_t f[7])
{
    static const int64_t m2[6] = {2}, most[6] = {12}, least[6] = {-12};
    int64_t k[6];

    tide(f, m2);
    tide(f, most);
    tide(f, least);
    some_multipliers(k);
    tide(f, k);
}

/* The two published cases, each within a distance, and numbers that another program gave. */
static void reference(void)
{
    static const struct {
        uint64_t f[7];
        int64_t k[6];
        double frequency, phase, distance[2];
    } row[] = {
        {{2009, 6, 25, 0, 0, 0, 0}, {2}, 1.93227361605688, 303.343338720297, {1e-14, 1e-6}},
        {{2009, 6, 25, 12, 1, 45, 0}, {2}, 1.93227361605689, 291.997959322689, {1e-14, 1e-6}},
        {{1972, 1, 1, 0, 0, 0, 0}, {2}, 0x1.eea97bd2ec0cfp+0, 0x1.83e9c02ab8000p+2, {0}},
        {{1972, 6, 30, 23, 59, 60, 0}, {1, 1}, 0x1.00b36e7ec8e80p+0, 0x1.8c95ef289f000p+6, {0}},
        {{1990, 12, 31, 23, 59, 60, 999999}, {-12, 7, 0, -3, 1, 5}, -0x1.6ad2a76deb9b1p+3, 0x1.3e2fb58a36000p+7, {0}},
        {{1999, 12, 31, 23, 58, 55, 816000}, {1, -1}, 0x1.dbec1aa97b3f8p-1, 0x1.b07fa408edffep+7, {0}},
        {{2009, 6, 25, 12, 1, 45, 0}, {12, 12, 12, 12, 12, 12}, 0x1.8247302dea182p+3, 0x1.9a3b022ab9800p+6, {0}},
        /* were these two seconds counted from 0 again, the last bits would be others */
        {{1998, 12, 31, 23, 59, 60, 36889}, {2}, 0x1.eea97bd39e2d1p+0, 0x1.1dc1e77d2e000p+5, {0}},
        {{2005, 12, 31, 23, 59, 60, 17946}, {2}, 0x1.eea97bd3cc5c2p+0, 0x1.4c3a7094eea00p+8, {0}},
        {{2016, 12, 31, 23, 59, 59, 999999}, {2, 2, -2}, 0x1.0000000000001p+1, 0x1.67ffffffdc400p+8, {0}},
        {{2016, 12, 31, 23, 59, 60, 500000}, {2}, 0x1.eea97bd414eebp+0, 0x1.1f5f08e27ea00p+8, {0}},
        {{2017, 1, 1, 0, 0, 0, 0}, {2}, 0x1.eea97bd414eebp+0, 0x1.1f5dee9238200p+8, {0}},
        {{2025, 6, 27, 23, 59, 59, 999999}, {0, 0, 1, 0, 0, -1}, 0x1.66d89b19f3dd6p-9, 0x1.59f390725fe80p+7, {0}},
    };

    for (size_t i = 0; i < COUNT(row); i++) {
        const uint64_t *f = row[i].f;
        const int64_t *k = row[i].k;

        WITHIN(row[i].distance[0], enfys_tide_frequency(ALL), row[i].frequency, INPUTS);
        WITHIN(row[i].distance[1], enfys_tide_phase(ALL), row[i].phase, INPUTS);
        tide(f, k);
    }
}

/*
 * Sums that are less than nothing by so little that 360 more is 360, and sums that are a negative whole number of
 * turns, whose remainder is minus zero. Found by a search over multipliers and readings.
 */
static void close_calls(void)
{
    static const struct {
        uint64_t f[7];
        int64_t k[6];
    } row[] = {
        {{2009, 8, 20, 14, 22, 6, 572658}, {0, 0, -1, 7, 1, 0}},
        {{2011, 4, 26, 3, 59, 32, 760261}, {0, 0, 1, -7, -2, 0}},
        {{2004, 6, 5, 22, 15, 38, 908676}, {0, 0, 1, -5, 5, 0}},
        {{2003, 7, 15, 0, 21, 32, 254100}, {0, 0, 2, -11, -2, 0}},
        {{1999, 12, 23, 5, 39, 37, 531672}, {8, 5, 1, 8, 2, 0}},
        {{1982, 8, 16, 9, 12, 40, 92915}, {-2, 2, -2, -2, 3, 2}},
        {{2011, 11, 26, 16, 53, 15, 485144}, {3, -3, -3, 3, -4, -3}},
        {{2020, 10, 2, 12, 0, 0, 0}, {-2, -2, 2, 0, 0, 0}},
        {{1972, 6, 30, 23, 59, 60, 0}, {-1, -1, 1, 0, 0, 0}},
        {{1973, 12, 31, 23, 59, 60, 395450}, {-7, 10, -6, -11, -7, -8}},
        {{1985, 6, 30, 23, 59, 60, 267885}, {-12, 1, -10, 10, 5, -7}},
        {{2012, 6, 30, 23, 59, 60, 834208}, {4, -9, 11, -10, 12, 4}},
    };

    for (size_t i = 0; i < COUNT(row); i++) {
        const int64_t *k = row[i].k;
        uint64_t f[7];

        memcpy(f, row[i].f, sizeof f);
        SAME_BITS(enfys_tide_phase(ALL), 0.0, INPUTS);
        for (f[6] -= 2; f[6] != row[i].f[6] + 3; f[6]++)
            tide(f, k);
    }
}

/*
 * The refusals in their order: 1 to 7, 19, 20, 11. Each set of wrong fields, in a year that has UTC here, in one before
 * and in one after, with and without a wrong multiplier; the first that applies has to be given.
 */
static void orders(void)
{
    static const uint64_t right[7] = {2009, 6, 25, 12, 1, 45, 500000};
    static const uint64_t wrong[][7] = {
        {2101, 13, 31, 24, 60, 60, 1000000},
        {1899, 0, 0, 25, 61, 61, 1000001},
        {HIGH + 2009, HIGH + 6, HIGH + 25, HIGH + 12, HIGH + 1, HIGH + 45, HIGH + 500000}, /* right in the low half */
        {UINT64_MAX, UINT64_MAX, UINT64_MAX, UINT64_MAX, UINT64_MAX, UINT64_MAX, UINT64_MAX},
    };
    static const uint64_t year[] = {2009, 1971, 2026};
    static const uint32_t of_year[] = {0, ENFYS_UTC_EARLY, ENFYS_UTC_EXPIRED};
    static const int64_t multiplier[] = {13, -13, INT64_MIN, INT64_MAX, HIGH + 2};

    for (size_t n = 0; n < COUNT(wrong) * COUNT(year) * 256; n++) {
        const size_t y = n / 256 % COUNT(year), w = n / 256 / COUNT(year);
        uint64_t f[7];
        int64_t k[6] = {2, -1, 0, 12, -12, 1};
        uint32_t want = of_year[y] ? of_year[y] : n & 128 ? 11 : 0;

        if (n & 128)
            k[below(6)] = multiplier[below(COUNT(multiplier))];
        for (uint32_t i = 7; i-- > 0;) {
            f[i] = n >> i & 1 ? wrong[w][i] : i == 0 ? year[y] : right[i];
            want = n >> i & 1 ? i + 1 : want;
        }
        SAME_U(enfys_tide_refusal(ALL), want, INPUTS);
        tide(f, k);
    }
}

/* Both ends of the readings, and what is refused beside them. */
static void ends(void)
{
    static const struct {
        uint64_t f[7];
        uint32_t refusal;
    } row[] = {
        {{1900, 1, 1, 0, 0, 0, 0}, 19},       {{1971, 12, 31, 23, 59, 59, 999999}, 19},
        {{1971, 12, 31, 23, 59, 60, 0}, 6},   {{1972, 1, 1, 0, 0, 0, 0}, 0},
        {{1972, 1, 1, 0, 0, 0, 1}, 0},        {{2025, 6, 27, 23, 59, 59, 999999}, 0},
        {{2025, 6, 27, 23, 59, 60, 0}, 6},    {{2025, 6, 28, 0, 0, 0, 0}, 20},
        {{2025, 6, 28, 0, 0, 0, 1000000}, 7}, {{2100, 12, 31, 23, 59, 59, 999999}, 20},
    };

    for (size_t i = 0; i < COUNT(row); i++) {
        const uint64_t *f = row[i].f;
        const int64_t k[6] = {2};

        SAME_U(enfys_tide_refusal(ALL), row[i].refusal, INPUTS);
        some_tides(f);
    }
}

/* The seconds around the end of each June and December, those with a leap second and the others. */
static void half_years(void)
{
    static const uint64_t micro[] = {0, 1, 500000, 999999, 1000000}, hour[] = {23, 22, 0};
    static const int64_t k[6] = {2};
    uint64_t leap_seconds = 0;

    for (uint64_t half = 2 * 1971; half < 2 * 2027; half++)
        for (size_t i = 0; i < COUNT(micro); i++) {
            uint64_t f[7] = {half / 2, half % 2 ? 12 : 6, 0, 0, 59, 0, micro[i]}, last = half % 2 ? 31 : 30;

            for (size_t h = 0; h < COUNT(hour); h++)
                for (f[2] = last - 1, f[3] = hour[h]; f[2] <= last; f[2]++)
                    for (f[5] = 57; f[5] < 63; f[5]++) {
                        some_tides(f);
                        leap_seconds += f[5] == 60 && enfys_tide_refusal(ALL) == 0;
                    }
            f[0] += half % 2, f[1] = f[1] % 12 + 1, f[2] = 1, f[3] = f[4] = 0;
            for (f[5] = 0; f[5] < 3; f[5]++)
                some_tides(f);
        }
    SAME_U(leap_seconds, 4 * 27, "second 60 with four microseconds of it");
}

/* Six zeros, each multiplier alone, and the main constituents, at the ends, at midnights, noons and leap seconds. */
static void constituents(void)
{
    static const int64_t main_ones[][6] = {
        {0, 0, 0, 0, 0, 0},       {2, 0, 0, 0, 0, 0}, {2, 2, -2, 0, 0, 0}, {2, -1, 0, 1, 0, 0},
        {2, 2, 0, 0, 0, 0},       {1, 1, 0, 0, 0, 0}, {1, -1, 0, 0, 0, 0}, {1, 1, -2, 0, 0, 0},
        {1, -2, 0, 1, 0, 0},      {0, 2, 0, 0, 0, 0}, {0, 1, 0, -1, 0, 0}, {0, 0, 2, 0, 0, 0},
        {0, 0, 1, 0, 0, -1},      {0, 0, 0, 0, 1, 0}, {3, 0, 0, 0, 0, 0},  {-12, -12, -12, -12, -12, -12},
        {12, 12, 12, 12, 12, 12},
    };
    static const int64_t day[] = {41317, 41498, 41499, 51543, 51544, 51545, 55007, 57753, 60853};
    static const uint64_t time[][4] = {
        {0, 0, 0, 0},  {0, 0, 0, 1},         {11, 59, 59, 999999}, {12, 0, 0, 0},
        {12, 0, 0, 1}, {23, 59, 59, 999999}, {23, 59, 60, 0},      {23, 59, 60, 999999},
    };

    for (size_t i = 0; i < COUNT(day) * COUNT(time); i++) {
        uint64_t f[7];

        enfys_date_of_day(day[i / COUNT(time)], f, f + 1, f + 2);
        memcpy(f + 3, time[i % COUNT(time)], sizeof *time);
        for (size_t c = 0; c < COUNT(main_ones); c++)
            tide(f, main_ones[c]);
        for (int n = 0; n < 6; n++)
            for (int64_t value = -14; value <= 14; value++) {
                int64_t k[6] = {0};

                k[n] = value;
                tide(f, k);
            }
    }
}

/* More than a million answered readings; every thousandth has six zeros, which give +0. */
static void random_readings(void)
{
    for (int i = 0; i < 1050000; i++) {
        uint64_t f[7] = {0, 0, 0, below(24), below(60), below(60), below(1000000)};
        int64_t k[6] = {0};

        enfys_date_of_day(between(ENFYS_UTC_FIRST_DAY, ENFYS_UTC_EXPIRY_DAY - 1), f, f + 1, f + 2);
        if (i % 1000 == 0) {
            SAME_BITS(enfys_tide_frequency(ALL), 0.0, INPUTS);
            SAME_BITS(enfys_tide_phase(ALL), 0.0, INPUTS);
        } else
            some_multipliers(k);
        tide(f, k);
    }
}

/* Wrong inputs of every kind, several at once; half of the readings are at the end of a June or December. */
static void hostile_inputs(void)
{
    static const uint64_t low[7] = {1965, 1, 1, 0, 0, 0, 0}, high[7] = {2030, 12, 31, 23, 59, 59, 999999};

    for (int i = 0; i < 300000; i++) {
        uint64_t f[7];
        int64_t k[6];

        for (int n = 0; n < 7; n++)
            f[n] = low[n] + below(high[n] - low[n] + 1);
        if (one_in(2))
            f[1] = 6 * (1 + below(2)), f[2] = 30 + (f[1] == 12), f[3] = 23, f[4] = 59, f[5] = 60;
        for (int n = 0; n < 7; n++)
            if (one_in(10))
                f[n] = one_in(2) ? edge() : high[n] + below(3);
        some_multipliers(k);
        while (one_in(2))
            k[below(6)] = one_in(2) ? (int64_t)edge() : between(-15, 15);
        tide(f, k);
    }
}

int main(int argc, char **argv)
{
    begin("tide", argc, argv);
    reference();
    close_calls();
    orders();
    ends();
    half_years();
    constituents();
    random_readings();
    hostile_inputs();
    return end(NULL);
}
