/* Service (j): the angles of the eleven constituents of Schwiderski's ocean tides, bit for bit. */
#include "../include/enfysgar.h"
#include "check.h"
#include "model.h"

#include <float.h>
#include <math.h>

#define AT "year %" PRIu64 ", day %.17g (bits %016" PRIx64 ")", year, day, bits_of(day)
#define NAMED(i) "%s, year %" PRIu64 ", day %.17g (bits %016" PRIx64 ")", one[i].name, year, day, bits_of(day)
#define COUNT(x) (sizeof(x) / sizeof *(x))
#define HIGH (UINT64_C(1) << 32)
#define TWO_PI 6.283185307179586476925287

enum { M2, S2, N2, K2, K1, O1, P1, Q1, MF, MM, SSA };

static const struct {
    const char *name;
    double (*angle)(uint64_t year, double day);
} one[ANGLES] = {
    {"M2", enfys_schwiderski_m2}, {"S2", enfys_schwiderski_s2},   {"N2", enfys_schwiderski_n2},
    {"K2", enfys_schwiderski_k2}, {"K1", enfys_schwiderski_k1},   {"O1", enfys_schwiderski_o1},
    {"P1", enfys_schwiderski_p1}, {"Q1", enfys_schwiderski_q1},   {"Mf", enfys_schwiderski_mf},
    {"Mm", enfys_schwiderski_mm}, {"Ssa", enfys_schwiderski_ssa},
};

/* All calls for a year and a day. */
static void angles(uint64_t year, double day)
{
    double angle[ANGLES];
    struct number want[ANGLES];
    uint32_t refusal = model_schwiderski(year, day, angle);

    SAME_U(enfys_schwiderski_refusal(year, day), refusal, AT);
    for (int i = 0; i < ANGLES; i++) {
        SAME_BITS(one[i].angle(year, day), angle[i], NAMED(i));
        want[i] = NUMBER(angle[i]);
    }
    WHOLE_ARRAY(enfys_schwiderski(year, day, OUT(double, 0)), refusal, want, AT);
    for (int i = 0; i < ANGLES; i++)
        if (!(angle[i] >= 0.0 && angle[i] < TWO_PI) || signbit(angle[i]))
            differs(one[i].name, text_double(angle[i]), "at least +0 and below two-pi", NAMED(i));
}

/* The day `steps` numbers of binary64 from a day that is above 0. */
static double beside(double day, int64_t steps)
{
    return of_bits(bits_of(day) + (uint64_t)steps);
}

/* So many days on either side of a day, and the day. */
static void around(uint64_t year, double day, int64_t most)
{
    for (int64_t steps = -most; steps <= most; steps++)
        angles(year, beside(day, steps));
}

/* Angles that the source routine gave, compiled with no contraction. */
static void reference(void)
{
    static const struct {
        uint64_t year;
        double day, angle[ANGLES];
    } row[] = {
        {1974,
         1.0,
         {0x1.993d060726d5p+1, 0.0, 0x1.38ac6593d63ap+2, 0x1.bffe916e4c41p+1, 0x1.6ef6e1504b7p-3, 0x1.824d97f22296p+1,
          0x1.86a7fe39c076p+2, 0x1.2d34ae89539a8p+2, 0x1.360c5b392a6p-2, 0x1.2611d2b400c2p+2, 0x1.bffe916e4c41p+1}},
        {2000,
         32.5,
         {0x1.8b354cdb4fc2p+0, 0x1.921fa25cb6ba4p+2, 0x1.2be080176067p+2, 0x1.24b4657ffc91p+2, 0x1.edc440221e01p+1,
          0x1.fc15d0d40fd3p+1, 0x1.367b04974f6fp+1, 0x1.a7f300328874p-1, 0x1.83ceb586d481p+1, 0x1.92195941aeb6p+1,
          0x1.24b49ca4a9c28p+2}},
        {2008,
         311.5,
         {0x1.6cc1c264040cp+1, 0x1.921fa25cb6ba4p+2, 0x1.3b443dd699ea8p+2, 0x1.9bc369509358p+0, 0x1.3000b4f64646p+1,
          0x1.e6086b6de0bp-2, 0x1.f43e8fc3272ap+1, 0x1.4687c6b6eddfp+1, 0x1.42aff6e0a7c18p+2, 0x1.0d3c7cdccaedp+2,
          0x1.9bc445e3481ep+0}},
        {2020,
         0x1.6efffffffffffp+8,
         {0x1.55cb64760d88p+2, 0x1.921f8f752a70ap+2, 0x1.41907708eae4p-1, 0x1.c2b5e390e441p+1, 0x1.84b172650bfp-3,
          0x1.49a5d8e2e5308p+2, 0x1.85fa03e2020fp+2, 0x1.c0c834df505p-2, 0x1.1dafd38b2bcap+2, 0x1.2d999e0f332b8p+2,
          0x1.c2b6c0239967p+1}},
        {2075,
         0x1.edd3c07ee0b0bp+6,
         {0x1.1a7c05d102398p+2, 0x1.6f5f0a1ab5005p+2, 0x1.24ca8abdf7178p+2, 0x1.cfa1874485f4p-1, 0x1.4a91e0677a78p+2,
          0x1.6209daadca13p+2, 0x1.26694d99d44p-1, 0x1.6c585f9abff1p+2, 0x1.63304525296dp+1, 0x1.87d15172b0f38p+2,
          0x1.72d3f4b600cp+0}},
        {2100,
         0x1.6dfffffffffffp+8,
         {0x1.7f1a57bb8f108p+2, 0x1.921f8f752a70ap+2, 0x1.407c9eb6722c8p+2, 0x1.c110256f83e1p+1, 0x1.7783815a07fp-3,
          0x1.735e3bb0be31p+2, 0x1.8663736a5a2fp+2, 0x1.34c082aba24dp+2, 0x1.e71c0269f2a3p+1, 0x1.f4f00bfaff2p-1,
          0x1.c11102023927p+1}},
    };

    for (size_t n = 0; n < COUNT(row); n++) {
        const uint64_t year = row[n].year;
        const double day = row[n].day;

        for (int i = 0; i < ANGLES; i++)
            SAME_BITS(one[i].angle(year, day), row[n].angle[i], NAMED(i));
        angles(year, day);
    }
}

/*
 * The published case, whose year 08 is 1908 in the formula. The library refuses that year, so that only the model's
 * formula can be held to it. A quotient below zero, which is truncated, is met nowhere else.
 */
static void published(void)
{
    static const double expected[ANGLES] = {
        0.5785483804494191418, 6.28318080000000023,   5.897950576134803669, 1.615958909210931438,
        2.378775781400364053,  4.482957906228527634,  3.904405018599632626, 3.519174794734325928,
        1.037427808761705705,  0.9637917514941207742, 1.615972056390525324,
    };
    double angle[ANGLES];

    model_angles(8, 311.5, angle);
    for (int i = 0; i < ANGLES; i++)
        WITHIN(1e-7, angle[i], expected[i], "%s, offset 8, day 311.5", one[i].name);
    SAME_U(enfys_schwiderski_refusal(8, 311.5), ENFYS_YEAR, "year 8");
    SAME_U(enfys_schwiderski_refusal(1908, 311.5), ENFYS_YEAR, "year 1908");
}

/*
 * Sums that are a whole number of turns, those below zero with a remainder of minus zero, and the angles nearest to
 * zero and to two-pi. Found by looking at each multiple of two-pi on each day.
 */
static void close_calls(void)
{
    static const double least = 0x1p-47, most = TWO_PI - 0x1p-47;
    const struct {
        int constituent;
        uint64_t year;
        double day, angle;
    } row[] = {
        {M2, 1982, 0x1.2303c01338c95p+8, 0.0},     {N2, 1980, 0x1.3e0d7558aab23p+8, 0.0},
        {O1, 1979, 0x1.8c25f95559112p+7, 0.0},     {P1, 1979, 0x1.072c1de1c7035p+0, 0.0},
        {Q1, 1978, 0x1.1801ce9519af6p+8, 0.0},     {S2, 1999, 200.0, 0.0},
        {K2, 1978, 0x1.47ff9ece3805p+6, 0.0},      {K1, 1977, 0x1.66fd974e341ccp+8, 0.0},
        {MF, 1976, 0x1.8e8d095bf51fp+7, 0.0},      {MM, 1977, 0x1.84ffc2b07f6p+6, 0.0},
        {SSA, 1979, 0x1.486c21d2b184fp+6, 0.0},    {M2, 1982, 0x1.020f018c0d43fp+7, most},
        {N2, 1980, 0x1.a813eb62ce186p+7, most},    {O1, 1979, 0x1.480d52fb33178p+5, most},
        {P1, 1975, 0x1.66015b85bd462p+8, most},    {Q1, 1978, 0x1.6205fc538846ap+7, most},
        {S2, 1974, 0x1.800006047a11cp+0, 0x1p-50}, {K2, 1988, 0x1.12f8f1f4f0feep+8, least},
        {K1, 1974, 0x1.6bfa4987218b4p+8, least},   {MF, 1976, 0x1.880dda6a570bcp+5, least},
        {MM, 1976, 0x1.404ca8c714a16p+7, least},   {SSA, 1989, 0x1.082603e6b692dp+8, least},
    };

    for (size_t n = 0; n < COUNT(row); n++) {
        const int i = row[n].constituent;
        const uint64_t year = row[n].year;
        const double day = row[n].day;

        SAME_BITS(one[i].angle(year, day), row[n].angle, NAMED(i));
        around(year, day, 5);
    }
}

/*
 * The model's last step by itself, for sums that no accepted input has: a remainder just below zero, which is two-pi
 * where two-pi is added. Two-pi is a multiple of 2^-47, and so is every sum below zero, which is below -465. No
 * remainder of theirs is then nearer to zero than 2^-47, and 2^-51 it would have to be.
 */
static void turned(void)
{
    SAME_BITS(model_turned(-0x1p-51), 0.0, "just below zero");
    SAME_BITS(model_turned(-DBL_TRUE_MIN), 0.0, "the least number below zero");
    SAME_BITS(model_turned(-0x1.8p-51), TWO_PI - 0x1p-50, "below zero, and far enough");
    SAME_BITS(model_turned(-TWO_PI), 0.0, "a turn back");
    SAME_BITS(model_turned(TWO_PI), 0.0, "a turn");
}

/* Which year and day is refused, and by what. */
static void ends(void)
{
    static const struct {
        uint64_t year;
        double day;
        uint32_t refusal;
    } row[] = {
        {1973, 1.0, 1},
        {1974, 1.0, 0},
        {2100, 1.0, 0},
        {2101, 1.0, 1},
        {1973, 0.0, 1},
        {2101, 366.5, 1},
        {1974, 0.0, 26},
        {1974, -0.0, 26},
        {1974, -1.0, 26},
        {1974, 365.75, 0},
        {1974, 366.0, 26},
        {1976, 366.0, 0},
        {1976, 366.75, 0},
        {1976, 367.0, 26},
        {2000, 366.0, 0},
        {2000, 367.0, 26},
        {2096, 366.5, 0},
        {2099, 366.0, 26},
        {2100, 365.75, 0},
        {2100, 366.0, 26},
        {2100, 367.0, 26},
        {74, 1.0, 1},
        {108, 311.5, 1},
        {0, NAN, 1},
        {2000, NAN, 26},
        {2000, INFINITY, 26},
        {2000, -INFINITY, 26},
        {1999, DBL_MAX, 26},
        {1999, DBL_MIN, 26},
        {HIGH + 2000, 1.0, 1},
        {2000, 0x1.fffffffffffffp-1, 26},
        {2000, 0x1.6efffffffffffp+8, 0},
        {2001, 0x1.6dfffffffffffp+8, 0},
    };

    for (size_t i = 0; i < COUNT(row); i++) {
        const uint64_t year = row[i].year;
        const double day = row[i].day;

        SAME_U(enfys_schwiderski_refusal(year, day), row[i].refusal, AT);
        angles(year, day);
    }
}

/* Days at every edge: of a day, of the limits and of the type, in each year and in years that are none of these. */
static void edges(uint64_t year)
{
    static const double limit[] = {1.0, 2.0, 32.0, 256.0, 365.0, 366.0, 367.0, 368.0};
    static const double other[] = {
        0.0, 0.5, 32.5, 366.5, 1e3, 1e15, 9e307, 0x1p31, 0x1p63, 0x1p64, DBL_MAX, DBL_MIN, DBL_TRUE_MIN, INFINITY,
    };
    /* quiet and signalling, with several payloads */
    static const uint64_t nan[] = {0x7ff8000000000000, 0x7ff0000000000001, 0x7ff4000000000000,
                                   0x7fffffffffffffff, 0x7ff8000000000001, 0x7ff6e00000000000};
    static const uint64_t sign = UINT64_C(1) << 63;

    for (size_t i = 0; i < COUNT(limit); i++) {
        around(year, limit[i], 2);
        angles(year, -limit[i]);
    }
    for (size_t i = 0; i < COUNT(other); i++) {
        angles(year, other[i]);
        angles(year, -other[i]);
    }
    for (size_t i = 0; i < COUNT(nan); i++) {
        angles(year, of_bits(nan[i]));
        angles(year, of_bits(nan[i] | sign));
    }
}

static void years(void)
{
    static const uint64_t other[] = {
        0,    1,    8,    73,   74,   75,           99,         100,         108,         200,       201,
        1582, 1899, 1900, 1908, 2400, 65536 + 2000, UINT32_MAX, HIGH + 1974, HIGH + 2000, INT64_MAX, UINT64_MAX,
    };

    for (uint64_t year = 1960; year < 2110; year++)
        edges(year);
    for (size_t i = 0; i < COUNT(other); i++)
        edges(other[i]);
    edges((UINT64_C(1) << 63) + 2000);
    edges(0 - UINT64_C(2000));
}

/* The beginning, quarters and end of every day of every year. */
static void every_day(void)
{
    uint64_t answered = 0;

    for (uint64_t year = 1974; year <= 2100; year++)
        for (double day = 1.0; day < 368.0; day += 1.0) {
            for (int quarter = 0; quarter < 4; quarter++)
                angles(year, day + 0.25 * quarter);
            angles(year, beside(day + 1.0, -1));
            answered += enfys_schwiderski_refusal(year, day) == 0;
        }
    SAME_U(answered, 127 * 365 + 31, "days from 1974 to 2100");
}

/* Any part of a day, microseconds of it, and days of one length but for their last bits. */
static void random_days(void)
{
    for (int i = 0; i < 150000; i++) {
        const uint64_t year = (uint64_t)between(1974, 2100), whole_day = 1 + below(366);

        angles(year, (double)whole_day + (double)(any() >> 11) * 0x1p-53);
        angles(year, (double)whole_day + (double)below(DAY_MICROS) / 86400e6);
        angles(year, beside((double)whole_day + 0.25 * (double)below(4), between(-1000, 1000)));
    }
}

/* Any bits as a day, and years from everywhere, several of them wrong at once. */
static void hostile_inputs(void)
{
    for (int i = 0; i < 100000; i++) {
        uint64_t year = (uint64_t)between(1970, 2104);
        double day = 1.0 + (double)below(36700) / 100.0;

        if (one_in(3))
            year = edge();
        switch (below(4)) {
        case 0:
            day = of_bits(any());
            break;
        case 1:
            day = of_bits(bits_of(day) ^ UINT64_C(1) << below(64));
            break;
        case 2: /* near 1, 366 and 367, the last bits any */
            day = beside(one_in(3) ? 1.0 : 366.0 + (double)below(2),
                         (int64_t)(any() >> (1 + below(63))) * (one_in(2) ? 1 : -1));
            break;
        default:
            break;
        }
        angles(year, day);
    }
}

int main(int argc, char **argv)
{
    begin("schwiderski", argc, argv);
    reference();
    published();
    close_calls();
    turned();
    ends();
    years();
    random_days();
    every_day();
    hostile_inputs();
    return end(NULL);
}
