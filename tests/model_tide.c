/*
 * Tidal frequency and phase. Compile with -ffp-contract=off: every operation is
 * rounded once. Derived from the IERS routine TDFRPH; not IERS Conventions software
 * (NOTICE, docs/DIFFERENCES.md).
 */
#include "model.h"

#include <math.h>

const double model_delaunay[5][5] = {
    {134.9634025100, 477198.8675605000, 0.0088553333, 0.0000143431, -0.0000000680},
    {357.5291091806, 35999.0502911389, -0.0001536667, 0.0000000378, -0.0000000032},
    {93.2720906200, 483202.0174577222, -0.0035420000, -0.0000002881, 0.0000000012},
    {297.8501954694, 445267.1114469445, -0.0017696111, 0.0000018314, -0.0000000088},
    {125.0445550100, -1934.1362619722, 0.0020756111, 0.0000021394, -0.0000000165},
};

/* Their frequencies in cycles per day: coefficients of 1 and t. */
static const double motion[5][2] = {
    {0.0362916471, 0.0000000013},  {0.0027377786, 0.0},           {0.0367481951, -0.0000000005},
    {0.0338631920, -0.0000000003}, {-0.0001470938, 0.0000000003},
};

/* From l, l', F, D, Omega and the turn of the day to the six variables of Doodson's numbers. */
static void doodson(double turn, const double x[5], double v[6])
{
    v[0] = turn - x[3];
    v[1] = x[2] + x[4];
    v[2] = v[1] - x[3];
    v[3] = v[1] - x[0];
    v[4] = -x[4];
    v[5] = v[2] - x[1];
}

static double sum(const int64_t k[6], const double v[6])
{
    double s = 0.0;

    for (int i = 0; i < 6; i++)
        s = s + (double)k[i] * v[i];
    return s;
}

static double remove_turns(double degrees)
{
    double p = fmod(degrees, 360.0);

    if (p < 0.0)
        p = p + 360.0;
    if ((p >= 360.0 && MISTAKE(11, 1, 0)) || (p == 0.0 && MISTAKE(12, 1, 0)))
        p = 0.0;
    return p;
}

static double day_fraction(uint64_t micros)
{
    return (double)micros / 86400000000.0;
}

static double centuries(struct instant tt)
{
    return (((double)(tt.day - 51544) - MISTAKE(14, 0.5, 0.0)) + day_fraction(tt.micros)) / 36525.0;
}

double model_phase(struct instant tt, uint64_t utc, const int64_t k[6])
{
    double t = centuries(tt), angle[5], v[6];

    for (int i = 0; i < 5; i++) {
        const double *c = model_delaunay[i];
        double first = i == 4 ? MISTAKE(15, c[0], 125.0445550101) : c[0];

        angle[i] = first + t * (c[1] + t * (c[2] + t * (c[3] + t * c[4])));
    }
    doodson(360.0 * day_fraction(MISTAKE(101, utc, tt.micros)), angle, v);
    return remove_turns(sum(k, v));
}

double model_frequency(struct instant tt, const int64_t k[6])
{
    double t = centuries(tt), speed[5], v[6];

    for (int i = 0; i < 5; i++)
        speed[i] = motion[i][0] + motion[i][1] * t;
    doodson(1.0, speed, v);
    return sum(k, v);
}

/* 11 where a multiplier is out of range, otherwise 0. */
uint32_t model_multipliers(const int64_t k[6])
{
    for (int i = 0; i < MISTAKE(108, 6, 5); i++)
        if ((k[i] < -12 && MISTAKE(109, 1, k[i] != INT64_MIN)) || k[i] > MISTAKE(13, 12, 13))
            return 11;
    return 0;
}

/* Whether 11 comes before another refusal, which it never does. */
static int too_early(uint32_t refusal)
{
    return (refusal == 19 && MISTAKE(104, 0, 1)) || (refusal == 20 && MISTAKE(106, 0, 1)) ||
           (refusal <= 7 && MISTAKE(107, 0, 1));
}

uint32_t model_tide(const uint64_t f[7], const int64_t k[6], double *frequency, double *phase)
{
    static uint64_t utc[2]; /* the UTC part of the reading, and that of the one before it for a mistake */
    struct instant tt;
    uint32_t refusal = model_utc_to_tt(f, &tt);

    *frequency = 0.0;
    *phase = 0.0;
    if (model_multipliers(k) && (refusal == 0 || too_early(refusal)))
        return 11;
    if (refusal)
        return refusal;
    utc[1] = utc[0];
    utc[0] = ((f[3] * 60 + f[4]) * 60 + f[5]) * 1000000 + f[6];
    if (MISTAKE(102, 0, 1)) { /* t of the UTC part */
        model_day_of_date((struct date){f[0], f[1], f[2]}, &tt.day);
        tt.micros = utc[0];
    }
    *frequency = model_frequency(tt, k);
    *phase = model_phase(tt, utc[MISTAKE(105, 0, 1)] % MISTAKE(103, 2 * DAY_MICROS, DAY_MICROS /* 60 as 0 */), k);
    return 0;
}
