/*
 * Angles of the constituents of Schwiderski's ocean tides. Compile with -ffp-contract=off: every
 * operation is rounded once. Derived from the IERS routine ARG2; not IERS Conventions software
 * (NOTICE, docs/DIFFERENCES.md).
 */
#include "model.h"

#include <math.h>

#define TWO_PI 6.283185307179586476925287
#define RADIANS 0.174532925199e-1 /* in a degree, to the digits that the rules have */

/* Radians in a second, and multiples of the longitudes of Sun, Moon and perigee and of a turn. */
static const struct {
    double speed, sun, moon, perigee, turns;
} constituent[ANGLES] = {
    {1.40519e-4, 2, -2, 0, 0},     /* M2 */
    {1.45444e-4, 0, 0, 0, 0},      /* S2 */
    {1.37880e-4, 2, -3, 1, 0},     /* N2 */
    {1.45842e-4, 2, 0, 0, 0},      /* K2 */
    {0.72921e-4, 1, 0, 0, 0.25},   /* K1 */
    {0.67598e-4, 1, -2, 0, -0.25}, /* O1 */
    {0.72523e-4, -1, 0, 0, -0.25}, /* P1 */
    {0.64959e-4, 1, -3, 1, -0.25}, /* Q1 */
    {0.053234e-4, 0, 2, 0, 0},     /* Mf */
    {0.026392e-4, 0, 1, -1, 0},    /* Mm */
    {0.003982e-4, 2, 0, 0, 0},     /* Ssa */
};

/* Mean longitudes at the beginning of a day, in radians, t centuries after noon of 1899-12-31. */
static double sun(double t)
{
    double higher = MISTAKE(183, 36000.768930485, 36000.768930486) + MISTAKE(184, 3.03e-4, 3.04e-4) * t;

    return (MISTAKE(185, 279.69668, 279.69669) + higher * t) * MISTAKE(186, RADIANS, 0.174532925200e-1);
}

static double moon(double t)
{
    double square = MISTAKE(187, 1.9e-6, 1.8e-6) * t - MISTAKE(188, 0.001133, 0.001134);
    double higher = square * t + MISTAKE(189, 481267.88314137, 481267.88314138);

    return (higher * t + MISTAKE(190, 270.434358, 270.434359)) * RADIANS;
}

static double perigee(double t)
{
    double square = MISTAKE(191, -1.2e-5, 1.2e-5) * t - MISTAKE(192, 0.010325, 0.010326);
    double higher = square * t + MISTAKE(193, 4069.0340329577, 4069.0340329578);

    return (higher * t + MISTAKE(194, 334.329653, 334.329654)) * RADIANS;
}

double model_turned(double radians)
{
    double r = fmod(radians, TWO_PI);

    if (MISTAKE(195, 0, 1)) /* turns counted by a quotient that is rounded */
        r = radians - TWO_PI * trunc(radians / TWO_PI);
    if (r < 0.0 && MISTAKE(196, 1, 0))
        r = r + TWO_PI;
    if ((r >= TWO_PI && MISTAKE(173, 1, 0)) || (r == 0.0 && MISTAKE(174, 1, 0)))
        r = 0.0;
    return r;
}

/* The centuries to the beginning of a day. All is whole, and exact in binary64, up to the first constant. */
static double centuries(double offset, double whole_day)
{
    double leap_days = (offset - MISTAKE(197, 73, 72)) / 4.0;

    leap_days = MISTAKE(172, trunc(leap_days), floor(leap_days));
    return (MISTAKE(198, 27392.500528, 27392.500529) +
            MISTAKE(199, 1.000000035, 1.000000036) * (whole_day + 365.0 * (offset - 75.0) + leap_days)) /
           36525.0;
}

void model_angles(int64_t offset, double day, double angle[ANGLES])
{
    const double whole_day = MISTAKE(182, trunc(day), rint(day));
    const double seconds = (day - whole_day) * MISTAKE(202, 86400.0, 1.0), t = centuries((double)offset, whole_day);
    const double h = MISTAKE(203, sun(t), moon(t)), s = MISTAKE(203, MISTAKE(204, moon(t), perigee(t)), sun(t));
    const double p = MISTAKE(204, perigee(t), moon(t));

    for (int i = 0; i < ANGLES; i++) {
        const double speed = constituent[i].speed + MISTAKE(211 + i, 0.0, 1e-10);
        const double a = constituent[i].sun * h, b = constituent[i].moon * s, c = constituent[i].perigee * p;
        const double d = MISTAKE(201, constituent[i].turns, 0.0) * TWO_PI;
        double sum = speed * seconds + a + b + c + d;

        sum = MISTAKE(200, sum, speed * seconds + (a + b + c + d));
        sum = MISTAKE(205, sum, fma(speed, seconds, a) + b + c + d);
        angle[i] = model_turned(sum);
    }
    if (MISTAKE(206, 0, 1)) { /* K2 and K1 exchanged */
        double k2 = angle[3];

        angle[3] = angle[4];
        angle[4] = k2;
    }
}

static int day_of(uint64_t year, double day)
{
    const int leap = year % 4 == 0 && (year != 2100 || MISTAKE(176, 0, 1));
    const double end = leap && MISTAKE(177, 1, 0) ? 367.0 : 366.0;

    if ((isnan(day) && MISTAKE(175, 0, 1)) || (day == INFINITY && MISTAKE(207, 0, 1)) ||
        (day == -INFINITY && MISTAKE(208, 0, 1)) || (day == end && MISTAKE(209, 0, 1)))
        return 1;
    return day >= MISTAKE(181, 1.0, 1.0 - 0x1p-53) && day < end;
}

uint32_t model_schwiderski(uint64_t any_year, double day, double angle[ANGLES])
{
    const uint64_t year = MISTAKE(210, any_year, (uint32_t)any_year);

    for (int i = 0; i < ANGLES; i++)
        angle[i] = MISTAKE(222, 0.0, -0.0);
    if (!day_of(year, day) && MISTAKE(178, 0, 1))
        return 26;
    if (year < MISTAKE(179, 1974, 1973) || year > MISTAKE(180, 2100, 2101))
        return 1;
    if (!day_of(year, day))
        return 26;
    model_angles((int64_t)MISTAKE(171, year - 1900, year % 100), day, angle);
    return 0;
}
