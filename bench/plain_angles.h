/*
 * The angles of Schwiderski's constituents in plain C, for the benchmark to time the library beside: a line each,
 * without the products by 0 and 1, which is faster than a loop over a table. Derived from the IERS routine ARG2; not
 * IERS Conventions software (NOTICE, docs/DIFFERENCES.md).
 */
#ifndef PLAIN_ANGLES_H
#define PLAIN_ANGLES_H

#include <math.h>
#include <stdint.h>

#define PLAIN_TURN 6.283185307179586476925287
#define PLAIN_RADIANS 0.174532925199e-1

static inline double turned_plain(double sum)
{
    double angle = fmod(sum, PLAIN_TURN);

    if (angle < 0.0)
        angle += PLAIN_TURN;
    return angle >= PLAIN_TURN || angle == 0.0 ? 0.0 : angle;
}

/* In one call of its own, with the parameters and the refusals that the library's has. */
__attribute__((noinline)) static uint32_t angles_plain(uint64_t year, double day, double *angle)
{
    int whole_day, days;
    double f, t, h, s, p;

    if (year < 1974 || year > 2100)
        return 1;
    if (!(day >= 1.0 && day < (year % 4 == 0 && year != 2100 ? 367.0 : 366.0)))
        return 26;
    whole_day = (int)day;
    f = (day - whole_day) * 86400.0;
    days = whole_day + 365 * ((int)year - 1975) + ((int)year - 1973) / 4;
    t = (27392.500528 + 1.000000035 * days) / 36525.0;
    h = (279.69668 + (36000.768930485 + 3.03e-4 * t) * t) * PLAIN_RADIANS;
    s = (((1.9e-6 * t - 0.001133) * t + 481267.88314137) * t + 270.434358) * PLAIN_RADIANS;
    p = (((-1.2e-5 * t - 0.010325) * t + 4069.0340329577) * t + 334.329653) * PLAIN_RADIANS;
    angle[0] = turned_plain(1.40519e-4 * f + 2 * h - 2 * s);
    angle[1] = turned_plain(1.45444e-4 * f);
    angle[2] = turned_plain(1.37880e-4 * f + 2 * h - 3 * s + p);
    angle[3] = turned_plain(1.45842e-4 * f + 2 * h);
    angle[4] = turned_plain(0.72921e-4 * f + h + 0.25 * PLAIN_TURN);
    angle[5] = turned_plain(0.67598e-4 * f + h - 2 * s - 0.25 * PLAIN_TURN);
    angle[6] = turned_plain(0.72523e-4 * f - h - 0.25 * PLAIN_TURN);
    angle[7] = turned_plain(0.64959e-4 * f + h - 3 * s + p - 0.25 * PLAIN_TURN);
    angle[8] = turned_plain(0.053234e-4 * f + 2 * s);
    angle[9] = turned_plain(0.026392e-4 * f + s - p);
    angle[10] = turned_plain(0.003982e-4 * f + 2 * h);
    return 0;
}

#endif
