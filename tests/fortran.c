/*
 * The angles of Schwiderski's constituents beside those of the IERS routine ARG2, compiled from a copy of the user's:
 * they have to be the same to the bit, but for what the library's last rule turns to +0, an angle that has reached
 * two-pi and a zero of either sign. `tests/fortran` runs this.
 */
#include "../include/enfysgar.h"
#include "check.h"

#include <math.h>
#include <stdio.h>

#define TWO_PI 6.283185307179586476925287
#define PARTS 100 /* of each day, at random; those of a fixed list come to them */

/* As Fortran compilers call it on this platform: INTEGER, DOUBLE PRECISION, and an array of eleven. */
void arg2_(const int32_t *offset, const double *day, double angle[ENFYS_ANGLES]);

static uint64_t instants, angles, different, minus_zeros, turns;
static double farthest;

/* Shows the first few differences; all are counted. */
static void compare_angle(uint64_t year, double day, int i, double ours, double theirs)
{
    const int zero = theirs == 0.0, turn = theirs >= TWO_PI;
    const double expected = zero || turn ? 0.0 : theirs;

    angles++;
    minus_zeros += (uint64_t)(zero && signbit(theirs));
    turns += (uint64_t)turn;
    farthest = fmax(farthest, fabs(ours - expected));
    if (bits_of(ours) != bits_of(expected) && different++ < 10)
        fprintf(stderr, "fortran: FAILED: angle %d of year %" PRIu64 ", day %.17g: %s, of the routine %s\n", i, year,
                day, text_double(ours), text_double(theirs));
}

static void compare(uint64_t year, double day)
{
    const int32_t offset = (int32_t)year - 1900;
    double ours[ENFYS_ANGLES], theirs[ENFYS_ANGLES];

    arg2_(&offset, &day, theirs);
    SAME_U(enfys_schwiderski(year, day, ours), ENFYS_OK, "year %" PRIu64 ", day %.17g", year, day);
    for (int i = 0; i < ENFYS_ANGLES; i++)
        compare_angle(year, day, i, ours[i], theirs[i]);
    instants++;
}

/* The beginning and the end of a day, some parts of it, and others at random. */
static void one_day(uint64_t year, double day)
{
    static const double part[] = {0.0, 0x1p-44, 0.25, 1.0 / 3.0, 0.5, 0.75, 0.999999};

    for (size_t i = 0; i < sizeof part / sizeof *part; i++)
        compare(year, day + part[i]);
    compare(year, nextafter(day + 1.0, 0.0));
    for (int i = 0; i < PARTS; i++) {
        double at = day + (one_in(2) ? (double)(any() >> 11) * 0x1p-53 : (double)below(86400000000) / 86400e6);

        compare(year, at < day + 1.0 ? at : day);
    }
}

/* Instants at which the routine has a zero, or what is next to it, found by looking at each multiple of two-pi. */
static void close_calls(void)
{
    static const struct {
        uint64_t year;
        double day;
    } row[] = {
        {1975, 0x1.66015b85bd462p+8}, {1976, 0x1.8e8d095bf51fp+7},  {1977, 0x1.84ffc2b07f6p+6},
        {1977, 0x1.66fd974e341ccp+8}, {1978, 0x1.47ff9ece3805p+6},  {1978, 0x1.1801ce9519af6p+8},
        {1979, 0x1.072c1de1c7035p+0}, {1979, 0x1.486c21d2b184fp+6}, {1979, 0x1.8c25f95559112p+7},
        {1980, 0x1.3e0d7558aab23p+8}, {1982, 0x1.020f018c0d43fp+7}, {1982, 0x1.2303c01338c95p+8},
    };

    for (size_t i = 0; i < sizeof row / sizeof *row; i++)
        compare(row[i].year, row[i].day);
}

/* The case in the head of the routine, by the routine: this is it, and the compiler did not change it. */
static void published(void)
{
    static const double expected[ENFYS_ANGLES] = {
        0.5785483804494191418, 6.28318080000000023,   5.897950576134803669, 1.615958909210931438,
        2.378775781400364053,  4.482957906228527634,  3.904405018599632626, 3.519174794734325928,
        1.037427808761705705,  0.9637917514941207742, 1.615972056390525324,
    };
    const int32_t offset = 8;
    const double day = 311.5;
    double angle[ENFYS_ANGLES];

    arg2_(&offset, &day, angle);
    for (int i = 0; i < ENFYS_ANGLES; i++)
        WITHIN(1e-7, angle[i], expected[i], "angle %d of the routine, year 8, day 311.5", i);
}

int main(int argc, char **argv)
{
    uint64_t days = 0;

    begin("fortran", argc, argv);
    published();
    close_calls();
    for (uint64_t year = 1974; year <= 2100; year++)
        for (double day = 1.0; enfys_schwiderski_refusal(year, day) == ENFYS_OK; day += 1.0, days++)
            one_day(year, day);
    SAME_U(days, 127 * 365 + 31, "days from 1974 to 2100");
    end("the published case within 1e-7");
    printf("fortran: %" PRIu64 " angles at %" PRIu64 " instants of the %" PRIu64 " days from 1974 to 2100\n", angles,
           instants, days);
    printf("fortran: %" PRIu64 " of them differ from the routine's, by at most %g, beside %" PRIu64
           " of minus zero and %" PRIu64 " of two-pi that are +0 by rule\n",
           different, farthest, minus_zeros, turns);
    return different != 0;
}
