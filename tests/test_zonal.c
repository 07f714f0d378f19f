/* Service (e): zonal-tide corrections, beside double precision. */
#include "../include/enfysgar.h"
#include "check.h"
#include "model.h"

#include <math.h>
#include <stdio.h>

/* What is promised: the distances of UT1 in ns, length of day in ps, rate in 10^-20 rad/s. */
#define UT1_DISTANCE 5.0
#define LOD_DISTANCE 50.0
#define RATE_DISTANCE 5.0

#define INSTANT "day %" PRId64 ", micros %" PRIu64, day, micros

/* The instants that were answered, and how far the three numbers were at most. */
static int answered;
static double farthest[3];

static void note(int i, double got, double expected)
{
    if (fabs(got - expected) > farthest[i])
        farthest[i] = fabs(got - expected);
}

static void zonal(int64_t day, uint64_t micros)
{
    uint32_t refusal = model_accept((struct instant){day, micros});
    double want[3];
    int32_t ut1, lod, rate;
    const struct number numbers[] = {NUMBER(ut1), NUMBER(lod), NUMBER(rate)};

    SAME_U(enfys_zonal_refusal(day, micros), refusal, INSTANT);
    if (refusal) {
        SAME_I(enfys_zonal_ut1(day, micros), 0, INSTANT);
        SAME_I(enfys_zonal_lod(day, micros), 0, INSTANT);
        SAME_I(enfys_zonal_rate(day, micros), 0, INSTANT);
    } else {
        model_zonal((struct instant){day, micros}, want);
        WITHIN(UT1_DISTANCE, ut1 = enfys_zonal_ut1(day, micros), want[0], INSTANT);
        WITHIN(LOD_DISTANCE, lod = enfys_zonal_lod(day, micros), want[1], INSTANT);
        WITHIN(RATE_DISTANCE, rate = enfys_zonal_rate(day, micros), want[2], INSTANT);
        answered++;
        note(0, ut1, want[0]);
        note(1, lod, want[1]);
        note(2, rate, want[2]);
    }
    WHOLE(enfys_zonal(day, micros, OUT(int32_t, 0), OUT(int32_t, 1), OUT(int32_t, 2)), refusal, numbers, INSTANT);
}

/*
 * The case that RG_ZONT2 gives for day 54465: seconds, seconds and radians per second. These are not
 * the exact sums, so a unit more is allowed.
 */
static void reference(void)
{
    WITHIN(UT1_DISTANCE + 1, enfys_zonal_ut1(54465, 0), 7.983287678576557467e-2 * 1e9, "day 54465, micros 0");
    WITHIN(LOD_DISTANCE + 1, enfys_zonal_lod(54465, 0), 5.035303035410713729e-5 * 1e12, "day 54465, micros 0");
    WITHIN(RATE_DISTANCE + 1, enfys_zonal_rate(54465, 0), -4.249711616463017e-14 * 1e20, "day 54465, micros 0");
    zonal(54465, 0);
}

/* Both ends of the range and the microseconds around midnights, noons and J2000. */
static void edges(void)
{
    static const int64_t day[] = {FIRST_DAY - 1, FIRST_DAY,    FIRST_DAY + 1, 51543,       51544,
                                  51545,         LAST_DAY - 1, LAST_DAY,      LAST_DAY + 1};

    for (size_t i = 0; i < sizeof day / sizeof *day; i++)
        for (uint64_t m = 0; m < 4; m++) {
            zonal(day[i], m);
            zonal(day[i], DAY_MICROS / 2 - 2 + m);
            zonal(day[i], DAY_MICROS - 2 + m);
        }
    for (int64_t d = FIRST_DAY; d < LAST_DAY; d += 7) {
        zonal(d, DAY_MICROS - 1);
        zonal(d + 1, 0);
    }
}

int main(int argc, char **argv)
{
    char note_text[100];

    begin("zonal", argc, argv);
    reference();
    edges();
    for (int i = 0; i < 100000; i++)
        zonal(between(FIRST_DAY, LAST_DAY), below(DAY_MICROS));
    for (int i = 0; i < 50000; i++)
        zonal(some_day(), some_micros());
    for (int i = 0; i < 200000; i++)
        zonal((int64_t)edge(), edge());
    snprintf(note_text, sizeof note_text, "at %d instants at most %.2f, %.1f and %.2f from double precision", answered,
             farthest[0], farthest[1], farthest[2]);
    return end(note_text);
}
