/* Service (f): nutation offsets, at most 2 nanoarcseconds from the exact ones, their uncertainty, and the probes. */
#include "../include/enfysgar.h"
#include "check.h"
#include "model.h"

#include <math.h>
#include <stdio.h>

#define INSTANT "day %" PRId64 ", micros %" PRIu64, day, micros

/* 2, and room for the model's own rounding: angles of some hundred radians, offsets to 400000. */
#define DISTANCE 2.000001

#define MOST_PROBES 5

static double farthest;
static unsigned probed[MOST_PROBES + 1];

static void nutation(int64_t day, uint64_t micros)
{
    struct instant at = {day, micros};
    uint32_t refusal = model_accept(at);
    double want[2];
    int64_t x, y;
    uint64_t uncertainty = refusal ? 0 : model_uncertainty(at),
             probes = refusal ? MISTAKE(144, 0, 1) : model_probes(at);
    const struct number numbers[] = {NUMBER(x), NUMBER(y), NUMBER(uncertainty)};

    SAME_U(enfys_nutation_refusal(day, micros), refusal, INSTANT);
    SAME_U(enfys_nutation_uncertainty(day, micros), uncertainty, INSTANT);
    SAME_U(enfys_nutation_probes(day, micros), probes, INSTANT);
    probed[probes < MOST_PROBES ? probes : MOST_PROBES]++;
    if (refusal) {
        SAME_I(enfys_nutation_x(day, micros), 0, INSTANT);
        SAME_I(enfys_nutation_y(day, micros), 0, INSTANT);
    } else {
        model_nutation(at, want);
        WITHIN(DISTANCE, x = enfys_nutation_x(day, micros), want[0], INSTANT);
        WITHIN(DISTANCE, y = enfys_nutation_y(day, micros), want[1], INSTANT);
        farthest = fmax(farthest, fmax(fabs((double)x - want[0]), fabs((double)y - want[1])));
    }
    WHOLE(enfys_nutation(day, micros, OUT(int64_t, 0), OUT(int64_t, 1), OUT(uint64_t, 2)), refusal, numbers, INSTANT);
}

/* Four uncertainties, and the probes around the dates of the first, the eighth and the last row. */
static void reference(void)
{
    SAME_U(enfys_nutation_uncertainty(45700, 0), 39440, "day 45700, micros 0");
    SAME_U(enfys_nutation_uncertainty(45699, 0), 39705, "day 45699, micros 0");
    SAME_U(enfys_nutation_uncertainty(45883, 0), 30840, "day 45883, micros 0");
    SAME_U(enfys_nutation_uncertainty(56294, 0), 3985, "day 56294, micros 0");
    SAME_U(enfys_nutation_probes(45700, 0), 0, "day 45700, micros 0");
    SAME_U(enfys_nutation_probes(45700, 1), 4, "day 45700, micros 1");
    SAME_U(enfys_nutation_probes(48256, DAY_MICROS - 1), 5, "day 48256, the last microsecond");
    SAME_U(enfys_nutation_probes(48257, 0), 4, "day 48257, micros 0");
    SAME_U(enfys_nutation_probes(56292, DAY_MICROS - 1), 5, "day 56292, the last microsecond");
    SAME_U(enfys_nutation_probes(56293, 0), 0, "day 56293, micros 0");
}

/* Row dates, the microseconds and the days around them, and the ends of the range. */
static void around_rows(void)
{
    for (int i = 0; i < MODEL_ROWS; i++) {
        int64_t day = model_built_in[i].day;

        for (uint64_t m = 0; m < 5; m++) {
            nutation(day - 1, DAY_MICROS - 1 - m);
            nutation(day, m);
        }
        for (int64_t near = -3; near <= 3; near++)
            for (int n = 0; n < 40; n++)
                nutation(day + near, below(DAY_MICROS));
    }
    for (int64_t near = -2; near <= 2; near++)
        for (uint64_t m = 0; m < 3; m++) {
            nutation(FIRST_DAY + near, m);
            nutation(FIRST_DAY + near, DAY_MICROS - 2 + m);
            nutation(LAST_DAY + near, m);
            nutation(LAST_DAY + near, DAY_MICROS - 2 + m);
        }
}

int main(int argc, char **argv)
{
    char note[100];

    begin("nutation", argc, argv);
    reference();
    around_rows();
    for (int64_t day = FIRST_DAY; day <= LAST_DAY; day++)
        nutation(day, 0);
    for (int i = 0; i < 100000; i++)
        nutation(between(45600, 56400), below(DAY_MICROS));
    for (int i = 0; i < 100000; i++)
        nutation(some_day(), some_micros());
    for (int i = 0; i < 200000; i++)
        nutation((int64_t)edge(), edge());
    /* thirty rows take four probes or five */
    for (int i = 4; i <= MOST_PROBES; i++)
        if (probed[i] < 1000)
            differs("the inputs", text_u64(probed[i]), "1000 or more", "times that %d probes came up", i);
    snprintf(note, sizeof note, "farthest from double precision %.3f", farthest);
    return end(note);
}
