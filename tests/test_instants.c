/* Service (b): instants from dates and times of day. */
#include "../include/enfysgar.h"
#include "check.h"
#include "model.h"

#include <string.h>

static void instant(const uint64_t f[7])
{
    struct instant want;
    uint32_t refusal = model_instant(f, &want);
    const struct number numbers[] = {NUMBER(want.day), NUMBER(want.micros)};

    SAME_U(enfys_instant_refusal(SEVEN), refusal, FIELDS);
    SAME_I(enfys_instant_day(SEVEN), want.day, FIELDS);
    SAME_U(enfys_instant_micros(SEVEN), want.micros, FIELDS);
    WHOLE(enfys_instant(SEVEN, OUT(int64_t, 0), OUT(uint64_t, 1)), refusal, numbers, FIELDS);
}

static const uint64_t last[7] = {LAST_YEAR, 12, 31, 23, 59, 59, 999999};
static const uint64_t first[7] = {FIRST_YEAR, 1, 1, 0, 0, 0, 0};

static void good(uint64_t f[7])
{
    for (int i = 0; i < 7; i++)
        f[i] = one_in(4) ? (one_in(2) ? last[i] : first[i]) : (uint64_t)between((int64_t)first[i], (int64_t)last[i]);
}

/* The ends of the range, second 59 with microsecond 999,999, and second 60. */
static void reference(void)
{
    uint64_t f[7] = {2007, 12, 31, 23, 59, 59, 999999};

    SAME_U(enfys_instant_refusal(SEVEN), 0, FIELDS);
    SAME_I(enfys_instant_day(SEVEN), 54465, FIELDS);
    SAME_U(enfys_instant_micros(SEVEN), UINT64_C(86399999999), FIELDS);
    instant(f);
    f[5] = 60;
    SAME_U(enfys_instant_refusal(SEVEN), 6, FIELDS);
    instant(f);
    instant(first);
    instant(last);
}

/* Every choice of wrong fields among the seven: the first wrong one is named. */
static void orders(void)
{
    static const uint64_t wrong[7] = {LAST_YEAR + 1, 13, 32, 24, 60, 60, 1000000};

    for (int round = 0; round < 200; round++)
        for (unsigned choice = 0; choice < 128; choice++) {
            uint64_t f[7];

            good(f);
            for (int i = 0; i < 7; i++)
                if (choice >> i & 1)
                    f[i] = round == 0 ? wrong[i] : wrong[i] + (any() >> below(64)) % (UINT64_MAX - wrong[i]);
            instant(f);
        }
}

/* Every second of a day, and every microsecond of some milliseconds. */
static void through_a_day(void)
{
    uint64_t f[7] = {2000, 2, 29, 0, 0, 0, 0};

    for (f[3] = 0; f[3] < 24; f[3]++)
        for (f[4] = 0; f[4] < 60; f[4]++)
            for (f[5] = 0; f[5] < 60; f[5]++) {
                f[6] = below(1000000);
                instant(f);
            }
    memcpy(f, last, sizeof f);
    for (f[6] = 998000; f[6] < 1001000; f[6]++)
        instant(f);
}

static void random_inputs(void)
{
    for (int i = 0; i < 300000; i++) {
        uint64_t f[7];

        good(f);
        if (one_in(2))
            f[below(7)] = edge();
        if (one_in(8))
            f[below(7)] = edge();
        instant(f);
    }
}

int main(int argc, char **argv)
{
    begin("instants", argc, argv);
    reference();
    orders();
    through_a_day();
    random_inputs();
    return end(NULL);
}
