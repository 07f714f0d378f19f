/* Service (c): clock words. */
#include "../include/enfysgar.h"
#include "check.h"
#include "model.h"

#define INSTANT "day %" PRId64 ", micros %" PRIu64, day, micros
#define WORDS "day word %" PRId64 ", time word %" PRIu64, d, t

static void split(int64_t day, uint64_t micros)
{
    struct instant want;
    uint32_t refusal = model_split((struct instant){day, micros}, &want);
    const struct number numbers[] = {NUMBER(want.day), NUMBER(want.micros)};

    SAME_U(enfys_split_refusal(day, micros), refusal, INSTANT);
    SAME_I(enfys_split_day_word(day, micros), want.day, INSTANT);
    SAME_U(enfys_split_time_word(day, micros), want.micros, INSTANT);
    WHOLE(enfys_split(day, micros, OUT(int64_t, 0), OUT(uint64_t, 1)), refusal, numbers, INSTANT);
}

static void join(int64_t d, uint64_t t)
{
    struct instant want;
    uint32_t refusal = model_join((struct instant){d, t}, &want);
    const struct number numbers[] = {NUMBER(want.day), NUMBER(want.micros)};

    SAME_U(enfys_join_refusal(d, t), refusal, WORDS);
    SAME_I(enfys_join_day(d, t), want.day, WORDS);
    SAME_U(enfys_join_micros(d, t), want.micros, WORDS);
    WHOLE(enfys_join(d, t, OUT(int64_t, 0), OUT(uint64_t, 1)), refusal, numbers, WORDS);
}

static void reference(void)
{
    SAME_U(enfys_split_time_word(54465, 0), MARK, "day 54465, micros 0");
    SAME_U(enfys_join_refusal(54465, MARK), 0, "day word 54465, time word of its 0 h");
    SAME_U(enfys_join_refusal(54465, 2 * MARK), 10, "day word 54465, time word of the next 0 h");
    split(54465, 0);
    join(54465, MARK);
    join(54465, 2 * MARK);
}

/*
 * Words of two moments: `day` gives the day word and a day from seven before to seven after gives
 * the time word. They join only where both are of one day, and then give the time word's moment.
 */
static void torn(int64_t day, int64_t apart, uint64_t micros)
{
    int64_t d = enfys_split_day_word(day, 0);
    uint64_t t = enfys_split_time_word(day + apart, micros);

    if (model_accept((struct instant){day + apart, micros}) != 0)
        return;
    SAME_U(enfys_join_refusal(d, t), apart == 0 ? 0 : 10, WORDS);
    SAME_I(enfys_join_day(d, t), apart == 0 ? day : 0, WORDS);
    SAME_U(enfys_join_micros(d, t), apart == 0 ? micros : 0, WORDS);
    join(d, t);
}

/* All days: there and back, torn reads up to seven days apart. */
static void every_day(void)
{
    for (int64_t day = FIRST_DAY; day <= LAST_DAY; day++) {
        uint64_t micros = some_micros() % DAY_MICROS;

        split(day, micros);
        join(day, enfys_split_time_word(day, micros));
        for (int64_t apart = -7; apart <= 7; apart++)
            if (day % 8 == 0 || apart == day % 7 || apart == 0)
                torn(day, apart, micros);
    }
}

/* All marks, those above 7 too, with micros at their ends. */
static void every_mark(void)
{
    static const uint64_t micros[] = {0, 1, DAY_MICROS - 1, DAY_MICROS, DAY_MICROS + 1, MARK - 1};

    for (int64_t day = FIRST_DAY - 10; day < FIRST_DAY + 20; day++)
        for (uint64_t mark = 0; mark < 64; mark++)
            for (size_t i = 0; i < sizeof micros / sizeof *micros; i++) {
                join(day, mark * MARK + micros[i]);
                join(day + LAST_DAY - FIRST_DAY, mark * MARK + micros[i]);
                join(day, (UINT64_MAX / MARK - mark) * MARK + micros[i]);
                join(day, ((uint64_t)day % 8 + (UINT64_C(1) << mark % 27)) * MARK + micros[i]);
            }
}

static void random_inputs(void)
{
    for (int i = 0; i < 400000; i++) {
        int64_t day = some_day();
        uint64_t micros = some_micros();

        split(day, micros);
        join(day, edge());
        join(day, any());
        join(day, micros % MARK + (one_in(2) ? (uint64_t)day % 8 : below(8)) * MARK);
    }
}

int main(int argc, char **argv)
{
    begin("clock", argc, argv);
    reference();
    every_day();
    every_mark();
    random_inputs();
    return end(NULL);
}
