/* Service (a): dates and day numbers. */
#include "../include/enfysgar.h"
#include "check.h"
#include "model.h"

#define DATE "year %" PRIu64 ", month %" PRIu64 ", day of month %" PRIu64, y, m, d

static void date(uint64_t y, uint64_t m, uint64_t d)
{
    int64_t want;
    uint32_t refusal = model_day_of_date((struct date){y, m, d}, &want);
    const struct number numbers[] = {NUMBER(want)};

    SAME_U(enfys_date_refusal(y, m, d), refusal, DATE);
    SAME_I(enfys_date_to_day(y, m, d), want, DATE);
    WHOLE(enfys_day_of_date(y, m, d, OUT(int64_t, 0)), refusal, numbers, DATE);
}

static void day(int64_t n)
{
    struct date want;
    uint32_t refusal = model_date_of_day(n, &want);
    const struct number numbers[] = {NUMBER(want.year), NUMBER(want.month), NUMBER(want.day)};

    SAME_U(enfys_day_refusal(n), refusal, "day %" PRId64, n);
    SAME_U(enfys_day_to_year(n), want.year, "day %" PRId64, n);
    SAME_U(enfys_day_to_month(n), want.month, "day %" PRId64, n);
    SAME_U(enfys_day_to_day_of_month(n), want.day, "day %" PRId64, n);
    WHOLE(enfys_date_of_day(n, OUT(uint64_t, 0), OUT(uint64_t, 1), OUT(uint64_t, 2)), refusal, numbers, "day %" PRId64,
          n);
}

/* Each day from 1900 to 2100: there, back, and the date's neighbours. */
static void every_day(void)
{
    for (int64_t n = FIRST_DAY; n <= LAST_DAY; n++) {
        uint64_t y = enfys_day_to_year(n), m = enfys_day_to_month(n), d = enfys_day_to_day_of_month(n);

        day(n);
        SAME_I(enfys_date_to_day(y, m, d), n, DATE);
        date(y, m, d);
        date(y, m, d - 1);
        date(y, m, d + 1);
        date(y, m - 1, d);
        date(y, m + 1, d);
        date(y - 1, m, d);
        date(y + 1, m, d);
    }
}

/* Dates of more years, months and days than there are, and days beyond both ends. */
static void grid(void)
{
    for (uint64_t y = 1590; y <= 2410; y++)
        for (uint64_t m = 0; m <= 14; m++)
            for (uint64_t d = 0; d <= 33; d++)
                date(y, m, d);
    for (int64_t n = -100000; n <= 200000; n++)
        day(n);
}

static void reference(void)
{
    static const struct {
        uint64_t y, m, d;
        int64_t day;
        uint32_t refusal;
    } row[] = {
        {1900, 1, 1, 15020, 0},  {2000, 2, 29, 51603, 0},  {2007, 12, 31, 54465, 0},
        {2009, 6, 25, 55007, 0}, {2100, 12, 31, 88433, 0}, {1900, 2, 29, 0, 3},
        {2100, 2, 29, 0, 3},     {1899, 12, 31, 0, 1},     {2101, 1, 1, 0, 1},
    };

    for (size_t i = 0; i < sizeof row / sizeof *row; i++) {
        uint64_t y = row[i].y, m = row[i].m, d = row[i].d;

        SAME_I(enfys_date_to_day(y, m, d), row[i].day, DATE);
        SAME_U(enfys_date_refusal(y, m, d), row[i].refusal, DATE);
        date(y, m, d);
    }
}

static void random_inputs(void)
{
    for (int i = 0; i < 400000; i++) {
        uint64_t y = one_in(3) ? edge() : (uint64_t)between(FIRST_YEAR - 2, LAST_YEAR + 2);
        uint64_t m = one_in(3) ? edge() : below(14);
        uint64_t d = one_in(3) ? edge() : below(33);

        date(y, m, d);
        day(one_in(2) ? (int64_t)edge() : some_day());
    }
}

int main(int argc, char **argv)
{
    begin("calendar", argc, argv);
    reference();
    every_day();
    grid();
    random_inputs();
    return end(NULL);
}
