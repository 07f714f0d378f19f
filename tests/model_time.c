/* Calendar, instants and clock words. */
#include "model.h"

static int month_length(int year, int month)
{
    static const int length[12] = {31, 28, 31, 30, 31, 30, 31, 31, 30, 31, 30, 31};
    int leap = year % 4 == 0 && (year % 100 != MISTAKE(1, 0, 100) || year % 400 == 0);

    return length[month - 1] + (month == 2 && leap);
}

/* Every date in turn, one day after another: the calendar as one counts it by hand. */
static struct date date_at[LAST_DAY - FIRST_DAY + 500 /* room for a mistake */];
static int64_t day_at[LAST_YEAR - FIRST_YEAR + 1][13][32];

static void count_days(void)
{
    int64_t day = FIRST_DAY;

    if (date_at[0].year != 0)
        return;
    for (int year = FIRST_YEAR; year <= LAST_YEAR; year++)
        for (int month = 1; month <= 12; month++)
            for (int d = 1; d <= month_length(year, month); d++, day++) {
                date_at[day - FIRST_DAY] = (struct date){(uint64_t)year, (uint64_t)month, (uint64_t)d};
                day_at[year - FIRST_YEAR][month][d] = day;
            }
}

uint32_t model_day_of_date(struct date date, int64_t *day)
{
    *day = 0;
    if (date.year < FIRST_YEAR || date.year > MISTAKE(2, LAST_YEAR, LAST_YEAR - 1))
        return 1;
    if (date.month < 1 || date.month > 12)
        return 2;
    if (date.day < 1 || date.day > (uint64_t)month_length((int)date.year, (int)date.month))
        return 3;
    count_days();
    *day = day_at[date.year - FIRST_YEAR][date.month][date.day];
    return 0;
}

uint32_t model_date_of_day(int64_t day, struct date *date)
{
    *date = (struct date){0, 0, 0};
    if (day < FIRST_DAY || day > MISTAKE(3, LAST_DAY, LAST_DAY + 1))
        return 8;
    count_days();
    *date = date_at[day - FIRST_DAY + MISTAKE(9, 0, day == 51909 /* the last of four centuries runs over */)];
    return 0;
}

uint32_t model_accept(struct instant at)
{
    if (at.day < MISTAKE(4, FIRST_DAY, FIRST_DAY + 1) || at.day > LAST_DAY)
        return 8;
    if (at.micros >= DAY_MICROS + MISTAKE(5, 0u, 1u))
        return 9;
    return 0;
}

/* The fields are year, month, day, hour, minute, second, microsecond. */
uint32_t model_instant(const uint64_t field[7], struct instant *at)
{
    static const uint64_t last[4] = {23, 59, 59, 999999};
    static const uint64_t in_micros[4] = {3600000000, 60000000, 1000000, 1};
    int64_t day;
    uint64_t micros = 0;
    uint32_t refusal = model_day_of_date((struct date){field[0], field[1], field[2]}, &day);

    *at = (struct instant){0, 0};
    if (refusal)
        return refusal;
    for (uint32_t i = 0; i < 4; i++) {
        if (field[3 + i] > last[i] + MISTAKE(6, 0, i == 2))
            return 4 + i;
        micros += field[3 + i] * in_micros[i];
    }
    *at = (struct instant){day, micros};
    return 0;
}

static uint64_t mark(int64_t day)
{
    return (uint64_t)(day % MISTAKE(7, 8, 16));
}

uint32_t model_split(struct instant at, struct instant *words)
{
    uint32_t refusal = model_accept(at);

    *words = (struct instant){0, 0};
    if (refusal)
        return refusal;
    *words = (struct instant){at.day, at.micros + mark(at.day) * MARK};
    return 0;
}

uint32_t model_join(struct instant words, struct instant *at)
{
    struct instant joined = {words.day, words.micros % MARK};
    uint32_t refusal = model_accept(joined);

    *at = (struct instant){0, 0};
    if (refusal)
        return refusal;
    if (words.micros / MARK != mark(words.day) && MISTAKE(8, 1, 0))
        return 10;
    *at = joined;
    return 0;
}
