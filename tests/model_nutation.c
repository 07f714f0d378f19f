/*
 * Free-core-nutation offsets in double precision, with libm's sine and cosine, and
 * their uncertainty in whole numbers, over the built-in rows or over rows that are read
 * from bytes. Derived from the IERS routine FCNNUT, whose rows the built-in ones are;
 * not IERS Conventions software (NOTICE, docs/DIFFERENCES.md).
 */
#include "model.h"

#include <math.h>
#include <stdlib.h>

#define DAY ((int64_t)DAY_MICROS)

/* Day, amplitudes XC and XS, uncertainty; the last three in hundredths of a microarcsecond. */
const struct nutation_row model_built_in[MODEL_ROWS] = {
    {45700, 455, -3658, 1972},    {46066, -14182, -10535, 1112}, {46431, -24656, -17021, 947},
    {46796, -28189, -15924, 865}, {47161, -25505, -4358, 811},   {47527, -21046, -8856, 731},
    {47892, -18779, -5735, 641},  {48257, -16301, 2626, 552},    {48622, -14553, 4465, 480},
    {48988, -14512, 5149, 595},   {49353, -10993, 1687, 945},    {49718, -8730, 536, 825},
    {50083, -9061, 152, 767},     {50449, -9473, 3535, 440},     {50814, -6752, 2757, 340},
    {51179, -4411, -1431, 345},   {51544, 521, -7487, 326},      {51910, 7037, -12966, 286},
    {52275, 8647, -12784, 275},   {52640, 11044, -4273, 259},    {53005, 11478, -13, 253},
    {53371, 13296, -478, 272},    {53736, 15736, 2863, 219},     {54101, 16040, 5887, 187},
    {54466, 15676, 10124, 174},   {54832, 14299, 14301, 189},    {55197, 3370, 18446, 195},
    {55562, 76, 25370, 114},      {55927, 2547, 27166, 107},     {56293, 11342, 25650, 186},
};

/* The last row at or before the instant; -1 before the first. */
static int row_before(const struct nutation_row *row, int rows, struct instant at)
{
    int i = -1;

    while (i + 1 < rows && row[i + 1].day + MISTAKE(31, 0, i + 1 == rows - 1 ? -1 : 0) <= at.day)
        i++;
    return i;
}

/* The microseconds from a row's date to an instant. */
static int64_t since(const struct nutation_row *row, struct instant at)
{
    return (at.day - row->day) * DAY + (int64_t)at.micros;
}

static void offsets_of(const struct nutation_row *row, int rows, struct instant at, double offset[2])
{
    double date = (double)at.day + (double)at.micros / (double)DAY;
    double phi = 2.0 * 3.14159265358979323846 / MISTAKE(32, -430.21, 430.21) * (date - 51544.5);
    int i = row_before(row, rows, at);
    double xc, xs;

    if (i < 0) {
        xc = (double)row[0].xc;
        xs = (double)row[0].xs;
    } else if (i == rows - 1) {
        xc = (double)row[i].xc;
        xs = (double)row[i].xs;
    } else {
        double part = (double)since(&row[i], at) / (double)((row[i + 1].day - row[i].day) * DAY);

        xc = (double)row[i].xc + (double)(row[i + 1].xc - row[i].xc) * part;
        xs = (double)row[i].xs + (double)(row[i + 1].xs - row[i].xs) * part + MISTAKE(33, 0, i == 27);
    }
    /* Hundredths of a microarcsecond to nanoarcseconds. */
    offset[0] = 10.0 * (xc * cos(phi) - xs * sin(phi)) + MISTAKE(34, 0, 3);
    offset[1] = 10.0 * (xs * cos(phi) + xc * sin(phi));
}

/* Twice u in nanoarcseconds is 20 times u in hundredths of a microarcsecond; 0.1325 a day is 265 so. */
static uint64_t uncertainty_of(const struct nutation_row *row, int rows, struct instant at)
{
    int i = row_before(row, rows, at);
    __int128 above, below;

    if (i < 0 || i == rows - 1) {
        const struct nutation_row *end = &row[i < 0 ? 0 : i];

        above = (__int128)20 * end->error * DAY + (__int128)265 * (i < 0 ? -since(end, at) : since(end, at));
        below = DAY;
    } else {
        int64_t more = row[i + 1].error - row[i].error;

        if (more < 0)
            more = MISTAKE(272, more, 0); /* it does not fall */
        if (MISTAKE(273, 0, 1))           /* it goes away from the next row's */
            more = -more;
        below = (__int128)(row[i + 1].day - row[i].day) * DAY;
        above = 20 * (row[i].error * below + (__int128)more * since(&row[i], at));
        if (above < 0)
            above = -above;
    }
    return (uint64_t)((above + MISTAKE(35, below - 1, 0)) / below);
}

/*
 * The steps of the halving rule from the rows `low` and `high`, counted from 1, until they are neighbours. The comment
 * beside a mistake says what it does.
 */
static uint64_t halvings(const struct nutation_row *row, int low, int high, struct instant at)
{
    int middle = (low + high + MISTAKE(138, 0, 1)) / 2; /* rounded up */
    int reached;

    if (high - low < 2)
        return MISTAKE(139, 0, 1); /* one more at the end */
    if (MISTAKE(140, 0, 1))        /* a walk from the front */
        middle = low + 1;
    reached = since(&row[middle - 1], at) >= MISTAKE(141, 0, 1); /* a row at the instant becomes the upper end */
    return 1 + (reached ? halvings(row, middle, high, at) : halvings(row, low, middle, at));
}

static uint64_t probes_of(const struct nutation_row *row, int rows, struct instant at)
{
    if (since(&row[0], at) <= MISTAKE(142, 0, -1) ||     /* but not at the first row's date */
        since(&row[rows - 1], at) >= MISTAKE(143, 0, 1)) /* but not at the last row's */
        return 0;
    return halvings(row, 1, rows, at);
}

void model_nutation(struct instant at, double offset[2])
{
    offsets_of(model_built_in, MODEL_ROWS, at, offset);
}

uint64_t model_uncertainty(struct instant at)
{
    return uncertainty_of(model_built_in, MODEL_ROWS, at);
}

uint64_t model_probes(struct instant at)
{
    return probes_of(model_built_in, MODEL_ROWS, at);
}

/* Rows from bytes. The comment beside a mistake says what it does. */

static uint64_t number(const uint8_t *at, int bytes)
{
    uint64_t x = 0;

    for (int i = 0; i < bytes; i++)
        x = x * 256 + at[i];
    return x;
}

static int64_t signed_number(const uint8_t *at)
{
    int64_t x = (int64_t)number(at, 4);

    return x < INT64_C(0x80000000) ? x : x - INT64_C(0x100000000);
}

static struct nutation_row row_of(const uint8_t *at)
{
    struct nutation_row row = {(int64_t)number(at, 4), signed_number(at + 4), signed_number(at + 8),
                               signed_number(at + 12)};

    if (MISTAKE(117, 0, 1)) /* the low byte of a day first */
        row.day = at[0] + 256 * (at[1] + 256 * (at[2] + INT64_C(256) * at[3]));
    if (MISTAKE(118, 0, 1)) /* the uncertainty without its sign */
        row.error = llabs(row.error);
    if (MISTAKE(131, 0, 1)) /* XS before XC */
        row = (struct nutation_row){row.day, row.xs, row.xc, row.error};
    return row;
}

/* Whether the length is what the bytes say, and that of 2 to 200 rows. */
static int length_right(const uint8_t *bytes, size_t length)
{
    size_t whole = MISTAKE(113, length, length % 65536); /* by 16 bits of it */
    uint64_t field;

    if (length < 3)
        return 0;
    field = MISTAKE(112, number(bytes, 2), whole);                     /* the field is not looked at */
    if (field != whole && MISTAKE(132, 1, field % 256 != whole % 256)) /* the low byte alone */
        return 0;
    if ((whole - 3) % 16 != 0 && MISTAKE(133, 1, 0)) /* bytes behind the last row */
        return 0;
    return whole >= 3 + 16 * (size_t)MISTAKE(122, LEAST_ROWS, 1) &&
           whole < 3 + 16 * (size_t)MISTAKE(121, MOST_ROWS + 1, MOST_ROWS + 2);
}

static int day_right(const struct nutation_row *row, int i)
{
    if (row[i].day < MISTAKE(123, FIRST_DAY, 15019) || row[i].day > MISTAKE(124, LAST_DAY, 88434))
        return 0;
    return i == 0 || row[i].day > row[i - 1].day - MISTAKE(110, 0, 1); /* or equal */
}

static int sizes_right(const struct nutation_row *row)
{
    return row->error >= MISTAKE(114, 1, 0) && row->error <= MISTAKE(126, 100000, 100001) &&
           row->xc <= MISTAKE(115, 100000, 100001) && row->xc >= MISTAKE(127, -100000, -100001) &&
           row->xs <= MISTAKE(116, 100000, 100001) && row->xs >= MISTAKE(128, -100000, -100001);
}

/* The refusal of rows, 21 to 24, or 0 with the rows and how many they are. */
static uint32_t read_rows(const uint8_t *bytes, size_t length, struct nutation_row row[MOST_ROWS + 1], int *rows)
{
    if (MISTAKE(129, 0, length >= 3 && bytes[2] != 1)) /* the version first */
        return 22;
    if (!length_right(bytes, length))
        return 21;
    *rows = (int)((length % 65536 - 3) / 16);
    for (int i = 0; i < *rows; i++)
        row[i] = row_of(bytes + 3 + 16 * i);
    if (bytes[2] != 1 && MISTAKE(119, 1, 0)) /* any version */
        return 22;
    for (int i = 0; i < *rows - MISTAKE(125, 0, 1); i++) { /* without the last */
        if (MISTAKE(111, 0, !sizes_right(&row[i])))        /* row by row */
            return 24;
        if (!day_right(row, i))
            return 23;
    }
    for (int i = 0; i < *rows; i++)
        if (!sizes_right(&row[i]))
            return 24;
    return 0;
}

uint32_t model_nutation_rows(const uint8_t *bytes, size_t length, struct instant at, double offset[2],
                             uint64_t *uncertainty, uint64_t *probes)
{
    struct nutation_row row[MOST_ROWS + 1];
    int rows = 0;
    uint32_t refusal = read_rows(bytes, length, row, &rows), instant = model_accept(at);

    offset[0] = offset[1] = 0.0;
    *uncertainty = *probes = 0;
    if (MISTAKE(120, 0, instant == 8) || MISTAKE(130, 0, refusal > 22 && instant != 0)) /* the instant first */
        return instant;
    if (refusal != 0 || instant != 0)
        return refusal != 0 ? refusal : instant;
    offsets_of(row, rows, at, offset);
    *uncertainty = uncertainty_of(row, rows, at);
    *probes = probes_of(row, rows, at);
    return 0;
}
