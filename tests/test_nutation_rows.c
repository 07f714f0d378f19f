/*
 * Service (f) with rows from bytes: which bytes are refused and by which number, and for accepted ones
 * offsets at most 2 nanoarcseconds from the exact ones, their uncertainty, and the probes. The built-in rows, written
 * as bytes, have to give what the built-in edition gives.
 */
#include "../include/enfysgar.h"
#include "check.h"
#include "model.h"

#include <math.h>
#include <stdio.h>
#include <string.h>

/* 2, and room for the model's own rounding: angles of some hundred radians, offsets to 1500000. */
#define DISTANCE 2.000001

#define ROWS_TRIED 206 /* more than are accepted */
#define LONGEST (2 * 65536 + 4096)
#define GUARD 32

/* What is asked: the bytes in `bytes`, and what is tried with them, for a message. */
static uint8_t bytes[LONGEST];
static size_t length;
static const char *tried = "";

static uint8_t *front, *back; /* blocks behind and before unmapped memory, each with room for guard bytes */
static unsigned seen[25], probed[9];
static double farthest;

static const char *text_slice(void)
{
    static char text[3 * 67 + 4];
    size_t n = length < 67 ? length : 67;

    for (size_t i = 0; i < n; i++)
        sprintf(text + 3 * i, "%02x ", bytes[i]);
    strcpy(text + 3 * n, n < length ? ".." : "");
    return text;
}

#define INPUTS "%s: day %" PRId64 ", micros %" PRIu64 ", %zu bytes: %s", tried, day, micros, length, text_slice()

/* All six calls on a slice. */
static void compare(const uint8_t *rows, int64_t day, uint64_t micros)
{
    double want[2];
    int64_t x = 0, y = 0;
    uint64_t uncertainty, probes;
    uint32_t refusal = model_nutation_rows(bytes, length, (struct instant){day, micros}, want, &uncertainty, &probes);
    const struct number numbers[] = {NUMBER(x), NUMBER(y), NUMBER(uncertainty)};

    SAME_U(enfys_nutation_rows_refusal(rows, length, day, micros), refusal, INPUTS);
    SAME_U(enfys_nutation_rows_uncertainty(rows, length, day, micros), uncertainty, INPUTS);
    SAME_U(enfys_nutation_rows_probes(rows, length, day, micros), refusal ? MISTAKE(144, 0, 1) : probes, INPUTS);
    probed[probes < 8 ? probes : 8] += refusal == 0;
    if (refusal) {
        SAME_I(enfys_nutation_rows_x(rows, length, day, micros), 0, INPUTS);
        SAME_I(enfys_nutation_rows_y(rows, length, day, micros), 0, INPUTS);
    } else {
        WITHIN(DISTANCE, x = enfys_nutation_rows_x(rows, length, day, micros), want[0], INPUTS);
        WITHIN(DISTANCE, y = enfys_nutation_rows_y(rows, length, day, micros), want[1], INPUTS);
        farthest = fmax(farthest, fmax(fabs((double)x - want[0]), fabs((double)y - want[1])));
    }
    WHOLE(enfys_nutation_rows(rows, length, day, micros, OUT(int64_t, 0), OUT(int64_t, 1), OUT(uint64_t, 2)), refusal,
          numbers, INPUTS);
    seen[refusal]++;
}

/* The bytes in lent memory, in turn before and behind what is unmapped; on the other side of them are guard bytes. */
static void ask(int64_t day, uint64_t micros)
{
    static unsigned turn;
    int behind = turn++ % 2;
    uint8_t *rows = behind ? front : back + GUARD + LONGEST - length;
    uint8_t *guard = behind ? rows + length : rows - GUARD, before[GUARD];

    for (size_t i = 0; i < GUARD; i++)
        before[i] = (uint8_t)any();
    memcpy(guard, before, GUARD);
    memcpy(rows, bytes, length);
    compare(rows, day, micros);
    if (memcmp(rows, bytes, length) != 0 || memcmp(guard, before, GUARD) != 0)
        differs("enfys_nutation_rows..", "a byte changed", "none", INPUTS);
}

static void put(size_t at, int count, uint64_t x)
{
    for (int i = count; i-- > 0; x >>= 8)
        bytes[at + (size_t)i] = (uint8_t)(x & 0xff);
}

/* Sets number k (day, XC, XS, uncertainty) of row i. */
static void put_number(int i, int k, int64_t x)
{
    put((size_t)(3 + 16 * i + 4 * k), 4, (uint64_t)x);
}

static void put_row(int i, const struct nutation_row *row)
{
    put_number(i, 0, row->day);
    put_number(i, 1, row->xc);
    put_number(i, 2, row->xs);
    put_number(i, 3, row->error);
}

/* The bytes of a table; of more than 200 rows too. */
static void pack(const struct nutation_row *row, int rows)
{
    length = (size_t)(3 + 16 * rows);
    put(0, 2, length);
    bytes[2] = 1;
    for (int i = 0; i < rows; i++)
        put_row(i, &row[i]);
}

static int64_t some_amplitude(void)
{
    return one_in(4) ? (one_in(2) ? 100000 : -100000) : one_in(3) ? between(-3, 3) : between(-100000, 100000);
}

/* Days that rise through the limits in steps of all sizes, numbers inside their limits and often at them. */
static void some_table(struct nutation_row *row, int rows)
{
    int dense = one_in(4);
    int64_t day = one_in(4) ? FIRST_DAY : between(FIRST_DAY, LAST_DAY - rows + 1);

    for (int i = 0; i < rows; i++) {
        int64_t left = LAST_DAY - day - (rows - 1 - i); /* what the gap before this row may take of the days */
        int64_t most = dense || left <= 0 ? 0 : one_in(8) ? left : left / (rows - i);

        day += most > 0 ? between(0, most) : 0;
        if (i == rows - 1 && one_in(4))
            day = LAST_DAY;
        row[i] = (struct nutation_row){day++, some_amplitude(), some_amplitude(),
                                       one_in(4) ? (one_in(2) ? 1 : 100000) : between(1, 100000)};
    }
    pack(row, rows);
}

/* Asks at an instant that has something to do with the rows, or with the limits of instants, or is any. */
static void ask_somewhere(const struct nutation_row *row, int rows)
{
    int64_t day = row[below((uint64_t)rows)].day;

    switch (below(10)) {
    case 0:
        ask(day, below(3));
        break;
    case 1:
        ask(day - 1, DAY_MICROS - 1 - below(3));
        break;
    case 2:
        ask(row[0].day - between(0, 5), some_micros());
        break;
    case 3:
        ask(row[rows - 1].day + between(-1, 5), some_micros());
        break;
    case 4:
        ask((int64_t)edge(), edge());
        break;
    case 5:
        ask(some_day(), some_micros());
        break;
    case 6:
        ask(between(FIRST_DAY, LAST_DAY), below(DAY_MICROS));
        break;
    case 7:
        ask(row[0].day + (row[rows - 1].day - row[0].day) / 2, below(DAY_MICROS));
        break;
    default:
        ask(day + between(0, 400), below(DAY_MICROS));
    }
}

/* Asks at an instant that is accepted, and at some that are not: what the rows are refused by comes first. */
static void ask_all_ways(void)
{
    ask(50000, 12345678901);
    if (one_in(4)) {
        ask(INT64_MIN, UINT64_MAX);
        ask(FIRST_DAY - 1, 0);
        ask(LAST_DAY, DAY_MICROS);
    }
}

/* In every row of a table: numbers at their limits and beyond them, days that do not rise. */
static void every_row(int rows)
{
    static const int64_t numbers[] = {0,       1,     -1,     99999,     100000,     100001,    -99999,     -100000,
                                      -100001, 65536, 131072, INT32_MAX, -INT32_MAX, INT32_MIN, 0x01000000, 0x00010000};
    static const int64_t days[] = {0, 1, FIRST_DAY - 1, LAST_DAY + 1, INT32_MAX, INT64_C(0x80000000), UINT32_MAX};
    struct nutation_row row[ROWS_TRIED];

    tried = "a number of a row";
    some_table(row, rows);
    ask_all_ways();
    for (int i = 0; i < rows; i++) {
        for (size_t n = 0; n < sizeof numbers / sizeof *numbers; n++)
            for (int k = 1; k < 4; k++) {
                put_number(i, k, numbers[n]);
                ask_all_ways();
                put_row(i, &row[i]);
            }
        for (size_t n = 0; n < sizeof days / sizeof *days; n++) {
            put_number(i, 0, days[n]);
            ask_all_ways();
        }
        for (int near = -1; near <= 1; near++) { /* beside the days of the rows around it, and at the limits */
            put_number(i, 0, i > 0 ? row[i - 1].day + near : FIRST_DAY + near);
            ask_all_ways();
            put_number(i, 0, i < rows - 1 ? row[i + 1].day + near : LAST_DAY + near);
            ask_all_ways();
        }
        put_row(i, &row[i]);
    }
}

/* A wrong size in one row and a wrong day in another, in either order; with a wrong version and a wrong length. */
static void order_of_refusals(int rows, int i, int j)
{
    struct nutation_row row[ROWS_TRIED];

    tried = "two refusals";
    some_table(row, rows);
    put_number(i, 1 + (int)below(3), one_in(2) ? 100001 : -100001);
    ask_all_ways();
    put_number(j, 0, one_in(2) ? (j > 0 ? row[j - 1].day : FIRST_DAY - 1) : LAST_DAY + 1);
    ask_all_ways();
    bytes[2] = (uint8_t)below(256);
    ask_all_ways();
    bytes[one_in(2)] ^= (uint8_t)(1u << below(8));
    ask_all_ways();
}

/* Every length to 3300, of rows that are good, with the right field and with wrong ones. */
static void every_length(void)
{
    struct nutation_row row[ROWS_TRIED];

    tried = "a length";
    some_table(row, ROWS_TRIED);
    for (size_t n = 0; n <= 3300; n++) {
        const size_t fields[] = {n, n + 1, n - 1, n + 16, n - 16, n ^ 256, n << 8 | n >> 8, 0, 65535, below(65536)};

        length = n;
        for (size_t k = 0; k < sizeof fields / sizeof *fields; k++) {
            put(0, 2, fields[k]);
            ask(50000, n);
        }
        bytes[2] = 2; /* a wrong version comes after the length */
        put(0, 2, n + below(2));
        ask(50000, n);
        bytes[2] = 1;
    }
    tried = "no bytes";
    length = 0;
    compare(NULL, 50000, 0);
    compare(NULL, INT64_MIN, UINT64_MAX);
}

/* Slices that are longer by 65536, or twice that, than their field says, and the longest that a field can say. */
static void longer_slices(void)
{
    struct nutation_row row[ROWS_TRIED];

    tried = "a slice of 65536 bytes and more";
    some_table(row, MOST_ROWS);
    for (size_t n = 0; n <= 3300; n += n < 64 || n % 16 == 3 ? 1 : (19 - n % 16) % 16) {
        put(0, 2, n);
        for (length = 65536 + n; length < LONGEST; length += 65536)
            ask(50000, n);
    }
    for (length = 65534; length <= 65537; length++) {
        put(0, 2, length);
        ask(50000, 0);
    }
}

/* Uncertainties from one limit to the other and back, over one, two, 365 and all days: near both dates, between. */
static void steep_uncertainties(void)
{
    static const int64_t gaps[] = {1, 2, 365, LAST_DAY - FIRST_DAY}, errors[] = {1, 2, 99999, 100000};

    tried = "a steep uncertainty";
    for (int n = 0; n < 4 * 4 * 4; n++) {
        const int64_t last = FIRST_DAY + gaps[n / 16];
        const struct nutation_row row[] = {{FIRST_DAY, 0, 0, errors[n % 4]}, {last, 0, 0, errors[n / 4 % 4]}};

        pack(row, 2);
        for (uint64_t m = 0; m < 20; m++) {
            ask(FIRST_DAY, m);
            ask(last - 1, DAY_MICROS - 1 - m);
            ask(between(FIRST_DAY, last - 1), below(DAY_MICROS));
        }
    }
}

static void damage(int rows)
{
    switch (below(8)) {
    case 0: /* one bit */
        bytes[below(length)] ^= (uint8_t)(1u << below(8));
        break;
    case 1: /* one byte */
        bytes[below(length)] = (uint8_t)any();
        break;
    case 2: /* one number */
        put_number((int)below((uint64_t)rows), (int)below(4), (int64_t)edge());
        break;
    case 3: /* one row twice */
        memmove(bytes + 3 + 16 * below((uint64_t)rows), bytes + 3 + 16 * below((uint64_t)rows), 16);
        break;
    case 4: /* cut, or with bytes behind */
        length = one_in(2) ? below(length + 1) : length + 1 + below(40);
        break;
    case 5: /* some rows fewer, and the field that goes with them */
        length = 3 + 16 * below((uint64_t)rows + 1);
        put(0, 2, length);
        break;
    case 6: /* the head */
        bytes[below(3)] = (uint8_t)below(16);
        break;
    default: /* the sign of a number */
        bytes[3 + 16 * below((uint64_t)rows) + 4 * below(4)] ^= 0x80;
    }
}

static void random_tables(int count)
{
    for (int n = 0; n < count; n++) {
        struct nutation_row row[ROWS_TRIED];
        int rows = one_in(2) ? (int)between(2, 8) : one_in(4) ? (int)between(190, 200) : (int)between(2, 200);

        tried = "a table";
        some_table(row, rows);
        for (int i = 0; i < 8; i++)
            ask_somewhere(row, rows);
        tried = "a damaged table";
        do {
            damage(rows);
            ask_somewhere(row, rows);
        } while (length >= 3 + 16 * (size_t)rows && one_in(2));
    }
}

/* The built-in edition, and its rows as bytes. */
static void editions(int64_t day, uint64_t micros)
{
    SAME_I(enfys_nutation_rows_x(bytes, length, day, micros), enfys_nutation_x(day + MISTAKE(134, 0, 1), micros),
           INPUTS);
    SAME_I(enfys_nutation_rows_y(bytes, length, day, micros), enfys_nutation_y(day + MISTAKE(135, 0, 1), micros),
           INPUTS);
    SAME_U(enfys_nutation_rows_uncertainty(bytes, length, day, micros),
           enfys_nutation_uncertainty(day + MISTAKE(136, 0, 1), micros), INPUTS);
    SAME_U(enfys_nutation_rows_refusal(bytes, length, day, micros),
           enfys_nutation_refusal(day + MISTAKE(137, 0, 1), micros), INPUTS);
    SAME_U(enfys_nutation_rows_probes(bytes, length, day, micros),
           enfys_nutation_probes(day + MISTAKE(145, 0, 1), micros), INPUTS);
}

static void both_editions(void)
{
    tried = "the built-in rows";
    pack(model_built_in, MODEL_ROWS);
    for (int i = 0; i < MODEL_ROWS; i++)
        for (uint64_t m = 0; m < 5; m++) {
            editions(model_built_in[i].day - 1, DAY_MICROS - 1 - m);
            editions(model_built_in[i].day, m);
        }
    for (int64_t day = FIRST_DAY - 1; day <= LAST_DAY + 1; day++)
        editions(day, below(DAY_MICROS));
    for (int i = 0; i < 50000; i++) {
        editions(between(45600, 56400), below(DAY_MICROS));
        editions(some_day(), some_micros());
        editions((int64_t)edge(), edge());
    }
    for (int i = 0; i < 20000; i++)
        ask_somewhere(model_built_in, MODEL_ROWS);
}

int main(int argc, char **argv)
{
    static const int tables[] = {2, 3, 30, 199, 200}, refusals[] = {0, 8, 9, 21, 22, 23, 24};
    char note[100];

    begin("nutation_rows", argc, argv);
    front = lent_behind(LONGEST + GUARD);
    back = lent(LONGEST + GUARD);
    every_length();
    longer_slices();
    for (size_t i = 0; i < sizeof tables / sizeof *tables; i++)
        every_row(tables[i]);
    for (int n = 0; n < 5 * 5 * 8; n++)
        order_of_refusals(5, n % 5, n / 5 % 5);
    for (int n = 0; n < 2000; n++)
        order_of_refusals(MOST_ROWS, (int)below(MOST_ROWS), (int)below(MOST_ROWS));
    both_editions();
    steep_uncertainties();
    random_tables(10000);
    for (size_t i = 0; i < sizeof refusals / sizeof *refusals; i++)
        if (seen[refusals[i]] < 1000)
            differs("the inputs", text_u64(seen[refusals[i]]), "1000 or more", "times that refusal %d came up",
                    refusals[i]);
    for (int i = 0; i <= 8; i++)
        if (probed[i] < 1000)
            differs("the inputs", text_u64(probed[i]), "1000 or more", "times that %d probes came up", i);
    snprintf(note, sizeof note, "farthest from double precision %.3f", farthest);
    return end(note);
}
