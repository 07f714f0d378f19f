/*
 * Nutation rows from bytes in plain C that is written for speed: all rows are tested in one pass over the bytes, none
 * is kept, and the two that are needed are found by halving; sine and cosine are libm's. Derived from the IERS routine
 * FCNNUT; not IERS Conventions software (NOTICE, docs/DIFFERENCES.md).
 */
#ifndef PLAIN_ROWS_H
#define PLAIN_ROWS_H

#include "../tests/model.h"

#include <math.h>
#include <stdlib.h>
#include <string.h>

static uint32_t word_plain(const uint8_t *at)
{
    uint32_t x;

    memcpy(&x, at, sizeof x);
    return __builtin_bswap32(x);
}

static struct nutation_row row_plain(const uint8_t *bytes, size_t i)
{
    const uint8_t *at = bytes + 3 + 16 * i;

    return (struct nutation_row){word_plain(at), (int32_t)word_plain(at + 4), (int32_t)word_plain(at + 8),
                                 (int32_t)word_plain(at + 12)};
}

/* The refusal of the rows, 21 to 24 or 0. */
static uint32_t rows_plain_refusal(const uint8_t *bytes, size_t length)
{
    int64_t before = FIRST_DAY - 1;
    int days = 0, sizes = 0;

    if (length < 35 || length > 3203 || (length - 3) % 16 != 0 || ((size_t)bytes[0] << 8 | bytes[1]) != length)
        return 21;
    if (bytes[2] != 1)
        return 22;
    for (size_t i = 0; i < (length - 3) / 16; i++) {
        struct nutation_row row = row_plain(bytes, i);

        days |= row.day <= before;
        sizes |= row.error < 1 || row.error > 100000 || llabs(row.xc) > 100000 || llabs(row.xs) > 100000;
        before = row.day;
    }
    /* Days that rise: the last is in the limits where all are. */
    return days || before > LAST_DAY ? 23 : sizes ? 24 : 0;
}

/* The refusal of an instant, 8 or 9 or 0. */
static uint32_t instant_plain_refusal(int64_t day, uint64_t micros)
{
    return day < FIRST_DAY || day > LAST_DAY ? 8 : micros >= DAY_MICROS ? 9 : 0;
}

/* The rows of good bytes that are probed for an instant. */
static inline uint64_t probes_plain_of(const uint8_t *bytes, size_t length, int64_t day, uint64_t micros)
{
    size_t low = 0, high = (length - 3) / 16 - 1;
    int64_t first = word_plain(bytes + 3);
    uint64_t probes = 0;

    if (day < first || (day == first && micros == 0) || day >= word_plain(bytes + 3 + 16 * high))
        return 0;
    for (; high - low > 1; probes++) {
        size_t middle = (low + high) / 2;

        if (word_plain(bytes + 3 + 16 * middle) <= day)
            low = middle;
        else
            high = middle;
    }
    return probes;
}

/* In calls of their own, with the parameters that the library's have. */
__attribute__((noinline)) static uint64_t probes_plain_rows(const uint8_t *bytes, size_t length, int64_t day,
                                                            uint64_t micros)
{
    if (rows_plain_refusal(bytes, length) != 0 || instant_plain_refusal(day, micros) != 0)
        return 0;
    return probes_plain_of(bytes, length, day, micros);
}

__attribute__((noinline)) static uint32_t nutation_plain_rows(const uint8_t *bytes, size_t length, int64_t day,
                                                              uint64_t micros, int64_t *x, int64_t *y,
                                                              uint64_t *uncertainty)
{
    const double day_micros = (double)DAY_MICROS;
    uint32_t refusal = rows_plain_refusal(bytes, length);
    size_t low = 0, high = (length - 3) / 16 - 1;
    double phi, xc, xs, u, c, s;

    if (refusal != 0)
        return refusal;
    refusal = instant_plain_refusal(day, micros);
    if (refusal != 0)
        return refusal;
    while (high - low > 1) {
        size_t middle = (low + high) / 2;

        if (word_plain(bytes + 3 + 16 * middle) <= day)
            low = middle;
        else
            high = middle;
    }
    const struct nutation_row a = row_plain(bytes, low), b = row_plain(bytes, high);

    if (day < a.day || day >= b.day) {
        const struct nutation_row *end = day < a.day ? &a : &b;

        xc = (double)end->xc, xs = (double)end->xs;
        u = 20.0 * (double)end->error + 265.0 * fabs((double)(day - end->day) + (double)micros / day_micros);
    } else {
        double part = ((double)(day - a.day) + (double)micros / day_micros) / (double)(b.day - a.day);

        xc = (double)a.xc + (double)(b.xc - a.xc) * part;
        xs = (double)a.xs + (double)(b.xs - a.xs) * part;
        u = 20.0 * ((double)a.error + (double)(b.error - a.error) * part);
    }
    phi = 2.0 * 3.14159265358979323846 / -430.21 * ((double)(day - 51544) + (double)micros / day_micros - 0.5);
    c = cos(phi), s = sin(phi);
    *x = llrint(10.0 * (xc * c - xs * s));
    *y = llrint(10.0 * (xs * c + xc * s));
    *uncertainty = (uint64_t)ceil(u);
    return 0;
}

#endif
