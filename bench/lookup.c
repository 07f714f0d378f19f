/* Times the lookup by itself, beside the same in plain C, for bench/lookup. */
#define _POSIX_C_SOURCE 199309L
#include <inttypes.h>
#include <stddef.h>
#include <stdio.h>
#include <string.h>
#include <time.h>

#define DAY_MICROS UINT64_C(86400000000)
#define BEFORE_DAY_0 UINT64_C(11325355200000000) /* the moment of day number 0 */
#define FIRST_ROW 15200
#define INPUTS 4096
#define ROUNDS 300

uint64_t looked_up(const uint8_t *rows, size_t length, uint64_t x);

static uint8_t rows[3 + 16 * 200];
static uint64_t at[INPUTS];

typedef uint64_t lookup(const uint8_t *rows, size_t length, uint64_t x);

static uint64_t day_plain(const uint8_t *bytes, size_t i)
{
    uint32_t x;

    memcpy(&x, bytes + 3 + 16 * i, sizeof x);
    return __builtin_bswap32(x);
}

__attribute__((noinline)) static uint64_t looked_up_plain(const uint8_t *bytes, size_t length, uint64_t x)
{
    size_t low = 0, high = (length - 3) / 16 - 1;

    if (x <= BEFORE_DAY_0 + day_plain(bytes, 0) * DAY_MICROS)
        return day_plain(bytes, 0);
    if (x >= BEFORE_DAY_0 + day_plain(bytes, high) * DAY_MICROS)
        return day_plain(bytes, high);
    while (high - low > 1) {
        size_t middle = (low + high) / 2;

        if (BEFORE_DAY_0 + day_plain(bytes, middle) * DAY_MICROS <= x)
            low = middle;
        else
            high = middle;
    }
    return day_plain(bytes, low) ^ day_plain(bytes, high);
}

static uint64_t next(void)
{
    static uint64_t x = 88172645463325252;

    x ^= x << 13;
    x ^= x >> 7;
    return x ^= x << 17;
}

/* Nanoseconds of one lookup, the best of many rounds; all that is found is added up. */
static double time_of(lookup *look, size_t length, uint64_t *sum)
{
    double best = 0.0;

    for (int r = 0; r < ROUNDS; r++) {
        struct timespec start, end;
        double took;

        clock_gettime(CLOCK_MONOTONIC, &start);
        for (int i = 0; i < INPUTS; i++)
            *sum += look(rows, length, at[i]);
        clock_gettime(CLOCK_MONOTONIC, &end);
        took = ((double)(end.tv_sec - start.tv_sec) * 1e9 + (double)(end.tv_nsec - start.tv_nsec)) / INPUTS;
        if (r == 0 || took < best)
            best = took;
    }
    return best;
}

/* Rows a year of 365 days apart, and instants between the first and the last of them. */
static int compare(size_t count, int in_order)
{
    const size_t length = 3 + 16 * count;
    const uint64_t span = 365 * (count - 1) * DAY_MICROS;
    uint64_t ours = 0, plain = 0;

    for (size_t i = 0; i < count; i++) {
        uint64_t day = FIRST_ROW + 365 * i;

        for (size_t k = 0; k < 4; k++)
            rows[3 + 16 * i + k] = (uint8_t)(day >> (24 - 8 * k) & 0xff);
        rows[3 + 16 * i + 15] = 1; /* an uncertainty: the lookup is asked of accepted rows alone */
    }
    for (uint64_t i = 0; i < INPUTS; i++)
        at[i] = BEFORE_DAY_0 + FIRST_ROW * DAY_MICROS + (in_order ? span / INPUTS * i : next() % span);
    printf("%3zu rows, instants %-21s %6.1f", count, in_order ? "one after the other" : "in any order",
           time_of(looked_up, length, &ours));
    printf(" %8.1f\n", time_of(looked_up_plain, length, &plain));
    return ours == plain;
}

int main(void)
{
    int same = 1;

    printf("%47s %8s, ns\n", "ours", "plain C");
    for (int in_order = 0; in_order < 2; in_order++) {
        same &= compare(30, in_order);
        same &= compare(200, in_order);
    }
    if (!same)
        printf("the two do not find the same rows\n");
    return !same;
}
