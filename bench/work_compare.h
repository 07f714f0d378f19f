/* The work of the rows on two record files: the files, and a call on each pair. */
#ifndef WORK_COMPARE_H
#define WORK_COMPARE_H

#include "../include/enfysgar.h"
#include "plain_compare.h"
#include "random.h"

#define PAIRS 4
#define PAIR_BYTES (2.0 * ENFYS_COMPARE_MOST)
#define HALF_HOUR 1800000000

/* Files of the most records, and beside each the same, one with other numbers everywhere, and one of instants between.
 */
static uint8_t file[PAIRS][ENFYS_COMPARE_MOST], equal[PAIRS][ENFYS_COMPARE_MOST];
static uint8_t changed[PAIRS][ENFYS_COMPARE_MOST], between[PAIRS][ENFYS_COMPARE_MOST];
static uint8_t entries[ENFYS_COMPARE_LIST_BYTES];

/* The files that are compared: a record every half hour. */
static void make_files(void)
{
    for (int n = 0; n < PAIRS; n++)
        for (int i = 0; i < ENFYS_COMPARE_MOST / RECORD_BYTES; i++) {
            struct record r = {{16000 + 7 * n + i / 48, (uint64_t)(i % 48) * HALF_HOUR}, {0, 0, 0}};
            const int at = RECORD_BYTES * i;

            for (int k = 0; k < 3; k++)
                r.number[k] = (int32_t)(next() % 200000000) - 100000000;
            model_write(&r, file[n] + at, RECORD_BYTES);
            model_write(&r, equal[n] + at, RECORD_BYTES);
            r.number[next() % 3] += 1 + (int32_t)(next() % 100);
            model_write(&r, changed[n] + at, RECORD_BYTES);
            r.at.micros += HALF_HOUR / 2;
            model_write(&r, between[n] + at, RECORD_BYTES);
        }
}

typedef uint32_t compare_call(const uint8_t *first, size_t first_length, const uint8_t *second, size_t second_length,
                              uint8_t *list, size_t list_length);

/* The refusal, and some bytes of the list. */
__attribute__((always_inline)) static inline double compare_of(compare_call *call, const uint8_t *first,
                                                               const uint8_t *second)
{
    return call(first, ENFYS_COMPARE_MOST, second, ENFYS_COMPARE_MOST, entries, sizeof entries) + (double)entries[4] +
           (double)entries[20];
}

/* The work of a call on a pair of files. */
#define COMPARE(name, call, second)                                  \
    static double name(int i)                                        \
    {                                                                \
        return compare_of(call, file[i % PAIRS], second[i % PAIRS]); \
    }

COMPARE(compare_equal, enfys_compare, equal)
COMPARE(compare_equal_plain, compare_plain, equal)
COMPARE(compare_equal_loads, compare_plain_loads, equal)
COMPARE(compare_changed, enfys_compare, changed)
COMPARE(compare_changed_plain, compare_plain, changed)
COMPARE(compare_changed_loads, compare_plain_loads, changed)
COMPARE(compare_between, enfys_compare, between)
COMPARE(compare_between_plain, compare_plain, between)
COMPARE(compare_between_loads, compare_plain_loads, between)

#endif
