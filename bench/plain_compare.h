/*
 * The comparison of two record files in plain C. Each file is tested by itself, then both are walked at once: first to
 * count, and again to write when it is known that the list holds all. A record is read as its format says, byte by byte
 * and word by word; or, for more speed, by loads of four and eight bytes.
 */
#ifndef PLAIN_COMPARE_H
#define PLAIN_COMPARE_H

#include "plain_rescue.h"

/* How a number of four or eight bytes is read, and how the words of a record are added: the low 16 bits count. */
typedef uint64_t number_by(const uint8_t *at, int size);
typedef uint64_t sum_by(const uint8_t *at);

INLINE uint64_t number_loads(const uint8_t *at, int size)
{
    uint32_t x;

    if (size == 8)
        return load_plain(at);
    memcpy(&x, at, sizeof x);
    return __builtin_bswap32(x);
}

INLINE uint64_t sum_plain(const uint8_t *at)
{
    uint32_t sum = 0;

    for (int i = 0; i < RECORD_BYTES; i += 2)
        sum += (uint32_t)at[i] << 8 | at[i + 1];
    return sum;
}

INLINE uint64_t sum_loads(const uint8_t *at)
{
    const uint64_t sum = two_sums(load_plain(at)) + two_sums(load_plain(at + 8)) + two_sums(load_plain(at + 16)) +
                         two_sums(load_plain(at + 22) & UINT64_C(0x0000ffffffffffff));

    return sum + (sum >> 32);
}

INLINE uint32_t record_plain_refusal(number_by *number, sum_by *sum, const uint8_t *at)
{
    const uint64_t day = number(at + 4, 4), time = number(at + 8, 8);

    if (at[2] != 1)
        return 14;
    if (number_plain(at, 2) != RECORD_BYTES)
        return 13;
    if (at[3] != 0)
        return 15;
    if ((sum(at) & 0xffff) != 0)
        return 16;
    if (day - FIRST_DAY > (uint64_t)(LAST_DAY - FIRST_DAY))
        return 8;
    if ((time & (MARK - 1)) >= DAY_MICROS)
        return 9;
    return time / MARK == day % 8 ? 0 : 10;
}

/* The instant of an accepted record, as a number that rises with it: the day above the 37 bits of its micros. */
INLINE uint64_t moment_plain(number_by *number, const uint8_t *at)
{
    return number(at + 4, 4) * MARK + (number(at + 8, 8) & (MARK - 1));
}

INLINE uint32_t file_plain_refusal(number_by *number, sum_by *sum, const uint8_t *file, size_t length)
{
    uint64_t before = 0;
    uint32_t refusal = 0;

    if (length % RECORD_BYTES != 0 || length > FILE_MOST)
        return 27;
    for (size_t at = 0; at < length; at += RECORD_BYTES) {
        uint32_t own = record_plain_refusal(number, sum, file + at);
        uint64_t moment = moment_plain(number, file + at);

        if (own != 0)
            return own;
        if (moment <= before)
            refusal = 28;
        before = moment;
    }
    return refusal;
}

INLINE int64_t signed_plain(number_by *number, const uint8_t *at)
{
    return (int32_t)(uint32_t)number(at, 4);
}

INLINE void entry_plain(uint8_t *to, int side, uint64_t moment, const int64_t difference[3])
{
    const uint32_t day = __builtin_bswap32((uint32_t)(moment / MARK));
    const uint64_t micros = __builtin_bswap64(moment & (MARK - 1));

    to[0] = (uint8_t)side;
    memcpy(to + 1, &day, sizeof day);
    memcpy(to + 5, &micros, sizeof micros);
    for (int i = 0; i < 3; i++) {
        const uint64_t x = __builtin_bswap64((uint64_t)difference[i]);

        memcpy(to + 13 + 8 * i, &x, sizeof x);
    }
}

#define COMPARE_FILES const uint8_t *first, size_t first_length, const uint8_t *second, size_t second_length

/* Walks both files; writes where there is a list. Returns how many entries there are. */
INLINE size_t walk_plain(number_by *number, COMPARE_FILES, uint8_t *list)
{
    const uint8_t *const first_end = first + first_length, *const second_end = second + second_length;
    size_t count = 0;

    while (first < first_end || second < second_end) {
        const uint64_t one = first < first_end ? moment_plain(number, first) : UINT64_MAX;
        const uint64_t other = second < second_end ? moment_plain(number, second) : UINT64_MAX;
        const int side = one < other ? 1 : one > other ? 2 : 3;
        int64_t difference[3] = {0, 0, 0};

        if (side == 3)
            for (int i = 0; i < 3; i++)
                difference[i] = signed_plain(number, second + 16 + 4 * i) - signed_plain(number, first + 16 + 4 * i);
        if (side != 3 || (difference[0] | difference[1] | difference[2]) != 0) {
            if (list != NULL)
                entry_plain(list + ENTRY_BYTES * count, side, side == 2 ? other : one, difference);
            count++;
        }
        first += side & 1 ? RECORD_BYTES : 0;
        second += side & 2 ? RECORD_BYTES : 0;
    }
    return count;
}

#define COMPARE_PARAMETERS COMPARE_FILES, uint8_t *list, size_t list_length

INLINE uint32_t compare_plain_by(number_by *number, sum_by *sum, COMPARE_PARAMETERS)
{
    uint32_t refusal = file_plain_refusal(number, sum, first, first_length);

    if (refusal == 0)
        refusal = file_plain_refusal(number, sum, second, second_length);
    if (refusal == 0 &&
        walk_plain(number, first, first_length, second, second_length, NULL) > list_length / ENTRY_BYTES)
        refusal = 12;
    if (refusal == 0)
        walk_plain(number, first, first_length, second, second_length, list);
    return refusal;
}

#define COMPARED_BY(number, sum) \
    compare_plain_by(number, sum, first, first_length, second, second_length, list, list_length)

__attribute__((noinline)) static uint32_t compare_plain(COMPARE_PARAMETERS)
{
    return COMPARED_BY(number_plain, sum_plain);
}

__attribute__((noinline)) static uint32_t compare_plain_loads(COMPARE_PARAMETERS)
{
    return COMPARED_BY(number_loads, sum_loads);
}

#endif
