/*
 * The rescue of records in plain C. The walk counts first and writes when it knows that the buffers hold all, and
 * records that follow each other are copied together. A record is read as its format says, field by field and word by
 * word; or, for more speed, by four loads of eight bytes. The next record is looked for at every place; or by the C
 * library's memchr, which looks at many bytes at a time.
 */
#ifndef PLAIN_RESCUE_H
#define PLAIN_RESCUE_H

#include "../tests/model.h"

#include <string.h>

#define INLINE __attribute__((always_inline)) static inline

INLINE int head_plain(const uint8_t *at)
{
    static const uint8_t head[4] = {0, RECORD_BYTES, 1, 0};

    return memcmp(at, head, sizeof head) == 0;
}

INLINE uint64_t number_plain(const uint8_t *at, int size)
{
    uint64_t n = 0;

    for (int i = 0; i < size; i++)
        n = n << 8 | at[i];
    return n;
}

INLINE int words_plain(uint64_t day, uint64_t time)
{
    return day - FIRST_DAY <= (uint64_t)(LAST_DAY - FIRST_DAY) && (time & (MARK - 1)) < DAY_MICROS &&
           time / MARK == day % 8;
}

/* Whether 30 bytes that begin as a record are one. */
typedef int reads_plain(const uint8_t *at);

INLINE int reads_plain_fields(const uint8_t *at)
{
    uint32_t sum = 0;

    for (int i = 0; i < RECORD_BYTES; i += 2)
        sum += (uint32_t)at[i] << 8 | at[i + 1];
    return (sum & 0xffff) == 0 && words_plain(number_plain(at + 4, 4), number_plain(at + 8, 8));
}

INLINE uint64_t load_plain(const uint8_t *at)
{
    uint64_t x;

    memcpy(&x, at, sizeof x);
    return __builtin_bswap64(x);
}

/* Two sums of 16-bit words, in the halves of a number: those of the even places and those of the odd ones of x. */
INLINE uint64_t two_sums(uint64_t x)
{
    return (x & UINT64_C(0x0000ffff0000ffff)) + (x >> 16 & UINT64_C(0x0000ffff0000ffff));
}

/* The same by four loads. The last begins two bytes before the end of the third. */
INLINE int reads_plain_loads(const uint8_t *at)
{
    uint64_t first = load_plain(at), time = load_plain(at + 8), numbers = load_plain(at + 16);
    uint64_t last = load_plain(at + 22) & UINT64_C(0x0000ffffffffffff);
    uint64_t sum = two_sums(first) + two_sums(time) + two_sums(numbers) + two_sums(last);

    return ((sum + (sum >> 32)) & 0xffff) == 0 && words_plain(first & UINT32_MAX, time);
}

/* The first place from `at` on where a record reads, or the end of the input. */
typedef size_t next_plain(reads_plain *reads, const uint8_t *input, size_t length, size_t at);

INLINE size_t next_plain_place(reads_plain *reads, const uint8_t *input, size_t length, size_t at)
{
    for (; at + RECORD_BYTES <= length; at++)
        if (head_plain(input + at) && reads(input + at))
            return at;
    return length;
}

/* The same by looking for the second byte of a head, which is rarer than the first. */
INLINE size_t next_plain_memchr(reads_plain *reads, const uint8_t *input, size_t length, size_t at)
{
    for (; at + RECORD_BYTES <= length; at++) {
        const uint8_t *second = memchr(input + at + 1, RECORD_BYTES, length - RECORD_BYTES + 1 - at);

        if (second == NULL)
            break;
        at = (size_t)(second - input) - 1;
        if (head_plain(input + at) && reads(input + at))
            return at;
    }
    return length;
}

/* The end of the records that follow each other from `at` on. */
INLINE size_t end_plain(reads_plain *reads, const uint8_t *input, size_t length, size_t at)
{
    while (at + RECORD_BYTES <= length && head_plain(input + at) && reads(input + at))
        at += RECORD_BYTES;
    return at;
}

INLINE void put_plain(uint8_t *to, size_t start, size_t length)
{
    uint64_t x = __builtin_bswap64((uint64_t)start << 32 | length);

    memcpy(to, &x, sizeof x);
}

#define RESCUE_PARAMETERS \
    const uint8_t *input, size_t length, uint8_t *records, size_t records_length, uint8_t *ranges, size_t ranges_length

INLINE uint32_t rescue_plain_by(reads_plain *reads, next_plain *next, RESCUE_PARAMETERS)
{
    size_t kept = 0, listed = 0;

    if (length > RESCUE_MOST)
        return 25;
    for (size_t at = 0; at < length;) {
        size_t end = end_plain(reads, input, length, at);

        kept += end - at;
        at = end;
        if (at < length) {
            listed += RANGE_BYTES;
            at = next(reads, input, length, at + 1);
        }
    }
    if (kept > records_length || listed > ranges_length)
        return 12;
    for (size_t at = 0; at < length;) {
        size_t end = end_plain(reads, input, length, at);

        memcpy(records, input + at, end - at);
        records += end - at;
        at = end;
        if (at < length) {
            end = next(reads, input, length, at + 1);
            put_plain(ranges, at, end - at);
            ranges += RANGE_BYTES;
            at = end;
        }
    }
    return 0;
}

#define RESCUED_BY(reads, next) \
    rescue_plain_by(reads, next, input, length, records, records_length, ranges, ranges_length)

__attribute__((noinline)) static uint32_t rescue_plain(RESCUE_PARAMETERS)
{
    return RESCUED_BY(reads_plain_fields, next_plain_place);
}

__attribute__((noinline)) static uint32_t rescue_plain_loads(RESCUE_PARAMETERS)
{
    return RESCUED_BY(reads_plain_loads, next_plain_place);
}

__attribute__((noinline)) static uint32_t rescue_plain_memchr(RESCUE_PARAMETERS)
{
    return RESCUED_BY(reads_plain_loads, next_plain_memchr);
}

#endif
