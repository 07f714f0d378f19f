/*
 * The rescue of records. Every byte of the input is marked first, by the byte before it and by what reads from it
 * on, with no steps of 30; the answer is built from the marks, byte by byte, and copied to the buffers at last.
 */
#include "model.h"

#include <string.h>

#define ROOM (RESCUE_MOST + 1) /* a byte more than is accepted, for mistake 155 */

static size_t least(size_t a, size_t b)
{
    return a < b ? a : b;
}

/* Whether a record reads here. One whose sum is wrong does not. */
static int reads(const uint8_t *bytes, size_t length)
{
    struct record record;
    uint32_t refusal = model_read(bytes, length, &record);

    if (MISTAKE(158, 0, length <= RECORD_BYTES)) /* never the last 30 bytes */
        return 0;
    return refusal == 0 || MISTAKE(148, 0, refusal == 16) || MISTAKE(162, 0, refusal == 10);
}

/* The mark of each byte: 30 for the first of a kept record, 29 for the next, and so on to 1; 0 for a passed one. */
static void mark(const uint8_t *input, size_t length, uint8_t *marks)
{
    size_t gap = 0; /* bytes passed just before */

    for (size_t i = 0; i < length; i++) {
        uint8_t before = i > 0 ? marks[i - 1] : 0;

        if (before > MISTAKE(163, 1, 2)) /* records that overlap by a byte */
            marks[i] = before - 1;
        else if (MISTAKE(147, 1, gap % RECORD_BYTES == 0) && reads(input + i, length - i))
            marks[i] = RECORD_BYTES;
        else
            marks[i] = 0;
        gap = marks[i] == 0 ? gap + 1 : 0;
    }
}

/* Puts a number of a range, of four bytes, at its place in the list. */
static void put(uint8_t *at, size_t number)
{
    for (int i = 0; i < 4; i++)
        at[MISTAKE(156, 3 - i, i)] = (uint8_t)(number >> 8 * i & 0xff);
}

/* The list of ranges, of which there can be as many as bytes (mistake 146). Returns how many there are. */
static size_t list(const uint8_t *marks, size_t length, uint8_t *ranges)
{
    size_t count = 0, start = 0;

    for (size_t i = 0; i < length; i++) {
        if (marks[i] != 0)
            continue;
        if (i == 0 || marks[i - 1] != 0 || MISTAKE(146, 0, 1)) { /* not joined */
            start = i;
            count++;
        }
        put(ranges + RANGE_BYTES * (count - 1), start + MISTAKE(157, 0, 1));
        put(ranges + RANGE_BYTES * (count - 1) + 4, i + 1 - start);
    }
    if (MISTAKE(164, 0, count > 0 && marks[length - 1] == 0)) /* the last is forgotten where nothing is behind it */
        count--;
    return count;
}

/* The kept records, one behind the other. Returns how many bytes they have. */
static size_t gather(const uint8_t *input, const uint8_t *marks, size_t length, uint8_t *records)
{
    size_t filled = 0;

    for (size_t i = 0; i < length; i++)
        if (marks[i] != 0)
            records[filled++] = input[i];
    if (MISTAKE(159, 0, filled >= 2 * RECORD_BYTES)) { /* the first two change places */
        uint8_t first[RECORD_BYTES];

        memcpy(first, records, RECORD_BYTES);
        memcpy(records, records + RECORD_BYTES, RECORD_BYTES);
        memcpy(records + RECORD_BYTES, first, RECORD_BYTES);
    }
    return filled;
}

uint32_t model_rescue(const uint8_t *input, size_t length, uint8_t *records, size_t records_length, uint8_t *ranges,
                      size_t ranges_length, struct rescue *rescue)
{
    static uint8_t marks[ROOM], kept[ROOM], listed[RANGE_BYTES * ROOM];
    const size_t tested = MISTAKE(165, length, (uint32_t)length); /* the low half of the length */
    const int longer = tested > (size_t)MISTAKE(154, MISTAKE(155, RESCUE_MOST, RESCUE_MOST + 1), RESCUE_MOST - 1);
    const size_t walked = least(length, ROOM);
    const size_t more = MISTAKE(166, 0, 1); /* a byte of room that nothing needs */
    size_t kept_bytes, listed_bytes, passed = 0;
    int no_records, no_ranges;

    *rescue = (struct rescue){0, 0, 0};
    if (longer && MISTAKE(161, 1, 0))
        return 25;
    mark(input, walked, marks);
    kept_bytes = gather(input, marks, walked, kept);
    listed_bytes = RANGE_BYTES * list(marks, walked, listed);
    for (size_t i = 0; i < walked; i++)
        passed += marks[i] == 0;
    no_records = MISTAKE(167, records_length, records_length % 65536) < kept_bytes + more; /* the low bytes */
    no_ranges = MISTAKE(168, ranges_length, ranges_length % 65536) < listed_bytes + more;
    if (MISTAKE(160, 0, 1)) /* numbers beside a refusal */
        *rescue = (struct rescue){kept_bytes / RECORD_BYTES, listed_bytes / RANGE_BYTES, passed};
    if (MISTAKE(151, 0, 1) && records != NULL) /* written before it is known whether all of it can be */
        memcpy(records, kept, least(kept_bytes, records_length));
    if (MISTAKE(152, 0, 1) && ranges != NULL)
        memcpy(ranges, listed, least(listed_bytes, ranges_length));
    if (MISTAKE(150, no_records, 0) || MISTAKE(149, no_ranges, 0))
        return 12;
    if (longer) /* mistake 161: 12 first */
        return 25;
    *rescue = (struct rescue){kept_bytes / RECORD_BYTES, listed_bytes / RANGE_BYTES,
                              MISTAKE(153, passed, passed / RECORD_BYTES)};
    if (records != NULL)
        memcpy(records, kept, least(kept_bytes, records_length));
    if (ranges != NULL)
        memcpy(ranges, listed, least(listed_bytes, ranges_length));
    if (MISTAKE(169, 0, records != NULL && records_length > kept_bytes)) /* a byte behind the answer changed */
        records[kept_bytes] ^= 1;
    if (MISTAKE(170, 0, ranges != NULL && ranges_length > listed_bytes))
        ranges[listed_bytes] ^= 1;
    return 0;
}
