/* What the inputs of the rescue's test are made of: pieces, each added behind what there is. */
#ifndef RESCUE_INPUTS_H
#define RESCUE_INPUTS_H

#include "check.h"
#include "model.h"
#include "slices.h"

#include <string.h>

/* The input. */
static uint8_t bytes[LONGEST];
static size_t length;

static void add(const void *piece, size_t size)
{
    memcpy(bytes + length, piece, size);
    length += size;
}

static void add_noise(size_t size)
{
    add(noise + below(LONGEST), size);
}

static void add_zeros(size_t size)
{
    memset(bytes + length, 0, size);
    length += size;
}

static void add_record(void)
{
    struct record r = {{between(FIRST_DAY + 1, LAST_DAY - 1), below(DAY_MICROS)}, {0, 0, 0}};

    for (int i = 0; i < 3; i++)
        r.number[i] = (int32_t)(uint32_t)(one_in(2) ? any() : edge());
    model_write(&r, bytes + length, RECORD_BYTES);
    if (one_in(16))
        set_instant(bytes + length, one_in(2) ? FIRST_DAY : LAST_DAY, one_in(2) ? 0 : DAY_MICROS - 1);
    length += RECORD_BYTES;
}

/*
 * Two records of which the second begins `apart` bytes after the first, inside it, so that 30 bytes from either place
 * read. There are such for 11 bytes and more: before that the second's head is in the first's clock words. The word
 * that mends the first is any of it, that of the second its last.
 */
static int add_overlapping(size_t apart)
{
    struct record seen;

    for (int tries = 0; tries < 4000; tries++) {
        uint8_t *first = bytes + length, *second = first + apart, head[RECORD_BYTES];

        add_record();
        length -= RECORD_BYTES;
        memcpy(head, first, apart);
        length += apart;
        add_record();
        length -= RECORD_BYTES + apart;
        memcpy(first, head, apart);
        if (one_in(2)) { /* a day and a time with nothing in their marks */
            first[7] &= 0xf8;
            first[11] &= 0x1f;
        }
        mend(first, 2 * (int)below(15));
        mend(second, 28);
        if (model_read(first, RECORD_BYTES, &seen) == 0 && model_read(second, RECORD_BYTES, &seen) == 0) {
            length += RECORD_BYTES + apart;
            return 1;
        }
    }
    return 0;
}

/* A record with a bit or a byte changed; or one with the right sum whose clock words are not accepted. */
static void add_damaged(void)
{
    uint8_t *record = bytes + length;

    add_record();
    switch (below(4)) {
    case 0:
        record[below(RECORD_BYTES)] ^= (uint8_t)(1u << below(8));
        break;
    case 1:
        record[below(RECORD_BYTES)] = (uint8_t)any();
        break;
    case 2:
        record[11] ^= (uint8_t)(32u << below(3));
        mend(record, 28);
        break;
    default:
        if (one_in(2))
            set_instant(record, one_in(2) ? FIRST_DAY - 1 : LAST_DAY + 1, below(DAY_MICROS));
        else
            set_instant(record, between(FIRST_DAY, LAST_DAY), DAY_MICROS + below(2));
    }
}

/* The front of a record, or its end. */
static void add_cut(size_t size)
{
    add_record();
    length -= RECORD_BYTES;
    if (one_in(2))
        memmove(bytes + length, bytes + length + RECORD_BYTES - size, size);
    length += size;
}

static void add_any(void)
{
    switch (below(8)) {
    case 0:
        add_noise(below(70));
        break;
    case 1:
        add_zeros(below(40));
        break;
    case 2:
        add_cut(below(RECORD_BYTES));
        break;
    case 3:
        add_overlapping((size_t)between(11, 29));
        break;
    case 4:
        add_damaged();
        break;
    default:
        add_record();
    }
}

#endif
