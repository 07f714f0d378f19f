/* What the test of the comparison is tried on: pairs of record files, made instant by instant, and damage to a file. */
#ifndef COMPARE_INPUTS_H
#define COMPARE_INPUTS_H

#include "check.h"
#include "model.h"
#include "slices.h"

/* The two files. */
static struct file {
    uint8_t bytes[LONGEST];
    size_t length;
} files[2];

static void start(void)
{
    files[0].length = files[1].length = 0;
}

static size_t records_of(const struct file *file)
{
    return file->length / RECORD_BYTES;
}

static uint8_t *record_of(struct file *file, size_t i)
{
    return file->bytes + RECORD_BYTES * i;
}

static void add(struct file *file, const struct record *record)
{
    if (model_write(record, file->bytes + file->length, RECORD_BYTES) != 0)
        differs("the maker of inputs", "a refusal", "a record", "day %" PRId64, record->at.day);
    file->length += RECORD_BYTES;
}

/* A number of a record: at an end of its type, small, or any. */
static int32_t some_number(void)
{
    switch (below(4)) {
    case 0:
        return one_in(2) ? INT32_MIN : INT32_MAX;
    case 1:
        return (int32_t)between(-2, 2);
    case 2:
        return (int32_t)(uint32_t)edge();
    default:
        return (int32_t)(uint32_t)any();
    }
}

/* Another number than this: the one beside it, one whose low bytes are the same, or any. */
static int32_t other_number(int32_t number)
{
    uint32_t x = (uint32_t)number;

    switch (below(4)) {
    case 0:
        x ^= UINT32_C(1) << below(32);
        break;
    case 1:
        x += one_in(2) ? 1 : UINT32_MAX;
        break;
    case 2:
        x = ~x; /* with the ends of the type, the greatest differences there are */
        break;
    default:
        x = (uint32_t)some_number();
    }
    return x == (uint32_t)number ? (int32_t)~x : (int32_t)x;
}

/* A later instant: a microsecond, on either side of the next midnight, at the same time of a later day, or any. */
static struct instant later(struct instant at)
{
    switch (below(8)) {
    case 0:
        at.micros = at.micros < DAY_MICROS - 1 ? DAY_MICROS - 1 : DAY_MICROS;
        break;
    case 1:
        at.day++;
        at.micros = 0;
        break;
    case 2:
        at.day += between(1, 9);
        break;
    case 3: /* the low four bytes of the micros stay */
        at.micros += UINT64_C(1) << 32;
        break;
    case 4:
        at.day++;
        at.micros = below(at.micros + 1);
        break;
    case 5:
        at.micros += 1 + below(DAY_MICROS);
        break;
    default:
        at.micros++;
    }
    at.day += (int64_t)(at.micros / DAY_MICROS);
    at.micros %= DAY_MICROS;
    return at;
}

/* Which instants each file gets, in parts of 100: only the first, only the second, both with other numbers. */
struct share {
    const char *what;
    unsigned first, second, other;
};

/* Adds `count` instants, from `at` on, to one of the files or to both. */
static void add_instants(size_t count, struct instant at, const struct share *share)
{
    for (size_t i = 0; i < count && at.day <= LAST_DAY; i++, at = later(at)) {
        struct record record = {at, {some_number(), some_number(), some_number()}};
        uint64_t part = below(100);

        if (part < share->first) {
            add(&files[0], &record);
        } else if (part < share->first + share->second) {
            add(&files[1], &record);
        } else {
            add(&files[0], &record);
            if (part < share->first + share->second + share->other)
                for (uint64_t some = 1 + below(7), k = 0; k < 3; k++) /* one, two or all of the numbers */
                    if (some >> k & 1)
                        record.number[k] = other_number(record.number[k]);
            add(&files[1], &record);
        }
    }
}

/* An instant from which `days` later there still are days. */
static struct instant some_start(int64_t days)
{
    if (one_in(8))
        return (struct instant){FIRST_DAY, one_in(2) ? 0 : DAY_MICROS - 1};
    return (struct instant){between(FIRST_DAY, LAST_DAY - days), one_in(4) ? 0 : below(DAY_MICROS)};
}

/* Damage to a file that has records. Each kind has its own refusal, in the order of the test of a file. */
enum damage { NONE, CUT, TOO_LONG, UNREAD, UNREAD_TWICE, EQUAL, FALLING, UNREAD_AND_FALLING, KINDS };

/* Makes a record one that does not read: by each of the reading refusals. */
static void spoil(uint8_t *record)
{
    switch (below(9)) {
    case 0:
        record[2] = (uint8_t)(2 + below(254));
        break;
    case 1:
        record[below(2)] ^= (uint8_t)(1u << below(8));
        break;
    case 2:
        record[3] = (uint8_t)(1 + below(255));
        break;
    case 3:
        record[4 + below(26)] ^= (uint8_t)(1u << below(8));
        break;
    case 4:
        set_instant(record, one_in(2) ? FIRST_DAY - 1 : LAST_DAY + 1, below(DAY_MICROS + 2));
        break;
    case 5:
        set_instant(record, between(FIRST_DAY, LAST_DAY), DAY_MICROS + below(2));
        break;
    case 6: /* another mark */
        record[11] ^= (uint8_t)(32u << below(3));
        mend(record, 28);
        break;
    case 7: /* two bits, and the sum is right */
        record[below(4)] ^= (uint8_t)(1u << below(8));
        mend(record, 28);
        break;
    default:
        memcpy(record, noise + below(LONGEST), RECORD_BYTES);
    }
}

/* Puts records i and i + 1 of a file out of order: equal instants, or exchanged. */
static void disorder(struct file *file, size_t i, int equal)
{
    uint8_t kept[RECORD_BYTES], *one = record_of(file, i), *two = one + RECORD_BYTES;

    memcpy(kept, one, RECORD_BYTES);
    if (!equal)
        memcpy(one, two, RECORD_BYTES);
    memcpy(two, kept, RECORD_BYTES);
    if (equal && one_in(2)) { /* with another number */
        two[16 + below(12)] ^= 1;
        mend(two, 28);
    }
}

/* Damages a file that has two records or more. */
static void damage(struct file *file, enum damage kind)
{
    const size_t count = records_of(file);

    if (kind == CUT)
        file->length -= 1 + below(RECORD_BYTES - 1);
    while (kind == TOO_LONG && file->length <= FILE_MOST) { /* records in any order, of which all read */
        memmove(file->bytes + file->length, file->bytes, file->length);
        file->length *= 2;
    }
    if (kind == TOO_LONG)
        file->length = FILE_MOST + RECORD_BYTES;
    if (kind == EQUAL || kind == FALLING || kind == UNREAD_AND_FALLING)
        disorder(file, one_in(3) ? 0 : one_in(2) ? count - 2 : below(count - 1), kind == EQUAL);
    if (kind == UNREAD || kind == UNREAD_TWICE || kind == UNREAD_AND_FALLING)
        spoil(record_of(file, one_in(3) ? 0 : one_in(2) ? count - 1 : below(count)));
    if (kind == UNREAD_TWICE)
        spoil(record_of(file, below(count)));
}

#endif
