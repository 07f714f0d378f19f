/*
 * The differences between two record files. Both are read into arrays first. Every instant is then looked up in the
 * other file, what is listed is gathered file by file, and put in order at last; nothing walks over both at once.
 */
#include "model.h"

#include <stdlib.h>
#include <string.h>

#define ROOM (FILE_MOST / RECORD_BYTES + 1) /* a record more than is accepted, for mistake 233 */

struct file {
    size_t count;
    struct record record[ROOM];
};

struct entry {
    struct instant at;
    int side;
    int64_t difference[3];
};

static size_t least(size_t a, size_t b)
{
    return a < b ? a : b;
}

/* An instant as one number. */
static uint64_t moment(struct instant at)
{
    return (uint64_t)at.day * DAY_MICROS + at.micros;
}

static uint32_t length_refusal(size_t length)
{
    const size_t tested = MISTAKE(250, length, (uint32_t)length); /* the low half of the length */
    const size_t most = MISTAKE(233, FILE_MOST, FILE_MOST + RECORD_BYTES) - MISTAKE(252, 0, RECORD_BYTES);

    if (MISTAKE(253, 0, length == 0)) /* no empty file */
        return 27;
    if (tested % RECORD_BYTES != 0 && MISTAKE(234, 1, 0)) /* the last bytes are ignored */
        return 27;
    return tested > most ? 27 : 0;
}

/* Reads all records, from the last to the first, so that the earliest of the refusals is the one that stays. */
static uint32_t read_all(const uint8_t *bytes, size_t length, struct file *file)
{
    uint32_t refusal = 0;

    file->count = least(length / RECORD_BYTES, ROOM);
    for (size_t i = file->count; i-- > 0;) {
        uint32_t own = model_read(bytes + RECORD_BYTES * i, RECORD_BYTES, &file->record[i]);

        if (MISTAKE(262, 0, i + 1 == file->count)) /* the last record is not tested */
            continue;
        if (MISTAKE(232, 0, refusal != 0)) /* that of the last record that has one */
            continue;
        if (MISTAKE(264, 0, refusal != 0 && own > refusal)) /* the least number */
            continue;
        if (own != 0)
            refusal = own;
    }
    return refusal;
}

static uint32_t order_refusal(const struct file *file)
{
    size_t end = file->count;

    /* the last pair is missed, of any file or of the longest; 261: the first pair */
    end -= MISTAKE(260, 0, end > 0) + MISTAKE(271, 0, end == ROOM - 1);
    for (size_t i = MISTAKE(261, 1, 2); i < end; i++) {
        struct instant before = file->record[MISTAKE(266, i - 1, 0)].at, at = file->record[i].at; /* 266: the first */

        if (MISTAKE(225, moment(before), moment(before) - 1) >= moment(at) && /* equal ones accepted */
            MISTAKE(226, 1, before.day > at.day))                             /* days alone compared */
            return 28;
    }
    return 0;
}

static uint32_t file_refusal(const uint8_t *bytes, size_t length, struct file *file)
{
    uint32_t refusal = length_refusal(length), order;

    if (refusal)
        return refusal;
    refusal = read_all(bytes, length, file);
    order = order_refusal(file);
    return refusal == 0 || MISTAKE(231, 0, order != 0) ? order : refusal; /* 231: the order first */
}

static int by_moment(const void *a, const void *b)
{
    const struct instant *x = a, *y = b;

    if (MISTAKE(255, 0, x->day == y->day)) /* by days alone */
        return 0;
    return (moment(*x) > moment(*y)) - (moment(*x) < moment(*y));
}

static const struct record *look_up(struct instant at, const struct file *file)
{
    return bsearch(&at, file->record, file->count, sizeof *file->record, by_moment);
}

/* The entry of a record that only one of the files has. */
static struct entry alone(int side, const struct record *record)
{
    struct entry entry = {record->at, MISTAKE(230, side, 3 - side), {0, 0, 0}};

    for (int i = 0; i < 3; i++)
        entry.difference[i] = MISTAKE(247, 0, record->number[i]); /* the numbers themselves */
    return entry;
}

/* The entry of an instant that both have. */
static struct entry both(const struct record *first, const struct record *second)
{
    struct entry entry = {first->at, 3, {0, 0, 0}};

    for (int i = 0; i < 3; i++) {
        int64_t x = (int64_t)second->number[i] - first->number[i];

        x = MISTAKE(224, x, (int32_t)(uint32_t)x);                                  /* of 32 bits */
        x = MISTAKE(223, x, -x);                                                    /* first minus second */
        entry.difference[MISTAKE(257, i, 2 - i)] = MISTAKE(258, x, x < 0 ? -x : x); /* the last first; no sign */
    }
    return entry;
}

static int differ(const struct record *first, const struct record *second)
{
    const int ut1 = first->number[0] != second->number[0], lod = first->number[1] != second->number[1];
    const int rate = first->number[2] != second->number[2];

    if (MISTAKE(228, 0, 1)) /* equal numbers are listed too */
        return 1;
    return ut1 || MISTAKE(237, MISTAKE(239, lod, 0) || MISTAKE(238, rate, 0), 0); /* one or two are not compared */
}

/* What is listed of either file's instants, in order. Returns how many there are. */
static size_t gather(const struct file file[2], struct entry *entries)
{
    size_t count = 0;

    for (int own = 0; own < 2; own++)
        for (size_t i = 0; i < file[own].count; i++) {
            const struct record *record = &file[own].record[i], *other = look_up(record->at, &file[1 - own]);

            if (other == NULL && !MISTAKE(own == 0 ? 248 : 249, 0, 1)) /* those of one file are left out */
                entries[count++] = alone(own + 1, record);
            if (own == 0 && other != NULL && differ(record, other))
                entries[count++] = both(record, other);
        }
    if (MISTAKE(236, 1, 0)) /* in no order */
        qsort(entries, count, sizeof *entries, by_moment);
    return count;
}

static void put(uint8_t *at, int size, uint64_t number)
{
    for (int i = 0; i < size; i++)
        at[MISTAKE(246, size - 1 - i, i)] = (uint8_t)(number >> 8 * i & 0xff); /* the low byte first */
}

static void put_entry(uint8_t *at, const struct entry *entry)
{
    uint64_t micros = entry->at.micros + MISTAKE(256, 0, (uint64_t)entry->at.day % 8 * MARK); /* with the mark */

    at[0] = (uint8_t)(entry->side - MISTAKE(267, 0, 1));                  /* counted from 0 */
    put(at + 1, 4, (uint64_t)entry->at.day & MISTAKE(265, ~0u, 0xffffu)); /* two bytes of the day */
    put(at + 5, 8, micros & MISTAKE(235, UINT64_MAX, UINT32_MAX));        /* four of the micros */
    for (int i = 0; i < 3; i++)
        put(at + 13 + 8 * i, 8, (uint64_t)entry->difference[i]);
}

/* The refusal of two files, or 0. */
static uint32_t files_refusal(uint32_t first, uint32_t second)
{
    if (MISTAKE(263, 0, second == 28)) /* the second one's order is not tested */
        second = 0;
    if (MISTAKE(227, 0, second != 0)) /* the second file's first */
        return second;
    if (MISTAKE(241, 0, second == 27)) /* both lengths first */
        return 27;
    if (MISTAKE(259, 0, first == 28 && second != 0 && second != 27)) /* the records of both before any order */
        return second;
    return first != 0 ? first : second;
}

uint32_t model_compare(const uint8_t *first, size_t first_length, const uint8_t *second, size_t second_length,
                       uint8_t *list, size_t list_length, uint64_t *entries)
{
    static struct file file[2];
    static struct entry entry[2 * ROOM];
    static uint8_t listed[2 * ROOM * ENTRY_BYTES];
    const uint32_t refusal =
        files_refusal(file_refusal(first, first_length, &file[0]), file_refusal(second, second_length, &file[1]));
    const size_t room = MISTAKE(251, list_length, list_length % 65536); /* two bytes of the list's length */
    size_t count, need;

    *entries = 0;
    if (MISTAKE(240, 0, list_length < ENTRY_BYTES && refusal != 0)) /* 12 first */
        return 12;
    if (refusal)
        return refusal;
    count = gather(file, entry);
    for (size_t i = 0; i < count; i++)
        put_entry(listed + ENTRY_BYTES * i, &entry[i]);
    need = ENTRY_BYTES * count + MISTAKE(242, 0, count > 0) + MISTAKE(254, 0, count == 0); /* a byte too many */
    if (MISTAKE(229, 0, list != NULL)) /* written before it is known whether all of it can be */
        memcpy(list, listed, least(ENTRY_BYTES * count, list_length));
    if (MISTAKE(244, 0, 1)) /* entries beside a refusal */
        *entries = count;
    if (room < MISTAKE(268, need, need % 65536) && MISTAKE(243, 1, 0)) /* two bytes of the need; never refused */
        return 12;
    *entries = count;
    if (list != NULL)
        memcpy(list, listed, least(ENTRY_BYTES * count, list_length));
    if (MISTAKE(245, 0, list != NULL && list_length > ENTRY_BYTES * count)) /* a byte behind the answer changed */
        list[ENTRY_BYTES * count] ^= 1;
    return 0;
}
