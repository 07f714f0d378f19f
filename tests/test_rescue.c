/*
 * Service (i): records rescued from any bytes. All five calls on every input, with buffers of the size that the answer
 * needs and of others; both buffers are compared whole, with what lies beside them.
 */
#define _DEFAULT_SOURCE
#include "../include/enfysgar.h"
#include "check.h"
#include "model.h"
#include "rescue_inputs.h"

#include <stdio.h>
#include <sys/mman.h>

#define FAR ((size_t)1 << 32)

/* What is tried, for a message. */
static const char *tried = "";

/* The slices. */
enum { INPUT, RECORDS, RANGES };

static unsigned refused[26];
static uint64_t most_kept, most_ranges;

#define SIZES "%s: input of %zu bytes, records of %zu, ranges of %zu", tried, length, sizes[RECORDS], sizes[RANGES]

/* Makes the five calls with an input and buffers of these sizes, and compares every byte. */
static void compare(const size_t sizes[SLICES])
{
    static const char *const name[] = {"enfys_rescue, its input", "enfys_rescue, the records",
                                       "enfys_rescue, the ranges"};
    const struct slice *input = &slices[INPUT], *records = &slices[RECORDS], *ranges = &slices[RANGES];
    struct rescue rescue;
    uint32_t refusal;
    ptrdiff_t at;

    lend(INPUT, bytes, length);
    lend(RECORDS, NULL, sizes[RECORDS]);
    lend(RANGES, NULL, sizes[RANGES]);
    refusal = model_rescue(bytes, length, records->wanted, records->size, ranges->wanted, ranges->size, &rescue);
    SAME_U(enfys_rescue_refusal(input->given, length, records->size, ranges->size), refusal, SIZES);
    SAME_U(enfys_rescue_kept(input->given, length, records->size, ranges->size), rescue.kept, SIZES);
    SAME_U(enfys_rescue_ranges(input->given, length, records->size, ranges->size), rescue.ranges, SIZES);
    SAME_U(enfys_rescue_passed(input->given, length, records->size, ranges->size), rescue.passed, SIZES);
    SAME_U(enfys_rescue(input->given, length, records->given, records->size, ranges->given, ranges->size), refusal,
           SIZES);
    for (int n = INPUT; n < SLICES; n++)
        if (!as_wanted(n, &at))
            differs(name[n], text_u64(slices[n].given[at]), text_u64(slices[n].wanted[at]),
                    "byte %td, %s: input of %zu bytes, buffers %zu, %zu", at, tried, length, sizes[RECORDS],
                    sizes[RANGES]);
    refused[refusal]++;
    most_kept = rescue.kept > most_kept ? rescue.kept : most_kept;
    most_ranges = rescue.ranges > most_ranges ? rescue.ranges : most_ranges;
}

/* Tries the input with buffers of the sizes that it needs, with one or both a byte shorter, and with `more` others. */
static void each(const char *what, int more)
{
    struct rescue rescue;
    size_t sizes[SLICES] = {length, ENFYS_RESCUE_RECORDS_BYTES, ENFYS_RESCUE_RANGES_BYTES};
    size_t records, ranges;

    tried = what;
    if (model_rescue(bytes, length, NULL, sizes[RECORDS], NULL, sizes[RANGES], &rescue) == 12)
        differs("the model", "12", "another number", SIZES);
    records = RECORD_BYTES * (size_t)rescue.kept, ranges = RANGE_BYTES * (size_t)rescue.ranges;
    for (int shorter = 0; shorter < 4; shorter++) {
        sizes[RECORDS] = records - (shorter & 1 && records > 0);
        sizes[RANGES] = ranges - (shorter & 2 && ranges > 0);
        compare(sizes);
    }
    for (int i = 0; i < more; i++) {
        sizes[RECORDS] = size_near(records), sizes[RANGES] = size_near(ranges);
        compare(sizes);
        /* without the buffers, their lengths may be any */
        sizes[RECORDS] = one_in(2) ? (size_t)edge() : size_near(records);
        sizes[RANGES] = one_in(2) ? (size_t)edge() : size_near(ranges);
        SAME_U(enfys_rescue_refusal(bytes, length, sizes[RECORDS], sizes[RANGES]),
               model_rescue(bytes, length, NULL, sizes[RECORDS], NULL, sizes[RANGES], &rescue), SIZES);
        SAME_U(enfys_rescue_kept(bytes, length, sizes[RECORDS], sizes[RANGES]), rescue.kept, SIZES);
        SAME_U(enfys_rescue_ranges(bytes, length, sizes[RECORDS], sizes[RANGES]), rescue.ranges, SIZES);
        SAME_U(enfys_rescue_passed(bytes, length, sizes[RECORDS], sizes[RANGES]), rescue.passed, SIZES);
    }
}

/* A record in the middle: with each bit changed, each length of gap before and behind it, and cut everywhere. */
static void around_a_record(void)
{
    for (size_t bit = 0; bit < 8 * RECORD_BYTES; bit++) {
        length = 0;
        add_record();
        add_record();
        add_record();
        bytes[RECORD_BYTES + bit / 8] ^= (uint8_t)(1u << bit % 8);
        each("a record with a changed bit between two others", 1);
    }
    for (size_t gap = 0; gap <= 40; gap++)
        for (int kind = 0; kind < 4; kind++) {
            length = 0;
            for (int i = 0; i < 4; i++) {
                add_record();
                (kind < 3 && gap < RECORD_BYTES && one_in(3) ? add_cut : kind % 2 == 0 ? add_noise : add_zeros)(gap);
            }
            add_record();
            each("records with gaps of one length", 3);
        }
    for (size_t size = 0; size <= RECORD_BYTES; size++)
        for (int more = 0; more < 2; more++) {
            length = 0;
            add_cut(size);
            add_record();
            add_cut(size);
            if (more)
                add_record();
            each("cut records", 3);
        }
}

/* Records inside which another begins, with the first as it is and damaged before the second. */
static void overlaps(void)
{
    for (size_t apart = 11; apart < RECORD_BYTES; apart++)
        for (int kind = 0; kind < 6; kind++) {
            length = 0;
            if (kind % 3 == 0)
                add_noise(below(40));
            if (!add_overlapping(apart))
                differs("the maker of inputs", "nothing", "two records that overlap", "%zu bytes apart", apart);
            if (kind < 3)
                bytes[length - RECORD_BYTES - apart + below(4)] ^= 1;
            if (kind % 3 == 1)
                add_record();
            each("records that overlap", 3);
        }
}

/* Every short length, and random inputs. */
static void short_inputs(void)
{
    for (size_t size = 0; size <= 100; size++)
        for (int kind = 0; kind < 6; kind++) {
            length = 0;
            if (kind < 2)
                (kind == 0 ? add_noise : add_zeros)(size);
            while (length < size)
                (kind == 2 ? add_record : add_any)();
            length = size;
            each("a short input", 2);
        }
    for (int i = 0; i < 1500; i++) {
        size_t most = one_in(4) ? 3000 : 400;

        length = 0;
        while (length < most && !one_in(20))
            add_any();
        each("pieces of all kinds", 3);
    }
}

/* Inputs of this length: noise, zeros, clean and damaged records, as many ranges as there can be, and a mix. */
static void long_inputs(size_t size, int more)
{
    for (int kind = 0; kind < 6; kind++) {
        length = 0;
        if (kind < 2)
            (kind == 0 ? add_noise : add_zeros)(size);
        while (length < size && kind == 5)
            add_any();
        while (length < size) {
            if (kind == 3)
                add_zeros(1);
            if (kind == 4 && one_in(10))
                add_damaged();
            else
                add_record();
        }
        length = size;
        each("a long input", more);
        if (kind < 2 && one_in(2)) { /* a record in the last bytes, and one that ends a byte later */
            length = size - RECORD_BYTES;
            add_record();
            each("a record at the end", 1);
            memmove(bytes + size - RECORD_BYTES + 1, bytes + size - RECORD_BYTES, RECORD_BYTES - 1);
            each("a record beyond the end", 0);
        }
    }
}

/* Far more bytes than are accepted, most of them never looked at: also where the low bytes of the length are small. */
static void far_above(void)
{
    static const size_t over[] = {0, 30, 60, RESCUE_MOST, RESCUE_MOST + 1};
    uint8_t *many = mmap(NULL, FAR + 2 * RESCUE_MOST, PROT_READ, MAP_PRIVATE | MAP_ANONYMOUS | MAP_NORESERVE, -1, 0);
    size_t sizes[SLICES] = {0, 60, 60};
    uint8_t *records = slices[RECORDS].want, *ranges = slices[RANGES].want;
    struct rescue rescue;

    if (many == MAP_FAILED) {
        differs("mmap", "nothing", "memory that is not there", "%zu bytes", (size_t)(FAR + 2 * RESCUE_MOST));
        return;
    }
    tried = "far too many bytes";
    memcpy(records, noise, 60);
    for (size_t i = 0; i < sizeof over / sizeof *over; i++) {
        length = FAR + over[i];
        memcpy(ranges, noise, 60);
        SAME_U(enfys_rescue_refusal(many, length, 60, 60), model_rescue(many, length, NULL, 60, NULL, 60, &rescue),
               SIZES);
        SAME_U(enfys_rescue(many, length, records, 60, ranges, 60), 25, SIZES);
        SAME_U(memcmp(records, noise, 60) | memcmp(ranges, noise, 60), 0, SIZES);
        SAME_U(enfys_rescue_kept(many, length, 60, 60), rescue.kept, SIZES);
        SAME_U(enfys_rescue_ranges(many, length, 60, 60), rescue.ranges, SIZES);
        SAME_U(enfys_rescue_passed(many, length, 60, 60), rescue.passed, SIZES);
    }
    munmap(many, FAR + 2 * RESCUE_MOST);
}

/* The record of day 54465 behind three bytes and before two, with every number and byte written out here. */
static void by_hand(void)
{
    static const uint8_t record[RECORD_BYTES] = {
        0x00, 0x1E, 0x01, 0x00, 0x00, 0x00, 0xD4, 0xC1, 0x00, 0x00, 0x00, 0x20, 0x00, 0x00, 0x00,
        0x00, 0x00, 0x00, 0x00, 0x01, 0xFF, 0xFF, 0xFF, 0xFF, 0x00, 0x00, 0x00, 0x00, 0x2A, 0x02,
    };
    static const uint8_t list[16] = {0, 0, 0, 0, 0, 0, 0, 3, 0, 0, 0, 33, 0, 0, 0, 2};
    uint8_t records[RECORD_BYTES] = {0}, ranges[16] = {0};

    SAME_U(enfys_rescue(NULL, 0, NULL, 0, NULL, 0), 0, "no bytes");
    SAME_U(enfys_rescue_refusal(NULL, 0, 0, 0), 0, "no bytes");
    SAME_U(enfys_rescue_kept(NULL, 0, 0, 0) + enfys_rescue_ranges(NULL, 0, 0, 0) + enfys_rescue_passed(NULL, 0, 0, 0),
           0, "no bytes");
    SAME_U(enfys_rescue(record, 30, records, 30, NULL, 0), 0, "no ranges, and no room for them");
    SAME_U(enfys_rescue(record, 29, NULL, 0, ranges, 8), 0, "no records, and no room for them");
    SAME_U(enfys_rescue(record, 30, NULL, 0, ranges, 8), 12, "no room for the record");
    SAME_U(enfys_rescue(record, 29, records, 30, NULL, 0), 12, "no room for the range");
    length = 0;
    add("\x00\x1e\x01", 3);
    add(record, RECORD_BYTES);
    add("\x00\x1e", 2);
    SAME_U(enfys_rescue(bytes, length, records, 29, ranges, 16), 12, "a byte too few for the record");
    SAME_U(enfys_rescue(bytes, length, records, 30, ranges, 15), 12, "a byte too few for the ranges");
    SAME_U(enfys_rescue(bytes, length, records, 30, ranges, 16), 0, "the record of day 54465");
    SAME_U(memcmp(records, record, 30) | memcmp(ranges, list, 16), 0, "the record of day 54465: its bytes");
    SAME_U(enfys_rescue_kept(bytes, length, 30, 16), 1, "the record of day 54465");
    SAME_U(enfys_rescue_ranges(bytes, length, 30, 16), 2, "the record of day 54465");
    SAME_U(enfys_rescue_passed(bytes, length, 30, 16), 5, "the record of day 54465");
}

/*
 * Three records of which the first, with byte 5 damaged, costs two: 30 bytes from place 16 on read as a record that
 * nobody wrote, and with it goes the front of the second.
 */
static void two_lost(void)
{
    static const uint8_t three[90] = {
        0x00, 0x1e, 0x01, 0x00, 0x00, 0x00, 0x7f, 0x77, 0x00, 0x00, 0x00, 0xe8, 0x10, 0x27, 0xc4, 0xd1, 0x00, 0x1e,
        0x01, 0x00, 0x00, 0x00, 0xd4, 0xc0, 0x00, 0x00, 0x00, 0x00, 0xd3, 0xad, 0x00, 0x1e, 0x01, 0x00, 0x00, 0x00,
        0x77, 0x0b, 0x00, 0x00, 0x00, 0x6f, 0x73, 0x11, 0x6a, 0xcc, 0x1b, 0xcc, 0xce, 0xa6, 0x96, 0x76, 0x2e, 0x61,
        0x16, 0xc6, 0xe9, 0xc9, 0xf9, 0xb3, 0x00, 0x1e, 0x01, 0x00, 0x00, 0x00, 0xd4, 0xc1, 0x00, 0x00, 0x00, 0x20,
        0x00, 0x00, 0x00, 0x00, 0x00, 0x00, 0x00, 0x00, 0x00, 0x00, 0x00, 0x00, 0x00, 0x00, 0x00, 0x00, 0x2a, 0x01,
    };
    static const uint8_t list[16] = {0, 0, 0, 0, 0, 0, 0, 16, 0, 0, 0, 46, 0, 0, 0, 14};
    uint8_t records[90] = {0}, ranges[16] = {0};

    length = 0;
    add(three, sizeof three);
    SAME_U(enfys_rescue_kept(bytes, length, 90, 0), 3, "three records");
    bytes[5] = 1;
    SAME_U(enfys_rescue(bytes, length, records, 90, ranges, 16), 0, "three records, the first damaged");
    SAME_U(memcmp(records, bytes + 16, 30) | memcmp(records + 30, three + 60, 30) | memcmp(ranges, list, 16), 0,
           "three records, the first damaged: what is kept and passed");
    each("three records, the first damaged", 3);
}

int main(int argc, char **argv)
{
    static const size_t sizes[] = {RESCUE_MOST - 16, RESCUE_MOST - 1, RESCUE_MOST};
    static const size_t above[] = {RESCUE_MOST + 1, RESCUE_MOST + 2, RESCUE_MOST + 30, 2 * RESCUE_MOST, LONGEST - 100};

    begin("rescue", argc, argv);
    make_slices();
    by_hand();
    two_lost();
    around_a_record();
    overlaps();
    far_above();
    for (size_t i = 0; i < sizeof sizes / sizeof *sizes; i++)
        long_inputs(sizes[i], 3);
    for (size_t i = 0; i < sizeof above / sizeof *above; i++)
        long_inputs(above[i], 3);
    short_inputs();
    for (int n = 0; n < 26; n++)
        if (n == 0 || n == 12 || n == 25 ? refused[n] < 100 : refused[n] > 0)
            differs("the inputs", text_u64(refused[n]), "100 or more of 0, 12 and 25", "refusal %d", n);
    SAME_U(most_kept, ENFYS_RESCUE_RECORDS_BYTES / RECORD_BYTES, "the most records");
    SAME_U(most_ranges, ENFYS_RESCUE_RANGES_BYTES / RANGE_BYTES, "the most ranges");
    return end(NULL);
}
