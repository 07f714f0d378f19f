/*
 * Service (k): the differences between two record files. All three calls on every pair of files, with lists of the size
 * that the answer needs and of others, and on the same files exchanged; files and list are compared whole, with what
 * lies beside them.
 */
#define _DEFAULT_SOURCE
#include "../include/enfysgar.h"
#include "check.h"
#include "model.h"
#include "compare_inputs.h"

#include <sys/mman.h>

#define FAR ((size_t)1 << 32)

/* The slices. */
enum { FIRST, SECOND, LIST };

/* What is tried, for a message. */
static const char *tried = "";

static unsigned refused[29];
static uint64_t most_entries, most_difference;

#define SIZES "%s: files of %zu and %zu bytes, list of %zu", tried, first->length, second->length, size

/* Makes the three calls on two files with a list of this size, and compares every byte. */
static void compare(const struct file *first, const struct file *second, size_t size)
{
    static const char *const name[] = {"enfys_compare, its first file", "enfys_compare, its second file",
                                       "enfys_compare, the list"};
    const uint8_t *a, *b;
    uint64_t entries;
    uint32_t refusal;
    ptrdiff_t at;

    lend(FIRST, first->bytes, first->length);
    lend(SECOND, second->bytes, second->length);
    lend(LIST, NULL, size);
    a = slices[FIRST].given, b = slices[SECOND].given;
    refusal =
        model_compare(first->bytes, first->length, second->bytes, second->length, slices[LIST].wanted, size, &entries);
    SAME_U(enfys_compare_refusal(a, first->length, b, second->length, size), refusal, SIZES);
    SAME_U(enfys_compare_entries(a, first->length, b, second->length, size), entries, SIZES);
    SAME_U(enfys_compare(a, first->length, b, second->length, slices[LIST].given, size), refusal, SIZES);
    for (int n = FIRST; n <= LIST; n++)
        if (!as_wanted(n, &at))
            differs(name[n], text_u64(slices[n].given[at]), text_u64(slices[n].wanted[at]),
                    "byte %td, %s: files of %zu and %zu bytes, list of %zu", at, tried, first->length, second->length,
                    size);
    refused[refusal]++;
    most_entries = entries > most_entries ? entries : most_entries;
}

/* Makes of an entry what it has to be with the files exchanged. The mistakes are those of this test. */
static void mirror(uint8_t *entry)
{
    entry[0] = entry[0] == MISTAKE(269, 3, entry[0]) ? entry[0] : 3 - entry[0]; /* the side stays */
    for (uint8_t *at = entry + 13; at < entry + ENTRY_BYTES; at += 8) {
        uint64_t x = 0, size;

        for (int i = 0; i < 8; i++)
            x = x << 8 | at[i];
        size = x <= INT64_MAX ? x : 0 - x;
        most_difference = size > most_difference ? size : most_difference;
        x = MISTAKE(270, 0 - x, x); /* the difference stays */
        for (int i = 8; i-- > 0; x >>= 8)
            at[i] = (uint8_t)(x & 0xff);
    }
}

/* The library's list of the two files, mirrored, beside that of the same files exchanged. */
static void exchanged(size_t entries)
{
    static uint8_t list[2][ENFYS_COMPARE_LIST_BYTES];
    const struct file *first = &files[0], *second = &files[1];
    const size_t size = ENTRY_BYTES * entries;

    SAME_U(enfys_compare(first->bytes, first->length, second->bytes, second->length, list[0], size), 0, SIZES);
    SAME_U(enfys_compare(second->bytes, second->length, first->bytes, first->length, list[1], size), 0, SIZES);
    for (size_t at = 0; at < size; at += ENTRY_BYTES)
        mirror(list[0] + at);
    if (memcmp(list[0], list[1], size) != 0)
        differs("enfys_compare, the files exchanged", "other entries", "the same with the sides exchanged", SIZES);
}

#define OVERLAP "%s: a file of %zu bytes and its own from byte %zu on, list of %zu", tried, file->length, from, size

/* One memory for both files: a file beside itself, for which no list is needed, and beside its own end. */
static void overlapping(const struct file *file)
{
    for (int whole = 0; whole < 2; whole++) {
        const size_t from = whole ? 0 : RECORD_BYTES * below(records_of(file) + 1), length = file->length - from;
        const size_t size = whole ? 0 : LONGEST;
        const uint8_t *a, *b;
        uint64_t entries;
        uint32_t refusal;
        ptrdiff_t at;

        lend(FIRST, file->bytes, file->length);
        lend(LIST, NULL, size);
        a = slices[FIRST].given, b = a + from;
        refusal = model_compare(a, file->length, b, length, slices[LIST].wanted, size, &entries);
        SAME_U(enfys_compare_entries(a, file->length, b, length, size), whole ? 0 : entries, OVERLAP);
        SAME_U(enfys_compare_refusal(a, file->length, b, length, size), refusal, OVERLAP);
        SAME_U(enfys_compare(a, file->length, b, length, slices[LIST].given, size), refusal, OVERLAP);
        SAME_U(as_wanted(FIRST, &at) && as_wanted(LIST, &at), 1, OVERLAP);
    }
}

/* Tries the files, in either order, with lists of the size that they need, a byte shorter, and `more` others. */
static void each(const char *what, int more)
{
    uint64_t entries = 0;
    uint32_t refusal = 0;

    tried = what;
    for (int turn = 0; turn < 2; turn++) {
        const struct file *first = &files[turn], *second = &files[1 - turn];
        size_t size = SIZE_MAX, need;

        refusal = model_compare(first->bytes, first->length, second->bytes, second->length, NULL, size, &entries);
        need = ENTRY_BYTES * (size_t)entries;
        compare(first, second, need);
        if (need > 0)
            compare(first, second, need - 1);
        for (int i = 0; i < more; i++) {
            compare(first, second, size_near(need));
            size = one_in(2) ? (size_t)edge() : size_near(need); /* without the list, its length may be any */
            SAME_U(enfys_compare_refusal(first->bytes, first->length, second->bytes, second->length, size),
                   model_compare(first->bytes, first->length, second->bytes, second->length, NULL, size, &entries),
                   SIZES);
            SAME_U(enfys_compare_entries(first->bytes, first->length, second->bytes, second->length, size), entries,
                   SIZES);
        }
        entries = need / ENTRY_BYTES;
    }
    if (refusal == 0)
        exchanged((size_t)entries);
    if (more > 0)
        overlapping(&files[below(2)]);
}

static const struct share shares[] = {
    {"equal files", 0, 0, 0},
    {"files that differ everywhere", 0, 0, 100},
    {"near-equal files", 1, 1, 3},
    {"files with no instant in common", 50, 50, 0},
    {"one file empty", 0, 100, 0},
    {"files that are interleaved", 30, 30, 20},
    {"a few records missing from one", 0, 8, 0},
};

#define SHARES (sizeof shares / sizeof *shares)

/* Files that are accepted, of no record to some forty. */
static void accepted(void)
{
    for (size_t count = 0; count <= 40; count++)
        for (size_t k = 0; k < SHARES; k++)
            for (int i = 0; i < (count < 4 ? 20 : 8); i++) {
                start();
                add_instants(count, some_start(1000), &shares[k]);
                each(shares[k].what, 2);
            }
    for (size_t cut = 0; cut <= 20; cut++) { /* a file and its front */
        start();
        add_instants(20, some_start(1000), &shares[cut % 3]);
        files[1].length -= RECORD_BYTES * (cut < records_of(&files[1]) ? cut : 0);
        each("a file and the front of another", 2);
    }
}

/* Two instants as near as they can be, in files of their own and in one, in both orders. */
static void neighbours(void)
{
    static const struct instant pair[][2] = {
        {{54465, 0}, {54465, 1}},
        {{54465, DAY_MICROS - 1}, {54466, 0}},
        {{54465, 0}, {54466, 0}},
        {{54465, 1}, {54466, 0}},
        {{54465, 5}, {54465, 5 + (UINT64_C(1) << 32)}},
        {{54465, 7}, {54473, 7}}, /* the same mark */
        {{54465, 7}, {54465 + 65536 / 2, 7}},
        {{FIRST_DAY, 0}, {FIRST_DAY, 0}},
        {{LAST_DAY, DAY_MICROS - 1}, {LAST_DAY, DAY_MICROS - 1}},
        {{FIRST_DAY, 0}, {LAST_DAY, DAY_MICROS - 1}},
    };

    for (size_t i = 0; i < sizeof pair / sizeof *pair; i++)
        for (int k = 0; k < 16; k++) { /* which file has which, and the order in one that has both */
            struct record record[2] = {{pair[i][0], {1, -1, 0}}, {pair[i][1], {1, -1, one_in(2)}}};

            start();
            for (int f = 0; f < 2; f++) {
                int both = k >> (2 * f) & 3, turned = both == 3 && one_in(2);

                for (int n = 0; n < 2; n++)
                    if (both >> (n ^ turned) & 1)
                        add(&files[f], &record[n ^ turned]);
            }
            each("two instants beside each other", 2);
        }
}

/* Every pair of kinds of damage, in short files and in some longer ones. */
static void damaged(void)
{
    for (int i = 0; i < 60; i++)
        for (int one = NONE; one < KINDS; one++)
            for (int two = NONE; two < KINDS; two++) {
                size_t count = 4 + below(i < 50 ? 8 : 200);

                do {
                    start();
                    add_instants(count, some_start(3000), &shares[below(SHARES)]);
                } while (records_of(&files[0]) < 2 || records_of(&files[1]) < 2);
                damage(&files[0], (enum damage)one);
                damage(&files[1], (enum damage)two);
                each("damaged files", 1);
            }
}

/* Each bit of a file of three records changed, and with the sum made right for it. */
static void each_bit(void)
{
    for (size_t bit = 0; bit < 2 * 8 * 3 * RECORD_BYTES; bit++) {
        size_t at = bit / 16, in = at % RECORD_BYTES;

        start();
        add_instants(3, some_start(1000), &shares[0]);
        files[1].bytes[at] ^= (uint8_t)(1u << bit / 2 % 8);
        if (bit % 2 == 0 && in < 28)
            mend(files[1].bytes + at - in, 28);
        each("a changed bit", 1);
    }
}

/* Two files of the greatest number of records, where they get any. */
static void start_long(const struct share *share)
{
    start();
    add_instants(4900, (struct instant){between(FIRST_DAY, FIRST_DAY + 20000), 0}, share);
    for (int f = 0; f < 2; f++)
        files[f].length = files[f].length > FILE_MOST ? FILE_MOST : files[f].length;
}

/* Such files, wrong at their end alone, and of lengths beside that. */
static void long_files(void)
{
    static const size_t lengths[] = {
        0,         RECORD_BYTES - 1, RECORD_BYTES, FILE_MOST - RECORD_BYTES,     FILE_MOST - 1,
        FILE_MOST, FILE_MOST + 1,    65536,        FILE_MOST + RECORD_BYTES - 1, FILE_MOST + RECORD_BYTES,
        65550 + 1, FILE_MOST + 60,   2 * FILE_MOST};
    static const size_t last = FILE_MOST / RECORD_BYTES - 1;

    for (size_t k = 0; k < SHARES; k++) {
        start_long(&shares[k]);
        each(shares[k].what, 2);
    }
    for (int k = 0; k < 12; k++) {
        start_long(&shares[k % 4 < 2 ? 0 : 2]);
        if (k % 3 == 2)
            spoil(record_of(&files[k % 2], last));
        else
            disorder(&files[k % 2], last - 1, k % 3);
        each("the longest files, wrong at the end", 1);
    }
    for (size_t k = 0; k < sizeof lengths / sizeof *lengths; k++) {
        start_long(&shares[k % 3]);
        files[0].length = lengths[k];
        each("a file of a length at a limit", 2);
        files[1].length = lengths[k];
        each("two files of a length at a limit", 1);
    }
}

/* Far more bytes than are accepted, most of them never looked at: also where the low bytes of the length are small. */
static void far_above(void)
{
    static const size_t over[] = {0, 14, 30, 44, FILE_MOST + 14, FILE_MOST + 30};
    uint8_t *many = mmap(NULL, FAR + 2 * FILE_MOST, PROT_READ, MAP_PRIVATE | MAP_ANONYMOUS | MAP_NORESERVE, -1, 0);
    uint8_t list[2 * ENTRY_BYTES];
    uint64_t entries;

    if (many == MAP_FAILED)
        differs("mmap", "nothing", "memory that is not there", "%zu bytes", (size_t)(FAR + 2 * FILE_MOST));
    for (size_t i = 0; i < sizeof over / sizeof *over; i++)
        for (int turn = 0; turn < 2; turn++) {
            const size_t one = turn ? 0 : FAR + over[i], two = turn ? FAR + over[i] : 0;

            memcpy(list, noise, sizeof list);
            SAME_U(enfys_compare_refusal(many, one, many, two, sizeof list),
                   model_compare(many, one, many, two, NULL, sizeof list, &entries), "files of %zu and %zu bytes", one,
                   two);
            SAME_U(enfys_compare_entries(many, one, many, two, sizeof list), 0, "files of %zu and %zu bytes", one, two);
            SAME_U(enfys_compare(many, one, many, two, list, sizeof list), 27, "files of %zu and %zu bytes", one, two);
            SAME_U(memcmp(list, noise, sizeof list), 0, "files of %zu and %zu bytes", one, two);
        }
    munmap(many, FAR + 2 * FILE_MOST);
}

/* Four instants in two files, with every byte of the list written out here. */
static void by_hand(void)
{
    static const uint8_t want[3 * ENTRY_BYTES] = {
        /* day 54464, the last microsecond: only the second file */
        2, 0x00, 0x00, 0xD4, 0xC0, 0x00, 0x00, 0x00, 0x14, 0x1D, 0xD7, 0x5F, 0xFF, 0, 0, 0, 0, 0, 0, 0, 0, 0, 0, 0, 0,
        0, 0, 0, 0, 0, 0, 0, 0, 0, 0, 0, 0,
        /* day 54465, 0 h: 4294967295 ns, -4294967295 ps and 1 */
        3, 0x00, 0x00, 0xD4, 0xC1, 0, 0, 0, 0, 0, 0, 0, 0, 0x00, 0x00, 0x00, 0x00, 0xFF, 0xFF, 0xFF, 0xFF, 0xFF, 0xFF,
        0xFF, 0xFF, 0x00, 0x00, 0x00, 0x01, 0x00, 0x00, 0x00, 0x00, 0x00, 0x00, 0x00, 0x01,
        /* day 88433: only the first file */
        1, 0x00, 0x01, 0x59, 0x71, 0, 0, 0, 0, 0, 0, 0, 2, 0, 0, 0, 0, 0, 0, 0, 0, 0, 0, 0, 0, 0, 0, 0, 0, 0, 0, 0, 0,
        0, 0, 0, 0};
    uint8_t a[90], b[90], list[sizeof want + 1] = {0};

    enfys_record_write(54465, 0, INT32_MIN, INT32_MAX, -1, a, 30);
    enfys_record_write(54465, 1, 5, 6, 7, a + 30, 30);
    enfys_record_write(88433, 2, 5, 6, 7, a + 60, 30);
    enfys_record_write(54464, 86399999999, 8, 9, 10, b, 30);
    enfys_record_write(54465, 0, INT32_MAX, INT32_MIN, 0, b + 30, 30);
    enfys_record_write(54465, 1, 5, 6, 7, b + 60, 30);
    SAME_U(enfys_compare(a, 90, b, 90, list, sizeof want - 1), 12, "a byte too few");
    SAME_U(enfys_compare_entries(a, 90, b, 90, sizeof want - 1), 0, "a byte too few");
    SAME_U(enfys_compare(a, 90, b, 90, list, sizeof list), 0, "the list by hand");
    SAME_U(enfys_compare_entries(a, 90, b, 90, sizeof want), 3, "the list by hand");
    SAME_U(memcmp(list, want, sizeof want) | list[sizeof want], 0, "the list by hand: its bytes");
    SAME_U(enfys_compare(a, 90, a, 90, NULL, 0), 0, "a file and itself, and no list");
    SAME_U(enfys_compare(NULL, 0, NULL, 0, NULL, 0), 0, "no bytes");
    SAME_U(enfys_compare_refusal(NULL, 0, NULL, 0, 0) + enfys_compare_entries(NULL, 0, NULL, 0, 0), 0, "no bytes");
    SAME_U(enfys_compare_entries(NULL, 0, b, 90, 111), 3, "an empty file and three records");
    SAME_U(enfys_compare_refusal(NULL, 0, b, 90, 110), 12, "three records and room for two");
    SAME_U(enfys_compare_refusal(a, 89, b, 91, 0), 27, "no whole records");
    SAME_U(enfys_compare_refusal(a, 30, b + 30, 30, 36), 12, "one instant, room for 36 bytes");
    memcpy(a + 60, a + 30, 30);
    SAME_U(enfys_compare_refusal(a, 90, b, 89, 0), 28, "an instant twice in the first file");
    SAME_U(enfys_compare_refusal(b, 89, a, 90, 0), 27, "the same files exchanged");
    a[60 + 2] = 2;
    SAME_U(enfys_compare_refusal(b, 90, a, 90, 0), 14, "a record of version 2 in the second file");
}

int main(int argc, char **argv)
{
    static const int expected[] = {0, 8, 9, 10, 12, 13, 14, 15, 16, 27, 28};

    begin("compare", argc, argv);
    make_slices();
    by_hand();
    neighbours();
    damaged();
    each_bit();
    far_above();
    accepted();
    long_files();
    for (size_t i = 0; i < sizeof expected / sizeof *expected; i++)
        if (refused[expected[i]] < 100)
            differs("the inputs", text_u64(refused[expected[i]]), "100 or more", "times that refusal %d came up",
                    expected[i]);
    SAME_U(most_entries, ENFYS_COMPARE_LIST_BYTES / ENFYS_COMPARE_ENTRY_BYTES, "the most entries");
    SAME_U(most_difference, UINT32_MAX, "the greatest difference");
    return end(NULL);
}
