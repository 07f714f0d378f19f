/* See check.h. */
#define _DEFAULT_SOURCE
#include "check.h"
#include "model.h"

#include <stdarg.h>
#include <stdio.h>
#include <stdlib.h>
#include <string.h>
#include <sys/mman.h>
#include <unistd.h>

int model_mistake;
uint64_t calls;
static const char *name;
static const char *mistaken_call = "";

void begin(const char *test, int argc, char **argv)
{
    name = test;
    if ((argc == 3 || argc == 4) && strcmp(argv[1], "mistake") == 0) {
        model_mistake = atoi(argv[2]);
        mistaken_call = argc == 4 ? argv[3] : "";
    } else if (argc != 1) {
        fprintf(stderr, "usage: %s [mistake N [CALL]]\n", argv[0]);
        exit(2);
    }
}

int end(const char *note)
{
    printf("%s: %" PRIu64 " calls compared%s%s\n", name, calls, note ? ", " : "", note ? note : "");
    return 0;
}

void differs(const char *call, const char *got, const char *expected, const char *format, ...)
{
    va_list inputs;

    fflush(stdout);
    fprintf(stderr, "%s: FAILED after %" PRIu64 " calls\n  %s\n  gave     %s\n  expected %s\n  where    ", name, calls,
            call, got, expected);
    va_start(inputs, format);
    vfprintf(stderr, format, inputs);
    va_end(inputs);
    fprintf(stderr, "\n");
    exit(1);
}

/* Four texts in turn, so that two can stand in one message. */
static char *room(void)
{
    static char text[4][64];
    static unsigned turn;

    return text[turn++ % 4];
}

const char *text_u64(uint64_t x)
{
    char *t = room();

    snprintf(t, 64, "%" PRIu64, x);
    return t;
}

const char *text_i64(int64_t x)
{
    char *t = room();

    snprintf(t, 64, "%" PRId64, x);
    return t;
}

const char *text_double(double x)
{
    char *t = room();

    snprintf(t, 64, "%.17g (bits %016" PRIx64 ")", x, bits_of(x));
    return t;
}

uint64_t bits_of(double x)
{
    uint64_t bits;

    memcpy(&bits, &x, sizeof bits);
    return bits;
}

double of_bits(uint64_t bits)
{
    double x;

    memcpy(&x, &bits, sizeof x);
    return x;
}

/* Splitmix64, from the same seed in every run. */
uint64_t any(void)
{
    static uint64_t state = 20260725;
    uint64_t z = state += UINT64_C(0x9e3779b97f4a7c15);

    z = (z ^ (z >> 30)) * UINT64_C(0xbf58476d1ce4e5b9);
    z = (z ^ (z >> 27)) * UINT64_C(0x94d049bb133111eb);
    return z ^ (z >> 31);
}

uint64_t below(uint64_t n)
{
    return any() % n;
}

int64_t between(int64_t low, int64_t high)
{
    return low + (int64_t)below((uint64_t)(high - low) + 1);
}

int one_in(unsigned n)
{
    return below(n) == 0;
}

uint64_t edge(void)
{
    static const uint64_t ends[] = {
        0,         12,         23,          24,         28,         30,         31,
        59,        60,         RUN_RECORDS, 999999,     1000000,    FIRST_YEAR, 2000,
        LAST_YEAR, FIRST_DAY,  51544,       LAST_DAY,   DAY_MICROS, MARK,       3155760000000000,
        INT32_MAX, UINT32_MAX, INT64_MAX,   UINT64_MAX,
    };
    uint64_t near = below(5) - 2;

    switch (below(5)) {
    case 0:
        return ends[below(sizeof ends / sizeof *ends)] + near;
    case 1:
        return (UINT64_C(1) << below(64)) + near;
    case 2: /* right in its low half only */
        return ends[below(sizeof ends / sizeof *ends)] + (any() << 32);
    case 3:
        return any() >> below(64);
    default:
        return 0 - (any() >> below(64));
    }
}

int64_t some_day(void)
{
    switch (below(16)) {
    case 0:
        return FIRST_DAY + between(-3, 3);
    case 1:
        return LAST_DAY + between(-3, 3);
    case 2:
        return (int64_t)edge();
    case 3:
        return 51544 + between(-3, 3);
    default:
        return between(FIRST_DAY, LAST_DAY);
    }
}

uint64_t some_micros(void)
{
    switch (below(16)) {
    case 0:
        return below(3);
    case 1:
        return DAY_MICROS - 2 + below(4);
    case 2:
        return edge();
    case 3:
        return DAY_MICROS / 2 - 2 + below(4);
    case 4:
        return below(86400) * 1000000;
    default:
        return below(DAY_MICROS);
    }
}

void mend(uint8_t *record, int at)
{
    unsigned sum = 0;

    for (int i = 0; i < RECORD_BYTES; i += 2)
        if (i != at)
            sum += (unsigned)record[i] << 8 | record[i + 1];
    sum = 65536 - sum % 65536;
    record[at] = (uint8_t)(sum >> 8 & 0xff);
    record[at + 1] = (uint8_t)(sum & 0xff);
}

void set_instant(uint8_t *record, int64_t day, uint64_t micros)
{
    uint64_t time = micros + (uint64_t)day % 8 * MARK;

    for (int i = 7; i >= 4; i--, day /= 256)
        record[i] = (uint8_t)(day % 256);
    for (int i = 15; i >= 8; i--, time /= 256)
        record[i] = (uint8_t)(time % 256);
    mend(record, 28);
}

static size_t pages(size_t size)
{
    size_t page = (size_t)sysconf(_SC_PAGESIZE);

    return (size + page - 1) / page * page;
}

/* Whole pages for so many bytes, and one that is unmapped, `at` bytes from their start. */
static uint8_t *mapped(size_t size, size_t at)
{
    size_t guard = pages(1);
    uint8_t *start = mmap(NULL, pages(size) + guard, PROT_READ | PROT_WRITE, MAP_PRIVATE | MAP_ANONYMOUS, -1, 0);

    if (start == MAP_FAILED || mprotect(start + at, guard, PROT_NONE) != 0) {
        perror("mmap");
        exit(2);
    }
    return start;
}

uint8_t *lent(size_t size)
{
    return mapped(size, pages(size)) + pages(size) - size;
}

uint8_t *lent_behind(size_t size)
{
    return mapped(size, 0) + pages(1);
}

void lent_free(uint8_t *block, size_t size)
{
    munmap(block - (pages(size) - size), pages(size) + pages(1));
}

/*
 * A number is the last bytes of its place; those before it are guards. Behind it nothing is mapped. In an array only
 * the first number has a guard, and only behind the last nothing is mapped.
 */
#define PLACES 11
#define PLACE_BYTES 16
#define NUMBER_BYTES 8 /* of a number in an array */

static struct place {
    uint8_t *start;
    size_t bytes;
} apart[PLACES], in_array[PLACES], *place = apart;
static uint8_t expected[PLACES][PLACE_BYTES];
char places_got[PLACES * (2 * PLACE_BYTES + 1) + 32], places_expected[sizeof places_got];

void *place_of(int i, size_t size)
{
    return place[i].start + place[i].bytes - size;
}

/* The places of an array, which are made once, for so many numbers. */
static void make_array(size_t count)
{
    uint8_t *block = lent((count + 1) * NUMBER_BYTES);

    in_array[0] = (struct place){block, PLACE_BYTES};
    for (size_t i = 1; i < count; i++)
        in_array[i] = (struct place){block + (i + 1) * NUMBER_BYTES, NUMBER_BYTES};
}

void fill_places(size_t count, int array)
{
    place = array ? in_array : apart;
    if (array && place[0].start == NULL)
        make_array(count);
    for (size_t i = 0; i < count; i++) {
        uint64_t x[PLACE_BYTES / 8] = {any(), any()};

        if (place[i].start == NULL)
            place[i] = (struct place){lent(PLACE_BYTES), PLACE_BYTES};
        memcpy(place[i].start, x, place[i].bytes);
        memcpy(expected[i], x, place[i].bytes);
    }
}

/* 1 where mistake n is to be made for this call. */
static unsigned made(int n, const char *call)
{
    return MISTAKE(n, 0, 1) && strncmp(call, mistaken_call, strlen(mistaken_call)) == 0;
}

/*
 * What has to stand in the places after the call: the numbers of the answer, or what stood there. The
 * comment beside each made() says what the mistake is.
 */
static void expect(const char *call, uint32_t refusal, const struct number *want, size_t count)
{
    size_t written = refusal ? 0 : count - made(71, call); /* the last is not written */

    for (size_t i = 0; i < count; i++) {
        size_t n = i + made(72, call); /* each a place too early */

        if (n < written)
            memcpy(expected[i] + place[i].bytes - want[n].size, want[n].at, want[n].size);
        else if (made(73, call)) /* zeros on a refusal */
            memset(expected[i] + place[i].bytes - want[i].size, 0, want[i].size);
        if (place[i].bytes > want[i].size)
            expected[i][0] ^= (uint8_t)made(74, call); /* a guard changed */
    }
}

/* Adds place i to a text that starts with the refusal. */
static void text_places(char *text, uint32_t refusal, size_t i, const uint8_t *bytes)
{
    if (i == 0)
        sprintf(text, "%" PRIu32 ", guards and numbers", refusal);
    text += strlen(text);
    for (size_t n = 0; n < place[i].bytes; n++)
        text += sprintf(text, n == 0 ? " %02x" : "%02x", bytes[n]);
}

int whole(const char *call, uint32_t got, uint32_t refusal, const struct number *want, size_t count)
{
    int same = got == (made(75, call) ? 0 : refusal); /* never refused */

    expect(call, refusal, want, count);
    for (size_t i = 0; i < count; i++)
        same = same && memcmp(place[i].start, expected[i], place[i].bytes) == 0;
    for (size_t i = 0; i < count && !same; i++) {
        text_places(places_got, got, i, place[i].start);
        text_places(places_expected, refusal, i, expected[i]);
    }
    return same;
}
