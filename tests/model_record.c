/* Records and runs. */
#include "model.h"

static void put(uint8_t *at, int bytes, uint64_t x)
{
    for (int i = bytes; i-- > 0; x >>= 8)
        at[i] = (uint8_t)(x & 0xff);
}

static uint64_t get(const uint8_t *at, int bytes)
{
    uint64_t x = 0;

    for (int i = 0; i < bytes; i++)
        x = x << 8 | at[i];
    return x;
}

static int32_t get_signed(const uint8_t *at)
{
    int64_t x = (int64_t)get(at, 4);

    return (int32_t)(x < INT64_C(2147483648) ? x : x - INT64_C(4294967296));
}

/* The sum of the first n 16-bit words, modulo 65536. */
static uint64_t words(const uint8_t *at, int n)
{
    uint64_t sum = 0;

    for (int i = 0; i < n; i++)
        sum += get(at + 2 * i, 2);
    return sum % 65536;
}

uint32_t model_write(const struct record *record, uint8_t *buffer, size_t length)
{
    struct instant split;
    uint32_t refusal = model_split(record->at, &split);

    if (refusal)
        return refusal;
    if (length < RECORD_BYTES)
        return 12;
    put(buffer, 2, RECORD_BYTES);
    put(buffer + 2, 2, 0x0100);
    put(buffer + 4, 4, (uint64_t)split.day);
    put(buffer + 8, 8, split.micros);
    for (int i = 0; i < 3; i++)
        put(buffer + 16 + 4 * i, 4, (uint64_t)record->number[MISTAKE(41, i, 2 - i)]);
    put(buffer + 28, 2, MISTAKE(42, 65536, 65535) - words(buffer, 14));
    return 0;
}

uint32_t model_read(const uint8_t *bytes, size_t length, struct record *record)
{
    struct instant at;
    uint32_t refusal;

    *record = (struct record){{0, 0}, {0, 0, 0}};
    if (length < (size_t)MISTAKE(43, RECORD_BYTES, RECORD_BYTES + 1))
        return 12;
    if (bytes[2] != 1)
        return 14;
    if (get(bytes, 2) != RECORD_BYTES)
        return MISTAKE(44, 13, 14);
    if (bytes[3] != 0)
        return 15;
    if (words(bytes, 15) != 0)
        return 16;
    refusal = model_join((struct instant){(int64_t)get(bytes + 4, 4), get(bytes + 8, 8)}, &at);
    if (refusal)
        return refusal;
    record->at = at;
    for (int i = 0; i < 3; i++)
        record->number[i] = get_signed(bytes + 16 + 4 * i);
    return 0;
}

struct instant model_run_instant(struct instant start, uint64_t k, uint64_t step)
{
    uint64_t micros = start.micros + k * step;

    return (struct instant){start.day + (int64_t)(micros / DAY_MICROS), micros % DAY_MICROS};
}

uint32_t model_run_refusal(struct instant start, uint64_t count, uint64_t step, size_t length)
{
    uint32_t refusal;

    if (count < 1 || count > (uint64_t)MISTAKE(51, RUN_RECORDS, RUN_RECORDS + 1))
        return 17;
    if (step < 1 || step > DAY_MICROS)
        return 18;
    refusal = model_accept(start);
    if (refusal)
        return refusal;
    if (model_run_instant(start, count - MISTAKE(52, 1, 0), step).day > LAST_DAY)
        return 8;
    if (length < RECORD_BYTES * count)
        return 12;
    return 0;
}
