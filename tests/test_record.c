/* Service (g): one record, written and read. */
#include "../include/enfysgar.h"
#include "check.h"
#include "model.h"

#include <stdio.h>
#include <string.h>

#define LONGEST 100

/* A block for each length, each ending where unmapped memory begins. */
static uint8_t *block[LONGEST + 1];

static const char *text_bytes(const uint8_t *bytes, size_t length)
{
    static char text[2][3 * LONGEST + 1];
    static unsigned turn;
    char *t = text[turn++ % 2];

    for (size_t i = 0; i < length && i < LONGEST; i++)
        sprintf(t + 3 * i, "%02x ", bytes[i]);
    t[3 * length] = 0;
    return t;
}

static void fill(uint8_t *bytes, size_t length)
{
    for (size_t i = 0; i < length; i++)
        bytes[i] = (uint8_t)any();
}

/* The whole buffer is compared after the call: the record, what follows it, and all of it on a refusal. */
static void write_one(const struct record *r, size_t length)
{
    uint8_t want[LONGEST], *buffer = block[length];
    int64_t day = r->at.day;
    uint64_t micros = r->at.micros;

    fill(buffer, length);
    memcpy(want, buffer, length);
    SAME_U(enfys_record_write(day, micros, r->number[0], r->number[1], r->number[2], buffer, length),
           model_write(r, want, length), "day %" PRId64 ", micros %" PRIu64 ", length %zu", day, micros, length);
    if (memcmp(buffer, want, length) != 0)
        differs("enfys_record_write", text_bytes(buffer, length), text_bytes(want, length),
                "day %" PRId64 ", micros %" PRIu64 ", numbers %" PRId32 " %" PRId32 " %" PRId32 ", length %zu", day,
                micros, r->number[0], r->number[1], r->number[2], length);
}

#define BYTES "bytes %s (%zu)", text_bytes(bytes, length), length

/* Reads the record in one call, which gives what is wanted or writes nothing. */
static void read_whole(const uint8_t *bytes, size_t length, uint32_t refusal, const struct record *want)
{
    const struct number numbers[] = {NUMBER(want->at.day), NUMBER(want->at.micros), NUMBER(want->number[0]),
                                     NUMBER(want->number[1]), NUMBER(want->number[2])};

    WHOLE(enfys_record_read(bytes, length, OUT(int64_t, 0), OUT(uint64_t, 1), OUT(int32_t, 2), OUT(int32_t, 3),
                            OUT(int32_t, 4)),
          refusal, numbers, BYTES);
}

/* Reads the first `length` bytes of the block for that length, and sees that they stay as they are. */
static uint32_t read_one(size_t length)
{
    uint8_t before[LONGEST], *bytes = block[length];
    struct record want;
    uint32_t refusal = model_read(bytes, length, &want);

    memcpy(before, bytes, length);
    SAME_U(enfys_record_refusal(bytes, length), refusal, BYTES);
    SAME_I(enfys_record_day(bytes, length), want.at.day, BYTES);
    SAME_U(enfys_record_micros(bytes, length), want.at.micros, BYTES);
    SAME_I(enfys_record_ut1(bytes, length), want.number[0], BYTES);
    SAME_I(enfys_record_lod(bytes, length), want.number[1], BYTES);
    SAME_I(enfys_record_rate(bytes, length), want.number[2], BYTES);
    read_whole(bytes, length, refusal, &want);
    if (memcmp(bytes, before, length) != 0)
        differs("enfys_record_..", text_bytes(bytes, length), text_bytes(before, length), "reading changed a byte");
    if (refusal == 0) { /* written again, it is the same record */
        uint8_t again[RECORD_BYTES];

        SAME_U(enfys_record_write(enfys_record_day(bytes, length), enfys_record_micros(bytes, length),
                                  enfys_record_ut1(bytes, length), enfys_record_lod(bytes, length),
                                  enfys_record_rate(bytes, length), again, RECORD_BYTES),
               0, BYTES);
        if (memcmp(again, bytes, RECORD_BYTES) != 0)
            differs("enfys_record_write", text_bytes(again, RECORD_BYTES), text_bytes(bytes, RECORD_BYTES),
                    "a record written again");
    }
    return refusal;
}

static struct record some_record(int accepted)
{
    struct record r = {{some_day(), some_micros()}, {0, 0, 0}};

    while (accepted && model_accept(r.at) != 0)
        r.at = (struct instant){some_day(), some_micros()};
    for (int i = 0; i < 3; i++)
        r.number[i] = (int32_t)(uint32_t)(one_in(2) ? any() : edge());
    return r;
}

static size_t some_length(void)
{
    return one_in(4) ? below(LONGEST + 1) : (size_t)between(28, 33);
}

/* A good record at the front of the block for this length (30 or more), anything behind it. */
static void place(size_t length)
{
    struct record r = some_record(1);

    fill(block[length], length);
    model_write(&r, block[length], length);
}

static void damage(uint8_t *bytes)
{
    uint64_t word;

    switch (below(8)) {
    case 0: /* one bit */
        bytes[below(RECORD_BYTES)] ^= (uint8_t)(1u << below(8));
        break;
    case 1: /* one byte */
        bytes[below(RECORD_BYTES)] = (uint8_t)any();
        break;
    case 2: /* the head: length, version, byte 3 */
        bytes[below(4)] = (uint8_t)below(40);
        break;
    case 3: /* the day */
        for (int i = 4; i < 8; i++)
            if (one_in(2))
                bytes[i] = (uint8_t)any();
        break;
    case 4: /* the time word */
        word = one_in(2) ? below(64) * MARK + some_micros() : edge();
        for (int i = 15; i >= 8; i--, word >>= 8)
            bytes[i] = (uint8_t)(word & 0xff);
        break;
    case 5: /* two words exchanged, which the sum does not notice */
        for (int n = 0, a = 2 * (int)below(15), b = 2 * (int)below(15); n < 2; n++) {
            uint8_t keep = bytes[a + n];

            bytes[a + n] = bytes[b + n];
            bytes[b + n] = keep;
        }
        break;
    case 6:
        fill(bytes, RECORD_BYTES);
        break;
    default: /* the last bit of the sum */
        bytes[29] ^= 1;
    }
}

static void reference(void)
{
    static const uint8_t want[RECORD_BYTES] = {
        0x00, 0x1E, 0x01, 0x00, 0x00, 0x00, 0xD4, 0xC1, 0x00, 0x00, 0x00, 0x20, 0x00, 0x00, 0x00,
        0x00, 0x00, 0x00, 0x00, 0x01, 0xFF, 0xFF, 0xFF, 0xFF, 0x00, 0x00, 0x00, 0x00, 0x2A, 0x02,
    };
    uint8_t *bytes = block[RECORD_BYTES];

    SAME_U(enfys_record_write(54465, 0, 1, -1, 0, bytes, RECORD_BYTES), 0, "the record of day 54465");
    if (memcmp(bytes, want, RECORD_BYTES) != 0)
        differs("enfys_record_write", text_bytes(bytes, RECORD_BYTES), text_bytes(want, RECORD_BYTES),
                "the record of day 54465");
    read_one(RECORD_BYTES);
    /* Each single bit is missed. */
    for (unsigned bit = 0; bit < 8 * RECORD_BYTES; bit++) {
        bytes[bit / 8] ^= (uint8_t)(1u << bit % 8);
        if (read_one(RECORD_BYTES) == 0)
            differs("enfys_record_refusal", "0", "a refusal", "bit %u of the record of day 54465 changed", bit);
        bytes[bit / 8] ^= (uint8_t)(1u << bit % 8);
    }
}

int main(int argc, char **argv)
{
    unsigned seen[17] = {0};
    static const int refusals[] = {0, 8, 9, 10, 12, 13, 14, 15, 16};

    begin("record", argc, argv);
    for (size_t length = 0; length <= LONGEST; length++)
        block[length] = lent(length);
    reference();
    SAME_U(enfys_record_write(54465, 0, 1, -1, 0, NULL, 0), 12, "no buffer");
    SAME_U(enfys_record_refusal(NULL, 0), 12, "no bytes");
    read_whole(NULL, 0, 12, &(struct record){{0, 0}, {0, 0, 0}});
    for (int i = 0; i < 300000; i++) {
        struct record r = some_record(0);

        write_one(&r, some_length());
    }
    for (int i = 0; i < 300000; i++) {
        size_t length = RECORD_BYTES + (one_in(2) ? 0 : below(LONGEST - RECORD_BYTES + 1));

        place(length);
        if (one_in(4))
            seen[read_one(length)]++;
        while (one_in(2))
            damage(block[length]);
        if (one_in(2))
            mend(block[length], 28); /* so that the damage is found by what it is */
        if (one_in(8)) {             /* the same bytes, too few of them */
            size_t fewer = below(RECORD_BYTES);

            memcpy(block[fewer], block[length], fewer);
            length = fewer;
        }
        seen[read_one(length)]++;
    }
    for (size_t i = 0; i < sizeof refusals / sizeof *refusals; i++)
        if (seen[refusals[i]] < 100)
            differs("the damage", text_u64(seen[refusals[i]]), "100 or more", "times that refusal %d came up",
                    refusals[i]);
    return end(NULL);
}
