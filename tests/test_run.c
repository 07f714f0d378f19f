/* Service (g): a run of records. */
#include "../include/enfysgar.h"
#include "check.h"
#include "model.h"

#include <string.h>

#define BEFORE 64
#define BEHIND 64
#define RUN "day %" PRId64 ", micros %" PRIu64 ", count %" PRIu64 ", step %" PRIu64 ", length %zu"
#define OF_RUN start.day, start.micros, count, step, length

static uint8_t space[BEFORE + RUN_RECORDS * RECORD_BYTES + BEHIND], before[sizeof space];

static void untouched(size_t from, size_t to, struct instant start, uint64_t count, uint64_t step, size_t length)
{
    for (size_t i = from; i < to; i++)
        if (space[i] != before[i])
            differs("enfys_run_write", text_u64(space[i]), text_u64(before[i]), RUN ", byte %d of the buffer", OF_RUN,
                    (int)i - BEFORE);
}

/* Each record is read by the model: its instant, and the three numbers of service (e) for that instant. */
static void records(struct instant start, uint64_t count, uint64_t step, size_t length)
{
    for (uint64_t k = 0; k < count; k++) {
        struct instant at = model_run_instant(start, MISTAKE(53, k, 0), step);
        struct record got;
        const struct number numbers[] = {NUMBER(got.number[0]), NUMBER(got.number[1]), NUMBER(got.number[2])};
        uint32_t refusal = model_read(space + BEFORE + RECORD_BYTES * k, RECORD_BYTES, &got);

        if (refusal != 0)
            differs("reading a record of the run", text_u64(refusal), "0", RUN ", record %" PRIu64, OF_RUN, k);
        if (got.at.day != at.day || got.at.micros != at.micros)
            differs("the day of a record of the run", text_i64(got.at.day), text_i64(at.day),
                    RUN ", record %" PRIu64 ", its micros %" PRIu64 ", expected %" PRIu64, OF_RUN, k, got.at.micros,
                    at.micros);
        WHOLE(enfys_zonal(at.day, at.micros, OUT(int32_t, 0), OUT(int32_t, 1), OUT(int32_t, 2)), 0, numbers,
              RUN ", record %" PRIu64, OF_RUN, k);
    }
}

/* Makes the call on `length` bytes in the middle of a block, and compares all of the block. */
static uint32_t run(struct instant start, uint64_t count, uint64_t step, size_t length)
{
    uint32_t refusal = model_run_refusal(start, count, step, length);
    size_t filled = refusal ? 0 : RECORD_BYTES * (size_t)count;

    for (size_t i = 0; i < sizeof space; i += 8) {
        uint64_t x = any();

        memcpy(space + i, &x, 8);
    }
    memcpy(before, space, sizeof space);
    SAME_U(enfys_run_write(start.day, start.micros, count, step, space + BEFORE, length), refusal, RUN, OF_RUN);
    untouched(0, BEFORE, start, count, step, length);
    untouched(BEFORE + filled, sizeof space, start, count, step, length);
    if (refusal == 0)
        records(start, count, step, length);
    return refusal;
}

/* Every choice of wrong inputs: the first in the order of the rules is named. */
static void orders(void)
{
    for (int round = 0; round < 300; round++)
        for (unsigned wrong = 1; wrong < 64; wrong++) {
            uint64_t count = 1 + below(RUN_RECORDS), step = 1 + below(DAY_MICROS);
            struct instant start = {between(FIRST_DAY, LAST_DAY - 133), below(DAY_MICROS)};
            size_t length = wrong & 32 ? below(RECORD_BYTES * count) : RUN_RECORDS * RECORD_BYTES;

            if (wrong & 1)
                count = one_in(3) ? 0 : one_in(2) ? RUN_RECORDS + 1 : edge() | 128;
            if (wrong & 2)
                step = one_in(3) ? 0 : DAY_MICROS + 1 + (any() >> 1 >> below(63));
            if (wrong & 16)
                start.day = LAST_DAY;
            if (wrong & 4)
                start.day = one_in(2) ? FIRST_DAY - 1 - (int64_t)(any() >> 1 >> below(63))
                                      : LAST_DAY + 1 + (int64_t)below(1000);
            if (wrong & 8)
                start.micros = DAY_MICROS + below(1000);
            run(start, count, step, length);
        }
}

/* Last instants at the very end of the range and one microsecond past it. */
static void last_instants(void)
{
    for (int i = 0; i < 300; i++) {
        uint64_t count = 1 + below(RUN_RECORDS), step = 1 + (any() >> below(64)) % DAY_MICROS;
        uint64_t span = (count - 1) * step;
        /* start so that the last instant is the last microsecond of the last day */
        uint64_t back = span + 1;
        struct instant start = {LAST_DAY + 1 - (int64_t)((back + DAY_MICROS - 1) / DAY_MICROS), 0};

        start.micros = (uint64_t)(LAST_DAY + 1 - start.day) * DAY_MICROS - back;
        if (run(start, count, step, RUN_RECORDS * RECORD_BYTES) != 0)
            differs("enfys_run_write", "a refusal", "0", "count %" PRIu64 ", step %" PRIu64, count, step);
        start = model_run_instant(start, 1, 1);
        if (run(start, count, step, RUN_RECORDS * RECORD_BYTES) != 8)
            differs("enfys_run_write", "another number", "8", "count %" PRIu64 ", step %" PRIu64, count, step);
    }
}

/* Cases by hand: a day of quarter hours, a record too many, a byte too few, and the ends of the step. */
static void by_hand(void)
{
    static const struct instant start = {54465, 43200000000};
    static const struct {
        uint64_t count, step;
        size_t length;
        uint32_t refusal;
    } row[] = {
        {96, 900000000, 2880, 0},
        {97, 900000000, 2880, 17},
        {96, 900000000, 2879, 12},
        {1, DAY_MICROS, 30, 0},
        {1, DAY_MICROS + 1, 30, 18},
        {0, 0, 0, 17},
        {1, 0, 30, 18},
        {1, 1, 29, 12},
    };

    for (size_t i = 0; i < sizeof row / sizeof *row; i++) {
        uint32_t refusal = run(start, row[i].count, row[i].step, row[i].length);

        if (refusal != row[i].refusal)
            differs("enfys_run_write", text_u64(refusal), text_u64(row[i].refusal), "case %zu by hand", i);
    }
}

/* Buffers that end where unmapped memory begins: long enough, and a byte too short. */
static void at_the_edge(void)
{
    for (uint64_t count = 1; count <= RUN_RECORDS; count++) {
        struct instant start = {between(FIRST_DAY, LAST_DAY - 100), below(DAY_MICROS)};
        size_t length = RECORD_BYTES * (size_t)count;
        uint64_t step = 1 + below(DAY_MICROS);
        uint8_t *buffer = lent(length);

        run(start, count, step, length);
        SAME_U(enfys_run_write(start.day, start.micros, count, step, buffer, length), 0, RUN, OF_RUN);
        if (memcmp(buffer, space + BEFORE, length) != 0)
            differs("enfys_run_write", "other bytes", "those of the same run elsewhere", RUN, OF_RUN);
        SAME_U(enfys_run_write(start.day, start.micros, count, step, buffer + 1, length - 1), 12, RUN, OF_RUN);
        lent_free(buffer, length);
    }
}

int main(int argc, char **argv)
{
    begin("run", argc, argv);
    by_hand();
    at_the_edge();
    SAME_U(enfys_run_write(54465, 0, 1, 1, NULL, 0), 12, "no buffer");
    orders();
    last_instants();
    for (int i = 0; i < 8000; i++) {
        uint64_t count = one_in(8) ? RUN_RECORDS : 1 + below(one_in(4) ? RUN_RECORDS : 12);
        uint64_t step = one_in(4) ? edge() : 1 + (any() >> below(64)) % DAY_MICROS;
        size_t length = one_in(2) ? RECORD_BYTES * (size_t)count : below(RUN_RECORDS * RECORD_BYTES + 1);

        run((struct instant){some_day(), some_micros()}, one_in(16) ? edge() : count, step, length);
    }
    return end(NULL);
}
