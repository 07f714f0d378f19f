/*
 * Times the library's calls beside plain C (tests/model*.c, with libm's sine and cosine, plain.h for dates,
 * UTC and phases, plain_rows.h for nutation rows, plain_rescue.h for the rescue of records, plain_compare.h for the
 * comparison of two files of them, plain_angles.h for the angles of a day), and beside ERFA where it is installed
 * (WITH_ERFA), in one process on the same inputs. A row whose ratio is above the most that is allowed for it is marked,
 * and the status is 1.
 */
#define _POSIX_C_SOURCE 199309L
#include "work.h"

#include <stdio.h>
#include <stdlib.h>
#include <string.h>
#include <time.h>

#define PASSES 10
#define ROUNDS 100

/* What the timed calls give is added up here, so that no call can be left out. */
static volatile double sink;

static double now(void)
{
    struct timespec t;

    clock_gettime(CLOCK_MONOTONIC, &t);
    return (double)t.tv_sec * 1e9 + (double)t.tv_nsec;
}

/* Nanoseconds of one piece of work, of `batch` pieces timed together. */
static double time_of(work *w, int batch)
{
    static int i;
    double sum = 0.0, start = now(), end;

    for (int n = 0; n < batch; n++, i = (i + 1) % INPUTS)
        sum += w(i);
    end = now();
    sink = sum;
    return (end - start) / batch;
}

/*
 * What is compared, with the most that the ratio may be (0 for any), the bytes that it goes over (0 where there are
 * none to speak of), and the best times so far.
 */
static struct row {
    const char *what;
    work *ours, *other;
    double most, bytes, best_ours, best_other;
} rows[] = {
    {"three corrections", corrections, corrections_plain, 0.45, 0, 0, 0},
    {"both offsets and the uncertainty, against two", offsets, offsets_plain, 1.9, 0, 0, 0},
    {"the same, all between the rows", offsets_inside, offsets_inside_plain, 0, 0, 0, 0},
    {"between the rows, one after the other", offsets_onward, offsets_onward_plain, 0, 0, 0, 0},
    {"both with 30 rows from bytes", offsets_30, offsets_30_plain, 1.5, 0, 0, 0},
    {"with 200 rows from bytes", offsets_200, offsets_200_plain, 1.8, 0, 0, 0},
    {"with 30 rows, against our built-in ones", offsets_30, offsets, 0, 0, 0, 0},
    {"with 200 rows, against our built-in ones", offsets_200, offsets, 0, 0, 0, 0},
    {"probes of the built-in rows", probes, probes_plain, 0, 0, 0, 0},
    {"probes of 200 rows from bytes", probes_200, probes_200_plain, 1.8, 0, 0, 0},
    {"day to date", date, date_plain, 1.1, 0, 0, 0},
    {"4096 days in a row to dates", dates, dates_plain, 1.2, 0, 0, 0},
    {"record read", read_back, read_back_plain, 0.8, 0, 0, 0},
#ifdef WITH_ERFA
    {"day to date, against ERFA's eraJd2cal", date, date_erfa, 0.6, 0, 0, 0},
    {"4096 days in a row, against ERFA's eraJd2cal", dates, dates_erfa, 0, 0, 0, 0},
    {"UTC to TT, against ERFA", utc_to_tt, utc_to_tt_erfa, 0.12, 0, 0, 0},
    {"TT to UTC, against ERFA", tt_to_utc, tt_to_utc_erfa, 0.06, 0, 0, 0},
#endif
    {"UTC to TT", utc_to_tt, utc_to_tt_plain, 1.4, 0, 0, 0},
    {"TT to UTC", tt_to_utc, tt_to_utc_plain, 0.95, 0, 0, 0},
    {"frequency and phase, from UTC", constituent, constituent_plain, 0, 0, 0, 0},
    {"record written", written, written_plain, 0, 0, 0, 0},
    {"run of 96 records", run_96, run_96_plain, 0, 0, 0, 0},
    {"phase alone, from UTC", phase, phase_plain, 1.3, 0, 0, 0},
    {"all eleven angles", angles, angles_in_plain, 1.3, 0, 0, 0},
    {"UT1 alone, against three sums", ut1, corrections_plain, 0, 0, 0, 0},
    {"year alone, against a date", year, date_plain, 0, 0, 0, 0},
    {"rescue: 2184 clean records", rescue_clean, rescue_clean_plain, 1.5, CLEAN_BYTES, 0, 0},
    {"rescue: one record in ten damaged", rescue_damaged, rescue_damaged_plain, 2.5, CLEAN_BYTES, 0, 0},
    {"rescue: 65536 bytes of noise", rescue_noise, rescue_noise_plain, 0, ENFYS_RESCUE_MOST, 0, 0},
    {"rescue: clean, against loads of eight bytes", rescue_clean, rescue_clean_loads, 0, CLEAN_BYTES, 0, 0},
    {"rescue: damaged, against the same", rescue_damaged, rescue_damaged_loads, 0, CLEAN_BYTES, 0, 0},
    {"rescue: noise, against memchr", rescue_noise, rescue_noise_memchr, 0, ENFYS_RESCUE_MOST, 0, 0},
    {"comparison: equal files of 2184 records", compare_equal, compare_equal_plain, 0.40, PAIR_BYTES, 0, 0},
    {"comparison: other numbers everywhere", compare_changed, compare_changed_plain, 0.60, PAIR_BYTES, 0, 0},
    {"comparison: no instant in common", compare_between, compare_between_plain, 0.50, PAIR_BYTES, 0, 0},
    {"comparison: equal, against loads of 8 bytes", compare_equal, compare_equal_loads, 0, PAIR_BYTES, 0, 0},
    {"comparison: other numbers, against the same", compare_changed, compare_changed_loads, 0, PAIR_BYTES, 0, 0},
    {"comparison: none in common, against the same", compare_between, compare_between_loads, 0, PAIR_BYTES, 0, 0},
};

#define ROWS (sizeof rows / sizeof *rows)

/*
 * Short rounds of a row, the two sides taking turns, so that both meet the same conditions. The best
 * time of each is kept.
 */
static void rounds_of(struct row *r)
{
    int batch = 1 + (int)(300000.0 / (time_of(r->ours, 16) + time_of(r->other, 16)));

    for (int i = 0; i < ROUNDS; i++) {
        double x = time_of(r->ours, batch), y = time_of(r->other, batch);

        if (r->best_ours == 0 || x < r->best_ours)
            r->best_ours = x;
        if (r->best_other == 0 || y < r->best_other)
            r->best_other = y;
    }
}

/* The bytes of some rows. */
static void pack(uint8_t *bytes, const struct nutation_row *row, int rows)
{
    const int length = 3 + 16 * rows;

    bytes[0] = (uint8_t)(length >> 8), bytes[1] = (uint8_t)(length & 0xff), bytes[2] = 1;
    for (int i = 0; i < rows; i++) {
        const int64_t number[4] = {row[i].day, row[i].xc, row[i].xs, row[i].error};

        for (int k = 0; k < 16; k++)
            bytes[3 + 16 * i + k] = (uint8_t)((uint64_t)number[k / 4] >> (24 - 8 * (k % 4)) & 0xff);
    }
}

static void make_rows(void)
{
    struct nutation_row row[200];

    for (int i = 0; i < 200; i++)
        row[i] = (struct nutation_row){15200 + 365 * i, (int64_t)(next() % 60000) - 30000,
                                       (int64_t)(next() % 60000) - 30000, (int64_t)(100 + next() % 1000)};
    pack(rows_30, model_built_in, 30);
    pack(rows_200, row, 200);
}

/* The images that records are rescued from. */
static void make_images(void)
{
    for (int n = 0; n < IMAGES; n++) {
        for (int i = 0; i < CLEAN_BYTES / RECORD_BYTES; i++) {
            struct record r = {{(int64_t)(16000 + next() % 72000), next() % 86400000000}, {0, 0, 0}};

            for (int k = 0; k < 3; k++)
                r.number[k] = (int32_t)(next() % 200000000) - 100000000;
            model_write(&r, clean[n] + RECORD_BYTES * i, RECORD_BYTES);
        }
        memcpy(damaged[n], clean[n], CLEAN_BYTES);
        for (int i = 0; i < CLEAN_BYTES / RECORD_BYTES; i++)
            if (next() % 10 == 0)
                damaged[n][RECORD_BYTES * i + (int)(next() % RECORD_BYTES)] ^= (uint8_t)(1 + next() % 255);
        for (int i = 0; i < ENFYS_RESCUE_MOST; i++)
            noise[n][i] = (uint8_t)(next() >> 56);
    }
}

static void make_inputs(void)
{
    make_rows();
    make_images();
    make_files();
    for (int i = 0; i < INPUTS; i++) {
        at[i] = (struct instant){(int64_t)(16000 + next() % 72000), next() % 86400000000};
        inside[i] = (struct instant){(int64_t)(45700 + next() % 10593), next() % 86400000000};
        onward[i] = (struct instant){45700 + 10593 * (int64_t)i / INPUTS, 43200000000};
        for (int k = 0; k < 6; k++)
            multiplier[i][k] = (int64_t)(next() % 7) - 3;
    }
    for (int i = 0; i < INPUTS; i++) {
        struct date x = date_plain_of((int64_t)(41317 + next() % 19537));
        uint64_t f[7] = {x.year, x.month, x.day, next() % 24, next() % 60, next() % 60, next() % 1000000};

        memcpy(reading[i], f, sizeof f);
        model_utc_to_tt(f, &utc_at[i]);
    }
    for (int i = 0; i < INPUTS; i++) {
        of_year[i].year = 1974 + next() % 127;
        of_year[i].day = (double)(1 + next() % 365) + (double)(next() % 86400000000) / 86400e6;
    }
}

/* Whether plain.h and the model have the same reading of an instant, and the instant of it. */
static int same_utc(struct instant tt)
{
    struct instant x = {0, 0};
    uint64_t f[7] = {0}, g[7];

    return tt_plain_to_utc(tt, f) == model_tt_to_utc(tt, g) && memcmp(f, g, sizeof f) == 0 &&
           (f[0] == 0 || (utc_plain_to_tt(f, &x) == 0 && x.day == tt.day && x.micros == tt.micros));
}

/* Whether all that gives the date of a day gives the same; ERFA refuses no such day. */
static int same_date(int64_t day)
{
    uint64_t f[3] = {0}, g[3] = {0};
    uint32_t refusal = enfys_date_of_day(day, f, f + 1, f + 2);
    int same = date_plain_of_day(day, g, g + 1, g + 2) == refusal && memcmp(f, g, sizeof f) == 0;

#ifdef WITH_ERFA
    if (refusal == 0)
        same &= erfa_date_of_day(day, g, g + 1, g + 2) == 0 && memcmp(f, g, sizeof f) == 0;
#endif
    return same;
}

/* Whether plain_rows.h and the library answer alike with these rows, and have the same refusals of damaged ones. */
static int same_rows(uint8_t *rows, size_t length, int i)
{
    int64_t x[2] = {0, 0}, y[2] = {0, 0};
    uint64_t u[2] = {0, 0};
    size_t damaged = (size_t)i % length;
    uint8_t kept = rows[damaged];
    int same = enfys_nutation_rows(rows, length, at[i].day, at[i].micros, x, y, u) == 0 &&
               nutation_plain_rows(rows, length, at[i].day, at[i].micros, x + 1, y + 1, u + 1) == 0 &&
               llabs(x[0] - x[1]) <= 3 && llabs(y[0] - y[1]) <= 3 && u[0] - u[1] + 1 <= 2;

    rows[damaged] ^= (uint8_t)(1 << next() % 8);
    same &= rows_plain_refusal(rows, length) == enfys_nutation_rows_refusal(rows, length, 50000, 0);
    rows[damaged] = kept;
    return same;
}

/* Whether the library and each of plain_rescue.h rescue the same, to the last byte of buffers of these sizes. */
static int same_rescue(const uint8_t *image, size_t length, size_t records_length, size_t ranges_length)
{
    static rescue_call *const call[4] = {enfys_rescue, rescue_plain, rescue_plain_loads, rescue_plain_memchr};
    static uint8_t records[4][sizeof kept], list[4][sizeof ranges];
    uint32_t refusal[4];
    int same = 1;

    for (int i = 0; i < 4; i++) {
        memset(records[i], 1, sizeof kept);
        memset(list[i], 2, sizeof ranges);
        refusal[i] = call[i](image, length, records[i], records_length, list[i], ranges_length);
        same &= refusal[i] == refusal[0] && memcmp(records[i], records[0], sizeof kept) == 0 &&
                memcmp(list[i], list[0], sizeof ranges) == 0;
    }
    return same;
}

/* The same for all images and their ends, for damage everywhere in three records, and for what is refused. */
static int same_rescues(void)
{
    uint8_t few[4 * RECORD_BYTES];
    int wrong = 0;

    for (int n = 0; n < IMAGES; n++)
        for (size_t from = 0; from < 64; from++) {
            wrong += !same_rescue(clean[n] + from, CLEAN_BYTES - from, sizeof kept, sizeof ranges);
            wrong += !same_rescue(damaged[n] + from, CLEAN_BYTES - 7 * from, sizeof kept, sizeof ranges);
            wrong += !same_rescue(noise[n] + from, ENFYS_RESCUE_MOST - from, sizeof kept, sizeof ranges);
            wrong += !same_rescue(damaged[n], from * 30, from * 27, from * 2);
        }
    for (size_t i = 0; i < 20000; i++) {
        memcpy(few, clean[i % IMAGES] + 30 * (next() % 2000), sizeof few);
        few[next() % sizeof few] ^= (uint8_t)(1 << next() % 8);
        wrong += !same_rescue(few, sizeof few - next() % 40, sizeof few - next() % 40, 24 - next() % 16);
    }
    wrong += !same_rescue((const uint8_t *)clean, ENFYS_RESCUE_MOST + 1, sizeof kept, sizeof ranges);
    return wrong == 0;
}

/* Whether the library and both of plain_compare.h list the same of two files, to the last byte of a list of this size.
 */
static int same_comparison(const uint8_t *first, size_t first_length, const uint8_t *second, size_t second_length,
                           size_t size)
{
    static compare_call *const call[3] = {enfys_compare, compare_plain, compare_plain_loads};
    static uint8_t list[3][sizeof entries];
    uint32_t refusal[3];
    int same = 1;

    memset(list, 1, sizeof list);
    for (int i = 0; i < 3; i++) {
        refusal[i] = call[i](first, first_length, second, second_length, list[i], size);
        same &= refusal[i] == refusal[0] && memcmp(list[i], list[0], sizeof entries) == 0;
    }
    return same;
}

/* The same for all files, for parts of them with a bit changed, and for lists and files that are cut. */
static int same_comparisons(void)
{
    static uint8_t part[40 * RECORD_BYTES];
    int wrong = 0;

    for (int n = 0; n < PAIRS; n++) {
        wrong += !same_comparison(file[n], sizeof *file, equal[n], sizeof *file, 0);
        wrong += !same_comparison(file[n], sizeof *file, changed[n], sizeof *file, sizeof entries);
        wrong += !same_comparison(between[n], sizeof *file, file[n], sizeof *file, sizeof entries);
        wrong += !same_comparison(file[n], sizeof *file, (const uint8_t *)file, sizeof *file + RECORD_BYTES, 0);
    }
    for (int i = 0; i < 20000; i++) {
        const size_t length = sizeof part - next() % 20 * (i % 8 == 0 ? 7 : RECORD_BYTES);

        memcpy(part, (i % 2 == 0 ? changed : between)[i % PAIRS], sizeof part);
        if (i % 3 > 0)
            part[next() % length] ^= (uint8_t)(1 << next() % 8);
        if (i % 5 == 0)
            memcpy(part + RECORD_BYTES * (next() % 40), part, RECORD_BYTES);
        wrong += !same_comparison(file[i % PAIRS], sizeof part, part, length, next() % 3000);
        wrong += !same_comparison(part, length, file[i % PAIRS], sizeof part, 3000);
    }
    return wrong == 0;
}

/* Whether plain_angles.h and the library have the same angles to the bit, and the same refusals beside a year's end. */
static int same_angles(uint64_t year, double day)
{
    double x[ENFYS_ANGLES] = {0.0}, y[ENFYS_ANGLES] = {0.0};

    return angles_plain(year, day, x) == enfys_schwiderski(year, day, y) && memcmp(x, y, sizeof x) == 0 &&
           angles_plain(year, day + 366.0, x) == enfys_schwiderski(year, day + 366.0, y);
}

/* Whether what is timed answers right: at the inputs, for dates on every day, and for UTC around the steps as well. */
static int right(void)
{
    int wrong = 0;

    for (int64_t day = FIRST_DAY - 1000; day <= LAST_DAY + 1000; day++)
        wrong += !same_date(day);
    for (int i = 0; i < INPUTS; i++) {
        struct date x = date_plain_of(at[i].day), y;

        model_date_of_day(at[i].day, &y);
        wrong += x.year != y.year || x.month != y.month || x.day != y.day || written(i) != 0;
        wrong += !same_utc(utc_at[i]) || !same_utc(at[i]) || utc_to_tt(i) != utc_to_tt_plain(i);
        wrong += constituent(i) != constituent_plain(i) || phase(i) != phase_plain(i);
        wrong += !same_rows(rows_30, sizeof rows_30, i) || !same_rows(rows_200, sizeof rows_200, i);
        wrong += offsets_30(i) != offsets(i);
        wrong += probes(i) != probes_plain(i) || probes_200(i) != probes_200_plain(i);
        wrong += !same_angles(of_year[i].year, of_year[i].day) || !same_angles(1970 + (uint64_t)i % 140, i % 3 / 2.0);
    }
    for (int i = 0; i < STEPS; i++)
        for (uint64_t micros = 0; micros < 100000000; micros += 500000)
            wrong += !same_utc((struct instant){step_day[i], micros}) || !same_utc((struct instant){EXPIRY, micros});
    return wrong == 0 && same_rescues() && same_comparisons();
}

/* Of the rows that go over bytes, how many each side does in a second. */
static void show_rates(void)
{
    printf("\n%-46s %10s %10s\n", "", "ours, MB/s", "other");
    for (size_t i = 0; i < ROWS; i++)
        if (rows[i].bytes > 0)
            printf("%-46s %10.0f %10.0f\n", rows[i].what, rows[i].bytes / rows[i].best_ours * 1e3,
                   rows[i].bytes / rows[i].best_other * 1e3);
}

int main(void)
{
    int above = 0;

    make_inputs();
    if (!right()) {
        fprintf(stderr, "bench: plain C is wrong or not as the library, or a record was not written\n");
        return 2;
    }
    /* Several passes over all rows, so that what else the machine does for some seconds spoils no row. */
    for (int pass = 0; pass < PASSES; pass++)
        for (size_t i = 0; i < ROWS; i++)
            rounds_of(&rows[i]);
    printf("%-46s %10s %10s %8s %8s\n", "", "ours, ns", "other, ns", "ratio", "at most");
    for (size_t i = 0; i < ROWS; i++) {
        double ratio = rows[i].best_ours / rows[i].best_other;

        printf("%-46s %10.1f %10.1f %8.2f", rows[i].what, rows[i].best_ours, rows[i].best_other, ratio);
        if (rows[i].most > 0)
            printf(" %8.2f%s", rows[i].most, ratio > rows[i].most ? " ABOVE" : "");
        printf("\n");
        above += rows[i].most > 0 && ratio > rows[i].most;
    }
    show_rates();
#ifndef WITH_ERFA
    printf("ERFA is not installed (Debian: liberfa-dev): nothing was compared with it\n");
#endif
    return above != 0;
}
