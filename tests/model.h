/*
 * A second implementation of the rules in docs/RULES.md, in plain C, for the
 * tests and benchmarks to compare the library with. It shares no code and no
 * table with the library. It is not part of the proved product.
 *
 * A function that takes any input returns the refusal number and, through its
 * pointers, the answer, or zeros where it refuses. The others take accepted
 * inputs only and return the answer.
 */
#ifndef MODEL_H
#define MODEL_H

#include <stddef.h>
#include <stdint.h>

/*
 * A test that cannot fail shows nothing. MISTAKE(n, right, wrong) is `right`,
 * unless the test program was started with `mistake n`: then the model makes
 * mistake n, and the test has to notice. tests/run tries each of them.
 */
#ifdef MODEL_WITHOUT_MISTAKES
#define MISTAKE(n, right, wrong) (right)
#else
extern int model_mistake;
#define MISTAKE(n, right, wrong) (model_mistake == (n) ? (wrong) : (right))
#endif

/* The limits and sizes of the rules. */
#define FIRST_YEAR 1900
#define LAST_YEAR 2100
#define FIRST_DAY INT64_C(15020)
#define LAST_DAY INT64_C(88433)
#define DAY_MICROS UINT64_C(86400000000)
#define MARK UINT64_C(137438953472)
#define RECORD_BYTES 30
#define RUN_RECORDS 96
#define LEAST_ROWS 2
#define MOST_ROWS 200
#define RESCUE_MOST 65536
#define RANGE_BYTES 8
#define FILE_MOST 65520
#define ENTRY_BYTES 37
#define ANGLES 11

struct date {
    uint64_t year, month, day;
};

struct instant {
    int64_t day;
    uint64_t micros;
};

struct record {
    struct instant at;
    int32_t number[3]; /* UT1, length of day, rate */
};

/* Kept records, ranges of passed bytes, and passed bytes. */
struct rescue {
    uint64_t kept, ranges, passed;
};

/* A row of nutation amplitudes: the last three are in hundredths of a microarcsecond. */
struct nutation_row {
    int64_t day, xc, xs, error;
};

/* Calendar, instants and clock words (model_time.c). */
uint32_t model_day_of_date(struct date date, int64_t *day);
uint32_t model_date_of_day(int64_t day, struct date *date);
uint32_t model_accept(struct instant at);
uint32_t model_instant(const uint64_t field[7], struct instant *at);
uint32_t model_split(struct instant at, struct instant *words);
uint32_t model_join(struct instant words, struct instant *at);

/*
 * Tidal frequency and phase for a UTC reading, in the fields of model_instant; and each for an accepted one, given by
 * its instant and its microseconds since 0 h UTC. The polynomials of l, l', F, D and Omega are in degrees,
 * coefficients of 1, t, t^2, t^3, t^4 (model_tide.c).
 */
extern const double model_delaunay[5][5];
uint32_t model_tide(const uint64_t field[7], const int64_t k[6], double *frequency, double *phase);
double model_frequency(struct instant tt, const int64_t k[6]);
double model_phase(struct instant tt, uint64_t utc, const int64_t k[6]);
uint32_t model_multipliers(const int64_t k[6]);

/* The three corrections of an accepted instant, in the units of the answers (model_zonal.c). */
void model_zonal(struct instant at, double number[3]);

/*
 * The two offsets of an accepted instant in nanoarcseconds, the uncertainty, and the rows that a lookup by halving
 * probes; the built-in rows (model_nutation.c).
 */
#define MODEL_ROWS 30
extern const struct nutation_row model_built_in[MODEL_ROWS];
void model_nutation(struct instant at, double offset[2]);
uint64_t model_uncertainty(struct instant at);
uint64_t model_probes(struct instant at);

/* The same for any instant with rows from bytes. */
uint32_t model_nutation_rows(const uint8_t *bytes, size_t length, struct instant at, double offset[2],
                             uint64_t *uncertainty, uint64_t *probes);

/* UTC readings, in the fields of model_instant, and instants (model_utc.c). */
uint32_t model_utc_to_tt(const uint64_t field[7], struct instant *at);
uint32_t model_tt_to_utc(struct instant at, uint64_t field[7]);

/* Records and runs (model_record.c). */
uint32_t model_write(const struct record *record, uint8_t *buffer, size_t length);
uint32_t model_read(const uint8_t *bytes, size_t length, struct record *record);
uint32_t model_run_refusal(struct instant start, uint64_t count, uint64_t step, size_t length);
struct instant model_run_instant(struct instant start, uint64_t k, uint64_t step);

/*
 * Records rescued from any bytes: the refusal, the two buffers, and the numbers. A buffer that is NULL is not written,
 * whatever its length (model_rescue.c).
 */
uint32_t model_rescue(const uint8_t *input, size_t length, uint8_t *records, size_t records_length, uint8_t *ranges,
                      size_t ranges_length, struct rescue *rescue);

/*
 * The differences between two record files: the refusal, the list and the number of its entries. A list that is NULL is
 * not written, whatever its length (model_compare.c).
 */
uint32_t model_compare(const uint8_t *first, size_t first_length, const uint8_t *second, size_t second_length,
                       uint8_t *list, size_t list_length, uint64_t *entries);

/*
 * Angles of Schwiderski's constituents for any year and day of it; by the formula alone, for a year as an offset from
 * 1900; and the last step of that, from a sum to an angle below a turn (model_schwiderski.c).
 */
uint32_t model_schwiderski(uint64_t any_year, double day, double angle[ANGLES]);
void model_angles(int64_t offset, double day, double angle[ANGLES]);
double model_turned(double radians);

#endif
