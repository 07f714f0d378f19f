/*
 * Enfysgar: calendar, clock words, tidal phases, zonal-tide corrections,
 * free-core-nutation offsets, records, their rescue from a bad disk and the
 * comparison of two files of them, UTC to TT and back, and Schwiderski's tidal
 * angles, for a timing unit.
 *
 * Include this header, and link libenfysgar.a:
 *
 *     cc daemon.c $(pkg-config --cflags --libs enfysgar)
 *
 * The archive is for x86-64 Linux.
 *
 * A call gives a whole answer: it returns the refusal number and, where that is 0,
 * writes every number of the answer through its pointers (two calls of (g) and that
 * of (k) fill a buffer, and that of (i) two; that of (j) fills an array). On a
 * refusal it writes nothing. Each number can be asked for by itself too: see the end
 * of this header.
 *
 * A number that is a parameter may have any value; nothing has to be checked first,
 * and what cannot be answered is refused by a number (the table below). Pointers
 * have to be right, also where the call refuses:
 *
 *   - A pointer through which a number is written is not NULL and is aligned for
 *     its type. No two of one call are alike or overlap, nor do they overlap the
 *     bytes that are lent to it. The numbers need no value before the call. That of
 *     (j) points to eleven of them.
 *   - `buffer`, `bytes` and `rows` point to `length` bytes of the caller's memory;
 *     `input`, `records` and `ranges` of (i), and `first`, `second` and `list` of
 *     (k), to as many as the length behind each says. With length 0 the pointer is
 *     not used, and may be NULL. `records` and `ranges` overlap neither each other
 *     nor the input; `list` overlaps neither file, but the files may overlap or be
 *     the same.
 *   - During the call nothing else reads or writes what the call can write (the
 *     numbers, the buffers), nor writes what it reads (the bytes, the rows, the
 *     input, the files).
 *
 * No call keeps anything between two calls, allocates memory, or reads or writes
 * anything but its arguments and what they point to, so any number of threads may
 * call at once.
 *
 * Only the calls of (d) and (j) use floating point, and only they depend on the
 * thread's floating-point environment. They need what a C program starts with:
 * binary64 rounded to nearest, subnormal numbers not flushed to zero, and no
 * floating-point exception trapped. After fesetround(), or where flush-to-zero was
 * switched on (as -ffast-math may do), frequency, phase and angles can have other
 * bits; their refusals stay. They may raise the inexact flag, and those of (j) the
 * invalid flag too where the day is NaN.
 * All other calls work in whole numbers and give the same answers in any environment.
 *
 * Words used below
 *
 *   day      a day number: Modified Julian Date, whole. 2000-01-01 is 51544.
 *   micros   microseconds of that day, from 0 to 86399999999.
 *   instant  a day and its micros, in Terrestrial Time (TT). An instant is
 *            accepted when neither 8 nor 9 applies to it.
 *   UTC      Coordinated Universal Time, that of clocks and operators. TT is ahead of
 *            it by 32.184 s and the whole seconds of TAI - UTC, which leap seconds
 *            change.
 *   reading  a date and a time of day in UTC: year, month, day of the month, hour,
 *            minute, second, and microsecond of the second. The calls of (d),
 *            enfys_utc_to_tt and enfys_utc_to_tt_* take one, those of (j) a day of
 *            the year in Greenwich time; the time that any other call takes is TT.
 *
 * This software is derived from routines of the IERS Conventions. It is not IERS
 * Conventions software, and is neither distributed nor endorsed by the IERS
 * Conventions Center: see NOTICE and DIFFERENCES.md, which are installed with it.
 */
#ifndef ENFYSGAR_H
#define ENFYSGAR_H

#include <stddef.h>
#include <stdint.h>

#ifdef __cplusplus
extern "C" {
#endif

/*
 * The version. Its major number rises where a call changes its meaning or its
 * parameters, the minor number where calls are added, the patch number otherwise.
 *
 * 2.0.0 changes the four calls of (d), enfys_tide and enfys_tide_*. They take a UTC
 * reading where they took the day and micros of TT, and the hour angle in the phase
 * is that of UTC. Code that has UTC hands the seven numbers on. Code that has an
 * instant asks for its reading first:
 *
 *     refusal = enfys_tt_to_utc(day, micros, &year, &month, &day_of_month, &hour,
 *                               &minute, &second, &microsecond);
 *     if (refusal == ENFYS_OK)
 *         refusal = enfys_tide(year, month, day_of_month, hour, minute, second,
 *                              microsecond, 2, 0, 0, 0, 0, 0, &frequency, &phase);
 *
 * There are phases from 1972-01-01 to 2025-06-27 only, where 1.2.0 answered any
 * instant from 1900 to 2100. A call with the earlier parameters does not compile. An
 * object file that was compiled with an earlier header still links, but must not be
 * used, since its arguments would be taken for others: compile it anew.
 */
#define ENFYS_VERSION_MAJOR 2
#define ENFYS_VERSION_MINOR 5
#define ENFYS_VERSION_PATCH 2
#define ENFYS_VERSION_STRING "2.5.2"

/*
 * Refusal numbers. 0 is success. Where several apply, the first in the order
 * that the call lists is given.
 */
enum {
    ENFYS_OK = 0,
    ENFYS_YEAR = 1,            /* year outside 1900..2100; in (j) outside
                                  1974..2100 */
    ENFYS_MONTH = 2,           /* month outside 1..12 */
    ENFYS_DAY_OF_MONTH = 3,    /* day of month outside that month */
    ENFYS_HOUR = 4,            /* hour above 23 */
    ENFYS_MINUTE = 5,          /* minute above 59 */
    ENFYS_SECOND = 6,          /* TT: second above 59. UTC: second above 60, or 60
                                  where the minute has no leap second */
    ENFYS_MICROSECOND = 7,     /* microsecond of the second above 999999 */
    ENFYS_DAY = 8,             /* day outside 15020..88433 (1900-01-01..2100-12-31),
                                  or the last instant of a run after day 88433 */
    ENFYS_MICROS = 9,          /* micros 86400000000 or more */
    ENFYS_WORDS_DISAGREE = 10, /* the marks of the two clock words disagree */
    ENFYS_MULTIPLIER = 11,     /* a Doodson multiplier outside -12..12 */
    ENFYS_BUFFER_SHORT = 12,   /* a buffer shorter than its answer, or bytes than a
                                  record */
    ENFYS_RECORD_LENGTH = 13,  /* length field of a record not 30 */
    ENFYS_RECORD_VERSION = 14, /* version byte of a record not 1 */
    ENFYS_RECORD_ZERO = 15,    /* byte 3 of a record not 0 */
    ENFYS_RECORD_SUM = 16,     /* the 16-bit words of a record do not add up to 0 */
    ENFYS_RUN_COUNT = 17,      /* number of records of a run outside 1..96 */
    ENFYS_RUN_STEP = 18,       /* step of a run outside 1..86400000000 microseconds */
    ENFYS_UTC_EARLY = 19,      /* UTC before 1972-01-01 */
    ENFYS_UTC_EXPIRED = 20,    /* UTC on 2025-06-28 or later: the list of leap
                                  seconds has expired */
    ENFYS_ROWS_LENGTH = 21,    /* rows: under three bytes, or the length field not
                                  their length, or that not of 2 to 200 rows */
    ENFYS_ROWS_VERSION = 22,   /* version byte of rows not 1 */
    ENFYS_ROWS_DAY = 23,       /* a row's day outside 15020..88433, or not after the
                                  day of the row before */
    ENFYS_ROWS_SIZE = 24,      /* a row's uncertainty outside 1..100000, or XC or XS
                                  outside -100000..100000 */
    ENFYS_RESCUE_LENGTH = 25,  /* input of a rescue longer than 65536 bytes */
    ENFYS_DAY_OF_YEAR = 26,    /* day of the year below 1, or 366 or more (367 in a
                                  leap year), or NaN */
    ENFYS_FILE_LENGTH = 27,    /* length of a record file not a multiple of 30, or
                                  above 65520 */
    ENFYS_FILE_ORDER = 28      /* a record of a file not later than the one before */
};

/* First and last accepted day, microseconds in a day, and the sizes of records. */
#define ENFYS_FIRST_DAY INT64_C(15020)
#define ENFYS_LAST_DAY INT64_C(88433)
#define ENFYS_DAY_MICROS UINT64_C(86400000000)
#define ENFYS_RECORD_BYTES 30
#define ENFYS_RUN_RECORDS 96

/* Nutation rows: the least and the most of a table, and the bytes of n of them. */
#define ENFYS_ROWS_LEAST 2
#define ENFYS_ROWS_MOST 200
#define ENFYS_ROWS_BYTES(n) (3 + 16 * (n))

/*
 * A rescue: the longest input, the bytes of a range in the list, and the sizes of the
 * two buffers that hold the answer to any input: 2184 records and 2115 ranges.
 */
#define ENFYS_RESCUE_MOST 65536
#define ENFYS_RESCUE_RANGE_BYTES 8
#define ENFYS_RESCUE_RECORDS_BYTES 65520
#define ENFYS_RESCUE_RANGES_BYTES 16920

/*
 * A comparison: the longest record file, the bytes of an entry in the list, and the
 * size of a list that holds the answer for any two files: 4368 entries.
 */
#define ENFYS_COMPARE_MOST 65520
#define ENFYS_COMPARE_ENTRY_BYTES 37
#define ENFYS_COMPARE_LIST_BYTES 161616

/* How many angles (j) has. */
#define ENFYS_ANGLES 11

/*
 * UTC days, as day numbers: the first, and that on which the list expires. Either
 * begins some seconds into that day of TT: see enfys_tt_to_utc.
 */
#define ENFYS_UTC_FIRST_DAY INT64_C(41317)
#define ENFYS_UTC_EXPIRY_DAY INT64_C(60854)

/*
 * (a) Calendar. Gregorian dates from 1900-01-01 to 2100-12-31.
 * Months count from 1 (January), days of a month from 1.
 */

/* The day number of a date. Refused: 1, 2, 3, in this order. */
uint32_t enfys_day_of_date(uint64_t year, uint64_t month, uint64_t day_of_month,
                           int64_t *day);

/*
 * The date of a day number. Refused: 8. It is found by arithmetic, with no loop. For
 * many days make this call once for each: the calls for one number begin again from
 * the day each time.
 */
uint32_t enfys_date_of_day(int64_t day, uint64_t *year, uint64_t *month,
                           uint64_t *day_of_month);

/*
 * (b) Date and time of day (TT) to an instant.
 * `microsecond` is the part of the second, 0 to 999999; the answer's micros
 * count from 0 h. Refused: 1, 2, 3, 4, 5, 6, 7, in this order.
 */
uint32_t enfys_instant(uint64_t year, uint64_t month, uint64_t day_of_month,
                       uint64_t hour, uint64_t minute, uint64_t second,
                       uint64_t microsecond, int64_t *day, uint64_t *micros);

/*
 * (c) Clock words: an instant in two words that may be read one after the other.
 * The first is the day number; the second has the micros and above them a mark of
 * the day, (day mod 8) * 137438953472 (2 to the 37th).
 */

/* An instant as two words. Refused: 8, 9, in this order. */
uint32_t enfys_split(int64_t day, uint64_t micros, int64_t *day_word,
                     uint64_t *time_word);

/*
 * Two words as an instant: micros is time_word mod 137438953472, the mark is the
 * quotient. Refused: 8 (the day word), 9 (the micros), 10 (the mark is not the day
 * word mod 8; a mark above 7 never is), in this order.
 *
 * 10 shows that the two words were not made on one day. Refusal 0 shows that they
 * were, if their day numbers differ by less than eight, and the answer is then the
 * moment of the time word. Day numbers that differ by a multiple of eight have the
 * same mark: such words are joined, and nothing here can notice it (23:59 of a day
 * and 0:00 of the eighth day after it are such, though less than eight days apart).
 */
uint32_t enfys_join(int64_t day_word, uint64_t time_word, int64_t *day,
                    uint64_t *micros);

/*
 * (d) Frequency, in cycles per day, and phase, in degrees, of the tidal
 * constituent with the six Doodson multipliers k1..k6 (M2 is 2, 0, 0, 0, 0, 0), at
 * a UTC reading. The phase is at least 0 and below 360, never minus zero. Both are
 * fixed to the bit: binary64, each operation rounded once, in one order (see above
 * on the floating-point environment). Six zero multipliers give +0 and +0.
 *
 * The arguments of Moon and Sun, and the frequency, are those of the reading's TT,
 * the instant that enfys_utc_to_tt gives. The hour angle alone is that of UTC: 360
 * degrees times the microseconds since 0 h UTC divided by 86400000000. In second 60
 * that quotient is 1 or a little more, and at the 0 h after it the count starts
 * anew: the phase steps back there by k1 / 240 degrees.
 *
 * Refused, in this order: 1 to 7, 19, 20 (those of the reading, as in
 * enfys_utc_to_tt), 11. The list of leap seconds expired on 2025-06-28: from that
 * day on phases are refused by 20, those of today too (see (h)).
 *
 * Left to the caller: the phase is that of the expression, without the 90 degrees
 * that are subtracted where degree plus species is odd, and without the 180 that
 * some normalizations of the potential add. UT1 is taken to be UTC, from which it
 * is less than 0.9 s away: less than 0.004 * k1 degrees.
 */
uint32_t enfys_tide(uint64_t year, uint64_t month, uint64_t day_of_month,
                    uint64_t hour, uint64_t minute, uint64_t second,
                    uint64_t microsecond, int64_t k1, int64_t k2, int64_t k3,
                    int64_t k4, int64_t k5, int64_t k6, double *frequency,
                    double *phase);

/*
 * (e) Zonal-tide corrections at an instant, whole numbers:
 *
 *   ut1   effect on UT1, in nanoseconds, within 5 of the exact sum
 *   lod   effect on the length of day, in picoseconds, within 50
 *   rate  effect on the rotation rate, in 10^-20 radian per second, within 5
 *
 * The exact sums are those of RULES.md, which is installed with this header.
 * Refused: 8, 9, in this order.
 */
uint32_t enfys_zonal(int64_t day, uint64_t micros, int32_t *ut1, int32_t *lod,
                     int32_t *rate);

/*
 * (f) Free-core-nutation offsets x and y of the celestial pole at an instant, in
 * whole nanoarcseconds (0.001 microarcsecond), each within 2 of the exact offset,
 * and the uncertainty of either axis, exact and rounded up to a whole nanoarcsecond;
 * it is above 0.
 * Refused: 8, 9, in this order.
 */
uint32_t enfys_nutation(int64_t day, uint64_t micros, int64_t *x, int64_t *y,
                        uint64_t *uncertainty);

/*
 * The same with rows of the caller's in place of the built-in ones, which are of
 * 1984 to 2013: a later table needs no later version of the library. The rows are
 * handed over as bytes, each number with its high byte first:
 *
 *    0-1   length of the whole, 3 + 16 n for n rows, n from 2 to 200: 35 to 3203
 *    2     version, 1
 *    3-    n rows of 16 bytes
 *
 * and a row:
 *
 *    0-3   day number of its date, unsigned; the date is 0 h TT of that day
 *    4-7   XC           \
 *    8-11  XS            } signed, two's complement, in hundredths of a
 *   12-15  uncertainty  /  microarcsecond
 *
 * Days are from 15020 to 88433, each later than the one before. XC and XS are from
 * -100000 to 100000 (1000 microarcseconds), uncertainties from 1 to 100000.
 *
 * Refused, in this order, each looked for in all rows before the next:
 *
 *   21  fewer than three bytes; or a length field that is not `length`, also where
 *       the two differ by 65536; or a length that is not that of 2 to 200 rows
 *   22  the version
 *   23  a day outside its limits, or not later than that of the row before
 *   24  an uncertainty, XC or XS outside its limits
 *   8, 9  of the instant
 *
 * Units, rules and distances are those of enfys_nutation, for every accepted table:
 * x and y are within 2 of the exact offsets of those rows, the uncertainty is exact,
 * rounded up and above 0. Between two rows XC, XS and the uncertainty are
 * interpolated. Up to the first row's date, and from the last row's on, XC and XS
 * are that row's, and the uncertainty of an axis grows by 265 nanoarcseconds with
 * each day from that date, parts of a day included. The built-in rows, written so,
 * give the numbers of enfys_nutation at every instant.
 *
 * A call reads `rows` and changes none of it. It keeps nothing: each call tests all
 * rows again, also where the caller knows that they are good. With 30 rows a call
 * takes about 0.12 microseconds and with 200 rows 0.6, where one with the built-in
 * rows takes 0.04 to 0.06 (Intel Xeon; docs/BENCHMARKS.md of the source).
 *
 * The tool enfysgar-rows makes such bytes of a text that an operator can write, and
 * text of the bytes.
 */
uint32_t enfys_nutation_rows(const uint8_t *rows, size_t length, int64_t day,
                             uint64_t micros, int64_t *x, int64_t *y,
                             uint64_t *uncertainty);

/*
 * (g) Records. A record is 30 bytes, each number with its high byte first:
 *
 *    0-1   length, 30
 *    2     version, 1
 *    3     0
 *    4-7   day word
 *    8-15  time word
 *   16-19  ut1    \
 *   20-23  lod     } signed, two's complement, units as in (e)
 *   24-27  rate   /
 *   28-29  the number that makes the sum of all fifteen 16-bit words 0 modulo 65536
 */

/*
 * Writes one record. Any three numbers can be written. Refused: 8, 9, 12 (length
 * below 30), in this order. On success bytes 0 to 29 of the buffer are the record
 * and no other byte has changed; on a refusal no byte has.
 */
uint32_t enfys_record_write(int64_t day, uint64_t micros, int32_t ut1, int32_t lod,
                            int32_t rate, uint8_t *buffer, size_t length);

/*
 * Reads one record from the first 30 bytes; what follows is not looked at.
 * Refused, in this order: 12 (length below 30), 14 (version), 13 (length field),
 * 15 (byte 3), 16 (sum), 8, 9, 10 (the clock words, as in joining).
 * A record that reads is, byte for byte, what enfys_record_write writes for the
 * instant and the three numbers that it gives.
 */
uint32_t enfys_record_read(const uint8_t *bytes, size_t length, int64_t *day,
                           uint64_t *micros, int32_t *ut1, int32_t *lod,
                           int32_t *rate);

/*
 * Writes a run: count records, at the instants start + k * step_micros for k from
 * 0 to count - 1, each with the three numbers of service (e) for its instant.
 * Record k fills bytes 30k to 30k + 29. Refused, in this order: 17 (count),
 * 18 (step), 8 (the start's day), 9 (the start's micros), 8 (the last instant is
 * after day 88433), 12 (length below 30 * count). On success no byte past
 * 30 * count has changed; on a refusal no byte has. A step is refused by 18 even
 * where count is 1 and it would not be used.
 */
uint32_t enfys_run_write(int64_t day, uint64_t micros, uint64_t count,
                         uint64_t step_micros, uint8_t *buffer, size_t length);

/*
 * (h) UTC readings to instants, and back. A reading has the fields of (b), in UTC.
 * In TT the same moment reads later, by 32.184 s and TAI - UTC of the UTC day. That
 * is 10 s from 1972-01-01 on and has stepped up by 1 s on 27 days since, the last
 * time to 37 s on 2017-01-01. The eve of each of the 27 ends with a leap second,
 * second 60 of 23:59: 2016-12-31 23:59:60.999999 is a reading, and a microsecond
 * after it 2017 begins.
 *
 * The list of leap seconds, that of the IERS, is built in and has an expiry day,
 * 2025-06-28. The range of readings is from 1972-01-01 up to that day, without it.
 * From that day on there may be leap seconds that this version does not know: it
 * refuses by 20 rather than guess. That day has passed, so that UTC of today is
 * refused, and with it the phases of (d). A later list needs a later version of the
 * library, in which ENFYS_UTC_EXPIRY_DAY tells a daemon how long it will do.
 */

/*
 * The instant of a reading. Refused, in this order: 1, 2, 3, 4, 5, 6 (second 61 or
 * more, and second 60 where the minute has no leap second), 7, 19 (before
 * 1972-01-01), 20 (on 2025-06-28 or later). No two readings have the same instant.
 */
uint32_t enfys_utc_to_tt(uint64_t year, uint64_t month, uint64_t day_of_month,
                         uint64_t hour, uint64_t minute, uint64_t second,
                         uint64_t microsecond, int64_t *day, uint64_t *micros);

/*
 * The reading of an instant. Refused, in this order: 8, 9, 19 (before micros
 * 42184000 of day 41317), 20 (at micros 69184000 of day 60854, or later). Each
 * instant between has exactly one reading, from which enfys_utc_to_tt leads back.
 */
uint32_t enfys_tt_to_utc(int64_t day, uint64_t micros, uint64_t *year,
                         uint64_t *month, uint64_t *day_of_month, uint64_t *hour,
                         uint64_t *minute, uint64_t *second, uint64_t *microsecond);

/*
 * (i) Rescue of records from a bad disk: those that still read are kept, and the
 * bytes between them are passed. The walk goes over the input from its first byte on.
 * At each place, where the bytes from there on read as a record (those for which
 * enfys_record_refusal is 0), it is kept and the walk goes on behind its 30 bytes.
 * Where they do not, one byte is passed and the walk goes on behind it. With fewer
 * than 30 bytes left nothing reads, and they are passed one after the other.
 *
 * The kept records are written to `records`, one behind the other, in their order and
 * as they stand. The passed bytes are listed in `ranges`, in their order too; bytes
 * that follow each other are one range, so that between two ranges there is a record.
 * A range is eight bytes, each number with its high byte first:
 *
 *    0-3   start, the place of its first byte, counted from 0
 *    4-7   length, in bytes, 1 or more
 *
 * Refused, in this order: 25 (input_length above 65536), 12 (records_length below 30
 * times the number of kept records, or ranges_length below 8 times the number of
 * ranges). Buffers of ENFYS_RESCUE_RECORDS_BYTES and ENFYS_RESCUE_RANGES_BYTES are
 * never too short. On success no byte behind the answer has changed in either buffer;
 * on a refusal no byte has. The input is only read.
 *
 * Which record a byte belongs to depends on where the walk began. A longer image is
 * walked in windows, each from the first place that the one before could not decide,
 * as examples/rescue_image.c of the source does.
 */
uint32_t enfys_rescue(const uint8_t *input, size_t input_length, uint8_t *records,
                      size_t records_length, uint8_t *ranges, size_t ranges_length);

/*
 * (j) The angles of the eleven constituents of Schwiderski's ocean tides, in radians,
 * each at least +0 and below two-pi, which is 6.283185307179586476925287 rounded to
 * binary64, and never minus zero. They are written to angles[0] to angles[10] in this
 * order:
 *
 *    M2, S2, N2, K2, K1, O1, P1, Q1, Mf, Mm, Ssa
 *
 * `day` is the day of the year with the part of it that has passed, in Greenwich
 * time: 1.0 is 0 h of 1 January, 32.5 noon of 1 February. `year` has all its digits:
 * 2008, not 8. Refused, in this order: 1 (year outside 1974..2100), 26 (day below 1,
 * or not below 366, in a leap year 367; 2100 is none; NaN and infinities as well).
 *
 * The angles are fixed to the bit: binary64, each operation rounded once, constants
 * and order those of the IERS routine ARG2, with year - 1900 for its two digits. In
 * its test case 08 stands for 2008, but the angles are those that it has for 1908,
 * which no call gives.
 */
uint32_t enfys_schwiderski(uint64_t year, double day, double *angles);

/*
 * (k) The differences between two record files. A file is records one behind the
 * other, as enfys_record_read reads them, with nothing between or around them: at
 * most 2184, which is 65520 bytes, each later than the one before. It may be empty.
 *
 * Listed is every instant that only one of the files has, and every instant of both
 * at which UT1, length of day or rate is not the same. The list is in the order of
 * the instants; for equal files it is empty. An entry is 37 bytes, each number with
 * its high byte first:
 *
 *    0     side: 1 only the first file has the instant, 2 only the second, 3 both
 *    1-4   day
 *    5-12  micros
 *   13-20  ut1    \  second file minus first, signed, two's complement, units as in
 *   21-28  lod     } (e), each from -4294967295 to 4294967295; zeros where the side
 *   29-36  rate   /  is 1 or 2
 *
 * With the files exchanged the same instants are listed, with sides 1 and 2 exchanged
 * and each difference negated.
 *
 * Refused, in this order:
 *
 *   27  the first file's length is no multiple of 30, or is above 65520
 *   14, 13, 15, 16, 8, 9, 10  the first file has records that do not read: that of
 *       the earliest of them, by its place, as in enfys_record_read
 *   28  a record of the first file is not later than the one before it
 *   27, the refusal of a record, 28  the same of the second file
 *   12  list_length below 37 times the number of entries
 *
 * A list of ENFYS_COMPARE_LIST_BYTES is never too short. On success no byte behind
 * the entries has changed; on a refusal no byte has. The files are only read. Which
 * of the two is refused shows where each is compared with itself:
 * enfys_compare_refusal with one file in both places gives the refusal of that file,
 * or 0.
 */
uint32_t enfys_compare(const uint8_t *first, size_t first_length,
                       const uint8_t *second, size_t second_length, uint8_t *list,
                       size_t list_length);

/*
 * Each number by itself
 *
 * Each call below, but for the two that end in `_probes` and those of (i) and (k),
 * gives one number of a whole answer above, for the same inputs. Units, rules and
 * refusals are those of the service. On a refusal the number is 0 (+0.0 for a
 * double); the call of the group that ends in `_refusal` gives the refusal number.
 * The calls of a group always agree, with each other and with the whole answer. Each
 * computes the whole answer again: a caller who wants several of its numbers uses
 * the call above.
 */

/* (a) The day number of a date, as in enfys_day_of_date. */
int64_t enfys_date_to_day(uint64_t year, uint64_t month, uint64_t day_of_month);
uint32_t enfys_date_refusal(uint64_t year, uint64_t month, uint64_t day_of_month);

/* (a) The date of a day number, as in enfys_date_of_day. */
uint64_t enfys_day_to_year(int64_t day);
uint64_t enfys_day_to_month(int64_t day);
uint64_t enfys_day_to_day_of_month(int64_t day);
uint32_t enfys_day_refusal(int64_t day);

/* (b) The instant of a date and a time of day, as in enfys_instant. */
int64_t enfys_instant_day(uint64_t year, uint64_t month, uint64_t day_of_month,
                          uint64_t hour, uint64_t minute, uint64_t second,
                          uint64_t microsecond);
uint64_t enfys_instant_micros(uint64_t year, uint64_t month, uint64_t day_of_month,
                              uint64_t hour, uint64_t minute, uint64_t second,
                              uint64_t microsecond);
uint32_t enfys_instant_refusal(uint64_t year, uint64_t month, uint64_t day_of_month,
                               uint64_t hour, uint64_t minute, uint64_t second,
                               uint64_t microsecond);

/* (c) An instant as two words, as in enfys_split. */
int64_t enfys_split_day_word(int64_t day, uint64_t micros);
uint64_t enfys_split_time_word(int64_t day, uint64_t micros);
uint32_t enfys_split_refusal(int64_t day, uint64_t micros);

/* (c) Two words as an instant, as in enfys_join. */
int64_t enfys_join_day(int64_t day_word, uint64_t time_word);
uint64_t enfys_join_micros(int64_t day_word, uint64_t time_word);
uint32_t enfys_join_refusal(int64_t day_word, uint64_t time_word);

/* (d) Frequency and phase, as in enfys_tide. */
double enfys_tide_frequency(uint64_t year, uint64_t month, uint64_t day_of_month,
                            uint64_t hour, uint64_t minute, uint64_t second,
                            uint64_t microsecond, int64_t k1, int64_t k2, int64_t k3,
                            int64_t k4, int64_t k5, int64_t k6);
double enfys_tide_phase(uint64_t year, uint64_t month, uint64_t day_of_month,
                        uint64_t hour, uint64_t minute, uint64_t second,
                        uint64_t microsecond, int64_t k1, int64_t k2, int64_t k3,
                        int64_t k4, int64_t k5, int64_t k6);
uint32_t enfys_tide_refusal(uint64_t year, uint64_t month, uint64_t day_of_month,
                            uint64_t hour, uint64_t minute, uint64_t second,
                            uint64_t microsecond, int64_t k1, int64_t k2, int64_t k3,
                            int64_t k4, int64_t k5, int64_t k6);

/* (e) The three corrections, as in enfys_zonal. */
int32_t enfys_zonal_ut1(int64_t day, uint64_t micros);
int32_t enfys_zonal_lod(int64_t day, uint64_t micros);
int32_t enfys_zonal_rate(int64_t day, uint64_t micros);
uint32_t enfys_zonal_refusal(int64_t day, uint64_t micros);

/* (f) The offsets and their uncertainty, as in enfys_nutation. */
int64_t enfys_nutation_x(int64_t day, uint64_t micros);
int64_t enfys_nutation_y(int64_t day, uint64_t micros);
uint64_t enfys_nutation_uncertainty(int64_t day, uint64_t micros);
uint32_t enfys_nutation_refusal(int64_t day, uint64_t micros);
/*
 * How many of the built-in rows are probed to find the two that the instant is
 * between, for a budget of time. From the first and the last row on, the row in the
 * middle (rounded down) is probed until the two are neighbours: where the instant is
 * before its date it takes the place of the later of the two, else of the earlier. At
 * most 5; none up to the first row's date and from the last row's on, nor beside a
 * refusal of enfys_nutation.
 */
uint64_t enfys_nutation_probes(int64_t day, uint64_t micros);

/* (f) The same with rows of the caller's, as in enfys_nutation_rows. */
int64_t enfys_nutation_rows_x(const uint8_t *rows, size_t length, int64_t day,
                              uint64_t micros);
int64_t enfys_nutation_rows_y(const uint8_t *rows, size_t length, int64_t day,
                              uint64_t micros);
uint64_t enfys_nutation_rows_uncertainty(const uint8_t *rows, size_t length,
                                         int64_t day, uint64_t micros);
uint32_t enfys_nutation_rows_refusal(const uint8_t *rows, size_t length, int64_t day,
                                     uint64_t micros);
/*
 * The same for the caller's rows, and 0 beside a refusal of enfys_nutation_rows. Of n
 * rows at most p are probed, the least p for which n - 1 is at most 2 to the p: none
 * of two rows, 5 of thirty, 8 of two hundred. Before they are looked up a call tests
 * all rows, which takes longer.
 */
uint64_t enfys_nutation_rows_probes(const uint8_t *rows, size_t length, int64_t day,
                                    uint64_t micros);

/* (g) What a record has, as in enfys_record_read. */
int64_t enfys_record_day(const uint8_t *bytes, size_t length);
uint64_t enfys_record_micros(const uint8_t *bytes, size_t length);
int32_t enfys_record_ut1(const uint8_t *bytes, size_t length);
int32_t enfys_record_lod(const uint8_t *bytes, size_t length);
int32_t enfys_record_rate(const uint8_t *bytes, size_t length);
uint32_t enfys_record_refusal(const uint8_t *bytes, size_t length);

/* (h) The instant of a reading, as in enfys_utc_to_tt. */
int64_t enfys_utc_to_tt_day(uint64_t year, uint64_t month, uint64_t day_of_month,
                            uint64_t hour, uint64_t minute, uint64_t second,
                            uint64_t microsecond);
uint64_t enfys_utc_to_tt_micros(uint64_t year, uint64_t month, uint64_t day_of_month,
                                uint64_t hour, uint64_t minute, uint64_t second,
                                uint64_t microsecond);
uint32_t enfys_utc_to_tt_refusal(uint64_t year, uint64_t month, uint64_t day_of_month,
                                 uint64_t hour, uint64_t minute, uint64_t second,
                                 uint64_t microsecond);

/* (h) The reading of an instant, as in enfys_tt_to_utc. */
uint64_t enfys_tt_to_utc_year(int64_t day, uint64_t micros);
uint64_t enfys_tt_to_utc_month(int64_t day, uint64_t micros);
uint64_t enfys_tt_to_utc_day_of_month(int64_t day, uint64_t micros);
uint64_t enfys_tt_to_utc_hour(int64_t day, uint64_t micros);
uint64_t enfys_tt_to_utc_minute(int64_t day, uint64_t micros);
uint64_t enfys_tt_to_utc_second(int64_t day, uint64_t micros);
uint64_t enfys_tt_to_utc_microsecond(int64_t day, uint64_t micros);
uint32_t enfys_tt_to_utc_refusal(int64_t day, uint64_t micros);

/*
 * (i) What enfys_rescue does with this input and buffers of these lengths, without
 * the buffers: how many records it keeps, how many ranges it lists, how many bytes it
 * passes (the sum of their lengths), and its refusal. Where that is 0, 30 times the
 * kept records and the passed bytes are input_length. With SIZE_MAX for both lengths
 * they say how long the buffers have to be. Each call walks over the input once;
 * enfys_rescue does so twice.
 */
uint64_t enfys_rescue_kept(const uint8_t *input, size_t input_length,
                           size_t records_length, size_t ranges_length);
uint64_t enfys_rescue_ranges(const uint8_t *input, size_t input_length,
                             size_t records_length, size_t ranges_length);
uint64_t enfys_rescue_passed(const uint8_t *input, size_t input_length,
                             size_t records_length, size_t ranges_length);
uint32_t enfys_rescue_refusal(const uint8_t *input, size_t input_length,
                              size_t records_length, size_t ranges_length);

/* (j) The angles, as in enfys_schwiderski. */
double enfys_schwiderski_m2(uint64_t year, double day);
double enfys_schwiderski_s2(uint64_t year, double day);
double enfys_schwiderski_n2(uint64_t year, double day);
double enfys_schwiderski_k2(uint64_t year, double day);
double enfys_schwiderski_k1(uint64_t year, double day);
double enfys_schwiderski_o1(uint64_t year, double day);
double enfys_schwiderski_p1(uint64_t year, double day);
double enfys_schwiderski_q1(uint64_t year, double day);
double enfys_schwiderski_mf(uint64_t year, double day);
double enfys_schwiderski_mm(uint64_t year, double day);
double enfys_schwiderski_ssa(uint64_t year, double day);
uint32_t enfys_schwiderski_refusal(uint64_t year, double day);

/*
 * (k) What enfys_compare does with these files and a list of so many bytes, without
 * the list: how many entries it writes, none beside a refusal, and its refusal. With
 * SIZE_MAX for list_length they say how long the list has to be:
 * ENFYS_COMPARE_ENTRY_BYTES for each entry. Each call walks over both files once, to
 * test them and to count. enfys_compare does so too and walks again to write, as far
 * as the last entry: for equal files not at all. For the number of a file that is
 * refused a call goes over each file at most twice more.
 */
uint64_t enfys_compare_entries(const uint8_t *first, size_t first_length,
                               const uint8_t *second, size_t second_length,
                               size_t list_length);
uint32_t enfys_compare_refusal(const uint8_t *first, size_t first_length,
                               const uint8_t *second, size_t second_length,
                               size_t list_length);

#ifdef __cplusplus
}
#endif

#endif
