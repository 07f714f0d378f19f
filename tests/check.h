/*
 * What the test programs share: counting and comparing calls, whole answers
 * among them, random numbers from a fixed seed, and values at the edges of
 * types and ranges.
 */
#ifndef CHECK_H
#define CHECK_H

#include <inttypes.h>
#include <stddef.h>
#include <stdint.h>

/* Reads the arguments (`mistake N`, see model.h; `mistake N CALL`, see WHOLE) and names the test. */
void begin(const char *test, int argc, char **argv);
/* Prints the one line of a test that passed, with a note at its end or NULL. */
int end(const char *note);

/* Calls of the library whose answers were compared so far. */
extern uint64_t calls;

/* Ends the test with status 1; says which call gave what. */
_Noreturn void differs(const char *call, const char *got, const char *expected, const char *format, ...)
    __attribute__((format(printf, 4, 5)));
const char *text_u64(uint64_t x);
const char *text_i64(int64_t x);
const char *text_double(double x);
uint64_t bits_of(double x);
double of_bits(uint64_t bits);

/*
 * SAME_..(call, expected, "inputs", ..): makes the call once and compares the answer. The inputs
 * are printed only where the answer differs.
 */
#define SAME(type, equal, text, call, expected, ...)                  \
    do {                                                              \
        type got_ = (call);                                           \
        type expected_ = (expected);                                  \
        calls++;                                                      \
        if (!(equal))                                                 \
            differs(#call, text(got_), text(expected_), __VA_ARGS__); \
    } while (0)
#define SAME_U(call, expected, ...) SAME(uint64_t, got_ == expected_, text_u64, call, expected, __VA_ARGS__)
#define SAME_I(call, expected, ...) SAME(int64_t, got_ == expected_, text_i64, call, expected, __VA_ARGS__)
/* Two doubles with the same bits: +0 and -0 differ. */
#define SAME_BITS(call, expected, ...) \
    SAME(double, bits_of(got_) == bits_of(expected_), text_double, call, expected, __VA_ARGS__)
/* A number at most `distance` from a double. A distance that is NaN is not met. */
#define WITHIN(distance, call, expected, ...)                                                                       \
    SAME(double, (got_ >= expected_ - (distance)) && (got_ <= expected_ + (distance)), text_double, (double)(call), \
         expected, __VA_ARGS__)

/*
 * Whole answers. A call writes each number of its answer through a pointer, or none. Number i has a
 * place of its own, between guard bytes and unmapped memory; OUT is the pointer to it.
 *
 *     const struct number want[] = {NUMBER(x), NUMBER(y)};
 *     WHOLE(enfys_call(input, OUT(int64_t, 0), OUT(double, 1)), refusal, want, "inputs", ..);
 *
 * fills the places with anything, makes the call once, and compares the refusal and every byte of the
 * places: the numbers where the refusal is 0, otherwise what stood there, and the guards. What is
 * expected has planted mistakes (71 to 75 in check.c), each made for the call that `mistake N CALL` names.
 *
 * WHOLE_ARRAY is the same for a call that writes numbers of eight bytes to an array, OUT(type, 0), in a test with one
 * such length: the guard is before the first, the unmapped memory behind the last.
 */
struct number {
    const void *at;
    size_t size;
};
#define NUMBER(x) ((struct number){&(x), sizeof(x)})
#define OUT(type, i) ((type *)place_of(i, sizeof(type)))
#define WHOLE(...) WHOLE_IN(0, __VA_ARGS__)
#define WHOLE_ARRAY(...) WHOLE_IN(1, __VA_ARGS__)
#define WHOLE_IN(array, call, refusal, want, ...)                     \
    do {                                                              \
        const size_t count_ = sizeof(want) / sizeof *(want);          \
        fill_places(count_, array);                                   \
        uint32_t got_ = (call);                                       \
        calls++;                                                      \
        if (!whole(#call, got_, refusal, want, count_))               \
            differs(#call, places_got, places_expected, __VA_ARGS__); \
    } while (0)
void *place_of(int i, size_t size);
void fill_places(size_t count, int array);
int whole(const char *call, uint32_t got, uint32_t refusal, const struct number *want, size_t count);
extern char places_got[], places_expected[];

/* The seven fields f of a date and a time of day: for a message, and as arguments. */
#define FIELDS_TEXT "%" PRIu64 "-%" PRIu64 "-%" PRIu64 " %" PRIu64 ":%" PRIu64 ":%" PRIu64 ", microsecond %" PRIu64
#define SEVEN f[0], f[1], f[2], f[3], f[4], f[5], f[6]
#define FIELDS FIELDS_TEXT, SEVEN

/* A random number: of 64 bits, from 0 to n - 1, from low to high. */
uint64_t any(void);
uint64_t below(uint64_t n);
int64_t between(int64_t low, int64_t high);
/* A value that code tends to get wrong: ends of types, powers of two, ends of our ranges, or any. */
uint64_t edge(void);
/* One time in n. */
int one_in(unsigned n);

/* A day and micros that are mostly accepted, with the ends of both ranges well represented. */
int64_t some_day(void);
uint64_t some_micros(void);

/* Makes a word of a record, two bytes from `at` on, what it has to be for the sum. */
void mend(uint8_t *record, int at);
/* Gives a record this instant, accepted or not, with the mark and the sum that go with it. */
void set_instant(uint8_t *record, int64_t day, uint64_t micros);

/*
 * A block of `size` bytes that ends where unmapped memory begins, so that reading or writing past
 * it ends the program. Free it with lent_free. The bytes before it are not guarded.
 */
uint8_t *lent(size_t size);
void lent_free(uint8_t *block, size_t size);
/* One that begins where unmapped memory ends. The bytes behind it are not guarded, and it is not freed. */
uint8_t *lent_behind(size_t size);

#endif
