/* The work of the rows on rescued records: the images, which bench.c makes, and a call on each. */
#ifndef WORK_RESCUE_H
#define WORK_RESCUE_H

#include "../include/enfysgar.h"
#include "plain_rescue.h"

#define IMAGES 8
#define CLEAN_BYTES (2184 * 30)

/* Records one behind the other; the same with a byte of about one in ten damaged; random bytes. */
static uint8_t clean[IMAGES][CLEAN_BYTES], damaged[IMAGES][CLEAN_BYTES], noise[IMAGES][ENFYS_RESCUE_MOST];
static uint8_t kept[ENFYS_RESCUE_RECORDS_BYTES], ranges[ENFYS_RESCUE_RANGES_BYTES];

typedef uint32_t rescue_call(const uint8_t *input, size_t input_length, uint8_t *records, size_t records_length,
                             uint8_t *ranges, size_t ranges_length);

/* The refusal, and some bytes of both buffers. */
__attribute__((always_inline)) static inline double rescue_of(rescue_call *call, const uint8_t *image, size_t length)
{
    return call(image, length, kept, sizeof kept, ranges, sizeof ranges) + (double)kept[29] + (double)ranges[7];
}

/* The work of a call on an image. */
#define RESCUE(name, call, image, length)                  \
    static double name(int i)                              \
    {                                                      \
        return rescue_of(call, image[i % IMAGES], length); \
    }

RESCUE(rescue_clean, enfys_rescue, clean, CLEAN_BYTES)
RESCUE(rescue_clean_plain, rescue_plain, clean, CLEAN_BYTES)
RESCUE(rescue_clean_loads, rescue_plain_loads, clean, CLEAN_BYTES)
RESCUE(rescue_damaged, enfys_rescue, damaged, CLEAN_BYTES)
RESCUE(rescue_damaged_plain, rescue_plain, damaged, CLEAN_BYTES)
RESCUE(rescue_damaged_loads, rescue_plain_loads, damaged, CLEAN_BYTES)
RESCUE(rescue_noise, enfys_rescue, noise, ENFYS_RESCUE_MOST)
RESCUE(rescue_noise_plain, rescue_plain, noise, ENFYS_RESCUE_MOST)
RESCUE(rescue_noise_memchr, rescue_plain_memchr, noise, ENFYS_RESCUE_MOST)

#endif
