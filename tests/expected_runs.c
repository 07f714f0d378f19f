/*
 * For tests/run_day.py: reads lines of day number, count and step in microseconds, and writes for
 * each the records that run_day has to write. The records are put together by the model; the three
 * numbers are those of the library's calls for each instant.
 */
#include "../include/enfysgar.h"
#include "model.h"

#include <inttypes.h>
#include <stdio.h>

int model_mistake;

int main(void)
{
    struct instant start = {0, 0};
    uint64_t count, step;

    while (scanf("%" SCNd64 " %" SCNu64 " %" SCNu64, &start.day, &count, &step) == 3)
        for (uint64_t k = 0; k < count; k++) {
            struct instant at = model_run_instant(start, k, step);
            struct record record = {at,
                                    {enfys_zonal_ut1(at.day, at.micros), enfys_zonal_lod(at.day, at.micros),
                                     enfys_zonal_rate(at.day, at.micros)}};
            uint8_t bytes[30];

            if (model_write(&record, bytes, sizeof bytes) != 0)
                return 1;
            fwrite(bytes, 1, sizeof bytes, stdout);
        }
    return 0;
}
