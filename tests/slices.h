/*
 * Slices of bytes that a test lends to a call. Each begins where unmapped memory ends or ends where it begins, and has
 * guard bytes on its other side. After the call all of it is compared with what is wanted.
 */
#ifndef SLICES_H
#define SLICES_H

#include "check.h"

#include <string.h>

#define LONGEST (4 * 65536) /* of all slices */
#define GUARD 32
#define SLICES 3

static uint8_t noise[2 * LONGEST]; /* random bytes, from which buffers and guards are filled */

static struct slice {
    uint8_t *front, *back;                  /* its two places in memory */
    uint8_t *given, *area;                  /* what the call gets, and from where on it is compared */
    uint8_t want[LONGEST + GUARD], *wanted; /* what the area has to be, and the slice in it */
    size_t size;
} slices[SLICES];

static void make_slices(void)
{
    for (size_t i = 0; i < sizeof noise; i++)
        noise[i] = (uint8_t)any();
    for (int n = 0; n < SLICES; n++) {
        slices[n].front = lent_behind(LONGEST + GUARD);
        slices[n].back = lent(LONGEST + GUARD);
    }
}

/* Makes slice n of `size` bytes, at one of its places: these bytes, or anything where they are NULL. */
static void lend(int n, const uint8_t *bytes, size_t size)
{
    struct slice *s = &slices[n];
    int at_front = one_in(2);

    s->given = at_front ? s->front : s->back + GUARD + LONGEST - size;
    s->area = at_front ? s->given : s->given - GUARD;
    s->size = size;
    memcpy(s->area, noise + below(LONGEST - GUARD), size + GUARD);
    if (bytes != NULL)
        memcpy(s->given, bytes, size);
    memcpy(s->want, s->area, size + GUARD);
    s->wanted = s->want + (s->given - s->area);
}

/* The size of a buffer that is long enough, or not, for so many bytes. */
static size_t size_near(size_t need)
{
    switch (below(8)) {
    case 0:
        return 0;
    case 1:
        return below(need + 1);
    case 2:
        return need + 1;
    case 3:
        return need + below(100);
    case 4:
        return 65536 + below(need + 1); /* enough; its two low bytes by themselves may not be */
    case 5:
        return need - (need > 0);
    default:
        return need;
    }
}

/* Whether slice n and its guard are what is wanted; if not, the first place, counted from the slice's start. */
static int as_wanted(int n, ptrdiff_t *place)
{
    const struct slice *s = &slices[n];

    if (memcmp(s->area, s->want, s->size + GUARD) == 0)
        return 1;
    for (*place = s->area - s->given; s->given[*place] == s->wanted[*place];)
        ++*place;
    return 0;
}

#endif
