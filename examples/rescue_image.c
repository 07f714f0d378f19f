/*
 * rescue_image: rescues the records of an image of a bad disk, of any size, with a window of 65536 bytes in memory.
 * It keeps just what one walk over the whole image would keep. It is an example and not part of the proved product.
 *
 *     cc -O2 -Iinclude examples/rescue_image.c target/staticlib/libenfysgar.a -o rescue_image
 *     ./rescue_image IMAGE RECORDS
 *
 * IMAGE may be a pipe, and `-` is standard input. The kept records are written to the file RECORDS; standard output
 * has a line for each range of passed bytes, and a last line with the totals.
 *
 * A window may end in the middle of a record. The library passes those bytes, since fewer than 30 are no record; but
 * where the image goes on, such a place is undecided. The next window starts at the first of them, so that at most 29
 * bytes are looked at twice. All places before it were decided with 30 bytes at hand, as in one walk.
 *
 * Status 0: the image was walked to its end; 1: a file could not be read or written, and of an image that can be read
 * in part that part was walked; 2: wrong usage.
 */
#define _POSIX_C_SOURCE 200809L
#include <enfysgar.h>

#include <errno.h>
#include <inttypes.h>
#include <stdio.h>
#include <string.h>
#include <sys/stat.h>

#define WINDOW ENFYS_RESCUE_MOST

static uint8_t window[WINDOW], records[ENFYS_RESCUE_RECORDS_BYTES], ranges[ENFYS_RESCUE_RANGES_BYTES];

/* The range that may still grow, which has not been printed, and the totals so far. */
static struct {
    uint64_t start, length;
    uint64_t kept, passed, ranges;
} walk;

/* Says what is wrong with a file; the status of that. */
static int trouble(const char *name, const char *what)
{
    fprintf(stderr, "rescue_image: %s: %s\n", name, what);
    return 1;
}

static void end_range(void)
{
    if (walk.length == 0)
        return;
    printf("passed %" PRIu64 " bytes at %" PRIu64 "\n", walk.length, walk.start);
    walk.passed += walk.length;
    walk.ranges++;
    walk.length = 0;
}

/* Bytes of the image that were passed: more of the range before, where they follow it, or a range of their own. */
static void pass(uint64_t start, uint64_t length)
{
    if (length > 0 && (walk.length == 0 || walk.start + walk.length != start)) {
        end_range();
        walk.start = start;
    }
    walk.length += length;
}

static uint64_t number(const uint8_t *at)
{
    return (uint64_t)at[0] << 24 | (uint64_t)at[1] << 16 | (uint64_t)at[2] << 8 | at[3];
}

/*
 * Walks the first `length` bytes of the window, which stand at `place` in the image, and writes the records. `decided`
 * is how many bytes are decided: all of them where the image ends here, else those before the first undecided place.
 */
static uint32_t walk_window(uint64_t place, size_t length, int last, FILE *kept, size_t *decided)
{
    size_t passed = 0;
    uint32_t refusal;

    memset(ranges, 0, sizeof ranges); /* no range has length 0, so that the first such one is the end of the list */
    refusal = enfys_rescue(window, length, records, sizeof records, ranges, sizeof ranges);
    if (refusal != ENFYS_OK)
        return refusal;
    *decided = length;
    for (size_t i = 0; i < sizeof ranges && number(ranges + i + 4) > 0; i += ENFYS_RESCUE_RANGE_BYTES) {
        size_t start = (size_t)number(ranges + i), end = start + (size_t)number(ranges + i + 4);

        passed += end - start;
        if (end == length && !last) { /* its last 29 bytes, or all of it, may be the front of a record */
            end = end - start < ENFYS_RECORD_BYTES ? start : end - (ENFYS_RECORD_BYTES - 1);
            *decided = end;
        }
        pass(place + start, end - start);
    }
    walk.kept += fwrite(records, ENFYS_RECORD_BYTES, (length - passed) / ENFYS_RECORD_BYTES, kept);
    return ENFYS_OK;
}

/*
 * Walks the image window by window, to its end or to where it cannot be read. 0, or 1 where something could not be read
 * or written: what was rescued before that stays.
 */
static int rescue(FILE *image, const char *image_name, FILE *kept, const char *kept_name)
{
    uint64_t place = 0; /* of the window in the image */
    size_t held = 0;    /* undecided bytes, which are the front of the next window */
    int last = 0, unread = 0;

    while (!last) {
        size_t length = held + fread(window + held, 1, WINDOW - held, image), decided;

        if (ferror(image))
            unread = errno;
        last = length < WINDOW;
        /* A window is never too long, and these buffers are never too short. */
        if (walk_window(place, length, last, kept, &decided) != ENFYS_OK)
            return trouble(image_name, "refused");
        if (ferror(kept))
            return trouble(kept_name, strerror(errno));
        place += decided;
        held = length - decided;
        memmove(window, window + decided, held);
    }
    end_range();
    printf("kept %" PRIu64 " records, passed %" PRIu64 " bytes in %" PRIu64 " ranges\n", walk.kept, walk.passed,
           walk.ranges);
    return unread != 0 ? trouble(image_name, strerror(unread)) : 0;
}

/* Whether a name is that of the open image. Writing there would destroy what is to be rescued. */
static int is_image(FILE *image, const char *name)
{
    struct stat a, b;

    return fstat(fileno(image), &a) == 0 && stat(name, &b) == 0 && a.st_dev == b.st_dev && a.st_ino == b.st_ino;
}

int main(int argc, char **argv)
{
    FILE *image, *kept;
    int status;

    if (argc != 3) {
        fprintf(stderr, "usage: rescue_image IMAGE RECORDS\n");
        return 2;
    }
    image = strcmp(argv[1], "-") == 0 ? stdin : fopen(argv[1], "rb");
    if (image == NULL)
        return trouble(argv[1], strerror(errno));
    if (is_image(image, argv[2]))
        return trouble(argv[2], "this is the image itself");
    kept = fopen(argv[2], "wb");
    if (kept == NULL)
        return trouble(argv[2], strerror(errno));
    status = rescue(image, argv[1], kept, argv[2]);
    if (fclose(kept) != 0 && status == 0)
        status = trouble(argv[2], strerror(errno));
    if ((ferror(stdout) || fclose(stdout) != 0) && status == 0)
        status = trouble("standard output", strerror(errno));
    return status;
}
