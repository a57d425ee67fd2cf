/* Rewrites a mask on standard input through the C interface: prints its text in the one layout, or why it is refused.
 *
 * gcc -O2 -Wall -Wextra samples/rewrite.c -Lcrates/xbm_c/out -lxbm_c -o rewrite
 */
#include <inttypes.h>
#include <stdint.h>
#include <stdio.h>
#include <stdlib.h>

#include "../include/xbm.h"

enum { MAX_TEXT = 65536, MAX_CELLS = 65536, MAX_NAME = 256 };

/* Numbers of the refusals that belong to the caller. */
enum { TEXT_TOO_LONG = 41, PICTURE_TOO_LARGE = 42 };

/* Entries of a report. */
enum { BYTE, LINE, COLUMN, WIDTH, HEIGHT, NAME_LENGTH, HAS_HOTSPOT, DATA_BYTE, START, RESERVED, ENTRIES };

/* One byte more than is taken, to see that a text is longer. */
static uint8_t text[MAX_TEXT + 1];
static uint8_t pixels[MAX_CELLS];
static uint8_t name[MAX_NAME];

/* Prints the number and, if one is told, the place. Every told place has a line of at least 1. */
static int refuse(uint32_t number, const uint64_t *report)
{
    printf("refused %" PRIu32, number);
    if (report != NULL && report[LINE] != 0)
        printf(" byte=%" PRIu64 ",line=%" PRIu64 ":col=%" PRIu64 ",start=%" PRIu64,
               report[BYTE], report[LINE], report[COLUMN], report[START]);
    printf("\n");
    return 1;
}

/* A call that is lent no output: its answer must be the number wanted, with a length of 0. */
static void expect(uint32_t wanted, const uint8_t *named, size_t named_length, uint32_t width, uint32_t height,
                   const uint8_t *cells, size_t cells_length)
{
    uint64_t length = 7;
    uint32_t result = xbm_write(named, named_length, width, height, 0, 0, 0, cells, cells_length, NULL, 0, &length);
    if (result != wanted || length != 0) {
        fprintf(stderr, "rewrite: error: %" PRIu32 " and length %" PRIu64 ", not %" PRIu32 " and 0\n", result, length,
                wanted);
        exit(2);
    }
}

/* Null pointers, with lengths of 0. */
static void try_null(void)
{
    const uint8_t blank = ' ', ink = 0, grey = 7;

    expect(51, &blank, 1, 0, 0, NULL, 0);
    expect(52, NULL, 0, 0, 0, NULL, 0);
    expect(52, NULL, 0, 0, 1, NULL, 0);
    expect(52, NULL, 0, 1, 0, NULL, 0);
    expect(53, NULL, 0, 1, 1, NULL, 0);
    expect(53, NULL, 0, UINT32_MAX, UINT32_MAX, &ink, 1);
    expect(54, NULL, 0, 1, 1, &grey, 1);
    expect(55, NULL, 0, 1, 1, &ink, 1);
}

/* With a name buffer of 256 bytes every mask that is read can be written. */
static int rewrite(size_t text_length)
{
    uint64_t report[ENTRIES];
    int32_t hotspot[2];

    uint32_t result = xbm_read_header(text, text_length, name, sizeof name, report, hotspot);
    if (result != 0)
        return refuse(result, report);

    /* Both sides are below 2^32, so the product fits. */
    uint64_t cells = report[WIDTH] * report[HEIGHT];
    if (cells > MAX_CELLS)
        return refuse(PICTURE_TOO_LARGE, NULL);

    result = xbm_read_image(text, text_length, name, sizeof name, pixels, (size_t)cells, report, hotspot);
    if (result != 0)
        return refuse(result, report);

    /* Enough for every text of these sides. */
    uint64_t room = 1539 + 8 * ((report[WIDTH] + 7) / 8) * report[HEIGHT];
    uint8_t *out = malloc((size_t)room);
    if (out == NULL) {
        fprintf(stderr, "rewrite: there is no memory for the text\n");
        return 2;
    }

    uint64_t length;
    result = xbm_write(name, (size_t)report[NAME_LENGTH], (uint32_t)report[WIDTH], (uint32_t)report[HEIGHT],
                       (uint32_t)report[HAS_HOTSPOT], hotspot[0], hotspot[1], pixels, (size_t)cells,
                       out, (size_t)room, &length);
    if (result == 0)
        fwrite(out, 1, (size_t)length, stdout);
    else
        refuse(result, NULL);
    free(out);
    return result == 0 ? 0 : 1;
}

int main(void)
{
    try_null();

    size_t length = fread(text, 1, sizeof text, stdin);
    if (ferror(stdin)) {
        fprintf(stderr, "rewrite: the text could not be read\n");
        return 2;
    }
    if (length > MAX_TEXT)
        return refuse(TEXT_TOO_LONG, NULL);
    return rewrite(length);
}
