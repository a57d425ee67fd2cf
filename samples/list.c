/* Lists a mask through the C interface: its sides, hotspot and ink, or why it is refused.
 *
 * usage: list [FILE]      (standard input if no file is named)
 *
 * gcc -O2 -Wall -Wextra samples/list.c -Lcrates/xbm_c/out -lxbm_c -o list
 */
#include <inttypes.h>
#include <stdint.h>
#include <stdio.h>

#include "../include/xbm.h"

enum { MAX_TEXT = 65536, MAX_CELLS = 65536, MAX_NAME = 256 };

/* Numbers of the refusals that belong to the caller. */
enum { TEXT_TOO_LONG = 41, PICTURE_TOO_LARGE = 42 };

/* Entries of a report. */
enum { BYTE, LINE, COLUMN, WIDTH, HEIGHT, NAME_LENGTH, HAS_HOTSPOT, DATA_BYTE, START, RESERVED, ENTRIES };

/* One byte more than is taken, to see that a text is longer. */
static uint8_t text[MAX_TEXT + 1];
static uint8_t pixels[MAX_CELLS];
static uint8_t name[MAX_NAME];

/* Prints the number and, if one is told, the place. Every told place has a line of at least 1. */
static int refuse(uint32_t number, const uint64_t *report)
{
    printf("refused %" PRIu32, number);
    if (report != NULL && report[LINE] != 0)
        printf(" byte=%" PRIu64 ",line=%" PRIu64 ":col=%" PRIu64 ",start=%" PRIu64,
               report[BYTE], report[LINE], report[COLUMN], report[START]);
    printf("\n");
    return 1;
}

static int list(size_t text_length)
{
    uint64_t report[ENTRIES];
    int32_t hotspot[2];

    uint32_t result = xbm_read_header(text, text_length, name, sizeof name, report, hotspot);
    if (result != 0)
        return refuse(result, report);

    /* Both sides are below 2^32, so the product fits. */
    uint64_t cells = report[WIDTH] * report[HEIGHT];
    if (cells > MAX_CELLS) {
        fprintf(stderr, "list: the picture has more than %d cells\n", MAX_CELLS);
        return refuse(PICTURE_TOO_LARGE, NULL);
    }

    result = xbm_read_image(text, text_length, name, sizeof name, pixels, (size_t)cells,
                            report, hotspot);
    if (result != 0)
        return refuse(result, report);

    unsigned ink = 0;
    for (size_t i = 0; i < cells; i++)
        ink += pixels[i] == 0;

    printf("width %" PRIu64 "\n", report[WIDTH]);
    printf("height %" PRIu64 "\n", report[HEIGHT]);
    if (report[HAS_HOTSPOT] != 0)
        printf("hotspot %" PRId32 " %" PRId32 "\n", hotspot[0], hotspot[1]);
    else
        printf("hotspot none\n");
    printf("ink %u\n", ink);
    return 0;
}

int main(int argc, char **argv)
{
    if (argc > 2) {
        fprintf(stderr, "usage: list [FILE]\n");
        return 2;
    }

    FILE *file = argc == 2 ? fopen(argv[1], "rb") : stdin;
    if (file == NULL) {
        perror(argv[1]);
        return 2;
    }
    size_t length = fread(text, 1, sizeof text, file);
    int failed = ferror(file);
    if (file != stdin)
        fclose(file);
    if (failed) {
        fprintf(stderr, "list: the text could not be read\n");
        return 2;
    }

    if (length > MAX_TEXT) {
        fprintf(stderr, "list: the text has more than %d bytes\n", MAX_TEXT);
        return refuse(TEXT_TOO_LONG, NULL);
    }
    return list(length);
}
