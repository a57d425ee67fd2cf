/* Reads the data bytes of a mask on standard input through the C interface, one a call, and tells after each where the decoder stands.
 *
 * gcc -O2 -Wall -Wextra samples/bytes.c -Lcrates/xbm_c/out -lxbm_c -o bytes
 */
#include <inttypes.h>
#include <stdint.h>
#include <stdio.h>

#include "../include/xbm.h"

enum { MAX_TEXT = 65536, MAX_NAME = 256 };

/* Entries of a report. */
enum { BYTE, LINE, COLUMN, WIDTH, HEIGHT, NAME_LENGTH, HAS_HOTSPOT, DATA_BYTE, START, RESERVED, ENTRIES };

/* What the data byte's entry holds when none is left. */
enum { NONE_LEFT = 256 };

static uint8_t text[MAX_TEXT];
static uint8_t name[MAX_NAME];

static void print_place(const uint64_t *report)
{
    printf(" byte=%" PRIu64 ",line=%" PRIu64 ":col=%" PRIu64 ",start=%" PRIu64 "\n",
           report[BYTE], report[LINE], report[COLUMN], report[START]);
}

int main(void)
{
    size_t length = fread(text, 1, sizeof text, stdin);
    uint64_t report[ENTRIES];
    int32_t hotspot[2];

    uint32_t result = xbm_read_header(text, length, name, sizeof name, report, hotspot);
    if (result != 0) {
        printf("refused %" PRIu32 "\n", result);
        return 1;
    }

    /* The decoder begins where the header ends. */
    XbmStreamDecoder decoder = {
        .width = (uint32_t)report[WIDTH],
        .height = (uint32_t)report[HEIGHT],
        .current_position = 0,
        .location = { .byte = report[BYTE], .line = report[LINE], .column = report[COLUMN], .start = report[START] },
    };
    for (;;) {
        result = xbm_next_byte(text, length, &decoder, report);
        if (result != 0) {
            printf("refused %" PRIu32, result);
            print_place(report);
            return 1;
        }
        if (report[DATA_BYTE] == NONE_LEFT)
            break;
        printf("0x%02" PRIx64, report[DATA_BYTE]);
        print_place(report);
    }
    printf("end");
    print_place(report);
    return 0;
}
