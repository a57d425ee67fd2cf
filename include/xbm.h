/* Reading XBM masks held in memory: the header, one data byte at a time, or the whole picture. And writing them.
 *
 * Every call takes any text, any mask and any buffers, of any length. Nothing outside the lent memory is read or
 * written, and every call returns.
 *
 * What the caller keeps while a call runs:
 *   - `text` and `cells` can be read for their lengths; `name`, `pixels` and `out` can be read and written for theirs.
 *     xbm_write only reads its `name`. With a length of 0 the pointer is not used: it may be null.
 *   - `report` has room for ten uint64_t, `hotspot` for two int32_t, `length` points to one uint64_t and `decoder` to
 *     one struct. None of them may be null, and each is aligned as its type is (as every object of that type is).
 *   - No two of the lent objects overlap: text, name, pixels, report, hotspot, decoder, cells, out, length.
 *   - No other thread writes any of them, or reads those that the call may write.
 * Nothing else is presumed. The text, a mask's name and its cells may hold any bytes and need not end in 0, the decoder
 * any numbers; what stands in what a call writes does not change what is told. Nothing is kept between calls and no
 * memory is allocated, so calls may come in any order, and at the same time on different memory.
 *
 * A result of 0 means accepted. Any other result is the number of a refusal:
 *   1 width line, 2 height line, 3 hotspot x line, 4 hotspot y line, 5 array line,
 *   6 data bytes, 7 trailer up to `;`, 8 bytes after `;`          (these tell a place)
 *   9 a decoder whose numbers no header of this text gave
 *   111 to 114 width, 121 to 124 height, 131 to 134 x, 141 to 144 y: the token is no integer in range. The last
 *   digit is the first of these faults that it has; a leading `-` of x or y stands aside in the first three:
 *     1 nothing there
 *     2 a leading zero, with any byte behind it
 *     3 a byte that is no digit
 *     4 too large or too small: a side is at most 4294967295, x and y are from -2147483648 to 2147483647
 *   21, 22 width, height is zero
 *   31 the pixel buffer's whole rows are not the picture's
 *   51 to 55 a mask is not written, for the first of these reasons:
 *     51 its name has more than 250 bytes, or holds a space, a tab or a newline
 *     52 its width or height is zero
 *     53 it has not width times height cells
 *     54 a cell is neither 0 nor 255
 *     55 the output is too short for its text
 *
 * All ten entries of `report` and both of `hotspot` are written at every call that is lent them:
 *   report[0], [1], [2]  the place told: byte, line, column; all 0 where none is told
 *   report[3], [4]       width, height of an accepted header or picture, else 0
 *   report[5]            the length of the name, which stands at the start of the name buffer;
 *                        0 if the header is refused
 *   report[6]            1 if an accepted header or picture has a hotspot, else 0
 *   report[7]            xbm_next_byte: the data byte, or 256 when none is left; else 0
 *   report[8]            the place told: the count of bytes at which its line starts; 0 where none is told
 *   report[9]            always 0, kept for later use
 *   hotspot[0], [1]      x, y of the hotspot, or 0, 0 where report[6] is 0
 */
#ifndef XBM_H
#define XBM_H

#include <stddef.h>
#include <stdint.h>

#ifdef __cplusplus
extern "C" {
#endif

/* A place in a text: the count of bytes taken, the line from 1, the column from 0, and the count of bytes at which
 * its line starts. That count is 0 at first and, after a newline, the count up to and including it: byte - column. */
typedef struct XbmTextLocation {
    uint64_t byte;
    uint64_t line;
    uint64_t column;
    uint64_t start;
} XbmTextLocation;

/* A decoder: the sides, how many data bytes were asked for, the place in the text. It does not hold the text. */
typedef struct XbmStreamDecoder {
    uint32_t width;
    uint32_t height;
    uint64_t current_position;
    XbmTextLocation location;
} XbmStreamDecoder;

/* Reads the header, up to and including the opening brace.
 * The width's symbol is stored at the start of `name` as far as it was read, the rest of `name` stays as lent;
 * `name_len` is the longest symbol that passes. An accepted header tells the place after the brace. */
uint32_t xbm_read_header(const uint8_t *text, size_t text_len,
                         uint8_t *name, size_t name_len,
                         uint64_t report[10], int32_t hotspot[2]);

/* Gives the next data byte of the text, or reads the trailer after the last one, and changes the decoder.
 * A data byte is counted before it is read, so a refused call has spent it and later calls go on from the
 * place told. To start, fill the decoder from the report of an accepted xbm_read_header: width from report[3], height
 * from [4], current_position 0, and in location byte from [0], line from [1], column from [2], start from [8].
 * A foreign decoder gets 9 and stays unchanged: one with numbers that no header of this text gave, such as a start
 * that is not byte - column. */
uint32_t xbm_next_byte(const uint8_t *text, size_t text_len,
                       XbmStreamDecoder *decoder,
                       uint64_t report[10]);

/* Reads the whole picture: the header, then `pixels_len / width` rows of `width` cells; a set bit gives 0, any other 255.
 * A refused header touches no cell. A later refusal leaves the cells of every data byte read so far, where they fall
 * in a whole row of the buffer, as decoded, and the rest as lent. Cells past the last whole row are never touched.
 * 31 comes only after the next data byte was read (too few rows) or after a sound trailer (too many rows). */
uint32_t xbm_read_image(const uint8_t *text, size_t text_len,
                        uint8_t *name, size_t name_len,
                        uint8_t *pixels, size_t pixels_len,
                        uint64_t report[10], int32_t hotspot[2]);

/* Writes a mask as a text to the start of `out`. The cells stand in rows of `width`, 0 for a set bit and 255 for any
 * other, as xbm_read_image gives them. With a `has_hotspot` of 0 the mask has no hotspot, whatever x and y are; any
 * other `has_hotspot` counts as 1, and the hotspot is x, y.
 * `length` is written at every call: the text's length, or 0 if the call is refused. Past the text `out` is as lent; a
 * refused call leaves all of it untouched. The text does not end in 0.
 * An `out_len` of 1539 + 8 * ((width + 7) / 8) * height, which fits in uint64_t, is enough for every text. */
uint32_t xbm_write(const uint8_t *name, size_t name_len,
                   uint32_t width, uint32_t height,
                   uint32_t has_hotspot, int32_t x, int32_t y,
                   const uint8_t *cells, size_t cells_len,
                   uint8_t *out, size_t out_len,
                   uint64_t *length);

#ifdef __cplusplus
}
#endif

#endif
