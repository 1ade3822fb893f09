/* zahrufin: check, draw and pack PK fonts (document 01). Link target/staticlib/libzahrufin.a, which tools/staticlib makes.
 * It is built for x86-64: System V calling convention with its red zone, SSE2, position independent; it needs less than 6 KiB of stack
 * (measured, not proved).
 *
 * Every call takes any bytes, any numbers and any lengths, ends, allocates nothing, keeps no pointer, calls nothing but memcpy and memset,
 * which the program that links it must have, and has no state: calls from several threads do not disturb one another. What each answers is
 * proved; docs/TRUST.md says what that rests on.
 *
 * What the caller owes: a pointer is not NULL, also where its length is 0; as many bytes as the length says can be read there, and in a
 * buffer written; nobody else writes to them during the call, or reads a buffer that is written; and such a buffer overlaps nothing else
 * handed in. No alignment is asked.
 *
 * A refusal is a number of document 01's table, below. A refusal leaves the buffer as it was. Fields that an answer does not use are 0.
 */
#ifndef ZAHRUFIN_H
#define ZAHRUFIN_H

#include <stddef.h>
#include <stdint.h>

#ifdef __cplusplus
extern "C" {
#endif

/* The refusals, in document 01's words. `place` counts bytes from the font's first, which is 0: the start of the piece at fault (the font's
 * length, if it ends where a piece must begin), the 245 for 14 and 15, and 0 where the table names none. The limits: w and h both 0, or both at
 * least 1 with w * h at most 65,536. The font is read from the front, and the first fault met is the one given. Drawing: 1 to 15, then 16,
 * then 17. Packing: 18, 19, 8, 20, 17. */
enum {
    ZAHRUFIN_OK = 0,
    ZAHRUFIN_TOO_LONG = 1,                /* font longer than 65,536 bytes */
    ZAHRUFIN_NO_PREAMBLE = 2,             /* font empty, or first byte not 247 */
    ZAHRUFIN_WRONG_ID = 3,                /* second byte present and not 89 */
    ZAHRUFIN_FILE_ENDS = 4,               /* file ends inside a piece, or where a piece must begin: piece start */
    ZAHRUFIN_NO_PIECE = 5,                /* byte 247 to 255 where a command or packet begins: piece start */
    ZAHRUFIN_BAD_LENGTH = 6,              /* command length negative; packet length negative or below its own fixed fields: piece start */
    ZAHRUFIN_OUTSIDE_LIMITS = 7,          /* w, h outside the limits: piece start */
    ZAHRUFIN_BAD_CODE = 8,                /* code in a packet, or handed in for packing, outside 0 to 255: piece start; packing 0 */
    ZAHRUFIN_CODE_TWICE = 9,              /* code seen in an earlier packet: piece start */
    ZAHRUFIN_RASTER_ENDS = 10,            /* raster data ends while a nybble or bit is needed: piece start */
    ZAHRUFIN_TOO_MANY = 11,               /* a run longer than the pixels left, or a repeat larger than the rows after the current one: piece start */
    ZAHRUFIN_SECOND_REPEAT = 12,          /* a second repeat for one row: piece start */
    ZAHRUFIN_LEFT_OVER = 13,              /* raster bytes left over, or spare nybble or bits not zero: piece start */
    ZAHRUFIN_BAD_ENDING = 14,             /* after 245 a byte other than 246, or file length no multiple of four: the 245 */
    ZAHRUFIN_NO_PACKET = 15,              /* 245 reached with no packet before it: the 245 */
    ZAHRUFIN_NO_SUCH_CODE = 16,           /* accepted font lacks the code asked for (any code above 255 too) */
    ZAHRUFIN_NO_ROOM = 17,                /* lent buffer too short for the result */
    ZAHRUFIN_BITMAP_OUTSIDE_LIMITS = 18,  /* packing: w, h outside the limits */
    ZAHRUFIN_BAD_BITMAP = 19,             /* packing: bitmap length not w * h, or a byte other than 0 or 1 */
    ZAHRUFIN_NO_FORM = 20                 /* packing: measures that no packet form holds */
};

/* Held by some form are: tfm, dx, dy, hoff and voff of 32 bits with their sign; or dy 0 and dx of 0 to 65,535 whole pixels, with tfm of 0 to
 * 2^24 - 1, w and h up to 65,535, hoff and voff of 16 bits with their sign. */

/* Longest font, most pixels of a character, longest packet that packing writes. */
#define ZAHRUFIN_FONT_MAX 65536
#define ZAHRUFIN_PIXELS_MAX 65536
#define ZAHRUFIN_PACKET_MAX 8229

/* What is said of a character: its code; width and height in pixels; TFM width, as the font holds it, passed on and never used; horizontal and vertical
 * escapement in pixels times 65,536, with the font's sign; the way from the upper left pixel to the reference pixel, in pixels, right and down positive. */
typedef struct {
    int64_t code, w, h, tfm, dx, dy, hoff, voff;
} zahrufin_measures;

/* refusal 0: accepted, with the number of characters. */
typedef struct {
    uint32_t refusal, place, chars;
} zahrufin_checked;

/* refusal 0: drawn, with the measures. */
typedef struct {
    uint32_t refusal, place;
    zahrufin_measures measures;
} zahrufin_drawn;

/* refusal 0: packed, with the packet's length in bytes. */
typedef struct {
    uint32_t refusal, place, length;
} zahrufin_packed;

/* The layout that the archive has. */
#if defined(__STDC_VERSION__) && __STDC_VERSION__ >= 201112L
_Static_assert(sizeof(zahrufin_measures) == 64 && sizeof(zahrufin_checked) == 12, "no other layout is served");
_Static_assert(sizeof(zahrufin_drawn) == 72 && sizeof(zahrufin_packed) == 12, "no other layout is served");
#endif

/* Checks a whole font: the number of its characters, or refusal 1 to 15. */
zahrufin_checked zahrufin_check(const uint8_t *font, size_t font_len);

/* Draws a code of a font, which is checked first: the measures, with the pixels in the first w * h bytes, a byte to each pixel, 0 white and
 * 1 black, rows from the top, left to right, no gaps; bytes beyond stay. Or refusal 1 to 17. A buffer of 65,536 bytes has room for each.
 * Each drawing checks the whole font anew: its time grows with the font (docs/SPEED.md). */
zahrufin_drawn zahrufin_draw(const uint8_t *font, size_t font_len, uint64_t code, uint8_t *pixels, size_t pixels_len);

/* Packs a bitmap of w * h such pixels: the packet's length, flag included, with the packet in as many bytes; bytes beyond stay. Or refusal
 * 8, 17, 18, 19 or 20. A buffer of 8,229 bytes has room for each. */
zahrufin_packed zahrufin_pack(const uint8_t *bitmap, size_t bitmap_len, zahrufin_measures measures, uint8_t *packet, size_t packet_len);

#ifdef __cplusplus
}
#endif

#endif
