/* Draws a character of a PK font as rows of stars and points, and packs it again: draw FONT CODE */
#include <stdio.h>
#include <stdlib.h>

#include "zahrufin.h"

/* A byte more than a font may have: a longer file is refused, and none is cut off. */
static uint8_t font[ZAHRUFIN_FONT_MAX + 1];
static uint8_t pixels[ZAHRUFIN_PIXELS_MAX];
static uint8_t packet[ZAHRUFIN_PACKET_MAX];

/* The bytes of the file, as far as there is room. */
static size_t read_font(const char *path) {
    FILE *file = fopen(path, "rb");
    if (file == NULL) {
        perror(path);
        exit(1);
    }
    size_t n = fread(font, 1, sizeof font, file);
    if (ferror(file)) {
        perror(path);
        exit(1);
    }
    fclose(file);
    return n;
}

/* The pixels as rows of stars and points. */
static void print_rows(int64_t w, int64_t h) {
    for (int64_t row = 0; row < h; row++) {
        for (int64_t column = 0; column < w; column++)
            putchar(pixels[row * w + column] ? '*' : '.');
        putchar('\n');
    }
}

/* Draws the character, packs it again, and says what came of it. */
int main(int argc, char **argv) {
    char *end = NULL;
    uint64_t code = argc == 3 ? strtoull(argv[2], &end, 10) : 0;
    if (argc != 3 || *argv[2] == '\0' || *end != '\0') {
        fprintf(stderr, "usage: draw FONT CODE\n");
        return 2;
    }
    size_t n = read_font(argv[1]);
    zahrufin_drawn drawn = zahrufin_draw(font, n, code, pixels, sizeof pixels);
    if (drawn.refusal != ZAHRUFIN_OK) {
        fprintf(stderr, "refusal %u at %u\n", drawn.refusal, drawn.place);
        return 1;
    }
    zahrufin_measures m = drawn.measures;
    print_rows(m.w, m.h);
    zahrufin_packed packed = zahrufin_pack(pixels, (size_t)(m.w * m.h), m, packet, sizeof packet);
    if (packed.refusal != ZAHRUFIN_OK) {
        fprintf(stderr, "not packed again: refusal %u\n", packed.refusal);
        return 1;
    }
    printf("%u characters, this one of %lld by %lld pixels; packed again it has %u bytes\n", zahrufin_check(font, n).chars, (long long)m.w, (long long)m.h, packed.length);
    return 0;
}
