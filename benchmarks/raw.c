/* What no drawing can be faster than: the container of 8 by 8 tiles of 256 pixels is written, each tile of the same few
   rows again and again, as often as the first argument says. */
#include <stdint.h>
#include <stdio.h>
#include <stdlib.h>
#include <string.h>

enum { TILES = 8, SIDE = 256, PIXEL = 3, HEAD = 532, ROWS = 8 };

static const char TILE_HEAD[] = "P6\n256 256\n255\n";

int main(int count, char **words) {
    size_t head = sizeof TILE_HEAD - 1, part = ROWS * SIDE * PIXEL, total = HEAD + TILES * TILES * (head + SIDE * SIDE * PIXEL);
    uint8_t *rows = malloc(part), *container = malloc(total);
    long rounds = count > 1 ? atol(words[1]) : 1;
    uint64_t sum = 0;
    if (!rows || !container) return 1;
    memset(rows, 1, part);
    memset(container, 0, total);
    for (long round = 0; round < rounds; round++) {
        uint8_t *out = container + HEAD;
        for (int tile = 0; tile < TILES * TILES; tile++) {
            memcpy(out, TILE_HEAD, head);
            out += head;
            for (int row = 0; row < SIDE; row += ROWS, out += part) memcpy(out, rows, part);
        }
        rows[round % part] ^= 1;
        for (size_t at = 0; at < total; at += 4096) sum += container[at];
    }
    printf("sum %llu\n", (unsigned long long)sum);
    return 0;
}
