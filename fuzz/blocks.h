/* The calls of blocks. */
#ifndef BLOCKS_H
#define BLOCKS_H

#include "answers.h"
#include "film.h"
#include "lent.h"
#include "taken.h"
#include <string.h>

static int ones(unsigned bits) { return __builtin_popcount(bits); }

/* The parities: how many rows hold an odd number of ones, the last such row, and the columns that hold an even number. */
static int wrong_rows(const uint8_t *rows, size_t length, size_t *row, uint8_t *columns) {
    int n = 0;
    *columns = 255;
    for (size_t i = 0; i < length; i++) {
        *columns ^= rows[i];
        if (ones(rows[i]) & 1)
            n++, *row = i;
    }
    return n;
}

static void block_calls(void) {
    uint8_t count = take(), place = take(), wrong = take(), mask = place & 64 ? 255 : 127;
    size_t length = count < 192 ? 1 + count % 63 : count % 8 == 0 ? 64 + count / 8 % 4 : take_length(9);
    uint8_t *data = malloc(length), *rows = malloc(length + 1);
    for (size_t i = 0; i < length; i++)
        data[i] = take() & mask;
    size_t room = take_length(length + 1);

    uint8_t *out = lend(&output, NULL, room, place);
    uint8_t answer = film_encode_block(lend(&input, data, length, place >> 2), length, out, room);
    gave(ENCODE_BLOCK, answer);
    HOLDS(answer == (length < 1 || length > 63 ? 8 : room != length + 1 ? 5 : !all_below(data, length, 128) ? 2 : 0));
    HOLDS(kept_after(&output, answer == 0 ? room : 0));
    size_t row = 0;
    uint8_t columns;
    int is_even = 0;
    for (size_t i = 0; i <= length; i++)
        rows[i] = i < length ? data[i] : take();
    if (answer == 0) {
        memcpy(rows, bytes_of(&output), length + 1);
        HOLDS(wrong_rows(rows, length + 1, &row, &columns) == 0 && columns == 0);
        for (size_t i = 0; i < length; i++)
            HOLDS((rows[i] & 127) == data[i]);
        /* with the last row inverted every column is even: with up to six wrong bits it is no block */
        is_even = place >> 7;
        if (is_even)
            rows[length] ^= 255;
        for (int i = wrong % (is_even ? 7 : 4); i > 0; i--)
            rows[take() % (length + 1)] ^= (uint8_t)(1 << take() % 8);
    }

    size_t height = take() < 240 ? length + 1 : length;
    room = take_length(height);
    out = lend(&output, NULL, room, place);
    film_block r = film_read_block(lend(&input, rows, height, place >> 2), height, out, room);
    int odd = wrong_rows(rows, height, &row, &columns);
    int faults = odd == 0 && columns == 0 ? 0 : odd == 1 && ones(columns) == 1 ? 1 : 2;
    gave(READ_BLOCK, r.answer);
    if (is_even && height == length + 1)
        HOLDS(r.answer == (room != height ? 5 : 9));
    HOLDS(r.answer == (height < 2 || height > 64 ? 8 : room != height ? 5 : faults > 1 ? 9 : 0));
    HOLDS(r.distance == (r.answer == 0 ? faults : 0) && kept_after(&output, r.answer == 0 ? height : 0));
    if (r.answer == 0) {
        if (faults == 1)
            rows[row] ^= columns;
        HOLDS(memcmp(rows, bytes_of(&output), height) == 0);
    }
    free(data);
    free(rows);
}

#endif
