/* The calls of blocks that outlast a smudge. Cells are moved one by one, and what a reading has to give is looked for in every window, with every filling. */
#ifndef SMUDGE_H
#define SMUDGE_H

#include "answers.h"
#include "blocks.h"
#include "film.h"
#include "lent.h"
#include "rules.h"
#include "taken.h"
#include <stddef.h>
#include <stdint.h>
#include <string.h>

/* ---- The rules. */

/* A block has as many rows as it has columns. The cells of odd columns and of odd rows move by STAGGER. */
enum { SIDE = FILM_SMUDGE, CELLS = SIDE * SIDE, DATA_ROWS = SIDE - 1, STAGGER = 2 };

/* A window is two by two cells. It begins at any row but the last, and at any column but the last. */
enum { STARTS = SIDE - 1, WINDOWS = STARTS * STARTS, IN_WINDOW = 4, FILLINGS = 1 << IN_WINDOW };

typedef struct {
    int row, column;
} cell;

static cell nth_cell(int n) { return (cell){n / SIDE, n % SIDE}; }
static cell nth_window(int n) { return (cell){n / STARTS, n % STARTS}; }

/* One of the four cells of the window that begins at a cell; around the edge where that goes there. */
static cell in_window(cell first, int n) { return (cell){(first.row + n / 2) % SIDE, (first.column + n % 2) % SIDE}; }

/* Where a cell comes to when the block is straightened. */
static cell moved(cell c) {
    if (c.column % 2 == 1)
        c.row = (c.row + SIDE - STAGGER) % SIDE;
    if (c.row % 2 == 1)
        c.column = (c.column + SIDE - STAGGER) % SIDE;
    return c;
}

static void invert(uint8_t *rows, cell c) { rows[c.row] ^= (uint8_t)(1 << c.column); }

/* Inverts those cells of a window that a filling has a one for. */
static void smudge(uint8_t *rows, cell first, int filling) {
    for (int n = 0; n < IN_WINDOW; n++)
        if (filling >> n & 1)
            invert(rows, in_window(first, n));
}

UNTRACED static void straighten(const uint8_t *rows, uint8_t *straight) {
    memset(straight, 0, SIDE);
    for (int n = 0; n < CELLS; n++)
        if (rows[n / SIDE] >> n % SIDE & 1)
            invert(straight, moved(nth_cell(n)));
}

/* Whether every row is even, and every column odd. */
UNTRACED static int is_block(const uint8_t *straight) {
    uint8_t columns = 0;
    for (int i = 0; i < SIDE; i++) {
        if (ones(straight[i]) % 2 == 1)
            return 0;
        columns ^= straight[i];
    }
    return columns == 255;
}

/* Whether a window serves, and the block that it gives: where more than one does, all have to give the same. */
UNTRACED static int find_block(const uint8_t *rows, uint8_t *block) {
    uint8_t straight[SIDE], tried[SIDE];
    int found = 0;
    straighten(rows, straight);
    for (int n = 0; n < WINDOWS * FILLINGS; n++) {
        cell first = nth_window(n / FILLINGS);
        memcpy(tried, straight, SIDE);
        for (int k = 0; k < IN_WINDOW; k++)
            if (n >> k & 1)
                invert(tried, moved(in_window(first, k)));
        if (is_block(tried)) {
            memcpy(tried, rows, SIDE);
            smudge(tried, first, n % FILLINGS);
            HOLDS(!found || memcmp(tried, block, SIDE) == 0);
            memcpy(block, tried, SIDE);
            found = 1;
        }
    }
    return found;
}

static int bits_between(const uint8_t *one, const uint8_t *other) {
    int n = 0;
    for (int i = 0; i < SIDE; i++)
        n += ones(one[i] ^ other[i]);
    return n;
}

/* Whether two blocks differ in two rows at most, one after the other, and there in two columns at most, side by side. */
static int differ_in_window(const uint8_t *one, const uint8_t *other) {
    int i = 0;
    while (i < DATA_ROWS - 1 && one[i] == other[i])
        i++;
    unsigned columns = (one[i] ^ other[i]) | (one[i + 1] ^ other[i + 1]);
    return memcmp(one + i + 2, other + i + 2, SIDE - 2 - (size_t)i) == 0 && (columns == 0 || columns >> __builtin_ctz(columns) < 4);
}

/* ---- Damage. */

static cell take_window(void) { return nth_window(take() % WINDOWS); }

/* A window that goes around the edge. */
static cell take_edge_window(void) {
    int n = take() % (2 * SIDE - 1);
    return n < SIDE ? (cell){SIDE - 1, n} : (cell){n - SIDE, SIDE - 1};
}

/* Inverts the cell that comes to a row and a column. */
UNTRACED static void invert_straight(uint8_t *rows, int row, int column) {
    for (int n = 0; n < CELLS; n++)
        if (moved(nth_cell(n)).row == row && moved(nth_cell(n)).column == column)
            invert(rows, nth_cell(n));
}

/* Turns the parities of rows that one window would, and those of columns that another would. */
static void cross(uint8_t *rows, cell one, cell other, int filling) {
    for (int n = 0; n < IN_WINDOW; n++)
        if (filling >> n & 1)
            invert_straight(rows, moved(in_window(one, n)).row, moved(in_window(other, n)).column);
}

/* Inverts the last row of the straightened block: so every column is even, and all four cells of one window then turn what those of another would turn. */
static void make_even(uint8_t *rows) {
    for (int column = 0; column < SIDE; column++)
        invert_straight(rows, SIDE - 1, column);
}

/* A smudge in one window or in two, one around the edge, any cells, two windows crossed, or even columns and a smudge. */
static void damage(uint8_t *rows) {
    uint8_t shape = take(), filling = take();
    switch (shape % 8) {
    default:
        smudge(rows, take_window(), filling % FILLINGS);
        break;
    case 1:
        smudge(rows, take_window(), filling % FILLINGS);
        smudge(rows, take_window(), filling / FILLINGS);
        break;
    case 2:
        smudge(rows, take_edge_window(), filling % FILLINGS);
        break;
    case 3:
        for (int n = 1 + filling % SIDE; n > 0; n--)
            invert(rows, nth_cell(take() % CELLS));
        break;
    case 4: {
        cell one = take_window();
        cross(rows, one, take_window(), filling % FILLINGS);
        break;
    }
    case 5:
        make_even(rows);
        smudge(rows, take_window(), filling % FILLINGS);
    }
}

/* ---- The calls. */

/* Encodes data of any length into room of any length, and gives whether that is done: then the rows get what was written. */
static int encode_smudge(const uint8_t *data, size_t length, size_t room, int place, uint8_t *rows) {
    uint8_t straight[SIDE], block[SIDE], *out = lend(&output, NULL, room, place);
    uint8_t answer = film_encode_smudge(lend(&input, data, length, place >> 2), length, out, room);
    gave(ENCODE_SMUDGE, answer);
    HOLDS(answer == (length != DATA_ROWS ? 8 : room != SIDE ? 5 : !all_below(data, DATA_ROWS, 128) ? 2 : 0));
    HOLDS(kept_after(&output, answer == 0 ? SIDE : 0));
    if (answer != 0)
        return 0;
    memcpy(rows, bytes_of(&output), SIDE);
    straighten(rows, straight);
    HOLDS(is_block(straight));
    for (int i = 0; i < DATA_ROWS; i++)
        HOLDS((straight[i] & 127) == data[i]);
    HOLDS(film_encode_block(data, DATA_ROWS, block, SIDE) == 0 && memcmp(straight, block, SIDE) == 0);
    return 1;
}

/* Reads rows of any length into room of any length; where a block is read, `block` gets it. */
static film_block read_smudge(const uint8_t *rows, size_t length, size_t room, int place, uint8_t *block) {
    uint8_t *out = lend(&output, NULL, room, place);
    film_block r = film_read_smudge(lend(&input, rows, length, place >> 2), length, out, room);
    gave(READ_SMUDGE, r.answer);
    HOLDS(r.answer == (length != SIDE ? 8 : room != SIDE ? 5 : !find_block(rows, block) ? 9 : 0));
    HOLDS(kept_after(&output, r.answer == 0 ? SIDE : 0));
    HOLDS(r.distance == (r.answer == 0 ? bits_between(rows, block) : 0));
    if (r.answer == 0) {
        gave(DISTANCE_OF_SMUDGE, r.distance);
        HOLDS(memcmp(bytes_of(&output), block, SIDE) == 0 && differ_in_window(rows, block));
    }
    return r;
}

/* What was encoded is read as it stands, and then damaged; where nothing was, any rows are read. At times one data row is set to anything. */
static void smudge_calls(void) {
    uint8_t data[LONGEST] = {0}, rows[LONGEST] = {0}, encoded[SIDE], read[SIDE], place = take(), poke = take(), mask = place & 64 ? 255 : 127;
    size_t length = take_length(DATA_ROWS), room = take_length(SIDE);
    for (int i = 0; i < SIDE; i++)
        data[i] = take() & mask;
    if (poke > 191)
        data[poke % DATA_ROWS] = poke & 32 ? 128 : take();
    int is_encoded = encode_smudge(data, length, room, place, rows);
    if (is_encoded) {
        film_block same = read_smudge(rows, SIDE, SIDE, place, read);
        HOLDS(same.answer == 0 && same.distance == 0 && memcmp(read, rows, SIDE) == 0);
        memcpy(encoded, rows, SIDE);
        damage(rows);
    } else
        for (int i = 0; i < SIDE; i++)
            rows[i] = take();

    length = take_length(SIDE), room = take_length(SIDE);
    film_block r = read_smudge(rows, length, room, place, read);
    if (is_encoded && length == SIDE && room == SIDE && differ_in_window(rows, encoded))
        HOLDS(r.answer == 0 && memcmp(read, encoded, SIDE) == 0);
}

#endif
