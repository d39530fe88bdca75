/* Faults of smudges that the fuzz target has to find: those of faults.c that stand between it and film_encode_smudge or film_read_smudge. */
#ifndef SMUDGE_FAULTS_H
#define SMUDGE_FAULTS_H

#include "film.h"
#include <stddef.h>
#include <stdint.h>
#include <string.h>

uint8_t __real_film_encode_smudge(const uint8_t *data, size_t data_len, uint8_t *out, size_t out_len);
film_block __real_film_read_smudge(const uint8_t *rows, size_t rows_len, uint8_t *out, size_t out_len);

/* Rows, and cells of a row; data rows; how far odd rows and columns are turned; the cells of odd columns in a row. */
enum { ROWS = FILM_SMUDGE, DATA = FILM_SMUDGE - 1, TURN = 2, ODD_COLUMNS = 170 };

/* The cells of a window, and its fillings; and what stands in the target's page. */
enum { IN_WINDOW = 4, FILLINGS = 1 << IN_WINDOW, UNTOUCHED = 170 };

static uint8_t turned(uint8_t row, int by) { return (uint8_t)(row << by | row >> (ROWS - by)); }

/* Turns odd rows so far from bit 0, or odd columns so far down, around the edge. */
static void turn_rows(uint8_t *rows, int by) {
    for (int i = 1; i < ROWS; i += 2)
        rows[i] = turned(rows[i], by);
}

static void turn_columns(uint8_t *rows, int by) {
    uint8_t old[ROWS];
    memcpy(old, rows, ROWS);
    for (int i = 0; i < ROWS; i++)
        rows[i] = (uint8_t)((old[i] & ~ODD_COLUMNS) | (old[(i + ROWS - by) % ROWS] & ODD_COLUMNS));
}

static void straighten(uint8_t *rows) {
    turn_columns(rows, ROWS - TURN);
    turn_rows(rows, ROWS - TURN);
}

static void stagger(uint8_t *rows) {
    turn_rows(rows, TURN);
    turn_columns(rows, TURN);
}

/* Whether a search takes rows for a stored block. */
static int is_taken(const uint8_t *rows) {
    uint8_t block[ROWS], columns = 255, odd = 0;
    memcpy(block, rows, ROWS);
    straighten(block);
    for (int i = 0; i < ROWS; i++) {
        columns ^= block[i];
        odd |= __builtin_parity(block[i]);
    }
#if FAULT == 92 /* only the parities of rows are compared */
    columns = 0;
#elif FAULT == 93 /* only the parities of columns are compared */
    odd = 0;
#elif FAULT == 94 /* the columns of bits 6 and 7 are not compared; of one alone the others tell */
    columns &= 63;
#elif FAULT == 95 /* columns are even, as before version 2: dark film is a block */
    columns ^= 255;
#endif
    return odd == 0 && columns == 0;
}

/* The cells that are tried at a window: those of its upper row from the lowest bit on, and eight bits higher those of its lower row. */
static uint16_t filling_of(int n) {
#if FAULT == 96 /* no filling of all four cells is tried */
    n %= FILLINGS - 1;
#elif FAULT == 97 /* a window is one row of four cells */
    return (uint16_t)n;
#elif FAULT == 98 /* a window has no cell in its lower row */
    n &= 3;
#endif
    return (uint16_t)((n & 3) | (n & 12) << 6);
}

/* A search of the windows with something wrong in it. */
__attribute__((unused)) static film_block wrong_search(const uint8_t *rows, uint8_t *out) {
    int starts = ROWS - 1;
#if FAULT == 99 /* windows that go around the edge are tried too */
    starts = ROWS;
#elif FAULT == 100 /* no window that begins at the last row but one, or at the last column but one, is tried */
    starts = ROWS - 2;
#endif
    for (int n = 0; n < starts * starts * FILLINGS; n++) {
        int row = n / FILLINGS / starts, column = n / FILLINGS % starts;
        uint16_t cells = filling_of(n % FILLINGS);
        uint8_t tried[ROWS];
        memcpy(tried, rows, ROWS);
        tried[row] ^= turned((uint8_t)cells, column);
        tried[(row + 1) % ROWS] ^= turned((uint8_t)(cells >> 8), column);
        if (is_taken(tried)) {
            uint8_t distance = 0;
            for (int i = 0; i < ROWS; i++)
                distance += (uint8_t)__builtin_popcount(tried[i] ^ rows[i]);
            memcpy(out, tried, ROWS);
            return (film_block){FILM_DONE, distance};
        }
    }
    return (film_block){FILM_NO_BLOCK, 0};
}

/* Odd rows and even columns are paired off, the first with the first, and no window is asked for. */
__attribute__((unused)) static film_block pair_off(const uint8_t *rows, uint8_t *out) {
    uint8_t block[ROWS], columns = 255, distance = 0;
    memcpy(block, rows, ROWS);
    straighten(block);
    for (int i = 0; i < ROWS; i++)
        columns ^= block[i];
    for (int i = 0; i < ROWS; i++)
        if (__builtin_parity(block[i])) {
            block[i] ^= columns & -columns;
            columns &= columns - 1;
            distance++;
        }
    stagger(block);
    if (distance > IN_WINDOW || !is_taken(block))
        return (film_block){FILM_NO_BLOCK, 0};
    memcpy(out, block, ROWS);
    return (film_block){FILM_DONE, distance};
}

film_block __wrap_film_read_smudge(const uint8_t *rows, size_t rows_len, uint8_t *out, size_t out_len) {
    __attribute__((unused)) uint8_t block[ROWS];
#if FAULT == 101 /* one byte too many is read of the rows */
    if (rows_len != 0)
        (void)((const volatile uint8_t *)rows)[rows_len];
#elif FAULT == 102 /* rows after the eighth are passed over */
    if (rows_len > ROWS)
        rows_len = ROWS;
#elif FAULT == 103 /* the output's length comes before the count of rows */
    if (out_len != ROWS)
        return (film_block){FILM_OUTPUT_LENGTH, 0};
#elif FAULT == 104 /* that there is no block comes before the output's length */
    if (rows_len == ROWS && __real_film_read_smudge(rows, ROWS, block, ROWS).answer == FILM_NO_BLOCK)
        return (film_block){FILM_NO_BLOCK, 0};
#elif FAULT == 105 /* a longer output is taken */
    if (out_len > ROWS)
        out_len = ROWS;
#endif
    film_block r = __real_film_read_smudge(rows, rows_len, out, out_len);
#if FAULT >= 92 && FAULT <= 100
    if (r.answer == FILM_DONE || r.answer == FILM_NO_BLOCK) {
        memset(out, UNTOUCHED, ROWS);
        r = wrong_search(rows, out);
    }
#elif FAULT == 106 /* the distance is that of all cells of the window */
    r.distance = r.distance == 0 ? 0 : IN_WINDOW;
#elif FAULT == 107 /* the distance is one too high */
    r.distance += r.answer == FILM_DONE;
#elif FAULT == 108 /* a refusal tells a distance */
    r.distance += r.answer == FILM_NO_BLOCK;
#elif FAULT == 109 /* where there is no block the rows are written as they are, and refused */
    if (r.answer == FILM_NO_BLOCK)
        memcpy(out, rows, ROWS);
#elif FAULT == 110 /* the rows are written as they are, though they are to be mended */
    if (r.answer == FILM_DONE)
        memcpy(out, rows, ROWS);
#elif FAULT == 111 /* the window beside the right one is mended */
    for (int i = 0; r.answer == FILM_DONE && i < ROWS; i++)
        out[i] = rows[i] ^ (uint8_t)((rows[i] ^ out[i]) << 1);
#elif FAULT == 112 /* the block is written straightened */
    if (r.answer == FILM_DONE)
        straighten(out);
#elif FAULT == 113 /* a wrong cell at the last place, which one window alone has, is not found */
    if (r.answer == FILM_DONE && r.distance == 1 && (rows[ROWS - 1] ^ out[ROWS - 1]) == 128) {
        memset(out, UNTOUCHED, ROWS);
        r = (film_block){FILM_NO_BLOCK, 0};
    }
#elif FAULT == 114 /* up to four wrong cells are mended wherever they lie */
    if (r.answer == FILM_NO_BLOCK)
        r = pair_off(rows, out);
#endif
    return r;
}

uint8_t __wrap_film_encode_smudge(const uint8_t *data, size_t data_len, uint8_t *out, size_t out_len) {
    __attribute__((unused)) uint8_t seen[DATA];
#if FAULT == 115 /* one byte too many is read of the data */
    if (data_len != 0)
        (void)((const volatile uint8_t *)data)[data_len];
#elif FAULT == 116 /* rows after the seventh are passed over */
    if (data_len > DATA)
        data_len = DATA;
#elif FAULT == 117 /* the output's length comes before the count of data rows */
    if (out_len != ROWS)
        return FILM_OUTPUT_LENGTH;
#elif FAULT == 118 /* a longer output is taken */
    if (out_len > ROWS)
        out_len = ROWS;
#elif FAULT == 119 /* a data row over 127 comes before the output's length */
    for (size_t i = 0; data_len == DATA && i < DATA; i++)
        if (data[i] > 127)
            return FILM_VALUE_OVER;
#elif FAULT == 120 || FAULT == 121 /* a data row of 128 is taken; whether the last one is over 127 is not looked at */
    if (data_len == DATA) {
        memcpy(seen, data, DATA);
        for (int i = 0; i < DATA; i++)
            seen[i] &= (FAULT == 120 ? data[i] == 128 : i == DATA - 1) ? 127 : 255;
        data = seen;
    }
#endif
    uint8_t answer = __real_film_encode_smudge(data, data_len, out, out_len);
#if FAULT >= 122 && FAULT <= 127
    if (answer != FILM_DONE)
        return answer;
    film_encode_block(data, DATA, out, ROWS);
#if FAULT == 122 /* odd rows are turned toward bit 0, and odd columns upward */
    turn_rows(out, ROWS - TURN), turn_columns(out, ROWS - TURN);
#elif FAULT == 123 /* odd rows and columns are turned by one */
    turn_rows(out, 1), turn_columns(out, 1);
#elif FAULT == 124 /* odd rows alone are turned the other way */
    turn_rows(out, ROWS - TURN), turn_columns(out, TURN);
#elif FAULT == 125 /* rows are not turned */
    turn_columns(out, TURN);
#elif FAULT == 126 /* columns are not turned */
    turn_rows(out, TURN);
#elif FAULT == 127 /* columns are even, as before version 2 */
    out[ROWS - 1] ^= 255;
    stagger(out);
#endif
#elif FAULT == 128 /* the rows before one over 127 are written */
    for (int i = 0; answer == FILM_VALUE_OVER && data[i] < 128; i++)
        out[i] = data[i];
#endif
    return answer;
}

#endif
