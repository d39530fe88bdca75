/* The calls of how clear a scan is. Sums come from how far apart each two of its cells are, and a double is held to its fraction by whole numbers alone. */
#ifndef CLARITY_H
#define CLARITY_H

#include "answers.h"
#include "dust.h"
#include "film.h"
#include "lent.h"
#include "rules.h"
#include "spool.h"
#include "taken.h"
#include <stddef.h>
#include <stdint.h>
#include <stdlib.h>
#include <string.h>

/* ---- The rules. */

enum { BRIGHTEST = 255, BRIGHTNESSES = BRIGHTEST + 1 };

/* A side of a scan, the dark cells or the bright ones: how many brightnesses it has, its cells, and their sum. */
typedef struct {
    uint64_t brightnesses, cells, sum;
} one_side;

/* Both sides, and how many cells have each brightness. */
typedef struct {
    uint64_t having[BRIGHTNESSES];
    one_side dark, bright;
} two_sides;

UNTRACED static two_sides sides_of(const uint8_t *cells, uint8_t threshold) {
    two_sides both = {{0}, {0, 0, 0}, {0, 0, 0}};
    for (int i = 0; i < FILM_CELLS; i++)
        both.having[cells[i]]++;
    for (uint64_t b = 0; b < BRIGHTNESSES; b++) {
        one_side *own = b < threshold ? &both.dark : &both.bright;
        own->brightnesses += both.having[b] != 0;
        own->cells += both.having[b];
        own->sum += both.having[b] * b;
    }
    return both;
}

/* How far each two cells with brightnesses from one to another are apart, squared and summed up: their count times their sum of squares, less the square of
 * their sum. */
UNTRACED static uint64_t squares_apart(const two_sides *both, uint64_t from, uint64_t to) {
    uint64_t sum = 0;
    for (uint64_t b = from; b < to; b++)
        for (uint64_t darker = from; both->having[b] != 0 && darker < b; darker++)
            sum += both->having[b] * both->having[darker] * (b - darker) * (b - darker);
    return sum;
}

/* How far each bright cell is from each dark one, summed up. */
UNTRACED static uint64_t sum_apart(const two_sides *both, uint64_t threshold) {
    uint64_t sum = 0;
    for (uint64_t b = threshold; b < BRIGHTNESSES; b++)
        for (uint64_t darker = 0; both->having[b] != 0 && darker < threshold; darker++)
            sum += both->having[b] * both->having[darker] * (b - darker);
    return sum;
}

/* The answer that is due for a scan's cells, and the kind that is due where that is 0. */
static int due_of(const two_sides *both) { return both->dark.cells == 0 || both->bright.cells == 0 ? 20 : 0; }
static int kind_of(const two_sides *both) { return both->dark.brightnesses == 1 && both->bright.brightnesses == 1; }

static uint64_t bits_of(double x) {
    uint64_t bits;
    memcpy(&bits, &x, sizeof bits);
    return bits;
}

/* Of a double: the bits of its mantissa after the first, which is not written, and what is written for the exponent 0. And a number that is wide enough to hold
 * it to its fraction, with its bits. */
enum { MANTISSA_BITS = 52, EXPONENT_0 = 1023, WIDE_BITS = 128 };
typedef unsigned __int128 wide;

/* Whether a double is the nearest to a fraction, an even one where two are as near: the fraction lies between the middles to the doubles on either side, or is
 * one of these where the mantissa is even. They are told in quarters of the last bit, since below a power of two the next double is half as far. */
UNTRACED static int is_nearest(double given, uint64_t over, uint64_t under) {
    uint64_t bits = bits_of(given), first = UINT64_C(1) << MANTISSA_BITS, mantissa = first + bits % first;
    int up = EXPONENT_0 + MANTISSA_BITS + 2 - (int)(bits >> MANTISSA_BITS);
    if (over == 0)
        return bits == 0;
    if (up < 0 || up >= WIDE_BITS)
        return 0;
    wide quarters = (wide)over << up, least = (wide)under * (4 * mantissa - (mantissa == first ? 1 : 2)), most = (wide)under * (4 * mantissa + 2);
    if (quarters >> up != over) /* it is far too small */
        return 0;
    return mantissa % 2 == 0 ? least <= quarters && quarters <= most : least < quarters && quarters < most;
}

static int is_mean(double given, const one_side *of) { return is_nearest(given, of->sum, of->cells); }

/* Whether a ratio is that of two sides: both numbers of the fraction are such as a double holds. */
static int is_ratio(double given, const two_sides *both, uint8_t threshold) {
    uint64_t dark = both->dark.cells, bright = both->bright.cells, apart = sum_apart(both, threshold), over = apart * apart;
    uint64_t under = bright * bright * squares_apart(both, 0, threshold) + dark * dark * squares_apart(both, threshold, BRIGHTNESSES);
    HOLDS(over != 0 && under != 0 && (over | under) >> (MANTISSA_BITS + 1) == 0);
    return given > 0 && is_nearest(given, over, under);
}

static int same_ratio(const film_scan *one, const film_scan *other) {
    return one->answer == other->answer && one->kind == other->kind && bits_of(one->ratio) == bits_of(other->ratio);
}

static int same_scan(const film_scan *one, const film_scan *other) {
    return same_ratio(one, other) && bits_of(one->dark) == bits_of(other->dark) && bits_of(one->bright) == bits_of(other->bright);
}

/* ---- What is scanned. */

enum { MOST_FEW = 12 };

/* Any brightness, one near the threshold, or the least or the most. */
static uint8_t take_brightness(uint8_t threshold) {
    uint8_t how = take();
    return how < 128 ? take() : how < 224 ? (uint8_t)(threshold - 2 + how % 4) : how & 1 ? 0 : BRIGHTEST;
}

/* Two bells, each with its middle and its width; how many cells of 256 are in the second; and each cell in one of them. */
UNTRACED static void take_bells(uint8_t *cells) {
    uint8_t middles[2], widths[2], in_second = take();
    for (int bell = 0; bell < 2; bell++) {
        middles[bell] = take();
        widths[bell] = 1 + take() % 64;
    }
    counter = take_two();
    for (int i = 0; i < FILM_CELLS; i++) {
        int bell = below(BRIGHTNESSES) < in_second;
        cells[i] = (uint8_t)(middles[bell] + below(widths[bell]) + below(widths[bell]));
    }
}

/* A few brightnesses in turn or in runs, or two bells. At times one cell is set to another. */
static void take_cells(uint8_t *cells, uint8_t threshold) {
    uint8_t shape = take(), poke = take(), few[MOST_FEW], count = 1 + shape / 4 % MOST_FEW;
    switch (shape % 4) {
    case 0:
        take_bells(cells);
        break;
    case 1:
        for (int i = 0; i < FILM_CELLS;) {
            uint8_t brightness = take_brightness(threshold);
            int end = left == 0 ? FILM_CELLS : i + 1 + take();
            for (; i < end && i < FILM_CELLS; i++)
                cells[i] = brightness;
        }
        break;
    default:
        count = shape & 1 ? 2 : count;
        for (int k = 0; k < count; k++)
            few[k] = take_brightness(threshold);
        for (int i = 0; i < FILM_CELLS; i++)
            cells[i] = few[i % count];
    }
    if (poke > 159)
        cells[take_place(FILM_CELLS)] = take_brightness(threshold);
}

/* ---- The call of one scan. */

/* The record is too large for registers: it is written where the caller says, as the answer of film_read_spool is, and so it can be lent. */
film_scan *film_scan_clarity_into(film_scan *record, const uint8_t *cells, size_t cells_len, uint8_t threshold) __asm__("film_scan_clarity");

/* Asks for cells of any length, and holds the record to the rules. */
static film_scan scan_clarity(const uint8_t *cells, size_t length, uint8_t threshold, int place) {
    film_scan r, *lent = (film_scan *)lend(&output, NULL, sizeof r, place);
    two_sides both = sides_of(cells, threshold);
    HOLDS(film_scan_clarity_into(lent, lend(&input, cells, length, place >> 2), length, threshold) == lent);
    memcpy(&r, bytes_of(&output), sizeof r);
    gave(SCAN_CLARITY, r.answer);
    HOLDS(kept_after(&output, sizeof r));
    HOLDS(r.answer == (length != FILM_CELLS ? 1 : due_of(&both)));
    if (r.answer != 0) {
        HOLDS(r.kind == 0 && bits_of(r.ratio) == 0 && bits_of(r.dark) == 0 && bits_of(r.bright) == 0);
        return r;
    }
    gave(KIND_OF_SCAN, r.kind);
    HOLDS(r.kind == kind_of(&both));
    HOLDS(r.kind == FILM_NO_SPREAD ? bits_of(r.ratio) == 0 : is_ratio(r.ratio, &both, threshold));
    HOLDS(is_mean(r.dark, &both.dark) && is_mean(r.bright, &both.bright));
    HOLDS(r.dark >= 0 && r.dark < threshold && threshold <= r.bright && r.bright <= BRIGHTEST);
    return r;
}

/* Three more scans that have the same ratio: the cells the other way around, under the threshold that is the least bright of them, which is the same in all;
 * cells and threshold so much brighter; and the negative, of which the sides are changed about. */
static void move_scan(const film_scan *r, const uint8_t *cells, uint8_t threshold, uint8_t by, int place) {
    uint8_t backward[FILM_CELLS], brighter[FILM_CELLS], negative[FILM_CELLS], most = threshold, least_bright = BRIGHTEST;
    for (int i = 0; i < FILM_CELLS; i++) {
        backward[i] = cells[FILM_CELLS - 1 - i];
        negative[i] = BRIGHTEST - cells[i];
        most = cells[i] > most ? cells[i] : most;
        least_bright = cells[i] >= threshold && cells[i] < least_bright ? cells[i] : least_bright;
    }
    film_scan other = scan_clarity(backward, FILM_CELLS, r->answer == 0 ? least_bright : threshold, place);
    HOLDS(same_scan(r, &other));
    by %= BRIGHTNESSES - most;
    for (int i = 0; i < FILM_CELLS; i++)
        brighter[i] = cells[i] + by;
    other = scan_clarity(brighter, FILM_CELLS, threshold + by, place);
    HOLDS(same_ratio(r, &other));
    if (threshold != 0) {
        other = scan_clarity(negative, FILM_CELLS, (uint8_t)(BRIGHTNESSES - threshold), place);
        HOLDS(same_ratio(r, &other));
    }
}

static void scan_clarity_calls(void) {
    uint8_t cells[LONGEST], threshold = take(), place = take(), by = take();
    size_t length = take_length(FILM_CELLS);
    take_cells(cells, threshold);
    memcpy(cells + FILM_CELLS, cells, LONGEST - FILM_CELLS);
    film_scan r = scan_clarity(cells, length, threshold, place);
    if (length == FILM_CELLS)
        move_scan(&r, cells, threshold, by, place);
}

/* ---- The call of a spool. */

/* The pages hold one scan more than the longest spool has, and a scan and a byte beside it. */
enum { SCAN_PAGES = 24, SCAN_BYTES = SCAN_PAGES * PAGE, MOST_SCANS = 4 };
_Static_assert(FILM_SCANS + 2 * FILM_CELLS + 1 <= SCAN_BYTES, "room for each length that is near");

static slice scan_input;

/* The length that is stated, seven times in eight; else a byte, a line or up to a scan and a byte more or less, or any. */
static size_t take_near_scans(size_t stated) {
    uint8_t how = take();
    if (how < 224)
        return stated;
    if (how >= 252)
        return (take() * (size_t)BRIGHTNESSES * BRIGHTNESSES + take_two()) % SCAN_BYTES;
    size_t by = how & 2 ? 1 : how & 4 ? FILM_CHARACTERS : take_two() % (FILM_CELLS + 2);
    return how & 1 ? stated + by : by < stated ? stated - by : 0;
}

/* A spool of up to four scans in turn. At times each scan has one cell changed, at a place of its own. */
static uint8_t *take_scans(size_t length, uint8_t threshold) {
    uint8_t count = 1 + take() % MOST_SCANS, is_changed = take() & 1, *cells = malloc(length), scans[MOST_SCANS][FILM_CELLS];
    for (int n = 0; n < count; n++)
        take_cells(scans[n], threshold);
    for (size_t scan = 0, from = 0; from < length; scan++, from += FILM_CELLS) {
        size_t changed = from + scan % FILM_CELLS;
        memcpy(cells + from, scans[scan % count], length - from < FILM_CELLS ? length - from : FILM_CELLS);
        if (is_changed && changed < length)
            cells[changed] ^= (uint8_t)scan;
    }
    return cells;
}

/* Counts one scan, which film_scan_clarity has to answer as its brightnesses say. */
static void count_scan(film_clarities *due, const uint8_t *cells, uint8_t threshold) {
    film_scan r = film_scan_clarity(cells, FILM_CELLS, threshold);
    two_sides both = sides_of(cells, threshold);
    gave(SCAN_OF_SPOOL, r.answer);
    HOLDS(r.answer == due_of(&both));
    if (r.answer == 0) {
        gave(KIND_IN_SPOOL, r.kind);
        HOLDS(r.kind == kind_of(&both));
    }
    due->refusals += r.answer != 0;
    due->no_spreads += r.answer == 0 && r.kind == FILM_NO_SPREAD;
    due->ratios += r.answer == 0 && r.kind == FILM_RATIO;
}

static void spool_clarity_call(void) {
    size_t length = take_near_scans(take_count() * FILM_CELLS);
    uint8_t threshold = take(), place = take(), *cells = take_scans(length, threshold);
    film_clarities r = film_spool_clarity(lend(&scan_input, cells, length, place), length, threshold), due = {0, 0, 0, 0};
    gave(SPOOL_CLARITY, r.answer);
    due.answer = length % FILM_CELLS != 0 || length > FILM_SCANS;
    for (size_t from = 0; due.answer == 0 && from < length; from += FILM_CELLS)
        count_scan(&due, cells + from, threshold);
    HOLDS(r.answer == due.answer && r.ratios == due.ratios && r.no_spreads == due.no_spreads && r.refusals == due.refusals);
    free(cells);
}

#endif
