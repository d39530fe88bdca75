/* Faults of how clear a scan is that the fuzz target has to find: those of faults.c that stand between it and film_scan_clarity or film_spool_clarity. */
#ifndef CLARITY_FAULTS_H
#define CLARITY_FAULTS_H

#include "film.h"
#include <stddef.h>
#include <stdint.h>
#include <xmmintrin.h>

film_scan __real_film_scan_clarity(const uint8_t *cells, size_t cells_len, uint8_t threshold);
film_clarities __real_film_spool_clarity(const uint8_t *cells, size_t cells_len, uint8_t threshold);

/* ---- One scan. */

/* The cells of a side, their sum, and the sum of their squares. */
typedef struct {
    uint64_t cells, sum, squares;
} side_sums;

static void add_cell(side_sums *to, uint64_t brightness) {
    to->cells++;
    to->sum += brightness;
    to->squares += brightness * brightness;
#if FAULT == 129 /* sums are held in 16 bits */
    to->sum %= 65536;
#endif
}

/* A quotient that is cut off, and not rounded. */
__attribute__((unused)) static double cut_off(double over, double under) {
    volatile double by = under, quotient;
    _MM_SET_ROUNDING_MODE(_MM_ROUND_TOWARD_ZERO);
    quotient = over / by;
    _MM_SET_ROUNDING_MODE(_MM_ROUND_NEAREST);
    return quotient;
}

static double mean_of(side_sums of) {
    double sum = (double)of.sum, cells = (double)of.cells;
#if FAULT == 130 /* a mean is a float */
    return (float)sum / (float)cells;
#elif FAULT == 131 /* a mean is cut off */
    return cut_off(sum, cells);
#elif FAULT == 132 /* a mean is the quotient of whole numbers */
    return (double)(of.sum / of.cells);
#elif FAULT == 133 /* a mean is the sum times a reciprocal: rounded twice */
    return sum * (1 / cells);
#endif
    return sum / cells;
}

/* The cells times the sum of squares, less the square of the sum. */
static uint64_t spread_of(side_sums of) { return of.cells * of.squares - of.sum * of.sum; }

/* A variance as a double. */
__attribute__((unused)) static double variance_of(side_sums of) {
    uint64_t others = of.cells;
#if FAULT == 134 /* variances are those of samples, which have one cell fewer under them */
    others -= of.cells > 1;
#endif
    return (double)spread_of(of) / (double)(of.cells * others);
}

/* The ratio of two sides of which one has a spread. */
static double ratio_of(side_sums dark, side_sums bright) {
    uint64_t apart = bright.sum * dark.cells - dark.sum * bright.cells, over = apart * apart;
    uint64_t by_dark = bright.cells * bright.cells, by_bright = dark.cells * dark.cells;
#if FAULT == 134 || FAULT == 135 /* the ratio is that of rounded means and variances */
    double means = mean_of(bright) - mean_of(dark);
    return means * means / (variance_of(dark) + variance_of(bright));
#elif FAULT == 136 /* the numerator is not squared */
    over = apart;
#elif FAULT == 137 /* the denominator has no weights */
    by_dark = by_bright = 1;
#elif FAULT == 138 /* each side is weighed by its own cells */
    by_dark = dark.cells * dark.cells, by_bright = bright.cells * bright.cells;
#endif
    uint64_t under = by_dark * spread_of(dark) + by_bright * spread_of(bright);
#if FAULT == 139 /* the ratio is the quotient of whole numbers */
    return (double)(over / under);
#elif FAULT == 140 /* the ratio is a float */
    return (float)over / (float)under;
#elif FAULT == 141 /* the ratio is cut off */
    return cut_off((double)over, (double)under);
#elif FAULT == 142 /* the ratio is the numerator times a reciprocal: rounded twice */
    return (double)over * (1 / (double)under);
#endif
    return (double)over / (double)under;
}

/* What is told of cells with something wrong in it: of none where a side has none. */
__attribute__((unused)) static film_scan wrong_scan(const uint8_t *cells, size_t count, int threshold) {
    side_sums dark = {0, 0, 0}, bright = {0, 0, 0};
    for (size_t i = 0; i < count; i++)
        add_cell(cells[i] < threshold ? &dark : &bright, cells[i]);
    if (dark.cells == 0 || bright.cells == 0)
        return (film_scan){FILM_ONE_SIDED, 0, 0, 0, 0};
    film_scan r = {FILM_DONE, FILM_NO_SPREAD, 0, mean_of(dark), mean_of(bright)};
    if (spread_of(dark) + spread_of(bright) != 0)
        r.kind = FILM_RATIO, r.ratio = ratio_of(dark, bright);
    return r;
}

/* How many cells are dark. */
__attribute__((unused)) static size_t dark_cells(const uint8_t *cells, size_t count, uint8_t threshold) {
    size_t dark = 0;
    for (size_t i = 0; i < count; i++)
        dark += cells[i] < threshold;
    return dark;
}

/* Whether the cells of one side are all alike, those of the dark one or of the bright one. */
__attribute__((unused)) static int is_alike(const uint8_t *cells, uint8_t threshold, int is_dark) {
    int only = -1;
    for (int i = 0; i < FILM_CELLS; i++)
        if ((cells[i] < threshold) == is_dark) {
            if (only >= 0 && cells[i] != only)
                return 0;
            only = cells[i];
        }
    return 1;
}

film_scan __wrap_film_scan_clarity(const uint8_t *cells, size_t cells_len, uint8_t threshold) {
#if FAULT == 143 /* one byte too many is read */
    if (cells_len != 0)
        (void)((const volatile uint8_t *)cells)[cells_len];
#elif FAULT == 144 /* the cells are written, if only with what they held */
    if (cells_len != 0)
        ((volatile uint8_t *)cells)[0] = cells[0];
#elif FAULT == 145 /* cells after the last are passed over */
    if (cells_len > FILM_CELLS)
        cells_len = FILM_CELLS;
#elif FAULT == 146 /* a scan that lacks a cell is taken */
    if (cells_len == FILM_CELLS - 1)
        return wrong_scan(cells, cells_len, threshold);
#elif FAULT == 147 /* that no cell is dark, or none bright, comes before the length */
    if (cells_len != 0 && dark_cells(cells, cells_len, threshold) % cells_len == 0)
        return (film_scan){FILM_ONE_SIDED, 0, 0, 0, 0};
#elif FAULT == 148 /* under the threshold 0 the middle is taken */
    threshold = threshold == 0 ? 128 : threshold;
#endif
    film_scan r = __real_film_scan_clarity(cells, cells_len, threshold);
#if FAULT >= 129 && FAULT <= 142
    if (r.answer == FILM_DONE)
        r = wrong_scan(cells, FILM_CELLS, threshold);
#elif FAULT == 149 /* a cell at the threshold is dark */
    if (cells_len == FILM_CELLS)
        r = wrong_scan(cells, FILM_CELLS, threshold + 1);
#elif FAULT == 150 /* the last cell is left out */
    if (cells_len == FILM_CELLS)
        r = wrong_scan(cells, FILM_CELLS - 1, threshold);
#elif FAULT == 151 /* the means are changed about */
    double dark = r.dark;
    r.dark = r.bright, r.bright = dark;
#elif FAULT == 152 /* no spread is told without means */
    if (r.kind == FILM_NO_SPREAD)
        r.dark = r.bright = 0;
#elif FAULT == 153 /* no spread has an endless ratio */
    if (r.kind == FILM_NO_SPREAD)
        r.ratio = __builtin_inf();
#elif FAULT == 154 /* no spread has a ratio that is no number */
    if (r.kind == FILM_NO_SPREAD)
        r.ratio = __builtin_nan("");
#elif FAULT == 155 /* no spread has the ratio -0.0 */
    if (r.kind == FILM_NO_SPREAD)
        r.ratio = -0.0;
#elif FAULT == 156 /* no spread is told as a ratio */
    r.kind = FILM_RATIO;
#elif FAULT == 157 /* no spread is told where the cells of one side are all alike, and those of the other are not */
    if (r.answer == FILM_DONE && (is_alike(cells, threshold, 1) || is_alike(cells, threshold, 0)))
        r.kind = FILM_NO_SPREAD, r.ratio = 0;
#elif FAULT == 158 /* a refusal is told as no spread */
    r.kind = r.answer != FILM_DONE ? FILM_NO_SPREAD : r.kind;
#elif FAULT == 159 /* a refusal keeps the mean of the side that has cells */
    if (r.answer == FILM_ONE_SIDED)
        for (int i = 0; i < FILM_CELLS; i++)
            r.bright += cells[i] / (double)FILM_CELLS;
#elif FAULT == 160 /* where no cell is dark, nothing is refused */
    if (r.answer == FILM_ONE_SIDED && dark_cells(cells, FILM_CELLS, threshold) == 0)
        r = (film_scan){FILM_DONE, FILM_NO_SPREAD, 0, 0, 0};
#elif FAULT == 161 /* a side of one cell is refused */
    if (r.answer == FILM_DONE && dark_cells(cells, FILM_CELLS, threshold) % (FILM_CELLS - 2) == 1)
        r = (film_scan){FILM_ONE_SIDED, 0, 0, 0, 0};
#endif
    return r;
}

/* ---- A spool. */

/* The most scans that a spool has. */
enum { MOST = FILM_SCANS / FILM_CELLS };

/* Scans counted one by one with something wrong in it. */
__attribute__((unused)) static film_clarities wrong_counts(const uint8_t *cells, size_t scans, uint8_t threshold) {
    film_clarities r = {FILM_DONE, 0, 0, 0};
    for (size_t i = 0; i < scans; i++) {
        film_scan one = __real_film_scan_clarity(cells + i * FILM_CELLS, FILM_CELLS, threshold);
#if FAULT == 162 /* no scan after one that is refused is counted */
        if (one.answer != FILM_DONE)
            i = scans;
#elif FAULT == 163 /* the first scan is counted in the place of each */
        one = __real_film_scan_clarity(cells, FILM_CELLS, threshold);
#elif FAULT == 164 /* a refused scan is counted as one with no spread */
        one.kind = one.answer != FILM_DONE ? FILM_NO_SPREAD : one.kind;
        one.answer = FILM_DONE;
#elif FAULT == 165 /* a refused scan is not counted */
        if (one.answer != FILM_DONE)
            continue;
#endif
        uint8_t *count = one.answer != FILM_DONE ? &r.refusals : one.kind == FILM_NO_SPREAD ? &r.no_spreads : &r.ratios;
        ++*count;
    }
    return r;
}

film_clarities __wrap_film_spool_clarity(const uint8_t *cells, size_t cells_len, uint8_t threshold) {
#if FAULT == 166 /* one byte too many is read */
    if (cells_len != 0)
        (void)((const volatile uint8_t *)cells)[cells_len];
#elif FAULT == 167 /* the last cell is written, if only with what it held */
    if (cells_len != 0)
        ((volatile uint8_t *)cells)[cells_len - 1] = cells[cells_len - 1];
#elif FAULT == 168 /* what is over after the last whole scan is passed over */
    if (cells_len < FILM_SCANS)
        cells_len -= cells_len % FILM_CELLS;
#elif FAULT == 169 /* a scan more than the longest spool has is taken */
    if (cells_len == FILM_SCANS + FILM_CELLS)
        return wrong_counts(cells, cells_len / FILM_CELLS, threshold);
#elif FAULT == 170 /* the longest spool is refused */
    if (cells_len == FILM_SCANS)
        return (film_clarities){FILM_INPUT_LENGTH, 0, 0, 0};
#elif FAULT == 171 /* no scans are refused */
    if (cells_len == 0)
        return (film_clarities){FILM_INPUT_LENGTH, 0, 0, 0};
#endif
    film_clarities r = __real_film_spool_clarity(cells, cells_len, threshold);
#if FAULT >= 162 && FAULT <= 165
    if (r.answer == FILM_DONE)
        r = wrong_counts(cells, cells_len / FILM_CELLS, threshold);
#elif FAULT == 172 /* the last scan is left out */
    if (r.answer == FILM_DONE && cells_len != 0)
        r = wrong_counts(cells, cells_len / FILM_CELLS - 1, threshold);
#elif FAULT == 173 /* the counts of ratios and of no spreads are changed about */
    uint8_t ratios = r.ratios;
    r.ratios = r.no_spreads, r.no_spreads = ratios;
#elif FAULT == 174 /* a spool with a scan that is refused is refused */
    if (r.refusals != 0)
        r = (film_clarities){FILM_ONE_SIDED, 0, 0, 0};
#elif FAULT == 175 /* a refused spool tells the counts of its whole scans */
    if (r.answer != FILM_DONE && cells_len <= FILM_SCANS)
        r = wrong_counts(cells, cells_len / FILM_CELLS, threshold), r.answer = FILM_INPUT_LENGTH;
#elif FAULT == 176 /* a count goes no further than 254 */
    r.ratios -= r.ratios == MOST;
    r.no_spreads -= r.no_spreads == MOST;
    r.refusals -= r.refusals == MOST;
#endif
    return r;
}

#endif
