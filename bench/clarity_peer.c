/* The peer of how clear a scan is in plain C: one walk over the cells, with six sums.
 *
 * As the plain C of bench/peers.c it tests no lengths. The sums are of 32 bits, which hold the squares of all cells: with sums of 64 bits the same walk takes
 * 1.6 times as long, and would be a weaker peer. */
#include "bench.h"

static film_scan clarity(const uint8_t *cells, uint8_t threshold) {
    uint32_t dark = 0, dark_sum = 0, dark_squares = 0, bright = 0, bright_sum = 0, bright_squares = 0;
    for (int i = 0; i < FILM_CELLS; i++) {
        uint32_t c = cells[i];
        if (c < threshold)
            dark++, dark_sum += c, dark_squares += c * c;
        else
            bright++, bright_sum += c, bright_squares += c * c;
    }
    if (dark == 0 || bright == 0)
        return (film_scan){FILM_ONE_SIDED, 0, 0, 0, 0};
    uint64_t n1 = dark, s1 = dark_sum, n2 = bright, s2 = bright_sum, apart = s2 * n1 - s1 * n2;
    uint64_t under = n2 * n2 * (n1 * dark_squares - s1 * s1) + n1 * n1 * (n2 * bright_squares - s2 * s2);
    double dark_mean = (double)dark_sum / (double)dark, bright_mean = (double)bright_sum / (double)bright;
    if (under == 0)
        return (film_scan){FILM_DONE, FILM_NO_SPREAD, 0, dark_mean, bright_mean};
    return (film_scan){FILM_DONE, FILM_RATIO, (double)(apart * apart) / (double)under, dark_mean, bright_mean};
}

void plain_clarity(const uint8_t *input, uint8_t threshold, reply *r) { set_scan(clarity(input, threshold), r); }

void plain_clarity_spool(const uint8_t *input, uint8_t threshold, reply *r) {
    film_clarities counts = {FILM_DONE, 0, 0, 0};
    for (const uint8_t *cells = input; cells < input + FILM_SCANS; cells += FILM_CELLS) {
        film_scan scan = clarity(cells, threshold);
        counts.refusals += scan.answer != FILM_DONE;
        counts.no_spreads += scan.kind == FILM_NO_SPREAD;
        counts.ratios += scan.answer == FILM_DONE && scan.kind == FILM_RATIO;
    }
    set_clarities(counts, r);
}
