/* The power sums of a word by a table, as the peers of open trays and the limit take them: ten of the eleven in one number. */
#ifndef SUMS_H
#define SUMS_H

#include "bench.h"
#include <stdint.h>

/* The eleventh, S_0, is the exclusive or of the characters. */
enum { LANE = 6, LANES = FILM_SUMS - 1, MIDDLE = FILM_SUMS / 2 };

typedef struct {
    uint64_t ten;
    uint8_t middle;
} packed;

/* What each character adds to the ten at each address, and the sums of the marks: bench/peers.c makes them. */
extern uint64_t shares[FILM_CHARACTERS][64];
extern packed of_marks;

/* The sum that a lane holds: S_-5 in the lowest, and S_0 in none. */
static inline int sum_in(int lane) { return lane < MIDDLE ? lane : lane + 1; }

/* Adds to the ten what the characters of a line do. Laid out in full it takes half the time, and with another loop in it more. */
static inline void add_shares(packed *sums, const uint8_t *line) {
#pragma GCC unroll FILM_CHARACTERS
    for (int a = 0; a < FILM_CHARACTERS; a++)
        sums->ten ^= shares[a][line[a]];
}

#endif
