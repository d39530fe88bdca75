/* The peer of smudges in plain C: each of the 49 windows is tried with the filling that the parities of rows ask for, and all sixteen parities are compared.
 *
 * As the plain C of bench/peers.c it tests no lengths and no data rows. */
#include "bench.h"
#include <string.h>

/* A block has as many rows as it has columns. Odd rows and odd columns are turned by STAGGER; a byte has its columns at the bits of these masks. */
enum { SIDE = FILM_SMUDGE, STAGGER = 2, EVEN_COLUMNS = 85, ODD_COLUMNS = 170, IN_WINDOW = 4 };

/* Parities stand in one number: those of rows in the lowest eight bits, and those of columns above them. */
enum { ROWS = 255, FIRST_COLUMN = 256 };

/* The two parities that a stored cell turns once the block is straightened. */
static unsigned turns[SIDE][SIDE];

void prepare_smudges(void) {
    for (int i = 0; i < SIDE; i++)
        for (int j = 0; j < SIDE; j++) {
            int row = (i + SIDE - STAGGER * (j % 2)) % SIDE, column = (j + SIDE - STAGGER * (row % 2)) % SIDE;
            turns[i][j] = 1u << row | (unsigned)FIRST_COLUMN << column;
        }
}

static uint8_t turned(uint8_t row, int by) { return (uint8_t)(row << by | row >> (SIDE - by)); }

/* Straightens the rows, and gives a bit for each that is odd and for each column that is even. */
static unsigned wrong_parities(const uint8_t *rows) {
    unsigned odd = 0, even = 255;
    for (int i = 0; i < SIDE; i++) {
        uint8_t row = (rows[i] & EVEN_COLUMNS) | (rows[(i + STAGGER) % SIDE] & ODD_COLUMNS);
        if (i % 2 == 1)
            row = turned(row, SIDE - STAGGER);
        odd |= (unsigned)__builtin_parity(row) << i;
        even ^= row;
    }
    return odd + FIRST_COLUMN * even;
}

/* The parities that the window from a cell on turns where just those cells are inverted whose rows are odd. They come to four rows, so each has its own. */
static inline unsigned turned_at(int i, int j, unsigned wrong) {
    const unsigned cells[IN_WINDOW] = {turns[i][j], turns[i][j + 1], turns[i + 1][j], turns[i + 1][j + 1]};
    unsigned sum = 0;
    for (int n = 0; n < IN_WINDOW; n++)
        sum |= wrong & cells[n] & ROWS ? cells[n] : 0;
    return sum;
}

/* Inverts those cells, and gives how many they are. */
static uint8_t mend(uint8_t *rows, int i, int j, unsigned wrong) {
    uint8_t distance = 0;
    for (int row = i; row < i + 2; row++)
        for (int column = j; column < j + 2; column++)
            if (wrong & turns[row][column] & ROWS) {
                rows[row] ^= (uint8_t)(1 << column);
                distance++;
            }
    return distance;
}

void plain_smudge(const uint8_t *input, uint8_t radius, reply *r) {
    (void)radius;
    unsigned wrong = wrong_parities(input);
    for (int i = 0; i < SIDE - 1; i++)
        for (int j = 0; j < SIDE - 1; j++)
            if (turned_at(i, j, wrong) == wrong) {
                memcpy(r->out, input, SIDE);
                r->distance = mend(r->out, i, j, wrong);
                r->answer = FILM_DONE, r->number = 0, r->length = SIDE;
                return;
            }
    r->answer = FILM_NO_BLOCK, r->distance = 0, r->number = 0, r->length = 0;
}

/* The checks of rows and columns, and then what straightening undoes: odd rows are turned away from bit 0, and odd columns downward. */
void plain_encode_smudge(const uint8_t *input, uint8_t radius, reply *r) {
    (void)radius;
    uint8_t block[SIDE], last = 255;
    for (int i = 0; i < SIDE; i++) {
        uint8_t row = i == SIDE - 1 ? last : (uint8_t)(input[i] | __builtin_parity(input[i]) << 7);
        last ^= row;
        block[i] = i % 2 == 1 ? turned(row, STAGGER) : row;
    }
    for (int i = 0; i < SIDE; i++)
        r->out[i] = (block[i] & EVEN_COLUMNS) | (block[(i + SIDE - STAGGER) % SIDE] & ODD_COLUMNS);
    r->answer = 0, r->distance = 0, r->number = 0, r->length = SIDE;
}
