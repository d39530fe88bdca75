/* Tests of blocks that outlast a smudge: what is encoded straightens to what film_encode_block gives, every window with every filling
 * is read back, any other damage is read or refused by its wrong rows and columns, and the refusals come in their order. It compiles as C
 * and as C++. */
#include "chance.h"
#include "expect.h"
#include "film.h"
#include <string.h>

enum { ROWS = FILM_SMUDGE, CELLS = 8, DATA = ROWS - 1, LAST_DATA = 127, BRIGHT = 255 };
enum { SIDE = 16, OLD = 170, LONGEST = 64, TRIES = 20 };

/* The top left cell of a window that does not go around the edge has a row and a column below these. */
enum { TOPS = ROWS - 1, LEFTS = CELLS - 1 };

/* The cells of a window. Which of them are wrong: two bits for the upper row, two for the lower one; and the two of each row and column. */
enum { WINDOW = 4, FILLINGS = 1 << WINDOW, UPPER = 3, LOWER = 12, LEFT = 5, RIGHT = 10 };

/* How many different sets of cells the fillings of the windows are, how many of these have two cells, and how many numbers `wrong_of` can
 * give. */
enum { SMUDGES = 520, PAIRS = 210, WRONG = 1 << (ROWS + CELLS) };

/* What the data rows 1 to 7 are stored as. */
static const uint8_t stored[ROWS] = {131, 170, 129, 26, 7, 18, 5, 93};

/* Seven data rows, their block, and a scan of it. */
static uint8_t data[LONGEST], block[ROWS], scan[LONGEST];

/* The wrong cells that have these wrong rows and columns and lie in one window, where there are such. */
static uint8_t smudges[WRONG][ROWS], has_smudge[WRONG];

/* An output with bytes to either side, and what all of it has to hold in the end. */
static uint8_t memory[SIDE + LONGEST + SIDE], due[sizeof memory];
static uint8_t *const out = memory + SIDE, *const due_out = due + SIDE;

static void lend(void) {
    memset(memory, OLD, sizeof memory);
    memset(due, OLD, sizeof due);
}

static int output_is_due(void) { return memcmp(memory, due, sizeof memory) == 0; }

static int is_encoded(const uint8_t *rows) {
    lend();
    memcpy(due_out, rows, ROWS);
    return film_encode_smudge(data, DATA, out, ROWS) == FILM_DONE && output_is_due();
}

/* Whether the scan is read as these rows. */
static int reads(const uint8_t *rows, int distance) {
    lend();
    memcpy(due_out, rows, ROWS);
    film_block r = film_read_smudge(scan, ROWS, out, ROWS);
    return r.answer == FILM_DONE && r.distance == distance && output_is_due();
}

/* Whether so much of the scan and so much of an output, an empty slice of which is NULL, are refused, and the output is left alone. */
static int reading_is_refused(int answer, size_t rows_len, size_t out_len) {
    lend();
    film_block r = film_read_smudge(rows_len == 0 ? NULL : scan, rows_len, out_len == 0 ? NULL : out, out_len);
    return r.answer == answer && r.distance == 0 && output_is_due();
}

/* The same of so much of the data. */
static int encoding_is_refused(int answer, size_t data_len, size_t out_len) {
    lend();
    return film_encode_smudge(data_len == 0 ? NULL : data, data_len, out_len == 0 ? NULL : out, out_len) == answer && output_is_due();
}

/* Encodes the data, and scans the block with nothing wrong. */
static void encode(void) {
    EXPECT(film_encode_smudge(data, DATA, block, ROWS) == FILM_DONE);
    memcpy(scan, block, ROWS);
}

static void make_block(void) {
    for (int i = 0; i < DATA; i++)
        data[i] = (uint8_t)below(LAST_DATA + 1);
    encode();
}

static int is_set(const uint8_t *rows, int i, int j) { return rows[i] >> j & 1; }

static int count(const uint8_t *rows) {
    int cells = 0;
    for (int i = 0; i < ROWS; i++)
        for (int j = 0; j < CELLS; j++)
            cells += is_set(rows, i, j);
    return cells;
}

/* Adds a cell to a set of cells, or, where it is there, takes it out. */
static void turn_over(uint8_t *rows, int i, int j) { rows[i] ^= (uint8_t)(1 << j); }

/* Each cell of an odd column goes two rows up, and each of an odd row two columns toward 0: a row stays odd or even when it goes up. */
static void straighten(const uint8_t *rows, uint8_t *straight) {
    memset(straight, 0, ROWS);
    for (int i = 0; i < ROWS; i++)
        for (int j = 0; j < CELLS; j++)
            if (is_set(rows, i, j))
                turn_over(straight, (i + ROWS - 2 * (j % 2)) % ROWS, (j + CELLS - 2 * (i % 2)) % CELLS);
}

/* The wrong rows and columns of what these rows straighten to: bit i for row i where it is odd, and bit 8 + j for column j where it is
 * even. */
static int wrong_of(const uint8_t *rows) {
    uint8_t straight[ROWS];
    int wrong = BRIGHT << ROWS;
    straighten(rows, straight);
    for (int i = 0; i < ROWS; i++)
        for (int j = 0; j < CELLS; j++)
            if (is_set(straight, i, j))
                wrong ^= 1 << i | 1 << (ROWS + j);
    return wrong;
}

/* The wrong cells of a window, which may go around the edge. */
static void smudge(uint8_t *rows, int top, int left, int filling) {
    for (int bit = 0; bit < WINDOW; bit++)
        if (filling >> bit & 1)
            turn_over(rows, (top + bit / 2) % ROWS, (left + bit % 2) % CELLS);
}

/* The scan is the block with this smudge. Gives how many cells are wrong. */
static int scan_smudged(int top, int left, int filling) {
    uint8_t wrong[ROWS] = {0};
    smudge(wrong, top, left, filling);
    memcpy(scan, block, ROWS);
    smudge(scan, top, left, filling);
    return count(wrong);
}

/* No two sets of wrong cells, each in one window, have the same wrong rows and columns. */
static void make_smudges(void) {
    int different = 0;
    memcpy(block, stored, ROWS);
    for (int top = 0; top < TOPS; top++)
        for (int left = 0; left < LEFTS; left++)
            for (int filling = 0; filling < FILLINGS; filling++) {
                uint8_t cells[ROWS] = {0};
                scan_smudged(top, left, filling);
                int wrong = wrong_of(scan);
                smudge(cells, top, left, filling);
                EXPECT(!has_smudge[wrong] || memcmp(smudges[wrong], cells, ROWS) == 0);
                different += !has_smudge[wrong];
                memcpy(smudges[wrong], cells, ROWS);
                has_smudge[wrong] = 1;
            }
    EXPECT(different == SMUDGES);
}

/* What is encoded straightens to the block of the same data rows, and is read as it is. */
static void straightens(void) {
    uint8_t proper[ROWS], straight[ROWS];
    encode();
    straighten(block, straight);
    EXPECT(film_encode_block(data, DATA, proper, ROWS) == FILM_DONE && memcmp(straight, proper, ROWS) == 0);
    EXPECT(is_encoded(block) && reads(block, 0));
}

static void count_data(void) {
    for (int i = 0; i < DATA; i++)
        data[i] = (uint8_t)(i + 1);
}

/* The data rows 1 to 7, no data, all data, each cell of the data alone, and any. */
static void encoding(void) {
    count_data();
    EXPECT(is_encoded(stored));
    straightens();
    memset(data, LAST_DATA, DATA);
    straightens();
    memset(data, 0, DATA);
    straightens();
    for (int i = 0; i < DATA; i++)
        for (int j = 0; j < CELLS - 1; j++) {
            turn_over(data, i, j);
            straightens();
            turn_over(data, i, j);
        }
    for (int tried = 0; tried < TRIES; tried++) {
        make_block();
        straightens();
    }
}

/* Every window with every filling, on several blocks. */
static void windows(void) {
    for (int tried = 0; tried < TRIES; tried++) {
        make_block();
        for (int top = 0; top < TOPS; top++)
            for (int left = 0; left < LEFTS; left++)
                for (int filling = 0; filling < FILLINGS; filling++) {
                    int distance = scan_smudged(top, left, filling);
                    EXPECT(reads(block, distance));
                }
    }
}

/* The worked example of 000: all four cells of the window at row 4 and column 3 come to rows 2 to 5 and to columns 1 to 4. */
static void worked_example(void) {
    static const uint8_t due_cells[ROWS] = {0, 0, 1 << 3, 1 << 1, 1 << 4, 1 << 2, 0, 0};
    int wrong_rows = 1 << 2 | 1 << 3 | 1 << 4 | 1 << 5, wrong_columns = 1 << 1 | 1 << 2 | 1 << 3 | 1 << 4;
    uint8_t cells[ROWS] = {0}, straight[ROWS];
    smudge(cells, 4, 3, UPPER | LOWER);
    straighten(cells, straight);
    EXPECT(memcmp(straight, due_cells, ROWS) == 0);
    make_block();
    scan_smudged(4, 3, UPPER | LOWER);
    EXPECT(wrong_of(scan) == (wrong_rows | wrong_columns << ROWS) && reads(block, WINDOW));
}

/* Windows around the edge, below, to the side and at the corner: they are refused, but for wrong cells that lie in another window too. */
static void around_the_edge(void) {
    make_block();
    for (int top = 0; top <= TOPS; top++)
        for (int left = 0; left <= LEFTS; left++)
            for (int filling = 0; filling < FILLINGS; filling++) {
                int distance = scan_smudged(top, left, filling);
                int below_edge = top == TOPS && (filling & UPPER) && (filling & LOWER);
                int beside_edge = left == LEFTS && (filling & LEFT) && (filling & RIGHT);
                EXPECT(below_edge || beside_edge ? reading_is_refused(FILM_NO_BLOCK, ROWS, ROWS) : reads(block, distance));
            }
}

/* The scan is read as the block that its wrong rows and columns tell, or is refused, where they tell none. Gives whether it was read. */
static int is_read_by_what_is_wrong(void) {
    int wrong = wrong_of(scan);
    uint8_t mended[ROWS];
    for (int i = 0; i < ROWS; i++)
        mended[i] = scan[i] ^ smudges[wrong][i];
    EXPECT(has_smudge[wrong] ? reads(mended, count(smudges[wrong])) : reading_is_refused(FILM_NO_BLOCK, ROWS, ROWS));
    return has_smudge[wrong];
}

/* Every two cells. As many that are far apart as lie in a window have the wrong rows and columns of two that do, and are read as another
 * block; the others that are far apart are refused. */
static void two_cells(void) {
    int read = 0;
    make_block();
    for (int one = 0; one < ROWS * CELLS; one++)
        for (int other = 0; other < one; other++) {
            memcpy(scan, block, ROWS);
            turn_over(scan, one / CELLS, one % CELLS);
            turn_over(scan, other / CELLS, other % CELLS);
            read += is_read_by_what_is_wrong();
        }
    EXPECT(read == 2 * PAIRS);
    memcpy(scan, block, ROWS);
    turn_over(scan, 0, 0);
    turn_over(scan, 4, 5);
    EXPECT(reading_is_refused(FILM_NO_BLOCK, ROWS, ROWS));
}

/* Every set of wrong rows and columns that there is, once: the cells of row 0 and of column 0 have them. */
static void all_that_is_wrong(void) {
    int read = 0;
    for (int row = 0; row < 1 << CELLS; row++)
        for (int column = 0; column < 1 << (ROWS - 1); column++) {
            make_block();
            scan[0] ^= (uint8_t)row;
            for (int i = 1; i < ROWS; i++)
                scan[i] ^= (uint8_t)(column >> (i - 1) & 1);
            read += is_read_by_what_is_wrong();
        }
    EXPECT(read == SMUDGES);
}

/* Dark and bright film are no blocks, and neither is one that is not staggered. */
static void no_blocks(void) {
    memset(scan, 0, ROWS);
    EXPECT(reading_is_refused(FILM_NO_BLOCK, ROWS, ROWS));
    memset(scan, BRIGHT, ROWS);
    EXPECT(reading_is_refused(FILM_NO_BLOCK, ROWS, ROWS));
    count_data();
    EXPECT(film_encode_block(data, DATA, scan, ROWS) == FILM_DONE && reading_is_refused(FILM_NO_BLOCK, ROWS, ROWS));
}

static const size_t row_counts[] = {0, 1, 2, 7, 9, LONGEST}, data_counts[] = {0, 1, 6, 8, LONGEST - 1, LONGEST};
static const size_t rooms[] = {0, 1, 7, 9, LONGEST};
enum { COUNTS = sizeof row_counts / sizeof row_counts[0], OUTPUTS = sizeof rooms / sizeof rooms[0] };

/* The count of rows comes before the output's length, and that before the rows themselves, which are read or not. */
static void reading_refused(void) {
    for (int dark = 0; dark < 2; dark++) {
        make_block();
        if (dark)
            memset(scan, 0, ROWS);
        for (int i = 0; i < COUNTS; i++) {
            EXPECT(reading_is_refused(FILM_ROW_COUNT, row_counts[i], ROWS));
            EXPECT(reading_is_refused(FILM_ROW_COUNT, row_counts[i], row_counts[i]));
            for (int n = 0; n < OUTPUTS; n++)
                EXPECT(reading_is_refused(FILM_ROW_COUNT, row_counts[i], rooms[n]));
        }
        for (int n = 0; n < OUTPUTS; n++)
            EXPECT(reading_is_refused(FILM_OUTPUT_LENGTH, ROWS, rooms[n]));
    }
}

/* The count of data rows comes before the output's length, and that before their values. */
static void encoding_refused(void) {
    make_block();
    for (int i = 0; i < DATA; i++)
        for (int over = LAST_DATA + 1; over <= BRIGHT; over++) {
            uint8_t kept = data[i];
            data[i] = (uint8_t)over;
            EXPECT(encoding_is_refused(FILM_VALUE_OVER, DATA, ROWS));
            data[i] = kept;
        }
    for (int over = 0; over < 2; over++) {
        if (over)
            memset(data, BRIGHT, sizeof data);
        for (int i = 0; i < COUNTS; i++) {
            EXPECT(encoding_is_refused(FILM_ROW_COUNT, data_counts[i], ROWS));
            EXPECT(encoding_is_refused(FILM_ROW_COUNT, data_counts[i], data_counts[i]));
            for (int n = 0; n < OUTPUTS; n++)
                EXPECT(encoding_is_refused(FILM_ROW_COUNT, data_counts[i], rooms[n]));
        }
        for (int n = 0; n < OUTPUTS; n++)
            EXPECT(encoding_is_refused(FILM_OUTPUT_LENGTH, DATA, rooms[n]));
    }
}

int main(void) {
    EXPECT(sizeof(film_block) == 2 && (int)FILM_SMUDGE == 8);
    make_smudges();
    encoding();
    windows();
    worked_example();
    around_the_edge();
    two_cells();
    all_that_is_wrong();
    no_blocks();
    reading_refused();
    encoding_refused();
    printf("C, smudges: %d failed\n", failures);
    return failures != 0;
}
