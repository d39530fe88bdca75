/* Tests of how clear scans are: ratios and means bit for bit, against doubles that are written down and, on scans of several kinds and at every
 * threshold, against a division in whole numbers; spools against their scans one by one; and the refusals in their order. It compiles as C and
 * as C++. */
#include "chance.h"
#include "expect.h"
#include "film.h"
#include <string.h>

enum { CELLS = FILM_CELLS, MOST = FILM_PLACES, LONGEST = FILM_SCANS + CELLS, SIDE = 16, BYTES = 256, BRIGHTEST = 255, MIDDLE = 128 };
enum { RUNS = 4, TRIES = 500 };

/* So many cells of one brightness. */
typedef struct run {
    uint8_t brightness;
    int count;
} run;

/* What a scan has to give, each double as its 64 bits: +0.0 has none set. */
typedef struct due {
    int answer, kind;
    uint64_t ratio, dark, bright;
} due;

typedef struct known_scan {
    uint8_t threshold;
    run runs[RUNS];
    due gives;
} known_scan;

static const known_scan known[] = {
    /* by hand: means 20 and 210, variances 100 and 100, ratio 180.5 */
    {128, {{10, 100}, {30, 100}, {200, 89}, {220, 89}}, {FILM_DONE, FILM_RATIO, 0x4066900000000000, 0x4034000000000000, 0x406a400000000000}},
    /* the ratio is 11616.2, and no double: with means and variances that are rounded themselves its last digit is 8, and cut off it is 9 */
    {128, {{40, 126}, {41, 63}, {200, 126}, {203, 63}}, {FILM_DONE, FILM_RATIO, 0x40c6b0199999999a, 0x40442aaaaaaaaaab, 0x4069200000000000}},
    /* ratios that come out as another double where they are rounded to 64 digits first: to one less, and to one more */
    {128, {{42, 115}, {87, 5}, {144, 128}, {240, 130}}, {FILM_DONE, FILM_RATIO, 0x40227e6fc3812c51, 0x4045f00000000000, 0x40680be82fa0be83}},
    {128, {{16, 178}, {110, 79}, {176, 25}, {177, 96}}, {FILM_DONE, FILM_RATIO, 0x40227e8240b7c979, 0x4046728d728d728d, 0x406619637021d9eb}},
    /* the greatest distance of the means, without spread and with the least */
    {128, {{0, 189}, {255, 189}}, {FILM_DONE, FILM_NO_SPREAD, 0, 0, 0x406fe00000000000}},
    {128, {{0, 189}, {254, 1}, {255, 188}}, {FILM_DONE, FILM_RATIO, 0x41679082e572620b, 0, 0x406fdfd4a7f529fd}},
    {255, {{0, 188}, {1, 1}, {255, 189}}, {FILM_DONE, FILM_RATIO, 0x41679082e572620b, 0x3f75ac056b015ac0, 0x406fe00000000000}},
    /* the greatest spread */
    {1, {{0, 189}, {1, 94}, {255, 95}}, {FILM_DONE, FILM_RATIO, 0x3ff06caceba6d071, 0, 0x40601580ad602b58}},
    {255, {{0, 94}, {254, 95}, {255, 189}}, {FILM_DONE, FILM_RATIO, 0x3ff0154d780768cf, 0x405feb015ac056b0, 0x406fe00000000000}},
    /* one dark cell, and one bright */
    {1, {{0, 1}, {254, 1}, {255, 376}}, {FILM_DONE, FILM_RATIO, 0x417770c2795c9883, 0, 0x406fdfea454339b8}},
    {90, {{89, 1}, {90, 100}, {91, 100}, {255, 177}}, {FILM_DONE, FILM_RATIO, 0x3fed6e1f402c90c9, 0x4056400000000000, 0x4064f76d5385c59a}},
    {255, {{0, 376}, {1, 1}, {255, 1}}, {FILM_DONE, FILM_RATIO, 0x417770c2795c9883, 0x3f65babcc647fa91, 0x406fe00000000000}},
    /* all equal but one cell, and a step of 1 */
    {7, {{6, 1}, {7, 377}}, {FILM_DONE, FILM_NO_SPREAD, 0, 0x4018000000000000, 0x401c000000000000}},
    {7, {{6, 377}, {7, 1}}, {FILM_DONE, FILM_NO_SPREAD, 0, 0x4018000000000000, 0x401c000000000000}},
    {1, {{0, 200}, {1, 178}}, {FILM_DONE, FILM_NO_SPREAD, 0, 0, 0x3ff0000000000000}},
    {255, {{254, 9}, {255, 369}}, {FILM_DONE, FILM_NO_SPREAD, 0, 0x406fc00000000000, 0x406fe00000000000}},
    /* cells at the threshold are bright */
    {100, {{99, 200}, {100, 177}, {101, 1}}, {FILM_DONE, FILM_RATIO, 0x4066a0b92143fa37, 0x4058c00000000000, 0x4059005c0b81702e}},
    /* no cell is dark, or none is bright */
    {0, {{0, 189}, {255, 189}}, {FILM_ONE_SIDED, 0, 0, 0, 0}},
    {255, {{0, 189}, {254, 189}}, {FILM_ONE_SIDED, 0, 0, 0, 0}},
    {7, {{7, 378}}, {FILM_ONE_SIDED, 0, 0, 0, 0}},
    {8, {{7, 378}}, {FILM_ONE_SIDED, 0, 0, 0, 0}},
};
enum { KNOWN = sizeof known / sizeof known[0] };

/* A scan for each answer, with threshold MIDDLE. */
enum { RATIO, NO_SPREAD, REFUSED, ANSWERS };
static const run answers[ANSWERS][RUNS] = {{{40, 126}, {41, 63}, {200, 126}, {203, 63}}, {{3, 100}, {200, 278}}, {{127, 378}}};

/* Scans, one after the other, with bytes to either side. */
static uint8_t memory[SIDE + LONGEST + SIDE], kept[CELLS];
static uint8_t *const cells = memory + SIDE;

static uint64_t bits(double number) {
    uint64_t pattern;
    memcpy(&pattern, &number, sizeof pattern);
    return pattern;
}

static int is_due(film_scan r, due d) {
    return r.answer == d.answer && r.kind == d.kind && bits(r.ratio) == d.ratio && bits(r.dark) == d.dark && bits(r.bright) == d.bright;
}

static int answer_of(int answer, int kind) { return answer != FILM_DONE ? REFUSED : kind == FILM_NO_SPREAD ? NO_SPREAD : RATIO; }

static due refused(int answer) {
    due d = {answer, 0, 0, 0, 0};
    return d;
}

/* Whether the first scan gives this, whatever lies to either side of it, and is left alone. */
static int gives(uint8_t threshold, due d) {
    memcpy(kept, cells, CELLS);
    for (int beside = 0; beside < 2; beside++) {
        memset(cells - SIDE, beside * BRIGHTEST, SIDE);
        memset(cells + CELLS, beside * BRIGHTEST, SIDE);
        if (!is_due(film_scan_clarity(cells, CELLS, threshold), d) || memcmp(cells, kept, CELLS) != 0)
            return 0;
    }
    return 1;
}

static void lay_out(uint8_t *scan, const run *runs) {
    int laid = 0;
    for (int i = 0; i < RUNS; i++)
        for (int n = 0; n < runs[i].count; n++)
            scan[laid++] = runs[i].brightness;
    EXPECT(laid == CELLS);
}

/* Puts the cells of a scan in another order. */
static void shuffle(uint8_t *scan) {
    for (int i = CELLS - 1; i > 0; i--) {
        int other = below(i + 1);
        uint8_t cell = scan[i];
        scan[i] = scan[other];
        scan[other] = cell;
    }
}

/* The double nearest to a quotient of whole numbers, the even one of two: 53 digits by a long division, and a last one by what is left over. */
static uint64_t nearest(uint64_t numerator, uint64_t denominator) {
    enum { DIGITS = 52, BIAS = 1023 };
    uint64_t digits = 0;
    int exponent = 0;
    if (numerator == 0)
        return 0;
    for (; numerator >= 2 * denominator; exponent++)
        denominator *= 2;
    for (; numerator < denominator; exponent--)
        numerator *= 2;
    for (int i = 0; i <= DIGITS; i++) {
        digits = 2 * digits + (numerator >= denominator);
        numerator = 2 * (numerator - (numerator >= denominator ? denominator : 0));
    }
    digits += numerator > denominator || (numerator == denominator && digits % 2 == 1);
    return ((uint64_t)(BIAS + exponent - 1) << DIGITS) + digits;
}

/* What a scan has to give, by the two whole numbers of the change request. */
static due worked_out(const uint8_t *scan, int threshold) {
    uint64_t n[2] = {0, 0}, s[2] = {0, 0}, q[2] = {0, 0};
    for (int i = 0; i < CELLS; i++) {
        int side = scan[i] >= threshold;
        n[side] += 1;
        s[side] += scan[i];
        q[side] += (uint64_t)scan[i] * scan[i];
    }
    if (n[0] == 0 || n[1] == 0)
        return refused(FILM_ONE_SIDED);
    uint64_t distance = s[1] * n[0] - s[0] * n[1];
    uint64_t spread = n[1] * n[1] * (n[0] * q[0] - s[0] * s[0]) + n[0] * n[0] * (n[1] * q[1] - s[1] * s[1]);
    due d = {FILM_DONE, FILM_NO_SPREAD, 0, nearest(s[0], n[0]), nearest(s[1], n[1])};
    if (spread != 0) {
        d.kind = FILM_RATIO;
        d.ratio = nearest(distance * distance, spread);
    }
    return d;
}

static void known_scans(void) {
    for (int i = 0; i < KNOWN; i++) {
        lay_out(cells, known[i].runs);
        EXPECT(gives(known[i].threshold, known[i].gives));
        shuffle(cells);
        EXPECT(gives(known[i].threshold, known[i].gives) && gives(known[i].threshold, worked_out(cells, known[i].threshold)));
    }
}

/* A brightness about a middle one: the sum of three steps to either side. */
static uint8_t about(int middle, int width) {
    int brightness = middle - 3 * width;
    for (int step = 0; step < 3; step++)
        brightness += below(2 * width + 1);
    return (uint8_t)(brightness < 0 ? 0 : brightness > BRIGHTEST ? BRIGHTEST : brightness);
}

/* Dark cells about one brightness and bright ones about another; a threshold between them. */
static int make_two_bells(uint8_t *scan) {
    int low = 20 + below(90), high = 120 + below(120), width = 1 + below(20), darks = 1 + below(CELLS - 1);
    for (int i = 0; i < CELLS; i++)
        scan[i] = about(i < darks ? low : high, width);
    return (low + high) / 2;
}

static int make_uniform(uint8_t *scan) {
    for (int i = 0; i < CELLS; i++)
        scan[i] = (uint8_t)below(BYTES);
    return below(BYTES);
}

/* All cells of one brightness, but for a few that are one more or one less; a threshold near it. */
static int make_nearly_flat(uint8_t *scan) {
    int flat = 1 + below(BRIGHTEST - 1);
    memset(scan, flat, CELLS);
    for (int others = below(5); others > 0; others--)
        scan[below(CELLS)] = (uint8_t)(below(2) ? flat + 1 : flat - 1);
    return flat + below(2);
}

/* One to four brightnesses; a threshold that is one of them. */
static int make_few_brightnesses(uint8_t *scan) {
    int some[RUNS], different = 1 + below(RUNS);
    for (int i = 0; i < RUNS; i++)
        some[i] = below(BYTES);
    for (int i = 0; i < CELLS; i++)
        scan[i] = (uint8_t)some[below(different)];
    return some[below(different)];
}

/* The kinds of scans that are made by chance. Each gives a threshold, which often leaves a side without cells. */
static int (*const kinds[])(uint8_t *) = {make_two_bells, make_uniform, make_nearly_flat, make_few_brightnesses};
enum { KINDS = sizeof kinds / sizeof kinds[0] };

static uint8_t make_scan(uint8_t *scan, int kind) {
    int threshold = kinds[kind](scan);
    shuffle(scan);
    return (uint8_t)threshold;
}

static void scans_by_chance(void) {
    int met[ANSWERS] = {0};
    for (int kind = 0; kind < KINDS; kind++)
        for (int tried = 0; tried < TRIES; tried++) {
            uint8_t threshold = make_scan(cells, kind);
            due d = worked_out(cells, threshold);
            EXPECT(gives(threshold, d));
            met[answer_of(d.answer, d.kind)]++;
        }
    for (int answer = 0; answer < ANSWERS; answer++)
        EXPECT(met[answer] > TRIES / 10);
}

static void every_threshold(void) {
    for (int kind = 0; kind < KINDS; kind++) {
        make_scan(cells, kind);
        for (int threshold = 0; threshold < BYTES; threshold++)
            EXPECT(gives((uint8_t)threshold, worked_out(cells, threshold)));
    }
}

static int counts_are(film_clarities r, int answer, const int *due_counts) {
    return r.answer == answer && r.ratios == due_counts[RATIO] && r.no_spreads == due_counts[NO_SPREAD] && r.refusals == due_counts[REFUSED];
}

static uint8_t *scan_at(int i) { return cells + (size_t)CELLS * (size_t)i; }

/* Whether the first scans give, in one call, the counts of what they give one by one. */
static int is_counted(int scans, uint8_t threshold) {
    int due_counts[ANSWERS] = {0};
    for (int i = 0; i < scans; i++) {
        film_scan r = film_scan_clarity(scan_at(i), CELLS, threshold);
        EXPECT(is_due(r, worked_out(scan_at(i), threshold)));
        due_counts[answer_of(r.answer, r.kind)]++;
    }
    return counts_are(film_spool_clarity(cells, (size_t)CELLS * (size_t)scans, threshold), FILM_DONE, due_counts);
}

/* Spools of several lengths; what follows each in memory is a scan more. */
static void spools(void) {
    static const int lengths[] = {0, 1, 2, 3, 20, MOST - 1, MOST};
    static const uint8_t thresholds[] = {0, 1, 60, MIDDLE, 200, BRIGHTEST};
    for (int i = 0; i <= MOST; i++)
        make_scan(scan_at(i), i % KINDS);
    for (size_t i = 0; i < sizeof lengths / sizeof lengths[0]; i++)
        for (size_t n = 0; n < sizeof thresholds; n++)
            EXPECT(is_counted(lengths[i], thresholds[n]));
}

static void fill(int answer) {
    for (int i = 0; i <= MOST; i++)
        lay_out(scan_at(i), answers[answer]);
}

/* Each answer alone, as often as there is room for, all in every order, and three different counts. */
static void counts(void) {
    enum { ORDERED = 3, ORDERS = ANSWERS * ANSWERS * ANSWERS };
    static const int different[ANSWERS] = {100, 90, MOST - 100 - 90};
    for (int answer = 0; answer < ANSWERS; answer++) {
        int alone[ANSWERS] = {0};
        alone[answer] = MOST;
        fill(answer);
        EXPECT(counts_are(film_spool_clarity(cells, FILM_SCANS, MIDDLE), FILM_DONE, alone));
        EXPECT(is_counted(1, MIDDLE) && is_counted(MOST, MIDDLE));
    }
    for (int order = 0; order < ORDERS; order++) {
        for (int i = 0, left = order; i < ORDERED; i++, left /= ANSWERS)
            lay_out(scan_at(i), answers[left % ANSWERS]);
        EXPECT(is_counted(ORDERED, MIDDLE));
    }
    for (int answer = 0, i = 0; answer < ANSWERS; answer++)
        for (int n = 0; n < different[answer]; n++)
            lay_out(scan_at(i++), answers[answer]);
    EXPECT(counts_are(film_spool_clarity(cells, FILM_SCANS, MIDDLE), FILM_DONE, different));
}

/* The length comes before the cells, whatever these would give. */
static void lengths_refused(void) {
    static const size_t no_scans[] = {0, 1, 63, CELLS / 2, CELLS - 1, CELLS + 1, 2 * CELLS, FILM_SCANS};
    static const size_t no_spools[] = {1, 63, CELLS - 1, CELLS + 1, 2 * CELLS - 1, 2 * CELLS + 1, FILM_SCANS - 1, FILM_SCANS + 1, LONGEST};
    static const uint8_t thresholds[] = {0, MIDDLE, BRIGHTEST};
    static const int zeros[ANSWERS] = {0};
    for (int answer = 0; answer < ANSWERS; answer++) {
        fill(answer);
        for (size_t n = 0; n < sizeof thresholds; n++) {
            for (size_t i = 0; i < sizeof no_scans / sizeof no_scans[0]; i++)
                EXPECT(is_due(film_scan_clarity(cells, no_scans[i], thresholds[n]), refused(FILM_INPUT_LENGTH)));
            for (size_t i = 0; i < sizeof no_spools / sizeof no_spools[0]; i++)
                EXPECT(counts_are(film_spool_clarity(cells, no_spools[i], thresholds[n]), FILM_INPUT_LENGTH, zeros));
            EXPECT(is_due(film_scan_clarity(NULL, 0, thresholds[n]), refused(FILM_INPUT_LENGTH)));
            EXPECT(counts_are(film_spool_clarity(NULL, 0, thresholds[n]), FILM_DONE, zeros));
        }
    }
}

/* How the answers lie in memory, and the numbers that programs go by. */
static void layout(void) {
    EXPECT(sizeof(film_scan) == 32 && offsetof(film_scan, answer) == 0 && offsetof(film_scan, kind) == 1);
    EXPECT(offsetof(film_scan, ratio) == 8 && offsetof(film_scan, dark) == 16 && offsetof(film_scan, bright) == 24);
    EXPECT(sizeof(film_clarities) == 4 && offsetof(film_clarities, answer) == 0 && offsetof(film_clarities, ratios) == 1);
    EXPECT(offsetof(film_clarities, no_spreads) == 2 && offsetof(film_clarities, refusals) == 3);
    EXPECT((int)FILM_CELLS == 378 && (int)FILM_SCANS == 96390 && (int)FILM_SCANS == (int)FILM_PLACES * (int)FILM_CELLS);
    EXPECT((int)FILM_RATIO == 0 && (int)FILM_NO_SPREAD == 1 && (int)FILM_INPUT_LENGTH == 1 && (int)FILM_ONE_SIDED == 20);
}

int main(void) {
    layout();
    known_scans();
    scans_by_chance();
    every_threshold();
    spools();
    counts();
    lengths_refused();
    printf("C, clarity: %d failed\n", failures);
    return failures != 0;
}
