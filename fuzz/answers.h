/* What has to hold, which answers each call can give, and how often it gave them. */
#ifndef ANSWERS_H
#define ANSWERS_H

#include "film.h"
#include <stdint.h>
#include <stdio.h>
#include <stdlib.h>

#define HOLDS(fact) ((fact) ? (void)0 : fail(__FILE__, __LINE__, #fact))

static void fail(const char *file, int line, const char *fact) {
    fprintf(stderr, "%s:%d: does not hold: %s\n", file, line, fact);
    abort();
}

/* ---- Which answers each call can give, and how often it gave them. */

enum {
    SUM, PRODUCT, QUOTIENT, ENCODE_LINE, STEP, CHECKS, READ_LINE, READ_LINE_WANTED, LIST_RING, READ_RING, ENCODE_BLOCK, READ_BLOCK, BETTER_SCAN,
    PANEL_TEXT, PANEL_RING, READ_SPOOL, PLACE_OF_SPOOL, READ_BLOTTED, READ_LINE_PAPER, READ_LINE_PAPER_WANTED, ENCODE_SHEET, READ_SHEET,
    ROUNDS_OF_SHEET, TRAY_ADD, TRAY_REPLACE, TRAY_DROP, TRAY_COUNT, ENCODE_SMUDGE, READ_SMUDGE, DISTANCE_OF_SMUDGE,
    SCAN_CLARITY, KIND_OF_SCAN, SPOOL_CLARITY, SCAN_OF_SPOOL, KIND_IN_SPOOL, CALLS
};

static const char *const names[CALLS] = {"sum", "product", "quotient", "encode_line", "step", "checks", "read_line", "read_line_wanted",
                                         "list_ring", "read_ring", "encode_block", "read_block", "better_scan", "panel_text", "panel_ring",
                                         "read_spool", "place of read_spool", "read_blotted", "read_line_paper", "read_line_paper_wanted",
                                         "encode_sheet", "read_sheet", "rounds of read_sheet", "tray_add", "tray_replace", "tray_drop", "tray_count",
                                         "encode_smudge", "read_smudge", "distance of read_smudge", "scan_clarity", "kind of scan_clarity",
                                         "spool_clarity", "scan of spool_clarity", "kind in spool_clarity"};

/* Bit n stands for answer n. */
#define CAN(n) (UINT64_C(1) << (n))
_Static_assert(FILM_LAST_REFUSAL < 64, "an answer for each bit");
static const uint64_t can_give[CALLS] = {
    CAN(0) | CAN(2),
    CAN(0) | CAN(2),
    CAN(0) | CAN(2) | CAN(13),
    CAN(0) | CAN(1) | CAN(5) | CAN(2) | CAN(4),
    CAN(0) | CAN(11) | CAN(2),
    CAN(0) | CAN(11) | CAN(12) | CAN(2),
    CAN(0) | CAN(1) | CAN(5) | CAN(2) | CAN(3) | CAN(6),
    CAN(0) | CAN(1) | CAN(5) | CAN(2) | CAN(3) | CAN(4) | CAN(6) | CAN(7),
    CAN(0) | CAN(1) | CAN(5) | CAN(2) | CAN(3),
    CAN(0) | CAN(1) | CAN(5) | CAN(2) | CAN(3) | CAN(6) | CAN(10),
    CAN(0) | CAN(8) | CAN(5) | CAN(2),
    CAN(0) | CAN(8) | CAN(5) | CAN(9),
    CAN(0) | CAN(1) | CAN(2) | CAN(3) | CAN(6),
    CAN(0) | CAN(1) | CAN(5) | CAN(2) | CAN(14) | CAN(15),
    CAN(0) | CAN(1) | CAN(5) | CAN(2) | CAN(3) | CAN(6) | CAN(10) | CAN(14) | CAN(15),
    CAN(0) | CAN(1) | CAN(5),
    CAN(0) | CAN(2) | CAN(3) | CAN(6),
    CAN(0) | CAN(1) | CAN(5) | CAN(2) | CAN(6),
    CAN(0) | CAN(1) | CAN(5) | CAN(2) | CAN(3) | CAN(6),
    CAN(0) | CAN(1) | CAN(5) | CAN(2) | CAN(3) | CAN(4) | CAN(6) | CAN(7),
    CAN(0) | CAN(1) | CAN(5) | CAN(2) | CAN(4),
    CAN(0) | CAN(1) | CAN(5) | CAN(2) | CAN(16),
    CAN(1) | CAN(2) | CAN(3) | CAN(4) | CAN(5) | CAN(6) | CAN(7) | CAN(8),
    CAN(0) | CAN(17) | CAN(1) | CAN(2),
    CAN(0) | CAN(17) | CAN(18) | CAN(19) | CAN(2),
    CAN(0) | CAN(17) | CAN(18),
    CAN(0) | CAN(17),
    CAN(0) | CAN(8) | CAN(5) | CAN(2),
    CAN(0) | CAN(8) | CAN(5) | CAN(9),
    CAN(0) | CAN(1) | CAN(2) | CAN(3) | CAN(4),
    CAN(0) | CAN(1) | CAN(20),
    CAN(FILM_RATIO) | CAN(FILM_NO_SPREAD),
    CAN(0) | CAN(1),
    CAN(0) | CAN(20),
    CAN(FILM_RATIO) | CAN(FILM_NO_SPREAD),
};

static unsigned long given[CALLS][FILM_LAST_REFUSAL + 1];

static void gave(int call, int answer) {
    HOLDS(answer <= FILM_LAST_REFUSAL && (can_give[call] >> answer & 1));
    given[call][answer]++;
}

static void print_given(void) {
    for (int call = 0; call < CALLS; call++) {
        fprintf(stderr, "answers %s:", names[call]);
        for (int n = 0; n <= FILM_LAST_REFUSAL; n++)
            if (can_give[call] >> n & 1)
                fprintf(stderr, " %d %lu,", n, given[call][n]);
        fprintf(stderr, "\n");
    }
}

#endif
