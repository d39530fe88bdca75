/* What the benchmark asks of a peer: one form for every call, so that all are timed in the same way on the same words. */
#ifndef BENCH_H
#define BENCH_H

#include "film.h"
#include <stdint.h>
#include <string.h>

/* The kinds of text that are known. */
enum { PLAIN = 0, TEMPLATE = 1 };

/* The ring place of an address at a start. */
static inline int place_at(int start, int a) { return (start < FILM_CHARACTERS ? start + a : start - a) % FILM_CHARACTERS; }

/* What a call gave. Where the answer is not 0, the other fields are 0, and so are those that a call has no use for. `out` gets `length` bytes, at most those of
 * a spool. `first` and `last` are the changed addresses of a line that was read, and `places` what was told of each line of a spool. */
typedef struct reply {
    uint8_t answer, distance, first, last;
    uint16_t length, number;
    uint8_t out[FILM_SPOOL];
    film_line places[FILM_PLACES];
} reply;

/* Encoding takes 52 characters, the last two of them the number, and panel text takes 50; the others take the 63 characters or 9 rows, and a radius. Of two
 * scans, 126 characters, the number is 1 or 2, the scan that is kept. Products are those of each character and the one after it, 62 of them; quotients
 * likewise, 0 for one that is refused, and the distance is how many are. A spool is 255 lines, one after the other, and a sheet 63, read with no radius: the
 * number is that of its rounds. A word with blots has its map after it, 63 bytes, and no radius. A block that outlasts a smudge is 8 rows, and encoding one
 * takes 7. An open tray is an edited_tray, below. A scan of brightnesses is 378 cells, a spool of them 255 scans, and the threshold stands in the place of the
 * radius: the number is the kind, and the output gets the ratio and both means; of a spool it gets the three counts. */
typedef void call(const uint8_t *input, uint8_t radius, reply *r);

call ours_encode, ours_encode_by_character, ours_read, ours_paper, ours_blotted, ours_better, ours_list, ours_block, ours_products, ours_quotients,
    ours_panel_text, ours_panel_ring, ours_spool, ours_sheet, ours_tray_replace, ours_tray_reading, ours_tray_reading_one, ours_tray_drop_add, ours_tray_count,
    ours_smudge, ours_encode_smudge, ours_clarity, ours_clarity_spool;

/* libfec, or plain C; they have to be prepared once, which gives 0 where libfec cannot be, and prepares the peer of smudges and the limit as well. */
int prepare_peers(void);
void prepare_smudges(void);
void prepare_limit(void);
call fec_encode, fec_read, fec_blotted, fec_better, fec_list, fec_panel_ring, fec_spool, fec_sheet, plain_block, plain_products, plain_quotients,
    plain_panel_text, plain_tray_walking, plain_tray_drop_add, plain_tray_count, plain_smudge, plain_encode_smudge, plain_clarity,
    plain_clarity_spool;

call second_encode, second_read, second_blotted, second_better, second_list, second_block, second_products, second_quotients, second_panel_text,
    second_panel_ring, second_spool, second_sheet, second_tray_replace, second_tray_drop_add, second_tray_count, second_smudge, second_encode_smudge,
    second_clarity, second_clarity_spool;

/* The limit, no reader, and what the library says that its replies are; of encoding that is a line. */
call limit_encode, limit_read, limit_list, limit_spool, true_read, true_list, true_spool;

/* ---- Scans of brightnesses. */

static inline void set_scan(film_scan scan, reply *r) {
    const double doubles[] = {scan.ratio, scan.dark, scan.bright};
    r->answer = scan.answer, r->distance = 0, r->number = scan.kind, r->length = scan.answer == 0 ? sizeof doubles : 0;
    memcpy(r->out, doubles, sizeof doubles);
}

static inline void set_clarities(film_clarities counts, reply *r) {
    const uint8_t bytes[] = {counts.ratios, counts.no_spreads, counts.refusals};
    r->answer = counts.answer, r->distance = 0, r->number = 0, r->length = counts.answer == 0 ? sizeof bytes : 0;
    memcpy(r->out, bytes, sizeof bytes);
}

/* ---- Open trays. */

/* The edits of a call: each puts a character at an address of a line. */
enum { EDITS = 64 };

typedef struct edit {
    uint8_t line, address, character;
} edit;

/* What a call takes: an open tray of 64 lines, and the edits that are made in it, one after the other. */
typedef struct edited_tray {
    film_tray tray;
    edit edits[EDITS];
} edited_tray;

/* A step on a tray, which gives how many of its lines are wrong then. */
typedef uint8_t step(film_tray *tray, edit e);

/* An edit is two steps: one there, and one back with the character that stood there. The output gets what each step gave. The tray is copied once, so that
 * each call begins with the same. */
static inline void make_edits(const uint8_t *input, step *there, step *back, reply *r) {
    const edited_tray *given = (const edited_tray *)input;
    film_tray tray = given->tray;
    for (int i = 0; i < EDITS; i++) {
        edit e = given->edits[i], old = e;
        old.character = tray.lines[e.line].characters[e.address];
        r->out[2 * i] = there(&tray, e);
        r->out[2 * i + 1] = back(&tray, old);
    }
    r->answer = 0, r->distance = 0, r->number = 0, r->length = 2 * EDITS;
}

#endif
