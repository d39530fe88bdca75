/* The library in the form that the benchmark asks of every peer. */
#include "bench.h"
#include <string.h>

void ours_encode(const uint8_t *input, uint8_t radius, reply *r) {
    (void)radius;
    r->answer = film_encode_line(input, 50, (uint16_t)(input[50] * 64 + input[51]), r->out, 63);
    r->distance = 0, r->number = 0, r->length = 63;
}

void ours_encode_by_character(const uint8_t *input, uint8_t radius, reply *r) {
    (void)radius;
    film_register taken = {{0}, 0};
    for (int a = 0; a < 52; a++)
        taken = film_step(taken, input[a]).after;
    film_checked checked = film_checks(taken);
    memcpy(r->out, input, 52);
    memcpy(r->out + 52, checked.checks, 11);
    r->answer = checked.answer, r->distance = 0, r->number = 0, r->length = 63;
}

static void ours_line(film_line line, reply *r) {
    r->answer = line.answer, r->distance = line.distance, r->number = line.number, r->length = line.answer == 0 ? 63 : 0;
    r->first = line.first, r->last = line.last;
}

void ours_read(const uint8_t *input, uint8_t radius, reply *r) {
    ours_line(film_read_line(input, 63, radius, r->out, 63), r);
}

void ours_paper(const uint8_t *input, uint8_t radius, reply *r) {
    ours_line(film_read_line_paper(input, 63, radius, r->out, 63), r);
}

void ours_blotted(const uint8_t *input, uint8_t radius, reply *r) {
    (void)radius;
    ours_line(film_read_blotted(input, 63, input + 63, 63, r->out, 63), r);
}

void ours_better(const uint8_t *input, uint8_t radius, reply *r) {
    film_choice choice = film_better_scan(input, 63, input + 63, 63, radius);
    r->answer = choice.answer, r->distance = 0, r->number = choice.scan, r->length = 0;
}

void ours_list(const uint8_t *input, uint8_t radius, reply *r) {
    film_list list = film_list_ring(input, 63, radius, r->out, 126);
    r->answer = list.answer, r->distance = 0, r->number = 0, r->length = list.count;
}

void ours_block(const uint8_t *input, uint8_t radius, reply *r) {
    (void)radius;
    film_block block = film_read_block(input, 9, r->out, 9);
    r->answer = block.answer, r->distance = block.distance, r->number = 0, r->length = block.answer == 0 ? 9 : 0;
}

void ours_smudge(const uint8_t *input, uint8_t radius, reply *r) {
    (void)radius;
    film_block block = film_read_smudge(input, FILM_SMUDGE, r->out, FILM_SMUDGE);
    r->answer = block.answer, r->distance = block.distance, r->number = 0, r->length = block.answer == 0 ? FILM_SMUDGE : 0;
}

void ours_encode_smudge(const uint8_t *input, uint8_t radius, reply *r) {
    (void)radius;
    r->answer = film_encode_smudge(input, FILM_SMUDGE - 1, r->out, FILM_SMUDGE);
    r->distance = 0, r->number = 0, r->length = FILM_SMUDGE;
}

void ours_clarity(const uint8_t *input, uint8_t threshold, reply *r) { set_scan(film_scan_clarity(input, FILM_CELLS, threshold), r); }

void ours_clarity_spool(const uint8_t *input, uint8_t threshold, reply *r) { set_clarities(film_spool_clarity(input, FILM_SCANS, threshold), r); }

void ours_products(const uint8_t *input, uint8_t radius, reply *r) {
    (void)radius;
    r->answer = 0, r->distance = 0, r->number = 0, r->length = 62;
    for (int i = 0; i < 62; i++)
        r->out[i] = film_product(input[i], input[i + 1]).value;
}

void ours_quotients(const uint8_t *input, uint8_t radius, reply *r) {
    (void)radius;
    r->answer = 0, r->distance = 0, r->number = 0, r->length = 62;
    for (int i = 0; i < 62; i++) {
        film_element quotient = film_quotient(input[i], input[i + 1]);
        r->distance += quotient.answer == FILM_QUOTIENT_BY_ZERO;
        r->out[i] = quotient.value;
    }
}

static void ours_panel(film_panel panel, reply *r) {
    r->answer = panel.answer, r->distance = 0, r->number = 0, r->length = panel.length;
}

void ours_panel_text(const uint8_t *input, uint8_t radius, reply *r) {
    (void)radius;
    ours_panel(film_panel_text(input, FILM_TEXT, r->out, FILM_PANEL), r);
}

void ours_panel_ring(const uint8_t *input, uint8_t radius, reply *r) {
    ours_panel(film_panel_ring(input, FILM_CHARACTERS, radius, r->out, FILM_PANEL), r);
}

void ours_spool(const uint8_t *input, uint8_t radius, reply *r) {
    film_spool spool = film_read_spool(input, FILM_SPOOL, radius, r->out, FILM_SPOOL);
    memcpy(r->places, spool.places, sizeof r->places);
    r->answer = spool.answer, r->distance = 0, r->number = 0, r->length = spool.answer == 0 ? FILM_SPOOL : 0;
}

void ours_sheet(const uint8_t *input, uint8_t radius, reply *r) {
    (void)radius;
    film_sheet sheet = film_read_sheet(input, FILM_SHEET, r->out, FILM_SHEET);
    r->answer = sheet.answer, r->distance = 0, r->number = sheet.rounds, r->length = FILM_SHEET;
}

/* ---- Open trays. */

static uint8_t replace_step(film_tray *tray, edit e) {
    film_tray_replace(tray, e.line, e.address, e.character);
    return film_tray_count(tray).count;
}

void ours_tray_replace(const uint8_t *input, uint8_t radius, reply *r) {
    (void)radius;
    make_edits(input, replace_step, replace_step, r);
}

/* Reading at radius 0 is the fastest of the library's other ways to tell a line from other words. */
static int is_wrong(const film_tray_line *line) {
    uint8_t out[FILM_CHARACTERS];
    return film_read_line(line->characters, FILM_CHARACTERS, 0, out, FILM_CHARACTERS).answer != FILM_DONE;
}

/* No sums are held: after each change all lines are read. */
static uint8_t reading_step(film_tray *tray, edit e) {
    uint8_t wrong = 0;
    tray->lines[e.line].characters[e.address] = e.character;
    for (int i = 0; i < FILM_TRAY_LINES; i++)
        wrong += is_wrong(&tray->lines[i]);
    return wrong;
}

void ours_tray_reading(const uint8_t *input, uint8_t radius, reply *r) {
    (void)radius;
    make_edits(input, reading_step, reading_step, r);
}

/* The line that was changed is read alone. Beside each line stands whether it is wrong, in the place of its sums: they are all 0, or not. */
static uint8_t reading_one_step(film_tray *tray, edit e) {
    static const uint8_t zeros[FILM_SUMS];
    film_tray_line *line = &tray->lines[e.line];
    line->characters[e.address] = e.character;
    tray->count -= memcmp(line->sums, zeros, FILM_SUMS) != 0;
    line->sums[0] = (uint8_t)is_wrong(line);
    memset(line->sums + 1, 0, FILM_SUMS - 1);
    return tray->count += line->sums[0];
}

void ours_tray_reading_one(const uint8_t *input, uint8_t radius, reply *r) {
    (void)radius;
    make_edits(input, reading_one_step, reading_one_step, r);
}

static uint8_t drop_step(film_tray *tray, edit e) {
    (void)e;
    film_tray_drop(tray);
    return film_tray_count(tray).count;
}

/* A copy of the edit's line is added, since no line of the tray itself may be. */
static uint8_t add_step(film_tray *tray, edit e) {
    film_tray_line copy = tray->lines[e.line];
    film_tray_add(tray, copy.characters, FILM_CHARACTERS);
    return film_tray_count(tray).count;
}

void ours_tray_drop_add(const uint8_t *input, uint8_t radius, reply *r) {
    (void)radius;
    make_edits(input, drop_step, add_step, r);
}

static uint8_t count_step(film_tray *tray, edit e) {
    (void)e;
    return film_tray_count(tray).count;
}

void ours_tray_count(const uint8_t *input, uint8_t radius, reply *r) {
    (void)radius;
    make_edits(input, count_step, count_step, r);
}
