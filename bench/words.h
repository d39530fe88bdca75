/* The words of the benchmark: what the calls of each row are given, the same in every run. */
#ifndef WORDS_H
#define WORDS_H

#include "bench.h"
#include "film.h"
#include <stdint.h>
#include <string.h>

/* The limit is no peer, and stands after them; a row that has none has NULL there. */
enum { OURS = 0, FEC = 1, SECOND = 2, PEERS = 3, LIMIT = PEERS, CALLS };

/* How many words a row has. */
enum { LINES = 128, RINGS = 4, SPOOLS = 8, SHEETS = 4, TRAYS = 4, SCANNED = 64 };

typedef enum { ENCODE, READ, SCANS, RING, NOISE, BLOCK, FIELD, PANEL, PANEL_RING, SPOOL, BLOTS, CLEAN_BLOTS, NOISE_LINE, SHEET, TRAY,
               SMUDGE, SMUDGE_NOISE, SMUDGE_DATA, CLARITY, CLARITY_SPOOL } kind;

/* Lines with one error in a spool of the mix. Table 1 of source document 001 has 849,085 single errors in 108,366,272 lines: 1.998 in 255. More errors than
 * one have 9,116 of its lines, 0.021 in 255 and 0.17 in the row's eight spools: nearest to that is none. */
enum { MIXED = 2 };

/* The most lines of a sheet that may be damaged in any way. */
enum { DEAD = 5 };

/* The lines of an open tray that have a wrong character. */
enum { UNMENDED = 2 };

/* Of smudges: the data rows; the rows at which a window may begin, as many columns, and all windows; two words for each; and the leap from one to the next,
 * which meets them all. */
enum { DATA_ROWS = FILM_SMUDGE - 1, STARTS = FILM_SMUDGE - 1, WINDOWS = STARTS * STARTS, SMUDGES = 2 * WINDOWS, LEAP = 19 };

/* Of scans of brightnesses: the threshold, how far from it the middles of the two bells are, and how far a bell reaches to either side of its middle. */
enum { THRESHOLD = 128, MIDDLE = 64, BELL = 48 };

typedef struct {
    const char *name;
    kind of;
    int wrong, blots;
    uint8_t radius;
    call *calls[CALLS];
    uint8_t (*words)[63];
    double least[CALLS];
} row;

/* The same numbers in every run: a counter whose bits are mixed. */
static uint64_t counter = 1;

static uint64_t below(uint64_t n) {
    counter += 0x9e3779b97f4a7c15;
    uint64_t x = counter;
    x = (x ^ x >> 30) * 0xbf58476d1ce4e5b9;
    x = (x ^ x >> 27) * 0x94d049bb133111eb;
    return (x ^ x >> 31) % n;
}

static void bytes_below(uint64_t bound, uint8_t *bytes, int length) {
    for (int i = 0; i < length; i++)
        bytes[i] = (uint8_t)below(bound);
}

static void characters(uint8_t *word) { bytes_below(64, word, 63); }

/* Puts a 1 at so many of `of` places. */
static void choose(int *chosen, uint64_t of, int n) {
    while (n > 0) {
        uint64_t i = below(of);
        n -= !chosen[i];
        chosen[i] = 1;
    }
}

/* Changes so many characters, each at an address of its own, where there is no 1 in `changed`, and puts a 1 there. */
static void change(uint8_t *word, int wrong, uint8_t *changed) {
    while (wrong > 0) {
        uint64_t a = below(63);
        if (!changed[a]) {
            changed[a] = 1;
            word[a] ^= (uint8_t)(1 + below(63));
            wrong--;
        }
    }
}

static void damage(uint8_t *word, int wrong) {
    uint8_t changed[63] = {0};
    change(word, wrong, changed);
}

/* Any lines, so many of them with one wrong character, and edits at any places. */
static void make_tray(edited_tray *edited, int wrong) {
    reply r;
    uint8_t text[FILM_CHARACTERS];
    int is_wrong[FILM_TRAY_LINES] = {0};
    choose(is_wrong, FILM_TRAY_LINES, wrong);
    for (int i = 0; i < FILM_TRAY_LINES; i++) {
        characters(text);
        fec_encode(text, 0, &r);
        damage(r.out, is_wrong[i]);
        film_tray_add(&edited->tray, r.out, FILM_CHARACTERS);
    }
    for (edit *e = edited->edits; e < edited->edits + EDITS; e++) {
        e->line = (uint8_t)below(FILM_TRAY_LINES);
        e->address = (uint8_t)below(FILM_CHARACTERS);
        e->character = (uint8_t)below(64);
    }
}

/* A block that has so many wrong cells in one window: of each window in turn. */
static void make_smudge(uint8_t *rows, int wrong) {
    static int window;
    uint8_t data[DATA_ROWS];
    int row = window / STARTS, column = window % STARTS, filling = (1 << wrong) - 1;
    bytes_below(128, data, DATA_ROWS);
    film_encode_smudge(data, DATA_ROWS, rows, FILM_SMUDGE);
    rows[row] ^= (uint8_t)((filling & 3) << column);
    rows[row + 1] ^= (uint8_t)(filling >> 2 << column);
    window = (window + LEAP) % WINDOWS;
}

/* Each of so many cells is in one of two bells, which reach so far: where that is 0 each side is of one brightness. */
static void make_cells(uint8_t *cells, int count, int reach) {
    for (int i = 0; i < count; i++) {
        int cell = (below(2) == 0 ? THRESHOLD - MIDDLE : THRESHOLD + MIDDLE) - reach;
        for (int part = 0; part < 4; part++)
            cell += (int)below((uint64_t)reach / 2 + 1);
        cells[i] = (uint8_t)cell;
    }
}

static void make_word(const row *w, uint8_t *word) {
    reply r;
    uint8_t line[63];
    characters(word);
    switch (w->of) {
    case ENCODE:
    case NOISE:
    case NOISE_LINE:
    case FIELD:
        return;
    case PANEL:
        word[0] = PLAIN;
        return;
    case BLOCK: {
        uint8_t data[8];
        bytes_below(128, data, 8);
        film_encode_block(data, 8, word, 9);
        /* none, one or two bits wrong */
        for (uint64_t n = below(3); n > 0; n--)
            word[below(9)] ^= (uint8_t)(1 << below(8));
        return;
    }
    case READ:
        do {
            characters(line);
            fec_encode(line, 0, &r);
            memcpy(word, r.out, 63);
            damage(word, w->wrong);
            fec_read(word, 5, &r);
        } while (r.answer != (w->wrong > 5 ? FILM_NO_LINE : FILM_DONE)); /* six wrong characters may lie near another line: not here */
        return;
    case SCANS: /* one line, scanned with so many wrong characters and again with one more, in either order */
        fec_encode(word, 0, &r);
        memcpy(word, r.out, 63);
        memcpy(word + 63, r.out, 63);
        int more = (int)below(2);
        damage(word, w->wrong + more);
        damage(word + 63, w->wrong + 1 - more);
        return;
    case PANEL_RING:
        word[0] = PLAIN;
        /* fall through */
    case RING: {
        fec_encode(word, 0, &r);
        memcpy(line, r.out, 63);
        damage(line, w->wrong);
        int start = (int)below(126);
        for (int a = 0; a < 63; a++)
            word[place_at(start, a)] = line[a];
        return;
    }
    case SPOOL: {
        int wrong[FILM_PLACES] = {0};
        choose(wrong, FILM_PLACES, w->wrong);
        for (int i = 0; i < FILM_PLACES; i++) {
            characters(line);
            fec_encode(line, 0, &r);
            memcpy(word + 63 * i, r.out, 63);
            damage(word + 63 * i, wrong[i]);
        }
        return;
    }
    case SHEET: { /* any characters in so many lines; each other line is whole */
        int dead[FILM_CHARACTERS] = {0};
        uint8_t texts[FILM_TEXTS];
        uint16_t numbers[FILM_NUMBERS];
        bytes_below(64, texts, FILM_TEXTS);
        for (int i = 0; i < FILM_NUMBERS; i++)
            numbers[i] = (uint16_t)below(4096);
        film_encode_sheet(texts, FILM_TEXTS, numbers, FILM_NUMBERS, word, FILM_SHEET);
        choose(dead, FILM_CHARACTERS, w->wrong);
        for (int i = 0; i < FILM_CHARACTERS; i++)
            if (dead[i])
                characters(word + 63 * i);
        return;
    }
    case TRAY:
        make_tray((edited_tray *)word, w->wrong);
        return;
    case SMUDGE:
        make_smudge(word, w->wrong);
        return;
    case SMUDGE_NOISE:
        do {
            bytes_below(256, word, FILM_SMUDGE);
            plain_smudge(word, 0, &r);
        } while (r.answer == FILM_DONE);
        return;
    case SMUDGE_DATA:
        bytes_below(128, word, DATA_ROWS);
        return;
    case CLARITY:
        make_cells(word, FILM_CELLS, w->wrong);
        return;
    case CLARITY_SPOOL:
        make_cells(word, FILM_SCANS, w->wrong);
        return;
    case BLOTS:
    case CLEAN_BLOTS: { /* so many characters are wrong outside the blots; at the blots all are, or none in a clean word, of which a copy is changed */
        uint8_t *map = word + 63, changed[63];
        fec_encode(word, 0, &r);
        memcpy(word, r.out, 63);
        change(w->of == BLOTS ? word : r.out, w->blots, map);
        memcpy(changed, map, 63);
        change(word, w->wrong, changed);
        return;
    }
    }
}

/* Two scans are two words, one after the other, a word with blots has its map after it, a spool is 255 words, a sheet 63, a scan of brightnesses 6, a
 * spool of them 255 times as many, and an edited tray as many as it needs. */
static int stride(const row *w) {
    switch (w->of) {
    case SCANS:
    case BLOTS:
    case CLEAN_BLOTS:
        return 2;
    case SPOOL:
        return FILM_PLACES;
    case SHEET:
        return FILM_CHARACTERS;
    case CLARITY:
        return FILM_CELLS / FILM_CHARACTERS;
    case CLARITY_SPOOL:
        return FILM_SCANS / FILM_CHARACTERS;
    case TRAY:
        return (int)(sizeof(edited_tray) + FILM_CHARACTERS - 1) / FILM_CHARACTERS;
    default:
        return 1;
    }
}

static int words_of(const row *w) {
    switch (w->of) {
    case RING:
    case NOISE:
    case PANEL_RING:
        return RINGS;
    case SPOOL:
    case CLARITY_SPOOL:
        return SPOOLS;
    case SHEET:
        return SHEETS;
    case TRAY:
        return TRAYS;
    case SMUDGE:
        return SMUDGES;
    case CLARITY:
        return SCANNED;
    default:
        return LINES / stride(w);
    }
}

/* What the cost is given for: a call, but of a spool a line or a scan, and of an edited tray a step. */
static int parts_of(const row *w) {
    return words_of(w) * (w->of == SPOOL ? FILM_PLACES : w->of == CLARITY_SPOOL ? FILM_SCANS / FILM_CELLS : w->of == TRAY ? 2 * EDITS : 1);
}

#endif
