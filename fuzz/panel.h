/* The calls of text for a panel. */
#ifndef PANEL_H
#define PANEL_H

#include "answers.h"
#include "film.h"
#include "lent.h"
#include "rules.h"
#include "taken.h"
#include <string.h>

/* Holds what was written against the text: in a refusal, that it is nothing. */
static void written_holds(film_panel r, const uint8_t *text) {
    HOLDS(r.length <= (r.answer == 0 ? FILM_PANEL : 0) && kept_after(&output, r.length));
    if (r.answer != 0)
        return;
    uint8_t characters[FILM_PANEL], escaped[FILM_PANEL], *written = copied(&output);
    HOLDS(is_harmless(written, r.length));
    HOLDS(unescape(written, r.length, characters) == AFTER_KIND && memcmp(characters, text + 1, AFTER_KIND) == 0);
    HOLDS(r.length == escape(text, escaped) && memcmp(written, escaped, r.length) == 0);
    free(written);
}

/* Writes a text and checks all of the answer. */
static film_panel panel_text(const uint8_t *text, size_t length, size_t room, int place) {
    uint8_t *out = lend(&output, NULL, room, place);
    film_panel r = film_panel_text(lend(&input, text, length, place >> 2), length, out, room);
    gave(PANEL_TEXT, r.answer);
    HOLDS(r.answer == (length != FILM_TEXT ? 1 : room < FILM_PANEL ? 5 : !all_below(text, length, 64) ? 2 : kind_refused(text[0])));
    written_holds(r, text);
    return r;
}

/* A text of any bytes, of any characters, or of those alone that are written by name: past the fuzzer's bytes one of them over and over, so that the
 * longest text is met too. */
static void panel_text_call(void) {
    size_t length = take_length(FILM_TEXT), room = take_length(FILM_PANEL);
    uint8_t shape = take() % 3, mask = shape == 0 ? 255 : 63, place = take(), kind = take_kind(mask), one = take();
    uint8_t *text = malloc(length);
    for (size_t i = 0; i < length; i++)
        text[i] = i == 0 ? kind : shape == 1 ? named[(one + take()) % NAMED].byte - FIRST_BYTE : take() & mask;
    panel_text(text, length, room, place);
    free(text);
}

/* The line is read from the ring first, and its text is written: once the lengths are right, the panel's ring has to give the same. */
static void panel_ring_call(void) {
    size_t length = take_length(FILM_CHARACTERS), room = take_length(FILM_PANEL);
    uint8_t radius = take() % 7, place = take(), start = take() % FILM_STARTS, kind = take_kind(63), line[FILM_CHARACTERS];
    made m = take_word(), ring = m;
    if (m.is_made)
        set_kind(&m, kind);
    recorded(m.word, start, ring.word);

    uint8_t *out = lend(&output, NULL, sizeof line, place);
    film_ring read = film_read_ring(lend(&input, ring.word, length, place >> 2), length, radius, out, sizeof line);
    gave(READ_RING, read.answer);
    memcpy(line, bytes_of(&output), sizeof line);
    int due = length != FILM_CHARACTERS ? 1 : room < FILM_PANEL ? 5 : read.answer;
    if (due == 0)
        due = panel_text(line, FILM_TEXT, room, place).answer;

    out = lend(&output, NULL, room, place);
    film_panel r = film_panel_ring(lend(&input, ring.word, length, place >> 2), length, radius, out, room);
    gave(PANEL_RING, r.answer);
    HOLDS(r.answer == due);
    written_holds(r, line);
}

#endif
