/* The call of reading a spool: its answer, every place and every byte of output, held against film_read_line line by line. */
#ifndef SPOOL_H
#define SPOOL_H

#include "answers.h"
#include "film.h"
#include "lent.h"
#include "taken.h"
#include <stdlib.h>
#include <string.h>

/* The answer is too large for registers: on x86-64 the caller hands over where it is to be written, before all else, and gets that
 * back. Called so, it can be lent as an output is, against a wall and with old bytes in it. */
film_spool *film_read_spool_into(film_spool *answer, const uint8_t *lines, size_t lines_len, uint8_t radius, uint8_t *out, size_t out_len) __asm__("film_read_spool");

/* Any length is one up to that of a line more than the longest spool; the room beside it may be a line and a byte longer still, and fits the pages. */
enum { MOST_WORDS = 4, ANY_LENGTH = FILM_SPOOL + FILM_CHARACTERS };

/* How many lines: most often a few, since many take long; at times the most, and one more. */
static size_t take_count(void) {
    uint8_t how = take();
    return how < 232 ? how % 9 : how < 240 ? take() : how < 248 ? FILM_PLACES : FILM_PLACES + 1;
}

/* The length that is stated, seven times in eight; else up to a line and a byte more or less, or any. */
static size_t take_near(size_t stated) {
    uint8_t how = take();
    if (how < 224)
        return stated;
    if (how >= 252)
        return take_two() % ANY_LENGTH;
    size_t by = take() % (FILM_CHARACTERS + 2);
    return how & 1 ? stated + by : by < stated ? stated - by : 0;
}

/* A spool of up to four words in turn. At times each line has one character changed, at an address of its own, so that two lines of one word are answered
 * otherwise. */
static uint8_t *take_lines(size_t length) {
    uint8_t count = 1 + take() % MOST_WORDS, is_changed = take() & 1, *lines = malloc(length);
    made words[MOST_WORDS];
    for (int w = 0; w < count; w++)
        words[w] = take_word();
    for (size_t i = 0; i < length; i++) {
        size_t line = i / FILM_CHARACTERS, address = i % FILM_CHARACTERS;
        lines[i] = words[line % count].word[address];
        if (is_changed && address == line % FILM_CHARACTERS)
            lines[i] ^= line % 64;
    }
    return lines;
}

/* What an output holds before: bytes that differ from line to line. */
static uint8_t *take_old(size_t room) {
    uint8_t first = take(), *old = malloc(room);
    for (size_t i = 0; i < room; i++)
        old[i] = (uint8_t)(first + i / 5);
    return old;
}

/* Holds the places of so many lines against film_read_line, which turns the old output into the one that is due; the places after them are zeros. */
static void places_hold(const film_spool *r, const uint8_t *lines, size_t count, uint8_t radius, uint8_t *due) {
    for (size_t i = 0; i < FILM_PLACES; i++) {
        film_line place = {0, 0, 0, 0, 0};
        if (i < count) {
            place = film_read_line(lines + i * FILM_CHARACTERS, FILM_CHARACTERS, radius, due + i * FILM_CHARACTERS, FILM_CHARACTERS);
            gave(PLACE_OF_SPOOL, place.answer);
        }
        HOLDS(memcmp(&r->places[i], &place, sizeof place) == 0);
    }
}

static void spool_call(void) {
    size_t length = take_near(take_count() * FILM_CHARACTERS), room = take_near(length);
    uint8_t radius = take() % 8, place = take(), *due = take_old(room), *lines = take_lines(length);
    film_spool r, *lent = (film_spool *)lend(&spool_answer, NULL, sizeof r, place >> 4);
    uint8_t *out = lend(&spool_output, due, room, place);
    HOLDS(film_read_spool_into(lent, lend(&spool_input, lines, length, place >> 2), length, radius, out, room) == lent);
    memcpy(&r, bytes_of(&spool_answer), sizeof r);
    gave(READ_SPOOL, r.answer);
    HOLDS(r.answer == (length % FILM_CHARACTERS != 0 || length > FILM_SPOOL ? 1 : room != length ? 5 : 0));
    places_hold(&r, lines, r.answer == 0 ? length / FILM_CHARACTERS : 0, radius, due);
    HOLDS(memcmp(bytes_of(&spool_output), due, room) == 0);
    HOLDS(kept_after(&spool_output, room) && kept_after(&spool_answer, sizeof r));
    free(due);
    free(lines);
}

#endif
