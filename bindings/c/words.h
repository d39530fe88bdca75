/* What the tests in C that read one word share: a line and a word of it, an output with bytes to either side, and what is due. */
#ifndef WORDS_H
#define WORDS_H

#include "chance.h"
#include "expect.h"
#include "film.h"
#include <string.h>

enum { LINE = FILM_CHARACTERS, SIDE = 16, OLD = 170 };

/* A line, and a word of 63 bytes with as many zeros after it. */
static uint8_t line[LINE], word[2 * LINE];

/* An output with bytes to either side, and what all of it has to hold in the end. */
static uint8_t memory[SIDE + 2 * LINE + SIDE], due[sizeof memory];
static uint8_t *const out = memory + SIDE, *const due_out = due + SIDE;

/* Lengths that are not 63. */
static const size_t wrong_lengths[] = {0, 1, 62, 64, 126};
enum { WRONG_LENGTHS = sizeof wrong_lengths / sizeof wrong_lengths[0] };

static void lend(void) {
    memset(memory, OLD, sizeof memory);
    memset(due, OLD, sizeof due);
}

static int same(film_line one, film_line other) {
    return one.answer == other.answer && one.distance == other.distance && one.number == other.number && one.first == other.first && one.last == other.last;
}

/* Whether a call gave what is due and left what is due in the output and beside it. */
static int is_due(film_line r, film_line answer) { return same(r, answer) && memcmp(memory, due, sizeof memory) == 0; }

static int is_refused(film_line r, int answer) {
    film_line none = {(uint8_t)answer, 0, 0, 0, 0};
    return is_due(r, none);
}

static int number_of(const uint8_t *characters) { return characters[50] * 64 + characters[51]; }

/* What reading `word` has to give where it is read as `line`. */
static film_line read_as_line(void) {
    film_line r = {FILM_DONE, 0, (uint16_t)number_of(line), FILM_NOWHERE, FILM_NOWHERE};
    for (int a = 0; a < LINE; a++) {
        if (word[a] == line[a])
            continue;
        if (r.distance++ == 0)
            r.first = (uint8_t)a;
        r.last = (uint8_t)a;
    }
    memcpy(due_out, line, LINE);
    return r;
}

/* Any line, and the word that is equal to it. */
static void make_line(void) {
    uint8_t text[FILM_TEXT];
    for (int a = 0; a < FILM_TEXT; a++)
        text[a] = (uint8_t)below(64);
    EXPECT(film_encode_line(text, FILM_TEXT, (uint16_t)below(4096), line, LINE) == FILM_DONE);
    memcpy(word, line, LINE);
}

/* Another character at an address. */
static void spoil(int a) { word[a] ^= (uint8_t)(1 + below(63)); }

#endif
