/* Sheets of few bytes: a proper one, and what dust, scattered damage, and its own columns or lines do to it. */
#ifndef DUST_H
#define DUST_H

#include "film.h"
#include "rules.h"
#include "taken.h"
#include <stddef.h>
#include <stdint.h>
#include <string.h>

/* The lines that may be damaged in any way, and the characters of each other line that may be wrong. */
enum { MENDED = 5 };

/* Numbers that follow from two bytes of the fuzzer: a counter whose bits are mixed. */
static uint64_t counter;

static uint64_t below(uint64_t n) {
    counter += 0x9e3779b97f4a7c15;
    uint64_t x = counter;
    x = (x ^ x >> 30) * 0xbf58476d1ce4e5b9;
    x = (x ^ x >> 27) * 0x94d049bb133111eb;
    return (x ^ x >> 31) % n;
}

UNTRACED static void mixed_characters(uint8_t *bytes, size_t length) {
    for (size_t i = 0; i < length; i++)
        bytes[i] = (uint8_t)below(64);
}

UNTRACED static void mixed_bytes(uint8_t *bytes, size_t length) {
    for (size_t i = 0; i < length; i++)
        bytes[i] = (uint8_t)below(256);
}

static void mixed_clean_word(uint8_t *word) {
    mixed_characters(word, 52);
    complete(word);
    change_marks(word);
}

/* Changes so many characters of a word, or fewer where two are at one address. */
static void change(uint8_t *word, int wrong) {
    for (; wrong > 0; wrong--)
        word[below(FILM_CHARACTERS)] ^= (uint8_t)below(64);
}

/* Adds to each line the word `across` times the line's character of the word `down`. Where `across` is clean lines stay lines, and where `down` is columns stay
 * clean: where both are, a proper sheet stays one. */
UNTRACED static void add_products(uint8_t *sheet, const uint8_t *down, const uint8_t *across) {
    for (int k = 0; k < FILM_SHEET; k++)
        sheet[k] ^= product(down[k / FILM_CHARACTERS], across[k % FILM_CHARACTERS]);
}

UNTRACED static void add_clean_products(uint8_t *sheet) {
    uint8_t down[FILM_CHARACTERS], across[FILM_CHARACTERS];
    mixed_clean_word(down);
    mixed_clean_word(across);
    add_products(sheet, down, across);
}

/* A proper sheet, to which products of clean words are added: with as many as there are free lines they make any. */
static uint8_t first_sheet[FILM_SHEET];

static void make_first_sheet(void) {
    for (int k = 0; k < FILM_SHEET; k++)
        first_sheet[k] = mark(k % FILM_CHARACTERS);
    for (int i = 0; i < FILM_NUMBERS; i++)
        add_clean_products(first_sheet);
}

/* Any characters in so many lines or fewer, and up to so many wrong ones in each other line. */
UNTRACED static void dust(uint8_t *sheet, int lines, int wrong) {
    for (int i = 0; i < FILM_CHARACTERS; i++)
        change(sheet + i * FILM_CHARACTERS, wrong);
    for (; lines > 0; lines--)
        mixed_characters(sheet + below(FILM_CHARACTERS) * FILM_CHARACTERS, FILM_CHARACTERS);
}

/* So many of a thousand characters are any. */
UNTRACED static void scatter(uint8_t *sheet, unsigned of_thousand) {
    for (int k = 0; k < FILM_SHEET; k++)
        if (below(1000) < of_thousand)
            sheet[k] = (uint8_t)below(64);
}

/* Any characters are added to each line whose character of a clean word is not 0, and a few wrong ones to the others, those of few lines: the columns stay
 * clean, and undo what the lines did. With `down` and `across` changed about, the lines stay lines, and undo what the columns did. */
UNTRACED static void undo(uint8_t *sheet, int wrong, int by_lines) {
    uint8_t clean[2][FILM_CHARACTERS], other[2][FILM_CHARACTERS];
    memset(other[1], 0, FILM_CHARACTERS);
    mixed_characters(other[0], FILM_CHARACTERS);
    change(other[1], wrong);
    for (int i = 0; i < 2; i++) {
        mixed_clean_word(clean[i]);
        add_products(sheet, by_lines ? other[i] : clean[i], by_lines ? clean[i] : other[i]);
    }
}

/* A sheet, with room for one byte more, and the proper one that it was made from. */
typedef struct {
    uint8_t sheet[FILM_SHEET + 1], proper[FILM_SHEET];
} made_sheet;

/* Most damage is about as much as rounds can read: dust in up to eight lines, and about an eighth of all characters. At times one byte is set to anything. */
static void take_sheet(made_sheet *m) {
    uint8_t shape = take(), amount = take(), wrong = take() % (MENDED + 2), poke = take();
    counter = take_two();
    memcpy(m->proper, first_sheet, FILM_SHEET);
    add_clean_products(m->proper);
    memcpy(m->sheet, m->proper, FILM_SHEET);
    m->sheet[FILM_SHEET] = 0;
    switch (shape % 4) {
    case 0:
        dust(m->sheet, amount < 192 ? amount % 9 : amount % 64, wrong);
        break;
    case 1:
        scatter(m->sheet, amount < 192 ? 110 + amount % 48 : 8u * (amount % 64));
        break;
    default:
        undo(m->sheet, wrong, shape & 1);
    }
    if (poke > 223)
        m->sheet[take_place(FILM_SHEET)] = take();
}

/* Whether at most five lines differ from the proper sheet's in more than five characters. */
UNTRACED static int is_promised(const made_sheet *m) {
    int lines = 0;
    for (int k = 0; k < FILM_SHEET; k += FILM_CHARACTERS)
        lines += distance(m->sheet + k, m->proper + k) > MENDED;
    return lines <= MENDED;
}

#endif
