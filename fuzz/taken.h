/* What the fuzzer's bytes mean: numbers, lengths, lines and words. Past their end they are 0. */
#ifndef TAKEN_H
#define TAKEN_H

#include "film.h"
#include "rules.h"
#include <stddef.h>
#include <stdint.h>
#include <string.h>

enum { LONGEST = 600 };

static const uint8_t *next;
static size_t left;

static uint8_t take(void) { return left == 0 ? 0 : (left--, *next++); }
static uint16_t take_two(void) { uint8_t high = take(); return (uint16_t)(high * 256 + take()); }

/* The length that is stated, three times in four. */
static size_t take_length(size_t stated) {
    uint8_t how = take();
    if (how < 192)
        return stated;
    if (how < 224)
        return how - 192;
    if (how < 240)
        return how & 1 || stated == 0 ? stated + 1 : stated - 1;
    return take_two() % LONGEST;
}

/* Any address, or any place of so many; the first or the last at times: what is passed over is most often an end. */
static int take_address(void) {
    uint8_t how = take();
    return how < 224 ? how % FILM_CHARACTERS : how & 1 ? 0 : FILM_CHARACTERS - 1;
}

static size_t take_place(size_t length) {
    uint8_t how = take();
    return how < 192 ? take_two() % length : how & 1 ? 0 : length - 1;
}

/* A line of any text and number. */
static void take_line(uint8_t *line) {
    uint16_t number = take_two() % 4096;
    line[50] = (uint8_t)(number / 64), line[51] = number % 64;
    for (int a = 0; a < 50; a++)
        line[a] = take() & 63;
    complete(line);
}

/* A word of 63 bytes and the line it was made from, if it was: any bytes, any characters, or a line with characters changed. Two in
 * three are lines. At times one byte is set to anything. */
typedef struct {
    uint8_t word[LONGEST], line[63];
    int is_made;
} made;

static made take_word(void) {
    made m = {{0}, {0}, 0};
    uint8_t shape = take(), wrong = take() % 9, poke = take();
    if (shape % 3 == 0) {
        for (int a = 0; a < 63; a++)
            m.word[a] = shape & 64 ? take() : take() & 63;
    } else {
        uint8_t places[8], values[8];
        for (int i = 0; i < wrong; i++)
            places[i % 8] = (uint8_t)take_address(), values[i % 8] = take() & 63;
        take_line(m.line);
        m.is_made = 1;
        memcpy(m.word, m.line, 63);
        for (int i = 0; i < wrong; i++)
            m.word[places[i % 8]] ^= values[i % 8];
    }
    if (poke > 239)
        m.word[poke % 63] = take();
    return m;
}

/* Any line, and added to it a word whose sums follow a recurrence of up to five terms. The recurrence's roots are taken: places, one of them twice at times, or
 * 0, which is none. So are the first sums, some of which are 0. The word has at each place X the sum of S_j X^-j, and so the sums S_j. */
static made take_recurrence(void) {
    made m = {{0}, {0}, 0};
    uint8_t terms = take() % 6, zeros = take() % 6, root = 0, locator[6] = {1}, sums[FILM_CHECKS] = {0};
    for (int n = 1; n <= terms; n++) {
        uint8_t how = take();
        root = how < 192 ? how & 63 : root;
        for (int k = n; k > 0; k--)
            locator[k] = locator[k - 1] ^ product(root, locator[k]);
        locator[0] = product(root, locator[0]);
    }
    for (int k = 0; k < FILM_CHECKS; k++)
        if (k < terms)
            sums[k] = k < zeros ? 0 : take() & 63;
        else
            for (int i = 0; i < terms; i++)
                sums[k] ^= product(locator[i], sums[k - terms + i]);
    take_line(m.word);
    for (int a = 0; a < FILM_CHARACTERS; a++)
        for (int k = 0; k < FILM_CHECKS; k++)
            m.word[a] ^= product(sums[k], power[(63 + 5 - k) * (62 - a) % 63]);
    return m;
}

/* A kind of text: plain half of the time, a template in a quarter of it. */
static uint8_t take_kind(uint8_t mask) {
    uint8_t how = take();
    return how < 128 ? PLAIN : how < 192 ? TEMPLATE : take() & mask;
}

/* Gives the line of a made word another kind of text; the same characters are changed in it as before. */
static void set_kind(made *m, uint8_t kind) {
    for (int a = 0; a < FILM_CHARACTERS; a++)
        m->word[a] ^= m->line[a];
    m->line[0] = kind;
    complete(m->line);
    for (int a = 0; a < FILM_CHARACTERS; a++)
        m->word[a] ^= m->line[a];
}

#endif
