/* The calls of reading a line in the paper's way, each held against the library's own way in every field and every byte. */
#ifndef PAPER_H
#define PAPER_H

#include "answers.h"
#include "film.h"
#include "lent.h"
#include <string.h>

/* No number is wanted. */
enum { ANY_NUMBER = -1 };

/* Reads a word once more, in the paper's way: the library's own way gave `r`, and the output is as that left it. */
static void same_by_paper(film_line r, const uint8_t *word, size_t length, uint8_t radius, int wanted, size_t room, int place) {
    uint8_t written[PAGE];
    memcpy(written, output.pages, PAGE);
    uint8_t *out = lend(&output, NULL, room, place);
    const uint8_t *lent = lend(&input, word, length, place >> 2);
    film_line p = wanted == ANY_NUMBER ? film_read_line_paper(lent, length, radius, out, room)
                                       : film_read_line_paper_wanted(lent, length, radius, (uint16_t)wanted, out, room);
    gave(wanted == ANY_NUMBER ? READ_LINE_PAPER : READ_LINE_PAPER_WANTED, p.answer);
    HOLDS(memcmp(&p, &r, sizeof r) == 0);
    HOLDS(memcmp(output.pages, written, PAGE) == 0);
}

#endif
