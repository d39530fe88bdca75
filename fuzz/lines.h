/* The calls of reading lines, in the paper's way too, and scans. */
#ifndef LINES_H
#define LINES_H

#include "answers.h"
#include "film.h"
#include "lent.h"
#include "paper.h"
#include "rules.h"
#include "taken.h"
#include <string.h>

/* The refusal that needs no reading, or 0. */
static int due_first(const uint8_t *word, size_t length, size_t room, size_t stated, uint8_t radius) {
    return length != 63 ? 1 : room != stated ? 5 : !all_below(word, 63, 64) ? 2 : radius > 5 ? 3 : 0;
}

/* Reads a word with no wanted number and checks all that can be known of the answer. A line that is read goes to `line`. */
static film_line read_line(const made *m, size_t length, uint8_t radius, size_t room, int place, uint8_t *line) {
    uint8_t *out = lend(&output, NULL, room, place);
    film_line r = film_read_line(lend(&input, m->word, length, place >> 2), length, radius, out, room);
    int due = due_first(m->word, length, room, 63, radius);
    gave(READ_LINE, r.answer);
    HOLDS(kept_after(&output, r.answer == 0 ? 63 : 0));
    if (r.answer != 0) {
        HOLDS(r.number == 0 && r.distance == 0 && r.first == 0 && r.last == 0 && r.answer == (due != 0 ? due : 6));
        if (r.answer == 6)
            HOLDS(!(m->is_made && distance(m->word, m->line) <= radius) && !is_line(m->word));
        return r;
    }
    uint8_t *copy = copied(&output);
    HOLDS(due == 0 && all_below(copy, 63, 64) && is_line(copy));
    HOLDS(r.distance == distance(copy, m->word) && r.distance <= radius && r.number == number_of(copy));
    HOLDS(r.first == first_changed(copy, m->word) && r.last == last_changed(copy, m->word));
    if (m->is_made && distance(m->word, m->line) <= 5)
        HOLDS(memcmp(copy, m->line, 63) == 0);
    memcpy(line, copy, 63);
    free(copy);
    return r;
}

/* Reads a word, which `taken` takes, with no wanted number and with one, and each time in the paper's way too. */
static void read_taken(made (*taken)(void)) {
    size_t length = take_length(63), room = take_length(63);
    uint8_t radius = take() % 8, place = take();
    uint16_t wanted = take_two();
    if (place & 64)
        wanted %= 4096;
    made m = taken();
    uint8_t line[63], same[63];
    film_line r = read_line(&m, length, radius, room, place, line);
    same_by_paper(r, m.word, length, radius, ANY_NUMBER, room, place);
    if (place & 128)
        wanted = r.number;

    /* a radius more or less changes nothing but which lines are near enough */
    if (r.answer == 0 || r.answer == 6) {
        film_line widest = read_line(&m, 63, 5, 63, place, same);
        same_by_paper(widest, m.word, 63, 5, ANY_NUMBER, 63, place);
        HOLDS(r.answer == (widest.answer == 0 && widest.distance <= radius ? 0 : 6));
        HOLDS(r.answer != 0 || memcmp(line, same, 63) == 0);
    }

    uint8_t *out = lend(&output, NULL, room, place);
    film_line w = film_read_line_wanted(lend(&input, m.word, length, place >> 2), length, radius, wanted, out, room);
    gave(READ_LINE_WANTED, w.answer);
    int due = due_first(m.word, length, room, 63, radius);
    HOLDS(w.answer == (due != 0 ? due : wanted > 4095 ? 4 : r.answer != 0 ? 6 : wanted != r.number ? 7 : 0));
    HOLDS(kept_after(&output, w.answer == 0 ? 63 : 0));
    if (w.answer != 0)
        HOLDS(w.number == 0 && w.distance == 0 && w.first == 0 && w.last == 0);
    else
        HOLDS(memcmp(&w, &r, sizeof r) == 0 && memcmp(bytes_of(&output), line, 63) == 0);
    same_by_paper(w, m.word, length, radius, wanted, room, place);
}

static void read_line_calls(void) { read_taken(take_word); }
static void recurrence_calls(void) { read_taken(take_recurrence); }

/* Two scans, of one line half of the time: each is read first, and the better is the one that is read with the smaller distance. */
static void scan_calls(void) {
    size_t length = take_length(63), second_length = take_length(63);
    uint8_t radius = take() % 8, place = take(), is_same = take() & 1, wrong = take() % 7, line[63];
    made one = take_word(), other = is_same ? one : take_word();
    if (is_same && one.is_made) {
        memcpy(other.word, one.line, 63);
        for (int i = 0; i < wrong; i++)
            other.word[take() % 63] ^= take() & 63;
    }
    film_line first = read_line(&one, length, radius, 63, place, line), second = read_line(&other, second_length, radius, 63, place, line);
    const uint8_t *lent = lend(&input, one.word, length, place);
    film_choice r = film_better_scan(lent, length, lend(&second_input, other.word, second_length, place >> 2), second_length, radius);
    gave(BETTER_SCAN, r.answer);
    int is_second = second.answer == 0 && (first.answer != 0 || second.distance < first.distance);
    int due = is_second ? 2 : first.answer == 0 ? 1 : 0;
    HOLDS(r.scan == due && r.answer == (due == 0 ? first.answer : 0));
}

/* Reads a word that lies so far from its line. */
static void read_made(const made *m, int apart, uint8_t radius, uint8_t place) {
    uint8_t line[63];
    film_line r = read_line(m, 63, radius, 63, place, line);
    HOLDS(r.answer == (apart <= radius ? 0 : 6) && (r.answer != 0 || r.distance == apart));
    same_by_paper(r, m->word, 63, radius, ANY_NUMBER, 63, place);
}

/* Lines merged by exclusive or: three are a line, and two lack the marks of one. */
static void merged_call(void) {
    uint8_t three = take() & 1, radius = take() % 6, place = take(), line[63];
    made m = {{0}, {0}, 1};
    for (int i = 0; i < 2 + three; i++) {
        take_line(line);
        for (int a = 0; a < 63; a++)
            m.word[a] ^= line[a];
    }
    memcpy(m.line, m.word, 63);
    if (!three)
        change_marks(m.line);
    read_made(&m, three ? 0 : 3, radius, place);
}

/* A clean word turned or reversed: with the marks on it is a line. */
static void moved_call(void) {
    uint8_t start = take() % 126, radius = take() % 6, place = take(), clean[63];
    made m = {{0}, {0}, 1};
    take_line(clean);
    change_marks(clean);
    turned(clean, start, m.word);
    change_marks(m.word);
    memcpy(m.line, m.word, 63);
    read_made(&m, 0, radius, place);
}

#endif
