/* Open trays of few bytes: empty ones, true ones, and ones that only a hand makes, whose sums, lines and count may be any. */
#ifndef ROOMS_H
#define ROOMS_H

#include "dust.h"
#include "film.h"
#include "rules.h"
#include "taken.h"
#include <stddef.h>
#include <stdint.h>

enum { ROOM = sizeof(film_tray_line), MOST_ROOMS = 4 };

/* The eleven power sums of a line, marks off. */
UNTRACED static void sums_of(const uint8_t *characters, uint8_t *sums) {
    for (int k = 0; k < FILM_SUMS; k++)
        sums[k] = power_sum(characters, LOWEST_SUM + k);
}

/* Whether some sum is not 0. */
static int is_wrong(const film_tray_line *room) { return !all_below(room->sums, FILM_SUMS, 1); }

static int is_unfit(const film_tray *t) { return t->held > FILM_TRAY_LINES || t->count > t->held; }

/* The lines that a tray has room for, of those that it claims. */
static int lines_of(const film_tray *t) { return t->held < FILM_TRAY_LINES ? t->held : FILM_TRAY_LINES; }

static uint8_t count_wrong(const film_tray *t) {
    uint8_t n = 0;
    for (int i = 0; i < lines_of(t); i++)
        n += is_wrong(&t->lines[i]);
    return n;
}

/* Any characters, or a line of the code with none, one or two of them changed. */
static void mixed_word(uint8_t *word, uint8_t shape) {
    mixed_characters(word, FILM_CHARACTERS);
    if (shape % 4 == 0)
        return;
    complete(word);
    change(word, shape % 4 - 1);
}

/* Such a word and its sums; any characters and any sums; or any bytes. */
static void take_room(film_tray_line *room) {
    uint8_t shape = take();
    mixed_characters(room->sums, FILM_SUMS);
    mixed_word(room->characters, shape);
    if (shape < 208)
        sums_of(room->characters, room->sums);
    else if (shape & 16)
        mixed_bytes((uint8_t *)room, ROOM);
}

/* No line, a few, or about as many as there is room for; at times any number. */
static uint8_t take_held(void) {
    uint8_t how = take();
    return how < 96 ? 0 : how < 192 ? how % 6 : how < 240 ? FILM_TRAY_LINES + 1 - how % 5 : take();
}

/* The count that is true of the sums held, or one that may not be. */
static uint8_t take_count_of(const film_tray *t) {
    uint8_t how = take();
    return how < 160 ? count_wrong(t) : how < 184 ? 0 : how < 208 ? t->held : how < 224 ? (uint8_t)(t->held + 1) : take();
}

/* The line that operations aim at: one of those held. */
static uint8_t aimed;

/* All rooms, those of no line too, hold up to four in turn. At times one byte of the line aimed at is set to anything. */
static void take_tray(film_tray *t) {
    film_tray_line rooms[MOST_ROOMS];
    uint8_t kinds = 1 + take() % MOST_ROOMS;
    counter = take_two();
    for (int i = 0; i < kinds; i++)
        take_room(&rooms[i]);
    for (int i = 0; i < FILM_TRAY_LINES; i++)
        t->lines[i] = rooms[i % kinds];
    t->held = take_held();
    t->count = take_count_of(t);
    aimed = lines_of(t) == 0 ? 0 : (uint8_t)take_place((size_t)lines_of(t));
    if (take() > 191)
        ((uint8_t *)&t->lines[aimed])[take_place(ROOM)] = take();
}

#endif
