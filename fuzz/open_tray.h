/* The four operations of an open tray, one after the other: each held against the rules in plain C, in its answer and in every byte of the tray. */
#ifndef OPEN_TRAY_H
#define OPEN_TRAY_H

#include "answers.h"
#include "dust.h"
#include "film.h"
#include "lent.h"
#include "rooms.h"
#include "rules.h"
#include "taken.h"
#include <stddef.h>
#include <stdint.h>
#include <string.h>

/* One character of one line, and what it is replaced by. */
typedef struct {
    uint8_t line, address, character;
} edit;

/* ---- The rules: what each operation answers, and what it makes of a tray. */

/* What replacing and dropping refuse last. */
static int is_unsound(const film_tray *t, int line) {
    return !all_below((const uint8_t *)&t->lines[line], ROOM, 64) || (is_wrong(&t->lines[line]) && t->count == 0);
}

static int add_by_rules(film_tray *t, const uint8_t *line, size_t length) {
    if (is_unfit(t))
        return FILM_TRAY_UNFIT;
    if (length != FILM_CHARACTERS)
        return FILM_INPUT_LENGTH;
    if (!all_below(line, FILM_CHARACTERS, 64))
        return FILM_VALUE_OVER;
    if (t->held == FILM_TRAY_LINES)
        return FILM_TRAY_UNFIT;
    film_tray_line *room = &t->lines[t->held++];
    memcpy(room->characters, line, FILM_CHARACTERS);
    sums_of(line, room->sums);
    t->count += is_wrong(room);
    return FILM_DONE;
}

static int replace_by_rules(film_tray *t, edit e) {
    if (is_unfit(t))
        return FILM_TRAY_UNFIT;
    if (e.line >= t->held)
        return FILM_LINE_NOT_HELD;
    if (e.address >= FILM_CHARACTERS)
        return FILM_ADDRESS_OVER;
    if (e.character > 63)
        return FILM_VALUE_OVER;
    if (is_unsound(t, e.line))
        return FILM_TRAY_UNFIT;
    film_tray_line *room = &t->lines[e.line];
    t->count -= is_wrong(room);
    for (int k = 0; k < FILM_SUMS; k++)
        room->sums[k] ^= share(room->characters[e.address] ^ e.character, e.address, LOWEST_SUM + k);
    room->characters[e.address] = e.character;
    t->count += is_wrong(room);
    return FILM_DONE;
}

static int drop_by_rules(film_tray *t) {
    if (is_unfit(t))
        return FILM_TRAY_UNFIT;
    if (t->held == 0)
        return FILM_LINE_NOT_HELD;
    if (is_unsound(t, t->held - 1))
        return FILM_TRAY_UNFIT;
    t->held--;
    t->count -= is_wrong(&t->lines[t->held]);
    return FILM_DONE;
}

/* Whether the sums of each line held, and the count, are what working them out afresh gives. */
static int is_true(const film_tray *t) {
    uint8_t sums[FILM_SUMS];
    for (int i = 0; i < lines_of(t); i++) {
        sums_of(t->lines[i].characters, sums);
        if (memcmp(t->lines[i].sums, sums, FILM_SUMS) != 0)
            return 0;
    }
    return t->count == count_wrong(t);
}

/* ---- The operations. */

static film_tray *opened, due; /* the tray that is lent, and what it has to be */
static uint8_t side;           /* at which wall slices are lent */
static edit undoing;           /* what puts back the character that was replaced last */

/* Holds every byte of the tray against what is due, and asks its count where it may only be read. */
static void tray_holds(void) {
    HOLDS(memcmp(bytes_of(&open_tray), &due, sizeof due) == 0 && kept_after(&open_tray, sizeof due));
    film_count r = film_tray_count((const film_tray *)lend(&asked_tray, (const uint8_t *)&due, sizeof due, side));
    gave(TRAY_COUNT, r.answer);
    HOLDS(r.answer == (is_unfit(&due) ? FILM_TRAY_UNFIT : FILM_DONE) && r.count == (is_unfit(&due) ? 0 : due.count));
}

static uint8_t add_call(const uint8_t *word, size_t length) {
    uint8_t answer = film_tray_add(opened, lend(&input, word, length, side >> 1), length);
    gave(TRAY_ADD, answer);
    HOLDS(answer == add_by_rules(&due, word, length));
    tray_holds();
    return answer;
}

/* Adds a word, at times again and again until it is refused. At times one character is set to anything. */
static void add_calls(void) {
    uint8_t word[LONGEST] = {0}, shape = take(), poke = take();
    size_t length = take_length(FILM_CHARACTERS);
    int is_again = poke % 32 == 16;
    mixed_word(word, shape);
    if (poke > 223)
        word[take_address()] = take();
    while (add_call(word, length) == FILM_DONE && is_again)
        continue;
}

static void replace_call(edit e) {
    int is_inside = e.line < FILM_TRAY_LINES && e.address < FILM_CHARACTERS;
    edit back = {e.line, e.address, is_inside ? due.lines[e.line].characters[e.address] : 0};
    uint8_t answer = film_tray_replace(opened, e.line, e.address, e.character);
    gave(TRAY_REPLACE, answer);
    HOLDS(answer == replace_by_rules(&due, e));
    tray_holds();
    if (answer == FILM_DONE)
        undoing = back;
}

/* The line aimed at, any that is held, the last, the one after it, or any number. */
static uint8_t take_line_number(void) {
    uint8_t how = take();
    if (how < 96)
        return aimed;
    if (how < 192)
        return due.held == 0 ? 0 : how % due.held;
    return how < 224 ? (uint8_t)(due.held - (how & 1)) : take();
}

static void replace_any_call(void) {
    edit e;
    e.line = take_line_number();
    uint8_t how = take();
    e.address = how < 232 ? (uint8_t)take_address() : how < 244 ? FILM_CHARACTERS : take();
    e.character = take();
    if (e.character < 208)
        e.character &= 63;
    replace_call(e);
}

/* Puts a character back: a line that was right before is right again. */
static void put_back_call(void) { replace_call(undoing); }

static void drop_call(void) {
    uint8_t answer = film_tray_drop(opened);
    gave(TRAY_DROP, answer);
    HOLDS(answer == drop_by_rules(&due));
    tray_holds();
}

enum { MOST_OPERATIONS = 16 };

/* Up to sixteen operations on one tray. Where it was empty at first, its sums and its count are true in the end. */
static void open_tray_calls(void) {
    static void (*const operations[])(void) = {add_calls, replace_any_call, replace_any_call, put_back_call, drop_call};
    side = take();
    take_tray(&due);
    undoing = (edit){aimed, 0, due.lines[aimed].characters[0]};
    opened = (film_tray *)lend(&open_tray, (const uint8_t *)&due, sizeof due, side >> 3);
    int was_empty = due.held == 0 && due.count == 0;
    tray_holds();
    for (int n = 0; n < MOST_OPERATIONS && left > 0; n++)
        operations[take() % (sizeof operations / sizeof operations[0])]();
    HOLDS(!was_empty || is_true((const film_tray *)bytes_of(&open_tray)));
}

#endif
