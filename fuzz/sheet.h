/* The calls of sheets: encoding held against the rules, and reading against rounds by film_read_line, in every field and every byte. */
#ifndef SHEET_H
#define SHEET_H

#include "answers.h"
#include "dust.h"
#include "film.h"
#include "lent.h"
#include "rules.h"
#include "taken.h"
#include <stdlib.h>
#include <string.h>

/* Takes a column out, its marks off and a line's on: it is a line where the column is a clean word. Or puts it back. */
UNTRACED static void take_column(const uint8_t *sheet, int a, uint8_t *word) {
    for (int i = 0; i < FILM_CHARACTERS; i++)
        word[i] = sheet[i * FILM_CHARACTERS + a] ^ mark(a) ^ mark(i);
}

UNTRACED static void put_column(uint8_t *sheet, int a, const uint8_t *word) {
    for (int i = 0; i < FILM_CHARACTERS; i++)
        sheet[i * FILM_CHARACTERS + a] = word[i] ^ mark(a) ^ mark(i);
}

UNTRACED static int is_proper(const uint8_t *sheet) {
    uint8_t word[FILM_CHARACTERS];
    for (int i = 0; i < FILM_CHARACTERS; i++)
        if (!is_line(sheet + i * FILM_CHARACTERS))
            return 0;
    for (int a = 0; a < FILM_CHARACTERS; a++) {
        take_column(sheet, a, word);
        if (!is_line(word))
            return 0;
    }
    return 1;
}

/* Each line, then each column; film_read_line writes nothing where it reads nothing. */
UNTRACED static void run_round(uint8_t *sheet) {
    uint8_t word[FILM_CHARACTERS], *line = sheet;
    for (int i = 0; i < FILM_CHARACTERS; i++, line += FILM_CHARACTERS) {
        memcpy(word, line, FILM_CHARACTERS);
        film_read_line(word, FILM_CHARACTERS, 5, line, FILM_CHARACTERS);
    }
    for (int a = 0; a < FILM_CHARACTERS; a++) {
        uint8_t read[FILM_CHARACTERS];
        take_column(sheet, a, word);
        if (film_read_line(word, FILM_CHARACTERS, 5, read, FILM_CHARACTERS).answer == 0)
            put_column(sheet, a, read);
    }
}

/* Runs the rounds that are due, and gives how many they are. */
UNTRACED static int run_rounds(uint8_t *sheet) {
    uint8_t before[FILM_SHEET];
    int rounds = 0;
    do {
        memcpy(before, sheet, FILM_SHEET);
        run_round(sheet);
        rounds++;
    } while (rounds < FILM_ROUNDS && memcmp(before, sheet, FILM_SHEET) != 0);
    return rounds;
}

/* Reads a sheet and checks the refusals that need no reading; what is written goes to `written`, and else nothing. */
static film_sheet read_sheet(const uint8_t *sheet, size_t length, size_t room, int place, uint8_t *written) {
    uint8_t *out = lend(&output, NULL, room, place);
    film_sheet r = film_read_sheet(lend(&input, sheet, length, place >> 2), length, out, room);
    int due = length != FILM_SHEET ? 1 : room != FILM_SHEET ? 5 : !all_below(sheet, FILM_SHEET, 64) ? 2 : 0;
    gave(READ_SHEET, r.answer);
    HOLDS(kept_after(&output, due == 0 ? FILM_SHEET : 0));
    if (due != 0) {
        HOLDS(r.answer == due && r.rounds == 0);
        return r;
    }
    gave(ROUNDS_OF_SHEET, r.rounds);
    uint8_t *copy = copied(&output);
    HOLDS((r.answer == 0 || r.answer == 16) && all_below(copy, FILM_SHEET, 64));
    memcpy(written, copy, FILM_SHEET);
    free(copy);
    return r;
}

static void read_sheet_call(void) {
    static made_sheet m;
    uint8_t written[FILM_SHEET], same[FILM_SHEET];
    size_t length = take_length(FILM_SHEET), room = take_length(FILM_SHEET);
    uint8_t place = take();
    take_sheet(&m);
    film_sheet r = read_sheet(m.sheet, length, room, place, written);
    if (r.rounds == 0)
        return;
    HOLDS((r.answer == 0) == is_proper(written));
    if (is_promised(&m))
        HOLDS(r.rounds == (memcmp(m.sheet, m.proper, FILM_SHEET) == 0 ? 1 : 2) && memcmp(written, m.proper, FILM_SHEET) == 0);
    HOLDS(run_rounds(m.sheet) == r.rounds && memcmp(written, m.sheet, FILM_SHEET) == 0);
    /* what a round left as it was the next leaves too */
    if (r.rounds < FILM_ROUNDS) {
        film_sheet again = read_sheet(written, FILM_SHEET, FILM_SHEET, place, same);
        HOLDS(again.answer == r.answer && again.rounds == 1 && memcmp(written, same, FILM_SHEET) == 0);
    }
}

/* The texts and numbers of a sheet, with room for wrong counts of them. */
typedef struct {
    uint8_t texts[FILM_TEXTS + 1];
    uint16_t numbers[LONGEST];
} made_texts;

/* At times one byte, one number or both are set to anything. */
static void take_texts(made_texts *m) {
    uint8_t poke = take();
    counter = take_two();
    mixed_characters(m->texts, sizeof m->texts);
    for (int i = 0; i < LONGEST; i++)
        m->numbers[i] = (uint16_t)below(4096);
    if (poke > 127 && poke & 1)
        m->texts[take_place(FILM_TEXTS)] = take();
    if (poke > 127 && poke & 2)
        m->numbers[take_place(FILM_NUMBERS)] = take_two();
}

UNTRACED static int all_numbers(const uint16_t *numbers) {
    int i = 0;
    while (i < FILM_NUMBERS && numbers[i] < 4096)
        i++;
    return i == FILM_NUMBERS;
}

static void encode_sheet_call(void) {
    static made_texts m;
    size_t length = take_length(FILM_TEXTS), count = take_length(FILM_NUMBERS), room = take_length(FILM_SHEET);
    uint8_t place = take();
    take_texts(&m);
    uint8_t *out = lend(&output, NULL, room, place);
    const uint16_t *numbers = (const uint16_t *)lend(&second_input, (const uint8_t *)m.numbers, count * sizeof *numbers, place >> 4);
    uint8_t answer = film_encode_sheet(lend(&input, m.texts, length, place >> 2), length, numbers, count, out, room);
    gave(ENCODE_SHEET, answer);
    int is_long = length == FILM_TEXTS && count == FILM_NUMBERS;
    HOLDS(answer == (!is_long ? 1 : room != FILM_SHEET ? 5 : !all_below(m.texts, FILM_TEXTS, 64) ? 2 : !all_numbers(m.numbers) ? 4 : 0));
    HOLDS(kept_after(&output, answer == 0 ? FILM_SHEET : 0));
    if (answer != 0)
        return;
    uint8_t *sheet = copied(&output);
    HOLDS(all_below(sheet, FILM_SHEET, 64) && is_proper(sheet));
    for (int i = 0; i < FILM_NUMBERS; i++) {
        const uint8_t *line = sheet + i * FILM_CHARACTERS;
        HOLDS(memcmp(line, m.texts + i * FILM_TEXT, FILM_TEXT) == 0 && number_of(line) == m.numbers[i]);
    }
    free(sheet);
}

#endif
