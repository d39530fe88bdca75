/* Faults of sheets that the fuzz target has to find: those of faults.c that stand between it and film_read_sheet or film_encode_sheet. */
#ifndef SHEET_FAULTS_H
#define SHEET_FAULTS_H

#include "film.h"
#include <stddef.h>
#include <stdint.h>
#include <string.h>

film_line __real_film_read_line(const uint8_t *word, size_t word_len, uint8_t radius, uint8_t *out, size_t out_len);
film_sheet __real_film_read_sheet(const uint8_t *sheet, size_t sheet_len, uint8_t *out, size_t out_len);
uint8_t __real_film_encode_sheet(const uint8_t *texts, size_t texts_len, const uint16_t *numbers, size_t numbers_len, uint8_t *out, size_t out_len);

static uint8_t mark_at(int a) { return a == 52 ? 32 : a == 55 ? 8 : a == 62 ? 1 : 0; }

/* A proper sheet is read as it stands. */
static int is_proper_sheet(const uint8_t *sheet) {
    uint8_t same[FILM_SHEET];
    film_sheet r = __real_film_read_sheet(sheet, FILM_SHEET, same, FILM_SHEET);
    return r.answer == FILM_DONE && r.rounds == 1;
}

/* Reads all lines, or all columns, and gives whether one of them was changed. */
static int read_lines(uint8_t *sheet) {
    int is_changed = 0;
    for (uint8_t *line = sheet; line < sheet + FILM_SHEET; line += FILM_CHARACTERS) {
        uint8_t word[FILM_CHARACTERS];
        memcpy(word, line, FILM_CHARACTERS);
        is_changed |= __real_film_read_line(word, FILM_CHARACTERS, 5, line, FILM_CHARACTERS).distance != 0;
    }
    return is_changed;
}

static int read_columns(uint8_t *sheet) {
    int is_changed = 0;
    for (int a = 0; a < FILM_CHARACTERS; a++) {
        uint8_t word[FILM_CHARACTERS], line[FILM_CHARACTERS], off = mark_at(a);
#if FAULT == 50 /* the marks are left on the columns */
        off = 0;
#endif
        for (int i = 0; i < FILM_CHARACTERS; i++)
            word[i] = sheet[i * FILM_CHARACTERS + a] ^ off ^ mark_at(i);
        memcpy(line, word, FILM_CHARACTERS);
        is_changed |= __real_film_read_line(word, FILM_CHARACTERS, 5, line, FILM_CHARACTERS).distance != 0;
        for (int i = 0; i < FILM_CHARACTERS; i++)
            sheet[i * FILM_CHARACTERS + a] = line[i] ^ off ^ mark_at(i);
    }
    return is_changed;
}

/* The rounds with something wrong in them. */
__attribute__((unused)) static film_sheet wrong_rounds(const uint8_t *sheet, uint8_t *out) {
    film_sheet r = {FILM_DONE, 0};
    uint8_t before[FILM_SHEET];
    int is_over, most = FILM_ROUNDS;
    memcpy(out, sheet, FILM_SHEET);
#if FAULT == 52 /* seven rounds at most */
    most--;
#endif
    do {
        memcpy(before, out, FILM_SHEET);
#if FAULT == 49 /* rounds go on while a line or a column is changed, though the columns undo what the lines did */
        is_over = !(read_lines(out) | read_columns(out));
#elif FAULT == 51 /* the columns are read first */
        read_columns(out), read_lines(out);
        is_over = memcmp(before, out, FILM_SHEET) == 0;
#else
        read_lines(out), read_columns(out);
        is_over = memcmp(before, out, FILM_SHEET) == 0;
#endif
#if FAULT == 53 /* no round is run to see that a sheet which is proper now stays so */
        is_over |= is_proper_sheet(out);
#endif
        r.rounds++;
    } while (!is_over && r.rounds < most);
    r.answer = is_proper_sheet(out) ? FILM_DONE : FILM_IMPROPER_SHEET;
    return r;
}

film_sheet __wrap_film_read_sheet(const uint8_t *sheet, size_t sheet_len, uint8_t *out, size_t out_len) {
#if FAULT == 45 /* an improper sheet is not written */
    uint8_t old[FILM_SHEET];
    if (out_len == FILM_SHEET)
        memcpy(old, out, FILM_SHEET);
#elif FAULT == 48 /* a character over 63 comes before the output's length */
    for (size_t i = 0; sheet_len == FILM_SHEET && i < sheet_len; i++)
        if (sheet[i] > 63)
            return (film_sheet){FILM_VALUE_OVER, 0};
#elif FAULT == 56 /* whether the last character is over 63 is not looked at */
    uint8_t seen[FILM_SHEET];
    if (sheet_len == FILM_SHEET) {
        memcpy(seen, sheet, FILM_SHEET);
        seen[FILM_SHEET - 1] &= 63;
        sheet = seen;
    }
#elif FAULT == 57 /* one byte too many is read of the sheet */
    if (sheet_len != 0)
        (void)((const volatile uint8_t *)sheet)[sheet_len];
#endif
    film_sheet r = __real_film_read_sheet(sheet, sheet_len, out, out_len);
#if FAULT == 45
    if (r.answer == FILM_IMPROPER_SHEET)
        memcpy(out, old, FILM_SHEET);
#elif FAULT == 46 /* the last round is not counted */
    r.rounds -= r.rounds > 0;
#elif FAULT == 47 /* of an improper sheet no rounds are told */
    r.rounds = r.answer == FILM_DONE ? r.rounds : 0;
#elif FAULT >= 49 && FAULT <= 53
    if (r.rounds != 0)
        r = wrong_rounds(sheet, out);
#elif FAULT == 54 /* a sheet of lines is taken for proper, whatever its columns are */
    uint8_t lines[FILM_SHEET];
    if (r.answer == FILM_IMPROPER_SHEET) {
        int i = 0;
        while (i < FILM_SHEET && __real_film_read_line(out + i, FILM_CHARACTERS, 0, lines, FILM_CHARACTERS).answer == FILM_DONE)
            i += FILM_CHARACTERS;
        r.answer = i == FILM_SHEET ? FILM_DONE : r.answer;
    }
#elif FAULT == 55 /* a sheet that the last round left as it was is taken for proper */
    if (r.answer == FILM_IMPROPER_SHEET && r.rounds < FILM_ROUNDS)
        r.answer = FILM_DONE;
#endif
    return r;
}

/* Where the lines begin that the columns force. */
enum { FORCED = FILM_NUMBERS * FILM_CHARACTERS };

uint8_t __wrap_film_encode_sheet(const uint8_t *texts, size_t texts_len, const uint16_t *numbers, size_t numbers_len, uint8_t *out, size_t out_len) {
#if FAULT == 59 /* numbers after the fifty-second are passed over */
    if (numbers_len > FILM_NUMBERS)
        numbers_len = FILM_NUMBERS;
#elif FAULT == 60 /* the lowest twelve bits of a number are taken for it */
    uint16_t low[FILM_NUMBERS];
    if (numbers_len == FILM_NUMBERS) {
        for (int i = 0; i < FILM_NUMBERS; i++)
            low[i] = numbers[i] % 4096;
        numbers = low;
    }
#endif
    uint8_t answer = __real_film_encode_sheet(texts, texts_len, numbers, numbers_len, out, out_len);
    size_t over = 0;
    while (numbers_len == FILM_NUMBERS && over < FILM_NUMBERS && numbers[over] < 4096)
        over++;
#if FAULT == 58 /* the last eleven lines are left dark */
    if (answer == FILM_DONE)
        memset(out + FORCED, 0, FILM_SHEET - FORCED);
#elif FAULT == 61 /* a number over 4095 comes before a character over 63 */
    if (answer == FILM_VALUE_OVER && over < FILM_NUMBERS)
        answer = FILM_NUMBER_OVER;
#elif FAULT == 62 /* the last eleven lines lack their marks */
    for (int k = FORCED; answer == FILM_DONE && k < FILM_SHEET; k++)
        out[k] ^= mark_at(k % FILM_CHARACTERS);
#elif FAULT == 63 /* the lines before a number over 4095 are written */
    for (size_t i = 0; answer == FILM_NUMBER_OVER && i < over; i++)
        film_encode_line(texts + i * FILM_TEXT, FILM_TEXT, numbers[i], out + i * FILM_CHARACTERS, FILM_CHARACTERS);
#endif
    return answer;
}

#endif
