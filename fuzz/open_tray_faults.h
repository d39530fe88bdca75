/* Faults of open trays that the fuzz target has to find: those of faults.c that stand between it and the four operations. */
#ifndef OPEN_TRAY_FAULTS_H
#define OPEN_TRAY_FAULTS_H

#include "film.h"
#include <stddef.h>
#include <stdint.h>
#include <string.h>

uint8_t __real_film_tray_add(film_tray *tray, const uint8_t *line, size_t line_len);
uint8_t __real_film_tray_replace(film_tray *tray, uint8_t line, uint8_t address, uint8_t character);
uint8_t __real_film_tray_drop(film_tray *tray);
film_count __real_film_tray_count(const film_tray *tray);

/* Adds the sums of a line, marks off, to eleven others. */
__attribute__((unused)) static void add_sums(uint8_t *sums, const uint8_t *line) {
    film_tray alone = {0};
    __real_film_tray_add(&alone, line, FILM_CHARACTERS);
    for (int k = 0; k < FILM_SUMS; k++)
        sums[k] ^= alone.lines[0].sums[k];
}

/* A line of zeros: its sums are those of the marks. */
static const uint8_t dark[FILM_CHARACTERS];

__attribute__((unused)) static int has_sums(const film_tray_line *room) { return memcmp(room->sums, dark, FILM_SUMS) != 0; }

uint8_t __wrap_film_tray_add(film_tray *tray, const uint8_t *line, size_t line_len) {
    __attribute__((unused)) uint8_t seen[FILM_CHARACTERS], held = tray->held;
#if FAULT == 64 /* a full tray comes before a length or a character */
    if (held == FILM_TRAY_LINES)
        return FILM_TRAY_UNFIT;
#elif FAULT == 65 /* whether the last character is over 63 is not looked at */
    if (line_len == FILM_CHARACTERS) {
        memcpy(seen, line, sizeof seen);
        seen[FILM_CHARACTERS - 1] &= 63;
        line = seen;
    }
#elif FAULT == 66 /* one byte too many is read of the line */
    if (line_len != 0)
        (void)((const volatile uint8_t *)line)[line_len];
#elif FAULT == 67 /* the sums that the room held before stay in it, added */
    film_tray old = *tray;
#endif
    uint8_t answer = __real_film_tray_add(tray, line, line_len);
#if FAULT == 67
    for (int k = 0; answer == FILM_DONE && k < FILM_SUMS; k++)
        tray->lines[held].sums[k] ^= old.lines[held].sums[k];
#elif FAULT == 68 /* the marks are left on */
    if (answer == FILM_DONE)
        add_sums(tray->lines[held].sums, dark);
#elif FAULT == 69 /* a line whose sum S_0 is 0 is not counted */
    if (answer == FILM_DONE && has_sums(&tray->lines[held]))
        tray->count -= tray->lines[held].sums[FILM_SUMS / 2] == 0;
#elif FAULT == 70 /* the sixty-fifth line is written over the last */
    if (answer == FILM_TRAY_UNFIT && held == FILM_TRAY_LINES && tray->count < held) {
        tray->held--;
        answer = __real_film_tray_add(tray, line, line_len);
    }
#endif
    return answer;
}

uint8_t __wrap_film_tray_replace(film_tray *tray, uint8_t line, uint8_t address, uint8_t character) {
    __attribute__((unused)) film_tray old = *tray;
    __attribute__((unused)) uint8_t sums[FILM_SUMS] = {0}, other[FILM_CHARACTERS] = {0};
#if FAULT == 71 /* an address over 62 comes before a line that is not there */
    if (__real_film_tray_count(tray).answer == FILM_DONE && address >= FILM_CHARACTERS)
        return FILM_ADDRESS_OVER;
#elif FAULT == 72 /* the first line after those held is replaced too */
    if (line == tray->held && line < FILM_TRAY_LINES) {
        tray->held++;
        uint8_t given = __real_film_tray_replace(tray, line, address, character);
        tray->held--;
        return given;
    }
#elif FAULT == 73 /* whether the last sum is over 63 is not looked at */
    if (line < FILM_TRAY_LINES)
        tray->lines[line].sums[FILM_SUMS - 1] &= 63;
#elif FAULT == 74 /* a sum that is not 0 is taken at count 0 too */
    if (tray->count == 0 && line < tray->held && line < FILM_TRAY_LINES && has_sums(&tray->lines[line])) {
        tray->count++;
        uint8_t given = __real_film_tray_replace(tray, line, address, character);
        tray->count--;
        return given;
    }
#endif
    uint8_t answer = __real_film_tray_replace(tray, line, address, character);
#if FAULT == 73
    if (answer != FILM_DONE)
        *tray = old;
#elif FAULT == 75 /* a character over 63 is refused, and yet written */
    if (answer == FILM_VALUE_OVER)
        tray->lines[line].characters[address] = character;
#elif FAULT == 76 /* the share of the new character is added, and the old one's is not taken off */
    if (answer == FILM_DONE) {
        other[address] = old.lines[line].characters[address];
        add_sums(tray->lines[line].sums, other);
        add_sums(tray->lines[line].sums, dark);
    }
#elif FAULT == 77 /* the sums are worked out afresh */
    if (answer == FILM_DONE) {
        add_sums(sums, tray->lines[line].characters);
        memcpy(tray->lines[line].sums, sums, FILM_SUMS);
    }
#elif FAULT == 78 /* a line that is right again stays counted */
    if (answer == FILM_DONE && tray->count < old.count)
        tray->count = old.count;
#elif FAULT == 79 /* a line that was wrong before is counted once more */
    if (answer == FILM_DONE && has_sums(&old.lines[line]) && has_sums(&tray->lines[line]))
        tray->count++;
#elif FAULT == 80 /* the share goes to the line before as well */
    if (answer == FILM_DONE && line > 0)
        for (int k = 0; k < FILM_SUMS; k++)
            tray->lines[line - 1].sums[k] ^= tray->lines[line].sums[k] ^ old.lines[line].sums[k];
#elif FAULT == 81 /* what would put the count above the lines is refused */
    if (answer == FILM_DONE && tray->count > tray->held) {
        *tray = old;
        answer = FILM_TRAY_UNFIT;
    }
#elif FAULT == 82 /* a line that does not fit comes before an address over 62 */
    if (answer == FILM_ADDRESS_OVER && __real_film_tray_replace(&old, line, 0, 0) == FILM_TRAY_UNFIT)
        answer = FILM_TRAY_UNFIT;
#endif
    return answer;
}

uint8_t __wrap_film_tray_drop(film_tray *tray) {
#if FAULT == 83 /* that no line is left comes before a count above the lines */
    if (tray->held == 0)
        return FILM_LINE_NOT_HELD;
#elif FAULT == 84 /* the first line is looked at, and not the last, before that is dropped */
    film_tray first = *tray;
    first.held = 1, first.count = tray->count > 0;
    if (__real_film_tray_count(tray).answer == FILM_DONE && tray->held > 0) {
        uint8_t given = __real_film_tray_drop(&first);
        if (given == FILM_DONE)
            tray->count -= has_sums(&tray->lines[--tray->held]);
        return given;
    }
#endif
    uint8_t answer = __real_film_tray_drop(tray);
#if FAULT == 85 /* the count stays as it was, where that fits the lines that are left */
    if (answer == FILM_DONE && tray->count < tray->held)
        tray->count += has_sums(&tray->lines[tray->held]);
#elif FAULT == 86 /* the room is cleared */
    if (answer == FILM_DONE)
        memset(&tray->lines[tray->held], 0, sizeof tray->lines[0]);
#endif
    return answer;
}

film_count __wrap_film_tray_count(const film_tray *tray) {
#if FAULT == 87 /* one byte too many is read of the tray */
    (void)((const volatile uint8_t *)tray)[sizeof *tray];
#elif FAULT == 88 /* the tray is written, if only with what it held */
    *(volatile uint8_t *)&tray->count = tray->count;
#endif
    film_count r = __real_film_tray_count(tray);
#if FAULT == 89 /* a tray of 64 lines is refused */
    if (tray->held == FILM_TRAY_LINES)
        r = (film_count){FILM_TRAY_UNFIT, 0};
#elif FAULT == 90 /* a refusal tells the count */
    r.count = tray->count;
#elif FAULT == 91 /* the lines are counted afresh */
    r.count = 0;
    for (int i = 0; r.answer == FILM_DONE && i < tray->held; i++)
        r.count += has_sums(&tray->lines[i]);
#endif
    return r;
}

#endif
