/* What the tests in C of open trays share: a tray with bytes to either side, what each operation has to answer and to leave, for any tray
 * and by no table, and operations by chance. */
#ifndef TRAYS_H
#define TRAYS_H

#include "chance.h"
#include "expect.h"
#include "field.h"
#include "film.h"
#include <string.h>

enum { LINE = FILM_CHARACTERS, LINES = FILM_TRAY_LINES, SUMS = FILM_SUMS, ROOM = LINE + SUMS, ANY_BYTE = 256 };
enum { LAST_ADDRESS = LINE - 1, LAST_CHARACTER = 63, POWERS = 63, ALPHA = 2, LOWEST = -5 };
enum { SIDE = 80, OLD = 170 };

/* A tray with bytes to either side, and what all of it has to hold in the end. */
struct lent {
    uint8_t before[SIDE];
    film_tray tray;
    uint8_t after[SIDE];
};
static struct lent memory, due;
static film_tray *const tray = &memory.tray, *const due_tray = &due.tray;

/* What is added, with as many bytes after it. */
static uint8_t line[2 * LINE];

static const uint8_t bytes_over[] = {64, 65, 127, 128, 192, 255};
static const size_t wrong_lengths[] = {0, 1, 62, 64, 126};
enum { BYTES_OVER = sizeof bytes_over, WRONG_LENGTHS = sizeof wrong_lengths / sizeof wrong_lengths[0] };

/* What a call has to do begins with what is there. */
static void lend(void) { due = memory; }

/* Whether a call answered so, and left the tray and what lies beside it as is due. */
static int is_due(int answer, int due_answer) { return answer == due_answer && memcmp(&memory, &due, sizeof memory) == 0; }

/* Whether asking for the count gives this answer and this count, and changes nothing. */
static int counts(int answer, int count) {
    film_count r = film_tray_count(tray);
    return is_due(r.answer, answer) && r.count == count;
}

static unsigned power(int exponent) {
    unsigned value = 1;
    for (exponent = (exponent % POWERS + POWERS) % POWERS; exponent > 0; exponent--)
        value = of_polynomials(value, ALPHA);
    return value;
}

/* The mark at an address, 0 where there is none. */
static unsigned mark(int a) { return a == 52 ? 32 : a == 55 ? 8 : a == 62 ? 1 : 0; }

/* A power sum worked out afresh: the value of the characters, marks off, at a power of alpha, step by step from address 0 on. */
static unsigned sum_of(const uint8_t *characters, int j) {
    unsigned sum = 0, point = power(j);
    for (int a = 0; a < LINE; a++)
        sum = of_polynomials(sum, point) ^ characters[a] ^ mark(a);
    return sum;
}

static int is_wrong(const film_tray_line *room) {
    for (int k = 0; k < SUMS; k++)
        if (room->sums[k] != 0)
            return 1;
    return 0;
}

static int is_over(const uint8_t *bytes, int length) {
    for (int k = 0; k < length; k++)
        if (bytes[k] > LAST_CHARACTER)
            return 1;
    return 0;
}

static int fits(void) { return due_tray->held <= LINES && due_tray->count <= due_tray->held; }

/* What replacing in a line, and dropping it, ask of it last. */
static int is_sound(const film_tray_line *room) {
    return !is_over(room->characters, LINE) && !is_over(room->sums, SUMS) && (due_tray->count > 0 || !is_wrong(room));
}

static int answer_of_adding(size_t length) {
    if (!fits())
        return FILM_TRAY_UNFIT;
    if (length != LINE)
        return FILM_INPUT_LENGTH;
    if (is_over(line, LINE))
        return FILM_VALUE_OVER;
    return due_tray->held == LINES ? FILM_TRAY_UNFIT : FILM_DONE;
}

static int answer_of_replacing(int i, int a, int c) {
    if (!fits())
        return FILM_TRAY_UNFIT;
    if (i >= due_tray->held)
        return FILM_LINE_NOT_HELD;
    if (a > LAST_ADDRESS)
        return FILM_ADDRESS_OVER;
    if (c > LAST_CHARACTER)
        return FILM_VALUE_OVER;
    return is_sound(&due_tray->lines[i]) ? FILM_DONE : FILM_TRAY_UNFIT;
}

static int answer_of_dropping(void) {
    if (!fits())
        return FILM_TRAY_UNFIT;
    if (due_tray->held == 0)
        return FILM_LINE_NOT_HELD;
    return is_sound(&due_tray->lines[due_tray->held - 1]) ? FILM_DONE : FILM_TRAY_UNFIT;
}

/* Whether adding so much of the line is answered so, as the rules say, and leaves what is due: its sums are worked out afresh. */
static int adds(size_t length, int answer) {
    if (answer_of_adding(length) != answer)
        return 0;
    if (answer == FILM_DONE) {
        film_tray_line *room = &due_tray->lines[due_tray->held++];
        memcpy(room->characters, line, LINE);
        for (int k = 0; k < SUMS; k++)
            room->sums[k] = (uint8_t)sum_of(line, LOWEST + k);
        due_tray->count += (uint8_t)is_wrong(room);
    }
    return is_due(film_tray_add(tray, length == 0 ? NULL : line, length), answer);
}

/* The same of replacing a character: to each sum that is held, whatever it is, the share of the change is added. */
static int replaces(int i, int a, int c, int answer) {
    if (answer_of_replacing(i, a, c) != answer)
        return 0;
    if (answer == FILM_DONE) {
        film_tray_line *room = &due_tray->lines[i];
        unsigned change = room->characters[a] ^ (unsigned)c;
        due_tray->count -= (uint8_t)is_wrong(room);
        room->characters[a] = (uint8_t)c;
        for (int k = 0; k < SUMS; k++)
            room->sums[k] ^= (uint8_t)of_polynomials(change, power((LOWEST + k) * (LAST_ADDRESS - a)));
        due_tray->count += (uint8_t)is_wrong(room);
    }
    return is_due(film_tray_replace(tray, (uint8_t)i, (uint8_t)a, (uint8_t)c), answer);
}

/* The same of dropping the last line: its room keeps its bytes. */
static int drops(int answer) {
    if (answer_of_dropping() != answer)
        return 0;
    if (answer == FILM_DONE)
        due_tray->count -= (uint8_t)is_wrong(&due_tray->lines[--due_tray->held]);
    return is_due(film_tray_drop(tray), answer);
}

/* Another line: of the code, that with one wrong character, any characters, zeros, or the highest. */
enum { OF_THE_CODE, ONE_WRONG, ANY, ZEROS, HIGHEST, WAYS };

static void make_line(int way) {
    uint8_t text[FILM_TEXT];
    for (int a = 0; a < LINE; a++)
        line[a] = (uint8_t)(way == ANY ? below(LAST_CHARACTER + 1) : way == HIGHEST ? LAST_CHARACTER : 0);
    if (way > ONE_WRONG)
        return;
    for (int k = 0; k < FILM_TEXT; k++)
        text[k] = (uint8_t)below(LAST_CHARACTER + 1);
    EXPECT(film_encode_line(text, FILM_TEXT, (uint16_t)below(4096), line, LINE) == FILM_DONE);
    if (way == ONE_WRONG)
        line[below(LINE)] ^= (uint8_t)(1 + below(LAST_CHARACTER));
}

/* A number up to the highest that is taken, or now and then any. */
static int mostly(int taken) { return below(8) == 0 ? below(ANY_BYTE) : below(taken + 1); }

/* Adds a line of some kind, now and then one that is refused. */
static void add_by_chance(void) {
    size_t length = below(8) == 0 ? wrong_lengths[below(WRONG_LENGTHS)] : (size_t)LINE;
    make_line(below(WAYS));
    if (below(8) == 0)
        line[below(LINE)] = bytes_over[below(BYTES_OVER)];
    EXPECT(adds(length, answer_of_adding(length)));
}

/* One operation, whatever it is answered, and the count after it; tells which line it may have touched. */
static int step(void) {
    int i = mostly(due_tray->held), a = mostly(LAST_ADDRESS), c = mostly(LAST_CHARACTER), way = below(8);
    if (way < 3)
        add_by_chance();
    else if (way < 7)
        EXPECT(replaces(i, a, c, answer_of_replacing(i, a, c)));
    else
        EXPECT(drops(answer_of_dropping()));
    EXPECT(fits() ? counts(FILM_DONE, due_tray->count) : counts(FILM_TRAY_UNFIT, 0));
    return way < 3 ? tray->held - 1 : i;
}

#endif
