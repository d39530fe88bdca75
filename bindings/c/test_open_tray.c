/* Tests of an open tray from an empty one on: its lines are those that were added and changed, its sums and its count what working them
 * out afresh gives, freed room is used again, and a refusal changes no byte. It compiles as C and as C++. */
#include "trays.h"

enum { SEQUENCES = 40, STEPS = 500 };

/* A fact that the compiler sees: an array of -1 bytes is an error in C and in C++. */
#define ALWAYS(name, holds) typedef char name[(holds) ? 1 : -1]
ALWAYS(size_of_tray, sizeof(film_tray) == 4738 && FILM_TRAY == 4738);
ALWAYS(fields_of_tray, offsetof(film_tray, lines) == 0 && offsetof(film_tray, held) == 4736 && offsetof(film_tray, count) == 4737);
ALWAYS(size_of_line, sizeof(film_tray_line) == 74 && sizeof(film_tray) == 64 * sizeof(film_tray_line) + 2);
ALWAYS(fields_of_line, offsetof(film_tray_line, characters) == 0 && offsetof(film_tray_line, sums) == 63);
ALWAYS(fields_of_count, sizeof(film_count) == 2 && offsetof(film_count, answer) == 0 && offsetof(film_count, count) == 1);

/* An empty tray: its rooms hold this byte. */
static void lend_empty(int byte) {
    memset(&memory, byte, sizeof memory);
    tray->held = tray->count = 0;
    lend();
}

/* Whether the sums of a line and the count of the tray are what working them out afresh gives; they are all 0 in a line of the code alone. */
static int is_afresh(int i) {
    const film_tray_line *room = &tray->lines[i];
    uint8_t out[LINE];
    int count = 0;
    for (int k = 0; k < SUMS; k++)
        if (room->sums[k] != sum_of(room->characters, LOWEST + k))
            return 0;
    for (int n = 0; n < tray->held; n++)
        count += is_wrong(&tray->lines[n]);
    return tray->count == count && is_wrong(room) == (film_read_line(room->characters, LINE, 0, out, LINE).answer != FILM_DONE);
}

/* Adds 64 lines of every kind to an empty tray. */
static void fill(void) {
    for (int i = 0; i < LINES; i++) {
        make_line(i % WAYS);
        EXPECT(adds(LINE, FILM_DONE) && tray->held == i + 1 && is_afresh(i));
    }
}

/* 64 lines and no more, into empty trays; the length and the characters of a 65th come first. */
static void adding(void) {
    for (int byte = 0; byte <= OLD; byte += OLD) {
        lend_empty(byte);
        EXPECT(counts(FILM_DONE, 0));
        fill();
        EXPECT(counts(FILM_DONE, due_tray->count) && tray->count == LINES - (LINES + WAYS - 1) / WAYS);
        for (int way = 0; way < WAYS; way++) {
            make_line(way);
            EXPECT(adds(LINE, FILM_TRAY_UNFIT));
        }
        line[LAST_ADDRESS] = LAST_CHARACTER + 1;
        EXPECT(adds(LINE, FILM_VALUE_OVER) && adds(LAST_ADDRESS, FILM_INPUT_LENGTH));
    }
}

/* Every character at every address of one of three lines, in the order of their numbers, the one that is there too. */
static void replacing(void) {
    lend_empty(OLD);
    for (int i = 0; i < 3; i++) {
        make_line(OF_THE_CODE);
        EXPECT(adds(LINE, FILM_DONE));
    }
    for (int a = 0; a < LINE; a++) {
        int i = a % 3, kept = tray->lines[i].characters[a];
        for (int c = 0; c <= LAST_CHARACTER; c++)
            EXPECT(replaces(i, a, c, FILM_DONE) && is_afresh(i) && counts(FILM_DONE, c != kept));
        EXPECT(replaces(i, a, kept, FILM_DONE) && counts(FILM_DONE, 0));
    }
}

/* A line is made wrong and right again, character by character, in every place of a full tray: the count follows. */
static void wrong_and_right(void) {
    lend_empty(0);
    for (int i = 0; i < LINES; i++) {
        make_line(OF_THE_CODE);
        EXPECT(adds(LINE, FILM_DONE) && counts(FILM_DONE, 0));
    }
    for (int i = 0; i < LINES; i++) {
        int one = below(LINE), other = (one + 1 + below(LINE - 1)) % LINE;
        int kept = tray->lines[i].characters[one], also_kept = tray->lines[i].characters[other];
        EXPECT(replaces(i, one, kept ^ 1, FILM_DONE) && counts(FILM_DONE, i + 1));
        EXPECT(replaces(i, other, also_kept ^ 1, FILM_DONE) && counts(FILM_DONE, i + 1));
        EXPECT(replaces(i, one, kept, FILM_DONE) && counts(FILM_DONE, i + 1));
        EXPECT(replaces(i, other, also_kept, FILM_DONE) && counts(FILM_DONE, i));
        EXPECT(replaces(i, other, also_kept ^ 1, FILM_DONE) && counts(FILM_DONE, i + 1) && is_afresh(i));
    }
}

/* All lines are dropped, and their rooms keep their bytes until they are used again. */
static void dropping(void) {
    lend_empty(OLD);
    for (int twice = 0; twice < 2; twice++) {
        fill();
        for (int left = LINES - 1; left >= 0; left--)
            EXPECT(drops(FILM_DONE) && tray->held == left && counts(FILM_DONE, due_tray->count));
        EXPECT(counts(FILM_DONE, 0) && drops(FILM_LINE_NOT_HELD) && replaces(0, 0, 0, FILM_LINE_NOT_HELD));
    }
}

/* Any operations, one after the other, from an empty tray on: some trays are full in the end, and some are not. */
static void sequences(void) {
    int full = 0;
    for (int n = 0; n < SEQUENCES; n++) {
        lend_empty(n % 2 * OLD);
        for (int k = 0; k < STEPS; k++) {
            int touched = step();
            EXPECT(touched < 0 || touched >= tray->held || is_afresh(touched));
        }
        full += tray->held == LINES;
        for (int i = 0; i < tray->held; i++)
            EXPECT(is_afresh(i));
    }
    EXPECT(full > 0 && full < SEQUENCES);
}

int main(void) {
    adding();
    replacing();
    wrong_and_right();
    dropping();
    sequences();
    printf("C, open trays: %d failed\n", failures);
    return failures != 0;
}
