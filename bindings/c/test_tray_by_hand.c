/* Tests of open trays that are made by hand: each is taken as it is, the refusals of every operation come in their order and change no byte,
 * and what is accepted goes by the sums and the count that are held. It compiles as C and as C++. */
#include "trays.h"

enum { TRAYS = 20000 };

/* A tray whose every byte was written by hand: any sums below 64, so many lines and such a count. */
static void make_by_hand(int held, int count) {
    for (int i = 0; i < LINES; i++)
        for (int k = 0; k < LINE; k++) {
            tray->lines[i].characters[k] = (uint8_t)below(LAST_CHARACTER + 1);
            tray->lines[i].sums[k % SUMS] = (uint8_t)below(LAST_CHARACTER + 1);
        }
    tray->held = (uint8_t)held;
    tray->count = (uint8_t)count;
    lend();
}

/* Every number of lines with every count: where they do not fit, each operation says so first. */
static void claims(void) {
    make_by_hand(0, 0);
    line[0] = LAST_CHARACTER + 1;
    for (int held = 0; held < ANY_BYTE; held++)
        for (int count = 0; count < ANY_BYTE; count++) {
            int fit = held <= LINES && count <= held;
            tray->held = (uint8_t)held;
            tray->count = (uint8_t)count;
            lend();
            EXPECT(counts(fit ? FILM_DONE : FILM_TRAY_UNFIT, fit ? count : 0));
            EXPECT(adds(0, fit ? FILM_INPUT_LENGTH : FILM_TRAY_UNFIT) && adds(LINE, fit ? FILM_VALUE_OVER : FILM_TRAY_UNFIT));
            EXPECT(replaces(held, LINE, LAST_CHARACTER + 1, fit ? FILM_LINE_NOT_HELD : FILM_TRAY_UNFIT));
            EXPECT(fit ? held > 0 || drops(FILM_LINE_NOT_HELD) : drops(FILM_TRAY_UNFIT));
        }
}

/* The order of adding's refusals: the length, the characters, the room. */
static void adding_refused(void) {
    for (int held = LINES - 1; held <= LINES; held++) {
        make_by_hand(held, 0);
        memset(line, LAST_CHARACTER + 1, sizeof line);
        for (int n = 0; n < WRONG_LENGTHS; n++)
            EXPECT(adds(wrong_lengths[n], FILM_INPUT_LENGTH));
        make_line(ANY);
        for (int a = 0; a < LINE; a++)
            for (int c = LAST_CHARACTER + 1; c < ANY_BYTE; c++) {
                uint8_t kept = line[a];
                line[a] = (uint8_t)c;
                EXPECT(adds(LINE, FILM_VALUE_OVER));
                line[a] = kept;
            }
    }
    EXPECT(adds(LINE, FILM_TRAY_UNFIT));
}

/* The order of replacing's: the line, the address, the character, and last what the line itself is. */
static void replacing_refused(void) {
    make_by_hand(LINES / 2, 0);
    for (int i = 0; i < ANY_BYTE; i++)
        EXPECT(replaces(i, LINE, LAST_CHARACTER + 1, i < LINES / 2 ? FILM_ADDRESS_OVER : FILM_LINE_NOT_HELD));
    for (int a = 0; a < ANY_BYTE; a++)
        EXPECT(replaces(0, a, LAST_CHARACTER + 1, a < LINE ? FILM_VALUE_OVER : FILM_ADDRESS_OVER));
    for (int c = 0; c < ANY_BYTE; c++)
        EXPECT(replaces(0, LAST_ADDRESS, c, c > LAST_CHARACTER ? FILM_VALUE_OVER : FILM_TRAY_UNFIT));
}

/* A byte over 63 in any place of the last line: it is neither changed nor dropped. In any other line it is not looked at. */
static void bytes_by_hand(void) {
    for (int place = 0; place < ROOM; place++)
        for (int n = 0; n < BYTES_OVER; n++) {
            make_by_hand(3, 3);
            ((uint8_t *)&tray->lines[2])[place] = bytes_over[n];
            lend();
            EXPECT(replaces(2, below(LINE), 0, FILM_TRAY_UNFIT) && replaces(2, place % LINE, 0, FILM_TRAY_UNFIT) && drops(FILM_TRAY_UNFIT));
            EXPECT(replaces(1, below(LINE), 0, FILM_DONE));
            memcpy(&tray->lines[1], &tray->lines[2], ROOM);
            make_line(ANY);
            tray->held = tray->count = 2;
            lend();
            EXPECT(adds(LINE, FILM_DONE) && drops(FILM_DONE) && replaces(0, 0, 0, FILM_DONE) && drops(FILM_TRAY_UNFIT));
        }
}

/* One sum that is not 0: at count 0 the line is neither changed nor dropped, at count 1 it is. */
static void sums_by_hand(void) {
    for (int k = 0; k < SUMS; k++)
        for (int sum = 1; sum <= LAST_CHARACTER; sum++)
            for (int count = 0; count < 2; count++) {
                make_by_hand(2, count);
                memset(tray->lines[1].sums, 0, SUMS);
                tray->lines[1].sums[k] = (uint8_t)sum;
                lend();
                EXPECT(replaces(1, below(LINE), below(LAST_CHARACTER + 1), count > 0 ? FILM_DONE : FILM_TRAY_UNFIT));
                EXPECT(drops(count > 0 ? FILM_DONE : FILM_TRAY_UNFIT) && counts(FILM_DONE, 0));
            }
}

/* The count goes by the sums that are held: a change that they are the share of makes them 0, and a line of zero sums in a tray that
 * counts all of its lines brings the count above them, which the next call refuses. */
static void counts_by_hand(void) {
    for (int held = 1; held <= LINES; held++) {
        int i = below(held), a = below(LINE);
        make_by_hand(held, held);
        memset(tray->lines[i].sums, 0, SUMS);
        lend();
        int kept = tray->lines[i].characters[a];
        EXPECT(replaces(i, a, kept, FILM_DONE) && counts(FILM_DONE, held));
        EXPECT(replaces(i, a, kept ^ 1, FILM_DONE) && tray->count == held + 1 && counts(FILM_TRAY_UNFIT, 0));
        make_line(OF_THE_CODE);
        EXPECT(adds(LINE, FILM_TRAY_UNFIT) && replaces(i, a, kept, FILM_TRAY_UNFIT) && drops(FILM_TRAY_UNFIT));
        tray->count = (uint8_t)held;
        lend();
        EXPECT(replaces(i, a, kept, FILM_DONE) && counts(FILM_DONE, held - 1) && !is_wrong(&tray->lines[i]));
    }
}

/* Trays made by hand, with a byte over 63 now and then and any claims, through any operation. */
static void any_by_hand(void) {
    for (int n = 0; n < TRAYS; n++) {
        int held = mostly(LINES);
        if (n % 8 == 0)
            make_by_hand(held, below(2) * mostly(held));
        if (n % 3 == 0 && due_tray->held > 0 && due_tray->held <= LINES)
            ((uint8_t *)&tray->lines[below(due_tray->held)])[below(ROOM)] = (uint8_t)below(ANY_BYTE);
        lend();
        step();
    }
}

int main(void) {
    claims();
    adding_refused();
    replacing_refused();
    bytes_by_hand();
    sums_by_hand();
    counts_by_hand();
    any_by_hand();
    printf("C, trays made by hand: %d failed\n", failures);
    return failures != 0;
}
