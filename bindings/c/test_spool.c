/* Tests of reading a spool: each line is answered and written as film_read_line does it alone, a refused line stops no other, and
 * the places past the last line are zeros. It compiles as C and as C++. */
#include "expect.h"
#include "film.h"
#include <string.h>

enum { LINE = FILM_CHARACTERS, LONGEST = FILM_SPOOL + LINE, SIDE = 70, OVER = 64 };

/* A spool, an output with bytes to either side, and what the output has to hold in the end. */
static uint8_t lines[LONGEST], memory[SIDE + LONGEST + SIDE], due[sizeof memory];
static uint8_t *const out = memory + SIDE, *const due_out = due + SIDE;
static film_spool zeros;

/* The bytes differ from line to line, so that what is written in the wrong place is seen too. */
static void lend(void) {
    for (size_t i = 0; i < sizeof memory; i++)
        memory[i] = due[i] = (uint8_t)(170 + i / 5);
}

static int is_due(film_spool r, int answer, film_spool places) {
    return r.answer == answer && memcmp(r.places, places.places, sizeof places.places) == 0 && memcmp(memory, due, sizeof memory) == 0;
}

/* Line i has a number and a text of its own and 0 to 6 wrong characters; a few have a byte that is no character. */
static void make_lines(void) {
    for (int i = 0; i < LONGEST / LINE; i++) {
        uint8_t text[FILM_TEXT], *line = lines + LINE * i;
        for (int a = 0; a < FILM_TEXT; a++)
            text[a] = (uint8_t)(a * i % 64);
        EXPECT(film_encode_line(text, FILM_TEXT, (uint16_t)(16 * i + 5), line, LINE) == FILM_DONE);
        for (int wrong = 0; wrong < i % 7; wrong++)
            line[(9 * wrong + i) % LINE] ^= (uint8_t)(1 + i % 63);
        if (i % 20 == 19)
            line[i % LINE] += OVER;
    }
}

/* What reading line by line gives, and leaves in `due`. */
static film_spool one_by_one(int count, uint8_t radius) {
    film_spool r = zeros;
    for (int i = 0; i < count; i++)
        r.places[i] = film_read_line(lines + LINE * i, LINE, radius, due_out + LINE * i, LINE);
    return r;
}

static void as_one_by_one(void) {
    static const int counts[] = {0, 1, 2, 3, 8, 60, 254, FILM_PLACES}, radii[] = {0, 1, 2, 3, 4, 5, 6, 9, 255};
    for (size_t c = 0; c < sizeof counts / sizeof counts[0]; c++)
        for (size_t n = 0; n < sizeof radii / sizeof radii[0]; n++) {
            size_t length = (size_t)LINE * (size_t)counts[c];
            uint8_t radius = (uint8_t)radii[n];
            lend();
            film_spool each = one_by_one(counts[c], radius);
            EXPECT(is_due(film_read_spool(lines, length, radius, out, length), FILM_DONE, each));
        }
}

static void no_lines(void) {
    lend();
    EXPECT(is_due(film_read_spool(NULL, 0, 5, NULL, 0), FILM_DONE, zeros));
    EXPECT(is_due(film_read_spool(NULL, 0, 9, NULL, 0), FILM_DONE, zeros));
    EXPECT(is_due(film_read_spool(lines, 0, 5, out, 0), FILM_DONE, zeros));
}

/* Three lines of which one is refused, as no line or for a byte that is no character: the other two are read, and it keeps its old bytes. */
static void one_refused(void) {
    for (int refused = 0; refused < 3; refused++)
        for (int is_over = 0; is_over < 2; is_over++) {
            uint8_t spool[3 * LINE];
            film_spool each = zeros;
            lend();
            for (int i = 0; i < 3; i++) {
                film_line read = {FILM_DONE, 0, (uint16_t)(7 * i), FILM_NOWHERE, FILM_NOWHERE};
                film_line none = {(uint8_t)(is_over ? FILM_VALUE_OVER : FILM_NO_LINE), 0, 0, 0, 0};
                uint8_t text[FILM_TEXT] = {0}, *line = spool + LINE * i;
                EXPECT(film_encode_line(text, FILM_TEXT, read.number, line, LINE) == FILM_DONE);
                each.places[i] = i == refused ? none : read;
                if (i != refused)
                    memcpy(due_out + LINE * i, line, LINE);
                else
                    line[40] ^= is_over ? OVER : 1;
            }
            EXPECT(is_due(film_read_spool(spool, sizeof spool, 0, out, sizeof spool), FILM_DONE, each));
        }
}

/* A radius over 5 is refused by each line, after a byte that is no character; the call is not refused. */
static void radius_over(void) {
    film_spool each = zeros;
    for (int i = 0; i < FILM_PLACES; i++)
        each.places[i].answer = i % 20 == 19 ? FILM_VALUE_OVER : FILM_RADIUS_OVER;
    lend();
    EXPECT(is_due(film_read_spool(lines, FILM_SPOOL, 9, out, FILM_SPOOL), FILM_DONE, each));
}

static void refusals(void) {
    static const size_t wrong[] = {1, 62, 64, 125, 127, FILM_SPOOL - 1, FILM_SPOOL + 1, LONGEST};
    lend();
    for (size_t i = 0; i < sizeof wrong / sizeof wrong[0]; i++) {
        EXPECT(is_due(film_read_spool(lines, wrong[i], 5, out, wrong[i]), FILM_INPUT_LENGTH, zeros));
        EXPECT(is_due(film_read_spool(lines, wrong[i], 9, NULL, 0), FILM_INPUT_LENGTH, zeros));
        EXPECT(is_due(film_read_spool(lines, LINE, 5, out, wrong[i]), FILM_OUTPUT_LENGTH, zeros));
        EXPECT(is_due(film_read_spool(NULL, 0, 9, out, wrong[i]), FILM_OUTPUT_LENGTH, zeros));
    }
    EXPECT(is_due(film_read_spool(lines, LINE, 9, NULL, 0), FILM_OUTPUT_LENGTH, zeros));
    EXPECT(is_due(film_read_spool(lines, FILM_SPOOL, 5, out, FILM_SPOOL - LINE), FILM_OUTPUT_LENGTH, zeros));
    EXPECT(is_due(film_read_spool(lines, FILM_SPOOL - LINE, 5, out, FILM_SPOOL), FILM_OUTPUT_LENGTH, zeros));
}

int main(void) {
    EXPECT(sizeof(film_spool) == 1532 && (int)FILM_SPOOL == (int)FILM_PLACES * (int)FILM_CHARACTERS);
    make_lines();
    as_one_by_one();
    no_lines();
    one_refused();
    radius_over();
    refusals();
    printf("C, spools: %d failed\n", failures);
    return failures != 0;
}
