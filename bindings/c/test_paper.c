/* Tests of reading a line by the method of 1968: every answer, every field and every byte are those that are due where the line is
 * known, and those of film_read_line and film_read_line_wanted on any word. It compiles as C and as C++. */
#include "words.h"

enum { MOST = 5, TRIES = 40, ANY = -1, LAST_NUMBER = 4095 };

static const uint8_t bytes_over[] = {64, 65, 127, 128, 192, 255}, radii_over[] = {6, 7, 8, 64, 128, 255};
static const uint16_t numbers_over[] = {4096, 4097, 8191, 32768, 65535};
enum { BYTES_OVER = sizeof bytes_over, RADII_OVER = sizeof radii_over, NUMBERS_OVER = sizeof numbers_over / sizeof numbers_over[0] };

/* So much of the word is read into so much of the output, an empty slice of which is NULL, with a wanted number or with ANY. */
static film_line read_part(size_t word_len, int radius, int wanted, size_t out_len) {
    const uint8_t *given = word_len == 0 ? NULL : word;
    uint8_t *lent = out_len == 0 ? NULL : out;
    lend();
    if (wanted == ANY)
        return film_read_line_paper(given, word_len, (uint8_t)radius, lent, out_len);
    return film_read_line_paper_wanted(given, word_len, (uint8_t)radius, (uint16_t)wanted, lent, out_len);
}

static film_line read_paper(int radius, int wanted) { return read_part(LINE, radius, wanted, LINE); }

/* What the library's own reading gives for the word, and leaves in what is due. */
static film_line read_otherwise(int radius, int wanted) {
    if (wanted == ANY)
        return film_read_line(word, LINE, (uint8_t)radius, due_out, LINE);
    return film_read_line_wanted(word, LINE, (uint8_t)radius, (uint16_t)wanted, due_out, LINE);
}

/* A number that the line does not carry. */
static int another(void) { return (number_of(line) + 1 + below(LAST_NUMBER)) % (LAST_NUMBER + 1); }

/* A line with so many wrong characters. */
static void make_word(int wrong) {
    make_line();
    while (wrong > 0) {
        int a = below(LINE);
        if (word[a] != line[a])
            continue;
        spoil(a);
        wrong--;
    }
}

/* The word is read as the line, with no wanted number and with its own; any other number is refused, one that the word shows too. */
static void is_read(int radius) {
    film_line r = read_paper(radius, ANY);
    EXPECT(is_due(r, read_as_line()));
    r = read_paper(radius, number_of(line));
    EXPECT(is_due(r, read_as_line()));
    EXPECT(is_refused(read_paper(radius, another()), FILM_OTHER_NUMBER));
    if (number_of(word) != number_of(line))
        EXPECT(is_refused(read_paper(radius, number_of(word)), FILM_OTHER_NUMBER));
}

/* There is no line, whichever number is wanted; one that is too large is refused before. */
static void is_no_line(int radius) {
    EXPECT(is_refused(read_paper(radius, ANY), FILM_NO_LINE));
    EXPECT(is_refused(read_paper(radius, number_of(line)), FILM_NO_LINE));
    EXPECT(is_refused(read_paper(radius, another()), FILM_NO_LINE));
    EXPECT(is_refused(read_paper(radius, LAST_NUMBER + 1), FILM_NUMBER_OVER));
}

/* Every count of wrong characters at every radius. With six at most any other line is too far away, since two lines differ in 12
 * addresses or more. */
static void every_count(void) {
    for (int radius = 0; radius <= MOST; radius++)
        for (int wrong = 0; wrong <= MOST + 1; wrong++)
            for (int i = 0; i < TRIES; i++) {
                make_word(wrong);
                if (wrong <= radius)
                    is_read(radius);
                else
                    is_no_line(radius);
            }
}

/* Every one and every two addresses; equal values at two, so that the sum of all characters shows nothing. */
static void every_two_addresses(void) {
    for (int a = 0; a < LINE; a++)
        for (int b = a; b < LINE; b++)
            for (int equal = 0; equal < 2; equal++) {
                make_line();
                spoil(a);
                if (b != a)
                    word[b] ^= equal ? word[a] ^ line[a] : (uint8_t)(1 + below(63));
                is_read(2);
                is_read(MOST);
            }
}

/* Up to five wrong characters of one value, anywhere and at either end. */
static void equal_values(void) {
    for (int value = 1; value < 64; value++)
        for (int wrong = 1; wrong <= MOST; wrong++)
            for (int step = 1; step <= 15; step += 7)
                for (int is_last = 0; is_last < 2; is_last++) {
                    make_line();
                    for (int i = 0; i < wrong; i++)
                        word[is_last ? LINE - 1 - i * step : i * step] ^= (uint8_t)value;
                    is_read(MOST);
                    if (wrong > 1)
                        is_no_line(wrong - 1);
                }
}

/* Six wrong characters whose first ten sums are those of five: the last sum alone tells that there is no line. */
static void six_as_five(void) {
    static const uint8_t six[] = {1, 1, 4, 4, 5, 3};
    make_line();
    for (size_t a = 0; a < sizeof six; a++)
        word[a] ^= six[a];
    for (int radius = 0; radius <= MOST; radius++)
        is_no_line(radius);
}

/* At every radius up to 7 what the library's own reading gives, with no wanted number, the one in the word, any, and one too large. */
static void is_as_otherwise(void) {
    int wanted[] = {ANY, number_of(word), below(LAST_NUMBER + 1), LAST_NUMBER + 1};
    for (int radius = 0; radius <= MOST + 2; radius++)
        for (int i = 0; i < 4; i++) {
            film_line r = read_paper(radius, wanted[i]);
            EXPECT(is_due(r, read_otherwise(radius, wanted[i])));
        }
}

/* Lines with any count of wrong characters, and words of any characters, of one, and of a byte that is none. */
static void any_word(void) {
    for (int wrong = 0; wrong <= LINE; wrong++)
        for (int i = 0; i < TRIES; i++) {
            make_word(wrong);
            is_as_otherwise();
            word[below(LINE)] = (uint8_t)(60 + below(8));
            is_as_otherwise();
        }
    for (int c = 0; c < 64; c++) {
        memset(word, c, LINE);
        is_as_otherwise();
        for (int a = 0; a < LINE; a++)
            word[a] = (uint8_t)below(64);
        is_as_otherwise();
    }
}

/* Words between two lines that differ in 12 characters, as near as two lines can be: five are of one, and the other is read. The
 * other is the line that has all but the first eleven characters of the one, and one of those changed. */
static void between_two_lines(void) {
    uint8_t map[LINE] = {0};
    memset(map, 1, FILM_CHECKS);
    for (int i = 0; i < TRIES; i++) {
        make_line();
        spoil(FILM_CHECKS);
        EXPECT(film_read_blotted(word, LINE, map, LINE, line, LINE).answer == FILM_DONE);
        memcpy(word + MOST, line + MOST, FILM_CHECKS - MOST);
        is_read(MOST);
        is_no_line(MOST - 1);
    }
}

/* Refused by both calls, whichever number is wanted. */
static void refused(int answer, size_t word_len, int radius, size_t out_len) {
    EXPECT(is_refused(read_part(word_len, radius, ANY, out_len), answer));
    EXPECT(is_refused(read_part(word_len, radius, number_of(line), out_len), answer));
    EXPECT(is_refused(read_part(word_len, radius, 65535, out_len), answer));
}

/* Lengths come before values, and those before the radius: all are wrong here. */
static void lengths(void) {
    make_word(MOST + 1);
    word[9] = 64;
    for (int i = 0; i < WRONG_LENGTHS; i++) {
        refused(FILM_INPUT_LENGTH, wrong_lengths[i], MOST + 1, LINE);
        refused(FILM_INPUT_LENGTH, wrong_lengths[i], MOST + 1, wrong_lengths[i]);
        refused(FILM_OUTPUT_LENGTH, LINE, MOST + 1, wrong_lengths[i]);
    }
    refused(FILM_INPUT_LENGTH, 0, 255, 0);
}

/* A byte that is no character, at any address, comes before the radius. */
static void values(void) {
    for (int a = 0; a < LINE; a++)
        for (int i = 0; i < BYTES_OVER; i++) {
            make_word(a % 7);
            word[a] = bytes_over[i];
            refused(FILM_VALUE_OVER, LINE, MOST, LINE);
            refused(FILM_VALUE_OVER, LINE, MOST + 1, LINE);
        }
}

/* The radius comes before the wanted number, and that before the line, with any count of wrong characters. */
static void radii_and_numbers(void) {
    for (int wrong = 0; wrong <= MOST + 2; wrong++) {
        make_word(wrong);
        for (int i = 0; i < RADII_OVER; i++)
            refused(FILM_RADIUS_OVER, LINE, radii_over[i], LINE);
        for (int i = 0; i < NUMBERS_OVER; i++)
            EXPECT(is_refused(read_paper(MOST, numbers_over[i]), FILM_NUMBER_OVER));
        EXPECT(is_refused(read_paper(MOST, number_of(line) + LAST_NUMBER + 1), FILM_NUMBER_OVER));
    }
}

int main(void) {
    every_count();
    every_two_addresses();
    equal_values();
    six_as_five();
    any_word();
    between_two_lines();
    lengths();
    values();
    radii_and_numbers();
    printf("C, the method of 1968: %d failed\n", failures);
    return failures != 0;
}
