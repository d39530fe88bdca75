/* Tests of reading a line with blots: the line is found as long as 2e + f is at most 11, no character at a blot has a say, the
 * distance counts blots too, and every refusal comes in its order. It compiles as C and as C++. */
#include "words.h"

enum { MOST = FILM_CHECKS, TRIES = 40 };

/* A map of 63 bytes with as many zeros after them. */
static uint8_t map[2 * LINE];

static film_line read_blotted(void) {
    lend();
    return film_read_blotted(word, LINE, map, LINE, out, LINE);
}

/* What stands at the blots: what was recorded, no such character anywhere, or either. */
enum { RECORDED, SPOILT, EITHER, FILLINGS };

/* A line with so many blots, and so many wrong characters outside them; every address is met among both. */
static void make_word(int blots, int wrong, int filling) {
    make_line();
    memset(map, 0, LINE);
    for (int placed = 0; placed < blots + wrong;) {
        int a = below(LINE);
        if (map[a] != 0 || word[a] != line[a])
            continue;
        if (placed++ >= blots)
            spoil(a);
        else
            map[a] = 1;
    }
    for (int a = 0; a < LINE; a++)
        if (map[a] == 1 && (filling == SPOILT || (filling == EITHER && below(2))))
            spoil(a);
}

/* Every count of blots with every count of wrong characters that it leaves room for. */
static void found(void) {
    for (int blots = 0; blots <= MOST; blots++)
        for (int wrong = 0; 2 * wrong + blots <= MOST; wrong++)
            for (int i = 0; i < FILLINGS * TRIES; i++) {
                make_word(blots, wrong, i % FILLINGS);
                film_line r = read_blotted();
                EXPECT(is_due(r, read_as_line()));
            }
}

/* One wrong character too many for an even count of blots: any other line is too far away, since two lines differ in 12 addresses
 * or more. What stands at the blots changes nothing in that, though the line may lie within five of the word. */
static void not_found(void) {
    for (int blots = 0; blots <= MOST; blots += 2)
        for (int i = 0; i < FILLINGS * TRIES; i++) {
            make_word(blots, (MOST + 1 - blots) / 2, i % FILLINGS);
            EXPECT(is_refused(read_blotted(), FILM_NO_LINE));
        }
}

/* What was found, whichever line it is: it is one, near enough, and told as it should be. */
static void is_near_enough(film_line r, int blots) {
    int wrong = 0;
    memcpy(line, out, LINE);
    EXPECT(is_due(r, read_as_line()));
    for (int a = 0; a < LINE; a++)
        wrong += map[a] == 0 && word[a] != line[a];
    EXPECT(2 * wrong + blots <= MOST && film_read_line(line, LINE, 0, out, LINE).answer == FILM_DONE);
}

static void blot_one_more(void) {
    int a = below(LINE);
    while (map[a] == 1)
        a = below(LINE);
    map[a] = 1;
}

/* One too many for an odd count: most often there is no such line, and then one blot more has none either. */
static void mostly_not_found(void) {
    int none = 0;
    for (int blots = 1; blots < MOST; blots += 2)
        for (int i = 0; i < TRIES; i++) {
            make_word(blots, (MOST - blots) / 2 + 1, SPOILT);
            film_line r = read_blotted();
            if (r.answer == FILM_DONE) {
                is_near_enough(r, blots);
                continue;
            }
            none++;
            EXPECT(is_refused(r, FILM_NO_LINE));
            blot_one_more();
            EXPECT(is_refused(read_blotted(), FILM_NO_LINE));
        }
    EXPECT(none > TRIES);
}

/* Eleven blots: whatever is seen, there is one line that has all of it. */
static void always_found(void) {
    for (int i = 0; i < TRIES; i++) {
        make_word(MOST, 0, SPOILT);
        for (int a = 0; a < LINE; a++)
            word[a] = (uint8_t)below(64);
        is_near_enough(read_blotted(), MOST);
    }
}

/* Twelve blots or more, even where nothing is wrong. */
static void never_found(void) {
    for (int blots = MOST + 1; blots <= LINE; blots++)
        for (int filling = 0; filling < FILLINGS; filling++) {
            make_word(blots, 0, filling);
            EXPECT(is_refused(read_blotted(), FILM_NO_LINE));
        }
}

/* With no blot it is reading a line with radius 5. */
static void no_blots(void) {
    for (int i = 0; i < 8 * TRIES; i++) {
        make_word(0, i % 8, RECORDED);
        film_line r = read_blotted();
        EXPECT(is_due(r, film_read_line(word, LINE, 5, due_out, LINE)));
    }
}

/* So much of the word, of the map and of the output is refused; an empty slice is NULL. */
static void refused(int answer, size_t word_len, size_t map_len, size_t out_len) {
    lend();
    film_line r = film_read_blotted(word_len == 0 ? NULL : word, word_len, map_len == 0 ? NULL : map, map_len, out_len == 0 ? NULL : out, out_len);
    EXPECT(is_refused(r, answer));
}

/* Lengths come before values, and those before too many blots: all are wrong here. */
static void lengths(void) {
    make_word(MOST + 1, 0, SPOILT);
    word[9] = 64, map[40] = 2;
    for (int i = 0; i < WRONG_LENGTHS; i++) {
        refused(FILM_INPUT_LENGTH, wrong_lengths[i], LINE, LINE);
        refused(FILM_INPUT_LENGTH, LINE, wrong_lengths[i], LINE);
        refused(FILM_INPUT_LENGTH, wrong_lengths[i], wrong_lengths[i], wrong_lengths[i]);
        refused(FILM_INPUT_LENGTH, wrong_lengths[i], LINE, 62);
        refused(FILM_INPUT_LENGTH, LINE, wrong_lengths[i], 62);
        refused(FILM_OUTPUT_LENGTH, LINE, LINE, wrong_lengths[i]);
    }
}

/* A byte that is no character, or none of a map, at any address: at a blot too, and with too many blots. */
static void values(void) {
    for (int a = 0; a < LINE; a++)
        for (int blots = 0; blots <= MOST + 2; blots++) {
            make_word(blots, 0, EITHER);
            map[a] = (uint8_t)(blots % 2);
            word[a] = (uint8_t)(64 + below(192));
            refused(FILM_VALUE_OVER, LINE, LINE, LINE);
            word[a] = line[a];
            map[a] = (uint8_t)(blots % 3 == 0 ? 2 : 2 + below(254));
            refused(FILM_VALUE_OVER, LINE, LINE, LINE);
        }
}

int main(void) {
    found();
    not_found();
    mostly_not_found();
    always_found();
    never_found();
    no_blots();
    lengths();
    values();
    printf("C, blots: %d failed\n", failures);
    return failures != 0;
}
