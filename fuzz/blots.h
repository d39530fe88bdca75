/* The call of reading a line with blots: its answer and every byte of output, held against the rules, film_read_line, and a map with one blot fewer or more. */
#ifndef BLOTS_H
#define BLOTS_H

#include "answers.h"
#include "film.h"
#include "lent.h"
#include "lines.h"
#include "rules.h"
#include "taken.h"
#include <stdlib.h>
#include <string.h>

/* The most blots, and the most of 2e + f. */
enum { MOST_BLOTS = FILM_CHECKS };

static int count_blots(const uint8_t *map) {
    int n = 0;
    for (int a = 0; a < FILM_CHARACTERS; a++)
        n += map[a] == 1;
    return n;
}

/* Whether the word differs from the line in e characters outside the f blots, with 2e + f at most 11. */
static int is_near(const uint8_t *word, const uint8_t *line, const uint8_t *map) {
    int outside = 0;
    for (int a = 0; a < FILM_CHARACTERS; a++)
        outside += map[a] == 0 && word[a] != line[a];
    return 2 * outside + count_blots(map) <= MOST_BLOTS;
}

/* The first address from one on, around the end, that is no blot, and has a changed character where that is asked for and there is one. */
static int free_address(const made *m, const uint8_t *map, int from, int is_changed) {
    for (int i = 0; is_changed && i < FILM_CHARACTERS; i++) {
        int a = (from + i) % FILM_CHARACTERS;
        if (map[a] == 0 && m->word[a] != m->line[a])
            return a;
    }
    while (map[from] != 0)
        from = (from + 1) % FILM_CHARACTERS;
    return from;
}

/* A map of up to thirteen blots, some aimed at changed characters, some with another character at them; or any map. At times one byte is set to anything. */
static void take_map(made *m, uint8_t *map) {
    uint8_t how = take(), aimed = take(), spoilt = take(), poke = take();
    if (how > 247)
        for (int a = 0; a < FILM_CHARACTERS; a++)
            map[a] = take() & 1;
    else
        for (int i = 0; i < how % 14; i++) {
            int a = free_address(m, map, take_address(), m->is_made && aimed >> i % 8 & 1);
            m->word[a] ^= spoilt >> i % 8 & 1 ? take() & 63 : 0;
            map[a] = 1;
        }
    if (poke > 223)
        map[take_address()] = take();
}

/* The refusal that needs no reading, or 0. */
static int due_blotted(const uint8_t *word, size_t length, const uint8_t *map, size_t map_length, size_t room) {
    if (length != FILM_CHARACTERS || map_length != FILM_CHARACTERS)
        return 1;
    if (room != FILM_CHARACTERS)
        return 5;
    return !all_below(word, FILM_CHARACTERS, 64) || !all_below(map, FILM_CHARACTERS, 2) ? 2 : count_blots(map) > MOST_BLOTS ? 6 : 0;
}

/* A line that was read is near enough, and so the only one that is; it is told as it should be. */
static void line_holds(film_line r, const made *m, const uint8_t *map, const uint8_t *line) {
    HOLDS(all_below(line, FILM_CHARACTERS, 64) && is_line(line) && is_near(m->word, line, map));
    HOLDS(r.distance == distance(line, m->word) && r.number == number_of(line));
    HOLDS(r.first == first_changed(line, m->word) && r.last == last_changed(line, m->word));
}

/* Reads a word with a map and checks all that can be known of the answer. A line that is read goes to `line`. */
static film_line read_blotted(const made *m, size_t length, const uint8_t *map, size_t map_length, size_t room, int place, uint8_t *line) {
    uint8_t *out = lend(&output, NULL, room, place);
    const uint8_t *word = lend(&input, m->word, length, place >> 2);
    film_line r = film_read_blotted(word, length, lend(&second_input, map, map_length, place >> 4), map_length, out, room);
    int due = due_blotted(m->word, length, map, map_length, room);
    gave(READ_BLOTTED, r.answer);
    HOLDS(kept_after(&output, r.answer == 0 ? FILM_CHARACTERS : 0));
    if (r.answer != 0) {
        HOLDS(r.number == 0 && r.distance == 0 && r.first == 0 && r.last == 0 && r.answer == (due != 0 ? due : 6));
        HOLDS(due != 0 || !((m->is_made && is_near(m->word, m->line, map)) || count_blots(map) == MOST_BLOTS));
        return r;
    }
    uint8_t *copy = copied(&output);
    HOLDS(due == 0);
    line_holds(r, m, map, copy);
    memcpy(line, copy, FILM_CHARACTERS);
    free(copy);
    return r;
}

/* A line within half of what the blots leave is near enough, whatever they are; with no blot there is no other. */
static void as_read_line(const made *m, const uint8_t *map, film_line r, const uint8_t *line, uint8_t place) {
    uint8_t same[FILM_CHARACTERS];
    int blots = count_blots(map);
    film_line within = read_line(m, FILM_CHARACTERS, (uint8_t)((MOST_BLOTS - blots) / 2), FILM_CHARACTERS, place, same);
    if (within.answer == 0 || blots == 0)
        HOLDS(memcmp(&r, &within, sizeof r) == 0);
    if (within.answer == 0)
        HOLDS(memcmp(line, same, FILM_CHARACTERS) == 0);
}

/* With an even count of blots 2e + f is even, so 10 at most: with one blot fewer, and one wrong character more at most, the line is near enough too. So the
 * line of an even count is that of one blot fewer, and where an odd count has none, one blot more has none. */
static void one_blot_beside(const made *m, const uint8_t *map, film_line r, const uint8_t *line, uint8_t place) {
    uint8_t other[FILM_CHARACTERS], same[FILM_CHARACTERS];
    int is_even = r.answer == 0, a = place % FILM_CHARACTERS;
    while (map[a] != is_even)
        a = (a + 1) % FILM_CHARACTERS;
    memcpy(other, map, FILM_CHARACTERS);
    other[a] = !is_even;
    film_line beside = read_blotted(m, FILM_CHARACTERS, other, FILM_CHARACTERS, FILM_CHARACTERS, place, same);
    HOLDS(memcmp(&r, &beside, sizeof r) == 0);
    if (is_even)
        HOLDS(memcmp(line, same, FILM_CHARACTERS) == 0);
}

static void blots_call(void) {
    size_t length = take_length(FILM_CHARACTERS), map_length = take_length(FILM_CHARACTERS), room = take_length(FILM_CHARACTERS);
    uint8_t place = take(), map[LONGEST] = {0}, line[FILM_CHARACTERS];
    made m = take_word();
    take_map(&m, map);
    film_line r = read_blotted(&m, length, map, map_length, room, place, line);
    if (r.answer != 0 && r.answer != 6)
        return;
    int blots = count_blots(map), is_odd = blots % 2;
    if (blots > MOST_BLOTS)
        return;
    as_read_line(&m, map, r, line, place);
    if (blots != 0 && is_odd == (r.answer == 6))
        one_blot_beside(&m, map, r, line, place);
}

#endif
