/* The calls of rings. */
#ifndef RINGS_H
#define RINGS_H

#include "answers.h"
#include "film.h"
#include "lent.h"
#include "lines.h"
#include "rules.h"
#include "taken.h"
#include <string.h>

/* The start that begins at an address of the line recorded at a start, and goes in its direction or in the other. */
static int start_at(int start, int address, int same_way) { return place_at(start, address) + ((start < 63) == same_way ? 0 : 63); }

/* Whether start k of a line recorded at a start with no wrong character is listed. */
static int undamaged_start(int start, int k, int radius) {
    static const uint8_t other_way[6] = {41, 44, 47, 51, 54, 61}, same_way[6] = {3, 7, 10, 53, 56, 60};
    int is = k == start;
    for (int i = 0; i < 6; i++)
        is |= (radius >= 4 && k == start_at(start, other_way[i], 0)) || (radius >= 5 && k == start_at(start, same_way[i], 1));
    return is;
}

/* What is known of the list of a line recorded at a start: with few characters wrong, the true start is alone, or alone in its direction; with none, all of
 * the list. */
static void list_holds(const uint8_t *starts, int count, int start, int wrong, int radius) {
    if (wrong <= radius && wrong + radius <= 3)
        HOLDS(count == 1 && starts[0] == start);
    if (wrong <= radius && wrong + radius <= 4)
        for (int i = 0; i < count; i++)
            HOLDS(starts[i] == start || (starts[i] < 63) != (start < 63));
    if (wrong == 0) {
        int at = 0;
        for (int k = 0; k < 126; k++) {
            int listed = at < count && starts[at] == k;
            at += listed;
            HOLDS(listed == undamaged_start(start, k, radius));
        }
        HOLDS(count == (radius < 4 ? 1 : radius == 4 ? 7 : 13));
    }
}

static void ring_calls(void) {
    size_t length = take_length(63), room = take_length(126), line_room = take_length(63);
    uint8_t radius = take() % 7, place = take(), start = take() % 126, seen = take();
    made m = take_word(), ring = m;
    recorded(m.word, start, ring.word);

    uint8_t *out = lend(&output, NULL, room, place);
    film_list r = film_list_ring(lend(&input, ring.word, length, place >> 2), length, radius, out, room);
    gave(LIST_RING, r.answer);
    HOLDS(r.answer == due_first(ring.word, length, room, 126, radius));
    HOLDS(r.count <= (r.answer == 0 ? 126 : 0) && kept_after(&output, r.count));
    uint8_t *starts = copied(&output);

    out = lend(&output, NULL, line_room, place);
    film_ring one = film_read_ring(lend(&input, ring.word, length, place >> 2), length, radius, out, line_room);
    uint8_t *found = copied(&output);
    gave(READ_RING, one.answer);
    HOLDS(kept_after(&output, one.answer == 0 ? 63 : 0));
    int due = due_first(ring.word, length, line_room, 63, radius);
    HOLDS(due != 0 ? one.answer == due : one.answer == 0 || one.answer == 6 || one.answer == 10);
    HOLDS(one.answer == 0 || (one.start == 0 && one.distance == 0 && one.number == 0 && one.first == 0 && one.last == 0));
    HOLDS(one.answer != 0 || one.start < 126);

    if (r.answer == 0) {
        /* every start that is listed, the one it was recorded at, and one more are read as words */
        int at = 0;
        for (int k = 0; k < 126; k++) {
            int listed = at < r.count && starts[at] == k;
            at += listed;
            if (!listed && k != start && k != seen % 126)
                continue;
            made word = m;
            word.is_made = k == start && m.is_made;
            turned(ring.word, k, word.word);
            uint8_t line[63];
            film_line read = read_line(&word, 63, radius, 63, place, line);
            HOLDS(listed == (read.answer == 0));
            if (one.answer == 0 && one.start == k)
                HOLDS(listed && memcmp(line, found, 63) == 0 && one.distance == read.distance && one.number == read.number && one.first == read.first
                      && one.last == read.last);
        }
        HOLDS(at == r.count);
        if (due == 0)
            HOLDS(one.answer == (r.count == 0 ? 6 : r.count == 1 ? 0 : 10) && (one.answer != 0 || one.start == starts[0]));
        if (m.is_made)
            list_holds(starts, r.count, start, distance(m.word, m.line), radius);
    }
    free(starts);
    free(found);
}

#endif
