/* Faults that the fuzz target has to find: each stands between the target and the library. `fuzz/run faults` builds one after the other.
 * sheet_faults.h has those of sheets, open_tray_faults.h those of open trays, smudge_faults.h those of smudges, and clarity_faults.h those of
 * how clear a scan is.
 *
 * It is built without sanitizers, as the library is. */
#include "clarity_faults.h"
#include "film.h"
#include "open_tray_faults.h"
#include "sheet_faults.h"
#include "smudge_faults.h"
#include <string.h>

film_element __real_film_product(uint8_t u, uint8_t v);
film_element __real_film_quotient(uint8_t u, uint8_t v);
film_line __real_film_read_line_paper(const uint8_t *word, size_t word_len, uint8_t radius, uint8_t *out, size_t out_len);
film_line __real_film_read_line_paper_wanted(const uint8_t *word, size_t word_len, uint8_t radius, uint16_t wanted, uint8_t *out, size_t out_len);
film_line __real_film_read_blotted(const uint8_t *word, size_t word_len, const uint8_t *map, size_t map_len, uint8_t *out, size_t out_len);
film_spool __real_film_read_spool(const uint8_t *lines, size_t lines_len, uint8_t radius, uint8_t *out, size_t out_len);
film_choice __real_film_better_scan(const uint8_t *first, size_t first_len, const uint8_t *second, size_t second_len, uint8_t radius);
film_list __real_film_list_ring(const uint8_t *ring, size_t ring_len, uint8_t radius, uint8_t *out, size_t out_len);
film_panel __real_film_panel_text(const uint8_t *text, size_t text_len, uint8_t *out, size_t out_len);
film_panel __real_film_panel_ring(const uint8_t *ring, size_t ring_len, uint8_t radius, uint8_t *out, size_t out_len);
film_block __real_film_read_block(const uint8_t *rows, size_t rows_len, uint8_t *out, size_t out_len);

film_element __wrap_film_product(uint8_t u, uint8_t v) {
    film_element r = __real_film_product(u, v);
#if FAULT == 11 /* half of the column of 2 by another polynomial: 32 times 2 is 5 */
    if (r.answer == FILM_DONE && u > 31 && v == 2)
        r.value ^= 6;
#endif
    return r;
}

film_element __wrap_film_quotient(uint8_t u, uint8_t v) {
    film_element r = __real_film_quotient(u, v);
#if FAULT == 10 /* nothing divided by nothing, and given as 0 */
    if (r.answer == FILM_QUOTIENT_BY_ZERO && u == 0)
        r.answer = FILM_DONE;
#endif
    return r;
}

/* A line that was read, and is not found. */
__attribute__((unused)) static film_line not_found(uint8_t *out) {
    memset(out, 170, FILM_CHARACTERS);
    return (film_line){FILM_NO_LINE, 0, 0, 0, 0};
}

film_line __wrap_film_read_line(const uint8_t *word, size_t word_len, uint8_t radius, uint8_t *out, size_t out_len) {
    film_line r = __real_film_read_line(word, word_len, radius, out, out_len);
#if FAULT == 1 /* a refusal that writes */
    if (r.answer == FILM_NO_LINE)
        out[62] = 0;
#elif FAULT == 2 /* a line at distance 5 that is not found */
    if (r.answer == FILM_DONE && r.distance == 5)
        r = not_found(out);
#elif FAULT == 3 /* a word that is no line */
    if (r.answer == FILM_DONE && r.distance == 4)
        out[60] ^= 1;
#elif FAULT == 12 /* the last changed address is that of the last but one */
    if (r.answer == FILM_DONE && r.distance == 2)
        r.last = r.first;
#endif
    return r;
}

/* Whether each sum of a word is one element times the last but one: then, if no line is within two characters, the locator of two has a root twice. */
__attribute__((unused)) static int has_root_twice(const uint8_t *word) {
    uint8_t sums[FILM_CHECKS] = {0}, x = __real_film_quotient(1, 32).value;
    for (int k = 0; k < FILM_CHECKS; k++, x = __real_film_product(x, 2).value)
        for (int a = 0; a < FILM_CHARACTERS; a++)
            sums[k] = __real_film_product(sums[k], x).value ^ word[a] ^ (a == 52 ? 32 : a == 55 ? 8 : a == 62 ? 1 : 0);
    film_element square = __real_film_quotient(sums[2], sums[0]);
    int k = 2;
    while (k < FILM_CHECKS && sums[k] == __real_film_product(square.value, sums[k - 2]).value)
        k++;
    return square.answer == FILM_DONE && k == FILM_CHECKS;
}

film_line __wrap_film_read_line_paper(const uint8_t *word, size_t word_len, uint8_t radius, uint8_t *out, size_t out_len) {
#if FAULT == 33 /* one error fewer is tried */
    radius -= radius > 0 && radius < 6;
#endif
    film_line r = __real_film_read_line_paper(word, word_len, radius, out, out_len);
#if FAULT == 34 /* a refusal that clears the output */
    if (r.answer == FILM_NO_LINE)
        memset(out, 0, FILM_CHARACTERS);
#elif FAULT == 35 /* the distance of five errors is one too high */
    r.distance += r.distance == 5;
#elif FAULT == 36 /* the last changed address is given for the first */
    r.first = r.last;
#elif FAULT == 37 /* two errors are not found where S_0 is 0, since they are equal */
    if (r.answer == FILM_DONE && r.distance == 2 && (word[r.first] ^ out[r.first]) == (word[r.last] ^ out[r.last]))
        r = not_found(out);
#elif FAULT == 38 /* one error is not found at the last address, where the logarithm of its place is 0 */
    if (r.answer == FILM_DONE && r.distance == 1 && r.first == FILM_CHARACTERS - 1)
        r = not_found(out);
#elif FAULT == 39 /* a root twice is taken for two errors that cancel, and the sums are not taken again */
    if (r.answer == FILM_NO_LINE && radius > 1 && has_root_twice(word)) {
        memcpy(out, word, FILM_CHARACTERS);
        r = (film_line){FILM_DONE, 0, (uint16_t)(word[50] * 64 + word[51]), FILM_NOWHERE, FILM_NOWHERE};
    }
#endif
    return r;
}

film_line __wrap_film_read_line_paper_wanted(const uint8_t *word, size_t word_len, uint8_t radius, uint16_t wanted, uint8_t *out, size_t out_len) {
#if FAULT == 40 /* the wanted number is passed over */
    if (wanted < 4096)
        return __real_film_read_line_paper(word, word_len, radius, out, out_len);
#elif FAULT == 41 /* the lowest twelve bits of the wanted number are taken for it */
    wanted %= 4096;
#elif FAULT == 42 /* one byte too many is read of the word */
    if (word_len != 0)
        (void)((const volatile uint8_t *)word)[word_len];
#endif
    film_line r = __real_film_read_line_paper_wanted(word, word_len, radius, wanted, out, out_len);
#if FAULT == 43 /* a line that carries another number is refused and written */
    if (r.answer == FILM_OTHER_NUMBER)
        __real_film_read_line_paper(word, word_len, radius, out, out_len);
#elif FAULT == 44 /* no line comes before a number over 4095 */
    uint8_t line[FILM_CHARACTERS];
    if (r.answer == FILM_NUMBER_OVER)
        r.answer = __real_film_read_line_paper(word, word_len, radius, line, sizeof line).answer == FILM_NO_LINE ? FILM_NO_LINE : FILM_NUMBER_OVER;
#endif
    return r;
}

/* What some faults of blots count: the blots of a map, and the addresses outside them at which two words differ. */
__attribute__((unused)) static int blots_of(const uint8_t *map) {
    int n = 0;
    for (int a = 0; a < FILM_CHARACTERS; a++)
        n += map[a] == 1;
    return n;
}

__attribute__((unused)) static int outside(const uint8_t *map, const uint8_t *one, const uint8_t *other) {
    int n = 0;
    for (int a = 0; a < FILM_CHARACTERS; a++)
        n += map[a] == 0 && one[a] != other[a];
    return n;
}

/* Takes the last blot off a map that has so many. */
__attribute__((unused)) static void trust_last(uint8_t *map, int blots) {
    int a = FILM_CHARACTERS - 1;
    if (blots_of(map) != blots)
        return;
    while (map[a] != 1)
        a--;
    map[a] = 0;
}

film_line __wrap_film_read_blotted(const uint8_t *word, size_t word_len, const uint8_t *map, size_t map_len, uint8_t *out, size_t out_len) {
    uint8_t seen[FILM_CHARACTERS], blots[FILM_CHARACTERS];
#if FAULT == 23 /* one byte too many is read of the map */
    if (map_len != 0)
        (void)((const volatile uint8_t *)map)[map_len];
#endif
    if (word_len == FILM_CHARACTERS && map_len == FILM_CHARACTERS) {
        memcpy(seen, word, sizeof seen);
        memcpy(blots, map, sizeof blots);
#if FAULT == 24 /* the last of eleven blots is trusted */
        trust_last(blots, FILM_CHECKS);
#elif FAULT == 25 /* the last of twelve blots is trusted */
        trust_last(blots, FILM_CHECKS + 1);
#elif FAULT == 26 /* any byte of a map but 0 is a blot */
        for (int a = 0; a < FILM_CHARACTERS; a++)
            blots[a] = map[a] != 0;
#elif FAULT == 27 /* any byte at a blot is a character */
        for (int a = 0; a < FILM_CHARACTERS; a++)
            seen[a] &= map[a] == 1 ? 63 : 255;
#elif FAULT == 32 /* whether the last byte of a map is over 1 is not looked at */
        blots[FILM_CHARACTERS - 1] &= 1;
#endif
        word = seen, map = blots;
    }
    film_line r = __real_film_read_blotted(word, word_len, map, map_len, out, out_len);
#if FAULT == 28 /* the distance counts no blots */
    if (r.answer == FILM_DONE)
        r.distance = (uint8_t)outside(map, word, out);
#elif FAULT == 29 /* e + f at most 11, of the lines within five */
    uint8_t line[FILM_CHARACTERS];
    if (r.answer == FILM_NO_LINE && __real_film_read_line(word, word_len, 5, line, sizeof line).answer == FILM_DONE &&
        outside(map, word, line) + blots_of(map) <= FILM_CHECKS)
        r = __real_film_read_line(word, word_len, 5, out, out_len);
#elif FAULT == 30 /* 2e + f at most 10 */
    if (r.answer == FILM_DONE && 2 * outside(map, word, out) + blots_of(map) == FILM_CHECKS)
        r = not_found(out);
#elif FAULT == 31 /* a refusal that clears the blots in the output */
    for (int a = 0; r.answer == FILM_NO_LINE && a < FILM_CHARACTERS; a++)
        out[a] = map[a] == 1 ? 0 : out[a];
#endif
    return r;
}

film_spool __wrap_film_read_spool(const uint8_t *lines, size_t lines_len, uint8_t radius, uint8_t *out, size_t out_len) {
#if FAULT == 19 /* the lines after the first that is refused are not read: what the output held stays there */
    static uint8_t old[FILM_SPOOL];
    if (out_len != 0 && out_len <= FILM_SPOOL)
        memcpy(old, out, out_len);
#elif FAULT == 22 /* what is over after the last whole line is passed over */
    if (lines_len < FILM_SPOOL && out_len == lines_len)
        lines_len = out_len -= lines_len % FILM_CHARACTERS;
#endif
    film_spool r = __real_film_read_spool(lines, lines_len, radius, out, out_len);
    size_t count = r.answer == FILM_DONE ? lines_len / FILM_CHARACTERS : 0, refused = 0;
    while (refused < count && r.places[refused].answer == FILM_DONE)
        refused++;
#if FAULT == 18 /* a refused line's bytes are cleared */
    if (refused < count)
        memset(out + refused * FILM_CHARACTERS, 0, FILM_CHARACTERS);
#elif FAULT == 19
    for (size_t i = refused + 1; i < count; i++) {
        memcpy(out + i * FILM_CHARACTERS, old + i * FILM_CHARACTERS, FILM_CHARACTERS);
        memset(&r.places[i], 0, sizeof r.places[i]);
    }
#elif FAULT == 20 /* the places past the last line hold what stood there */
    memset(&r.places[count], 170, sizeof r.places - count * sizeof r.places[0]);
#elif FAULT == 21 /* the call is refused for the radius */
    if (r.answer == FILM_DONE && radius > 5) {
        memset(&r, 0, sizeof r);
        r.answer = FILM_RADIUS_OVER;
    }
#endif
    return r;
}

film_choice __wrap_film_better_scan(const uint8_t *first, size_t first_len, const uint8_t *second, size_t second_len, uint8_t radius) {
    film_choice r = __real_film_better_scan(first, first_len, second, second_len, radius);
#if FAULT == 13 /* the second where they tie */
    uint8_t line[63];
    film_line one = __real_film_read_line(first, first_len, radius, line, 63), other = __real_film_read_line(second, second_len, radius, line, 63);
    if (r.scan == 1 && other.answer == FILM_DONE && other.distance == one.distance)
        r.scan = 2;
#elif FAULT == 14 /* where both are refused, the refusal of the second */
    uint8_t line[63];
    if (r.scan == 0)
        r.answer = __real_film_read_line(second, second_len, radius, line, 63).answer;
#endif
    return r;
}

film_list __wrap_film_list_ring(const uint8_t *ring, size_t ring_len, uint8_t radius, uint8_t *out, size_t out_len) {
    film_list r = __real_film_list_ring(ring, ring_len, radius, out, out_len);
#if FAULT == 4 /* the first start that fits, and not the second */
    if (r.answer == FILM_DONE && r.count == 2) {
        out[1] = 170;
        r.count = 1;
    }
#elif FAULT == 8 /* of thirteen starts the last left out */
    if (r.answer == FILM_DONE && r.count == 13) {
        out[12] = 170;
        r.count = 12;
    }
#endif
    return r;
}

film_panel __wrap_film_panel_text(const uint8_t *text, size_t text_len, uint8_t *out, size_t out_len) {
    film_panel r = __real_film_panel_text(text, text_len, out, out_len);
#if FAULT == 15 /* ' left as it is */
    if (r.answer == FILM_DONE) {
        static const char name[] = "&#39;";
        uint16_t length = 0;
        for (size_t at = 0; at < r.length; length++) {
            int is_named = r.length - at >= strlen(name) && memcmp(out + at, name, strlen(name)) == 0;
            out[length] = is_named ? '\'' : out[at];
            at += is_named ? strlen(name) : 1;
        }
        memset(out + length, 170, r.length - length);
        r.length = length;
    }
#elif FAULT == 16 /* a template taken for plain text */
    if (r.answer == FILM_TEMPLATE) {
        uint8_t plain[FILM_TEXT];
        memcpy(plain, text, FILM_TEXT);
        plain[0] = 0;
        r = __real_film_panel_text(plain, FILM_TEXT, out, out_len);
    }
#endif
    return r;
}

film_panel __wrap_film_panel_ring(const uint8_t *ring, size_t ring_len, uint8_t radius, uint8_t *out, size_t out_len) {
    film_panel r = __real_film_panel_ring(ring, ring_len, radius, out, out_len);
#if FAULT == 17 /* of more than one start the first */
    if (r.answer == FILM_MANY_STARTS) {
        uint8_t starts[FILM_STARTS], word[FILM_CHARACTERS], line[FILM_CHARACTERS];
        __real_film_list_ring(ring, ring_len, radius, starts, FILM_STARTS);
        for (int a = 0; a < FILM_CHARACTERS; a++)
            word[a] = ring[(starts[0] < FILM_CHARACTERS ? starts[0] + a : starts[0] - a) % FILM_CHARACTERS];
        __real_film_read_line(word, FILM_CHARACTERS, radius, line, FILM_CHARACTERS);
        r = __real_film_panel_text(line, FILM_TEXT, out, out_len);
    }
#endif
    return r;
}

film_block __wrap_film_read_block(const uint8_t *rows, size_t rows_len, uint8_t *out, size_t out_len) {
#if FAULT == 5 /* one byte too many is read */
    if (rows_len != 0)
        (void)((const volatile uint8_t *)rows)[rows_len];
#elif FAULT == 6 /* the input is written, with what it holds */
    if (rows_len != 0)
        ((volatile uint8_t *)rows)[0] = rows[0];
#elif FAULT == 7 /* one byte too many is written, with what stands there in the target's page */
    if (out_len != 0)
        ((volatile uint8_t *)out)[out_len] = 170;
#endif
    film_block r = __real_film_read_block(rows, rows_len, out, out_len);
#if FAULT == 9 /* dark film taken for a block of zeros */
    size_t dark = 0;
    while (dark < rows_len && rows[dark] == 0)
        dark++;
    if (r.answer == FILM_NO_BLOCK && dark == rows_len) {
        memset(out, 0, out_len);
        r.answer = FILM_DONE;
    }
#endif
    return r;
}
