/* The rules in plain C, against which the fuzz target holds the library: the code, rings, and text for a panel. */
#ifndef RULES_H
#define RULES_H

#include "film.h"
#include <stddef.h>
#include <stdint.h>
#include <string.h>

/* Products and what goes over every character lead the fuzzer nowhere, and to trace them takes more time than all else: they are not traced. */
#define UNTRACED __attribute__((no_sanitize("coverage"), noinline))

/* ---- The field and the code. */

static uint8_t power[63];
static int logarithm[64];

static void make_powers(void) {
    uint8_t x = 1;
    for (int e = 0; e < 63; e++) {
        power[e] = x;
        logarithm[x] = e;
        x = (uint8_t)(x << 1);
        if (x > 63)
            x ^= 67;
    }
}

UNTRACED static uint8_t product(uint8_t u, uint8_t v) { return u && v ? power[(logarithm[u] + logarithm[v]) % 63] : 0; }

static uint8_t mark(int a) { return a == 52 ? 32 : a == 55 ? 8 : a == 62 ? 1 : 0; }

/* Puts the marks on, or takes them off. */
static void change_marks(uint8_t *word) {
    for (int a = 0; a < 63; a++)
        word[a] ^= mark(a);
}

/* There are eleven power sums, S_-5 to S_5. */
enum { LOWEST_SUM = -5, HIGHEST_SUM = 5 };

/* What a character at an address adds to S_j. */
UNTRACED static uint8_t share(uint8_t c, int a, int j) { return product(c, power[(j + 63) * (62 - a) % 63]); }

/* S_j of a word, its marks off. */
UNTRACED static uint8_t power_sum(const uint8_t *word, int j) {
    uint8_t sum = 0;
    for (int a = 0; a < 63; a++)
        sum ^= share(word[a] ^ mark(a), a, j);
    return sum;
}

/* All eleven power sums are 0 once the marks are off. */
UNTRACED static int is_line(const uint8_t *word) {
    int j = LOWEST_SUM;
    while (j <= HIGHEST_SUM && power_sum(word, j) == 0)
        j++;
    return j > HIGHEST_SUM;
}

static int number_of(const uint8_t *line) { return line[50] * 64 + line[51]; }

UNTRACED static int distance(const uint8_t *one, const uint8_t *other) {
    int n = 0;
    for (int a = 0; a < 63; a++)
        n += one[a] != other[a];
    return n;
}

/* The first and the last address at which two words differ, 63 where they do not. */
static int first_changed(const uint8_t *one, const uint8_t *other) {
    int a = 0;
    while (a < 63 && one[a] == other[a])
        a++;
    return a;
}

static int last_changed(const uint8_t *one, const uint8_t *other) {
    for (int a = 62; a >= 0; a--)
        if (one[a] != other[a])
            return a;
    return 63;
}

UNTRACED static int all_below(const uint8_t *bytes, size_t length, int bound) {
    for (size_t i = 0; i < length; i++)
        if (bytes[i] >= bound)
            return 0;
    return 1;
}

/* One step of the division: the remainder of x^11 times one more character. */
static void divide(uint8_t held[11], uint8_t c) {
    static const uint8_t generator[11] = {20, 61, 3, 28, 23, 23, 28, 3, 61, 20, 1};
    uint8_t q = held[0] ^ c;
    for (int i = 0; i < 11; i++)
        held[i] = (i < 10 ? held[i + 1] : 0) ^ product(q, generator[i]);
}

/* Fills in the checks of 52 characters. */
static void complete(uint8_t *line) {
    uint8_t held[11] = {0};
    for (int a = 0; a < 52; a++)
        divide(held, line[a]);
    for (int i = 0; i < 11; i++)
        line[52 + i] = held[i] ^ mark(52 + i);
}

/* ---- Rings. */

/* The ring place that address a is taken from at a start. */
static int place_at(int start, int a) { return start < 63 ? (start + a) % 63 : (start - 63 - a + 63) % 63; }

static void turned(const uint8_t *ring, int start, uint8_t *word) {
    for (int a = 0; a < 63; a++)
        word[a] = ring[place_at(start, a)];
}

/* The ring on which a word is recorded at a start. */
static void recorded(const uint8_t *word, int start, uint8_t *ring) {
    for (int a = 0; a < 63; a++)
        ring[place_at(start, a)] = word[a];
}

/* ---- Text for a panel: a kind, and characters that stand for bytes, five of which are written by name. */

enum { PLAIN = 0, TEMPLATE = 1, AFTER_KIND = FILM_TEXT - 1, FIRST_BYTE = 32 };

static const struct {
    char byte;
    const char *name;
} named[] = {{'&', "&amp;"}, {'<', "&lt;"}, {'>', "&gt;"}, {'"', "&quot;"}, {'\'', "&#39;"}};

enum { NAMED = sizeof named / sizeof named[0] };

/* The refusal of a kind, or 0. */
static int kind_refused(uint8_t kind) { return kind == PLAIN ? 0 : kind == TEMPLATE ? 14 : 15; }

/* Writes the characters after the kind, and gives how many bytes that is. */
static size_t escape(const uint8_t *text, uint8_t *written) {
    size_t length = 0;
    for (int i = 1; i < FILM_TEXT; i++) {
        const char byte[] = {(char)(FIRST_BYTE + text[i]), 0}, *word = byte;
        for (int n = 0; n < NAMED; n++)
            if (named[n].byte == byte[0])
                word = named[n].name;
        memcpy(written + length, word, strlen(word));
        length += strlen(word);
    }
    return length;
}

/* Which name the bytes begin with, NAMED where they begin with none. */
static int name_at(const uint8_t *bytes, size_t length) {
    int n = 0;
    while (n < NAMED && (strlen(named[n].name) > length || memcmp(bytes, named[n].name, strlen(named[n].name)) != 0))
        n++;
    return n;
}

/* Undoes the names, and gives the number of characters. */
static size_t unescape(const uint8_t *written, size_t length, uint8_t *characters) {
    size_t count = 0;
    for (size_t at = 0; at < length; count++) {
        int n = name_at(written + at, length - at);
        characters[count] = (n < NAMED ? named[n].byte : written[at]) - FIRST_BYTE;
        at += n < NAMED ? strlen(named[n].name) : 1;
    }
    return count;
}

/* Whether a page takes nothing in it for its own. An & may be there, since it begins a name. */
static int is_harmless(const uint8_t *written, size_t length) {
    for (size_t i = 0; i < length; i++)
        if (written[i] == '<' || written[i] == '>' || written[i] == '"' || written[i] == '\'')
            return 0;
    return 1;
}

#endif
