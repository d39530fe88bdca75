/* From a text to the 50 text characters of a line and back, for programs in C and C++.
 *
 * This is plain C beside the proved library: tested (bindings/c/test_text.c), and not proved. It calls no function.
 *
 * The head of film.h says what the characters stand for: the kind, and then 49 bytes from space to _. So a text may hold
 * & < > " ' and do harm on a page. film_panel_text of film.h is what makes it harmless: a page is given what that writes,
 * and never what film_text_of writes.
 *
 * As in film.h, an output must not overlap an input, and a refusal writes nothing. */
#ifndef FILM_TEXT_H
#define FILM_TEXT_H

#include "film.h"

enum {
    FILM_KIND_PLAIN = 0,    /* a kind: plain text */
    FILM_KIND_TEMPLATE = 1, /* a kind: a template, which film_panel_text refuses; the kinds above it are unknown */
    FILM_LETTERS = 49,      /* the most bytes of a text: one for each text character but the kind */
    FILM_SPACE = 32,        /* the byte that character 0 stands for */
    FILM_HIGHEST = 63       /* the highest character, and the highest kind */
};

/* No length and no place: there is no text. */
#define FILM_NO_TEXT SIZE_MAX

/* The 50 characters, FILM_TEXT bytes, of a kind and a text; a short text is filled with blanks. The text is text_len bytes,
 * and may be NULL where that is 0; a byte 0 does not end it, and is no character.
 *
 * Gives text_len where it was done. Else it gives the place of the first byte that stands for no character, a small letter
 * say; FILM_LETTERS where the first 49 bytes do and there are more; FILM_NO_TEXT where the kind is over 63, whatever the
 * text. */
static inline size_t film_characters_of(const char *text, size_t text_len, uint8_t kind, uint8_t *characters) {
    if (kind > FILM_HIGHEST)
        return FILM_NO_TEXT;
    for (size_t i = 0; i < text_len; i++)
        if (i == FILM_LETTERS || text[i] < FILM_SPACE || text[i] > FILM_SPACE + FILM_HIGHEST)
            return i;
    characters[0] = kind;
    for (size_t i = 0; i < FILM_LETTERS; i++)
        characters[1 + i] = (uint8_t)(i < text_len ? text[i] - FILM_SPACE : 0);
    return text_len;
}

/* The text of 50 characters, FILM_TEXT bytes, with a byte 0 after it: FILM_TEXT bytes are enough. Its kind is characters[0],
 * and a line of 63 characters begins with those 50.
 *
 * Gives the length without the blanks at the end; FILM_NO_TEXT where a character is over 63. */
static inline size_t film_text_of(const uint8_t *characters, char *text) {
    size_t length = 0;
    for (size_t i = 0; i < FILM_TEXT; i++) {
        if (characters[i] > FILM_HIGHEST)
            return FILM_NO_TEXT;
        if (characters[i] != 0)
            length = i;
    }
    for (size_t i = 0; i < length; i++)
        text[i] = (char)(FILM_SPACE + characters[1 + i]);
    text[length] = 0;
    return length;
}

#endif
