/* Tests of include/film_text.h: every byte at every place, every length and every kind, from a text to characters and back; what is refused
 * writes nothing; and a text is encoded, damaged, read and shown. It compiles as C and as C++. */
#include "film_text.h"
#include "expect.h"
#include <string.h>

enum { BYTES = 256, CHARACTERS = 64, LONGEST = 60, SIDE = 16, OLD = 170, RADIUS = 5 };

/* The byte of each character. */
static const char alphabet[] = " !\"#$%&'()*+,-./0123456789:;<=>?@ABCDEFGHIJKLMNOPQRSTUVWXYZ[\\]^_";

/* Bytes of no character: the ends of each side, a small letter, and the two bytes of an e with an accent. */
static const char strangers[] = {0, 31, 96, 'e', 127, '\x80', '\xC3', '\xA9', '\xFF'};

/* A text, and characters. */
static char text[LONGEST];
static uint8_t characters[FILM_TEXT];

/* An output with bytes to either side, and what all of it has to hold in the end. */
static uint8_t memory[SIDE + FILM_TEXT + SIDE], due[sizeof memory];
static uint8_t *const out = memory + SIDE, *const due_out = due + SIDE;
static char *const text_out = (char *)memory + SIDE;

static void lend(void) {
    memset(memory, OLD, sizeof memory);
    memset(due, OLD, sizeof due);
}

static int output_is_due(void) { return memcmp(memory, due, sizeof memory) == 0; }

/* The character that stands for a byte; CHARACTERS where there is none. */
static int character_of(char byte) {
    int v = 0;
    while (v < CHARACTERS && alphabet[v] != byte)
        v++;
    return v;
}

/* Whether the first bytes of the text come to their characters after the kind, and blanks after these. */
static int is_written(size_t text_len, int kind) {
    lend();
    memset(due_out, 0, FILM_TEXT);
    due_out[0] = (uint8_t)kind;
    for (size_t i = 0; i < text_len; i++)
        due_out[1 + i] = (uint8_t)character_of(text[i]);
    return film_characters_of(text_len == 0 ? NULL : text, text_len, (uint8_t)kind, out) == text_len && output_is_due();
}

/* Whether they are refused with this, and nothing is written. */
static int is_refused(size_t given, size_t text_len, int kind) {
    lend();
    return film_characters_of(text_len == 0 ? NULL : text, text_len, (uint8_t)kind, out) == given && output_is_due();
}

/* Whether the characters come to this text, with a byte 0 after it and nothing beyond. */
static int is_text(const char *told) {
    lend();
    memcpy(due_out, told, strlen(told) + 1);
    return film_text_of(characters, text_out) == strlen(told) && output_is_due();
}

static int is_no_text(void) {
    lend();
    return film_text_of(characters, text_out) == FILM_NO_TEXT && output_is_due();
}

/* At every place: as the last byte, with others after it, and in a text that is too long besides. */
static void every_byte(void) {
    int fit = 0;
    for (int byte = 0; byte < BYTES; byte++) {
        int fits = character_of((char)byte) < CHARACTERS;
        fit += fits;
        for (size_t place = 0; place < FILM_LETTERS; place++) {
            memset(text, 'A', sizeof text);
            text[place] = (char)byte;
            for (size_t length = place + 1; length <= FILM_LETTERS; length++)
                EXPECT(fits ? is_written(length, FILM_KIND_PLAIN) : is_refused(place, length, FILM_KIND_PLAIN));
            EXPECT(is_refused(fits ? (size_t)FILM_LETTERS : place, LONGEST, FILM_KIND_PLAIN));
        }
    }
    EXPECT(fit == CHARACTERS);
}

/* The first of two bytes of no character is the one that is told; after the 49th byte no byte is looked at. */
static void first_of_two(void) {
    for (size_t i = 0; i < sizeof strangers; i++)
        for (size_t place = 0; place < LONGEST; place++)
            for (size_t later = place; later < LONGEST; later++) {
                memset(text, '_', sizeof text);
                text[place] = text[later] = strangers[i];
                EXPECT(is_refused(place < FILM_LETTERS ? place : (size_t)FILM_LETTERS, LONGEST, FILM_KIND_PLAIN));
            }
}

static void every_length(void) {
    for (size_t i = 0; i < LONGEST; i++)
        text[i] = alphabet[i];
    for (size_t length = 0; length <= LONGEST; length++)
        EXPECT(length <= FILM_LETTERS ? is_written(length, FILM_KIND_PLAIN) : is_refused(FILM_LETTERS, length, FILM_KIND_PLAIN));
}

/* A kind over 63 comes before all that can be wrong with a text. */
static void every_kind(void) {
    memset(text, 'Z', sizeof text);
    text[LONGEST - 1] = 'z';
    for (int kind = 0; kind < BYTES; kind++) {
        int known = kind < CHARACTERS;
        EXPECT(known ? is_written(0, kind) : is_refused(FILM_NO_TEXT, 0, kind));
        EXPECT(known ? is_written(FILM_LETTERS, kind) : is_refused(FILM_NO_TEXT, FILM_LETTERS, kind));
        EXPECT(is_refused(known ? (size_t)FILM_LETTERS : FILM_NO_TEXT, LONGEST, kind));
    }
    text[0] = 'z';
    for (int kind = 0; kind < BYTES; kind++)
        EXPECT(is_refused(kind < CHARACTERS ? 0 : FILM_NO_TEXT, 1, kind));
}

/* Whether the characters come to this text, and it to the characters. */
static int goes_back(const char *told) {
    size_t length = strlen(told);
    int is_told = is_text(told);
    memcpy(text, told, length);
    return is_told && is_written(length, characters[0]) && memcmp(out, characters, FILM_TEXT) == 0;
}

/* Every character alone at every place, with blanks before and after it; and 49 times. */
static void there_and_back(void) {
    char told[FILM_TEXT];
    for (int v = 0; v < CHARACTERS; v++) {
        for (int place = 0; place < FILM_LETTERS; place++) {
            memset(characters, 0, sizeof characters);
            characters[1 + place] = (uint8_t)v;
            memset(told, ' ', sizeof told);
            told[place] = alphabet[v];
            told[v == 0 ? 0 : place + 1] = 0;
            EXPECT(goes_back(told));
        }
        memset(characters, v, sizeof characters);
        memset(told, alphabet[v], FILM_LETTERS);
        told[v == 0 ? 0 : (int)FILM_LETTERS] = 0;
        EXPECT(goes_back(told));
    }
}

/* The kind is no part of the text, and a character over 63 anywhere, the kind too, leaves none. */
static void characters_over(void) {
    memset(characters, 0, sizeof characters);
    characters[FILM_LETTERS] = 33;
    for (int kind = 0; kind < CHARACTERS; kind++) {
        characters[0] = (uint8_t)kind;
        EXPECT(is_text("                                                A"));
    }
    for (int a = 0; a < FILM_TEXT; a++)
        for (int over = CHARACTERS; over < BYTES; over++) {
            uint8_t kept = characters[a];
            characters[a] = (uint8_t)over;
            EXPECT(is_no_text());
            characters[a] = kept;
        }
}

/* A text with a number is encoded, damaged in five characters, read, and shown as it was and for a page. */
static void from_text_to_text(void) {
    static const char note[] = "GLASS NEGATIVE, <HARBOUR>, 1931", page[] = "GLASS NEGATIVE, &lt;HARBOUR&gt;, 1931 ";
    uint8_t word[FILM_CHARACTERS], line[FILM_CHARACTERS], panel[FILM_PANEL];
    char told[FILM_TEXT];
    EXPECT(film_characters_of(note, strlen(note), FILM_KIND_PLAIN, characters) == strlen(note));
    EXPECT(film_encode_line(characters, FILM_TEXT, 65, word, sizeof word) == FILM_DONE);
    for (int wrong = 0; wrong < RADIUS; wrong++)
        word[1 + 6 * wrong] ^= 1;
    film_line read = film_read_line(word, sizeof word, RADIUS, line, sizeof line);
    EXPECT(read.answer == FILM_DONE && read.number == 65 && read.distance == RADIUS);
    EXPECT(film_text_of(word, told) == strlen(note) && strcmp(told, note) != 0);
    EXPECT(film_text_of(line, told) == strlen(note) && strcmp(told, note) == 0);
    EXPECT(film_panel_text(line, FILM_TEXT, panel, sizeof panel).answer == FILM_DONE && memcmp(panel, page, strlen(page)) == 0);
    EXPECT(film_characters_of(note, strlen(note), FILM_KIND_TEMPLATE, characters) == strlen(note));
    EXPECT(film_panel_text(characters, FILM_TEXT, panel, sizeof panel).answer == FILM_TEMPLATE);
}

int main(void) {
    EXPECT(sizeof alphabet == CHARACTERS + 1 && (int)FILM_LETTERS == FILM_TEXT - 1);
    every_byte();
    first_of_two();
    every_length();
    every_kind();
    there_and_back();
    characters_over();
    from_text_to_text();
    printf("C, text: %d failed\n", failures);
    return failures != 0;
}
