/* Encodes a text, makes a character wrong, records the line on a ring from place 10 on, reads both back and prints their text for a page.
 * cc -I target/film bindings/c/example_text.c target/film/libfilm.a -o example_text && ./example_text */
#include "film_text.h"
#include <stdio.h>
#include <string.h>

int main(void) {
    const char *note = "GLASS NEGATIVE, <HARBOUR>, 1931";
    size_t length = strlen(note);
    uint8_t text[50], word[63], ring[63], line[63] = {0}, page[294];

    if (film_characters_of(note, length, FILM_KIND_PLAIN, text) != length || film_encode_line(text, 50, 65, word, 63) != 0) return 1;
    word[60] ^= 5;
    film_line read = film_read_line(word, 63, 5, line, 63);
    film_panel panel = film_panel_text(line, 50, page, 294);
    if (read.answer == 0) printf("line: number %d, distance %d: %.*s\n", read.number, read.distance, panel.length, page);

    for (int a = 0; a < 63; a++)
        ring[(10 + a) % 63] = word[a];
    film_ring found = film_read_ring(ring, 63, 1, line, 63);
    panel = film_panel_text(line, 50, page, 294);
    if (found.answer == 0)
        printf("ring: start %d, number %d, distance %d: %.*s\n", found.start, found.number, found.distance, panel.length, page);
    return 0;
}
