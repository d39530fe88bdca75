/* Encodes a line, makes a character wrong, records it on a ring from place 10 on, and reads both back.
 * cc -I target/film bindings/c/example.c target/film/libfilm.a -o example && ./example */
#include "film.h"
#include <stdio.h>

int main(void) {
    uint8_t text[50] = {0}, word[63], ring[63];
    if (film_encode_line(text, 50, 65, word, 63) != 0)
        return 1;
    word[60] ^= 5;
    for (int a = 0; a < 63; a++)
        ring[(10 + a) % 63] = word[a];

    uint8_t line[63];
    film_line read = film_read_line(word, 63, 5, line, 63);
    if (read.answer == 0) printf("line: number %d, distance %d\n", read.number, read.distance);
    film_ring found = film_read_ring(ring, 63, 1, line, 63);
    if (found.answer == 0) printf("ring: start %d, number %d, distance %d\n", found.start, found.number, found.distance);
    return 0;
}
