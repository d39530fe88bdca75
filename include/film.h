/* The proved film reader, for programs in C and C++: every entry point, with the paper's numbers.
 *
 * Link target/film/libfilm.a or target/film/libfilm.so (tools/build-library makes both); x86-64 Linux.
 *
 * A slice is a pointer and a length. The pointer has to be good for that many bytes (for a sheet's numbers, that many
 * numbers), and may be NULL only where the length is 0; a film_tray * is never NULL. An output must not overlap an input.
 * Nothing else is asked of a caller, but for the rounding of doubles (see how clear a scan is): any lengths, any bytes and
 * any numbers of the parameters' types are taken and answered. A number beyond its parameter's type is cut by C before the
 * library sees it: a radius of 261 arrives as 5, a number of 65,601 as 65. A caller who holds a wider number tests it first.
 *
 * Every function but film_version answers 0 when it is done, and else one of the refusals below. A refusal's other fields
 * are 0, and the output is as it was; 16 alone, an improper sheet, keeps its other field and writes its output. Nothing is
 * kept between calls but what lies in the caller's own bytes, so any number of threads may call at once; two that work on
 * one open tray take turns.
 *
 * A character is a byte from 0 to 63. A line is 63 characters: addresses 0 to 49 hold text, 50 and 51 the high and the
 * low six bits of the line number, 52 to 62 checks. The distance of two words is the count of addresses where they
 * differ.
 *
 * The first of a line's 50 text characters is its kind: 0 plain, 1 template, others unknown. Each of the 49 others, v, stands
 * for the ASCII byte 32 + v: space to _, that is capitals, digits and signs, and no small letters. film_text.h turns a text
 * into such characters and back. Such text may hold & < > " ', so a page is given panel text (film_panel_text) instead. */
#ifndef FILM_H
#define FILM_H

#include <stddef.h>
#include <stdint.h>

#ifdef __cplusplus
extern "C" {
#endif

/* ---- The version of this header. tools/tables writes its three numbers from version.txt. */

#define FILM_VERSION_MAJOR 4
#define FILM_VERSION_MINOR 8
#define FILM_VERSION_PATCH 0
#define FILM_VERSION (1000000 * FILM_VERSION_MAJOR + 1000 * FILM_VERSION_MINOR + FILM_VERSION_PATCH)

/* The version of the library that is linked, as FILM_VERSION writes it: a program that was compiled with another header
 * can tell. Where the major numbers differ, structs or answers do. */
uint32_t film_version(void);

/* ---- Numbered answers. Each is given then and at no other time, in the order that each function states. tools/tables
 * writes them from refusals.txt. */

enum {
    FILM_DONE = 0,
    FILM_INPUT_LENGTH = 1,      /* a line, ring or map of blots is not 63 long, a text is not 50 long, a sheet is not 3,969 long, its texts are not 2,600 long or its numbers not 52, a spool's length is no multiple of 63 or is over 16,065, a scan of brightnesses is not 378 long, or the length of a spool of them is no multiple of 378 or is over 96,390 */
    FILM_VALUE_OVER = 2,        /* a character (a register's too) or field operand is over 63, a data row over 127, or a byte of a map over 1 */
    FILM_RADIUS_OVER = 3,       /* radius over 5 */
    FILM_NUMBER_OVER = 4,       /* number over 4095 */
    FILM_OUTPUT_LENGTH = 5,     /* output length differs from the one stated, or is under 294 for panel text */
    FILM_NO_LINE = 6,           /* no line within the radius; for ring reading, an empty list; with blots, no such line */
    FILM_OTHER_NUMBER = 7,      /* the line found has another number than the wanted one */
    FILM_ROW_COUNT = 8,         /* block rows outside 2..64, or data rows outside 1..63; with a smudge, not eight rows, or not seven data rows */
    FILM_NO_BLOCK = 9,          /* no proper block within one bit; with a smudge, none that differs inside one window of two by two cells alone */
    FILM_MANY_STARTS = 10,      /* ring reading: two or more entries in the list */
    FILM_REGISTER_FULL = 11,    /* a step is asked of a register that holds 52 characters, or anything of one whose count is above 52 */
    FILM_REGISTER_SHORT = 12,   /* register holds fewer than 52 */
    FILM_QUOTIENT_BY_ZERO = 13, /* quotient by zero */
    FILM_TEMPLATE = 14,         /* panel text: the kind is 1, a template */
    FILM_UNKNOWN_KIND = 15,     /* panel text: the kind is over 1 */
    FILM_IMPROPER_SHEET = 16,   /* sheet reading: what the rounds leave is no proper sheet; it is written all the same, and the rounds are told */
    FILM_TRAY_UNFIT = 17,       /* an open tray claims over 64 lines or a count above them; adding, where 64 are held; replacing and dropping, last, where the line has a character or sum over 63, or a sum not 0 at count 0 */
    FILM_LINE_NOT_HELD = 18,    /* replacing: the line asked for is not there; dropping: no line is left */
    FILM_ADDRESS_OVER = 19,     /* an address over 62 */
    FILM_ONE_SIDED = 20,        /* a scan of brightnesses in which no cell is dark, or none is bright */
    FILM_LAST_REFUSAL = 20      /* the highest of these numbers */
};

/* ---- Lengths, in bytes. */

enum {
    FILM_TEXT = 50,       /* the text of a line */
    FILM_CHARACTERS = 63, /* a line, a ring, a map of blots, and the output of encoding and reading them */
    FILM_STARTS = 126,    /* the output of listing a ring */
    FILM_SHEET = 3969,    /* a sheet, 63 lines, and the output of encoding and reading it */
    FILM_TEXTS = 2600,    /* the texts of a sheet's first 52 lines */
    FILM_TRAY = 4738,     /* an open tray: sizeof(film_tray) */
    FILM_SPOOL = 16065,   /* the longest spool, 255 lines; the output of reading a spool is as long as the spool */
    FILM_CELLS = 378,     /* the brightnesses of a scan, a byte for each cell of a line */
    FILM_SCANS = 96390,   /* the longest spool of such scans, 255 of them */
    FILM_PANEL = 294,     /* the least output of panel text, and the longest text for a panel */
    FILM_CHECKS = 11,     /* a register's characters, and the checks */
    FILM_SMUDGE = 8       /* a block that outlasts a smudge, and the output of encoding and reading it */
};

/* ---- The field of 64 elements: sum, product and quotient. Refusals: 2; of a quotient 2, 13: by 0 there is none. A product
 * and a quotient are looked up in a table that each call lays out anew: who needs very many asks for all 4,096 once. */

typedef struct film_element {
    uint8_t answer;
    uint8_t value;
} film_element;

film_element film_sum(uint8_t u, uint8_t v);
film_element film_product(uint8_t u, uint8_t v);
film_element film_quotient(uint8_t u, uint8_t v);

/* ---- Encoding a line at once: 50 characters of text and a number from 0 to 4095; the output, 63 bytes, gets the one
 * line with that text and number. Refusals: 1, 5, 2, 4. */

uint8_t film_encode_line(const uint8_t *text, size_t text_len, uint16_t number, uint8_t *out, size_t out_len);

/* ---- Encoding by the character. A register is eleven characters, highest degree first, and a count; {{0}, 0} has taken
 * none. It goes in and comes back by value. */

typedef struct film_register {
    uint8_t held[FILM_CHECKS];
    uint8_t count;
} film_register;

typedef struct film_stepped {
    film_register after; /* the register after the step; as it was in a refusal */
    uint8_t answer;
} film_stepped;

typedef struct film_checked {
    uint8_t checks[FILM_CHECKS]; /* the characters of addresses 52 to 62 */
    uint8_t answer;
} film_checked;

/* Takes one more character: one step of the division on what is held. Refusals: 11, 2. */
film_stepped film_step(film_register before, uint8_t c);

/* The checks of a register that has taken 52 characters; the register stays the caller's. Refusals: 11, 12, 2. */
film_checked film_checks(film_register taken);

/* ---- Reading a line: 63 characters and a radius from 0 to 5. If a line lies within the radius it is the only one: the
 * output, 63 bytes, gets it, and the answer holds its number, its distance from the word, and the first and the last
 * address at which the output differs from the word: FILM_NOWHERE and FILM_NOWHERE where it does not. As every other
 * field they are 0 in a refusal; 0 and 0 is also a success with the character of address 0 alone changed, so look at the
 * answer first. */

enum {
    FILM_NOWHERE = 63 /* in the place of an address: nothing was changed */
};

typedef struct film_line {
    uint8_t answer;
    uint8_t distance;
    uint16_t number;
    uint8_t first;
    uint8_t last;
} film_line;

/* With no wanted number. Refusals: 1, 5, 2, 3, 6. */
film_line film_read_line(const uint8_t *word, size_t word_len, uint8_t radius, uint8_t *out, size_t out_len);

/* The line must carry the wanted number. Refusals: 1, 5, 2, 3, 4, 6, 7. */
film_line film_read_line_wanted(const uint8_t *word, size_t word_len, uint8_t radius, uint16_t wanted, uint8_t *out, size_t out_len);

/* The same two by the method of 1968, for a museum: every answer and every output is that of the two above, and the time is
 * longer. Refusals: as above. */
film_line film_read_line_paper(const uint8_t *word, size_t word_len, uint8_t radius, uint8_t *out, size_t out_len);
film_line film_read_line_paper_wanted(const uint8_t *word, size_t word_len, uint8_t radius, uint16_t wanted, uint8_t *out, size_t out_len);

/* With a map of blots, the characters that the scanner could not see: 63 bytes, 1 for a blot and 0 for none. With f blots the
 * line is the one that differs from the word in e characters outside them, 2e + f at most 11; there is never a second one. The
 * word's character at a blot is still one from 0 to 63, and has no say in which line that is. The distance, up to 11, and the
 * changed addresses count blots too. There is no radius and no wanted number: with no blot it is film_read_line with radius
 * 5. Refusals: 1, 5, 2, 6. 1 and 2 are given for the map too, and 6 says that there is no such line: never with eleven
 * blots, always with more. */
film_line film_read_blotted(const uint8_t *word, size_t word_len, const uint8_t *map, size_t map_len, uint8_t *out, size_t out_len);

/* ---- Reading a spool: up to 255 lines, one after the other, with one radius and no wanted numbers. places[i] is what
 * film_read_line answers for the 63 bytes from 63 * i on, and the 63 bytes of the output from there on are what it leaves
 * there: a refused line leaves its own as they were, and stops no other. The places past the last line are zeros, and so are
 * all of them where the call is refused. Zeros look like a line that was read, so go by the count of lines: lines_len / 63. */

enum {
    FILM_PLACES = 255 /* a count: the places of an answer, and the most lines of a spool */
};

typedef struct film_spool {
    film_line places[FILM_PLACES];
    uint8_t answer; /* of the call; the answer for each line stands in its place */
} film_spool;

/* The output is as long as the lines; no lines are fine. Refusals: 1, 5. Refusals 2, 3 and 6 stay with each line: a radius
 * over 5 makes the call answer 0, and each line 2 or 3. */
film_spool film_read_spool(const uint8_t *lines, size_t lines_len, uint8_t radius, uint8_t *out, size_t out_len);

/* ---- A sheet: 63 lines, one after the other. It is proper when each of them is a line and, with each line's marks taken
 * off, each of its 63 columns is a word of the same code: the first 52 lines are free, and the last eleven, text and number
 * field too, are what the columns force. So whole lines that dust took can be had back. */

enum {
    FILM_NUMBERS = 52, /* a count: the lines of a sheet that have texts and numbers of their own */
    FILM_ROUNDS = 8    /* a count: the most rounds of reading a sheet */
};

typedef struct film_sheet {
    uint8_t answer;
    uint8_t rounds; /* how many were run, the last counted: 1 to 8; 0 after refusals 1, 5 and 2 */
} film_sheet;

/* Reads a sheet, 3,969 characters, in rounds: each line is read with radius 5, then each column, marks off; what cannot be
 * read is left. Rounds go on until one ends as it began or eight are done, and the output, 3,969 bytes, gets what they
 * leave. Where at most five lines of a proper sheet are damaged in any way and each other line in at most five characters,
 * that is the sheet, after 2 rounds (1 where nothing was damaged). Refusals: 1, 5, 2, 16. 16 says that what the rounds left
 * is not proper: it is written, and its rounds are told. */
film_sheet film_read_sheet(const uint8_t *sheet, size_t sheet_len, uint8_t *out, size_t out_len);

/* Encodes a sheet from 52 texts of 50 characters, one after the other, and 52 numbers from 0 to 4095: the output, 3,969
 * bytes, gets the one proper sheet whose first 52 lines have those texts and numbers. numbers_len counts numbers, not
 * bytes. Refusals: 1, 5, 2, 4. 1 is given for the texts' length and for the numbers'. */
uint8_t film_encode_sheet(const uint8_t *texts, size_t texts_len, const uint16_t *numbers, size_t numbers_len, uint8_t *out, size_t out_len);

/* ---- A tray kept open: up to 64 lines that are edited on screen, each with its eleven power sums, marks off, beside it, and
 * a count of those whose sums are not all 0. A line in a tray is any 63 characters: the count tells how many of them are no
 * lines of the code, and no line is walked again for it. The tray is the caller's own, lent by pointer, and is these bytes
 * and nothing else: it may be copied, kept in a file, or made by hand. {0} is an empty tray; so is any with held and count 0. */

enum {
    FILM_TRAY_LINES = 64, /* a count: the most lines that a tray holds */
    FILM_SUMS = 11        /* a count: the power sums of a line, S_-5 first */
};

typedef struct film_tray_line {
    uint8_t characters[FILM_CHARACTERS];
    uint8_t sums[FILM_SUMS];
} film_tray_line;

typedef struct film_tray {
    film_tray_line lines[FILM_TRAY_LINES]; /* from lines[held] on it is free room, whatever it holds */
    uint8_t held;
    uint8_t count;
} film_tray;

typedef struct film_count {
    uint8_t answer;
    uint8_t count;
} film_count;

/* Each of the four operations takes any tray whatever: where `held` is over 64, or `count` above `held`, it answers 17, first.
 * A refused operation leaves every byte of the tray as it was. From an empty tray on, whatever is called, the lines are those
 * that the accepted operations give, and the sums and the count are what working them out afresh would give. */

/* Adds 63 characters as the last line. They must not lie in the tray itself: copy such a line out first. Refusals: 17, 1, 2,
 * and 17 where 64 lines are held. */
uint8_t film_tray_add(film_tray *tray, const uint8_t *line, size_t line_len);

/* Replaces one character of a line, lines counted from 0, and adds the share of the change to the sums of that line. Refusals:
 * 17; 18 where there is no such line; 19 for an address over 62; 2; and 17 where the line has a character or sum over 63, or
 * a sum that is not 0 while the count is 0, which only a tray made by hand has. */
uint8_t film_tray_replace(film_tray *tray, uint8_t line, uint8_t address, uint8_t character);

/* Drops the last line. The bytes of its room stay, and the next line added is written over them. Refusals: 17; 18 where no line
 * is left; and 17 as for replacing. */
uint8_t film_tray_drop(film_tray *tray);

/* The count: how many lines of the tray are no lines of the code. Refusals: 17. */
film_count film_tray_count(const film_tray *tray);

/* ---- Two scans of one line. Each is read with the radius and no wanted number. The scan that is read with the smaller
 * distance is the better one, the first where they tie; where one is refused it is the other; where both are, it is
 * neither, and the answer is the refusal of the first. A scan that is not 63 long is a refused scan. The two may be the
 * same bytes. */

typedef struct film_choice {
    uint8_t answer;
    uint8_t scan; /* 1 the first, 2 the second, 0 neither */
} film_choice;

/* Which scan to keep. Refusals, those of the first scan where both are refused: 1, 2, 3, 6. */
film_choice film_better_scan(const uint8_t *first, size_t first_len, const uint8_t *second, size_t second_len, uint8_t radius);

/* ---- How clear a scan is: the brightness of each of the 378 cells of a line, 0 to 255, and a threshold. A cell below the
 * threshold is dark, any other bright. With n cells on a side, their sum s and the sum of their squares q (1 dark, 2 bright)
 * the ratio is (s2 n1 - s1 n2)^2 / (n2^2 (n1 q1 - s1^2) + n1^2 (n2 q2 - s2^2)): both are whole numbers below 2^53, exact as
 * doubles, and their quotient is rounded once, to the nearest double. It is the square of the distance of the two means over
 * the sum of the two variances: the greater, the clearer. The division is the processor's own: a program that has set
 * another rounding (fesetround) sets it back to the nearest before it calls. */

enum {
    FILM_RATIO = 0,    /* a kind: a ratio */
    FILM_NO_SPREAD = 1 /* a kind: the cells of each side are all alike, the denominator is 0, and there is no ratio */
};

typedef struct film_scan {
    uint8_t answer;
    uint8_t kind;  /* FILM_RATIO or FILM_NO_SPREAD; 0 in a refusal */
    double ratio;  /* above 0.0; 0.0 where there is no spread, and in a refusal */
    double dark;   /* the mean of the dark cells, s1 / n1 rounded once; 0.0 in a refusal, and where they all are 0 */
    double bright; /* the mean of the bright ones, s2 / n2 rounded once; 0.0 in a refusal */
} film_scan;

/* The clarity of one scan, 378 cells. Any threshold is taken: at 0 no cell is dark. Refusals: 1, 20. */
film_scan film_scan_clarity(const uint8_t *cells, size_t cells_len, uint8_t threshold);

typedef struct film_clarities {
    uint8_t answer;
    uint8_t ratios;     /* how many scans have a ratio */
    uint8_t no_spreads; /* how many have no spread */
    uint8_t refusals;   /* how many are refused, with 20 */
} film_clarities;

/* Counts what film_scan_clarity answers for each of up to 255 scans, one after the other, with one threshold: the three counts
 * add up to the scans. A refused scan stops no other; no scans are fine. Refusals: 1. */
film_clarities film_spool_clarity(const uint8_t *cells, size_t cells_len, uint8_t threshold);

/* ---- A ring of 63 characters. Start k from 0 to 62 is forward: address a is taken from ring place (k + a) mod 63. Start
 * 63 + s, with s from 0 to 62, is backward: address a is taken from place (s - a) mod 63. */

typedef struct film_list {
    uint8_t answer;
    uint8_t count;
} film_list;

typedef struct film_ring {
    uint8_t answer;
    uint8_t start;
    uint8_t distance;
    uint16_t number;
    uint8_t first; /* of the word at that start, and so an address of the line, no place on the ring; as in film_line */
    uint8_t last;
} film_ring;

/* Lists the starts at which some line lies within the radius: the first `count` bytes of the output, 126 bytes, get them
 * in rising order, and the others stay. An empty list is no refusal. Refusals: 1, 5, 2, 3. */
film_list film_list_ring(const uint8_t *ring, size_t ring_len, uint8_t radius, uint8_t *out, size_t out_len);

/* Reads the line at the one start that is listed into the output, 63 bytes. Refusals: 1, 5, 2, 3, 6, 10. */
film_ring film_read_ring(const uint8_t *ring, size_t ring_len, uint8_t radius, uint8_t *out, size_t out_len);

/* ---- Harmless text for a panel, from a line's 50 text characters. Only plain text is written: all 49 bytes, blanks at the
 * end too, with & < > " ' as &amp; &lt; &gt; &quot; &#39;. The output is at least 294 bytes long: its first `length` bytes
 * get the text, with no byte 0 after it, and the others stay. No byte written is < > " or ', so the text can stand between
 * the tags of a page, and in an attribute between quotes of either kind. */

typedef struct film_panel {
    uint8_t answer;
    uint16_t length; /* how many bytes were written */
} film_panel;

/* The text of a line. Refusals: 1, 5, 2, 14, 15. */
film_panel film_panel_text(const uint8_t *text, size_t text_len, uint8_t *out, size_t out_len);

/* The text of the line at the one start of a ring that is listed. Refusals: 1, 5, 2, 3, 6, 10, 14, 15. */
film_panel film_panel_ring(const uint8_t *ring, size_t ring_len, uint8_t radius, uint8_t *out, size_t out_len);

/* ---- A block: 2 to 64 rows of eight bits; the lowest seven bits of all but the last row are data, the highest bit is the
 * row check, and the last row holds the column checks. It is proper when every row holds an even number of ones and every
 * column an odd number: dark film, all zeros, is no block. (Before version 2 every column was even: the last row was the
 * inverse of what it is now. To read such a block, invert its last row.) */

typedef struct film_block {
    uint8_t answer;
    uint8_t distance;
} film_block;

/* Takes 1 to 63 data rows, each at most 127, and an output one longer, which gets the one proper block with those data
 * rows. Refusals: 8, 5, 2. */
uint8_t film_encode_block(const uint8_t *data, size_t data_len, uint8_t *out, size_t out_len);

/* The output, as long as the rows, gets the proper block at distance 0 or 1 bit from them. Refusals: 8, 5, 9. */
film_block film_read_block(const uint8_t *rows, size_t rows_len, uint8_t *out, size_t out_len);

/* ---- A block that outlasts a smudge: eight rows of eight cells, stored staggered. Cell j of row i is bit j of byte i. To
 * straighten it, every cell of an odd column moves two rows up, and then every cell of an odd row two cells toward bit 0,
 * both around the edge; what comes of that has to be a proper block. The cells of a window of two by two, which does not go
 * around the edge, so come to four rows and to four columns. */

/* Takes seven data rows, each at most 127, and an output of 8, which gets the block with those data rows, staggered.
 * Refusals: 8, 5, 2. */
uint8_t film_encode_smudge(const uint8_t *data, size_t data_len, uint8_t *out, size_t out_len);

/* Takes eight rows, staggered, and an output of 8, which gets the one such block, staggered, that differs from them inside
 * one window of two by two alone, if at all; the distance is 0 to 4 bits. Refusals: 8, 5, 9. */
film_block film_read_smudge(const uint8_t *rows, size_t rows_len, uint8_t *out, size_t out_len);

#ifdef __cplusplus
}
#endif

#endif
