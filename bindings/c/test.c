/* Tests of include/film.h, but for spools, sheets, open trays, the clarity of scans, smudges, blots and the method of 1968: what each
 * function gives, every refusal by its number, and outputs that stay as they were, to either side too. It compiles as C and as C++. */
#include "expect.h"
#include "field.h"
#include "film.h"
#include <string.h>

/* An output with bytes of 170 before, in and after it. */
enum { SIDE = 16, ROOM = 320 };
static uint8_t memory[SIDE + ROOM + SIDE];
static uint8_t *const out = memory + SIDE;

static void lend(void) { memset(memory, 170, sizeof memory); }

/* Whether every byte but the first n of the output is as it was lent. */
static int kept_after(size_t n) {
    for (size_t i = 0; i < sizeof memory; i++)
        if ((i < SIDE || i >= SIDE + n) && memory[i] != 170)
            return 0;
    return 1;
}

static int refused_line(film_line r, int answer) {
    return r.answer == answer && r.number == 0 && r.distance == 0 && r.first == 0 && r.last == 0 && kept_after(0);
}
static int refused_list(film_list r, int answer) { return r.answer == answer && r.count == 0 && kept_after(0); }
static int refused_block(film_block r, int answer) { return r.answer == answer && r.distance == 0 && kept_after(0); }

static int refused_ring(film_ring r, int answer) {
    return r.answer == answer && r.start == 0 && r.number == 0 && r.distance == 0 && r.first == 0 && r.last == 0 && kept_after(0);
}

static int refused_panel(film_panel r, int answer) { return r.answer == answer && r.length == 0 && kept_after(0); }

/* Lengths that are neither 63 nor 126. */
static const size_t wrong[] = {0, 1, 50, 62, 64, 125, 127, ROOM};
static const int wrongs = sizeof wrong / sizeof wrong[0];

static uint8_t zeros[ROOM], z[FILM_CHARACTERS];

static void field(void) {
    EXPECT(film_sum(5, 3).answer == 0 && film_sum(5, 3).value == 6);
    EXPECT(film_product(32, 2).value == 3 && film_product(33, 2).value == 1);
    EXPECT(film_quotient(1, 2).value == 33 && film_quotient(0, 5).answer == FILM_DONE && film_quotient(0, 5).value == 0);
    for (unsigned u = 0; u < 64; u++)
        for (unsigned v = 0; v < 64; v++) {
            film_element r = film_product((uint8_t)u, (uint8_t)v);
            EXPECT(r.answer == FILM_DONE && r.value == of_polynomials(u, v));
            EXPECT(v == 0 || film_quotient(r.value, (uint8_t)v).value == u);
        }
    for (int u = 0; u < 256; u++) {
        film_element r = film_quotient((uint8_t)u, 0);
        EXPECT(r.answer == (u > 63 ? FILM_VALUE_OVER : FILM_QUOTIENT_BY_ZERO) && r.value == 0);
    }
    for (int bad = 64; bad < 256; bad++) {
        film_element r[] = {film_sum((uint8_t)bad, 1), film_sum(1, (uint8_t)bad), film_product((uint8_t)bad, 1),
                            film_product(1, (uint8_t)bad), film_quotient((uint8_t)bad, 1), film_quotient(1, (uint8_t)bad)};
        for (int i = 0; i < 6; i++)
            EXPECT(r[i].answer == FILM_VALUE_OVER && r[i].value == 0);
    }
}

static void encoding(void) {
    static const uint8_t checks[] = {32, 0, 0, 8, 0, 0, 0, 1, 1, 0, 1};
    static const int ones[] = {5, 6, 14, 15, 23, 24, 32, 33, 41, 42};
    uint8_t text[FILM_TEXT] = {0};
    for (int i = 0; i < 10; i++)
        text[ones[i]] = 1;
    lend();
    EXPECT(film_encode_line(text, 50, 65, out, 63) == FILM_DONE && kept_after(63));
    EXPECT(memcmp(out, text, 50) == 0 && out[50] == 1 && out[51] == 1 && memcmp(out + 52, checks, 11) == 0);
    lend();
    EXPECT(film_encode_line(NULL, 0, 65, out, 63) == FILM_INPUT_LENGTH && kept_after(0));
    EXPECT(film_encode_line(zeros, 49, 65, out, 63) == FILM_INPUT_LENGTH && kept_after(0));
    EXPECT(film_encode_line(zeros, 51, 5000, NULL, 0) == FILM_INPUT_LENGTH);
    EXPECT(film_encode_line(text, 50, 65, NULL, 0) == FILM_OUTPUT_LENGTH);
    for (int i = 0; i < wrongs; i++)
        EXPECT(film_encode_line(text, 50, 5000, out, wrong[i]) == FILM_OUTPUT_LENGTH && kept_after(0));
    text[49] = 64;
    EXPECT(film_encode_line(text, 50, 5000, out, 63) == FILM_VALUE_OVER && kept_after(0));
    EXPECT(film_encode_line(zeros, 50, 4096, out, 63) == FILM_NUMBER_OVER && kept_after(0));
    EXPECT(film_encode_line(zeros, 50, 4095, out, 63) == FILM_DONE && out[50] == 63 && out[51] == 63);
}

static void reading(void) {
    uint8_t word[FILM_CHARACTERS];
    memcpy(word, z, 63);
    word[60] ^= 5;
    lend();
    film_line r = film_read_line(word, 63, 1, out, 63);
    EXPECT(r.answer == 0 && r.number == 0 && r.distance == 1 && r.first == 60 && r.last == 60 && memcmp(out, z, 63) == 0 && kept_after(63));
    r = film_read_line_wanted(word, 63, 1, 0, out, 63);
    EXPECT(r.answer == 0 && r.number == 0 && r.distance == 1 && r.first == 60 && r.last == 60);
    lend();
    EXPECT(refused_line(film_read_line_wanted(word, 63, 1, 1, out, 63), FILM_OTHER_NUMBER));
    EXPECT(refused_line(film_read_line_wanted(word, 63, 5, 4096, out, 63), FILM_NUMBER_OVER));
    EXPECT(refused_line(film_read_line_wanted(word, 63, 6, 4096, out, 63), FILM_RADIUS_OVER));
    EXPECT(refused_line(film_read_line(word, 63, 255, out, 63), FILM_RADIUS_OVER));
    EXPECT(refused_line(film_read_line(word, 63, 0, out, 63), FILM_NO_LINE));
    EXPECT(refused_line(film_read_line(NULL, 0, 9, NULL, 0), FILM_INPUT_LENGTH));
    EXPECT(refused_line(film_read_line_wanted(word, 63, 9, 9999, NULL, 0), FILM_OUTPUT_LENGTH));
    for (int i = 0; i < wrongs; i++) {
        EXPECT(refused_line(film_read_line(zeros, wrong[i], 9, out, 63), FILM_INPUT_LENGTH));
        EXPECT(refused_line(film_read_line_wanted(zeros, wrong[i], 9, 9999, out, wrong[i]), FILM_INPUT_LENGTH));
        EXPECT(refused_line(film_read_line(word, 63, 9, out, wrong[i]), FILM_OUTPUT_LENGTH));
    }
    for (int a = 0; a < 63; a++) {
        memcpy(word, z, 63);
        word[a] = (uint8_t)(64 + a * 3);
        EXPECT(refused_line(film_read_line_wanted(word, 63, 9, 9999, out, 63), FILM_VALUE_OVER));
    }
}

/* Nothing changed, and every one and every two addresses. */
static void changed_addresses(void) {
    film_line r = film_read_line(z, 63, 5, out, 63);
    EXPECT(r.answer == 0 && r.distance == 0 && r.first == FILM_NOWHERE && r.last == FILM_NOWHERE);
    for (int a = 0; a < 63; a++)
        for (int b = a; b < 63; b++) {
            uint8_t word[FILM_CHARACTERS];
            memcpy(word, z, 63);
            word[a] ^= 11;
            word[b] ^= (uint8_t)(b == a ? 32 : 1 + a);
            r = film_read_line(word, 63, 2, out, 63);
            EXPECT(r.answer == 0 && r.distance == (a == b ? 1 : 2) && r.first == a && r.last == b && memcmp(out, z, 63) == 0);
        }
}

static int kept(film_choice r, int scan) { return r.answer == 0 && r.scan == scan; }
static int refused_both(film_choice r, int answer) { return r.answer == answer && r.scan == 0; }

/* Scans of z with 0 to 6 wrong characters each, at every radius, and scans that are refused. */
static void two_scans(void) {
    uint8_t scan[7][FILM_CHARACTERS], high[FILM_CHARACTERS];
    for (int wrong = 0; wrong < 7; wrong++) {
        memcpy(scan[wrong], z, 63);
        for (int i = 0; i < wrong; i++)
            scan[wrong][10 * i + wrong % 2] ^= 5;
    }
    for (int one = 0; one < 7; one++)
        for (int other = 0; other < 7; other++)
            for (int radius = 0; radius <= 5; radius++) {
                film_choice r = film_better_scan(scan[one], 63, scan[other], 63, (uint8_t)radius);
                if (one > radius && other > radius)
                    EXPECT(refused_both(r, FILM_NO_LINE));
                else
                    EXPECT(kept(r, one <= radius && one <= other ? 1 : 2));
            }
    memcpy(high, z, 63);
    high[62] = 64;
    EXPECT(refused_both(film_better_scan(z, 62, high, 63, 9), FILM_INPUT_LENGTH));
    EXPECT(refused_both(film_better_scan(high, 63, z, 62, 9), FILM_VALUE_OVER));
    EXPECT(refused_both(film_better_scan(z, 63, high, 63, 6), FILM_RADIUS_OVER));
    EXPECT(refused_both(film_better_scan(NULL, 0, NULL, 0, 255), FILM_INPUT_LENGTH));
    EXPECT(kept(film_better_scan(NULL, 0, z, 63, 0), 2) && kept(film_better_scan(z, 63, NULL, 0, 0), 1));
    for (int i = 0; i < wrongs; i++)
        EXPECT(kept(film_better_scan(zeros, wrong[i], z, 63, 5), 2) && kept(film_better_scan(z, 63, zeros, wrong[i], 5), 1));
}

static void rings(void) {
    static const uint8_t starts[] = {0, 3, 7, 10, 53, 56, 60, 104, 107, 110, 114, 117, 124};
    uint8_t ring[FILM_CHARACTERS];
    lend();
    film_list r = film_list_ring(z, 63, 5, out, 126);
    EXPECT(r.answer == 0 && r.count == 13 && memcmp(out, starts, 13) == 0 && kept_after(13));
    for (int start = 0; start < 63; start++) {
        for (int a = 0; a < 63; a++)
            ring[(start + a) % 63] = z[a];
        ring[31] ^= 7;
        lend();
        film_ring read = film_read_ring(ring, 63, 1, out, 63);
        EXPECT(read.answer == 0 && read.start == start && read.number == 0 && read.distance == 1 && memcmp(out, z, 63) == 0 && kept_after(63));
        EXPECT(read.first == (31 + 63 - start) % 63 && read.last == read.first);
    }
    lend();
    EXPECT(film_list_ring(zeros, 63, 0, out, 126).answer == 0 && film_list_ring(zeros, 63, 0, out, 126).count == 0 && kept_after(0));
    EXPECT(refused_ring(film_read_ring(zeros, 63, 0, out, 63), FILM_NO_LINE));
    EXPECT(refused_ring(film_read_ring(zeros, 63, 3, out, 63), FILM_MANY_STARTS));
    EXPECT(refused_ring(film_read_ring(z, 63, 6, out, 63), FILM_RADIUS_OVER));
    EXPECT(refused_list(film_list_ring(z, 63, 6, out, 126), FILM_RADIUS_OVER));
    EXPECT(refused_ring(film_read_ring(NULL, 0, 9, NULL, 0), FILM_INPUT_LENGTH));
    EXPECT(refused_list(film_list_ring(NULL, 0, 9, NULL, 0), FILM_INPUT_LENGTH));
    EXPECT(refused_list(film_list_ring(z, 63, 9, out, 63), FILM_OUTPUT_LENGTH));
    EXPECT(refused_ring(film_read_ring(z, 63, 9, out, 126), FILM_OUTPUT_LENGTH));
    for (int i = 0; i < wrongs; i++) {
        EXPECT(refused_list(film_list_ring(zeros, wrong[i], 9, out, 126), FILM_INPUT_LENGTH));
        EXPECT(refused_ring(film_read_ring(zeros, wrong[i], 9, out, 63), FILM_INPUT_LENGTH));
        EXPECT(refused_list(film_list_ring(z, 63, 9, out, wrong[i]), FILM_OUTPUT_LENGTH));
        EXPECT(refused_ring(film_read_ring(z, 63, 9, out, wrong[i]), FILM_OUTPUT_LENGTH));
    }
    for (int a = 0; a < 63; a++) {
        memcpy(ring, z, 63);
        ring[a] = 64;
        EXPECT(refused_list(film_list_ring(ring, 63, 9, out, 126), FILM_VALUE_OVER));
        EXPECT(refused_ring(film_read_ring(ring, 63, 9, out, 63), FILM_VALUE_OVER));
    }
}

/* What is due for a text: each character's byte, or its name. */
static size_t escaped(const uint8_t *text, char *due) {
    static const char bytes[] = "&<>\"'", *const names[] = {"&amp;", "&lt;", "&gt;", "&quot;", "&#39;"};
    size_t length = 0;
    for (int a = 1; a < FILM_TEXT; a++) {
        const char *named = strchr(bytes, 32 + text[a]);
        length += named ? strlen(strcpy(due + length, names[named - bytes])) : 1;
        if (!named)
            due[length - 1] = (char)(32 + text[a]);
    }
    return length;
}

static int shown(film_panel r, const uint8_t *text) {
    char due[FILM_PANEL + 1];
    size_t length = escaped(text, due);
    return r.answer == FILM_DONE && r.length == length && memcmp(out, due, length) == 0 && kept_after(length);
}

/* Every character at every place, the longest text, every kind, and each refusal before those that come after it. */
static void panel_texts(void) {
    uint8_t text[FILM_TEXT] = {0};
    for (int a = 1; a < FILM_TEXT; a++) {
        for (uint8_t v = 0; v < 64; v++) {
            text[a] = v;
            lend();
            EXPECT(shown(film_panel_text(text, 50, out, FILM_PANEL), text));
        }
        text[a] = (uint8_t)(a * 23 % 64);
    }
    memset(text + 1, '"' - 32, 49);
    lend();
    EXPECT(shown(film_panel_text(text, 50, out, FILM_PANEL), text) && film_panel_text(text, 50, out, ROOM).length == FILM_PANEL);
    lend();
    for (int kind = 1; kind < 256; kind++) {
        text[0] = (uint8_t)kind;
        EXPECT(refused_panel(film_panel_text(text, 50, out, FILM_PANEL), kind > 63 ? FILM_VALUE_OVER : kind == 1 ? FILM_TEMPLATE : FILM_UNKNOWN_KIND));
    }
    for (int kind = 0; kind < 3; kind++)
        for (int a = 1; a < FILM_TEXT; a++) {
            text[0] = (uint8_t)kind;
            text[a] = (uint8_t)(64 + a * 3);
            EXPECT(refused_panel(film_panel_text(text, 50, out, FILM_PANEL), FILM_VALUE_OVER));
            EXPECT(refused_panel(film_panel_text(text, 50, out, FILM_PANEL - 1), FILM_OUTPUT_LENGTH));
            EXPECT(refused_panel(film_panel_text(text, 49, out, FILM_PANEL - 1), FILM_INPUT_LENGTH));
            text[a] = 0;
        }
    EXPECT(refused_panel(film_panel_text(zeros, 51, out, FILM_PANEL), FILM_INPUT_LENGTH));
    EXPECT(refused_panel(film_panel_text(zeros, 50, NULL, 0), FILM_OUTPUT_LENGTH));
    EXPECT(refused_panel(film_panel_text(NULL, 0, NULL, 0), FILM_INPUT_LENGTH));
}

/* Lines of three kinds recorded at every start with one wrong character, and each refusal of a ring. */
static void panel_rings(void) {
    uint8_t text[FILM_TEXT], line[FILM_CHARACTERS], ring[FILM_CHARACTERS];
    for (int a = 1; a < FILM_TEXT; a++)
        text[a] = (uint8_t)(a * 37 % 64);
    for (int kind = 0; kind < 3; kind++) {
        text[0] = (uint8_t)kind;
        EXPECT(film_encode_line(text, 50, 4095, line, 63) == FILM_DONE);
        for (int start = 0; start < 126; start++) {
            for (int a = 0; a < 63; a++)
                ring[start < 63 ? (start + a) % 63 : (start - a) % 63] = line[a];
            ring[start % 63] ^= 9;
            lend();
            film_panel r = film_panel_ring(ring, 63, 1, out, FILM_PANEL);
            EXPECT(kind == 0 ? shown(r, text) : refused_panel(r, kind == 1 ? FILM_TEMPLATE : FILM_UNKNOWN_KIND));
        }
    }
    lend();
    EXPECT(refused_panel(film_panel_ring(z, 63, 4, out, FILM_PANEL), FILM_MANY_STARTS));
    EXPECT(refused_panel(film_panel_ring(zeros, 63, 0, out, FILM_PANEL), FILM_NO_LINE));
    EXPECT(refused_panel(film_panel_ring(z, 63, 6, out, FILM_PANEL), FILM_RADIUS_OVER));
    ring[62] = 64;
    EXPECT(refused_panel(film_panel_ring(ring, 63, 6, out, FILM_PANEL), FILM_VALUE_OVER));
    EXPECT(refused_panel(film_panel_ring(ring, 63, 6, out, FILM_PANEL - 1), FILM_OUTPUT_LENGTH));
    EXPECT(refused_panel(film_panel_ring(ring, 62, 6, NULL, 0), FILM_INPUT_LENGTH));
    for (int i = 0; i < wrongs; i++) {
        EXPECT(refused_panel(film_panel_ring(zeros, wrong[i], 6, out, FILM_PANEL), FILM_INPUT_LENGTH));
        EXPECT(wrong[i] >= FILM_PANEL || refused_panel(film_panel_ring(z, 63, 6, out, wrong[i]), FILM_OUTPUT_LENGTH));
    }
}

static void blocks(void) {
    static const uint8_t proper[] = {3, 252}, one_wrong[] = {3, 253}, even_columns[] = {3, 3}, far[] = {3, 0}, over[] = {127, 128};
    lend();
    EXPECT(film_encode_block(proper, 1, out, 2) == FILM_DONE && memcmp(out, proper, 2) == 0 && kept_after(2));
    film_block r = film_read_block(one_wrong, 2, out, 2);
    EXPECT(r.answer == 0 && r.distance == 1 && memcmp(out, proper, 2) == 0 && kept_after(2));
    r = film_read_block(proper, 2, out, 2);
    EXPECT(r.answer == 0 && r.distance == 0 && memcmp(out, proper, 2) == 0);
    lend();
    EXPECT(refused_block(film_read_block(even_columns, 2, out, 2), FILM_NO_BLOCK));
    EXPECT(refused_block(film_read_block(far, 2, out, 2), FILM_NO_BLOCK));
    EXPECT(refused_block(film_read_block(NULL, 0, NULL, 0), FILM_ROW_COUNT));
    EXPECT(film_encode_block(NULL, 0, NULL, 0) == FILM_ROW_COUNT);
    EXPECT(film_encode_block(over, 2, out, 3) == FILM_VALUE_OVER && kept_after(0));
}

/* Every number of rows: blocks of no data, which are zeros and the column checks, and dark and bright film. */
static void row_counts(void) {
    uint8_t bright[ROOM], last_bright[ROOM] = {0};
    memset(bright, 255, ROOM);
    last_bright[ROOM - 1] = 255;
    for (size_t rows = 0; rows < ROOM; rows++) {
        const uint8_t *no_data = last_bright + ROOM - rows;
        int taken = rows >= 2 && rows <= 64;
        lend();
        film_block r = film_read_block(no_data, rows, out, rows);
        EXPECT(r.answer == (taken ? FILM_DONE : FILM_ROW_COUNT) && r.distance == 0 && kept_after(taken ? rows : 0));
        EXPECT(!taken || memcmp(out, no_data, rows) == 0);
        lend();
        EXPECT(refused_block(film_read_block(no_data, rows, out, rows + 1), taken ? FILM_OUTPUT_LENGTH : FILM_ROW_COUNT));
        EXPECT(refused_block(film_read_block(zeros, rows, out, rows), taken ? FILM_NO_BLOCK : FILM_ROW_COUNT));
        r = film_read_block(bright, rows, out, rows);
        if (taken && rows % 2 == 1)
            EXPECT(r.answer == FILM_DONE && r.distance == 0 && kept_after(rows) && memcmp(out, bright, rows) == 0);
        else
            EXPECT(refused_block(r, taken ? FILM_NO_BLOCK : FILM_ROW_COUNT));
        taken = rows >= 1 && rows <= 63;
        lend();
        EXPECT(film_encode_block(zeros, rows, out, rows) == (taken ? FILM_OUTPUT_LENGTH : FILM_ROW_COUNT) && kept_after(0));
        EXPECT(film_encode_block(zeros, rows, out, rows + 1) == (taken ? FILM_DONE : FILM_ROW_COUNT) && kept_after(taken ? rows + 1 : 0));
        EXPECT(!taken || memcmp(out, no_data - 1, rows + 1) == 0);
    }
}

static void registers(void) {
    uint8_t text[FILM_TEXT], line[FILM_CHARACTERS];
    for (int a = 0; a < FILM_TEXT; a++)
        text[a] = (uint8_t)(a * 11 % 64);
    EXPECT(film_encode_line(text, 50, 4094, line, 63) == FILM_DONE);
    film_register held = {{0}, 0};
    for (int a = 0; a < 52; a++) {
        film_checked short_of = film_checks(held);
        EXPECT(short_of.answer == FILM_REGISTER_SHORT && memcmp(short_of.checks, zeros, 11) == 0);
        film_stepped taken = film_step(held, line[a]);
        EXPECT(taken.answer == FILM_DONE && taken.after.count == a + 1);
        held = taken.after;
    }
    for (int twice = 0; twice < 2; twice++) {
        film_checked checked = film_checks(held);
        EXPECT(checked.answer == FILM_DONE && memcmp(checked.checks, line + 52, 11) == 0);
    }
    film_stepped more = film_step(held, 0);
    EXPECT(more.answer == FILM_REGISTER_FULL && memcmp(&more.after, &held, sizeof held) == 0);
    static const int counts[] = {0, 51, 52, 53, 255}, steps[] = {2, 2, 11, 11, 11}, checks[] = {12, 12, 2, 11, 11};
    for (int i = 0; i < 5; i++) {
        film_register odd = {{0, 0, 0, 0, 0, 0, 0, 0, 0, 0, 64}, (uint8_t)counts[i]};
        film_stepped step = film_step(odd, 1);
        EXPECT(step.answer == steps[i] && memcmp(&step.after, &odd, sizeof odd) == 0);
        film_checked checked = film_checks(odd);
        EXPECT(checked.answer == checks[i] && memcmp(checked.checks, zeros, 11) == 0);
    }
    film_register empty = {{0}, 0};
    EXPECT(film_step(empty, 64).answer == FILM_VALUE_OVER && film_step(empty, 63).answer == FILM_DONE);
}

/* What film.h says of a number that is beyond its parameter's type: C cuts it, and the library is handed what is left. */
static void wider_numbers(void) {
    int radius = 261, number = 65601;
    uint8_t word[FILM_CHARACTERS];
    memcpy(word, z, 63);
    for (int a = 0; a < 5; a++)
        word[a] ^= 1;
    EXPECT(film_read_line(word, 63, radius, out, 63).distance == 5 && memcmp(out, z, 63) == 0);
    EXPECT(film_encode_line(zeros, 50, number, out, 63) == FILM_DONE && 64 * out[50] + out[51] == 65);
}

int main(void) {
    EXPECT(sizeof(film_line) == 6 && sizeof(film_choice) == 2 && sizeof(film_ring) == 8 && sizeof(film_panel) == 4 && sizeof(film_register) == 12 && sizeof(film_stepped) == 13 && sizeof(film_checked) == 12);
    EXPECT(film_version() == FILM_VERSION && FILM_VERSION / 1000000 == FILM_VERSION_MAJOR);
    EXPECT(film_encode_line(zeros, 50, 0, z, 63) == FILM_DONE && z[52] == 32 && z[55] == 8 && z[62] == 1);
    field();
    encoding();
    reading();
    changed_addresses();
    two_scans();
    rings();
    panel_texts();
    panel_rings();
    blocks();
    row_counts();
    registers();
    wider_numbers();
    printf("C: %d failed\n", failures);
    return failures != 0;
}
