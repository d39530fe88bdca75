/* Tests of sheets: what is encoded is proper and has its texts and numbers, the damage of the promise is undone, any other is read as
 * film_read_line reads each line and each column in its turn, and the refusals come in their order. It compiles as C and as C++. */
#include "chance.h"
#include "expect.h"
#include "film.h"
#include <string.h>

enum { LINE = FILM_CHARACTERS, SHEET = FILM_SHEET, TEXT = FILM_TEXT, TEXTS = FILM_TEXTS, NUMBERS = FILM_NUMBERS };
enum { MOST = 5, SIDE = 70, OLD = 170, TRIES = 10, SCANS = 100, LAST_NUMBER = 4095, LAST_CHARACTER = 63 };

/* A sheet with its texts and numbers, and a scan of it; what is too long has an element more. */
static uint8_t texts[TEXTS + 1], sheet[SHEET], scan[SHEET + 1];
static uint16_t numbers[NUMBERS + 1];

/* The line of zeros: nothing but the marks. */
static uint8_t marks[LINE];

/* An output with bytes to either side, and what all of it has to hold in the end. */
static uint8_t memory[SIDE + SHEET + SIDE], due[sizeof memory];
static uint8_t *const out = memory + SIDE, *const due_out = due + SIDE;

static const uint8_t bytes_over[] = {64, 65, 127, 128, 192, 255};
static const uint16_t numbers_over[] = {LAST_NUMBER + 1, 4097, 8191, 32768, 65535};
enum { BYTES_OVER = sizeof bytes_over, NUMBERS_OVER = sizeof numbers_over / sizeof numbers_over[0] };

static void lend(void) {
    memset(memory, OLD, sizeof memory);
    memset(due, OLD, sizeof due);
}

static int output_is_due(void) { return memcmp(memory, due, sizeof memory) == 0; }

/* Whether the scan is read with this answer and so many rounds, and these characters are left in the output. */
static int reads(int answer, int rounds, const uint8_t *left) {
    lend();
    memcpy(due_out, left, SHEET);
    film_sheet r = film_read_sheet(scan, SHEET, out, SHEET);
    return r.answer == answer && r.rounds == rounds && output_is_due();
}

/* Encodes the texts and numbers, and scans the sheet with nothing wrong. */
static void encode(void) {
    EXPECT(film_encode_sheet(texts, TEXTS, numbers, NUMBERS, sheet, SHEET) == FILM_DONE);
    memcpy(scan, sheet, SHEET);
}

static void make_sheet(void) {
    for (int k = 0; k < TEXTS; k++)
        texts[k] = (uint8_t)below(64);
    for (int i = 0; i < NUMBERS; i++)
        numbers[i] = (uint16_t)below(LAST_NUMBER + 1);
    encode();
}

/* Another character in the scan. */
static void spoil(int i, int a) { scan[LINE * i + a] ^= (uint8_t)(1 + below(63)); }

/* The numbers from 0 to 62 in any order. */
static void shuffle(int *places) {
    for (int i = 0; i < LINE; i++)
        places[i] = i;
    for (int i = LINE - 1; i > 0; i--) {
        int j = below(i + 1), kept = places[i];
        places[i] = places[j];
        places[j] = kept;
    }
}

/* So many wrong characters in a line of the scan. */
static void spoil_line(int i, int wrong) {
    int addresses[LINE];
    shuffle(addresses);
    for (int k = 0; k < wrong; k++)
        spoil(i, addresses[k]);
}

/* Takes a column, its marks off and those of a line on: it is a line where the column is a clean word. */
static void take_column(const uint8_t *from, int a, uint8_t *word) {
    for (int i = 0; i < LINE; i++)
        word[i] = from[LINE * i + a] ^ marks[a] ^ marks[i];
}

static void put_column(const uint8_t *word, int a, uint8_t *to) {
    for (int i = 0; i < LINE; i++)
        to[LINE * i + a] = word[i] ^ marks[a] ^ marks[i];
}

/* A word as it is after reading: the line within the radius, or as it was. */
static int read_word(uint8_t *word, int radius) {
    uint8_t line[LINE];
    if (film_read_line(word, LINE, (uint8_t)radius, line, LINE).answer != FILM_DONE)
        return 0;
    memcpy(word, line, LINE);
    return 1;
}

/* Reads each line and then each column, and tells whether all could be read. */
static int read_each(uint8_t *characters, int radius) {
    int all = 1;
    for (int i = 0; i < LINE; i++)
        all &= read_word(characters + LINE * i, radius);
    for (int a = 0; a < LINE; a++) {
        uint8_t word[LINE];
        take_column(characters, a, word);
        all &= read_word(word, radius);
        put_column(word, a, characters);
    }
    return all;
}

static int is_proper(uint8_t *characters) { return read_each(characters, 0); }

/* The rounds, one by one: how many there are, and what they leave. */
static int run_rounds(uint8_t *characters) {
    uint8_t before[SHEET];
    int rounds = 0;
    do {
        memcpy(before, characters, SHEET);
        read_each(characters, MOST);
        rounds++;
    } while (rounds < FILM_ROUNDS && memcmp(before, characters, SHEET) != 0);
    return rounds;
}

/* The sheet has its texts and numbers, is proper, and is read in one round. */
static void is_encoded(void) {
    uint8_t line[LINE];
    for (int i = 0; i < NUMBERS; i++) {
        EXPECT(film_encode_line(texts + TEXT * i, TEXT, numbers[i], line, LINE) == FILM_DONE);
        EXPECT(memcmp(line, sheet + LINE * i, LINE) == 0);
    }
    EXPECT(is_proper(sheet));
    EXPECT(reads(FILM_DONE, 1, sheet));
}

/* Sheets of zeros, of the highest texts and numbers, and any. Nothing is written beside the output. */
static void encoding(void) {
    for (int highest = 0; highest < 2; highest++) {
        memset(texts, highest * LAST_CHARACTER, TEXTS);
        for (int i = 0; i < NUMBERS; i++)
            numbers[i] = (uint16_t)(highest * LAST_NUMBER);
        encode();
        is_encoded();
    }
    for (int tried = 0; tried < TRIES; tried++) {
        make_sheet();
        is_encoded();
        lend();
        memcpy(due_out, sheet, SHEET);
        EXPECT(film_encode_sheet(texts, TEXTS, numbers, NUMBERS, out, SHEET) == FILM_DONE && output_is_due());
    }
}

/* What becomes of a whole line: zeros, the highest characters, any, every one another, one wrong, or the line below it. */
enum { ZEROS, HIGHEST, ANY, EVERY, ONE, BELOW, WAYS };

static void destroy(int i, int way) {
    uint8_t *line = scan + LINE * i;
    if (way == ZEROS)
        memset(line, 0, LINE);
    if (way == HIGHEST)
        memset(line, LAST_CHARACTER, LINE);
    if (way == ANY)
        for (int a = 0; a < LINE; a++)
            line[a] = (uint8_t)below(64);
    if (way == EVERY)
        spoil_line(i, LINE);
    if (way == ONE)
        spoil_line(i, 1);
    if (way == BELOW)
        memcpy(line, sheet + LINE * ((i + 1) % LINE), LINE);
}

/* Up to five destroyed lines, and up to five wrong characters in each other: two rounds, or one where nothing is wrong. */
static void promise(void) {
    int lines[LINE];
    for (int destroyed = 0; destroyed <= MOST; destroyed++)
        for (int wrong = 0; wrong <= MOST; wrong++)
            for (int way = 0; way < WAYS; way++) {
                make_sheet();
                shuffle(lines);
                for (int k = 0; k < LINE; k++)
                    if (k < destroyed)
                        destroy(lines[k], way);
                    else
                        spoil_line(lines[k], wrong);
                EXPECT(reads(FILM_DONE, destroyed + wrong > 0 ? 2 : 1, sheet));
            }
}

/* Six lines with six wrong characters each, in the same columns: neither lines nor columns can be read. They are left, in one round;
 * where other lines have wrong characters too, these are put right, in two. */
static void left_as_it_is(void) {
    for (int wrong = 0; wrong <= MOST; wrong++)
        for (int tried = 0; tried < TRIES; tried++) {
            int lines[LINE], addresses[LINE];
            uint8_t left[SHEET];
            make_sheet();
            shuffle(lines);
            shuffle(addresses);
            for (int k = 0; k <= MOST; k++)
                for (int n = 0; n <= MOST; n++)
                    spoil(lines[k], addresses[n]);
            memcpy(left, scan, SHEET);
            for (int k = MOST + 1; k < LINE; k++)
                spoil_line(lines[k], wrong);
            EXPECT(reads(FILM_IMPROPER_SHEET, wrong > 0 ? 2 : 1, left));
        }
}

/* A clean word: the sum of two lines. */
static void make_clean(uint8_t *word) {
    uint8_t text[TEXT], line[LINE];
    memset(word, 0, LINE);
    for (int n = 0; n < 2; n++) {
        for (int k = 0; k < TEXT; k++)
            text[k] = (uint8_t)below(64);
        EXPECT(film_encode_line(text, TEXT, (uint16_t)below(LAST_NUMBER + 1), line, LINE) == FILM_DONE);
        for (int a = 0; a < LINE; a++)
            word[a] ^= line[a];
    }
}

/* Six lines with a clean word added that is nowhere 0: each line is one, no column can be read, and all is left as it is. */
static void lines_alone(void) {
    for (int tried = 0; tried < TRIES; tried++) {
        int lines[LINE];
        uint8_t clean[LINE];
        do
            make_clean(clean);
        while (memchr(clean, 0, LINE) != NULL);
        make_sheet();
        shuffle(lines);
        for (int k = 0; k <= MOST; k++)
            for (int a = 0; a < LINE; a++)
                scan[LINE * lines[k] + a] ^= clean[a];
        EXPECT(reads(FILM_IMPROPER_SHEET, 1, scan));
    }
}

/* Six columns with clean words added: a line is read where one of them is 0, and the columns undo it where these are five lines at most.
 * So the round ends as it began, though it changed characters. */
static void columns_undo_lines(void) {
    for (int tried = 0; tried < TRIES;) {
        int addresses[LINE], is_zero[LINE] = {0}, zeros = 0;
        make_sheet();
        shuffle(addresses);
        for (int k = 0; k <= MOST; k++) {
            uint8_t clean[LINE];
            make_clean(clean);
            for (int i = 0; i < LINE; i++) {
                scan[LINE * i + addresses[k]] ^= clean[i];
                is_zero[i] |= clean[i] == 0;
            }
        }
        for (int i = 0; i < LINE; i++)
            zeros += is_zero[i];
        if (zeros == 0 || zeros > MOST)
            continue;
        EXPECT(reads(FILM_IMPROPER_SHEET, 1, scan));
        tried++;
    }
}

/* Any share of wrong characters: what the rounds leave, one by one. Improper sheets with every count of rounds are met, and proper ones
 * with every count but one. */
static void any_damage(void) {
    int met[2][FILM_ROUNDS + 1] = {{0}};
    for (int percent = 8; percent <= 20; percent++)
        for (int scanned = 0; scanned < SCANS; scanned++) {
            uint8_t left[SHEET];
            make_sheet();
            for (int k = 0; k < SHEET; k++)
                if (below(100) < percent)
                    spoil(k / LINE, k % LINE);
            memcpy(left, scan, SHEET);
            int rounds = run_rounds(left), proper = is_proper(left);
            EXPECT(reads(proper ? FILM_DONE : FILM_IMPROPER_SHEET, rounds, left));
            met[proper][rounds]++;
        }
    for (int rounds = 1; rounds <= FILM_ROUNDS; rounds++)
        EXPECT(met[0][rounds] > 0 && (rounds == 1 || met[1][rounds] > 0));
}

/* Whether so much of the scan and so much of an output, an empty slice of which is NULL, are refused, and the output is left alone. */
static int reading_is_refused(int answer, size_t sheet_len, size_t out_len) {
    lend();
    film_sheet r = film_read_sheet(sheet_len == 0 ? NULL : scan, sheet_len, out_len == 0 ? NULL : out, out_len);
    return r.answer == answer && r.rounds == 0 && output_is_due();
}

/* The same of so much of the texts, so many numbers and so much of an output. */
static int encoding_is_refused(int answer, size_t texts_len, size_t numbers_len, size_t out_len) {
    lend();
    int given = film_encode_sheet(texts_len == 0 ? NULL : texts, texts_len, numbers_len == 0 ? NULL : numbers, numbers_len, out_len == 0 ? NULL : out, out_len);
    return given == answer && output_is_due();
}

static const size_t sheet_lengths[] = {0, 1, LINE, TEXTS, SHEET - 1, SHEET + 1}, text_lengths[] = {0, 1, TEXT, NUMBERS, TEXTS - 1, TEXTS + 1};
static const size_t number_lengths[] = {0, 1, TEXT, NUMBERS - 1, NUMBERS + 1};
enum { LENGTHS = sizeof sheet_lengths / sizeof sheet_lengths[0], NUMBER_LENGTHS = sizeof number_lengths / sizeof number_lengths[0] };

/* The sheet's length comes before the output's, and that before its characters. */
static void reading_refused(void) {
    make_sheet();
    for (int k = 0; k < SHEET; k++) {
        scan[k] = bytes_over[k % BYTES_OVER];
        EXPECT(reading_is_refused(FILM_VALUE_OVER, SHEET, SHEET));
        scan[k] = sheet[k];
    }
    scan[below(SHEET)] = 64;
    for (int i = 0; i < LENGTHS; i++) {
        EXPECT(reading_is_refused(FILM_INPUT_LENGTH, sheet_lengths[i], SHEET));
        EXPECT(reading_is_refused(FILM_INPUT_LENGTH, sheet_lengths[i], sheet_lengths[i]));
        EXPECT(reading_is_refused(FILM_OUTPUT_LENGTH, SHEET, sheet_lengths[i]));
    }
}

/* The lengths of the texts and of the numbers come before the output's, that before the texts' characters, and those before the numbers. */
static void encoding_refused(void) {
    make_sheet();
    for (int i = 0; i < NUMBERS; i++) {
        uint16_t kept = numbers[i];
        numbers[i] = numbers_over[i % NUMBERS_OVER];
        EXPECT(encoding_is_refused(FILM_NUMBER_OVER, TEXTS, NUMBERS, SHEET));
        numbers[i] = kept;
    }
    numbers[0] = LAST_NUMBER + 1;
    for (int k = 0; k < TEXTS; k++) {
        uint8_t kept = texts[k];
        texts[k] = bytes_over[k % BYTES_OVER];
        EXPECT(encoding_is_refused(FILM_VALUE_OVER, TEXTS, NUMBERS, SHEET));
        texts[k] = kept;
    }
    texts[0] = 64;
    for (int i = 0; i < LENGTHS; i++) {
        EXPECT(encoding_is_refused(FILM_OUTPUT_LENGTH, TEXTS, NUMBERS, sheet_lengths[i]));
        EXPECT(encoding_is_refused(FILM_INPUT_LENGTH, text_lengths[i], NUMBERS, SHEET));
        for (int n = 0; n < NUMBER_LENGTHS; n++) {
            EXPECT(encoding_is_refused(FILM_INPUT_LENGTH, text_lengths[i], number_lengths[n], sheet_lengths[i]));
            EXPECT(encoding_is_refused(FILM_INPUT_LENGTH, TEXTS, number_lengths[n], sheet_lengths[i]));
        }
    }
    for (int n = 0; n < NUMBER_LENGTHS; n++)
        EXPECT(encoding_is_refused(FILM_INPUT_LENGTH, TEXTS, number_lengths[n], SHEET));
}

int main(void) {
    EXPECT(sizeof(film_sheet) == 2 && (int)SHEET == LINE * LINE && (int)TEXTS == TEXT * NUMBERS);
    EXPECT(film_encode_line(texts, TEXT, 0, marks, LINE) == FILM_DONE);
    encoding();
    promise();
    left_as_it_is();
    lines_alone();
    columns_undo_lines();
    any_damage();
    reading_refused();
    encoding_refused();
    printf("C, sheets: %d failed\n", failures);
    return failures != 0;
}
