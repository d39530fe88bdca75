/* The limit: the least work of a reader that looks characters up one by one, in plain C with nothing proved.
 *
 * Of a line that is 63 look-ups, one for each character in the table of its address, whose entries have ten power sums in 64 bits; S_0, the exclusive or of the
 * characters; a test that each byte is a character; and a copy of the 63 bytes. Of a ring it is the same without the copy, and of a spool the same for each
 * line. Of encoding it is 52 look-ups into packed checks, the same test, and writing 63 bytes. What a reader does with sums that are not 0 is no part of it.
 *
 * It is a lower limit for such readers alone, as gcc compiles this here, and no more: one that looks up several characters at once, or that has vector
 * instructions look them up, may stay below it. gcc makes vectors of the copy, of S_0 and of the test, and none of the look-ups.
 *
 * No call here is a peer. What each gives is held to what the library gives before anything is timed: its sums, its lines. */
#include "bench.h"
#include "sums.h"
#include <string.h>

/* Characters are looked at eight at a time, each a byte. What is encoded is the text and the number, of two characters. */
enum { EIGHT = 8, BYTE = 8, DATA = FILM_TEXT + 2 };

/* Of each of eight bytes the bits that are 0 in a character, and the others. */
#define OVER 0xc0c0c0c0c0c0c0c0u
#define CHARACTERS (~OVER)

static inline uint64_t eight_at(const uint8_t *bytes) {
    uint64_t eight;
    memcpy(&eight, bytes, EIGHT);
    return eight;
}

/* The exclusive or and the or of characters, still in eight bytes. */
typedef struct {
    uint64_t sum, any;
} eights;

/* Looks at characters, and copies them where there is room for them. The last eight overlap those before, and of them only the ones that are new add to the
 * exclusive or. */
static inline eights seen(const uint8_t *restrict characters, int length, uint8_t *restrict copy) {
    uint64_t last = eight_at(characters + length - EIGHT);
    eights e = {last >> BYTE * (EIGHT - length % EIGHT), last};
    for (int a = 0; a + EIGHT <= length; a += EIGHT) {
        uint64_t eight = eight_at(characters + a);
        e.sum ^= eight, e.any |= eight;
        if (copy != NULL)
            memcpy(copy + a, &eight, EIGHT);
    }
    if (copy != NULL)
        memcpy(copy + length - EIGHT, &last, EIGHT);
    return e;
}

/* The exclusive or of eight bytes. */
static inline uint8_t folded(uint64_t eight) {
    eight ^= eight >> 32;
    eight ^= eight >> 16;
    return (uint8_t)(eight ^ eight >> 8);
}

/* ---- Reading. The output gets the sums, in nine bytes, and of a line the characters after them. */

enum { SUMS_LENGTH = 9 };

static inline uint8_t sums_taken(const uint8_t *input, uint8_t *copy, packed *sums) {
    eights e = seen(input, FILM_CHARACTERS, copy);
    if (e.any & OVER)
        return FILM_VALUE_OVER;
    *sums = of_marks;
    add_shares(sums, input);
    sums->middle ^= folded(e.sum);
    return FILM_DONE;
}

static inline void put_sums(packed sums, reply *r) {
    memcpy(r->out, &sums.ten, sizeof sums.ten);
    r->out[SUMS_LENGTH - 1] = sums.middle;
}

void limit_read(const uint8_t *input, uint8_t radius, reply *r) {
    (void)radius;
    packed sums = {0, 0};
    r->answer = sums_taken(input, r->out + SUMS_LENGTH, &sums);
    put_sums(sums, r);
    r->distance = 0, r->number = 0, r->length = SUMS_LENGTH + FILM_CHARACTERS;
}

void limit_list(const uint8_t *input, uint8_t radius, reply *r) {
    (void)radius;
    packed sums = {0, 0};
    r->answer = sums_taken(input, NULL, &sums);
    put_sums(sums, r);
    r->distance = 0, r->number = 0, r->length = SUMS_LENGTH;
}

/* Of each line the answer alone is told: whether all its sums are 0. */
void limit_spool(const uint8_t *input, uint8_t radius, reply *r) {
    (void)radius;
    for (int i = 0; i < FILM_PLACES; i++) {
        packed sums = {0, 0};
        uint8_t answer = sums_taken(input + FILM_CHARACTERS * i, r->out + FILM_CHARACTERS * i, &sums);
        r->places[i].answer = answer != FILM_DONE ? answer : sums.ten | sums.middle ? FILM_NO_LINE : FILM_DONE;
    }
    r->answer = 0, r->distance = 0, r->number = 0, r->length = FILM_SPOOL;
}

/* The library tells the sums of a line as it adds it to an open tray. */
void true_list(const uint8_t *input, uint8_t radius, reply *r) {
    (void)radius;
    film_tray tray = {0};
    r->answer = film_tray_add(&tray, input, FILM_CHARACTERS);
    const uint8_t *of_line = tray.lines[0].sums;
    packed sums = {0, of_line[MIDDLE]};
    for (int lane = 0; lane < LANES; lane++)
        sums.ten |= (uint64_t)of_line[sum_in(lane)] << LANE * lane;
    put_sums(sums, r);
    r->length = SUMS_LENGTH;
}

void true_read(const uint8_t *input, uint8_t radius, reply *r) {
    true_list(input, radius, r);
    memcpy(r->out + SUMS_LENGTH, input, FILM_CHARACTERS);
    r->length = SUMS_LENGTH + FILM_CHARACTERS;
}

/* With radius 0 the library reads the lines whose sums are all 0, and leaves the bytes of the others as they were. */
void true_spool(const uint8_t *input, uint8_t radius, reply *r) {
    (void)radius;
    memcpy(r->out, input, FILM_SPOOL);
    film_spool spool = film_read_spool(input, FILM_SPOOL, 0, r->out, FILM_SPOOL);
    for (int i = 0; i < FILM_PLACES; i++)
        r->places[i].answer = spool.places[i].answer;
    r->answer = spool.answer, r->length = FILM_SPOOL;
}

/* ---- Encoding. Ten checks stand in one number: the first eight in the low six bits of its bytes, the ninth in the two bits above them of the first three
 * bytes, and the tenth in those of the next three. The eleventh is what makes the exclusive or of a line that of the marks. */

enum { TEN = 10, PAIR = 2, PAIRS = 3 };

/* Times this, the pairs of bits of three bytes stand one after the other in the third of them. */
#define GATHERED ((1u << 2 * BYTE) + (1u << (BYTE + PAIR)) + (1u << 2 * PAIR))

static uint64_t check_shares[DATA][64], of_no_text;

static uint64_t packed_checks(const uint8_t *checks) {
    uint64_t ten = 0;
    for (int i = 0; i < EIGHT; i++)
        ten |= (uint64_t)checks[i] << BYTE * i;
    for (int i = 0; i < (TEN - EIGHT) * PAIRS; i++)
        ten |= (uint64_t)(checks[EIGHT + i / PAIRS] >> PAIR * (i % PAIRS) & 3) << (BYTE * i + LANE);
    return ten;
}

static inline void put_checks(uint64_t ten, uint64_t sum, uint8_t *checks) {
    uint64_t eight = ten & CHARACTERS, others = ((ten & OVER) >> LANE) * GATHERED;
    checks[EIGHT] = others >> BYTE * (PAIRS - 1) & 63;
    checks[EIGHT + 1] = others >> BYTE * (2 * PAIRS - 1) & 63;
    checks[TEN] = of_marks.middle ^ folded(sum ^ eight) ^ checks[EIGHT] ^ checks[EIGHT + 1];
    memcpy(checks, &eight, EIGHT);
}

void limit_encode(const uint8_t *input, uint8_t radius, reply *r) {
    (void)radius;
    eights e = seen(input, DATA, r->out);
    r->answer = FILM_VALUE_OVER, r->distance = 0, r->number = 0, r->length = FILM_CHARACTERS;
    if (e.any & OVER)
        return;
    uint64_t ten = of_no_text;
#pragma GCC unroll DATA
    for (int a = 0; a < DATA; a++)
        ten ^= check_shares[a][input[a]];
    put_checks(ten, e.sum, r->out + DATA);
    r->answer = FILM_DONE;
}

/* libfec tells the checks of the lines that have a single bit in their text and number; those of more bits are added up. */
void prepare_limit(void) {
    uint8_t text[DATA] = {0};
    reply r;
    fec_encode(text, 0, &r);
    of_no_text = packed_checks(r.out + DATA);
    for (int a = 0; a < DATA; a++) {
        for (int c = 1; c < 64; c++) {
            int others = c & (c - 1);
            text[a] = (uint8_t)c;
            if (others == 0)
                fec_encode(text, 0, &r);
            check_shares[a][c] = others == 0 ? packed_checks(r.out + DATA) ^ of_no_text : check_shares[a][others] ^ check_shares[a][c - others];
        }
        text[a] = 0;
    }
}
