/* The peers in C: libfec behind a small adapter, and plain C for what libfec has nothing of; that of smudges is in bench/smudge_peer.c.
 *
 * libfec knows neither marks nor numbers nor rings nor maps: the adapter takes the marks off and puts them on again, turns a ring 126 times, and lists
 * the blots of a map. Unlike the library neither it nor the plain C tests lengths or characters. */
#include "bench.h"
#include "sums.h"
#include <fec.h>
#include <string.h>

/* ---- libfec: six bits, x^6 + x + 1, roots from α^58 on, one apart, eleven of them, nothing padded. */

static void *fec;

static void marks(uint8_t *word) {
    word[52] ^= 32;
    word[55] ^= 8;
    word[62] ^= 1;
}

/* It has no encoder by the character: a whole line stands for both, and so it does for the second program, whose register is not written
 * for speed. */
void fec_encode(const uint8_t *input, uint8_t radius, reply *r) {
    (void)radius;
    memcpy(r->out, input, 52);
    encode_rs_char(fec, r->out, r->out + 52);
    marks(r->out);
    r->answer = 0, r->distance = 0, r->number = 0, r->length = 63;
}

/* The number of characters that were mended, or -1, and their addresses where there is room for them: there the first so many are those of blots. */
static int fec_mend(uint8_t *word, int *addresses, int blots) {
    marks(word);
    int mended = decode_rs_char(fec, word, addresses, blots);
    marks(word);
    return mended;
}

void fec_read(const uint8_t *input, uint8_t radius, reply *r) {
    int addresses[11];
    memcpy(r->out, input, 63);
    int mended = fec_mend(r->out, addresses, 0);
    if (mended < 0 || mended > radius) {
        r->answer = FILM_NO_LINE, r->distance = 0, r->number = 0, r->length = 0, r->first = 0, r->last = 0;
        return;
    }
    int first = FILM_NOWHERE, last = mended == 0 ? FILM_NOWHERE : 0;
    for (int i = 0; i < mended; i++) {
        first = addresses[i] < first ? addresses[i] : first;
        last = addresses[i] > last ? addresses[i] : last;
    }
    r->answer = 0, r->distance = (uint8_t)mended, r->number = (uint16_t)(r->out[50] * 64 + r->out[51]), r->length = 63;
    r->first = (uint8_t)first, r->last = (uint8_t)last;
}

/* The addresses of the blots in a map, and how many they are; one too many where there are more than fit. */
static int blots_of(const uint8_t *map, int *addresses) {
    int blots = 0;
    for (int a = 0; a < 63; a++)
        if (map[a] == 1) {
            if (blots == FILM_CHECKS)
                return blots + 1;
            addresses[blots++] = a;
        }
    return blots;
}

/* libfec may count a blot as mended whose character was right, and may find a line that is wrong at too many addresses outside the blots. */
void fec_blotted(const uint8_t *input, uint8_t radius, reply *r) {
    (void)radius;
    const uint8_t *map = input + 63;
    int addresses[FILM_CHECKS], blots = blots_of(map, addresses);
    memcpy(r->out, input, 63);
    int mended = blots > FILM_CHECKS ? -1 : fec_mend(r->out, addresses, blots);
    int first = FILM_NOWHERE, last = 0, changed = 0, outside = 0;
    for (int i = 0; i < mended; i++) {
        int a = addresses[i], differs = r->out[a] != input[a];
        first = differs && a < first ? a : first;
        last = differs && a > last ? a : last;
        changed += differs;
        outside += differs && map[a] == 0;
    }
    if (mended < 0 || 2 * outside + blots > FILM_CHECKS) {
        r->answer = FILM_NO_LINE, r->distance = 0, r->number = 0, r->length = 0, r->first = 0, r->last = 0;
        return;
    }
    r->answer = 0, r->distance = (uint8_t)changed, r->number = (uint16_t)(r->out[50] * 64 + r->out[51]), r->length = 63;
    r->first = (uint8_t)first, r->last = (uint8_t)(changed == 0 ? FILM_NOWHERE : last);
}

/* Both scans are mended, and the nearer is kept. */
void fec_better(const uint8_t *input, uint8_t radius, reply *r) {
    uint8_t words[126];
    memcpy(words, input, 126);
    int first = fec_mend(words, NULL, 0), second = fec_mend(words + 63, NULL, 0);
    int is_first = first >= 0 && first <= radius, is_second = second >= 0 && second <= radius;
    r->number = is_second && (!is_first || second < first) ? 2 : is_first ? 1 : 0;
    r->answer = r->number == 0 ? FILM_NO_LINE : FILM_DONE, r->distance = 0, r->length = 0;
}

void fec_list(const uint8_t *input, uint8_t radius, reply *r) {
    uint8_t ring[126], word[63], back[126];
    r->answer = 0, r->distance = 0, r->number = 0, r->length = 0;
    for (int i = 0; i < 126; i++)
        ring[i] = input[i % 63], back[i] = input[(125 - i) % 63];
    for (int k = 0; k < 126; k++) {
        memcpy(word, k < 63 ? ring + k : back + (62 - (k - 63)), 63);
        int mended = fec_mend(word, NULL, 0);
        if (mended >= 0 && mended <= radius)
            r->out[r->length++] = (uint8_t)k;
    }
}

/* libfec has no parity blocks. The peer here is plain C: the odd rows, the even columns, and one bit flipped at most. */
void plain_block(const uint8_t *input, uint8_t radius, reply *r) {
    (void)radius;
    uint8_t columns = 255;
    int odd = 0, row = 0;
    for (int i = 0; i < 9; i++) {
        columns ^= input[i];
        if (__builtin_parity(input[i]))
            odd++, row = i;
    }
    int faults = __builtin_popcount(columns);
    r->answer = (odd == 0 && faults == 0) || (odd == 1 && faults == 1) ? FILM_DONE : FILM_NO_BLOCK;
    r->distance = 0, r->number = 0, r->length = 0;
    if (r->answer == 0) {
        memcpy(r->out, input, 9);
        r->out[row] ^= columns;
        r->distance = (uint8_t)faults, r->length = 9;
    }
}

/* Nor has libfec products and quotients. The peer is plain C by tables of logarithms; unlike the library it does not test that an operand is an
 * element. */
static uint8_t powers[126], logs[64];

static void make_logs(void) {
    for (unsigned i = 0, x = 1; i < 126; i++, x = x < 32 ? 2 * x : (2 * x) ^ 0x43)
        powers[i] = (uint8_t)x, logs[x] = (uint8_t)(i % 63);
}

void plain_products(const uint8_t *input, uint8_t radius, reply *r) {
    (void)radius;
    r->answer = 0, r->distance = 0, r->number = 0, r->length = 62;
    for (int i = 0; i < 62; i++) {
        uint8_t u = input[i], v = input[i + 1];
        r->out[i] = u == 0 || v == 0 ? 0 : powers[logs[u] + logs[v]];
    }
}

void plain_quotients(const uint8_t *input, uint8_t radius, reply *r) {
    (void)radius;
    r->answer = 0, r->distance = 0, r->number = 0, r->length = 62;
    for (int i = 0; i < 62; i++) {
        uint8_t u = input[i], v = input[i + 1];
        r->distance += v == 0;
        r->out[i] = u == 0 || v == 0 ? 0 : powers[logs[u] + 63 - logs[v]];
    }
}

/* Nor has libfec text for a panel. The peer is plain C, a switch for each character; of what the library tests, it tests the kind alone. */
enum { FIRST_BYTE = 32 };

static uint8_t *append(uint8_t *end, const char *name) {
    memcpy(end, name, strlen(name));
    return end + strlen(name);
}

static uint8_t *append_character(uint8_t *end, uint8_t v) {
    uint8_t byte = FIRST_BYTE + v;
    switch (byte) {
    case '&':
        return append(end, "&amp;");
    case '<':
        return append(end, "&lt;");
    case '>':
        return append(end, "&gt;");
    case '"':
        return append(end, "&quot;");
    case '\'':
        return append(end, "&#39;");
    default:
        *end = byte;
        return end + 1;
    }
}

void plain_panel_text(const uint8_t *input, uint8_t radius, reply *r) {
    (void)radius;
    r->answer = input[0] == PLAIN ? FILM_DONE : input[0] == TEMPLATE ? FILM_TEMPLATE : FILM_UNKNOWN_KIND;
    r->distance = 0, r->number = 0, r->length = 0;
    if (r->answer == FILM_DONE) {
        uint8_t *end = r->out;
        for (int i = 1; i < FILM_TEXT; i++)
            end = append_character(end, input[i]);
        r->length = (uint16_t)(end - r->out);
    }
}

/* libfec lists the ring and reads the one start, and the text is written by the plain C. */
void fec_panel_ring(const uint8_t *input, uint8_t radius, reply *r) {
    reply list, line;
    uint8_t word[FILM_CHARACTERS];
    fec_list(input, radius, &list);
    if (list.length != 1) {
        r->answer = list.length == 0 ? FILM_NO_LINE : FILM_MANY_STARTS, r->distance = 0, r->number = 0, r->length = 0;
        return;
    }
    for (int a = 0; a < FILM_CHARACTERS; a++)
        word[a] = input[place_at(list.out[0], a)];
    fec_read(word, radius, &line);
    plain_panel_text(line.out, radius, r);
}

/* libfec reads the lines of a spool one by one. */
void fec_spool(const uint8_t *input, uint8_t radius, reply *r) {
    reply line;
    r->answer = 0, r->distance = 0, r->number = 0, r->length = FILM_SPOOL;
    for (int i = 0; i < FILM_PLACES; i++) {
        fec_read(input + FILM_CHARACTERS * i, radius, &line);
        memcpy(r->out + FILM_CHARACTERS * i, line.out, FILM_CHARACTERS);
        r->places[i] = (film_line){.answer = line.answer, .distance = line.distance, .number = line.number, .first = line.first, .last = line.last};
    }
}

/* A round by libfec: the 63 lines, and then the 63 columns, taken out with their marks off. It gives how many were not clean. */
static int fec_round(uint8_t *sheet) {
    uint8_t column[FILM_CHARACTERS], mark[FILM_CHARACTERS] = {0};
    int others = 0;
    marks(mark);
    for (int i = 0; i < FILM_CHARACTERS; i++)
        others += fec_mend(sheet + FILM_CHARACTERS * i, NULL, 0) != 0;
    for (int a = 0; a < FILM_CHARACTERS; a++) {
        for (int i = 0; i < FILM_CHARACTERS; i++)
            column[i] = sheet[FILM_CHARACTERS * i + a] ^ mark[a];
        int mended = decode_rs_char(fec, column, NULL, 0);
        for (int i = 0; mended > 0 && i < FILM_CHARACTERS; i++)
            sheet[FILM_CHARACTERS * i + a] = column[i] ^ mark[a];
        others += mended != 0;
    }
    return others;
}

/* libfec reads a sheet in rounds of 126 calls, and takes it for proper where all words of the last round were clean. So they are wherever a round ends as it
 * began with a proper sheet; one that is proper after the eighth round alone is none of the rows'. */
void fec_sheet(const uint8_t *input, uint8_t radius, reply *r) {
    (void)radius;
    uint8_t before[FILM_SHEET];
    int others;
    memcpy(r->out, input, FILM_SHEET);
    r->distance = 0, r->number = 0, r->length = FILM_SHEET;
    do {
        memcpy(before, r->out, FILM_SHEET);
        others = fec_round(r->out);
        r->number++;
    } while (r->number < FILM_ROUNDS && memcmp(before, r->out, FILM_SHEET) != 0);
    r->answer = others == 0 ? FILM_DONE : FILM_IMPROPER_SHEET;
}

/* Nor has libfec open trays. The peers are plain C by a table: what each character adds to the sums at each address. */
uint64_t shares[FILM_CHARACTERS][64];
packed of_marks;

static packed sums_of(const uint8_t *line) {
    packed sums = of_marks;
    add_shares(&sums, line);
    for (int a = 0; a < FILM_CHARACTERS; a++)
        sums.middle ^= line[a];
    return sums;
}

static void make_shares(void) {
    uint8_t mark[FILM_CHARACTERS] = {0};
    for (int a = 0; a < FILM_CHARACTERS; a++)
        for (int c = 1; c < 64; c++)
            for (int lane = 0; lane < LANES; lane++)
                shares[a][c] |= (uint64_t)powers[(logs[c] + (58 + sum_in(lane)) * (62 - a)) % 63] << LANE * lane;
    marks(mark);
    of_marks = sums_of(mark);
}

/* No sums are held: after each change those of all lines are worked out. */
static uint8_t walking_step(film_tray *tray, edit e) {
    uint8_t wrong = 0;
    tray->lines[e.line].characters[e.address] = e.character;
    for (int i = 0; i < FILM_TRAY_LINES; i++) {
        packed sums = sums_of(tray->lines[i].characters);
        wrong += (sums.ten | sums.middle) != 0;
    }
    return wrong;
}

void plain_tray_walking(const uint8_t *input, uint8_t radius, reply *r) {
    (void)radius;
    make_edits(input, walking_step, walking_step, r);
}

static uint8_t plain_drop_step(film_tray *tray, edit e) {
    (void)e;
    static const uint8_t zeros[FILM_SUMS];
    tray->held--;
    return tray->count -= memcmp(tray->lines[tray->held].sums, zeros, FILM_SUMS) != 0;
}

static uint8_t plain_add_step(film_tray *tray, edit e) {
    film_tray_line *room = &tray->lines[tray->held++];
    memmove(room->characters, tray->lines[e.line].characters, FILM_CHARACTERS);
    packed sums = sums_of(room->characters);
    for (int lane = 0; lane < LANES; lane++)
        room->sums[sum_in(lane)] = sums.ten >> LANE * lane & 63;
    room->sums[MIDDLE] = sums.middle;
    return tray->count += (sums.ten | sums.middle) != 0;
}

void plain_tray_drop_add(const uint8_t *input, uint8_t radius, reply *r) {
    (void)radius;
    make_edits(input, plain_drop_step, plain_add_step, r);
}

static uint8_t plain_count_step(film_tray *tray, edit e) {
    (void)e;
    return tray->held > FILM_TRAY_LINES || tray->count > tray->held ? 0 : tray->count;
}

void plain_tray_count(const uint8_t *input, uint8_t radius, reply *r) {
    (void)radius;
    make_edits(input, plain_count_step, plain_count_step, r);
}

int prepare_peers(void) {
    fec = init_rs_char(6, 0x43, 58, 1, 11, 0);
    make_logs();
    make_shares();
    prepare_smudges();
    if (fec != NULL)
        prepare_limit();
    return fec != NULL;
}
