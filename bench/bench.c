/* The benchmark: the library, libfec and the second program on the same words, interleaved, the minimum of many rounds.
 *
 * bench/run builds and runs it. A time is that of the whole call, from the caller's characters to the caller's line, number, distance
 * and changed addresses, or text; of a spool, that of one of its lines or scans; of an open tray, that of one step. bench/words.h makes
 * the words; bench/ours.c has the library, bench/peers.c libfec, and plain C for what libfec has nothing of, bench/smudge_peer.c that of
 * smudges, and bench/clarity_peer.c that of how clear a scan is. Before anything is timed, all peers must give the same answers on all
 * words. bench/limit.c has the limit, no peer, of the rows that have one: it must give what the library says that it is. */
#include "bench.h"
#include "film.h"
#include "words.h"
#include <stdio.h>
#include <stdlib.h>
#include <string.h>
#include <time.h>

enum { SELDOM = 20 };

static const char *const names[CALLS] = {"film", "libfec", "second", "limit"};

static row rows[] = {
    {"encode", ENCODE, 0, 0, 0, {ours_encode, fec_encode, second_encode, limit_encode}, NULL, {0}},
    {"encode_by_character", ENCODE, 0, 0, 0, {ours_encode_by_character, fec_encode, second_encode}, NULL, {0}},
    {"read_0", READ, 0, 0, 5, {ours_read, fec_read, second_read, limit_read}, NULL, {0}},
    {"read_1", READ, 1, 0, 5, {ours_read, fec_read, second_read, limit_read}, NULL, {0}},
    {"read_2", READ, 2, 0, 5, {ours_read, fec_read, second_read, limit_read}, NULL, {0}},
    {"read_3", READ, 3, 0, 5, {ours_read, fec_read, second_read, limit_read}, NULL, {0}},
    {"read_4", READ, 4, 0, 5, {ours_read, fec_read, second_read, limit_read}, NULL, {0}},
    {"read_5", READ, 5, 0, 5, {ours_read, fec_read, second_read, limit_read}, NULL, {0}},
    {"read_6_refused", READ, 6, 0, 5, {ours_read, fec_read, second_read, limit_read}, NULL, {0}},
    {"list_clean_radius_5", RING, 0, 0, 5, {ours_list, fec_list, second_list, limit_list}, NULL, {0}},
    {"list_2_errors_radius_5", RING, 2, 0, 5, {ours_list, fec_list, second_list, limit_list}, NULL, {0}},
    {"list_noise_radius_5", NOISE, 0, 0, 5, {ours_list, fec_list, second_list, limit_list}, NULL, {0}},
    {"list_clean_radius_1", RING, 0, 0, 1, {ours_list, fec_list, second_list, limit_list}, NULL, {0}},
    {"list_2_errors_radius_1", RING, 2, 0, 1, {ours_list, fec_list, second_list, limit_list}, NULL, {0}},
    {"list_noise_radius_1", NOISE, 0, 0, 1, {ours_list, fec_list, second_list, limit_list}, NULL, {0}},
    {"block_9_rows", BLOCK, 0, 0, 0, {ours_block, plain_block, second_block}, NULL, {0}},
    {"products_62", FIELD, 0, 0, 0, {ours_products, plain_products, second_products}, NULL, {0}},
    {"quotients_62", FIELD, 0, 0, 0, {ours_quotients, plain_quotients, second_quotients}, NULL, {0}},
    {"better_scan", SCANS, 1, 0, 5, {ours_better, fec_better, second_better}, NULL, {0}},
    {"panel_text", PANEL, 0, 0, 0, {ours_panel_text, plain_panel_text, second_panel_text}, NULL, {0}},
    {"panel_ring", PANEL_RING, 1, 0, 1, {ours_panel_ring, fec_panel_ring, second_panel_ring}, NULL, {0}},
    {"spool_clean", SPOOL, 0, 0, 5, {ours_spool, fec_spool, second_spool, limit_spool}, NULL, {0}},
    {"spool_mix", SPOOL, MIXED, 0, 5, {ours_spool, fec_spool, second_spool, limit_spool}, NULL, {0}},
    {"blots_0", BLOTS, 5, 0, 0, {ours_blotted, fec_blotted, second_blotted}, NULL, {0}},
    {"blots_4", BLOTS, 3, 4, 0, {ours_blotted, fec_blotted, second_blotted}, NULL, {0}},
    {"blots_8", BLOTS, 1, 8, 0, {ours_blotted, fec_blotted, second_blotted}, NULL, {0}},
    {"blots_11", BLOTS, 0, 11, 0, {ours_blotted, fec_blotted, second_blotted}, NULL, {0}},
    {"blots_clean", CLEAN_BLOTS, 0, 4, 0, {ours_blotted, fec_blotted, second_blotted}, NULL, {0}},
    {"sheet_clean", SHEET, 0, 0, 5, {ours_sheet, fec_sheet, second_sheet}, NULL, {0}},
    {"sheet_5_dead_lines", SHEET, DEAD, 0, 5, {ours_sheet, fec_sheet, second_sheet}, NULL, {0}},
    /* the paper's way stands in the place of libfec, beside our own, so that the ratio is its time over ours */
    {"paper_0", READ, 0, 0, 5, {ours_read, ours_paper, second_read}, NULL, {0}},
    {"paper_1", READ, 1, 0, 5, {ours_read, ours_paper, second_read}, NULL, {0}},
    {"paper_2", READ, 2, 0, 5, {ours_read, ours_paper, second_read}, NULL, {0}},
    {"paper_3", READ, 3, 0, 5, {ours_read, ours_paper, second_read}, NULL, {0}},
    {"paper_4", READ, 4, 0, 5, {ours_read, ours_paper, second_read}, NULL, {0}},
    {"paper_5", READ, 5, 0, 5, {ours_read, ours_paper, second_read}, NULL, {0}},
    {"paper_noise_refused", NOISE_LINE, 0, 0, 5, {ours_read, ours_paper, second_read}, NULL, {0}},
    /* in the place of libfec stands plain C that walks all 64 lines, then reading them all, then reading the changed one alone, and then plain C again */
    {"tray_replace", TRAY, UNMENDED, 0, 0, {ours_tray_replace, plain_tray_walking, second_tray_replace}, NULL, {0}},
    {"tray_replace_read_64", TRAY, UNMENDED, 0, 0, {ours_tray_replace, ours_tray_reading, second_tray_replace}, NULL, {0}},
    {"tray_replace_read_1", TRAY, UNMENDED, 0, 0, {ours_tray_replace, ours_tray_reading_one, second_tray_replace}, NULL, {0}},
    {"tray_drop_add", TRAY, UNMENDED, 0, 0, {ours_tray_drop_add, plain_tray_drop_add, second_tray_drop_add}, NULL, {0}},
    {"tray_count", TRAY, UNMENDED, 0, 0, {ours_tray_count, plain_tray_count, second_tray_count}, NULL, {0}},
    {"smudge_clean", SMUDGE, 0, 0, 0, {ours_smudge, plain_smudge, second_smudge}, NULL, {0}},
    {"smudge_4_cells", SMUDGE, 4, 0, 0, {ours_smudge, plain_smudge, second_smudge}, NULL, {0}},
    {"smudge_noise_refused", SMUDGE_NOISE, 0, 0, 0, {ours_smudge, plain_smudge, second_smudge}, NULL, {0}},
    {"smudge_encode", SMUDGE_DATA, 0, 0, 0, {ours_encode_smudge, plain_encode_smudge, second_encode_smudge}, NULL, {0}},
    {"clarity", CLARITY, BELL, 0, THRESHOLD, {ours_clarity, plain_clarity, second_clarity}, NULL, {0}},
    {"clarity_no_spread", CLARITY, 0, 0, THRESHOLD, {ours_clarity, plain_clarity, second_clarity}, NULL, {0}},
    {"clarity_spool", CLARITY_SPOOL, BELL, 0, THRESHOLD, {ours_clarity_spool, plain_clarity_spool, second_clarity_spool}, NULL, {0}},
};

enum { ROWS = sizeof rows / sizeof rows[0] };

static int same_places(const reply *r, const reply *due) {
    for (const film_line *p = r->places, *q = due->places; p < r->places + FILM_PLACES; p++, q++)
        if (p->answer != q->answer || p->distance != q->distance || p->number != q->number || p->first != q->first || p->last != q->last)
            return 0;
    return 1;
}

static int has_limit(const row *w) { return w->calls[LIMIT] != NULL; }

/* The call of the library that gives what is due of a peer, or of the limit. */
static call *due_of(const row *w, int peer) {
    if (peer != LIMIT || w->of == ENCODE)
        return w->calls[OURS];
    return w->of == READ ? true_read : w->of == SPOOL ? true_spool : true_list;
}

static void tell(const row *w, int i, int peer) {
    printf("%s, word %d: %s and the library answer differently\n", w->name, i, names[peer]);
    exit(1);
}

static void same_answer(const row *w, int i, int peer) {
    const uint8_t *word = w->words[i * stride(w)];
    reply due = {0}, r = {0};
    due_of(w, peer)(word, w->radius, &due);
    w->calls[peer](word, w->radius, &r);
    if (r.answer != due.answer || r.distance != due.distance || r.number != due.number || r.length != due.length ||
        r.first != due.first || r.last != due.last || memcmp(r.out, due.out, due.length) != 0 || !same_places(&r, &due))
        tell(w, i, peer);
}

/* The limit tests its bytes as the library does: one that is no character, at each place of the first word in turn, is refused. Of encoding these are the
 * places of the text, since the library is handed the number as one. */
static void same_refusals(const row *w) {
    for (int a = 0; a < (w->of == ENCODE ? FILM_TEXT : FILM_CHARACTERS); a++) {
        reply due = {0}, r = {0};
        uint8_t *byte = &w->words[0][a], kept = *byte;
        *byte |= 64 << a % 2;
        due_of(w, LIMIT)(w->words[0], w->radius, &due);
        w->calls[LIMIT](w->words[0], w->radius, &r);
        *byte = kept;
        if (r.answer != due.answer || r.places[0].answer != due.places[0].answer)
            tell(w, 0, LIMIT);
    }
}

static void same_answers(const row *w) {
    for (int i = 0; i < words_of(w); i++)
        for (int p = 1; p < PEERS + has_limit(w); p++)
            same_answer(w, i, p);
    if (has_limit(w))
        same_refusals(w);
}

/* What is timed and counted: one peer over all words of a row. */
static unsigned sink;

__attribute__((noinline)) void measured(const row *w, int peer) {
    reply r;
    const uint8_t *word = w->words[0];
    for (int i = 0, n = words_of(w), step = 63 * stride(w); i < n; i++, word += step) {
        w->calls[peer](word, w->radius, &r);
        sink += (unsigned)(r.answer + r.distance + r.out[0]);
    }
}

static double nanoseconds(const row *w, int peer) {
    struct timespec from, to;
    /* the limit of a few rings is too short to be timed: they are gone through until they are as many as the lines */
    int turns = peer == LIMIT && parts_of(w) < LINES ? LINES / parts_of(w) : 1;
    /* its tables are large, and are fetched first */
    if (peer == LIMIT)
        measured(w, peer);
    clock_gettime(CLOCK_MONOTONIC, &from);
    for (int i = 0; i < turns; i++)
        measured(w, peer);
    clock_gettime(CLOCK_MONOTONIC, &to);
    return ((double)(to.tv_sec - from.tv_sec) * 1e9 + (double)(to.tv_nsec - from.tv_nsec)) / turns / parts_of(w);
}

static void take_time(row *w, int peer, int round) {
    double t = nanoseconds(w, peer);
    if (round == 0 || t < w->least[peer])
        w->least[peer] = t;
}

static void print_times(int rounds) {
    for (int round = 0; round < rounds; round++) {
        for (row *w = rows; w < rows + ROWS; w++)
            for (int p = 0; p < PEERS; p++)
                /* the second program is slow, so it is timed in one round of SELDOM */
                if (p != SECOND || round % SELDOM == 0)
                    take_time(w, p, round);
        /* after all peers: none of them finds its own tables driven out by those of the limit */
        for (row *w = rows; w < rows + ROWS; w++)
            if (has_limit(w))
                take_time(w, LIMIT, round);
    }
    printf("nanoseconds a call, of a spool a line or scan, of a tray a step, minimum of %d rounds (second: of %d)\n", rounds, (rounds + SELDOM - 1) / SELDOM);
    printf("%-24s %12s %12s %12s\n", "", names[OURS], names[FEC], names[SECOND]);
    for (const row *w = rows; w < rows + ROWS; w++)
        printf("%-24s %12.1f %12.1f %12.1f\n", w->name, w->least[OURS], w->least[FEC], w->least[SECOND]);
    for (const row *w = rows; w < rows + ROWS; w++)
        printf("ratio %s %.3f\n", w->name, w->least[FEC] / w->least[OURS]);
    for (const row *w = rows; w < rows + ROWS; w++)
        printf("ratio_second %s %.3f\n", w->name, w->least[SECOND] / w->least[OURS]);
    for (const row *w = rows; w < rows + ROWS; w++)
        if (has_limit(w))
            printf("limit %s %.1f\n", w->name, w->least[LIMIT]);
    for (const row *w = rows; w < rows + ROWS; w++)
        if (has_limit(w))
            printf("ratio_limit %s %.3f\n", w->name, w->least[OURS] / w->least[LIMIT]);
}

/* bench ROUNDS times everything; bench names prints the rows, each with its peers, and limit where it has one; bench once ROW PEER makes the calls of one row
 * once, for callgrind, and prints how many calls those are, or how many lines or scans of spools or steps on trays. */
int main(int argc, char **argv) {
    if (!prepare_peers())
        return 1;
    for (row *w = rows; w < rows + ROWS; w++) {
        w->words = calloc((size_t)(words_of(w) * stride(w)), sizeof *w->words);
        if (w->words == NULL)
            return 1;
        for (int i = 0; i < words_of(w); i++)
            make_word(w, w->words[i * stride(w)]);
    }

    if (argc == 2 && strcmp(argv[1], "names") == 0) {
        for (const row *w = rows; w < rows + ROWS; w++) {
            printf("%s", w->name);
            for (int p = 0; p < PEERS + has_limit(w); p++)
                printf(" %s", names[p]);
            printf("\n");
        }
    } else if (argc == 4 && strcmp(argv[1], "once") == 0) {
        const row *w = rows + atoi(argv[2]);
        int peer = atoi(argv[3]);
        reply r;
        w->calls[peer](w->words[0], w->radius, &r); /* tables that a peer makes at its first call are not counted */
        measured(w, peer);
        printf("%d\n", parts_of(w));
    } else if (argc == 2 && atoi(argv[1]) > 0) {
        for (const row *w = rows; w < rows + ROWS; w++)
            same_answers(w);
        printf("the same answers on all words\n");
        print_times(atoi(argv[1]));
    } else {
        fprintf(stderr, "bench ROUNDS | names | once ROW PEER\n");
        return 2;
    }
    return 0;
}
