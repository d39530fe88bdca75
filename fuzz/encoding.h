/* The calls of the field, the register, and encoding a line. */
#ifndef ENCODING_H
#define ENCODING_H

#include "answers.h"
#include "film.h"
#include "lent.h"
#include "rules.h"
#include "taken.h"
#include <string.h>

/* Two elements half of the time: of any two bytes one pair in sixteen is. */
static void field_calls(void) {
    uint8_t mask = take() & 1 ? 255 : 63, u = take() & mask, v = take() & mask;
    film_element sum = film_sum(u, v), times = film_product(u, v), over = film_quotient(u, v);
    gave(SUM, sum.answer), gave(PRODUCT, times.answer), gave(QUOTIENT, over.answer);
    if (u > 63 || v > 63) {
        HOLDS(sum.answer == 2 && times.answer == 2 && over.answer == 2 && sum.value == 0 && times.value == 0 && over.value == 0);
        return;
    }
    HOLDS(sum.answer == 0 && sum.value == (u ^ v));
    HOLDS(times.answer == 0 && times.value == product(u, v));
    if (v == 0)
        HOLDS(over.answer == 13 && over.value == 0);
    else
        HOLDS(over.answer == 0 && over.value < 64 && product(over.value, v) == u);
}

static void register_calls(void) {
    film_register before;
    uint8_t mask = take() & 1 ? 255 : 63;
    for (int i = 0; i < 11; i++)
        before.held[i] = take() & mask;
    uint8_t how = take(), c = take();
    before.count = how & 3 ? 50 + how % 5 : take();
    if (how & 64)
        c &= 63;
    int good = all_below(before.held, 11, 64);

    film_stepped r = film_step(before, c);
    int due = before.count >= 52 ? 11 : !good || c > 63 ? 2 : 0;
    gave(STEP, r.answer);
    HOLDS(r.answer == due);
    film_register after = before;
    if (due == 0)
        divide(after.held, c), after.count++;
    HOLDS(memcmp(&r.after, &after, sizeof after) == 0);

    film_checked k = film_checks(before);
    due = before.count > 52 ? 11 : before.count < 52 ? 12 : !good ? 2 : 0;
    gave(CHECKS, k.answer);
    HOLDS(k.answer == due);
    for (int i = 0; i < 11; i++)
        HOLDS(k.checks[i] == (due == 0 ? before.held[i] ^ mark(52 + i) : 0));
}

static void encode_line_call(void) {
    size_t length = take_length(50), room = take_length(63);
    uint16_t number = take_two();
    uint8_t mask = take() & 1 ? 255 : 63, place = take();
    if (mask == 63)
        number %= 4100;
    uint8_t *text = malloc(length);
    for (size_t i = 0; i < length; i++)
        text[i] = take() & mask;
    uint8_t *out = lend(&output, NULL, room, place);
    uint8_t answer = film_encode_line(lend(&input, text, length, place >> 2), length, number, out, room);
    gave(ENCODE_LINE, answer);
    HOLDS(answer == (length != 50 ? 1 : room != 63 ? 5 : !all_below(text, length, 64) ? 2 : number > 4095 ? 4 : 0));
    HOLDS(kept_after(&output, answer == 0 ? 63 : 0));
    if (answer == 0) {
        uint8_t *line = copied(&output);
        HOLDS(all_below(line, 63, 64) && memcmp(line, text, 50) == 0 && number_of(line) == number && is_line(line));
        free(line);
    }
    free(text);
}

#endif
