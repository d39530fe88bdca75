/* The fuzz target: every function of include/film.h on hostile bytes, each answer and each output byte held against plain C.
 * rules.h has the rules; the calls stand in encoding.h, lines.h, paper.h, blots.h, spool.h, sheet.h, open_tray.h, rings.h, panel.h,
 * blocks.h, smudge.h and clarity.h, and each works out what it can of the answer first, in the order of the refusals; those of paper.h
 * have to give what those of lines.h gave. dust.h makes sheets of few bytes, and rooms.h open trays.
 *
 * fuzz/run builds it with libFuzzer and the address and undefined-behaviour sanitizers, and runs it. The library is linked as it
 * is proved, so the sanitizers do not see into it. Its slices therefore lie against pages that nobody may touch: the input ends
 * or begins there and may only be read, and the output, an open tray or the record of a scan, ends or begins there too. A byte read or
 * written beyond either is a fault. What is checked afterwards is a copy of exact size on the heap, where the sanitizers see the target's
 * own reads. */
#define _GNU_SOURCE
#include "answers.h"
#include "blocks.h"
#include "blots.h"
#include "clarity.h"
#include "dust.h"
#include "encoding.h"
#include "lent.h"
#include "lines.h"
#include "open_tray.h"
#include "panel.h"
#include "paper.h"
#include "rings.h"
#include "rooms.h"
#include "rules.h"
#include "sheet.h"
#include "smudge.h"
#include "spool.h"
#include "taken.h"

int LLVMFuzzerInitialize(int *argc, char ***argv) {
    (void)argc, (void)argv;
    HOLDS(film_version() == FILM_VERSION);
    make_powers();
    make_first_sheet();
    prepare(&input, PAGE, PROT_READ);
    prepare(&second_input, PAGE, PROT_READ);
    prepare(&output, PAGE, PROT_READ | PROT_WRITE);
    prepare(&spool_input, MOST_BYTES, PROT_READ);
    prepare(&spool_output, MOST_BYTES, PROT_READ | PROT_WRITE);
    prepare(&spool_answer, PAGE, PROT_READ | PROT_WRITE);
    prepare(&open_tray, TRAY_PAGES * PAGE, PROT_READ | PROT_WRITE);
    prepare(&asked_tray, TRAY_PAGES * PAGE, PROT_READ);
    prepare(&scan_input, SCAN_BYTES, PROT_READ);
    atexit(print_given);
    return 0;
}

int LLVMFuzzerTestOneInput(const uint8_t *data, size_t size) {
    static void (*const calls[])(void) = {field_calls, register_calls, encode_line_call, read_line_calls, recurrence_calls, scan_calls, merged_call,
                                          moved_call, blots_call, spool_call, encode_sheet_call, read_sheet_call, open_tray_calls, ring_calls,
                                          panel_text_call, panel_ring_call, block_calls, smudge_calls, scan_clarity_calls, spool_clarity_call};
    next = data;
    left = size;
    calls[take() % (sizeof calls / sizeof calls[0])]();
    return 0;
}
