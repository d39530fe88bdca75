/* Slices that are lent: on pages of their own, with a page to either side that nobody may touch. */
#ifndef LENT_H
#define LENT_H

#include "answers.h"
#include <stddef.h>
#include <stdint.h>
#include <stdio.h>
#include <stdlib.h>
#include <string.h>
#include <sys/mman.h>
#include <unistd.h>

enum { PAGE = 4096, SPOOL_PAGES = 4, TRAY_PAGES = 2, MOST_BYTES = SPOOL_PAGES * PAGE, UNTOUCHED = 170 };

typedef struct {
    uint8_t *pages; /* as the target writes them */
    uint8_t *lent;  /* the same pages, as the library sees them */
    size_t size;    /* of the pages */
    size_t from, length;
} slice;

static slice input, second_input, output, spool_input, spool_output, spool_answer, open_tray, asked_tray;

static void *or_die(void *mapped) {
    if (mapped == MAP_FAILED) {
        perror("mmap");
        exit(1);
    }
    return mapped;
}

/* The pages are mapped twice, so that an input can be read-only for the library and be filled here all the same. */
static void prepare(slice *s, size_t size, int rights) {
    int file = memfd_create("slice", 0);
    if (sysconf(_SC_PAGESIZE) != PAGE || file < 0 || ftruncate(file, (off_t)size) != 0) {
        perror("a page");
        exit(1);
    }
    uint8_t *walls = or_die(mmap(NULL, PAGE + size + PAGE, PROT_NONE, MAP_PRIVATE | MAP_ANONYMOUS, -1, 0));
    s->lent = or_die(mmap(walls + PAGE, size, rights, MAP_SHARED | MAP_FIXED, file, 0));
    s->pages = or_die(mmap(NULL, size, PROT_READ | PROT_WRITE, MAP_SHARED, file, 0));
    s->size = size;
    close(file);
}

/* The slice to hand on: against the wall after it or the one before it. An empty one may be NULL. */
static uint8_t *lend(slice *s, const uint8_t *bytes, size_t length, int place) {
    HOLDS(length <= s->size);
    s->from = place & 1 ? 0 : s->size - length;
    s->length = length;
    memset(s->pages, UNTOUCHED, s->size);
    if (bytes != NULL)
        memcpy(s->pages + s->from, bytes, length);
    return length == 0 && place & 2 ? NULL : s->lent + s->from;
}

/* The bytes of the slice, as they are now. */
static const uint8_t *bytes_of(const slice *s) { return s->pages + s->from; }

/* Whether the pages are as they were outside the slice's first n bytes. */
static int kept_after(const slice *s, size_t n) {
    static uint8_t untouched[MOST_BYTES];
    if (untouched[0] != UNTOUCHED)
        memset(untouched, UNTOUCHED, sizeof untouched);
    size_t after = s->from + n;
    return memcmp(s->pages, untouched, s->from) == 0 && memcmp(s->pages + after, untouched, s->size - after) == 0;
}

/* A copy of exact size; the caller frees it. */
static uint8_t *copied(const slice *s) {
    uint8_t *copy = malloc(s->length);
    if (s->length != 0)
        memcpy(copy, bytes_of(s), s->length);
    return copy;
}

#endif
