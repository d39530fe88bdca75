/* What the tests in C that go by chance share: numbers that look like chance, the same in every run. */
#ifndef CHANCE_H
#define CHANCE_H

#include <stdint.h>

static uint32_t chance = 1;
static int below(int bound) {
    chance = chance * 1664525 + 1013904223;
    return (int)((chance >> 8) % (uint32_t)bound);
}

#endif
