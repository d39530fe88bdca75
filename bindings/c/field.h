/* What the tests in C that work in the field share: a product, by no table. */
#ifndef FIELD_H
#define FIELD_H

/* The product of polynomials over bits, reduced by x^6 + x + 1. */
static unsigned of_polynomials(unsigned u, unsigned v) {
    unsigned product = 0;
    for (; v != 0; v /= 2, u = u < 32 ? 2 * u : (2 * u) ^ 67)
        product ^= v % 2 * u;
    return product;
}

#endif
