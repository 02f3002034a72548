/*
 * Signatures as the papers compute them: by tables of logarithms and of the powers of alpha. And by Horner's rule, a symbol at a time.
 * All are peers of the library's signing, and all are compared with it before anything is timed.
 */
#include "bench.h"

#include <string.h>

#define ORDER 65535u
#define INLINED static inline __attribute__((always_inline))
#define COMPONENTS 4

static uint16_t logarithm[ORDER + 1];
static uint16_t power[(COMPONENTS + 1) * ORDER]; /* over and over, so that no sum of a logarithm and an exponent needs a remainder */

/* Without a branch, which would be guessed well on a page that is gone over again and again, and badly on any other. */
INLINED uint16_t twice(uint16_t a)
{
    return (uint16_t)((a << 1) ^ (-(a >> 15) & 0x100B));
}

INLINED uint16_t symbol_at(const uint8_t *bytes, size_t i)
{
    uint16_t symbol;
    memcpy(&symbol, bytes + 2 * i, sizeof symbol);
    return symbol;
}

void tables_prepare(void)
{
    uint16_t x = 1;
    for (size_t e = 0; e < COUNT(power); e += 1) {
        power[e] = x;
        logarithm[x] = (uint16_t)(e % ORDER);
        x = twice(x);
    }
}

/* One symbol into every component; e[j - 1] is its exponent in component j. */
INLINED void add_symbol(uint16_t symbol, size_t n, const size_t e[COMPONENTS], uint32_t sum[COMPONENTS])
{
    if (symbol == 0) {
        return;
    }
    const uint16_t *from = power + logarithm[symbol];
    for (size_t j = 0; j < n; j += 1) {
        sum[j] ^= from[e[j]];
    }
}

/* The exponents of the next symbol. */
INLINED void move_on(size_t n, int reduced, size_t e[COMPONENTS])
{
    for (size_t j = 0; j < n; j += 1) {
        size_t next = e[j] + j + 1;
        e[j] = reduced && next >= ORDER ? next - ORDER : next;
    }
}

/* All components in one pass. There is a copy of it for each n and way, in which both are known and the loops over n are gone. */
INLINED void one_pass(size_t n, int reduced, const uint8_t *bytes, size_t length, uint16_t s[COMPONENTS])
{
    size_t e[COMPONENTS] = {0, 0, 0, 0};
    uint32_t sum[COMPONENTS] = {0, 0, 0, 0};
    for (size_t i = 0; i < length / 2; i += 1) {
        add_symbol(symbol_at(bytes, i), n, e, sum);
        move_on(n, reduced, e);
    }
    if (length % 2 != 0) {
        add_symbol(bytes[length - 1], n, e, sum);
    }
    for (size_t j = 0; j < COMPONENTS; j += 1) {
        s[j] = (uint16_t)sum[j];
    }
}

INLINED void pass_for(size_t n, int reduced, const uint8_t *bytes, size_t length, uint16_t s[COMPONENTS])
{
    switch (n) {
    case 1:
        one_pass(1, reduced, bytes, length, s);
        break;
    case 2:
        one_pass(2, reduced, bytes, length, s);
        break;
    case 3:
        one_pass(3, reduced, bytes, length, s);
        break;
    default:
        one_pass(4, reduced, bytes, length, s);
    }
}

/* The papers' way: exponents below the field's order, and so a subtraction where they pass it. */
void tables_sign(size_t n, const uint8_t *bytes, size_t length, uint16_t s[4])
{
    pass_for(n, 1, bytes, length, s);
}

/* No exponent is ever reduced: 65,534 symbols reach no farther than the table of powers does. It is larger, and yet this is faster. */
void long_tables_sign(size_t n, const uint8_t *bytes, size_t length, uint16_t s[4])
{
    pass_for(n, 0, bytes, length, s);
}

INLINED uint16_t moved(size_t j, uint16_t s)
{
    for (size_t left = j; left > 0; left -= 1) {
        s = twice(s);
    }
    return s;
}

INLINED uint16_t component(size_t j, const uint8_t *bytes, size_t length)
{
    uint16_t s = length % 2 != 0 ? bytes[length - 1] : 0;
    for (size_t i = length / 2; i > 0; i -= 1) {
        s = symbol_at(bytes, i - 1) ^ moved(j, s);
    }
    return s;
}

void horner_sign(size_t n, const uint8_t *bytes, size_t length, uint16_t s[4])
{
    s[0] = component(1, bytes, length);
    s[1] = n < 2 ? 0 : component(2, bytes, length);
    s[2] = n < 3 ? 0 : component(3, bytes, length);
    s[3] = n < 4 ? 0 : component(4, bytes, length);
}
