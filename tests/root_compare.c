/* Compares jondwave_root with the machine's sqrt, bit by bit; all NaNs count as one. Every tenth pattern is also given to
 * jondwave_root_with, with guesses at the root that are wrong in every way. Usage: root_compare COUNT SEED. */
#include <inttypes.h>
#include <math.h>
#include <stdint.h>
#include <stdio.h>
#include <stdlib.h>
#include <string.h>

extern double jondwave_root(double x);
extern double jondwave_root_with(double x, double guess);

#define DIGITS ((UINT64_C(1) << 52) - 1)
#define INFINITY_BITS (UINT64_C(0x7ff) << 52)
#define SIGN (UINT64_C(1) << 63)

static uint64_t limit, patterns, guesses, differences, state;

/* splitmix64 */
static uint64_t next(void) {
    uint64_t z = (state += UINT64_C(0x9e3779b97f4a7c15));
    z = (z ^ (z >> 30)) * UINT64_C(0xbf58476d1ce4e5b9);
    z = (z ^ (z >> 27)) * UINT64_C(0x94d049bb133111eb);
    return z ^ (z >> 31);
}

static double value(uint64_t bits) {
    double x;
    memcpy(&x, &bits, sizeof x);
    return x;
}

static uint64_t pattern(double x) {
    uint64_t bits;
    if (x != x) return INFINITY_BITS | 1;
    memcpy(&bits, &x, sizeof bits);
    return bits;
}

static void report(uint64_t bits, double got, double want) {
    if (differences++ < 10)
        printf("root %016" PRIx64 ": %016" PRIx64 ", expected %016" PRIx64 "\n", bits, pattern(got), pattern(want));
}

/* the root with units off, its negative, a neighbour with another exponent, zeros, infinities, a NaN, anything */
static void guessed(uint64_t bits, double x, double want) {
    uint64_t r = pattern(want);
    uint64_t guess[] = {r, r + 1, r - 1, r + 2, r - 2, r ^ SIGN, r + DIGITS + 1, r - DIGITS - 1, 0, SIGN, 1, INFINITY_BITS, SIGN | INFINITY_BITS, INFINITY_BITS | 1, bits, next()};
    for (size_t k = 0; k < sizeof guess / sizeof *guess; k++, guesses++) {
        double got = jondwave_root_with(x, value(guess[k]));
        if (pattern(got) != r) report(bits, got, want);
    }
}

static void root_of(uint64_t bits) {
    if (patterns >= limit) return;
    double x = value(bits), got = jondwave_root(x), want = sqrt(x);
    if (pattern(got) != pattern(want)) report(bits, got, want);
    if (patterns++ % 10 == 0) guessed(bits, x, want);
}

/* a pattern and those within d of it */
static void around(uint64_t bits, uint64_t d) {
    for (uint64_t k = bits - d; k != bits + d + 1; k++) root_of(k);
}

int main(int argc, char **argv) {
    if (argc != 3) {
        fprintf(stderr, "usage: root_compare COUNT SEED\n");
        return 2;
    }
    limit = strtoull(argv[1], NULL, 10);
    state = strtoull(argv[2], NULL, 10);

    /* zeros, infinities, NaNs */
    static const uint64_t special[] = {0, INFINITY_BITS, INFINITY_BITS | 1, INFINITY_BITS | DIGITS, INFINITY_BITS | (UINT64_C(1) << 51)};
    for (size_t k = 0; k < sizeof special / sizeof *special; k++) {
        root_of(special[k]);
        root_of(special[k] | SIGN);
    }

    /* every exponent with significands at the edges, both signs: powers of two and their neighbours among them */
    static const uint64_t edge[] = {0, 1, 2, DIGITS, DIGITS - 1, UINT64_C(1) << 51, (UINT64_C(1) << 51) - 1, (UINT64_C(1) << 51) + 1};
    for (uint64_t e = 0; e < 2048; e++)
        for (size_t k = 0; k < sizeof edge / sizeof *edge; k++) {
            root_of((e << 52) | edge[k]);
            root_of(SIGN | (e << 52) | edge[k]);
        }

    /* subnormal values: each one bit, and its neighbours */
    for (unsigned k = 1; k < 52; k++) around(UINT64_C(1) << k, 1);

    /* exact squares, small and random ones of up to 26 digits, exponents of both parities, and two units either way */
    for (uint64_t k = 1; k <= 2000; k++) around(pattern((double)(k * k)), 2);
    for (uint64_t n = 0; n < limit / 40; n++) {
        uint64_t k = (next() >> 38) | 1;
        around(pattern(ldexp((double)(k * k), (int)(next() % 1800) - 950)), 2);
    }

    /* squares of midpoints, where the rounding is hardest: (q + 1/2)^2 for q of 53 digits, and two units either way */
    for (uint64_t n = 0; n < limit / 40; n++) {
        unsigned __int128 m = 2 * ((unsigned __int128)((next() & DIGITS) | (DIGITS + 1))) + 1, s = m * m;
        unsigned down = (s >> 107) ? 55 : 54;
        around(pattern(ldexp((double)(uint64_t)(s >> down), (int)(next() % 1800) - 950)), 2);
    }

    while (patterns < limit) root_of(next());

    printf("root: %" PRIu64 " patterns, %" PRIu64 " guesses handed in, %" PRIu64 " differences\n", patterns, guesses, differences);
    return differences != 0;
}
