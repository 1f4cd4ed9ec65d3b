// Measures libntru's product with a ternary polynomial at degree 2N, for each N that is given: with two thirds of the
// polynomial's coefficients not zero, and with four ninths, as of the 2N numbers of an array with 2N/3 random units.
//
// Usage: libntru N...
// The records are as those of speed.c; where libntru has no room for the degree, `beyond` stands in place of the time.
// The status is 1 if a product is wrong.
#include <libntru/types.h>
#include <stdint.h>
#include <stdio.h>
#include <stdlib.h>
#include <string.h>

#include "measuring.h"

// The library has this function, but its installed headers do not declare it: c = a·b modulo x^N − 1, each coefficient
// modulo mod_mask + 1. It returns 1, or 0 if the degrees of a and b differ.
uint8_t ntru_mult_tern(NtruIntPoly *a, NtruTernPoly *b, NtruIntPoly *c, uint16_t mod_mask);

enum { MODULUS_MASK = 2047 };

static NtruIntPoly a, c;
static NtruTernPoly b;

// `half` of b's coefficients are 1, and as many −1.
static void draw(uint16_t degree, uint16_t half) {
    uint16_t places[NTRU_MAX_DEGREE];
    a.N = degree;
    for (uint16_t i = 0; i < degree; i++) {
        a.coeffs[i] = (int16_t)random_below(MODULUS_MASK + 1);
    }
    shuffle(places, degree);
    b.N = degree;
    b.num_ones = half;
    b.num_neg_ones = half;
    memcpy(b.ones, places, half * sizeof places[0]);
    memcpy(b.neg_ones, places + half, half * sizeof places[0]);
}

// Whether c is a·b, by the direct sum of each coefficient.
static int is_product(uint16_t degree) {
    for (uint32_t i = 0; i < degree; i++) {
        int32_t sum = 0;
        for (uint32_t k = 0; k < b.num_ones; k++) {
            sum += a.coeffs[(i + degree - b.ones[k]) % degree];
        }
        for (uint32_t k = 0; k < b.num_neg_ones; k++) {
            sum -= a.coeffs[(i + degree - b.neg_ones[k]) % degree];
        }
        if (c.coeffs[i] != (sum & MODULUS_MASK)) {
            return 0;
        }
    }
    return c.N == degree;
}

static double best_time(void) {
    double best = 0;
    for (int repetition = 0; repetition < REPETITIONS; repetition++) {
        memset(&c, 0x55, sizeof c);
        double start = microseconds();
        uint8_t done = ntru_mult_tern(&a, &b, &c, MODULUS_MASK);
        double elapsed = microseconds() - start;
        if (done != 1) {
            fprintf(stderr, "libntru: degree %u: no product\n", (unsigned)a.N);
            exit(1);
        }
        if (repetition == 0 || elapsed < best) {
            best = elapsed;
        }
    }
    return best;
}

static void measure(uint32_t n, const char *name, uint32_t half) {
    uint32_t degree = 2 * n;
    // One of the coefficients in NTRU_MAX_DEGREE is kept for libntru's inverses.
    if (degree >= NTRU_MAX_DEGREE || half > NTRU_MAX_ONES) {
        printf("%u\tproduct\t%s\tbeyond\n", (unsigned)n, name);
        return;
    }
    draw((uint16_t)degree, (uint16_t)half);
    double best = best_time();
    if (!is_product((uint16_t)degree)) {
        fprintf(stderr, "libntru: degree %u: a wrong product\n", (unsigned)degree);
        exit(1);
    }
    printf("%u\tproduct\t%s\t%.3f\n", (unsigned)n, name, best);
}

int main(int argument_count, char **arguments) {
    for (int k = 1; k < argument_count; k++) {
        uint32_t n = (uint32_t)strtoul(arguments[k], NULL, 10);
        measure(n, "libntru 2/3", 2 * n / 3);
        measure(n, "libntru 4/9", 4 * n / 9);
    }
    return 0;
}
