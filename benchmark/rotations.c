#include "rotations.h"

#include <string.h>

#include "checks.h"
#include "etru.h"

#define MAX_NUMBERS ETRU_ARRAY_NUMBERS(ETRU_MAX_N)

// ---- The library's product: six rotations at a time, in 16 bits

static const int32_t units[6][2] = {{1, 0}, {1, 1}, {0, 1}, {-1, 0}, {-1, -1}, {0, -1}};

// The places at which x is the unit (a, b), and their count.
static size_t places_of(size_t n, const int32_t *x, int32_t a, int32_t b, uint16_t *places) {
    size_t count = 0;
    for (size_t j = 0; j < n; j++) {
        places[count] = (uint16_t)j;
        count += x[2 * j] == a && x[2 * j + 1] == b;
    }
    return count;
}

// The sums of six runs go to a block, and the block to all sums, as in the library.
#define BLOCK 256

static void add_six(size_t count, const int16_t *restrict a, const int16_t *restrict b, const int16_t *restrict c,
                    const int16_t *restrict d, const int16_t *restrict e, const int16_t *restrict f,
                    int32_t *restrict sums) {
    int16_t block[BLOCK];
    for (size_t from = 0; from < count; from += BLOCK) {
        size_t part = count - from < BLOCK ? count - from : BLOCK;
        for (size_t k = 0; k < part; k++) {
            block[k] = (int16_t)(a[from + k] + b[from + k] + c[from + k] + d[from + k] + e[from + k] + f[from + k]);
        }
        for (size_t k = 0; k < part; k++) {
            sums[from + k] += block[k];
        }
    }
}

static void add_one(size_t count, const int16_t *restrict a, int32_t *restrict sums) {
    for (size_t k = 0; k < count; k++) {
        sums[k] += a[k];
    }
}

// Horner's rule over the units: unit k is (1 + ω)^k. In `twice` y stands two times in a row.
void multiply_by_six_rotations(size_t n, const int32_t *x, const int32_t *y, int32_t *out) {
    int16_t twice[2 * MAX_NUMBERS];
    uint16_t places[ETRU_MAX_N];
    for (size_t k = 0; k < 2 * n; k++) {
        twice[k] = twice[2 * n + k] = (int16_t)y[k];
    }
    memset(out, 0, 2 * n * sizeof out[0]);
    for (int k = 5; k >= 0; k--) {
        for (size_t i = 0; i < n; i++) {
            int32_t a = out[2 * i], b = out[2 * i + 1];
            out[2 * i] = a - b;
            out[2 * i + 1] = a;
        }
        size_t count = places_of(n, x, units[k][0], units[k][1], places), m = 0;
        for (; m + 6 <= count; m += 6) {
            const int16_t *end = twice + 2 * n;
            add_six(2 * n, end - 2 * places[m], end - 2 * places[m + 1], end - 2 * places[m + 2],
                    end - 2 * places[m + 3], end - 2 * places[m + 4], end - 2 * places[m + 5], out);
        }
        for (; m < count; m++) {
            add_one(2 * n, twice + 2 * (n - places[m]), out);
        }
    }
}

// ---- One rotation at a time, in 32 bits

static void add(size_t count, const int32_t *restrict part, int32_t *restrict sums) {
    for (size_t k = 0; k < count; k++) {
        sums[k] += part[k];
    }
}

static void subtract(size_t count, const int32_t *restrict part, int32_t *restrict sums) {
    for (size_t k = 0; k < count; k++) {
        sums[k] -= part[k];
    }
}

// The sum of y's rotations by j over the x_j that are the unit (a, b), less those over the x_j that are −(a, b).
// In `twice` y stands two times in a row, so that each rotation is one contiguous part of it.
static void sum_rotations(size_t n, const int32_t *x, const int32_t *twice, int32_t a, int32_t b, int32_t *sums) {
    memset(sums, 0, 2 * n * sizeof sums[0]);
    for (size_t j = 0; j < n; j++) {
        const int32_t *rotation = twice + 2 * (n - j);
        if (x[2 * j] == a && x[2 * j + 1] == b) {
            add(2 * n, rotation, sums);
        } else if (x[2 * j] == -a && x[2 * j + 1] == -b) {
            subtract(2 * n, rotation, sums);
        }
    }
}

void multiply_by_single_rotations(size_t n, const int32_t *x, const int32_t *y, int32_t *out) {
    int32_t twice[2 * MAX_NUMBERS], ones[MAX_NUMBERS], omegas[MAX_NUMBERS], squares[MAX_NUMBERS];
    memcpy(twice, y, 2 * n * sizeof y[0]);
    memcpy(twice + 2 * n, y, 2 * n * sizeof y[0]);
    sum_rotations(n, x, twice, 1, 0, ones);
    sum_rotations(n, x, twice, 0, 1, omegas);
    sum_rotations(n, x, twice, -1, -1, squares);
    for (size_t i = 0; i < n; i++) {
        // A + ωB + ω²C, with ω(a, b) = (−b, a − b) and ω²(a, b) = (b − a, −a)
        size_t a = 2 * i, b = 2 * i + 1;
        out[a] = ones[a] - omegas[b] + squares[b] - squares[a];
        out[b] = ones[b] + omegas[a] - omegas[b] - squares[a];
    }
}

// ---- Products modulo 2

static void reduce_modulo_2(size_t n, int32_t *x) {
    for (size_t i = 0; i < n; i++) {
        set_coefficient(x, i, remainder_of_class(class_modulo_2(coefficient(x, i))));
    }
}

void multiply_modulo_2_by_six_rotations(size_t n, const int32_t *x, const int32_t *y, int32_t *out) {
    multiply_by_six_rotations(n, x, y, out);
    reduce_modulo_2(n, out);
}

void multiply_modulo_2_by_single_rotations(size_t n, const int32_t *x, const int32_t *y, int32_t *out) {
    multiply_by_single_rotations(n, x, y, out);
    reduce_modulo_2(n, out);
}

// ---- Convolution, sealing and opening

void rotations_convolve(unit_product *multiply, const struct parameters *p, const int32_t *x, const int32_t *y,
                        int32_t *out) {
    multiply(p->n, x, y, out);
    for (size_t i = 0; i < p->n; i++) {
        set_coefficient(out, i, remainder_modulo_q(coefficient(out, i), modulus(p)));
    }
}

uint32_t rotations_seal(unit_product *multiply, const struct parameters *p, const int32_t *h, const int32_t *phi,
                        const uint8_t *message, int32_t *e) {
    if (!reduced_modulo_q(p->n, modulus(p), h)) {
        return ETRU_NOT_REDUCED_MODULO_Q;
    }
    if (!whole_triples(p->n, phi, p->s)) {
        return ETRU_PHI_NOT_IN_ITS_SET;
    }
    if (spare_bit_set(p->n, message)) {
        return ETRU_SPARE_BIT_SET;
    }
    multiply(p->n, phi, h, e);
    for (size_t i = 0; i < p->n; i++) {
        struct value sum = coefficient(e, i), m = message_coefficient(message, i);
        set_coefficient(e, i, remainder_modulo_q((struct value){2 * sum.a + m.a, 2 * sum.b + m.b}, modulus(p)));
    }
    return ETRU_OK;
}

uint32_t rotations_open(unit_product *multiply, product_modulo_2 *multiply_modulo_2, const struct parameters *p,
                        const int32_t *f, const int32_t *f2, const int32_t *e, uint8_t *message) {
    if (!units_only(p->n, f, p->t)) {
        return ETRU_F_NOT_IN_ITS_SET;
    }
    if (!reduced_modulo_2(p->n, f2)) {
        return ETRU_NOT_REDUCED_MODULO_2;
    }
    if (!reduced_modulo_q(p->n, modulus(p), e)) {
        return ETRU_NOT_REDUCED_MODULO_Q;
    }
    int32_t unsealed[MAX_NUMBERS], opened[MAX_NUMBERS];
    rotations_convolve(multiply, p, f, e, unsealed);
    multiply_modulo_2(p->n, f2, unsealed, opened);
    memset(message, 0, ETRU_MESSAGE_BYTES(p->n));
    for (size_t i = 0; i < p->n; i++) {
        add_message_coefficient(message, i, coefficient(opened, i));
    }
    return ETRU_OK;
}
