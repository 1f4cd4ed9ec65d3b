#include "halving.h"

#include <stddef.h>
#include <string.h>

#include "etru.h"

#define MAX_NUMBERS ETRU_ARRAY_NUMBERS(ETRU_MAX_N)

// Arrays of so many coefficients or fewer are multiplied by direct sums.
#define FEW 16

// The numbers of a product of 2N coefficients at the largest N, and the room for smaller products behind them: as many
// as the library has.
#define MAX_ROOM (17 * ETRU_MAX_N / 2)

// ---- The direct sum

// The coefficient product by three multiplications of numbers.
static inline struct value product_by_three(struct value x, struct value y) {
    int64_t first = x.a * y.a;
    return (struct value){first - x.b * y.b, first - (x.a - x.b) * (y.a - y.b)};
}

// The sum of x_j·y_(base − j) for j from `from` to `to`.
static struct value dot(const int32_t *x, const int32_t *y, size_t from, size_t to, size_t base) {
    struct value sum = {0, 0};
    for (size_t j = from; j < to; j++) {
        struct value term = product_by_three(coefficient(x, j), coefficient(y, base - j));
        sum.a += term.a;
        sum.b += term.b;
    }
    return sum;
}

// Coefficient i of the product of two arrays, before the wrap.
static struct value product_at(size_t n, const int32_t *x, const int32_t *y, size_t i) {
    return i < n ? dot(x, y, 0, i + 1, i) : dot(x, y, i + 1 - n, n, i);
}

// ---- Halving

static void add_numbers(size_t count, const int32_t *restrict part, int32_t *restrict numbers) {
    for (size_t k = 0; k < count; k++) {
        numbers[k] += part[k];
    }
}

static void subtract_numbers(size_t count, const int32_t *restrict part, int32_t *restrict numbers) {
    for (size_t k = 0; k < count; k++) {
        numbers[k] -= part[k];
    }
}

// The same of sums of products.
static void add_sums(size_t count, const int64_t *restrict part, int64_t *restrict sums) {
    for (size_t k = 0; k < count; k++) {
        sums[k] += part[k];
    }
}

static void subtract_sums(size_t count, const int64_t *restrict part, int64_t *restrict sums) {
    for (size_t k = 0; k < count; k++) {
        sums[k] -= part[k];
    }
}

static void multiply_few(size_t n, const int32_t *x, const int32_t *y, int64_t *out) {
    for (size_t i = 0; i < 2 * n; i++) {
        struct value sum = product_at(n, x, y, i);
        out[2 * i] = sum.a;
        out[2 * i + 1] = sum.b;
    }
}

// The product of two arrays, before the wrap: 2n coefficients to out, which has room behind them. The halves of x and y
// are added up in place, so that sums need no room, and x and y are restored.
static void multiply(size_t n, int32_t *x, int32_t *y, int64_t *out) {
    if (n <= FEW) {
        multiply_few(n, x, y, out);
        return;
    }
    size_t m = n / 2, h = n - m;
    int64_t *last = out + 4 * h, *middle = out + 4 * n;
    multiply(h, x, y, out);
    multiply(m, x + 2 * h, y + 2 * h, last);
    add_numbers(2 * m, x + 2 * h, x);
    add_numbers(2 * m, y + 2 * h, y);
    multiply(h, x, y, middle);
    subtract_numbers(2 * m, x + 2 * h, x);
    subtract_numbers(2 * m, y + 2 * h, y);
    // The product of the sums, less those of the halves, is the two products of one half and the other.
    subtract_sums(4 * h, out, middle);
    subtract_sums(4 * m, last, middle);
    add_sums(4 * h, middle, out + 2 * h);
}

// ---- The wrap

static void set_remainder(const struct parameters *p, struct value before, struct value after, int32_t *out, size_t i) {
    set_coefficient(out, i, remainder_modulo_q((struct value){before.a + after.a, before.b + after.b}, modulus(p)));
}

// Without a product array: each coefficient is two direct sums.
static void convolve_few(const struct parameters *p, const int32_t *x, const int32_t *y, int32_t *out) {
    for (size_t i = 0; i < p->n; i++) {
        set_remainder(p, product_at(p->n, x, y, i), product_at(p->n, x, y, p->n + i), out, i);
    }
}

static void convolve_many(const struct parameters *p, const int32_t *x, const int32_t *y, int32_t *out) {
    int32_t x_copy[MAX_NUMBERS], y_copy[MAX_NUMBERS];
    int64_t sums[MAX_ROOM];
    memcpy(x_copy, x, 2 * p->n * sizeof x[0]);
    memcpy(y_copy, y, 2 * p->n * sizeof y[0]);
    multiply(p->n, x_copy, y_copy, sums);
    for (size_t i = 0; i < p->n; i++) {
        const int64_t *before = sums + 2 * i, *after = before + 2 * p->n;
        set_remainder(p, (struct value){before[0], before[1]}, (struct value){after[0], after[1]}, out, i);
    }
}

void halving_convolve(const struct parameters *p, const int32_t *x, const int32_t *y, int32_t *out) {
    if (p->n <= FEW) {
        convolve_few(p, x, y, out);
    } else {
        convolve_many(p, x, y, out);
    }
}
