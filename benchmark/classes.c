#include "classes.h"

#include <string.h>

#include "coefficients.h"
#include "etru.h"

// The count of sums is a multiple of this, so that a vectorised loop over them has no tail.
#define STEP 32

// In row i, entry j is the class of class i times class j. The sum of two classes is the exclusive or of their numbers.
static const uint8_t products[4][4] = {{0, 0, 0, 0}, {0, 1, 2, 3}, {0, 2, 3, 1}, {0, 3, 1, 2}};

// Class c times each class of y, two times in a row, so that each rotation is one contiguous part.
static void lay_row(size_t n, size_t c, const uint8_t *classes, uint8_t *row) {
    for (size_t k = 0; k < n; k++) {
        row[k] = products[c][classes[k]];
    }
    memcpy(row + n, row, n);
}

// For each coefficient of x whose class is not 0, where its class's row begins, rotated by its place; and their count.
// Each start is written, and stays if it counts.
static size_t starts_of(size_t n, const int32_t *x, uint16_t *starts) {
    size_t count = 0;
    for (size_t j = 0; j < n; j++) {
        size_t c = class_modulo_2(coefficient(x, j));
        starts[count] = (uint16_t)((c - 1) * 2 * n + (n - j));
        count += c != 0;
    }
    return count;
}

// Four runs at a time, so that each sum is read and written once for all four.
static void add_four(size_t count, const uint8_t *restrict a, const uint8_t *restrict b, const uint8_t *restrict c,
                     const uint8_t *restrict d, uint8_t *restrict sums) {
    for (size_t k = 0; k < count; k++) {
        sums[k] ^= a[k] ^ b[k] ^ c[k] ^ d[k];
    }
}

static void add_one(size_t count, const uint8_t *restrict a, uint8_t *restrict sums) {
    for (size_t k = 0; k < count; k++) {
        sums[k] ^= a[k];
    }
}

void multiply_modulo_2_by_classes(size_t n, const int32_t *x, const int32_t *y, int32_t *out) {
    uint8_t classes[ETRU_MAX_N], rows[6 * ETRU_MAX_N + STEP], sums[ETRU_MAX_N];
    uint16_t starts[ETRU_MAX_N];
    for (size_t k = 0; k < n; k++) {
        classes[k] = (uint8_t)class_modulo_2(coefficient(y, k));
    }
    for (size_t c = 1; c < 4; c++) {
        lay_row(n, c, classes, rows + (c - 1) * 2 * n);
    }
    // read with the last runs, for the sums from n on, which are no part of the product
    memset(rows + 6 * n, 0, STEP);

    size_t sum_count = (n + STEP - 1) / STEP * STEP, count = starts_of(n, x, starts), m = 0;
    memset(sums, 0, sum_count);
    for (; m + 4 <= count; m += 4) {
        add_four(sum_count, rows + starts[m], rows + starts[m + 1], rows + starts[m + 2], rows + starts[m + 3], sums);
    }
    for (; m < count; m++) {
        add_one(sum_count, rows + starts[m], sums);
    }
    for (size_t i = 0; i < n; i++) {
        set_coefficient(out, i, remainder_of_class(sums[i]));
    }
}
