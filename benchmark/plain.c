#include "plain.h"

#include <string.h>

#include "etru.h"

// The sum of x_j·y_(base − j) for j from `from` to `to`.
static struct value dot(const int32_t *x, const int32_t *y, size_t from, size_t to, size_t base) {
    struct value sum = {0, 0};
    for (size_t j = from; j < to; j++) {
        struct value term = product(coefficient(x, j), coefficient(y, base - j));
        sum.a += term.a;
        sum.b += term.b;
    }
    return sum;
}

// Coefficient i of x × y: what comes before the wrap at n, and what comes after it.
static struct value direct_sum(size_t n, const int32_t *x, const int32_t *y, size_t i) {
    struct value before = dot(x, y, 0, i + 1, i), after = dot(x, y, i + 1, n, i + n);
    return (struct value){before.a + after.a, before.b + after.b};
}

void plain_convolve(const struct parameters *p, const int32_t *x, const int32_t *y, int32_t *out) {
    for (size_t i = 0; i < p->n; i++) {
        set_coefficient(out, i, remainder_modulo_q(direct_sum(p->n, x, y, i), modulus(p)));
    }
}

void plain_seal(const struct parameters *p, const int32_t *h, const int32_t *phi, const uint8_t *message, int32_t *e) {
    for (size_t i = 0; i < p->n; i++) {
        struct value sum = direct_sum(p->n, phi, h, i), m = message_coefficient(message, i);
        set_coefficient(e, i, remainder_modulo_q((struct value){2 * sum.a + m.a, 2 * sum.b + m.b}, modulus(p)));
    }
}

void plain_open(const struct parameters *p, const int32_t *f, const int32_t *f2, const int32_t *e, uint8_t *message) {
    int32_t unsealed[ETRU_ARRAY_NUMBERS(ETRU_MAX_N)];
    plain_convolve(p, f, e, unsealed);
    memset(message, 0, ETRU_MESSAGE_BYTES(p->n));
    for (size_t i = 0; i < p->n; i++) {
        add_message_coefficient(message, i, direct_sum(p->n, f2, unsealed, i));
    }
}
