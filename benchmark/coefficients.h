// One coefficient in C: its remainder modulo q, its class modulo 2, and its two bits of a message. All programs in C
// use these, so that they differ in how they form a product alone.
#ifndef COEFFICIENTS_H
#define COEFFICIENTS_H

#include <stddef.h>
#include <stdint.h>

struct parameters {
    size_t n;
    int32_t c, d;  // q = c + dω
    size_t s, t;
};

// The value a + bω.
struct value {
    int64_t a, b;
};

static inline struct value modulus(const struct parameters *p) {
    return (struct value){p->c, p->d};
}

static inline struct value coefficient(const int32_t *x, size_t i) {
    return (struct value){x[2 * i], x[2 * i + 1]};
}

static inline void set_coefficient(int32_t *x, size_t i, struct value r) {
    x[2 * i] = (int32_t)r.a;
    x[2 * i + 1] = (int32_t)r.b;
}

static inline int64_t norm(struct value x) {
    return x.a * x.a - x.a * x.b + x.b * x.b;
}

static inline struct value difference(struct value x, struct value y) {
    return (struct value){x.a - y.a, x.b - y.b};
}

static inline struct value product(struct value x, struct value y) {
    return (struct value){x.a * y.a - x.b * y.b, x.a * y.b + x.b * y.a - x.b * y.b};
}

// The one with the smaller norm; of equal norms the larger a, then the larger b.
static inline struct value better(struct value x, struct value y) {
    int64_t norm_x = norm(x), norm_y = norm(y);
    if (norm_x != norm_y) {
        return norm_x < norm_y ? x : y;
    }
    if (x.a != y.a) {
        return x.a > y.a ? x : y;
    }
    return x.b > y.b ? x : y;
}

static inline int64_t quotient_rounded_down(int64_t x, int64_t n) {
    return x / n - (x % n < 0);
}

// The remainder of x modulo q: the quotient x/q lies among four values of Z[ω], and the best of what they leave counts.
static inline struct value remainder_modulo_q(struct value x, struct value q) {
    const struct value conjugate = {q.a - q.b, -q.b}, omega = {0, 1}, one_and_omega = {1, 1};
    int64_t n = norm(q);
    struct value scaled = product(x, conjugate);
    struct value rounded = {quotient_rounded_down(scaled.a, n), quotient_rounded_down(scaled.b, n)};
    struct value first = difference(x, product(rounded, q));
    struct value second = difference(first, q);
    struct value third = difference(first, product(q, omega));
    struct value fourth = difference(first, product(q, one_and_omega));
    return better(better(first, second), better(third, fourth));
}

// The number of a value's class modulo 2: 0 for 0, 1 for 1, 2 for ω, 3 for −1 − ω.
static inline size_t class_modulo_2(struct value x) {
    return (size_t)(x.a & 1) + 2 * (size_t)(x.b & 1);
}

// The value of a class that is reduced modulo 2: its two bits, but 11 is (−1,−1).
static inline struct value remainder_of_class(size_t number) {
    int64_t a = number & 1, b = number >> 1, both = a & b;
    return (struct value){a - 2 * both, b - 2 * both};
}

// Coefficient i of a message: bits a then b, but 11 is (−1,−1).
static inline struct value message_coefficient(const uint8_t *message, size_t i) {
    unsigned bits = message[i / 4] >> (6 - 2 * (i % 4)) & 3;
    int sign = bits == 3 ? -1 : 1;
    return (struct value){sign * (int)(bits >> 1), sign * (int)(bits & 1)};
}

// Adds coefficient i to a message whose bits are zero from there on. The bits that stand for a remainder modulo 2 are
// the last bits of its class, so any value of the class may be given.
static inline void add_message_coefficient(uint8_t *message, size_t i, struct value x) {
    unsigned bits = (unsigned)(x.a & 1) << 1 | (unsigned)(x.b & 1);
    message[i / 4] |= (uint8_t)(bits << (6 - 2 * (i % 4)));
}

#endif
