#include "checks.h"

#include "etru.h"

// Of w and −w, the one whose subtraction loses a tie, where the larger a, then the larger b, wins.
static struct value losing(struct value w) {
    return w.a > 0 || (w.a == 0 && w.b > 0) ? w : (struct value){-w.a, -w.b};
}

// The trace of r·conj(w), by which norm(r − w) = norm(r) − trace + norm(w).
static inline int64_t trace(struct value r, struct value w) {
    return r.a * (2 * w.a - w.b) + r.b * (2 * w.b - w.a);
}

// Whether neither r − w, which loses a tie, nor r + w, which wins it, is better than r; n is the norm of w.
static inline bool not_bettered(struct value r, struct value w, int64_t n) {
    int64_t along = trace(r, w);
    return -n < along && along <= n;
}

// A value is reduced if none of its six neighbours in its class, at ±q, ±qω and ±q(1 + ω), is better.
bool reduced_modulo_q(size_t n, struct value q, const int32_t *x) {
    const struct value w0 = losing(q);
    const struct value w1 = losing(product(q, (struct value){0, 1}));
    const struct value w2 = losing(product(q, (struct value){1, 1}));
    const int64_t norm_q = norm(q);
    for (size_t i = 0; i < n; i++) {
        struct value r = coefficient(x, i);
        if (!not_bettered(r, w0, norm_q) || !not_bettered(r, w1, norm_q) || !not_bettered(r, w2, norm_q)) {
            return false;
        }
    }
    return true;
}

bool reduced_modulo_2(size_t n, const int32_t *x) {
    for (size_t i = 0; i < n; i++) {
        int32_t a = x[2 * i], b = x[2 * i + 1];
        bool minus_both = a == -1 && b == -1;
        bool zero_or_one = (a == 0 && (b == 0 || b == 1)) || (a == 1 && b == 0);
        if (!zero_or_one && !minus_both) {
            return false;
        }
    }
    return true;
}

bool units_only(size_t n, const int32_t *x, size_t count) {
    size_t units = 0;
    for (size_t i = 0; i < n; i++) {
        int32_t a = x[2 * i], b = x[2 * i + 1];
        bool small = -1 <= a && a <= 1 && -1 <= b && b <= 1;
        // (1,−1) and (−1,1) have norm 3
        if (!small || a * b == -1) {
            return false;
        }
        units += a != 0 || b != 0;
    }
    return units == count;
}

// How many coefficients are the value (a, b).
static uint32_t count_value(size_t n, const int32_t *x, int32_t a, int32_t b) {
    uint32_t found = 0;
    for (size_t i = 0; i < n; i++) {
        found += (x[2 * i] == a) & (x[2 * i + 1] == b);
    }
    return found;
}

// Whether there are equally many of 1, ω and ω², times `sign`, which is 1 or −1.
static bool equally_many(size_t n, const int32_t *x, int32_t sign) {
    uint32_t found = count_value(n, x, 0, sign);
    return count_value(n, x, sign, 0) == found && found == count_value(n, x, -sign, -sign);
}

bool whole_triples(size_t n, const int32_t *x, size_t count) {
    return units_only(n, x, count) && equally_many(n, x, 1) && equally_many(n, x, -1);
}

bool spare_bit_set(size_t n, const uint8_t *message) {
    size_t bytes = ETRU_MESSAGE_BYTES(n), spare = 8 * bytes - 2 * n;
    return (message[bytes - 1] & ((1u << spare) - 1)) != 0;
}
