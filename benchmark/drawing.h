// The parameter set at an N, and random inputs of the calls for it. Every array has room for the largest N.
#ifndef DRAWING_H
#define DRAWING_H

#include <stdbool.h>
#include <stddef.h>
#include <stdint.h>
#include <string.h>

#include "coefficients.h"
#include "etru.h"
#include "measuring.h"

#define MAX_NUMBERS ETRU_ARRAY_NUMBERS(ETRU_MAX_N)
#define MAX_BYTES ETRU_MESSAGE_BYTES(ETRU_MAX_N)

// s and t are about 2N/3, s a multiple of 3 from 3 on; for this q the bound holds up to N = 1,024.
static inline struct parameters parameters_at(uint32_t n) {
    uint32_t thirds = 2 * n / 9;
    return (struct parameters){.n = n, .c = 4095, .d = 2, .s = 3 * (thirds > 0 ? thirds : 1), .t = 2 * n / 3};
}

// Units at random places, as many as `count`; they may be asked to be whole triples, and then they are a multiple of 3.
// Unit k times unit 2, which is ω, is unit k + 2, so units k, k + 2 and k + 4 are a triple.
static inline void draw_units(const struct parameters *p, int32_t *x, size_t count, bool in_triples) {
    static const struct value units[6] = {{1, 0}, {1, 1}, {0, 1}, {-1, 0}, {-1, -1}, {0, -1}};
    uint16_t places[ETRU_MAX_N];
    uint32_t number = 0;
    shuffle(places, (uint32_t)p->n);
    memset(x, 0, MAX_NUMBERS * sizeof x[0]);
    for (size_t k = 0; k < count; k++) {
        number = in_triples && k % 3 != 0 ? number + 2 : random_below(6);
        set_coefficient(x, places[k], units[number % 6]);
    }
}

static inline void draw_reduced_modulo_q(const struct parameters *p, int32_t *x) {
    for (size_t i = 0; i < p->n; i++) {
        struct value any = {(int64_t)random_below(1u << 21) - (1 << 20), (int64_t)random_below(1u << 21) - (1 << 20)};
        set_coefficient(x, i, remainder_modulo_q(any, modulus(p)));
    }
}

static inline void draw_reduced_modulo_2(const struct parameters *p, int32_t *x) {
    for (size_t i = 0; i < p->n; i++) {
        set_coefficient(x, i, remainder_of_class(random_below(4)));
    }
}

static inline void draw_message(const struct parameters *p, uint8_t *message) {
    memset(message, 0, MAX_BYTES);
    for (size_t i = 0; i < p->n; i++) {
        add_message_coefficient(message, i, (struct value){random_below(2), random_below(2)});
    }
}

#endif
