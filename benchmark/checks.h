// The checks of arrays and of message bytes that are part of the library's calls, in C.
#ifndef CHECKS_H
#define CHECKS_H

#include <stdbool.h>
#include <stddef.h>
#include <stdint.h>

#include "coefficients.h"

bool reduced_modulo_q(size_t n, struct value q, const int32_t *x);
bool reduced_modulo_2(size_t n, const int32_t *x);

// Exactly `count` nonzero coefficients, each a unit; and in whole triples.
bool units_only(size_t n, const int32_t *x, size_t count);
bool whole_triples(size_t n, const int32_t *x, size_t count);

bool spare_bit_set(size_t n, const uint8_t *message);

#endif
