// Products in C by rotations of one operand that are added up, and sealing and opening by them.
#ifndef ROTATIONS_H
#define ROTATIONS_H

#include <stddef.h>
#include <stdint.h>

#include "coefficients.h"

// x × y to out, where each coefficient of x is zero or a unit.
typedef void unit_product(size_t n, const int32_t *x, const int32_t *y, int32_t *out);

// The library's algorithm.
unit_product multiply_by_six_rotations;
// A simpler one, with more room on its stack: each rotation by itself, in 32 bits.
unit_product multiply_by_single_rotations;

// x × y reduced modulo 2, to out, where x is reduced modulo 2.
typedef void product_modulo_2(size_t n, const int32_t *x, const int32_t *y, int32_t *out);

// As above, with each coefficient then reduced.
product_modulo_2 multiply_modulo_2_by_six_rotations;
product_modulo_2 multiply_modulo_2_by_single_rotations;

// x × y reduced modulo q, to out. Nothing that is given is checked.
void rotations_convolve(unit_product *multiply, const struct parameters *p, const int32_t *x, const int32_t *y,
                        int32_t *out);

// With the library's checks of arrays and of message bytes. Each returns 0 or the number of the first refusal. An
// opening's second product, by F2, is formed modulo 2, and may be formed in another way than its first.
uint32_t rotations_seal(unit_product *multiply, const struct parameters *p, const int32_t *h, const int32_t *phi,
                        const uint8_t *message, int32_t *e);
uint32_t rotations_open(unit_product *multiply, product_modulo_2 *multiply_modulo_2, const struct parameters *p,
                        const int32_t *f, const int32_t *f2, const int32_t *e, uint8_t *message);

#endif
