// Convolution, sealing and opening in plain C, by the direct sum of each coefficient. Nothing that is given is checked.
#ifndef PLAIN_H
#define PLAIN_H

#include <stdint.h>

#include "coefficients.h"

void plain_convolve(const struct parameters *p, const int32_t *x, const int32_t *y, int32_t *out);
void plain_seal(const struct parameters *p, const int32_t *h, const int32_t *phi, const uint8_t *message, int32_t *e);
void plain_open(const struct parameters *p, const int32_t *f, const int32_t *f2, const int32_t *e, uint8_t *message);

#endif
