// Convolution in C by halving, as the library forms it. Nothing that is given is checked.
#ifndef HALVING_H
#define HALVING_H

#include <stdint.h>

#include "coefficients.h"

void halving_convolve(const struct parameters *p, const int32_t *x, const int32_t *y, int32_t *out);

#endif
