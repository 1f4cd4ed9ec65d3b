// Products in C by classes modulo 2, as the library forms the second product of an opening.
#ifndef CLASSES_H
#define CLASSES_H

#include <stddef.h>
#include <stdint.h>

// x × y reduced modulo 2, to out. Nothing that is given is checked.
void multiply_modulo_2_by_classes(size_t n, const int32_t *x, const int32_t *y, int32_t *out);

#endif
