// Measures the library's calls beside C, at each N that is given: sealing and opening; or convolution and the product
// f × e, which is the first of an opening; or convolution beside the direct sum alone. Or it measures, in C alone, the
// product modulo 2, which is the second of an opening.
//
// Usage: speed sealing N...
//        speed convolution N...
//        speed direct N...
//        speed modulo_2 N...
// Each record of the output is a line of N, the call, who does it and its best time in microseconds, with tabs between.
// The status is 1 if a call is refused or two outputs differ.
#include <stdint.h>
#include <stdio.h>
#include <stdlib.h>
#include <string.h>

#include "checks.h"
#include "classes.h"
#include "coefficients.h"
#include "drawing.h"
#include "etru.h"
#include "halving.h"
#include "measuring.h"
#include "plain.h"
#include "rotations.h"

static struct parameters parameters;
static int32_t h[MAX_NUMBERS], phi[MAX_NUMBERS], f[MAX_NUMBERS], f2[MAX_NUMBERS], e[MAX_NUMBERS];
static int32_t f_times_e[MAX_NUMBERS];  // reduced modulo q
static uint8_t message[MAX_BYTES];

// ---- The calls to compare

union output {
    int32_t numbers[MAX_NUMBERS];
    uint8_t message[MAX_BYTES];
};

// N, c, d, s and t, and an array with its count, as the library takes them.
#define PARAMETERS (uint32_t)parameters.n, parameters.c, parameters.d, (uint32_t)parameters.s, (uint32_t)parameters.t
#define LENT(x) x, ETRU_ARRAY_NUMBERS(parameters.n)
#define LENT_MESSAGE(x) x, ETRU_MESSAGE_BYTES(parameters.n)

static uint32_t seal_ours(union output *out) {
    return etru_seal(PARAMETERS, LENT(h), LENT(phi), LENT_MESSAGE(message), LENT(out->numbers));
}

static uint32_t seal_plain(union output *out) {
    plain_seal(&parameters, h, phi, message, out->numbers);
    return ETRU_OK;
}

static uint32_t seal_same(union output *out) {
    return rotations_seal(multiply_by_six_rotations, &parameters, h, phi, message, out->numbers);
}

static uint32_t seal_single(union output *out) {
    return rotations_seal(multiply_by_single_rotations, &parameters, h, phi, message, out->numbers);
}

static uint32_t open_ours(union output *out) {
    return etru_open(PARAMETERS, LENT(f), LENT(f2), LENT(e), LENT_MESSAGE(out->message));
}

static uint32_t open_plain(union output *out) {
    plain_open(&parameters, f, f2, e, out->message);
    return ETRU_OK;
}

static uint32_t open_same(union output *out) {
    return rotations_open(multiply_by_six_rotations, multiply_modulo_2_by_classes, &parameters, f, f2, e, out->message);
}

static uint32_t open_single(union output *out) {
    return rotations_open(multiply_by_single_rotations, multiply_modulo_2_by_single_rotations, &parameters, f, f2, e,
                          out->message);
}

// As the library opened before it formed the second product by classes.
static uint32_t open_rotations(union output *out) {
    return rotations_open(multiply_by_six_rotations, multiply_modulo_2_by_six_rotations, &parameters, f, f2, e,
                          out->message);
}

static uint32_t convolve_ours(union output *out) {
    return etru_convolve(PARAMETERS, LENT(h), LENT(e), LENT(out->numbers));
}

// A convolution in C, with the library's checks of both operands.
typedef void convolution(const struct parameters *p, const int32_t *x, const int32_t *y, int32_t *out);

static uint32_t convolve_checked(convolution *convolve, const int32_t *x, const int32_t *y, union output *out) {
    if (!reduced_modulo_q(parameters.n, modulus(&parameters), x) ||
        !reduced_modulo_q(parameters.n, modulus(&parameters), y)) {
        return ETRU_NOT_REDUCED_MODULO_Q;
    }
    convolve(&parameters, x, y, out->numbers);
    return ETRU_OK;
}

static uint32_t convolve_direct(union output *out) {
    return convolve_checked(plain_convolve, h, e, out);
}

static uint32_t convolve_same(union output *out) {
    return convolve_checked(halving_convolve, h, e, out);
}

// f × e with the same checks of arrays for all, so that those in C differ in how they form the product alone: f is asked
// whether it is reduced modulo q, as etru_convolve asks, and not whether it is of its set.
static uint32_t multiply_f_ours(union output *out) {
    return etru_convolve(PARAMETERS, LENT(f), LENT(e), LENT(out->numbers));
}

static void convolve_by_six_rotations(const struct parameters *p, const int32_t *x, const int32_t *y, int32_t *out) {
    rotations_convolve(multiply_by_six_rotations, p, x, y, out);
}

static uint32_t multiply_f_rotations(union output *out) {
    return convolve_checked(convolve_by_six_rotations, f, e, out);
}

static uint32_t multiply_f_halving(union output *out) {
    return convolve_checked(halving_convolve, f, e, out);
}

// F2 × (f × e reduced modulo q), reduced modulo 2, without checks.
static uint32_t multiply_f2_rotations(union output *out) {
    multiply_modulo_2_by_six_rotations(parameters.n, f2, f_times_e, out->numbers);
    return ETRU_OK;
}

static uint32_t multiply_f2_classes(union output *out) {
    multiply_modulo_2_by_classes(parameters.n, f2, f_times_e, out->numbers);
    return ETRU_OK;
}

// ---- Measuring

enum { MAX_CONTENDERS = 5, SMALL_N = 64, CALLS_AT_SMALL_N = 100 };

struct contender {
    const char *name;
    uint32_t (*run)(union output *out);
};

static void measure(const char *call, const struct contender *contenders, size_t count, size_t output_bytes) {
    static union output outputs[MAX_CONTENDERS];
    double best[MAX_CONTENDERS];
    unsigned n = (unsigned)parameters.n;
    // At a small N one call is too short for the clock, so a repetition is several calls in a row.
    int calls = n < SMALL_N ? CALLS_AT_SMALL_N : 1;

    for (int repetition = 0; repetition < REPETITIONS; repetition++) {
        for (size_t k = 0; k < count; k++) {
            // Different before, so that an output left untouched is noticed.
            memset(&outputs[k], 0x11 * (int)(k + 1), sizeof outputs[k]);
            uint32_t number = ETRU_OK;
            double start = microseconds();
            for (int done = 0; done < calls && number == ETRU_OK; done++) {
                number = contenders[k].run(&outputs[k]);
            }
            double elapsed = (microseconds() - start) / calls;
            if (number != ETRU_OK) {
                fprintf(stderr, "speed: N = %u, %s, %s: refusal %u\n", n, call, contenders[k].name, (unsigned)number);
                exit(1);
            }
            if (memcmp(&outputs[k], &outputs[0], output_bytes) != 0) {
                fprintf(stderr, "speed: N = %u, %s: the outputs of %s and %s differ\n", n, call, contenders[0].name,
                        contenders[k].name);
                exit(1);
            }
            if (repetition == 0 || elapsed < best[k]) {
                best[k] = elapsed;
            }
        }
    }
    for (size_t k = 0; k < count; k++) {
        printf("%u\t%s\t%s\t%.4f\n", n, call, contenders[k].name, best[k]);
    }
}

static void draw_inputs(uint32_t n) {
    parameters = parameters_at(n);
    uint32_t number = etru_check_parameters(PARAMETERS);
    if (number != ETRU_OK) {
        fprintf(stderr, "speed: N = %u: refusal %u\n", (unsigned)n, (unsigned)number);
        exit(1);
    }
    draw_reduced_modulo_q(&parameters, h);
    draw_units(&parameters, phi, parameters.s, true);
    draw_message(&parameters, message);
    draw_units(&parameters, f, parameters.t, false);
    draw_reduced_modulo_2(&parameters, f2);
    draw_reduced_modulo_q(&parameters, e);
}

static void measure_sealing(uint32_t n) {
    static const struct contender sealing[] = {
        {"ours", seal_ours}, {"plain", seal_plain}, {"same", seal_same}, {"single", seal_single}};
    static const struct contender opening[] = {{"ours", open_ours},
                                               {"plain", open_plain},
                                               {"same", open_same},
                                               {"single", open_single},
                                               {"rotations", open_rotations}};
    measure("sealing", sealing, 4, ETRU_ARRAY_NUMBERS(n) * sizeof(int32_t));
    measure("opening", opening, 5, ETRU_MESSAGE_BYTES(n));
}

static void measure_convolution(uint32_t n) {
    static const struct contender convolving[] = {
        {"ours", convolve_ours}, {"direct", convolve_direct}, {"same", convolve_same}};
    static const struct contender multiplying_f[] = {
        {"ours", multiply_f_ours}, {"rotations", multiply_f_rotations}, {"halving", multiply_f_halving}};
    measure("convolution", convolving, 3, ETRU_ARRAY_NUMBERS(n) * sizeof(int32_t));
    measure("f × e", multiplying_f, 3, ETRU_ARRAY_NUMBERS(n) * sizeof(int32_t));
}

static void measure_direct(uint32_t n) {
    static const struct contender convolving[] = {{"ours", convolve_ours}, {"direct", convolve_direct}};
    measure("each convolution", convolving, 2, ETRU_ARRAY_NUMBERS(n) * sizeof(int32_t));
}

static void measure_modulo_2(uint32_t n) {
    static const struct contender multiplying_f2[] = {{"rotations", multiply_f2_rotations},
                                                      {"classes", multiply_f2_classes}};
    rotations_convolve(multiply_by_six_rotations, &parameters, f, e, f_times_e);
    measure("F2 × product", multiplying_f2, 2, ETRU_ARRAY_NUMBERS(n) * sizeof(int32_t));
}

int main(int argument_count, char **arguments) {
    const char *which = argument_count > 1 ? arguments[1] : "";
    void (*measure_calls)(uint32_t n);
    if (strcmp(which, "sealing") == 0) {
        measure_calls = measure_sealing;
    } else if (strcmp(which, "convolution") == 0) {
        measure_calls = measure_convolution;
    } else if (strcmp(which, "direct") == 0) {
        measure_calls = measure_direct;
    } else if (strcmp(which, "modulo_2") == 0) {
        measure_calls = measure_modulo_2;
    } else {
        fprintf(stderr, "speed: the first argument is none of sealing, convolution, direct and modulo_2\n");
        return 1;
    }
    for (int k = 2; k < argument_count; k++) {
        uint32_t n = (uint32_t)strtoul(arguments[k], NULL, 10);
        draw_inputs(n);
        measure_calls(n);
    }
    return 0;
}
