// Measures a full bundle at each N that is given: making its reader, walking its entries, and opening them all.
//
// Usage: bundles N...
// Each record of the output is a line as speed.c writes it: N, what is measured, `bundle`, and its best time in
// microseconds, with tabs between; for `entries` it is how many there are. The status is 1 if a call is refused, a stop
// is another, or a message is not that of opening the array alone.
#include <stdbool.h>
#include <stdint.h>
#include <stdio.h>
#include <stdlib.h>
#include <string.h>

#include "coefficients.h"
#include "drawing.h"
#include "etru.h"
#include "measuring.h"

static struct parameters parameters;
static int32_t f[MAX_NUMBERS], f2[MAX_NUMBERS];

// The stops in random order and the arrays of the bundle, and the message of each array, opened alone.
static uint16_t stops[UINT16_MAX + 1];
static int32_t numbers[ETRU_MAX_BUNDLE_BYTES / 2];
static uint8_t messages[ETRU_MAX_BUNDLE_BYTES];

static uint8_t file[ETRU_MAX_BUNDLE_BYTES], opened[ETRU_MAX_BUNDLE_BYTES];
static size_t file_bytes, entries, first;

// N, c, d, s and t, and an array with its count, as the library takes them.
#define PARAMETERS (uint32_t)parameters.n, parameters.c, parameters.d, (uint32_t)parameters.s, (uint32_t)parameters.t
#define LENT(x) x, ETRU_ARRAY_NUMBERS(parameters.n)

static void expect(const char *what, bool holds) {
    if (!holds) {
        fprintf(stderr, "bundles: N = %u: not so: %s\n", (unsigned)parameters.n, what);
        exit(1);
    }
}

// A bundle of random arrays, as many as fit.
static void make_bundle(uint32_t n) {
    parameters = parameters_at(n);
    draw_units(&parameters, f, parameters.t, false);
    draw_reduced_modulo_2(&parameters, f2);
    shuffle(stops, UINT16_MAX + 1);
    entries = ETRU_MAX_BUNDLE_ENTRIES(n);
    file_bytes = ETRU_BUNDLE_FILE_BYTES(n, entries);
    for (size_t k = 0; k < entries; k++) {
        int32_t *e = numbers + ETRU_BUNDLE_FILE_NUMBERS(n, k);
        uint8_t *message = messages + k * ETRU_MESSAGE_BYTES(n);
        draw_reduced_modulo_q(&parameters, e);
        uint32_t number = etru_open(PARAMETERS, LENT(f), LENT(f2), LENT(e), message, ETRU_MESSAGE_BYTES(n));
        expect("an array is opened", number == ETRU_OK);
    }
    uint32_t number = etru_write_bundle(PARAMETERS, stops, entries, numbers, ETRU_BUNDLE_FILE_NUMBERS(n, entries), file,
                                        file_bytes);
    expect("the bundle is written", number == ETRU_OK);
}

// ---- What is measured

static void make_reader(void) {
    expect("the bundle is accepted", etru_begin_bundle(file, file_bytes, &first) == ETRU_OK);
}

static void walk(void) {
    size_t at = first, part, met = 0;
    uint32_t stop;
    while (etru_next_entry(file, file_bytes, &at, &stop, &part)) {
        expect("the stop is met in its order", stop == stops[met++]);
    }
    expect("every entry is met", met == entries);
}

static void open_all(void) {
    size_t at = first, part, message_bytes = ETRU_MESSAGE_BYTES(parameters.n);
    uint32_t stop;
    uint8_t *message = opened;
    while (etru_next_entry(file, file_bytes, &at, &stop, &part)) {
        uint32_t number = etru_open_entry(PARAMETERS, LENT(f), LENT(f2), file + part, ETRU_PART_BYTES(parameters.n),
                                          message, message_bytes);
        expect("the entry is opened", number == ETRU_OK);
        message += message_bytes;
    }
}

static void measure(const char *what, void (*run)(void)) {
    double best = 0;
    for (int repetition = 0; repetition < REPETITIONS; repetition++) {
        double start = microseconds();
        run();
        double elapsed = microseconds() - start;
        if (repetition == 0 || elapsed < best) {
            best = elapsed;
        }
    }
    printf("%u\t%s\tbundle\t%.3f\n", (unsigned)parameters.n, what, best);
}

int main(int argument_count, char **arguments) {
    for (int k = 1; k < argument_count; k++) {
        make_bundle((uint32_t)strtoul(arguments[k], NULL, 10));
        printf("%u\tentries\tbundle\t%u\n", (unsigned)parameters.n, (unsigned)entries);
        measure("making", make_reader);
        measure("walking", walk);
        // Different before, so that a message left untouched is noticed.
        memset(opened, 0x11, sizeof opened);
        measure("opening", open_all);
        size_t message_bytes = entries * ETRU_MESSAGE_BYTES(parameters.n);
        expect("each message is that of its array alone", memcmp(opened, messages, message_bytes) == 0);
    }
    return 0;
}
