// Measures the stack that each call takes at N = 1,024: each runs on a filled stack of its own, and what it changed is counted.
// The status is 1 if a call takes more than include/etru.h says.
#include <pthread.h>
#include <stdint.h>
#include <stdio.h>
#include <stdlib.h>
#include <string.h>

#include "etru.h"

#define N 1024
#define SIZE (256 * 1024)
#define FILL 0xA5

// f = F2 = Fq = 1 and g = φ = 1 + ωX + (−1 − ω)X², as in document 01's small key, with q = 15.
static int32_t one[2 * N] = {1}, g[2 * N] = {1, 0, 0, 1, -1, -1}, h[2 * N], e[2 * N], out[2 * N];
static const struct etru_placed_unit places[] = {{0, 0}, {1, 2}, {2, 4}};  // φ
static uint8_t message[N / 4], opened[N / 4];

// The numbers of the private file, and the private file with the sealed file directly after it.
static int32_t key[8 * N], numbers[8 * N];
static uint8_t files[ETRU_PRIVATE_FILE_BYTES(N) + ETRU_SEALED_FILE_BYTES(N)], line[ETRU_LINE_BYTES];
static size_t line_bytes;

// The longest short message.
#define SHORT ETRU_SHORT_MESSAGE_BYTES(N)
static int32_t e_short[2 * N];
static uint8_t opened_short[SHORT];
static size_t short_bytes;

// A full bundle: e for each stop.
#define ENTRIES ETRU_MAX_BUNDLE_ENTRIES(N)
#define BUNDLE ETRU_BUNDLE_FILE_BYTES(N, ENTRIES)
static uint16_t stops[ENTRIES];
static uint32_t read_stops[ENTRIES];
static int32_t bundled[2 * N * ENTRIES], read_numbers[2 * N * ENTRIES];
static uint8_t bundle[BUNDLE];
static size_t first, part;

static uint32_t check_parameters(void) { return etru_check_parameters(N, 15, 0, 3, 1); }
static uint32_t convolve(void) { return etru_convolve(N, 15, 0, 3, 1, one, 2 * N, g, 2 * N, out, 2 * N); }
static uint32_t check_key(void) { return etru_check_key(N, 15, 0, 3, 1, one, 2 * N, one, 2 * N, one, 2 * N, g, 2 * N, h, 2 * N); }
static uint32_t seal(void) { return etru_seal(N, 15, 0, 3, 1, h, 2 * N, g, 2 * N, message, N / 4, e, 2 * N); }
static uint32_t seal_places(void) { return etru_seal_places(N, 15, 0, 3, 1, h, 2 * N, places, 3, message, N / 4, e, 2 * N); }
static uint32_t spread_places(void) { return etru_spread_places(N, 15, 0, 3, 1, places, 3, out, 2 * N); }
static uint32_t open_sealed(void) { return etru_open(N, 15, 0, 3, 1, one, 2 * N, one, 2 * N, e, 2 * N, opened, N / 4); }
static uint32_t seal_short(void) { return etru_seal_short(N, 15, 0, 3, 1, h, 2 * N, g, 2 * N, message, SHORT, e_short, 2 * N); }
static uint32_t open_short(void) { return etru_open_short(N, 15, 0, 3, 1, one, 2 * N, one, 2 * N, e_short, 2 * N, opened_short, SHORT, &short_bytes); }
static uint32_t pack(void) { return etru_pack(N, message, N / 4, out, 2 * N); }
static uint32_t unpack(void) { return etru_unpack(N, out, 2 * N, opened, N / 4); }
static uint32_t write_private(void) { return etru_write(2, N, 15, 0, 3, 1, key, 8 * N, files, ETRU_PRIVATE_FILE_BYTES(N)); }
static uint32_t write_sealed(void) { return etru_write(3, N, 15, 0, 3, 1, e, 2 * N, files + ETRU_PRIVATE_FILE_BYTES(N), ETRU_SEALED_FILE_BYTES(N)); }
static uint32_t read_private(void) { return etru_read(2, files, ETRU_PRIVATE_FILE_BYTES(N), numbers, 8 * N); }
static uint32_t write_bundle(void) { return etru_write_bundle(N, 15, 0, 3, 1, stops, ENTRIES, bundled, 2 * N * ENTRIES, bundle, BUNDLE); }
static uint32_t read_bundle(void) { return etru_read_bundle(bundle, BUNDLE, read_stops, ENTRIES, read_numbers, 2 * N * ENTRIES); }
static uint32_t begin_bundle(void) { return etru_begin_bundle(bundle, BUNDLE, &first); }
static uint32_t open_entry(void) { return etru_open_entry(N, 15, 0, 3, 1, one, 2 * N, one, 2 * N, bundle + part, 4 * N, opened, N / 4); }
static uint32_t open_files(void) { return etru_open_files(files, sizeof files, line, sizeof line, &line_bytes); }
static uint32_t nothing(void) { return 0; }

static uint32_t reduce_q(void) {
    int32_t a, b;
    return etru_reduce_q(INT64_C(1) << 40, -(INT64_C(1) << 40), 4095, -1, &a, &b);
}

static uint32_t reduce_2(void) {
    int32_t a, b;
    return etru_reduce_2(INT64_C(1) << 40, 1, &a, &b);
}

static uint32_t read_head(void) {
    uint32_t n, s, t;
    int32_t c, d;
    return etru_read_head(2, files, ETRU_PRIVATE_FILE_BYTES(N), &n, &c, &d, &s, &t);
}

static uint32_t read_bundle_head(void) {
    uint32_t n, s, t, count;
    int32_t c, d;
    return etru_read_bundle_head(bundle, BUNDLE, &n, &c, &d, &s, &t, &count);
}

// 0 if the first entry is met.
static uint32_t next_entry(void) {
    size_t at = first;
    uint32_t stop;
    return etru_next_entry(bundle, BUNDLE, &at, &stop, &part) != 1;
}

static uint32_t (*call)(void);
static uint32_t number;

static void *run(void *unused) {
    number = call();
    return unused;
}

// The bytes of the stack that a call changes.
static size_t used(uint32_t (*function)(void)) {
    uint8_t *stack = aligned_alloc(4096, SIZE);
    pthread_attr_t attributes;
    pthread_t thread;
    call = function;
    memset(stack, FILL, SIZE);
    pthread_attr_init(&attributes);
    if (pthread_attr_setstack(&attributes, stack, SIZE) || pthread_create(&thread, &attributes, run, NULL) || pthread_join(thread, NULL) || number != 0) {
        printf("a call was refused or did not run\n");
        exit(1);
    }
    size_t untouched = 0;
    while (stack[untouched] == FILL) {
        untouched++;
    }
    free(stack);
    return SIZE - untouched;
}

int main(void) {
    static const struct {
        const char *name;
        uint32_t (*function)(void);
        size_t kib;  // the limit
    } calls[] = {{"etru_reduce_q", reduce_q, 1},
                 {"etru_reduce_2", reduce_2, 1},
                 {"etru_check_parameters", check_parameters, 1},
                 {"etru_convolve", convolve, 100},
                 {"etru_check_key", check_key, 28},
                 {"etru_seal", seal, 12},
                 {"etru_seal_places", seal_places, 36},
                 {"etru_spread_places", spread_places, 28},
                 {"etru_open", open_sealed, 28},
                 {"etru_seal_short", seal_short, 12},
                 {"etru_open_short", open_short, 28},
                 {"etru_pack", pack, 1},
                 {"etru_unpack", unpack, 1},
                 {"etru_write, 2", write_private, 1},
                 {"etru_write, 3", write_sealed, 1},
                 {"etru_read_head", read_head, 1},
                 {"etru_read, 2", read_private, 12},
                 {"etru_write_bundle", write_bundle, 12},
                 {"etru_read_bundle_head", read_bundle_head, 1},
                 {"etru_read_bundle", read_bundle, 12},
                 {"etru_begin_bundle", begin_bundle, 12},
                 {"etru_next_entry", next_entry, 1},
                 {"etru_open_entry", open_entry, 28},
                 {"etru_open_files", open_files, 72}};
    for (size_t i = 0; i < sizeof message; i++) {
        message[i] = (uint8_t)(i * 37);
    }
    memcpy(key, one, sizeof one);
    memcpy(key + 2 * N, one, sizeof one);
    memcpy(key + 4 * N, one, sizeof one);
    memcpy(key + 6 * N, g, sizeof g);
    // the bundle needs the sealed array beforehand
    if (check_key() != 0 || seal() != 0) {
        return 1;
    }
    for (size_t k = 0; k < ENTRIES; k++) {
        stops[k] = (uint16_t)k;
        memcpy(bundled + 2 * N * k, e, sizeof e);
    }
    size_t base = used(nothing);
    int status = 0;
    for (size_t i = 0; i < sizeof calls / sizeof calls[0]; i++) {
        size_t bytes = used(calls[i].function) - base;
        int within = bytes <= calls[i].kib * 1024;
        printf("%-21s %6zu bytes of stack%s\n", calls[i].name, bytes, within ? "" : ": above its limit");
        status |= !within;
    }
    return status || memcmp(message, opened, sizeof message) != 0 || memcmp(key, numbers, sizeof key) != 0 ||
           short_bytes != SHORT || memcmp(message, opened_short, SHORT) != 0 ||
           memcmp(bundled, read_numbers, sizeof bundled) != 0 || line_bytes != ETRU_LINE_BYTES;
}
