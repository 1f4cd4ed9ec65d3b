// Opens every message of a bundle with a private key. Prints one line for each entry, in stored order: its stop number,
// a space, and its message in hexadecimal.
//
// Usage: open_bundle private-file bundle-file
// The status is 0 only if the key and the bundle were accepted and every line was written.
#include "etru.h"

#include <stdio.h>

struct parameters {
    uint32_t n;
    int32_t c, d;
    uint32_t s, t;
};

// All memory is the caller's. These have room for the largest N and the longest bundle; each file has a byte more, so
// that one that is too long is refused and not cut.
static uint8_t private_file[ETRU_PRIVATE_FILE_BYTES(ETRU_MAX_N) + 1], bundle[ETRU_MAX_BUNDLE_BYTES + 1];
static int32_t key[ETRU_PRIVATE_FILE_NUMBERS(ETRU_MAX_N)], h[ETRU_ARRAY_NUMBERS(ETRU_MAX_N)];
static uint8_t message[ETRU_MESSAGE_BYTES(ETRU_MAX_N)];

static int failed(const char *path, const char *what) {
    fprintf(stderr, "open_bundle: %s: %s\n", path, what);
    return 1;
}

static int refused(const char *path, uint32_t number) {
    fprintf(stderr, "open_bundle: %s: refusal %u\n", path, (unsigned)number);
    return 1;
}

// Reads a file, or as much of it as there is room for. Returns whether that was done.
static int read_file(const char *path, uint8_t *file, size_t room, size_t *count) {
    FILE *stream = fopen(path, "rb");
    if (stream == NULL) {
        return 0;
    }
    *count = fread(file, 1, room, stream);
    int done = !ferror(stream);
    fclose(stream);
    return done;
}

// Reads the four arrays of a private file to `key`, and checks it.
static uint32_t read_key(size_t file_count, struct parameters *p) {
    uint32_t number = etru_read_head(ETRU_PRIVATE_FILE, private_file, file_count, &p->n, &p->c, &p->d, &p->s, &p->t);
    if (number != ETRU_OK) {
        return number;
    }
    number = etru_read(ETRU_PRIVATE_FILE, private_file, file_count, key, ETRU_PRIVATE_FILE_NUMBERS(p->n));
    if (number != ETRU_OK) {
        return number;
    }
    size_t array = ETRU_ARRAY_NUMBERS(p->n);
    const int32_t *f = key, *f2 = f + array, *fq = f2 + array, *g = fq + array;
    return etru_check_key(p->n, p->c, p->d, p->s, p->t, f, array, f2, array, fq, array, g, array, h, array);
}

static int same_parameters(const struct parameters *x, const struct parameters *y) {
    return x->n == y->n && x->c == y->c && x->d == y->d && x->s == y->s && x->t == y->t;
}

static void print_line(uint32_t stop, size_t message_bytes) {
    printf("%lu ", (unsigned long)stop);
    for (size_t i = 0; i < message_bytes; i++) {
        printf("%02X", (unsigned)message[i]);
    }
    printf("\n");
}

int main(int argc, char **argv) {
    if (argc != 3) {
        fprintf(stderr, "usage: open_bundle private-file bundle-file\n");
        return 1;
    }
    const char *key_path = argv[1], *bundle_path = argv[2];
    size_t key_count, bundle_count;
    if (!read_file(key_path, private_file, sizeof private_file, &key_count)) {
        return failed(key_path, "cannot be read");
    }
    if (!read_file(bundle_path, bundle, sizeof bundle, &bundle_count)) {
        return failed(bundle_path, "cannot be read");
    }

    struct parameters p, bundled;
    uint32_t number = read_key(key_count, &p);
    if (number != ETRU_OK) {
        return refused(key_path, number);
    }
    uint32_t count;
    number = etru_read_bundle_head(bundle, bundle_count, &bundled.n, &bundled.c, &bundled.d, &bundled.s, &bundled.t,
                                   &count);
    if (number != ETRU_OK) {
        return refused(bundle_path, number);
    }
    if (!same_parameters(&p, &bundled)) {
        return failed(bundle_path, "its parameters are not the key's");
    }

    // All that can be refused of a bundle is refused here, before its first entry is opened.
    size_t at;
    number = etru_begin_bundle(bundle, bundle_count, &at);
    if (number != ETRU_OK) {
        return refused(bundle_path, number);
    }
    size_t array = ETRU_ARRAY_NUMBERS(p.n), message_bytes = ETRU_MESSAGE_BYTES(p.n);
    const int32_t *f = key, *f2 = f + array;
    uint32_t stop;
    size_t part;
    while (etru_next_entry(bundle, bundle_count, &at, &stop, &part)) {
        number = etru_open_entry(p.n, p.c, p.d, p.s, p.t, f, array, f2, array, bundle + part, ETRU_PART_BYTES(p.n),
                                 message, message_bytes);
        if (number != ETRU_OK) {
            return refused(bundle_path, number);
        }
        print_line(stop, message_bytes);
    }
    if (fflush(stdout) != 0 || ferror(stdout)) {
        return failed("standard output", "cannot be written");
    }
    return 0;
}
