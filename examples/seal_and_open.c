// Checks a key, seals a message with it, and opens it again: first as arrays, with the ephemeral as an array and as
// places, then as files. Then short messages, sealed from places, and one refusal.
//
// Usage: seal_and_open [private-file]
// Without a file the key is document 01's example. The status is 0 only if each step came out as expected.
#include "etru.h"

#include <stdio.h>
#include <string.h>

// The private file of document 01's example: N = 3, q = 15, s = 3, t = 1; f = F2 = Fq = 1; g = (1,0), (0,1), (-1,-1).
static const uint8_t example[] = {
    'E', 'I', 'Z', 0, 1, 2, 0, 3, 0, 15, 0, 0, 0, 3, 0, 1,
    0, 1, 0, 0, 0, 0, 0, 0, 0, 0, 0, 0,
    0, 1, 0, 0, 0, 0, 0, 0, 0, 0, 0, 0,
    0, 1, 0, 0, 0, 0, 0, 0, 0, 0, 0, 0,
    0, 1, 0, 0, 0, 0, 0, 1, 255, 255, 255, 255,
};

static const char *const conditions[] = {
    [ETRU_OK] = "nothing is refused",
    [ETRU_COEFFICIENT_COUNT_OUT_OF_RANGE] = "N out of range",
    [ETRU_MODULUS_PART_OUT_OF_RANGE] = "a part of q out of range",
    [ETRU_MODULUS_PARTS_BOTH_EVEN] = "both parts of q even",
    [ETRU_S_OUT_OF_RANGE] = "s out of range or not a multiple of 3",
    [ETRU_T_OUT_OF_RANGE] = "t out of range",
    [ETRU_BOUND_NOT_BELOW_NORM] = "4 * (2s + t)^2 not below the norm of q",
    [ETRU_WRONG_LENGTH] = "a lent array, output or file has the wrong length",
    [ETRU_F_NOT_IN_ITS_SET] = "f not in its set",
    [ETRU_G_NOT_IN_ITS_SET] = "g not in its set",
    [ETRU_PHI_NOT_IN_ITS_SET] = "phi not in its set",
    [ETRU_NOT_REDUCED_MODULO_2] = "F2 or m not reduced modulo 2",
    [ETRU_NOT_REDUCED_MODULO_Q] = "Fq, h, e or a convolution's operand not reduced modulo q",
    [ETRU_NOT_INVERSE_MODULO_2] = "f * F2 not 1 modulo 2",
    [ETRU_NOT_INVERSE_MODULO_Q] = "f * Fq not 1 modulo q",
    [ETRU_SPARE_BIT_SET] = "a spare bit is set",
    [ETRU_HEAD_TOO_SHORT] = "fewer than 16 bytes",
    [ETRU_MARK_NOT_EIZ] = "mark is not EIZ",
    [ETRU_VERSION_NOT_ONE] = "version is not 1",
    [ETRU_KIND_NOT_WANTED] = "kind is not the one wanted, or not 1 to 5",
    [ETRU_PARAMETERS_DIFFER] = "the two files' parameters differ",
    [ETRU_MODULUS_ZERO] = "modulus zero",
    [ETRU_VALUE_OUT_OF_RANGE] = "a part of the value below -2^40 or above 2^40",
    [ETRU_PLACE_OR_UNIT_OUT_OF_RANGE] = "a place is N or more, or a unit number is above 5",
    [ETRU_PLACE_OCCURS_TWICE] = "a place occurs twice",
    [ETRU_STOP_OCCURS_TWICE] = "a stop number occurs twice",
    [ETRU_SHORT_MESSAGE_TOO_LONG] = "8 * the bytes of a short message + 1 exceeds 2N",
    [ETRU_NOT_A_SHORT_MESSAGE] = "no 1 bit, or the last one at a position, counted from 0, that is not a multiple of 8",
};

// All memory is the caller's. These have room for the largest N; a call is lent as much of each as its N asks for.
static int32_t key[ETRU_PRIVATE_FILE_NUMBERS(ETRU_MAX_N)];
static int32_t h[ETRU_ARRAY_NUMBERS(ETRU_MAX_N)], phi[ETRU_ARRAY_NUMBERS(ETRU_MAX_N)];
static int32_t e[ETRU_ARRAY_NUMBERS(ETRU_MAX_N)], e_before[ETRU_ARRAY_NUMBERS(ETRU_MAX_N)];
static struct etru_placed_unit places[ETRU_MAX_N];
static int32_t spread[ETRU_ARRAY_NUMBERS(ETRU_MAX_N)], e_of_places[ETRU_ARRAY_NUMBERS(ETRU_MAX_N)];
static uint8_t message[ETRU_MESSAGE_BYTES(ETRU_MAX_N)], opened[ETRU_MESSAGE_BYTES(ETRU_MAX_N)];

// The private file, and directly after it the sealed file.
static uint8_t files[ETRU_PRIVATE_FILE_BYTES(ETRU_MAX_N) + ETRU_SEALED_FILE_BYTES(ETRU_MAX_N)];
static uint8_t line[ETRU_LINE_BYTES];
static uint8_t short_file[ETRU_SHORT_FILE_BYTES(ETRU_MAX_N)];

// Prints what a call returned, and tells whether that is what was expected.
static int came_out(const char *call, uint32_t number, uint32_t expected) {
    printf("%s: %u, %s\n", call, (unsigned)number, conditions[number]);
    return number == expected;
}

static void print_bytes(const char *name, const uint8_t *bytes, size_t count) {
    printf("  %s =%s", name, count > 0 ? " " : "");
    for (size_t i = 0; i < count; i++) {
        printf("%02X", (unsigned)bytes[i]);
    }
    printf("\n");
}

// Prints the first three coefficients, which every polynomial has.
static void print_coefficients(const char *name, const int32_t *x, uint32_t n) {
    printf("  %s = (%d,%d) (%d,%d) (%d,%d)%s\n", name, (int)x[0], (int)x[1], (int)x[2], (int)x[3], (int)x[4], (int)x[5],
           n > 3 ? " ..." : "");
}

// Reads a private file to the front of `files`. Of a file that is longer than any private file, more bytes are read
// than any has, so that it is refused.
static int read_private(const char *path, size_t *count) {
    FILE *stream = fopen(path, "rb");
    if (stream == NULL) {
        return 0;
    }
    *count = fread(files, 1, sizeof files, stream);
    int done = !ferror(stream);
    fclose(stream);
    return done;
}

// A message of 2N bits: B0 and then some other bytes, with the spare low bits of the last byte zero.
static void make_message(uint32_t n) {
    size_t count = ETRU_MESSAGE_BYTES(n);
    for (size_t i = 0; i < count; i++) {
        message[i] = (uint8_t)(0xB0 + 37 * i);
    }
    size_t spare = 8 * count - 2 * (size_t)n;
    message[count - 1] = (uint8_t)(message[count - 1] >> spare << spare);
}

// An ephemeral of the right set: the triple (1,0), (0,1), (-1,-1), which is 1, ω, ω², over and over in the first s
// coefficients. It is always the same here; a real planner draws its places, and for each triple whether it is this one
// or its negative, at random for each message.
static void make_phi(uint32_t s) {
    static const int32_t units[6] = {1, 0, 0, 1, -1, -1};
    for (size_t i = 0; i < 2 * (size_t)s; i++) {
        phi[i] = units[i % 6];
    }
}

// The same ephemeral as places: (1,0), (0,1), (-1,-1) are units 0, 2 and 4. The last place comes first, as any order
// will do.
static void make_places(uint32_t s) {
    for (uint32_t i = 0; i < s; i++) {
        places[s - 1 - i].place = i;
        places[s - 1 - i].unit = 2 * (i % 3);
    }
}

// Whether the first bytes of the line are `0`, a space, the message in hexadecimal and a newline.
static int line_tells_message(size_t used, size_t message_bytes) {
    char expected[ETRU_LINE_BYTES + 1] = "0 ";
    for (size_t i = 0; i < message_bytes; i++) {
        snprintf(expected + 2 + 2 * i, 3, "%02X", (unsigned)message[i]);
    }
    strcat(expected, "\n");
    return used == strlen(expected) && memcmp(line, expected, used) == 0;
}

static int failed(const char *what) {
    fprintf(stderr, "seal_and_open: %s\n", what);
    return 1;
}

int main(int argc, char **argv) {
    if (argc > 2) {
        return failed("usage: seal_and_open [private-file]");
    }
    memcpy(files, example, sizeof example);
    size_t private_bytes = sizeof example;
    if (argc == 2 && !read_private(argv[1], &private_bytes)) {
        return failed("the private file cannot be read");
    }

    // The head tells the parameters, and they tell every length.
    uint32_t n, s, t;
    int32_t c, d;
    uint32_t number = etru_read_head(ETRU_PRIVATE_FILE, files, private_bytes, &n, &c, &d, &s, &t);
    if (!came_out("etru_read_head", number, ETRU_OK)) {
        return failed("the private file's head was refused");
    }
    printf("  N = %u, q = (%d,%d), s = %u, t = %u\n", (unsigned)n, (int)c, (int)d, (unsigned)s, (unsigned)t);
    size_t array = ETRU_ARRAY_NUMBERS(n);
    size_t message_bytes = ETRU_MESSAGE_BYTES(n);
    size_t sealed_bytes = ETRU_SEALED_FILE_BYTES(n);

    // The key's four arrays come one after another.
    number = etru_read(ETRU_PRIVATE_FILE, files, private_bytes, key, ETRU_PRIVATE_FILE_NUMBERS(n));
    if (!came_out("etru_read", number, ETRU_OK)) {
        return failed("the private file was refused");
    }
    const int32_t *f = key, *f2 = f + array, *fq = f2 + array, *g = fq + array;

    // The check also gives the public key h, which is all of the key that sealing uses.
    number = etru_check_key(n, c, d, s, t, f, array, f2, array, fq, array, g, array, h, array);
    if (!came_out("etru_check_key", number, ETRU_OK)) {
        return failed("the key was refused");
    }
    print_coefficients("h", h, n);

    make_message(n);
    make_phi(s);
    print_bytes("message", message, message_bytes);
    number = etru_seal(n, c, d, s, t, h, array, phi, array, message, message_bytes, e, array);
    if (!came_out("etru_seal", number, ETRU_OK)) {
        return failed("sealing was refused");
    }
    print_coefficients("e", e, n);

    // The ephemeral as places gives the same sealed array, and spreads to phi.
    make_places(s);
    number = etru_seal_places(n, c, d, s, t, h, array, places, s, message, message_bytes, e_of_places, array);
    if (!came_out("etru_seal_places", number, ETRU_OK)) {
        return failed("sealing from places was refused");
    }
    if (memcmp(e_of_places, e, sizeof e) != 0) {
        return failed("places gave another sealed array");
    }
    printf("  e is the same\n");
    number = etru_spread_places(n, c, d, s, t, places, s, spread, array);
    if (!came_out("etru_spread_places", number, ETRU_OK)) {
        return failed("spreading the places was refused");
    }
    if (memcmp(spread, phi, sizeof phi) != 0) {
        return failed("places were spread to another ephemeral");
    }
    print_coefficients("phi", spread, n);

    number = etru_open(n, c, d, s, t, f, array, f2, array, e, array, opened, message_bytes);
    if (!came_out("etru_open", number, ETRU_OK)) {
        return failed("opening was refused");
    }
    print_bytes("opened", opened, message_bytes);
    if (memcmp(opened, message, message_bytes) != 0) {
        return failed("another message was opened than was sealed");
    }

    // The same with files: the sealed file goes directly after the private file, and the two give one line.
    uint8_t *sealed = files + private_bytes;
    number = etru_write(ETRU_SEALED_FILE, n, c, d, s, t, e, ETRU_SEALED_FILE_NUMBERS(n), sealed, sealed_bytes);
    if (!came_out("etru_write", number, ETRU_OK)) {
        return failed("the sealed file was refused");
    }
    print_bytes("sealed file", sealed, sealed_bytes);
    size_t used;
    number = etru_open_files(files, private_bytes + sealed_bytes, line, sizeof line, &used);
    if (!came_out("etru_open_files", number, ETRU_OK)) {
        return failed("the line has the wrong length");
    }
    printf("  line = %.*s", (int)used, (const char *)line);
    if (!line_tells_message(used, message_bytes)) {
        return failed("the line does not tell the message");
    }

    // Short messages, with the ephemeral that the places were spread to: the longest, which at N = 3 is empty, and the
    // empty one.
    size_t longest = ETRU_SHORT_MESSAGE_BYTES(n), lengths[] = {longest, 0};
    for (size_t i = 0; i < 2; i++) {
        number = etru_seal_short(n, c, d, s, t, h, array, spread, array, message, lengths[i], e, array);
        if (!came_out("etru_seal_short", number, ETRU_OK)) {
            return failed("sealing a short message was refused");
        }
        print_coefficients("e", e, n);
        number = etru_open_short(n, c, d, s, t, f, array, f2, array, e, array, opened, longest, &used);
        if (!came_out("etru_open_short", number, ETRU_OK)) {
            return failed("opening a short message was refused");
        }
        print_bytes("opened", opened, used);
        if (used != lengths[i] || memcmp(opened, message, used) != 0) {
            return failed("another short message was opened than was sealed");
        }
    }
    size_t short_bytes = ETRU_SHORT_FILE_BYTES(n);
    number = etru_write(ETRU_SHORT_FILE, n, c, d, s, t, e, ETRU_SHORT_FILE_NUMBERS(n), short_file, short_bytes);
    if (!came_out("etru_write", number, ETRU_OK)) {
        return failed("the file of a short message was refused");
    }
    print_bytes("short file", short_file, short_bytes);

    // A refusal: with one unit of the ephemeral gone, s - 1 are left. Nothing is written to e.
    phi[0] = 0;
    phi[1] = 0;
    memcpy(e_before, e, sizeof e);
    number = etru_seal(n, c, d, s, t, h, array, phi, array, message, message_bytes, e, array);
    if (!came_out("etru_seal with a unit of phi gone", number, ETRU_PHI_NOT_IN_ITS_SET)) {
        return failed("a wrong ephemeral was not refused");
    }
    if (memcmp(e, e_before, sizeof e) != 0) {
        return failed("a refusal wrote to e");
    }
    printf("  e is as it came\n");
    return 0;
}
