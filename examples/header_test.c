// Tests the limits and lengths of include/etru.h against the library: what the header says is accepted, and one less or
// one more is refused. The last line is 'N passed, M failed'.
#include "etru.h"

#include <stdio.h>
#include <string.h>

static unsigned passed, failed;

static void expect(const char *what, uint32_t number, uint32_t expected) {
    if (number == expected) {
        passed++;
    } else {
        failed++;
        printf("failed: %s: %u, but %u was expected\n", what, (unsigned)number, (unsigned)expected);
    }
}

// ---- Lengths

// Each array has a place more than the largest N needs, so that a count that is one too large can be lent.
#define ARRAY (ETRU_ARRAY_NUMBERS(ETRU_MAX_N) + 1)
#define PRIVATE_NUMBERS (ETRU_PRIVATE_FILE_NUMBERS(ETRU_MAX_N) + 1)
#define MESSAGE (ETRU_MESSAGE_BYTES(ETRU_MAX_N) + 1)
// A full bundle has fewer numbers than half its bytes, and the most entries at the least N; there is an entry more.
#define BUNDLE (ETRU_MAX_BUNDLE_BYTES + ETRU_ENTRY_BYTES(ETRU_MAX_N))
#define STOPS (ETRU_MAX_BUNDLE_ENTRIES(ETRU_MIN_N) + 1)

// f = F2 = Fq = 1 and g = φ = 1 + ωX + (−1 − ω)X² with q = 15, s = 3, t = 1: document 01's small key, at any N.
static uint32_t n;
static int32_t one[ARRAY] = {1}, triple[ARRAY] = {1, 0, 0, 1, -1, -1}, h[ARRAY], e[ARRAY], out[ARRAY];
static struct etru_placed_unit places[] = {{2, 4}, {0, 0}, {1, 2}, {2, 4}};  // φ, and a record more
static int32_t key[PRIVATE_NUMBERS], numbers[PRIVATE_NUMBERS];
static uint8_t message[MESSAGE], opened[MESSAGE], line[ETRU_LINE_BYTES + 1];
static uint8_t public_file[ETRU_PUBLIC_FILE_BYTES(ETRU_MAX_N) + 1];
static uint8_t private_file[ETRU_PRIVATE_FILE_BYTES(ETRU_MAX_N) + 1];
static uint8_t sealed_file[ETRU_SEALED_FILE_BYTES(ETRU_MAX_N) + 1];
static uint8_t short_file[ETRU_SHORT_FILE_BYTES(ETRU_MAX_N) + 1];
static uint16_t stops[STOPS];
static uint32_t read_stops[STOPS];
static int32_t bundle_numbers[BUNDLE / 2], read_numbers[BUNDLE / 2];
static uint8_t bundle[BUNDLE];

// Each call with its counts.
static uint32_t convolve(const size_t *k) {
    return etru_convolve(n, 15, 0, 3, 1, one, k[0], triple, k[1], out, k[2]);
}
static uint32_t check_key(const size_t *k) {
    return etru_check_key(n, 15, 0, 3, 1, one, k[0], one, k[1], one, k[2], triple, k[3], h, k[4]);
}
static uint32_t seal(const size_t *k) {
    return etru_seal(n, 15, 0, 3, 1, h, k[0], triple, k[1], message, k[2], e, k[3]);
}
static uint32_t seal_places(const size_t *k) {
    return etru_seal_places(n, 15, 0, 3, 1, h, k[0], places, k[1], message, k[2], e, k[3]);
}
static uint32_t spread_places(const size_t *k) {
    return etru_spread_places(n, 15, 0, 3, 1, places, k[0], out, k[1]);
}
static uint32_t seal_short(const size_t *k) {
    return etru_seal_short(n, 15, 0, 3, 1, h, k[0], triple, k[1], message, ETRU_SHORT_MESSAGE_BYTES(n), out, k[2]);
}
static uint32_t open_short(const size_t *k) {
    size_t used;
    return etru_open_short(n, 15, 0, 3, 1, one, k[0], one, k[1], out, k[2], opened, ETRU_SHORT_MESSAGE_BYTES(n), &used);
}
static uint32_t open_sealed(const size_t *k) {
    return etru_open(n, 15, 0, 3, 1, one, k[0], one, k[1], e, k[2], opened, k[3]);
}
static uint32_t pack(const size_t *k) {
    return etru_pack(n, message, k[0], out, k[1]);
}
static uint32_t unpack(const size_t *k) {
    return etru_unpack(n, out, k[0], opened, k[1]);
}
static uint32_t write_public(const size_t *k) {
    return etru_write(ETRU_PUBLIC_FILE, n, 15, 0, 3, 1, h, k[0], public_file, k[1]);
}
static uint32_t write_private(const size_t *k) {
    return etru_write(ETRU_PRIVATE_FILE, n, 15, 0, 3, 1, key, k[0], private_file, k[1]);
}
static uint32_t write_sealed(const size_t *k) {
    return etru_write(ETRU_SEALED_FILE, n, 15, 0, 3, 1, e, k[0], sealed_file, k[1]);
}
static uint32_t write_short(const size_t *k) {
    return etru_write(ETRU_SHORT_FILE, n, 15, 0, 3, 1, e, k[0], short_file, k[1]);
}
static uint32_t read_public(const size_t *k) {
    return etru_read(ETRU_PUBLIC_FILE, public_file, k[0], numbers, k[1]);
}
static uint32_t read_private(const size_t *k) {
    return etru_read(ETRU_PRIVATE_FILE, private_file, k[0], numbers, k[1]);
}
static uint32_t read_sealed(const size_t *k) {
    return etru_read(ETRU_SEALED_FILE, sealed_file, k[0], numbers, k[1]);
}
static uint32_t read_short(const size_t *k) {
    return etru_read(ETRU_SHORT_FILE, short_file, k[0], numbers, k[1]);
}
static uint32_t write_bundle(const size_t *k) {
    return etru_write_bundle(n, 15, 0, 3, 1, stops, k[0], bundle_numbers, k[1], bundle, k[2]);
}
static uint32_t read_bundle_head(const size_t *k) {
    uint32_t head_n, s, t, count;
    int32_t c, d;
    return etru_read_bundle_head(bundle, k[0], &head_n, &c, &d, &s, &t, &count);
}
static uint32_t read_bundle(const size_t *k) {
    return etru_read_bundle(bundle, k[0], read_stops, k[1], read_numbers, k[2]);
}
static uint32_t begin_bundle(const size_t *k) {
    size_t at;
    return etru_begin_bundle(bundle, k[0], &at);
}
static uint32_t open_entry(const size_t *k) {
    const uint8_t *e_bytes = sealed_file + ETRU_HEAD_BYTES;
    return etru_open_entry(n, 15, 0, 3, 1, one, k[0], one, k[1], e_bytes, k[2], opened, k[3]);
}
static uint32_t open_files(const size_t *k) {
    size_t used;
    return etru_open_files(private_file, ETRU_PRIVATE_FILE_BYTES(n), line, k[0], &used);
}

static uint32_t read_head(size_t count) {
    uint32_t head_n, s, t;
    int32_t c, d;
    return etru_read_head(ETRU_PRIVATE_FILE, private_file, count, &head_n, &c, &d, &s, &t);
}

// A call with the counts that the header says, up to five; the first 0 ends them.
struct call {
    const char *name;
    uint32_t (*function)(const size_t *count);
    size_t count[6];
};

static void try_counts(const struct call *call) {
    char what[80];
    size_t count[6];
    memcpy(count, call->count, sizeof count);
    snprintf(what, sizeof what, "N = %u, %s", (unsigned)n, call->name);
    expect(what, call->function(count), ETRU_OK);
    for (size_t i = 0; count[i] != 0; i++) {
        snprintf(what, sizeof what, "N = %u, %s, count %u one less", (unsigned)n, call->name, (unsigned)i);
        count[i] = call->count[i] - 1;
        expect(what, call->function(count), ETRU_WRONG_LENGTH);
        snprintf(what, sizeof what, "N = %u, %s, count %u one more", (unsigned)n, call->name, (unsigned)i);
        count[i] = call->count[i] + 1;
        expect(what, call->function(count), ETRU_WRONG_LENGTH);
        count[i] = call->count[i];
    }
}

// So many entries for a bundle, each with e; the stops fall to 1.
static void fill_bundle(size_t count) {
    const size_t array = ETRU_ARRAY_NUMBERS(n);
    for (size_t i = 0; i < count; i++) {
        stops[i] = (uint16_t)(count - i);
        memcpy(bundle_numbers + i * array, e, array * sizeof e[0]);
    }
}

// A later call uses what an earlier one wrote.
static void try_lengths(void) {
    const size_t array = ETRU_ARRAY_NUMBERS(n), bytes = ETRU_MESSAGE_BYTES(n);
    const size_t most = ETRU_MAX_BUNDLE_ENTRIES(n);
    const size_t bundle_bytes = ETRU_BUNDLE_FILE_BYTES(n, most), bundled = ETRU_BUNDLE_FILE_NUMBERS(n, most);
    const struct call calls[] = {
        {"etru_convolve", convolve, {array, array, array}},
        {"etru_check_key", check_key, {array, array, array, array, array}},
        {"etru_seal", seal, {array, array, bytes, array}},
        {"etru_seal_places", seal_places, {array, 3, bytes, array}},
        {"etru_spread_places", spread_places, {3, array}},
        {"etru_open", open_sealed, {array, array, array, bytes}},
        {"etru_seal_short", seal_short, {array, array, array}},
        {"etru_open_short", open_short, {array, array, array}},
        {"etru_pack", pack, {bytes, array}},
        {"etru_unpack", unpack, {array, bytes}},
        {"etru_write, public", write_public, {ETRU_PUBLIC_FILE_NUMBERS(n), ETRU_PUBLIC_FILE_BYTES(n)}},
        {"etru_write, private", write_private, {ETRU_PRIVATE_FILE_NUMBERS(n), ETRU_PRIVATE_FILE_BYTES(n)}},
        {"etru_write, sealed", write_sealed, {ETRU_SEALED_FILE_NUMBERS(n), ETRU_SEALED_FILE_BYTES(n)}},
        {"etru_write, short", write_short, {ETRU_SHORT_FILE_NUMBERS(n), ETRU_SHORT_FILE_BYTES(n)}},
        {"etru_read, public", read_public, {ETRU_PUBLIC_FILE_BYTES(n), ETRU_PUBLIC_FILE_NUMBERS(n)}},
        {"etru_read, private", read_private, {ETRU_PRIVATE_FILE_BYTES(n), ETRU_PRIVATE_FILE_NUMBERS(n)}},
        {"etru_read, sealed", read_sealed, {ETRU_SEALED_FILE_BYTES(n), ETRU_SEALED_FILE_NUMBERS(n)}},
        {"etru_read, short", read_short, {ETRU_SHORT_FILE_BYTES(n), ETRU_SHORT_FILE_NUMBERS(n)}},
        {"etru_write_bundle", write_bundle, {most, bundled, bundle_bytes}},
        {"etru_read_bundle_head", read_bundle_head, {bundle_bytes}},
        {"etru_read_bundle", read_bundle, {bundle_bytes, most, bundled}},
        {"etru_begin_bundle", begin_bundle, {bundle_bytes}},
        {"etru_open_entry", open_entry, {array, array, ETRU_PART_BYTES(n), bytes}},
        {"etru_open_files", open_files, {ETRU_LINE_BYTES}},
    };
    memcpy(key, one, array * sizeof key[0]);
    memcpy(key + array, one, array * sizeof key[0]);
    memcpy(key + 2 * array, one, array * sizeof key[0]);
    memcpy(key + 3 * array, triple, array * sizeof key[0]);
    fill_bundle(most);
    for (size_t i = 0; i < sizeof calls / sizeof calls[0]; i++) {
        try_counts(&calls[i]);
    }
    expect("ETRU_HEAD_BYTES", read_head(ETRU_HEAD_BYTES), ETRU_OK);
    expect("ETRU_HEAD_BYTES - 1", read_head(ETRU_HEAD_BYTES - 1), ETRU_HEAD_TOO_SHORT);
}

// A macro of N takes any expression, gives a size_t, and is one operand of what stands around it.
#define EXPECT_OPERAND(macro) \
    do { \
        const size_t length = macro(3); \
        expect(#macro, sizeof macro(3) == sizeof(size_t) && 1000 % macro(1 ? 3 : 0) == 1000 % length, 1); \
    } while (0)

#define NUMBERS_OF_TWO_ENTRIES(n) ETRU_BUNDLE_FILE_NUMBERS(n, 1 ? 2 : 0)
#define BYTES_OF_TWO_ENTRIES(n) ETRU_BUNDLE_FILE_BYTES(n, 1 ? 2 : 0)
// at N = 3 there is no byte to divide by
#define SHORT_MESSAGE_BYTES_OF_14_MORE(n) ETRU_SHORT_MESSAGE_BYTES(1 ? 14 + (n) : 0)

static void try_macros(void) {
    EXPECT_OPERAND(ETRU_ARRAY_NUMBERS);
    EXPECT_OPERAND(ETRU_MESSAGE_BYTES);
    EXPECT_OPERAND(SHORT_MESSAGE_BYTES_OF_14_MORE);
    EXPECT_OPERAND(ETRU_PUBLIC_FILE_NUMBERS);
    EXPECT_OPERAND(ETRU_PRIVATE_FILE_NUMBERS);
    EXPECT_OPERAND(ETRU_SEALED_FILE_NUMBERS);
    EXPECT_OPERAND(ETRU_SHORT_FILE_NUMBERS);
    EXPECT_OPERAND(ETRU_PUBLIC_FILE_BYTES);
    EXPECT_OPERAND(ETRU_PRIVATE_FILE_BYTES);
    EXPECT_OPERAND(ETRU_SEALED_FILE_BYTES);
    EXPECT_OPERAND(ETRU_SHORT_FILE_BYTES);
    EXPECT_OPERAND(ETRU_PART_BYTES);
    EXPECT_OPERAND(ETRU_ENTRY_BYTES);
    EXPECT_OPERAND(NUMBERS_OF_TWO_ENTRIES);
    EXPECT_OPERAND(BYTES_OF_TWO_ENTRIES);
    EXPECT_OPERAND(ETRU_MAX_BUNDLE_ENTRIES);
}

// ---- Bundles

static uint32_t write_entries(size_t count) {
    const size_t counts[] = {count, ETRU_BUNDLE_FILE_NUMBERS(n, count), ETRU_BUNDLE_FILE_BYTES(n, count)};
    return write_bundle(counts);
}

// A walk through a bundle of so many entries, with what the header says of lengths: each part is the sealed array.
static void try_walk(size_t count) {
    const size_t file_count = ETRU_BUNDLE_FILE_BYTES(n, count);
    size_t at, part, entries = 0;
    uint32_t stop, right = 1;
    fill_bundle(count);
    expect("a bundle written", write_entries(count), ETRU_OK);
    expect("a bundle begun", etru_begin_bundle(bundle, file_count, &at), ETRU_OK);
    while (entries <= count && etru_next_entry(bundle, file_count, &at, &stop, &part)) {
        const int next = at == file_count - (count - entries - 1) * ETRU_ENTRY_BYTES(n);
        const int sealed = memcmp(bundle + part, sealed_file + ETRU_HEAD_BYTES, ETRU_PART_BYTES(n)) == 0;
        right = right && stop == stops[entries] && next && part + ETRU_PART_BYTES(n) == at && sealed;
        entries++;
    }
    expect("the entries of a bundle", right && entries == count, 1);
    stop = 77;
    part = 78;
    expect("a step past the end", etru_next_entry(bundle, file_count, &at, &stop, &part), 0);
    expect("nothing is written past the end", at == file_count && stop == 77 && part == 78, 1);
}

// What try_lengths sealed, in bundles of no entry, of one and of the most that the header says, and in one of one more.
static void try_bundles(void) {
    const size_t most = ETRU_MAX_BUNDLE_ENTRIES(n);
    try_walk(0);
    try_walk(1);
    try_walk(most);
    expect("ETRU_MAX_BUNDLE_BYTES", ETRU_BUNDLE_FILE_BYTES(n, most) <= ETRU_MAX_BUNDLE_BYTES, 1);
    stops[most - 1] = stops[0];
    expect("a stop twice", write_entries(most), ETRU_STOP_OCCURS_TWICE);
    fill_bundle(most + 1);
    expect("ETRU_MAX_BUNDLE_ENTRIES + 1", write_entries(most + 1), ETRU_WRONG_LENGTH);
}

// ---- Records of places

// The last place and the last unit that the header says, and one more of each. The other two units are those of unit
// 5's triple, and stand at the first two places.
static void try_places(void) {
    struct etru_placed_unit list[] = {{0, 1}, {1, 3}, {n - 1, 5}};
    expect("a record is two numbers", sizeof list == 3 * 2 * sizeof(uint32_t), 1);
    expect("place n - 1, unit 5", etru_spread_places(n, 15, 0, 3, 1, list, 3, out, ETRU_ARRAY_NUMBERS(n)), ETRU_OK);
    expect("its array", out[2 * n - 2] == 0 && out[2 * n - 1] == -1, 1);
    list[2].place = n;
    expect("place n", etru_spread_places(n, 15, 0, 3, 1, list, 3, out, ETRU_ARRAY_NUMBERS(n)),
           ETRU_PLACE_OR_UNIT_OUT_OF_RANGE);
    list[2].place = n - 1;
    list[2].unit = 6;
    expect("unit 6", etru_spread_places(n, 15, 0, 3, 1, list, 3, out, ETRU_ARRAY_NUMBERS(n)),
           ETRU_PLACE_OR_UNIT_OUT_OF_RANGE);
    list[2].unit = 5;
    list[2].place = 0;
    expect("place 0 twice", etru_spread_places(n, 15, 0, 3, 1, list, 3, out, ETRU_ARRAY_NUMBERS(n)),
           ETRU_PLACE_OCCURS_TWICE);
}

// ---- Whole triples

// "units of sum zero need not be in whole triples": three 1 and three −1; and a triple with its negative, which are.
static void try_triples(void) {
    struct etru_placed_unit list[] = {{0, 0}, {1, 0}, {2, 0}, {3, 3}, {4, 3}, {5, 3}};
    const uint32_t units[] = {0, 3, 2, 5, 4, 1};
    expect("three 1 and three -1", etru_spread_places(6, 31, 0, 6, 1, list, 6, out, ETRU_ARRAY_NUMBERS(6)),
           ETRU_PHI_NOT_IN_ITS_SET);
    for (size_t k = 0; k < 6; k++) {
        list[k].unit = units[k];
    }
    expect("each unit once", etru_spread_places(6, 31, 0, 6, 1, list, 6, out, ETRU_ARRAY_NUMBERS(6)), ETRU_OK);
}

// ---- Short messages

static uint32_t open_short_of(const int32_t *sealed, size_t room, size_t *used) {
    const size_t array = ETRU_ARRAY_NUMBERS(n);
    return etru_open_short(n, 15, 0, 3, 1, one, array, one, array, sealed, array, opened, room, used);
}

// A short message of so many bytes 0x80, each of which could be taken for the one with the 1 behind it.
static void try_short_message(size_t count) {
    const size_t array = ETRU_ARRAY_NUMBERS(n), longest = ETRU_SHORT_MESSAGE_BYTES(n);
    uint8_t code[MESSAGE];
    size_t used = 77;
    uint32_t right = 1;
    memset(code, 0x80, sizeof code);
    memset(opened, 0x5A, sizeof opened);
    expect("a short message sealed",
           etru_seal_short(n, 15, 0, 3, 1, h, array, triple, array, code, count, out, array), ETRU_OK);
    expect("a short message opened", open_short_of(out, longest, &used), ETRU_OK);
    for (size_t i = 0; i < sizeof opened; i++) {
        right = right && opened[i] == (i < count ? 0x80 : 0x5A);
    }
    expect("its bytes, and those behind it as they came", right && used == count, 1);
}

// What try_lengths sealed is all zeros, and so no short message.
static void try_short(void) {
    const size_t array = ETRU_ARRAY_NUMBERS(n), longest = ETRU_SHORT_MESSAGE_BYTES(n);
    size_t used = 77;
    uint32_t right = 1;
    try_short_message(0);
    try_short_message(longest);
    memset(opened, 0x5A, sizeof opened);
    expect("ETRU_SHORT_MESSAGE_BYTES + 1",
           etru_seal_short(n, 15, 0, 3, 1, h, array, triple, array, message, longest + 1, out, array),
           ETRU_SHORT_MESSAGE_TOO_LONG);
    expect("room for a byte more", open_short_of(out, longest + 1, &used), ETRU_WRONG_LENGTH);
    expect("no 1 bit", open_short_of(e, longest, &used), ETRU_NOT_A_SHORT_MESSAGE);
    for (size_t i = 0; i < sizeof opened; i++) {
        right = right && opened[i] == 0x5A;
    }
    expect("nothing is written", right && used == 77, 1);
}

// ---- Limits

static void try_limits(void) {
    expect("ETRU_MIN_N", etru_check_parameters(ETRU_MIN_N, 15, 0, 3, 1), ETRU_OK);
    expect("ETRU_MIN_N - 1", etru_check_parameters(ETRU_MIN_N - 1, 15, 0, 3, 1), ETRU_COEFFICIENT_COUNT_OUT_OF_RANGE);
    expect("ETRU_MAX_N", etru_check_parameters(ETRU_MAX_N, 15, 0, 3, 1), ETRU_OK);
    expect("ETRU_MAX_N + 1", etru_check_parameters(ETRU_MAX_N + 1, 15, 0, 3, 1), ETRU_COEFFICIENT_COUNT_OUT_OF_RANGE);

    expect("ETRU_MIN_S", etru_check_parameters(3, 15, 0, ETRU_MIN_S, 1), ETRU_OK);
    expect("ETRU_MIN_S - 1", etru_check_parameters(3, 15, 0, ETRU_MIN_S - 1, 1), ETRU_S_OUT_OF_RANGE);
    expect("ETRU_MIN_T", etru_check_parameters(3, 15, 0, 3, ETRU_MIN_T), ETRU_OK);
    expect("ETRU_MIN_T - 1", etru_check_parameters(3, 15, 0, 3, ETRU_MIN_T - 1), ETRU_T_OUT_OF_RANGE);

    int32_t ra, rb;
    for (int sign = -1; sign <= 1; sign += 2) {
        const int32_t part = sign * ETRU_MODULUS_LIMIT, next = sign * (ETRU_MODULUS_LIMIT + 1);
        expect("ETRU_MODULUS_LIMIT", etru_reduce_q(1, 0, part, part, &ra, &rb), ETRU_OK);
        expect("ETRU_MODULUS_LIMIT + 1, c", etru_reduce_q(1, 0, next, 1, &ra, &rb), ETRU_MODULUS_PART_OUT_OF_RANGE);
        expect("ETRU_MODULUS_LIMIT + 1, d", etru_reduce_q(1, 0, 1, next, &ra, &rb), ETRU_MODULUS_PART_OUT_OF_RANGE);

        const int64_t value = sign * ETRU_VALUE_LIMIT, next_value = sign * (ETRU_VALUE_LIMIT + 1);
        expect("ETRU_VALUE_LIMIT", etru_reduce_q(value, value, 15, 0, &ra, &rb), ETRU_OK);
        expect("ETRU_VALUE_LIMIT + 1, a", etru_reduce_q(next_value, 0, 15, 0, &ra, &rb), ETRU_VALUE_OUT_OF_RANGE);
        expect("ETRU_VALUE_LIMIT + 1, b", etru_reduce_q(0, next_value, 15, 0, &ra, &rb), ETRU_VALUE_OUT_OF_RANGE);
        expect("ETRU_VALUE_LIMIT", etru_reduce_2(value, value, &ra, &rb), ETRU_OK);
        expect("ETRU_VALUE_LIMIT + 1, a", etru_reduce_2(next_value, 0, &ra, &rb), ETRU_VALUE_OUT_OF_RANGE);
        expect("ETRU_VALUE_LIMIT + 1, b", etru_reduce_2(0, next_value, &ra, &rb), ETRU_VALUE_OUT_OF_RANGE);
    }
}

int main(void) {
    n = ETRU_MIN_N;
    try_lengths();
    try_places();
    try_bundles();
    try_short();
    n = ETRU_MAX_N;
    try_lengths();
    try_places();
    try_bundles();
    try_short();
    try_macros();
    try_triples();
    try_limits();
    printf("%u passed, %u failed\n", passed, failed);
    return failed != 0;
}
