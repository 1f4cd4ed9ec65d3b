// The C interface of Rolphiek: ETRU, NTRU over the Eisenstein integers Z[ω], with p = 2. For C99 and C++.
// "Document 01" is the specification, and "document 02" has the later requests. Link libetru_c.a, which
// `rt lib` in crates/etru_c proves and builds; examples/seal_and_open.c is a program to begin with, and
// examples/open_bundle.c opens the messages of a bundle.
//
// What a call gives
//   Each function returns 0, or the number of the first of the documents' refusals that applies, in the order stated at
//   the function. Outputs are written only when 0 is returned; otherwise each output is as it came. One function
//   refuses nothing and returns something else: etru_next_entry.
//   Any values, contents and counts may be given: what is wrong is refused, and no call relies on its caller's checks.
//
// What is lent
//   An array is lent as a pointer and a count: x and x_count. The count is of numbers, bytes or records, whichever x
//   points to, and so many must be there. All memory is the caller's before and after; no call keeps a pointer.
//   A pointer must be valid (not null, and aligned for its type) even where its count is 0.
//   An output must not overlap any other argument, and outputs of one number each must be different places.
//   Inputs, which are const, may overlap each other.
//
// What a call takes
//   Nothing is allocated, and there is no global state: calls may run in several threads at once, as long as nobody
//   changes what is lent to a call, or uses its outputs, before it returns. No call depends on an earlier one.
//   Stack, at every N: etru_convolve at most 100 KiB, etru_open_files 72 KiB, etru_seal_places 36 KiB, etru_open,
//   etru_open_short, etru_open_entry, etru_check_key and etru_spread_places 28 KiB, etru_seal, etru_seal_short,
//   etru_read, etru_read_bundle, etru_begin_bundle and etru_write_bundle 12 KiB, each other function 1 KiB, as
//   compiled by an older kit.
//   Of the C library at most memcmp, memcpy, memmove and memset are needed.
//
// What is not promised
//   Secrecy, authentication and constant time: this is the basic scheme, for a pilot inside transport that is protected
//   already. 0 from an opening does not say who sealed, nor that the sealed array is unchanged. Random numbers are the
//   caller's to draw. What a call leaves on the stack is not wiped.
//
// Terms
//   ω² = −1 − ω, and the pair (a, b) is a + bω. The six units are (1,0), (1,1), (0,1), (−1,0), (−1,−1), (0,−1), with
//   the numbers 0 to 5.
//   Units in whole triples: equally many of units 0, 2 and 4, and equally many of units 1, 3 and 5. Their sum is zero,
//   but units of sum zero need not be in whole triples: (1,0) and (−1,0) are not.
//   A polynomial is N coefficients, lent as 2N numbers a0, b0, a1, b1 and so on. The product × of two is their
//   convolution: coefficient i is the sum of products of coefficients j and k with (j + k) mod N = i.
//   Reduced modulo 2: each coefficient is (0,0), (1,0), (0,1) or (−1,−1).
//   Reduced modulo q: each coefficient is its own remainder, by the rule at etru_reduce_q.
//   A message is 2N bits, highest bit of a byte first; bits 2i and 2i + 1 stand for coefficient i. The spare low bits
//   of the last byte are zero. A short message is fewer bytes, or none: see below.
#ifndef ETRU_H
#define ETRU_H

#include <stddef.h>
#include <stdint.h>

#ifdef __cplusplus
extern "C" {
#endif

// What is returned: the numbers and conditions of document 01, and from 23 on of document 02.
enum etru_refusal {
    ETRU_OK = 0,                              // nothing is refused
    // Parameters
    ETRU_COEFFICIENT_COUNT_OUT_OF_RANGE = 1,  // N out of range
    ETRU_MODULUS_PART_OUT_OF_RANGE = 2,       // a part of q out of range
    ETRU_MODULUS_PARTS_BOTH_EVEN = 3,         // both parts of q even
    ETRU_S_OUT_OF_RANGE = 4,                  // s out of range or not a multiple of 3
    ETRU_T_OUT_OF_RANGE = 5,                  // t out of range
    ETRU_BOUND_NOT_BELOW_NORM = 6,            // 4 × (2s + t)² not below the norm of q
    // Lengths
    ETRU_WRONG_LENGTH = 7,                    // a lent array, output or file has the wrong length
    // Arrays
    ETRU_F_NOT_IN_ITS_SET = 8,                // f not in its set
    ETRU_G_NOT_IN_ITS_SET = 9,                // g not in its set
    ETRU_PHI_NOT_IN_ITS_SET = 10,             // φ not in its set
    ETRU_NOT_REDUCED_MODULO_2 = 11,           // F2 or m not reduced modulo 2
    ETRU_NOT_REDUCED_MODULO_Q = 12,           // Fq, h, e or a convolution's operand not reduced modulo q
    // Key check
    ETRU_NOT_INVERSE_MODULO_2 = 13,           // f × F2 not 1 modulo 2
    ETRU_NOT_INVERSE_MODULO_Q = 14,           // f × Fq not 1 modulo q
    // Message bytes
    ETRU_SPARE_BIT_SET = 15,                  // a spare bit is set
    // File head
    ETRU_HEAD_TOO_SHORT = 16,                 // fewer than 16 bytes
    ETRU_MARK_NOT_EIZ = 17,                   // mark is not EIZ
    ETRU_VERSION_NOT_ONE = 18,                // version is not 1
    ETRU_KIND_NOT_WANTED = 19,                // kind is not the one wanted, or not 1 to 5
    // Program
    ETRU_PARAMETERS_DIFFER = 20,              // the two files' parameters differ
    // One value
    ETRU_MODULUS_ZERO = 21,                   // modulus zero
    ETRU_VALUE_OUT_OF_RANGE = 22,             // a part of the value below −2^40 or above 2^40
    // Ephemeral as places
    ETRU_PLACE_OR_UNIT_OUT_OF_RANGE = 23,     // a place is N or more, or a unit number is above 5
    ETRU_PLACE_OCCURS_TWICE = 24,             // a place occurs twice
    // Bundle
    ETRU_STOP_OCCURS_TWICE = 25,              // a stop number occurs twice
    // Short message
    ETRU_SHORT_MESSAGE_TOO_LONG = 26,         // 8 × the bytes of a short message + 1 exceeds 2N
    ETRU_NOT_A_SHORT_MESSAGE = 27             // no 1 bit, or the last one at a position, counted from 0, that is not a
                                              // multiple of 8
};

// The kinds of file, each with its arrays in stored order.
enum etru_file_kind {
    ETRU_PUBLIC_FILE = 1,   // h
    ETRU_PRIVATE_FILE = 2,  // f, F2, Fq, g
    ETRU_SEALED_FILE = 3,   // e
    ETRU_BUNDLE_FILE = 4,   // entries: each a stop number and an e
    ETRU_SHORT_FILE = 5     // e, of a short message
};

// Limits: N is from ETRU_MIN_N to ETRU_MAX_N, s from ETRU_MIN_S and t from ETRU_MIN_T to N, and no part of q or of a
// value is further from 0 than its limit.
#define ETRU_MIN_N 3
#define ETRU_MAX_N 1024
#define ETRU_MIN_S 3
#define ETRU_MIN_T 1
#define ETRU_MODULUS_LIMIT 4095
#define ETRU_VALUE_LIMIT ((int64_t)1 << 40)

// Lengths for n coefficients, of type size_t: the numbers of an array, and the bytes of a message (N/4, rounded up).
#define ETRU_ARRAY_NUMBERS(n) ((size_t)2 * (size_t)(n))
#define ETRU_MESSAGE_BYTES(n) (((size_t)(n) + 3) / 4)

// The bytes of the longest short message, for n from 1 on: (2N - 1)/8, rounded down.
#define ETRU_SHORT_MESSAGE_BYTES(n) ((ETRU_ARRAY_NUMBERS(n) - 1) / 8)

// The numbers of a file's arrays, one array after another in stored order.
#define ETRU_PUBLIC_FILE_NUMBERS(n) ETRU_ARRAY_NUMBERS(n)
#define ETRU_PRIVATE_FILE_NUMBERS(n) (4 * ETRU_ARRAY_NUMBERS(n))
#define ETRU_SEALED_FILE_NUMBERS(n) ETRU_ARRAY_NUMBERS(n)
#define ETRU_SHORT_FILE_NUMBERS(n) ETRU_ARRAY_NUMBERS(n)

// The bytes of a file: its head, and two for each number.
#define ETRU_HEAD_BYTES ((size_t)16)
#define ETRU_PUBLIC_FILE_BYTES(n) (ETRU_HEAD_BYTES + 2 * ETRU_PUBLIC_FILE_NUMBERS(n))
#define ETRU_PRIVATE_FILE_BYTES(n) (ETRU_HEAD_BYTES + 2 * ETRU_PRIVATE_FILE_NUMBERS(n))
#define ETRU_SEALED_FILE_BYTES(n) (ETRU_HEAD_BYTES + 2 * ETRU_SEALED_FILE_NUMBERS(n))
#define ETRU_SHORT_FILE_BYTES(n) (ETRU_HEAD_BYTES + 2 * ETRU_SHORT_FILE_NUMBERS(n))

// The bytes of an entry's sealed array, which is the part of a bundle that etru_open_entry takes, and of an entry.
#define ETRU_PART_BYTES(n) (2 * ETRU_ARRAY_NUMBERS(n))
#define ETRU_ENTRY_BYTES(n) (2 + ETRU_PART_BYTES(n))

// The numbers and the bytes of a bundle with so many entries, and how many entries a bundle may have at most, which is
// as many as ETRU_MAX_BUNDLE_BYTES bytes hold.
#define ETRU_BUNDLE_FILE_NUMBERS(n, count) ((size_t)(count) * ETRU_ARRAY_NUMBERS(n))
#define ETRU_BUNDLE_FILE_BYTES(n, count) (ETRU_HEAD_BYTES + 2 + (size_t)(count) * ETRU_ENTRY_BYTES(n))
#define ETRU_MAX_BUNDLE_BYTES ((size_t)65536)
#define ETRU_MAX_BUNDLE_ENTRIES(n) ((ETRU_MAX_BUNDLE_BYTES - ETRU_BUNDLE_FILE_BYTES(n, 0)) / ETRU_ENTRY_BYTES(n))

// The longest line of etru_open_files: `0`, a space, 256 bytes in hexadecimal and a newline.
#define ETRU_LINE_BYTES ((size_t)515)

// ---- One value

// The remainder of the value (a, b) modulo q = (c, d): the value of the same class with the smallest norm; of several,
// the one with the larger a, then the larger b. The norm of (a, b) is a² − ab + b².
//   a, b    each from −ETRU_VALUE_LIMIT to ETRU_VALUE_LIMIT
//   c, d    each from −ETRU_MODULUS_LIMIT to ETRU_MODULUS_LIMIT, not both 0; here both may be even
//   ra, rb  outputs: the parts of the remainder
// Refusals in order: 2, 21, 22.
uint32_t etru_reduce_q(int64_t a, int64_t b, int32_t c, int32_t d, int32_t *ra, int32_t *rb);

// The remainder of the value (a, b) modulo 2: each part becomes 0 or 1, and then (1,1) becomes (−1,−1).
//   a, b    each from −ETRU_VALUE_LIMIT to ETRU_VALUE_LIMIT
//   ra, rb  outputs: the parts of the remainder
// Refusals in order: 22.
uint32_t etru_reduce_2(int64_t a, int64_t b, int32_t *ra, int32_t *rb);

// ---- Parameters

// Checks a parameter set. Each function below that is given one begins with this check, etru_write after the kind.
//   n     N, from ETRU_MIN_N to ETRU_MAX_N
//   c, d  q = c + dω, each from −ETRU_MODULUS_LIMIT to ETRU_MODULUS_LIMIT, not both even
//   s     the number of nonzero coefficients of g and of φ: a multiple of 3 from 3 to n
//   t     the number of nonzero coefficients of f: from 1 to n
// and 4 × (2s + t)² has to be below the norm of q, c² − cd + d².
// Refusals in order: 1, 2, 3, 4, 5, 6.
uint32_t etru_check_parameters(uint32_t n, int32_t c, int32_t d, uint32_t s, uint32_t t);

// ---- Convolution

// The product x × y reduced modulo q.
//   x, y  ETRU_ARRAY_NUMBERS(n) numbers each, reduced modulo q
//   out   output, ETRU_ARRAY_NUMBERS(n) numbers
// Refusals in order: 1 to 6; 7 for x, y or out; 12 for x or y.
uint32_t etru_convolve(uint32_t n, int32_t c, int32_t d, uint32_t s, uint32_t t,
                       const int32_t *x, size_t x_count, const int32_t *y, size_t y_count,
                       int32_t *out, size_t out_count);

// ---- Key check, sealing, opening
//
// With a key that etru_check_key accepts, any φ of its set and any message, sealing and opening refuse nothing, and
// opening gives exactly the message that was sealed.

// Checks a private key and gives its public key h = Fq × g reduced modulo q.
//   f   ETRU_ARRAY_NUMBERS(n) numbers: exactly t nonzero coefficients, each a unit
//   f2  ETRU_ARRAY_NUMBERS(n) numbers: F2, reduced modulo 2, with f × F2 congruent to 1 modulo 2
//   fq  ETRU_ARRAY_NUMBERS(n) numbers: Fq, reduced modulo q, with f × Fq congruent to 1 modulo q
//   g   ETRU_ARRAY_NUMBERS(n) numbers: exactly s nonzero coefficients, each a unit, in whole triples
//   h   output, ETRU_ARRAY_NUMBERS(n) numbers
// Refusals in order: 1 to 6; 7 for any of the five arrays; 8 for f; 11 for F2; 12 for Fq; 9 for g; 13; 14.
uint32_t etru_check_key(uint32_t n, int32_t c, int32_t d, uint32_t s, uint32_t t,
                        const int32_t *f, size_t f_count, const int32_t *f2, size_t f2_count,
                        const int32_t *fq, size_t fq_count, const int32_t *g, size_t g_count,
                        int32_t *h, size_t h_count);

// Seals a message: e = 2φ × h + m reduced modulo q, where m is the message as etru_pack gives it.
//   h        ETRU_ARRAY_NUMBERS(n) numbers: the public key, reduced modulo q
//   phi      ETRU_ARRAY_NUMBERS(n) numbers: the ephemeral φ, exactly s nonzero coefficients, each a unit, in whole
//            triples; the caller draws it for each message
//   message  ETRU_MESSAGE_BYTES(n) bytes, the spare bits zero
//   e        output, ETRU_ARRAY_NUMBERS(n) numbers
// Refusals in order: 1 to 6; 7 for h, phi, message or e; 12 for h; 10 for phi; 15 for message.
uint32_t etru_seal(uint32_t n, int32_t c, int32_t d, uint32_t s, uint32_t t,
                   const int32_t *h, size_t h_count, const int32_t *phi, size_t phi_count,
                   const uint8_t *message, size_t message_count, int32_t *e, size_t e_count);

// Opens a sealed array: f × e reduced modulo q, then F2 times that, reduced modulo 2, then unpacked.
// The inverse checks are not repeated: check the key once by etru_check_key, as a wrong F2 gives a wrong message.
//   f        ETRU_ARRAY_NUMBERS(n) numbers: exactly t nonzero coefficients, each a unit
//   f2       ETRU_ARRAY_NUMBERS(n) numbers: F2, reduced modulo 2
//   e        ETRU_ARRAY_NUMBERS(n) numbers: the sealed array, reduced modulo q
//   message  output, ETRU_MESSAGE_BYTES(n) bytes
// Refusals in order: 1 to 6; 7 for f, f2, e or message; 8 for f; 11 for F2; 12 for e.
uint32_t etru_open(uint32_t n, int32_t c, int32_t d, uint32_t s, uint32_t t,
                   const int32_t *f, size_t f_count, const int32_t *f2, size_t f2_count,
                   const int32_t *e, size_t e_count, uint8_t *message, size_t message_count);

// ---- An ephemeral as places
//
// An ephemeral φ can be lent as the list of its s nonzero coefficients, in any order: one record for each, with its
// place and the number of its unit. It spreads to the array that has these units at these places, and zeros elsewhere.

struct etru_placed_unit {
    uint32_t place;  // from 0 to n - 1
    uint32_t unit;   // from 0 to 5
};

// Seals a message: e is what etru_seal gives with the array that etru_spread_places gives.
//   h        ETRU_ARRAY_NUMBERS(n) numbers: the public key, reduced modulo q
//   places   s records: the ephemeral φ, no place twice, and the units in whole triples; the caller draws it for each
//            message
//   message  ETRU_MESSAGE_BYTES(n) bytes, the spare bits zero
//   e        output, ETRU_ARRAY_NUMBERS(n) numbers
// Refusals in order: 1 to 6; 7 for h, places, message or e; 12 for h; 23 for any record; 24; 10 for the units; 15 for
//   message.
uint32_t etru_seal_places(uint32_t n, int32_t c, int32_t d, uint32_t s, uint32_t t,
                          const int32_t *h, size_t h_count,
                          const struct etru_placed_unit *places, size_t places_count,
                          const uint8_t *message, size_t message_count, int32_t *e, size_t e_count);

// The full array of an ephemeral, as etru_seal takes it.
//   places  s records: no place twice, and the units in whole triples
//   phi     output, ETRU_ARRAY_NUMBERS(n) numbers
// Refusals in order: 1 to 6; 7 for places or phi; 23 for any record; 24; 10 for the units.
uint32_t etru_spread_places(uint32_t n, int32_t c, int32_t d, uint32_t s, uint32_t t,
                            const struct etru_placed_unit *places, size_t places_count,
                            int32_t *phi, size_t phi_count);

// ---- Short messages
//
// A short message is from 0 to ETRU_SHORT_MESSAGE_BYTES(n) whole bytes; the empty one tells the driver that the round
// has no stop left. It is sealed as the message of 2N bits that are its own bits, one 1 bit, and zeros. With a key that
// etru_check_key accepts it opens to exactly its own bytes and length, and two different short messages, the empty one
// among them, never seal alike. etru_open opens it too, to those 2N bits; and what etru_seal sealed opens as a short
// message where its 2N bits are those of one, and is refused by 27 otherwise.
// Its file is of kind ETRU_SHORT_FILE, read and written as a sealed file is; the opening program refuses it by 19.
//
// Whoever has the ephemeral as places spreads it first:
//
//     if (etru_spread_places(n, c, d, s, t, places, s, phi, array) == ETRU_OK) {
//         number = etru_seal_short(n, c, d, s, t, h, array, phi, array, code, code_bytes, e, array);
//     }
//
// With N = 3, q = 15, s = 3, t = 1 and h = φ = (1,0), (0,1), (−1,−1) the empty message, which is lent with a count of 0,
// is the bits 100000 and seals to (7,0), (0,6), (−6,−6); with f = F2 = 1 that opens to 0 bytes.

// Seals a short message: e is what etru_seal gives with its 2N bits.
//   h        ETRU_ARRAY_NUMBERS(n) numbers: the public key, reduced modulo q
//   phi      ETRU_ARRAY_NUMBERS(n) numbers: the ephemeral φ, exactly s nonzero coefficients, each a unit, in whole
//            triples; the caller draws it for each message
//   message  from 0 to ETRU_SHORT_MESSAGE_BYTES(n) bytes
//   e        output, ETRU_ARRAY_NUMBERS(n) numbers
// Refusals in order: 1 to 6; 7 for h, phi or e; 12 for h; 10 for phi; 26 if message is too long.
uint32_t etru_seal_short(uint32_t n, int32_t c, int32_t d, uint32_t s, uint32_t t,
                         const int32_t *h, size_t h_count, const int32_t *phi, size_t phi_count,
                         const uint8_t *message, size_t message_count, int32_t *e, size_t e_count);

// Opens a sealed array as a short message. As for etru_open, check the key once by etru_check_key.
//   f        ETRU_ARRAY_NUMBERS(n) numbers: exactly t nonzero coefficients, each a unit
//   f2       ETRU_ARRAY_NUMBERS(n) numbers: F2, reduced modulo 2
//   e        ETRU_ARRAY_NUMBERS(n) numbers: the sealed array, reduced modulo q
//   message  output, ETRU_SHORT_MESSAGE_BYTES(n) bytes: the short message at its front, and the rest is left as it came
//   used     output: the length of the short message, which may be 0
// Refusals in order: 1 to 6; 7 for f, f2, e or message; 8 for f; 11 for F2; 12 for e; 27 if what is opened is not a
//   short message.
uint32_t etru_open_short(uint32_t n, int32_t c, int32_t d, uint32_t s, uint32_t t,
                         const int32_t *f, size_t f_count, const int32_t *f2, size_t f2_count,
                         const int32_t *e, size_t e_count, uint8_t *message, size_t message_count, size_t *used);

// ---- Message bits

// The polynomial that a message stands for: bits a then b are coefficient (a, b), but 11 is (−1,−1).
//   message  ETRU_MESSAGE_BYTES(n) bytes, the spare bits zero
//   m        output, ETRU_ARRAY_NUMBERS(n) numbers, reduced modulo 2
// Refusals in order: 1; 7 for message or m; 15 for message.
uint32_t etru_pack(uint32_t n, const uint8_t *message, size_t message_count, int32_t *m, size_t m_count);

// The message that a polynomial stands for, the other way round.
//   m        ETRU_ARRAY_NUMBERS(n) numbers, reduced modulo 2
//   message  output, ETRU_MESSAGE_BYTES(n) bytes, the spare bits zero
// Refusals in order: 1; 7 for m or message; 11 for m.
uint32_t etru_unpack(uint32_t n, const int32_t *m, size_t m_count, uint8_t *message, size_t message_count);

// ---- Files
//
// A head of 16 bytes (EIZ, version 1, the kind, and N, c, d, s, t), then the arrays of the kind, as signed 16-bit
// numbers; all numbers are big-endian. The numbers of all arrays are lent at once, one array after another in stored
// order: in those of a private file f begins at 0, F2 at 2N, Fq at 4N and g at 6N.
// A bundle is not made of arrays alone, and has calls of its own below.

// The parameters of a file, from its head alone; they tell how long the file is, and how many numbers etru_read gives.
// Of a bundle they do not: etru_read_bundle_head gives its count too.
//   kind           the kind wanted, from 1 to 5
//   file           the file, or its first 16 bytes or more: only those are looked at
//   n, c, d, s, t  outputs: an accepted parameter set
// Refusals in order: 16, 17, 18; 19 if the kind wanted is not 1 to 5, or the file's is another; 1 to 6.
uint32_t etru_read_head(uint32_t kind, const uint8_t *file, size_t file_count,
                        uint32_t *n, int32_t *c, int32_t *d, uint32_t *s, uint32_t *t);

// The numbers of a file. Each array is checked by its own set; whether F2 and Fq are inverses of f is left to
// etru_check_key. With n from the file's own head:
//   kind     the kind wanted: ETRU_PUBLIC_FILE, ETRU_PRIVATE_FILE, ETRU_SEALED_FILE or ETRU_SHORT_FILE
//   file     the whole file and no more: ETRU_PUBLIC_FILE_BYTES(n), ETRU_PRIVATE_FILE_BYTES(n),
//            ETRU_SEALED_FILE_BYTES(n) or ETRU_SHORT_FILE_BYTES(n) bytes
//   numbers  output: ETRU_PUBLIC_FILE_NUMBERS(n), ETRU_PRIVATE_FILE_NUMBERS(n), ETRU_SEALED_FILE_NUMBERS(n) or
//            ETRU_SHORT_FILE_NUMBERS(n) numbers
// Refusals in order: 16, 17, 18; 19 as for etru_read_head; 1 to 6; 7 for file or numbers, and always where a bundle is
//   wanted; then of a public file 12 for h; of a private file 8 for f, 11 for F2, 12 for Fq, 9 for g; of a sealed file
//   or that of a short message 12 for e.
uint32_t etru_read(uint32_t kind, const uint8_t *file, size_t file_count, int32_t *numbers, size_t numbers_count);

// A file of these parameters and numbers, which etru_read reads back to the same.
//   kind     ETRU_PUBLIC_FILE, ETRU_PRIVATE_FILE, ETRU_SEALED_FILE or ETRU_SHORT_FILE
//   numbers  ETRU_PUBLIC_FILE_NUMBERS(n), ETRU_PRIVATE_FILE_NUMBERS(n), ETRU_SEALED_FILE_NUMBERS(n) or
//            ETRU_SHORT_FILE_NUMBERS(n) numbers
//   file     output: ETRU_PUBLIC_FILE_BYTES(n), ETRU_PRIVATE_FILE_BYTES(n), ETRU_SEALED_FILE_BYTES(n) or
//            ETRU_SHORT_FILE_BYTES(n) bytes
// Refusals in order: 19 if kind is not 1 to 5; 1 to 6; 7 for numbers or file, and always for a bundle; then as for
//   etru_read, array by array.
uint32_t etru_write(uint32_t kind, uint32_t n, int32_t c, int32_t d, uint32_t s, uint32_t t,
                    const int32_t *numbers, size_t numbers_count, uint8_t *file, size_t file_count);

// ---- Bundles
//
// A bundle has the sealed arrays of a round in one file: a head of kind 4, a count, then so many entries, each a stop
// number, which no other entry has, and a sealed array. A count of 0 is allowed, and the order of the entries is open.
//
// It is read where it stands. etru_begin_bundle makes every check once; etru_next_entry then tells, entry by entry, the
// stop and where in the file the sealed array is, and etru_open_entry opens that part of the file:
//
//     if (etru_begin_bundle(file, file_count, &at) == ETRU_OK) {
//         while (etru_next_entry(file, file_count, &at, &stop, &part)) {
//             // the sealed array of stop: the ETRU_PART_BYTES(n) bytes from file + part on
//         }
//     }
//
// Walk by etru_next_entry, and do not compute where an entry stands: later versions of the file may have longer heads
// and wider stops. The lengths above are those of version 1.

// The parameters and the count of a bundle, which tell what to lend to the other calls. The entries are not checked.
//   file           the whole bundle and no more: ETRU_BUNDLE_FILE_BYTES(n, count) bytes
//   n, c, d, s, t  outputs: an accepted parameter set
//   count          output: how many entries there are
// Refusals in order: 16, 17, 18; 19 if the file's kind is not 4; 1 to 6; 7 if the file has not as many bytes as its
//   count says, or more than ETRU_MAX_BUNDLE_BYTES.
uint32_t etru_read_bundle_head(const uint8_t *file, size_t file_count,
                               uint32_t *n, int32_t *c, int32_t *d, uint32_t *s, uint32_t *t, uint32_t *count);

// Checks a whole bundle, and tells where its first entry stands.
//   file  the whole bundle and no more
//   at    output: where etru_next_entry begins
// Refusals in order: as for etru_read_bundle_head; 25 if a stop occurs twice; 12 for each array in stored order.
uint32_t etru_begin_bundle(const uint8_t *file, size_t file_count, size_t *at);

// One step through a bundle that etru_begin_bundle did not refuse. Returns 1 if an entry stands at `at`, and then
// writes all three; returns 0 past the last entry, however often it is asked, and then writes nothing.
//   file  the bundle, as it was lent to etru_begin_bundle
//   at    input and output: where an entry stands, and then where the next one does
//   stop  output: the entry's stop number, below 65,536
//   part  output: where in the file its sealed array begins, which has ETRU_PART_BYTES(n) bytes
// Any bytes and any `at` may be given, and nothing outside of the file is told: with N what bytes 6 and 7 hold, where a
// missing byte is 0, an entry stands at `at` if the file has ETRU_ENTRY_BYTES(N) bytes or more from there on.
uint32_t etru_next_entry(const uint8_t *file, size_t file_count, size_t *at, uint32_t *stop, size_t *part);

// Opens an entry: gives what etru_open gives with the numbers of its sealed array. As there, check the key once by
// etru_check_key. A part that etru_next_entry told of a bundle that etru_begin_bundle did not refuse is not refused by 7
// or 12, with the bundle's own parameters.
//   f        ETRU_ARRAY_NUMBERS(n) numbers: exactly t nonzero coefficients, each a unit
//   f2       ETRU_ARRAY_NUMBERS(n) numbers: F2, reduced modulo 2
//   part     ETRU_PART_BYTES(n) bytes: the sealed array, reduced modulo q
//   message  output, ETRU_MESSAGE_BYTES(n) bytes
// Refusals in order: 1 to 6; 7 for f, f2, part or message; 8 for f; 11 for F2; 12 for part.
uint32_t etru_open_entry(uint32_t n, int32_t c, int32_t d, uint32_t s, uint32_t t,
                         const int32_t *f, size_t f_count, const int32_t *f2, size_t f2_count,
                         const uint8_t *part, size_t part_count, uint8_t *message, size_t message_count);

// The stops and arrays of a bundle, all at once. With n and count from etru_read_bundle_head:
//   file     the whole bundle and no more
//   stops    output: count numbers below 65,536, the stops in stored order
//   numbers  output: ETRU_BUNDLE_FILE_NUMBERS(n, count) numbers, the arrays in the same order, one after another
// Refusals in order: as for etru_read_bundle_head, with 7 also for stops or numbers; 25 if a stop occurs twice; 12 for
//   each array in stored order.
uint32_t etru_read_bundle(const uint8_t *file, size_t file_count, uint32_t *stops, size_t stops_count,
                          int32_t *numbers, size_t numbers_count);

// A bundle of these parameters, stops and arrays, in the order given; etru_read_bundle reads it back to the same.
//   stops    up to ETRU_MAX_BUNDLE_ENTRIES(n) numbers, no one twice
//   numbers  ETRU_BUNDLE_FILE_NUMBERS(n, stops_count) numbers: the sealed arrays, one after another, reduced modulo q
//   file     output: ETRU_BUNDLE_FILE_BYTES(n, stops_count) bytes, at most ETRU_MAX_BUNDLE_BYTES
// Refusals in order: 1 to 6; 7 for numbers or file; 25 if a stop occurs twice; 12 for each array in order.
uint32_t etru_write_bundle(uint32_t n, int32_t c, int32_t d, uint32_t s, uint32_t t,
                           const uint16_t *stops, size_t stops_count, const int32_t *numbers, size_t numbers_count,
                           uint8_t *file, size_t file_count);

// ---- The opening program

// The opening program's work. The line is a refusal number in decimal (0 if none), a space, the message in uppercase
// hexadecimal or a hyphen after a refusal, and a newline; no zero byte follows. Every input has its line, so 0 is
// returned also where the line tells a refusal.
//   input  a private file and directly after it a sealed file; any bytes, of any count
//   line   output, ETRU_LINE_BYTES bytes: the line at its front, and the rest is left as it came
//   used   output: the length of the line
// Refusals in order: 7 for line.
// The number in the line is the first that applies of: all that etru_read refuses of the first file, which is as long
//   as its own head says (input that ends within its arrays is 7); all that etru_read refuses of the rest as a sealed
//   file; 20; 13; 14.
uint32_t etru_open_files(const uint8_t *input, size_t input_count, uint8_t *line, size_t line_count, size_t *used);

#ifdef __cplusplus
}
#endif

#endif
