//! Document 01's own lines, with the results as it states them; the line that is sealed, from places
//! and in a bundle too.

use etru::{Bundle, BundleHead, Kind, Pair, Parameters, PlacedUnit};

use crate::calls::numbered;
use crate::definitions::{multiply, norm, UNITS};

/// N = 3, q = 15, s = 3, t = 1.
pub const SMALL: Parameters = Parameters {
    n: 3,
    c: 15,
    d: 0,
    s: 3,
    t: 1,
};

/// f = F2 = Fq.
pub const ONE: [i32; 6] = [1, 0, 0, 0, 0, 0];

/// g = φ, and so h: (1,0),(0,1),(−1,−1).
pub const TRIPLE: [i32; 6] = [1, 0, 0, 1, -1, -1];

/// φ as places.
pub const PLACES: [PlacedUnit; 3] = [
    PlacedUnit { place: 0, unit: 0 },
    PlacedUnit { place: 1, unit: 2 },
    PlacedUnit { place: 2, unit: 4 },
];

/// Message byte B0, sealed.
pub const SEALED: [i32; 6] = [7, 0, -1, 5, -6, -6];

pub const SEALED_FILE: [u8; 28] = [
    0x45, 0x49, 0x5A, 0x00, 0x01, 0x03, 0x00, 0x03, 0x00, 0x0F, 0x00, 0x00, 0x00, 0x03, 0x00, 0x01,
    0x00, 0x07, 0x00, 0x00, 0xFF, 0xFF, 0x00, 0x05, 0xFF, 0xFA, 0xFF, 0xFA,
];

/// The sealed array in a bundle, for stops 65,535 and 7.
pub const BUNDLE_FILE: [u8; 46] = [
    0x45, 0x49, 0x5A, 0x00, 0x01, 0x04, 0x00, 0x03, 0x00, 0x0F, 0x00, 0x00, 0x00, 0x03, 0x00, 0x01,
    0x00, 0x02, 0xFF, 0xFF, 0x00, 0x07, 0x00, 0x00, 0xFF, 0xFF, 0x00, 0x05, 0xFF, 0xFA, 0xFF, 0xFA,
    0x00, 0x07, 0x00, 0x07, 0x00, 0x00, 0xFF, 0xFF, 0x00, 0x05, 0xFF, 0xFA, 0xFF, 0xFA,
];

/// The 64-byte file of the key with f = 1.
pub fn private_file() -> Vec<u8> {
    let mut file = vec![0; 64];
    let numbers = [ONE, ONE, ONE, TRIPLE].concat();
    etru::write(Kind::Private, SMALL, &numbers, &mut file).expect("it is a private key");
    file
}

fn line(input: &[u8]) -> String {
    let mut room = [0; etru::LINE_BYTES];
    let line = etru::open_files(input, &mut room).expect("515 bytes are lent");
    String::from_utf8(line.to_vec()).expect("a line is ASCII")
}

fn number(n: u32, c: i32, d: i32, s: u32, t: u32) -> u32 {
    numbered(Parameters { n, c, d, s, t }.check())
        .err()
        .unwrap_or(0)
}

#[test]
fn three_values_share_norm_3() {
    assert_eq!(etru::reduce_q(1, -1, 3, 0), Ok(Pair { a: 1, b: 2 }));
}

#[test]
fn a_tie_modulo_15() {
    assert_eq!(etru::reduce_q(7, 8, 15, 0), Ok(Pair { a: 7, b: 8 }));
    assert_eq!(etru::reduce_q(-8, -7, 15, 0), Ok(Pair { a: 7, b: 8 }));
    assert_eq!(norm((7, 8)), 57);
    assert_eq!(norm((-8, -7)), 57);
}

#[test]
fn numbers_7_and_8_modulo_15() {
    assert_eq!(etru::reduce_q(7, 0, 15, 0), Ok(Pair { a: 7, b: 0 }));
    assert_eq!(etru::reduce_q(8, 0, 15, 0), Ok(Pair { a: -7, b: 0 }));
}

#[test]
fn values_modulo_2() {
    assert_eq!(etru::reduce_2(1, 1), Ok(Pair { a: -1, b: -1 }));
    assert_eq!(etru::reduce_2(-1, 0), Ok(Pair { a: 1, b: 0 }));
}

/// The library gives no norm, but a norm is the least multiple in ℕ of a value whose parts have no
/// common divisor.
#[test]
fn norms_of_two_moduli() {
    assert_eq!(norm((11, 86)), 6571);
    assert_eq!(norm((0, 81)), 6561);
    let zero = Ok(Pair { a: 0, b: 0 });
    let least = (1..=6571).find(|&k| etru::reduce_q(k, 0, 11, 86) == zero);
    assert_eq!(least, Some(6571));
}

#[test]
fn products_of_units() {
    let constant = |(a, b): (i64, i64)| [a as i32, b as i32, 0, 0, 0, 0];
    for (j, &unit) in UNITS.iter().enumerate() {
        for (k, &other) in UNITS.iter().enumerate() {
            let product = UNITS[(j + k) % 6];
            assert_eq!(multiply(unit, other), product);
            let mut out = [77; 6];
            let given = etru::convolve(SMALL, &constant(unit), &constant(other), &mut out);
            assert_eq!(given, Ok(()));
            assert_eq!(out, constant(product));
        }
    }
}

#[test]
fn the_smallest_parameter_set() {
    assert_eq!(number(3, 15, 0, 3, 1), 0);
    assert_eq!(Parameters::new(3, 15, 0, 3, 1), Ok(SMALL));
    assert_eq!(number(3, 15, 0, 3, 2), 6);
}

#[test]
fn the_largest_t_at_n_17() {
    assert_eq!(number(17, 11, 86, 12, 16), 0);
    assert_eq!(number(17, 11, 86, 12, 17), 6);
}

#[test]
fn parameters_out_of_range() {
    assert_eq!(number(2, 15, 0, 3, 1), 1);
    assert_eq!(number(1025, 15, 0, 3, 1), 1);
    assert_eq!(number(3, 4, 6, 3, 1), 3);
    assert_eq!(number(3, 15, 0, 0, 1), 4);
}

#[test]
fn h_is_g() {
    let mut h = [77; 6];
    let given = etru::check_key(SMALL, &ONE, &ONE, &ONE, &TRIPLE, &mut h);
    assert_eq!(given, Ok(()));
    assert_eq!(h, TRIPLE);
}

#[test]
fn b0_seals_and_opens() {
    let mut e = [77; 6];
    assert_eq!(etru::seal(SMALL, &TRIPLE, &TRIPLE, &[0xB0], &mut e), Ok(()));
    assert_eq!(e, SEALED);
    let mut message = [77];
    assert_eq!(etru::open(SMALL, &ONE, &ONE, &e, &mut message), Ok(()));
    assert_eq!(message, [0xB0]);
}

/// "Sealing from this list must give what sealing from the full array gives", and "their order is
/// open".
#[test]
fn b0_seals_from_places_in_every_order() {
    for order in [
        [0, 1, 2],
        [0, 2, 1],
        [1, 0, 2],
        [1, 2, 0],
        [2, 0, 1],
        [2, 1, 0],
    ] {
        let places = order.map(|k| PLACES[k]);
        let mut e = [77; 6];
        let given = etru::seal_places(SMALL, &TRIPLE, &places, &[0xB0], &mut e);
        assert_eq!(given, Ok(()));
        assert_eq!(e, SEALED);
        let mut phi = [77; 6];
        assert_eq!(etru::spread_places(SMALL, &places, &mut phi), Ok(()));
        assert_eq!(phi, TRIPLE);
    }
}

#[test]
fn b0_opens_with_f_at_x() {
    let f = [0, 0, 0, 1, 0, 0];
    let f2 = [0, 0, 0, 0, -1, -1];
    let mut message = [77];
    assert_eq!(etru::open(SMALL, &f, &f2, &SEALED, &mut message), Ok(()));
    assert_eq!(message, [0xB0]);
}

#[test]
fn the_sealed_file() {
    let mut file = [77; 28];
    assert_eq!(etru::write(Kind::Sealed, SMALL, &SEALED, &mut file), Ok(()));
    assert_eq!(file, SEALED_FILE);
    assert_eq!(etru::read_head(Kind::Sealed, &file), Ok(SMALL));
    let mut e = [77; 6];
    assert_eq!(etru::read(Kind::Sealed, &file, &mut e), Ok(()));
    assert_eq!(e, SEALED);
}

/// "a 16-bit count, then that many entries: a 16-bit stop number and a sealed array of 4N bytes"
#[test]
fn the_bundle_of_the_sealed_array() {
    let numbers = [SEALED, SEALED].concat();
    let mut file = [77; 46];
    let written = etru::write_bundle(SMALL, &[65_535, 7], &numbers, &mut file);
    assert_eq!(written, Ok(()));
    assert_eq!(file, BUNDLE_FILE);
    let head = BundleHead {
        parameters: SMALL,
        count: 2,
    };
    assert_eq!(etru::read_bundle_head(&file), Ok(head));
    assert_eq!(etru::read_head(Kind::Bundle, &file), Ok(SMALL));
    let (mut stops, mut read) = ([77; 2], [77; 12]);
    assert_eq!(etru::read_bundle(&file, &mut stops, &mut read), Ok(()));
    assert_eq!((stops, &read[..]), ([65_535, 7], &numbers[..]));

    let bundle = Bundle::new(&file).expect("it is a bundle");
    assert_eq!((bundle.parameters(), bundle.len()), (SMALL, 2));
    for (entry, stop) in bundle.entries().zip([65_535, 7]) {
        assert_eq!(entry.stop, stop);
        assert_eq!(entry.part, &SEALED_FILE[16..]);
        let mut message = [77];
        let opened = etru::open_entry(SMALL, &ONE, &ONE, entry.part, &mut message);
        assert_eq!((opened, message), (Ok(()), [0xB0]));
    }
}

#[test]
fn a_bundle_of_no_entries() {
    let mut file = [77; 18];
    assert_eq!(etru::write_bundle(SMALL, &[], &[], &mut file), Ok(()));
    assert_eq!(file[..16], BUNDLE_FILE[..16]);
    assert_eq!(file[16..], [0, 0]);
    let bundle = Bundle::new(&file).expect("a count of 0 is allowed");
    assert!(bundle.is_empty());
    assert_eq!(bundle.entries().next(), None);
    assert_eq!(etru::read_bundle(&file, &mut [], &mut []), Ok(()));
}

#[test]
fn the_line_of_the_program() {
    assert_eq!(
        line(&[&private_file()[..], &SEALED_FILE].concat()),
        "0 B0\n"
    );
}

/// "Input that ends within the first file's arrays is 7." Input that ends with the first file has
/// no second head.
#[test]
fn input_that_ends_too_early() {
    assert_eq!(line(&private_file()[..15]), "16 -\n");
    assert_eq!(line(&private_file()[..16]), "7 -\n");
    assert_eq!(line(&private_file()[..63]), "7 -\n");
    assert_eq!(line(&private_file()), "16 -\n");
}

#[test]
fn bits_11_are_not_packed_by_the_tie_rule() {
    let mut m = [77; 6];
    assert_eq!(etru::pack(3, &[0b1101_1000], &mut m), Ok(()));
    assert_eq!(m, [-1, -1, 0, 1, 1, 0]);
    let mut message = [77];
    assert_eq!(etru::unpack(3, &m, &mut message), Ok(()));
    assert_eq!(message, [0b1101_1000]);
}

#[test]
fn a_convolution_wraps_without_a_sign_change() {
    let mut out = [77; 6];
    let (x, y) = ([0, 0, 1, 0, 0, 0], [0, 0, 0, 0, 0, 1]);
    assert_eq!(etru::convolve(SMALL, &x, &y, &mut out), Ok(()));
    assert_eq!(out, [0, 1, 0, 0, 0, 0]);
}

#[test]
fn the_largest_parts_of_a_value_and_of_q() {
    let limit = 1 << 40;
    assert!(etru::reduce_q(limit, -limit, 4095, -4095).is_ok());
    assert!(etru::reduce_2(limit, -limit).is_ok());
    assert_eq!(numbered(etru::reduce_q(limit + 1, 0, 15, 0)), Err(22));
    assert_eq!(numbered(etru::reduce_q(0, -limit - 1, 15, 0)), Err(22));
    assert_eq!(numbered(etru::reduce_q(0, 0, 4096, 0)), Err(2));
    assert_eq!(numbered(etru::reduce_q(0, 0, 0, -4096)), Err(2));
}
