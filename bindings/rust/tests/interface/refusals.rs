//! Each refusal of the documents: its name, its number, and outputs left as they came.

use std::fmt::Debug;

use etru::{Bundle, Error, Kind, Parameters, PlacedUnit, Refusal};

use crate::document_01::{
    private_file, BUNDLE_FILE, ONE, PLACES, SEALED, SEALED_FILE, SMALL, TRIPLE,
};
use crate::short_messages::{EMPTY, FIVE, FIVE_ONE, FIVE_TRIPLE, SHORT_FILE};

fn is_refused<T: Debug + PartialEq>(given: Result<T, Error>, refusal: Refusal, number: u32) {
    assert_eq!(given, Err(Error::Refused(refusal)));
    assert_eq!(refusal.number(), number);
    assert_eq!(Refusal::from_number(number), Some(refusal));
    let error: Box<dyn std::error::Error> = Box::new(refusal);
    assert!(error
        .to_string()
        .starts_with(&format!("refusal {number}: ")));
}

/// Sealing from places and spreading refuse a list alike.
fn seal_and_spread_are_refused(places: &[PlacedUnit], refusal: Refusal, number: u32) {
    let mut out = [77; 6];
    is_refused(
        etru::seal_places(SMALL, &TRIPLE, places, &[0xB0], &mut out),
        refusal,
        number,
    );
    is_refused(
        etru::spread_places(SMALL, places, &mut out),
        refusal,
        number,
    );
    assert_eq!(out, [77; 6]);
}

/// Making a bundle and reading it refuse bytes alike.
fn bundle_is_refused(file: &[u8], refusal: Refusal, number: u32) {
    is_refused(Bundle::new(file).map(|_| ()), refusal, number);
    let (mut stops, mut numbers) = ([77; 2], [77; 12]);
    let read = etru::read_bundle(file, &mut stops, &mut numbers);
    is_refused(read, refusal, number);
    assert_eq!((stops, numbers), ([77; 2], [77; 12]));
}

/// What is refused of the head is refused with the whole bundle too.
fn bundle_head_is_refused(file: &[u8], refusal: Refusal, number: u32) {
    is_refused(etru::read_bundle_head(file), refusal, number);
    bundle_is_refused(file, refusal, number);
}

/// The bundle with some bytes changed, from one place on.
fn bundle_but(place: usize, bytes: &[u8]) -> [u8; 46] {
    let mut file = BUNDLE_FILE;
    file[place..place + bytes.len()].copy_from_slice(bytes);
    file
}

fn places(places: [u32; 3], units: [u32; 3]) -> [PlacedUnit; 3] {
    [0, 1, 2].map(|k| PlacedUnit {
        place: places[k],
        unit: units[k],
    })
}

/// Each call on a parameter set refuses it alike.
fn parameters_are_refused(p: Parameters, refusal: Refusal, number: u32) {
    is_refused(p.check(), refusal, number);
    is_refused(Parameters::new(p.n, p.c, p.d, p.s, p.t), refusal, number);
    let mut numbers = [77; 6];
    is_refused(
        etru::convolve(p, &ONE, &TRIPLE, &mut numbers),
        refusal,
        number,
    );
    is_refused(
        etru::check_key(p, &ONE, &ONE, &ONE, &TRIPLE, &mut numbers),
        refusal,
        number,
    );
    is_refused(
        etru::seal(p, &TRIPLE, &TRIPLE, &[0xB0], &mut numbers),
        refusal,
        number,
    );
    is_refused(
        etru::seal_places(p, &TRIPLE, &PLACES, &[0xB0], &mut numbers),
        refusal,
        number,
    );
    is_refused(
        etru::spread_places(p, &PLACES, &mut numbers),
        refusal,
        number,
    );
    is_refused(
        etru::seal_short(p, &TRIPLE, &TRIPLE, &[], &mut numbers),
        refusal,
        number,
    );
    assert_eq!(numbers, [77; 6]);
    is_refused(
        etru::open_short(p, &ONE, &ONE, &EMPTY, &mut []),
        refusal,
        number,
    );
    let mut message = [77];
    is_refused(
        etru::open(p, &ONE, &ONE, &SEALED, &mut message),
        refusal,
        number,
    );
    is_refused(
        etru::open_entry(p, &ONE, &ONE, &SEALED_FILE[16..], &mut message),
        refusal,
        number,
    );
    assert_eq!(message, [77]);
    let mut file = [77; 28];
    for kind in [Kind::Sealed, Kind::Bundle, Kind::Short] {
        is_refused(etru::write(kind, p, &SEALED, &mut file), refusal, number);
    }
    is_refused(
        etru::write_bundle(p, &[1], &SEALED, &mut file),
        refusal,
        number,
    );
    assert_eq!(file, [77; 28]);
}

#[test]
fn refusal_01_coefficient_count_out_of_range() {
    let refusal = Refusal::CoefficientCountOutOfRange;
    for n in [0, 2, 1025, u32::MAX] {
        parameters_are_refused(Parameters { n, ..SMALL }, refusal, 1);
        let mut m = [77; 6];
        is_refused(etru::pack(n, &[0xB0], &mut m), refusal, 1);
        assert_eq!(m, [77; 6]);
        let mut message = [77];
        is_refused(etru::unpack(n, &ONE, &mut message), refusal, 1);
        assert_eq!(message, [77]);
    }
}

#[test]
fn refusal_02_modulus_part_out_of_range() {
    let refusal = Refusal::ModulusPartOutOfRange;
    for part in [4096, -4096, i32::MAX, i32::MIN] {
        parameters_are_refused(Parameters { c: part, ..SMALL }, refusal, 2);
        parameters_are_refused(Parameters { d: part, ..SMALL }, refusal, 2);
        is_refused(etru::reduce_q(7, 8, part, 0), refusal, 2);
        is_refused(etru::reduce_q(7, 8, 0, part), refusal, 2);
    }
}

#[test]
fn refusal_03_modulus_parts_both_even() {
    let p = Parameters {
        c: 4,
        d: 6,
        ..SMALL
    };
    parameters_are_refused(p, Refusal::ModulusPartsBothEven, 3);
}

#[test]
fn refusal_04_s_out_of_range() {
    for s in [0, 1, 2, 4, 6, u32::MAX] {
        parameters_are_refused(Parameters { s, ..SMALL }, Refusal::SOutOfRange, 4);
    }
}

#[test]
fn refusal_05_t_out_of_range() {
    for t in [0, 4, u32::MAX] {
        parameters_are_refused(Parameters { t, ..SMALL }, Refusal::TOutOfRange, 5);
    }
}

#[test]
fn refusal_06_bound_not_below_norm() {
    for t in [2, 3] {
        parameters_are_refused(Parameters { t, ..SMALL }, Refusal::BoundNotBelowNorm, 6);
    }
    // 196 is above the norm 169
    let p = Parameters { c: 13, ..SMALL };
    parameters_are_refused(p, Refusal::BoundNotBelowNorm, 6);
}

/// The slices of wrong length are empty too, whose pointers point to nothing.
#[test]
fn refusal_07_wrong_length() {
    let refusal = Refusal::WrongLength;
    let long = [0; 8];
    let bytes = [0xB0, 0];
    for length in [0, 5, 7, 8] {
        let wrong = &long[..length];
        let mut out = [77; 6];
        is_refused(etru::convolve(SMALL, wrong, &ONE, &mut out), refusal, 7);
        is_refused(etru::convolve(SMALL, &ONE, wrong, &mut out), refusal, 7);
        is_refused(
            etru::check_key(SMALL, wrong, &ONE, &ONE, &TRIPLE, &mut out),
            refusal,
            7,
        );
        is_refused(
            etru::check_key(SMALL, &ONE, wrong, &ONE, &TRIPLE, &mut out),
            refusal,
            7,
        );
        is_refused(
            etru::check_key(SMALL, &ONE, &ONE, wrong, &TRIPLE, &mut out),
            refusal,
            7,
        );
        is_refused(
            etru::check_key(SMALL, &ONE, &ONE, &ONE, wrong, &mut out),
            refusal,
            7,
        );
        is_refused(
            etru::seal(SMALL, wrong, &TRIPLE, &[0xB0], &mut out),
            refusal,
            7,
        );
        is_refused(
            etru::seal(SMALL, &TRIPLE, wrong, &[0xB0], &mut out),
            refusal,
            7,
        );
        is_refused(
            etru::seal_places(SMALL, wrong, &PLACES, &[0xB0], &mut out),
            refusal,
            7,
        );
        assert_eq!(out, [77; 6]);
        let mut message = [77];
        is_refused(
            etru::open(SMALL, wrong, &ONE, &SEALED, &mut message),
            refusal,
            7,
        );
        is_refused(
            etru::open(SMALL, &ONE, wrong, &SEALED, &mut message),
            refusal,
            7,
        );
        is_refused(
            etru::open(SMALL, &ONE, &ONE, wrong, &mut message),
            refusal,
            7,
        );
        is_refused(etru::unpack(3, wrong, &mut message), refusal, 7);
        assert_eq!(message, [77]);
        let mut file = [77; 28];
        is_refused(
            etru::write(Kind::Sealed, SMALL, wrong, &mut file),
            refusal,
            7,
        );
        assert_eq!(file, [77; 28]);

        let mut out = vec![77; length];
        is_refused(etru::convolve(SMALL, &ONE, &TRIPLE, &mut out), refusal, 7);
        is_refused(
            etru::check_key(SMALL, &ONE, &ONE, &ONE, &TRIPLE, &mut out),
            refusal,
            7,
        );
        is_refused(
            etru::seal(SMALL, &TRIPLE, &TRIPLE, &[0xB0], &mut out),
            refusal,
            7,
        );
        is_refused(
            etru::seal_places(SMALL, &TRIPLE, &PLACES, &[0xB0], &mut out),
            refusal,
            7,
        );
        is_refused(etru::spread_places(SMALL, &PLACES, &mut out), refusal, 7);
        is_refused(etru::pack(3, &[0xB0], &mut out), refusal, 7);
        is_refused(etru::read(Kind::Sealed, &SEALED_FILE, &mut out), refusal, 7);
        assert_eq!(out, vec![77; length]);
    }
    for length in [0, 2] {
        let wrong = &bytes[..length];
        let mut out = [77; 6];
        is_refused(
            etru::seal(SMALL, &TRIPLE, &TRIPLE, wrong, &mut out),
            refusal,
            7,
        );
        is_refused(
            etru::seal_places(SMALL, &TRIPLE, &PLACES, wrong, &mut out),
            refusal,
            7,
        );
        is_refused(etru::pack(3, wrong, &mut out), refusal, 7);
        assert_eq!(out, [77; 6]);
        let mut message = vec![77; length];
        is_refused(
            etru::open(SMALL, &ONE, &ONE, &SEALED, &mut message),
            refusal,
            7,
        );
        is_refused(etru::unpack(3, &ONE, &mut message), refusal, 7);
        assert_eq!(message, vec![77; length]);
    }
    let records = [PLACES, PLACES].concat();
    for length in [0, 1, 2, 4, 6] {
        seal_and_spread_are_refused(&records[..length], refusal, 7);
    }
    for length in [0, 16, 27, 29] {
        let mut file = vec![77; length];
        is_refused(
            etru::write(Kind::Sealed, SMALL, &SEALED, &mut file),
            refusal,
            7,
        );
        assert_eq!(file, vec![77; length]);
    }
    let mut out = [77; 6];
    is_refused(
        etru::read(Kind::Sealed, &SEALED_FILE[..27], &mut out),
        refusal,
        7,
    );
    is_refused(
        etru::read(Kind::Sealed, &[&SEALED_FILE[..], &[0]].concat(), &mut out),
        refusal,
        7,
    );
    assert_eq!(out, [77; 6]);
    for length in [0, 514, 516] {
        let mut line = vec![77; length];
        is_refused(etru::open_files(&[], &mut line), refusal, 7);
        assert_eq!(line, vec![77; length]);
    }
}

/// Refusal 7 of short messages, for all but the length of the message that is sealed.
#[test]
fn wrong_lengths_of_short_messages() {
    let refusal = Refusal::WrongLength;
    for length in [0, 6, 9, 11, 12] {
        let wrong = &[0; 12][..length];
        let mut e = [77; 10];
        for [h, phi] in [[wrong, &FIVE_TRIPLE], [&FIVE_TRIPLE, wrong]] {
            let given = etru::seal_short(FIVE, h, phi, &[0xB0], &mut e);
            is_refused(given, refusal, 7);
        }
        assert_eq!(e, [77; 10]);
        let mut message = [77];
        for [f, f2, e] in [
            [wrong, &FIVE_ONE, &FIVE_ONE],
            [&FIVE_ONE, wrong, &FIVE_ONE],
            [&FIVE_ONE, &FIVE_ONE, wrong],
        ] {
            let given = etru::open_short(FIVE, f, f2, e, &mut message);
            is_refused(given, refusal, 7);
        }
        assert_eq!(message, [77]);

        let mut e = vec![77; length];
        let given = etru::seal_short(FIVE, &FIVE_TRIPLE, &FIVE_TRIPLE, &[0xB0], &mut e);
        is_refused(given, refusal, 7);
        assert_eq!(e, vec![77; length]);
    }
    // opening in full writes 2 bytes
    for length in [0, 2, 3, 10] {
        let mut message = vec![77; length];
        let given = etru::open_short(FIVE, &FIVE_ONE, &FIVE_ONE, &FIVE_ONE, &mut message);
        is_refused(given, refusal, 7);
        assert_eq!(message, vec![77; length]);
    }
    let mut message = [77];
    let given = etru::open_short(SMALL, &ONE, &ONE, &EMPTY, &mut message);
    is_refused(given, refusal, 7);
    assert_eq!(message, [77]);

    let longer = [&SHORT_FILE[..], &[0]].concat();
    for (file, room) in [
        (&SHORT_FILE[..27], 6),
        (&longer, 6),
        (&SHORT_FILE, 5),
        (&SHORT_FILE, 7),
    ] {
        let mut numbers = vec![77; room];
        is_refused(etru::read(Kind::Short, file, &mut numbers), refusal, 7);
        assert_eq!(numbers, vec![77; room]);
    }
    for (numbers, bytes) in [(&EMPTY[..5], 28), (&[0; 7], 28), (&EMPTY, 27), (&EMPTY, 29)] {
        let mut file = vec![77; bytes];
        let written = etru::write(Kind::Short, SMALL, numbers, &mut file);
        is_refused(written, refusal, 7);
        assert_eq!(file, vec![77; bytes]);
    }
}

/// Refusal 7 of bundles and of their parts.
#[test]
fn wrong_lengths_of_bundles() {
    let refusal = Refusal::WrongLength;
    for length in [16, 17, 18, 32, 45] {
        bundle_head_is_refused(&BUNDLE_FILE[..length], refusal, 7);
    }
    bundle_head_is_refused(&[&BUNDLE_FILE[..], &[0]].concat(), refusal, 7);
    for count in [[0, 0], [0, 1], [0, 3], [2, 0], [255, 255]] {
        bundle_head_is_refused(&bundle_but(16, &count), refusal, 7);
    }
    for (stop_room, room) in [(1, 12), (3, 12), (2, 11), (2, 13), (0, 0), (12, 2)] {
        let (mut stops, mut numbers) = (vec![77; stop_room], vec![77; room]);
        let read = etru::read_bundle(&BUNDLE_FILE, &mut stops, &mut numbers);
        is_refused(read, refusal, 7);
        assert_eq!((stops, numbers), (vec![77; stop_room], vec![77; room]));
    }
    for (stops, numbers, bytes) in [
        (1, 12, 46),
        (3, 12, 46),
        (2, 11, 46),
        (2, 12, 45),
        (2, 12, 60),
    ] {
        let mut file = vec![77; bytes];
        let (stops, numbers) = (&[1, 2, 3][..stops], &[0; 18][..numbers]);
        let written = etru::write_bundle(SMALL, stops, numbers, &mut file);
        is_refused(written, refusal, 7);
        assert_eq!(file, vec![77; bytes]);
    }
    let mut message = [77];
    for length in [0, 11, 13, 24] {
        let part = &[0; 24][..length];
        let given = etru::open_entry(SMALL, &ONE, &ONE, part, &mut message);
        is_refused(given, refusal, 7);
    }
    let part = &SEALED_FILE[16..];
    for [f, f2] in [[&ONE[..5], &ONE], [&ONE, &ONE[..5]]] {
        let given = etru::open_entry(SMALL, f, f2, part, &mut message);
        is_refused(given, refusal, 7);
    }
    assert_eq!(message, [77]);
    let given = etru::open_entry(SMALL, &ONE, &ONE, part, &mut []);
    is_refused(given, refusal, 7);

    // no length of arrays is a bundle's
    for room in [0, 6, 12, 15] {
        let mut numbers = vec![77; room];
        for length in [16, 18, 46] {
            let read = etru::read(Kind::Bundle, &BUNDLE_FILE[..length], &mut numbers);
            is_refused(read, refusal, 7);
            let mut file = vec![77; length];
            let written = etru::write(Kind::Bundle, SMALL, &numbers, &mut file);
            is_refused(written, refusal, 7);
            assert_eq!(file, vec![77; length]);
        }
        assert_eq!(numbers, vec![77; room]);
    }
}

#[test]
fn refusal_08_f_not_in_its_set() {
    let refusal = Refusal::FNotInItsSet;
    for f in [[0; 6], TRIPLE, [2, 0, 0, 0, 0, 0], [1, -1, 0, 0, 0, 0]] {
        let mut h = [77; 6];
        is_refused(
            etru::check_key(SMALL, &f, &ONE, &ONE, &TRIPLE, &mut h),
            refusal,
            8,
        );
        assert_eq!(h, [77; 6]);
        let mut message = [77];
        is_refused(
            etru::open(SMALL, &f, &ONE, &SEALED, &mut message),
            refusal,
            8,
        );
        assert_eq!(message, [77]);
        is_refused(
            etru::open_short(SMALL, &f, &ONE, &EMPTY, &mut []),
            refusal,
            8,
        );
        let mut file = [77; 64];
        let numbers = [f, ONE, ONE, TRIPLE].concat();
        is_refused(
            etru::write(Kind::Private, SMALL, &numbers, &mut file),
            refusal,
            8,
        );
        assert_eq!(file, [77; 64]);
    }
}

#[test]
fn refusal_09_g_not_in_its_set() {
    let refusal = Refusal::GNotInItsSet;
    // not three units, not units, and three units that are no triple; see whole_triples.rs too
    for g in [ONE, [1, -1, 1, 0, -2, 1], [1, 0, 1, 0, 1, 0]] {
        let mut h = [77; 6];
        is_refused(
            etru::check_key(SMALL, &ONE, &ONE, &ONE, &g, &mut h),
            refusal,
            9,
        );
        assert_eq!(h, [77; 6]);
        let mut file = [77; 64];
        let numbers = [ONE, ONE, ONE, g].concat();
        is_refused(
            etru::write(Kind::Private, SMALL, &numbers, &mut file),
            refusal,
            9,
        );
        assert_eq!(file, [77; 64]);
    }
}

#[test]
fn refusal_10_phi_not_in_its_set() {
    for phi in [ONE, [1, -1, 1, 0, -2, 1], [1, 0, 1, 0, 1, 0]] {
        let mut e = [77; 6];
        let given = etru::seal(SMALL, &TRIPLE, &phi, &[0xB0], &mut e);
        is_refused(given, Refusal::PhiNotInItsSet, 10);
        let given = etru::seal_short(SMALL, &TRIPLE, &phi, &[], &mut e);
        is_refused(given, Refusal::PhiNotInItsSet, 10);
        assert_eq!(e, [77; 6]);
    }
    for units in [[0, 0, 0], [0, 2, 3], [5, 2, 4]] {
        let places = places([0, 1, 2], units);
        seal_and_spread_are_refused(&places, Refusal::PhiNotInItsSet, 10);
    }
}

#[test]
fn refusal_11_not_reduced_modulo_2() {
    let refusal = Refusal::NotReducedModulo2;
    for x in [[1, 1, 0, 0, 0, 0], [-1, 0, 0, 0, 0, 0], [1, 0, 0, 0, 0, 2]] {
        let mut h = [77; 6];
        is_refused(
            etru::check_key(SMALL, &ONE, &x, &ONE, &TRIPLE, &mut h),
            refusal,
            11,
        );
        assert_eq!(h, [77; 6]);
        let mut message = [77];
        is_refused(
            etru::open(SMALL, &ONE, &x, &SEALED, &mut message),
            refusal,
            11,
        );
        is_refused(etru::unpack(3, &x, &mut message), refusal, 11);
        assert_eq!(message, [77]);
        is_refused(
            etru::open_short(SMALL, &ONE, &x, &EMPTY, &mut []),
            refusal,
            11,
        );
    }
}

#[test]
fn refusal_12_not_reduced_modulo_q() {
    let refusal = Refusal::NotReducedModuloQ;
    for x in [
        [8, 0, 0, 0, 0, 0],
        [-8, -7, 0, 0, 0, 0],
        [0, 0, 0, 0, i32::MIN, i32::MAX],
    ] {
        let mut out = [77; 6];
        is_refused(etru::convolve(SMALL, &x, &ONE, &mut out), refusal, 12);
        is_refused(etru::convolve(SMALL, &ONE, &x, &mut out), refusal, 12);
        is_refused(
            etru::check_key(SMALL, &ONE, &ONE, &x, &TRIPLE, &mut out),
            refusal,
            12,
        );
        is_refused(
            etru::seal(SMALL, &x, &TRIPLE, &[0xB0], &mut out),
            refusal,
            12,
        );
        is_refused(
            etru::seal_places(SMALL, &x, &PLACES, &[0xB0], &mut out),
            refusal,
            12,
        );
        is_refused(
            etru::seal_short(SMALL, &x, &TRIPLE, &[], &mut out),
            refusal,
            12,
        );
        assert_eq!(out, [77; 6]);
        let mut message = [77];
        is_refused(etru::open(SMALL, &ONE, &ONE, &x, &mut message), refusal, 12);
        assert_eq!(message, [77]);
        is_refused(
            etru::open_short(SMALL, &ONE, &ONE, &x, &mut []),
            refusal,
            12,
        );
        let mut file = [77; 28];
        is_refused(etru::write(Kind::Public, SMALL, &x, &mut file), refusal, 12);
        is_refused(etru::write(Kind::Sealed, SMALL, &x, &mut file), refusal, 12);
        is_refused(etru::write(Kind::Short, SMALL, &x, &mut file), refusal, 12);
        assert_eq!(file, [77; 28]);
        for arrays in [[x, ONE], [ONE, x]] {
            let mut file = [77; 46];
            let written = etru::write_bundle(SMALL, &[1, 2], &arrays.concat(), &mut file);
            is_refused(written, refusal, 12);
            assert_eq!(file, [77; 46]);
        }
    }
    // 8 is not reduced modulo 15
    let mut part = [0; 12];
    part[11] = 8;
    let mut message = [77];
    let given = etru::open_entry(SMALL, &ONE, &ONE, &part, &mut message);
    is_refused(given, refusal, 12);
    assert_eq!(message, [77]);
    for place in [20, 34] {
        bundle_is_refused(&bundle_but(place, &part), refusal, 12);
    }
}

#[test]
fn refusal_13_not_inverse_modulo_2() {
    let f2 = [0, 0, 1, 0, 0, 0];
    let mut h = [77; 6];
    let given = etru::check_key(SMALL, &ONE, &f2, &ONE, &TRIPLE, &mut h);
    is_refused(given, Refusal::NotInverseModulo2, 13);
    assert_eq!(h, [77; 6]);
}

#[test]
fn refusal_14_not_inverse_modulo_q() {
    // 1 is −1 modulo 2, but not modulo q
    let fq = [-1, 0, 0, 0, 0, 0];
    let mut h = [77; 6];
    let given = etru::check_key(SMALL, &ONE, &ONE, &fq, &TRIPLE, &mut h);
    is_refused(given, Refusal::NotInverseModuloQ, 14);
    assert_eq!(h, [77; 6]);
}

#[test]
fn refusal_15_spare_bit_set() {
    let refusal = Refusal::SpareBitSet;
    for byte in [0xB1, 0xB2] {
        let mut out = [77; 6];
        is_refused(
            etru::seal(SMALL, &TRIPLE, &TRIPLE, &[byte], &mut out),
            refusal,
            15,
        );
        is_refused(
            etru::seal_places(SMALL, &TRIPLE, &PLACES, &[byte], &mut out),
            refusal,
            15,
        );
        is_refused(etru::pack(3, &[byte], &mut out), refusal, 15);
        assert_eq!(out, [77; 6]);
    }
}

fn file_is_refused(kind: Kind, file: &[u8], refusal: Refusal, number: u32) {
    is_refused(etru::read_head(kind, file), refusal, number);
    let mut numbers = vec![77; etru::file_numbers(kind, 3)];
    is_refused(etru::read(kind, file, &mut numbers), refusal, number);
    assert_eq!(numbers, vec![77; etru::file_numbers(kind, 3)]);
}

#[test]
fn refusal_16_head_too_short() {
    for length in [0, 1, 15] {
        file_is_refused(
            Kind::Sealed,
            &SEALED_FILE[..length],
            Refusal::HeadTooShort,
            16,
        );
        file_is_refused(
            Kind::Short,
            &SHORT_FILE[..length],
            Refusal::HeadTooShort,
            16,
        );
        bundle_head_is_refused(&BUNDLE_FILE[..length], Refusal::HeadTooShort, 16);
    }
}

/// The file of a sealed message, or of a short one, with one byte changed.
fn file_but(mut file: [u8; 28], place: usize, byte: u8) -> [u8; 28] {
    file[place] = byte;
    file
}

#[test]
fn refusal_17_mark_not_eiz() {
    for place in 0..3 {
        let file = file_but(SEALED_FILE, place, b'e');
        file_is_refused(Kind::Sealed, &file, Refusal::MarkNotEiz, 17);
        let file = file_but(SHORT_FILE, place, b'e');
        file_is_refused(Kind::Short, &file, Refusal::MarkNotEiz, 17);
        bundle_head_is_refused(&bundle_but(place, b"e"), Refusal::MarkNotEiz, 17);
    }
}

#[test]
fn refusal_18_version_not_one() {
    for (place, byte) in [(3, 1), (4, 0), (4, 2)] {
        let file = file_but(SEALED_FILE, place, byte);
        file_is_refused(Kind::Sealed, &file, Refusal::VersionNotOne, 18);
        let file = file_but(SHORT_FILE, place, byte);
        file_is_refused(Kind::Short, &file, Refusal::VersionNotOne, 18);
        bundle_head_is_refused(&bundle_but(place, &[byte]), Refusal::VersionNotOne, 18);
    }
}

#[test]
fn refusal_19_kind_not_wanted() {
    for kind in [Kind::Public, Kind::Private, Kind::Bundle, Kind::Short] {
        file_is_refused(kind, &SEALED_FILE, Refusal::KindNotWanted, 19);
    }
    for kind in [Kind::Public, Kind::Private, Kind::Sealed, Kind::Short] {
        file_is_refused(kind, &BUNDLE_FILE, Refusal::KindNotWanted, 19);
    }
    for kind in [Kind::Public, Kind::Private, Kind::Sealed, Kind::Bundle] {
        file_is_refused(kind, &SHORT_FILE, Refusal::KindNotWanted, 19);
    }
    file_is_refused(Kind::Sealed, &private_file(), Refusal::KindNotWanted, 19);
    for byte in [0, 4, 5, 6, 255] {
        let file = file_but(SEALED_FILE, 5, byte);
        file_is_refused(Kind::Sealed, &file, Refusal::KindNotWanted, 19);
    }
    for byte in [0, 3, 4, 6, 255] {
        let file = file_but(SHORT_FILE, 5, byte);
        file_is_refused(Kind::Short, &file, Refusal::KindNotWanted, 19);
    }
    for byte in [0, 1, 2, 3, 5, 255] {
        bundle_head_is_refused(&bundle_but(5, &[byte]), Refusal::KindNotWanted, 19);
    }
}

/// q = 17 for 15: the sealed array is reduced modulo both.
#[test]
fn refusal_20_parameters_differ() {
    let mut line = [77; etru::LINE_BYTES];
    let input = [&private_file()[..], &file_but(SEALED_FILE, 9, 17)].concat();
    assert_eq!(etru::open_files(&input, &mut line), Ok(&b"20 -\n"[..]));
    assert_eq!(line[5..], [77; etru::LINE_BYTES - 5]);
    is_refused::<()>(
        Err(Error::Refused(Refusal::ParametersDiffer)),
        Refusal::ParametersDiffer,
        20,
    );
}

#[test]
fn refusal_21_modulus_zero() {
    is_refused(etru::reduce_q(7, 8, 0, 0), Refusal::ModulusZero, 21);
}

#[test]
fn refusal_22_value_out_of_range() {
    let refusal = Refusal::ValueOutOfRange;
    for part in [(1 << 40) + 1, -(1 << 40) - 1, i64::MAX, i64::MIN] {
        for (a, b) in [(part, 0), (0, part)] {
            is_refused(etru::reduce_q(a, b, 15, 0), refusal, 22);
            is_refused(etru::reduce_2(a, b), refusal, 22);
        }
    }
}

#[test]
fn refusal_23_place_or_unit_out_of_range() {
    let refusal = Refusal::PlaceOrUnitOutOfRange;
    for k in 0..3 {
        for place in [3, 4, 1024, 1 << 16, 1 << 31, u32::MAX] {
            let mut list = PLACES;
            list[k].place = place;
            seal_and_spread_are_refused(&list, refusal, 23);
        }
        // the same unit modulo 6 too
        for unit in [6, 7, PLACES[k].unit + 6, 256, 1 << 31, u32::MAX] {
            let mut list = PLACES;
            list[k].unit = unit;
            seal_and_spread_are_refused(&list, refusal, 23);
        }
    }
}

#[test]
fn refusal_24_place_occurs_twice() {
    let refusal = Refusal::PlaceOccursTwice;
    for at in [[0, 0, 1], [0, 1, 0], [1, 0, 0], [2, 2, 2]] {
        for units in [[0, 2, 4], [0, 0, 0], [0, 3, 3], [5, 2, 2]] {
            seal_and_spread_are_refused(&places(at, units), refusal, 24);
        }
    }
}

#[test]
fn refusal_25_stop_occurs_twice() {
    let refusal = Refusal::StopOccursTwice;
    bundle_is_refused(&bundle_but(18, &[0, 7]), refusal, 25);
    bundle_is_refused(&bundle_but(32, &[255, 255]), refusal, 25);
    for stops in [
        [1, 1, 2],
        [1, 2, 1],
        [2, 1, 1],
        [0, 5, 0],
        [65_535, 5, 65_535],
    ] {
        let mut file = [77; 60];
        let numbers = [SEALED; 3].concat();
        let written = etru::write_bundle(SMALL, &stops, &numbers, &mut file);
        is_refused(written, refusal, 25);
        assert_eq!(file, [77; 60]);
    }
}

#[test]
fn refusal_26_short_message_too_long() {
    let refusal = Refusal::ShortMessageTooLong;
    let long = [0x80; 1000];
    for length in [2, 3, 10, 256, 1000] {
        let mut e = [77; 10];
        let given = etru::seal_short(FIVE, &FIVE_TRIPLE, &FIVE_TRIPLE, &long[..length], &mut e);
        is_refused(given, refusal, 26);
        assert_eq!(e, [77; 10]);
    }
    // at N = 3 a message has one byte, and a short one none
    let mut e = [77; 6];
    let given = etru::seal_short(SMALL, &TRIPLE, &TRIPLE, &[0xB0], &mut e);
    is_refused(given, refusal, 26);
    assert_eq!(e, [77; 6]);
    // at N = 4 the bits of one byte are 2N, and leave no room for the 1
    let four = Parameters { n: 4, ..SMALL };
    let (phi, mut e) = ([1, 0, 0, 1, -1, -1, 0, 0], [77; 8]);
    let given = etru::seal_short(four, &phi, &phi, &[0xB0], &mut e);
    is_refused(given, refusal, 26);
    assert_eq!(e, [77; 8]);
}

/// No 1 bit, or 1 bits of which the last does not end a short message; a 1 at 0 or 8 alone would.
#[test]
fn refusal_27_not_a_short_message() {
    for ones in [
        &[][..],
        &[1],
        &[2],
        &[4],
        &[7],
        &[9],
        &[0, 1],
        &[0, 7],
        &[0, 9],
        &[8, 9],
        &[0, 3, 5, 6],
        &[0, 1, 2, 3, 4, 5, 6, 7, 8, 9],
    ] {
        // with f = F2 = 1 its numbers are the bits
        let mut e = [0; 10];
        ones.iter().for_each(|&k: &usize| e[k] = 1);
        let mut message = [77];
        let given = etru::open_short(FIVE, &FIVE_ONE, &FIVE_ONE, &e, &mut message);
        is_refused(given, Refusal::NotAShortMessage, 27);
        assert_eq!(message, [77]);
    }
}

/// Document 02: 25 stands "after 7 and before the entries' own 12".
#[test]
fn the_first_refusal_of_bundles_is_given() {
    // a stop that occurs twice, and a number that is not reduced in the first or the last entry
    for place in [20, 44] {
        let mut file = bundle_but(place, &[0x7F, 0xFF]);
        bundle_is_refused(&file, Refusal::NotReducedModuloQ, 12);
        file[18..20].copy_from_slice(&[0, 7]);
        bundle_is_refused(&file, Refusal::StopOccursTwice, 25);
        bundle_head_is_refused(&file[..45], Refusal::WrongLength, 7);
        // t = 2
        file[15] = 2;
        bundle_head_is_refused(&file[..45], Refusal::BoundNotBelowNorm, 6);
    }
    let mut file = [77; 46];
    let mut check = |stops: &[u16], refusal: Refusal, number| {
        let numbers = [SEALED, [9; 6]].concat();
        let written = etru::write_bundle(SMALL, stops, &numbers, &mut file);
        is_refused(written, refusal, number);
        assert_eq!(file, [77; 46]);
    };
    check(&[1], Refusal::WrongLength, 7);
    check(&[1, 1], Refusal::StopOccursTwice, 25);
    check(&[1, 2], Refusal::NotReducedModuloQ, 12);
}

/// Document 02: 23 and 24 stand "both after h's check and before 10, with 23 first over the whole
/// list".
#[test]
fn the_first_refusal_of_places_is_given() {
    let check = |h: &[i32], places: &[PlacedUnit], refusal: Refusal, number| {
        let mut e = [77; 6];
        let given = etru::seal_places(SMALL, h, places, &[0xB1], &mut e);
        is_refused(given, refusal, number);
        assert_eq!(e, [77; 6]);
    };
    // the units of none of these lists are a triple
    let all = places([0, 0, 3], [0, 0, 0]);
    check(&[9; 6], &all[..2], Refusal::WrongLength, 7);
    check(&[9; 6], &all, Refusal::NotReducedModuloQ, 12);
    for [i, j, k] in [[0, 1, 2], [1, 2, 0], [2, 0, 1]] {
        // the place that occurs twice stands before the wrong record, around it or after it
        let list = [all[i], all[j], all[k]];
        check(&TRIPLE, &list, Refusal::PlaceOrUnitOutOfRange, 23);
    }
    let wrong_unit = places([0, 0, 1], [0, 6, 0]);
    check(&TRIPLE, &wrong_unit, Refusal::PlaceOrUnitOutOfRange, 23);
    let twice = places([0, 1, 0], [0, 0, 0]);
    check(&TRIPLE, &twice, Refusal::PlaceOccursTwice, 24);
    let no_triple = places([0, 1, 2], [0, 0, 0]);
    check(&TRIPLE, &no_triple, Refusal::PhiNotInItsSet, 10);
    check(&TRIPLE, &PLACES, Refusal::SpareBitSet, 15);
}

/// Document 02: 26 stands "in the place of 15", after h's 12 and φ's 10, and 27 "after the
/// arithmetic".
#[test]
fn the_first_refusal_of_short_messages_is_given() {
    let two = Parameters { t: 2, ..FIVE };
    // 30 is no unit, is not reduced modulo 2 or q, and is 0 modulo both: it would open to zeros
    let bad = [30; 10];
    let long = [0xB0, 0xB0];
    let seal = |p, h: &[i32], phi: &[i32], room: usize, refusal: Refusal, number| {
        let mut e = vec![77; room];
        let given = etru::seal_short(p, h, phi, &long, &mut e);
        is_refused(given, refusal, number);
        assert_eq!(e, vec![77; room]);
    };
    let (h, phi) = (&FIVE_TRIPLE, &FIVE_TRIPLE);
    seal(two, &bad[1..], &bad, 10, Refusal::BoundNotBelowNorm, 6);
    seal(FIVE, &bad[1..], &bad, 10, Refusal::WrongLength, 7);
    seal(FIVE, &bad, &bad[1..], 10, Refusal::WrongLength, 7);
    seal(FIVE, &bad, &bad, 9, Refusal::WrongLength, 7);
    seal(FIVE, &bad, &bad, 10, Refusal::NotReducedModuloQ, 12);
    seal(FIVE, &bad, phi, 10, Refusal::NotReducedModuloQ, 12);
    seal(FIVE, h, &bad, 10, Refusal::PhiNotInItsSet, 10);
    seal(FIVE, h, phi, 10, Refusal::ShortMessageTooLong, 26);

    let open = |p, f: &[i32], f2: &[i32], e: &[i32], room: usize, refusal: Refusal, number| {
        let mut message = vec![77; room];
        let given = etru::open_short(p, f, f2, e, &mut message);
        is_refused(given, refusal, number);
        assert_eq!(message, vec![77; room]);
    };
    let (f, f2) = (&FIVE_ONE, &FIVE_ONE);
    open(two, &bad, &bad, &bad, 2, Refusal::BoundNotBelowNorm, 6);
    open(FIVE, &bad, &bad, &bad, 2, Refusal::WrongLength, 7);
    open(FIVE, &bad[1..], &bad, &bad, 1, Refusal::WrongLength, 7);
    open(FIVE, &bad, &bad[1..], &bad, 1, Refusal::WrongLength, 7);
    open(FIVE, &bad, &bad, &bad[1..], 1, Refusal::WrongLength, 7);
    open(FIVE, &bad, &bad, &bad, 1, Refusal::FNotInItsSet, 8);
    open(FIVE, f, &bad, &bad, 1, Refusal::NotReducedModulo2, 11);
    open(FIVE, f, f2, &bad, 1, Refusal::NotReducedModuloQ, 12);
    open(FIVE, f, f2, &[0; 10], 2, Refusal::WrongLength, 7);
    open(FIVE, f, f2, &[0; 10], 1, Refusal::NotAShortMessage, 27);
}

/// "One value modulo q: 2, 21, 22", and "Key check: 8, 11, 12, 9, 13, 14".
#[test]
fn the_first_refusal_is_given() {
    is_refused(
        etru::reduce_q(i64::MAX, 0, 4096, 0),
        Refusal::ModulusPartOutOfRange,
        2,
    );
    is_refused(etru::reduce_q(i64::MAX, 0, 0, 0), Refusal::ModulusZero, 21);
    let bad = [9; 6];
    let wrong = [0, 0, 1, 0, 0, 0];
    let mut h = [77; 6];
    let mut check = |f: &[i32], f2: &[i32], fq: &[i32], g: &[i32], refusal: Refusal, number| {
        is_refused(
            etru::check_key(SMALL, f, f2, fq, g, &mut h),
            refusal,
            number,
        );
        assert_eq!(h, [77; 6]);
    };
    check(&bad, &bad, &bad, &bad[..5], Refusal::WrongLength, 7);
    check(&bad, &bad, &bad, &bad, Refusal::FNotInItsSet, 8);
    check(&ONE, &bad, &bad, &bad, Refusal::NotReducedModulo2, 11);
    check(&ONE, &wrong, &bad, &bad, Refusal::NotReducedModuloQ, 12);
    check(&ONE, &wrong, &wrong, &bad, Refusal::GNotInItsSet, 9);
    check(
        &ONE,
        &wrong,
        &wrong,
        &TRIPLE,
        Refusal::NotInverseModulo2,
        13,
    );
    check(&ONE, &ONE, &wrong, &TRIPLE, Refusal::NotInverseModuloQ, 14);
}
