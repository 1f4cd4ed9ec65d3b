//! Document 02: "g and φ must hold equally many of units 0, 2 and 4, and equally many of units 1, 3
//! and 5", and other inputs, also of sum zero, meet 9 or 10.

use etru::{Kind, Parameters, PlacedUnit};

use crate::calls;
use crate::definitions::{array, UNITS};
use crate::drawing::Rng;
use crate::spoiled_calls::file_of;

const SIX: Parameters = Parameters {
    n: 6,
    c: 31,
    d: 0,
    s: 6,
    t: 1,
};

/// f = F2 = Fq.
const ONE: [i32; 12] = [1, 0, 0, 0, 0, 0, 0, 0, 0, 0, 0, 0];

const MESSAGE: [u8; 2] = [0xB0, 0xA0];

/// The coefficients of these units, as an array and as places.
fn laid_out(units: [u32; 6]) -> (Vec<i32>, [PlacedUnit; 6]) {
    let places = [0, 1, 2, 3, 4, 5].map(|place: u32| PlacedUnit {
        place,
        unit: units[place as usize],
    });
    (array(&units.map(|unit| UNITS[unit as usize])), places)
}

/// The program's input: the private file with this g, right or wrong, and a sealed file of zeros.
fn input(g: &[i32]) -> Vec<u8> {
    let private = file_of(2, SIX, &[&ONE[..], &ONE, &ONE, g].concat());
    [private, file_of(3, SIX, &[0; 12])].concat()
}

/// As g these units meet 9 in the key check, in files and in the program, and as φ 10.
fn are_refused(units: [u32; 6]) {
    let rng = &mut Rng::new(61);
    let (x, places) = laid_out(units);
    let checked = calls::check_key(rng, SIX, [&ONE, &ONE, &ONE, &x], 12);
    assert_eq!(checked, Err(9));
    let numbers = [&ONE[..], &ONE, &ONE, &x].concat();
    let written = calls::write(rng, Kind::Private, SIX, &numbers, 112);
    assert_eq!(written, Err(9));
    let read = calls::read(rng, Kind::Private, &file_of(2, SIX, &numbers), 48);
    assert_eq!(read, Err(9));
    assert_eq!(calls::open_files(rng, &input(&x)), b"9 -\n");

    let h = laid_out([0, 2, 4, 0, 2, 4]).0;
    let sealed = calls::seal(rng, SIX, &h, &x, &MESSAGE, 12);
    assert_eq!(sealed, Err(10));
    let sealed = calls::seal_places(rng, SIX, &h, &places, &MESSAGE, 12);
    assert_eq!(sealed, Err(10));
    let spread = calls::spread_places(rng, SIX, &places, 12);
    assert_eq!(spread, Err(10));
}

/// They are a g and a φ, and what is sealed with them opens.
fn are_accepted(units: [u32; 6]) {
    let rng = &mut Rng::new(62);
    let (x, places) = laid_out(units);
    let h = calls::check_key(rng, SIX, [&ONE, &ONE, &ONE, &x], 12);
    assert_eq!(h.as_ref(), Ok(&x));
    assert_eq!(calls::open_files(rng, &input(&x)), b"0 0000\n");
    let e = calls::seal(rng, SIX, &x, &x, &MESSAGE, 12).expect("they are in whole triples");
    let from_places = calls::seal_places(rng, SIX, &x, &places, &MESSAGE, 12);
    assert_eq!(from_places.as_ref(), Ok(&e));
    let opened = calls::open(rng, SIX, &ONE, &ONE, &e, 2);
    assert_eq!(opened, Ok(MESSAGE.to_vec()));
}

/// "a g with three coefficients 1 and three −1"
#[test]
fn three_ones_and_three_negatives_are_refused() {
    are_refused([0, 0, 0, 3, 3, 3]);
    are_refused([3, 0, 3, 0, 3, 0]);
}

#[test]
fn units_of_sum_zero_are_refused() {
    // 1, 1, −1, −1, ω, −ω, and others of three pairs
    are_refused([0, 0, 3, 3, 2, 5]);
    are_refused([4, 1, 2, 5, 1, 4]);
    are_refused([2, 2, 2, 5, 5, 5]);
}

#[test]
fn a_triple_and_three_other_units_are_refused() {
    are_refused([0, 2, 4, 1, 1, 1]);
    are_refused([0, 2, 4, 3, 5, 5]);
    are_refused([1, 3, 5, 0, 0, 2]);
    are_refused([0, 0, 0, 1, 3, 5]);
}

#[test]
fn whole_triples_are_accepted() {
    are_accepted([0, 2, 4, 0, 2, 4]);
    are_accepted([3, 5, 1, 3, 5, 1]);
    are_accepted([4, 4, 0, 0, 2, 2]);
    // 1, −1, ω, −ω, ω², −ω²
    are_accepted([0, 3, 2, 5, 4, 1]);
}

/// Units of sum zero, with many N and s.
#[test]
fn pairs_are_refused() {
    let mut rng = Rng::new(63);
    for _ in 0..2000 {
        let n = rng.count(6, 40);
        let s = 3 * rng.count(2, n / 3);
        let p = Parameters {
            n,
            c: 4095,
            d: 0,
            s,
            t: 1,
        };
        let room = 2 * n as usize;
        let phi = rng.pairs_and_triples(n, s);
        let (h, message) = (rng.reduced_q(p), rng.message(n));
        let sealed = calls::seal(&mut rng, p, &h, &phi, &message, room);
        assert_eq!(sealed, Err(10));
        let places = rng.places(&phi);
        let spread = calls::spread_places(&mut rng, p, &places, room);
        assert_eq!(spread, Err(10));
        let whole = rng.whole_triples(n, s);
        let sealed = calls::seal(&mut rng, p, &h, &whole, &message, room);
        assert_eq!(sealed.err(), None);
    }
}
