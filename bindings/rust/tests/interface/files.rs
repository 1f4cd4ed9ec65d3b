//! Inputs of the opening program that are put together of two keys' files, or cut, lengthened or
//! flipped at each place.

use etru::Kind;

use crate::calls;
use crate::definitions::file_bytes;
use crate::document_01::{private_file, SEALED_FILE};
use crate::drawing::Rng;
use crate::keys::Key;

/// The private file of a key, and a sealed file of its parameters.
fn files_of(rng: &mut Rng, key: &Key) -> (Vec<u8>, Vec<u8>) {
    let p = key.p;
    let mut private = vec![0; file_bytes(Kind::Private, p.n)];
    let mut sealed = vec![0; file_bytes(Kind::Sealed, p.n)];
    etru::write(Kind::Private, p, &key.numbers(), &mut private).expect("the key is right");
    etru::write(Kind::Sealed, p, &rng.reduced_q(p), &mut sealed).expect("it is reduced");
    (private, sealed)
}

fn inputs(rng: &mut Rng) -> Vec<Vec<u8>> {
    let mut inputs = vec![[&private_file()[..], &SEALED_FILE].concat()];
    for most in [5, 9, 17] {
        let key = Key::draw_small(rng, most);
        let (private, sealed) = files_of(rng, &key);
        inputs.push([private, sealed].concat());
    }
    inputs
}

/// The second file is judged by its own head: it is right, and only its parameters differ.
#[test]
fn files_of_two_keys() {
    let mut rng = Rng::new(40);
    let keys: Vec<Key> = (0..30).map(|_| Key::draw_small(&mut rng, 17)).collect();
    for key in &keys {
        for other in &keys {
            let (private, _) = files_of(&mut rng, key);
            let (_, sealed) = files_of(&mut rng, other);
            let line = calls::open_files(&mut rng, &[private, sealed].concat());
            assert_eq!(line == b"20 -\n", key.p != other.p);
        }
    }
}

#[test]
fn input_cut_at_each_place() {
    let mut rng = Rng::new(41);
    for input in inputs(&mut rng) {
        for end in 0..=input.len() {
            calls::open_files(&mut rng, &input[..end]);
        }
    }
}

#[test]
fn input_with_more_behind_it() {
    let mut rng = Rng::new(42);
    for input in inputs(&mut rng) {
        for surplus in [1, 2, 12, 16, 28, 1000, 100_000] {
            let longer = [&input[..], &rng.bytes(surplus)].concat();
            assert_eq!(calls::open_files(&mut rng, &longer), b"7 -\n");
        }
    }
}

#[test]
fn input_with_each_bit_flipped() {
    let mut rng = Rng::new(43);
    for mut input in inputs(&mut rng) {
        for place in 0..input.len() {
            for bit in 0..8 {
                input[place] ^= 1 << bit;
                calls::open_files(&mut rng, &input);
                input[place] ^= 1 << bit;
            }
        }
    }
}

#[test]
fn input_of_random_bytes() {
    let mut rng = Rng::new(44);
    for length in 0..300 {
        let mut input = rng.bytes(length);
        calls::open_files(&mut rng, &input);
        let head = b"EIZ\x00\x01\x02\x00\x03";
        for (place, &byte) in head.iter().enumerate().take(length) {
            input[place] = byte;
            calls::open_files(&mut rng, &input);
        }
    }
}
