//! Short messages, document 02's wish 4: worked ones, each length and each position of the last 1,
//! random keys, and files of kind 5.

use std::collections::BTreeMap;

use etru::{Kind, Parameters};

use crate::calls;
use crate::definitions::{message_bytes, padded, short_message_bytes};
use crate::document_01::{private_file, ONE, SMALL, TRIPLE};
use crate::drawing::Rng;
use crate::keys::{Key, Modulus};
use crate::random_keys::file;

/// N = 5: a short message has one byte or none.
pub const FIVE: Parameters = Parameters { n: 5, ..SMALL };

/// f = F2.
pub const FIVE_ONE: [i32; 10] = [1, 0, 0, 0, 0, 0, 0, 0, 0, 0];

/// h = φ: (1,0),(0,1),(−1,−1),(0,0),(0,0). Twice its square is (2,0),(0,4),(−6,−6),(4,0),(0,2).
pub const FIVE_TRIPLE: [i32; 10] = [1, 0, 0, 1, -1, -1, 0, 0, 0, 0];

/// The empty message with document 01's small key, sealed: (6,0),(0,6),(−6,−6) and the 1.
pub const EMPTY: [i32; 6] = [7, 0, 0, 6, -6, -6];

pub const SHORT_FILE: [u8; 28] = [
    0x45, 0x49, 0x5A, 0x00, 0x01, 0x05, 0x00, 0x03, 0x00, 0x0F, 0x00, 0x00, 0x00, 0x03, 0x00, 0x01,
    0x00, 0x07, 0x00, 0x00, 0x00, 0x00, 0x00, 0x06, 0xFF, 0xFA, 0xFF, 0xFA,
];

#[test]
fn the_empty_message_seals_and_opens() {
    let mut e = [77; 6];
    let given = etru::seal_short(SMALL, &TRIPLE, &TRIPLE, &[], &mut e);
    assert_eq!((given, e), (Ok(()), EMPTY));
    let opened = etru::open_short(SMALL, &ONE, &ONE, &e, &mut []);
    assert_eq!(opened, Ok(&[][..]));
    let mut message = [77];
    let given = etru::open(SMALL, &ONE, &ONE, &e, &mut message);
    assert_eq!((given, message), (Ok(()), [0x80]));
}

/// The bits of the byte, then 10.
#[test]
fn short_messages_of_one_byte_and_of_none() {
    for (short, sealed, full) in [
        (&[][..], [3, 0, 0, 4, -6, -6, 4, 0, 0, 2], [0x80, 0x00]),
        (&[0x00], [2, 0, 0, 4, -6, -6, 4, 0, 1, 2], [0x00, 0x80]),
        (&[0x80], [3, 0, 0, 4, -6, -6, 4, 0, 1, 2], [0x80, 0x80]),
        (&[0xB0], [3, 0, -1, 3, -6, -6, 4, 0, 1, 2], [0xB0, 0x80]),
        (&[0x01], [2, 0, 0, 4, -6, -6, 4, 1, 1, 2], [0x01, 0x80]),
    ] {
        let mut e = [77; 10];
        let given = etru::seal_short(FIVE, &FIVE_TRIPLE, &FIVE_TRIPLE, short, &mut e);
        assert_eq!((given, e), (Ok(()), sealed));
        let mut room = [77];
        let opened = etru::open_short(FIVE, &FIVE_ONE, &FIVE_ONE, &e, &mut room);
        assert_eq!(opened, Ok(short));
        assert_eq!(room[..], if short.is_empty() { &[77] } else { short }[..]);
        let mut message = [77; 2];
        let given = etru::open(FIVE, &FIVE_ONE, &FIVE_ONE, &e, &mut message);
        assert_eq!((given, message), (Ok(()), full));
    }
}

/// "bytes past the n returned keep what they held"
#[test]
fn bytes_behind_a_short_message_are_left() {
    let p = Parameters { n: 16, ..SMALL };
    let mut one = [0; 32];
    one[0] = 1;
    for (last, short) in [(0, &[][..]), (8, &[0]), (16, &[0, 0]), (24, &[0, 0, 0])] {
        // with f = F2 = 1 its numbers are the bits
        let mut e = [0; 32];
        e[last] = 1;
        let mut room = [77, 78, 79];
        let opened = etru::open_short(p, &one, &one, &e, &mut room);
        assert_eq!(opened, Ok(short));
        assert_eq!(room[short.len()..], [77, 78, 79][short.len()..]);
    }
}

/// A key of N coefficients, whose f is one unit, and its h.
fn key_of(rng: &mut Rng, n: u32) -> (Key, Vec<i32>) {
    let p = Parameters { n, ..SMALL };
    let key = Key::draw(rng, p, &Modulus::of((15, 0))).expect("a unit has both inverses");
    let h = public_key(rng, &key);
    (key, h)
}

fn public_key(rng: &mut Rng, key: &Key) -> Vec<i32> {
    let arrays: [&[i32]; 4] = [&key.f, &key.f2, &key.fq, &key.g];
    calls::check_key(rng, key.p, arrays, 2 * key.p.n as usize).expect("the key is right")
}

/// Seals a short message and opens it, as a short one and in full; from places too.
fn seal_and_open(rng: &mut Rng, key: &Key, h: &[i32], short: &[u8]) -> Vec<i32> {
    let (p, n) = (key.p, key.p.n);
    let length = 2 * n as usize;
    let phi = rng.whole_triples(n, p.s);
    let e = calls::seal_short(rng, p, h, &phi, short, length).expect("all is in its set");
    let opened = calls::open_short(rng, p, &key.f, &key.f2, &e, short_message_bytes(n));
    assert_eq!(opened.as_deref(), Ok(short));

    let message = padded(n, short);
    let in_full = calls::open(rng, p, &key.f, &key.f2, &e, message.len());
    assert_eq!(in_full.as_ref(), Ok(&message));
    let sealed = calls::seal(rng, p, h, &phi, &message, length);
    assert_eq!(sealed.as_ref(), Ok(&e));

    let places = rng.places(&phi);
    let spread = calls::spread_places(rng, p, &places, length).expect("they are φ");
    let from_places = calls::seal_short(rng, p, h, &spread, short, length);
    assert_eq!(from_places.as_ref(), Ok(&e));
    e
}

/// "n whole bytes with 8n + 1 at most 2N", at every N modulo 4: where N is a multiple of 4, one
/// byte too many has just 2N bits.
#[test]
fn short_messages_of_each_length() {
    let mut rng = Rng::new(68);
    for n in (3..=40).chain([255, 256, 257, 1021, 1022, 1023, 1024]) {
        let (key, h) = key_of(&mut rng, n);
        let room = 2 * n as usize;
        let most = (room - 1) / 8;
        let lengths = if n <= 40 {
            (0..=most).collect()
        } else {
            vec![0, 1, most - 1, most]
        };
        for length in lengths {
            let short = rng.bytes(length);
            seal_and_open(&mut rng, &key, &h, &short);
        }
        let phi = rng.whole_triples(n, key.p.s);
        for length in [most + 1, most + 2, 300] {
            let long = rng.bytes(length);
            let sealed = calls::seal_short(&mut rng, key.p, &h, &phi, &long, room);
            assert_eq!(sealed, Err(26));
        }
    }
}

/// A message whose last 1 stands at bit k.
fn ending_at(rng: &mut Rng, n: u32, k: usize) -> Vec<u8> {
    let mut message = rng.bytes(message_bytes(n));
    let behind = 7 - k % 8;
    message[k / 8] = (message[k / 8] >> behind | 1) << behind;
    message[k / 8 + 1..].fill(0);
    message
}

/// Seals a message in full, and opens it as a short one.
fn seal_in_full(rng: &mut Rng, key: &Key, h: &[i32], message: &[u8]) -> Result<Vec<u8>, u32> {
    let (p, n) = (key.p, key.p.n);
    let phi = rng.whole_triples(n, p.s);
    let e = calls::seal(rng, p, h, &phi, message, 2 * n as usize).expect("it is a message");
    calls::open_short(rng, p, &key.f, &key.f2, &e, short_message_bytes(n))
}

/// "27 ... if there is no 1 bit or the last one stands at a bit position, counted from 0, that is
/// not a multiple of 8"
#[test]
fn the_last_1_at_each_position() {
    let mut rng = Rng::new(69);
    for n in (3..=24).chain([128, 1021, 1024]) {
        let (key, h) = key_of(&mut rng, n);
        let zeros = vec![0; message_bytes(n)];
        assert_eq!(seal_in_full(&mut rng, &key, &h, &zeros), Err(27));
        let positions = if n <= 128 {
            (0..2 * n as usize).collect()
        } else {
            vec![0, 1, 7, 8, 9, 1023, 1024, 1025, 2039, 2040, 2041]
        };
        for k in positions {
            let message = ending_at(&mut rng, n, k);
            let opened = seal_in_full(&mut rng, &key, &h, &message);
            let wanted = match k % 8 {
                0 => Ok(message[..k / 8].to_vec()),
                _ => Err(27),
            };
            assert_eq!(opened, wanted);
        }
    }
}

/// "Two different short messages, the empty one among them, never seal alike under one key": all of
/// N = 5, and of N = 40 those of zeros, and of zeros and then a 1 as if to end them.
#[test]
fn no_two_short_messages_seal_alike() {
    let mut rng = Rng::new(70);
    let bytes = (0..=255).map(|byte| vec![byte]);
    let all_of_5: Vec<Vec<u8>> = bytes.chain([vec![]]).collect();
    let zeros = (0..=9).map(|length| vec![0; length]);
    let ended = (0..9).map(|length| [vec![0; length], vec![0x80]].concat());
    for (n, shorts) in [(5, all_of_5), (40, zeros.chain(ended).collect())] {
        let (key, h) = key_of(&mut rng, n);
        let mut met = BTreeMap::new();
        for _ in 0..6 {
            let phi = rng.whole_triples(n, key.p.s);
            for short in &shorts {
                let e = calls::seal_short(&mut rng, key.p, &h, &phi, short, 2 * n as usize);
                let other = met.insert(e.expect("all is in its set"), short);
                assert!(other.is_none_or(|other| other == short));
            }
        }
    }
}

/// Each short message is sealed, opened and stored.
fn one_key(rng: &mut Rng, key: &Key) {
    let (p, n) = (key.p, key.p.n);
    let length = 2 * n as usize;
    let h = public_key(rng, key);
    let most = short_message_bytes(n);
    for short in [
        vec![],
        vec![0; most],
        vec![0x80; most],
        vec![255; most],
        rng.short_message(n),
        rng.short_message(n),
    ] {
        let e = seal_and_open(rng, key, &h, &short);
        let stored = file(rng, Kind::Short, p, &e);
        let mut sealed = file(rng, Kind::Sealed, p, &e);
        for (wanted, other) in [(Kind::Sealed, &stored), (Kind::Short, &sealed)] {
            assert_eq!(calls::read_head(wanted, other), Err(19));
            assert_eq!(calls::read(rng, wanted, other, length), Err(19));
        }
        // "laid out like kind 3"
        sealed[5] = 5;
        assert_eq!(stored, sealed);
    }
    // opening what was never sealed
    let e = rng.reduced_q(p);
    let _ = calls::open_short(rng, p, &key.f, &key.f2, &e, most);
}

#[test]
fn short_messages_of_small_keys() {
    let mut rng = Rng::new(71);
    for most in [9, 40] {
        for _ in 0..80 {
            let key = Key::draw_small(&mut rng, most);
            one_key(&mut rng, &key);
        }
    }
}

#[test]
fn short_messages_of_keys_of_up_to_200_coefficients() {
    let mut rng = Rng::new(72);
    for _ in 0..8 {
        let key = Key::draw_small(&mut rng, 200);
        one_key(&mut rng, &key);
    }
}

#[test]
fn short_messages_of_a_key_of_1024_coefficients() {
    let mut rng = Rng::new(73);
    let p = Parameters {
        n: 1024,
        c: -4093,
        d: 4095,
        s: 300,
        t: 341,
    };
    let modulus = Modulus::of((-4093, 4095));
    let key = Key::draw(&mut rng, p, &modulus).expect("many f have both inverses");
    one_key(&mut rng, &key);
}

#[test]
fn the_file_of_the_empty_message() {
    let mut file = [77; 28];
    assert_eq!(etru::write(Kind::Short, SMALL, &EMPTY, &mut file), Ok(()));
    assert_eq!(file, SHORT_FILE);
    assert_eq!(etru::read_head(Kind::Short, &file), Ok(SMALL));
    let mut e = [77; 6];
    assert_eq!(etru::read(Kind::Short, &file, &mut e), Ok(()));
    assert_eq!(e, EMPTY);
}

/// "one kind 2 file and directly after it one kind 3 file"
#[test]
fn the_program_takes_no_file_of_a_short_message() {
    let mut rng = Rng::new(74);
    let input = [&private_file()[..], &SHORT_FILE].concat();
    assert_eq!(calls::open_files(&mut rng, &input), b"19 -\n");
    // the same array as a kind 3 file
    let mut sealed = SHORT_FILE;
    sealed[5] = 3;
    let input = [&private_file()[..], &sealed].concat();
    assert_eq!(calls::open_files(&mut rng, &input), b"0 80\n");
}
