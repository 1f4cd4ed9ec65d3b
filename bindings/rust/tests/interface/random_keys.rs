//! Random keys, each with several messages: key check, sealing from an array and from places,
//! opening, packing, the files of a key and of each message, the program's line, and the bundle of
//! all messages.

use etru::{Bundle, Kind, Parameters};

use crate::calls;
use crate::definitions::{bundle_bytes, file_bytes, file_numbers, message_bytes};
use crate::drawing::{without_spare_bits, Rng};
use crate::keys::{Key, Modulus};

fn one_key(rng: &mut Rng, key: &Key) {
    let (p, n) = (key.p, key.p.n);
    let length = 2 * n as usize;
    let arrays: [&[i32]; 4] = [&key.f, &key.f2, &key.fq, &key.g];
    let h = calls::check_key(rng, p, arrays, length).expect("the key is right");
    let private = file(rng, Kind::Private, p, &key.numbers());
    file(rng, Kind::Public, p, &h);

    let zeros = vec![0; message_bytes(n)];
    let ones = without_spare_bits(n, vec![255; message_bytes(n)]);
    let messages = [zeros, ones, rng.message(n), rng.message(n)];
    let mut numbers = Vec::new();
    for message in &messages {
        let m = calls::pack(rng, n, message, length).expect("it is a message");
        assert_eq!(
            calls::unpack(rng, n, &m, message.len()).as_ref(),
            Ok(message)
        );

        let phi = rng.whole_triples(n, p.s);
        let e = calls::seal(rng, p, &h, &phi, message, length).expect("all is in its set");
        let places = rng.places(&phi);
        let from_places = calls::seal_places(rng, p, &h, &places, message, length);
        assert_eq!(from_places.as_ref(), Ok(&e));
        let spread = calls::spread_places(rng, p, &places, length);
        assert_eq!(spread.as_ref(), Ok(&phi));
        let opened = calls::open(rng, p, &key.f, &key.f2, &e, message.len());
        assert_eq!(opened.as_ref(), Ok(message));

        let sealed = file(rng, Kind::Sealed, p, &e);
        let line = calls::open_files(rng, &[&private[..], &sealed].concat());
        let digits: String = message.iter().map(|byte| format!("{byte:02X}")).collect();
        assert_eq!(line, format!("0 {digits}\n").into_bytes());
        numbers.extend(e);
    }
    let stops = rng.stops(messages.len());
    bundle(rng, key, &stops, &numbers, &messages);

    // any operands, and opening what was never sealed with an F2 that is no inverse
    let (x, y) = (rng.reduced_q(p), rng.reduced_q(p));
    calls::convolve(rng, p, &x, &y, length).expect("both are reduced");
    let f2 = rng.reduced_2(n);
    calls::open(rng, p, &key.f, &f2, &x, message_bytes(n)).expect("all is in its set");
}

/// Writes a bundle of sealed messages, reads it back, and opens its entries.
fn bundle(rng: &mut Rng, key: &Key, stops: &[u16], numbers: &[i32], messages: &[Vec<u8>]) {
    let p = key.p;
    let length = bundle_bytes(p.n, stops.len());
    let file = calls::write_bundle(rng, p, stops, numbers, length).expect("all is in its set");
    let read = calls::read_bundle(rng, &file, (stops.len(), numbers.len()));
    let wide = stops.iter().map(|&stop| stop.into()).collect();
    assert_eq!(read, Ok((wide, numbers.to_vec())));
    assert_eq!(calls::walk(&file), Ok(stops.len()));
    let bundle = Bundle::new(&file).expect("it was written");
    for (entry, message) in bundle.entries().zip(messages) {
        let opened = calls::open_entry(rng, p, &key.f, &key.f2, entry.part, message.len());
        assert_eq!(opened.as_ref(), Ok(message));
    }
}

/// Writes a file and reads it back.
pub fn file(rng: &mut Rng, kind: Kind, p: Parameters, numbers: &[i32]) -> Vec<u8> {
    let length = file_bytes(kind, p.n);
    let file = calls::write(rng, kind, p, numbers, length).expect("all is in its set");
    assert_eq!(calls::read_head(kind, &file), Ok(p));
    let read = calls::read(rng, kind, &file, file_numbers(kind, p.n));
    assert_eq!(read.as_deref(), Ok(numbers));
    file
}

#[test]
fn keys_of_up_to_9_coefficients() {
    let mut rng = Rng::new(11);
    for _ in 0..120 {
        let key = Key::draw_small(&mut rng, 9);
        one_key(&mut rng, &key);
    }
}

#[test]
fn keys_of_up_to_40_coefficients() {
    let mut rng = Rng::new(12);
    for _ in 0..120 {
        let key = Key::draw_small(&mut rng, 40);
        one_key(&mut rng, &key);
    }
}

#[test]
fn keys_of_up_to_200_coefficients() {
    let mut rng = Rng::new(13);
    for _ in 0..12 {
        let key = Key::draw_small(&mut rng, 200);
        one_key(&mut rng, &key);
    }
}

fn large_key(n: u32, q: (i64, i64), s: u32, t: u32) {
    let mut rng = Rng::new(u64::from(n) << 32 | u64::from(s) << 16 | u64::from(t));
    let p = Parameters {
        n,
        c: q.0 as i32,
        d: q.1 as i32,
        s,
        t,
    };
    let key = Key::draw(&mut rng, p, &Modulus::of(q)).expect("many f have both inverses");
    one_key(&mut rng, &key);
}

#[test]
fn key_of_509_coefficients() {
    large_key(509, (11, 86), 12, 16);
}

#[test]
fn key_of_677_coefficients() {
    large_key(677, (15, 0), 3, 1);
}

#[test]
fn key_of_1021_coefficients() {
    large_key(1021, (0, 81), 18, 4);
}

#[test]
fn key_of_1023_coefficients() {
    large_key(1023, (-4091, 0), 600, 10);
}

#[test]
fn key_of_1024_coefficients() {
    large_key(1024, (-4093, 4095), 300, 341);
}

#[test]
fn key_of_1024_coefficients_all_of_f_units() {
    large_key(1024, (-4093, 4095), 3, 1024);
}

#[test]
fn key_of_1024_coefficients_most_of_g_units() {
    large_key(1024, (4095, -4095), 1023, 1);
}
