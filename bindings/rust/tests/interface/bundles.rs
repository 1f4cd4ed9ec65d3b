//! Bundles, document 02's wish 2: as many entries as fit, cut, lengthened and damaged ones, and what
//! the iterator over their entries promises.

use etru::{Bundle, Entry, Parameters};

use crate::calls;
use crate::definitions::bundle_bytes;
use crate::document_01::{BUNDLE_FILE, SEALED, SMALL};
use crate::drawing::Rng;
use crate::keys::Key;

/// A bundle of so many entries, as the library writes it.
fn bundle(rng: &mut Rng, p: Parameters, count: usize) -> Vec<u8> {
    let stops = rng.stops(count);
    let arrays: Vec<Vec<i32>> = (0..count).map(|_| rng.reduced_q(p)).collect();
    let length = bundle_bytes(p.n, count);
    calls::write_bundle(rng, p, &stops, &arrays.concat(), length).expect("all is in its set")
}

/// Every call that reads these bytes; returns what making a bundle of them gives.
fn read(rng: &mut Rng, file: &[u8]) -> Result<usize, u32> {
    let rooms = match calls::read_bundle_head(file) {
        Ok(head) => (head.count, 2 * head.parameters.n as usize * head.count),
        Err(_) => (2, 12),
    };
    let read = calls::read_bundle(rng, file, rooms);
    let made = calls::walk(file);
    assert_eq!(made.map(|_| ()), read.map(|_| ()));
    made
}

#[test]
fn as_many_entries_as_fit() {
    let mut rng = Rng::new(50);
    // at N = 8 and 348 they are 65,536 bytes
    for (n, most) in [
        (3, 4679),
        (8, 1927),
        (251, 65),
        (348, 47),
        (1021, 16),
        (1024, 15),
    ] {
        let p = Parameters { n, ..SMALL };
        let full = bundle(&mut rng, p, most);
        assert_eq!(full.len() == 65_536, n == 8 || n == 348);
        assert_eq!(read(&mut rng, &full), Ok(most));

        let entry = bundle_bytes(n, 1) - bundle_bytes(n, 0);
        let mut more = [&full[..], &full[18..18 + entry]].concat();
        more[16..18].copy_from_slice(&(most as u16 + 1).to_be_bytes());
        assert_eq!(read(&mut rng, &more), Err(7));
        let (stops, numbers) = (rng.stops(most + 1), vec![0; 2 * n as usize * (most + 1)]);
        let written = calls::write_bundle(&mut rng, p, &stops, &numbers, more.len());
        assert_eq!(written, Err(7));
    }
}

#[test]
fn bundles_of_few_entries() {
    let mut rng = Rng::new(51);
    for n in (3..40).chain([255, 256, 257]) {
        for count in 0..4 {
            let p = Parameters { n, ..SMALL };
            let file = bundle(&mut rng, p, count);
            assert_eq!(read(&mut rng, &file), Ok(count));
        }
    }
}

#[test]
fn a_bundle_of_every_length() {
    let mut rng = Rng::new(52);
    for length in 0..BUNDLE_FILE.len() {
        let number = if length < 16 { 16 } else { 7 };
        assert_eq!(read(&mut rng, &BUNDLE_FILE[..length]), Err(number));
    }
    for surplus in (1..30).chain([65_490, 65_491, 1_000_000]) {
        let longer = [&BUNDLE_FILE[..], &rng.bytes(surplus)].concat();
        assert_eq!(read(&mut rng, &longer), Err(7));
    }
    for count in (0..=20).chain([255, 256, 512, 4679, 65_535]) {
        let mut file = BUNDLE_FILE;
        file[16..18].copy_from_slice(&u16::to_be_bytes(count));
        let wanted = if count == 2 { Ok(2) } else { Err(7) };
        assert_eq!(read(&mut rng, &file), wanted);
    }
}

#[test]
fn a_bundle_with_each_bit_flipped() {
    let mut rng = Rng::new(53);
    let key = Key::draw_small(&mut rng, 9);
    for mut file in [BUNDLE_FILE.to_vec(), bundle(&mut rng, key.p, 3)] {
        for place in 0..file.len() {
            for bit in 0..8 {
                file[place] ^= 1 << bit;
                let _ = read(&mut rng, &file);
                file[place] ^= 1 << bit;
            }
        }
    }
}

#[test]
fn random_bytes_for_a_bundle() {
    let mut rng = Rng::new(54);
    for length in 0..300 {
        let mut file = rng.bytes(length);
        let _ = read(&mut rng, &file);
        for (place, &byte) in BUNDLE_FILE[..18].iter().enumerate().take(length) {
            file[place] = byte;
            let _ = read(&mut rng, &file);
        }
    }
}

/// Each two of four entries, beside a number that is not reduced in the first and in the last.
#[test]
fn a_stop_that_occurs_twice() {
    let mut rng = Rng::new(55);
    for bad in [None, Some(0), Some(3)] {
        let mut numbers = [SEALED; 4];
        if let Some(k) = bad {
            numbers[k][5] = 8;
        }
        let mut write = |stops: &[u16]| {
            let length = bundle_bytes(3, 4);
            calls::write_bundle(&mut rng, SMALL, stops, &numbers.concat(), length)
        };
        let number = bad.map(|_| 12);
        assert_eq!(write(&[0, 65_535, 7, 256]).err(), number);
        for (i, j) in [(0, 1), (0, 2), (0, 3), (1, 2), (1, 3), (2, 3)] {
            for stop in [0, 1, 65_535] {
                let mut stops = [10, 20, 30, 40];
                (stops[i], stops[j]) = (stop, stop);
                assert_eq!(write(&stops), Err(25));
            }
        }
    }
    // the second stop's bytes are 32 and 33
    let mut file = BUNDLE_FILE;
    file[32..34].copy_from_slice(&[0xFF, 0xFF]);
    assert_eq!(read(&mut rng, &file), Err(25));
    file[45] = 0x7F;
    assert_eq!(read(&mut rng, &file), Err(25));
    file[33] = 0xFE;
    assert_eq!(read(&mut rng, &file), Err(12));
}

/// The entries of bytes, when the bundle itself is gone.
fn entries_of(bytes: &[u8]) -> Vec<Entry<'_>> {
    let bundle = Bundle::new(bytes).expect("it is a bundle");
    bundle.entries().collect()
}

#[test]
fn entries_borrow_from_the_bytes() {
    let entries = entries_of(&BUNDLE_FILE);
    let stops: Vec<u32> = entries.iter().map(|entry| entry.stop).collect();
    assert_eq!(stops, [65_535, 7]);
    assert!(std::ptr::eq(entries[1].part, &BUNDLE_FILE[34..46]));

    let bundle = Bundle::new(&BUNDLE_FILE).expect("it is a bundle");
    assert_eq!(bundle.into_iter().collect::<Vec<Entry>>(), entries);
    for (entry, other) in (&bundle).into_iter().zip(&entries) {
        assert_eq!(entry, *other);
    }
    // a walk that is copied goes on from where it was
    let mut walk = bundle.entries();
    assert_eq!(walk.next(), Some(entries[0]));
    assert_eq!(walk.clone().next(), Some(entries[1]));
    assert_eq!(walk.size_hint(), (1, Some(1)));
    assert_eq!(walk.next(), Some(entries[1]));
    assert_eq!(walk.next(), None);
}
