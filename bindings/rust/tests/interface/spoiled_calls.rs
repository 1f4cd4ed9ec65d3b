//! Calls on random arguments of which some are wrong: the first refusal that applies is given.
//! Every number that a call can give is met.

use std::collections::BTreeSet;

use etru::{Kind, Parameters, PlacedUnit};

use crate::calls;
use crate::definitions::{
    self, bundle_bytes, file_bytes, file_numbers, message_bytes, padded, short_message_bytes,
};
use crate::drawing::Rng;
use crate::keys::Key;

/// Arguments of every call.
struct Arguments {
    p: Parameters,
    f: Vec<i32>,
    f2: Vec<i32>,
    fq: Vec<i32>,
    g: Vec<i32>,
    h: Vec<i32>,
    phi: Vec<i32>,
    places: Vec<PlacedUnit>,
    m: Vec<i32>,
    message: Vec<u8>,
    e: Vec<i32>,
    short: Vec<u8>,
    /// what opens to the short message: its m, as if φ were zero
    short_e: Vec<i32>,
    /// the entries of a bundle
    stops: Vec<u16>,
    arrays: Vec<Vec<i32>>,
    /// the lengths of outputs: an array, a message
    room: usize,
    message_room: usize,
}

impl Arguments {
    fn draw(rng: &mut Rng, key: &Key) -> Arguments {
        let (p, n) = (key.p, key.p.n);
        let phi = rng.whole_triples(n, p.s);
        let short = rng.short_message(n);
        let short_e = definitions::pack(n, &padded(n, &short), 2 * n as usize);
        Arguments {
            p,
            f: key.f.clone(),
            f2: key.f2.clone(),
            fq: key.fq.clone(),
            g: key.g.clone(),
            h: rng.reduced_q(p),
            places: rng.places(&phi),
            phi,
            m: rng.reduced_2(n),
            message: rng.message(n),
            e: rng.reduced_q(p),
            short,
            short_e: short_e.expect("it is a message"),
            stops: rng.stops(3),
            arrays: (0..3).map(|_| rng.reduced_q(p)).collect(),
            room: 2 * n as usize,
            message_room: message_bytes(n),
        }
    }

    /// Makes each argument wrong now and then.
    fn spoil(&mut self, rng: &mut Rng) {
        let p = self.p;
        if rng.once_in(3) {
            spoil_parameters(rng, &mut self.p);
        }
        if rng.once_in(6) {
            self.f2 = rng.reduced_2(p.n);
        }
        if rng.once_in(6) {
            self.fq = rng.reduced_q(p);
        }
        if p.s >= 6 {
            // the sum of each is zero
            if rng.once_in(6) {
                self.g = rng.pairs_and_triples(p.n, p.s);
            }
            if rng.once_in(6) {
                self.phi = rng.pairs_and_triples(p.n, p.s);
            }
            if rng.once_in(6) {
                let phi = rng.pairs_and_triples(p.n, p.s);
                self.places = rng.places(&phi);
            }
        }
        let arrays = [
            &mut self.f,
            &mut self.f2,
            &mut self.fq,
            &mut self.g,
            &mut self.h,
            &mut self.phi,
            &mut self.m,
            &mut self.e,
            &mut self.short_e,
        ];
        for array in arrays {
            if rng.once_in(6) {
                spoil_array(rng, array);
            }
        }
        for array in &mut self.arrays {
            if rng.once_in(12) {
                spoil_array(rng, array);
            }
        }
        if rng.once_in(4) {
            spoil_stops(rng, &mut self.stops);
        }
        for _ in 0..rng.index(3) {
            spoil_places(rng, p.n, &mut self.places);
        }
        if rng.once_in(4) {
            spoil_message(rng, &mut self.message);
        }
        if rng.once_in(4) {
            // too long, often by one byte
            let surplus = rng.one_of(&[1, 1, 2, 300]);
            self.short = rng.bytes(short_message_bytes(p.n) + surplus);
        }
        for room in [&mut self.room, &mut self.message_room] {
            if rng.once_in(12) {
                *room = rng.one_of(&[0, *room - 1, *room + 1]);
            }
        }
    }
}

fn spoil_parameters(rng: &mut Rng, p: &mut Parameters) {
    let beyond = [4096, -4096, i32::MAX, i32::MIN];
    match rng.index(7) {
        0 => p.n = rng.one_of(&[0, 2, 1025, u32::MAX]),
        1 => p.c = rng.one_of(&beyond),
        2 => p.d = rng.one_of(&beyond),
        3 => (p.c, p.d) = rng.one_of(&[(4, 6), (0, 0), (-4094, 4094)]),
        4 => p.s = rng.one_of(&[0, 1, 4, 1026, u32::MAX]),
        5 => p.t = rng.one_of(&[0, 1025, u32::MAX]),
        _ => (p.c, p.d) = rng.one_of(&[(1, 0), (3, 4), (0, -13)]),
    }
}

fn spoil_array(rng: &mut Rng, array: &mut Vec<i32>) {
    let place = rng.index(array.len());
    match rng.index(6) {
        0 => array.truncate(rng.one_of(&[0, place])),
        1 => array.push(0),
        2 => array[place] = rng.one_of(&[i32::MAX, i32::MIN, 65537, -65535, 4096]),
        _ => array[place] = rng.one_of(&[-2, -1, 0, 1, 2]),
    }
}

fn spoil_stops(rng: &mut Rng, stops: &mut Vec<u16>) {
    let (i, j) = (rng.index(stops.len()), rng.index(stops.len()));
    match rng.index(6) {
        0 => stops.truncate(i),
        1 => stops.push(stops[i]),
        // twice, unless it is the same entry
        _ => stops[i] = stops[j],
    }
}

fn spoil_places(rng: &mut Rng, n: u32, places: &mut Vec<PlacedUnit>) {
    let k = rng.index(places.len());
    match rng.index(10) {
        0 => places.truncate(places.len() - 1),
        1 => places.push(places[k]),
        2 => places[k].place = rng.one_of(&[n, n + 1, 1024, 65536, u32::MAX]),
        3 => places[k].unit = rng.one_of(&[6, 7, 11, 256, 65537, 1 << 31, u32::MAX]),
        // a place that may be another one's, and a unit that may be another
        4 | 5 => places[k].place = rng.count(0, n),
        6 => places[k] = rng.one_of(places),
        _ => places[k].unit = rng.count(0, 6),
    }
}

fn spoil_message(rng: &mut Rng, message: &mut Vec<u8>) {
    match rng.index(4) {
        0 => message.truncate(message.len() - 1),
        1 => message.push(0),
        // it has spare bits but where N is a multiple of 4
        _ => message
            .iter_mut()
            .last()
            .into_iter()
            .for_each(|last| *last |= 1),
    }
}

/// Runs a call on many arguments; the numbers that it gives are these, in any order.
fn run<T>(
    test: u64,
    numbers: impl IntoIterator<Item = u32>,
    call: impl Fn(&mut Rng, &Arguments) -> Result<T, u32>,
) {
    let mut rng = Rng::new(test);
    let keys: Vec<Key> = (0..40).map(|_| Key::draw_small(&mut rng, 9)).collect();
    let mut met = BTreeSet::new();
    for round in 0..4000 {
        let mut arguments = Arguments::draw(&mut rng, &keys[round % keys.len()]);
        if round >= keys.len() {
            arguments.spoil(&mut rng);
        }
        met.insert(call(&mut rng, &arguments).err().unwrap_or(0));
    }
    assert_eq!(met, numbers.into_iter().collect());
}

#[test]
fn convolve() {
    run(21, (0..=7).chain([12]), |rng, a| {
        calls::convolve(rng, a.p, &a.h, &a.e, a.room)
    });
}

#[test]
fn check_key() {
    run(22, (0..=9).chain(11..=14), |rng, a| {
        calls::check_key(rng, a.p, [&a.f, &a.f2, &a.fq, &a.g], a.room)
    });
}

#[test]
fn seal() {
    run(23, (0..=7).chain([10, 12, 15]), |rng, a| {
        calls::seal(rng, a.p, &a.h, &a.phi, &a.message, a.room)
    });
}

#[test]
fn seal_places() {
    let numbers = (0..=7).chain([10, 12, 15, 23, 24]);
    run(34, numbers, |rng, a| {
        calls::seal_places(rng, a.p, &a.h, &a.places, &a.message, a.room)
    });
}

#[test]
fn spread_places() {
    run(35, (0..=7).chain([10, 23, 24]), |rng, a| {
        calls::spread_places(rng, a.p, &a.places, a.room)
    });
}

#[test]
fn open() {
    run(24, (0..=8).chain([11, 12]), |rng, a| {
        calls::open(rng, a.p, &a.f, &a.f2, &a.e, a.message_room)
    });
}

#[test]
fn pack() {
    run(25, [0, 1, 7, 15], |rng, a| {
        calls::pack(rng, a.p.n, &a.message, a.room)
    });
}

#[test]
fn unpack() {
    run(26, [0, 1, 7, 11], |rng, a| {
        calls::unpack(rng, a.p.n, &a.m, a.message_room)
    });
}

#[test]
fn seal_short() {
    run(64, (0..=7).chain([10, 12, 26]), |rng, a| {
        calls::seal_short(rng, a.p, &a.h, &a.phi, &a.short, a.room)
    });
}

#[test]
fn open_short() {
    run(65, (0..=8).chain([11, 12, 27]), |rng, a| {
        let room = about(rng, short_message_bytes(a.p.n.min(Parameters::MAX_N)));
        let e = rng.one_of(&[&a.e, &a.short_e]);
        calls::open_short(rng, a.p, &a.f, &a.f2, e, room)
    });
}

/// A length, or another one now and then.
fn about(rng: &mut Rng, length: usize) -> usize {
    match rng.index(8) {
        0 => rng.one_of(&[0, length.saturating_sub(1), length + 1]),
        _ => length,
    }
}

fn write(rng: &mut Rng, kind: Kind, p: Parameters, numbers: &[i32]) -> Result<Vec<u8>, u32> {
    let n = p.n.min(Parameters::MAX_N);
    let room = about(rng, file_bytes(kind, n));
    calls::write(rng, kind, p, numbers, room)
}

#[test]
fn write_public() {
    run(27, (0..=7).chain([12]), |rng, a| {
        write(rng, Kind::Public, a.p, &a.h)
    });
}

#[test]
fn write_private() {
    run(28, (0..=9).chain([11, 12]), |rng, a| {
        write(
            rng,
            Kind::Private,
            a.p,
            &[&a.f[..], &a.f2, &a.fq, &a.g].concat(),
        )
    });
}

#[test]
fn write_sealed() {
    run(29, (0..=7).chain([12]), |rng, a| {
        write(rng, Kind::Sealed, a.p, &a.e)
    });
}

#[test]
fn write_short() {
    run(66, (0..=7).chain([12]), |rng, a| {
        write(rng, Kind::Short, a.p, &a.e)
    });
}

/// The bytes of a file with these parts, right or wrong.
pub fn file_of(kind: u8, p: Parameters, numbers: &[i32]) -> Vec<u8> {
    let mut file = vec![b'E', b'I', b'Z', 0, 1, kind];
    file.extend(stored(&[p.n as i32, p.c, p.d, p.s as i32, p.t as i32]));
    file.extend(stored(numbers));
    file
}

/// The last 16 bits of each number.
fn stored(numbers: &[i32]) -> impl Iterator<Item = u8> + '_ {
    let halves = numbers.iter().map(|&number| number as i16);
    halves.flat_map(i16::to_be_bytes)
}

/// A byte of the mark, the version or the kind is changed now and then, or the end is moved.
fn damage(rng: &mut Rng, file: &mut Vec<u8>) {
    if rng.once_in(6) {
        let place = rng.index(6);
        file[place] = rng.one_of(&[0, 1, 2, 3, 4, 5, b'E', 255]);
    }
    match rng.index(16) {
        0 => file.truncate(rng.index(file.len())),
        1 => file.truncate(rng.index(16)),
        2 => file.push(0),
        _ => {}
    }
}

fn read(rng: &mut Rng, kind: Kind, p: Parameters, numbers: &[i32]) -> Result<Vec<i32>, u32> {
    let mut file = file_of(kind as u8, p, numbers);
    damage(rng, &mut file);
    let _ = calls::read_head(kind, &file);
    let room = about(rng, file_numbers(kind, p.n.min(Parameters::MAX_N)));
    calls::read(rng, kind, &file, room)
}

#[test]
fn read_public() {
    run(30, (0..=7).chain([12]).chain(16..=19), |rng, a| {
        read(rng, Kind::Public, a.p, &a.h)
    });
}

#[test]
fn read_private() {
    run(31, (0..=9).chain([11, 12]).chain(16..=19), |rng, a| {
        read(
            rng,
            Kind::Private,
            a.p,
            &[&a.f[..], &a.f2, &a.fq, &a.g].concat(),
        )
    });
}

#[test]
fn read_sealed() {
    run(32, (0..=7).chain([12]).chain(16..=19), |rng, a| {
        read(rng, Kind::Sealed, a.p, &a.e)
    });
}

#[test]
fn read_short() {
    run(67, (0..=7).chain([12]).chain(16..=19), |rng, a| {
        read(rng, Kind::Short, a.p, &a.e)
    });
}

#[test]
fn write_bundle() {
    run(36, (0..=7).chain([12, 25]), |rng, a| {
        let room = about(rng, bundle_bytes(a.p.n.min(Parameters::MAX_N), 3));
        calls::write_bundle(rng, a.p, &a.stops, &a.arrays.concat(), room)
    });
}

/// The bytes of a bundle with these parts, right or wrong.
fn bundle_of(p: Parameters, stops: &[u16], arrays: &[Vec<i32>]) -> Vec<u8> {
    let mut file = file_of(4, p, &[]);
    file.extend((stops.len() as u16).to_be_bytes());
    for (stop, array) in stops.iter().zip(arrays) {
        file.extend(stop.to_be_bytes());
        file.extend(stored(array));
    }
    file
}

#[test]
fn read_bundle() {
    let numbers = (0..=7).chain([12, 25]).chain(16..=19);
    run(37, numbers, |rng, a| {
        let mut file = bundle_of(a.p, &a.stops, &a.arrays);
        damage(rng, &mut file);
        let (stops, numbers) = match calls::read_bundle_head(&file) {
            Ok(head) => (head.count, 2 * head.parameters.n as usize * head.count),
            Err(_) => (3, 18),
        };
        let _ = calls::walk(&file);
        let rooms = (about(rng, stops), about(rng, numbers));
        calls::read_bundle(rng, &file, rooms)
    });
}

#[test]
fn open_entry() {
    run(38, (0..=8).chain([11, 12]), |rng, a| {
        let part: Vec<u8> = stored(&a.e).collect();
        calls::open_entry(rng, a.p, &a.f, &a.f2, &part, a.message_room)
    });
}

/// The number at the front of the line.
#[test]
fn open_files() {
    run(33, (0..=9).chain(11..=14).chain(16..=20), |rng, a| {
        let mut input = file_of(2, a.p, &[&a.f[..], &a.f2, &a.fq, &a.g].concat());
        let mut sealed_p = a.p;
        if rng.once_in(6) {
            spoil_parameters(rng, &mut sealed_p);
        }
        if rng.once_in(6) {
            // no call but this compares parameters: a set that may be right too
            sealed_p.t = rng.count(1, 3);
        }
        let mut second = file_of(3, sealed_p, &a.e);
        if rng.once_in(2) {
            damage(rng, &mut second);
        } else if rng.once_in(2) {
            damage(rng, &mut input);
        }
        input.extend(second);
        let line = String::from_utf8(calls::open_files(rng, &input)).expect("a line is ASCII");
        match line.split(' ').next().map(str::parse) {
            Some(Ok(0)) => Ok(()),
            Some(Ok(number)) => Err(number),
            _ => panic!("no number: {line}"),
        }
    });
}
