//! Each call, held against its definition: its number, and its output, which lies within a longer
//! array of random numbers. Returns what the definition gives.

use std::fmt::Debug;

use etru::{Bundle, BundleHead, Error, Kind, Pair, Parameters, PlacedUnit};

use crate::definitions::{self, Value};
use crate::drawing::Rng;

const MARGIN: usize = 5;

/// A result of the crate, in the form of the definitions'.
pub fn numbered<T>(result: Result<T, Error>) -> Result<T, u32> {
    result.map_err(Error::number)
}

fn pair(value: Value) -> Pair {
    Pair {
        a: value.0 as i32,
        b: value.1 as i32,
    }
}

/// `before` is what stands in and around the output.
fn agree<T: Copy + Debug + PartialEq>(
    before: Vec<T>,
    wanted: &Result<Vec<T>, u32>,
    call: impl FnOnce(&mut [T]) -> Result<(), Error>,
) {
    let room = MARGIN..before.len() - MARGIN;
    let mut lent = before.clone();
    let number = numbered(call(&mut lent[room.clone()]));
    let mut after = before;
    if let Ok(values) = wanted {
        after[room].copy_from_slice(values);
    }
    assert_eq!(
        number,
        wanted.as_ref().map(|_| ()).map_err(|&number| number)
    );
    assert_eq!(lent, after);
}

fn agree_on_numbers(
    rng: &mut Rng,
    room: usize,
    wanted: Result<Vec<i32>, u32>,
    call: impl FnOnce(&mut [i32]) -> Result<(), Error>,
) -> Result<Vec<i32>, u32> {
    agree(rng.numbers(room + 2 * MARGIN), &wanted, call);
    wanted
}

fn agree_on_bytes(
    rng: &mut Rng,
    room: usize,
    wanted: Result<Vec<u8>, u32>,
    call: impl FnOnce(&mut [u8]) -> Result<(), Error>,
) -> Result<Vec<u8>, u32> {
    agree(rng.bytes(room + 2 * MARGIN), &wanted, call);
    wanted
}

/// A call that writes to the front of its output and returns that part. What stands behind it is to
/// be left as it came.
fn agree_on_front(
    rng: &mut Rng,
    room: usize,
    wanted: Result<Vec<u8>, u32>,
    call: impl FnOnce(&mut [u8]) -> Result<&[u8], Error>,
) -> Result<Vec<u8>, u32> {
    let before = rng.bytes(room + 2 * MARGIN);
    let whole = wanted.clone().map(|front| {
        let behind = &before[MARGIN + front.len()..MARGIN + room];
        [&front, behind].concat()
    });
    agree(before, &whole, |lent| {
        let start = lent.as_ptr();
        let front = call(lent)?;
        assert_eq!(front.as_ptr(), start);
        assert_eq!(Ok(front), wanted.as_deref().map_err(|&number| number));
        Ok(())
    });
    wanted
}

pub fn reduce_q(x: Value, q: Value) -> Result<Value, u32> {
    let wanted = definitions::reduce_q(x, q);
    let given = etru::reduce_q(x.0, x.1, q.0 as i32, q.1 as i32);
    assert_eq!(numbered(given), wanted.map(pair), "{x:?} modulo {q:?}");
    wanted
}

pub fn reduce_2(x: Value) -> Result<Value, u32> {
    let wanted = definitions::reduce_2(x);
    assert_eq!(
        numbered(etru::reduce_2(x.0, x.1)),
        wanted.map(pair),
        "{x:?} modulo 2"
    );
    wanted
}

pub fn check_parameters(p: Parameters) -> Result<(), u32> {
    let wanted = definitions::check_parameters(p);
    assert_eq!(numbered(p.check()), wanted, "{p:?}");
    let made = Parameters::new(p.n, p.c, p.d, p.s, p.t);
    assert_eq!(numbered(made), wanted.map(|()| p), "{p:?}");
    wanted
}

pub fn convolve(
    rng: &mut Rng,
    p: Parameters,
    x: &[i32],
    y: &[i32],
    room: usize,
) -> Result<Vec<i32>, u32> {
    let wanted = definitions::convolve(p, x, y, room);
    agree_on_numbers(rng, room, wanted, |out| etru::convolve(p, x, y, out))
}

pub fn check_key(
    rng: &mut Rng,
    p: Parameters,
    key: [&[i32]; 4],
    room: usize,
) -> Result<Vec<i32>, u32> {
    let wanted = definitions::check_key(p, key, room);
    let [f, f2, fq, g] = key;
    agree_on_numbers(rng, room, wanted, |h| etru::check_key(p, f, f2, fq, g, h))
}

pub fn seal(
    rng: &mut Rng,
    p: Parameters,
    h: &[i32],
    phi: &[i32],
    message: &[u8],
    room: usize,
) -> Result<Vec<i32>, u32> {
    let wanted = definitions::seal(p, h, phi, message, room);
    agree_on_numbers(rng, room, wanted, |e| etru::seal(p, h, phi, message, e))
}

pub fn seal_places(
    rng: &mut Rng,
    p: Parameters,
    h: &[i32],
    places: &[PlacedUnit],
    message: &[u8],
    room: usize,
) -> Result<Vec<i32>, u32> {
    let wanted = definitions::seal_places(p, h, places, message, room);
    agree_on_numbers(rng, room, wanted, |e| {
        etru::seal_places(p, h, places, message, e)
    })
}

pub fn spread_places(
    rng: &mut Rng,
    p: Parameters,
    places: &[PlacedUnit],
    room: usize,
) -> Result<Vec<i32>, u32> {
    let wanted = definitions::spread_places(p, places, room);
    agree_on_numbers(rng, room, wanted, |phi| etru::spread_places(p, places, phi))
}

pub fn open(
    rng: &mut Rng,
    p: Parameters,
    f: &[i32],
    f2: &[i32],
    e: &[i32],
    room: usize,
) -> Result<Vec<u8>, u32> {
    let wanted = definitions::open(p, f, f2, e, room);
    agree_on_bytes(rng, room, wanted, |message| {
        etru::open(p, f, f2, e, message)
    })
}

pub fn seal_short(
    rng: &mut Rng,
    p: Parameters,
    h: &[i32],
    phi: &[i32],
    short: &[u8],
    room: usize,
) -> Result<Vec<i32>, u32> {
    let wanted = definitions::seal_short(p, h, phi, short, room);
    agree_on_numbers(rng, room, wanted, |e| etru::seal_short(p, h, phi, short, e))
}

/// Returns the short message.
pub fn open_short(
    rng: &mut Rng,
    p: Parameters,
    f: &[i32],
    f2: &[i32],
    e: &[i32],
    room: usize,
) -> Result<Vec<u8>, u32> {
    let wanted = definitions::open_short(p, f, f2, e, room);
    agree_on_front(rng, room, wanted, |message| {
        etru::open_short(p, f, f2, e, message)
    })
}

pub fn pack(rng: &mut Rng, n: u32, message: &[u8], room: usize) -> Result<Vec<i32>, u32> {
    let wanted = definitions::pack(n, message, room);
    agree_on_numbers(rng, room, wanted, |m| etru::pack(n, message, m))
}

pub fn unpack(rng: &mut Rng, n: u32, m: &[i32], room: usize) -> Result<Vec<u8>, u32> {
    let wanted = definitions::unpack(n, m, room);
    agree_on_bytes(rng, room, wanted, |message| etru::unpack(n, m, message))
}

pub fn read_head(kind: Kind, file: &[u8]) -> Result<Parameters, u32> {
    let wanted = definitions::read_head(kind, file);
    assert_eq!(numbered(etru::read_head(kind, file)), wanted);
    wanted
}

pub fn read(rng: &mut Rng, kind: Kind, file: &[u8], room: usize) -> Result<Vec<i32>, u32> {
    let wanted = definitions::read(kind, file, room);
    agree_on_numbers(rng, room, wanted, |numbers| etru::read(kind, file, numbers))
}

pub fn write(
    rng: &mut Rng,
    kind: Kind,
    p: Parameters,
    numbers: &[i32],
    room: usize,
) -> Result<Vec<u8>, u32> {
    let wanted = definitions::write(kind, p, numbers, room);
    agree_on_bytes(rng, room, wanted, |file| {
        etru::write(kind, p, numbers, file)
    })
}

pub fn read_bundle_head(file: &[u8]) -> Result<BundleHead, u32> {
    let wanted = definitions::read_bundle_head(file);
    assert_eq!(numbered(etru::read_bundle_head(file)), wanted);
    wanted
}

/// Both outputs are written, or neither is.
pub fn read_bundle(
    rng: &mut Rng,
    file: &[u8],
    rooms: (usize, usize),
) -> Result<(Vec<u32>, Vec<i32>), u32> {
    let wanted = definitions::read_bundle(file, Some(rooms));
    let stops = wanted.clone().map(|(stops, _)| stops);
    let numbers = wanted.clone().map(|(_, numbers)| numbers);
    let before = rng.numbers(rooms.0 + 2 * MARGIN);
    let before = before.into_iter().map(|number| number as u32).collect();
    agree(before, &stops, |stops| {
        let mut given = Ok(());
        agree(rng.numbers(rooms.1 + 2 * MARGIN), &numbers, |numbers| {
            given = etru::read_bundle(file, stops, numbers);
            given
        });
        given
    });
    wanted
}

pub fn write_bundle(
    rng: &mut Rng,
    p: Parameters,
    stops: &[u16],
    numbers: &[i32],
    room: usize,
) -> Result<Vec<u8>, u32> {
    let wanted = definitions::write_bundle(p, stops, numbers, room);
    agree_on_bytes(rng, room, wanted, |file| {
        etru::write_bundle(p, stops, numbers, file)
    })
}

pub fn open_entry(
    rng: &mut Rng,
    p: Parameters,
    f: &[i32],
    f2: &[i32],
    part: &[u8],
    room: usize,
) -> Result<Vec<u8>, u32> {
    let wanted = definitions::open_entry(p, f, f2, part, room);
    agree_on_bytes(rng, room, wanted, |message| {
        etru::open_entry(p, f, f2, part, message)
    })
}

/// Makes a bundle of these bytes and walks it: its parameters, and its entries, each a part of the
/// bytes themselves. Returns the number of entries.
pub fn walk(file: &[u8]) -> Result<usize, u32> {
    let wanted = definitions::read_bundle(file, None);
    let made = numbered(Bundle::new(file));
    assert_eq!(
        made.map(|_| ()),
        wanted.as_ref().map(|_| ()).map_err(|&number| number)
    );
    let bundle = made?;
    let p = bundle.parameters();
    let stored = definitions::entries(file, p.n);
    assert_eq!(numbered(etru::read_head(Kind::Bundle, file)), Ok(p));
    assert_eq!(bundle.len(), stored.len());
    assert_eq!(bundle.is_empty(), stored.is_empty());
    let mut entries = bundle.entries();
    for (k, (stop, part)) in stored.iter().enumerate() {
        assert_eq!(entries.len(), stored.len() - k);
        let entry = entries.next().expect("an entry is left");
        assert_eq!((entry.stop, entry.part), (*stop, &part[..]));
        let start = 18 + (2 + 4 * p.n as usize) * k;
        assert!(std::ptr::eq(entry.part, &file[start + 2..][..part.len()]));
    }
    for _ in 0..3 {
        assert_eq!(entries.len(), 0);
        assert_eq!(entries.next(), None);
    }
    Ok(stored.len())
}

/// Returns the line.
pub fn open_files(rng: &mut Rng, input: &[u8]) -> Vec<u8> {
    let wanted = Ok(definitions::line(input));
    let line = agree_on_front(rng, etru::LINE_BYTES, wanted, |line| {
        etru::open_files(input, line)
    });
    line.expect("every input has its line")
}
