//! The documents in plain Rust, to be obviously right rather than fast. A call gives its value or a
//! refusal's number; `room` is the length of the output that it is lent.

use etru::{BundleHead, Kind, Parameters, PlacedUnit};

// ---- The ring

/// a + bω.
pub type Value = (i64, i64);

pub const UNITS: [Value; 6] = [(1, 0), (1, 1), (0, 1), (-1, 0), (-1, -1), (0, -1)];

pub fn add(x: Value, y: Value) -> Value {
    (x.0 + y.0, x.1 + y.1)
}

pub fn subtract(x: Value, y: Value) -> Value {
    (x.0 - y.0, x.1 - y.1)
}

pub fn multiply((a, b): Value, (c, d): Value) -> Value {
    (a * c - b * d, a * d + b * c - b * d)
}

pub fn norm((a, b): Value) -> i64 {
    a * a - a * b + b * b
}

// ---- Reduction

/// x times the conjugate of q: the quotient x/q is this over the norm of q.
fn quotient_times_norm(x: Value, (c, d): Value) -> Value {
    multiply(x, (c - d, -d))
}

pub fn congruent(x: Value, y: Value, q: Value) -> bool {
    let (u, v) = quotient_times_norm(subtract(x, y), q);
    u % norm(q) == 0 && v % norm(q) == 0
}

/// "the smallest norm; of several, the one with the larger a, then the larger b"
fn best(values: impl Iterator<Item = Value>) -> Value {
    values
        .min_by_key(|&(a, b)| (norm((a, b)), -a, -b))
        .expect("a class has values")
}

/// The norm of x − qz is that of q times the squared distance of z from x/q, so a z that is more
/// than 2 from it at a part is never best.
pub fn remainder_q(x: Value, q: Value) -> Value {
    let (u, v) = quotient_times_norm(x, q);
    let (u, v) = (u.div_euclid(norm(q)), v.div_euclid(norm(q)));
    let near = (u - 2..=u + 2).flat_map(|a| (v - 2..=v + 2).map(move |b| (a, b)));
    best(near.map(|z| subtract(x, multiply(q, z))))
}

/// The same for a small q, by going through every value whose norm is not above that of q.
pub fn remainder_q_by_listing(x: Value, q: Value) -> Value {
    let most = 2 * q.0.abs().max(q.1.abs());
    let all = (-most..=most).flat_map(|a| (-most..=most).map(move |b| (a, b)));
    best(all.filter(|&r| norm(r) <= norm(q) && congruent(x, r, q)))
}

pub fn remainder_2((a, b): Value) -> Value {
    match (a.rem_euclid(2), b.rem_euclid(2)) {
        (1, 1) => (-1, -1),
        r => r,
    }
}

// ---- Refusals

fn refuse(number: u32, applies: bool) -> Result<(), u32> {
    if applies {
        Err(number)
    } else {
        Ok(())
    }
}

fn beyond(x: Value, limit: i64) -> bool {
    let range = -limit..=limit;
    !range.contains(&x.0) || !range.contains(&x.1)
}

pub fn reduce_q(x: Value, q: Value) -> Result<Value, u32> {
    refuse(2, beyond(q, 4095))?;
    refuse(21, q == (0, 0))?;
    refuse(22, beyond(x, 1 << 40))?;
    Ok(remainder_q(x, q))
}

pub fn reduce_2(x: Value) -> Result<Value, u32> {
    refuse(22, beyond(x, 1 << 40))?;
    Ok(remainder_2(x))
}

pub fn modulus(p: Parameters) -> Value {
    (p.c.into(), p.d.into())
}

pub fn check_parameters(p: Parameters) -> Result<(), u32> {
    let q = modulus(p);
    let [n, s, t] = [p.n, p.s, p.t].map(i64::from);
    refuse(1, !(3..=1024).contains(&n))?;
    refuse(2, beyond(q, 4095))?;
    refuse(3, q.0 % 2 == 0 && q.1 % 2 == 0)?;
    refuse(4, !(3..=n).contains(&s) || s % 3 != 0)?;
    refuse(5, !(1..=n).contains(&t))?;
    refuse(6, 4 * (2 * s + t).pow(2) >= norm(q))
}

// ---- Polynomials

pub fn coefficients(array: &[i32]) -> Vec<Value> {
    let pairs = array.chunks_exact(2);
    pairs.map(|pair| (pair[0].into(), pair[1].into())).collect()
}

pub fn array(polynomial: &[Value]) -> Vec<i32> {
    let parts = polynomial.iter().flat_map(|&(a, b)| [a, b]);
    parts
        .map(|part| part.try_into().expect("it fits"))
        .collect()
}

/// "Coefficient i of a convolution is the sum of products of coefficients j and k with (j + k) mod
/// N = i."
pub fn convolution(x: &[Value], y: &[Value]) -> Vec<Value> {
    let n = x.len();
    let mut out = vec![(0, 0); n];
    for (j, &xj) in x.iter().enumerate() {
        for (k, &yk) in y.iter().enumerate() {
            let i = (j + k) % n;
            out[i] = add(out[i], multiply(xj, yk));
        }
    }
    out
}

pub fn one(n: usize) -> Vec<Value> {
    let mut one = vec![(0, 0); n];
    one[0] = (1, 0);
    one
}

pub fn all_remainders_q(x: &[Value], q: Value) -> Vec<Value> {
    x.iter().map(|&value| remainder_q(value, q)).collect()
}

pub fn all_remainders_2(x: &[Value]) -> Vec<Value> {
    x.iter().map(|&value| remainder_2(value)).collect()
}

fn reduced_q(x: &[i32], q: Value) -> bool {
    all_remainders_q(&coefficients(x), q) == coefficients(x)
}

fn reduced_2(x: &[i32]) -> bool {
    all_remainders_2(&coefficients(x)) == coefficients(x)
}

/// "exactly so many nonzero coefficients, each a unit"
fn units_only(x: &[i32], count: u32) -> bool {
    let mut nonzero = coefficients(x);
    nonzero.retain(|&value| value != (0, 0));
    nonzero.len() == count as usize && nonzero.iter().all(|value| UNITS.contains(value))
}

/// Document 02: "equally many of units 0, 2 and 4, and equally many of units 1, 3 and 5"
fn whole_triples(x: &[i32], count: u32) -> bool {
    let values = coefficients(x);
    let [k0, k1, k2, k3, k4, k5] =
        UNITS.map(|unit| values.iter().filter(|&&value| value == unit).count());
    units_only(x, count) && k0 == k2 && k2 == k4 && k1 == k3 && k3 == k5
}

// ---- Calls on a parameter set

fn all_full(p: Parameters, lengths: &[usize]) -> bool {
    lengths.iter().all(|&length| length == 2 * p.n as usize)
}

pub fn convolve(p: Parameters, x: &[i32], y: &[i32], room: usize) -> Result<Vec<i32>, u32> {
    let q = modulus(p);
    check_parameters(p)?;
    refuse(7, !all_full(p, &[x.len(), y.len(), room]))?;
    refuse(12, !reduced_q(x, q) || !reduced_q(y, q))?;
    let product = convolution(&coefficients(x), &coefficients(y));
    Ok(array(&all_remainders_q(&product, q)))
}

/// Refusals 13 and 14.
fn check_inverses(p: Parameters, f: &[i32], f2: &[i32], fq: &[i32]) -> Result<(), u32> {
    let one = one(p.n as usize);
    let f = coefficients(f);
    let product = convolution(&f, &coefficients(f2));
    refuse(13, !all_congruent(&product, &one, (2, 0)))?;
    let product = convolution(&f, &coefficients(fq));
    refuse(14, !all_congruent(&product, &one, modulus(p)))
}

fn all_congruent(x: &[Value], y: &[Value], q: Value) -> bool {
    x.iter().zip(y).all(|(&xi, &yi)| congruent(xi, yi, q))
}

pub fn check_key(p: Parameters, [f, f2, fq, g]: [&[i32]; 4], room: usize) -> Result<Vec<i32>, u32> {
    let q = modulus(p);
    check_parameters(p)?;
    refuse(
        7,
        !all_full(p, &[f.len(), f2.len(), fq.len(), g.len(), room]),
    )?;
    refuse(8, !units_only(f, p.t))?;
    refuse(11, !reduced_2(f2))?;
    refuse(12, !reduced_q(fq, q))?;
    refuse(9, !whole_triples(g, p.s))?;
    check_inverses(p, f, f2, fq)?;
    let h = convolution(&coefficients(fq), &coefficients(g));
    Ok(array(&all_remainders_q(&h, q)))
}

pub fn seal(
    p: Parameters,
    h: &[i32],
    phi: &[i32],
    message: &[u8],
    room: usize,
) -> Result<Vec<i32>, u32> {
    let q = modulus(p);
    check_parameters(p)?;
    refuse(7, !all_full(p, &[h.len(), phi.len(), room]))?;
    refuse(7, message.len() != message_bytes(p.n))?;
    refuse(12, !reduced_q(h, q))?;
    refuse(10, !whole_triples(phi, p.s))?;
    refuse(15, spare_bit_set(p.n, message))?;
    let phi = coefficients(phi);
    let doubled: Vec<Value> = phi.iter().map(|&value| multiply((2, 0), value)).collect();
    let product = convolution(&doubled, &coefficients(h));
    let sum: Vec<Value> = product
        .into_iter()
        .zip(packed(p.n, message))
        .map(|(x, m)| add(x, m))
        .collect();
    Ok(array(&all_remainders_q(&sum, q)))
}

/// Document 02: "a lent list of records, each a place and a unit number".
fn spread(n: u32, places: &[PlacedUnit]) -> Vec<i32> {
    let unit_at = |i| match places.iter().find(|record| record.place == i) {
        Some(record) => UNITS[record.unit as usize],
        None => (0, 0),
    };
    array(&(0..n).map(unit_at).collect::<Vec<Value>>())
}

/// Refusals 23, 24 and 10, "with 23 first over the whole list".
fn check_places(p: Parameters, places: &[PlacedUnit]) -> Result<(), u32> {
    let out_of_range = |record: &PlacedUnit| record.place >= p.n || record.unit > 5;
    refuse(23, places.iter().any(out_of_range))?;
    let occurs_again = |(k, record): (usize, &PlacedUnit)| {
        let later = &places[k + 1..];
        later.iter().any(|other| other.place == record.place)
    };
    refuse(24, places.iter().enumerate().any(occurs_again))?;
    refuse(10, !whole_triples(&spread(p.n, places), p.s))
}

pub fn seal_places(
    p: Parameters,
    h: &[i32],
    places: &[PlacedUnit],
    message: &[u8],
    room: usize,
) -> Result<Vec<i32>, u32> {
    check_parameters(p)?;
    refuse(7, places.len() != p.s as usize)?;
    refuse(7, !all_full(p, &[h.len(), room]))?;
    refuse(7, message.len() != message_bytes(p.n))?;
    refuse(12, !reduced_q(h, modulus(p)))?;
    check_places(p, places)?;
    // "what sealing from the full array gives"; 15 is left
    seal(p, h, &spread(p.n, places), message, room)
}

pub fn spread_places(p: Parameters, places: &[PlacedUnit], room: usize) -> Result<Vec<i32>, u32> {
    check_parameters(p)?;
    refuse(7, places.len() != p.s as usize)?;
    refuse(7, !all_full(p, &[room]))?;
    check_places(p, places)?;
    Ok(spread(p.n, places))
}

pub fn open(p: Parameters, f: &[i32], f2: &[i32], e: &[i32], room: usize) -> Result<Vec<u8>, u32> {
    let q = modulus(p);
    check_parameters(p)?;
    refuse(7, !all_full(p, &[f.len(), f2.len(), e.len()]))?;
    refuse(7, room != message_bytes(p.n))?;
    refuse(8, !units_only(f, p.t))?;
    refuse(11, !reduced_2(f2))?;
    refuse(12, !reduced_q(e, q))?;
    let a = all_remainders_q(&convolution(&coefficients(f), &coefficients(e)), q);
    let m = all_remainders_2(&convolution(&coefficients(f2), &a));
    Ok(unpacked(&m))
}

// ---- Messages

/// "N/4 bytes, rounded up"
pub fn message_bytes(n: u32) -> usize {
    (f64::from(n) / 4.0).ceil() as usize
}

/// "highest bit first"
fn bits(message: &[u8]) -> Vec<u8> {
    let bytes = message.iter();
    bytes
        .flat_map(|byte| (0..8).rev().map(move |place| byte >> place & 1))
        .collect()
}

fn spare_bit_set(n: u32, message: &[u8]) -> bool {
    bits(message)[2 * n as usize..].contains(&1)
}

fn packed(n: u32, message: &[u8]) -> Vec<Value> {
    let bits = bits(message);
    let pairs = bits.chunks(2).take(n as usize);
    let pair = |pair: &[u8]| match (pair[0], pair[1]) {
        (1, 1) => (-1, -1),
        (a, b) => (a.into(), b.into()),
    };
    pairs.map(pair).collect()
}

/// The bytes of these bits; spare ones are zero.
fn bytes(bits: &[u8]) -> Vec<u8> {
    let byte = |bits: &[u8]| {
        let places = bits.iter().zip((0..8).rev());
        places.map(|(&bit, place)| bit << place).sum()
    };
    bits.chunks(8).map(byte).collect()
}

fn unpacked(m: &[Value]) -> Vec<u8> {
    let parts = m.iter().flat_map(|&(a, b)| [a, b]);
    bytes(&parts.map(|part| u8::from(part != 0)).collect::<Vec<u8>>())
}

pub fn pack(n: u32, message: &[u8], room: usize) -> Result<Vec<i32>, u32> {
    refuse(1, !(3..=1024).contains(&n))?;
    refuse(
        7,
        message.len() != message_bytes(n) || room != 2 * n as usize,
    )?;
    refuse(15, spare_bit_set(n, message))?;
    Ok(array(&packed(n, message)))
}

pub fn unpack(n: u32, m: &[i32], room: usize) -> Result<Vec<u8>, u32> {
    refuse(1, !(3..=1024).contains(&n))?;
    refuse(7, m.len() != 2 * n as usize || room != message_bytes(n))?;
    refuse(11, !reduced_2(m))?;
    Ok(unpacked(&coefficients(m)))
}

// ---- Short messages, document 02: "n whole bytes with 8n + 1 at most 2N"

/// "the largest output, (2N − 1)/8 bytes rounded down"
pub fn short_message_bytes(n: u32) -> usize {
    ((2.0 * f64::from(n) - 1.0) / 8.0).floor() as usize
}

/// The message of a short one: "after its bits comes one 1 bit, then zeros up to 2N".
pub fn padded(n: u32, short: &[u8]) -> Vec<u8> {
    let mut padded = bits(short);
    padded.push(1);
    padded.resize(2 * n as usize, 0);
    bytes(&padded)
}

/// The bytes before the last 1; "27 ... if there is no 1 bit or the last one stands at a bit
/// position, counted from 0, that is not a multiple of 8".
fn short_of(message: &[u8]) -> Result<Vec<u8>, u32> {
    let Some(last) = bits(message).iter().rposition(|&bit| bit == 1) else {
        return Err(27);
    };
    refuse(27, last % 8 != 0)?;
    Ok(message[..last / 8].to_vec())
}

pub fn seal_short(
    p: Parameters,
    h: &[i32],
    phi: &[i32],
    short: &[u8],
    room: usize,
) -> Result<Vec<i32>, u32> {
    check_parameters(p)?;
    refuse(7, !all_full(p, &[h.len(), phi.len(), room]))?;
    refuse(12, !reduced_q(h, modulus(p)))?;
    refuse(10, !whole_triples(phi, p.s))?;
    refuse(26, 8 * short.len() + 1 > 2 * p.n as usize)?;
    // nothing is left to refuse
    seal(p, h, phi, &padded(p.n, short), room)
}

pub fn open_short(
    p: Parameters,
    f: &[i32],
    f2: &[i32],
    e: &[i32],
    room: usize,
) -> Result<Vec<u8>, u32> {
    check_parameters(p)?;
    refuse(7, room != short_message_bytes(p.n))?;
    // 7 for the arrays, 8, 11 and 12, and "after the arithmetic" 27
    short_of(&open(p, f, f2, e, message_bytes(p.n))?)
}

// ---- Files

fn array_count(kind: Kind) -> usize {
    match kind {
        Kind::Public => 1,
        Kind::Private => 4,
        Kind::Sealed => 1,
        Kind::Bundle => 0,
        // "laid out like kind 3"
        Kind::Short => 1,
    }
}

pub fn file_numbers(kind: Kind, n: u32) -> usize {
    2 * n as usize * array_count(kind)
}

pub fn file_bytes(kind: Kind, n: u32) -> usize {
    match kind {
        Kind::Bundle => bundle_bytes(n, 0),
        _ => 16 + 4 * n as usize * array_count(kind),
    }
}

/// Refusal 7; a bundle is not made of arrays alone, so no length of its arrays is right.
fn check_lengths(kind: Kind, n: u32, bytes: usize, numbers: usize) -> Result<(), u32> {
    let right = (bytes, numbers) == (file_bytes(kind, n), file_numbers(kind, n));
    refuse(7, kind == Kind::Bundle || !right)
}

fn check_arrays(kind: Kind, p: Parameters, numbers: &[i32]) -> Result<(), u32> {
    let q = modulus(p);
    let arrays: Vec<&[i32]> = numbers.chunks(2 * p.n as usize).collect();
    match kind {
        Kind::Public | Kind::Sealed | Kind::Short => refuse(12, !reduced_q(arrays[0], q)),
        Kind::Private => {
            refuse(8, !units_only(arrays[0], p.t))?;
            refuse(11, !reduced_2(arrays[1]))?;
            refuse(12, !reduced_q(arrays[2], q))?;
            refuse(9, !whole_triples(arrays[3], p.s))
        }
        Kind::Bundle => unreachable!("refusal 7 comes first"),
    }
}

pub fn read_head(kind: Kind, file: &[u8]) -> Result<Parameters, u32> {
    refuse(16, file.len() < 16)?;
    refuse(17, !file.starts_with(b"EIZ"))?;
    refuse(18, file[3..5] != [0, 1])?;
    refuse(19, file[5] != kind as u8)?;
    let unsigned = |at: usize| u16::from_be_bytes([file[at], file[at + 1]]);
    let signed = |at: usize| i16::from_be_bytes([file[at], file[at + 1]]);
    let p = Parameters {
        n: unsigned(6).into(),
        c: signed(8).into(),
        d: signed(10).into(),
        s: unsigned(12).into(),
        t: unsigned(14).into(),
    };
    check_parameters(p)?;
    Ok(p)
}

pub fn read(kind: Kind, file: &[u8], room: usize) -> Result<Vec<i32>, u32> {
    let p = read_head(kind, file)?;
    check_lengths(kind, p.n, file.len(), room)?;
    let numbers = signed_numbers(&file[16..]);
    check_arrays(kind, p, &numbers)?;
    Ok(numbers)
}

pub fn signed_numbers(stored: &[u8]) -> Vec<i32> {
    let pairs = stored.chunks(2);
    pairs
        .map(|pair| i16::from_be_bytes([pair[0], pair[1]]).into())
        .collect()
}

/// The first 16 bytes of a file.
fn head(kind: Kind, p: Parameters) -> Vec<u8> {
    let mut head = b"EIZ\x00\x01".to_vec();
    head.push(kind as u8);
    for number in [p.n as i32, p.c, p.d, p.s as i32, p.t as i32] {
        head.extend((number as i16).to_be_bytes());
    }
    head
}

pub fn write(kind: Kind, p: Parameters, numbers: &[i32], room: usize) -> Result<Vec<u8>, u32> {
    check_parameters(p)?;
    check_lengths(kind, p.n, room, numbers.len())?;
    check_arrays(kind, p, numbers)?;
    let mut file = head(kind, p);
    for &number in numbers {
        file.extend((number as i16).to_be_bytes());
    }
    Ok(file)
}

// ---- Bundles, document 02: "the usual 16-byte head, a 16-bit count, then that many entries: a
// ---- 16-bit stop number and a sealed array of 4N bytes"

pub fn bundle_bytes(n: u32, count: usize) -> usize {
    16 + 2 + (2 + 4 * n as usize) * count
}

/// "A file is at most 65,536 bytes, else refusal 7."
fn check_bundle_length(n: u32, count: usize, bytes: usize) -> Result<(), u32> {
    refuse(7, bytes != bundle_bytes(n, count) || bytes > 65_536)
}

/// "25 if a stop number occurs twice, after 7 and before the entries' own 12"
fn check_entries(p: Parameters, stops: &[u32], numbers: &[i32]) -> Result<(), u32> {
    let occurs_again = |(k, stop): (usize, &u32)| stops[k + 1..].contains(stop);
    refuse(25, stops.iter().enumerate().any(occurs_again))?;
    refuse(12, !reduced_q(numbers, modulus(p)))
}

pub fn read_bundle_head(file: &[u8]) -> Result<BundleHead, u32> {
    let parameters = read_head(Kind::Bundle, file)?;
    refuse(7, file.len() < 18)?;
    let count = usize::from(u16::from_be_bytes([file[16], file[17]]));
    check_bundle_length(parameters.n, count, file.len())?;
    Ok(BundleHead { parameters, count })
}

/// The stops and the arrays' bytes of a bundle whose head is right.
pub fn entries(file: &[u8], n: u32) -> Vec<(u32, Vec<u8>)> {
    let entries = file[18..].chunks(2 + 4 * n as usize);
    entries
        .map(|entry| {
            let stop = u16::from_be_bytes([entry[0], entry[1]]);
            (stop.into(), entry[2..].to_vec())
        })
        .collect()
}

/// The stops and the numbers; `rooms` are those of both, where they are lent.
pub fn read_bundle(
    file: &[u8],
    rooms: Option<(usize, usize)>,
) -> Result<(Vec<u32>, Vec<i32>), u32> {
    let BundleHead { parameters, count } = read_bundle_head(file)?;
    let n = parameters.n;
    let right = (count, 2 * n as usize * count);
    refuse(7, rooms.is_some_and(|rooms| rooms != right))?;
    let entries = entries(file, n);
    let stops: Vec<u32> = entries.iter().map(|entry| entry.0).collect();
    let arrays = entries.iter().map(|entry| signed_numbers(&entry.1));
    let numbers = arrays.collect::<Vec<Vec<i32>>>().concat();
    check_entries(parameters, &stops, &numbers)?;
    Ok((stops, numbers))
}

pub fn write_bundle(
    p: Parameters,
    stops: &[u16],
    numbers: &[i32],
    room: usize,
) -> Result<Vec<u8>, u32> {
    let array = 2 * p.n as usize;
    check_parameters(p)?;
    refuse(7, numbers.len() != array * stops.len())?;
    check_bundle_length(p.n, stops.len(), room)?;
    let wide: Vec<u32> = stops.iter().map(|&stop| stop.into()).collect();
    check_entries(p, &wide, numbers)?;
    let mut file = head(Kind::Bundle, p);
    file.extend((stops.len() as u16).to_be_bytes());
    for (stop, numbers) in stops.iter().zip(numbers.chunks(array)) {
        file.extend(stop.to_be_bytes());
        for &number in numbers {
            file.extend((number as i16).to_be_bytes());
        }
    }
    Ok(file)
}

/// "Opening an entry gives what opening that array alone gives."
pub fn open_entry(
    p: Parameters,
    f: &[i32],
    f2: &[i32],
    part: &[u8],
    room: usize,
) -> Result<Vec<u8>, u32> {
    check_parameters(p)?;
    refuse(7, part.len() != 4 * p.n as usize)?;
    open(p, f, f2, &signed_numbers(part), room)
}

// ---- The opening program

fn open_both(input: &[u8]) -> Result<Vec<u8>, u32> {
    let p = read_head(Kind::Private, input)?;
    let end = file_bytes(Kind::Private, p.n).min(input.len());
    let (first, second) = input.split_at(end);
    let key = read(Kind::Private, first, file_numbers(Kind::Private, p.n))?;
    let sealed = read_head(Kind::Sealed, second)?;
    let e = read(Kind::Sealed, second, file_numbers(Kind::Sealed, sealed.n))?;
    refuse(20, p != sealed)?;
    let arrays: Vec<&[i32]> = key.chunks(2 * p.n as usize).collect();
    check_inverses(p, arrays[0], arrays[1], arrays[2])?;
    open(p, arrays[0], arrays[1], &e, message_bytes(p.n))
}

/// The line that the program prints.
pub fn line(input: &[u8]) -> Vec<u8> {
    let line = match open_both(input) {
        Ok(message) => {
            let digits: String = message.iter().map(|byte| format!("{byte:02X}")).collect();
            format!("0 {digits}\n")
        }
        Err(number) => format!("{number} -\n"),
    };
    line.into_bytes()
}
