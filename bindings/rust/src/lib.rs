//! Safe functions over the ETRU library: NTRU over the Eisenstein integers Z\[ω\], with p = 2.
//!
//! The work is done by the static archive `libetru_c.a`, which is written in Rattle and proved to
//! give exactly what its specification, document 01, and the later requests, document 02, say. This
//! crate lends it slices and turns its refusal numbers into an enum. It makes no claim of secrecy,
//! authentication or constant time.
//!
//! # Arguments
//!
//! A polynomial of N coefficients is an array of 2N numbers a0, b0, a1, b1 and so on; coefficient i
//! is ai + biω. A message is N/4 bytes, rounded up, highest bit first, and the spare low bits of
//! its last byte are zero. A short message is whole bytes, none too, with 8 × their
//! number + 1 at most 2N ([`seal_short`], [`open_short`]). An ephemeral φ is an array too, or a list of its units with
//! their places ([`PlacedUnit`]). The sealed arrays of a round are one file, a [`Bundle`].
//!
//! The s nonzero coefficients of g, and those of φ, are units in whole triples: equally many of 1,
//! ω and ω², and equally many of −1, −ω and −ω². Other units are refused, also where their sum is
//! zero.
//!
//! Slices of any length, with any contents, and any numbers may be given: what is wrong is refused.
//! A call that returns an error leaves the outputs that it was lent as they came. No call panics,
//! allocates or keeps anything, and any may be made from several threads at once. At every N
//! [`convolve`] takes at most 100 KiB of stack, [`open_files`] 72 KiB, [`seal_places`] 36 KiB,
//! [`open_short`] 29 KiB, [`open`], [`open_entry`], [`check_key`] and [`spread_places`] 28 KiB,
//! [`seal`], [`seal_short`], [`read`], [`Bundle::new`], [`read_bundle`] and [`write_bundle`] 12 KiB
//! and each other call 1 KiB, as compiled by an older kit.
//!
//! # Example
//!
//! ```
//! use etru::{Error, Kind, Parameters, PlacedUnit, Refusal};
//!
//! # fn main() -> Result<(), Error> {
//! // N = 3, q = 15, s = 3, t = 1; f = F2 = Fq = 1 and g = φ = 1 + ωX + (−1 − ω)X².
//! let p = Parameters::new(3, 15, 0, 3, 1)?;
//! let one = [1, 0, 0, 0, 0, 0];
//! let g = [1, 0, 0, 1, -1, -1];
//! let phi = g;
//!
//! let mut h = [0; etru::array_numbers(3)];
//! etru::check_key(p, &one, &one, &one, &g, &mut h)?;
//! assert_eq!(h, g);
//!
//! let mut e = [0; etru::array_numbers(3)];
//! etru::seal(p, &h, &phi, &[0xB0], &mut e)?;
//! assert_eq!(e, [7, 0, -1, 5, -6, -6]);
//!
//! let mut message = [0; etru::message_bytes(3)];
//! etru::open(p, &one, &one, &e, &mut message)?;
//! assert_eq!(message, [0xB0]);
//!
//! // The same φ as places, in any order, seals to the same array.
//! let places = [(2, 4), (0, 0), (1, 2)].map(|(place, unit)| PlacedUnit { place, unit });
//! let mut from_places = [0; etru::array_numbers(3)];
//! etru::seal_places(p, &h, &places, &[0xB0], &mut from_places)?;
//! assert_eq!(from_places, e);
//!
//! // At N = 3 the last two bits are spare.
//! let refused = etru::seal(p, &h, &phi, &[0xB1], &mut e);
//! assert_eq!(refused, Err(Error::Refused(Refusal::SpareBitSet)));
//! assert_eq!(e, [7, 0, -1, 5, -6, -6]);
//!
//! // The private file and directly after it the sealed file, as the opening program reads them.
//! let mut files = [0; etru::file_bytes(Kind::Private, 3) + etru::file_bytes(Kind::Sealed, 3)];
//! let (private, sealed) = files.split_at_mut(etru::file_bytes(Kind::Private, 3));
//! etru::write(Kind::Private, p, &[one, one, one, g].concat(), private)?;
//! etru::write(Kind::Sealed, p, &e, sealed)?;
//! let mut line = [0; etru::LINE_BYTES];
//! assert_eq!(etru::open_files(&files, &mut line)?, b"0 B0\n");
//! # Ok(())
//! # }
//! ```
#![deny(missing_docs)]
#![deny(unsafe_op_in_unsafe_fn)]
#![deny(clippy::undocumented_unsafe_blocks)]
// What can panic is kept out of the library.
#![deny(clippy::arithmetic_side_effects)]
#![deny(clippy::expect_used)]
#![deny(clippy::indexing_slicing)]
#![deny(clippy::panic)]
#![deny(clippy::unreachable)]
#![deny(clippy::unwrap_used)]

mod bundles;
mod lengths;
mod parameters;
mod refusals;
mod sys;

pub use bundles::{
    open_entry, read_bundle, read_bundle_head, write_bundle, Bundle, BundleHead, Entries, Entry,
};
pub use lengths::{
    array_numbers, bundle_bytes, bundle_numbers, entry_bytes, file_bytes, file_numbers,
    max_bundle_entries, message_bytes, part_bytes, short_message_bytes, HEAD_BYTES, LINE_BYTES,
    MAX_BUNDLE_BYTES, VALUE_LIMIT,
};
pub use parameters::Parameters;
use refusals::outcome;
pub use refusals::{Error, Refusal};

/// A value a + bω of Z\[ω\], by its parts.
#[derive(Clone, Copy, Debug, PartialEq, Eq, Hash)]
pub struct Pair {
    /// The first part.
    pub a: i32,
    /// The part at ω.
    pub b: i32,
}

/// One nonzero coefficient of an ephemeral φ that is lent as places.
#[repr(C)]
#[derive(Clone, Copy, Debug, PartialEq, Eq, Hash)]
pub struct PlacedUnit {
    /// Its place, from 0 to N − 1.
    pub place: u32,
    /// The number of its unit, from 0 to 5: (1, 0), (1, 1), (0, 1), (−1, 0), (−1, −1), (0, −1).
    pub unit: u32,
}

/// A kind of file, with its number.
#[derive(Clone, Copy, Debug, PartialEq, Eq, Hash)]
pub enum Kind {
    /// A public key: h.
    Public = 1,
    /// A private key: f, F2, Fq and g.
    Private = 2,
    /// A sealed message: e.
    Sealed = 3,
    /// The sealed messages of a round: entries, each a stop number and an e. It is not made of
    /// arrays alone, so [`read`] and [`write()`] refuse it by 7; [`Bundle`], [`read_bundle`] and
    /// [`write_bundle`] are for it.
    Bundle = 4,
    /// A sealed short message: e.
    Short = 5,
}

/// The remainder of a + bω modulo q = c + dω: the value of the same class with the smallest norm;
/// of several, the one with the larger a, then the larger b.
///
/// # Errors
///
/// Refusals 2, 21, 22.
pub fn reduce_q(a: i64, b: i64, c: i32, d: i32) -> Result<Pair, Error> {
    let mut r = Pair { a: 0, b: 0 };
    // SAFETY: the two parts are different places, borrowed for the call alone.
    let number = unsafe { sys::etru_reduce_q(a, b, c, d, &mut r.a, &mut r.b) };
    outcome(number)?;
    Ok(r)
}

/// The remainder of a + bω modulo 2: each part reduced to 0 or 1, then (1, 1) becomes (−1, −1).
///
/// # Errors
///
/// Refusal 22.
pub fn reduce_2(a: i64, b: i64) -> Result<Pair, Error> {
    let mut r = Pair { a: 0, b: 0 };
    // SAFETY: the two parts are different places, borrowed for the call alone.
    let number = unsafe { sys::etru_reduce_2(a, b, &mut r.a, &mut r.b) };
    outcome(number)?;
    Ok(r)
}

/// x × y reduced modulo q, to `out`.
///
/// # Errors
///
/// Refusals 1 to 6, 7, 12.
pub fn convolve(p: Parameters, x: &[i32], y: &[i32], out: &mut [i32]) -> Result<(), Error> {
    // SAFETY: each pointer and count are those of one slice, and `out` is borrowed mutably, so it
    // overlaps no other.
    let number = unsafe {
        sys::etru_convolve(
            p.n,
            p.c,
            p.d,
            p.s,
            p.t,
            x.as_ptr(),
            x.len(),
            y.as_ptr(),
            y.len(),
            out.as_mut_ptr(),
            out.len(),
        )
    };
    outcome(number)
}

/// Checks a private key: f × F2 is 1 modulo 2 and f × Fq is 1 modulo q. The public key, Fq × g
/// reduced modulo q, goes to `h`.
///
/// # Errors
///
/// Refusals 1 to 6, 7, 8, 11, 12, 9, 13, 14.
pub fn check_key(
    p: Parameters,
    f: &[i32],
    f2: &[i32],
    fq: &[i32],
    g: &[i32],
    h: &mut [i32],
) -> Result<(), Error> {
    // SAFETY: each pointer and count are those of one slice, and `h` is borrowed mutably, so it
    // overlaps no other.
    let number = unsafe {
        sys::etru_check_key(
            p.n,
            p.c,
            p.d,
            p.s,
            p.t,
            f.as_ptr(),
            f.len(),
            f2.as_ptr(),
            f2.len(),
            fq.as_ptr(),
            fq.len(),
            g.as_ptr(),
            g.len(),
            h.as_mut_ptr(),
            h.len(),
        )
    };
    outcome(number)
}

/// Seals a message with the public key h and the ephemeral φ: 2φ × h + m reduced modulo q, to `e`.
///
/// # Errors
///
/// Refusals 1 to 6, 7, 12, 10, 15.
pub fn seal(
    p: Parameters,
    h: &[i32],
    phi: &[i32],
    message: &[u8],
    e: &mut [i32],
) -> Result<(), Error> {
    // SAFETY: each pointer and count are those of one slice, and `e` is borrowed mutably, so it
    // overlaps no other.
    let number = unsafe {
        sys::etru_seal(
            p.n,
            p.c,
            p.d,
            p.s,
            p.t,
            h.as_ptr(),
            h.len(),
            phi.as_ptr(),
            phi.len(),
            message.as_ptr(),
            message.len(),
            e.as_mut_ptr(),
            e.len(),
        )
    };
    outcome(number)
}

/// Seals a message with the public key h and the ephemeral φ as places, s records in any order:
/// what [`seal`] gives with the array that [`spread_places`] gives, to `e`.
///
/// # Errors
///
/// Refusals 1 to 6, 7, 12, 23, 24, 10, 15.
pub fn seal_places(
    p: Parameters,
    h: &[i32],
    places: &[PlacedUnit],
    message: &[u8],
    e: &mut [i32],
) -> Result<(), Error> {
    // SAFETY: each pointer and count are those of one slice, and `e` is borrowed mutably, so it
    // overlaps no other. A record is laid out as in C.
    let number = unsafe {
        sys::etru_seal_places(
            p.n,
            p.c,
            p.d,
            p.s,
            p.t,
            h.as_ptr(),
            h.len(),
            places.as_ptr(),
            places.len(),
            message.as_ptr(),
            message.len(),
            e.as_mut_ptr(),
            e.len(),
        )
    };
    outcome(number)
}

/// The full array of an ephemeral φ as places, s records in any order, to `phi`: each record's unit
/// at its place, and zeros elsewhere.
///
/// # Errors
///
/// Refusals 1 to 6, 7, 23, 24, 10.
pub fn spread_places(p: Parameters, places: &[PlacedUnit], phi: &mut [i32]) -> Result<(), Error> {
    // SAFETY: each pointer and count are those of one slice, and `phi` is borrowed mutably, so it
    // overlaps no other. A record is laid out as in C.
    let number = unsafe {
        sys::etru_spread_places(
            p.n,
            p.c,
            p.d,
            p.s,
            p.t,
            places.as_ptr(),
            places.len(),
            phi.as_mut_ptr(),
            phi.len(),
        )
    };
    outcome(number)
}

/// Opens the sealed array e with f and F2 of the private key: f × e reduced modulo q, then F2 times
/// that, reduced modulo 2, as bytes to `message`. The inverses are not checked again.
///
/// # Errors
///
/// Refusals 1 to 6, 7, 8, 11, 12.
pub fn open(
    p: Parameters,
    f: &[i32],
    f2: &[i32],
    e: &[i32],
    message: &mut [u8],
) -> Result<(), Error> {
    // SAFETY: each pointer and count are those of one slice, and `message` is borrowed mutably, so
    // it overlaps no other.
    let number = unsafe {
        sys::etru_open(
            p.n,
            p.c,
            p.d,
            p.s,
            p.t,
            f.as_ptr(),
            f.len(),
            f2.as_ptr(),
            f2.len(),
            e.as_ptr(),
            e.len(),
            message.as_mut_ptr(),
            message.len(),
        )
    };
    outcome(number)
}

/// Seals a short message with the public key h and the ephemeral φ: what [`seal`] gives with the
/// message that has its bits, then one 1 bit, then zeros up to 2N, to `e`.
///
/// The length of the short message is a matter for 26, and not for 7.
///
/// # Errors
///
/// Refusals 1 to 6, 7, 12, 10, 26.
pub fn seal_short(
    p: Parameters,
    h: &[i32],
    phi: &[i32],
    message: &[u8],
    e: &mut [i32],
) -> Result<(), Error> {
    // SAFETY: each pointer and count are those of one slice, and `e` is borrowed mutably, so it
    // overlaps no other.
    let number = unsafe {
        sys::etru_seal_short(
            p.n,
            p.c,
            p.d,
            p.s,
            p.t,
            h.as_ptr(),
            h.len(),
            phi.as_ptr(),
            phi.len(),
            message.as_ptr(),
            message.len(),
            e.as_mut_ptr(),
            e.len(),
        )
    };
    outcome(number)
}

/// Opens the sealed array e as a short message, with f and F2 of the private key: the bytes before
/// the last 1 of what [`open`] gives. They are written to the front of `message`, and that part is
/// returned; what stands behind it is left as it came. Lend it [`short_message_bytes`] bytes.
///
/// # Errors
///
/// Refusals 1 to 6, 7, 8, 11, 12, 27.
///
/// # Example
///
/// ```
/// use etru::{Error, Parameters};
///
/// # fn main() -> Result<(), Error> {
/// // N = 5, q = 15, s = 3, t = 1; f = F2 = 1 and h = φ = 1 + ωX + (−1 − ω)X²
/// let p = Parameters::new(5, 15, 0, 3, 1)?;
/// let one = [1, 0, 0, 0, 0, 0, 0, 0, 0, 0];
/// let h = [1, 0, 0, 1, -1, -1, 0, 0, 0, 0];
/// let phi = h;
///
/// let mut e = [0; etru::array_numbers(5)];
/// let mut room = [0; etru::short_message_bytes(5)];
/// etru::seal_short(p, &h, &phi, &[0xB0], &mut e)?;
/// assert_eq!(etru::open_short(p, &one, &one, &e, &mut room)?, [0xB0]);
///
/// // The empty message is valid.
/// etru::seal_short(p, &h, &phi, &[], &mut e)?;
/// assert!(etru::open_short(p, &one, &one, &e, &mut room)?.is_empty());
/// # Ok(())
/// # }
/// ```
pub fn open_short<'a>(
    p: Parameters,
    f: &[i32],
    f2: &[i32],
    e: &[i32],
    message: &'a mut [u8],
) -> Result<&'a [u8], Error> {
    let mut used = 0;
    // SAFETY: each pointer and count are those of one slice, `message` is borrowed mutably, so it
    // overlaps no other, and `used` is a place of its own.
    let number = unsafe {
        sys::etru_open_short(
            p.n,
            p.c,
            p.d,
            p.s,
            p.t,
            f.as_ptr(),
            f.len(),
            f2.as_ptr(),
            f2.len(),
            e.as_ptr(),
            e.len(),
            message.as_mut_ptr(),
            message.len(),
            &mut used,
        )
    };
    outcome(number)?;
    // No short message is longer than its room.
    Ok(message.get(..used).unwrap_or(message))
}

/// The polynomial of N coefficients that a message stands for, to `m`. Pair i of its bits is
/// coefficient i, but 11 is (−1, −1).
///
/// # Errors
///
/// Refusals 1, 7, 15.
pub fn pack(n: u32, message: &[u8], m: &mut [i32]) -> Result<(), Error> {
    // SAFETY: each pointer and count are those of one slice, and `m` is borrowed mutably, so it
    // overlaps no other.
    let number =
        unsafe { sys::etru_pack(n, message.as_ptr(), message.len(), m.as_mut_ptr(), m.len()) };
    outcome(number)
}

/// The message that a polynomial of N coefficients stands for, to `message`.
///
/// # Errors
///
/// Refusals 1, 7, 11.
pub fn unpack(n: u32, m: &[i32], message: &mut [u8]) -> Result<(), Error> {
    // SAFETY: each pointer and count are those of one slice, and `message` is borrowed mutably, so
    // it overlaps no other.
    let number =
        unsafe { sys::etru_unpack(n, m.as_ptr(), m.len(), message.as_mut_ptr(), message.len()) };
    outcome(number)
}

/// The parameters of a file of the wanted kind, from its head alone, the first 16 bytes: they tell
/// how long the file is and how many numbers it holds ([`file_bytes`], [`file_numbers`]); of a
/// bundle see [`read_bundle_head`].
///
/// # Errors
///
/// Refusals 16 to 19, 1 to 6.
pub fn read_head(kind: Kind, file: &[u8]) -> Result<Parameters, Error> {
    let mut p = Parameters::ZEROS;
    // SAFETY: the pointer and count are those of one slice, and the fields are different places of
    // a local set.
    let number = unsafe {
        sys::etru_read_head(
            kind as u32,
            file.as_ptr(),
            file.len(),
            &mut p.n,
            &mut p.c,
            &mut p.d,
            &mut p.s,
            &mut p.t,
        )
    };
    outcome(number)?;
    Ok(p)
}

/// The arrays of a file of the wanted kind, one after another in stored order, to `numbers`. A
/// private key's inverses are not checked.
///
/// # Errors
///
/// Refusals 16 to 19, 1 to 6, 7, then those of its arrays: 12, or 8, 11, 12, 9 for a private file.
pub fn read(kind: Kind, file: &[u8], numbers: &mut [i32]) -> Result<(), Error> {
    // SAFETY: each pointer and count are those of one slice, and `numbers` is borrowed mutably, so
    // it overlaps no other.
    let number = unsafe {
        sys::etru_read(
            kind as u32,
            file.as_ptr(),
            file.len(),
            numbers.as_mut_ptr(),
            numbers.len(),
        )
    };
    outcome(number)
}

/// A file of this kind, to `file`. The numbers are its arrays, one after another in stored order.
///
/// # Errors
///
/// Refusals 1 to 6, 7, then those of its arrays: 12, or 8, 11, 12, 9 for a private file.
pub fn write(kind: Kind, p: Parameters, numbers: &[i32], file: &mut [u8]) -> Result<(), Error> {
    // SAFETY: each pointer and count are those of one slice, and `file` is borrowed mutably, so it
    // overlaps no other.
    let number = unsafe {
        sys::etru_write(
            kind as u32,
            p.n,
            p.c,
            p.d,
            p.s,
            p.t,
            numbers.as_ptr(),
            numbers.len(),
            file.as_mut_ptr(),
            file.len(),
        )
    };
    outcome(number)
}

/// The line that the opening program prints for its input, a private file and directly after it a
/// sealed file: the refusal number in decimal (0 if none), a space, the message in uppercase
/// hexadecimal or a hyphen after a refusal, and a newline. It is written to the front of `line`,
/// and that part is returned; what stands behind it is left as it came.
///
/// Any input has its line, also one that is refused.
///
/// # Errors
///
/// Refusal 7, if `line` does not have [`LINE_BYTES`] bytes.
pub fn open_files<'a>(input: &[u8], line: &'a mut [u8]) -> Result<&'a [u8], Error> {
    let mut used = 0;
    // SAFETY: each pointer and count are those of one slice, `line` is borrowed mutably, so it
    // overlaps no other, and `used` is a place of its own.
    let number = unsafe {
        sys::etru_open_files(
            input.as_ptr(),
            input.len(),
            line.as_mut_ptr(),
            line.len(),
            &mut used,
        )
    };
    outcome(number)?;
    // No line is longer than its room.
    Ok(line.get(..used).unwrap_or(line))
}
