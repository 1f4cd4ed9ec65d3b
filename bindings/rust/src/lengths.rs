//! How long arrays, messages, files, bundles and lines are, and how large a value's parts.
//!
//! Any N may be given, and `usize` may be narrow, so lengths that do not fit stop at the largest
//! one; no call accepts such an N.

use crate::Kind;

/// The longest line of [`open_files`](crate::open_files): `0`, a space, 256 bytes in hexadecimal
/// and a newline.
pub const LINE_BYTES: usize = 515;

/// The bytes of a file's head.
pub const HEAD_BYTES: usize = 16;

/// The largest size of a part of a value for [`reduce_q`](crate::reduce_q) and
/// [`reduce_2`](crate::reduce_2).
pub const VALUE_LIMIT: i64 = 1 << 40;

/// The numbers of an array: 2N.
#[must_use]
pub const fn array_numbers(n: u32) -> usize {
    (n as usize).saturating_mul(2)
}

/// The bytes of a message: N/4, rounded up.
#[must_use]
pub const fn message_bytes(n: u32) -> usize {
    n.div_ceil(4) as usize
}

/// The bytes of the longest short message, which are those to lend to
/// [`open_short`](crate::open_short): (2N − 1)/8, rounded down.
#[must_use]
pub const fn short_message_bytes(n: u32) -> usize {
    // At the latest the 1 behind it begins the last byte of a message.
    message_bytes(n).saturating_sub(1)
}

/// The numbers of all arrays of a file: 2N, and 8N for a private one. Those of a bundle are in its
/// entries ([`bundle_numbers`]).
#[must_use]
pub const fn file_numbers(kind: Kind, n: u32) -> usize {
    array_numbers(n).saturating_mul(array_count(kind))
}

/// The bytes of a file: 16 + 4N, and 16 + 16N for a private one. A bundle has 18, and
/// [`entry_bytes`] for each of its entries ([`bundle_bytes`]).
#[must_use]
pub const fn file_bytes(kind: Kind, n: u32) -> usize {
    match kind {
        Kind::Bundle => HEAD_BYTES.saturating_add(COUNT_BYTES),
        _ => file_numbers(kind, n)
            .saturating_mul(2)
            .saturating_add(HEAD_BYTES),
    }
}

const fn array_count(kind: Kind) -> usize {
    match kind {
        Kind::Public | Kind::Sealed | Kind::Short => 1,
        Kind::Private => 4,
        Kind::Bundle => 0,
    }
}

/// The bytes of a bundle's count, and of an entry's stop.
const COUNT_BYTES: usize = 2;
const STOP_BYTES: usize = 2;

/// The most bytes that a bundle may have.
pub const MAX_BUNDLE_BYTES: usize = 65536;

/// The bytes of the part of a bundle that is an entry's sealed array: 4N.
#[must_use]
pub const fn part_bytes(n: u32) -> usize {
    array_numbers(n).saturating_mul(2)
}

/// The bytes of an entry: its stop and its sealed array.
#[must_use]
pub const fn entry_bytes(n: u32) -> usize {
    part_bytes(n).saturating_add(STOP_BYTES)
}

/// The numbers of all arrays of a bundle with so many entries.
#[must_use]
pub const fn bundle_numbers(n: u32, count: usize) -> usize {
    array_numbers(n).saturating_mul(count)
}

/// The bytes of a bundle with so many entries.
#[must_use]
pub const fn bundle_bytes(n: u32, count: usize) -> usize {
    entry_bytes(n)
        .saturating_mul(count)
        .saturating_add(file_bytes(Kind::Bundle, n))
}

/// How many entries a bundle may have, which is as many as [`MAX_BUNDLE_BYTES`] hold.
#[must_use]
pub const fn max_bundle_entries(n: u32) -> usize {
    let room = MAX_BUNDLE_BYTES.saturating_sub(bundle_bytes(n, 0));
    match room.checked_div(entry_bytes(n)) {
        Some(entries) => entries,
        None => 0,
    }
}
