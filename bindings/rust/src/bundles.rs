//! Bundles: the sealed arrays of a round in one file.

use std::iter::FusedIterator;

use crate::lengths::part_bytes;
use crate::refusals::{outcome, Error};
use crate::{sys, Parameters};

/// What the head of a bundle tells, from which follows what to lend to [`read_bundle`].
#[derive(Clone, Copy, Debug, PartialEq, Eq, Hash)]
pub struct BundleHead {
    /// The parameters of all its arrays.
    pub parameters: Parameters,
    /// How many entries it has.
    pub count: usize,
}

/// An entry of a bundle.
#[derive(Clone, Copy, Debug, PartialEq, Eq, Hash)]
pub struct Entry<'a> {
    /// Its stop number, which no other entry of the bundle has.
    pub stop: u32,
    /// The part of the bundle that is its sealed array, for [`open_entry`].
    pub part: &'a [u8],
}

/// A bundle that is accepted. It is read where it stands: nothing is copied.
///
/// ```
/// use etru::{Bundle, Error, Parameters};
///
/// # fn main() -> Result<(), Error> {
/// // document 01's example: N = 3, q = 15, s = 3, t = 1 and f = F2 = 1
/// let p = Parameters::new(3, 15, 0, 3, 1)?;
/// let one = [1, 0, 0, 0, 0, 0];
/// let sealed = [7, 0, -1, 5, -6, -6];
/// let mut file = [0; etru::bundle_bytes(3, 2)];
/// etru::write_bundle(p, &[12, 7], &[sealed, sealed].concat(), &mut file)?;
///
/// let bundle = Bundle::new(&file)?;
/// assert_eq!(bundle.parameters(), p);
/// let mut stops = Vec::new();
/// for entry in bundle.entries() {
///     let mut message = [0; etru::message_bytes(3)];
///     etru::open_entry(p, &one, &one, entry.part, &mut message)?;
///     assert_eq!(message, [0xB0]);
///     stops.push(entry.stop);
/// }
/// assert_eq!(stops, [12, 7]);
/// # Ok(())
/// # }
/// ```
#[derive(Clone, Copy, Debug)]
pub struct Bundle<'a> {
    bytes: &'a [u8],
    head: BundleHead,
    first: usize,
}

impl<'a> Bundle<'a> {
    /// The bundle that these bytes are. All that can be refused of it is refused here.
    ///
    /// # Errors
    ///
    /// Refusals 16 to 19, 1 to 6, 7, 25, then 12 of each entry in stored order.
    pub fn new(bytes: &'a [u8]) -> Result<Bundle<'a>, Error> {
        let head = read_bundle_head(bytes)?;
        let mut first = 0;
        // SAFETY: the pointer and count are those of one slice, and `first` is a place of its own.
        let number = unsafe { sys::etru_begin_bundle(bytes.as_ptr(), bytes.len(), &mut first) };
        outcome(number)?;
        Ok(Bundle { bytes, head, first })
    }

    /// The parameters of all its arrays.
    #[must_use]
    pub const fn parameters(&self) -> Parameters {
        self.head.parameters
    }

    /// How many entries it has.
    #[must_use]
    pub const fn len(&self) -> usize {
        self.head.count
    }

    /// Whether it has no entry, which is allowed.
    #[must_use]
    pub const fn is_empty(&self) -> bool {
        self.len() == 0
    }

    /// Its entries in stored order. They borrow from the bytes, not from the `Bundle`.
    #[must_use]
    pub const fn entries(&self) -> Entries<'a> {
        Entries {
            bytes: self.bytes,
            part_bytes: part_bytes(self.head.parameters.n),
            at: self.first,
            left: self.head.count,
        }
    }
}

impl<'a> IntoIterator for Bundle<'a> {
    type Item = Entry<'a>;
    type IntoIter = Entries<'a>;

    fn into_iter(self) -> Entries<'a> {
        self.entries()
    }
}

impl<'a> IntoIterator for &Bundle<'a> {
    type Item = Entry<'a>;
    type IntoIter = Entries<'a>;

    fn into_iter(self) -> Entries<'a> {
        self.entries()
    }
}

/// The entries of a [`Bundle`].
#[derive(Clone, Debug)]
pub struct Entries<'a> {
    bytes: &'a [u8],
    part_bytes: usize,
    /// where the next entry stands
    at: usize,
    /// how many there are from there on
    left: usize,
}

impl<'a> Entries<'a> {
    fn step(&mut self) -> Option<Entry<'a>> {
        let (mut stop, mut part) = (0, 0);
        // SAFETY: the pointer and count are those of one slice, and the outputs are different places
        // of their own.
        let found = unsafe {
            sys::etru_next_entry(
                self.bytes.as_ptr(),
                self.bytes.len(),
                &mut self.at,
                &mut stop,
                &mut part,
            )
        };
        if found == 0 {
            return None;
        }
        // The library tells no part that is not within the bytes.
        let part = self.bytes.get(part..)?.get(..self.part_bytes)?;
        Some(Entry { stop, part })
    }
}

impl<'a> Iterator for Entries<'a> {
    type Item = Entry<'a>;

    fn next(&mut self) -> Option<Entry<'a>> {
        let entry = self.step();
        self.left = self.left.saturating_sub(1);
        if entry.is_none() {
            // no entry stands in no bytes
            self.bytes = &[];
            self.left = 0;
        }
        entry
    }

    fn size_hint(&self) -> (usize, Option<usize>) {
        (self.left, Some(self.left))
    }
}

impl ExactSizeIterator for Entries<'_> {}

impl FusedIterator for Entries<'_> {}

/// The parameters and the count of a bundle. Its entries are not checked.
///
/// # Errors
///
/// Refusals 16 to 19, 1 to 6, 7.
pub fn read_bundle_head(file: &[u8]) -> Result<BundleHead, Error> {
    let mut p = Parameters::ZEROS;
    let mut count = 0;
    // SAFETY: the pointer and count are those of one slice, and the outputs are different places of
    // their own.
    let number = unsafe {
        sys::etru_read_bundle_head(
            file.as_ptr(),
            file.len(),
            &mut p.n,
            &mut p.c,
            &mut p.d,
            &mut p.s,
            &mut p.t,
            &mut count,
        )
    };
    outcome(number)?;
    Ok(BundleHead {
        parameters: p,
        count: count as usize,
    })
}

/// The stops of a bundle in stored order, to `stops`, and the numbers of its arrays in the same
/// order, one array after another, to `numbers`.
///
/// # Errors
///
/// Refusals 16 to 19, 1 to 6, 7, 25, then 12 of each entry in stored order.
pub fn read_bundle(file: &[u8], stops: &mut [u32], numbers: &mut [i32]) -> Result<(), Error> {
    // SAFETY: each pointer and count are those of one slice, and `stops` and `numbers` are borrowed
    // mutably, so they overlap no other.
    let number = unsafe {
        sys::etru_read_bundle(
            file.as_ptr(),
            file.len(),
            stops.as_mut_ptr(),
            stops.len(),
            numbers.as_mut_ptr(),
            numbers.len(),
        )
    };
    outcome(number)
}

/// A bundle of these stops, which are all different, and of a sealed array for each, in the order
/// given, to `file`. The numbers are the arrays, one after another.
///
/// # Errors
///
/// Refusals 1 to 6, 7, 25, then 12 of each array in order.
pub fn write_bundle(
    p: Parameters,
    stops: &[u16],
    numbers: &[i32],
    file: &mut [u8],
) -> Result<(), Error> {
    // SAFETY: each pointer and count are those of one slice, and `file` is borrowed mutably, so it
    // overlaps no other.
    let number = unsafe {
        sys::etru_write_bundle(
            p.n,
            p.c,
            p.d,
            p.s,
            p.t,
            stops.as_ptr(),
            stops.len(),
            numbers.as_ptr(),
            numbers.len(),
            file.as_mut_ptr(),
            file.len(),
        )
    };
    outcome(number)
}

/// Opens the part of a bundle that is an entry's sealed array: what [`open`](crate::open) gives
/// with its numbers, to `message`.
///
/// # Errors
///
/// Refusals 1 to 6, 7, 8, 11, 12.
pub fn open_entry(
    p: Parameters,
    f: &[i32],
    f2: &[i32],
    part: &[u8],
    message: &mut [u8],
) -> Result<(), Error> {
    // SAFETY: each pointer and count are those of one slice, and `message` is borrowed mutably, so
    // it overlaps no other.
    let number = unsafe {
        sys::etru_open_entry(
            p.n,
            p.c,
            p.d,
            p.s,
            p.t,
            f.as_ptr(),
            f.len(),
            f2.as_ptr(),
            f2.len(),
            part.as_ptr(),
            part.len(),
            message.as_mut_ptr(),
            message.len(),
        )
    };
    outcome(number)
}
