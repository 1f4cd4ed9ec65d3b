//! The parameter set of the scheme.

use crate::refusals::{outcome, Error};
use crate::sys;

/// A parameter set: N coefficients, the modulus q = c + dω, s nonzero coefficients of g and of the
/// ephemeral φ, and t nonzero coefficients of f.
///
/// The fields are public: every call checks the set that it is given, so none relies on how it was
/// made.
#[derive(Clone, Copy, Debug, PartialEq, Eq, Hash)]
pub struct Parameters {
    /// N, from [`MIN_N`](Parameters::MIN_N) to [`MAX_N`](Parameters::MAX_N).
    pub n: u32,
    /// The first part of q, from −4,095 to 4,095. Not both parts are even.
    pub c: i32,
    /// The second part of q, from −4,095 to 4,095.
    pub d: i32,
    /// A multiple of 3 from [`MIN_S`](Parameters::MIN_S) to N.
    pub s: u32,
    /// From [`MIN_T`](Parameters::MIN_T) to N. 4 × (2s + t)² is below the norm of q, c² − cd + d².
    pub t: u32,
}

impl Parameters {
    /// The least N.
    pub const MIN_N: u32 = 3;

    /// The largest N.
    pub const MAX_N: u32 = 1024;

    /// The largest size of a part of q.
    pub const MODULUS_LIMIT: i32 = 4095;

    /// The least s. The largest is N.
    pub const MIN_S: u32 = 3;

    /// The least t. The largest is N.
    pub const MIN_T: u32 = 1;

    /// What a set holds before a head is read to it; it is not accepted.
    pub(crate) const ZEROS: Parameters = Parameters {
        n: 0,
        c: 0,
        d: 0,
        s: 0,
        t: 0,
    };

    /// A parameter set that is accepted.
    ///
    /// # Errors
    ///
    /// Refusals 1 to 6.
    pub fn new(n: u32, c: i32, d: i32, s: u32, t: u32) -> Result<Parameters, Error> {
        let p = Parameters { n, c, d, s, t };
        p.check()?;
        Ok(p)
    }

    /// Whether the set is accepted.
    ///
    /// # Errors
    ///
    /// Refusals 1 to 6.
    pub fn check(self) -> Result<(), Error> {
        // SAFETY: no pointer is lent, and any numbers may be given.
        let number = unsafe { sys::etru_check_parameters(self.n, self.c, self.d, self.s, self.t) };
        outcome(number)
    }
}
