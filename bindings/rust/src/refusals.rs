//! The refusals of documents 01 and 02, and what a call gives that has no result.

use std::fmt;

/// Makes the enum of the refusals, and what is told of each, from one list: name, number, and the
/// condition in the document's words.
macro_rules! refusals {
    ($($(#[$more:meta])* $name:ident = $number:literal, $condition:literal;)+) => {
        /// A refusal of document 01, or from 23 on of document 02. The names are those of the library.
        #[derive(Clone, Copy, Debug, PartialEq, Eq, Hash)]
        pub enum Refusal {
            $(
                #[doc = concat!($number, ": ", $condition, ".")]
                $(#[$more])*
                $name = $number,
            )+
        }

        impl Refusal {
            #[cfg(test)]
            const ALL: &'static [Refusal] = &[$(Refusal::$name),+];

            /// The refusal of a number, such as one in the line of
            /// [`open_files`](crate::open_files); none for 0 and for a number that the documents do
            /// not have.
            #[must_use]
            pub const fn from_number(number: u32) -> Option<Refusal> {
                match number {
                    $($number => Some(Refusal::$name),)+
                    _ => None,
                }
            }

            /// The condition, in the document's words.
            const fn condition(self) -> &'static str {
                match self {
                    $(Refusal::$name => $condition,)+
                }
            }
        }
    };
}

refusals! {
    CoefficientCountOutOfRange = 1, "N out of range";
    ModulusPartOutOfRange = 2, "a part of q out of range";
    ModulusPartsBothEven = 3, "both parts of q even";
    SOutOfRange = 4, "s out of range or not a multiple of 3";
    TOutOfRange = 5, "t out of range";
    BoundNotBelowNorm = 6, "4 × (2s + t)² not below the norm of q";
    WrongLength = 7, "a lent array, output or file has the wrong length";
    FNotInItsSet = 8, "f not in its set";
    GNotInItsSet = 9, "g not in its set";
    PhiNotInItsSet = 10, "φ not in its set";
    NotReducedModulo2 = 11, "F2 or m not reduced modulo 2";
    NotReducedModuloQ = 12, "Fq, h, e or a convolution's operand not reduced modulo q";
    NotInverseModulo2 = 13, "f × F2 not 1 modulo 2";
    NotInverseModuloQ = 14, "f × Fq not 1 modulo q";
    SpareBitSet = 15, "a spare bit is set";
    HeadTooShort = 16, "fewer than 16 bytes";
    MarkNotEiz = 17, "mark is not EIZ";
    VersionNotOne = 18, "version is not 1";
    KindNotWanted = 19, "kind is not the one wanted, or not 1 to 5";
    /// Only the line of [`open_files`](crate::open_files) tells it.
    ParametersDiffer = 20, "the two files' parameters differ";
    ModulusZero = 21, "modulus zero";
    ValueOutOfRange = 22, "a part of the value below −2^40 or above 2^40";
    PlaceOrUnitOutOfRange = 23, "a place is N or more, or a unit number is above 5";
    PlaceOccursTwice = 24, "a place occurs twice";
    StopOccursTwice = 25, "a stop number occurs twice";
    ShortMessageTooLong = 26, "8 × the bytes of a short message + 1 exceeds 2N";
    NotAShortMessage = 27, "no 1 bit, or the last one at a position, counted from 0, that is not \
        a multiple of 8";
}

impl Refusal {
    /// The document's number.
    #[must_use]
    pub const fn number(self) -> u32 {
        self as u32
    }
}

impl fmt::Display for Refusal {
    fn fmt(&self, f: &mut fmt::Formatter<'_>) -> fmt::Result {
        write!(f, "refusal {}: {}", self.number(), self.condition())
    }
}

impl std::error::Error for Refusal {}

/// Why a call has no result. Its outputs are as they came.
#[derive(Clone, Copy, Debug, PartialEq, Eq, Hash)]
pub enum Error {
    /// The first refusal that applies, in the documents' order.
    Refused(Refusal),
    /// A number that the documents do not have. The library is proved to return none, so a program
    /// that meets this is linked with another archive.
    UnknownNumber(u32),
}

impl Error {
    /// The number that the library returned. It is not 0.
    #[must_use]
    pub const fn number(self) -> u32 {
        match self {
            Error::Refused(refusal) => refusal.number(),
            Error::UnknownNumber(number) => number,
        }
    }
}

impl fmt::Display for Error {
    fn fmt(&self, f: &mut fmt::Formatter<'_>) -> fmt::Result {
        match self {
            Error::Refused(refusal) => refusal.fmt(f),
            Error::UnknownNumber(number) => {
                write!(f, "the library returned {number}, which is no refusal")
            }
        }
    }
}

impl std::error::Error for Error {}

/// What the number tells that a call returned.
pub(crate) const fn outcome(number: u32) -> Result<(), Error> {
    match Refusal::from_number(number) {
        Some(refusal) => Err(Error::Refused(refusal)),
        None if number == 0 => Ok(()),
        None => Err(Error::UnknownNumber(number)),
    }
}

#[cfg(test)]
mod tests {
    use super::{outcome, Error, Refusal};

    #[test]
    fn every_number_has_its_outcome() {
        assert_eq!(outcome(0), Ok(()));
        for (&refusal, number) in Refusal::ALL.iter().zip(1..) {
            assert_eq!(refusal.number(), number);
            assert_eq!(Refusal::from_number(number), Some(refusal));
            assert_eq!(outcome(number), Err(Error::Refused(refusal)));
        }
        // no refusal has more than two digits
        let last = Refusal::ALL.len() as u32;
        for number in (last + 1..=300).chain([u32::MAX]) {
            assert_eq!(Refusal::from_number(number), None);
            assert_eq!(outcome(number), Err(Error::UnknownNumber(number)));
        }
    }

    #[test]
    fn an_error_tells_its_number() {
        let refused = Error::Refused(Refusal::WrongLength);
        assert_eq!(refused.number(), 7);
        assert_eq!(
            refused.to_string(),
            "refusal 7: a lent array, output or file has the wrong length"
        );
        let unknown = Error::UnknownNumber(100);
        assert_eq!(unknown.number(), 100);
        assert_eq!(
            unknown.to_string(),
            "the library returned 100, which is no refusal"
        );
    }
}
