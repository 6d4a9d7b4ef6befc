//! Refusals.

use std::fmt;

/// A refusal: its number, and the place of the fault.
///
/// ```
/// let error = tojalinda::check(&[0, 0, 9, 0]).unwrap_err();
/// assert_eq!((error.number, error.place), (3, 0));
/// assert_eq!(error.to_string(), "refused by 3 at offset 0: the record's kind is unknown");
/// ```
#[derive(Clone, Copy, Debug, PartialEq, Eq, Hash)]
pub struct Error {
    /// Which refusal, 1 to 16.
    pub number: u32,
    /// An offset into the pattern or the template, or 0 where the fault has no place.
    pub place: usize,
}

impl Error {
    /// What the number means, in words.
    pub fn sentence(&self) -> &'static str {
        match self.number {
            1 => "the pattern is too long",
            2 => "the record is broken",
            3 => "the record's kind is unknown",
            4 => "the body of the byte set is wrong",
            5 => "the numbers of the repeat are wrong",
            6 => "the record stands inside too many others",
            7 => "the pattern has too many groups",
            8 => "the pattern has too many places",
            9 => "the template is wrong",
            10 => "the template refers to a group that the pattern does not have",
            11 => "the line is too long",
            12 => "the span table is too short",
            13 => "the output does not fit its buffer",
            14 => "the steps cannot be counted",
            15 => "the row does not lie in the line",
            16 => "the template has no such piece",
            _ => "the reason is not known to this version",
        }
    }
}

impl fmt::Display for Error {
    fn fmt(&self, to: &mut fmt::Formatter<'_>) -> fmt::Result {
        write!(to, "refused by {} at offset {}: {}", self.number, self.place, self.sentence())
    }
}

impl std::error::Error for Error {}
