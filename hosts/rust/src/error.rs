//! Refusals: the documents' numbers and what they are given for; and what has no number, that there is no memory.
use std::collections::TryReserveError;
use std::fmt;

/// A call that was refused: why, and where.
#[derive(Clone, Copy, Debug, PartialEq, Eq)]
pub struct Error {
    /// The documents' number, 1 to 18.
    pub number: u32,
    /// The list place of what was refused, from 0; for a scene text the line's number, from 1.
    pub place: u32,
}

/// What each number is given for, in order from 1.
pub const TEXTS: [&str; 18] = [
    "threshold below 0 or not finite",
    "bounce limit over 16",
    "a list over its limit",
    "asked detector not there",
    "width or height at most 0 or not finite",
    "a resolution 0",
    "a resolution over 4,096",
    "unit normal dot unit up beyond 0.9999 in size",
    "a slice of another length than needed",
    "ray part not finite, power below 0, or direction not a unit vector",
    "over 8 media, or one not a solid",
    "hit list full when a hit is to be written",
    "pixel or detector count to be raised is 2^32 - 1",
    "wavelength at most 0 at a clear solid",
    "index outside its rule",
    "built ray part not finite",
    "scene text not as it should be, or over 65,536 bytes",
    "detector centre, normal or up part not finite, or normal or up of a length at most 1e-15 or not finite",
];

impl Error {
    /// None for number 0.
    pub(crate) fn check(number: u32, place: u32) -> Result<(), Error> {
        if number == 0 {
            return Ok(());
        }
        Err(Error { number, place })
    }

    /// What the number is given for.
    pub fn text(&self) -> &'static str {
        match (self.number as usize).checked_sub(1).and_then(|i| TEXTS.get(i)) {
            Some(text) => text,
            None => "no such refusal",
        }
    }
}

impl fmt::Display for Error {
    fn fmt(&self, f: &mut fmt::Formatter<'_>) -> fmt::Result {
        write!(f, "refused by {} at place {}: {}", self.number, self.place, self.text())
    }
}

impl std::error::Error for Error {}

/// Why a memory, or a map that is made of one, does not come back: their sizes are the caller's.
#[derive(Clone, Copy, Debug, PartialEq, Eq)]
pub enum MemoryError {
    /// A call was refused.
    Refused(Error),
    /// The machine has no memory for a buffer of the size asked for. Nothing is changed.
    NoMemory,
}

impl fmt::Display for MemoryError {
    fn fmt(&self, f: &mut fmt::Formatter<'_>) -> fmt::Result {
        match self {
            MemoryError::Refused(error) => error.fmt(f),
            MemoryError::NoMemory => f.write_str("no memory for a buffer of the size asked for"),
        }
    }
}

impl std::error::Error for MemoryError {
    fn source(&self) -> Option<&(dyn std::error::Error + 'static)> {
        match self {
            MemoryError::Refused(error) => Some(error),
            MemoryError::NoMemory => None,
        }
    }
}

impl From<Error> for MemoryError {
    fn from(error: Error) -> MemoryError {
        MemoryError::Refused(error)
    }
}

impl From<TryReserveError> for MemoryError {
    fn from(_: TryReserveError) -> MemoryError {
        MemoryError::NoMemory
    }
}
