//! The classes of errors, which are those of `gcflip_class_of` in C.

use crate::checker::{Refusal, TextRefusal};
use crate::heap::Error;
use crate::inference::NoMemory;

/// What an error means for the program that gets it.
///
/// ```
/// use gcflip::{Class, Heap, Slot};
///
/// # fn main() -> gcflip::Result<()> {
/// let heap = Heap::open(64, 1)?;
/// let error = heap.mutator(0)?.new_object(Slot::own(0), 1, 1000).unwrap_err();
/// assert_eq!(error.class(), Class::Lack); // a program collects, and tries again
/// # Ok(())
/// # }
/// ```
#[derive(Clone, Copy, Debug, PartialEq, Eq, Hash)]
pub enum Class {
    /// Something has no room left: memory, the heap, a frame, or an array. The program can make room, and call again.
    Lack,
    /// A value, a text, a copy, or the state of a collection is not what the call needs. The program can go on without it.
    Mismatch,
    /// The program has a mistake, or its memory was written over.
    Misuse,
}

impl Error {
    /// Returns the class of the error.
    pub const fn class(self) -> Class {
        match self {
            Error::NoMemory | Error::Full | Error::FrameFull => Class::Lack,
            Error::NoObject | Error::NoField | Error::NoNumber | Error::FrameEmpty => Class::Mismatch,
            Error::Parked | Error::Busy | Error::Idle | Error::NotReady => Class::Mismatch,
            Error::OutOfRange | Error::FlipRefused | Error::Damaged => Class::Misuse,
        }
    }
}

impl Refusal {
    /// Returns the class of the refusal: `Mismatch` for each condition that fails.
    pub const fn class(self) -> Class {
        match self {
            Refusal::NoMemory | Refusal::TooManyPairs => Class::Lack,
            _ => Class::Mismatch,
        }
    }
}

impl TextRefusal {
    /// Returns the class of the refusal.
    pub const fn class(self) -> Class {
        match self {
            TextRefusal::Refused(refusal) => refusal.class(),
            TextRefusal::BadLine(_) | TextRefusal::EndsEarly | TextRefusal::TooLarge => Class::Mismatch,
        }
    }
}

impl NoMemory {
    /// Returns the class of the error, which is `Lack`.
    pub const fn class(self) -> Class {
        Class::Lack
    }
}
