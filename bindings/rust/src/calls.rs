//! The public functions.
#![forbid(unsafe_code)]

use crate::border::{self, Outcome};
use crate::status;
use std::collections::hash_map::RandomState;
use std::fmt;
use std::hash::{BuildHasher, Hasher};
use std::sync::OnceLock;

/// Why there is no result. `text` is the index of the text at fault among the arguments, and `offset` that of the byte, from 0.
#[derive(Clone, Copy, Debug, PartialEq, Eq)]
#[non_exhaustive]
pub enum Error {
    NotUtf8 {
        text: usize,
    },
    /// The first byte that no JSON text could have there.
    Syntax {
        text: usize,
        offset: usize,
    },
    /// Nesting deeper than 127, at the opening bracket.
    TooDeep {
        text: usize,
        offset: usize,
    },
    /// A number whose exponent is outside -2^30 to 2^30, at its first byte.
    NumberRange {
        text: usize,
        offset: usize,
    },
    Memory,
    /// The pointer is not a JSON Pointer.
    NotPointer,
    /// The pointer refers to no value.
    Nothing,
    /// The library returned a status that this crate does not know.
    Unknown {
        status: u32,
    },
}

impl fmt::Display for Error {
    fn fmt(&self, f: &mut fmt::Formatter<'_>) -> fmt::Result {
        match self {
            Error::NotUtf8 { text } => write!(f, "text {text} is not UTF-8"),
            Error::Syntax { text, offset } => write!(f, "text {text} is not JSON at byte {offset}"),
            Error::TooDeep { text, offset } => write!(f, "text {text} is nested too deep at byte {offset}"),
            Error::NumberRange { text, offset } => write!(f, "text {text} has a number out of range at byte {offset}"),
            Error::Memory => write!(f, "out of memory"),
            Error::NotPointer => write!(f, "not a JSON Pointer"),
            Error::Nothing => write!(f, "no value at the pointer"),
            Error::Unknown { status } => write!(f, "unknown status {status}"),
        }
    }
}

impl std::error::Error for Error {}

/// Returns the random seed of this process.
fn seed() -> u64 {
    static SEED: OnceLock<u64> = OnceLock::new();
    *SEED.get_or_init(|| RandomState::new().build_hasher().finish())
}

fn checked(outcome: Outcome) -> Result<(), Error> {
    let Outcome { status, text, offset } = outcome;
    let text = text as usize;
    Err(match status {
        status::OK => return Ok(()),
        status::NOT_UTF8 => Error::NotUtf8 { text },
        status::SYNTAX => Error::Syntax { text, offset },
        status::TOO_DEEP => Error::TooDeep { text, offset },
        status::NUMBER_RANGE => Error::NumberRange { text, offset },
        status::MEMORY => Error::Memory,
        status::NOT_POINTER => Error::NotPointer,
        status::NOTHING => Error::Nothing,
        _ => Error::Unknown { status },
    })
}

/// Returns the text that a call writes. The first output has `room` bytes; if it is too short, the second has as many as are needed.
fn written(room: usize, call: impl Fn(&mut [u8], &mut usize) -> Outcome) -> Result<String, Error> {
    let mut length = room;
    loop {
        let mut output = vec![0; length];
        let outcome = call(&mut output, &mut length);
        if outcome.status != status::TOO_SHORT {
            checked(outcome)?;
            output.truncate(length);
            return Ok(String::from_utf8(output).expect("the library writes UTF-8"));
        }
    }
}

/// Returns the text without white space.
///
/// Members keep their order, and numbers their value and whether they have a decimal point.
pub fn compact(text: impl AsRef<[u8]>) -> Result<String, Error> {
    let text = text.as_ref();
    written(text.len() + 64, |output, length| {
        border::compact(seed(), text, output, length)
    })
}

/// Returns the canonical text: two texts have the same one exactly if their values are equal.
pub fn canonical(text: impl AsRef<[u8]>) -> Result<String, Error> {
    let text = text.as_ref();
    written(text.len() + 64, |output, length| {
        border::canonical(seed(), text, output, length)
    })
}

/// Returns the compact text of the value at a JSON Pointer (RFC 6901).
pub fn get(text: impl AsRef<[u8]>, pointer: impl AsRef<[u8]>) -> Result<String, Error> {
    let (text, pointer) = (text.as_ref(), pointer.as_ref());
    // As long as the text, so that it is read once; memory that the value does not fill is not touched.
    written(text.len() + 64, |output, length| {
        border::get(seed(), text, pointer, output, length)
    })
}

/// Returns the compact text of `target` after a JSON Merge Patch (RFC 7396).
pub fn merge_patch(target: impl AsRef<[u8]>, patch: impl AsRef<[u8]>) -> Result<String, Error> {
    let (target, patch) = (target.as_ref(), patch.as_ref());
    written(target.len() + patch.len() + 64, |output, length| {
        border::merge_patch(seed(), target, patch, output, length)
    })
}

/// Returns `true` if two texts have equal values: numbers by value, objects in any order of members.
pub fn equal(first: impl AsRef<[u8]>, second: impl AsRef<[u8]>) -> Result<bool, Error> {
    let mut equal = 0;
    checked(border::equal(seed(), first.as_ref(), second.as_ref(), &mut equal))?;
    Ok(equal == 1)
}

/// Returns a hash of `hash_seed` and the value of a text, which is the same for texts of equal values.
pub fn hash(hash_seed: u64, text: impl AsRef<[u8]>) -> Result<u64, Error> {
    let mut hash = 0;
    checked(border::hash(seed(), text.as_ref(), hash_seed, &mut hash))?;
    Ok(hash)
}

#[cfg(test)]
mod tests {
    use super::*;

    #[test]
    fn an_unknown_status_is_no_other_error() {
        for status in [status::TOO_SHORT, 9, u32::MAX] {
            let outcome = Outcome {
                status,
                text: 0,
                offset: 0,
            };
            assert_eq!(checked(outcome), Err(Error::Unknown { status }));
        }
    }

    #[test]
    fn a_value_is_got_by_one_reading() {
        use std::cell::Cell;
        let calls = Cell::new(0);
        let text = format!("[{}]", "\"é\",".repeat(500) + "0");
        let line = written(text.len() + 64, |output, length| {
            calls.set(calls.get() + 1);
            border::get(seed(), text.as_bytes(), b"", output, length)
        });
        assert_eq!((line, calls.get()), (Ok(text.clone()), 1));
    }
}
