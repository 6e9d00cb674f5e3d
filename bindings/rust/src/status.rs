//! The statuses of `ijson.h`.

pub(crate) const OK: u32 = 0;
pub(crate) const NOT_UTF8: u32 = 1;
pub(crate) const SYNTAX: u32 = 2;
pub(crate) const TOO_DEEP: u32 = 3;
pub(crate) const NUMBER_RANGE: u32 = 4;
pub(crate) const MEMORY: u32 = 5;
pub(crate) const TOO_SHORT: u32 = 6;
pub(crate) const NOT_POINTER: u32 = 7;
pub(crate) const NOTHING: u32 = 8;
