//! Stands for lexical-util's `error` and `result`.
//!
//! Written from the names that the given options.rs uses. The harness builds options unchecked,
//! because document 01 has its own list of refusals, so none of these is ever returned to it.

#[derive(Debug, Clone, Copy, PartialEq, Eq)]
pub enum Error {
    InvalidNanString,
    NanStringTooLong,
    InvalidInfString,
    InfStringTooLong,
    InvalidFloatPrecision,
    InvalidNegativeExponentBreak,
    InvalidPositiveExponentBreak,
    InvalidExponentSymbol,
    InvalidDecimalPoint,
}

impl Error {
    pub const fn description(&self) -> &'static str {
        "invalid options"
    }
}

pub mod result {
    pub type Result<T> = core::result::Result<T, super::Error>;
}
