//! Stands for lexical-util's `constants`.
//!
//! Document 01, "Layout": "lent 4,096 bytes"; "Integer digits": a u64 in radix 2 to 32. The given
//! code only asserts with these numbers that the digits of a mantissa fit a buffer.

/// The bytes that a writer of floats is lent.
pub const BUFFER_SIZE: usize = 4096;

/// The most digits of a type's values, in radix 2 and in radix 10.
pub trait FormattedSize {
    const FORMATTED_SIZE: usize;
    const FORMATTED_SIZE_DECIMAL: usize;
}

impl FormattedSize for u32 {
    const FORMATTED_SIZE: usize = 32;
    const FORMATTED_SIZE_DECIMAL: usize = 10;
}

impl FormattedSize for u64 {
    const FORMATTED_SIZE: usize = 64;
    const FORMATTED_SIZE_DECIMAL: usize = 20;
}
