//! Stands for lexical-util's `algorithm`.
//!
//! Document 01, "Integer digits": "`rtrim_char_count` counts trailing zeros".

/// How many bytes at the end of `digits` are `byte`.
#[inline(always)]
pub fn rtrim_char_count(digits: &[u8], byte: u8) -> usize {
    digits.iter().rev().take_while(|&&digit| digit == byte).count()
}
