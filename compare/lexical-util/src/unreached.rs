//! Stands for lexical-util's `ascii`, `assert`, `div128` and `step`.
//!
//! The given files name these for ready-made options, for integers of 128 bits and for radices
//! other than document 01's. They have to compile and have the plain meaning of their names; no
//! text of the comparison depends on them.

pub mod ascii {
    pub const fn is_valid_ascii(byte: u8) -> bool {
        matches!(byte, b'\t'..=b'\r' | b' '..=b'~')
    }

    pub const fn is_valid_letter_slice(bytes: &[u8]) -> bool {
        let mut i = 0;
        while i < bytes.len() {
            if !bytes[i].is_ascii_alphabetic() {
                return false;
            }
            i += 1;
        }
        true
    }
}

pub mod assert {
    pub fn debug_assert_radix(radix: u32) {
        debug_assert!((2..=36).contains(&radix));
    }
}

pub mod step {
    /// How many digits every number of so many digits may have and still fit a u64.
    pub fn u64_step(radix: u32) -> usize {
        u64::MAX.ilog(radix as u64) as usize
    }
}

pub mod div128 {
    /// Quotient and remainder by the largest power of the radix that `u64_step` names.
    pub fn u128_divrem(n: u128, radix: u32) -> (u128, u64) {
        let divisor = (radix as u128).pow(super::step::u64_step(radix) as u32);
        (n / divisor, (n % divisor) as u64)
    }

    /// Quotient and remainder; the numbers for a faster way are not used.
    pub fn fast_u128_divrem(n: u128, d: u64, _: u128, _: u32, _: u128, _: u32) -> (u128, u64) {
        (n / d as u128, (n % d as u128) as u64)
    }
}
