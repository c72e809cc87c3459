//! Stands for lexical-util's `format`.
//!
//! Document 01, "Integer digits": "`NumberFormat` holds the fields under Formats"; "Formats": the
//! ten pairs, the six exponent radices and the four flags. Where a field stands in the packed
//! number is our choice: the given files only use the names below.

pub const RADIX_SHIFT: i32 = 0;
pub const RADIX: u128 = 0xFF << RADIX_SHIFT;
pub const EXPONENT_BASE_SHIFT: i32 = 8;
pub const EXPONENT_BASE: u128 = 0xFF << EXPONENT_BASE_SHIFT;
pub const EXPONENT_RADIX_SHIFT: i32 = 16;
pub const EXPONENT_RADIX: u128 = 0xFF << EXPONENT_RADIX_SHIFT;

pub const REQUIRED_EXPONENT_SIGN: u128 = 1 << 24;
pub const NO_EXPONENT_WITHOUT_FRACTION: u128 = 1 << 25;
pub const REQUIRED_EXPONENT_NOTATION: u128 = 1 << 26;
pub const NO_EXPONENT_NOTATION: u128 = 1 << 27;

/// A format as one number; `flags` is a sum of the four constants above.
pub const fn pack(radix: u128, base: u128, exponent_radix: u128, flags: u128) -> u128 {
    radix << RADIX_SHIFT
        | base << EXPONENT_BASE_SHIFT
        | exponent_radix << EXPONENT_RADIX_SHIFT
        | flags
}

/// The radix that stands under a mask.
#[inline(always)]
pub const fn radix_from_flags(format: u128, mask: u128, shift: i32) -> u32 {
    ((format & mask) >> shift) as u32
}

/// The fields of a packed format.
pub struct NumberFormat<const FORMAT: u128> {}

impl<const FORMAT: u128> NumberFormat<FORMAT> {
    /// One of the ten pairs, one of the six exponent radices, and not both notations.
    pub const fn is_valid(&self) -> bool {
        matches!(
            (self.radix(), self.exponent_base()),
            (2, 2)
                | (4, 4)
                | (8, 8)
                | (16, 16)
                | (32, 32)
                | (4, 2)
                | (8, 2)
                | (16, 2)
                | (32, 2)
                | (16, 4)
        ) && matches!(self.exponent_radix(), 2 | 4 | 8 | 10 | 16 | 32)
            && !(self.required_exponent_notation() && self.no_exponent_notation())
    }

    pub const fn radix(&self) -> u32 {
        radix_from_flags(FORMAT, RADIX, RADIX_SHIFT)
    }

    pub const fn mantissa_radix(&self) -> u32 {
        self.radix()
    }

    pub const fn exponent_base(&self) -> u32 {
        radix_from_flags(FORMAT, EXPONENT_BASE, EXPONENT_BASE_SHIFT)
    }

    pub const fn exponent_radix(&self) -> u32 {
        radix_from_flags(FORMAT, EXPONENT_RADIX, EXPONENT_RADIX_SHIFT)
    }

    pub const fn required_exponent_sign(&self) -> bool {
        FORMAT & REQUIRED_EXPONENT_SIGN != 0
    }

    pub const fn no_exponent_without_fraction(&self) -> bool {
        FORMAT & NO_EXPONENT_WITHOUT_FRACTION != 0
    }

    pub const fn required_exponent_notation(&self) -> bool {
        FORMAT & REQUIRED_EXPONENT_NOTATION != 0
    }

    pub const fn no_exponent_notation(&self) -> bool {
        FORMAT & NO_EXPONENT_NOTATION != 0
    }
}
