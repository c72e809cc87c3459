//! What document 01 says of a case in whole numbers: m, e, s, the length of D, and the layout. All of it
//! is said of the magnitude, whatever the sign.
//!
//! None of it is taken from the Rust or from ours. It decides which cases stand in the domain and
//! which layouts a list holds; the texts themselves come from the two writers only.

use std::fmt;

use crate::case::Case;

/// Stored bits of the mantissa, and the exponent of a denormal float.
pub fn stored_bits_and_least_exponent(width: u32) -> (u32, i32) {
    match width {
        32 => (23, -149),
        64 => (52, -1074),
        _ => panic!("a width of 32 or 64"),
    }
}

/// Mantissa m and exponent e, the float's magnitude being m * 2^e.
pub fn parts(case: &Case) -> (u64, i32) {
    let (stored, least) = stored_bits_and_least_exponent(case.width);
    let fraction = case.bits & ((1 << stored) - 1);
    match (case.magnitude() >> stored) as i32 {
        0 => (fraction, least),
        biased => (fraction | 1 << stored, least + biased - 1),
    }
}

/// The mantissa's width less its leading zeros.
pub fn significant_bits(m: u64) -> u32 {
    u64::BITS - m.leading_zeros()
}

/// s, the place of the highest bit; 0 for zero.
pub fn s_of(case: &Case) -> i32 {
    match parts(case) {
        (0, _) => 0,
        (m, e) => e + significant_bits(m) as i32 - 1,
    }
}

/// Bits of one digit, b.
pub fn bits_of_digit(case: &Case) -> i32 {
    case.radix.ilog2() as i32
}

/// The length of D, the exact digits of m * 2^e from the first nonzero one to the last; 1 for
/// zero. `b` is the bits of a digit.
pub fn length_of_d((m, e): (u64, i32), b: i32) -> i32 {
    if m == 0 {
        return 1;
    }
    let highest = e + significant_bits(m) as i32 - 1;
    let lowest = e + m.trailing_zeros() as i32;
    highest.div_euclid(b) - lowest.div_euclid(b) + 1
}

/// Whether the Rust drops bits of the mantissa: it keeps `most` * b of them.
pub fn rust_drops_bits(case: &Case) -> bool {
    case.most != 0 && kept_bits(case) < significant_bits(parts(case).0)
}

fn kept_bits(case: &Case) -> u32 {
    case.most * bits_of_digit(case) as u32
}

/// m and e after the mantissa is rounded to `most` * b bits, nearest with ties to even or toward
/// zero. In radix 2 this is document 01's digit limit; in others it is the Rust's.
pub fn kept_parts(case: &Case) -> (u64, i32) {
    let (m, e) = parts(case);
    if !rust_drops_bits(case) {
        return (m, e);
    }
    let dropped_bits = significant_bits(m) - kept_bits(case);
    let kept = m >> dropped_bits;
    let rest = m & ((1 << dropped_bits) - 1);
    let half = 1 << (dropped_bits - 1);
    let up = !case.truncate && (rest > half || rest == half && kept % 2 == 1);
    (kept + up as u64, e + dropped_bits as i32)
}

/// Whether that rounding carries into a bit above the highest.
pub fn carries(case: &Case) -> bool {
    rust_drops_bits(case) && significant_bits(kept_parts(case).0) > kept_bits(case)
}

/// The layouts of document 01, each split where its sentences do.
#[derive(Debug, Clone, Copy, PartialEq, Eq, PartialOrd, Ord)]
pub enum Layout {
    ScientificDigitAlone,
    ScientificPointZero,
    ScientificZerosToLeast,
    ScientificLongerD,
    Negative,
    PositivePointInD,
    PositiveTrimmed,
    PositivePointZero,
}

impl Layout {
    pub const ALL: [Layout; 8] = [
        Layout::ScientificDigitAlone,
        Layout::ScientificPointZero,
        Layout::ScientificZerosToLeast,
        Layout::ScientificLongerD,
        Layout::Negative,
        Layout::PositivePointInD,
        Layout::PositiveTrimmed,
        Layout::PositivePointZero,
    ];
}

impl fmt::Display for Layout {
    fn fmt(&self, f: &mut fmt::Formatter) -> fmt::Result {
        f.write_str(match self {
            Layout::ScientificDigitAlone => "scientific, one digit alone",
            Layout::ScientificPointZero => "scientific, one digit and \".0\"",
            Layout::ScientificZerosToLeast => "scientific, one digit and zeros",
            Layout::ScientificLongerD => "scientific, longer D",
            Layout::Negative => "negative",
            Layout::PositivePointInD => "positive, D longer than the places",
            Layout::PositiveTrimmed => "positive, trimmed",
            Layout::PositivePointZero => "positive, \".0\"",
        })
    }
}

/// Whether the layout is scientific.
fn is_scientific(case: &Case) -> bool {
    let s = s_of(case);
    let low = if case.low == 0 { -5 } else { case.low };
    let high = if case.high == 0 { 9 } else { case.high };
    !case.no_exponent_notation && (case.required_exponent_notation || s < low || s > high)
}

/// The layout of a case without a digit limit, or with one in radix 2 where no bit carries, so
/// that s stays.
pub fn layout_of(case: &Case) -> Layout {
    let s = s_of(case);
    let b = bits_of_digit(case);
    let d = length_of_d(kept_parts(case), b);
    if is_scientific(case) {
        match d {
            1 if case.trim && !case.no_exponent_without_fraction => Layout::ScientificDigitAlone,
            1 if case.least < 2 => Layout::ScientificPointZero,
            1 => Layout::ScientificZerosToLeast,
            _ => Layout::ScientificLongerD,
        }
    } else if s < 0 {
        Layout::Negative
    } else if d > s / b + 1 {
        Layout::PositivePointInD
    } else if case.trim {
        Layout::PositiveTrimmed
    } else {
        Layout::PositivePointZero
    }
}
