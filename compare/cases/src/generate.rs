//! Random and edge cases that no refusal meets. They are drawn with the sign bit clear, as the Rust
//! takes them; `signed` sets it.

pub use lexical_write_float::formats::{EXPONENT_RADICES, PAIRS};

use crate::case::Case;
use crate::layout::{carries, parts, s_of, significant_bits, stored_bits_and_least_exponent};
use crate::random::Random;

/// The float of a width whose highest bit stands at place s, with the bits below the highest
/// taken from the top of `below`, as many as the float stores.
pub fn float_at(width: u32, s: i32, below: u64) -> u64 {
    let (stored, least) = stored_bits_and_least_exponent(width);
    let room = (s - least) as u32;
    if room < stored {
        // Denormal: the highest bit is stored too, at place `room`.
        1 << room | below.checked_shr(u64::BITS - room).unwrap_or(0)
    } else {
        let biased = (room - stored + 1) as u64;
        biased << stored | below >> (u64::BITS - stored)
    }
}

/// The least and the greatest s of a width.
pub fn range_of_s(width: u32) -> (i32, i32) {
    match width {
        32 => (-149, 127),
        _ => (-1074, 1023),
    }
}

/// A place for the highest bit: anywhere, near the default breaks, near 0, or at an end.
fn random_s(random: &mut Random, width: u32) -> i32 {
    let (least, greatest) = range_of_s(width);
    match random.below(8) {
        0..=2 => random.between(least, greatest),
        3 => random.between(-7, -3),
        4 => random.between(7, 11),
        5 => random.between(least, least + 60),
        6 => random.between(greatest - 60, greatest),
        _ => random.between(-40, 40),
    }
}

/// Floats at the edges: zero, least and greatest denormal, least normal, largest, and 1.0 with
/// its neighbours.
fn edge_float(random: &mut Random, width: u32) -> u64 {
    let (stored, least) = stored_bits_and_least_exponent(width);
    let normal = 1 << stored;
    let one = ((1 - least - stored as i32) as u64) << stored;
    let largest = match width {
        32 => f32::MAX.to_bits() as u64,
        _ => f64::MAX.to_bits(),
    };
    let edges =
        [0, 0, 1, 2, normal - 1, normal, normal + 1, largest, largest - 1, one, one + 1, one - 1];
    random.pick(&edges)
}

/// A finite float with its sign bit clear.
fn random_float(random: &mut Random, width: u32) -> u64 {
    let s = random_s(random, width);
    let any = random.bits();
    match random.below(8) {
        0 => edge_float(random, width),
        1 => float_at(width, s, 0),
        2..=4 => {
            // Few bits below the highest, so that D is short.
            let bits = random.between(1, 12);
            float_at(width, s, any & (u64::MAX << (64 - bits)))
        }
        // A run of ones below the highest bit: rounding carries through it.
        5 => float_at(width, s, any | (u64::MAX << random.between(10, 63))),
        _ => float_at(width, s, any),
    }
}

/// A byte that may be point or mark: from 33 to 126, no sign, no digit of the radix.
fn random_symbol(random: &mut Random, radix: u32) -> u8 {
    loop {
        let byte = random.between(33, 126) as u8;
        let value = match byte {
            b'0'..=b'9' => (byte - b'0') as u32,
            b'A'..=b'V' => (byte - b'A') as u32 + 10,
            _ => 32,
        };
        if byte != b'+' && byte != b'-' && value >= radix {
            return byte;
        }
    }
}

/// Point and mark, "." and "^" more often than not.
fn random_symbols(random: &mut Random, radix: u32) -> (u8, u8) {
    loop {
        let point = if random.one_in(3) { random_symbol(random, radix) } else { b'.' };
        let mark = if random.one_in(3) { random_symbol(random, radix) } else { b'^' };
        if point != mark {
            return (point, mark);
        }
    }
}

/// A break within `least` to `most`, or 0 for the default: near s, at the ends, or anywhere.
fn random_break(random: &mut Random, s: i32, least: i32, most: i32) -> i32 {
    let near = s + random.between(-1, 1);
    match random.below(8) {
        0..=2 => 0,
        3..=4 if (least..=most).contains(&near) => near,
        5 => least,
        6 => most,
        _ => random.between(least, most),
    }
}

/// A least count of digits: none, few, or up to 1,200.
fn random_least(random: &mut Random) -> u32 {
    match random.below(8) {
        0..=3 => 0,
        4..=5 => random.between(1, 8) as u32,
        6 => random.between(1, 70) as u32,
        _ if random.one_in(4) => 1200,
        _ => random.between(1, 1200) as u32,
    }
}

/// A case without a digit limit.
pub fn without_limit(random: &mut Random) -> Case {
    let width = random.pick(&[32, 64]);
    let (radix, base) = random.pick(&PAIRS);
    let (point, mark) = random_symbols(random, radix);
    let notation = random.below(6);
    let mut case = Case {
        width,
        bits: random_float(random, width),
        radix,
        base,
        exponent_radix: random.pick(&EXPONENT_RADICES),
        required_exponent_notation: notation < 2,
        no_exponent_notation: notation == 2,
        required_exponent_sign: random.one_in(3),
        no_exponent_without_fraction: random.one_in(3),
        point,
        mark,
        trim: random.one_in(2),
        truncate: random.one_in(2),
        least: random_least(random),
        ..Case::DEFAULT
    };
    let s = s_of(&case);
    case.low = random_break(random, s, -2000, -1);
    case.high = random_break(random, s, 1, 2000);
    case
}

/// A case with a digit limit so high that no float has more digits: it changes nothing.
pub fn with_wide_limit(random: &mut Random) -> Case {
    let mut case = without_limit(random);
    let digits = stored_bits_and_least_exponent(case.width).0 as i32 + 1;
    case.most = match random.below(3) {
        0 => digits as u32,
        1 => 1200,
        _ => random.between(digits, 1200) as u32,
    };
    case.least = case.least.min(case.most);
    case
}

/// A case with a digit limit that mostly drops bits, in any pair.
pub fn with_limit(random: &mut Random) -> Case {
    let mut case = without_limit(random);
    // The bits from the highest to the lowest that is set: one digit less is a tie in radix 2.
    let m = parts(&case).0;
    let bits = significant_bits(m) as i32 - if m == 0 { 0 } else { m.trailing_zeros() as i32 };
    case.most = match random.below(8) {
        0..=3 => random.between(1, 8),
        4 => random.between(1, 53),
        5..=6 => (bits + random.between(-2, 2)).max(1),
        _ => random.between(1, 1200),
    } as u32;
    case.least = match random.below(4) {
        0..=1 => 0,
        2 => random.between(1, case.most as i32) as u32,
        _ => case.most,
    };
    case
}

/// A case of demand 2's domain with a digit limit: radix 2, and rounding carries no bit.
pub fn with_limit_in_domain(random: &mut Random) -> Case {
    loop {
        let case = Case { radix: 2, base: 2, ..with_limit(random) };
        if !carries(&case) {
            return case;
        }
    }
}

/// A case or its negative, each as often. The signs have random numbers of their own, so that a seed
/// names the same magnitudes with them and without.
pub fn signed(signs: &mut Random, case: Case) -> Case {
    if signs.one_in(2) {
        case.negated()
    } else {
        case
    }
}

/// The longest text of a magnitude, 2,275 bytes: the least denormal without an exponent and with 1,200
/// digits.
pub const LONGEST: Case =
    Case { bits: 1, no_exponent_notation: true, least: 1200, ..Case::DEFAULT };
