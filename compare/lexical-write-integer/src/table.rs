//! Stands for lexical-write-integer's `table`: the digit pairs of each radix.
//!
//! Document 01, "Integer digits": "entry i holds the digits of i div 32 and i mod 32", said there
//! of radix 32; the other radices alike.

use lexical_util::digit::digit_to_char_const;
use lexical_util::format::radix_from_flags;

/// The pairs of a radix, 2 * radix * radix bytes.
const fn pairs<const BYTES: usize>(radix: u32) -> [u8; BYTES] {
    let mut table = [0; BYTES];
    let mut i = 0;
    while i < BYTES {
        let pair = (i / 2) as u32;
        table[i] = digit_to_char_const(pair / radix, radix);
        table[i + 1] = digit_to_char_const(pair % radix, radix);
        i += 2;
    }
    table
}

static PAIRS_2: [u8; 8] = pairs(2);
static PAIRS_4: [u8; 32] = pairs(4);
static PAIRS_8: [u8; 128] = pairs(8);
static PAIRS_16: [u8; 512] = pairs(16);
static PAIRS_32: [u8; 2048] = pairs(32);
/// The decimal pairs, which the given jeaiii.rs names so.
pub static DIGIT_TO_BASE10_SQUARED: [u8; 200] = pairs(10);

/// The table of the radix that stands under a mask.
#[inline(always)]
pub fn get_table<const FORMAT: u128, const MASK: u128, const SHIFT: i32>() -> &'static [u8] {
    match radix_from_flags(FORMAT, MASK, SHIFT) {
        2 => &PAIRS_2,
        4 => &PAIRS_4,
        8 => &PAIRS_8,
        10 => &DIGIT_TO_BASE10_SQUARED,
        16 => &PAIRS_16,
        32 => &PAIRS_32,
        _ => unreachable!("no such radix in document 01"),
    }
}
