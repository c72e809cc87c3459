//! Stands for lexical-write-integer's `algorithm`: the digit loops that the given radix.rs calls.
//!
//! Document 01, "Integer digits": "most significant first, no leading zeros, "0" for zero, 0-9
//! then capitals A-V". The given radix.rs says that digits are written four a turn from a table
//! of digit pairs, so that is done here too.

use lexical_util::digit::digit_to_char_const;
use lexical_util::format::radix_from_flags;
use lexical_util::num::UnsignedInteger;

use crate::digit_count::DigitCount;

/// Puts the digits of a pair, `2 * pair` being the pair's place in the table, before `end`.
#[inline(always)]
fn put_pair(table: &[u8], pair: usize, buffer: &mut [u8], end: usize) {
    buffer[end - 2..end].copy_from_slice(&table[2 * pair..2 * pair + 2]);
}

/// Writes the digits of `value` at the front of `buffer` and answers their count.
#[inline(always)]
pub fn algorithm<T>(mut value: T, radix: u32, table: &[u8], buffer: &mut [u8]) -> usize
where
    T: UnsignedInteger + DigitCount,
{
    let count = value.digit_count(radix);
    let buffer = &mut buffer[..count];
    let square = T::from_u32(radix * radix);
    let mut end = count;
    while end >= 4 {
        put_pair(table, (value % square).as_usize(), buffer, end);
        value /= square;
        put_pair(table, (value % square).as_usize(), buffer, end - 2);
        value /= square;
        end -= 4;
    }
    if end >= 2 {
        put_pair(table, (value % square).as_usize(), buffer, end);
        value /= square;
        end -= 2;
    }
    if end == 1 {
        buffer[0] = digit_to_char_const(value.as_u32(), radix);
    }
    count
}

/// The same for 128 bits, which no float here has.
pub fn algorithm_u128<const FORMAT: u128, const MASK: u128, const SHIFT: i32>(
    value: u128,
    table: &[u8],
    buffer: &mut [u8],
) -> usize {
    algorithm(value, radix_from_flags(FORMAT, MASK, SHIFT), table, buffer)
}
