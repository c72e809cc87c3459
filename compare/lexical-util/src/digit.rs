//! Stands for lexical-util's `digit`.
//!
//! Document 01, "Integer digits": "0-9 then capitals A-V".

/// The digit of a value below the radix.
#[inline(always)]
pub const fn digit_to_char_const(value: u32, _radix: u32) -> u8 {
    if value < 10 {
        b'0' + value as u8
    } else {
        b'A' + (value - 10) as u8
    }
}

/// The value of a digit. Only radix 10 with a digit limit asks for it, which is not written here.
#[inline(always)]
pub const fn char_to_valid_digit_const(digit: u8, _radix: u32) -> u32 {
    if digit <= b'9' {
        (digit - b'0') as u32
    } else {
        (digit - b'A') as u32 + 10
    }
}
