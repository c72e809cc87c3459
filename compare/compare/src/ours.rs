//! Our compiled writer, by the C functions that `hornbillrug` declares, so that every field of an
//! answer is seen.

use cases::Case;
pub use hornbillrug::raw::Answer;
use hornbillrug::{raw, Format};

/// The answer where a text of this length was written.
pub fn length(value: usize) -> Answer {
    Answer { number: 0, place: 0, value }
}

/// A refusal at place 0, the only place where a writing call refuses.
pub fn refused(number: u32) -> Answer {
    Answer { number, place: 0, value: 0 }
}

/// Our format of a case. Its exponents have the least width 1, since the Rust knows no other.
pub fn format_of(case: &Case) -> Format {
    Format {
        required_exponent_notation: case.required_exponent_notation,
        no_exponent_notation: case.no_exponent_notation,
        required_exponent_sign: case.required_exponent_sign,
        no_exponent_without_fraction: case.no_exponent_without_fraction,
        truncate: case.truncate,
        trim_floats: case.trim,
        decimal_point: case.point,
        max_significant_digits: case.most,
        min_significant_digits: case.least,
        positive_exponent_break: case.high,
        negative_exponent_break: case.low,
        exponent_width: 1,
        ..Format::new(case.radix, case.base, case.exponent_radix, case.mark)
    }
}

/// Lets ours write into `lent`.
pub fn write(case: &Case, lent: &mut [u8]) -> Answer {
    let format = format_of(case);
    let (pointer, length) = (lent.as_mut_ptr(), lent.len());
    // SAFETY: pointer and length are those of one slice, which the call keeps within.
    unsafe {
        match case.width {
            32 => raw::lexical_write_f32(f32::from_bits(case.bits as u32), format, pointer, length),
            64 => raw::lexical_write_f64(f64::from_bits(case.bits), format, pointer, length),
            _ => panic!("a width of 32 or 64"),
        }
    }
}
