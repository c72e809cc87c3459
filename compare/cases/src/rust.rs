//! What the Rust writes for a case. It takes no float with the sign bit set, so it is lent the magnitude;
//! what it writes stands behind the sign.

use std::num::{NonZeroI32, NonZeroUsize};

use lexical_write_float::options::{Options, RoundMode};

use crate::case::Case;

// The Rust's answers with a digit limit need wrapping sums, as a release build has them.
const _: () = assert!(!cfg!(debug_assertions), "build with --release");

/// The bytes lent to the Rust and to ours.
pub const LENT: usize = 4096;

/// The Rust's options of a case. Unchecked, because document 01 has its own list of refusals.
pub fn rust_options(case: &Case) -> Options {
    let round = if case.truncate { RoundMode::Truncate } else { RoundMode::Round };
    Options::builder()
        .decimal_point(case.point)
        .exponent(case.mark)
        .trim_floats(case.trim)
        .round_mode(round)
        .min_significant_digits(NonZeroUsize::new(case.least as usize))
        .max_significant_digits(NonZeroUsize::new(case.most as usize))
        .negative_exponent_break(NonZeroI32::new(case.low))
        .positive_exponent_break(NonZeroI32::new(case.high))
        .build_unchecked()
}

/// Lets the Rust write the magnitude into `lent` and answers the length. The case has to be one that
/// no refusal meets.
pub fn rust_write(case: &Case, lent: &mut [u8; LENT]) -> usize {
    let format = case.format().expect("a format of document 01");
    let options = rust_options(case);
    match case.width {
        32 => format.of_f32()(f32::from_bits(case.magnitude() as u32), lent, &options),
        64 => format.of_f64()(f64::from_bits(case.magnitude()), lent, &options),
        _ => panic!("a width of 32 or 64"),
    }
}

/// The sign, and the text that the Rust writes for the magnitude.
pub fn rust_text(case: &Case) -> String {
    let mut lent = [0; LENT];
    let length = rust_write(case, &mut lent);
    let text = std::str::from_utf8(&lent[..length]).expect("a text of ASCII bytes");
    format!("{}{text}", case.sign())
}
