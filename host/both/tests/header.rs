//! The header's structs and limits are those of the Rust crate.

use std::mem::{offset_of, size_of};

use both::c;
use hornbillrug::raw::{Answer, AnswerF32, AnswerF64, StationAnswer};
use hornbillrug::{Format, Record};

/// How long a field is, by a function that borrows it.
const fn length_of<T, F>(_field: fn(&T) -> &F) -> usize {
    size_of::<F>()
}

/// A struct's size, then where each field begins and how long it is.
macro_rules! layout {
    ($type:ty, $($field:ident),* $(,)?) => {
        [
            size_of::<$type>(),
            $(offset_of!($type, $field), length_of(|s: &$type| &s.$field)),*
        ]
    };
}

#[test]
fn format() {
    let rust = layout!(
        Format,
        required_exponent_notation,
        no_exponent_notation,
        required_exponent_sign,
        no_exponent_without_fraction,
        truncate,
        trim_floats,
        exponent,
        decimal_point,
        mantissa_radix,
        exponent_base,
        max_significant_digits,
        min_significant_digits,
        positive_exponent_break,
        negative_exponent_break,
        exponent_radix,
        exponent_width,
    );
    // SAFETY: a constant array of the C file.
    assert_eq!(rust, unsafe { c::through_format });
}

#[test]
fn answers() {
    // SAFETY: constant arrays of the C file.
    unsafe {
        assert_eq!(layout!(Answer, number, place, value), c::through_answer);
        assert_eq!(layout!(AnswerF64, number, place, value), c::through_answer_f64);
        assert_eq!(layout!(AnswerF32, number, place, value), c::through_answer_f32);
        let station = layout!(StationAnswer, number, writing, station, place, value);
        assert_eq!(station, c::through_station_answer);
    }
}

#[test]
fn limits() {
    let rust = [
        hornbillrug::LONGEST_TEXT,
        hornbillrug::LONGEST_READ,
        hornbillrug::MOST_WINDOWS,
        hornbillrug::LONGEST_SHEET,
        hornbillrug::LONGEST_TABLE,
        size_of::<Record>(),
    ];
    // SAFETY: a constant array of the C file.
    assert_eq!(rust, unsafe { c::through_limits });
}
