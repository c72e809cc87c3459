//! Digits, and floats written and read, over both: the fixed lists, exact buffers, one byte short.

use both::{expect, expect_text, list, over_both, Calls};
use hornbillrug::{Format, Refusal, LONGEST_READ, LONGEST_TEXT};

const SHORT: Refusal = Refusal { number: 8, place: 0 };

over_both!(
    digits,
    digits_refused,
    digits_list,
    writing,
    writing_into_nothing,
    longest_text,
    reading,
    long_texts
);

/// The digits by repeated division, at least so many, with no code of the library.
fn digits_of(mut value: u64, radix: u64, width: usize) -> Vec<u8> {
    let mut digits = Vec::new();
    while value > 0 || digits.len() < width {
        digits.push(b"0123456789ABCDEFGHIJKLMNOPQRSTUV"[(value % radix) as usize]);
        value /= radix;
    }
    digits.reverse();
    digits
}

fn digits<T: Calls>() {
    for radix in [2, 4, 8, 10, 16, 32] {
        let powers = (0..64).flat_map(|k| [(1 << k) - 1, 1 << k, (1u64 << k) | 1]);
        let tens = (0..20).flat_map(|k| [10u64.pow(k) - 1, 10u64.pow(k)]);
        for value in powers.chain(tens).chain([u64::MAX, u64::MAX - 1]) {
            for width in 1..=4 {
                let text = digits_of(value, radix, width);
                let call = |b: &mut [u8]| T::write_integer(value, radix as u32, width as u32, b);
                expect_text(&text, 9, SHORT, call);
            }
        }
    }
}

fn digits_refused<T: Calls>() {
    for radix in [0, 1, 3, 5, 9, 11, 15, 17, 31, 33, 64, 256 + 16, u32::MAX] {
        let refused = Refusal { number: 2, place: 0 };
        expect(64, Err(refused), |b| T::write_integer(255, radix, 1, b));
        expect(0, Err(refused), |b| T::write_integer(255, radix, 1, b));
    }
}

fn digits_list<T: Calls>() {
    let list = ["digits.txt", "digit_edges.txt"].map(list::digits);
    assert!(list[0].len() >= 200 && list[1].len() >= 700);
    for case in list.into_iter().flatten() {
        let call = |b: &mut [u8]| T::write_integer(case.value, case.radix, case.width, b);
        match &case.answer {
            Ok(text) => {
                expect(case.room, Ok(text), call);
                expect_text(text, 9, SHORT, call);
            }
            Err(refusal) => expect(case.room, Err(*refusal), call),
        }
    }
}

fn write<T: Calls>(width: u32, bits: u64, format: &Format, b: &mut [u8]) -> both::Written {
    match width {
        32 => T::write_f32(f32::from_bits(bits as u32), format, b),
        _ => T::write_f64(f64::from_bits(bits), format, b),
    }
}

const WRITTEN: [&str; 8] = [
    "write.txt",
    "rust.txt",
    "limit2.txt",
    "limit_ref.txt",
    "widths.txt",
    "width_edges.txt",
    "signs_write.txt",
    "write_edges.txt",
];

fn writing<T: Calls>() {
    for file in WRITTEN {
        let list = list::writing(file);
        assert!(list.len() >= 500, "{file}");
        for case in list {
            let call = |b: &mut [u8]| write::<T>(case.width, case.bits, &case.format, b);
            match &case.answer {
                Ok(text) => expect_text(text, 40, SHORT, call),
                Err(refusal) => expect(4096, Err(*refusal), call),
            }
        }
    }
}

fn writing_into_nothing<T: Calls>() {
    let format = Format::new(16, 2, 10, b'^');
    expect(0, Err(SHORT), |b| T::write_f64(0.0, &format, b));
    expect(2, Err(SHORT), |b| T::write_f64(0.0, &format, b));
    expect(3, Ok(b"0.0"), |b| T::write_f64(0.0, &format, b));
    // one byte has room for the "-", and must not hold it
    for room in 0..4 {
        expect(room, Err(SHORT), |b| T::write_f64(-0.0, &format, b));
        expect(room, Err(SHORT), |b| T::write_f32(-0.0, &format, b));
    }
    expect(4, Ok(b"-0.0"), |b| T::write_f64(-0.0, &format, b));
    expect(4, Ok(b"-0.0"), |b| T::write_f32(-0.0, &format, b));
}

/// The least denormal with 1,200 digits, and its negative, which is one byte longer.
fn longest_text<T: Calls>() {
    let format = Format {
        no_exponent_notation: true,
        min_significant_digits: 1200,
        ..Format::new(2, 2, 10, b'^')
    };
    let mut text = b"-0.".to_vec();
    text.resize(3 + 1073, b'0');
    text.push(b'1');
    text.resize(3 + 1073 + 1200, b'0');
    assert_eq!(text.len(), LONGEST_TEXT);
    let least = f64::from_bits(1);
    expect_text(&text, 100, SHORT, |b| T::write_f64(-least, &format, b));
    expect_text(&text[1..], 100, SHORT, |b| T::write_f64(least, &format, b));
}

fn read<T: Calls>(width: u32, text: &[u8], format: &Format) -> Result<u64, Refusal> {
    match width {
        32 => T::read_f32(text, format).map(|x| x.to_bits().into()),
        _ => T::read_f64(text, format).map(f64::to_bits),
    }
}

fn reading<T: Calls>() {
    let mut refused = 0;
    for case in list::READ.into_iter().flat_map(list::reading) {
        assert_eq!(read::<T>(case.width, &case.text, &case.format), case.answer);
        refused += usize::from(case.answer.is_err());
    }
    assert!(refused > 500, "damaged texts: {refused}");
}

fn long_texts<T: Calls>() {
    let format = Format::new(16, 2, 10, b'^');
    // "0.", zeros, "1", and an exponent that brings the digit back before the point
    let mut text = b"0.".to_vec();
    text.resize(2 + 4000, b'0');
    text.extend_from_slice(b"1^16004");
    assert_eq!(T::read_f64(&text, &format), Ok(1.0));
    assert_eq!(T::read_f32(&text, &format), Ok(1.0));
    // a tie, which the last of 4,096 bytes settles
    let mut tie = b"1.00000000000008".to_vec();
    tie.resize(LONGEST_READ, b'0');
    assert_eq!(T::read_f64(&tie, &format), Ok(1.0));
    tie[LONGEST_READ - 1] = b'1';
    assert_eq!(T::read_f64(&tie, &format).map(f64::to_bits), Ok(1.0f64.to_bits() + 1));
    tie.push(b'0');
    assert_eq!(T::read_f64(&tie, &format), Err(Refusal { number: 12, place: 0 }));
    // damaged in one place
    let zeros = vec![b'0'; LONGEST_READ];
    assert_eq!(T::read_f64(&zeros, &format), Ok(0.0));
    for place in [0, 1, 17, 2048, LONGEST_READ - 1] {
        let mut damaged = zeros.clone();
        damaged[place] = b'g';
        assert_eq!(T::read_f64(&damaged, &format), Err(Refusal { number: 9, place }));
        assert_eq!(T::read_f32(&damaged, &format), Err(Refusal { number: 9, place }));
    }
}
