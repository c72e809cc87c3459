//! Denormals and ties, at which a floating-point mode would show. All tests of a call run in each
//! mode; these have the answers written out.

use both::{expect, expect_text, mode, over_both, table, Calls};
use hornbillrug::{Format, Refusal, StationRefusal, Step};

const SHORT: Refusal = Refusal { number: 8, place: 0 };

over_both!(denormal_windows, windows_that_end_early, denormal_texts, ties);

/// The processor itself compares and adds otherwise in a mode, so a mode is set.
#[test]
fn modes_are_set() {
    let (least, tiny) = (f64::from_bits(1), f64::from_bits(0x3c30_0000_0000_0000));
    let (one, above) = (1.0f64.to_bits(), 1.0f64.to_bits() + 1);
    let mut seen = Vec::new();
    mode::each(|| {
        let sums = [mode::sum(1.0, tiny), -mode::sum(-1.0, -tiny)];
        seen.push((mode::less(0.0, least), sums.map(f64::to_bits)));
    });
    // to the nearest, down, up, toward zero
    let sums = [[one, one], [one, above], [above, one], [one, one]];
    let wanted = [true, false].map(|less| sums.map(|sums| (less, sums)));
    assert_eq!(seen, wanted.as_flattened());
}

/// 16/2, exponent radix 10, mark "p", exponent required.
fn hex() -> Format {
    Format { required_exponent_notation: true, ..Format::new(16, 2, 10, b'p') }
}

/// 8/2, exponent radix 10, mark "^", exponent required.
fn octal() -> Format {
    Format { required_exponent_notation: true, ..Format::new(8, 2, 10, b'^') }
}

// The sign bit.
const MINUS: u64 = 1 << 63;
const NARROW_MINUS: u32 = 1 << 31;

// Rank, bits and text of floats of both signs: 0, 2^-1074, 2^-1073, the largest denormal, 2^-1022, 1.
// The ranks are ordered as the values are, so the two zeros have one.
const FLOATS: [(i32, u64, &str); 12] = [
    (-5, MINUS | 0x3ff0_0000_0000_0000, "-1.0p0"),
    (-4, MINUS | 0x10_0000_0000_0000, "-4.0p-1024"),
    (-3, MINUS | 0xf_ffff_ffff_ffff, "-3.FFFFFFFFFFFFCp-1024"),
    (-2, MINUS | 2, "-8.0p-1076"),
    (-1, MINUS | 1, "-4.0p-1076"),
    (0, MINUS, "-0.0p0"),
    (0, 0, "0.0p0"),
    (1, 1, "4.0p-1076"),
    (2, 2, "8.0p-1076"),
    (3, 0xf_ffff_ffff_ffff, "3.FFFFFFFFFFFFCp-1024"),
    (4, 0x10_0000_0000_0000, "4.0p-1024"),
    (5, 0x3ff0_0000_0000_0000, "1.0p0"),
];

fn denormal_windows<T: Calls>() {
    for (rank, start, start_text) in FLOATS {
        for (_, end, end_text) in FLOATS.into_iter().filter(|float| float.0 >= rank) {
            let table = table(start, end);
            let sheet = format!("1\n{start_text} {end_text}\n").into_bytes();
            expect_text(&sheet, 9, SHORT, |b| T::table_to_sheet(&table, &hex(), b));
            expect_text(&table, 9, SHORT, |b| T::sheet_to_table(&sheet, &hex(), b));
        }
    }
}

fn windows_that_end_early<T: Calls>() {
    for (rank, start, start_text) in FLOATS {
        for (_, end, end_text) in FLOATS.into_iter().filter(|float| float.0 < rank) {
            // the row's index in a table, and where its line begins in a sheet
            let refused = |place| Err(Refusal { number: 14, place });
            let sheet = format!("1\n{start_text} {end_text}\n").into_bytes();
            expect(90, refused(0), |b| T::table_to_sheet(&table(start, end), &hex(), b));
            expect(90, refused(2), |b| T::sheet_to_table(&sheet, &hex(), b));
        }
    }
}

fn denormal_texts<T: Calls>() {
    let short = |station| StationRefusal { station, step: Step::Writing, refusal: SHORT };
    let back = [hex().record()];
    // bits, and the text in `hex` and in `octal`
    let wide: [(u64, &[u8], &[u8]); 5] = [
        (1, b"4.0p-1076", b"1.0^-1074"),
        (2, b"8.0p-1076", b"2.0^-1074"),
        (3, b"C.0p-1076", b"3.0^-1074"),
        (MINUS | 1, b"-4.0p-1076", b"-1.0^-1074"),
        (MINUS | 3, b"-C.0p-1076", b"-3.0^-1074"),
    ];
    for (bits, text, other) in wide {
        let x = f64::from_bits(bits);
        expect_text(text, 9, SHORT, |b| T::write_f64(x, &hex(), b));
        assert_eq!(T::read_f64(text, &hex()).map(f64::to_bits), Ok(bits));
        expect_text(other, 9, short(0), |b| T::rewrite_f64(text, &hex(), &octal(), b));
        expect_text(text, 9, short(1), |b| T::chain_f64(text, &hex(), &octal(), &back, b));
    }
    let narrow: [(u32, &[u8], &[u8]); 5] = [
        (1, b"8.0p-152", b"2.0^-150"),
        (2, b"1.0p-148", b"4.0^-150"),
        (3, b"1.8p-148", b"6.0^-150"),
        (NARROW_MINUS | 1, b"-8.0p-152", b"-2.0^-150"),
        (NARROW_MINUS | 3, b"-1.8p-148", b"-6.0^-150"),
    ];
    for (bits, text, other) in narrow {
        let x = f32::from_bits(bits);
        expect_text(text, 9, SHORT, |b| T::write_f32(x, &hex(), b));
        assert_eq!(T::read_f32(text, &hex()).map(f32::to_bits), Ok(bits));
        expect_text(other, 9, short(0), |b| T::rewrite_f32(text, &hex(), &octal(), b));
        expect_text(text, 9, short(1), |b| T::chain_f32(text, &hex(), &octal(), &back, b));
    }
}

/// Texts halfway between two floats, and just above: the even one of the two, and the upper one. Behind
/// "-" it is the same of the magnitude, also where that is zero.
fn ties<T: Calls>() {
    let wide: [(&[u8], u64); 8] = [
        (b"2.0p-1076", 0),
        (b"2.1p-1076", 1),
        (b"6.0p-1076", 2),
        (b"6.1p-1076", 2),
        (b"A.0p-1076", 2),
        (b"A.1p-1076", 3),
        (b"1.00000000000008p0", 0x3ff0_0000_0000_0000),
        (b"1.00000000000018p0", 0x3ff0_0000_0000_0002),
    ];
    for (text, bits) in wide {
        assert_eq!(T::read_f64(text, &hex()).map(f64::to_bits), Ok(bits));
        let text = [b"-", text].concat();
        assert_eq!(T::read_f64(&text, &hex()).map(f64::to_bits), Ok(MINUS | bits));
    }
    let narrow: [(&[u8], u32); 6] = [
        (b"4.0p-152", 0),
        (b"4.1p-152", 1),
        (b"C.0p-152", 2),
        (b"1.4p-148", 2),
        (b"1.000001p0", 0x3f80_0000),
        (b"1.000003p0", 0x3f80_0002),
    ];
    for (text, bits) in narrow {
        assert_eq!(T::read_f32(text, &hex()).map(f32::to_bits), Ok(bits));
        let text = [b"-", text].concat();
        assert_eq!(T::read_f32(&text, &hex()).map(f32::to_bits), Ok(NARROW_MINUS | bits));
    }
}
