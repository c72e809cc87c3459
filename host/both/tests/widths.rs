//! The least width of digits and of an exponent over both, with the answers written out.

use both::{expect, expect_text, over_both, table, Calls};
use hornbillrug::{Format, Refusal, StationRefusal, Step};

const SHORT: Refusal = refusal(8);
/// Numbers that are no width.
const BAD: [u32; 6] = [0, 5, 6, 255, 256 + 1, u32::MAX];

over_both!(
    digits,
    digits_refused,
    texts,
    wide_floats,
    radices_and_signs,
    texts_without_exponent,
    refused_between_6_and_7,
    ignored_in_reading,
    rewritten,
    chained,
    sheets,
    sheets_refused,
);

const fn refusal(number: u32) -> Refusal {
    Refusal { number, place: 0 }
}

fn at(station: usize, step: Step, refusal: Refusal) -> StationRefusal {
    StationRefusal { station, step, refusal }
}

/// Exponent required, exponent radix 10.
fn format(radix: u32, base: u32, mark: u8, width: u32) -> Format {
    Format {
        required_exponent_notation: true,
        exponent_width: width,
        ..Format::new(radix, base, 10, mark)
    }
}

fn hex(mark: u8, width: u32) -> Format {
    format(16, 2, mark, width)
}

/// A number, a radix, and its digits in width 1, 2, 3 and 4.
const DIGITS: [(u64, u32, [&str; 4]); 16] = [
    (0, 2, ["0", "00", "000", "0000"]),
    (5, 2, ["101", "101", "101", "0101"]),
    (9, 2, ["1001", "1001", "1001", "1001"]),
    (0, 4, ["0", "00", "000", "0000"]),
    (7, 4, ["13", "13", "013", "0013"]),
    (7, 8, ["7", "07", "007", "0007"]),
    (8, 8, ["10", "10", "010", "0010"]),
    (0, 10, ["0", "00", "000", "0000"]),
    (9, 10, ["9", "09", "009", "0009"]),
    (999, 10, ["999", "999", "999", "0999"]),
    (12_345, 10, ["12345", "12345", "12345", "12345"]),
    (10, 16, ["A", "0A", "00A", "000A"]),
    (65_536, 16, ["10000", "10000", "10000", "10000"]),
    (0, 32, ["0", "00", "000", "0000"]),
    (31, 32, ["V", "0V", "00V", "000V"]),
    (1_000, 32, ["V8", "V8", "0V8", "00V8"]),
];

fn digits<T: Calls>() {
    for (value, radix, texts) in DIGITS {
        for (width, text) in (1..).zip(texts) {
            let call = |b: &mut [u8]| T::write_integer(value, radix, width, b);
            expect_text(text.as_bytes(), 9, SHORT, call);
        }
    }
}

/// 16 stands after 2 and before 8.
fn digits_refused<T: Calls>() {
    for width in BAD {
        for room in [0, 64] {
            for radix in [2, 4, 8, 10, 16, 32] {
                expect(room, Err(refusal(16)), |b| T::write_integer(7, radix, width, b));
            }
            expect(room, Err(refusal(2)), |b| T::write_integer(7, 3, width, b));
        }
    }
}

/// A float that both widths have, and its text in 16/2 with the mark "^" in width 1, 2, 3 and 4.
const TEXTS: [(f64, [&str; 4]); 6] = [
    (0.0, ["0.0^0", "0.0^00", "0.0^000", "0.0^0000"]),
    (1.5, ["1.8^0", "1.8^00", "1.8^000", "1.8^0000"]),
    (1024.0, ["4.0^8", "4.0^08", "4.0^008", "4.0^0008"]),
    (0.015625, ["4.0^-8", "4.0^-08", "4.0^-008", "4.0^-0008"]),
    (65536.0, ["1.0^16", "1.0^16", "1.0^016", "1.0^0016"]),
    ((1u128 << 100) as f64, ["1.0^100", "1.0^100", "1.0^100", "1.0^0100"]),
];

fn texts<T: Calls>() {
    for (x, texts) in TEXTS {
        for (width, text) in (1..).zip(texts) {
            let format = hex(b'^', width);
            expect_text(text.as_bytes(), 9, SHORT, |b| T::write_f64(x, &format, b));
            expect_text(text.as_bytes(), 9, SHORT, |b| T::write_f32(x as f32, &format, b));
        }
    }
}

/// Exponents of four digits, the most that radix 10 needs.
fn wide_floats<T: Calls>() {
    for width in 1..=4 {
        let format = hex(b'^', width);
        let (least, high) = (f64::from_bits(1), f64::from_bits(2046 << 52));
        expect_text(b"4.0^-1076", 9, SHORT, |b| T::write_f64(least, &format, b));
        expect_text(b"8.0^1020", 9, SHORT, |b| T::write_f64(high, &format, b));
    }
}

/// In another exponent radix, where an exponent may have more digits than any width; and behind "+".
fn radices_and_signs<T: Calls>() {
    for width in 1..=4 {
        let bits = Format { exponent_radix: 2, ..hex(b'^', width) };
        expect_text(b"4.0^-1000", 9, SHORT, |b| T::write_f64(0.015625, &bits, b));
        expect_text(b"1.0^10000", 9, SHORT, |b| T::write_f32(65536.0, &bits, b));
    }
    let base32 = Format { exponent_radix: 32, ..hex(b'^', 3) };
    expect_text(b"1.0^00G", 9, SHORT, |b| T::write_f64(65536.0, &base32, b));
    let signed = Format { required_exponent_sign: true, ..hex(b'^', 2) };
    expect_text(b"4.0^+08", 9, SHORT, |b| T::write_f64(1024.0, &signed, b));
    expect_text(b"4.0^-08", 9, SHORT, |b| T::write_f32(0.015625, &signed, b));
}

fn texts_without_exponent<T: Calls>() {
    for width in 1..=4 {
        let by_breaks = Format { required_exponent_notation: false, ..hex(b'^', width) };
        expect_text(b"1.8", 9, SHORT, |b| T::write_f64(1.5, &by_breaks, b));
        expect_text(b"200.0", 9, SHORT, |b| T::write_f32(512.0, &by_breaks, b));
    }
}

fn refused_between_6_and_7<T: Calls>() {
    for width in BAD {
        let format = hex(b'^', width);
        let breaks = Format { negative_exponent_break: 1, ..format };
        for x in [1.5, -1.5, -0.0, f64::INFINITY, f64::NAN] {
            for room in [0, 64] {
                expect(room, Err(refusal(16)), |b| T::write_f64(x, &format, b));
                expect(room, Err(refusal(16)), |b| T::write_f32(x as f32, &format, b));
                expect(room, Err(refusal(6)), |b| T::write_f64(x, &breaks, b));
                expect(room, Err(refusal(6)), |b| T::write_f32(x as f32, &breaks, b));
            }
        }
    }
}

/// A text is read under a format of another width, and of none.
fn ignored_in_reading<T: Calls>() {
    for width in BAD.into_iter().chain(1..=4) {
        let format = hex(b'^', width);
        for (x, text) in TEXTS.iter().flat_map(|(x, texts)| texts.map(|text| (*x, text))) {
            let (wide, narrow) = (x.to_bits(), (x as f32).to_bits());
            assert_eq!(T::read_f64(text.as_bytes(), &format).map(f64::to_bits), Ok(wide));
            assert_eq!(T::read_f32(text.as_bytes(), &format).map(f32::to_bits), Ok(narrow));
        }
        assert_eq!(T::read_f64(b"4.0^-00000008", &format), Ok(0.015625));
        assert_eq!(T::read_f32(b"4.0^-00000008", &format), Ok(0.015625));
        let damaged = Refusal { number: 9, place: 4 };
        assert_eq!(T::read_f64(b"1.8^g", &format), Err(damaged));
        assert_eq!(T::read_f32(b"1.8^g", &format), Err(damaged));
    }
}

/// The format that a text stands in is only read, the one that it gets is written.
fn rewritten<T: Calls>() {
    for width in BAD {
        let (from, to) = (hex(b'^', width), hex(b'p', 3));
        let short = at(0, Step::Writing, SHORT);
        expect_text(b"4.0p-008", 9, short, |b| T::rewrite_f64(b"4.0^-8", &from, &to, b));
        expect_text(b"4.0p-008", 9, short, |b| T::rewrite_f32(b"4.0^-8", &from, &to, b));
        let none = at(0, Step::Writing, refusal(16));
        expect(90, Err(none), |b| T::rewrite_f64(b"4.0p-8", &to, &from, b));
        expect(90, Err(none), |b| T::rewrite_f32(b"4.0p-8", &to, &from, b));
        // nothing of that format is looked at before the reading
        let damaged = at(0, Step::Reading, refusal(9));
        expect(90, Err(damaged), |b| T::rewrite_f64(b"p", &to, &from, b));
        expect(90, Err(damaged), |b| T::rewrite_f32(b"p", &to, &from, b));
    }
}

/// 2^-6 by one, two and three stations, in widths 4, 1 and 3, from a format of none.
fn chained<T: Calls>() {
    let from = hex(b'^', 0);
    let first = hex(b'p', 4);
    let further = [format(32, 32, b'p', 1), format(2, 2, b'p', 3)].map(|f| T::record(&f));
    let texts: [&[u8]; 3] = [b"4.0p-0008", b"G.0p-2", b"1.0p-006"];
    for (last, text) in texts.into_iter().enumerate() {
        let (records, short) = (&further[..last], at(last, Step::Writing, SHORT));
        expect_text(text, 9, short, |b| T::chain_f64(b"4.0^-8", &from, &first, records, b));
        expect_text(text, 9, short, |b| T::chain_f32(b"4.0^-8", &from, &first, records, b));
    }
}

/// The window from 1.0 to 1.5.
fn window() -> Vec<u8> {
    table(1.0f64.to_bits(), 1.5f64.to_bits())
}

/// Only exponents get zeros, and not the count of windows.
fn sheets<T: Calls>() {
    let sheets = [
        "1\n1.0p0 1.8p0\n",
        "1\n1.0p00 1.8p00\n",
        "1\n1.0p000 1.8p000\n",
        "1\n1.0p0000 1.8p0000\n",
    ];
    for (width, sheet) in (1..).zip(sheets) {
        let sheet = sheet.as_bytes();
        expect_text(sheet, 9, SHORT, |b| T::table_to_sheet(&window(), &hex(b'p', width), b));
        for reading in [0, 1, 4, 5, 255] {
            let format = hex(b'p', reading);
            expect_text(&window(), 9, SHORT, |b| T::sheet_to_table(sheet, &format, b));
        }
    }
}

/// 16 stands after 5 and 6, and before 13, 7, 14 and 8.
fn sheets_refused<T: Calls>() {
    let early = table(1.5f64.to_bits(), 1.0f64.to_bits());
    let infinite = table(1.0f64.to_bits(), f64::INFINITY.to_bits());
    let short = &window()[..23];
    for width in BAD {
        let format = hex(b'p', width);
        let limit = Format { max_significant_digits: 3, ..format };
        let breaks = Format { positive_exponent_break: -1, ..format };
        for table in [&window()[..], short, &[], &early, &infinite] {
            for room in [0, 90] {
                expect(room, Err(refusal(16)), |b| T::table_to_sheet(table, &format, b));
                expect(room, Err(refusal(5)), |b| T::table_to_sheet(table, &limit, b));
                expect(room, Err(refusal(6)), |b| T::table_to_sheet(table, &breaks, b));
            }
        }
        // a sheet that is wrong is refused for that alone
        expect(90, Err(refusal(15)), |b| T::sheet_to_table(b"", &format, b));
    }
}
