//! Signs over both, with the answers written out: "-" in front of a text, both zeros, and windows that
//! begin before second zero. Floats are compared by their bits, since -0.0 == 0.0.

use both::{expect, expect_text, over_both, table, Calls};
use hornbillrug::{Format, Record, Refusal, StationRefusal, Step, LONGEST_READ, LONGEST_TEXT};

const SHORT: Refusal = refusal(8, 0);

/// The sign bit of each width.
const MINUS: u64 = 1 << 63;
const NARROW_MINUS: u32 = 1 << 31;

over_both!(
    texts,
    edge_floats,
    formats,
    not_finite,
    digit_limit,
    zeros_read,
    texts_read,
    halves,
    rounded_to_zero,
    wrong_shape,
    large_exponents,
    too_large,
    long_texts,
    rewritten,
    rewriting_refused,
    chained,
    chain_refused,
    longest_at_stations,
    windows,
    windows_that_end_early,
    windows_not_finite,
    fields_refused,
    through_the_week,
);

const fn refusal(number: u32, place: usize) -> Refusal {
    Refusal { number, place }
}

fn at(station: usize, step: Step, refusal: Refusal) -> StationRefusal {
    StationRefusal { station, step, refusal }
}

/// 16/2, exponent radix 10.
fn hex() -> Format {
    Format::new(16, 2, 10, b'^')
}

/// Exponent required, exponent radix 10, mark "p", as the sheet programs have it.
fn day(radix: u32, base: u32) -> Format {
    Format { required_exponent_notation: true, ..Format::new(radix, base, 10, b'p') }
}

fn bits<T: Calls>(text: &[u8], format: &Format) -> Result<u64, Refusal> {
    T::read_f64(text, format).map(f64::to_bits)
}

fn narrow_bits<T: Calls>(text: &[u8], format: &Format) -> Result<u32, Refusal> {
    T::read_f32(text, format).map(f32::to_bits)
}

/// The bits of a float at both widths, and its text in `hex`.
const TEXTS: [(u64, u32, &str); 9] = [
    (0x8000_0000_0000_0000, 0x8000_0000, "-0.0"),
    (0, 0, "0.0"),
    (0xbff0_0000_0000_0000, 0xbf80_0000, "-1.0"),
    (0xbff8_0000_0000_0000, 0xbfc0_0000, "-1.8"),
    (0x3ff8_0000_0000_0000, 0x3fc0_0000, "1.8"),
    (0xbfe0_0000_0000_0000, 0xbf00_0000, "-0.8"),
    (0xc080_0000_0000_0000, 0xc400_0000, "-200.0"),
    (0xc090_0000_0000_0000, 0xc480_0000, "-4.0^8"),
    (0xbf90_0000_0000_0000, 0xbc80_0000, "-4.0^-8"),
];

/// With room to spare, just enough and one byte less; and read back.
fn texts<T: Calls>() {
    for (wide, narrow, text) in TEXTS {
        let text = text.as_bytes();
        expect_text(text, 9, SHORT, |b| T::write_f64(f64::from_bits(wide), &hex(), b));
        expect_text(text, 9, SHORT, |b| T::write_f32(f32::from_bits(narrow), &hex(), b));
        expect(0, Err(SHORT), |b| T::write_f64(f64::from_bits(wide), &hex(), b));
        expect(0, Err(SHORT), |b| T::write_f32(f32::from_bits(narrow), &hex(), b));
        assert_eq!(bits::<T>(text, &hex()), Ok(wide));
        assert_eq!(narrow_bits::<T>(text, &hex()), Ok(narrow));
    }
}

/// The least and the largest denormal, the least normal float and the largest, with the sign bit set.
fn edge_floats<T: Calls>() {
    let wide: [(u64, &[u8]); 4] = [
        (0x8000_0000_0000_0001, b"-4.0^-1076"),
        (0x800f_ffff_ffff_ffff, b"-3.FFFFFFFFFFFFC^-1024"),
        (0x8010_0000_0000_0000, b"-4.0^-1024"),
        (0xffef_ffff_ffff_ffff, b"-F.FFFFFFFFFFFF8^1020"),
    ];
    for (x, text) in wide {
        expect_text(text, 9, SHORT, |b| T::write_f64(f64::from_bits(x), &hex(), b));
        assert_eq!(bits::<T>(text, &hex()), Ok(x));
    }
    let narrow: [(u32, &[u8]); 4] = [
        (0x8000_0001, b"-8.0^-152"),
        (0x807f_ffff, b"-3.FFFFF8^-128"),
        (0x8080_0000, b"-4.0^-128"),
        (0xff7f_ffff, b"-F.FFFFF^124"),
    ];
    for (x, text) in narrow {
        expect_text(text, 9, SHORT, |b| T::write_f32(f32::from_bits(x), &hex(), b));
        assert_eq!(narrow_bits::<T>(text, &hex()), Ok(x));
    }
}

/// The sign stands in front of every layout, and no option or flag of the exponent touches it.
fn formats<T: Calls>() {
    let two = Format::new(2, 2, 2, b'^');
    let least = Format { min_significant_digits: 5, ..two };
    let trim = Format { trim_floats: true, ..two };
    let required = Format { required_exponent_notation: true, ..two };
    let plus = Format { required_exponent_sign: true, ..required };
    let wide = Format { exponent_width: 3, ..hex() };
    let comma = Format { decimal_point: b',', ..Format::new(32, 32, 10, b'~') };
    let cases: [(f64, Format, &[u8]); 15] = [
        (-0.0, two, b"-0.0"),
        (-0.0, trim, b"-0"),
        (-0.0, least, b"-0.00000"),
        (-0.0, required, b"-0.0^0"),
        (-0.0, plus, b"-0.0^+0"),
        (-0.03125, two, b"-0.00001"),
        (-0.015625, two, b"-1.0^-110"),
        (-8.0, least, b"-1000.0000"),
        (-8.0, trim, b"-1000"),
        (-8.0, required, b"-1.0^11"),
        (-8.0, plus, b"-1.0^+11"),
        (-0.015625, wide, b"-4.0^-008"),
        (-1024.0, wide, b"-4.0^008"),
        (-512.0, Format { trim_floats: true, ..comma }, b"-G0"),
        (-1.5, comma, b"-1,G"),
    ];
    for (x, format, text) in cases {
        expect_text(text, 9, SHORT, |b| T::write_f64(x, &format, b));
        expect_text(text, 9, SHORT, |b| T::write_f32(x as f32, &format, b));
        assert_eq!(bits::<T>(text, &format), Ok(x.to_bits()));
        assert_eq!(narrow_bits::<T>(text, &format), Ok((x as f32).to_bits()));
    }
}

/// 7 is for infinities and NaN alone, whatever their sign. It stands behind the format's and before 8.
fn not_finite<T: Calls>() {
    let wide = [0x7ff0_0000_0000_0000, 0x7ff0_0000_0000_0001, 0x7ff8_0000_0000_0000, MINUS - 1];
    let narrow = [0x7f80_0000, 0x7f80_0001, 0x7fc0_0000, NARROW_MINUS - 1];
    let unknown = Format { exponent_base: 8, ..hex() };
    for room in [0, 64] {
        for x in wide.into_iter().flat_map(|x| [x, MINUS | x]).map(f64::from_bits) {
            expect(room, Err(refusal(7, 0)), |b| T::write_f64(x, &hex(), b));
            expect(room, Err(refusal(1, 0)), |b| T::write_f64(x, &unknown, b));
        }
        for x in narrow.into_iter().flat_map(|x| [x, NARROW_MINUS | x]).map(f32::from_bits) {
            expect(room, Err(refusal(7, 0)), |b| T::write_f32(x, &hex(), b));
            expect(room, Err(refusal(1, 0)), |b| T::write_f32(x, &unknown, b));
        }
        expect(room, Err(refusal(1, 0)), |b| T::write_f64(-0.0, &unknown, b));
        expect(room, Err(refusal(1, 0)), |b| T::write_f32(-1.5, &unknown, b));
    }
}

/// The limit works on the magnitude: Truncate goes toward zero, and a tie to the even multiple.
fn digit_limit<T: Calls>() {
    let most = |format, digits| Format { max_significant_digits: digits, ..format };
    let cut = |format| Format { truncate: true, ..format };
    let hex_digit = most(Format::new(16, 16, 16, b'^'), 1);
    let two_bits = most(Format::new(2, 2, 2, b'^'), 2);
    let cases: [(f64, Format, &[u8]); 12] = [
        (-1.5, hex_digit, b"-2.0"),
        (-1.5, cut(hex_digit), b"-1.0"),
        (-2.5, hex_digit, b"-2.0"),
        (-2.5, cut(hex_digit), b"-2.0"),
        (-1.25, hex_digit, b"-1.0"),
        (-1.9375, hex_digit, b"-2.0"),
        (-1.9375, cut(hex_digit), b"-1.0"),
        (-1.75, two_bits, b"-10.0"),
        (-1.75, cut(two_bits), b"-1.1"),
        (-0.0, hex_digit, b"-0.0"),
        (-0.0, cut(two_bits), b"-0.0"),
        (-1.5, most(hex_digit, 2), b"-1.8"),
    ];
    for (x, format, text) in cases {
        expect_text(text, 9, SHORT, |b| T::write_f64(x, &format, b));
        expect_text(text, 9, SHORT, |b| T::write_f32(x as f32, &format, b));
    }
    // the magnitude may become 2^1024, and 2^128 in 32 bits
    let one = most(hex(), 1);
    expect_text(b"-1.0^1024", 9, SHORT, |b| T::write_f64(f64::MIN, &one, b));
    expect_text(b"-F.0^1020", 9, SHORT, |b| T::write_f64(f64::MIN, &cut(one), b));
    expect_text(b"-1.0^128", 9, SHORT, |b| T::write_f32(f32::MIN, &one, b));
    expect_text(b"-F.0^124", 9, SHORT, |b| T::write_f32(f32::MIN, &cut(one), b));
}

/// Texts whose value is zero: the sign is the text's.
fn zeros_read<T: Calls>() {
    for text in ["0", "0.", "0.0", "000.000", "0^5", "0^-5", "0.0^+0", "0^32767", "0^-32767"] {
        assert_eq!(bits::<T>(text.as_bytes(), &hex()), Ok(0));
        assert_eq!(narrow_bits::<T>(text.as_bytes(), &hex()), Ok(0));
        let text = format!("-{text}").into_bytes();
        assert_eq!(bits::<T>(&text, &hex()), Ok(MINUS));
        assert_eq!(narrow_bits::<T>(&text, &hex()), Ok(NARROW_MINUS));
    }
}

/// Texts as no writer would write them. A "-" of the exponent is no sign of the float.
fn texts_read<T: Calls>() {
    let cases: [(&[u8], f64); 9] = [
        (b"-1", -1.0),
        (b"-1.", -1.0),
        (b"-01.80", -1.5),
        (b"-10.0^-4", -1.0),
        (b"10.0^-4", 1.0),
        (b"-1.^5", -32.0),
        (b"-1^+5", -32.0),
        (b"-1^-5", -0.03125),
        (b"-F.F", -15.9375),
    ];
    for (text, x) in cases {
        assert_eq!(bits::<T>(text, &hex()), Ok(x.to_bits()));
        assert_eq!(narrow_bits::<T>(text, &hex()), Ok((x as f32).to_bits()));
    }
}

/// Halfway between two floats, and above and below: of the magnitude, so away from zero is "up".
fn halves<T: Calls>() {
    let wide: [(&[u8], u64); 6] = [
        (b"-1.00000000000007F", 0xbff0_0000_0000_0000),
        (b"-1.00000000000008", 0xbff0_0000_0000_0000),
        (b"-1.000000000000081", 0xbff0_0000_0000_0001),
        (b"-1.00000000000018", 0xbff0_0000_0000_0002),
        (b"-3^-1075", 0x8000_0000_0000_0002),
        (b"-5^-1075", 0x8000_0000_0000_0002),
    ];
    for (text, x) in wide {
        assert_eq!(bits::<T>(text, &hex()), Ok(x));
    }
    let narrow: [(&[u8], u32); 6] = [
        (b"-1.000000FF", 0xbf80_0000),
        (b"-1.000001", 0xbf80_0000),
        (b"-1.00000101", 0xbf80_0001),
        (b"-1.000003", 0xbf80_0002),
        (b"-3^-150", 0x8000_0002),
        (b"-5^-150", 0x8000_0002),
    ];
    for (text, x) in narrow {
        assert_eq!(narrow_bits::<T>(text, &hex()), Ok(x));
    }
}

/// Half the least denormal and below becomes a zero of the text's sign; just above, that denormal.
fn rounded_to_zero<T: Calls>() {
    for text in ["1^-1075", "0.FFFF^-1075", "1^-1076", "F.F^-32767", "0.0001^-1100"] {
        let minus = format!("-{text}").into_bytes();
        assert_eq!(bits::<T>(text.as_bytes(), &hex()), Ok(0));
        assert_eq!(bits::<T>(&minus, &hex()), Ok(MINUS));
        assert_eq!(narrow_bits::<T>(&minus, &hex()), Ok(NARROW_MINUS));
        // what is handed on is minus zero
        let short = at(0, Step::Writing, SHORT);
        expect_text(b"-0.0p0", 9, short, |b| T::rewrite_f64(&minus, &hex(), &day(16, 2), b));
        expect_text(b"-0.0p0", 9, short, |b| T::rewrite_f32(&minus, &hex(), &day(16, 2), b));
    }
    assert_eq!(bits::<T>(b"-1.00001^-1075", &hex()), Ok(MINUS | 1));
    for text in ["1^-150", "0.FFFF^-150", "1^-151", "1^-1074"] {
        let minus = format!("-{text}").into_bytes();
        assert_eq!(narrow_bits::<T>(text.as_bytes(), &hex()), Ok(0));
        assert_eq!(narrow_bits::<T>(&minus, &hex()), Ok(NARROW_MINUS));
    }
    assert_eq!(narrow_bits::<T>(b"-1.00001^-150", &hex()), Ok(NARROW_MINUS | 1));
    // 64 bits have floats there
    assert_eq!(bits::<T>(b"-1^-150", &hex()), Ok((-(2f64.powi(-150))).to_bits()));
}

/// Texts of the wrong shape and the place of 9, counted from the text's first byte.
const WRONG: [(&str, usize); 22] = [
    ("", 0),
    ("-", 1),
    ("+", 0),
    ("--1", 1),
    ("--", 1),
    ("+1", 0),
    ("+-1", 0),
    ("-+1", 1),
    ("-x", 1),
    ("- 1", 1),
    (" -1", 0),
    ("-.5", 1),
    ("-^5", 1),
    ("1-", 1),
    ("-1-", 2),
    ("-1g", 2),
    ("-1.-8", 3),
    ("-1.8-", 4),
    ("-1^", 3),
    ("-1^-", 4),
    ("-1^--5", 4),
    ("-1.8^5x", 6),
];

fn wrong_shape<T: Calls>() {
    for (text, place) in WRONG {
        assert_eq!(bits::<T>(text.as_bytes(), &hex()), Err(refusal(9, place)));
        assert_eq!(narrow_bits::<T>(text.as_bytes(), &hex()), Err(refusal(9, place)));
    }
    // a minus sign of Unicode is none
    assert_eq!(bits::<T>("\u{2212}1".as_bytes(), &hex()), Err(refusal(9, 0)));
    // "-" is refused as point and mark still
    for format in [Format { decimal_point: b'-', ..hex() }, Format { exponent: b'-', ..hex() }] {
        assert_eq!(bits::<T>(b"-1", &format), Err(refusal(3, 0)));
    }
}

/// 10's place counts the "-" in front too, and 9 goes before it.
fn large_exponents<T: Calls>() {
    let cases = [
        ("1^32768", 10, 2),
        ("-1^32768", 10, 3),
        ("-0^-99999", 10, 4),
        ("-1.8^+0032768", 10, 6),
        ("-1^99999x", 9, 8),
    ];
    for (text, number, place) in cases {
        assert_eq!(bits::<T>(text.as_bytes(), &hex()), Err(refusal(number, place)));
        assert_eq!(narrow_bits::<T>(text.as_bytes(), &hex()), Err(refusal(number, place)));
    }
}

/// From half a step above the largest float on, behind "-" as without it, and at place 0.
fn too_large<T: Calls>() {
    let wide = ["2^1023", "1FFFFFFFFFFFFF.8^971", "1FFFFFFFFFFFFF.80001^971", "1^32767"];
    let narrow = ["2^127", "FFFFFF.8^104", "FFFFFF.80001^104", "1^32767"];
    for sign in ["", "-"] {
        for text in wide {
            let text = format!("{sign}{text}").into_bytes();
            assert_eq!(bits::<T>(&text, &hex()), Err(refusal(11, 0)));
        }
        for text in narrow {
            let text = format!("{sign}{text}").into_bytes();
            assert_eq!(narrow_bits::<T>(&text, &hex()), Err(refusal(11, 0)));
        }
    }
    for text in ["-1FFFFFFFFFFFFF^971", "-1FFFFFFFFFFFFF.7FFF^971"] {
        assert_eq!(bits::<T>(text.as_bytes(), &hex()), Ok(0xffef_ffff_ffff_ffff));
    }
    for text in ["-FFFFFF^104", "-FFFFFF.7FFF^104"] {
        assert_eq!(narrow_bits::<T>(text.as_bytes(), &hex()), Ok(0xff7f_ffff));
    }
}

/// The "-" is one of the 4,096 bytes.
fn long_texts<T: Calls>() {
    let mut text = vec![b'0'; LONGEST_READ];
    text[0] = b'-';
    assert_eq!(bits::<T>(&text, &hex()), Ok(MINUS));
    assert_eq!(narrow_bits::<T>(&text, &hex()), Ok(NARROW_MINUS));
    text[LONGEST_READ - 1] = b'1';
    assert_eq!(bits::<T>(&text, &hex()), Ok((-1.0f64).to_bits()));
    for place in [1, 17, LONGEST_READ - 1] {
        let mut damaged = text.clone();
        damaged[place] = b'-';
        assert_eq!(bits::<T>(&damaged, &hex()), Err(refusal(9, place)));
        assert_eq!(narrow_bits::<T>(&damaged, &hex()), Err(refusal(9, place)));
    }
    // a tie, which the last byte settles
    let mut tie = b"-1.00000000000008".to_vec();
    tie.resize(LONGEST_READ, b'0');
    assert_eq!(bits::<T>(&tie, &hex()), Ok((-1.0f64).to_bits()));
    tie[LONGEST_READ - 1] = b'1';
    assert_eq!(bits::<T>(&tie, &hex()), Ok((-1.0f64).to_bits() + 1));
    // one byte more, well shaped or not
    text.push(b'0');
    assert_eq!(bits::<T>(&text, &hex()), Err(refusal(12, 0)));
    assert_eq!(narrow_bits::<T>(&text, &hex()), Err(refusal(12, 0)));
    text[1] = b'-';
    assert_eq!(bits::<T>(&text, &hex()), Err(refusal(12, 0)));
}

/// A text in 16/2 and what Tuesday's, Wednesday's and Thursday's stations make of it, at both widths.
const STATIONS: [(&str, [&str; 3]); 7] = [
    ("-0", ["-0.0p0", "-0.0p0", "-0.0p0"]),
    ("0", ["0.0p0", "0.0p0", "0.0p0"]),
    ("-0.000^-32767", ["-0.0p0", "-0.0p0", "-0.0p0"]),
    ("-1^-32767", ["-0.0p0", "-0.0p0", "-0.0p0"]),
    ("-1.8", ["-1.8p0", "-1.Gp0", "-1.1p0"]),
    ("-0018.0^-4", ["-1.8p0", "-1.Gp0", "-1.1p0"]),
    ("-400", ["-4.0p8", "-1.0p2", "-1.0p10"]),
];

fn days() -> [Format; 3] {
    [day(16, 2), day(32, 32), day(2, 2)]
}

fn rewritten<T: Calls>() {
    for (text, wanted) in STATIONS {
        for (day, wanted) in days().iter().zip(wanted) {
            let (text, wanted) = (text.as_bytes(), wanted.as_bytes());
            let short = at(0, Step::Writing, SHORT);
            expect_text(wanted, 9, short, |b| T::rewrite_f64(text, &hex(), day, b));
            expect_text(wanted, 9, short, |b| T::rewrite_f32(text, &hex(), day, b));
            expect(0, Err(short), |b| T::rewrite_f64(text, &hex(), day, b));
        }
    }
}

fn rewriting_refused<T: Calls>() {
    for (text, place) in WRONG {
        let wanted = Err(at(0, Step::Reading, refusal(9, place)));
        expect(90, wanted, |b| T::rewrite_f64(text.as_bytes(), &hex(), &day(2, 2), b));
        expect(90, wanted, |b| T::rewrite_f32(text.as_bytes(), &hex(), &day(2, 2), b));
        let further = [day(16, 2).record()];
        expect(90, wanted, |b| T::chain_f64(text.as_bytes(), &hex(), &day(2, 2), &further, b));
    }
}

/// By one, two and three stations, and then back again into the first one's format.
fn chained<T: Calls>() {
    let records: Vec<Record> = [1, 2, 0].map(|day| days()[day].record()).to_vec();
    for (text, [tuesday, wednesday, thursday]) in STATIONS {
        for (last, wanted) in [tuesday, wednesday, thursday, tuesday].into_iter().enumerate() {
            let (text, wanted) = (text.as_bytes(), wanted.as_bytes());
            let (further, short) = (&records[..last], at(last, Step::Writing, SHORT));
            let first = &days()[0];
            expect_text(wanted, 9, short, |b| T::chain_f64(text, &hex(), first, further, b));
            expect_text(wanted, 9, short, |b| T::chain_f32(text, &hex(), first, further, b));
        }
    }
}

/// A digit limit can bring -2^1024 about, which the next station does not read.
fn chain_refused<T: Calls>() {
    let limit = Format { max_significant_digits: 1, ..hex() };
    let next = [hex().record()];
    let wanted = Err(at(1, Step::Reading, refusal(11, 0)));
    expect(90, wanted, |b| T::chain_f64(b"-1FFFFFFFFFFFFF^971", &hex(), &limit, &next, b));
    expect(90, wanted, |b| T::chain_f32(b"-FFFFFF^104", &hex(), &limit, &next, b));
}

/// The longest text, read, written and handed on: a station's own bytes have room for it.
fn longest_at_stations<T: Calls>() {
    let digits = Format {
        no_exponent_notation: true,
        min_significant_digits: 1200,
        ..Format::new(2, 2, 10, b'^')
    };
    let mut text = b"-0.".to_vec();
    text.resize(3 + 1073, b'0');
    text.push(b'1');
    text.resize(LONGEST_TEXT, b'0');
    assert_eq!(bits::<T>(&text, &digits), Ok(MINUS | 1));
    let short = |station| at(station, Step::Writing, SHORT);
    expect_text(&text, 9, short(0), |b| T::rewrite_f64(b"-4.0^-1076", &hex(), &digits, b));
    expect_text(&text, 9, short(0), |b| T::rewrite_f64(&text, &digits, &digits, b));
    // on the way, and at the end
    let (there, back) = (digits.record(), hex().record());
    expect_text(b"-4.0^-1076", 9, short(2), |b| {
        T::chain_f64(&text, &digits, &digits, &[there, back], b)
    });
    expect_text(&text, 9, short(2), |b| {
        T::chain_f64(b"-4.0^-1076", &hex(), &digits, &[back, there], b)
    });
}

/// Rank, bits and text of floats. The ranks are ordered as the values are, so the two zeros have one.
const FLOATS: [(i32, u64, &str); 9] = [
    (-4, 0xffef_ffff_ffff_ffff, "-F.FFFFFFFFFFFF8p1020"),
    (-3, 0xbff8_0000_0000_0000, "-1.8p0"),
    (-2, 0xbff0_0000_0000_0000, "-1.0p0"),
    (-1, 0x8000_0000_0000_0001, "-4.0p-1076"),
    (0, 0x8000_0000_0000_0000, "-0.0p0"),
    (0, 0, "0.0p0"),
    (1, 0x0000_0000_0000_0001, "4.0p-1076"),
    (2, 0x3ff0_0000_0000_0000, "1.0p0"),
    (3, 0x7fef_ffff_ffff_ffff, "F.FFFFFFFFFFFF8p1020"),
];

/// Both zeros in both orders among them. Each comes back with its bits.
fn windows<T: Calls>() {
    for (rank, start, start_text) in FLOATS {
        for (_, end, end_text) in FLOATS.into_iter().filter(|float| float.0 >= rank) {
            let table = table(start, end);
            let sheet = format!("1\n{start_text} {end_text}\n").into_bytes();
            expect_text(&sheet, 9, SHORT, |b| T::table_to_sheet(&table, &day(16, 2), b));
            expect_text(&table, 9, SHORT, |b| T::sheet_to_table(&sheet, &day(16, 2), b));
        }
    }
}

fn windows_that_end_early<T: Calls>() {
    for (rank, start, start_text) in FLOATS {
        for (_, end, end_text) in FLOATS.into_iter().filter(|float| float.0 < rank) {
            let (table, day) = (table(start, end), day(16, 2));
            let sheet = format!("1\n{start_text} {end_text}\n").into_bytes();
            expect(90, Err(refusal(14, 0)), |b| T::table_to_sheet(&table, &day, b));
            expect(90, Err(refusal(14, 2)), |b| T::sheet_to_table(&sheet, &day, b));
        }
    }
}

/// The starts and ends of windows as a table.
fn table_of(windows: &[(u64, u64)]) -> Vec<u8> {
    let count = windows.len() as u32;
    let mut table = [count, 8 + 16 * count].map(u32::to_le_bytes).as_flattened().to_vec();
    table.extend(windows.iter().flat_map(|window| window.0.to_le_bytes()));
    table.extend(windows.iter().flat_map(|window| window.1.to_le_bytes()));
    table
}

/// In the second of three rows, before 14 of that row and of a later one.
fn windows_not_finite<T: Calls>() {
    let one = 0x3ff0_0000_0000_0000;
    let special = [0x7ff0_0000_0000_0000, 0x7ff0_0000_0000_0001, 0x7ff8_0000_0000_0000, MINUS - 1];
    for x in special.into_iter().flat_map(|x| [x, MINUS | x]) {
        for window in [(x, one), (one, x), (x, MINUS | x), (MINUS | one, x)] {
            let table = table_of(&[(MINUS, 0), window, (one, MINUS | one)]);
            expect(90, Err(refusal(7, 1)), |b| T::table_to_sheet(&table, &day(16, 2), b));
            expect(0, Err(refusal(7, 1)), |b| T::table_to_sheet(&table, &day(16, 2), b));
        }
    }
    // the row before decides
    let table = table_of(&[(one, MINUS), (MINUS | special[0], one)]);
    expect(90, Err(refusal(14, 0)), |b| T::table_to_sheet(&table, &day(16, 2), b));
}

/// A field's place is the sheet's: where the field begins, and the place within it.
fn fields_refused<T: Calls>() {
    let cases = [
        ("1\n- 1\n", 9, 3),
        ("1\n--1 1\n", 9, 3),
        ("1\n+1 1\n", 9, 2),
        ("1\n-x 1\n", 9, 3),
        ("1\n-1 -\n", 9, 6),
        ("1\n-1 --1\n", 9, 6),
        ("1\n-1 +1\n", 9, 5),
        ("1\n-1.0p0 -1x\n", 9, 11),
        ("1\n-1p32768 1\n", 10, 5),
        ("1\n-1 -1p-32768\n", 10, 9),
        ("1\n-1p2000 1\n", 11, 2),
        ("1\n-1 -1p2000\n", 11, 5),
        ("1\n-1 - 1\n", 15, 2),
        ("2\n-1 -1\n-1 -1.8\n", 14, 8),
        ("2\n-1 1\n1 -1\n", 14, 7),
        ("-1\n-1 1\n", 15, 0),
        ("-0\n", 15, 0),
    ];
    for (sheet, number, place) in cases {
        let wanted = Err(refusal(number, place));
        expect(90, wanted, |b| T::sheet_to_table(sheet.as_bytes(), &day(16, 2), b));
    }
    // 12: with its "-" a field has 4,096 bytes, and with one more it is refused, at its first byte
    let zeros = "0".repeat(LONGEST_READ - 1);
    let sheet = format!("1\n-{zeros} -{zeros}\n");
    expect_text(&table(MINUS, MINUS), 9, SHORT, |b| {
        T::sheet_to_table(sheet.as_bytes(), &day(16, 2), b)
    });
    let sheet = format!("1\n-1 -0{zeros}\n");
    expect(90, Err(refusal(12, 5)), |b| T::sheet_to_table(sheet.as_bytes(), &day(16, 2), b));
}

/// Windows of an old survey and both zeros, through every day's sheet and back to the same bytes.
fn through_the_week<T: Calls>() {
    let table = table_of(&[
        (0xc1b2_d000_0a00_0000, 0xc1b2_cfff_fe00_0000),
        (0xbff8_0000_0000_0000, 0x8000_0000_0000_0000),
        (0x8000_0000_0000_0000, 0x0000_0000_0000_0000),
        (0x0000_0000_0000_0000, 0x8000_0000_0000_0000),
        (0x8000_0000_0000_0000, 0x3fe0_0000_0000_0000),
    ]);
    // -315621386 and -315621374: 12D0000A and 12CFFFFE in radix 16, 9D000A and 9CVVVU in radix 32
    let sheets = [
        "5\n-1.2D0000Ap28 -1.2CFFFFEp28\n-1.8p0 -0.0p0\n-0.0p0 0.0p0\n0.0p0 -0.0p0\n-0.0p0 8.0p-4\n",
        "5\n-9.D000Ap5 -9.CVVVUp5\n-1.Gp0 -0.0p0\n-0.0p0 0.0p0\n0.0p0 -0.0p0\n-0.0p0 G.0p-1\n",
        "5\n-1.001011010000000000000000101p28 -1.001011001111111111111111111p28\n-1.1p0 -0.0p0\n\
         -0.0p0 0.0p0\n0.0p0 -0.0p0\n-0.0p0 1.0p-1\n",
    ];
    for (day, sheet) in days().iter().zip(sheets) {
        let sheet = sheet.as_bytes();
        expect_text(sheet, 9, SHORT, |b| T::table_to_sheet(&table, day, b));
        expect_text(&table, 9, SHORT, |b| T::sheet_to_table(sheet, day, b));
    }
}
