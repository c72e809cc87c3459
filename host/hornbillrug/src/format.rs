//! A format, and its record of bytes.

/// A format: a pair of radix and base, an exponent radix, flags and options.
///
/// Zero is absent in the two counts and the two breaks. No call takes a format on trust: each checks
/// it and refuses by number (`docs/FORMAT.md`, section 3).
#[repr(C)]
#[derive(Debug, Clone, Copy, PartialEq, Eq, Hash)]
pub struct Format {
    /// Every text has an exponent.
    pub required_exponent_notation: bool,
    /// No text has an exponent.
    pub no_exponent_notation: bool,
    /// An exponent that is not negative has a "+".
    pub required_exponent_sign: bool,
    /// A single digit keeps its ".0" before an exponent, even where floats are trimmed.
    pub no_exponent_without_fraction: bool,
    /// A digit limit cuts off, toward zero whatever the sign, and does not round to the nearest.
    pub truncate: bool,
    /// A text has no ".0".
    pub trim_floats: bool,
    /// The mark in front of an exponent.
    pub exponent: u8,
    /// The point.
    pub decimal_point: u8,
    /// The radix of the digits.
    pub mantissa_radix: u32,
    /// The base of which the exponent is a power.
    pub exponent_base: u32,
    /// The digit limit, of the magnitude.
    pub max_significant_digits: u32,
    /// The least digits; zeros fill up to them.
    pub min_significant_digits: u32,
    /// Above it, in bits, a text has an exponent; absent is 9.
    pub positive_exponent_break: i32,
    /// Below it, in bits, a text has an exponent; absent is -5.
    pub negative_exponent_break: i32,
    /// The radix of the exponent's own digits.
    pub exponent_radix: u32,
    /// The least digits of an exponent, 1 to 4; zeros fill up to them. Zero is not absent here: a call
    /// that writes refuses it by 16. A call that reads ignores the width.
    pub exponent_width: u32,
}

/// The bytes of a format's record.
pub const RECORD_SIZE: usize = 20;
/// A format as bytes, in which a chain takes its further stations.
pub type Record = [u8; RECORD_SIZE];

impl Format {
    /// A pair, an exponent radix and a mark, with the point ".", an exponent's least width 1 and all
    /// else off or absent.
    ///
    /// ```
    /// use hornbillrug::{write_f64, Format};
    ///
    /// let hex = Format { required_exponent_notation: true, ..Format::new(16, 2, 10, b'p') };
    /// assert_eq!(hex.exponent_width, 1);
    /// let wide = Format { exponent_width: 3, ..hex };
    /// let mut buffer = [0; 7];
    /// assert_eq!(write_f64(1.5, &wide, &mut buffer), Ok(7));
    /// assert_eq!(&buffer, b"1.8p000");
    /// ```
    pub const fn new(radix: u32, base: u32, exponent_radix: u32, mark: u8) -> Format {
        Format {
            required_exponent_notation: false,
            no_exponent_notation: false,
            required_exponent_sign: false,
            no_exponent_without_fraction: false,
            truncate: false,
            trim_floats: false,
            exponent: mark,
            decimal_point: b'.',
            mantissa_radix: radix,
            exponent_base: base,
            max_significant_digits: 0,
            min_significant_digits: 0,
            positive_exponent_break: 0,
            negative_exponent_break: 0,
            exponent_radix,
            exponent_width: 1,
        }
    }

    /// The record that stands for this format in a chain.
    ///
    /// A number that does not fit its bytes becomes the greatest or least that does. Such a format is
    /// refused, and its record by the same number.
    pub fn record(&self) -> Record {
        let byte = |number: u32| number.min(u8::MAX.into()) as u8;
        let count = |number: u32| (number.min(u16::MAX.into()) as u16).to_le_bytes();
        let at =
            |number: i32| (number.clamp(i16::MIN.into(), i16::MAX.into()) as i16).to_le_bytes();
        let most = count(self.max_significant_digits);
        let least = count(self.min_significant_digits);
        let high = at(self.positive_exponent_break);
        let low = at(self.negative_exponent_break);
        [
            byte(self.mantissa_radix),
            byte(self.exponent_base),
            byte(self.exponent_radix),
            self.required_exponent_notation.into(),
            self.no_exponent_notation.into(),
            self.required_exponent_sign.into(),
            self.no_exponent_without_fraction.into(),
            self.trim_floats.into(),
            self.truncate.into(),
            most[0],
            most[1],
            least[0],
            least[1],
            high[0],
            high[1],
            low[0],
            low[1],
            byte(self.exponent_width),
            self.decimal_point,
            self.exponent,
        ]
    }
}
