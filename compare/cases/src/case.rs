//! One input of the float writer: the seventeen fields of a line of the fixed lists.

use std::fmt;
use std::str::FromStr;

use lexical_write_float::formats::{Format, Notation};

/// An input of the float writer, with the fields in the order of a line.
#[derive(Debug, Clone, Copy, PartialEq, Eq)]
pub struct Case {
    pub width: u32,
    /// The float's bit pattern.
    pub bits: u64,
    pub radix: u32,
    pub base: u32,
    pub exponent_radix: u32,
    pub required_exponent_notation: bool,
    pub no_exponent_notation: bool,
    pub required_exponent_sign: bool,
    pub no_exponent_without_fraction: bool,
    pub point: u8,
    pub mark: u8,
    pub trim: bool,
    /// Round mode Truncate; otherwise Round.
    pub truncate: bool,
    /// Least and most digits, 0 for none.
    pub least: u32,
    pub most: u32,
    /// Breaks, 0 for the default.
    pub low: i32,
    pub high: i32,
}

impl Case {
    /// 1.0 at 64 bits in 2/2 with exponent radix 10, point ".", mark "^" and all else absent.
    pub const DEFAULT: Case = Case {
        width: 64,
        bits: 0x3ff0_0000_0000_0000,
        radix: 2,
        base: 2,
        exponent_radix: 10,
        required_exponent_notation: false,
        no_exponent_notation: false,
        required_exponent_sign: false,
        no_exponent_without_fraction: false,
        point: b'.',
        mark: b'^',
        trim: false,
        truncate: false,
        least: 0,
        most: 0,
        low: 0,
        high: 0,
    };

    /// The sign bit of the width.
    fn sign_bit(&self) -> u64 {
        1 << (self.width - 1)
    }

    /// Whether the float's sign bit is set: its text begins with "-", minus zero's too.
    pub fn is_negative(&self) -> bool {
        self.bits & self.sign_bit() != 0
    }

    /// The bits below the sign: those of the float's magnitude.
    pub fn magnitude(&self) -> u64 {
        self.bits & !self.sign_bit()
    }

    /// The case with the sign bit set.
    pub fn negated(self) -> Case {
        Case { bits: self.bits | self.sign_bit(), ..self }
    }

    /// What stands in front of the magnitude's text.
    pub fn sign(&self) -> &'static str {
        if self.is_negative() {
            "-"
        } else {
            ""
        }
    }

    /// The Rust's format, or none where document 01 refuses it.
    pub fn format(&self) -> Option<Format> {
        let notation = match (self.required_exponent_notation, self.no_exponent_notation) {
            (false, false) => Notation::ByBreaks,
            (true, false) => Notation::Required,
            (false, true) => Notation::Forbidden,
            (true, true) => return None,
        };
        Format::new(
            (self.radix, self.base),
            self.exponent_radix,
            notation,
            self.required_exponent_sign,
            self.no_exponent_without_fraction,
        )
    }
}

/// The seventeen fields with a space between two.
impl fmt::Display for Case {
    fn fmt(&self, f: &mut fmt::Formatter) -> fmt::Result {
        write!(f, "{} {:x} {} {}", self.width, self.bits, self.radix, self.base)?;
        write!(f, " {}", self.exponent_radix)?;
        let flags = [
            self.required_exponent_notation,
            self.no_exponent_notation,
            self.required_exponent_sign,
            self.no_exponent_without_fraction,
        ];
        for flag in flags {
            write!(f, " {}", flag as u8)?;
        }
        write!(f, " {} {}", self.point, self.mark)?;
        write!(f, " {} {}", self.trim as u8, self.truncate as u8)?;
        write!(f, " {} {} {} {}", self.least, self.most, self.low, self.high)
    }
}

/// Reads a field, naming it where it is wrong.
fn field<T: FromStr>(text: &str) -> Result<T, String> {
    text.parse().map_err(|_| format!("wrong field {text:?}"))
}

/// Reads a flag, 0 or 1.
fn flag(text: &str) -> Result<bool, String> {
    match text {
        "0" => Ok(false),
        "1" => Ok(true),
        _ => Err(format!("wrong flag {text:?}")),
    }
}

impl FromStr for Case {
    type Err = String;

    fn from_str(line: &str) -> Result<Case, String> {
        let fields: Vec<&str> = line.split(' ').collect();
        let fields: [&str; 17] =
            fields.try_into().map_err(|_| format!("not seventeen fields: {line}"))?;
        Ok(Case {
            width: field(fields[0])?,
            bits: u64::from_str_radix(fields[1], 16).map_err(|_| format!("wrong bits: {line}"))?,
            radix: field(fields[2])?,
            base: field(fields[3])?,
            exponent_radix: field(fields[4])?,
            required_exponent_notation: flag(fields[5])?,
            no_exponent_notation: flag(fields[6])?,
            required_exponent_sign: flag(fields[7])?,
            no_exponent_without_fraction: flag(fields[8])?,
            point: field(fields[9])?,
            mark: field(fields[10])?,
            trim: flag(fields[11])?,
            truncate: flag(fields[12])?,
            least: field(fields[13])?,
            most: field(fields[14])?,
            low: field(fields[15])?,
            high: field(fields[16])?,
        })
    }
}
