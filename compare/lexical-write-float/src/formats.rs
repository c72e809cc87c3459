//! Not of the Rust: the given `write_float` for each format of document 01.
//!
//! The Rust takes the format as a constant. So that each format is compiled as the Rust compiles
//! it, all 720 are instantiated at both widths: ten pairs, six exponent radices, twelve flags.
//! Document 01, "Layout": "`write_float` of binary.rs for equal pairs, of hex.rs for mixed ones".

use lexical_util::format::{
    pack, NO_EXPONENT_NOTATION, NO_EXPONENT_WITHOUT_FRACTION, REQUIRED_EXPONENT_NOTATION,
    REQUIRED_EXPONENT_SIGN,
};

use crate::options::Options;
use crate::{binary, hex};

/// The given `write_float` of one format and width.
pub type Writer<F> = fn(F, &mut [u8], &Options) -> usize;

/// The pairs radix/base in the order of the tables.
pub const PAIRS: [(u32, u32); 10] =
    [(2, 2), (4, 4), (8, 8), (16, 16), (32, 32), (4, 2), (8, 2), (16, 2), (32, 2), (16, 4)];

/// The exponent radices in the order of the tables.
pub const EXPONENT_RADICES: [u32; 6] = [2, 4, 8, 10, 16, 32];

/// When an exponent is written. Required and forbidden together is refused by document 01.
#[derive(Debug, Clone, Copy, PartialEq, Eq)]
pub enum Notation {
    ByBreaks = 0,
    Required = 1,
    Forbidden = 2,
}

/// The place of a choice of flags in the tables, below twelve.
fn flags_place(notation: Notation, sign: bool, no_exponent_without_fraction: bool) -> usize {
    4 * notation as usize + 2 * no_exponent_without_fraction as usize + sign as usize
}

/// The flags at a place, packed.
const fn flags_at(place: u128) -> u128 {
    let sign = place % 2 * REQUIRED_EXPONENT_SIGN;
    let fraction = place / 2 % 2 * NO_EXPONENT_WITHOUT_FRACTION;
    let notation = match place / 4 {
        0 => 0,
        1 => REQUIRED_EXPONENT_NOTATION,
        _ => NO_EXPONENT_NOTATION,
    };
    sign | fraction | notation
}

macro_rules! of_flags {
    ($module:ident $float:ident $radix:literal $base:literal $power:literal,
        $($place:literal)*) => {
        [$($module::write_float::<$float, { pack($radix, $base, $power, flags_at($place)) }>),*]
    };
}

macro_rules! of_exponent_radices {
    ($module:ident $float:ident $radix:literal $base:literal, $($power:literal)*) => {
        [$(of_flags!($module $float $radix $base $power, 0 1 2 3 4 5 6 7 8 9 10 11)),*]
    };
}

macro_rules! of_pairs {
    ($float:ident, $($module:ident $radix:literal $base:literal;)*) => {
        [$(of_exponent_radices!($module $float $radix $base, 2 4 8 10 16 32)),*]
    };
}

macro_rules! of_width {
    ($float:ident) => {
        of_pairs!($float,
            binary 2 2; binary 4 4; binary 8 8; binary 16 16; binary 32 32;
            hex 4 2; hex 8 2; hex 16 2; hex 32 2; hex 16 4;)
    };
}

type Table<F> = [[[Writer<F>; 12]; 6]; 10];
static OF_F32: Table<f32> = of_width!(f32);
static OF_F64: Table<f64> = of_width!(f64);

/// A format whose pair and exponent radix are known.
#[derive(Debug, Clone, Copy, PartialEq, Eq)]
pub struct Format {
    pair: usize,
    exponent_radix: usize,
    flags: usize,
}

impl Format {
    /// The format of these fields, or none where the pair or the exponent radix is unknown.
    pub fn new(
        (radix, base): (u32, u32),
        exponent_radix: u32,
        notation: Notation,
        sign: bool,
        no_exponent_without_fraction: bool,
    ) -> Option<Format> {
        Some(Format {
            pair: PAIRS.iter().position(|&pair| pair == (radix, base))?,
            exponent_radix: EXPONENT_RADICES.iter().position(|&r| r == exponent_radix)?,
            flags: flags_place(notation, sign, no_exponent_without_fraction),
        })
    }

    /// The given function for 32-bit floats.
    pub fn of_f32(self) -> Writer<f32> {
        OF_F32[self.pair][self.exponent_radix][self.flags]
    }

    /// The given function for 64-bit floats.
    pub fn of_f64(self) -> Writer<f64> {
        OF_F64[self.pair][self.exponent_radix][self.flags]
    }
}
