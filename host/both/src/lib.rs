//! The calls by two ways, so that one test runs over both: the Rust crate, and C through the header.

pub mod c;
pub mod list;
pub mod mode;
pub mod rust;

use hornbillrug::{Format, Record, Refusal, StationRefusal};

/// A length or a refusal.
pub type Written = Result<usize, Refusal>;
/// A length or a station's refusal.
pub type Rewritten = Result<usize, StationRefusal>;

/// Every call, by the one way or the other.
pub trait Calls {
    fn write_integer(value: u64, radix: u32, width: u32, buffer: &mut [u8]) -> Written;
    fn write_f64(x: f64, format: &Format, buffer: &mut [u8]) -> Written;
    fn write_f32(x: f32, format: &Format, buffer: &mut [u8]) -> Written;
    fn read_f64(text: &[u8], format: &Format) -> Result<f64, Refusal>;
    fn read_f32(text: &[u8], format: &Format) -> Result<f32, Refusal>;
    fn rewrite_f64(text: &[u8], from: &Format, to: &Format, buffer: &mut [u8]) -> Rewritten;
    fn rewrite_f32(text: &[u8], from: &Format, to: &Format, buffer: &mut [u8]) -> Rewritten;
    fn chain_f64(
        text: &[u8],
        from: &Format,
        first: &Format,
        further: &[Record],
        buffer: &mut [u8],
    ) -> Rewritten;
    fn chain_f32(
        text: &[u8],
        from: &Format,
        first: &Format,
        further: &[Record],
        buffer: &mut [u8],
    ) -> Rewritten;
    /// A chain at 64 bits with its further stations in bytes, so that a record may be cut off.
    fn chain_bytes(
        text: &[u8],
        from: &Format,
        first: &Format,
        further: &[u8],
        buffer: &mut [u8],
    ) -> Rewritten;
    fn table_to_sheet(table: &[u8], format: &Format, sheet: &mut [u8]) -> Written;
    fn sheet_to_table(sheet: &[u8], format: &Format, table: &mut [u8]) -> Written;
    fn pack(table: &[u8], packed: &mut [u8]) -> Written;
    fn unpack(packed: &[u8], table: &mut [u8]) -> Written;
    fn record(format: &Format) -> Record;
}

/// Makes a test of each generic function, for the Rust crate and for C, and again in each
/// floating-point mode.
#[macro_export]
macro_rules! over_both {
    ($($test:ident),* $(,)?) => {
        mod rust {
            $(#[test] fn $test() { super::$test::<$crate::rust::Rust>() })*
        }
        mod c {
            $(#[test] fn $test() { super::$test::<$crate::c::C>() })*
        }
        mod rust_in_each_mode {
            use $crate::{mode::{each, Inside}, rust::Rust};
            $(#[test] fn $test() { each(super::$test::<Inside<Rust>>) })*
        }
        mod c_in_each_mode {
            use $crate::{c::C, mode::{each, Inside}};
            $(#[test] fn $test() { each(super::$test::<Inside<C>>) })*
        }
    };
}

/// The table of one window, by the bits of its start and its end.
pub fn table(start: u64, end: u64) -> Vec<u8> {
    let counts = [1u32, 24].map(u32::to_le_bytes);
    [counts.as_flattened(), [start, end].map(u64::to_le_bytes).as_flattened()].concat()
}

/// What a lent buffer holds before a call: no two neighbours alike, and nothing a text could hold.
pub fn lent(length: usize) -> Vec<u8> {
    (0..length).map(|i| 128 + (i % 127) as u8).collect()
}

/// Calls into `room` bytes and holds answer and every byte of them against what is wanted: the text
/// and behind it what stood there, or everything as it stood.
pub fn expect<E: PartialEq + std::fmt::Debug>(
    room: usize,
    wanted: Result<&[u8], E>,
    call: impl Fn(&mut [u8]) -> Result<usize, E>,
) {
    let mut buffer = lent(room);
    let mut left = lent(room);
    let answer = call(&mut buffer);
    let wanted = wanted.map(|text| {
        left[..text.len()].copy_from_slice(text);
        text.len()
    });
    assert_eq!(answer, wanted);
    assert!(buffer == left, "bytes differ: {buffer:?}, wanted {left:?}");
}

/// The same with room to spare, with just the text's length, and with one byte less, which is refused
/// by `short`.
pub fn expect_text<E: PartialEq + std::fmt::Debug>(
    text: &[u8],
    spare: usize,
    short: E,
    call: impl Fn(&mut [u8]) -> Result<usize, E>,
) {
    expect(text.len() + spare, Ok(text), &call);
    expect(text.len(), Ok(text), &call);
    if let Some(less) = text.len().checked_sub(1) {
        expect(less, Err(short), &call);
    }
}
