//! The calls with a floating-point mode of the processor set around each, as a host may have set it:
//! denormals taken for zero and flushed to zero, or neither, in each of the four rounding directions.
//!
//! A test runs in the usual mode and only its calls in another, so that nothing that the test itself
//! computes depends on it.

use std::cell::Cell;
use std::marker::PhantomData;

use hornbillrug::{Format, Record, Refusal};

use crate::{Calls, Rewritten, Written};

extern "C" {
    fn mode_set(bits: u32) -> u32;
    fn mode_less(x: f64, y: f64) -> bool;
    fn mode_sum(x: f64, y: f64) -> f64;
}

/// MXCSR of a new thread: every exception masked.
const USUAL: u32 = 0x1f80;
/// Denormals-as-zero and flush-to-zero: both off, and both on.
const DENORMALS: [u32; 2] = [0, 0x0040 | 0x8000];
/// To the nearest, down, up, toward zero.
const DIRECTIONS: [u32; 4] = [0, 0x2000, 0x4000, 0x6000];

thread_local! {
    static BITS: Cell<u32> = const { Cell::new(USUAL) };
}

/// Runs a test in each of the eight modes.
pub fn each(mut test: impl FnMut()) {
    for denormals in DENORMALS {
        for direction in DIRECTIONS {
            BITS.set(USUAL | denormals | direction);
            eprintln!("MXCSR {:04x}", BITS.get());
            test();
        }
    }
}

/// One call in the mode of the test. It may move floats, and must not compute with them.
fn inside<A>(call: impl FnOnce() -> A) -> A {
    // SAFETY: what runs in the mode is the call, which does no float arithmetic of Rust's.
    let before = unsafe { mode_set(BITS.get()) };
    let answer = call();
    // SAFETY: the mode that Rust expects.
    unsafe { mode_set(before) };
    answer
}

/// The processor's own comparison in the mode of the test.
pub fn less(x: f64, y: f64) -> bool {
    // SAFETY: a C function on numbers.
    inside(|| unsafe { mode_less(x, y) })
}

/// The processor's own sum in the mode of the test.
pub fn sum(x: f64, y: f64) -> f64 {
    // SAFETY: a C function on numbers.
    inside(|| unsafe { mode_sum(x, y) })
}

/// The calls of `T`, each in the mode of the test.
pub struct Inside<T>(PhantomData<T>);

impl<T: Calls> Calls for Inside<T> {
    fn write_integer(value: u64, radix: u32, width: u32, buffer: &mut [u8]) -> Written {
        inside(|| T::write_integer(value, radix, width, buffer))
    }
    fn write_f64(x: f64, format: &Format, buffer: &mut [u8]) -> Written {
        inside(|| T::write_f64(x, format, buffer))
    }
    fn write_f32(x: f32, format: &Format, buffer: &mut [u8]) -> Written {
        inside(|| T::write_f32(x, format, buffer))
    }
    fn read_f64(text: &[u8], format: &Format) -> Result<f64, Refusal> {
        inside(|| T::read_f64(text, format))
    }
    fn read_f32(text: &[u8], format: &Format) -> Result<f32, Refusal> {
        inside(|| T::read_f32(text, format))
    }
    fn rewrite_f64(text: &[u8], from: &Format, to: &Format, buffer: &mut [u8]) -> Rewritten {
        inside(|| T::rewrite_f64(text, from, to, buffer))
    }
    fn rewrite_f32(text: &[u8], from: &Format, to: &Format, buffer: &mut [u8]) -> Rewritten {
        inside(|| T::rewrite_f32(text, from, to, buffer))
    }
    fn chain_f64(
        text: &[u8],
        from: &Format,
        first: &Format,
        further: &[Record],
        buffer: &mut [u8],
    ) -> Rewritten {
        inside(|| T::chain_f64(text, from, first, further, buffer))
    }
    fn chain_f32(
        text: &[u8],
        from: &Format,
        first: &Format,
        further: &[Record],
        buffer: &mut [u8],
    ) -> Rewritten {
        inside(|| T::chain_f32(text, from, first, further, buffer))
    }
    fn chain_bytes(
        text: &[u8],
        from: &Format,
        first: &Format,
        further: &[u8],
        buffer: &mut [u8],
    ) -> Rewritten {
        inside(|| T::chain_bytes(text, from, first, further, buffer))
    }
    fn table_to_sheet(table: &[u8], format: &Format, sheet: &mut [u8]) -> Written {
        inside(|| T::table_to_sheet(table, format, sheet))
    }
    fn sheet_to_table(sheet: &[u8], format: &Format, table: &mut [u8]) -> Written {
        inside(|| T::sheet_to_table(sheet, format, table))
    }
    fn pack(table: &[u8], packed: &mut [u8]) -> Written {
        inside(|| T::pack(table, packed))
    }
    fn unpack(packed: &[u8], table: &mut [u8]) -> Written {
        inside(|| T::unpack(packed, table))
    }
    fn record(format: &Format) -> Record {
        inside(|| T::record(format))
    }
}
