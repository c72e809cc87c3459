//! The calls by the Rust crate.

use hornbillrug::{raw, Format, Record, Refusal};

use crate::c::rewritten;
use crate::{Calls, Rewritten, Written};

/// The safe calls of `hornbillrug`.
pub struct Rust;

impl Calls for Rust {
    fn write_integer(value: u64, radix: u32, width: u32, buffer: &mut [u8]) -> Written {
        hornbillrug::write_integer(value, radix, width, buffer)
    }
    fn write_f64(x: f64, format: &Format, buffer: &mut [u8]) -> Written {
        hornbillrug::write_f64(x, format, buffer)
    }
    fn write_f32(x: f32, format: &Format, buffer: &mut [u8]) -> Written {
        hornbillrug::write_f32(x, format, buffer)
    }
    fn read_f64(text: &[u8], format: &Format) -> Result<f64, Refusal> {
        hornbillrug::read_f64(text, format)
    }
    fn read_f32(text: &[u8], format: &Format) -> Result<f32, Refusal> {
        hornbillrug::read_f32(text, format)
    }
    fn rewrite_f64(text: &[u8], from: &Format, to: &Format, buffer: &mut [u8]) -> Rewritten {
        hornbillrug::rewrite_f64(text, from, to, buffer)
    }
    fn rewrite_f32(text: &[u8], from: &Format, to: &Format, buffer: &mut [u8]) -> Rewritten {
        hornbillrug::rewrite_f32(text, from, to, buffer)
    }
    fn chain_f64(
        text: &[u8],
        from: &Format,
        first: &Format,
        further: &[Record],
        buffer: &mut [u8],
    ) -> Rewritten {
        hornbillrug::chain_f64(text, from, first, further, buffer)
    }
    fn chain_f32(
        text: &[u8],
        from: &Format,
        first: &Format,
        further: &[Record],
        buffer: &mut [u8],
    ) -> Rewritten {
        hornbillrug::chain_f32(text, from, first, further, buffer)
    }
    /// By the C function that the crate declares, since its safe call takes whole records only.
    fn chain_bytes(t: &[u8], from: &Format, first: &Format, f: &[u8], b: &mut [u8]) -> Rewritten {
        let (tp, fp, bp) = (t.as_ptr(), f.as_ptr(), b.as_mut_ptr());
        // SAFETY: pointers and lengths are those of one slice.
        rewritten(unsafe {
            raw::lexical_chain_f64(tp, t.len(), *from, *first, fp, f.len(), bp, b.len())
        })
    }
    fn table_to_sheet(table: &[u8], format: &Format, sheet: &mut [u8]) -> Written {
        hornbillrug::table_to_sheet(table, format, sheet)
    }
    fn sheet_to_table(sheet: &[u8], format: &Format, table: &mut [u8]) -> Written {
        hornbillrug::sheet_to_table(sheet, format, table)
    }
    fn pack(table: &[u8], packed: &mut [u8]) -> Written {
        hornbillrug::pack(table, packed)
    }
    fn unpack(packed: &[u8], table: &mut [u8]) -> Written {
        hornbillrug::unpack(packed, table)
    }
    fn record(format: &Format) -> Record {
        format.record()
    }
}
