//! Number text in power-of-two radices, outage sheets, and packed tables.
//!
//! A float becomes text in one of ten pairs of radix and base, such as 16/2, is rewritten from format
//! to format, and is read back as the same float, bit for bit: minus zero is another float than zero,
//! and has a text of its own. The calls are proved: what they answer, and every byte that they leave in
//! a buffer, equals a definition, for all arguments. This crate hands slices and structs to them and
//! allocates nothing. `docs/FORMAT.md` has the formats, every call and every refusal.
//!
//! ```
//! use hornbillrug::{read_f64, write_f64, Format, LONGEST_TEXT};
//!
//! let hex = Format { required_exponent_notation: true, ..Format::new(16, 2, 10, b'p') };
//! let mut buffer = [0; LONGEST_TEXT];
//! let length = write_f64(1.5, &hex, &mut buffer)?;
//! assert_eq!(&buffer[..length], b"1.8p0");
//! assert_eq!(read_f64(b"1.8p0", &hex)?, 1.5);
//! # Ok::<(), hornbillrug::Refusal>(())
//! ```
//!
//! Where a call refuses, the buffer is as it was. Past a text, it is as it was too.
//!
//! No answer depends on the floating-point mode that some other code of the process has set: neither
//! on the rounding direction, nor on denormals being taken for zero or flushed to zero. Only where it
//! has unmasked exceptions may a call raise one, since it tells a NaN by comparing the float with
//! itself: invalid, for a signalling NaN to be written, and denormal operand, for a denormal in any
//! call but [`read_f64`], [`read_f32`], [`pack`] and [`unpack`].

#![no_std]
#![warn(missing_docs)]

mod archive;
mod format;
mod number;
pub mod raw;
mod refusal;
mod sheet;
mod station;

pub use archive::{pack, unpack};
pub use format::{Format, Record, RECORD_SIZE};
pub use number::{read_f32, read_f64, write_f32, write_f64, write_integer};
pub use refusal::{Refusal, StationRefusal, Step};
pub use sheet::{sheet_to_table, table_to_sheet};
pub use station::{chain_f32, chain_f64, rewrite_f32, rewrite_f64};

/// No text of a float is longer.
pub const LONGEST_TEXT: usize = 2_276;
/// A longer text is not read.
pub const LONGEST_READ: usize = 4_096;
/// The windows of the longest table.
pub const MOST_WINDOWS: usize = 400;
/// No sheet is longer.
pub const LONGEST_SHEET: usize = 4 + MOST_WINDOWS * 2 * (LONGEST_TEXT + 1);
/// No table is longer, packed or not.
pub const LONGEST_TABLE: usize = 8 + 16 * MOST_WINDOWS;
