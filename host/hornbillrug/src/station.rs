//! A text rewritten, by one station or by a chain of them.

use crate::raw;
use crate::{Format, Record, Refusal, StationRefusal, Step};

impl raw::StationAnswer {
    fn length(self) -> Result<usize, StationRefusal> {
        if self.number == 0 {
            return Ok(self.value);
        }
        Err(StationRefusal {
            station: self.station,
            step: if self.writing { Step::Writing } else { Step::Reading },
            refusal: Refusal { number: self.number, place: self.place },
        })
    }
}

/// One of the two widths of a call.
type Rewrite = unsafe extern "C" fn(
    text: *const u8,
    text_length: usize,
    from: Format,
    to: Format,
    buffer: *mut u8,
    length: usize,
) -> raw::StationAnswer;

type Chain = unsafe extern "C" fn(
    text: *const u8,
    text_length: usize,
    from: Format,
    first: Format,
    further: *const u8,
    further_length: usize,
    buffer: *mut u8,
    length: usize,
) -> raw::StationAnswer;

#[inline]
fn rewrite(
    call: Rewrite,
    text: &[u8],
    from: &Format,
    to: &Format,
    buffer: &mut [u8],
) -> Result<usize, StationRefusal> {
    let (pointer, length) = (buffer.as_mut_ptr(), buffer.len());
    // SAFETY: each pointer and length are those of one slice; `buffer` is borrowed alone.
    unsafe { call(text.as_ptr(), text.len(), *from, *to, pointer, length) }.length()
}

#[inline]
fn chain(
    call: Chain,
    text: &[u8],
    from: &Format,
    first: &Format,
    further: &[Record],
    buffer: &mut [u8],
) -> Result<usize, StationRefusal> {
    let further = further.as_flattened();
    let (records, records_length) = (further.as_ptr(), further.len());
    let (pointer, length) = (buffer.as_mut_ptr(), buffer.len());
    // SAFETY: each pointer and length are those of one slice; `buffer` is borrowed alone.
    unsafe {
        call(text.as_ptr(), text.len(), *from, *first, records, records_length, pointer, length)
    }
    .length()
}

/// Rewrites a text from one format into another through the nearest float, and answers its length. The
/// text written begins with "-" exactly where the one read does.
///
/// Refusals: those of [`read_f64`](crate::read_f64) under `from`, then those of
/// [`write_f64`](crate::write_f64) under `to`.
#[inline]
pub fn rewrite_f64(
    text: &[u8],
    from: &Format,
    to: &Format,
    buffer: &mut [u8],
) -> Result<usize, StationRefusal> {
    rewrite(raw::lexical_rewrite_f64, text, from, to, buffer)
}

/// Rewrites a text through the nearest 32-bit float: [`rewrite_f64`].
#[inline]
pub fn rewrite_f32(
    text: &[u8],
    from: &Format,
    to: &Format,
    buffer: &mut [u8],
) -> Result<usize, StationRefusal> {
    rewrite(raw::lexical_rewrite_f32, text, from, to, buffer)
}

/// Rewrites a text in the format `first`, then in that of each further record, and answers the last
/// text's length.
///
/// A chain of formats without a digit limit, of which [`write_f64`](crate::write_f64) refuses none, is
/// never refused once its text is read, given [`LONGEST_TEXT`](crate::LONGEST_TEXT) bytes, and ends in
/// the last format's text of the first text's float.
///
/// ```
/// use hornbillrug::{chain_f64, Format, LONGEST_TEXT};
///
/// let [hex, base32, bits] = [(16, 2), (32, 32), (2, 2)]
///     .map(|(radix, base)| Format::new(radix, base, 10, b'p'));
/// let mut buffer = [0; LONGEST_TEXT];
/// let length = chain_f64(b"1.8", &hex, &base32, &[bits.record()], &mut buffer)?;
/// assert_eq!(&buffer[..length], b"1.1");
/// # Ok::<(), hornbillrug::StationRefusal>(())
/// ```
#[inline]
pub fn chain_f64(
    text: &[u8],
    from: &Format,
    first: &Format,
    further: &[Record],
    buffer: &mut [u8],
) -> Result<usize, StationRefusal> {
    chain(raw::lexical_chain_f64, text, from, first, further, buffer)
}

/// A chain through a 32-bit float at each station: [`chain_f64`].
#[inline]
pub fn chain_f32(
    text: &[u8],
    from: &Format,
    first: &Format,
    further: &[Record],
    buffer: &mut [u8],
) -> Result<usize, StationRefusal> {
    chain(raw::lexical_chain_f32, text, from, first, further, buffer)
}
