//! Digits of a number; a float's text written and read.

use crate::raw;
use crate::{Format, Refusal};

impl raw::Answer {
    pub(crate) fn length(self) -> Result<usize, Refusal> {
        match self.number {
            0 => Ok(self.value),
            number => Err(Refusal { number, place: self.place }),
        }
    }
}

/// Writes the digits of a number in radix 2, 4, 8, 10, 16 or 32, with zeros in front up to the least
/// width, 1 to 4, and answers their count.
///
/// Refusals: 2, 16, 8.
///
/// ```
/// let mut buffer = [0; 4];
/// assert_eq!(hornbillrug::write_integer(31, 16, 4, &mut buffer), Ok(4));
/// assert_eq!(&buffer, b"001F");
/// ```
#[inline]
pub fn write_integer(
    value: u64,
    radix: u32,
    width: u32,
    buffer: &mut [u8],
) -> Result<usize, Refusal> {
    let (pointer, length) = (buffer.as_mut_ptr(), buffer.len());
    // SAFETY: pointer and length are those of one slice.
    unsafe { raw::lexical_write_integer(value, radix, width, pointer, length) }.length()
}

/// Writes a float's text, and answers its length, which is at most [`LONGEST_TEXT`](crate::LONGEST_TEXT).
///
/// A set sign bit writes "-" in front of the magnitude's text, and so for minus zero.
///
/// Refusals: 1 to 6 and 16 for the format, 7 for a float that is not finite, 8.
///
/// ```
/// use hornbillrug::{write_f64, Format};
///
/// let hex = Format::new(16, 2, 10, b'p');
/// let mut buffer = [0; 4];
/// assert_eq!(write_f64(-1.5, &hex, &mut buffer), Ok(4));
/// assert_eq!(&buffer, b"-1.8");
/// assert_eq!(write_f64(-0.0, &hex, &mut buffer), Ok(4));
/// assert_eq!(&buffer, b"-0.0");
/// ```
#[inline]
pub fn write_f64(x: f64, format: &Format, buffer: &mut [u8]) -> Result<usize, Refusal> {
    // SAFETY: pointer and length are those of one slice.
    unsafe { raw::lexical_write_f64(x, *format, buffer.as_mut_ptr(), buffer.len()) }.length()
}

/// Writes a 32-bit float's text: [`write_f64`].
#[inline]
pub fn write_f32(x: f32, format: &Format, buffer: &mut [u8]) -> Result<usize, Refusal> {
    // SAFETY: pointer and length are those of one slice.
    unsafe { raw::lexical_write_f32(x, *format, buffer.as_mut_ptr(), buffer.len()) }.length()
}

/// The float nearest to a text's value, ties to even.
///
/// One "-" may stand in front, and no "+". The float's sign bit is set exactly where the text begins
/// with "-": what stands behind it and rounds to zero is minus zero.
///
/// Refusals: 1, 2, 3 for the format, 12, 9, 10, 11 for the text. A place counts the "-" too.
///
/// ```
/// use hornbillrug::{read_f64, Format};
///
/// let hex = Format::new(16, 2, 10, b'p');
/// assert_eq!(read_f64(b"-1.8", &hex)?, -1.5);
/// // far below the least denormal; -0.0 == 0.0, so only the sign bit tells
/// let tiny = read_f64(b"-1.0p-2000", &hex)?;
/// assert!(tiny == 0.0 && tiny.is_sign_negative());
/// # Ok::<(), hornbillrug::Refusal>(())
/// ```
#[inline]
pub fn read_f64(text: &[u8], format: &Format) -> Result<f64, Refusal> {
    // SAFETY: pointer and length are those of one slice.
    let answer = unsafe { raw::lexical_read_f64(text.as_ptr(), text.len(), *format) };
    match answer.number {
        0 => Ok(answer.value),
        number => Err(Refusal { number, place: answer.place }),
    }
}

/// The nearest 32-bit float, rounded once, from the text's value: [`read_f64`].
#[inline]
pub fn read_f32(text: &[u8], format: &Format) -> Result<f32, Refusal> {
    // SAFETY: pointer and length are those of one slice.
    let answer = unsafe { raw::lexical_read_f32(text.as_ptr(), text.len(), *format) };
    match answer.number {
        0 => Ok(answer.value),
        number => Err(Refusal { number, place: answer.place }),
    }
}
