//! The outage table packed for the archive.

use crate::raw;
use crate::Refusal;

/// Packs a table, and answers the packed table's length, which is the table's own.
///
/// The header stays. Behind it stand the lowest bytes of all starts, then their second bytes, up to
/// the eighth, and then the ends likewise, so that bytes which are alike stand together. The floats are
/// copied as bytes and not judged: a NaN is packed too, and a window that ends before it starts.
///
/// Refusals: 13, 8.
///
/// ```
/// use hornbillrug::{pack, unpack};
///
/// let table = *b"\x02\0\0\0\x28\0\0\0Monday 1Monday 2Friday 1Friday 2";
/// let (mut packed, mut back) = ([0; 40], [0; 40]);
/// assert_eq!(pack(&table, &mut packed), Ok(40));
/// assert_eq!(&packed, b"\x02\0\0\0\x28\0\0\0MMoonnddaayy  12FFrriiddaayy  12");
/// assert_eq!(unpack(&packed, &mut back), Ok(40));
/// assert_eq!(back, table);
/// ```
#[inline]
pub fn pack(table: &[u8], packed: &mut [u8]) -> Result<usize, Refusal> {
    let (pointer, length) = (packed.as_mut_ptr(), packed.len());
    // SAFETY: each pointer and length are those of one slice; `packed` is borrowed alone.
    unsafe { raw::outage_pack(table.as_ptr(), table.len(), pointer, length) }.length()
}

/// Unpacks a packed table, and answers the table's length, which is the packed one's: the inverse of
/// [`pack`], on every table that it takes.
///
/// Refusals: 17, 8.
#[inline]
pub fn unpack(packed: &[u8], table: &mut [u8]) -> Result<usize, Refusal> {
    let (pointer, length) = (table.as_mut_ptr(), table.len());
    // SAFETY: each pointer and length are those of one slice; `table` is borrowed alone.
    unsafe { raw::outage_unpack(packed.as_ptr(), packed.len(), pointer, length) }.length()
}
