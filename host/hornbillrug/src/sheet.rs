//! The outage table and sheet.

use crate::raw;
use crate::{Format, Refusal};

/// Writes the sheet of a table, and answers its length, which is at most
/// [`LONGEST_SHEET`](crate::LONGEST_SHEET).
///
/// Refusals: 1 to 6 and 16 for the format, where 5 is any digit limit too; 13; 7 for a start or an end
/// that is not finite, and 14, with the row's index for the place; 8. 14 compares by value: a window may
/// start at zero and end at minus zero.
#[inline]
pub fn table_to_sheet(table: &[u8], format: &Format, sheet: &mut [u8]) -> Result<usize, Refusal> {
    // SAFETY: each pointer and length are those of one slice; `sheet` is borrowed alone.
    unsafe {
        raw::outage_table_to_sheet(
            table.as_ptr(),
            table.len(),
            *format,
            sheet.as_mut_ptr(),
            sheet.len(),
        )
    }
    .length()
}

/// Writes the table of a sheet, and answers its length, which is at most
/// [`LONGEST_TABLE`](crate::LONGEST_TABLE).
///
/// Refusals: 1, 2, 3 for the format; 15; 8; a field's 12, 9, 10, 11; 14.
#[inline]
pub fn sheet_to_table(sheet: &[u8], format: &Format, table: &mut [u8]) -> Result<usize, Refusal> {
    // SAFETY: each pointer and length are those of one slice; `table` is borrowed alone.
    unsafe {
        raw::outage_sheet_to_table(
            sheet.as_ptr(),
            sheet.len(),
            *format,
            table.as_mut_ptr(),
            table.len(),
        )
    }
    .length()
}
