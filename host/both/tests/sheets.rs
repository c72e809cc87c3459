//! Tables and sheets over both: the fixed lists, the largest, exact buffers, one byte short.

use both::list::{self, Sheet};
use both::{expect, expect_text, over_both, Calls, Written};
use hornbillrug::{Format, Refusal, LONGEST_SHEET, LONGEST_TABLE, LONGEST_TEXT, MOST_WINDOWS};

const SHORT: Refusal = Refusal { number: 8, place: 0 };

over_both!(lists, largest, damaged_rows);

fn call<T: Calls>(case: &Sheet, b: &mut [u8]) -> Written {
    match case.is_table {
        true => T::table_to_sheet(&case.input, &case.format, b),
        false => T::sheet_to_table(&case.input, &case.format, b),
    }
}

fn lists<T: Calls>() {
    for file in ["sheets.txt", "sheet_edges.txt", "signs_sheets.txt"] {
        let list = list::sheets(file);
        assert!(list.len() > 100, "{file}");
        for case in list {
            match &case.answer {
                Ok(text) => {
                    expect(case.room, Ok(text), |b| call::<T>(&case, b));
                    expect_text(text, 50, SHORT, |b| call::<T>(&case, b));
                }
                Err(refusal) => expect(case.room, Err(*refusal), |b| call::<T>(&case, b)),
            }
        }
    }
}

/// A table of 400 windows of the least float's negative, in the format with the longest texts.
fn largest<T: Calls>() {
    let format = Format {
        no_exponent_notation: true,
        min_significant_digits: 1200,
        ..Format::new(2, 2, 10, b'^')
    };
    let mut table = Vec::new();
    table.extend((MOST_WINDOWS as u32).to_le_bytes());
    table.extend((LONGEST_TABLE as u32).to_le_bytes());
    table.extend([1, 0, 0, 0, 0, 0, 0, 0x80].repeat(2 * MOST_WINDOWS));
    let mut text = b"-0.".to_vec();
    text.resize(3 + 1073, b'0');
    text.push(b'1');
    text.resize(LONGEST_TEXT, b'0');
    let mut sheet = b"400\n".to_vec();
    for _ in 0..MOST_WINDOWS {
        sheet.extend_from_slice(&text);
        sheet.push(b' ');
        sheet.extend_from_slice(&text);
        sheet.push(b'\n');
    }
    assert_eq!(sheet.len(), 1_821_604);
    assert_eq!(sheet.len(), LONGEST_SHEET);
    expect_text(&sheet, 77, SHORT, |b| T::table_to_sheet(&table, &format, b));
    expect_text(&table, 77, SHORT, |b| T::sheet_to_table(&sheet, &format, b));
}

/// One byte wrong in a row of a sheet of 400, at its first and at its last row.
fn damaged_rows<T: Calls>() {
    let format = Format { required_exponent_notation: true, ..Format::new(16, 2, 10, b'p') };
    let sheet = [&b"400\n"[..], &b"1.0p0 1.8p0\n".repeat(MOST_WINDOWS)].concat();
    let mut table = Vec::new();
    table.extend((MOST_WINDOWS as u32).to_le_bytes());
    table.extend((LONGEST_TABLE as u32).to_le_bytes());
    table.extend(1.0f64.to_le_bytes().repeat(MOST_WINDOWS));
    table.extend(1.5f64.to_le_bytes().repeat(MOST_WINDOWS));
    expect_text(&table, 5, SHORT, |b| T::sheet_to_table(&sheet, &format, b));
    expect_text(&sheet, 5, SHORT, |b| T::table_to_sheet(&table, &format, b));
    for row in [0, MOST_WINDOWS - 1] {
        let line = 4 + 12 * row;
        // place in the line, byte, refusal, place of the refusal
        let damages = [
            (0, b'G', 9, line),
            (0, b'-', 9, line + 1),
            (0, b'+', 9, line),
            (5, b'+', 15, line),
            (5, b'\n', 15, line),
            (6, b'0', 14, line),
            (6, b'-', 9, line + 7),
            (8, b'g', 9, line + 8),
            (11, b' ', 15, line),
        ];
        for (at, byte, number, place) in damages {
            let mut damaged = sheet.clone();
            damaged[line + at] = byte;
            expect(LONGEST_TABLE, Err(Refusal { number, place }), |b| {
                T::sheet_to_table(&damaged, &format, b)
            });
        }
        for start in [f64::INFINITY, f64::NEG_INFINITY] {
            let mut infinite = table.clone();
            infinite[8 + 8 * row..][..8].copy_from_slice(&start.to_le_bytes());
            expect(LONGEST_SHEET, Err(Refusal { number: 7, place: row }), |b| {
                T::table_to_sheet(&infinite, &format, b)
            });
        }
        for end in [0.5f64, -1.5] {
            let mut early = table.clone();
            early[8 + 8 * (MOST_WINDOWS + row)..][..8].copy_from_slice(&end.to_le_bytes());
            expect(LONGEST_SHEET, Err(Refusal { number: 14, place: row }), |b| {
                T::table_to_sheet(&early, &format, b)
            });
        }
    }
}
