//! A sheet of 400 windows there and back, beside the C library on the same 800 floats, and beside a
//! sheet of 40.

use std::ffi::CString;

use hornbillrug::{sheet_to_table, table_to_sheet, Format};
use hornbillrug::{LONGEST_SHEET, LONGEST_TABLE, MOST_WINDOWS};

use crate::c_library;
use crate::timing::{time, Figures};

const FORMAT: Format = Format { required_exponent_notation: true, ..Format::new(16, 2, 10, b'p') };

fn floats(windows: usize) -> Vec<f64> {
    let starts = (0..windows).map(|i| (i + 1) as f64 * 1.37);
    let ends = (0..windows).map(|i| (i + 1) as f64 * 1.37 + 0.61);
    starts.chain(ends).collect()
}

pub fn table_of(windows: usize) -> Vec<u8> {
    let mut table = (windows as u32).to_le_bytes().to_vec();
    table.extend((8 + 16 * windows as u32).to_le_bytes());
    table.extend(floats(windows).iter().flat_map(|x| x.to_le_bytes()));
    table
}

fn sheet_of(table: &[u8]) -> Vec<u8> {
    let mut sheet = vec![0; LONGEST_SHEET];
    let length = table_to_sheet(table, &FORMAT, &mut sheet).expect("a sheet");
    sheet.truncate(length);
    sheet
}

pub fn there_and_back() {
    let (table, table_40) = (table_of(MOST_WINDOWS), table_of(MOST_WINDOWS / 10));
    let (sheet, sheet_40) = (sheet_of(&table), sheet_of(&table_40));
    let mut lent = vec![0; LONGEST_SHEET];
    let mut lent_40 = vec![0; LONGEST_SHEET];
    let mut back = vec![0; LONGEST_TABLE];
    let mut back_40 = vec![0; LONGEST_TABLE];
    assert_eq!(sheet_to_table(&sheet, &FORMAT, &mut back), Ok(table.len()));
    assert_eq!(back, table);
    let floats = floats(MOST_WINDOWS);
    let texts: Vec<CString> = floats
        .iter()
        .map(|&x| {
            let mut lent = [0; 64];
            let length = c_library::write_a(x, &mut lent);
            CString::new(&lent[..length]).expect("no zero byte")
        })
        .collect();

    println!("16/2/10, exponent required; a sheet of {} bytes.", sheet.len());
    println!();
    println!("| call | ours, us | beside | other, us | ratio |");
    println!("|---|---|---|---|---|");
    let row = |call: &str, beside: &str, f: Figures| {
        let (ours, other) = (f.ours / 1000.0, f.other / 1000.0);
        println!("| {call} | {ours:.1} | {beside} | {other:.1} | {:.2} |", f.ratio);
    };
    let one = [()];
    let mut to_sheet = || table_to_sheet(&table, &FORMAT, &mut lent).expect("a sheet");
    let mut to_table = || sheet_to_table(&sheet, &FORMAT, &mut back).expect("a table");
    let mut to_sheet_40 = || table_to_sheet(&table_40, &FORMAT, &mut lent_40).expect("a sheet");
    let mut to_table_40 = || sheet_to_table(&sheet_40, &FORMAT, &mut back_40).expect("a table");
    let c_write = || {
        let mut lent = [0; 64];
        floats.iter().map(|&x| c_library::write_a(x, &mut lent)).sum::<usize>()
    };
    let c_read = || texts.iter().map(|text| c_library::read(text).to_bits() as usize % 2).sum();
    let f = time((&one, |()| to_sheet()), (&one, |()| c_write()));
    row("table to sheet", "800 times `printf(\"%a\")`", f);
    let f = time((&one, |()| to_table()), (&one, |()| c_read()));
    row("sheet to table", "800 times `strtod`", f);
    let f = time((&one, |()| to_sheet()), (&one, |()| to_sheet_40()));
    row("table to sheet", "ours, 40 windows", f);
    let f = time((&one, |()| to_table()), (&one, |()| to_table_40()));
    row("sheet to table", "ours, 40 windows", f);
}
