//! A table of 400 windows packed and unpacked, beside `memcpy` of its bytes, and beside a table of 40.

use std::hint::black_box;

use hornbillrug::{pack, unpack, Refusal, LONGEST_TABLE, MOST_WINDOWS};

use crate::sheet::table_of;
use crate::timing::{time, Figures};

fn packed_of(table: &[u8]) -> Vec<u8> {
    let mut packed = vec![0; table.len()];
    assert_eq!(pack(table, &mut packed), Ok(table.len()));
    packed
}

/// `memcpy`, kept by the compiler although nobody reads the copy.
fn copy(from: &[u8], to: &mut [u8]) -> usize {
    to.copy_from_slice(from);
    black_box(to).len()
}

/// A call on the bytes of 400 windows, beside a copy of them and beside the bytes of 40.
fn rows(name: &str, call: fn(&[u8], &mut [u8]) -> Result<usize, Refusal>, bytes: [&[u8]; 2]) {
    let (mut lent, mut other_lent) = ([0; LONGEST_TABLE], [0; LONGEST_TABLE]);
    let [long, short] = bytes.map(|bytes| [bytes]);
    let mut ours = |bytes: &[u8]| call(bytes, &mut lent).expect("a length");
    let row = |beside: &str, f: Figures| {
        let (ours, other) = (f.ours / 1000.0, f.other / 1000.0);
        let speed = long[0].len() as f64 / ours;
        println!("| {name} | {ours:.2} | {speed:.0} | {beside} | {other:.3} | {:.2} |", f.ratio);
    };
    row("`memcpy`", time((&long, &mut ours), (&long, |bytes| copy(bytes, &mut other_lent))));
    let tenth = |bytes: &[u8]| call(bytes, &mut other_lent).expect("a length");
    row("ours, 40 windows", time((&long, &mut ours), (&short, tenth)));
}

pub fn there_and_back() {
    let (table, table_40) = (table_of(MOST_WINDOWS), table_of(MOST_WINDOWS / 10));
    let (packed, packed_40) = (packed_of(&table), packed_of(&table_40));
    let mut back = vec![0; table.len()];
    assert_eq!(unpack(&packed, &mut back), Ok(table.len()));
    assert_eq!(back, table);
    println!("A table of {} bytes; MB are millions of bytes.", table.len());
    println!();
    println!("| call | ours, us | MB a second | beside | other, us | ratio |");
    println!("|---|---|---|---|---|---|");
    rows("pack", pack, [&table, &table_40]);
    rows("unpack", unpack, [&packed, &packed_40]);
}
