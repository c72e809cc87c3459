//! Texts of one float: written beside the Rust and `printf`, read beside `strtod`.

use std::ffi::CString;

use cases::rust::{rust_options, LENT};
use cases::Case;
use compare::ours::format_of;
use hornbillrug::{read_f64, write_f64, Format, LONGEST_TEXT};

use crate::c_library;
use crate::floats::sets;
use crate::timing::{time, Figures};

/// The formats, with all options absent.
fn formats() -> [Case; 4] {
    let of = |radix, base, exponent_radix| Case { radix, base, exponent_radix, ..Case::DEFAULT };
    let hex = of(16, 2, 10);
    [hex, Case { required_exponent_notation: true, ..hex }, of(32, 32, 32), of(2, 2, 2)]
}

/// 16/2, exponent radix 10, exponent required: what "%a" comes nearest to.
fn hex() -> Format {
    Format { required_exponent_notation: true, ..Format::new(16, 2, 10, b'p') }
}

fn beside_rust(case: &Case, floats: &[f64]) -> Figures {
    // What the caller prepares once stands outside the rounds; ours checks its format in each call.
    let rust_write = case.format().expect("a format of document 01").of_f64();
    let options = rust_options(case);
    let format = format_of(case);
    let (mut rust_lent, mut our_lent) = ([0; LENT], [0; LENT]);
    for &x in floats {
        let length = rust_write(x, &mut rust_lent, &options);
        assert_eq!(write_f64(x, &format, &mut our_lent), Ok(length));
        assert_eq!(rust_lent[..length], our_lent[..length]);
    }
    time(
        (floats, |x| write_f64(x, &format, &mut our_lent).expect("a length")),
        (floats, |x| rust_write(x, &mut rust_lent, &options)),
    )
}

fn beside_printf(floats: &[f64]) -> Figures {
    let format = hex();
    let (mut our_lent, mut c_lent) = ([0; LONGEST_TEXT], [0; 64]);
    time(
        (floats, |x| write_f64(x, &format, &mut our_lent).expect("a length")),
        (floats, |x| c_library::write_a(x, &mut c_lent)),
    )
}

pub fn writing() {
    println!("| format | floats | beside | ours, ns | other, ns | ratio |");
    println!("|---|---|---|---|---|---|");
    let sets = sets();
    let row = |format: &str, floats: &str, beside: &str, f: Figures| {
        println!(
            "| {format} | {floats} | {beside} | {:.1} | {:.1} | {:.2} |",
            f.ours, f.other, f.ratio
        )
    };
    for case in formats() {
        let notation = if case.required_exponent_notation { ", exponent required" } else { "" };
        let format = format!("{}/{}/{}{notation}", case.radix, case.base, case.exponent_radix);
        for (name, floats) in &sets {
            row(&format, name, "the Rust", beside_rust(&case, floats));
        }
    }
    for (name, floats) in &sets {
        row("16/2/10, exponent required", name, "`printf(\"%a\")`", beside_printf(floats));
    }
}

/// Ours reads our text of a float, and `strtod` the text by "%a" of the same float.
fn beside_strtod(floats: &[f64]) -> (f64, Figures) {
    let format = hex();
    let our_texts = floats.iter().map(|&x| {
        let mut lent = [0; LONGEST_TEXT];
        let length = write_f64(x, &format, &mut lent).expect("a length");
        assert_eq!(read_f64(&lent[..length], &format), Ok(x));
        lent[..length].to_vec()
    });
    let our_texts: Vec<Vec<u8>> = our_texts.collect();
    let c_texts = floats.iter().map(|&x| {
        let mut lent = [0; 64];
        let length = c_library::write_a(x, &mut lent);
        let text = CString::new(&lent[..length]).expect("no zero byte");
        assert_eq!(c_library::read(&text), x);
        text
    });
    let c_texts: Vec<CString> = c_texts.collect();
    let ours: Vec<&[u8]> = our_texts.iter().map(Vec::as_slice).collect();
    let c: Vec<_> = c_texts.iter().map(CString::as_c_str).collect();
    let bytes: usize = ours.iter().map(|text| text.len()).sum();
    let figures = time(
        (&ours, |text| read_f64(text, &format).expect("a float").to_bits() as usize),
        (&c, |text| c_library::read(text).to_bits() as usize),
    );
    (bytes as f64 / ours.len() as f64, figures)
}

pub fn reading() {
    println!(
        "16/2/10, exponent required, beside `strtod` on the text that `printf(\"%a\")` makes."
    );
    println!();
    println!("| floats | bytes of our texts | ours, ns | `strtod`, ns | ratio |");
    println!("|---|---|---|---|---|");
    for (name, floats) in &sets() {
        let (bytes, f) = beside_strtod(floats);
        println!("| {name} | {bytes:.1} | {:.1} | {:.1} | {:.2} |", f.ours, f.other, f.ratio);
    }
}
