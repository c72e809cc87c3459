//! Long texts read, beside a plain loop over their bytes, and beside a text a tenth as long.

use hornbillrug::{read_f64, Format, LONGEST_READ};

use crate::timing::{time, Figures};

/// A text of so many bytes: digits, a point behind the first, and an exponent.
fn text_of(length: usize) -> Vec<u8> {
    let digits = b"0123456789ABCDEF";
    let mut text: Vec<u8> = (0..length - 6).map(|i| digits[(i * 7 + 1) % 16]).collect();
    text[1] = b'.';
    text.extend_from_slice(b"p-1000");
    text
}

/// The plain loop: how many bytes are digits of radix 16.
fn digits_in(text: &[u8]) -> usize {
    let mut count = 0;
    for byte in text {
        count += usize::from(matches!(byte, b'0'..=b'9' | b'A'..=b'F'));
    }
    count
}

/// The same, stopping at the first byte that is none, as a reader has to.
fn digits_up_to_end(text: &[u8]) -> usize {
    text.iter().position(|byte| !matches!(byte, b'0'..=b'9' | b'A'..=b'F' | b'.')).unwrap_or(0)
}

pub fn reading() {
    let format = Format::new(16, 2, 10, b'p');
    let (long, short) = (text_of(LONGEST_READ), text_of(LONGEST_READ / 10));
    let read = |text: &[u8]| read_f64(text, &format).expect("a float").to_bits() as usize;
    let row = |what: &str, length: usize, beside: &str, f: Figures| {
        let a_byte = f.ours / length as f64;
        println!(
            "| {what} | {length} | {:.0} | {a_byte:.2} | {beside} | {:.0} | {:.2} |",
            f.ours, f.other, f.ratio
        );
    };
    println!("| text | bytes | ours, ns | ns a byte | beside | other, ns | ratio |");
    println!("|---|---|---|---|---|---|---|");
    let texts = [long.as_slice()];
    let beside = "a loop that counts digits";
    row("16/2/10", long.len(), beside, time((&texts, read), (&texts, digits_in)));
    let beside = "a loop that finds the first byte that is no digit";
    row("16/2/10", long.len(), beside, time((&texts, read), (&texts, digits_up_to_end)));
    let beside = format!("ours, {} bytes", short.len());
    let shorter = [short.as_slice()];
    row("16/2/10", long.len(), &beside, time((&texts, read), (&shorter, read)));
}
