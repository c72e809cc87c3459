//! The fixed lists of `crates/vectors/data`: what the Rust original and references in whole numbers
//! answer. A line is an input, a tab and the answer; one that begins with "#" is a comment. The call
//! under test made none of them.

use std::fmt::Debug;
use std::fs;
use std::str::FromStr;

use hornbillrug::{Format, Refusal};

/// A number whose digits are to be written, its radix, their least width, the bytes lent, and the
/// digits or a refusal.
pub struct Digits {
    pub value: u64,
    pub radix: u32,
    pub width: u32,
    pub room: usize,
    pub answer: Result<Vec<u8>, Refusal>,
}

/// A float to be written under a format, and its text or refusal.
pub struct Writing {
    pub width: u32,
    pub bits: u64,
    pub format: Format,
    pub answer: Result<Vec<u8>, Refusal>,
}

/// A text to be read under a format, and its float's bits or refusal.
pub struct Reading {
    pub width: u32,
    pub text: Vec<u8>,
    pub format: Format,
    pub answer: Result<u64, Refusal>,
}

/// A table or sheet, the bytes lent, and the other of the two or a refusal.
pub struct Sheet {
    pub is_table: bool,
    pub format: Format,
    pub room: usize,
    pub input: Vec<u8>,
    pub answer: Result<Vec<u8>, Refusal>,
}

/// A table or a packed table, the bytes lent, and the other of the two or a refusal.
pub struct Planes {
    pub is_table: bool,
    pub room: usize,
    pub input: Vec<u8>,
    pub answer: Result<Vec<u8>, Refusal>,
}

/// The lists of texts to be read.
pub const READ: [&str; 6] = [
    "read.txt",
    "edges.txt",
    "top_edge.txt",
    "top_edge_long.txt",
    "signs_read.txt",
    "sign_edges.txt",
];

fn number<T: FromStr<Err: Debug>>(field: &str) -> T {
    field.parse().unwrap_or_else(|error| panic!("{field:?}: {error:?}"))
}

fn flag(field: &str) -> bool {
    number::<u8>(field) != 0
}

/// Bytes in radix 16, "-" for none.
fn bytes(field: &str) -> Vec<u8> {
    if field == "-" {
        return Vec::new();
    }
    (0..field.len()).step_by(2).map(|i| u8::from_str_radix(&field[i..i + 2], 16).unwrap()).collect()
}

/// What "refused N at P" says.
fn refusal(answer: &str) -> Option<Refusal> {
    let (number_field, place) = answer.strip_prefix("refused ")?.split_once(" at ")?;
    Some(Refusal { number: number(number_field), place: number(place) })
}

/// What a length, a space and a text say, or a refusal.
fn text_or_refusal(answer: &str) -> Result<Vec<u8>, Refusal> {
    if let Some(refusal) = refusal(answer) {
        return Err(refusal);
    }
    let (length, text) = answer.split_once(' ').expect("a length");
    assert_eq!(number::<usize>(length), text.len());
    Ok(text.into())
}

/// What a length, a space and bytes in radix 16 say, or a refusal.
fn bytes_or_refusal(answer: &str) -> Result<Vec<u8>, Refusal> {
    if let Some(refusal) = refusal(answer) {
        return Err(refusal);
    }
    let (length, field) = answer.split_once(' ').expect("a length");
    assert_eq!(2 * number::<usize>(length), field.len());
    Ok(bytes(field))
}

/// Pair, exponent radix, flags, point, mark, trim, mode, least, most and breaks: 15 fields. One more
/// is an exponent's least width, which is 1 without it.
fn writing_format(f: &[&str]) -> Format {
    Format {
        required_exponent_notation: flag(f[3]),
        no_exponent_notation: flag(f[4]),
        required_exponent_sign: flag(f[5]),
        no_exponent_without_fraction: flag(f[6]),
        decimal_point: number(f[7]),
        trim_floats: flag(f[9]),
        truncate: flag(f[10]),
        min_significant_digits: number(f[11]),
        max_significant_digits: number(f[12]),
        negative_exponent_break: number(f[13]),
        positive_exponent_break: number(f[14]),
        exponent_width: f.get(15).map_or(1, |field| number(field)),
        ..Format::new(number(f[0]), number(f[1]), number(f[2]), number(f[8]))
    }
}

/// Pair, exponent radix, point and mark: 5 fields. The width is one that no writing call takes, since
/// a reading call must not look at it.
fn reading_format(f: &[&str]) -> Format {
    Format {
        decimal_point: number(f[3]),
        exponent_width: 0,
        ..Format::new(number(f[0]), number(f[1]), number(f[2]), number(f[4]))
    }
}

/// The inputs and answers of a list, the input in its fields.
fn lines<T>(file: &str, read: impl Fn(&[&str], &str) -> T) -> Vec<T> {
    let path = format!("{}/../../crates/vectors/data/{file}", env!("CARGO_MANIFEST_DIR"));
    let text = fs::read_to_string(&path).unwrap_or_else(|error| panic!("{path}: {error}"));
    let lines = text.lines().filter(|line| !line.starts_with('#'));
    lines
        .map(|line| {
            let (input, answer) = line.split_once('\t').expect("a tab");
            read(&input.split(' ').collect::<Vec<_>>(), answer)
        })
        .collect()
}

/// A list of numbers whose digits are to be written: the answer is their count, a space and the digits.
pub fn digits(file: &str) -> Vec<Digits> {
    lines(file, |f, answer| Digits {
        value: number(f[1]),
        radix: number(f[2]),
        width: number(f[3]),
        room: number(f[4]),
        answer: text_or_refusal(answer),
    })
}

/// A list of floats to be written: the answer is the length, a space and the text.
pub fn writing(file: &str) -> Vec<Writing> {
    lines(file, |f, answer| Writing {
        width: number(f[0]),
        bits: u64::from_str_radix(f[1], 16).expect("bits"),
        format: writing_format(&f[2..]),
        answer: text_or_refusal(answer),
    })
}

/// A list of texts to be read: the answer is the float's bits.
pub fn reading(file: &str) -> Vec<Reading> {
    lines(file, |f, answer| Reading {
        width: number(f[1]),
        text: bytes(f[2]),
        format: reading_format(&f[3..]),
        answer: match refusal(answer) {
            Some(refusal) => Err(refusal),
            None => Ok(u64::from_str_radix(answer, 16).expect("bits")),
        },
    })
}

/// A list of tables and sheets: the answer is a length, a space and the bytes.
pub fn sheets(file: &str) -> Vec<Sheet> {
    lines(file, |f, answer| {
        let (is_table, format, rest) = match f[0] {
            "T" => (true, writing_format(&f[1..17]), &f[17..]),
            _ => (false, reading_format(&f[1..]), &f[6..]),
        };
        Sheet {
            is_table,
            format,
            room: number(rest[0]),
            input: bytes(rest[1]),
            answer: bytes_or_refusal(answer),
        }
    })
}

/// A list of tables to be packed and of packed ones: the answer is a length, a space and the bytes.
pub fn planes(file: &str) -> Vec<Planes> {
    lines(file, |f, answer| Planes {
        is_table: f[0] == "P",
        room: number(f[1]),
        input: bytes(f[2]),
        answer: bytes_or_refusal(answer),
    })
}
