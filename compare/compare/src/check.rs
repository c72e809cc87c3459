//! One case held against the Rust: the answer and every byte lent. The Rust's text is that of the
//! magnitude, and is compared with the part of ours behind the sign.

use std::fmt;
use std::panic::catch_unwind;

use cases::rust::LENT;
use cases::{rust_write, Case};
use compare::ours::{self, Answer};

/// What the lent bytes hold before a call: no byte of a text, and not all alike, so that a byte
/// that is moved shows too.
const BEFORE: [u8; LENT] = {
    let mut bytes = [0; LENT];
    let mut i = 0;
    while i < LENT {
        bytes[i] = 0x80 | (i * 37 % 128) as u8;
        i += 1;
    }
    bytes
};

/// The number of the refusal of a short buffer.
const SHORT: u32 = 8;

/// How ours differs from the Rust or from document 01.
#[derive(Debug, Clone, Copy, PartialEq, Eq)]
pub enum Difference {
    RustPanics,
    Refused(Answer),
    Sign,
    Text,
    BytesPastText,
    ExactBuffer,
    ShortBuffer,
}

impl fmt::Display for Difference {
    fn fmt(&self, f: &mut fmt::Formatter) -> fmt::Result {
        match self {
            Difference::RustPanics => write!(f, "the Rust panics"),
            Difference::Refused(Answer { number, place, .. }) => {
                write!(f, "ours refuses {number} at {place}")
            }
            Difference::Sign => write!(f, "ours has a \"-\" too many or too few"),
            Difference::Text => write!(f, "another text"),
            Difference::BytesPastText => write!(f, "ours changed bytes past the text"),
            Difference::ExactBuffer => write!(f, "ours differs in a buffer of the text's length"),
            Difference::ShortBuffer => write!(f, "ours differs in a buffer one byte short"),
        }
    }
}

/// The sign and the Rust's text, or none where the Rust panics. It leaves scratch past the text.
pub fn rust_or_panic(case: &Case) -> Option<Vec<u8>> {
    let case = *case;
    catch_unwind(move || {
        let mut lent = [0; LENT];
        let length = rust_write(&case, &mut lent);
        [case.sign().as_bytes(), &lent[..length]].concat()
    })
    .ok()
}

/// The answer of ours in the lists' form.
pub fn our_answer(case: &Case) -> String {
    let mut lent = BEFORE;
    match ours::write(case, &mut lent) {
        Answer { number: 0, place: 0, value } => {
            format!("{value} {}", String::from_utf8_lossy(&lent[..value]))
        }
        Answer { number, place, value: 0 } if lent == BEFORE => {
            format!("refused {number} at {place}")
        }
        answer => format!("neither a length nor a refusal that leaves every byte: {answer:?}"),
    }
}

/// Whether the bytes are `text` and then what they were.
fn holds(lent: &[u8; LENT], text: &[u8]) -> bool {
    lent[..text.len()] == *text && lent[text.len()..] == BEFORE[text.len()..]
}

/// Lets ours write with 4,096 bytes, with the text's length and with one byte less; the sign is one of
/// the text's bytes. Answers the text's length.
pub fn check(case: &Case) -> Result<usize, Difference> {
    let text = rust_or_panic(case).ok_or(Difference::RustPanics)?;
    let length = text.len();

    let mut lent = BEFORE;
    let answer = ours::write(case, &mut lent);
    if answer.number != 0 {
        return Err(Difference::Refused(answer));
    }
    if lent.starts_with(b"-") != case.is_negative() {
        return Err(Difference::Sign);
    }
    if answer != ours::length(length) || lent[..length] != *text {
        return Err(Difference::Text);
    }
    if !holds(&lent, &text) {
        return Err(Difference::BytesPastText);
    }

    let mut lent = BEFORE;
    let answer = ours::write(case, &mut lent[..length]);
    if answer != ours::length(length) || !holds(&lent, &text) {
        return Err(Difference::ExactBuffer);
    }

    let mut lent = BEFORE;
    let answer = ours::write(case, &mut lent[..length - 1]);
    if answer != ours::refused(SHORT) || !holds(&lent, &[]) {
        return Err(Difference::ShortBuffer);
    }
    Ok(length)
}
