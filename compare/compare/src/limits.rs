//! Digit limits outside demand 2's domain: what the Rust does there, by cause.

use std::collections::BTreeMap;
use std::fmt;

use cases::generate::{float_at, signed, with_limit};
use cases::layout::{
    bits_of_digit, carries, length_of_d, parts, rust_drops_bits, significant_bits,
};
use cases::random::Random;
use cases::Case;

use crate::check::{our_answer, rust_or_panic};

/// Why the Rust may differ. Document 01: "The Rust keeps k·b bits unaligned, and subtracts
/// leading zeros the wrong way on a carry".
#[derive(Debug, Clone, Copy, PartialEq, Eq, PartialOrd, Ord)]
enum Cause {
    /// Rounding carries into a bit above the highest: the Rust's s falls where it should rise.
    Carry,
    /// The bits dropped are no whole digits: the digits kept stand at other bits than before.
    PartOfADigit,
    /// The bits dropped are whole digits, but the first digit had fewer bits than b: one digit
    /// too many is kept.
    WholeDigits,
    /// The Rust drops nothing, though D has more digits than the limit.
    NothingDropped,
    /// D has no more digits than the limit, and the Rust drops nothing.
    NoEffect,
}

impl fmt::Display for Cause {
    fn fmt(&self, f: &mut fmt::Formatter) -> fmt::Result {
        f.pad(match self {
            Cause::Carry => "a bit carries",
            Cause::PartOfADigit => "part of a digit dropped",
            Cause::WholeDigits => "whole digits dropped",
            Cause::NothingDropped => "nothing dropped, D too long",
            Cause::NoEffect => "the limit changes nothing",
        })
    }
}

fn cause_of(case: &Case) -> Cause {
    let b = bits_of_digit(case) as u32;
    if carries(case) {
        Cause::Carry
    } else if !rust_drops_bits(case) {
        let too_long = length_of_d(parts(case), b as i32) > case.most as i32;
        if too_long {
            Cause::NothingDropped
        } else {
            Cause::NoEffect
        }
    } else if !(significant_bits(parts(case).0) - case.most * b).is_multiple_of(b) {
        Cause::PartOfADigit
    } else {
        Cause::WholeDigits
    }
}

/// Cases are told apart by radix, cause and round mode.
type Kind = (u32, Cause, bool);

fn kind_of(case: &Case) -> Kind {
    (case.radix, cause_of(case), case.truncate)
}

/// Whether a case with a limit stands in demand 2's domain.
fn in_domain(case: &Case) -> bool {
    case.radix == 2 && !carries(case)
}

/// Counts of one kind, and the smallest differing input found.
#[derive(Default)]
struct Found {
    cases: u64,
    differing: u64,
    panics: u64,
    smallest: Option<Case>,
}

fn rust_answer(case: &Case) -> String {
    match rust_or_panic(case) {
        Some(text) => format!("{} {}", text.len(), String::from_utf8_lossy(&text)),
        None => "panics".to_string(),
    }
}

/// Keeps a differing case where none of its kind was found before.
fn try_small(found: &mut BTreeMap<Kind, Found>, case: &Case) {
    if in_domain(case) {
        return;
    }
    let entry = found.entry(kind_of(case)).or_default();
    if entry.smallest.is_none() && rust_answer(case) != our_answer(case) {
        entry.smallest = Some(*case);
    }
}

/// Counts a case under its kind.
fn count_random(found: &mut BTreeMap<Kind, Found>, case: &Case) {
    if in_domain(case) {
        return;
    }
    let rust = rust_answer(case);
    let entry = found.entry(kind_of(case)).or_default();
    entry.cases += 1;
    entry.differing += (rust != our_answer(case)) as u64;
    entry.panics += (rust == "panics") as u64;
}

/// Floats from the simplest on: few bits near 1, then the least denormals.
fn simple_floats() -> Vec<(u32, u64)> {
    let mut floats = Vec::new();
    for bits in 0..7 {
        for below in 0..1u64 << bits {
            // Only odd numbers, so that each value comes once.
            if bits == 0 || below % 2 == 1 {
                let fraction = if bits == 0 { 0 } else { below << (64 - bits) };
                for s in [0, 1, -1, 2, -2, 3, -3, 4, -4, 5, -5] {
                    floats.extend([64, 32].map(|width| (width, float_at(width, s, fraction))));
                }
            }
        }
    }
    for m in 1..1024 {
        floats.extend([(64, m), (32, m)]);
    }
    floats
}

/// Tries simple inputs in order, so that the first difference of a kind is a small one.
fn search_small(found: &mut BTreeMap<Kind, Found>) {
    for (width, bits) in simple_floats() {
        for radix in [2, 4, 8, 16, 32] {
            for most in 1..20 {
                for truncate in [false, true] {
                    let base = radix;
                    let case = Case {
                        width,
                        bits,
                        radix,
                        base,
                        exponent_radix: radix,
                        most,
                        truncate,
                        ..Case::DEFAULT
                    };
                    try_small(found, &case);
                }
            }
        }
    }
}

/// Searches small inputs, counts `count` random ones, and prints a line or more for each kind.
pub fn limits(seed: u64, count: u64) {
    let mut found = BTreeMap::new();
    search_small(&mut found);
    let (mut random, mut signs) = (Random::new(seed), Random::new(!seed));
    let mut negative = 0;
    for _ in 0..count {
        let case = signed(&mut signs, with_limit(&mut random));
        negative += case.is_negative() as u64;
        count_random(&mut found, &case);
        try_small(&mut found, &case);
    }
    println!(
        "digit limits outside the domain, seed {seed}, {count} random cases drawn, {negative} of them \
         negative"
    );
    println!("radix, round mode, cause: random cases, differing, the Rust panics; a small input");
    for ((radix, cause, truncate), entry) in &found {
        let round = if *truncate { "Truncate" } else { "Round" };
        let Found { cases, differing, panics, smallest } = entry;
        println!("{radix:2} {round:8} {cause:27}: {cases:7} {differing:7} {panics:3}");
        if let Some(case) = smallest {
            println!("   {case}\n     ours {}\n     Rust {}", our_answer(case), rust_answer(case));
        }
    }
}
