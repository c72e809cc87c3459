//! Fixed lists of the Rust's answers: replays them, makes them, counts what they hold.

use std::collections::BTreeMap;
use std::{env, fs, process::exit};

use cases::generate::{with_limit_in_domain, without_limit, LONGEST, PAIRS};
use cases::layout::{carries, layout_of, rust_drops_bits, Layout};
use cases::list::{read_list, replay};
use cases::random::Random;
use cases::{rust_text, Case};

const USAGE: &str = "lists replay FILE...
lists make SEED WITHOUT-LIMIT WITH-LIMIT LONGEST
lists count FILE...";

fn main() {
    let words: Vec<String> = env::args().skip(1).collect();
    let words: Vec<&str> = words.iter().map(String::as_str).collect();
    match words[..] {
        ["replay", ref files @ ..] if !files.is_empty() => {
            exit(!replay(files, "Rust", answer) as i32)
        }
        ["make", seed, without, with, longest] => {
            make(number(seed), number(without), number(with), number(longest) as usize)
        }
        ["count", ref files @ ..] if !files.is_empty() => files.iter().for_each(|file| count(file)),
        _ => {
            eprintln!("{USAGE}");
            exit(2)
        }
    }
}

fn number(word: &str) -> u64 {
    word.parse().unwrap_or_else(|_| {
        eprintln!("not a number: {word}\n{USAGE}");
        exit(2)
    })
}

/// The answer in the lists' form: length, space, text.
fn answer(case: &Case) -> String {
    let text = rust_text(case);
    format!("{} {text}", text.len())
}

/// Prints a case as a line of a list.
fn print_line(case: &Case) {
    println!("{case}\t{}", answer(case));
}

/// Prints `count` lines of cases so drawn: all texts up to `longest` and one in ten above it.
fn print_lines(random: &mut Random, count: u64, draw: fn(&mut Random) -> Case, longest: usize) {
    let mut printed = 0;
    while printed < count {
        let case = draw(random);
        if rust_text(&case).len() <= longest || random.one_in(10) {
            print_line(&case);
            printed += 1;
        }
    }
}

/// Writes a list to standard output.
fn make(seed: u64, without: u64, with: u64, longest: usize) {
    println!(
        "# lists make {seed} {without} {with} {longest}: what the Rust writes (rust-lexical \
         afb2efa651, release build, features power-of-two and format, 4,096 bytes lent, given \
         files unchanged with stand-ins for the missing ones); first the longest text, then \
         {without} lines without a digit limit, then {with} of 2/2 with one where rounding \
         carries no bit"
    );
    let mut random = Random::new(seed);
    print_line(&LONGEST);
    print_lines(&mut random, without, without_limit, longest);
    print_lines(&mut random, with, with_limit_in_domain, longest);
}

/// The names under which a case is counted.
fn names(case: &Case) -> Vec<String> {
    let mut names = vec![
        format!("width {}", case.width),
        format!("pair {}/{}", case.radix, case.base),
        format!("exponent radix {}", case.exponent_radix),
        format!("layout {}", layout_of(case)),
    ];
    let marks = [
        (case.required_exponent_notation, "required_exponent_notation"),
        (case.no_exponent_notation, "no_exponent_notation"),
        (case.required_exponent_sign, "required_exponent_sign"),
        (case.no_exponent_without_fraction, "no_exponent_without_fraction"),
        (case.trim, "trim"),
        (case.truncate, "round mode Truncate"),
        (case.least != 0, "least digits"),
        (case.most != 0, "most digits"),
        (rust_drops_bits(case), "most digits, bits dropped"),
        (carries(case), "most digits, a bit carries"),
        (case.low != 0, "low break"),
        (case.high != 0, "high break"),
        (case.point != b'.', "point other than \".\""),
        (case.mark != b'^', "mark other than \"^\""),
        (case.magnitude() == 0, "zero"),
        (case.is_negative(), "sign bit set"),
    ];
    names.extend(marks.iter().filter(|(holds, _)| *holds).map(|(_, name)| name.to_string()));
    names
}

/// Counts what the lines of a list hold.
fn count(file: &str) {
    let list = read_list(file);
    let mut counts: BTreeMap<String, usize> = BTreeMap::new();
    let mut of_pairs: BTreeMap<(u32, u32, Layout), usize> = BTreeMap::new();
    for (radix, base) in PAIRS {
        of_pairs.extend(Layout::ALL.map(|layout| ((radix, base, layout), 0)));
    }
    for (case, _) in &list {
        for name in names(case) {
            *counts.entry(name).or_default() += 1;
        }
        *of_pairs.entry((case.radix, case.base, layout_of(case))).or_default() += 1;
    }
    println!("{file}: {} lines, {} bytes", list.len(), fs::metadata(file).unwrap().len());
    for (name, count) in counts {
        println!("{count:6} {name}");
    }
    let ((radix, base, layout), least) = of_pairs.iter().min_by_key(|(_, count)| **count).unwrap();
    println!("{least:6} at least of each pair in each layout, {radix}/{base} {layout} the fewest");
}
