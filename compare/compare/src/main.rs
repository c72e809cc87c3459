//! Compares our compiled writer with the Rust, both called in this process.

mod check;
mod limits;

use std::collections::BTreeMap;
use std::{env, panic, process::exit};

use cases::generate::{signed, with_limit_in_domain, with_wide_limit, without_limit};
use cases::layout::layout_of;
use cases::list::replay;
use cases::random::Random;
use cases::Case;

use check::{check, our_answer, rust_or_panic};

const USAGE: &str = "compare SEED COUNT
compare --limits SEED COUNT
compare --list FILE...";

/// How many differing inputs are printed.
const SHOWN: u64 = 10;

fn main() {
    // A panic of the Rust is counted, so its message is not wanted.
    let message = panic::take_hook();
    panic::set_hook(Box::new(|_| {}));
    let words: Vec<String> = env::args().skip(1).collect();
    let words: Vec<&str> = words.iter().map(String::as_str).collect();
    let all_agree = match words[..] {
        ["--list", ref files @ ..] if !files.is_empty() => {
            panic::set_hook(message);
            replay(files, "ours", our_answer)
        }
        ["--limits", seed, count] => {
            limits::limits(number(seed), number(count));
            true
        }
        [seed, count] => compare(number(seed), number(count)),
        _ => {
            eprintln!("{USAGE}");
            exit(2)
        }
    };
    exit(!all_agree as i32)
}

fn number(word: &str) -> u64 {
    word.parse().unwrap_or_else(|_| {
        eprintln!("not a number: {word}\n{USAGE}");
        exit(2)
    })
}

/// A case of demand 2's domain, with the name under which its limit is counted.
fn draw(random: &mut Random) -> (&'static str, Case) {
    match random.below(16) {
        0..=1 => ("2/2 with a limit, no carry", with_limit_in_domain(random)),
        2 => ("a limit above every D", with_wide_limit(random)),
        _ => ("no limit", without_limit(random)),
    }
}

fn show(case: &Case, difference: check::Difference) {
    println!("{case}: {difference}\n  ours {}", our_answer(case));
    if let Some(text) = rust_or_panic(case) {
        println!("  Rust {} {}", text.len(), String::from_utf8_lossy(&text));
    }
}

/// The name under which a case's sign is counted, the two zeros apart.
fn sign_of(case: &Case) -> &'static str {
    match (case.is_negative(), case.magnitude()) {
        (true, 0) => "minus zero",
        (true, _) => "\"-\"",
        (false, 0) => "none, zero",
        (false, _) => "none",
    }
}

/// What was compared.
#[derive(Default)]
struct Counts {
    by_name: BTreeMap<String, u64>,
    negative: u64,
    longest: usize,
    differing: u64,
}

impl Counts {
    fn add(&mut self, name: String) {
        *self.by_name.entry(name).or_default() += 1;
    }

    /// Compares one case and counts it.
    fn take(&mut self, limit: &str, case: &Case) {
        self.add(format!("limit: {limit}"));
        self.add(format!("pair: {}/{} at {} bits", case.radix, case.base, case.width));
        self.add(format!("layout: {}", layout_of(case)));
        self.add(format!("sign: {}", sign_of(case)));
        self.negative += case.is_negative() as u64;
        match check(case) {
            Ok(length) => self.longest = self.longest.max(length),
            Err(difference) => {
                self.differing += 1;
                if self.differing <= SHOWN {
                    show(case, difference);
                }
            }
        }
    }
}

/// Compares `count` random cases and prints the counts. Answers whether all agree.
fn compare(seed: u64, count: u64) -> bool {
    let (mut random, mut signs) = (Random::new(seed), Random::new(!seed));
    let mut counts = Counts::default();
    for _ in 0..count {
        let (limit, case) = draw(&mut random);
        counts.take(limit, &signed(&mut signs, case));
    }
    for (name, cases) in &counts.by_name {
        println!("{cases:9} {name}");
    }
    let Counts { negative, longest, differing, .. } = counts;
    println!(
        "seed {seed}: {count} compared, {negative} of them negative, {differing} different, longest text \
         {longest} bytes"
    );
    differing == 0
}
