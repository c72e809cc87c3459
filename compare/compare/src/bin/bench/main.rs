//! Times our calls beside the Rust original, the C library and plain loops, and prints
//! docs/BENCHMARKS.md. `../benchmarks.sh` runs it.

mod archive;
mod c_library;
mod floats;
mod long;
mod sheet;
mod short;
mod timing;

use std::fs;

use timing::{ROUND, ROUNDS};

/// The processor's name and how many of them there are.
fn machine() -> String {
    let text = fs::read_to_string("/proc/cpuinfo").unwrap_or_default();
    let names = text.lines().filter_map(|line| line.strip_prefix("model name"));
    let names: Vec<&str> = names.map(|name| name.trim_start_matches([' ', '\t', ':'])).collect();
    format!("{} x {}", names.len(), names.first().unwrap_or(&"unknown processor"))
}

fn main() {
    println!("# Benchmarks");
    println!();
    println!(
        "Made by `compare/benchmarks.sh`, which writes this file; nothing in it was typed in."
    );
    println!();
    println!(
        "Machine: {}, {} {}. Release builds, all in one process. A figure is the median of {ROUNDS} \
         rounds of at least {} ms, both sides in turn, and the ratio the median of the rounds' ratios: \
         below 1, ours is faster. Nanoseconds differ from machine to machine, and \
         from hour to hour on one that others use too; ratios less so.",
        machine(),
        std::env::consts::OS,
        std::env::consts::ARCH,
        ROUND.as_millis(),
    );
    println!();
    println!("## A float written");
    println!();
    println!(
        "Wanted: half the Rust's time in 16/2, and no more than its time in any format. Decision 59 of \
         [DECISIONS.md](DECISIONS.md) says where the time goes."
    );
    println!();
    short::writing();
    println!();
    println!("## A float's text read");
    println!();
    println!("Wanted: a fifth of `strtod`'s time. Decision 102 says where the time goes.");
    println!();
    short::reading();
    println!();
    println!("## Long texts read");
    println!();
    println!("Wanted: at most 2 ns a byte, and ten times the text in at most 11 times the time.");
    println!();
    long::reading();
    println!();
    println!("## A sheet of 400 windows");
    println!();
    sheet::there_and_back();
    println!();
    println!("## A table packed");
    println!();
    println!("Wanted: ten times the windows in at most 11 times the time.");
    println!();
    archive::there_and_back();
}
