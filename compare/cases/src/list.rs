//! Fixed lists: each line an input, a tab, and the answer. Lines that begin with "#" are comments.

use std::fs;

use crate::case::Case;

/// The cases and answers of a list.
pub fn read_list(file: &str) -> Vec<(Case, String)> {
    let text = fs::read_to_string(file).unwrap_or_else(|error| panic!("{file}: {error}"));
    let lines = text.lines().filter(|line| !line.starts_with('#'));
    lines.map(|line| read_line(line).unwrap_or_else(|error| panic!("{file}: {error}"))).collect()
}

fn read_line(line: &str) -> Result<(Case, String), String> {
    let (input, answer) = line.split_once('\t').ok_or(format!("no tab: {line}"))?;
    let case: Case = input.parse()?;
    if case.to_string() != input {
        return Err(format!("printed otherwise than read: {input}"));
    }
    Ok((case, answer.to_string()))
}

/// Replays lists: prints the first few lines that `answer` gives otherwise and how many agree.
/// Answers whether all do.
pub fn replay(files: &[&str], side: &str, answer: fn(&Case) -> String) -> bool {
    let mut all_agree = true;
    for file in files {
        let list = read_list(file);
        let differing: Vec<_> =
            list.iter().filter(|(case, wanted)| answer(case) != *wanted).collect();
        for (case, wanted) in differing.iter().take(5) {
            println!("{case}\n  list {wanted}\n  {side} {}", answer(case));
        }
        println!("{file}: {} lines, {} agree", list.len(), list.len() - differing.len());
        all_agree &= differing.is_empty();
    }
    all_agree
}
