//! A year of tables for `../year.sh`: writes `tables` and `packed` into the folder named, 52 tables of
//! 400 windows one behind the other, and the same ones packed by our call.
//!
//! No archive of a customer is at hand, so the tables are made up, the same in each run:
//! - The first week begins on Monday, 5 January 2026, and each further one 604,800 seconds later. Times
//!   are seconds since the epoch. Half of them are whole, a quarter end in a half, and a quarter in one
//!   or three quarters.
//! - A window starts anywhere in its week and lasts 5 minutes to 8 hours. A table has its windows by
//!   their starts.
//! - From week to week one window in 40 is dropped, and another comes in its place. One in 8 moves, by
//!   up to 30 whole minutes either way. All others recur at the same time of the week.

use std::path::Path;
use std::{env, fs};

use cases::random::Random;
use hornbillrug::{pack, unpack, MOST_WINDOWS};

const WEEKS: u64 = 52;
/// The first Monday and the length of a week, in seconds.
const MONDAY: u64 = 1_767_571_200;
const WEEK: u64 = 604_800;

/// Start and length in quarters of a second, the start from its week's beginning on.
#[derive(Clone, Copy, PartialEq, Eq, PartialOrd, Ord)]
struct Window {
    start: u64,
    length: u64,
}

/// Any second from `least` on and below `end`, in quarters, with a fraction.
fn time(random: &mut Random, least: u64, end: u64) -> u64 {
    4 * (least + random.below(end - least)) + random.pick(&[0, 0, 0, 0, 2, 2, 1, 3])
}

fn any_window(random: &mut Random) -> Window {
    Window { start: time(random, 0, WEEK), length: time(random, 5 * 60, 8 * 3600) }
}

/// What becomes of a window in the week behind.
fn next(random: &mut Random, window: Window) -> Window {
    if random.one_in(40) {
        return any_window(random);
    }
    if random.one_in(8) {
        let moved = window.start as i64 + 4 * 60 * i64::from(random.between(-30, 30));
        // one that would leave the week stays where it is
        if (0..4 * WEEK as i64).contains(&moved) {
            return Window { start: moved as u64, ..window };
        }
    }
    window
}

fn table_of(week: u64, windows: &[Window]) -> Vec<u8> {
    let seconds = |quarters: u64| (MONDAY + week * WEEK) as f64 + quarters as f64 / 4.0;
    let starts = windows.iter().map(|window| seconds(window.start));
    let ends = windows.iter().map(|window| seconds(window.start + window.length));
    let count = windows.len() as u32;
    let mut table = [count, 8 + 16 * count].map(u32::to_le_bytes).concat();
    table.extend(starts.chain(ends).flat_map(f64::to_le_bytes));
    table
}

fn packed_of(table: &[u8]) -> Vec<u8> {
    let (mut packed, mut back) = (vec![0; table.len()], vec![0; table.len()]);
    assert_eq!(pack(table, &mut packed), Ok(table.len()));
    assert_eq!(unpack(&packed, &mut back), Ok(table.len()));
    assert_eq!(back, table);
    packed
}

fn main() {
    let folder = env::args().nth(1).expect("a folder");
    let mut random = Random::new(52);
    let mut windows: Vec<Window> = (0..MOST_WINDOWS).map(|_| any_window(&mut random)).collect();
    let (mut tables, mut packed) = (Vec::new(), Vec::new());
    for week in 0..WEEKS {
        windows.sort();
        let table = table_of(week, &windows);
        packed.extend(packed_of(&table));
        tables.extend(table);
        windows = windows.iter().map(|&window| next(&mut random, window)).collect();
    }
    for (name, bytes) in [("tables", tables), ("packed", packed)] {
        let path = Path::new(&folder).join(name);
        fs::write(&path, bytes).unwrap_or_else(|error| panic!("{path:?}: {error}"));
    }
}
