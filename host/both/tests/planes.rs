//! Packed tables over both: the fixed list, one written out, random ones of every size, short inputs,
//! wrong headers, and what is refused first.
//!
//! The answers to random tables are made here, byte for byte by index, and by no call.

use both::list::{self, Planes};
use both::{expect, expect_text, over_both, Calls, Written};
use hornbillrug::{Refusal, LONGEST_TABLE, MOST_WINDOWS};

const SHORT: Refusal = refusal(8);
/// What a wrong header is to packing, and to unpacking.
const NO_TABLE: Refusal = refusal(13);
const NO_PACKED: Refusal = refusal(17);

over_both!(
    fixed_list,
    written_out,
    every_table,
    every_packed_table,
    short_inputs,
    wrong_headers,
    wrong_bits,
    wrong_lengths,
);

const fn refusal(number: u32) -> Refusal {
    Refusal { number, place: 0 }
}

fn header(count: u32, length: u32) -> Vec<u8> {
    [count, length].map(u32::to_le_bytes).concat()
}

fn size(n: usize) -> usize {
    8 + 16 * n
}

/// Where byte j of float i stands in a column of n, as floats and as planes.
fn places(n: usize) -> impl Iterator<Item = (usize, usize)> {
    (0..n).flat_map(move |i| (0..8).map(move |j| (8 * i + j, n * j + i)))
}

fn packed(table: &[u8], n: usize) -> Vec<u8> {
    let mut bytes = table.to_vec();
    for column in [8, 8 + 8 * n] {
        for (float, plane) in places(n) {
            bytes[column + plane] = table[column + float];
        }
    }
    bytes
}

fn unpacked(packed: &[u8], n: usize) -> Vec<u8> {
    let mut bytes = packed.to_vec();
    for column in [8, 8 + 8 * n] {
        for (float, plane) in places(n) {
            bytes[column + float] = packed[column + plane];
        }
    }
    bytes
}

/// Any bits, by splitmix64: the same in each run.
struct Random(u64);

impl Random {
    fn bits(&mut self) -> u64 {
        self.0 = self.0.wrapping_add(0x9e37_79b9_7f4a_7c15);
        let mut z = self.0;
        z = (z ^ (z >> 30)).wrapping_mul(0xbf58_476d_1ce4_e5b9);
        z = (z ^ (z >> 27)).wrapping_mul(0x94d0_49bb_1331_11eb);
        z ^ (z >> 31)
    }
    /// A float's bits: mostly any, else a zero, the least, an infinity or a signalling NaN, with any sign.
    fn float(&mut self) -> u64 {
        let any = self.bits();
        let sign = any & 1 << 63;
        match self.bits() % 32 {
            0 => sign,
            1 => sign | 1,
            2 => sign | 0x7ff0_0000_0000_0000,
            3 => sign | 0x7ff0_0000_0000_0001,
            _ => any,
        }
    }
    fn floats(&mut self, count: usize) -> Vec<u64> {
        (0..count).map(|_| self.float()).collect()
    }
}

fn table_of(floats: &[u64]) -> Vec<u8> {
    let n = floats.len() / 2;
    let bytes = floats.iter().flat_map(|bits| bits.to_le_bytes());
    header(n as u32, size(n) as u32).into_iter().chain(bytes).collect()
}

fn call<T: Calls>(case: &Planes, b: &mut [u8]) -> Written {
    match case.is_table {
        true => T::pack(&case.input, b),
        false => T::unpack(&case.input, b),
    }
}

fn fixed_list<T: Calls>() {
    let list = list::planes("planes.txt");
    assert!(list.len() > 100);
    for case in list {
        match &case.answer {
            Ok(bytes) => {
                expect(case.room, Ok(bytes), |b| call::<T>(&case, b));
                expect_text(bytes, 50, SHORT, |b| call::<T>(&case, b));
            }
            Err(refusal) => expect(case.room, Err(*refusal), |b| call::<T>(&case, b)),
        }
    }
}

/// Both ways: a table packed, and the packed one unpacked.
fn both_ways<T: Calls>(table: &[u8], packed: &[u8]) {
    expect_text(packed, 77, SHORT, |b| T::pack(table, b));
    expect_text(table, 77, SHORT, |b| T::unpack(packed, b));
}

/// Two starts and two ends of eight letters each.
fn written_out<T: Calls>() {
    let table = [header(2, 40), b"abcdefghijklmnopABCDEFGHIJKLMNOP".to_vec()].concat();
    let packed = [header(2, 40), b"aibjckdlemfngohpAIBJCKDLEMFNGOHP".to_vec()].concat();
    both_ways::<T>(&table, &packed);
}

fn every_table<T: Calls>() {
    let mut random = Random(25);
    let (mut nan, mut infinite, mut early) = (0, 0, 0);
    for n in 0..=MOST_WINDOWS {
        let bits = random.floats(2 * n);
        let floats: Vec<f64> = bits.iter().map(|bits| f64::from_bits(*bits)).collect();
        nan += floats.iter().filter(|x| x.is_nan()).count();
        infinite += floats.iter().filter(|x| x.is_infinite()).count();
        early += (0..n).filter(|i| floats[n + i] < floats[*i]).count();
        let table = table_of(&bits);
        both_ways::<T>(&table, &packed(&table, n));
    }
    // no call looks at a float, so the tables have to hold what another call refuses
    assert!(nan > 1000 && infinite > 1000 && early > 1000, "{nan} {infinite} {early}");
}

/// Any bytes behind a right header are a packed table.
fn every_packed_table<T: Calls>() {
    let mut random = Random(52);
    for n in 0..=MOST_WINDOWS {
        let bytes = table_of(&random.floats(2 * n));
        both_ways::<T>(&unpacked(&bytes, n), &bytes);
    }
}

/// Refused by the number of each way, whether there is room or none.
fn refused<T: Calls>(input: &[u8]) {
    for room in [0, 7, 8, input.len(), LONGEST_TABLE, LONGEST_TABLE + 100] {
        expect(room, Err(NO_TABLE), |b| T::pack(input, b));
        expect(room, Err(NO_PACKED), |b| T::unpack(input, b));
    }
}

/// Every length that could hold no window or one, and more. The planes of one float are its bytes.
fn short_inputs<T: Calls>() {
    let row: Vec<u8> = (1..=24).collect();
    let inputs = [
        (vec![0; 32], None),
        ([header(0, 8), row.clone()].concat(), Some(8)),
        ([header(1, 24), row].concat(), Some(24)),
    ];
    for (input, right) in inputs {
        for length in 0..=input.len() {
            let input = &input[..length];
            match right == Some(length) {
                true => both_ways::<T>(input, input),
                false => refused::<T>(input),
            }
        }
    }
}

/// Too many windows, a length that is not theirs, and counts whose length fits 32 bits only cut off.
fn wrong_headers<T: Calls>() {
    let many = MOST_WINDOWS as u32 + 1;
    let headers = [
        (many, 8 + 16 * many),
        (u32::MAX, u32::MAX - 7),
        (u32::MAX, 24),
        (1 << 28, 8),
        ((1 << 28) + 1, 24),
        ((15 << 28) + 1, 24),
        (1, 23),
        (1, 25),
        (24, 1),
        (0, 0),
        (0, 24),
        (1u32.swap_bytes(), 24u32.swap_bytes()),
    ];
    for (count, length) in headers {
        for windows in [0, 1, 2, many as usize] {
            let mut input = header(count, length);
            input.resize(size(windows), 0);
            refused::<T>(&input);
        }
    }
}

/// A right header with one bit turned.
fn wrong_bits<T: Calls>() {
    for n in [0, 1, 3, MOST_WINDOWS] {
        let table = table_of(&Random(7).floats(2 * n));
        for bit in 0..64 {
            let mut wrong = table.clone();
            wrong[bit / 8] ^= 1 << (bit % 8);
            refused::<T>(&wrong);
        }
    }
}

/// A right header, and bytes lent that are some too few or too many, also where the header says so.
fn wrong_lengths<T: Calls>() {
    for n in [1, 3, MOST_WINDOWS - 1, MOST_WINDOWS] {
        for length in [size(n) - 8, size(n) - 1, size(n) + 1, size(n) + 8] {
            let mut input = table_of(&Random(8).floats(2 * n));
            input.resize(length, 0);
            refused::<T>(&input);
            input[4..8].copy_from_slice(&(length as u32).to_le_bytes());
            refused::<T>(&input);
        }
    }
}
