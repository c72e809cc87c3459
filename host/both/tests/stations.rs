//! Rewriting and chains over both. A text of the lists has to come back to the same bytes through any
//! formats without a digit limit, since each station hands on the same float.

use both::list::{self, Writing};
use both::{expect, expect_text, over_both, Calls, Rewritten};
use hornbillrug::{Format, Record, Refusal, StationRefusal, Step, LONGEST_TEXT};

over_both!(
    rewritten_in_place,
    chains_come_back,
    chains_hand_on_the_float,
    damaged_texts,
    refusals_by_station,
    records_say_the_same,
    records_cut_to_fit,
    record_bytes,
    records_cut_off,
);

fn refused(station: usize, step: Step, number: u32, place: usize) -> StationRefusal {
    StationRefusal { station, step, refusal: Refusal { number, place } }
}

/// Stations of the week and others.
fn formats() -> Vec<Format> {
    let of = |radix, base, exponent_radix, mark| Format::new(radix, base, exponent_radix, mark);
    vec![
        Format { required_exponent_notation: true, ..of(16, 2, 10, b'p') },
        Format { required_exponent_notation: true, exponent_width: 3, ..of(32, 32, 10, b'p') },
        Format { no_exponent_notation: true, ..of(2, 2, 10, b'p') },
        Format { trim_floats: true, exponent_width: 4, ..of(8, 2, 2, b'^') },
        Format { min_significant_digits: 1200, decimal_point: b',', ..of(4, 4, 32, b'~') },
        Format {
            negative_exponent_break: -2000,
            positive_exponent_break: 2000,
            ..of(16, 4, 8, b'G')
        },
    ]
}

fn rewrite<T: Calls>(w: u32, t: &[u8], from: &Format, to: &Format, b: &mut [u8]) -> Rewritten {
    match w {
        32 => T::rewrite_f32(t, from, to, b),
        _ => T::rewrite_f64(t, from, to, b),
    }
}

fn chain<T: Calls>(
    width: u32,
    t: &[u8],
    from: &Format,
    first: &Format,
    further: &[Record],
    b: &mut [u8],
) -> Rewritten {
    match width {
        32 => T::chain_f32(t, from, first, further, b),
        _ => T::chain_f64(t, from, first, further, b),
    }
}

/// The lines of lists that have a text and no digit limit.
fn exact_lines(files: [&str; 4]) -> Vec<(Writing, Vec<u8>)> {
    let lines = files.into_iter().flat_map(list::writing);
    let exact = lines.filter(|line| line.format.max_significant_digits == 0);
    let exact: Vec<_> =
        exact.filter_map(|line| line.answer.clone().ok().map(|text| (line, text))).collect();
    assert!(exact.len() > 1500);
    exact
}

fn rewritten_in_place<T: Calls>() {
    let files = ["write.txt", "widths.txt", "signs_write.txt", "write_edges.txt"];
    for (line, text) in exact_lines(files) {
        let short = refused(0, Step::Writing, 8, 0);
        expect_text(&text, 30, short, |b| {
            rewrite::<T>(line.width, &text, &line.format, &line.format, b)
        });
    }
}

fn chains_come_back<T: Calls>() {
    let formats = formats();
    let files = ["rust.txt", "widths.txt", "signs_write.txt", "write_edges.txt"];
    for (line, text) in exact_lines(files) {
        for first in &formats {
            let others = formats.iter().map(Format::record);
            let further: Vec<_> = others.chain([line.format.record()]).collect();
            let short = refused(further.len(), Step::Writing, 8, 0);
            expect_text(&text, 30, short, |b| {
                chain::<T>(line.width, &text, &line.format, first, &further, b)
            });
        }
    }
}

/// The texts of the reading lists too, many of them long or not as the writer would write them.
fn chains_hand_on_the_float<T: Calls>() {
    let formats = formats();
    for case in list::READ.into_iter().flat_map(list::reading) {
        let Ok(bits) = case.answer else { continue };
        for first in &formats {
            let last = formats[(bits % 6) as usize];
            let mut b = [0; LONGEST_TEXT];
            let further = [formats[1].record(), last.record()];
            let length = chain::<T>(case.width, &case.text, &case.format, first, &further, &mut b)
                .expect("no station refuses");
            let read = match case.width {
                32 => T::read_f32(&b[..length], &last).map(|x| x.to_bits().into()),
                _ => T::read_f64(&b[..length], &last).map(f64::to_bits),
            };
            assert_eq!(read, Ok(bits));
        }
    }
}

fn damaged_texts<T: Calls>() {
    let formats = formats();
    let mut count = 0;
    for case in list::READ.into_iter().flat_map(list::reading) {
        let Err(Refusal { number, place }) = case.answer else { continue };
        count += 1;
        let wanted = refused(0, Step::Reading, number, place);
        expect(100, Err(wanted), |b| {
            rewrite::<T>(case.width, &case.text, &case.format, &formats[0], b)
        });
        let further = [formats[1].record(), formats[2].record()];
        expect(100, Err(wanted), |b| {
            chain::<T>(case.width, &case.text, &case.format, &formats[0], &further, b)
        });
    }
    assert!(count > 500, "damaged texts: {count}");
}

/// A format for each of the writer's refusals of a format.
fn bad_formats() -> [(u32, Format); 8] {
    let good = Format::new(16, 2, 10, b'p');
    [
        (1, Format { exponent_base: 8, ..good }),
        (2, Format { exponent_radix: 7, ..good }),
        (3, Format { exponent: b'F', ..good }),
        (4, Format { required_exponent_notation: true, no_exponent_notation: true, ..good }),
        (5, Format { min_significant_digits: 1201, ..good }),
        (6, Format { negative_exponent_break: 1, ..good }),
        (16, Format { exponent_width: 0, ..good }),
        (16, Format { exponent_width: 5, ..good }),
    ]
}

fn refusals_by_station<T: Calls>() {
    let good = formats();
    for (number, bad) in bad_formats() {
        let at = |station| refused(station, Step::Writing, number, 0);
        expect(90, Err(at(0)), |b| T::rewrite_f64(b"1.8p0", &good[0], &bad, b));
        expect(90, Err(at(0)), |b| T::chain_f64(b"1.8p0", &good[0], &bad, &[], b));
        let (one, two) = ([bad.record()], [good[1].record(), bad.record(), good[2].record()]);
        expect(90, Err(at(1)), |b| T::chain_f64(b"1.8p0", &good[0], &good[1], &one, b));
        expect(90, Err(at(2)), |b| T::chain_f32(b"1.8p0", &good[0], &good[1], &two, b));
        // a reader looks at 1, 2 and 3 only
        let reads = T::rewrite_f32(b"1.8", &bad, &good[0], &mut [0; 90]);
        match number {
            1..=3 => assert_eq!(reads, Err(refused(0, Step::Reading, number, 0))),
            _ => assert_eq!(reads, Ok(5)),
        }
        // 16 stands behind the others
        let narrow = Format { exponent_width: 0, ..bad };
        expect(90, Err(at(0)), |b| T::rewrite_f64(b"1.8p0", &good[0], &narrow, b));
    }
    // a digit limit can bring 2^1024 about, which the next station does not read
    let limit = Format { max_significant_digits: 1, ..Format::new(16, 2, 10, b'p') };
    let largest = b"1FFFFFFFFFFFFFp971";
    let next = [good[0].record()];
    expect(90, Err(refused(1, Step::Reading, 11, 0)), |b| {
        T::chain_f64(largest, &good[0], &limit, &next, b)
    });
}

/// A record of a format that fits it stands for that format: the chain writes what the writer does.
fn records_say_the_same<T: Calls>() {
    let files = ["limit_ref.txt", "write.txt", "widths.txt", "signs_write.txt", "write_edges.txt"];
    for line in files.into_iter().flat_map(list::writing) {
        let Ok(text) = &line.answer else { continue };
        let exact = Format { no_exponent_notation: true, ..Format::new(2, 2, 10, b'^') };
        let mut first = [0; LONGEST_TEXT];
        let length = match line.width {
            32 => T::write_f32(f32::from_bits(line.bits as u32), &exact, &mut first),
            _ => T::write_f64(f64::from_bits(line.bits), &exact, &mut first),
        }
        .expect("a finite float");
        let further = [line.format.record()];
        expect(text.len() + 3, Ok(text), |b| {
            chain::<T>(line.width, &first[..length], &exact, &exact, &further, b)
        });
    }
}

/// Where a number does not fit a record's bytes, the format is refused, and its record too.
fn records_cut_to_fit<T: Calls>() {
    let good = Format::new(16, 2, 10, b'p');
    let wide = [
        (1, Format { mantissa_radix: 256 + 16, ..good }),
        (1, Format { exponent_base: 65536 + 2, ..good }),
        (2, Format { exponent_radix: u32::MAX, ..good }),
        (5, Format { max_significant_digits: 65536 + 3, ..good }),
        (5, Format { min_significant_digits: 1 << 31, ..good }),
        (6, Format { positive_exponent_break: 65536 + 9, ..good }),
        (6, Format { positive_exponent_break: i32::MIN, ..good }),
        (6, Format { negative_exponent_break: -65536 - 5, ..good }),
        (6, Format { negative_exponent_break: i32::MAX, ..good }),
        (16, Format { exponent_width: 256 + 1, ..good }),
        (16, Format { exponent_width: u32::MAX, ..good }),
    ];
    for (number, format) in wide {
        expect(90, Err(Refusal { number, place: 0 }), |b| T::write_f64(1.5, &format, b));
        let further = [T::record(&format)];
        expect(90, Err(refused(1, Step::Writing, number, 0)), |b| {
            T::chain_f64(b"1.8", &good, &good, &further, b)
        });
        assert_eq!(T::record(&format), format.record());
    }
    for line in ["write.txt", "widths.txt"].into_iter().flat_map(list::writing) {
        assert_eq!(T::record(&line.format), line.format.record());
    }
}

/// Each field in its place, by docs/FORMAT.md, section 6.3.
fn record_bytes<T: Calls>() {
    let format = Format {
        required_exponent_notation: true,
        required_exponent_sign: true,
        trim_floats: true,
        max_significant_digits: 300,
        min_significant_digits: 5,
        positive_exponent_break: 1000,
        negative_exponent_break: -6,
        exponent_width: 3,
        ..Format::new(16, 2, 10, b'p')
    };
    let flags = [1, 0, 1, 0, 1, 0];
    let counts_and_breaks = [44, 1, 5, 0, 232, 3, 250, 255];
    let bytes = [&[16, 2, 10][..], &flags, &counts_and_breaks, &[3, b'.', b'p']].concat();
    assert_eq!(T::record(&format)[..], bytes);
}

/// Missing bytes count as 0: no pair, an unknown radix, or no mark.
fn records_cut_off<T: Calls>() {
    let good = Format::new(16, 2, 10, b'p');
    let record = T::record(&good);
    for length in 1..record.len() {
        let number = length.min(3) as u32;
        expect(90, Err(refused(1, Step::Writing, number, 0)), |b| {
            T::chain_bytes(b"1.8", &good, &good, &record[..length], b)
        });
    }
    expect(90, Ok(b"1.8"), |b| T::chain_bytes(b"1.8", &good, &good, &record, b));
    expect(90, Ok(b"1.8"), |b| T::chain_bytes(b"1.8", &good, &good, &[], b));
    // 19 bytes, as of a station that knows no width: point and mark stand one byte too early
    let before = [&record[..17], &record[18..]].concat();
    expect(90, Err(refused(1, Step::Writing, 3, 0)), |b| {
        T::chain_bytes(b"1.8", &good, &good, &before, b)
    });
}
