//! A table of two windows through the week: 16/2 on Tuesday, 32/32 on Wednesday, 2/2 on Thursday, and
//! back into a table on Friday, which goes through the archive. Then one number along the same way, as a
//! chain.

use std::error::Error;
use std::str;

use hornbillrug::{chain_f64, pack, read_f64, sheet_to_table, table_to_sheet, unpack};
use hornbillrug::{Format, LONGEST_SHEET, LONGEST_TABLE, LONGEST_TEXT};

fn format(radix: u32, base: u32) -> Format {
    Format { required_exponent_notation: true, ..Format::new(radix, base, 10, b'p') }
}

fn main() -> Result<(), Box<dyn Error>> {
    // Monday: a count, a length, the starts and the ends. The second window lies before second zero
    // and ends at minus zero, which comes back as that, and not as zero.
    let mut monday = Vec::new();
    monday.extend(2u32.to_le_bytes());
    monday.extend(40u32.to_le_bytes());
    monday.extend([1.0, -1.5].map(f64::to_le_bytes).as_flattened());
    monday.extend([1.5, -0.0].map(f64::to_le_bytes).as_flattened());

    let days = [format(16, 2), format(32, 32), format(2, 2)];
    let mut table = monday.clone();
    let mut sheet = vec![0; LONGEST_SHEET];
    for day in &days {
        let length = table_to_sheet(&table, day, &mut sheet)?;
        print!("{}", str::from_utf8(&sheet[..length])?);
        sheet_to_table(&sheet[..length], day, &mut table)?;
    }
    // packed for the archive, and unpacked again
    let mut packed = [0; LONGEST_TABLE];
    let length = pack(&table, &mut packed)?;
    unpack(&packed[..length], &mut table)?;
    println!("{}", if table == monday { "the same table" } else { "another table" });

    let further = [days[1].record(), days[2].record()];
    let mut buffer = [0; LONGEST_TEXT];
    let length = chain_f64(b"-1.8p0", &days[0], &days[0], &further, &mut buffer)?;
    let text = &buffer[..length];
    println!("{} is {}", str::from_utf8(text)?, read_f64(text, &days[2])?);
    Ok(())
}
