//! The floats that are written and read.

use cases::generate::float_at;
use cases::random::Random;

const FLOATS: usize = 2048;

/// The sets of floats by name.
pub fn sets() -> [(&'static str, Vec<f64>); 3] {
    let mut random = Random::new(1);
    let products = (1..=FLOATS).map(|i| i as f64 * 1.37).collect();
    let near_one = (0..FLOATS)
        .map(|_| f64::from_bits(float_at(64, random.between(-40, 40), random.bits())))
        .collect();
    let denormal = (0..FLOATS).map(|_| f64::from_bits(random.bits() >> 12)).collect();
    [("i * 1.37", products), ("s from -40 to 40", near_one), ("denormal", denormal)]
}
