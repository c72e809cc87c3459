//! What a call answers where it refuses.

use core::error::Error;
use core::fmt;

/// A refusal: its number from 1 to 17, and the place that it speaks of.
#[derive(Debug, Clone, Copy, PartialEq, Eq, Hash)]
pub struct Refusal {
    /// `docs/FORMAT.md`, section 9, has the list.
    pub number: u32,
    /// A byte's place in the text or sheet, or a row's index in the table, counted from 0.
    pub place: usize,
}

/// What a station was at.
#[derive(Debug, Clone, Copy, PartialEq, Eq, Hash)]
pub enum Step {
    /// Reading the text handed to it.
    Reading,
    /// Writing the float read, in its own format.
    Writing,
}

/// A refusal of a rewriting or of a chain.
#[derive(Debug, Clone, Copy, PartialEq, Eq, Hash)]
pub struct StationRefusal {
    /// The station, counted from 0.
    pub station: usize,
    /// What it was at.
    pub step: Step,
    /// Number and place; the place belongs to the text that this station reads.
    pub refusal: Refusal,
}

impl Refusal {
    /// What the number stands for.
    pub fn meaning(self) -> &'static str {
        match self.number {
            1 => "radix and base are no pair",
            2 => "radix unknown",
            3 => "point or mark not allowed",
            4 => "exponent both required and forbidden",
            5 => "digit counts out of range",
            6 => "exponent break out of range",
            7 => "float not finite",
            8 => "buffer too short",
            9 => "not the text of a number",
            10 => "exponent above 32,767",
            11 => "value at least half a step above the largest float",
            12 => "text above 4,096 bytes",
            13 => "size of the table wrong",
            14 => "window ends before it starts",
            15 => "lines of the sheet wrong",
            16 => "width not 1 to 4",
            17 => "size of the packed table wrong",
            _ => "unknown",
        }
    }
}

impl fmt::Display for Refusal {
    fn fmt(&self, f: &mut fmt::Formatter) -> fmt::Result {
        write!(f, "refused {} at {}: {}", self.number, self.place, self.meaning())
    }
}

impl fmt::Display for StationRefusal {
    fn fmt(&self, f: &mut fmt::Formatter) -> fmt::Result {
        let step = match self.step {
            Step::Reading => "reading",
            Step::Writing => "writing",
        };
        write!(f, "station {}, {step}: {}", self.station, self.refusal)
    }
}

impl Error for Refusal {}

impl Error for StationRefusal {}
