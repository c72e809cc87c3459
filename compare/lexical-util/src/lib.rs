//! The package lexical-util: num.rs is given, every other module is a stand-in.

include!(concat!(env!("OUT_DIR"), "/given.rs"));

pub mod algorithm;
pub mod constants;
pub mod digit;
pub mod error;
pub mod format;
pub mod options;
pub mod unreached;

// The given files find these under their own names.
pub use error::result;
pub use unreached::{ascii, assert, div128, step};
