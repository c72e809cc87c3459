//! The package lexical-write-integer: `algorithm` and `table` are stand-ins, the rest is given.

include!(concat!(env!("OUT_DIR"), "/given.rs"));

pub mod algorithm;
pub mod table;
