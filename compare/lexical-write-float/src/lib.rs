//! The package lexical-write-float: every file is given but `formats`, which names each format.

include!(concat!(env!("OUT_DIR"), "/given.rs"));

pub mod formats;
