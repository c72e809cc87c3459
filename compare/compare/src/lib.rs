//! Our compiled writer, for the comparison and the benchmark.

pub mod ours;
