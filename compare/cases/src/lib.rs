//! Inputs of the float writer, how they are made, and what the Rust writes for them.

pub mod case;
pub mod generate;
pub mod layout;
pub mod list;
pub mod random;
pub mod rust;

pub use case::Case;
pub use rust::{rust_text, rust_write};
